//! A read-committed consumer: it is shown no payment before its transaction has committed, and none that was aborted.

use crate::clock::{Clock, Fault};
use crate::payment::Entry;
use crate::producer::Last;
use kpart::{Ack, Cluster, CommittedRecord, Error, Pass, Receipt, Refusal};
use std::collections::{BTreeMap, HashMap};
use std::sync::mpsc::Receiver;

pub struct Consumer {
    cluster: Cluster,
    pass: Pass,
    clock: Clock,
    next: u64,
    // Of each producer that is done, the receipt of its last marker, which the consumer's pass has taken over.
    last: Vec<Receipt>,
    /// By account.
    pub balances: BTreeMap<u32, i64>,
    /// How often each payment was shown.
    pub shown: HashMap<u64, u64>,
}

impl Consumer {
    pub fn new(cluster: &Cluster, clock: Clock) -> Result<Consumer, Fault> {
        let (cluster, pass) = (cluster.clone(), cluster.pass()?);
        Ok(Consumer { cluster, pass, clock, next: 0, last: Vec::new(), balances: BTreeMap::new(), shown: HashMap::new() })
    }

    /// Reads from the nodes by turns until so many producers are done, and a node has given all that they did.
    pub fn run(mut self, producers: u64, done: &Receiver<Last>) -> Result<Consumer, Fault> {
        let mut number = 0;
        loop {
            for mut last in done.try_iter() {
                self.pass.take_receipts(&mut last.pass)?;
                self.last.push(last.receipt);
            }
            let all = self.last.len() as u64 == producers;
            if self.read_from(number)? && all {
                return Ok(self);
            }
            self.clock.pause()?;
            number = (number + 1) % self.cluster.nodes();
        }
    }

    /// Takes what this node gives, and says whether it knew of all producers' last markers: not where it is down, or its log ends
    /// before.
    fn read_from(&mut self, number: u8) -> Result<bool, Fault> {
        let records = match self.given(number) {
            Ok(given) => given,
            Err(Error::Refused(Refusal::Down | Refusal::OffsetOutOfRange)) => return Ok(false),
            Err(error) if error.is_memory() => return Ok(false),
            Err(error) => return Err(error.into()),
        };
        for record in &records.0 {
            self.take(record)?;
        }
        Ok(records.1)
    }

    fn given(&mut self, number: u8) -> Result<(Vec<CommittedRecord>, bool), Error> {
        let mut node = self.cluster.node(number)?;
        let records = node.read_committed(&mut self.pass, self.next)?;
        let mut knows_all = true;
        for receipt in &self.last {
            knows_all &= node.acked(&mut self.pass, receipt)? == Ack::Yes;
        }
        drop(node); // the records are copies
        Ok((records.collect::<Result<_, _>>()?, knows_all))
    }

    // Each payment has two entries, the one that takes it from an account first.
    fn take(&mut self, record: &CommittedRecord) -> Result<(), Fault> {
        if record.offset < self.next {
            return Err("a record was shown again".into());
        }
        self.next = record.offset + 1;
        let entry = Entry::parse(record.value.as_deref().unwrap_or_default())?;
        *self.balances.entry(entry.account).or_insert(0) += entry.change;
        *self.shown.entry(entry.payment).or_insert(0) += u64::from(entry.change < 0);
        Ok(())
    }
}
