//! A producer of payments, which tries again until it knows that each one stays.

use crate::batch::{Sequence, transactional};
use crate::book::Book;
use crate::clock::{Clock, Fault};
use crate::payment::Payment;
use kpart::{Ack, Batch, Cluster, Error, Marker, Node, Pass, Receipt, Refusal};
use std::sync::atomic::{AtomicU64, Ordering};
use std::sync::mpsc::Sender;

const TIME: u64 = 1_700_000_000_000;
// So many pauses after the leader has changed, a batch that nobody knows of is handed in again.
const PAUSES: u32 = 100;

/// So many records a payment has: both entries of one batch.
const RECORDS: u32 = 2;

/// Every fifth payment of a producer is aborted.
pub fn commits(number: u64) -> bool {
    number % 5 != 4
}

/// A payment that was acknowledged, with how its transaction ended.
#[derive(Clone, Copy)]
pub struct Paid {
    pub payment: Payment,
    pub commits: bool,
    /// How often one of its batches was handed in again.
    pub retries: u64,
}

/// The receipt of a producer's last marker, and the pass that has it.
pub struct Last {
    pub receipt: Receipt,
    pub pass: Pass,
}

pub struct Producer {
    cluster: Cluster,
    pass: Pass,
    clock: Clock,
    id: u64,
    retries: u64,
}

impl Producer {
    pub fn new(cluster: &Cluster, id: u64, clock: Clock) -> Result<Producer, Fault> {
        let (cluster, pass) = (cluster.clone(), cluster.pass()?);
        Ok(Producer { cluster, pass, clock, id, retries: 0 })
    }

    /// Makes so many payments one after another, behind those that the book has, counts and notes each one that is acknowledged, and in the
    /// end hands on the last marker's receipt, with the pass that has it.
    pub fn run(mut self, payments: u64, book: &Book, acknowledged: &AtomicU64, done: &Sender<Last>) -> Result<Vec<Paid>, Fault> {
        let mut paid = Vec::new();
        let mut last = None;
        let first = book.count(self.id);
        for number in first..first + payments {
            let (made, receipt) = self.pay(number, book)?;
            acknowledged.fetch_add(1, Ordering::Relaxed);
            paid.push(made);
            last = Some(receipt);
        }
        if let Some(receipt) = last {
            done.send(Last { receipt, pass: self.pass }).map_err(|_| "the consumer has ended")?;
        }
        Ok(paid)
    }

    /// Ends the payment that a run before this one has begun, which ended before it was acknowledged, or noted; none where there is none.
    pub fn finish(mut self, book: &Book) -> Result<Option<Paid>, Fault> {
        let leader = self.pass.leadership()?.leader.ok_or("nobody leads")?.0;
        let known = self.cluster.node(leader)?.producer(self.id)?.and_then(|it| it.last_sequence);
        let (begun, noted) = (known.map_or(0, |it| u64::from(it + 1) / u64::from(RECORDS)), book.count(self.id));
        if begun > noted { Ok(Some(self.pay(noted, book)?.0)) } else { Ok(None) }
    }

    fn pay(&mut self, number: u64, book: &Book) -> Result<(Paid, Receipt), Fault> {
        let (payment, commits) = (Payment::made_up(self.id, number), commits(number));
        let receipt = self.transact(&payment, number as u32 * RECORDS, commits)?;
        let paid = Paid { payment, commits, retries: std::mem::take(&mut self.retries) };
        book.note(&paid)?;
        Ok((paid, receipt))
    }

    /// A transaction: both entries in one batch, from a sequence number on, then the marker, whose receipt is answered.
    fn transact(&mut self, payment: &Payment, first: u32, commits: bool) -> Result<Receipt, Fault> {
        let sequence = Sequence { producer: self.id, epoch: 0, first };
        let entries = payment.entries().map(|entry| entry.text());
        let mut batch = Batch::new(&transactional(sequence, TIME, &entries))?;
        self.hand_in(|node, pass| node.produce_batch(pass, &mut batch))?;
        let marker = Marker { producer_id: self.id, producer_epoch: 0, coordinator_epoch: 0, timestamp: TIME, commits };
        self.hand_in(|node, pass| node.mark(pass, &marker))
    }

    /// Hands it to whoever leads, until it is acknowledged. Again is safe: of a batch that stands already the leader answers with that
    /// one's receipt, and a second marker ends no transaction.
    fn hand_in(&mut self, mut hand: impl FnMut(&mut Node, &mut Pass) -> Result<Receipt, Error>) -> Result<Receipt, Fault> {
        loop {
            match self.handed(&mut hand)? {
                Some(receipt) if self.is_acknowledged(&receipt)? => return Ok(receipt),
                _ => self.retries += 1,
            }
            self.clock.pause()?;
        }
    }

    fn handed(&mut self, hand: &mut impl FnMut(&mut Node, &mut Pass) -> Result<Receipt, Error>) -> Result<Option<Receipt>, Fault> {
        let Some((leader, _)) = self.pass.leadership()?.leader else { return Ok(None) };
        let mut node = self.cluster.node(leader)?;
        match hand(&mut node, &mut self.pass) {
            Ok(receipt) => Ok(Some(receipt)),
            Err(Error::Refused(Refusal::NotLeader | Refusal::Down)) => Ok(None),
            Err(error) if error.is_memory() => Ok(None),
            Err(error) => Err(error.into()),
        }
    }

    /// Waits until the batch is acknowledged, or it is time to hand it in again.
    fn is_acknowledged(&mut self, receipt: &Receipt) -> Result<bool, Fault> {
        let mut pauses = 0;
        while pauses < PAUSES {
            let Some((leader, epoch)) = self.pass.leadership()?.leader else { return Ok(false) };
            match self.cluster.node(leader)?.acked(&mut self.pass, receipt) {
                Ok(Ack::Yes) => return Ok(true),
                Ok(Ack::Lost) => return Ok(false),
                Ok(Ack::NotYet) | Err(Error::Refused(Refusal::Down)) => {}
                Err(error) => return Err(error.into()),
            }
            self.clock.pause()?;
            pauses += u32::from(epoch != receipt.epoch);
        }
        Ok(false)
    }
}
