//! A node whose lock is held.

use crate::batch::Batch;
use crate::batches::Batches;
use crate::cluster::{Held, Pass, Past};
use crate::error::Error;
use crate::fetched::{Fetched, Isolation};
use crate::ffi::{MarkerIn, ReceiptOut};
use crate::message::Message;
use crate::recorder::journal::{Call, Journal, Told};
use crate::records::Records;
use crate::segments::Segments;
use crate::store::StoreFault;
use crate::values::{
    Ack, Change, EpochEnd, Known, Marker, NodeState, OpenTransaction, ProducerState, Receipt, Restarted, Role, Status, TimeOffset,
};
use std::sync::Arc;

const EARLY: &str = "a batch came that was made before there was a recorder";

/// A node, as long as its lock is held: drop it to let others in. Each call is an event of the run, or none, as a read; a node that is
/// down refuses all but [`Node::restart`] by F28.
#[derive(Debug)]
pub struct Node<'a> {
    number: u8,
    raw: Held<'a>,
    // Of a cluster that is recorded.
    journal: Option<&'a Journal>,
}

impl<'a> Node<'a> {
    pub(crate) fn new(number: u8, raw: Held<'a>, journal: Option<&'a Journal>) -> Node<'a> {
        Node { number, raw, journal }
    }

    // What was called, and what it was told, where the cluster is recorded.
    fn noted<T: Copy>(&self, called: Result<T, Error>, call: impl FnOnce(u8) -> Call, told: impl FnOnce(T) -> Told) -> Result<T, Error> {
        if let Some(journal) = self.journal {
            journal.enter(call(self.number), called.map(told));
        }
        called
    }

    // The same of a call that sends a message.
    fn noted_sent(&self, sent: Result<Message, Error>, call: impl FnOnce(u8) -> Call) -> Result<Message, Error> {
        match self.journal {
            Some(journal) => journal.enter_sent(call(self.number), sent),
            None => sent,
        }
    }

    pub(crate) fn past(&self) -> Past {
        self.raw.past()
    }

    /// Its number.
    pub fn number(&self) -> u8 {
        self.number
    }

    /// Takes up the controller's record, and says what the node is now. F22 where it is no news; a leader that was restarted has to
    /// be elected anew. O(1).
    pub fn adopt(&mut self) -> Result<Role, Error> {
        let open = self.journal.map(Journal::open); // it looks at the controller's record
        let adopted = self.raw.adopt().map(Role::from);
        if let Some(open) = open {
            open.enter(Call::Adopt(self.number), adopted.map(Told::Plays));
        }
        adopted
    }

    /// Raises the high watermark as far as all counted replicas have reported, and says where it is. F15 where the node doesn't
    /// lead. O(1), and O(1) for each batch that is committed by it.
    pub fn raise(&mut self) -> Result<u64, Error> {
        let raised = self.raw.raise();
        self.noted(raised, Call::Raise, Told::Mark)
    }

    /// Notes the high watermark: a restart begins there. O(1).
    pub fn checkpoint(&mut self) -> Result<u64, Error> {
        let noted = self.raw.checkpoint();
        self.noted(noted, Call::Checkpoint, Told::Checkpoint)
    }

    // At its own turn, and where that is. A cluster that is recorded is in no store, so that is a checkpoint.
    pub(crate) fn note(&mut self) -> Result<u64, Error> {
        let noted = self.raw.note();
        self.noted(noted, Call::Checkpoint, Told::Checkpoint)
    }

    pub(crate) fn is_down(&mut self) -> bool {
        self.show().is_ok_and(|it| it.status == Status::Down)
    }

    /// Stops the node, which keeps its log and its checkpoint. O(1).
    pub fn stop(&mut self) -> Result<(), Error> {
        let stopped = self.raw.stop();
        self.noted(stopped, Call::Stop, |()| Told::Stopped)
    }

    /// Why its files couldn't be written, by which a store has stopped it; none once it was started again. O(1).
    pub fn fault(&self) -> Option<StoreFault> {
        self.raw.past().fault
    }

    /// Starts a node that is down: F28 where it is up. Its high watermark is the checkpoint; it leads and follows nobody until it
    /// adopts. F33 leaves it down. O(n) in its log.
    pub fn restart(&mut self) -> Result<Restarted, Error> {
        let restarted = self.raw.restart().map(Restarted::from);
        self.noted(restarted, Call::Restart, Told::from)
    }

    /// A follower asks its leader for what comes behind its log. F15 where it follows nobody. O(1), and no memory but the handle's.
    pub fn ask(&mut self) -> Result<Message, Error> {
        let asked = self.raw.ask().and_then(Message::new);
        self.noted_sent(asked, Call::Ask)
    }

    /// A leader proposes a change of the in-sync replicas to the controller. F15, F21, F23; F34 where another change is pending.
    /// O(1).
    pub fn alter(&mut self, change: Change) -> Result<Message, Error> {
        let proposed = match change {
            Change::Join(which) => self.raw.alter(true, which),
            Change::Leave(which) => self.raw.alter(false, which),
        };
        self.noted_sent(proposed.and_then(Message::new), |it| Call::Alter(it, change))
    }

    /// Takes a message in: a leader answers a request, a follower takes the answer's batches or cuts its log, a leader learns a
    /// decision. The message is spent, also where it is refused. F33 where batches were to be taken leaves the node down: restart
    /// it. O(1) for each batch.
    pub fn step(&mut self, message: Message) -> Result<Option<Message>, Error> {
        match self.journal {
            Some(journal) => self.step_noted(journal, message),
            None => self.take_in(message),
        }
    }

    pub(crate) fn take_in(&mut self, message: Message) -> Result<Option<Message>, Error> {
        self.raw.step(message.raw)?.map(Message::new).transpose()
    }

    /// Hands a leader a batch of a client: format 2, not compressed, with whatever base offset and leader epoch, which the leader
    /// stamps. The bytes are copied once, read and summed. A batch that an idempotent producer hands in twice is appended once, and
    /// its receipt names the one that stands, so trying again is safe. F1 to F13, F15, F25, F30, F33. O(n) in the bytes.
    pub fn produce(&mut self, pass: &mut Pass, batch: &[u8]) -> Result<Receipt, Error> {
        let produced = self.raw.produce(&mut pass.raw, batch).map(Receipt::from);
        self.noted(produced, |it| Call::Raw(it, Arc::from(batch)), Told::from)
    }

    /// Hands a leader a batch that was copied and tested before its lock was taken, as [`Node::produce`] does: the same refusals, and the
    /// same receipts. O(1) but for what the producer's tables cost, and one more test of the bytes where they are no batch.
    pub fn produce_batch(&mut self, pass: &mut Pass, batch: &mut Batch) -> Result<Receipt, Error> {
        let produced = self.raw.produce_handed(&mut pass.raw, &mut batch.raw).map(Receipt::from);
        match (self.journal, &batch.bytes) {
            (Some(journal), Some(bytes)) => journal.enter(Call::Raw(self.number, bytes.clone()), produced.map(Told::from)),
            (Some(journal), None) if produced.is_ok() => journal.open().end(EARLY.to_string()),
            _ => {}
        }
        produced
    }

    /// Hands a leader a transaction's marker. F11, F14, F15, F25, F33; [`Error::OutOfRange`] where a field is outside of its range.
    /// O(1).
    pub fn mark(&mut self, pass: &mut Pass, marker: &Marker) -> Result<Receipt, Error> {
        let marked = self.raw.mark(&mut pass.raw, &MarkerIn::from(marker)).map(Receipt::from);
        self.noted(marked, |it| Call::Mark(it, (*marker).into()), Told::from)
    }

    /// Whether the receipt's batch is committed, as far as this node knows. At [`Ack::Yes`] the batch of a receipt that the pass has, from
    /// its own calls or by [`Pass::take_receipts`], stands in the one committed list for good: each read at any node gives a piece of that
    /// list, up to the node's high watermark. O(log n) in the log, and no memory.
    pub fn acked(&mut self, pass: &mut Pass, receipt: &Receipt) -> Result<Ack, Error> {
        Ok(match self.raw.acked(&mut pass.raw, &ReceiptOut::from(receipt))? {
            1 => Ack::Yes,
            2 => Ack::Lost,
            _ => Ack::NotYet,
        })
    }

    /// Committed batches from the one that holds the offset on: as many as fit into 1 MiB, but at least one where there is one;
    /// none where the offset isn't committed yet. F16 above the node's log end, F33. O(log n) in the log, O(1) for each batch, as
    /// they are shared, not copied.
    pub fn read(&mut self, pass: &mut Pass, from: u64) -> Result<Batches, Error> {
        let raw = self.raw.read(&mut pass.raw, from)?;
        Batches::new(raw)
    }

    /// The records from an offset on that a read-committed consumer gets of this node: those below its last stable offset that no
    /// aborted transaction has. F16 above the node's log end, F33. O(n) in the log from there on; values are copied once, and twice where the
    /// cluster is recorded.
    pub fn read_committed(&mut self, pass: &mut Pass, from: u64) -> Result<Records, Error> {
        if let Some(journal) = self.journal {
            let read: Result<Vec<_>, Error> = self.committed(pass, from).and_then(Iterator::collect);
            self.note_read(journal, from, true, read.map(|it| Told::Lines(it.into())));
        }
        self.committed(pass, from)
    }

    fn committed(&mut self, pass: &mut Pass, from: u64) -> Result<Records, Error> {
        let raw = self.raw.read_committed(&mut pass.raw, from)?;
        Records::new(raw)
    }

    /// The node's state, as it knows itself; also of a node that is down. No memory; O(log n) in the open transactions.
    ///
    /// ```
    /// use kpart::{Cluster, Isolation, Limits, Role, Status};
    ///
    /// # fn main() -> Result<(), kpart::Error> {
    /// let cluster = Cluster::open(2, Limits::default())?;
    /// let mut pass = cluster.pass()?;
    /// pass.elect(1)?;
    /// let mut node = cluster.node(1)?;
    /// assert_eq!(node.show()?.status, Status::Idle); // it doesn't know yet
    /// node.adopt()?;
    /// assert_eq!(node.show()?.status, Status::Plays(Role::Leads { epoch: 0, start: 0 }));
    /// assert_eq!(node.end_for(0)?, None); // no batch of the epoch stands there
    /// assert_eq!(node.offset_for_time(&mut pass, 0, Isolation::ReadCommitted)?, None);
    /// node.stop()?;
    /// assert_eq!(node.show()?.status, Status::Down);
    /// # Ok(()) }
    /// ```
    pub fn show(&mut self) -> Result<NodeState, Error> {
        self.raw.show().map(NodeState::from)
    }

    /// The largest leader epoch at most this one of which the leader's log has a batch, and where that ends: what Kafka's
    /// OffsetForLeaderEpoch answers. F15 where the node doesn't lead. O(log n) in the epochs.
    pub fn end_for(&mut self, epoch: u32) -> Result<Option<EpochEnd>, Error> {
        self.raw.end_for(epoch).map(EpochEnd::of)
    }

    /// The first record whose timestamp is at least this one, in milliseconds, if a consumer of that isolation is shown it: what Kafka's
    /// ListOffsets answers for a time. A marker counts as a record. O(log n) in the log, and O(n) in one interval of its time index.
    pub fn offset_for_time(&mut self, pass: &mut Pass, time: u64, isolation: Isolation) -> Result<Option<TimeOffset>, Error> {
        self.raw.offset_for_time(&mut pass.raw, time, isolation == Isolation::ReadCommitted).map(TimeOffset::of)
    }

    /// What a consumer is given from an offset on, all of one moment: committed batches from the one that holds the offset on, as many as
    /// fit into so many bytes, but at least one where there is one; read committed those below the last stable offset, and the aborted
    /// transactions by which a Kafka client filters just these batches. F16 above the node's log end, F33. O(log n) in the log and its
    /// aborted transactions, and O(1) for each batch, as they are shared, not copied.
    pub fn fetch(&mut self, pass: &mut Pass, from: u64, most_bytes: u32, isolation: Isolation) -> Result<Fetched, Error> {
        let committed = isolation == Isolation::ReadCommitted;
        let fetched = self.raw.fetch(&mut pass.raw, from, most_bytes, committed).and_then(Fetched::new);
        if let Some(journal) = self.journal {
            self.note_fetch(journal, from, committed, &fetched);
        }
        fetched
    }

    /// What the node knows as a leader: the controller's record, the in-sync replicas that it has proposed, and what the others have
    /// reported. F15 where it doesn't lead. No memory; O(1).
    pub fn known(&mut self) -> Result<Known, Error> {
        self.raw.known().map(Known::from)
    }

    /// What the node's log has of a producer, also of a node that is down; none where it has no batch of it: what Kafka's
    /// DescribeProducers answers. No memory; O(log n) in the producers, O(1) as a rule.
    pub fn producer(&mut self, producer_id: u64) -> Result<Option<ProducerState>, Error> {
        self.raw.producer(producer_id).map(ProducerState::of)
    }

    /// The transactions that are open in the node's log, by rising first offset; also of a node that is down. F33. O(n) in those that no
    /// marker below the high watermark has ended.
    ///
    /// ```
    /// use kpart::{Cluster, Limits, OpenTransaction};
    ///
    /// # fn main() -> Result<(), kpart::Error> {
    /// let cluster = Cluster::open(1, Limits::default())?;
    /// let mut pass = cluster.pass()?;
    /// pass.elect(0)?;
    /// let mut leader = cluster.node(0)?;
    /// leader.adopt()?;
    /// // A batch of producer 13's transaction, which no marker ends.
    /// leader.produce(&mut pass, include_bytes!(concat!(env!("CARGO_MANIFEST_DIR"), "/tests/aborted.batch")))?;
    /// assert_eq!(leader.open_transactions()?, [OpenTransaction { producer_id: 13, first: 0 }]);
    /// let producer = leader.producer(13)?.expect("the log has a batch of it");
    /// assert_eq!((producer.epoch, producer.last_sequence, producer.open_from), (0, Some(0), Some(0)));
    /// assert_eq!(leader.producer(14)?, None);
    ///
    /// let mut batches = leader.log_from(0, 1_048_576)?; // it isn't committed yet
    /// let head = batches.head()?.expect("the log has one");
    /// assert_eq!((head.base, head.producer, head.transactional, head.control), (0, Some((13, 0)), true, false));
    /// assert_eq!(leader.known()?.proposed, None);
    /// # Ok(()) }
    /// ```
    pub fn open_transactions(&mut self) -> Result<Vec<OpenTransaction>, Error> {
        let mut raw = self.raw.open_transactions()?;
        (0..raw.count()?).map(|index| raw.transaction(index).map(OpenTransaction::from)).collect()
    }

    /// Batches of the node's log, also those that aren't committed: from the one that holds an offset on, as many as fit into so many bytes,
    /// but at least one where there is one; also of a node that is down. For a host that writes them down. F16 above the node's log end,
    /// F33. O(log n) in the log, and O(1) for each batch, as they are shared, not copied.
    pub fn log_from(&mut self, from: u64, most_bytes: u32) -> Result<Batches, Error> {
        let raw = self.raw.log_from(from, most_bytes)?;
        Batches::new(raw)
    }

    /// The node's log as the segments that a broker would keep as files, also of a node that is down, and also what isn't committed.
    /// F33. O(n) in the log's batches, which are shared, not copied.
    pub fn segments(&mut self) -> Result<Segments, Error> {
        let raw = self.raw.segments()?;
        Segments::new(raw)
    }
}
