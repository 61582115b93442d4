//! Plain values that calls take and give.

use crate::error::Error;
use crate::ffi::{
    EpochOut, HeadOut, KeptIn, KnownOut, LeadershipOut, MarkerIn, OpenOut, ProducerOut, PromiseIn, ReceiptOut, RestartOut, RoleOut,
    StateOut, TimeOut,
};

/// What a node is under the controller's record that it took up.
#[derive(Clone, Copy, Debug, PartialEq, Eq)]
pub enum Role {
    /// It leads.
    Leads {
        /// The leader epoch.
        epoch: u32,
        /// The log's end when it began to lead.
        start: u64,
    },
    /// It follows a leader.
    Follows {
        /// The leader's number.
        leader: u8,
        /// The leader epoch.
        epoch: u32,
    },
}

/// What a node is, as it knows itself.
#[derive(Clone, Copy, Debug, PartialEq, Eq)]
pub enum Status {
    /// It is stopped.
    Down,
    /// It has taken up no record since it started.
    Idle,
    /// What the record that it took up last makes it.
    Plays(Role),
}

/// A node's state, of one moment. Its log begins at offset 0.
#[derive(Clone, Copy, Debug, PartialEq, Eq)]
pub struct NodeState {
    /// How often it was restarted.
    pub life: u64,
    /// The leader epoch that it last took up, in this life or an earlier one; none where it has taken up none.
    pub kept_epoch: Option<u32>,
    /// What it is.
    pub status: Status,
    /// Its log end offset.
    pub end: u64,
    /// Its high watermark; of one that is down, that at which it went down.
    pub watermark: u64,
    /// The last stable offset at that watermark.
    pub stable: u64,
    /// The high watermark that it last noted, from which a restart begins.
    pub checkpoint: u64,
}

/// What a leader knows of the others.
#[derive(Clone, Copy, Debug, PartialEq, Eq)]
pub struct Known {
    /// The controller's record, as the leader knows it.
    pub leadership: Leadership,
    /// Whether the node of each number is among the in-sync replicas that the leader has proposed; none where it has proposed none since it
    /// last learned of a decision. Both sets count for its high watermark.
    pub proposed: Option<[bool; 7]>,
    /// The log end offset that the node of each number has reported since this one began to lead; none where it has reported nothing.
    pub reported: [Option<u64>; 7],
}

/// A producer, as a node's log has it (Kafka's DescribeProducers).
#[derive(Clone, Copy, Debug, PartialEq, Eq)]
pub struct ProducerState {
    /// The producer's epoch in its last batch.
    pub epoch: u16,
    /// The sequence number of its last record since that epoch began; none where it has written none.
    pub last_sequence: Option<u32>,
    /// The coordinator epoch of its last marker; none where it has none.
    pub coordinator_epoch: Option<u32>,
    /// The offset of the first record of its open transaction; none where none is open.
    pub open_from: Option<u64>,
}

/// A transaction that no marker has ended yet.
#[derive(Clone, Copy, Debug, PartialEq, Eq)]
pub struct OpenTransaction {
    /// Whose it is.
    pub producer_id: u64,
    /// The offset of its first record.
    pub first: u64,
}

/// The head of a batch that was read.
#[derive(Clone, Copy, Debug, PartialEq, Eq)]
pub struct BatchHead {
    /// The offset of its first record.
    pub base: u64,
    /// The leader epoch.
    pub epoch: Option<u32>,
    /// How many records it has, and offsets it takes.
    pub count: u32,
    /// How many bytes it has.
    pub size: u32,
    /// Its records' timestamps count from this one: milliseconds since 1970.
    pub base_timestamp: u64,
    /// The greatest timestamp of its records: milliseconds since 1970.
    pub max_timestamp: u64,
    /// The producer that wrote it, or that its marker is for, and the producer's epoch; none where it is of no producer.
    pub producer: Option<(u64, u16)>,
    /// The sequence number of its first record; none where it is of no producer, or a marker.
    pub base_sequence: Option<u32>,
    /// Whether it is part of a transaction: data, or the marker that ends it.
    pub transactional: bool,
    /// Whether it is a control batch: a marker, and no data.
    pub control: bool,
}

impl BatchHead {
    /// The offset behind its last record.
    pub fn end(&self) -> u64 {
        self.base.saturating_add(self.count.into())
    }
}

/// Where a leader epoch ends in a leader's log.
#[derive(Clone, Copy, Debug, PartialEq, Eq)]
pub struct EpochEnd {
    /// The leader epoch.
    pub epoch: u32,
    /// The offset after its last record.
    pub end: u64,
}

/// A record's offset and timestamp.
#[derive(Clone, Copy, Debug, PartialEq, Eq)]
pub struct TimeOffset {
    /// Its offset.
    pub offset: u64,
    /// Milliseconds since 1970.
    pub timestamp: u64,
}

/// The controller's record.
#[derive(Clone, Copy, Debug, PartialEq, Eq)]
pub struct Leadership {
    /// Every change raises it by 1.
    pub version: u32,
    /// The leader and its leader epoch; none before the first election.
    pub leader: Option<(u8, u32)>,
    /// Whether the node of each number is in sync.
    pub in_sync: [bool; 7],
}

impl Leadership {
    /// Whether the node is in sync. Nodes that the cluster hasn't got are not.
    pub fn has_in_sync(&self, node: u8) -> bool {
        self.in_sync.get(usize::from(node)).is_some_and(|it| *it)
    }

    /// What this record becomes by the node's election, so that a host can keep it before [`Pass::elect`](crate::Pass::elect). F21, F24;
    /// [`Error::OutOfRange`] where it is no record: a leader, an epoch or a version that no cluster has. No memory; O(1).
    ///
    /// ```
    /// use kpart::{Cluster, Limits, Refusal};
    ///
    /// # fn main() -> Result<(), kpart::Error> {
    /// let cluster = Cluster::open(2, Limits::default())?;
    /// let mut pass = cluster.pass()?;
    /// let next = pass.leadership()?.elected(1)?;
    /// assert_eq!(next.leader, Some((1, 0)));
    /// assert_eq!(pass.elect(1)?, next);
    /// assert_eq!(next.elected(2), Err(Refusal::NotInSync.into())); // there is no such node
    /// # Ok(()) }
    /// ```
    pub fn elected(&self, node: u8) -> Result<Leadership, Error> {
        LeadershipOut::from(self).elected(node).map(Leadership::from)
    }
}

/// What a host keeps of a node beside its log, for a process that opens it again: of [`Node::show`](crate::Node::show).
#[derive(Clone, Copy, Debug, Default, PartialEq, Eq)]
pub struct Kept {
    /// The high watermark from which a restart begins.
    pub checkpoint: u64,
    /// How often it was restarted; more than that does no harm.
    pub life: u64,
    /// The leader epoch that it last took up; none where it has taken up none.
    pub kept_epoch: Option<u32>,
}

impl From<&NodeState> for Kept {
    fn from(state: &NodeState) -> Kept {
        Kept { checkpoint: state.checkpoint, life: state.life, kept_epoch: state.kept_epoch }
    }
}

/// What a process had promised that has ended: the batches of a node's log below an offset, of which [`Node::acked`](crate::Node::acked)
/// had said yes. At offset 0 nothing is promised.
#[derive(Clone, Copy, Debug, Default, PartialEq, Eq)]
pub struct Promise {
    /// The node, which had a high watermark at or above the offset.
    pub node: u8,
    /// The offset.
    pub offset: u64,
}

/// A node that started again.
#[derive(Clone, Copy, Debug, PartialEq, Eq)]
pub struct Restarted {
    /// How often it was started again.
    pub life: u64,
    /// Its log's end.
    pub end: u64,
    /// Its high watermark: the checkpoint.
    pub watermark: u64,
}

/// The batch that stands in the leader's log for the bytes that were handed in. It may still be lost: ask by
/// [`Node::acked`](crate::Node::acked).
#[derive(Clone, Copy, Debug, PartialEq, Eq)]
pub struct Receipt {
    /// The offset of its first record.
    pub base: u64,
    /// The offset of its last record.
    pub last: u64,
    /// Its leader epoch.
    pub epoch: u32,
    /// Whether the batch had been appended before: an idempotent producer tried again.
    pub duplicate: bool,
}

/// Whether a receipt's batch is committed.
#[derive(Clone, Copy, Debug, PartialEq, Eq)]
pub enum Ack {
    /// It stands in the committed list, for good; the pass that asks has to have the receipt.
    Yes,
    /// Another batch stands in its place, for good. Hand it in again.
    Lost,
    /// That isn't known yet: ask again, at any node.
    NotYet,
}

/// How a transaction ends, as its coordinator hands it in.
#[derive(Clone, Copy, Debug, PartialEq, Eq)]
pub struct Marker {
    /// The producer whose transaction ends, below 2^63.
    pub producer_id: u64,
    /// The producer's epoch, below 2^15.
    pub producer_epoch: u16,
    /// The coordinator's epoch, below 2^31.
    pub coordinator_epoch: u32,
    /// Milliseconds since 1970, below 2^62.
    pub timestamp: u64,
    /// Whether it commits; else it aborts.
    pub commits: bool,
}

/// A change of the in-sync replicas by one node.
#[derive(Clone, Copy, Debug, PartialEq, Eq)]
pub enum Change {
    /// The node joins them.
    Join(u8),
    /// The node leaves them.
    Leave(u8),
}

impl From<RoleOut> for Role {
    fn from(role: RoleOut) -> Role {
        if role.leads {
            Role::Leads { epoch: role.epoch, start: role.start }
        } else {
            Role::Follows { leader: role.leader, epoch: role.epoch }
        }
    }
}

impl From<StateOut> for NodeState {
    fn from(state: StateOut) -> NodeState {
        let StateOut { life, end, watermark, stable, checkpoint, start, kept_epoch, epoch, adopted, status, leader } = state;
        let status = match status {
            1 => Status::Idle,
            2 => Status::Plays(Role::Leads { epoch, start }),
            3 => Status::Plays(Role::Follows { leader, epoch }),
            _ => Status::Down,
        };
        NodeState { life, kept_epoch: adopted.then_some(kept_epoch), status, end, watermark, stable, checkpoint }
    }
}

// The library sets all bits of what there is none of.
fn known_number(number: u64) -> Option<u64> {
    (number != u64::MAX).then_some(number)
}

fn known_word(word: u32) -> Option<u32> {
    (word != u32::MAX).then_some(word)
}

impl From<KnownOut> for Known {
    fn from(known: KnownOut) -> Known {
        let KnownOut { leadership, reported, pending, proposed } = known;
        Known { leadership: leadership.into(), proposed: pending.then_some(proposed), reported: reported.map(known_number) }
    }
}

impl ProducerState {
    pub(crate) fn of(producer: ProducerOut) -> Option<ProducerState> {
        let ProducerOut { open_from, last_sequence, coordinator_epoch, epoch, found } = producer;
        found.then(|| ProducerState {
            epoch,
            last_sequence: known_word(last_sequence),
            coordinator_epoch: known_word(coordinator_epoch),
            open_from: known_number(open_from),
        })
    }
}

impl From<OpenOut> for OpenTransaction {
    fn from(open: OpenOut) -> OpenTransaction {
        let OpenOut { producer_id, first } = open;
        OpenTransaction { producer_id, first }
    }
}

impl From<HeadOut> for BatchHead {
    fn from(head: HeadOut) -> BatchHead {
        let HeadOut { base, base_timestamp, max_timestamp, producer_id, epoch, count, base_sequence, size, producer_epoch, attributes } =
            head;
        BatchHead {
            base,
            epoch: known_word(epoch),
            count,
            size,
            base_timestamp,
            max_timestamp,
            producer: known_number(producer_id).map(|id| (id, producer_epoch)),
            base_sequence: known_word(base_sequence),
            transactional: attributes & 16 != 0,
            control: attributes & 32 != 0,
        }
    }
}

impl EpochEnd {
    pub(crate) fn of(found: EpochOut) -> Option<EpochEnd> {
        found.found.then_some(EpochEnd { epoch: found.epoch, end: found.end })
    }
}

impl TimeOffset {
    pub(crate) fn of(found: TimeOut) -> Option<TimeOffset> {
        found.found.then_some(TimeOffset { offset: found.offset, timestamp: found.timestamp })
    }
}

impl From<LeadershipOut> for Leadership {
    fn from(record: LeadershipOut) -> Leadership {
        let leader = record.elected.then_some((record.leader, record.epoch));
        Leadership { version: record.version, leader, in_sync: record.in_sync }
    }
}

impl From<&Leadership> for LeadershipOut {
    fn from(record: &Leadership) -> LeadershipOut {
        let Leadership { version, leader, in_sync } = *record;
        let (node, epoch) = leader.unwrap_or_default();
        LeadershipOut { version, epoch, leader: node, elected: leader.is_some(), in_sync }
    }
}

impl From<Kept> for KeptIn {
    fn from(kept: Kept) -> KeptIn {
        let Kept { checkpoint, life, kept_epoch } = kept;
        KeptIn { checkpoint, life, kept_epoch: kept_epoch.unwrap_or_default(), adopted: kept_epoch.is_some() }
    }
}

impl From<Promise> for PromiseIn {
    fn from(promise: Promise) -> PromiseIn {
        let Promise { node, offset } = promise;
        PromiseIn { offset, node }
    }
}

impl From<RestartOut> for Restarted {
    fn from(restarted: RestartOut) -> Restarted {
        let RestartOut { life, end, watermark } = restarted;
        Restarted { life, end, watermark }
    }
}

impl From<ReceiptOut> for Receipt {
    fn from(receipt: ReceiptOut) -> Receipt {
        let ReceiptOut { base, last, epoch, duplicate, .. } = receipt;
        Receipt { base, last, epoch, duplicate }
    }
}

impl From<&Receipt> for ReceiptOut {
    fn from(receipt: &Receipt) -> ReceiptOut {
        let Receipt { base, last, epoch, duplicate } = *receipt;
        ReceiptOut { base, last, place: 0, epoch, duplicate }
    }
}

impl From<&Marker> for MarkerIn {
    fn from(marker: &Marker) -> MarkerIn {
        let Marker { producer_id, producer_epoch, coordinator_epoch, timestamp, commits } = *marker;
        MarkerIn { producer_id, timestamp, coordinator_epoch, producer_epoch, commits }
    }
}
