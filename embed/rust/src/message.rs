//! Messages between nodes, or between a leader and the controller.

use crate::cluster::Pass;
use crate::error::{Error, Refusal};
use crate::ffi::{RawMessage, SaidOut};
use crate::recorder::noting::Post;
use crate::values::{EpochEnd, Leadership};

/// Whom a message goes to, or comes from.
#[derive(Clone, Copy, Debug, PartialEq, Eq)]
pub enum Addressee {
    /// The node of this number: hand it to [`Node::step`](crate::Node::step).
    Node(u8),
    /// The controller: hand it to [`Pass::decide`](crate::Pass::decide).
    Controller,
}

/// What a message says.
#[derive(Clone, Copy, Debug, PartialEq, Eq)]
pub enum Said {
    /// A follower asks for the batches after its log.
    AsksFrom {
        /// Its log end offset.
        offset: u64,
        /// The leader epoch of its last batch; none for an empty log.
        last_epoch: Option<u32>,
    },
    /// A leader hands over batches.
    Batches {
        /// How many.
        count: u64,
        /// The leader's high watermark.
        watermark: u64,
    },
    /// A leader hasn't all of the follower's log, and says where the follower's last leader epoch, or the greatest below it that the leader
    /// has, ends in its own; none where it has no such epoch.
    Diverging(Option<EpochEnd>),
    /// A leader asks the controller for other in-sync replicas.
    Proposes {
        /// Whether it asks for the node of each number.
        in_sync: [bool; 7],
        /// The version of the controller's record that it knows.
        version: u32,
    },
    /// The controller says which record stands after it has looked at a proposal.
    Decides {
        /// The version of the record.
        version: u32,
        /// The leader epoch; none before the first election.
        epoch: Option<u32>,
        /// Whether the node of each number is in sync.
        in_sync: [bool; 7],
    },
}

impl Said {
    fn of(said: SaidOut) -> Said {
        let SaidOut { offset, count, watermark, epoch, version, kind, in_sync, .. } = said;
        let epoch = (epoch != u32::MAX).then_some(epoch);
        match kind {
            0 => Said::AsksFrom { offset, last_epoch: epoch },
            1 => Said::Batches { count, watermark },
            2 => Said::Diverging(epoch.map(|epoch| EpochEnd { epoch, end: offset })),
            3 => Said::Proposes { in_sync, version },
            _ => Said::Decides { version, epoch, in_sync },
        }
    }
}

fn place_of(number: u8) -> Addressee {
    match number {
        u8::MAX => Addressee::Controller,
        node => Addressee::Node(node),
    }
}

/// A message under way. It may be dropped, come late, in another order, or again ([`Message::repeat`]); it can't be made up or changed.
#[derive(Debug)]
pub struct Message {
    pub(crate) raw: RawMessage,
    to: Addressee,
    // Of a cluster that is recorded.
    pub(crate) post: Option<Post>,
}

impl Message {
    pub(crate) fn new(mut raw: RawMessage) -> Result<Message, Error> {
        let to = place_of(raw.addressee()?);
        Ok(Message { raw, to, post: None })
    }

    /// Whom it goes to.
    pub fn addressee(&self) -> Addressee {
        self.to
    }

    /// Who sent it. O(1).
    pub fn sender(&mut self) -> Result<Addressee, Error> {
        self.raw.said().map(|said| place_of(said.sender))
    }

    /// What it says. No batch is copied. O(1).
    ///
    /// ```
    /// use kpart::{Addressee, Cluster, Limits, Said};
    ///
    /// # fn main() -> Result<(), kpart::Error> {
    /// let cluster = Cluster::open(2, Limits::default())?;
    /// let mut pass = cluster.pass()?;
    /// pass.elect(0)?;
    /// cluster.node(0)?.adopt()?;
    /// cluster.node(1)?.adopt()?;
    /// let mut request = cluster.node(1)?.ask()?;
    /// assert_eq!(request.sender()?, Addressee::Node(1));
    /// assert_eq!(request.said()?, Said::AsksFrom { offset: 0, last_epoch: None });
    /// let mut answer = cluster.node(0)?.step(request)?.expect("a leader answers");
    /// assert_eq!(answer.said()?, Said::Batches { count: 0, watermark: 0 });
    /// # Ok(()) }
    /// ```
    pub fn said(&mut self) -> Result<Said, Error> {
        self.raw.said().map(Said::of)
    }

    /// A repeat of it, as a network may bring a message twice: what it says, and to whom, is the same, and its batches are shared. Any pass of
    /// the cluster will do. F33; [`Error::OtherCluster`], [`Error::NoRoom`]. O(1) for each batch.
    ///
    /// ```
    /// use kpart::{Cluster, Limits, Refusal};
    ///
    /// # fn main() -> Result<(), kpart::Error> {
    /// let cluster = Cluster::open(2, Limits::default())?;
    /// let mut pass = cluster.pass()?;
    /// pass.elect(0)?;
    /// cluster.node(0)?.adopt()?;
    /// cluster.node(1)?.adopt()?;
    /// cluster.node(0)?.produce(&mut pass, include_bytes!(concat!(env!("CARGO_MANIFEST_DIR"), "/tests/one_record.batch")))?;
    /// let request = cluster.node(1)?.ask()?;
    /// let mut answer = cluster.node(0)?.step(request)?.expect("a leader answers");
    /// let mut again = answer.repeat(&mut pass)?;
    /// assert_eq!(again.said(), answer.said());
    /// cluster.node(1)?.step(answer)?;
    /// assert_eq!(cluster.node(1)?.step(again).err(), Some(Refusal::StaleAnswer.into())); // it has the batch already
    /// # Ok(()) }
    /// ```
    pub fn repeat(&mut self, pass: &mut Pass) -> Result<Message, Error> {
        let post = self.post;
        Ok(Message { post, ..Message::new(self.raw.repeat(&mut pass.raw)?)? })
    }

    /// What a record becomes by a decision on the proposal that this is ([`Node::alter`](crate::Node::alter)), so that a host can keep it
    /// before [`Pass::decide`](crate::Pass::decide): the same again where the proposal names another record. F24; F29 where the message is
    /// no proposal; [`Error::OutOfRange`] where `leadership` is no record. No memory; O(1).
    ///
    /// ```
    /// use kpart::{Change, Cluster, Limits};
    ///
    /// # fn main() -> Result<(), kpart::Error> {
    /// let cluster = Cluster::open(2, Limits::default())?;
    /// let mut pass = cluster.pass()?;
    /// let elected = pass.elect(0)?;
    /// cluster.node(0)?.adopt()?;
    /// let mut proposal = cluster.node(0)?.alter(Change::Leave(1))?;
    /// let next = proposal.decided(&elected)?;
    /// assert!(!next.has_in_sync(1));
    /// pass.decide(proposal)?;
    /// assert_eq!(pass.leadership()?, next);
    /// # Ok(()) }
    /// ```
    pub fn decided(&mut self, leadership: &Leadership) -> Result<Leadership, Error> {
        match self.to {
            Addressee::Controller => self.raw.decided(&leadership.into()).map(Leadership::from),
            Addressee::Node(_) => Err(Refusal::StaleAnswer.into()),
        }
    }
}
