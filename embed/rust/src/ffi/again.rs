//! Opening again what a process has left, and what a record becomes.

use super::outs::{KeptIn, LeadershipOut, Limits, PromiseIn};
use super::{CLUSTERS, Handle, RawCluster, RawMessage, RawPass, answered};
use crate::cluster::Cluster;
use crate::error::Error;
use crate::left::Left;
use crate::values::{Leadership, Promise};
use std::sync::atomic::Ordering;

unsafe extern "C" {
    fn kp_left(left: &mut Handle, limits: &Limits) -> u32;
    fn kp_keep(left: &mut Handle, bytes: *const u8, count: usize, kept: &KeptIn) -> u32;
    fn kp_open_again(left: &mut Handle, known: &LeadershipOut, promise: &PromiseIn, cluster: &mut Handle) -> u32;
    fn kp_recall(pass: &mut Handle) -> u32;
    fn kp_elected(known: &LeadershipOut, node: u8, next: &mut LeadershipOut) -> u32;
    fn kp_decided(message: &mut Handle, known: &LeadershipOut, next: &mut LeadershipOut) -> u32;
}

/// A place for nodes that are read back.
#[derive(Debug)]
pub(crate) struct RawLeft {
    handle: Handle,
}

impl RawLeft {
    pub(crate) fn new(limits: &Limits) -> Result<RawLeft, Error> {
        let mut handle = Handle::closed();
        // SAFETY: the handle is closed.
        answered(unsafe { kp_left(&mut handle, limits) })?;
        Ok(RawLeft { handle })
    }

    pub(crate) fn keep(&mut self, log: &[u8], kept: &KeptIn) -> Result<(), Error> {
        // SAFETY: the handle is the library's; the pointer and the count are a slice's.
        answered(unsafe { kp_keep(&mut self.handle, log.as_ptr(), log.len(), kept) })
    }

    /// # Safety
    ///
    /// Some process has left these nodes and this record, and a node of it had held what is promised: `MayOpenAgain`.
    unsafe fn open_again(mut self, known: &LeadershipOut, promise: &PromiseIn) -> Result<RawCluster, Error> {
        let mut handle = Handle::closed();
        // SAFETY: one handle is the library's, the other is closed; the caller sees to the premise.
        answered(unsafe { kp_open_again(&mut self.handle, known, promise, &mut handle) })?;
        let cluster = CLUSTERS.fetch_add(1, Ordering::Relaxed);
        Ok(RawCluster { handle, cluster })
    }
}

impl Cluster {
    /// Opens a cluster with nodes that were read back ([`Left`]), each down, in the life behind the one that was kept: [`Node::restart`]
    /// them, and elect a leader anew. Its run goes on from the one that left them, so all that held there still holds, and what was promised
    /// stays, once a pass has recalled it ([`Pass::recall`]). [`Error::OutOfRange`] where `leadership` is no record, F33. O(n) in the
    /// nodes.
    ///
    /// [`Store`](crate::Store) does all of it over a folder, and keeps what is asked here.
    ///
    /// [`Node::restart`]: crate::Node::restart
    /// [`Pass::recall`]: crate::Pass::recall
    ///
    /// # Safety
    ///
    /// Some process has left just these nodes and this record, and had on its disk, before each call, what `docs/DURABLE.md` says; and at
    /// some time the node of the promise had a high watermark at or above its offset. Of a cluster of which that isn't so nothing is
    /// proved, also not that its calls are safe.
    pub unsafe fn open_again(left: Left, leadership: &Leadership, promise: Promise) -> Result<Cluster, Error> {
        let nodes = left.nodes();
        // SAFETY: it is the caller's duty.
        let board = unsafe { left.raw.open_again(&leadership.into(), &promise.into()) }?;
        Cluster::of(board, nodes, None)
    }
}

/// The board of a cluster with the nodes that a store has read back.
pub(crate) fn open_what_a_store_left(left: Left, leadership: &Leadership, promise: Promise) -> Result<RawCluster, Error> {
    // SAFETY: a store's folder has, at each moment, what some process has left (the rules of `docs/DURABLE.md`). It was locked until that
    // process ended, each file has its checksum, and what is promised is a checkpoint, or a high watermark that a node had.
    unsafe { left.raw.open_again(&leadership.into(), &promise.into()) }
}

impl RawPass {
    pub(crate) fn recall(&mut self) -> Result<(), Error> {
        // SAFETY: the handle is the library's.
        answered(unsafe { kp_recall(&mut self.handle) })
    }
}

impl RawMessage {
    /// What the record becomes by a decision on the proposal that it is.
    pub(crate) fn decided(&mut self, known: &LeadershipOut) -> Result<LeadershipOut, Error> {
        let mut next = LeadershipOut::default();
        // SAFETY: the handle is the library's.
        answered(unsafe { kp_decided(&mut self.handle, known, &mut next) })?;
        Ok(next)
    }
}

impl LeadershipOut {
    /// What the record becomes by the node's election.
    pub(crate) fn elected(&self, node: u8) -> Result<LeadershipOut, Error> {
        let mut next = LeadershipOut::default();
        // SAFETY: no handle goes in.
        answered(unsafe { kp_elected(self, node, &mut next) })?;
        Ok(next)
    }
}
