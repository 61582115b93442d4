//! Nodes that are read back.

use crate::error::Error;
use crate::ffi::{Limits, RawLeft};
use crate::values::Kept;

/// Nodes that are read back from what a process has left, node 0 first, for [`Cluster::open_again`](crate::Cluster::open_again).
///
/// ```
/// use kpart::{Kept, Left, Limits, Refusal};
///
/// # fn main() -> Result<(), kpart::Error> {
/// let batch = include_bytes!(concat!(env!("CARGO_MANIFEST_DIR"), "/tests/one_record.batch"));
/// let mut log = batch.to_vec();
/// log[12..16].fill(0); // the leader epoch, as a leader has stamped it
/// let mut left = Left::new(Limits::default())?;
/// left.keep(&log, Kept { checkpoint: 1, life: 0, kept_epoch: Some(0) })?;
/// left.keep(&[], Kept::default())?;
/// let beyond = Kept { checkpoint: 2, ..Kept::default() };
/// assert_eq!(left.keep(&log, beyond), Err(Refusal::NotBoundary.into()));
/// assert_eq!(left.nodes(), 2);
/// # Ok(()) }
/// ```
#[derive(Debug)]
pub struct Left {
    pub(crate) raw: RawLeft,
    nodes: u8,
}

impl Left {
    /// None yet; their logs will have these sizes. [`Error::NoRoom`]. O(1).
    pub fn new(limits: Limits) -> Result<Left, Error> {
        Ok(Left { raw: RawLeft::new(&limits)?, nodes: 0 })
    }

    /// How many were read back.
    pub fn nodes(&self) -> u8 {
        self.nodes
    }

    /// Reads back the next node's log from the bytes of its batches, in their order, which are copied once. F24 where it has no next life; F1 to
    /// F10, the bytes' first fault; F26, F27 or F25 by the first batch that doesn't stand behind those in front of it; F19 where the
    /// checkpoint is no boundary of the log; F33. [`Error::OutOfRange`] where seven are there. After an error the others are as before.
    /// O(n) in the bytes.
    pub fn keep(&mut self, log: &[u8], kept: Kept) -> Result<(), Error> {
        self.raw.keep(log, &kept.into())?;
        self.nodes += 1;
        Ok(())
    }
}
