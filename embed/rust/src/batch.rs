//! The bytes of a batch, before a node gets them.

use crate::error::Error;
use crate::ffi::RawHanded;
use crate::recorder::kept;
use std::sync::Arc;

/// A client's batch, whose bytes the library has copied and tested while no node was locked. [`Node::produce_batch`] then only appends it,
/// so other threads wait for the node a shorter time. It can be handed in again, and to another node.
///
/// [`Node::produce_batch`]: crate::Node::produce_batch
#[derive(Debug)]
pub struct Batch {
    pub(crate) raw: RawHanded,
    // While there is a recorder.
    pub(crate) bytes: Option<Arc<[u8]>>,
}

impl Batch {
    /// Copies the bytes, once, and tests them. Bytes that are no batch are taken too: the node that they are handed to says what is
    /// wrong with them. [`Error::BadLength`] above 2,147,483,659 bytes, [`Error::NoRoom`]. O(n) in the bytes.
    pub fn new(bytes: &[u8]) -> Result<Batch, Error> {
        let mut raw = RawHanded::closed();
        raw.hand(bytes)?;
        Ok(Batch { raw, bytes: kept(bytes) })
    }

    /// Takes other bytes in place of these, as [`Batch::new`] does, but for the room of the batch itself, which is there. Where it fails
    /// the batch is as it was.
    pub fn set(&mut self, bytes: &[u8]) -> Result<(), Error> {
        self.raw.hand(bytes)?;
        self.bytes = kept(bytes);
        Ok(())
    }
}
