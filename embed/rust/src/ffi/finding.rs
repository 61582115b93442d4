//! What bytes are: the batches that they begin with, and their checksum. No handle of a cluster goes in.

use super::outs::FoundOut;
use super::{Handle, RawBatches, answered};
use crate::error::Error;

unsafe extern "C" {
    fn kp_batches_in(bytes: *const u8, count: usize, max_batch: u32, batches: &mut Handle, found: &mut FoundOut) -> u32;
    fn kp_crc32c(bytes: *const u8, count: usize) -> u32;
}

impl RawBatches {
    /// Those that the bytes begin with, and how far they go.
    pub(crate) fn found_in(bytes: &[u8], max_batch: u32) -> Result<(RawBatches, FoundOut), Error> {
        let (mut handle, mut found) = (Handle::closed(), FoundOut::default());
        // SAFETY: the handle is closed; the pointer and the count are a slice's.
        answered(unsafe { kp_batches_in(bytes.as_ptr(), bytes.len(), max_batch, &mut handle, &mut found) })?;
        Ok((RawBatches { handle }, found))
    }
}

/// The CRC-32C of the bytes.
pub(crate) fn crc32c(bytes: &[u8]) -> u32 {
    // SAFETY: the pointer and the count are a slice's.
    unsafe { kp_crc32c(bytes.as_ptr(), bytes.len()) }
}
