//! What bytes are: the batches that they begin with, and their checksum.

use crate::batches::Batches;
use crate::error::{Error, Refusal};
use crate::ffi::{self, RawBatches};

/// The batches that bytes begin with, one behind another, up to the first fault.
///
/// ```
/// use kpart::{BatchesIn, Refusal};
///
/// # fn main() -> Result<(), kpart::Error> {
/// let batch = include_bytes!(concat!(env!("CARGO_MANIFEST_DIR"), "/tests/one_record.batch"));
/// let file = [&batch[..], &batch[..], &batch[..20]].concat(); // the third one was torn
/// let mut found = BatchesIn::of(&file, u32::MAX)?;
/// assert_eq!((found.batches.len(), found.size), (2, 2 * batch.len()));
/// assert_eq!(found.fault, Some(Refusal::Truncated));
/// assert_eq!(found.batches.head()?.map(|it| it.count), Some(1));
/// # Ok(()) }
/// ```
#[derive(Debug)]
pub struct BatchesIn {
    /// The batches, with the base offsets and leader epochs that the bytes have: just those that [`Left::keep`](crate::Left::keep) reads there.
    pub batches: Batches,
    /// How many bytes they take: the place of the first byte behind them.
    pub size: usize,
    /// Why no batch begins there, F1 to F10; none where no byte is left.
    pub fault: Option<Refusal>,
}

impl BatchesIn {
    /// Reads the bytes as batches, each of at most `max_batch` bytes. They are copied once, and what follows a fault isn't looked at.
    /// [`Error::NoRoom`], F33. O(n) in the bytes: a pass for the checksums, and one over the records.
    pub fn of(bytes: &[u8], max_batch: u32) -> Result<BatchesIn, Error> {
        let (raw, found) = RawBatches::found_in(bytes, max_batch)?;
        let fault = (found.fault != 0).then(|| Refusal::of(found.fault, found.place));
        Ok(BatchesIn { batches: Batches::new(raw)?, size: found.size, fault })
    }
}

/// The CRC-32C of the bytes, by which a batch is sealed from its attributes on, for what else a host seals. No memory; O(n).
///
/// ```
/// assert_eq!(kpart::crc32c(b"123456789"), 0xe306_9283);
/// ```
pub fn crc32c(bytes: &[u8]) -> u32 {
    ffi::crc32c(bytes)
}
