//! Reading back a node's log: what of it counts, and what is damage.

use super::disk::Disk;
use super::fault::{StoreError, StoreFault, StoreFile};
use super::log_files::{Extent, Segment};
use super::text::{EpochStart, StateText};
use crate::error::{Error, Refusal};
use crate::finding::BatchesIn;
use crate::values::BatchHead;

const HOLE: &str = "the batches in front of this segment end elsewhere";
const NO_BATCH: &str = "no whole batch with a right checksum begins here";
const NOT_LAWFUL: &str = "the batch here has a right checksum, and isn't lawful";
const OTHER_OFFSET: &str = "another batch was to begin here";
const NO_EPOCH: &str = "the batch here has no leader epoch";
const OTHER_EPOCH: &str = "the batch here was written with another leader epoch";
const EPOCH_BACK: &str = "the leader epoch is below that of the batch before";
const TOO_SHORT: &str = "the log went on here";
const NO_CUT: &str = "the log was to be cut within a batch that begins before here";

/// A beginning of a batch, or what was to be one, at a log's end: it was being written as the power went, and was never acted on.
#[derive(Clone, Copy, Debug, PartialEq, Eq)]
#[non_exhaustive]
pub struct TornTail {
    /// The node.
    pub node: u8,
    /// The offset of the segment's first record.
    pub base: u64,
    /// From which byte of the segment's file on it was cut.
    pub byte: u64,
    /// How many bytes were cut.
    pub bytes: u64,
}

/// A log that was read back.
#[derive(Debug, Default)]
pub(crate) struct ReadBack {
    /// Its batches' bytes, one behind another.
    pub log: Vec<u8>,
    /// What of its files they are.
    pub extent: Extent,
    /// Segments that are to be taken away, in the order of the log.
    pub surplus: Vec<u64>,
    pub torn: Option<TornTail>,
}

// Why reading ends in a segment.
enum Fault {
    // What stands at this byte of those that were read.
    Bytes { at: usize, why: &'static str },
    // The library has no memory.
    Library(Error),
}

impl From<Error> for Fault {
    fn from(error: Error) -> Fault {
        Fault::Library(error)
    }
}

// What is wrong with bytes that have this first fault.
fn why(fault: Refusal) -> &'static str {
    match fault {
        Refusal::Truncated | Refusal::BadMagic | Refusal::BadLength | Refusal::BadCrc => NO_BATCH,
        _ => NOT_LAWFUL,
    }
}

struct Reader<'a> {
    state: &'a StateText,
    found: ReadBack,
}

impl Reader<'_> {
    fn is_cut(&self) -> bool {
        self.state.cuts && self.found.extent.end >= self.state.end
    }

    // Takes the batches whose bytes begin there as far as they go on from those before them.
    fn take(&mut self, from: usize) -> Result<usize, Fault> {
        // What is too large for the cluster's limits the library refuses with the whole log: it may not be cut as a torn tail.
        let BatchesIn { mut batches, fault, .. } = BatchesIn::of(&self.found.log[from..], u32::MAX)?;
        let mut at = from;
        while !self.is_cut() {
            let Some(batch) = batches.head()? else { break };
            self.take_batch(&batch, (at - from) as u64).map_err(|why| Fault::Bytes { at, why })?;
            batches.skip_one();
            at += batch.size as usize;
        }
        match fault {
            Some(fault) if !self.is_cut() => Err(Fault::Bytes { at, why: why(fault) }),
            _ => Ok(at),
        }
    }

    fn take_batch(&mut self, batch: &BatchHead, byte: u64) -> Result<(), &'static str> {
        let extent = &mut self.found.extent;
        if batch.base != extent.end {
            return Err(OTHER_OFFSET);
        }
        let epoch = batch.epoch.ok_or(NO_EPOCH)?;
        if batch.base < self.state.end && Some(epoch) != epoch_at(&self.state.epochs, batch.base) {
            return Err(OTHER_EPOCH);
        }
        if extent.epochs.last().is_some_and(|it| it.epoch > epoch) {
            return Err(EPOCH_BACK);
        }
        extent.note(batch.base, epoch, byte);
        extent.end = batch.end();
        Ok(())
    }

    // Whether the fault may be that of a tail that was being written: behind all that was known to be on the disk, in the last segment.
    fn is_torn(&self, why: &str, is_last: bool) -> bool {
        is_last && [NO_BATCH, OTHER_OFFSET].contains(&why) && self.found.extent.end >= self.state.end
    }
}

// The leader epoch of the batch that begins at the offset.
fn epoch_at(epochs: &[EpochStart], offset: u64) -> Option<u32> {
    let count = epochs.partition_point(|it| it.start <= offset);
    epochs[..count].last().map(|it| it.epoch)
}

/// Reads back a node's log, of which this is the state. Nothing is written. O(n) in its bytes.
pub(crate) fn read_back(disk: &Disk, node: u8, state: &StateText) -> Result<ReadBack, StoreError> {
    let failed = |fault: StoreFault| StoreError::file(disk.path(), fault);
    let name = |base| StoreFile::Segment { node, base };
    let damaged = |base, byte: usize, why| StoreError::Damaged { path: name(base).path(disk.path()), byte: byte as u64, why };
    let refused = |error| StoreError::Refused { folder: StoreFile::Node(node).path(disk.path()), error };
    let bases = disk.bases(node).map_err(failed)?;
    let mut reader = Reader { state, found: ReadBack::default() };
    for base in &bases {
        if reader.is_cut() {
            reader.found.surplus.push(*base);
            continue;
        }
        if *base != reader.found.extent.end {
            return Err(damaged(*base, 0, HOLE));
        }
        let from = reader.found.log.len();
        disk.read_behind(name(*base), &mut reader.found.log).map_err(failed)?;
        let end = match reader.take(from) {
            Ok(end) => end,
            Err(Fault::Bytes { at, why }) if reader.is_torn(why, Some(base) == bases.last()) => {
                let bytes = (reader.found.log.len() - at) as u64;
                reader.found.torn = Some(TornTail { node, base: *base, byte: (at - from) as u64, bytes });
                at
            }
            Err(Fault::Bytes { at, why }) => return Err(damaged(*base, at - from, why)),
            Err(Fault::Library(error)) => return Err(refused(error)),
        };
        reader.found.log.truncate(end);
        reader.found.extent.segments.push(Segment { base: *base, bytes: (end - from) as u64 });
    }
    let ReadBack { extent, .. } = &reader.found;
    let last = extent.segments.last().copied().unwrap_or(Segment { base: 0, bytes: 0 });
    match extent.end.cmp(&state.end) {
        std::cmp::Ordering::Less => Err(damaged(last.base, last.bytes as usize, TOO_SHORT)),
        std::cmp::Ordering::Greater if state.cuts => Err(damaged(last.base, last.bytes as usize, NO_CUT)),
        _ => Ok(reader.found),
    }
}
