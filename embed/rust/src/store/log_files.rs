//! A node's log in files: segments, one behind another, that roll as the library's own do.

use super::disk::{Disk, DiskFile};
use super::fault::{StoreFault, StoreFile};
use super::text::EpochStart;
use crate::values::BatchHead;
use std::sync::Arc;

/// A segment's file.
#[derive(Clone, Copy, Debug, PartialEq, Eq)]
pub(crate) struct Segment {
    /// The offset of its first record, by which it is named.
    pub base: u64,
    /// How many of its bytes are on the disk.
    pub bytes: u64,
}

/// Where a batch begins.
#[derive(Clone, Copy, Debug, PartialEq, Eq)]
pub(crate) struct BatchStart {
    /// Its base offset.
    pub offset: u64,
    /// The byte of its segment's file.
    pub byte: u64,
}

/// What is on the disk of a log.
#[derive(Clone, Debug, Default, PartialEq, Eq)]
pub(crate) struct Extent {
    pub segments: Vec<Segment>,
    /// The log end offset.
    pub end: u64,
    pub epochs: Vec<EpochStart>,
    /// Of each batch, so that a cut reads no file.
    pub starts: Vec<BatchStart>,
}

impl Extent {
    /// Notes a batch that comes behind the others.
    pub(crate) fn note(&mut self, base: u64, epoch: u32, byte: u64) {
        if self.epochs.last().is_none_or(|it| it.epoch != epoch) {
            self.epochs.push(EpochStart { epoch, start: base });
        }
        self.starts.push(BatchStart { offset: base, byte });
    }

    // The batches behind the log's end were lost, or cut.
    fn forget_behind(&mut self) {
        self.epochs.retain(|it| it.start < self.end);
        self.starts.truncate(self.starts.partition_point(|it| it.offset < self.end));
    }
}

/// The files of a log, to which batches are added, and by which it is cut.
///
/// After a fault it isn't known what of the last steps is on the disk. `mend` then takes back what isn't known to be there, so that it is written
/// again, or goes on with the cut.
#[derive(Debug)]
pub(crate) struct LogFiles {
    disk: Arc<Disk>,
    node: u8,
    // The most bytes of a segment that has more than one batch.
    most: u64,
    extent: Extent,
    // The last segment's.
    last: Option<DiskFile>,
    // What comes behind the extent: so many bytes were written, but not synced; these weren't written; and so far it will reach.
    written: u64,
    waiting: Vec<u8>,
    next_end: u64,
    is_whole: bool,
    cuts_to: Option<u64>,
}

impl LogFiles {
    /// Of a log of which that is in files. They are mended, and then known to be on the disk.
    pub(crate) fn of(disk: Arc<Disk>, node: u8, segment_bytes: u32, extent: Extent) -> LogFiles {
        let next_end = extent.end;
        let (last, waiting) = (None, Vec::new());
        LogFiles { disk, node, most: segment_bytes.into(), extent, last, written: 0, waiting, next_end, is_whole: false, cuts_to: None }
    }

    /// What of the log is on the disk.
    pub(crate) fn extent(&self) -> &Extent {
        &self.extent
    }

    fn name(&self, base: u64) -> StoreFile {
        StoreFile::Segment { node: self.node, base }
    }

    fn sync_folder(&self) -> Result<(), StoreFault> {
        self.disk.sync_folder(StoreFile::Node(self.node))
    }

    // The bytes of the last segment with all that comes behind it; none where there is no segment.
    fn held(&self) -> Option<u64> {
        self.extent.segments.last().map(|it| it.bytes + self.written + self.waiting.len() as u64)
    }

    /// Where the bytes of the next batch are to be put, behind those that are there. Of the log's batches each comes just once, in order.
    pub(crate) fn place(&mut self, batch: &BatchHead) -> Result<&mut Vec<u8>, StoreFault> {
        debug_assert_eq!(batch.base, self.next_end);
        self.is_whole = false;
        let fits = |held| held == 0 || held + u64::from(batch.size) <= self.most;
        if !self.held().is_some_and(fits) {
            self.roll(batch.base)?;
        }
        let byte = self.held().unwrap_or_default();
        self.extent.note(batch.base, batch.epoch.unwrap_or_default(), byte);
        self.next_end = batch.end();
        Ok(&mut self.waiting)
    }

    // The segments before the last one are on the disk to their ends, and the folder has the last one before it has a batch.
    fn roll(&mut self, base: u64) -> Result<(), StoreFault> {
        self.sync()?;
        self.is_whole = false;
        self.last = Some(self.disk.create(self.name(base))?);
        self.sync_folder()?;
        self.extent.segments.push(Segment { base, bytes: 0 });
        Ok(())
    }

    /// Writes what waits.
    pub(crate) fn write(&mut self) -> Result<(), StoreFault> {
        let (Some(segment), Some(file), false) = (self.extent.segments.last(), &self.last, self.waiting.is_empty()) else { return Ok(()) };
        self.disk.write_at(file, &self.waiting, segment.bytes + self.written)?;
        self.written += self.waiting.len() as u64;
        self.waiting.clear();
        Ok(())
    }

    /// All that was put there is on the disk then.
    pub(crate) fn sync(&mut self) -> Result<(), StoreFault> {
        self.write()?;
        if let (Some(segment), Some(file)) = (self.extent.segments.last_mut(), &self.last) {
            if self.written > 0 {
                self.disk.sync(file)?;
            }
            segment.bytes += self.written;
        }
        self.written = 0;
        self.extent.end = self.next_end;
        self.is_whole = true;
        Ok(())
    }

    /// Where something failed, what isn't known to be on the disk is taken back, or a cut is ended. Call it before anything is put there.
    pub(crate) fn mend(&mut self) -> Result<(), StoreFault> {
        match self.cuts_to {
            Some(end) => self.cut(end),
            None if self.is_whole => Ok(()),
            None => self.take_back(),
        }
    }

    fn take_back(&mut self) -> Result<(), StoreFault> {
        let end = self.extent.end;
        (self.written, self.next_end, self.last) = (0, end, None);
        self.waiting.clear();
        self.extent.forget_behind();
        if self.extent.segments.last().is_none_or(|it| it.base != end) {
            self.disk.remove(self.name(end))?; // that was to be the next one
        }
        self.shorten(None)?;
        self.sync_folder()?;
        self.is_whole = true;
        Ok(())
    }

    // Opens the last segment, and makes it so long, or as long as is known.
    fn shorten(&mut self, length: Option<u64>) -> Result<(), StoreFault> {
        let Some(segment) = self.extent.segments.last() else { return Ok(()) };
        let file = self.disk.open_file(self.name(segment.base), false)?;
        let bytes = length.unwrap_or(segment.bytes);
        self.disk.set_length(&file, bytes)?;
        self.disk.sync(&file)?;
        self.last = Some(file);
        let segment = self.extent.segments.last_mut().expect("it is there");
        segment.bytes = bytes;
        Ok(())
    }

    /// Cuts the log to an offset at which one of its batches begins, the newest segment first. All of it is on the disk.
    pub(crate) fn cut(&mut self, end: u64) -> Result<(), StoreFault> {
        self.cuts_to = Some(end);
        self.last = None;
        while let Some(segment) = self.extent.segments.last().filter(|it| it.base >= end) {
            self.disk.remove(self.name(segment.base))?;
            self.extent.segments.pop();
        }
        // A batch that begins a segment was the first one of those that are gone.
        let next = self.extent.starts.partition_point(|it| it.offset < end);
        self.shorten(self.extent.starts.get(next).map(|it| it.byte).filter(|it| *it > 0))?;
        self.sync_folder()?;
        (self.extent.end, self.next_end) = (end, end);
        self.extent.forget_behind();
        (self.cuts_to, self.is_whole) = (None, true);
        Ok(())
    }
}
