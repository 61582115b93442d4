//! What keeps a node in its folder, by the rules of `docs/DURABLE.md`. The node's lock is held at each call.

use super::disk::{Disk, DiskFile};
use super::fault::{StoreFault, StoreFile};
use super::log_files::{Extent, LogFiles};
use super::text::{StateText, mark_text};
use crate::batches::Batches;
use crate::error::Error;
use crate::ffi::RawNode;
use crate::values::{NodeState, Status};
use std::sync::Arc;
use std::time::{Duration, Instant};

// So many bytes of new batches are asked for at a time, and written at once.
const CHUNK: u32 = 1 << 20;

// By its own turns a node notes a checkpoint so rarely, as each is a file to be replaced.
const BETWEEN_NOTES: Duration = Duration::from_secs(1);

/// Keeps a node's log, its state and its mark.
#[derive(Debug)]
pub(crate) struct Keeper {
    disk: Arc<Disk>,
    node: u8,
    files: LogFiles,
    // A high watermark that the node had, as the file of it says.
    mark: u64,
    mark_file: Option<DiskFile>,
    next_note: Instant,
}

impl Keeper {
    /// Of a node of which that is in the files, and which had that high watermark once.
    pub(crate) fn new(disk: Arc<Disk>, node: u8, segment_bytes: u32, extent: Extent, mark: u64) -> Keeper {
        let files = LogFiles::of(disk.clone(), node, segment_bytes, extent);
        Keeper { disk, node, files, mark, mark_file: None, next_note: Instant::now() }
    }

    #[cfg(test)]
    pub(super) fn files(&mut self) -> &mut LogFiles {
        &mut self.files
    }

    /// The rule of sends. What a node tells others, or counts itself for, rests on its log, which is on the disk then up to its end. One that
    /// is down tells nothing. F33 and [`Error::NoRoom`] where the library has no memory to hand the batches out.
    pub(crate) fn before_sending(&mut self, raw: &mut RawNode, state: &NodeState) -> Result<(), Error> {
        if state.status == Status::Down { Ok(()) } else { self.sync(raw, state) }
    }

    /// The rule of states. What it has become is on the disk, as its log was before, until which it does nothing else.
    pub(crate) fn after_change(&mut self, _raw: &mut RawNode, state: &NodeState) -> Result<(), Error> {
        Ok(self.write_state(state)?)
    }

    /// The rule of checkpoints. Its state is on the disk as a checkpoint will make it.
    pub(crate) fn before_checkpoint(&mut self, raw: &mut RawNode, state: &NodeState) -> Result<(), Error> {
        if state.status == Status::Down || state.checkpoint == state.watermark {
            return Ok(());
        }
        self.sync(raw, state)?;
        Ok(self.write_state(&NodeState { checkpoint: state.watermark, ..*state })?)
    }

    /// The rule of states. Of a node that is up.
    pub(crate) fn before_stop(&mut self, raw: &mut RawNode, state: &NodeState) -> Result<(), Error> {
        if state.status == Status::Down {
            return Ok(());
        }
        self.sync(raw, state)?;
        Ok(self.write_state(state)?)
    }

    /// The rule of states. Of a node that is down: its log is on the disk, also where it went down as that failed.
    pub(crate) fn before_start(&mut self, raw: &mut RawNode, state: &NodeState) -> Result<(), Error> {
        if state.status != Status::Down {
            return Ok(());
        }
        self.follow_cut(state)?;
        self.sync(raw, state)
    }

    /// The rule of cuts. Its log's files are cut where the message that it took has cut its log.
    pub(crate) fn after_step(&mut self, _raw: &mut RawNode, state: &NodeState) -> Result<(), Error> {
        Ok(self.follow_cut(state)?)
    }

    // All that was added to the log since the last time, by one sync but for one at each end of a segment. First it ends what a fault, or the
    // process before this one, has left half done.
    fn sync(&mut self, raw: &mut RawNode, state: &NodeState) -> Result<(), Error> {
        self.files.mend()?;
        let mut next = self.files.extent().end;
        if next == state.end {
            return Ok(());
        }
        while next < state.end {
            let mut batches = Batches::new(raw.log_from(next, CHUNK)?)?;
            next = self.add(&mut batches)?.unwrap_or(state.end);
            self.files.write()?;
        }
        Ok(self.files.sync()?)
    }

    // Where they end; none where there are none.
    fn add(&mut self, batches: &mut Batches) -> Result<Option<u64>, Error> {
        let mut end = None;
        while let Some(head) = batches.head()? {
            batches.append_to(self.files.place(&head)?)?;
            end = Some(head.end());
        }
        Ok(end)
    }

    // Puts what is kept of this in place of the node's state that is on the disk. The log is there up to its end.
    pub(super) fn write_state(&mut self, state: &NodeState) -> Result<(), StoreFault> {
        let Extent { end, epochs, .. } = self.files.extent();
        self.replace_state(&StateText { kept: state.into(), end: *end, epochs: epochs.clone(), cuts: false })?;
        self.next_note = Instant::now() + BETWEEN_NOTES;
        Ok(())
    }

    fn replace_state(&self, state: &StateText) -> Result<(), StoreFault> {
        self.disk.replace(StoreFile::State(self.node), StoreFile::Node(self.node), state.text().as_bytes())
    }

    // First the state says so, so that a cut that ends half way is ended by whoever reads it back: no run leaves a log that is half cut.
    pub(super) fn follow_cut(&mut self, state: &NodeState) -> Result<(), StoreFault> {
        let Extent { end, epochs, .. } = self.files.extent();
        if state.end >= *end {
            return Ok(());
        }
        let epochs = epochs.iter().filter(|it| it.start < state.end).copied().collect();
        self.replace_state(&StateText { kept: state.into(), end: state.end, epochs, cuts: true })?;
        self.files.cut(state.end)?;
        self.write_state(state)
    }

    /// Notes a high watermark that the node has, up to which its log is on the disk. It isn't synced, and where it fails it is of no account:
    /// less is promised then to who opens the store again.
    pub(crate) fn note_mark(&mut self, mark: u64) {
        if mark > self.mark {
            self.mark = mark;
            let _noted = self.write_mark();
        }
    }

    fn write_mark(&mut self) -> Result<(), StoreFault> {
        let file = match self.mark_file.take() {
            Some(file) => file,
            None => self.disk.open_file(StoreFile::Mark(self.node), true)?,
        };
        let text = mark_text(self.mark);
        let file = self.mark_file.insert(file);
        self.disk.write_at(file, text.as_bytes(), 0)?;
        if file.length()? > text.len() as u64 {
            self.disk.set_length(file, text.len() as u64)?; // it was no mark's
        }
        Ok(())
    }

    /// Whether a checkpoint is to be noted at the node's own turn.
    pub(crate) fn is_due(&self) -> bool {
        self.next_note <= Instant::now()
    }
}
