//! A folder in which a cluster's logs outlive the process.

#[cfg(test)]
mod crashes;
mod disk;
mod fault;
mod frames;
mod journal;
#[cfg(test)]
mod journaling;
mod keeper;
mod log_files;
#[cfg(test)]
#[path = "../tests/made/mod.rs"]
mod made;
#[cfg(test)]
mod orders;
mod read_back;
mod record_keeper;
#[cfg(test)]
mod tearing;
mod text;
#[cfg(test)]
mod watch;
#[cfg(test)]
mod wreck;

pub use fault::{StoreError, StoreFault, StoreFile};
pub use journal::Journal;
pub(crate) use keeper::Keeper;
pub use read_back::TornTail;
pub(crate) use record_keeper::RecordKeeper;

use crate::cluster::{Cluster, Keeping};
use crate::error::Error;
use crate::ffi::{Limits, RawCluster, open_what_a_store_left};
use crate::left::Left;
use crate::values::{Leadership, Promise};
use disk::Disk;
use log_files::Extent;
use read_back::{ReadBack, read_back};
use std::io::ErrorKind;
use std::path::Path;
use std::sync::Arc;
use text::{BadText, RecordText, StateText, mark_of};

const MOST_NODES: u8 = 7;
const NOT_THERE: &str = "it isn't there";

/// What [`Store::open`] has found in a folder.
#[derive(Clone, Debug, Default, PartialEq, Eq)]
#[non_exhaustive]
pub struct Store {
    /// The folder was new, or had no nodes yet.
    pub is_new: bool,
    /// What the process before this one had promised, as far as it is known: each pass of the cluster has recalled it.
    pub promise: Promise,
    /// What was cut from the nodes' logs, as it was being written when the power went.
    pub torn: Vec<TornTail>,
}

impl Store {
    /// Opens a cluster whose nodes' logs, their states and the controller's record are kept in a folder, which is made where it isn't there, and
    /// is locked until the last clone of the cluster and the last [`Pass`](crate::Pass) are gone. What was acknowledged stays, also where
    /// the process is killed, or the power goes. `docs/DURABLE.md` says what is written, and when.
    ///
    /// A new folder has a new cluster, as [`Cluster::open`] gives it. Where nodes are there they are read back, and all are restarted, also those
    /// that somebody had stopped: up, in their next lives, and idle. The record is as it was, but a leader that was restarted leads nobody
    /// until it, or another one, is elected anew.
    ///
    /// [`StoreError`] says what is wrong, and with which file. Where that is damage, nothing was written. Limits may be others than before, but
    /// for `max_batch`, below which no batch may lie. O(n) in the logs' bytes, of which one log at a time is in memory twice.
    ///
    /// ```
    /// use kpart::{Ack, Limits, Store};
    ///
    /// # fn main() -> Result<(), Box<dyn std::error::Error>> {
    /// # let folder = std::env::temp_dir().join(format!("kpart-doc-{}", std::process::id()));
    /// # let _gone = std::fs::remove_dir_all(&folder);
    /// let batch = include_bytes!(concat!(env!("CARGO_MANIFEST_DIR"), "/tests/one_record.batch"));
    /// for life in 0..3 {
    ///     let (cluster, store) = Store::open(&folder, 1, Limits::default())?;
    ///     assert_eq!((store.is_new, store.promise.offset), (life == 0, life));
    ///     let mut pass = cluster.pass()?;
    ///     pass.elect(0)?;
    ///     let mut leader = cluster.node(0)?;
    ///     leader.adopt()?;
    ///     let receipt = leader.produce(&mut pass, batch)?;
    ///     assert_eq!(receipt.base, life); // behind those of the lives before
    ///     leader.raise()?; // it is on the disk before it counts
    ///     assert_eq!(leader.acked(&mut pass, &receipt)?, Ack::Yes);
    /// }
    /// # std::fs::remove_dir_all(&folder)?;
    /// # Ok(()) }
    /// ```
    pub fn open(folder: impl AsRef<Path>, nodes: u8, limits: Limits) -> Result<(Cluster, Store), StoreError> {
        let folder = folder.as_ref();
        let disk = Disk::open(folder).map_err(|fault| match fault.kind {
            ErrorKind::WouldBlock => StoreError::Taken(folder.to_path_buf()),
            _ => StoreError::file(folder, fault),
        })?;
        let opening = Opening { disk: Arc::new(disk), nodes, limits };
        match opening.read(StoreFile::Record)? {
            None => opening.begin(),
            Some(text) => opening.go_on(&text),
        }
    }
}

struct Opening {
    disk: Arc<Disk>,
    nodes: u8,
    limits: Limits,
}

// A node as it was read back, but for its log.
struct FoundNode {
    extent: Extent,
    surplus: Vec<u64>,
    torn: Option<TornTail>,
    // A high watermark that it had once.
    mark: u64,
}

impl Opening {
    fn failed(&self, fault: StoreFault) -> StoreError {
        StoreError::file(self.disk.path(), fault)
    }

    fn called(&self, error: Error) -> StoreError {
        StoreError::called(self.disk.path(), error)
    }

    fn damaged(&self, file: StoreFile, bad: BadText) -> StoreError {
        StoreError::Damaged { path: file.path(self.disk.path()), byte: bad.byte, why: bad.why }
    }

    fn lacks(&self, file: StoreFile) -> StoreError {
        self.damaged(file, BadText { byte: 0, why: NOT_THERE })
    }

    fn read(&self, file: StoreFile) -> Result<Option<Vec<u8>>, StoreError> {
        self.disk.read(file).map_err(|it| self.failed(it))
    }

    fn keeping(&self, keepers: Vec<Keeper>, recalls: bool) -> Keeping {
        let record = Arc::new(RecordKeeper::new(self.disk.clone(), self.nodes));
        Keeping { keepers, record, recalls }
    }

    fn keeper(&self, node: u8, extent: Extent, mark: u64) -> Keeper {
        Keeper::new(self.disk.clone(), node, self.limits.segment_bytes, extent, mark)
    }

    // The record comes last: a folder without one has no nodes yet.
    fn begin(self) -> Result<(Cluster, Store), StoreError> {
        for node in 0..MOST_NODES {
            if !self.disk.bases(node).map_err(|it| self.failed(it))?.is_empty() {
                return Err(self.lacks(StoreFile::Record));
            }
        }
        let mut board = RawCluster::open(self.nodes, &self.limits).map_err(|it| self.called(it))?;
        let first = board.pass().and_then(|mut it| it.leadership()).map_err(|it| self.called(it))?;
        self.make_nodes().map_err(|it| self.failed(it))?;
        let keepers = (0..self.nodes).map(|it| self.keeper(it, Extent::default(), 0)).collect();
        let keeping = self.keeping(keepers, false);
        keeping.record.write(&Leadership::from(first)).map_err(|it| self.failed(it))?;
        let cluster = Cluster::of(board, self.nodes, Some(keeping)).map_err(|it| self.called(it))?;
        Ok((cluster, Store { is_new: true, ..Store::default() }))
    }

    fn make_nodes(&self) -> Result<(), StoreFault> {
        for node in 0..self.nodes {
            self.disk.make_folder(StoreFile::Node(node))?;
            let text = StateText::default().text();
            self.disk.replace(StoreFile::State(node), StoreFile::Node(node), text.as_bytes())?;
        }
        self.disk.sync_folder(StoreFile::Folder)?;
        self.disk.sync_parent()
    }

    // Nothing is written before all was read back.
    fn go_on(self, record: &[u8]) -> Result<(Cluster, Store), StoreError> {
        let record = RecordText::of(record).map_err(|it| self.damaged(StoreFile::Record, it))?;
        if record.nodes != self.nodes {
            return Err(StoreError::OtherNodes { folder: self.disk.path().to_path_buf(), found: record.nodes });
        }
        let mut left = Left::new(self.limits).map_err(|it| self.called(it))?;
        let found: Result<Vec<FoundNode>, StoreError> = (0..self.nodes).map(|it| self.read_node(it, &mut left)).collect();
        let found = found?;
        let marks = (0..).zip(&found).map(|(node, it)| Promise { node, offset: it.mark });
        let promise = marks.max_by_key(|it| it.offset).unwrap_or_default();
        let torn = found.iter().filter_map(|it| it.torn).collect();
        let keepers: Result<Vec<Keeper>, StoreError> = (0..).zip(found).map(|(node, it)| self.settled(node, it)).collect();
        let keeping = self.keeping(keepers?, true);
        self.disk.sync_folder(StoreFile::Folder).map_err(|it| self.failed(it))?;
        let board = open_what_a_store_left(left, &record.leadership, promise).map_err(|it| self.called(it))?;
        let cluster = Cluster::of(board, self.nodes, Some(keeping)).map_err(|it| self.called(it))?;
        for node in 0..self.nodes {
            cluster.node(node).and_then(|mut it| it.restart()).map_err(|it| self.called(it))?;
        }
        Ok((cluster, Store { is_new: false, promise, torn }))
    }

    fn read_node(&self, node: u8, left: &mut Left) -> Result<FoundNode, StoreError> {
        let file = StoreFile::State(node);
        let text = self.read(file)?.ok_or_else(|| self.lacks(file))?;
        let state = StateText::of(&text).map_err(|it| self.damaged(file, it))?;
        let ReadBack { log, extent, surplus, torn } = read_back(&self.disk, node, &state)?;
        left.keep(&log, state.kept).map_err(|error| {
            let folder = StoreFile::Node(node).path(self.disk.path());
            StoreError::Refused { folder, error }
        })?;
        let mark = self.read(StoreFile::Mark(node))?.and_then(|it| mark_of(&it)).unwrap_or_default();
        let mark = mark.max(state.kept.checkpoint).min(extent.end);
        Ok(FoundNode { extent, surplus, torn, mark })
    }

    fn settled(&self, node: u8, found: FoundNode) -> Result<Keeper, StoreError> {
        for base in found.surplus.iter().rev() {
            self.disk.remove(StoreFile::Segment { node, base: *base }).map_err(|it| self.failed(it))?;
        }
        Ok(self.keeper(node, found.extent, found.mark))
    }
}
