//! What can go wrong with a store's files, and their names.

use crate::error::Error;
use std::fmt;
use std::io;
use std::path::{Path, PathBuf};

/// A file or folder of a store, by what it has.
#[derive(Clone, Copy, Debug, PartialEq, Eq)]
#[non_exhaustive]
pub enum StoreFile {
    /// The store's folder.
    Folder,
    /// `record`: the controller's record.
    Record,
    /// `node-N`: the folder of a node.
    Node(u8),
    /// `node-N/state`: what is kept of a node beside its log.
    State(u8),
    /// `node-N/mark`: a high watermark that the node had.
    Mark(u8),
    /// `node-N/00000000000000000000.log`: a segment of the node's log.
    Segment {
        /// The node.
        node: u8,
        /// The offset of the segment's first record.
        base: u64,
    },
    /// `journal`: what a host keeps beside its logs.
    Journal,
}

impl StoreFile {
    /// Its path, where the store's folder is this one.
    pub fn path(self, folder: &Path) -> PathBuf {
        match self {
            StoreFile::Folder => folder.to_path_buf(),
            file => folder.join(file.to_string()),
        }
    }
}

/// The path in the store's folder; of that folder, a point.
impl fmt::Display for StoreFile {
    fn fmt(&self, out: &mut fmt::Formatter<'_>) -> fmt::Result {
        match self {
            StoreFile::Folder => out.write_str("."),
            StoreFile::Record => out.write_str("record"),
            StoreFile::Node(node) => write!(out, "node-{node}"),
            StoreFile::State(node) => write!(out, "node-{node}/state"),
            StoreFile::Mark(node) => write!(out, "node-{node}/mark"),
            StoreFile::Segment { node, base } => write!(out, "node-{node}/{base:020}.log"),
            StoreFile::Journal => out.write_str("journal"),
        }
    }
}

/// A file of a store could not be written, or read: nothing was done that rests on it. Where it is of a node, the node is stopped;
/// [`Node::restart`](crate::Node::restart) tries again. Where it is the record, no election or decision has happened.
#[derive(Clone, Copy, Debug, PartialEq, Eq)]
pub struct StoreFault {
    /// The file.
    pub file: StoreFile,
    /// What kind of error it was.
    pub kind: io::ErrorKind,
    /// The system's number of it, where it has one: 28 where the disk is full.
    pub code: Option<i32>,
}

impl StoreFault {
    pub(crate) fn of(file: StoreFile) -> impl Fn(io::Error) -> StoreFault {
        move |error| StoreFault { file, kind: error.kind(), code: error.raw_os_error() }
    }

    fn error(&self) -> io::Error {
        self.code.map_or_else(|| self.kind.into(), io::Error::from_raw_os_error)
    }
}

impl fmt::Display for StoreFault {
    fn fmt(&self, out: &mut fmt::Formatter<'_>) -> fmt::Result {
        write!(out, "{}: {}", self.file, self.error())
    }
}

impl std::error::Error for StoreFault {}

/// Why a store wasn't opened.
#[derive(Debug)]
#[non_exhaustive]
pub enum StoreError {
    /// It is open already, in this process or another one.
    Taken(PathBuf),
    /// A file or folder could not be read or written.
    File {
        /// Its path.
        path: PathBuf,
        /// What the system says.
        error: io::Error,
    },
    /// A file isn't as a store has left it, also not one that lost its power. Nothing was written.
    Damaged {
        /// Its path.
        path: PathBuf,
        /// The first byte that can't be there, or where one lacks.
        byte: u64,
        /// What is wrong with it.
        why: &'static str,
    },
    /// The folder has another number of nodes. Nothing was written.
    OtherNodes {
        /// The folder.
        folder: PathBuf,
        /// How many it has.
        found: u8,
    },
    /// The library refuses the log in that folder, or to open the cluster.
    Refused {
        /// The folder: a node's, or the store's.
        folder: PathBuf,
        /// What it says.
        error: Error,
    },
}

impl StoreError {
    pub(crate) fn file(folder: &Path, fault: StoreFault) -> StoreError {
        StoreError::File { path: fault.file.path(folder), error: fault.error() }
    }

    // Once the files were read, of a call of the cluster.
    pub(crate) fn called(folder: &Path, error: Error) -> StoreError {
        match error {
            Error::Store(fault) => StoreError::file(folder, fault),
            error => StoreError::Refused { folder: folder.to_path_buf(), error },
        }
    }
}

impl fmt::Display for StoreError {
    fn fmt(&self, out: &mut fmt::Formatter<'_>) -> fmt::Result {
        match self {
            StoreError::Taken(folder) => write!(out, "{}: it is open already", folder.display()),
            StoreError::File { path, error } => write!(out, "{}: {error}", path.display()),
            StoreError::Damaged { path, byte, why } => write!(out, "{}: byte {byte}: {why}", path.display()),
            StoreError::OtherNodes { folder, found } => write!(out, "{}: it has {found} nodes", folder.display()),
            StoreError::Refused { folder, error } => write!(out, "{}: {error}", folder.display()),
        }
    }
}

impl std::error::Error for StoreError {}

#[cfg(test)]
mod tests {
    use super::*;

    #[test]
    fn faults_name_their_files() {
        let full = StoreFault::of(StoreFile::Segment { node: 2, base: 17 })(io::Error::from_raw_os_error(28));
        assert_eq!(full.to_string(), "node-2/00000000000000000017.log: No space left on device (os error 28)");
        assert_eq!((full.kind, full.code), (io::ErrorKind::StorageFull, Some(28)));
        let short = StoreFault::of(StoreFile::Record)(io::ErrorKind::WriteZero.into());
        assert_eq!(StoreError::file(Path::new("a"), short).to_string(), "a/record: write zero");
        let damaged = StoreError::Damaged { path: StoreFile::State(0).path(Path::new("a")), byte: 3, why: "its checksum differs" };
        assert_eq!(damaged.to_string(), "a/node-0/state: byte 3: its checksum differs");
        assert_eq!(StoreFile::Folder.path(Path::new("a")), Path::new("a"));
        assert_eq!(StoreFile::Node(1).to_string() + " " + &StoreFile::Mark(1).to_string(), "node-1 node-1/mark");
    }
}
