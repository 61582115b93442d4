//! A store's folder, its lock, and each operation on its files; each fault names the file.
//!
//! What is on the disk: the bytes of a file once it was synced, and that the file is there, or isn't, or has another name, once its folder was.

use super::fault::{StoreFault, StoreFile};
#[cfg(test)]
use super::watch::{Act, Watch};
use crate::ffi::{lock_alone, unlock};
use std::fs::{self, File, OpenOptions};
use std::io::{self, ErrorKind, Read};
use std::os::unix::fs::FileExt;
use std::path::{Path, PathBuf, absolute};

// Behind a file's name as long as it is being written.
const NEXT: &str = ".next";

// So many digits the name of a segment's file has before `.log`.
const DIGITS: usize = 20;

// A test is told of the operation, and may refuse it; else this is nothing.
macro_rules! told {
    ($disk:expr, $name:expr, $act:expr) => {
        #[cfg(test)]
        $disk.tells($name, $act)?;
    };
}

/// A store's folder, which is locked until this is dropped.
#[derive(Debug)]
pub(crate) struct Disk {
    path: PathBuf,
    lock: File,
    #[cfg(test)]
    watch: std::sync::Arc<Watch>,
}

impl Drop for Disk {
    fn drop(&mut self) {
        unlock(&self.lock);
    }
}

/// A file that is open.
#[derive(Debug)]
pub(crate) struct DiskFile {
    file: File,
    name: StoreFile,
}

impl Disk {
    /// Makes the folder where it isn't there, and locks it. The fault's kind is `WouldBlock` where it is open already.
    pub(crate) fn open(path: &Path) -> Result<Disk, StoreFault> {
        let fault = StoreFault::of(StoreFile::Folder);
        or_is_there(fs::create_dir(path)).map_err(&fault)?;
        let lock = File::open(path).map_err(&fault)?;
        lock_alone(&lock).map_err(&fault)?;
        Ok(Disk {
            path: absolute(path).map_err(&fault)?, // also where the process goes to another folder
            lock,
            #[cfg(test)]
            watch: Watch::of_thread(),
        })
    }

    /// Where it is.
    pub(crate) fn path(&self) -> &Path {
        &self.path
    }

    fn path_of(&self, name: StoreFile) -> PathBuf {
        name.path(&self.path)
    }

    #[cfg(test)]
    fn tells(&self, name: StoreFile, act: Act) -> Result<(), StoreFault> {
        self.watch.hears(name, act).map_err(StoreFault::of(name))
    }

    /// That the folder is there is on the disk then.
    pub(crate) fn sync_parent(&self) -> Result<(), StoreFault> {
        let path = self.path.canonicalize().map_err(StoreFault::of(StoreFile::Folder))?;
        let parent = path.parent().unwrap_or(&path);
        File::open(parent).and_then(|it| it.sync_all()).map_err(StoreFault::of(StoreFile::Folder))
    }

    /// Makes a node's folder where it isn't there. Sync the store's folder afterwards.
    pub(crate) fn make_folder(&self, name: StoreFile) -> Result<(), StoreFault> {
        told!(self, name, Act::MakeFolder);
        or_is_there(fs::create_dir(self.path_of(name))).map_err(StoreFault::of(name))
    }

    /// Which files a folder has is on the disk then.
    pub(crate) fn sync_folder(&self, name: StoreFile) -> Result<(), StoreFault> {
        told!(self, name, Act::SyncFolder);
        File::open(self.path_of(name)).and_then(|it| it.sync_all()).map_err(StoreFault::of(name))
    }

    /// The offsets by which the segments of a node's log are named, in their order; none where its folder isn't there. Other files are left
    /// alone.
    pub(crate) fn bases(&self, node: u8) -> Result<Vec<u64>, StoreFault> {
        let fault = StoreFault::of(StoreFile::Node(node));
        let mut bases = Vec::new();
        let entries = match fs::read_dir(self.path_of(StoreFile::Node(node))) {
            Err(error) if error.kind() == ErrorKind::NotFound => return Ok(bases),
            entries => entries.map_err(&fault)?,
        };
        for entry in entries {
            let name = entry.map_err(&fault)?.file_name();
            bases.extend(name.to_str().and_then(base_of));
        }
        bases.sort_unstable();
        Ok(bases)
    }

    /// What a file has; none where it isn't there.
    pub(crate) fn read(&self, name: StoreFile) -> Result<Option<Vec<u8>>, StoreFault> {
        match fs::read(self.path_of(name)) {
            Ok(bytes) => Ok(Some(bytes)),
            Err(error) if error.kind() == ErrorKind::NotFound => Ok(None),
            Err(error) => Err(StoreFault::of(name)(error)),
        }
    }

    /// Puts a file with these bytes in place of the one that is there, if there is one. After a fault the one or the other is there, whole.
    pub(crate) fn replace(&self, name: StoreFile, folder: StoreFile, bytes: &[u8]) -> Result<(), StoreFault> {
        let (path, fault) = (self.path_of(name), StoreFault::of(name));
        let mut next = path.clone().into_os_string();
        next.push(NEXT);
        told!(self, name, Act::WriteNext(bytes.to_vec()));
        let file = OpenOptions::new().write(true).create(true).truncate(true).open(&next).map_err(&fault)?;
        file.write_all_at(bytes, 0).map_err(&fault)?;
        told!(self, name, Act::SyncNext);
        file.sync_all().map_err(&fault)?;
        told!(self, name, Act::Rename);
        fs::rename(&next, &path).map_err(&fault)?;
        self.sync_folder(folder).map_err(|it| StoreFault { file: name, ..it })
    }

    /// Makes an empty file, which isn't there yet. Sync its folder afterwards.
    pub(crate) fn create(&self, name: StoreFile) -> Result<DiskFile, StoreFault> {
        told!(self, name, Act::Create);
        let file = OpenOptions::new().read(true).write(true).create_new(true).open(self.path_of(name));
        Ok(DiskFile { file: file.map_err(StoreFault::of(name))?, name })
    }

    /// Opens a file to be written, which is made where it isn't there and `makes` says so.
    pub(crate) fn open_file(&self, name: StoreFile, makes: bool) -> Result<DiskFile, StoreFault> {
        let file = OpenOptions::new().read(true).write(true).create(makes).truncate(false).open(self.path_of(name));
        Ok(DiskFile { file: file.map_err(StoreFault::of(name))?, name })
    }

    /// Takes a file away, where it is there. Sync its folder afterwards.
    pub(crate) fn remove(&self, name: StoreFile) -> Result<(), StoreFault> {
        told!(self, name, Act::Remove);
        match fs::remove_file(self.path_of(name)) {
            Err(error) if error.kind() != ErrorKind::NotFound => Err(StoreFault::of(name)(error)),
            _ => Ok(()),
        }
    }

    /// Puts a file's bytes behind those that the buffer holds.
    pub(crate) fn read_behind(&self, name: StoreFile, bytes: &mut Vec<u8>) -> Result<(), StoreFault> {
        let read = File::open(self.path_of(name)).and_then(|mut it| it.read_to_end(bytes));
        read.map(drop).map_err(StoreFault::of(name))
    }

    /// Writes the bytes from a place of the file on.
    pub(crate) fn write_at(&self, file: &DiskFile, bytes: &[u8], place: u64) -> Result<(), StoreFault> {
        #[cfg(test)]
        if let Err(fault) = self.tells(file.name, Act::Write(place, bytes.to_vec())) {
            file.write_at(&bytes[..bytes.len() / 2], place)?; // as a full disk does
            return Err(fault);
        }
        file.write_at(bytes, place)
    }

    /// Makes the file so long.
    pub(crate) fn set_length(&self, file: &DiskFile, bytes: u64) -> Result<(), StoreFault> {
        told!(self, file.name, Act::SetLength(bytes));
        file.file.set_len(bytes).map_err(StoreFault::of(file.name))
    }

    /// What the file has is on the disk then.
    pub(crate) fn sync(&self, file: &DiskFile) -> Result<(), StoreFault> {
        told!(self, file.name, Act::Sync);
        file.file.sync_data().map_err(StoreFault::of(file.name))
    }
}

impl DiskFile {
    fn write_at(&self, bytes: &[u8], place: u64) -> Result<(), StoreFault> {
        self.file.write_all_at(bytes, place).map_err(StoreFault::of(self.name))
    }

    /// How many bytes it has.
    pub(crate) fn length(&self) -> Result<u64, StoreFault> {
        self.file.metadata().map(|it| it.len()).map_err(StoreFault::of(self.name))
    }
}

fn or_is_there(made: io::Result<()>) -> io::Result<()> {
    made.or_else(|error| if error.kind() == ErrorKind::AlreadyExists { Ok(()) } else { Err(error) })
}

// Of a segment's file, as Kafka names it: 20 digits, and `.log`.
fn base_of(name: &str) -> Option<u64> {
    let digits = name.strip_suffix(".log").filter(|it| it.len() == DIGITS)?;
    if digits.bytes().all(|it| it.is_ascii_digit()) { digits.parse().ok() } else { None }
}

#[cfg(test)]
mod tests {
    use super::*;

    #[test]
    fn only_segments_are_segments() {
        assert_eq!(base_of("00000000000000000017.log"), Some(17));
        assert_eq!(base_of("18446744073709551615.log"), Some(u64::MAX));
        for name in
            ["17.log", "0000000000000000017.log", "+0000000000000000017.log", "99999999999999999999.log", "state", "00000000000000000017"]
        {
            assert_eq!(base_of(name), None, "{name}");
        }
    }
}
