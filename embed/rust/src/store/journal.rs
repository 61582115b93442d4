//! A file of keys and values that outlives the process, for what a host keeps beside its logs.

use super::disk::{Disk, DiskFile};
use super::fault::{StoreError, StoreFault, StoreFile};
use super::frames::{self, Entries, HEAD};
use crate::cluster::lock;
use std::io::ErrorKind;
use std::path::Path;
use std::sync::Mutex;
use std::sync::atomic::{AtomicU64, Ordering};

// The file is written anew once so many bytes have come, and twice as many as its entries take.
const GROWS: u64 = 1 << 20;

/// Keys with their values, in the file `journal` of a folder. Changes that are put together count together, also where the process is killed or the
/// power goes; and once they are settled, they stay.
///
/// [`Journal::put`] writes nothing, so it may be called under a lock that orders the changes. [`Journal::settle`] waits for the disk; of
/// threads that wait one writes for all, by one sync. After a fault nothing is settled that wasn't; the next call tries again. The entries lie in
/// memory, too, and from time to time the file is written anew with just these. `broker/README.md` says what is in it.
///
/// ```
/// use kpart::Journal;
///
/// # fn main() -> Result<(), Box<dyn std::error::Error>> {
/// # let folder = std::env::temp_dir().join(format!("kpart-journal-{}", std::process::id()));
/// # let _gone = std::fs::remove_dir_all(&folder);
/// let journal = Journal::open(&folder)?;
/// assert!(journal.is_new());
/// let ticket = journal.put([(b"group".to_vec(), Some(b"17".to_vec())), (b"life".to_vec(), Some(b"1".to_vec()))]);
/// journal.settle(ticket)?; // from here on both are there
/// journal.put([(b"life".to_vec(), None)]); // and this may be lost
/// drop(journal);
/// assert_eq!(Journal::open(&folder)?.entries()[0], (b"group".to_vec(), b"17".to_vec()));
/// # std::fs::remove_dir_all(&folder)?;
/// # Ok(()) }
/// ```
#[derive(Debug)]
pub struct Journal {
    disk: Disk,
    is_new: bool,
    torn: Option<(u64, u64)>,
    grows: u64,
    book: Mutex<Book>,
    // Taken before the book by whoever writes.
    tail: Mutex<Tail>,
    settled: AtomicU64,
}

// The entries as all changes have made them that were put, and the changes that are in no frame yet.
#[derive(Debug)]
struct Book {
    entries: Entries,
    waiting: Vec<u8>,
    put: u64,
}

// Where the next frame goes; without a file that isn't known, and all is written anew.
#[derive(Debug, Default)]
struct Tail {
    file: Option<DiskFile>,
    first: u64,
    end: u64,
    number: u64,
    // That the folder is there is to be synced, too.
    is_new: bool,
}

// What is to be written: a frame, or a whole file.
enum Writing {
    Frame(Vec<u8>),
    File(Entries),
}

impl Journal {
    /// Opens a folder's journal. The folder is made where it isn't there, and locked until this is dropped: [`StoreError::Taken`] where it is open
    /// already. What was being written as the power went is cut off ([`Journal::torn`]); anything else that a journal hasn't left is
    /// [`StoreError::Damaged`]. Nothing is written before [`Journal::settle`]. O(n) in the file.
    pub fn open(folder: impl AsRef<Path>) -> Result<Journal, StoreError> {
        Journal::open_with(folder.as_ref(), GROWS)
    }

    pub(super) fn open_with(folder: &Path, grows: u64) -> Result<Journal, StoreError> {
        let disk = Disk::open(folder).map_err(|fault| match fault.kind {
            ErrorKind::WouldBlock => StoreError::Taken(folder.to_path_buf()),
            _ => StoreError::file(folder, fault),
        })?;
        let bytes = disk.read(StoreFile::Journal).map_err(|it| StoreError::file(folder, it))?;
        let is_new = bytes.is_none();
        let found = bytes.map_or(Ok(frames::Found::default()), |it| frames::read(&it)).map_err(|bad| {
            let path = StoreFile::Journal.path(disk.path());
            StoreError::Damaged { path, byte: bad.byte, why: bad.why }
        })?;
        let book = Book { entries: found.entries, waiting: Vec::new(), put: 0 };
        let tail = Mutex::new(Tail { is_new, ..Tail::default() });
        Ok(Journal { disk, is_new, torn: found.torn, grows, book: Mutex::new(book), tail, settled: AtomicU64::new(0) })
    }

    /// Whether the folder had no journal.
    pub fn is_new(&self) -> bool {
        self.is_new
    }

    /// What was being written as the power went: from which byte of the file on it was cut, and how many bytes. It never counted.
    pub fn torn(&self) -> Option<(u64, u64)> {
        self.torn
    }

    /// The folder's path.
    pub fn folder(&self) -> &Path {
        self.disk.path()
    }

    /// All keys with their values, by rising keys.
    pub fn entries(&self) -> Vec<(Vec<u8>, Vec<u8>)> {
        lock(&self.book).entries.iter().map(|(key, value)| (key.clone(), value.clone())).collect()
    }

    /// Puts changes: keys with their next values, or with none where they go. They count together once they are settled, and in the order in
    /// which they were put. The ticket is for [`Journal::settle`]; of what changes nothing it is the last one's. O(n) in their bytes, and no file
    /// is touched.
    pub fn put(&self, changes: impl IntoIterator<Item = (Vec<u8>, Option<Vec<u8>>)>) -> u64 {
        let mut book = lock(&self.book);
        let before = book.waiting.len();
        for (key, value) in changes {
            if book.entries.get(&key) == value.as_ref() {
                continue;
            }
            frames::put_change(&mut book.waiting, &key, value.as_deref());
            match value {
                Some(value) => book.entries.insert(key, value),
                None => book.entries.remove(&key),
            };
        }
        book.put += u64::from(book.waiting.len() > before);
        book.put
    }

    /// The last ticket.
    pub fn last(&self) -> u64 {
        lock(&self.book).put
    }

    /// Waits until all that was put up to that ticket is on the disk. At a fault it isn't known to be there, and the next call tries again.
    pub fn settle(&self, ticket: u64) -> Result<(), StoreFault> {
        if self.settled.load(Ordering::SeqCst) >= ticket {
            return Ok(());
        }
        // Whoever has this writes for all that wait for it.
        let mut tail = lock(&self.tail);
        if self.settled.load(Ordering::SeqCst) >= ticket {
            return Ok(());
        }
        let (writing, last) = self.taken(&tail);
        self.write(&mut tail, writing)?;
        self.settled.store(last, Ordering::SeqCst);
        Ok(())
    }

    // What is in no frame yet, or, where the file is to be written anew, all; and the last ticket of it.
    fn taken(&self, tail: &Tail) -> (Writing, u64) {
        let mut book = lock(&self.book);
        let waiting = std::mem::take(&mut book.waiting);
        let is_long = tail.end - tail.first > self.grows.max(2 * tail.first);
        let writing = if tail.file.is_none() || is_long { Writing::File(book.entries.clone()) } else { Writing::Frame(waiting) };
        (writing, book.put)
    }

    // Until all is done the file isn't known, so that after a fault it is written anew: what was put is in the entries.
    fn write(&self, tail: &mut Tail, writing: Writing) -> Result<(), StoreFault> {
        let file = tail.file.take();
        match (writing, file) {
            (Writing::Frame(body), Some(file)) => self.append(tail, file, &body),
            (Writing::File(entries), _) => self.replace(tail, &entries),
            (Writing::Frame(_), None) => Err(too_long()), // there is a file where a frame is written
        }
    }

    fn append(&self, tail: &mut Tail, file: DiskFile, body: &[u8]) -> Result<(), StoreFault> {
        let bytes = frames::frame(tail.number + 1, body).ok_or_else(too_long)?;
        self.disk.write_at(&file, &bytes, tail.end)?;
        self.disk.sync(&file)?;
        tail.number += 1;
        tail.end += bytes.len() as u64;
        // It says to who opens it again that the frame was on the disk; where it isn't there, less is known.
        let _sealed = self.disk.write_at(&file, &frames::seal(tail.number), tail.end);
        tail.file = Some(file);
        Ok(())
    }

    fn replace(&self, tail: &mut Tail, entries: &Entries) -> Result<(), StoreFault> {
        let bytes = frames::file_of(entries).ok_or_else(too_long)?;
        self.disk.replace(StoreFile::Journal, StoreFile::Folder, &bytes)?;
        if tail.is_new {
            self.disk.sync_parent()?;
            tail.is_new = false;
        }
        let file = self.disk.open_file(StoreFile::Journal, false)?;
        let end = (bytes.len() - HEAD) as u64; // the seal is written over
        *tail = Tail { file: Some(file), first: end, end, number: 0, is_new: false };
        Ok(())
    }
}

fn too_long() -> StoreFault {
    StoreFault { file: StoreFile::Journal, kind: ErrorKind::FileTooLarge, code: None }
}
