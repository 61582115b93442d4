//! What was called and answered, in the order in which it happened, until it is written.

use super::{Recorded, RecorderFault};
use crate::cluster::lock;
use crate::error::{Error, Refusal};
use crate::message::Said;
use crate::records::CommittedRecord;
use crate::values::{Change, Leadership, Marker, Receipt, Restarted, Role};
use std::mem::{size_of, swap};
use std::sync::{Arc, Condvar, Mutex, MutexGuard, PoisonError};
use std::time::Duration;

// The writer looks so often, and at once where so much waits for it; callers wait where more than that does.
const TICK: Duration = Duration::from_millis(20);
const MUCH: usize = 256 << 10;
const MOST: usize = 64 << 20;

// A line of a script.
#[derive(Debug)]
pub(crate) enum Call {
    Elect(u8),
    Adopt(u8),
    Raw(u8, Arc<[u8]>),
    Mark(u8, Box<Marker>),
    Ask(u8),
    Deliver(u32),
    Raise(u8),
    Alter(u8, Change),
    Checkpoint(u8),
    Stop(u8),
    Restart(u8),
    Show(u8),
    Read { node: u8, from: u64, committed: bool },
}

// What it was answered. What comes seldom is boxed: entries are many, and one thread writes what another one reads.
#[derive(Debug)]
pub(crate) enum Told {
    Refused(Refusal),
    Record(Box<Leadership>),
    Plays(Role),
    Taken { base: u64, duplicate: bool },
    // The message of this number.
    Asks { number: u32, last_epoch: Option<u32>, offset: u64 },
    HandsOver { number: u32, count: u64, mark: u64 },
    Sends(u32, Box<Said>),
    Decides(u32, Box<Leadership>),
    Took { end: u64, mark: u64 },
    Cut(u64),
    Knows { in_sync: [bool; 7], version: u32 },
    Mark(u64),
    Checkpoint(u64),
    Stopped,
    Lives(Box<Restarted>),
    Shows(Box<Shown>),
    Lines(Box<[CommittedRecord]>),
}

#[derive(Debug)]
pub(crate) struct Shown {
    pub node: u8,
    pub life: u64,
    pub end: u64,
    pub mark: u64,
    pub stable: u64,
}

impl From<Leadership> for Told {
    fn from(record: Leadership) -> Told {
        Told::Record(Box::new(record))
    }
}

impl From<Receipt> for Told {
    fn from(receipt: Receipt) -> Told {
        Told::Taken { base: receipt.base, duplicate: receipt.duplicate }
    }
}

impl From<Restarted> for Told {
    fn from(restarted: Restarted) -> Told {
        Told::Lives(Box::new(restarted))
    }
}

impl Told {
    // Beside the entry, where that is much.
    fn size(&self) -> usize {
        match self {
            Told::Lines(records) => records.iter().map(|it| size_of::<CommittedRecord>() + it.value.as_ref().map_or(0, Vec::len)).sum(),
            _ => 0,
        }
    }
}

#[derive(Debug)]
pub(crate) enum Entry {
    Event(Call, Told),
    // A call that changed nothing, and that a script can't say: why.
    LeftOut(Call, &'static str),
    // The last one: why no script says what has happened.
    End(String),
}

impl Entry {
    fn size(&self) -> usize {
        let bytes = match self {
            Entry::Event(Call::Raw(_, bytes), _) | Entry::LeftOut(Call::Raw(_, bytes), _) => bytes.len(),
            Entry::Event(_, told) => told.size(),
            _ => 0,
        };
        size_of::<Entry>() + bytes
    }
}

#[derive(Debug, Default)]
struct Pages {
    entries: Vec<Entry>,
    // The bytes of these, and of what the writer has in hand.
    held: usize,
    // How many were sent.
    messages: u32,
    events: u64,
    entered: u64,
    written: u64,
    // The writer is to look now.
    is_hurried: bool,
    // Nothing is entered any more.
    is_closed: bool,
    // The writer has ended.
    is_left: bool,
    fault: Option<RecorderFault>,
}

impl Pages {
    fn has_room(&self) -> bool {
        self.held <= MOST || self.is_closed || self.is_left
    }
}

// Entries stand in the order of the script. Who enters a call holds all that the call looks at or changes: its node's lock, and for what looks
// at the controller's record or changes it the journal itself, from before the call on. So two calls that could tell which of them came first
// are entered in that order, and any two others could have come in either order. A message gets its number, that of its place, before
// anybody else has it, so its deliveries are entered behind it.
#[derive(Debug, Default)]
pub(crate) struct Journal {
    pages: Mutex<Pages>,
    // Something was written.
    room: Condvar,
    // The writer waits here.
    work: Condvar,
}

// A journal that is held.
#[derive(Debug)]
pub(crate) struct Open<'a> {
    pages: MutexGuard<'a, Pages>,
    work: &'a Condvar,
}

impl Open<'_> {
    // The number of the message that the next entry sends.
    pub(crate) fn number(&mut self) -> u32 {
        let number = self.pages.messages;
        self.pages.messages += 1;
        number
    }

    // What never came to its node isn't of the run; what was refused for want of memory changed nothing.
    pub(crate) fn enter(mut self, call: Call, told: Result<Told, Error>) {
        match told {
            Ok(told) => self.push(Entry::Event(call, told)),
            Err(Error::Refused(Refusal::Memory)) => self.push(Entry::LeftOut(call, "F33 Memory")),
            Err(Error::Refused(refusal)) => self.push(Entry::Event(call, Told::Refused(refusal))),
            Err(_) => {}
        }
    }

    pub(crate) fn leave_out(mut self, call: Call, why: &'static str) {
        self.push(Entry::LeftOut(call, why));
    }

    // Something has happened that no line of a script says: the record ends before it.
    pub(crate) fn end(mut self, why: String) {
        self.push(Entry::End(why.clone()));
        self.pages.is_closed = true;
        self.pages.fault.get_or_insert(RecorderFault::NoLine(why));
    }

    fn push(&mut self, entry: Entry) {
        let pages = &mut *self.pages;
        if pages.is_closed {
            return;
        }
        pages.held += entry.size();
        pages.entered += 1;
        pages.events += u64::from(matches!(entry, Entry::Event(..)));
        pages.entries.push(entry);
        if pages.held > MUCH && !pages.is_hurried {
            pages.is_hurried = true;
            self.work.notify_one();
        }
    }
}

impl Journal {
    // Waits where too much waits to be written.
    pub(crate) fn open(&self) -> Open<'_> {
        let mut pages = lock(&self.pages);
        if !pages.has_room() {
            pages = self.room.wait_while(pages, |it| !it.has_room()).unwrap_or_else(PoisonError::into_inner);
        }
        Open { pages, work: &self.work }
    }

    // Of the writer: what was entered since, into an empty list. None once that was all.
    pub(super) fn next(&self, into: &mut Vec<Entry>) -> Option<()> {
        let pages = lock(&self.pages);
        let waited = self.work.wait_timeout_while(pages, TICK, |it| !it.is_hurried && !it.is_closed);
        let (mut pages, _) = waited.unwrap_or_else(PoisonError::into_inner);
        pages.is_hurried = false;
        swap(&mut pages.entries, into);
        (!into.is_empty() || !pages.is_closed).then_some(())
    }

    // These are written, or can't be.
    pub(super) fn wrote(&self, entries: &mut Vec<Entry>, written: Result<(), RecorderFault>) {
        let (count, size) = (entries.len() as u64, entries.iter().map(Entry::size).sum::<usize>());
        entries.clear();
        let mut pages = lock(&self.pages);
        (pages.held, pages.written) = (pages.held - size, pages.written + count);
        if let Err(fault) = written {
            pages.fault.get_or_insert(fault);
            pages.is_closed = true;
        }
        drop(pages);
        self.room.notify_all();
    }

    // Nobody waits for a writer that has ended.
    pub(super) fn leave(&self) {
        let mut pages = lock(&self.pages);
        (pages.is_closed, pages.is_left) = (true, true);
        if pages.written < pages.entered {
            pages.fault.get_or_insert(RecorderFault::NoThread);
        }
        drop(pages);
        self.room.notify_all();
    }

    pub(super) fn close(&self) {
        lock(&self.pages).is_closed = true;
        self.work.notify_one();
        self.room.notify_all();
    }

    // Waits until all that was entered before is written.
    pub(super) fn flush(&self) -> Result<Recorded, RecorderFault> {
        let mut pages = lock(&self.pages);
        let wanted = pages.entered;
        pages.is_hurried = true;
        self.work.notify_one();
        let waited = self.room.wait_while(pages, |it| it.written < wanted && !it.is_left);
        let pages = waited.unwrap_or_else(PoisonError::into_inner);
        match &pages.fault {
            Some(fault) => Err(fault.clone()),
            None => Ok(Recorded { events: pages.events, messages: pages.messages }),
        }
    }
}

#[cfg(test)]
mod tests {
    use super::*;
    use std::thread;

    const SOON: Duration = Duration::from_millis(50);

    fn taken(base: u64) -> Result<Told, Error> {
        Ok(Told::Taken { base, duplicate: false })
    }

    #[test]
    fn callers_wait_where_too_much_waits() {
        let (journal, bytes) = (Journal::default(), Arc::from(vec![0; 1 << 20]));
        let raw = || Call::Raw(0, Arc::clone(&bytes));
        (0..64).for_each(|it| journal.open().enter(raw(), taken(it))); // with the entries themselves that is more than may wait
        thread::scope(|scope| {
            let waits = scope.spawn(|| journal.open().enter(raw(), taken(64)));
            thread::sleep(SOON);
            assert!(!waits.is_finished());
            let mut entries = Vec::new();
            assert_eq!(journal.next(&mut entries), Some(()));
            assert_eq!(entries.len(), 64);
            thread::sleep(SOON);
            assert!(!waits.is_finished()); // they aren't written yet
            journal.wrote(&mut entries, Ok(()));
            waits.join().expect("no panic");
        });
        let mut entries = Vec::new();
        assert_eq!((journal.next(&mut entries), entries.len()), (Some(()), 1));
        journal.wrote(&mut entries, Ok(()));
        journal.close();
        assert_eq!((journal.next(&mut entries), entries.len()), (None, 0));
        assert_eq!(journal.flush(), Ok(Recorded { events: 65, messages: 0 }));
    }

    #[test]
    fn nobody_waits_for_a_writer_that_cannot_write() {
        let (journal, bytes) = (Journal::default(), Arc::from(vec![0; 65 << 20]));
        let fault = RecorderFault::NoLine("the disk is full".to_string());
        journal.open().enter(Call::Raw(0, bytes), taken(0));
        let mut entries = Vec::new();
        assert_eq!(journal.next(&mut entries), Some(()));
        journal.wrote(&mut entries, Err(fault.clone()));
        journal.open().enter(Call::Raise(0), Ok(Told::Mark(0))); // it isn't recorded any more
        assert_eq!((journal.next(&mut entries), journal.flush()), (None, Err(fault)));
        let journal = Journal::default();
        journal.open().enter(Call::Raise(0), Ok(Told::Mark(0)));
        journal.leave();
        assert_eq!(journal.flush(), Err(RecorderFault::NoThread));
    }

    #[test]
    fn what_changed_nothing_is_no_event() {
        let journal = Journal::default();
        for error in [Error::NoRoom, Error::OutOfRange, Error::OtherCluster] {
            journal.open().enter(Call::Ask(0), Err(error));
        }
        journal.open().enter(Call::Ask(0), Err(Refusal::Memory.into()));
        journal.open().enter(Call::Ask(0), Err(Refusal::Down.into()));
        journal.open().end("memory was refused".to_string());
        journal.open().enter(Call::Ask(0), Err(Refusal::Down.into()));
        let mut entries = Vec::new();
        assert_eq!(journal.next(&mut entries), Some(()));
        assert!(matches!(entries[..], [Entry::LeftOut(..), Entry::Event(..), Entry::End(_)]), "{entries:?}");
        journal.wrote(&mut entries, Ok(()));
        assert_eq!(journal.flush(), Err(RecorderFault::NoLine("memory was refused".to_string())));
    }
}
