//! Keeps what the coordinators have told in the library's `Journal`, where there is a folder; else nothing.

use crate::kept::{self, Change, KeptGroup, KeptTransaction, Name, Places};
use crate::lock;
use crate::members::CommittedOffset;
use kpart::{Journal, StoreFault};
use kwire::ErrorCode;
use std::sync::Mutex;

/// The first producer id.
const FIRST_ID: u64 = 1_000;
/// So many producer ids are taken from the journal at a time, as in Kafka; a process that is killed leaves the rest of them unused.
const BLOCK: u64 = 1_000;

/// Keeps what is told. Put each change under the lock of what it is of, so that changes are in their order.
#[derive(Debug, Default)]
pub struct Keep {
    journal: Option<Journal>,
    names: Vec<Name>,
    ids: Mutex<Ids>,
    fault: Mutex<Option<StoreFault>>,
}

/// Producer ids from `next` on; those below `end` are taken from the journal.
#[derive(Debug)]
struct Ids {
    next: u64,
    end: u64,
}

impl Default for Ids {
    fn default() -> Ids {
        Ids { next: FIRST_ID, end: FIRST_ID }
    }
}

impl Keep {
    /// In this journal, for partitions of these names; producer ids go on from there.
    pub fn of(journal: Journal, names: Vec<Name>, next_id: u64) -> Keep {
        let next = next_id.max(FIRST_ID);
        Keep { journal: Some(journal), names, ids: Mutex::new(Ids { next, end: next }), ..Keep::default() }
    }

    /// Whether anything is kept.
    pub fn is_kept(&self) -> bool {
        self.journal.is_some()
    }

    /// Puts changes, which count together: the ticket by which they are settled. Nothing is written yet.
    pub fn put(&self, changes: Vec<Change>) -> u64 {
        self.journal.as_ref().map_or(0, |it| it.put(changes))
    }

    /// A transactional id's state, as it is kept.
    pub fn transaction(&self, id: &str, it: &KeptTransaction) -> Change {
        Places(&self.names).transaction(id, it)
    }

    /// What a group has committed of the partition at that place.
    pub fn offset(&self, group: &str, place: usize, it: &CommittedOffset) -> Option<Change> {
        self.names.get(place).map(|name| kept::offset(group, name, it))
    }

    /// What is kept of a group beside its offsets; none where it is gone.
    pub fn put_group(&self, name: &str, it: Option<&KeptGroup>) {
        if self.is_kept() {
            self.put(vec![kept::group(name, it)]);
        }
    }

    /// Waits until all that was put is on the disk. What a client is told of it comes afterwards.
    pub fn settle(&self) -> Result<(), ErrorCode> {
        self.settle_to(self.journal.as_ref().map_or(0, Journal::last))
    }

    /// Waits until all that was put up to that ticket is on the disk.
    pub fn settle_to(&self, ticket: u64) -> Result<(), ErrorCode> {
        let Some(journal) = &self.journal else { return Ok(()) };
        journal.settle(ticket).map_err(|fault| {
            *lock(&self.fault) = Some(fault);
            ErrorCode::CoordinatorNotAvailable
        })
    }

    /// Why the journal couldn't be written when that was last tried; the next call has none.
    pub fn take_fault(&self) -> Option<StoreFault> {
        lock(&self.fault).take()
    }

    /// A producer id that nobody was given. Settle before you tell it.
    pub fn fresh_id(&self) -> i64 {
        let mut ids = lock(&self.ids);
        if ids.next == ids.end {
            ids.end = ids.end.saturating_add(BLOCK);
            self.put(vec![kept::ids(ids.end)]);
        }
        let id = ids.next;
        ids.next += 1;
        i64::try_from(id).unwrap_or(i64::MAX)
    }
}
