//! Records, as a read-committed consumer gets them.

use crate::error::Error;
use crate::ffi::RawRecords;

/// A record that a read-committed consumer gets.
#[derive(Clone, Debug, PartialEq, Eq)]
pub struct CommittedRecord {
    /// Its offset.
    pub offset: u64,
    /// Its value; none is null.
    pub value: Option<Vec<u8>>,
}

/// Records that were read, in the order of the log. They are copies: they need no lock, and hold none of the log's memory.
#[derive(Debug)]
pub struct Records {
    raw: RawRecords,
    next: usize,
    count: usize,
}

impl Records {
    pub(crate) fn new(mut raw: RawRecords) -> Result<Records, Error> {
        let count = raw.count()?;
        Ok(Records { raw, next: 0, count })
    }

    /// How many were not given yet.
    pub fn len(&self) -> usize {
        self.count - self.next
    }

    /// Whether all were given.
    pub fn is_empty(&self) -> bool {
        self.len() == 0
    }

    fn given(&mut self) -> Result<CommittedRecord, Error> {
        let found = self.raw.record(self.next)?;
        let mut bytes = vec![0; found.size];
        self.raw.copy(self.next, &mut bytes)?;
        self.next += 1;
        Ok(CommittedRecord { offset: found.offset, value: (!found.null).then_some(bytes) })
    }
}

impl Iterator for Records {
    type Item = Result<CommittedRecord, Error>;

    fn next(&mut self) -> Option<Result<CommittedRecord, Error>> {
        (!self.is_empty()).then(|| self.given())
    }
}
