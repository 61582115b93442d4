//! Batches that were read.

use crate::error::Error;
use crate::ffi::RawBatches;
use crate::record::ShownRecords;
use crate::values::BatchHead;

/// Batches that were read, in the order of the log. They share the log's memory until they are dropped, and need no lock.
#[derive(Debug)]
pub struct Batches {
    raw: RawBatches,
    next: usize,
    count: usize,
}

impl Batches {
    pub(crate) fn new(mut raw: RawBatches) -> Result<Batches, Error> {
        let count = raw.count()?;
        Ok(Batches { raw, next: 0, count })
    }

    /// How many were not given yet.
    pub fn len(&self) -> usize {
        self.count - self.next
    }

    /// Whether all were given.
    pub fn is_empty(&self) -> bool {
        self.len() == 0
    }

    /// The head of the next one; none where all were given. None of its bytes is copied, and the batch is left for the next call. O(1).
    pub fn head(&mut self) -> Result<Option<BatchHead>, Error> {
        if self.is_empty() {
            return Ok(None);
        }
        self.raw.head(self.next).map(|head| Some(head.into()))
    }

    /// Goes on to the batch after the next one. O(1).
    pub fn skip_one(&mut self) {
        self.next = self.count.min(self.next + 1);
    }

    /// The records of the batches that weren't given yet that a consumer is shown, from an offset on, with key, headers, time and producer:
    /// data and, of what was fetched read committed, of no aborted transaction: just those that are visible then, which is proved of the
    /// library. The batches are left for other calls.
    ///
    /// ```
    /// use kpart::{Cluster, Isolation, Limits};
    ///
    /// # fn main() -> Result<(), kpart::Error> {
    /// let cluster = Cluster::open(1, Limits::default())?;
    /// let mut pass = cluster.pass()?;
    /// pass.elect(0)?;
    /// let mut leader = cluster.node(0)?;
    /// leader.adopt()?;
    /// leader.produce(&mut pass, include_bytes!(concat!(env!("CARGO_MANIFEST_DIR"), "/tests/one_record.batch")))?;
    /// leader.raise()?;
    ///
    /// let mut fetched = leader.fetch(&mut pass, 0, 1_048_576, Isolation::ReadCommitted)?;
    /// drop(leader); // from here on no lock is held
    /// for record in fetched.batches.records(0) {
    ///     let record = record?;
    ///     println!("{} {:?} {:?}", record.offset, record.key, record.value);
    /// }
    /// # assert_eq!(fetched.batches.records(0).count(), 1);
    /// # Ok(()) }
    /// ```
    pub fn records(&mut self, from: u64) -> ShownRecords<'_> {
        ShownRecords::new(&mut self.raw, self.next, from)
    }

    /// Puts the next one's bytes in place of what the buffer holds, and says whether there was one. They are those that were handed
    /// in, with base offset and leader epoch stamped. [`Error::NoRoom`] leaves the batch for the next call. O(n) in its bytes.
    pub fn next_into(&mut self, bytes: &mut Vec<u8>) -> Result<bool, Error> {
        bytes.clear();
        self.append_to(bytes)
    }

    /// Puts the next one's bytes behind what the buffer holds, as an answer to a client wants them, and says whether there was one.
    /// After an error the buffer is as it was, and the batch is left for the next call. O(n) in its bytes.
    pub fn append_to(&mut self, bytes: &mut Vec<u8>) -> Result<bool, Error> {
        if self.is_empty() {
            return Ok(false);
        }
        let held = bytes.len();
        let size = self.raw.size(self.next)?;
        bytes.resize(held + size, 0);
        let copied = self.raw.copy(self.next, &mut bytes[held..]);
        if copied.is_err() {
            bytes.truncate(held);
        }
        copied?;
        self.next += 1;
        Ok(true)
    }
}

impl Iterator for Batches {
    type Item = Result<Vec<u8>, Error>;

    fn next(&mut self) -> Option<Result<Vec<u8>, Error>> {
        let mut bytes = Vec::new();
        match self.next_into(&mut bytes) {
            Ok(true) => Some(Ok(bytes)),
            Ok(false) => None,
            Err(error) => Some(Err(error)),
        }
    }
}
