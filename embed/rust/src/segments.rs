//! A node's log as segments.

use crate::batches::Batches;
use crate::error::Error;
use crate::ffi::RawSegments;

/// How many bytes the name of a segment's file has: 20 digits, and `.log`.
const NAME_BYTES: usize = 24;

/// A segment of a node's log.
#[derive(Debug)]
pub struct Segment {
    /// The name of its file, as Kafka names it: the offset of its first record in 20 digits, and `.log`.
    pub name: String,
    /// Its batches: their bytes, one behind another, are the file.
    pub batches: Batches,
}

/// The segments of a node's log as it was when it was asked, in offset order. They share its memory until they are dropped, and need
/// no lock.
#[derive(Debug)]
pub struct Segments {
    raw: RawSegments,
    next: usize,
    count: usize,
}

impl Segments {
    pub(crate) fn new(mut raw: RawSegments) -> Result<Segments, Error> {
        let count = raw.count()?;
        Ok(Segments { raw, next: 0, count })
    }

    /// How many were not given yet.
    pub fn len(&self) -> usize {
        self.count - self.next
    }

    /// Whether all were given.
    pub fn is_empty(&self) -> bool {
        self.len() == 0
    }

    fn given(&mut self) -> Result<Segment, Error> {
        let mut name = [0; NAME_BYTES];
        let raw = self.raw.segment(self.next, &mut name)?;
        self.next += 1;
        let name = String::from_utf8_lossy(&name).into_owned();
        Ok(Segment { name, batches: Batches::new(raw)? })
    }
}

impl Iterator for Segments {
    type Item = Result<Segment, Error>;

    fn next(&mut self) -> Option<Result<Segment, Error>> {
        (!self.is_empty()).then(|| self.given())
    }
}
