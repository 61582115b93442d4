//! Records with all that they have.

use crate::error::Error;
use crate::ffi::{RawBatches, RecordPlace};

/// A header of a record.
#[derive(Clone, Debug, PartialEq, Eq)]
pub struct Header {
    /// Its key, which is UTF-8.
    pub key: Vec<u8>,
    /// Its value; none is null.
    pub value: Option<Vec<u8>>,
}

/// A record that a consumer is shown, with all that it has.
#[derive(Clone, Debug, PartialEq, Eq)]
pub struct Record {
    /// Its offset.
    pub offset: u64,
    /// Milliseconds since 1970.
    pub timestamp: u64,
    /// The producer that wrote it, and the producer's epoch; none where it is of no producer.
    pub producer: Option<(u64, u16)>,
    /// Its key; none is null.
    pub key: Option<Vec<u8>>,
    /// Its value; none is null.
    pub value: Option<Vec<u8>>,
    /// Its headers, in their order.
    pub headers: Vec<Header>,
}

/// The records of batches that were read, in the order of the log: those that a consumer is shown. Each byte is copied once, when the
/// record is given.
#[derive(Debug)]
pub struct ShownRecords<'a> {
    raw: &'a mut RawBatches,
    place: RecordPlace,
    from: u64,
    left: bool,
}

// A record's parts, by their numbers: of a header its key and, behind it, its value.
const KEY: usize = 0;
const VALUE: usize = 1;
const HEADERS: usize = 2;

impl<'a> ShownRecords<'a> {
    pub(crate) fn new(raw: &'a mut RawBatches, batch: usize, from: u64) -> ShownRecords<'a> {
        ShownRecords { raw, place: RecordPlace { batch, number: 0, byte: 0 }, from, left: true }
    }

    // A part, if there is one of this number; none within is null.
    fn part_if_any(&mut self, part: usize) -> Result<Option<Option<Vec<u8>>>, Error> {
        let Some(found) = self.raw.record_part(&self.place, part)? else { return Ok(None) };
        if found.null {
            return Ok(Some(None));
        }
        let mut bytes = vec![0; found.size];
        self.raw.copy_part(&self.place, part, &mut bytes)?;
        Ok(Some(Some(bytes)))
    }

    fn part(&mut self, part: usize) -> Result<Option<Vec<u8>>, Error> {
        Ok(self.part_if_any(part)?.flatten())
    }

    fn headers(&mut self) -> Result<Vec<Header>, Error> {
        let mut headers = Vec::new();
        while let Some(key) = self.part_if_any(HEADERS + 2 * headers.len())? {
            let value = self.part(HEADERS + 2 * headers.len() + 1)?;
            headers.push(Header { key: key.unwrap_or_default(), value });
        }
        Ok(headers)
    }

    // The next one that is shown, from the offset on.
    fn given(&mut self) -> Result<Option<Record>, Error> {
        while let Some(found) = self.raw.record(&self.place)? {
            if found.shown && found.offset >= self.from {
                let record = Record {
                    offset: found.offset,
                    timestamp: found.timestamp,
                    producer: (found.producer_id != u64::MAX).then_some((found.producer_id, found.producer_epoch)),
                    key: self.part(KEY)?,
                    value: self.part(VALUE)?,
                    headers: self.headers()?,
                };
                self.place = found.next;
                return Ok(Some(record));
            }
            self.place = found.next;
        }
        Ok(None)
    }
}

impl Iterator for ShownRecords<'_> {
    type Item = Result<Record, Error>;

    fn next(&mut self) -> Option<Result<Record, Error>> {
        if !self.left {
            return None;
        }
        let given = self.given().transpose();
        self.left = matches!(given, Some(Ok(_)));
        given
    }
}
