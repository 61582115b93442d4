//! Heads of record batches of format 2 (KIP-98), the batches of a records field, and the mending of lawful but unusual ones.
//!
//! Records aren't parsed, but for their timestamps where a batch has to be mended.

use crate::{Reader, WireError, crc32c};

/// Bytes of a batch in front of its records.
pub const HEAD: usize = 61;
/// Bytes of a batch that its length field doesn't count: the base offset and the length itself.
const UNCOUNTED: usize = 12;
/// The checksum covers the batch from here on.
const SUMMED: usize = 21;
const CHECKSUM: std::ops::Range<usize> = 17..21;
const MAX_TIMESTAMP: std::ops::Range<usize> = 35..43;
const BASE_SEQUENCE: std::ops::Range<usize> = 53..57;

/// The 61 bytes in front of a batch's records.
#[derive(Clone, Copy, Debug, PartialEq, Eq)]
pub struct BatchHead {
    /// The first record's offset; a producer writes 0.
    pub base_offset: i64,
    /// Bytes behind this field.
    pub length: i32,
    /// The epoch of the leader that appended it; a producer writes -1 or 0.
    pub partition_leader_epoch: i32,
    /// The format: 2.
    pub magic: i8,
    /// CRC-32C of all behind this field.
    pub crc: u32,
    /// Bits 0-2 compression, 3 append time, 4 transactional, 5 control.
    pub attributes: i16,
    /// The last record's offset, less the first one's.
    pub last_offset_delta: i32,
    /// The first record's time, in milliseconds since 1970.
    pub base_timestamp: i64,
    /// The greatest time of a record.
    pub max_timestamp: i64,
    /// The producer, or -1.
    pub producer_id: i64,
    /// The producer's epoch, or -1.
    pub producer_epoch: i16,
    /// The first record's sequence number, or -1.
    pub base_sequence: i32,
    /// Count of records.
    pub record_count: i32,
}

impl BatchHead {
    /// Reads the head at the start of these bytes. It judges nothing: neither format nor checksum.
    ///
    /// # Errors
    /// [`WireError::Ended`] of fewer than 61 bytes.
    pub fn read(bytes: &[u8]) -> Result<Self, WireError> {
        let mut reader = Reader::new(bytes);
        Ok(BatchHead {
            base_offset: reader.i64()?,
            length: reader.i32()?,
            partition_leader_epoch: reader.i32()?,
            magic: reader.i8()?,
            crc: reader.u32()?,
            attributes: reader.i16()?,
            last_offset_delta: reader.i32()?,
            base_timestamp: reader.i64()?,
            max_timestamp: reader.i64()?,
            producer_id: reader.i64()?,
            producer_epoch: reader.i16()?,
            base_sequence: reader.i32()?,
            record_count: reader.i32()?,
        })
    }

    /// The compression's number: 0 none, 1 gzip, 2 snappy, 3 lz4, 4 zstd.
    #[must_use]
    pub fn compression(&self) -> i16 {
        self.attributes & 7
    }

    /// Whether times are those of the append, and not the producer's.
    #[must_use]
    pub fn has_append_time(&self) -> bool {
        self.attributes & 8 != 0
    }

    /// Whether it belongs to a transaction.
    #[must_use]
    pub fn is_transactional(&self) -> bool {
        self.attributes & 16 != 0
    }

    /// Whether it is a marker, which ends a transaction.
    #[must_use]
    pub fn is_control(&self) -> bool {
        self.attributes & 32 != 0
    }

    /// The last record's offset; none where that is above the greatest int64.
    #[must_use]
    pub fn last_offset(&self) -> Option<i64> {
        self.base_offset.checked_add(self.last_offset_delta.into())
    }

    /// Whether it has a field that is lawful from a client, but that a stored batch doesn't have: a greatest timestamp below 0, or
    /// a sequence number without a producer.
    #[must_use]
    pub fn is_unusual(&self) -> bool {
        self.max_timestamp < 0 || self.has_stray_sequence()
    }

    fn has_stray_sequence(&self) -> bool {
        self.producer_id == -1 && self.base_sequence != -1
    }
}

/// The batches of a records field, each with its head, by their length fields. After an error it ends.
#[derive(Clone, Debug)]
pub struct Batches<'a> {
    records: &'a [u8],
    at: usize,
}

impl<'a> Batches<'a> {
    /// Of these records.
    #[must_use]
    pub fn new(records: &'a [u8]) -> Self {
        Batches { records, at: 0 }
    }

    fn one(&mut self) -> Result<(BatchHead, &'a [u8]), WireError> {
        let (at, rest) = (self.at, &self.records[self.at..]);
        let ended = |needs| WireError::Ended { at, needs, has: rest.len() };
        let head = BatchHead::read(rest).map_err(|_| ended(HEAD))?;
        let counted = usize::try_from(head.length).ok().filter(|it| *it >= HEAD - UNCOUNTED);
        let size = counted.ok_or(WireError::BadBatchLength { at, length: head.length })? + UNCOUNTED;
        let batch = rest.get(..size).ok_or(ended(size))?;
        self.at += size;
        Ok((head, batch))
    }
}

impl<'a> Iterator for Batches<'a> {
    /// A head, and all bytes of its batch.
    type Item = Result<(BatchHead, &'a [u8]), WireError>;

    /// The next batch; [`WireError::Ended`] where bytes are fewer than a head or than its length says, and
    /// [`WireError::BadBatchLength`] where that is less than a head's.
    fn next(&mut self) -> Option<Self::Item> {
        if self.at == self.records.len() {
            return None;
        }
        let found = self.one();
        if found.is_err() {
            self.at = self.records.len();
        }
        Some(found)
    }
}

/// A copy of one batch that has the fields which a stored batch has; none where nothing has to be changed.
///
/// The Go client sarama leaves the greatest timestamp at -1, and the base sequence at 0 where there is no producer. Kafka's broker takes
/// such batches, and sets the greatest timestamp when it validates them. Changed are at most these fields:
///
/// - `max_timestamp`, where it is below 0: the greatest time of a record, so that offsets can be found by time;
/// - `base_sequence`, where there is no producer: -1, so that such batches are all alike;
/// - `crc`, which covers both.
///
/// None comes, too, of what it can't mend and only the log can judge: another format, compressed records, a checksum that is wrong
/// already, records that end too early.
#[must_use]
pub fn mended(batch: &[u8]) -> Option<Vec<u8>> {
    let head = BatchHead::read(batch).ok()?;
    let whole = usize::try_from(head.length).is_ok_and(|it| it.checked_add(UNCOUNTED) == Some(batch.len()));
    if !(head.is_unusual() && whole && head.magic == 2 && head.compression() == 0 && crc32c(&batch[SUMMED..]) == head.crc) {
        return None;
    }
    let greatest = if head.max_timestamp < 0 { greatest_timestamp(&head, &batch[HEAD..])? } else { head.max_timestamp };
    if greatest == head.max_timestamp && !head.has_stray_sequence() {
        return None;
    }
    let mut out = batch.to_vec();
    out[MAX_TIMESTAMP].copy_from_slice(&greatest.to_be_bytes());
    if head.has_stray_sequence() {
        out[BASE_SEQUENCE].copy_from_slice(&(-1i32).to_be_bytes());
    }
    let crc = crc32c(&out[SUMMED..]);
    out[CHECKSUM].copy_from_slice(&crc.to_be_bytes());
    Some(out)
}

/// The greatest time of these records; none where there are none, or where they can't be read.
fn greatest_timestamp(head: &BatchHead, records: &[u8]) -> Option<i64> {
    let mut reader = Reader::new(records);
    let mut greatest = None;
    for _ in 0..head.record_count {
        let size = usize::try_from(reader.varint().ok()?).ok()?;
        let mut record = Reader::new(reader.take(size).ok()?);
        let _attributes = record.i8().ok()?;
        let time = head.base_timestamp.checked_add(record.varlong().ok()?)?;
        greatest = greatest.max(Some(time));
    }
    greatest
}
