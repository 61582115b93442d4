//! A plain decoder of record batches, of std alone, for comparison: the same twelve tests in the
//! same order, a checksum by sixteen tables, shared bytes, and records that are lent.

use std::sync::Arc;

#[derive(Debug, PartialEq)]
pub enum Fault {
    Truncated,
    BadMagic,
    BadLength,
    BadCrc,
    Compressed,
    BadAttributes,
    BadCount,
    BadRecord(usize),
    TooLarge,
    BadProducerFields,
}

#[derive(Clone)]
pub struct Batch {
    pub base: u64,
    #[allow(dead_code)]
    pub epoch: Option<u32>,
    bytes: Arc<[u8]>,
}

pub struct Record<'a> {
    pub timestamp: u64,
    pub key: Option<&'a [u8]>,
    pub value: Option<&'a [u8]>,
}

pub struct Records<'a> {
    base: i64,
    left: u32,
    rest: &'a [u8],
}

const HEAD: usize = 61;
const TOP: i64 = (1 << 62) - 1;

static TABLES: [[u32; 256]; 16] = tables();

const fn tables() -> [[u32; 256]; 16] {
    let mut tables = [[0u32; 256]; 16];
    let mut byte = 0;
    while byte < 256 {
        let mut register = byte as u32;
        let mut table = 0;
        while table < 16 {
            let mut bit = 0;
            while bit < 8 {
                register = (register >> 1) ^ (0x82f6_3b78 * (register & 1));
                bit += 1;
            }
            tables[table][byte] = register;
            table += 1;
        }
        byte += 1;
    }
    tables
}

pub fn crc32c(bytes: &[u8]) -> u32 {
    let mut register = u32::MAX;
    let mut rest = bytes;
    while let Some((chunk, after)) = rest.split_first_chunk::<16>() {
        let front = register ^ u32::from_le_bytes([chunk[0], chunk[1], chunk[2], chunk[3]]);
        register = TABLES[15][(front & 0xff) as usize]
            ^ TABLES[14][(front >> 8 & 0xff) as usize]
            ^ TABLES[13][(front >> 16 & 0xff) as usize]
            ^ TABLES[12][(front >> 24) as usize];
        for place in 4..16 {
            register ^= TABLES[15 - place][usize::from(chunk[place])];
        }
        rest = after;
    }
    if let Some((chunk, after)) = rest.split_first_chunk::<8>() {
        let front = register ^ u32::from_le_bytes([chunk[0], chunk[1], chunk[2], chunk[3]]);
        register = TABLES[7][(front & 0xff) as usize]
            ^ TABLES[6][(front >> 8 & 0xff) as usize]
            ^ TABLES[5][(front >> 16 & 0xff) as usize]
            ^ TABLES[4][(front >> 24) as usize];
        for place in 4..8 {
            register ^= TABLES[7 - place][usize::from(chunk[place])];
        }
        rest = after;
    }
    for byte in rest {
        register = (register >> 8) ^ TABLES[0][(register as u8 ^ byte) as usize];
    }
    !register
}

fn int_at(bytes: &[u8], place: usize) -> i32 {
    i32::from_be_bytes(bytes[place..place + 4].try_into().unwrap())
}

fn long_at(bytes: &[u8], place: usize) -> i64 {
    i64::from_be_bytes(bytes[place..place + 8].try_into().unwrap())
}

fn short_at(bytes: &[u8], place: usize) -> i16 {
    i16::from_be_bytes([bytes[place], bytes[place + 1]])
}

/// Takes a number in its shortest spelling.
fn varlong(rest: &mut &[u8]) -> Option<i64> {
    if let [byte @ 0..0x80, after @ ..] = rest {
        *rest = after;
        return Some(i64::from(byte >> 1) ^ -i64::from(byte & 1));
    }
    let mut number = 0u64;
    for (i, byte) in rest.iter().take(10).enumerate() {
        if i == 9 && *byte > 1 {
            return None;
        }
        number |= u64::from(byte & 0x7f) << (7 * i);
        if *byte < 0x80 {
            if *byte == 0 && i > 0 {
                return None;
            }
            *rest = &rest[i + 1..];
            return Some((number >> 1) as i64 ^ -((number & 1) as i64));
        }
    }
    None
}

fn varint(rest: &mut &[u8]) -> Option<i32> {
    i32::try_from(varlong(rest)?).ok()
}

fn take<'a>(rest: &mut &'a [u8], length: i32) -> Option<&'a [u8]> {
    let (taken, after) = rest.split_at_checked(usize::try_from(length).ok()?)?;
    *rest = after;
    Some(taken)
}

fn nullable<'a>(rest: &mut &'a [u8]) -> Option<Option<&'a [u8]>> {
    match varint(rest)? {
        -1 => Some(None),
        length => take(rest, length).map(Some),
    }
}

/// Takes a record up to its value; what is left of it are the headers.
fn front<'a>(rest: &mut &'a [u8], base: i64) -> Option<(Record<'a>, i32, &'a [u8])> {
    let length = varint(rest)?;
    let mut inner = take(rest, length)?;
    if *take(&mut inner, 1)? != [0] {
        return None;
    }
    let timestamp = base.checked_add(varlong(&mut inner)?)?;
    if !(0..=TOP).contains(&timestamp) {
        return None;
    }
    let place = varint(&mut inner)?;
    let key = nullable(&mut inner)?;
    let value = nullable(&mut inner)?;
    let timestamp = timestamp as u64;
    Some((
        Record {
            timestamp,
            key,
            value,
        },
        place,
        inner,
    ))
}

/// How many headers these bytes are, exactly.
fn headers(mut rest: &[u8]) -> Option<i32> {
    let count = varint(&mut rest)?;
    if count < 0 {
        return None;
    }
    for _ in 0..count {
        let length = varint(&mut rest)?;
        std::str::from_utf8(take(&mut rest, length)?).ok()?;
        nullable(&mut rest)?;
    }
    rest.is_empty().then_some(count)
}

fn is_marker(record: &Record<'_>, headers: i32, base: i64) -> bool {
    matches!(record.key, Some([0, 0, 0, 0 | 1]))
        && matches!(record.value, Some([0, 0, 0..=0x7f, _, _, _]))
        && headers == 0
        && record.timestamp == base as u64
}

fn test_frame(bytes: &[u8], max: u32) -> Result<(), Fault> {
    if bytes.len() < HEAD {
        return Err(Fault::Truncated);
    }
    let length = int_at(bytes, 8);
    if length < 49 {
        return Err(Fault::BadLength);
    }
    let size = 12 + length as usize;
    if size > max as usize {
        return Err(Fault::TooLarge);
    }
    if bytes.len() < size {
        return Err(Fault::Truncated);
    }
    if bytes.len() > size {
        return Err(Fault::BadLength);
    }
    Ok(())
}

fn test_head(bytes: &[u8]) -> Result<(), Fault> {
    if bytes[16] != 2 {
        return Err(Fault::BadMagic);
    }
    if int_at(bytes, 17) as u32 != crc32c(&bytes[21..]) {
        return Err(Fault::BadCrc);
    }
    let attributes = short_at(bytes, 21);
    if attributes & 7 != 0 {
        return Err(Fault::Compressed);
    }
    if attributes & !0x30 != 0 || attributes == 0x20 {
        return Err(Fault::BadAttributes);
    }
    let (base, last, count) = (long_at(bytes, 0), int_at(bytes, 23), int_at(bytes, 57));
    let is_place = base >= 0 && last >= 0 && base <= TOP - i64::from(last);
    let is_epoch = (-1..=(1 << 24) - 2).contains(&int_at(bytes, 12));
    let is_count = count >= 1 && last == count - 1;
    let are_times = [27, 35]
        .iter()
        .all(|place| (0..=TOP).contains(&long_at(bytes, *place)));
    if !(is_place && is_epoch && is_count && are_times) {
        return Err(Fault::BadCount);
    }
    let producer = (long_at(bytes, 43), short_at(bytes, 51), int_at(bytes, 53));
    let is_lawful = if attributes == 0x30 {
        producer.0 >= 0 && producer.1 >= 0 && producer.2 == -1
    } else {
        producer.0 >= 0 && producer.1 >= 0 && producer.2 >= 0
            || attributes == 0 && producer == (-1, -1, -1)
    };
    if is_lawful {
        Ok(())
    } else {
        Err(Fault::BadProducerFields)
    }
}

fn test_records(bytes: &[u8]) -> Result<(), Fault> {
    let (base, count, control) = (long_at(bytes, 27), int_at(bytes, 57), bytes[22] == 0x30);
    let mut rest = &bytes[HEAD..];
    let mut greatest = 0;
    let mut is_fit = true;
    for i in 0..count {
        let place = bytes.len() - rest.len();
        let fault = Fault::BadRecord(place);
        let Some((record, delta, inner)) = front(&mut rest, base) else {
            return Err(fault);
        };
        let Some(headers) = headers(inner) else {
            return Err(fault);
        };
        if delta != i {
            return Err(fault);
        }
        greatest = greatest.max(record.timestamp);
        if control {
            is_fit = count == 1 && is_marker(&record, headers, base);
        }
    }
    if !rest.is_empty() {
        return Err(Fault::BadRecord(bytes.len() - rest.len()));
    }
    if !is_fit {
        return Err(Fault::BadRecord(HEAD));
    }
    if greatest != long_at(bytes, 35) as u64 {
        return Err(Fault::BadCount);
    }
    Ok(())
}

impl Batch {
    pub fn read(bytes: Arc<[u8]>, max: u32) -> Result<Batch, Fault> {
        test_frame(&bytes, max)?;
        test_head(&bytes)?;
        test_records(&bytes)?;
        let base = long_at(&bytes, 0) as u64;
        let epoch = u32::try_from(int_at(&bytes, 12)).ok();
        Ok(Batch { base, epoch, bytes })
    }

    /// A batch that was just spelled, and isn't read again.
    #[allow(dead_code)]
    pub fn of(bytes: &[u8]) -> Batch {
        Batch {
            base: 0,
            epoch: None,
            bytes: bytes.into(),
        }
    }

    #[allow(dead_code)]
    pub fn bytes(&self) -> &[u8] {
        &self.bytes
    }

    pub fn records(&self) -> Records<'_> {
        Records {
            base: long_at(&self.bytes, 27),
            left: int_at(&self.bytes, 57) as u32,
            rest: &self.bytes[HEAD..],
        }
    }
}

impl<'a> Iterator for Records<'a> {
    type Item = Record<'a>;

    fn next(&mut self) -> Option<Record<'a>> {
        self.left = self.left.checked_sub(1)?;
        front(&mut self.rest, self.base).map(|(record, _, _)| record)
    }
}
