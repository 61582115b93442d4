//! Spells batches and the numbers of a trace, in plain Rust, and reads the head of a batch that is lawful.

use crate::decoder::{Fault, crc32c};
use crate::encoder::varint;

pub const IS_TRANSACTIONAL: u16 = 0x10;
pub const IS_CONTROL: u16 = 0x20;

#[derive(Clone, Copy)]
pub struct Sender {
    pub producer: i64,
    pub epoch: i16,
    pub sequence: i32,
}

impl Sender {
    /// Whether a client's data batch may have these fields.
    pub fn is_lawful(self, is_transactional: bool) -> bool {
        let none = self.producer == -1 && self.epoch == -1 && self.sequence == -1;
        let all = self.producer >= 0 && self.epoch >= 0 && self.sequence >= 0;
        (none && !is_transactional) || all
    }
}

/// What the head of a lawful batch says.
pub struct Head {
    pub attributes: u16,
    /// The last record's place, from 0.
    pub last: u64,
    /// The greatest timestamp.
    pub most: i64,
    pub sender: Sender,
    pub size: usize,
}

impl Head {
    pub fn of(bytes: &[u8]) -> Head {
        let long = |place: usize| i64::from_be_bytes(bytes[place..place + 8].try_into().unwrap());
        let int = |place: usize| i32::from_be_bytes(bytes[place..place + 4].try_into().unwrap());
        Head {
            attributes: u16::from_be_bytes([bytes[21], bytes[22]]),
            last: int(23) as u64,
            most: long(35),
            sender: Sender {
                producer: long(43),
                epoch: i16::from_be_bytes([bytes[51], bytes[52]]),
                sequence: int(53),
            },
            size: bytes.len(),
        }
    }

    pub fn has(&self, attribute: u16) -> bool {
        self.attributes & attribute != 0
    }
}

fn varint_size(number: i64) -> usize {
    let rest = (number << 1 ^ number >> 63) as u64;
    (64 - (rest | 1).leading_zeros() as usize).div_ceil(7)
}

fn record(out: &mut Vec<u8>, place: i64, key: Option<&[u8]>, value: &[u8]) {
    let key_size = key.map_or(1, |key| varint_size(key.len() as i64) + key.len());
    let size =
        2 + varint_size(place) + key_size + varint_size(value.len() as i64) + value.len() + 1;
    varint(out, size as i64);
    out.extend([0, 0]);
    varint(out, place);
    match key {
        Some(key) => {
            varint(out, key.len() as i64);
            out.extend(key);
        }
        None => out.push(1),
    }
    varint(out, value.len() as i64);
    out.extend(value);
    out.push(0);
}

/// Spells a batch of these records, which all have this time, into an empty buffer.
#[cfg_attr(stages, inline(never))]
pub fn batch<'a>(
    out: &mut Vec<u8>,
    attributes: u16,
    time: i64,
    sender: Sender,
    records: impl Iterator<Item = (Option<&'a [u8]>, &'a [u8])>,
) {
    out.clear();
    out.resize(61, 0);
    let mut count = 0i32;
    for (key, value) in records {
        record(out, i64::from(count), key, value);
        count += 1;
    }
    let length = out.len() as i32 - 12;
    out[8..12].copy_from_slice(&length.to_be_bytes());
    out[12..17].copy_from_slice(&[0xff, 0xff, 0xff, 0xff, 2]);
    out[21..23].copy_from_slice(&attributes.to_be_bytes());
    out[23..27].copy_from_slice(&(count - 1).to_be_bytes());
    out[27..35].copy_from_slice(&time.to_be_bytes());
    out[35..43].copy_from_slice(&time.to_be_bytes());
    out[43..51].copy_from_slice(&sender.producer.to_be_bytes());
    out[51..53].copy_from_slice(&sender.epoch.to_be_bytes());
    out[53..57].copy_from_slice(&sender.sequence.to_be_bytes());
    out[57..61].copy_from_slice(&count.to_be_bytes());
    let sum = crc32c(&out[21..]);
    out[17..21].copy_from_slice(&sum.to_be_bytes());
}

/// Spells a transaction marker.
#[cfg_attr(stages, inline(never))]
pub fn marker(out: &mut Vec<u8>, time: i64, sender: Sender, coordinator: i32, commits: bool) {
    let key = [0, 0, 0, u8::from(commits)];
    let mut value = [0; 6];
    value[2..].copy_from_slice(&coordinator.to_be_bytes());
    let record = (Some(key.as_slice()), value.as_slice());
    let attributes = IS_TRANSACTIONAL | IS_CONTROL;
    batch(out, attributes, time, sender, [record].into_iter());
}

/// The bytes that these digits stand for.
pub fn bytes_of(digits: &[u8]) -> Vec<u8> {
    let digit = |byte: u8| (byte as char).to_digit(16).unwrap_or(0) as u8;
    let pairs = digits.chunks_exact(2);
    pairs
        .map(|pair| digit(pair[0]) << 4 | digit(pair[1]))
        .collect()
}

/// The two digits of each number below 100.
const PAIRS: [[u8; 2]; 100] = {
    let mut pairs = [[0; 2]; 100];
    let mut number = 0;
    while number < 100 {
        pairs[number] = [b'0' + (number / 10) as u8, b'0' + (number % 10) as u8];
        number += 1;
    }
    pairs
};

#[cfg_attr(stages, inline(never))]
pub fn push(out: &mut Vec<u8>, before: &str, number: u64) {
    out.extend_from_slice(before.as_bytes());
    let (mut digits, mut place, mut rest) = ([0; 20], 20, number);
    while rest >= 100 {
        place -= 2;
        digits[place..place + 2].copy_from_slice(&PAIRS[(rest % 100) as usize]);
        rest /= 100;
    }
    let [tens, ones] = PAIRS[rest as usize];
    place -= 1;
    digits[place] = ones;
    if rest >= 10 {
        place -= 1;
        digits[place] = tens;
    }
    out.extend_from_slice(&digits[place..]);
}

#[cfg_attr(stages, inline(never))]
pub fn push_hex(out: &mut Vec<u8>, bytes: &[u8]) {
    const DIGITS: &[u8; 16] = b"0123456789abcdef";
    let start = out.len();
    out.resize(start + 2 * bytes.len(), 0);
    for (pair, byte) in out[start..].chunks_exact_mut(2).zip(bytes) {
        pair[0] = DIGITS[usize::from(byte >> 4)];
        pair[1] = DIGITS[usize::from(byte & 15)];
    }
}

pub fn fault_text(fault: &Fault) -> String {
    match fault {
        Fault::Truncated => "F1 Truncated".into(),
        Fault::BadMagic => "F2 BadMagic".into(),
        Fault::BadLength => "F3 BadLength".into(),
        Fault::BadCrc => "F4 BadCrc".into(),
        Fault::Compressed => "F5 Compressed".into(),
        Fault::BadAttributes => "F6 BadAttributes".into(),
        Fault::BadCount => "F7 BadCount".into(),
        Fault::BadRecord(place) => format!("F8 BadRecord {place}"),
        Fault::TooLarge => "F9 TooLarge".into(),
        Fault::BadProducerFields => "F10 BadProducerFields".into(),
    }
}
