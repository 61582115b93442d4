//! An encoder of record batches of its own, for the benchmarks.

use crate::decoder::crc32c;

/// A time for first records.
pub const FIRST: i64 = 1_700_000_000_000;

/// Appends the shortest spelling of a number.
pub fn varint(out: &mut Vec<u8>, number: i64) {
    let mut rest = (number << 1 ^ number >> 63) as u64;
    while rest > 0x7f {
        out.push(rest as u8 | 0x80);
        rest >>= 7;
    }
    out.push(rest as u8);
}

fn text(out: &mut Vec<u8>, bytes: &[u8]) {
    varint(out, bytes.len() as i64);
    out.extend(bytes);
}

/// Null keys, values of this size and up to 20 more, times from this one on, so far apart. No leader
/// has stamped it.
pub fn batch(first: i64, count: usize, size: usize, apart: i64, with_headers: bool) -> Vec<u8> {
    let mut records = Vec::new();
    for i in 0..count {
        let mut inner = vec![0];
        varint(&mut inner, i as i64 * apart);
        varint(&mut inner, i as i64);
        varint(&mut inner, -1);
        text(&mut inner, &vec![b'v'; size + i % 21]);
        varint(&mut inner, i64::from(with_headers));
        if with_headers {
            text(&mut inner, b"trace");
            text(&mut inner, b"0123456789abcdef");
        }
        text(&mut records, &inner);
    }
    let mut covered = vec![0, 0];
    covered.extend((count as i32 - 1).to_be_bytes());
    covered.extend(first.to_be_bytes());
    covered.extend((first + (count as i64 - 1) * apart).to_be_bytes());
    covered.extend([0xff; 14]);
    covered.extend((count as i32).to_be_bytes());
    covered.extend(records);
    let mut out = 0i64.to_be_bytes().to_vec();
    out.extend((covered.len() as i32 + 9).to_be_bytes());
    out.extend([0xff, 0xff, 0xff, 0xff, 2]);
    out.extend(crc32c(&covered).to_be_bytes());
    out.extend(covered);
    out
}

/// Puts base offset and leader epoch, which stand outside of the checksum.
#[allow(dead_code)]
pub fn stamp(batch: &mut [u8], base: i64, epoch: i32) {
    batch[..8].copy_from_slice(&base.to_be_bytes());
    batch[12..16].copy_from_slice(&epoch.to_be_bytes());
}
