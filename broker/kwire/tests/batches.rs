//! Heads of batches, and batches one behind another.

mod common;

use common::bytes_of;
use kwire::batch::{BatchHead, Batches, HEAD, mended};
use kwire::{WireError, crc32c};

/// By hand, field by field, each with a value of its own; the checksum is no true one.
fn head() -> Vec<u8> {
    bytes_of(
        "0000010203040506 00000031 00000007 02 aabbccdd 003b 00000002 \
         0000018bcfe56800 0000018bcfe56801 0000000000000fa1 0009 00000005 00000003",
    )
}

/// One record of 'ten' behind a head: kafka-python's, as its Produce request was captured.
fn whole() -> Vec<u8> {
    let captured = include_str!("data/captured.txt").lines().find(|it| it.starts_with("python 0 7 request")).unwrap();
    let frame = bytes_of(captured.split(' ').next_back().unwrap());
    frame[frame.len() - 86..].to_vec()
}

fn sealed(mut batch: Vec<u8>) -> Vec<u8> {
    let crc = crc32c(&batch[21..]);
    batch[17..21].copy_from_slice(&crc.to_be_bytes());
    batch
}

#[test]
fn each_field_of_a_head() {
    let bytes = head();
    assert_eq!(bytes.len(), HEAD);
    let head = BatchHead::read(&bytes).unwrap();
    let wanted = BatchHead {
        base_offset: 0x0102_0304_0506,
        length: 49,
        partition_leader_epoch: 7,
        magic: 2,
        crc: 0xaabb_ccdd,
        attributes: 0x3b,
        last_offset_delta: 2,
        base_timestamp: 1_700_000_000_000,
        max_timestamp: 1_700_000_000_001,
        producer_id: 4001,
        producer_epoch: 9,
        base_sequence: 5,
        record_count: 3,
    };
    assert_eq!(head, wanted);
    // 3b: compression 3 (lz4), append time, transactional, control.
    assert_eq!((head.compression(), head.has_append_time(), head.is_transactional(), head.is_control()), (3, true, true, true));
    let plain = BatchHead { attributes: 0, ..head };
    assert_eq!((plain.compression(), plain.has_append_time(), plain.is_transactional(), plain.is_control()), (0, false, false, false));
    assert_eq!(head.last_offset(), Some(0x0102_0304_0508));
    assert_eq!(BatchHead { base_offset: i64::MAX, ..head }.last_offset(), None);
    for length in 0..HEAD {
        assert!(matches!(BatchHead::read(&bytes[..length]), Err(WireError::Ended { .. })), "{length}");
    }
}

#[test]
fn batches_one_behind_another() {
    let (one, two) = (whole(), head());
    let bytes = [&one[..], &two, &one].concat();
    let found: Vec<_> = Batches::new(&bytes).map(|it| it.unwrap().1).collect();
    assert_eq!(found, [&one[..], &two, &one]);
    assert_eq!(Batches::new(&[]).count(), 0);
}

#[test]
fn a_last_batch_that_isnt_whole() {
    let (one, size) = (whole(), whole().len());
    let bytes = [&one[..], &one].concat();
    for has in 1..size {
        let found: Vec<_> = Batches::new(&bytes[..size + has]).collect();
        let needs = if has < HEAD { HEAD } else { size };
        assert_eq!(found.len(), 2);
        assert!(found[0].is_ok());
        assert_eq!(found[1], Err(WireError::Ended { at: size, needs, has }));
    }
}

#[test]
fn lengths_that_are_too_small() {
    for length in [i32::MIN, -1, 0, 48] {
        let mut bytes = whole();
        bytes[8..12].copy_from_slice(&length.to_be_bytes());
        let found: Vec<_> = Batches::new(&bytes).collect();
        assert_eq!(found, [Err(WireError::BadBatchLength { at: 0, length })]);
    }
}

#[test]
fn only_what_is_unusual_is_mended() {
    let good = whole();
    let (head, _) = Batches::new(&good).next().unwrap().unwrap();
    assert_eq!((head.is_unusual(), crc32c(&good[21..])), (false, head.crc));
    assert_eq!(mended(&good), None);

    let mut bad = good.clone();
    bad[35..43].copy_from_slice(&(-1i64).to_be_bytes());
    assert_eq!(mended(&bad), None, "its checksum is wrong already");
    let bad = sealed(bad);
    assert_eq!(mended(&bad), Some(good.clone()), "its one record's time is the one that was there");
    assert_eq!(mended(&[&bad[..], &[0]].concat()), None, "a byte behind it");

    let mut sequence = good.clone();
    sequence[53..57].copy_from_slice(&0i32.to_be_bytes());
    assert_eq!(mended(&sealed(sequence)), Some(good.clone()));
}

/// By hand: two records 'a' and 'b', 5 and 2 milliseconds after the base timestamp; each is of 7 bytes (0e as a varint): attributes, time,
/// offset, no key, value, no headers.
#[test]
fn the_greatest_time_neednt_be_the_last_records() {
    let mut batch = head();
    batch[8..12].copy_from_slice(&(49i32 + 16).to_be_bytes());
    batch[22] = 0;
    batch[35..43].copy_from_slice(&(-1i64).to_be_bytes());
    batch[57..61].copy_from_slice(&2i32.to_be_bytes());
    batch.extend(bytes_of("0e 00 0a 00 01 02 61 00 0e 00 04 02 01 02 62 00"));
    let after = mended(&sealed(batch)).unwrap();
    assert_eq!(BatchHead::read(&after).unwrap().max_timestamp, 1_700_000_000_005);
}

#[test]
fn what_cant_be_mended_is_left() {
    let mut unusual = whole();
    unusual[35..43].copy_from_slice(&(-1i64).to_be_bytes());
    let with = |at: usize, value: u8| {
        let mut bytes = unusual.clone();
        bytes[at] = value;
        mended(&sealed(bytes))
    };
    assert!(mended(&sealed(unusual.clone())).is_some());
    assert_eq!(with(11, unusual[11] + 1), None, "a length that isn't its own, which the checksum doesn't cover");
    assert_eq!(with(16, 1), None, "another format");
    assert_eq!(with(22, 1), None, "compressed");
    assert_eq!(with(60, 2), None, "more records than there are");
    assert_eq!(with(60, 0), None, "no record");
    assert_eq!(with(57, 0x80), None, "a negative count");
    assert_eq!(with(61, 0x7f), None, "a record of a negative length");
    assert_eq!(with(61, 0x7e), None, "a record that is longer than the batch");
    assert_eq!(mended(&[]), None);

    // A record's time that is -1 as well: nothing to change.
    let mut timeless = unusual.clone();
    timeless[27..35].copy_from_slice(&(-1i64).to_be_bytes());
    assert_eq!(mended(&sealed(timeless)), None);
}
