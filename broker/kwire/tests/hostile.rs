//! Bytes that are no message: an error each time, and never a panic.

mod common;

use common::random::Random;
use common::{Case, cases};
use kwire::batch::{Batches, mended};
use kwire::frame::RequestHeader;
use kwire::{Reader, WireError};

/// Whatever is read of these bytes is written, read and written again as the same.
fn holds(case: &Case, bytes: &[u8], version: i16) -> bool {
    let Ok(written) = (case.again)(bytes, version) else { return false };
    assert_eq!((case.again)(&written, version).as_ref(), Ok(&written), "{} {version} {bytes:?}", case.name);
    true
}

#[test]
fn no_beginning_of_a_message_is_one() {
    let mut count = 0;
    for case in cases() {
        for version in case.versions() {
            let bytes = (case.encode)(version).unwrap();
            for length in 0..bytes.len() {
                let error = (case.again)(&bytes[..length], version).unwrap_err();
                let at_most = length.max(4);
                match error {
                    WireError::Ended { at, needs, has } => assert!(at <= length && has < needs && at + has == length),
                    WireError::TooMany { at, count, most } => assert!(at < at_most && count > most),
                    other => panic!("{} {version}: {other}", case.name),
                }
                count += 1;
            }
            let mut longer = bytes.clone();
            longer.push(0);
            let at = bytes.len();
            assert_eq!((case.again)(&longer, version), Err(WireError::LeftOver { at, left: 1 }), "{} {version}", case.name);
        }
    }
    assert!(count > 9_000, "{count}");
}

#[test]
fn mutated_messages() {
    let mut random = Random::new(0x6b77_6972_6501);
    let (mut count, mut read) = (0, 0);
    for case in cases() {
        for version in case.versions() {
            let whole = (case.encode)(version).unwrap();
            for _ in 0..160 {
                let mut bytes = whole.clone();
                random.mutate(&mut bytes);
                read += usize::from(holds(&case, &bytes, version));
                count += 1;
            }
        }
    }
    assert!(count > 40_000 && read > count / 10 && read < count, "{read} of {count}");
}

#[test]
fn random_bytes() {
    let mut random = Random::new(0x6b77_6972_6502);
    let cases = cases();
    for _ in 0..40_000 {
        let case = &cases[random.below(cases.len())];
        let version = case.least + random.below((case.whole_at - case.least + 1) as usize) as i16;
        let bytes: Vec<u8> = (0..random.below(80)).map(|_| random.byte()).collect();
        holds(case, &bytes, version);
    }
}

#[test]
fn random_headers_and_batches() {
    let mut random = Random::new(0x6b77_6972_6503);
    let captured = include_str!("data/captured.txt").lines().find(|it| it.starts_with("sarama 0 3 request")).unwrap();
    let frame = common::bytes_of(captured.split(' ').next_back().unwrap());
    let batch = &frame[frame.len() - 85..];
    assert!(mended(batch).is_some());
    for _ in 0..20_000 {
        let mut bytes = frame[4..].to_vec();
        random.mutate(&mut bytes);
        let _header = RequestHeader::decode(&mut Reader::new(&bytes));
        let mut bytes = [batch, batch].concat();
        random.mutate(&mut bytes);
        let batches: Vec<_> = Batches::new(&bytes).collect();
        assert!(batches.len() <= bytes.len() / 61 + 1);
        assert!(batches.iter().rev().skip(1).all(Result::is_ok), "an error is the last one");
        assert!(mended(&bytes).is_none() || bytes.len() == batch.len(), "two batches aren't one");
        let mut records = batch.to_vec();
        let at = 61 + random.below(batch.len() - 61);
        records[at] = random.byte();
        let crc = kwire::crc32c(&records[21..]);
        records[17..21].copy_from_slice(&crc.to_be_bytes());
        if let Some(mended_one) = mended(&records) {
            assert_eq!(mended_one.len(), records.len());
        }
    }
}

#[test]
fn versions_outside_of_the_table() {
    for case in cases() {
        for version in [i16::MIN, -1, case.api.least - 1, case.api.greatest + 1, i16::MAX] {
            let bad = WireError::BadVersion { key: case.api.key, version };
            assert_eq!((case.encode)(version), Err(bad));
            assert_eq!((case.again)(&[0; 100], version), Err(bad));
        }
    }
}
