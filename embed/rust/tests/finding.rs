//! What bytes are: the batches of clients, up to the first fault, and checksums.

use kpart::{BatchesIn, Error, Kept, Left, Limits, Refusal, crc32c};

// With one record, two, one and three.
const CLIENTS: [(&[u8], u32); 4] = [
    (include_bytes!("one_record.batch"), 1),
    (include_bytes!("transaction.batch"), 2),
    (include_bytes!("aborted.batch"), 1),
    (include_bytes!("keyed.batch"), 3),
];

const MOST: u32 = u32::MAX;

type Found = (Vec<Vec<u8>>, usize, Option<Refusal>);

fn found(bytes: &[u8], max_batch: u32) -> Result<Found, Error> {
    let found = BatchesIn::of(bytes, max_batch)?;
    Ok((found.batches.collect::<Result<_, _>>()?, found.size, found.fault))
}

// The vectors of docs/FORMATS.md.
#[test]
fn checksums_are_those_of_the_formats() {
    assert_eq!(crc32c(b""), 0);
    assert_eq!(crc32c(b"123456789"), 0xe306_9283);
    assert_eq!(crc32c(&[0; 32]), 0x8a91_36aa);
    for (batch, _) in CLIENTS {
        assert_eq!(crc32c(&batch[21..]).to_be_bytes(), batch[17..21]);
    }
}

#[test]
fn checksums_are_those_of_a_division_bit_by_bit() {
    let bytes: Vec<u8> = (0..100_u32).map(|it| (it * 37 % 251) as u8).collect();
    for length in 0..bytes.len() {
        let rest = bytes[..length]
            .iter()
            .fold(u32::MAX, |rest, byte| (0..8).fold(rest ^ u32::from(*byte), |rest, _| (rest >> 1) ^ (0x82F6_3B78 * (rest & 1))));
        assert_eq!(crc32c(&bytes[..length]), !rest, "{length} bytes");
    }
}

#[test]
fn clients_batches_are_found_wherever_the_bytes_end() -> Result<(), Error> {
    let all = CLIENTS.map(|it| it.0).concat();
    let ends: Vec<usize> =
        CLIENTS.iter().scan(0, |end, (batch, _)| Some(std::mem::replace(end, *end + batch.len()) + batch.len())).collect();
    for length in 0..=all.len() {
        let whole = ends.iter().filter(|it| **it <= length).count();
        let size = ends[..whole].last().copied().unwrap_or_default();
        let (batches, at, fault) = found(&all[..length], MOST)?;
        assert_eq!((at, fault), (size, (size < length).then_some(Refusal::Truncated)), "{length} bytes");
        assert!(batches.iter().eq(CLIENTS[..whole].iter().map(|it| it.0)), "{length} bytes");
    }
    let mut heads = BatchesIn::of(&all, MOST)?.batches;
    for (batch, count) in CLIENTS {
        let head = heads.head()?.expect("a batch");
        assert_eq!((head.base, head.count, head.size as usize, head.end()), (0, count, batch.len(), count.into()));
        heads.skip_one();
    }
    Ok(())
}

#[test]
fn a_batch_may_be_too_large() -> Result<(), Error> {
    let (first, second) = (CLIENTS[0].0, CLIENTS[1].0);
    let all = [first, second].concat();
    let most = second.len() as u32;
    assert_eq!(found(&all, most)?, (vec![first.to_vec(), second.to_vec()], all.len(), None));
    assert_eq!(found(&all, most - 1)?, (vec![first.to_vec()], first.len(), Some(Refusal::TooLarge)));
    assert_eq!(found(&all, 0)?, (vec![], 0, Some(Refusal::TooLarge)));
    Ok(())
}

// Each bit of a batch behind another one: the fault is that by which a log is refused that has it.
#[test]
fn what_is_found_is_what_is_kept() -> Result<(), Error> {
    let first = CLIENTS[0].0;
    let mut batch = first.to_vec();
    batch[7] = 1; // it comes behind the first one
    let whole = [first, &batch].concat();
    let mut faults = [0; 11];
    for bit in first.len() * 8..whole.len() * 8 {
        let mut other = whole.clone();
        other[bit / 8] ^= 1 << (bit % 8);
        let mut left = Left::new(Limits { max_batch: 1 << 20, ..Limits::default() })?;
        let kept = left.keep(&other, Kept::default());
        let (batches, size, fault) = found(&other, 1 << 20)?;
        assert_eq!((batches.len(), size), if fault.is_some() { (1, first.len()) } else { (2, whole.len()) }, "bit {bit}");
        match fault {
            Some(fault) => assert_eq!(kept.map_err(number), Err(Some(fault.number())), "bit {bit}"),
            // Another base offset, or leader epoch, may be lawful.
            None => assert!((0..16).contains(&(bit / 8 - first.len())) && kept.map_err(number) != Err(Some(33)), "bit {bit}"),
        }
        faults[fault.map_or(0, |it| it.number() as usize)] += 1;
    }
    // Bits of base offset and leader epoch; of the format; of the length; of the checksum, and all that it is of.
    assert_eq!((faults[0] + faults[7], faults[2]), (12 * 8, 8));
    assert_eq!(faults[1] + faults[3] + faults[4] + faults[9], 8 * (first.len() - 13));
    assert!(faults[4] >= 8 * (first.len() - 17));
    Ok(())
}

fn number(error: Error) -> Option<u32> {
    match error {
        Error::Refused(refusal) => Some(refusal.number()),
        _ => None,
    }
}

// Its length is made a byte longer, with a right checksum.
#[test]
fn a_records_fault_names_its_place() -> Result<(), Error> {
    let mut batch = CLIENTS[0].0.to_vec();
    batch[61] += 2;
    let sum = crc32c(&batch[21..]).to_be_bytes();
    batch[17..21].copy_from_slice(&sum);
    assert_eq!(found(&batch, MOST)?, (vec![], 0, Some(Refusal::BadRecord(61))));
    Ok(())
}
