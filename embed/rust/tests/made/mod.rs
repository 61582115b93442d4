//! Batches with values of a test's own, as a client encodes them (`docs/FORMATS.md`).

// Bit by bit.
fn crc32c(bytes: &[u8]) -> u32 {
    !bytes.iter().fold(u32::MAX, |rest, byte| (0..8).fold(rest ^ u32::from(*byte), |rest, _| (rest >> 1) ^ (0x82F6_3B78 * (rest & 1))))
}

fn varint(number: i32, to: &mut Vec<u8>) {
    let mut word = ((number << 1) ^ (number >> 31)) as u32;
    while word > 127 {
        to.push(word as u8 | 128);
        word >>= 7;
    }
    to.push(word as u8);
}

fn record(number: usize, value: &[u8]) -> Vec<u8> {
    let mut body = vec![0, 0]; // no attributes, and the batch's time
    varint(number as i32, &mut body);
    varint(-1, &mut body); // no key
    varint(value.len() as i32, &mut body);
    body.extend_from_slice(value);
    body.push(0); // no headers
    let mut bytes = Vec::new();
    varint(body.len() as i32, &mut bytes);
    bytes.extend(body);
    bytes
}

/// A batch of records with these values: of a producer, with the sequence number of the first one, or of none.
pub fn batch(producer: Option<(u64, i32)>, values: &[&[u8]]) -> Vec<u8> {
    of_attributes(0, producer, values)
}

/// The same, within a producer's transaction.
#[allow(dead_code)] // some tests have none
pub fn transactional(producer: (u64, i32), values: &[&[u8]]) -> Vec<u8> {
    of_attributes(0x10, Some(producer), values)
}

fn of_attributes(attributes: i16, producer: Option<(u64, i32)>, values: &[&[u8]]) -> Vec<u8> {
    let (id, epoch, sequence) = producer.map_or((-1, -1, -1), |(id, sequence)| (id as i64, 0_i16, sequence));
    let mut summed = attributes.to_be_bytes().to_vec();
    summed.extend((values.len() as i32 - 1).to_be_bytes());
    summed.extend([1_000_i64.to_be_bytes(); 2].concat()); // both times
    summed.extend(id.to_be_bytes());
    summed.extend(epoch.to_be_bytes());
    summed.extend(sequence.to_be_bytes());
    summed.extend((values.len() as i32).to_be_bytes());
    values.iter().enumerate().for_each(|(number, value)| summed.extend(record(number, value)));
    let mut bytes = vec![0; 8]; // whatever base offset
    bytes.extend((summed.len() as i32 + 9).to_be_bytes());
    bytes.extend((-1_i32).to_be_bytes()); // no leader epoch
    bytes.push(2);
    bytes.extend(crc32c(&summed).to_be_bytes());
    bytes.extend(summed);
    bytes
}
