//! Bytes of record batches, of format 2, not compressed. A service that has Kafka's clients needs none of this.

const TRANSACTIONAL: u16 = 0x10;

/// An idempotent producer, and the sequence number of a batch's first record.
#[derive(Clone, Copy)]
pub struct Sequence {
    pub producer: u64,
    pub epoch: u16,
    pub first: u32,
}

fn crc32c(bytes: &[u8]) -> u32 {
    let step = |sum: u32, _| if sum & 1 == 1 { sum >> 1 ^ 0x82f6_3b78 } else { sum >> 1 };
    !bytes.iter().fold(!0, |sum, byte| (0..8).fold(sum ^ u32::from(*byte), step))
}

fn put_varint(out: &mut Vec<u8>, number: i64) {
    let mut rest = (number << 1 ^ number >> 63) as u64;
    while rest > 0x7f {
        out.push(rest as u8 | 0x80);
        rest >>= 7;
    }
    out.push(rest as u8);
}

fn record(place: usize, value: &[u8]) -> Vec<u8> {
    let mut inner = vec![0, 0]; // attributes, and the time after the batch's
    put_varint(&mut inner, place as i64);
    put_varint(&mut inner, -1); // no key
    put_varint(&mut inner, value.len() as i64);
    inner.extend(value);
    inner.push(0); // no headers
    let mut out = Vec::new();
    put_varint(&mut out, inner.len() as i64);
    out.extend(inner);
    out
}

/// A transactional batch of these values at one time, in milliseconds since 1970. Base offset and leader epoch are the leader's to
/// stamp.
pub fn transactional(sequence: Sequence, time: u64, values: &[String]) -> Vec<u8> {
    let mut covered = TRANSACTIONAL.to_be_bytes().to_vec();
    covered.extend((values.len() as u32 - 1).to_be_bytes());
    covered.extend(time.to_be_bytes());
    covered.extend(time.to_be_bytes());
    covered.extend(sequence.producer.to_be_bytes());
    covered.extend(sequence.epoch.to_be_bytes());
    covered.extend(sequence.first.to_be_bytes());
    covered.extend((values.len() as u32).to_be_bytes());
    for (place, value) in values.iter().enumerate() {
        covered.extend(record(place, value.as_bytes()));
    }
    let mut out = vec![0; 8];
    out.extend((covered.len() as u32 + 9).to_be_bytes());
    out.extend([0xff, 0xff, 0xff, 0xff, 2]);
    out.extend(crc32c(&covered).to_be_bytes());
    out.extend(covered);
    out
}

#[cfg(test)]
mod tests {
    use super::*;
    use kpart::{Cluster, Error, Limits, Marker};

    #[test]
    fn the_checksum_is_the_known_one() {
        assert_eq!(crc32c(b"123456789"), 0xe306_9283);
    }

    #[test]
    fn what_is_written_is_read() -> Result<(), Error> {
        let cluster = Cluster::open(1, Limits::default())?;
        let mut pass = cluster.pass()?;
        pass.elect(0)?;
        let mut node = cluster.node(0)?;
        node.adopt()?;
        let values = ["first".to_string(), "x".repeat(300)];
        let sequence = Sequence { producer: 7, epoch: 0, first: 0 };
        assert_eq!(node.produce(&mut pass, &transactional(sequence, 1_700_000_000_000, &values))?.last, 1);
        node.mark(&mut pass, &Marker { producer_id: 7, producer_epoch: 0, coordinator_epoch: 0, timestamp: 1, commits: true })?;
        node.raise()?;
        let read: Vec<_> = node.read_committed(&mut pass, 0)?.map(|it| it.map(|record| record.value)).collect::<Result<_, _>>()?;
        assert_eq!(read, values.map(|it| Some(it.into_bytes())));
        Ok(())
    }
}
