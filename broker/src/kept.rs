//! What is kept of the coordinators beside the partitions' logs: keys and values of the library's `Journal`.
//!
//! A key is a kind, then names with their lengths before them; numbers are big endian. States of transactions have Kafka's numbers.

use crate::coordinator::{PendingOffset, Producer};
use crate::members::CommittedOffset;
use kwire::{Reader, WireError, Writer};

/// A topic, and a partition's number in it.
pub type Name = (String, i32);

/// A key with its next value, or with none where it goes.
pub type Change = (Vec<u8>, Option<Vec<u8>>);

const IDS: i8 = 1;
const LIFE: i8 = 2;
const PARTITION: i8 = 3;
const TRANSACTION: i8 = 4;
const GROUP: i8 = 5;
const OFFSET: i8 = 6;

/// Where a transaction stands, by Kafka's numbers (`TransactionState`).
#[derive(Clone, Copy, Debug, PartialEq, Eq)]
pub enum Standing {
    /// Nothing was begun.
    Empty,
    /// Partitions were added.
    Ongoing,
    /// Markers are to be written: of a commit, or of an abort.
    Prepared {
        /// Whether it commits.
        commits: bool,
    },
    /// They are written.
    Complete {
        /// Whether it has committed.
        commits: bool,
    },
}

const STANDINGS: [Standing; 6] = [
    Standing::Empty,
    Standing::Ongoing,
    Standing::Prepared { commits: true },
    Standing::Prepared { commits: false },
    Standing::Complete { commits: true },
    Standing::Complete { commits: false },
];

/// A transactional id's state, as it is kept.
#[derive(Clone, Debug, PartialEq, Eq)]
pub struct KeptTransaction {
    /// The producer's id and epoch.
    pub producer: Producer,
    /// Its transaction may take so many milliseconds.
    pub timeout: u64,
    /// When that was begun: milliseconds since 1970.
    pub began: u64,
    /// Where it stands.
    pub standing: Standing,
    /// The places of its partitions.
    pub partitions: Vec<usize>,
    /// Offsets that count once it commits.
    pub offsets: Vec<PendingOffset>,
}

/// What is kept of a group beside its offsets.
#[derive(Clone, Debug, Default, PartialEq, Eq)]
pub struct KeptGroup {
    /// Its last generation.
    pub generation: i32,
    /// The kind of protocol.
    pub kind: String,
}

/// What the process before this one has left.
#[derive(Debug, Default, PartialEq, Eq)]
pub struct Left {
    /// No producer was given this id or a later one.
    pub next_id: u64,
    /// How many processes had the folder.
    pub life: u64,
    /// Transactional ids.
    pub transactions: Vec<(String, KeptTransaction)>,
    /// Groups.
    pub groups: Vec<(String, KeptGroup)>,
    /// What groups have committed.
    pub offsets: Vec<PendingOffset>,
}

fn put_text(out: &mut Writer<'_>, text: &str) {
    out.i32(i32::try_from(text.len()).unwrap_or(i32::MAX)); // a frame is shorter
    out.raw(text.as_bytes());
}

fn text(reader: &mut Reader<'_>) -> Result<String, WireError> {
    let length = usize::try_from(reader.i32()?).unwrap_or(usize::MAX);
    let at = reader.position();
    String::from_utf8(reader.take(length)?.to_vec()).map_err(|_| WireError::NotUtf8 { at })
}

fn written(write: impl FnOnce(&mut Writer<'_>)) -> Vec<u8> {
    let mut out = Writer::new();
    write(&mut out);
    out.finish().to_vec()
}

fn key(kind: i8, names: &[&str], index: Option<i32>) -> Vec<u8> {
    written(|out| {
        out.i8(kind);
        names.iter().for_each(|it| put_text(out, it));
        index.into_iter().for_each(|it| out.i32(it));
    })
}

fn number(number: u64) -> Option<Vec<u8>> {
    Some(number.to_be_bytes().to_vec())
}

/// No producer was given this id or a later one.
pub fn ids(next: u64) -> Change {
    (key(IDS, &[], None), number(next))
}

/// So many processes had the folder.
pub fn life(life: u64) -> Change {
    (key(LIFE, &[], None), number(life))
}

/// The partition has a folder.
pub fn partition((topic, index): &Name) -> Change {
    (key(PARTITION, &[topic], Some(*index)), Some(Vec::new()))
}

/// What is kept of a group beside its offsets; none where it is gone.
pub fn group(name: &str, kept: Option<&KeptGroup>) -> Change {
    let value = kept.map(|it| {
        written(|out| {
            out.i32(it.generation);
            put_text(out, &it.kind);
        })
    });
    (key(GROUP, &[name], None), value)
}

fn put_offset(out: &mut Writer<'_>, it: &CommittedOffset) {
    out.i64(it.offset);
    out.i32(it.epoch);
    put_text(out, &it.metadata);
}

fn offset_of(reader: &mut Reader<'_>) -> Result<CommittedOffset, WireError> {
    Ok(CommittedOffset { offset: reader.i64()?, epoch: reader.i32()?, metadata: text(reader)? })
}

/// What a group has committed of the partition of that name.
pub fn offset(group: &str, (topic, index): &Name, it: &CommittedOffset) -> Change {
    (key(OFFSET, &[group, topic], Some(*index)), Some(written(|out| put_offset(out, it))))
}

/// The names of partitions by their places.
pub struct Places<'a>(pub &'a [Name]);

impl Places<'_> {
    fn put(&self, out: &mut Writer<'_>, place: usize) {
        if let Some((topic, index)) = self.0.get(place) {
            put_text(out, topic);
            out.i32(*index);
        }
    }

    fn read(&self, reader: &mut Reader<'_>) -> Result<usize, WireError> {
        let at = reader.position();
        let (topic, index) = (text(reader)?, reader.i32()?);
        // One that has no place isn't there: no process has left it so.
        self.0.iter().position(|it| it.1 == index && it.0 == topic).ok_or(WireError::Null { at })
    }

    /// A transactional id's state.
    pub fn transaction(&self, id: &str, it: &KeptTransaction) -> Change {
        let value = written(|out| {
            out.i64(it.producer.0);
            out.i16(it.producer.1);
            out.i64(it.timeout as i64);
            out.i64(it.began as i64);
            out.i8(STANDINGS.iter().position(|other| *other == it.standing).unwrap_or_default() as i8);
            out.i32(it.partitions.len() as i32);
            it.partitions.iter().for_each(|place| self.put(out, *place));
            it.offsets.iter().for_each(|pending| {
                put_text(out, &pending.group);
                self.put(out, pending.place);
                put_offset(out, &pending.offset);
            });
        });
        (key(TRANSACTION, &[id], None), Some(value))
    }

    fn transaction_of(&self, reader: &mut Reader<'_>) -> Result<KeptTransaction, WireError> {
        let producer = (reader.i64()?, reader.i16()?);
        let (timeout, began) = (reader.i64()? as u64, reader.i64()? as u64);
        let at = reader.position();
        let standing = *usize::try_from(reader.i8()?).ok().and_then(|it| STANDINGS.get(it)).ok_or(WireError::Null { at })?;
        let count = reader.i32()?;
        let partitions = (0..count).map(|_| self.read(reader)).collect::<Result<_, _>>()?;
        let mut offsets = Vec::new();
        while reader.remaining() > 0 {
            offsets.push(PendingOffset { group: text(reader)?, place: self.read(reader)?, offset: offset_of(reader)? });
        }
        Ok(KeptTransaction { producer, timeout, began, standing, partitions, offsets })
    }

    /// What a journal's entries say.
    ///
    /// # Errors
    /// Where one of them isn't as [`Change`]s of this module make it.
    pub fn left(&self, entries: &[(Vec<u8>, Vec<u8>)]) -> Result<Left, WireError> {
        let mut left = Left::default();
        for (key, value) in entries {
            let (mut key, mut value) = (Reader::new(key), Reader::new(value));
            self.take(&mut left, &mut key, &mut value)?;
            key.finish()?;
            value.finish()?;
        }
        Ok(left)
    }

    fn take(&self, left: &mut Left, key: &mut Reader<'_>, value: &mut Reader<'_>) -> Result<(), WireError> {
        match key.i8()? {
            IDS => left.next_id = value.i64()? as u64,
            LIFE => left.life = value.i64()? as u64,
            PARTITION => drop(self.read(key)?),
            TRANSACTION => left.transactions.push((text(key)?, self.transaction_of(value)?)),
            GROUP => left.groups.push((text(key)?, KeptGroup { generation: value.i32()?, kind: text(value)? })),
            OFFSET => left.offsets.push(PendingOffset { group: text(key)?, place: self.read(key)?, offset: offset_of(value)? }),
            kind => return Err(WireError::UnknownApi { key: kind.into() }),
        }
        Ok(())
    }
}

/// The partitions that have folders, by a journal's entries.
///
/// # Errors
/// Where an entry isn't as [`partition`] makes it.
pub fn partitions(entries: &[(Vec<u8>, Vec<u8>)]) -> Result<Vec<Name>, WireError> {
    let mut found = Vec::new();
    for key in entries.iter().map(|it| &it.0).filter(|it| it.first() == Some(&(PARTITION as u8))) {
        let mut reader = Reader::new(&key[1..]);
        found.push((text(&mut reader)?, reader.i32()?));
        reader.finish()?;
    }
    Ok(found)
}

#[cfg(test)]
mod tests {
    use super::*;

    fn names() -> Vec<Name> {
        vec![("payments".to_string(), 0), ("payments".to_string(), 1), ("a-b".to_string(), 0)]
    }

    fn pending(group: &str, place: usize, offset: i64) -> PendingOffset {
        let offset = CommittedOffset { offset, epoch: -1, metadata: format!("note {offset}") };
        PendingOffset { group: group.to_string(), place, offset }
    }

    fn transaction(standing: Standing) -> KeptTransaction {
        let (partitions, offsets) = (vec![0, 2], vec![pending("g", 1, 7), pending("other\n", 0, i64::MAX)]);
        KeptTransaction { producer: (1_000, 3), timeout: 60_000, began: 1_700_000_000_000, standing, partitions, offsets }
    }

    fn entries(changes: Vec<Change>) -> Vec<(Vec<u8>, Vec<u8>)> {
        changes.into_iter().filter_map(|it| Some((it.0, it.1?))).collect()
    }

    #[test]
    fn what_is_kept_is_read() {
        let names = names();
        let places = Places(&names);
        let kept = KeptGroup { generation: 5, kind: "consumer".to_string() };
        let mut changes = vec![ids(2_000), life(3), group("g", Some(&kept)), group("gone", None)];
        changes.extend(names.iter().map(partition));
        changes.push(offset("g", &names[2], &pending("g", 2, 9).offset));
        changes.extend(STANDINGS.iter().enumerate().map(|(at, it)| places.transaction(&at.to_string(), &transaction(*it))));
        let entries = entries(changes);
        assert_eq!(partitions(&entries), Ok(names.clone()));
        let transactions = STANDINGS.iter().enumerate().map(|(at, it)| (at.to_string(), transaction(*it))).collect();
        let (groups, offsets) = (vec![("g".to_string(), kept)], vec![pending("g", 2, 9)]);
        assert_eq!(places.left(&entries), Ok(Left { next_id: 2_000, life: 3, transactions, groups, offsets }));
    }

    // The numbers are those of Kafka's TransactionState.
    #[test]
    fn bytes_are_as_the_page_says() {
        let names = names();
        let empty = KeptTransaction { partitions: vec![2], offsets: Vec::new(), ..transaction(Standing::Prepared { commits: false }) };
        let (key, value) = Places(&names).transaction("id", &empty);
        assert_eq!(key, [&[4, 0, 0, 0, 2][..], b"id"].concat());
        let numbers = [&1_000_i64.to_be_bytes()[..], &[0, 3], &60_000_i64.to_be_bytes(), &1_700_000_000_000_i64.to_be_bytes(), &[3]];
        let partition = [&[0, 0, 0, 1, 0, 0, 0, 3][..], b"a-b", &[0; 4]];
        assert_eq!(value, Some([numbers.concat(), partition.concat()].concat()));
        assert_eq!(super::partition(&names[1]).0, [&[3, 0, 0, 0, 8][..], b"payments", &[0, 0, 0, 1]].concat());
        assert_eq!(ids(1_000), (vec![1], Some(vec![0, 0, 0, 0, 0, 0, 3, 232])));
    }

    #[test]
    fn what_is_of_no_grammar_is_refused() {
        let names = names();
        let whole = entries(vec![
            ids(1),
            group("g", Some(&KeptGroup::default())),
            offset("g", &names[0], &CommittedOffset::default()),
            Places(&names).transaction("id", &transaction(Standing::Ongoing)),
        ]);
        for place in 0..whole.len() {
            for (shorter, longer) in [(true, false), (false, false), (true, true), (false, true)] {
                let mut other = whole.clone();
                let bytes = if shorter { &mut other[place].0 } else { &mut other[place].1 };
                let length = if longer { bytes.len() + 1 } else { bytes.len().saturating_sub(1) };
                bytes.resize(length, 0);
                assert!(Places(&names).left(&other).is_err(), "entry {place}");
            }
        }
        assert!(Places(&names[..2]).left(&whole).is_err(), "a partition that isn't there");
        assert!(Places(&names).left(&[(vec![7], Vec::new())]).is_err());
        assert!(Places(&names).left(&[(Vec::new(), Vec::new())]).is_err());
        assert!(partitions(&[(vec![3, 0, 0, 0, 2, b'a'], Vec::new())]).is_err());
    }
}
