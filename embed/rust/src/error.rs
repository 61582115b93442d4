//! Why a call gave nothing.

use std::fmt;
use std::sync::OnceLock;

use crate::ffi::Text;
use crate::store::StoreFault;

/// What the rules say of a call that they refuse, by the numbers F1 to F35 of `docs/RULES.md`. The node or the record is as before
/// but at [`Refusal::Memory`], where a node that took batches is down.
#[derive(Clone, Copy, Debug, PartialEq, Eq)]
#[non_exhaustive]
pub enum Refusal {
    /// F1: fewer bytes than the batch needs.
    Truncated,
    /// F2: the format isn't 2.
    BadMagic,
    /// F3: the length field, or bytes behind the batch.
    BadLength,
    /// F4: the checksum differs.
    BadCrc,
    /// F5: the batch is compressed.
    Compressed,
    /// F6: an attribute that no client's batch has.
    BadAttributes,
    /// F7: a count, an offset or a time outside of its range.
    BadCount,
    /// F8: a record's bytes; the place of its first byte in the batch.
    BadRecord(u64),
    /// F9: more bytes than `max_batch`.
    TooLarge,
    /// F10: the producer's fields don't go together.
    BadProducerFields,
    /// F11: the producer's epoch is too low.
    InvalidProducerEpoch,
    /// F12: not the producer's next sequence number.
    OutOfOrderSequence,
    /// F13: the batch doesn't fit the producer's open transaction.
    InvalidTxnState,
    /// F14: a later coordinator has ended a transaction of the producer.
    CoordinatorFenced,
    /// F15: the node doesn't lead, or follows nobody.
    NotLeader,
    /// F16: no such offset to read.
    OffsetOutOfRange,
    /// F17: the request is of an earlier leader epoch.
    FencedLeaderEpoch,
    /// F18: the request is of a later leader epoch.
    UnknownLeaderEpoch,
    /// F19: no batch begins there.
    NotBoundary,
    /// F20: the place is settled.
    BelowSettled,
    /// F21: the node isn't in sync.
    NotInSync,
    /// F22: the record has moved on, or is no news.
    StaleRecord,
    /// F23: the node hasn't caught up.
    NotCaughtUp,
    /// F24: versions, epochs or lives are used up.
    RecordFull,
    /// F25: offsets are used up.
    OffsetsExhausted,
    /// F26: the batches don't follow the log.
    NotNext,
    /// F27: the leader epoch goes back.
    EpochBack,
    /// F28: the node is down; of a restart, it is up.
    Down,
    /// F29: the answer is to no present request.
    StaleAnswer,
    /// F30: a client sent a control batch.
    ControlFromClient,
    /// F33: memory was refused.
    Memory,
    /// F34: another in-sync change of the leader is pending.
    ChangePending,
    /// A refusal of the program's alone, which no call of the library gives: its number.
    Other(u32),
}

impl Refusal {
    pub(crate) fn of(number: u32, place: u64) -> Refusal {
        match NUMBERED.iter().find(|(it, _)| *it == number) {
            Some((_, Refusal::BadRecord(_))) => Refusal::BadRecord(place),
            Some((_, found)) => *found,
            None => Refusal::Other(number),
        }
    }

    /// Its number, 1 to 35.
    pub fn number(self) -> u32 {
        match self {
            Refusal::Other(number) => number,
            found => NUMBERED.iter().find(|(_, it)| same_kind(*it, found)).map_or(0, |(number, _)| *number),
        }
    }

    /// The error code of Kafka's protocol, as 6 (NOT_LEADER_OR_FOLLOWER) for F15, where `docs/RULES.md` names one, and none where it
    /// doesn't: which code a broker answers then is its own choice. O(1).
    ///
    /// ```
    /// use kpart::Refusal;
    ///
    /// assert_eq!(Refusal::NotLeader.kafka_code(), Some(6));
    /// assert_eq!(Refusal::Down.kafka_code(), None);
    /// ```
    pub fn kafka_code(&self) -> Option<i16> {
        Some(match self {
            Refusal::OffsetOutOfRange => 1,
            Refusal::BadCrc => 2,
            Refusal::NotLeader => 6,
            Refusal::TooLarge => 10,
            Refusal::OutOfOrderSequence => 45,
            Refusal::InvalidProducerEpoch => 47,
            Refusal::InvalidTxnState => 48,
            Refusal::FencedLeaderEpoch => 74,
            Refusal::UnknownLeaderEpoch => 75,
            _ => return None,
        })
    }

    /// Its name in the rules, which the library has.
    pub fn name(self) -> &'static str {
        match self {
            Refusal::Other(_) => "Other",
            found => text(found.number()).split_once(' ').map_or("", |(_, name)| name),
        }
    }
}

fn same_kind(one: Refusal, other: Refusal) -> bool {
    std::mem::discriminant(&one) == std::mem::discriminant(&other)
}

/// What the library calls each refusal, as `F22 StaleRecord`: asked for once. No memory is taken.
fn text(number: u32) -> &'static str {
    static TEXTS: OnceLock<[Text; 36]> = OnceLock::new();
    let texts = TEXTS.get_or_init(|| std::array::from_fn(|number| Text::of(number as u32)));
    texts.get(number as usize).map_or("", Text::as_str)
}

const NUMBERED: [(u32, Refusal); 32] = [
    (1, Refusal::Truncated),
    (2, Refusal::BadMagic),
    (3, Refusal::BadLength),
    (4, Refusal::BadCrc),
    (5, Refusal::Compressed),
    (6, Refusal::BadAttributes),
    (7, Refusal::BadCount),
    (8, Refusal::BadRecord(0)),
    (9, Refusal::TooLarge),
    (10, Refusal::BadProducerFields),
    (11, Refusal::InvalidProducerEpoch),
    (12, Refusal::OutOfOrderSequence),
    (13, Refusal::InvalidTxnState),
    (14, Refusal::CoordinatorFenced),
    (15, Refusal::NotLeader),
    (16, Refusal::OffsetOutOfRange),
    (17, Refusal::FencedLeaderEpoch),
    (18, Refusal::UnknownLeaderEpoch),
    (19, Refusal::NotBoundary),
    (20, Refusal::BelowSettled),
    (21, Refusal::NotInSync),
    (22, Refusal::StaleRecord),
    (23, Refusal::NotCaughtUp),
    (24, Refusal::RecordFull),
    (25, Refusal::OffsetsExhausted),
    (26, Refusal::NotNext),
    (27, Refusal::EpochBack),
    (28, Refusal::Down),
    (29, Refusal::StaleAnswer),
    (30, Refusal::ControlFromClient),
    (33, Refusal::Memory),
    (34, Refusal::ChangePending),
];

/// Why a call gave nothing.
#[derive(Clone, Copy, Debug, PartialEq, Eq)]
#[non_exhaustive]
pub enum Error {
    /// The rules refuse it.
    Refused(Refusal),
    /// The memory that the call needs before it does anything was refused. Nothing has happened: try again later.
    NoRoom,
    /// A number is outside of its range: a node that the cluster hasn't got, more than seven nodes, a field of a marker.
    OutOfRange,
    /// More bytes than a batch may have, or fewer places than bytes.
    BadLength,
    /// The pass or the message is of another cluster. Nothing has happened.
    OtherCluster,
    /// The system gave no thread for a worker; those that were started have ended.
    NoThread,
    /// A file of a store ([`Store`](crate::Store)) could not be written, and what rests on it wasn't done.
    Store(StoreFault),
    /// The library says that a handle is closed, or of another kind, which these types exclude: its number.
    Misuse(u32),
}

impl Error {
    pub(crate) fn of(number: u32, place: u64) -> Error {
        match number {
            68 => Error::NoRoom,
            69 => Error::OutOfRange,
            70 => Error::BadLength,
            65.. => Error::Misuse(number),
            _ => Error::Refused(Refusal::of(number, place)),
        }
    }

    /// Whether memory was refused: the same call may pass later.
    pub fn is_memory(self) -> bool {
        matches!(self, Error::NoRoom | Error::Refused(Refusal::Memory))
    }
}

impl From<Refusal> for Error {
    fn from(refusal: Refusal) -> Error {
        Error::Refused(refusal)
    }
}

impl From<StoreFault> for Error {
    fn from(fault: StoreFault) -> Error {
        Error::Store(fault)
    }
}

impl fmt::Display for Refusal {
    fn fmt(&self, out: &mut fmt::Formatter<'_>) -> fmt::Result {
        write!(out, "F{} {}", self.number(), self.name())?;
        match self {
            Refusal::BadRecord(place) => write!(out, " {place}"),
            _ => Ok(()),
        }
    }
}

impl fmt::Display for Error {
    fn fmt(&self, out: &mut fmt::Formatter<'_>) -> fmt::Result {
        match self {
            Error::Refused(refusal) => refusal.fmt(out),
            Error::NoRoom => out.write_str("memory was refused"),
            Error::OutOfRange => out.write_str("a number is outside of its range"),
            Error::BadLength => out.write_str("too many bytes, or too few places"),
            Error::NoThread => out.write_str("the system gave no thread"),
            Error::OtherCluster => out.write_str("the pass or the message is of another cluster"),
            Error::Store(fault) => fault.fmt(out),
            Error::Misuse(number) => write!(out, "misuse {number}"),
        }
    }
}

impl std::error::Error for Error {}

#[cfg(test)]
mod tests {
    use super::*;

    #[test]
    fn numbers_and_names_are_the_librarys() {
        for number in (1..=30).chain(33..=34) {
            let Error::Refused(refusal) = Error::of(number, 61) else { panic!("no refusal") };
            assert_eq!(refusal.number(), number);
            assert_eq!(format!("F{number} {}", refusal.name()), Text::of(number).as_str());
            assert_eq!(format!("{refusal:?}").trim_end_matches("(61)"), refusal.name());
        }
        assert_eq!(Error::of(8, 61).to_string(), "F8 BadRecord 61");
        assert_eq!(Error::of(32, 0), Error::Refused(Refusal::Other(32)));
        assert!(Error::of(33, 0).is_memory() && Error::of(68, 0).is_memory());
    }
    // A row of the rules' table, as `| F4 | BadCrc (2) | ..`: the number, and Kafka's code, if it has one.
    fn row(line: &str) -> Option<(u32, Option<i16>)> {
        let mut cells = line.strip_prefix("| F")?.split('|');
        let number = cells.next()?.trim().parse().ok()?;
        let (_, bracket) = cells.next()?.split_once('(').unwrap_or_default();
        Some((number, bracket.trim_end().trim_end_matches(')').parse().ok()))
    }

    #[test]
    fn kafkas_codes_are_those_of_the_rules() {
        let rules = std::fs::read_to_string(concat!(env!("CARGO_MANIFEST_DIR"), "/../../docs/RULES.md")).expect("the rules");
        let rows: Vec<(u32, Option<i16>)> = rules.lines().filter_map(row).collect();
        assert!(rows.iter().map(|(number, _)| *number).eq(1..=35), "each number has its row");
        assert_eq!(rows.iter().filter(|(_, code)| code.is_some()).count(), 9);
        for (number, code) in rows {
            assert_eq!(Refusal::of(number, 0).kafka_code(), code, "F{number}");
        }
    }
}
