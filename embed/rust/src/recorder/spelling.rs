//! Lines of scripts and of traces (`docs/FORMATS.md`).

use super::journal::{Call, Told};
use crate::error::Refusal;
use crate::message::Said;
use crate::records::CommittedRecord;
use crate::values::{Change, EpochEnd, Leadership, Marker, Role};

// A longer batch is refused by its first bytes: F9 where its length field says more than that, else F3.
const MOST_BYTES: usize = 1_048_577;

// Without a table, so that many go at once.
fn digit(number: u8) -> u8 {
    number + if number < 10 { b'0' } else { b'a' - 10 }
}

fn hex(out: &mut Vec<u8>, bytes: &[u8]) {
    let start = out.len();
    out.resize(start + 2 * bytes.len(), 0);
    for (pair, byte) in out[start..].chunks_exact_mut(2).zip(bytes) {
        (pair[0], pair[1]) = (digit(byte >> 4), digit(byte & 15));
    }
}

// A part of a line.
trait Spell {
    fn spell(self, out: &mut Vec<u8>);
}

impl Spell for &str {
    #[inline(always)]
    fn spell(self, out: &mut Vec<u8>) {
        out.extend_from_slice(self.as_bytes());
    }
}

impl Spell for u64 {
    fn spell(self, out: &mut Vec<u8>) {
        let (mut digits, mut at, mut rest) = ([0; 20], 20, self);
        loop {
            at -= 1;
            digits[at] = b'0' + (rest % 10) as u8;
            rest /= 10;
            if rest == 0 {
                break;
            }
        }
        out.extend_from_slice(&digits[at..]);
    }
}

impl Spell for u32 {
    fn spell(self, out: &mut Vec<u8>) {
        u64::from(self).spell(out);
    }
}

impl Spell for u16 {
    fn spell(self, out: &mut Vec<u8>) {
        u64::from(self).spell(out);
    }
}

// Of a node, which has one digit.
impl Spell for u8 {
    #[inline(always)]
    fn spell(self, out: &mut Vec<u8>) {
        out.push(b'0' + self);
    }
}

// The nodes that are in sync, with commas between.
impl Spell for &[bool; 7] {
    fn spell(self, out: &mut Vec<u8>) {
        let mut members = (0..7).filter(|it| self[usize::from(*it)]);
        out.extend(members.next().map(|it| b'0' + it));
        members.for_each(|it| out.extend([b',', b'0' + it]));
    }
}

macro_rules! spell {
    ($out:expr, $($part:expr),+) => {{ $( $part.spell($out); )+ }};
}

pub(super) fn number(out: &mut Vec<u8>, number: u64) {
    number.spell(out);
}

pub(super) fn call(out: &mut Vec<u8>, call: &Call) {
    match *call {
        Call::Elect(node) => spell!(out, "elect ", node),
        Call::Adopt(node) => spell!(out, "adopt ", node),
        Call::Ask(node) => spell!(out, "ask ", node),
        Call::Raise(node) => spell!(out, "raise ", node),
        Call::Checkpoint(node) => spell!(out, "checkpoint ", node),
        Call::Stop(node) => spell!(out, "stop ", node),
        Call::Restart(node) => spell!(out, "restart ", node),
        Call::Show(node) => spell!(out, "show ", node),
        Call::Deliver(message) => spell!(out, "deliver ", message),
        Call::Raw(node, ref bytes) => raw(out, node, bytes),
        Call::Mark(node, ref marker) => mark(out, node, marker),
        Call::Alter(node, Change::Join(which)) => spell!(out, "join ", node, " ", which),
        Call::Alter(node, Change::Leave(which)) => spell!(out, "leave ", node, " ", which),
        Call::Read { node, from, committed: false } => spell!(out, "read ", node, " ", from),
        Call::Read { node, from, committed: true } => spell!(out, "committed ", node, " ", from),
    }
}

// No bytes are refused as one byte is: F1. A line has one at least.
fn raw(out: &mut Vec<u8>, node: u8, bytes: &[u8]) {
    spell!(out, "raw ", node, " ");
    hex(out, if bytes.is_empty() { &[0] } else { &bytes[..bytes.len().min(MOST_BYTES)] });
}

fn mark(out: &mut Vec<u8>, node: u8, marker: &Marker) {
    let Marker { producer_id, producer_epoch, coordinator_epoch, timestamp, commits } = *marker;
    let end = if commits { " commit" } else { " abort" };
    spell!(out, "mark ", node, " ", timestamp, " ", producer_id, " ", producer_epoch, " ", coordinator_epoch, end);
}

pub(super) fn told(out: &mut Vec<u8>, told: &Told) {
    match *told {
        Told::Refused(it) => refusal(out, it),
        Told::Record(ref it) => record(out, it),
        Told::Plays(Role::Leads { epoch, start }) => spell!(out, "leads epoch ", epoch, " from ", start),
        Told::Plays(Role::Follows { leader, epoch }) => spell!(out, "follows ", leader, " epoch ", epoch),
        Told::Taken { base, duplicate: true } => spell!(out, "duplicate ", base),
        Told::Taken { base, duplicate: false } => spell!(out, "at ", base),
        Told::Asks { number, offset, last_epoch: Some(epoch) } => spell!(out, "sent ", number, " asks from ", offset, " epoch ", epoch),
        Told::Asks { number, offset, last_epoch: None } => spell!(out, "sent ", number, " asks from ", offset, " no epoch"),
        Told::HandsOver { number, count, mark } => spell!(out, "sent ", number, " batches ", count, " mark ", mark),
        Told::Sends(number, ref it) => {
            spell!(out, "sent ", number, " ");
            said(out, it);
        }
        Told::Decides(number, ref it) => {
            spell!(out, "sent ", number, " ");
            record(out, it);
        }
        Told::Took { end, mark } => spell!(out, "end ", end, " mark ", mark),
        Told::Cut(end) => spell!(out, "cut ", end),
        Told::Knows { ref in_sync, version } => spell!(out, "isr ", in_sync, " version ", version),
        Told::Mark(mark) => spell!(out, "mark ", mark),
        Told::Checkpoint(mark) => spell!(out, "checkpoint ", mark),
        Told::Stopped => spell!(out, "stopped"),
        Told::Lives(ref it) => spell!(out, "life ", it.life, " end ", it.end, " mark ", it.watermark),
        Told::Shows(ref it) => {
            spell!(out, "node ", it.node, " life ", it.life, " end ", it.end, " mark ", it.mark, " stable ", it.stable);
        }
        Told::Lines(ref records) => lines(out, records),
    }
}

fn refusal(out: &mut Vec<u8>, refusal: Refusal) {
    spell!(out, "F", refusal.number(), " ", refusal.name());
    if let Refusal::BadRecord(place) = refusal {
        spell!(out, " ", place);
    }
}

// Of a record null is a dash.
fn lines(out: &mut Vec<u8>, records: &[CommittedRecord]) {
    spell!(out, "read ", records.len() as u64);
    for record in records {
        spell!(out, " ", record.offset, "=");
        match &record.value {
            Some(value) => hex(out, value),
            None => out.push(b'-'),
        }
    }
}

// What a message says that is neither a request nor brings batches; the record of a decision has more ([`Told::Decides`]).
fn said(out: &mut Vec<u8>, said: &Said) {
    match *said {
        Said::Diverging(Some(EpochEnd { epoch, end })) => spell!(out, "diverges epoch ", epoch, " end ", end),
        Said::Diverging(None) => spell!(out, "diverges no epoch"),
        Said::Proposes { ref in_sync, version } => spell!(out, "proposes isr ", in_sync, " version ", version),
        ref other => spell!(out, format!("{other:?}").as_str()),
    }
}

fn record(out: &mut Vec<u8>, record: &Leadership) {
    match record.leader {
        Some((leader, epoch)) => spell!(out, "record leader ", leader, " epoch ", epoch),
        None => spell!(out, "record leader none epoch -1"),
    }
    spell!(out, " isr ", &record.in_sync, " version ", record.version);
}

#[cfg(test)]
mod tests {
    use super::*;

    fn spelled(spell: impl FnOnce(&mut Vec<u8>)) -> String {
        let mut out = Vec::new();
        spell(&mut out);
        String::from_utf8(out).expect("ASCII")
    }

    #[test]
    fn what_few_runs_have() {
        assert_eq!(spelled(|it| number(it, 0)) + &spelled(|it| number(it, u64::MAX)), "018446744073709551615");
        assert_eq!(spelled(|it| told(it, &Told::Refused(Refusal::BadRecord(61)))), "F8 BadRecord 61");
        let nobody = Leadership { version: 0, leader: None, in_sync: [true, false, true, false, false, false, true] };
        assert_eq!(spelled(|it| told(it, &Told::Decides(7, nobody.into()))), "sent 7 record leader none epoch -1 isr 0,2,6 version 0");
        assert_eq!(spelled(|it| said(it, &Said::Diverging(None))), "diverges no epoch");
        let lines = vec![CommittedRecord { offset: 3, value: None }, CommittedRecord { offset: 4, value: Some(vec![]) }];
        assert_eq!(spelled(|it| told(it, &Told::Lines(lines.into()))), "read 2 3=- 4=");
        assert_eq!(spelled(|it| call(it, &Call::Raw(6, [0x0f, 0xf0].into()))), "raw 6 0ff0");
        assert_eq!(spelled(|it| call(it, &Call::Raw(0, [].into()))), "raw 0 00");
        assert_eq!(spelled(|it| call(it, &Call::Raw(0, vec![1; 1_100_000].into()))).len(), 6 + 2 * 1_048_577);
    }
}
