//! The texts of a store: a header, lines of words, and at last the checksum of all bytes before it.

use crate::ffi::crc32c;
use crate::values::{Kept, Leadership};
use std::fmt::{Display, Write};

const RECORD: &str = "kpart record 1";
const NODE: &str = "kpart node 1";
const MARK: &str = "kpart mark 1";

// A last line: `crc 1c291ca3`.
const SEAL_BYTES: usize = 13;

const NO_SEAL: &str = "a text's last line isn't its checksum";
const OTHER_SEAL: &str = "the text's checksum differs";
const NO_TEXT: &str = "the text isn't of this grammar";

/// Why bytes aren't a text, and from which byte on.
#[derive(Clone, Copy, Debug, PartialEq, Eq)]
pub(crate) struct BadText {
    pub byte: u64,
    pub why: &'static str,
}

/// The controller's record, and how many nodes there are.
#[derive(Clone, Copy, Debug, PartialEq, Eq)]
pub(crate) struct RecordText {
    pub nodes: u8,
    pub leadership: Leadership,
}

/// Where a leader epoch begins in a log.
#[derive(Clone, Copy, Debug, PartialEq, Eq)]
pub(crate) struct EpochStart {
    pub epoch: u32,
    /// The offset of its first batch.
    pub start: u64,
}

/// What is kept of a node beside its log.
#[derive(Clone, Debug, Default, PartialEq, Eq)]
pub(crate) struct StateText {
    pub kept: Kept,
    /// The log end offset that was on the disk when it was written.
    pub end: u64,
    /// The leader epochs of the log up to there.
    pub epochs: Vec<EpochStart>,
    /// Whether the log's files are to be cut to that end.
    pub cuts: bool,
}

fn sealed(mut text: String) -> String {
    let sum = crc32c(text.as_bytes());
    let _written = writeln!(text, "crc {sum:08x}"); // a string takes all
    text
}

fn listed<T: Display>(items: impl Iterator<Item = T>) -> String {
    let items: Vec<String> = items.map(|it| it.to_string()).collect();
    if items.is_empty() { "none".to_string() } else { items.join(",") }
}

fn or_none(number: Option<impl Display>) -> String {
    number.map_or_else(|| "none".to_string(), |it| it.to_string())
}

// The lines between the header and the seal.
fn opened<'a>(text: &'a [u8], header: &str) -> Result<Vec<&'a str>, BadText> {
    let place = text.len().saturating_sub(SEAL_BYTES);
    let (body, seal) = text.split_at(place);
    let bad = |byte: usize, why| BadText { byte: byte as u64, why };
    let sum = seal.strip_prefix(b"crc ").and_then(|it| it.strip_suffix(b"\n")).ok_or(bad(place, NO_SEAL))?;
    if sum != format!("{:08x}", crc32c(body)).as_bytes() {
        return Err(bad(place, OTHER_SEAL));
    }
    let body = std::str::from_utf8(body).ok().and_then(|it| it.strip_suffix('\n')).ok_or(bad(0, NO_TEXT))?;
    let mut lines: Vec<&str> = body.split('\n').collect();
    if lines.remove(0) != header {
        return Err(bad(0, NO_TEXT));
    }
    Ok(lines)
}

// What stands behind each of the keys of a line.
fn values<'a, const N: usize>(line: &'a str, keys: [&str; N]) -> Option<[&'a str; N]> {
    let words: Vec<&str> = line.split(' ').collect();
    let mut found = [""; N];
    for (at, key) in keys.iter().enumerate() {
        if words.get(2 * at) != Some(key) {
            return None;
        }
        found[at] = words.get(2 * at + 1)?;
    }
    (words.len() == 2 * N).then_some(found)
}

fn number<T: std::str::FromStr>(word: &str) -> Option<T> {
    word.parse().ok()
}

fn number_or_none<T: std::str::FromStr>(word: &str) -> Option<Option<T>> {
    if word == "none" { Some(None) } else { number(word).map(Some) }
}

fn list<T>(words: &str, item: impl Fn(&str) -> Option<T>) -> Option<Vec<T>> {
    if words == "none" { Some(Vec::new()) } else { words.split(',').map(item).collect() }
}

// What was read is of the grammar where it is just what would be written.
fn read_as<T>(text: &[u8], found: Option<T>, written: impl Fn(&T) -> String) -> Result<T, BadText> {
    found.filter(|it| written(it).as_bytes() == text).ok_or(BadText { byte: 0, why: NO_TEXT })
}

impl RecordText {
    pub(crate) fn text(&self) -> String {
        let Leadership { version, leader, in_sync } = self.leadership;
        let (node, epoch) = (or_none(leader.map(|it| it.0)), or_none(leader.map(|it| it.1)));
        let isr = listed((0..7).filter(|it| in_sync[*it]));
        sealed(format!("{RECORD}\nnodes {}\nleader {node} epoch {epoch} isr {isr} version {version}\n", self.nodes))
    }

    fn of_lines(lines: &[&str]) -> Option<RecordText> {
        let [nodes, record] = lines else { return None };
        let [nodes] = values(nodes, ["nodes"])?;
        let [node, epoch, isr, version] = values(record, ["leader", "epoch", "isr", "version"])?;
        let mut in_sync = [false; 7];
        for member in list(isr, number::<usize>)? {
            *in_sync.get_mut(member)? = true;
        }
        let leader = number_or_none::<u8>(node)?.zip(number_or_none::<u32>(epoch)?);
        Some(RecordText { nodes: number(nodes)?, leadership: Leadership { version: number(version)?, leader, in_sync } })
    }

    pub(crate) fn of(text: &[u8]) -> Result<RecordText, BadText> {
        let lines = opened(text, RECORD)?;
        read_as(text, RecordText::of_lines(&lines), RecordText::text)
    }
}

impl StateText {
    pub(crate) fn text(&self) -> String {
        let Kept { checkpoint, life, kept_epoch } = self.kept;
        let epochs = listed(self.epochs.iter().map(|it| format!("{}:{}", it.epoch, it.start)));
        let cut = if self.cuts { format!("cut {}\n", self.end) } else { String::new() };
        let epoch = or_none(kept_epoch);
        sealed(format!("{NODE}\ncheckpoint {checkpoint} life {life} epoch {epoch}\nend {}\nepochs {epochs}\n{cut}", self.end))
    }

    fn of_lines(lines: &[&str]) -> Option<StateText> {
        let [kept, end, epochs, rest @ ..] = lines else { return None };
        let [checkpoint, life, epoch] = values(kept, ["checkpoint", "life", "epoch"])?;
        let kept = Kept { checkpoint: number(checkpoint)?, life: number(life)?, kept_epoch: number_or_none(epoch)? };
        let ([end], [epochs]) = (values(end, ["end"])?, values(epochs, ["epochs"])?);
        let epochs = list(epochs, |it| {
            let (epoch, start) = it.split_once(':')?;
            Some(EpochStart { epoch: number(epoch)?, start: number(start)? })
        })?;
        Some(StateText { kept, end: number(end)?, epochs, cuts: !rest.is_empty() })
    }

    pub(crate) fn of(text: &[u8]) -> Result<StateText, BadText> {
        let lines = opened(text, NODE)?;
        read_as(text, StateText::of_lines(&lines), StateText::text)
    }
}

/// The text of a high watermark that a node had.
pub(crate) fn mark_text(mark: u64) -> String {
    sealed(format!("{MARK}\nmark {mark}\n"))
}

/// None where the text is no mark's: it is of account only where it is whole.
pub(crate) fn mark_of(text: &[u8]) -> Option<u64> {
    let lines = opened(text, MARK).ok()?;
    let [line] = lines[..] else { return None };
    let [mark] = values(line, ["mark"])?;
    read_as(text, number(mark), |it| mark_text(*it)).ok()
}

#[cfg(test)]
mod tests {
    use super::*;

    fn record(leader: Option<(u8, u32)>, members: &[usize]) -> RecordText {
        let mut in_sync = [false; 7];
        members.iter().for_each(|it| in_sync[*it] = true);
        RecordText { nodes: 2, leadership: Leadership { version: 5, leader, in_sync } }
    }

    fn state() -> StateText {
        let kept = Kept { checkpoint: 3, life: 1, kept_epoch: Some(2) };
        let epochs = vec![EpochStart { epoch: 0, start: 0 }, EpochStart { epoch: 2, start: 9 }];
        StateText { kept, end: 17, epochs, cuts: false }
    }

    // Those of docs/DURABLE.md.
    #[test]
    fn texts_are_as_the_page_says() {
        let text = record(Some((1, 2)), &[0, 1]).text();
        assert_eq!(text, "kpart record 1\nnodes 2\nleader 1 epoch 2 isr 0,1 version 5\ncrc 4ce19273\n");
        let text = record(None, &[]).text();
        assert!(text.starts_with("kpart record 1\nnodes 2\nleader none epoch none isr none version 5\ncrc "), "{text}");
        let text = state().text();
        assert_eq!(text, "kpart node 1\ncheckpoint 3 life 1 epoch 2\nend 17\nepochs 0:0,2:9\ncrc 85b557ae\n");
        let text = StateText { cuts: true, ..StateText::default() }.text();
        assert!(text.starts_with("kpart node 1\ncheckpoint 0 life 0 epoch none\nend 0\nepochs none\ncut 0\ncrc "), "{text}");
        assert_eq!(text.len() - SEAL_BYTES, text.find("crc ").expect("a seal"));
        assert_eq!(mark_text(17), "kpart mark 1\nmark 17\ncrc c7171b4d\n");
    }

    #[test]
    fn what_is_written_is_read() {
        for text in [record(Some((1, 2)), &[0, 1]), record(None, &[]), record(Some((6, u32::MAX)), &[6])] {
            assert_eq!(RecordText::of(text.text().as_bytes()), Ok(text));
        }
        let most = Kept { checkpoint: u64::MAX, life: u64::MAX, kept_epoch: Some(0) };
        for text in [state(), StateText { cuts: true, ..state() }, StateText { kept: most, ..StateText::default() }] {
            assert_eq!(StateText::of(text.text().as_bytes()), Ok(text));
        }
        assert_eq!(mark_of(mark_text(17).as_bytes()), Some(17));
        assert_eq!(mark_of(state().text().as_bytes()), None);
    }

    #[test]
    fn each_byte_counts() {
        let text = state().text().into_bytes();
        for place in 0..text.len() {
            for bit in 0..8 {
                let mut other = text.clone();
                other[place] ^= 1 << bit;
                assert!(StateText::of(&other).is_err(), "byte {place}, bit {bit}");
            }
            assert!(StateText::of(&text[..place]).is_err(), "{place} bytes");
        }
        let longer = [&text[..], b"\n"].concat();
        assert!(StateText::of(&longer).is_err());
    }

    #[test]
    fn another_grammar_is_none() {
        let body = "kpart node 1\ncheckpoint 3 life 1 epoch 2\nend 17\nepochs 0:0,2:9\n";
        assert!(StateText::of(sealed(body.to_string()).as_bytes()).is_ok());
        for (old, new) in [
            ("node 1", "node 2"),
            ("life 1", "life 01"),
            ("life 1", "life +1"),
            ("life 1", "life  1"),
            ("end 17\n", ""),
            ("0:0,2:9", "0:0,2"),
            ("0:0,2:9\n", "0:0,2:9\ncut 16\n"),
            ("0:0,2:9\n", "0:0,2:9\nmore\n"),
            ("epoch 2", "epoch 4294967296"),
            ("epoch 2", "era 2"),
        ] {
            assert_eq!(StateText::of(sealed(body.replace(old, new)).as_bytes()), Err(BadText { byte: 0, why: NO_TEXT }), "{new}");
        }
        let body = "kpart record 1\nnodes 2\nleader 1 epoch none isr 0,1 version 5\n";
        assert!(RecordText::of(sealed(body.to_string()).as_bytes()).is_err());
        let body = "kpart record 1\nnodes 2\nleader 1 epoch 2 isr 1,0 version 5\n";
        assert!(RecordText::of(sealed(body.to_string()).as_bytes()).is_err());
        let body = "kpart record 1\nnodes 2\nleader 1 epoch 2 isr 0,7 version 5\n";
        assert!(RecordText::of(sealed(body.to_string()).as_bytes()).is_err());
        assert_eq!(RecordText::of(b"kpart record 1\n"), Err(BadText { byte: 2, why: NO_SEAL }));
        assert_eq!(RecordText::of(b"kpart record 1\ncrc 00000000\n"), Err(BadText { byte: 15, why: OTHER_SEAL }));
    }
}
