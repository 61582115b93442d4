//! Producers and their transactions, in plain Rust, and a leader's admission by them. What a batch changed is handed out, to be
//! taken back.

use crate::spelling::{Head, IS_TRANSACTIONAL, Sender};
use std::collections::hash_map::Entry;
use std::collections::{BTreeMap, BTreeSet, HashMap, VecDeque};
use std::mem;

const KEPT: usize = 5;
const SEQUENCES: u64 = 1 << 31;

/// First and last sequence and base offset of a data batch.
type Recent = (u32, u32, u64);

struct Producer {
    epoch: i16,
    recent: VecDeque<Recent>,
    coordinator: Option<i32>,
    /// The first offset of its open transaction.
    open: Option<u64>,
}

struct Aborted {
    producer: i64,
    first: u64,
    marker: u64,
    stable: u64,
}

/// What a marker says.
pub struct Marker {
    pub coordinator: i32,
    pub commits: bool,
}

#[derive(Default)]
pub struct Senders {
    known: HashMap<i64, Producer>,
    /// Transactions by first offset: open ones, and those whose marker isn't settled, with its end.
    open: BTreeMap<u64, Option<u64>>,
    undecided: BTreeSet<u64>,
    aborted: Vec<Aborted>,
}

/// What was known of a batch's producer.
enum Before {
    Nothing,
    /// The same epoch; and what the batch drove out of the kept five.
    SameEpoch(Option<Recent>),
    LowerEpoch(Box<(i16, VecDeque<Recent>)>),
}

/// What a batch of a producer changed.
pub struct Change {
    before: Before,
    did: Did,
}

enum Did {
    /// A data batch, which may have opened a transaction.
    Data { opened: bool },
    /// A marker: the coordinator epoch before, and the first offset of the transaction that it ended.
    Marker(Option<i32>, Option<u64>),
}

pub enum Admission {
    Append,
    Duplicate(u64),
}

impl Senders {
    pub fn admit(&self, head: &Head) -> Result<Admission, &'static str> {
        let Sender {
            producer,
            epoch,
            sequence,
        } = head.sender;
        if producer == -1 {
            return Ok(Admission::Append);
        }
        let Some(known) = self.known.get(&producer) else {
            return if sequence == 0 {
                Ok(Admission::Append)
            } else {
                Err("F12 OutOfOrderSequence")
            };
        };
        if epoch < known.epoch {
            return Err("F11 InvalidProducerEpoch");
        }
        if epoch > known.epoch {
            return match (known.open, sequence) {
                (Some(_), _) => Err("F13 InvalidTxnState"),
                (None, 0) => Ok(Admission::Append),
                (None, _) => Err("F12 OutOfOrderSequence"),
            };
        }
        let (first, last) = sequences(head);
        let mut recent = known.recent.iter();
        if let Some((_, _, base)) = recent.find(|kept| (kept.0, kept.1) == (first, last)) {
            return Ok(Admission::Duplicate(*base));
        }
        let next = known.recent.back().map_or(0, |kept| following(kept.1));
        if first != next {
            return Err("F12 OutOfOrderSequence");
        }
        if known.open.is_some() && !head.has(IS_TRANSACTIONAL) {
            return Err("F13 InvalidTxnState");
        }
        Ok(Admission::Append)
    }

    pub fn admit_marker(&self, sender: Sender, coordinator: i32) -> Result<(), &'static str> {
        let Some(known) = self.known.get(&sender.producer) else {
            return Ok(());
        };
        if sender.epoch < known.epoch {
            return Err("F11 InvalidProducerEpoch");
        }
        if known.coordinator.is_some_and(|last| coordinator < last) {
            return Err("F14 CoordinatorFenced");
        }
        Ok(())
    }

    /// Puts a batch at this offset, which is this marker where it is one.
    pub fn apply(&mut self, head: &Head, base: u64, marker: Option<Marker>) -> Option<Change> {
        let Sender {
            producer, epoch, ..
        } = head.sender;
        if producer == -1 {
            return None;
        }
        let (known, mut before) = match self.known.entry(producer) {
            Entry::Occupied(place) => (place.into_mut(), Before::SameEpoch(None)),
            Entry::Vacant(place) => (place.insert(Producer::new(epoch)), Before::Nothing),
        };
        if epoch != known.epoch {
            let recent = mem::take(&mut known.recent);
            before = Before::LowerEpoch(Box::new((known.epoch, recent)));
            known.epoch = epoch;
        }
        if let Some(marker) = marker {
            let coordinator = known.coordinator.replace(marker.coordinator);
            let ended = known.open.take();
            if let Some(first) = ended {
                self.end(producer, first, base, marker.commits);
            }
            let did = Did::Marker(coordinator, ended);
            return Some(Change { before, did });
        }
        if known.recent.len() == KEPT {
            before = Before::SameEpoch(known.recent.pop_front());
        }
        let (first, last) = sequences(head);
        known.recent.push_back((first, last, base));
        let opened = head.has(IS_TRANSACTIONAL) && known.open.is_none();
        if opened {
            known.open = Some(base);
            self.open.insert(base, None);
            self.undecided.insert(base);
        }
        let did = Did::Data { opened };
        Some(Change { before, did })
    }

    fn end(&mut self, producer: i64, first: u64, marker: u64, commits: bool) {
        self.open.insert(first, Some(marker + 1));
        self.undecided.remove(&first);
        if !commits {
            let stable = self.undecided.first().copied().unwrap_or(marker + 1);
            self.aborted.push(Aborted {
                producer,
                first,
                marker,
                stable,
            });
        }
    }

    /// Takes the last batch back, which was this producer's and stood at this offset.
    pub fn undo(&mut self, change: Change, producer: i64, base: u64) {
        let known = self.known.get_mut(&producer).unwrap();
        match change.did {
            Did::Data { opened } => {
                known.recent.pop_back();
                if opened {
                    known.open = None;
                    self.open.remove(&base);
                    self.undecided.remove(&base);
                }
            }
            Did::Marker(coordinator, ended) => {
                known.coordinator = coordinator;
                known.open = ended;
                if let Some(first) = ended {
                    self.open.insert(first, None);
                    self.undecided.insert(first);
                }
                if self.aborted.last().is_some_and(|last| last.marker == base) {
                    self.aborted.pop();
                }
            }
        }
        match change.before {
            Before::Nothing => {
                self.known.remove(&producer);
            }
            Before::SameEpoch(evicted) => {
                if let Some(evicted) = evicted {
                    known.recent.push_front(evicted);
                }
            }
            Before::LowerEpoch(before) => (known.epoch, known.recent) = *before,
        }
    }

    /// A batch won't be taken back any more.
    pub fn settle(&mut self, change: &Change) {
        if let Did::Marker(_, Some(first)) = change.did {
            self.open.remove(&first);
        }
    }

    /// The last stable offset: the least first offset that no marker below the high watermark has decided.
    pub fn stable(&self, mark: u64) -> u64 {
        let is_open = |decided: &Option<u64>| decided.is_none_or(|end| end > mark);
        let open = self.open.iter().find(|(_, decided)| is_open(decided));
        open.map_or(mark, |(first, _)| *first).min(mark)
    }

    /// Producer and first offset of the aborted transactions that overlap these offsets, by rising first offset.
    #[allow(dead_code)]
    pub fn overlapping(&self, start: u64, end: u64) -> Vec<(i64, u64)> {
        let from = self.aborted.partition_point(|aborted| aborted.marker < start);
        let stop = self.aborted[from..].iter().position(|aborted| aborted.stable >= end);
        let to = stop.map_or(self.aborted.len(), |stop| from + stop + 1);
        let those = self.aborted[from..to].iter().filter(|aborted| aborted.first < end);
        let mut found: Vec<(i64, u64)> = those.map(|aborted| (aborted.producer, aborted.first)).collect();
        found.sort_unstable_by_key(|entry| entry.1);
        found
    }

    /// Whether a transactional batch belongs to an aborted transaction: the producer's first marker behind it is an abort's.
    pub fn hides(&self, producer: i64, base: u64) -> bool {
        let start = self
            .aborted
            .partition_point(|aborted| aborted.marker < base);
        for aborted in &self.aborted[start..] {
            if aborted.producer == producer {
                return aborted.first <= base;
            }
            if aborted.stable > base {
                return false;
            }
        }
        false
    }
}

impl Producer {
    fn new(epoch: i16) -> Producer {
        Producer {
            epoch,
            recent: VecDeque::new(),
            coordinator: None,
            open: None,
        }
    }
}

fn following(sequence: u32) -> u32 {
    ((u64::from(sequence) + 1) % SEQUENCES) as u32
}

/// First and last sequence of a data batch.
fn sequences(head: &Head) -> (u32, u32) {
    let first = head.sender.sequence as u32;
    let last = (u64::from(first) + head.last) % SEQUENCES;
    (first, last as u32)
}
