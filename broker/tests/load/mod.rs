//! Clients under whose load a broker is killed again and again, and what they were told: it is held to what is there.

#![allow(dead_code)] // each test program takes a part of it

use crate::common::coordinators::{Producer, add, commit, committed, end, init, keep};
use crate::common::program::{At, Chance, Program};
use crate::common::{Client, Fallible, LONG, Outcome, TOPIC, Writes, batch, produce_request, produced};
use kwire::ErrorCode;
use kwire::transactions::add_partitions_to_txn::{AddPartitionsToTxnRequest, JoiningTopic};
use std::collections::{BTreeMap, BTreeSet};
use std::sync::Mutex;
use std::sync::atomic::{AtomicBool, Ordering::SeqCst};
use std::thread;
use std::time::{Duration, Instant};

pub const PARTITIONS: i32 = 2;
const COMMITTERS: usize = 2;
/// So many batches of an idempotent producer are on their way.
const WINDOW: usize = 3;
/// An abandoned transaction is aborted after so long, in milliseconds.
const SHORT: i32 = 150;

fn is(code: i16, wanted: ErrorCode) -> bool {
    code == i16::from(wanted)
}

/// Another look at who leads, or at whether a transaction has ended, is to be taken.
fn is_early(code: i16) -> bool {
    [ErrorCode::NotLeaderOrFollower, ErrorCode::ConcurrentTransactions, ErrorCode::NotEnoughReplicas].iter().any(|it| is(code, *it))
}

/// Connections to who leads each partition, and to the coordinator.
pub struct Lines {
    at: At,
    coordinator: Client,
    leaders: Vec<Option<Client>>,
}

impl Lines {
    pub fn new(at: &At) -> Fallible<Lines> {
        Ok(Lines { at: at.clone(), coordinator: at.client(0)?, leaders: (0..PARTITIONS).map(|_| None).collect() })
    }

    fn leader(&mut self, index: i32) -> Fallible<&mut Client> {
        let slot = &mut self.leaders[index as usize];
        match slot {
            Some(client) => Ok(client),
            empty => Ok(empty.insert(self.at.leader(index)?)),
        }
    }

    /// Asks anew who leads the partition.
    fn forget(&mut self, index: i32) {
        self.leaders[index as usize] = None;
        thread::sleep(Duration::from_millis(1));
    }
}

// ---- an idempotent producer

/// Hands in `name-0`, `name-1` and so on, each until it is acknowledged.
pub struct Idempotent {
    name: String,
    partition: i32,
    producer: Option<Producer>,
    /// The offset of each that is acknowledged.
    pub told: Vec<i64>,
}

impl Idempotent {
    fn window(&mut self, lines: &mut Lines, producer: Producer) -> Outcome {
        let (partition, first) = (self.partition, self.told.len());
        let client = lines.leader(partition)?;
        let mut sent = Vec::new();
        for number in first..first + WINDOW {
            let writes = Writes { producer, sequence: number as i32, transactional: false };
            let bytes = batch(&[&format!("{}-{number}", self.name)], writes, 1_000);
            sent.push(client.send(&produce_request(partition, &bytes, -1), 9)?);
        }
        let mut is_refused = false;
        for number in sent {
            let answer = client.answer(&produce_request(partition, &[], -1), 9, number)?;
            let (code, base) = produced(&answer)?;
            // Behind one that was refused others are out of their order.
            assert!(
                code == 0 || is_early(code) || is_refused && is(code, ErrorCode::OutOfOrderSequenceNumber),
                "{}: code {code}",
                self.name
            );
            is_refused |= code != 0;
            if !is_refused {
                assert!(self.told.last().is_none_or(|it| *it < base), "{} at {base}", self.name);
                self.told.push(base);
            }
        }
        if is_refused {
            lines.forget(partition);
        }
        Ok(())
    }

    fn run(&mut self, at: &At, ids: &Mutex<BTreeSet<i64>>) -> Outcome {
        let mut lines = Lines::new(at)?;
        let producer = match self.producer {
            Some(producer) => producer,
            None => *self.producer.insert(fresh(&mut lines.coordinator, ids)?),
        };
        loop {
            self.window(&mut lines, producer)?;
        }
    }

    fn check(&self, all: &[Vec<(i64, String)>]) {
        let start = format!("{}-", self.name);
        let own: Vec<&(i64, String)> = all[self.partition as usize].iter().filter(|it| it.1.starts_with(&start)).collect();
        assert!(
            (self.told.len()..=self.told.len() + WINDOW).contains(&own.len()),
            "{}: {} told, {} there",
            self.name,
            self.told.len(),
            own.len()
        );
        for (number, it) in own.iter().enumerate() {
            assert_eq!(it.1, format!("{start}{number}"), "each is there once, in order");
            assert!(
                self.told.get(number).is_none_or(|told| *told == it.0),
                "{} was told at {:?}, and is at {}",
                it.1,
                self.told.get(number),
                it.0
            );
        }
    }
}

/// A producer's id, which nobody was given before.
fn fresh(client: &mut Client, ids: &Mutex<BTreeSet<i64>>) -> Fallible<Producer> {
    let producer = init(client, None, 0)?.map_err(|it| format!("code {it}"))?;
    let is_new = ids.lock().expect("no thread has panicked").insert(producer.0);
    assert!(is_new, "producer id {} is given twice", producer.0);
    Ok(producer)
}

// ---- a transactional one

#[derive(Clone, Copy, Debug, PartialEq, Eq)]
enum Stage {
    Begin,
    Produce(i32),
    Keep,
    End { commits: bool },
}

/// What became of a transaction.
#[derive(Clone, Copy, Debug, PartialEq, Eq)]
enum Became {
    Committed,
    Aborted,
    /// It was to be committed, and the answer was lost.
    Either,
}

/// Transaction N has `id-N` in each partition, and offset N of the group `id`; every third one is aborted.
pub struct Transactional {
    id: String,
    producer: Option<Producer>,
    number: i64,
    sequences: Vec<i32>,
    stage: Stage,
    became: BTreeMap<i64, Became>,
}

impl Transactional {
    fn set(&mut self, became: Became) {
        self.became.insert(self.number, became);
        (self.number, self.stage) = (self.number + 1, Stage::Begin);
    }

    /// A new producer of the same id: what is open is aborted, but where it was to be committed that may have happened.
    fn init(&mut self, lines: &mut Lines, ids: &Mutex<BTreeSet<i64>>) -> Outcome {
        match self.stage {
            Stage::End { commits: true } => self.set(Became::Either),
            _ => self.set(Became::Aborted),
        }
        self.sequences.fill(0);
        let before = self.producer.take();
        let producer = loop {
            match init(&mut lines.coordinator, Some(&self.id), 60_000)? {
                Ok(producer) => break producer,
                Err(code) => assert!(is_early(code), "{}: init, code {code}", self.id),
            }
        };
        let is_later = before.is_none_or(|it| it.0 != producer.0 || it.1 < producer.1);
        let is_new = ids.lock().expect("no thread has panicked").insert(producer.0);
        assert!(is_later && (is_new || producer.1 > 0), "{}: {before:?}, then {producer:?}", self.id);
        self.producer = Some(producer);
        Ok(())
    }

    /// What is refused for now is tried again.
    fn step(&mut self, lines: &mut Lines, producer: Producer) -> Outcome {
        let coordinator = &mut lines.coordinator;
        let all: Vec<i32> = (0..PARTITIONS).collect();
        let (code, next) = match self.stage {
            Stage::Begin => (add(coordinator, &self.id, producer, &all)?, Stage::Produce(0)),
            Stage::Produce(index) => {
                let code = self.produce(lines, producer, index)?;
                (code, if index + 1 < PARTITIONS { Stage::Produce(index + 1) } else { Stage::Keep })
            }
            Stage::Keep => (keep(coordinator, &self.id, producer, &self.id, self.number)?, Stage::End { commits: self.number % 3 != 2 }),
            Stage::End { commits } => {
                let code = end(coordinator, &self.id, producer, commits)?;
                if code == 0 {
                    self.set(if commits { Became::Committed } else { Became::Aborted });
                    return Ok(());
                }
                (code, self.stage)
            }
        };
        assert!(code == 0 || is_early(code), "{} {}: {:?}, code {code}", self.id, self.number, self.stage);
        match code {
            0 => self.stage = next,
            _ => (0..PARTITIONS).for_each(|it| lines.forget(it)),
        }
        Ok(())
    }

    fn produce(&mut self, lines: &mut Lines, producer: Producer, index: i32) -> Fallible<i16> {
        let sequence = self.sequences[index as usize];
        let bytes = batch(&[&format!("{}-{}", self.id, self.number)], Writes { producer, sequence, transactional: true }, 1_000);
        let code = lines.leader(index)?.produce_in(&self.id, index, &bytes)?.0;
        self.sequences[index as usize] += i32::from(code == 0);
        Ok(code)
    }

    fn run(&mut self, at: &At) -> Outcome {
        let mut lines = Lines::new(at)?;
        let producer = self.producer.ok_or("no producer")?;
        loop {
            self.step(&mut lines, producer)?;
        }
    }

    /// Goes on with what was begun until it is ended; or a new producer begins.
    fn resolve(&mut self, at: &At, resumes: bool, ids: &Mutex<BTreeSet<i64>>) -> Outcome {
        let mut lines = Lines::new(at)?;
        let Some(producer) = self.producer.filter(|_| resumes) else { return self.init(&mut lines, ids) };
        while self.stage != Stage::Begin {
            self.step(&mut lines, producer)?;
        }
        Ok(())
    }

    /// Offsets of what has ended count from the start on.
    fn check_at_once(&self, client: &mut Client) -> Outcome {
        let last = self.became.iter().rfind(|it| *it.1 == Became::Committed).map_or(-1, |it| *it.0);
        let (code, offset, ..) = committed(client, &self.id, false)?;
        assert!(code == 0 && offset >= last, "{}: {last} was committed, and {offset} is there (code {code})", self.id);
        Ok(())
    }

    /// In each partition the same ones are shown, and just those that are committed; the group has the offset of the last of them.
    fn check(&mut self, client: &mut Client, all: &[Vec<(i64, String)>], shown: &[Vec<(i64, String)>]) -> Outcome {
        let start = format!("{}-", self.id);
        let own = |it: &Vec<(i64, String)>| -> Vec<i64> { it.iter().filter_map(|it| it.1.strip_prefix(&start)?.parse().ok()).collect() };
        for it in all {
            let numbers = own(it);
            assert!(numbers.is_sorted_by(|one, other| one < other), "{}: each once, in order: {numbers:?}", self.id);
        }
        let first = own(&shown[0]);
        for (number, became) in &mut self.became {
            let is_shown = first.contains(number);
            match became {
                Became::Either => *became = if is_shown { Became::Committed } else { Became::Aborted },
                known => assert_eq!(*known == Became::Committed, is_shown, "{} {number} was {known:?}", self.id),
            }
        }
        let wanted: Vec<i64> = self.became.iter().filter(|it| *it.1 == Became::Committed).map(|it| *it.0).collect();
        shown.iter().for_each(|it| assert_eq!(own(it), wanted, "{} in each partition", self.id));
        let (code, offset, ..) = committed(client, &self.id, true)?;
        assert_eq!((code, offset), (0, wanted.last().copied().unwrap_or(-1)), "the offset of {}'s transactions", self.id);
        Ok(())
    }

    fn committed(&self) -> usize {
        self.became.values().filter(|it| **it == Became::Committed).count()
    }
}

// ---- a group

/// Commits 1, 2, 3 and so on, each with its text.
pub struct Committer {
    group: String,
    pub told: i64,
    sent: i64,
}

impl Committer {
    fn run(&mut self, at: &At) -> Outcome {
        let mut client = at.client(0)?;
        loop {
            self.sent = self.told + 1;
            let code = commit(&mut client, &self.group, self.sent, &format!("note {}", self.sent))?;
            assert_eq!(code, 0, "{}", self.group);
            self.told = self.sent;
            if self.told % 4 == 0 {
                self.check(&mut client)?;
            }
        }
    }

    /// What was answered is there, or what was asked for last. What is seen then is told, too.
    fn check(&mut self, client: &mut Client) -> Outcome {
        let found = committed(client, &self.group, true)?;
        let offset = found.1;
        assert!(
            (self.told..=self.sent.max(self.told)).contains(&offset.max(0)),
            "{}: {} was told, and {offset} is there",
            self.group,
            self.told
        );
        if offset > 0 {
            assert_eq!(found, (0, offset, 3, format!("note {offset}")));
        }
        self.told = offset.max(0);
        Ok(())
    }
}

// ---- all of them

/// All clients, and what they were told so far.
pub struct World {
    pub idempotent: Vec<Idempotent>,
    pub transactional: Vec<Transactional>,
    pub committers: Vec<Committer>,
    ids: Mutex<BTreeSet<i64>>,
    /// What a read-committed consumer was shown.
    shown: Vec<BTreeMap<i64, String>>,
    /// What others have seen of each group's offset.
    seen: Vec<i64>,
    abandoned: usize,
    pub checks: usize,
}

impl World {
    pub fn new() -> World {
        let idempotent =
            |number: i32| Idempotent { name: format!("i{number}"), partition: number % PARTITIONS, producer: None, told: Vec::new() };
        let transactional = |number: i32| Transactional {
            id: format!("t{number}"),
            producer: None,
            number: 0,
            sequences: vec![0; PARTITIONS as usize],
            stage: Stage::Begin,
            became: BTreeMap::new(),
        };
        World {
            idempotent: (0..2).map(idempotent).collect(),
            transactional: (0..3).map(transactional).collect(),
            committers: (0..COMMITTERS).map(|it| Committer { group: format!("c{it}"), told: 0, sent: 0 }).collect(),
            ids: Mutex::default(),
            shown: (0..PARTITIONS).map(|_| BTreeMap::new()).collect(),
            seen: vec![0; COMMITTERS],
            abandoned: 0,
            checks: 0,
        }
    }

    /// Has all clients at work for a time, in some lives while leaders move, or a node stops and comes back; then kills the broker, if it isn't dead
    /// already.
    pub fn killed(&mut self, program: &mut Program, chance: &mut Chance, time: Duration) {
        let (at, way, until) = (program.at.clone(), chance.below(4), Instant::now() + time);
        self.load(&at, || {
            while way < 3 && Instant::now() < until {
                let index = chance.below(PARTITIONS as usize);
                let lines = match way {
                    0 => ["stop 2".to_string(), "restart 2".to_string()],
                    _ => [chance.below(3), chance.below(3)].map(|it| format!("elect {it} {TOPIC} {index}")),
                };
                lines.iter().for_each(|it| drop(at.ask(it)));
                thread::sleep(chance.time(20));
            }
            thread::sleep(until.saturating_duration_since(Instant::now()));
            program.kill();
        });
    }

    /// Runs all clients until the broker is gone, which `ends` sees to.
    fn load(&mut self, at: &At, ends: impl FnOnce()) {
        let gone = AtomicBool::new(false);
        self.abandoned += 1;
        let (ids, name) = (&self.ids, format!("z{}", self.abandoned));
        thread::scope(|scope| {
            // Each ends with its connection. Where it finds what can't be, it panics, and so does this.
            for it in &mut self.idempotent {
                scope.spawn(|| it.run(at, ids).is_err());
            }
            for it in &mut self.transactional {
                scope.spawn(|| it.run(at).is_err());
            }
            for it in &mut self.committers {
                scope.spawn(|| it.run(at).is_err());
            }
            for (index, it) in (0..).zip(&mut self.shown) {
                let gone = &gone;
                scope.spawn(move || consume(at, index, it, gone).is_err());
            }
            for (it, seen) in (0..).zip(&mut self.seen) {
                scope.spawn(move || watch(at, &format!("c{it}"), seen).is_err());
            }
            scope.spawn(|| take_ids(at, ids).is_err());
            scope.spawn(|| abandon(at, &name).is_err());
            ends();
            gone.store(true, SeqCst);
        });
    }

    /// Ends what was begun, and holds all that was told to what is there.
    pub fn check(&mut self, at: &At, chance: &mut Chance) -> Outcome {
        for it in &self.transactional {
            it.check_at_once(&mut at.client(0)?)?;
        }
        for it in &mut self.transactional {
            it.resolve(at, chance.below(2) == 0, &self.ids)?;
        }
        let (mut all, mut shown) = (Vec::new(), Vec::new());
        for index in 0..PARTITIONS {
            let mut client = at.leader(index)?;
            let end = settled_end(&mut client, index)?;
            all.push(client.read_to(index, end, 0)?);
            shown.push(client.read_to(index, end, 1)?);
        }
        let mut client = at.client(0)?;
        self.idempotent.iter().for_each(|it| it.check(&all));
        for it in &mut self.transactional {
            it.check(&mut client, &all, &shown)?;
        }
        for (it, seen) in self.committers.iter_mut().zip(&self.seen) {
            it.check(&mut client)?;
            assert!(it.told >= *seen, "{}: {seen} was seen, and {} is there", it.group, it.told);
        }
        for (told, found) in self.shown.iter().zip(&shown) {
            let end = told.last_key_value().map_or(0, |it| it.0 + 1);
            let again: BTreeMap<i64, String> = found.iter().filter(|it| it.0 < end).cloned().collect();
            assert_eq!(*told, again, "a consumer is shown the same again");
            assert!(found.iter().all(|it| !it.1.starts_with('z')), "what nobody has committed is shown");
        }
        self.checks += 1;
        Ok(())
    }

    /// How much was told.
    pub fn told(&self) -> String {
        let batches: usize = self.idempotent.iter().map(|it| it.told.len()).sum();
        let committed: usize = self.transactional.iter().map(Transactional::committed).sum();
        let offsets: i64 = self.committers.iter().map(|it| it.told).sum();
        let ids = self.ids.lock().map_or(0, |it| it.len());
        let shown: usize = self.shown.iter().map(BTreeMap::len).sum();
        format!("{batches} batches, {committed} transactions, {offsets} offsets, {ids} producer ids, {shown} records shown")
    }
}

impl Default for World {
    fn default() -> World {
        World::new()
    }
}

/// A partition's end, once no transaction is open: those that nobody ends are aborted when their time is up.
fn settled_end(client: &mut Client, index: i32) -> Fallible<i64> {
    let until = Instant::now() + LONG;
    loop {
        let (stable, end) = (client.list(index, -1, 1)?, client.list(index, -1, 0)?);
        if stable.0 == 0 && (stable.0, stable.1) == (end.0, end.1) {
            return Ok(end.1);
        }
        if Instant::now() > until {
            return Err(format!("partition {index}: {stable:?}, {end:?}").into());
        }
        thread::sleep(Duration::from_millis(1));
    }
}

/// Reads what is committed, and notes it.
fn consume(at: &At, index: i32, shown: &mut BTreeMap<i64, String>, gone: &AtomicBool) -> Outcome {
    let mut client = at.leader(index)?;
    let mut from = shown.last_key_value().map_or(0, |it| it.0 + 1);
    while !gone.load(SeqCst) {
        let got = client.fetch(index, from, 1)?;
        if got.code != 0 {
            client = at.leader(index)?;
            continue;
        }
        shown.extend(got.visible()?.into_iter().filter(|it| it.0 >= from));
        from = got.next()?.unwrap_or(from).max(from);
    }
    Ok(())
}

/// Looks at a group's offset, which another client commits.
fn watch(at: &At, group: &str, seen: &mut i64) -> Outcome {
    let mut client = at.client(0)?;
    loop {
        let offset = committed(&mut client, group, false)?.1;
        assert!(offset.max(0) >= *seen, "{group}: {seen} was seen, and then {offset}");
        *seen = offset.max(0);
    }
}

fn take_ids(at: &At, ids: &Mutex<BTreeSet<i64>>) -> Outcome {
    let mut client = at.client(0)?;
    loop {
        fresh(&mut client, ids)?;
    }
}

/// Begins transactions that nobody ends. A hasty producer hands its batch in before it is told that the partition was added: whoever takes it has to
/// know at the next start that it is to be aborted.
fn abandon(at: &At, name: &str) -> Outcome {
    let mut lines = Lines::new(at)?;
    for number in 0.. {
        let (id, index) = (format!("{name}-{number}"), number % PARTITIONS);
        let producer = init(&mut lines.coordinator, Some(&id), SHORT)?.map_err(|it| format!("code {it}"))?;
        let request = AddPartitionsToTxnRequest {
            transactional_id: &id,
            producer_id: producer.0,
            producer_epoch: producer.1,
            topics: vec![JoiningTopic { name: TOPIC, partitions: vec![index] }],
        };
        let bytes = batch(&[&id], Writes { producer, sequence: 0, transactional: true }, 1_000);
        let sent = lines.coordinator.send(&request, 3)?;
        while is(lines.leader(index)?.produce_in(&id, index, &bytes)?.0, ErrorCode::InvalidTxnState) {}
        lines.coordinator.answer(&request, 3, sent)?;
        thread::sleep(Duration::from_millis(3));
    }
    Ok(())
}
