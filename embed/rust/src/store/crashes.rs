//! A cluster in a store whose power goes, whose process is killed, or whose disk is full, at any operation on its files: what was acknowledged
//! is there afterwards, once and in order.

use super::disk::Disk;
use super::read_back::read_back;
use super::tearing::Folder;
use super::text::StateText;
use super::watch::{Act, Chance, Order, Watch, Wreck, ordered, own_order, put, seeds};
use super::{Store, StoreError, StoreFile, made};
use crate::cluster::{Cluster, Pass};
use crate::error::{Error, Refusal};
use crate::fetched::Isolation;
use crate::ffi::Limits;
use crate::message::{Addressee, Message, Said};
use crate::values::{Ack, Change, Kept, NodeState, Receipt, Status};
use std::collections::BTreeMap;
use std::path::Path;
use std::sync::Arc;

const LIMITS: Limits = Limits { segment_bytes: 400, index_interval: 100, max_batch: 1_000 };
const PRODUCER: u64 = 7;

/// So many runs by chance a test has, each of so many processes, of so many acts.
pub(super) const SEEDS: u64 = 60;
pub(super) const LIVES: usize = 5;
pub(super) const ACTS: usize = 120;

// So many batches wait for their acknowledgements at most; the library knows so many again.
const WAITING: usize = 5;

// What a producer knows: it hands in v0, v1 and so on, each until it is acknowledged.
#[derive(Clone, Debug, Default)]
struct Client {
    told: usize,
    waiting: Vec<Receipt>,
}

fn value(number: usize) -> String {
    format!("v{number}")
}

impl Client {
    fn hand_in(&mut self, cluster: &Cluster, pass: &mut Pass, leader: u8) -> Result<(), Error> {
        if self.waiting.len() == WAITING {
            return Ok(());
        }
        let number = self.told + self.waiting.len();
        let batch = made::batch(Some((PRODUCER, number as i32)), &[value(number).as_bytes()]);
        match cluster.node(leader)?.produce(pass, &batch) {
            Ok(receipt) => self.waiting.push(receipt),
            // This leader hasn't got those before.
            Err(Error::Refused(Refusal::OutOfOrderSequence)) => self.waiting.clear(),
            Err(error) => return Err(error),
        }
        Ok(())
    }

    fn ask(&mut self, cluster: &Cluster, pass: &mut Pass, leader: u8) -> Result<(), Error> {
        let Some(first) = self.waiting.first().copied() else { return Ok(()) };
        match cluster.node(leader)?.acked(pass, &first)? {
            Ack::Yes => {
                self.told += 1;
                self.waiting.remove(0);
            }
            Ack::Lost => self.waiting.clear(),
            Ack::NotYet => {}
        }
        Ok(())
    }
}

// How often each act is drawn, so that some lives do much of one thing and nothing of another.
struct Habits {
    nodes: u8,
    weights: [usize; 13],
}

impl Habits {
    fn drawn(chance: &mut Chance) -> Habits {
        let mut weights = [0; 13].map(|_: usize| [0, 1, 2, 4, 8][chance.below(5)]);
        weights[..6].iter_mut().for_each(|it| *it += 4); // else nothing is acknowledged
        weights[6..12].iter_mut().for_each(|it| *it /= 2);
        weights[9] = weights[9].max(weights[8]); // who is stopped comes back
        weights[12] += 4;
        Habits { nodes: [1, 2, 3, 3][chance.below(4)], weights }
    }

    fn act(&self, chance: &mut Chance) -> usize {
        let mut rest = chance.below(self.weights.iter().sum());
        self.weights.iter().position(|it| rest.checked_sub(*it).map(|left| rest = left).is_none()).unwrap_or(0)
    }
}

// One process, with whatever messages are under way.
struct Life {
    cluster: Cluster,
    pass: Pass,
    under_way: Vec<Message>,
    client: Client,
}

impl Life {
    fn new(folder: &Path, nodes: u8, client: Client) -> Result<(Life, Store), StoreError> {
        let (cluster, store) = Store::open(folder, nodes, LIMITS)?;
        let pass = cluster.pass().expect("there is room");
        Ok((Life { cluster, pass, under_way: Vec::new(), client }, store))
    }

    fn deliver(&mut self, chance: &mut Chance) -> Result<(), Error> {
        if self.under_way.is_empty() {
            return Ok(());
        }
        let message = self.under_way.swap_remove(chance.below(self.under_way.len()));
        let answer = match message.addressee() {
            Addressee::Node(node) => self.cluster.node(node)?.step(message)?,
            Addressee::Controller => Some(self.pass.decide(message)?),
        };
        self.under_way.extend(answer);
        Ok(())
    }

    // Most lives begin with a leader.
    fn begin(&mut self, nodes: u8, chance: &mut Chance) -> Result<(), Error> {
        if chance.below(4) > 0 {
            let _elected = self.pass.elect(chance.below(nodes.into()) as u8); // it may not be in sync
            (0..nodes).try_for_each(|it| self.cluster.node(it)?.adopt().map(drop))?;
        }
        Ok(())
    }

    // A node asks, and what comes of it is carried at once, as workers do.
    fn carry(&mut self, node: u8) -> Result<(), Error> {
        let mut message = self.cluster.node(node)?.ask()?;
        for _ in 0..3 {
            let Addressee::Node(to) = message.addressee() else { break };
            let answer = self.cluster.node(to)?.step(message)?;
            message = match answer {
                Some(answer) => answer,
                None => self.cluster.node(node)?.ask()?,
            };
        }
        self.under_way.push(message);
        Ok(())
    }

    fn act(&mut self, habits: &Habits, chance: &mut Chance) -> Result<(), Error> {
        let leader = self.pass.leadership()?.leader.map_or(0, |it| it.0);
        let (node, act) = (chance.below(habits.nodes.into()) as u8, habits.act(chance));
        let Life { cluster, pass, under_way, client } = self;
        match act {
            0 => client.hand_in(cluster, pass, leader)?,
            1 => client.ask(cluster, pass, leader)?,
            2 => drop(cluster.node(node)?.adopt()?),
            3 => under_way.push(cluster.node(node)?.ask()?),
            4 => self.deliver(chance)?,
            5 => drop(cluster.node(leader)?.raise()?),
            6 => drop(pass.elect(node)?),
            7 => drop(cluster.node(node)?.checkpoint()?),
            8 => cluster.node(node)?.stop()?,
            9 => drop(cluster.node(node)?.restart()?),
            10 => under_way.push(cluster.node(leader)?.alter(Change::Leave(node))?),
            11 => under_way.push(cluster.node(leader)?.alter(Change::Join(node))?),
            _ => self.carry(node)?,
        }
        Ok(())
    }
}

// Has another node take what this one has, and tell it so.
fn replicate(cluster: &Cluster, leader: u8, follower: u8) -> Result<(), Error> {
    let mut has_all = false;
    while !has_all {
        let request = cluster.node(follower)?.ask()?;
        let mut answer = cluster.node(leader)?.step(request)?.expect("a leader answers");
        has_all = matches!(answer.said()?, Said::Batches { count: 0, .. });
        cluster.node(follower)?.step(answer)?;
    }
    Ok(())
}

/// What is wrong with what was found, by a word for its kind first.
#[derive(Debug)]
pub(super) struct Wrong(pub String);

impl From<Error> for Wrong {
    fn from(error: Error) -> Wrong {
        Wrong(format!("refused: {error}"))
    }
}

pub(super) fn holds(fact: bool, why: impl FnOnce() -> String) -> Result<(), Wrong> {
    if fact { Ok(()) } else { Err(Wrong(why())) }
}

fn opened(folder: &Path, nodes: u8) -> Result<(Cluster, Store), Wrong> {
    Store::open(folder, nodes, LIMITS).map_err(|it| Wrong(format!("damaged: {it}")))
}

// All that is committed once one of those in sync leads, and all have what it has.
fn all_values(cluster: &Cluster, chance: &mut Chance) -> Result<Vec<String>, Wrong> {
    let mut pass = cluster.pass()?;
    let (record, nodes) = (pass.leadership()?, cluster.nodes());
    let in_sync: Vec<u8> = (0..nodes).filter(|it| record.has_in_sync(*it)).collect();
    let leader = in_sync[chance.below(in_sync.len())];
    pass.elect(leader)?;
    for node in 0..nodes {
        let mut node = cluster.node(node)?;
        if node.show()?.status == Status::Down {
            node.restart()?;
        }
        node.adopt()?;
    }
    for follower in (0..nodes).filter(|it| *it != leader) {
        replicate(cluster, leader, follower)?;
    }
    let mut node = cluster.node(leader)?;
    let (mark, end) = (node.raise()?, node.show()?.end);
    holds(mark == end, || format!("disagree: of {end} offsets {mark} are committed"))?;
    let mut fetched = node.fetch(&mut pass, 0, u32::MAX, Isolation::ReadUncommitted)?;
    let records: Result<Vec<String>, Error> =
        fetched.batches.records(0).map(|it| Ok(String::from_utf8(it?.value.unwrap_or_default()).unwrap_or_default())).collect();
    let records = records?;
    // What came last is known, and what comes next follows on.
    for (number, is_known) in [(records.len().checked_sub(1), true), (Some(records.len()), false)] {
        let Some(number) = number else { continue };
        let batch = made::batch(Some((PRODUCER, number as i32)), &[value(number).as_bytes()]);
        let found = node.produce(&mut pass, &batch)?.duplicate;
        holds(found == is_known, || format!("doubled: v{number} is known: {found}"))?;
    }
    Ok(records)
}

/// What whoever called has heard of: how many batches are acknowledged, and what each node is.
#[derive(Clone, Debug, Default)]
pub(super) struct Heard {
    told: usize,
    kept: Vec<Kept>,
}

impl Heard {
    fn told(told: usize) -> Heard {
        Heard { told, kept: Vec::new() }
    }

    fn of(life: &Life, nodes: u8) -> Result<Heard, Error> {
        let kept: Result<Vec<Kept>, Error> = (0..nodes).map(|it| Ok(Kept::from(&life.cluster.node(it)?.show()?))).collect();
        Ok(Heard { told: life.client.told, kept: kept? })
    }

    // A node that is there again is in a later life, and of what it was kept nothing less.
    fn holds_of(&self, node: u8, found: &Kept) -> Result<(), Wrong> {
        let Some(kept) = self.kept.get(usize::from(node)) else { return Ok(()) };
        holds(found.life > kept.life, || format!("life: node {node} had {}, and has {}", kept.life, found.life))?;
        let is_later = found.kept_epoch >= kept.kept_epoch && found.checkpoint >= kept.checkpoint;
        holds(is_later, || format!("older: node {node} was {kept:?}, and is {found:?}"))
    }
}

// Opens what is there, and looks whether all is there that was heard of.
// Where the power has never gone, the promise has all of it.
fn found(image: &BTreeMap<String, Vec<u8>>, nodes: u8, heard: &Heard, had_power: bool, chance: &mut Chance) -> Result<(), Wrong> {
    let (_, folder, told) = (Watch::start(), Folder::new("crash-check"), heard.told);
    put(image, &folder.0).expect("it is written");
    let (cluster, store) = opened(&folder.0, nodes)?;
    let has_all = store.promise.offset >= told as u64 && store.torn.is_empty();
    holds(!had_power || has_all, || format!("forgotten: {told} were told, and found was {store:?}"))?;
    let epoch = cluster.pass().and_then(|mut it| it.leadership())?.leader.map(|it| it.1);
    for node in 0..nodes {
        let state = cluster.node(node).and_then(|mut it| it.show())?;
        heard.holds_of(node, &Kept::from(&state))?;
        let is_known = state.kept_epoch <= epoch && state.status == Status::Idle;
        holds(is_known, || format!("record: it has epoch {epoch:?}, and node {node} {state:?}"))?;
    }
    let found = all_values(&cluster, chance)?;
    holds(found.len() >= told, || format!("lost: {told} were told, and {} are there", found.len()))?;
    holds(found.iter().enumerate().all(|(number, it)| *it == value(number)), || format!("disagree: {found:?}"))?;
    // Nothing of what was there before is in the way of what came behind it.
    drop(cluster);
    let (cluster, store) = opened(&folder.0, nodes)?;
    holds(store.torn.is_empty(), || format!("damaged: {:?}", store.torn))?;
    let again = all_values(&cluster, chance)?.len();
    holds(again >= told, || format!("lost: {told} were told, and {again} are there again"))
}

fn check(image: &BTreeMap<String, Vec<u8>>, nodes: u8, told: usize, had_power: bool, chance: &mut Chance) {
    found(image, nodes, &Heard::told(told), had_power, chance).unwrap_or_else(|it| panic!("{}", it.0));
}

// How many operations were done, and what was heard of by then.
type Moment = (usize, Heard);

// A life of so many acts, from what is in the folder on.
fn lived(folder: &Path, habits: &Habits, heard: Heard, acts: usize, chance: &mut Chance) -> (Arc<Watch>, Vec<Moment>) {
    let (watch, client) = (Watch::start(), Client { told: heard.told, waiting: Vec::new() });
    let mut moments = vec![(0, heard)];
    let (mut life, _) = Life::new(folder, habits.nodes, client).unwrap_or_else(|it| panic!("{it}"));
    for number in 0..acts {
        let done = if number == 0 { life.begin(habits.nodes, chance) } else { life.act(habits, chance) };
        if let Err(error @ (Error::Store(_) | Error::Misuse(_))) = done {
            panic!("{error}");
        }
        moments.push((watch.count(), Heard::of(&life, habits.nodes).expect("it is shown")));
    }
    (watch, moments)
}

/// The process ends again and again, each time at some operation, and goes on from what is there then. What a process that was killed has
/// not synced the next one finds, but it may still be lost. How many batches were acknowledged, where all was found each time.
pub(super) fn crashes(seed: u64, lives: usize, acts: usize, order: Order) -> Result<usize, Wrong> {
    let mut chance = Chance::new(seed);
    let habits = Habits::drawn(&mut chance);
    let (mut wreck, mut heard, mut had_power) = (Wreck::default(), Heard::default(), true);
    for _ in 0..lives {
        let folder = Folder::new("crash");
        put(&wreck.all_of(), &folder.0).expect("it is written");
        let (watch, moments) = lived(&folder.0, &habits, heard.clone(), acts, &mut chance);
        let end = chance.below(watch.count() + 1);
        let acts = watch.acts();
        ordered(&acts, order).iter().filter(|it| it.0 < end).for_each(|(_, (name, act))| wreck.hears(*name, act));
        heard = moments.into_iter().rfind(|it| it.0 <= end).map_or(heard, |it| it.1);
        if chance.below(2) == 0 {
            had_power = false;
            wreck = Wreck::of(&wreck.some_of(&mut chance));
        }
        found(&wreck.all_of(), habits.nodes, &heard, had_power, &mut chance)?;
    }
    Ok(heard.told)
}

#[test]
fn what_was_acknowledged_stays_wherever_the_power_goes() {
    let done = |seed| crashes(seed, LIVES, ACTS, own_order).unwrap_or_else(|it| panic!("seed {seed}: {}", it.0));
    let told: usize = (0..seeds(SEEDS)).map(done).sum();
    println!("{told} batches were acknowledged");
    assert!(told > 0, "nothing was acknowledged");
}

// What is in the folder, and in those in it.
fn files_of(folder: &Path) -> BTreeMap<String, Vec<u8>> {
    let mut files = BTreeMap::new();
    for entry in std::fs::read_dir(folder).expect("it is there") {
        let (path, name) = entry.map(|it| (it.path(), it.file_name().into_string().expect("it is text"))).expect("it is there");
        if path.is_dir() {
            files.extend(files_of(&path).into_iter().map(|(inner, bytes)| (format!("{name}/{inner}"), bytes)));
        } else {
            files.insert(name, std::fs::read(&path).expect("it can be read"));
        }
    }
    files
}

// While the disk is full nodes are stopped, and nothing is acknowledged that isn't there.
fn fills(seed: u64) -> usize {
    let (mut chance, watch, folder) = (Chance::new(seed), Watch::start(), Folder::new("crash-full"));
    let habits = Habits::drawn(&mut chance);
    let (mut life, _) = Life::new(&folder.0, habits.nodes, Client::default()).unwrap_or_else(|it| panic!("{it}"));
    let mut faults = 0;
    for act in 0..400 {
        if act % 10 == 5 {
            let first = watch.count() + chance.below(6);
            watch.refuse(first..first + 1 + chance.below(3));
        }
        match life.act(&habits, &mut chance) {
            Err(Error::Store(fault)) => {
                assert_eq!(fault.code, Some(28), "{fault}");
                faults += 1;
            }
            Err(Error::Misuse(number)) => panic!("misuse {number}"),
            Err(_) | Ok(()) => {}
        }
    }
    let told = life.client.told;
    drop(life);
    check(&files_of(&folder.0), habits.nodes, told, false, &mut chance);
    let mut wreck = Wreck::default();
    watch.acts().iter().for_each(|(name, act)| wreck.hears(*name, act));
    check(&wreck.some_of(&mut chance), habits.nodes, told, false, &mut chance);
    faults
}

#[test]
fn a_full_disk_stops_a_node_and_loses_nothing() {
    let faults: usize = (0..seeds(60)).map(fills).sum();
    println!("the disk was full for {faults} calls");
    assert!(faults > 0, "the disk was never full");
}

fn log_of(cluster: &Cluster, node: u8) -> Result<Vec<u8>, Error> {
    let (mut batches, mut log) = (cluster.node(node)?.log_from(0, u32::MAX)?, Vec::new());
    while batches.append_to(&mut log)? {}
    Ok(log)
}

// Of a node: its state and its log's bytes as they are on the disk for good, and as it has them.
struct OnDisk {
    state: StateText,
    log: Vec<u8>,
    shown: NodeState,
    shown_log: Vec<u8>,
}

impl OnDisk {
    fn of(watch: &Watch, cluster: &Cluster, node: u8) -> Result<OnDisk, Error> {
        let (mut wreck, folder) = (Wreck::default(), Folder::new("crash-kept"));
        watch.acts().iter().for_each(|(name, act)| wreck.hears(*name, act));
        put(&wreck.least_of(), &folder.0).expect("it is written");
        let disk = Disk::open(&folder.0).expect("a folder");
        let text = disk.read(StoreFile::State(node)).expect("it can be read").expect("a state");
        let state = StateText::of(&text).expect("it is whole");
        let log = read_back(&disk, node, &state).expect("it is whole").log;
        let shown_log = log_of(cluster, node)?;
        Ok(OnDisk { state, log, shown: cluster.node(node)?.show()?, shown_log })
    }

    fn is_all(&self) -> bool {
        self.log == self.shown_log && self.state.kept == Kept::from(&self.shown)
    }
}

// Before a node sends, counts itself or changes its state, its log is on the disk; a new state is there once the call has returned.
#[test]
fn what_a_call_rests_on_is_on_the_disk() -> Result<(), Error> {
    type Call = fn(&Cluster, &mut Pass, Message) -> Result<(), Error>;
    let calls: [(&str, Call); 8] = [
        ("raise", |cluster, _, _| cluster.node(0)?.raise().map(drop)),
        ("alter", |cluster, _, _| cluster.node(0)?.alter(Change::Leave(1)).map(drop)),
        ("step", |cluster, _, request| cluster.node(0)?.step(request).map(drop)),
        ("stop", |cluster, _, _| cluster.node(0)?.stop()),
        ("restart", |cluster, _, _| {
            cluster.node(0)?.stop()?;
            cluster.node(0)?.restart().map(drop)
        }),
        ("adopt", |cluster, pass, _| {
            pass.elect(1)?;
            cluster.node(0)?.adopt().map(drop)
        }),
        ("checkpoint", |cluster, _, _| cluster.node(0)?.checkpoint().map(drop)),
        ("ask", |cluster, pass, _| {
            pass.elect(1)?;
            cluster.node(0)?.adopt()?;
            cluster.node(0)?.ask().map(drop)
        }),
    ];
    for (name, call) in calls {
        let (watch, folder) = (Watch::start(), Folder::new("crash-calls"));
        let (cluster, _) = Store::open(&folder.0, 2, LIMITS).unwrap_or_else(|it| panic!("{it}"));
        let mut pass = cluster.pass()?;
        pass.elect(0)?;
        (0..2).try_for_each(|it| cluster.node(it)?.adopt().map(drop))?;
        let request = cluster.node(1)?.ask()?;
        let put = |pass: &mut Pass, number: i32| cluster.node(0)?.produce(pass, &made::batch(Some((PRODUCER, number)), &[b"value"]));
        put(&mut pass, 0)?;
        replicate(&cluster, 0, 1)?;
        cluster.node(0)?.raise()?;
        put(&mut pass, 1)?;
        let kept = OnDisk::of(&watch, &cluster, 0)?;
        assert_eq!(kept.log.len() * 2, kept.shown_log.len(), "a batch alone is no reason to wait for the disk");
        call(&cluster, &mut pass, request)?;
        let kept = OnDisk::of(&watch, &cluster, 0)?;
        assert!(kept.is_all(), "{name}");
        assert_eq!(kept.shown.life + kept.shown.checkpoint > 0, ["restart", "checkpoint"].contains(&name));
    }
    // What a follower has taken it may lose, until it says that it has it.
    let (watch, folder) = (Watch::start(), Folder::new("crash-calls"));
    let (cluster, _) = Store::open(&folder.0, 2, LIMITS).unwrap_or_else(|it| panic!("{it}"));
    let mut pass = cluster.pass()?;
    pass.elect(0)?;
    (0..2).try_for_each(|it| cluster.node(it)?.adopt().map(drop))?;
    cluster.node(0)?.produce(&mut pass, &made::batch(None, &[b"value"]))?;
    let request = cluster.node(1)?.ask()?;
    let answer = cluster.node(0)?.step(request)?.expect("a leader answers");
    cluster.node(1)?.step(answer)?;
    assert!(OnDisk::of(&watch, &cluster, 1)?.log.is_empty());
    let _request = cluster.node(1)?.ask()?;
    assert!(OnDisk::of(&watch, &cluster, 1)?.is_all());
    Ok(())
}

fn handed_in(cluster: &Cluster, pass: &mut Pass, leader: u8, number: usize) -> Result<Receipt, Error> {
    cluster.node(leader)?.produce(pass, &made::batch(Some((PRODUCER, number as i32)), &[value(number).as_bytes()]))
}

// Node 0 has three batches that node 1 has, and twelve more; node 1 leads, and has another one.
fn diverged(folder: &Folder) -> Result<(Cluster, Pass), Error> {
    let (cluster, _) = Store::open(&folder.0, 2, LIMITS).unwrap_or_else(|it| panic!("{it}"));
    let mut pass = cluster.pass()?;
    pass.elect(0)?;
    (0..2).try_for_each(|it| cluster.node(it)?.adopt().map(drop))?;
    (0..3).try_for_each(|it| handed_in(&cluster, &mut pass, 0, it).map(drop))?;
    replicate(&cluster, 0, 1)?;
    (3..15).try_for_each(|it| handed_in(&cluster, &mut pass, 0, it).map(drop))?;
    pass.elect(1)?;
    (0..2).try_for_each(|it| cluster.node(it)?.adopt().map(drop))?;
    handed_in(&cluster, &mut pass, 1, 3)?;
    Ok((cluster, pass))
}

// Whichever operation of a cut fails: the node is stopped, and once it is started again, or read back, the cut is ended.
#[test]
fn a_cut_that_fails_is_ended() -> Result<(), Wrong> {
    let (mut fault, mut fails) = (0, true);
    while fails {
        let (watch, folder) = (Watch::start(), Folder::new("crash-cut"));
        let (cluster, pass) = diverged(&folder)?;
        let request = cluster.node(0)?.ask()?;
        let answer = cluster.node(1)?.step(request)?.expect("a leader answers");
        let first = watch.count() + fault;
        watch.refuse(first..first + 1);
        let stepped = cluster.node(0)?.step(answer);
        watch.refuse(0..0);
        fails = matches!(stepped, Err(Error::Store(_)));
        assert_eq!(cluster.node(0)?.show()?.status == Status::Down, fails, "operation {fault}");
        assert_eq!(cluster.node(0)?.fault().map(Error::Store), stepped.err(), "operation {fault}");
        let mut image = Wreck::default();
        watch.acts().iter().for_each(|(name, act)| image.hears(*name, act));
        check(&image.all_of(), 2, 3, false, &mut Chance::new(1));
        if fails {
            cluster.node(0)?.restart()?;
            assert_eq!(cluster.node(0)?.fault(), None);
            cluster.node(0)?.adopt()?;
        }
        replicate(&cluster, 1, 0)?;
        for node in 0..2 {
            let kept = OnDisk::of(&watch, &cluster, node)?;
            assert!(kept.is_all() && kept.shown.end == 4, "operation {fault}");
        }
        drop((cluster, pass));
        let (cluster, _) = Store::open(&folder.0, 2, LIMITS).unwrap_or_else(|it| panic!("{it}"));
        assert_eq!(all_values(&cluster, &mut Chance::new(2))?, ["v0", "v1", "v2", "v3"]);
        fault += 1;
    }
    assert!(fault > 10, "{fault} operations");
    Ok(())
}

// What is there is opened, node 1 takes twelve batches more, and it is opened again.
fn check_goes_on(image: &BTreeMap<String, Vec<u8>>) -> Result<(), Error> {
    let (_, folder) = (Watch::start(), Folder::new("crash-on"));
    put(image, &folder.0).expect("it is written");
    let (cluster, _) = Store::open(&folder.0, 2, LIMITS).unwrap_or_else(|it| panic!("{it}"));
    let mut pass = cluster.pass()?;
    pass.elect(1)?;
    (0..2).try_for_each(|it| cluster.node(it)?.adopt().map(drop))?;
    (4..16).try_for_each(|it| handed_in(&cluster, &mut pass, 1, it).map(drop))?;
    replicate(&cluster, 1, 0)?;
    let logs = [log_of(&cluster, 0)?, log_of(&cluster, 1)?];
    assert_eq!(logs[0], logs[1]);
    drop((cluster, pass));
    let (cluster, store) = Store::open(&folder.0, 2, LIMITS).unwrap_or_else(|it| panic!("{it}"));
    assert_eq!([log_of(&cluster, 0)?, log_of(&cluster, 1)?], logs);
    assert_eq!(store.torn, []);
    Ok(())
}

// Wherever a cut ends as the process is killed, or the power goes, the log goes on from where it was to be cut, or from its end.
#[test]
fn a_cut_that_ends_half_way_is_ended() -> Result<(), Error> {
    let (watch, folder) = (Watch::start(), Folder::new("crash-half"));
    let (cluster, _pass) = diverged(&folder)?;
    let request = cluster.node(0)?.ask()?;
    let answer = cluster.node(1)?.step(request)?.expect("a leader answers");
    let first = watch.count();
    cluster.node(0)?.step(answer)?;
    let (acts, mut wreck, mut chance) = (watch.acts(), Wreck::default(), Chance::new(3));
    assert!(acts[first..].iter().filter(|it| matches!(it.1, Act::Remove)).count() > 1, "several segments go");
    for (count, (name, act)) in (1..).zip(&acts) {
        wreck.hears(*name, act);
        if count >= first {
            check_goes_on(&wreck.all_of())?;
            (0..4).try_for_each(|_| check_goes_on(&wreck.clone().some_of(&mut chance)))?;
        }
    }
    Ok(())
}

// A record that the next process finds is on the disk before a node of it adopts that.
#[test]
fn a_record_that_was_read_stays() -> Result<(), Error> {
    let (watch, folder) = (Watch::start(), Folder::new("crash-record"));
    let (cluster, _) = Store::open(&folder.0, 1, LIMITS).unwrap_or_else(|it| panic!("{it}"));
    let first = watch.count();
    cluster.pass()?.elect(0)?;
    for end in first..=watch.count() {
        let (mut wreck, next, folder) = (Wreck::default(), Watch::start(), Folder::new("crash-record"));
        watch.acts()[..end].iter().for_each(|(name, act)| wreck.hears(*name, act));
        put(&wreck.all_of(), &folder.0).expect("it is written");
        let (cluster, _) = Store::open(&folder.0, 1, LIMITS).unwrap_or_else(|it| panic!("{it}"));
        let _adopted = cluster.node(0)?.adopt(); // where it was elected
        next.acts().iter().for_each(|(name, act)| wreck.hears(*name, act));
        check(&wreck.least_of(), 1, 0, false, &mut Chance::new(4));
    }
    Ok(())
}

// Wherever the power goes while a store is made: it is there, with its nodes, or is to be made.
#[test]
fn a_new_store_is_whole_or_none() -> Result<(), Error> {
    let (watch, folder, mut chance) = (Watch::start(), Folder::new("crash-new"), Chance::new(4));
    drop(Store::open(&folder.0, 2, LIMITS).unwrap_or_else(|it| panic!("{it}")));
    let acts = watch.acts();
    let mut wreck = Wreck::default();
    for (name, act) in acts {
        wreck.hears(name, &act);
        (0..20).for_each(|_| check(&wreck.clone().some_of(&mut chance), 2, 0, false, &mut chance));
    }
    Ok(())
}

// Whichever operation of an opening fails, of a new store or one that is there: the next one finds all.
#[test]
fn an_opening_that_fails_is_tried_again() -> Result<(), Wrong> {
    for is_there in [false, true] {
        let (mut fault, mut fails) = (0, true);
        while fails {
            let folder = Folder::new("crash-opening");
            if is_there {
                drop(diverged(&folder)?);
            }
            let watch = Watch::start();
            watch.refuse(fault..fault + 1);
            fails = match Store::open(&folder.0, 2, LIMITS) {
                Err(StoreError::File { path, error }) => {
                    assert_eq!((path.starts_with(&folder.0), error.raw_os_error()), (true, Some(28)));
                    true
                }
                Err(error) => panic!("{error}"),
                Ok(_) => false,
            };
            watch.refuse(0..0);
            let (cluster, store) = Store::open(&folder.0, 2, LIMITS).unwrap_or_else(|it| panic!("{it}"));
            assert_eq!(store.torn, []);
            let found = all_values(&cluster, &mut Chance::new(fault as u64))?;
            assert!(found.len() >= if is_there { 3 } else { 0 } && found.iter().enumerate().all(|(number, it)| *it == value(number)));
            fault += 1;
        }
        assert!(fault > 10, "{fault} operations");
    }
    Ok(())
}
