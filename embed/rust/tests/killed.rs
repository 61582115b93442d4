//! Processes that have a store and are killed: at each of its calls of the system in turn, and at any moment under load.
//!
//! Producers make payments, each one a transaction, of which every third is aborted. What a process is told it prints: a line for each payment
//! that is acknowledged, and for each record that a consumer is shown. It goes on from what those before it have printed. Once it is dead
//! what it printed is held to what is there.

mod made;

use kpart::{
    Ack, Change, Cluster, Error, Isolation, Limits, Link, Marker, Node, Pass, Place, Receipt, Refusal, Said, Status, Store, Workers,
};
use std::collections::BTreeMap;
use std::ffi::c_int;
use std::io::{BufRead, BufReader};
use std::os::unix::process::ExitStatusExt;
use std::path::{Path, PathBuf};
use std::process::{Child, Command, Stdio};
use std::sync::atomic::{AtomicU64, Ordering};
use std::time::{Duration, Instant};
use std::{fs, thread};

type Fault = Box<dyn std::error::Error>;

const LIMITS: Limits = Limits { segment_bytes: 400, index_interval: 100, max_batch: 1_000 };
const EVERY: Duration = Duration::from_millis(1);
const LONG: Duration = Duration::from_secs(60);
const PRODUCERS: usize = 3;
const NODES: u8 = 3;
const TIME: u64 = 1_000;

// A folder that is gone with this.
struct Folder(PathBuf);

impl Folder {
    // With `fast` where a sync costs nothing.
    fn new(name: &str, fast: bool) -> Folder {
        let memory = Path::new("/dev/shm");
        let place = if fast && memory.is_dir() { memory.to_path_buf() } else { std::env::temp_dir() };
        static COUNT: AtomicU64 = AtomicU64::new(0);
        let number = COUNT.fetch_add(1, Ordering::Relaxed);
        let path = place.join(format!("kpart-{name}-{}-{number}", std::process::id()));
        let _gone = fs::remove_dir_all(&path);
        fs::create_dir(&path).expect("it is made");
        Folder(path)
    }

    fn store(&self) -> PathBuf {
        self.0.join("store")
    }
}

impl Drop for Folder {
    fn drop(&mut self) {
        let _gone = fs::remove_dir_all(&self.0);
    }
}

// Numbers by chance (Marsaglia's xorshift).
struct Chance(u64);

impl Chance {
    fn below(&mut self, bound: usize) -> usize {
        self.0 ^= self.0 << 13;
        self.0 ^= self.0 >> 7;
        self.0 ^= self.0 << 17;
        (self.0 >> 16) as usize % bound
    }
}

// ---- payments

fn value(producer: usize, number: u64) -> String {
    format!("{producer}-{number}")
}

fn commits(number: u64) -> bool {
    number % 3 != 2
}

// Hands something in to whoever leads, has it carried, and so again until it is acknowledged.
fn settle(
    cluster: &Cluster,
    pass: &mut Pass,
    carry: impl Fn(u8) -> Result<(), Error>,
    hand: impl Fn(&mut Node, &mut Pass) -> Result<Receipt, Error>,
) -> Result<Receipt, Error> {
    loop {
        let Some((leader, _)) = pass.leadership()?.leader else { continue };
        let handed = hand(&mut cluster.node(leader)?, pass);
        let receipt = match handed {
            Ok(receipt) => receipt,
            Err(Error::Refused(Refusal::NotLeader | Refusal::Down)) => {
                thread::sleep(Duration::from_micros(200));
                continue;
            }
            Err(error) => return Err(error),
        };
        carry(leader)?;
        match cluster.wait_acked(pass, leader, &receipt, Duration::from_millis(5)) {
            Ok(Ack::Yes) => return Ok(receipt),
            Ok(_) | Err(Error::Refused(Refusal::Down)) => {}
            Err(error) => return Err(error),
        }
    }
}

// The payment of that number, of which some process may have made a part. The marker's receipt.
fn pay(cluster: &Cluster, pass: &mut Pass, carry: impl Fn(u8) -> Result<(), Error>, payment: (usize, u64)) -> Result<Receipt, Error> {
    let (producer, number) = payment;
    let batch = made::transactional((producer as u64, number as i32), &[value(producer, number).as_bytes()]);
    settle(cluster, pass, &carry, |node, pass| node.produce(pass, &batch))?;
    let producer_id = producer as u64;
    let marker = Marker { producer_id, producer_epoch: 0, coordinator_epoch: 0, timestamp: TIME, commits: commits(number) };
    settle(cluster, pass, &carry, |node, pass| node.mark(pass, &marker))
}

// What a read-committed consumer is given by the node from an offset on.
fn given(cluster: &Cluster, pass: &mut Pass, node: u8, from: u64) -> Result<Vec<(u64, String)>, Error> {
    let records = cluster.node(node)?.read_committed(pass, from)?;
    records.map(|it| it.map(|it| (it.offset, String::from_utf8_lossy(&it.value.unwrap_or_default()).into_owned()))).collect()
}

// Has a node take what its leader has, and tell it so.
fn replicate(cluster: &Cluster, leader: u8, follower: u8) -> Result<(), Error> {
    let mut has_all = false;
    while !has_all {
        let request = cluster.node(follower)?.ask()?;
        let mut answer = cluster.node(leader)?.step(request)?.expect("a leader answers");
        has_all = matches!(answer.said()?, Said::Batches { count: 0, .. });
        cluster.node(follower)?.step(answer)?;
    }
    Ok(())
}

// Of the nodes that are up.
fn replicate_all(cluster: &Cluster, leader: u8) -> Result<(), Error> {
    for follower in (0..NODES).filter(|it| *it != leader) {
        if cluster.node(follower)?.show()?.status != Status::Down {
            replicate(cluster, leader, follower)?;
        }
    }
    cluster.node(leader)?.raise().map(drop)
}

fn lead(cluster: &Cluster, node: u8) -> Result<Pass, Error> {
    let mut pass = cluster.pass()?;
    pass.elect(node)?;
    (0..NODES).try_for_each(|it| cluster.node(it)?.adopt().map(drop))?;
    Ok(pass)
}

// ---- what a process tells

// `paid P N OFFSET`: the payment N of producer P is acknowledged, and ends at that offset.
fn tell_paid(producer: usize, number: u64, receipt: &Receipt) {
    println!("paid {producer} {number} {}", receipt.last);
}

// `shown OFFSET VALUE`: a consumer was shown that.
fn tell_shown(records: &[(u64, String)]) -> Option<u64> {
    records.iter().for_each(|(offset, value)| println!("shown {offset} {value}"));
    records.last().map(|it| it.0)
}

// `node N LIFE EPOCHS`: the node has said that it is in that life, and has taken up leader epochs below that one.
fn tell_nodes(cluster: &Cluster) -> Result<(), Error> {
    for node in 0..NODES {
        let (life, epochs) = said_of(cluster, node)?;
        println!("node {node} {life} {epochs}");
    }
    Ok(())
}

fn said_of(cluster: &Cluster, node: u8) -> Result<(u64, u64), Error> {
    let state = cluster.node(node)?.show()?;
    Ok((state.life, state.kept_epoch.map_or(0, |it| u64::from(it) + 1)))
}

// What processes have told.
#[derive(Debug, Default)]
struct Told {
    paid: [u64; PRODUCERS],
    shown: BTreeMap<u64, String>,
    nodes: [Option<(u64, u64)>; NODES as usize],
    // Above all offsets that were told.
    end: u64,
}

impl Told {
    // The words by which the next process goes on.
    fn words(&self) -> String {
        let next = self.shown.last_key_value().map_or(0, |it| it.0 + 1);
        self.paid.iter().chain([&next]).map(u64::to_string).collect::<Vec<_>>().join(" ")
    }

    // Whole lines alone, until the process has ended.
    fn hear(&mut self, child: &mut Child) -> Result<(), Fault> {
        let (mut lines, mut line) = (BufReader::new(child.stdout.take().expect("a pipe")), String::new());
        while lines.read_line(&mut line)? > 0 {
            let words: Vec<&str> = line.split_whitespace().collect();
            match words[..] {
                ["paid", producer, number, offset] if line.ends_with('\n') => {
                    self.hear_paid(producer.parse()?, number.parse()?, offset.parse()?)
                }
                ["shown", offset, value] if line.ends_with('\n') => self.hear_shown(offset.parse()?, value),
                ["node", node, life, epochs] if line.ends_with('\n') => {
                    self.nodes[node.parse::<usize>()?] = Some((life.parse()?, epochs.parse()?));
                }
                _ => {}
            }
            line.clear();
        }
        Ok(())
    }

    fn hear_paid(&mut self, producer: usize, number: u64, offset: u64) {
        assert_eq!(number, self.paid[producer], "they are told in order");
        self.paid[producer] += 1;
        self.end = self.end.max(offset + 1);
    }

    fn hear_shown(&mut self, offset: u64, value: &str) {
        assert!(self.shown.last_key_value().is_none_or(|it| *it.0 < offset), "{offset} is shown again");
        self.shown.insert(offset, value.to_string());
        self.end = self.end.max(offset + 1);
    }
}

// All that was told is there, whichever of those in sync leads; what a process may have begun is ended, and more is paid. The promise has all
// of it, unless a mark may be torn.
fn check(folder: &Folder, told: &mut Told, is_promised: bool, chance: &mut Chance) -> Result<(), Fault> {
    if !folder.store().join("record").exists() {
        assert_eq!(told.end, 0);
        return Ok(());
    }
    let (cluster, store) = Store::open(folder.store(), NODES, LIMITS)?;
    assert!(!is_promised || store.promise.offset >= told.end, "{:?}, but {} was told", store.promise, told.end);
    for (node, said) in (0..).zip(told.nodes) {
        let (life, epochs) = said_of(&cluster, node)?;
        assert!(said.is_none_or(|it| it.0 < life && it.1 <= epochs), "node {node} was {said:?}, and is {:?}", (life, epochs));
        told.nodes[usize::from(node)] = Some((life, epochs));
    }
    let record = cluster.pass()?.leadership()?;
    let in_sync: Vec<u8> = (0..NODES).filter(|it| record.has_in_sync(*it)).collect();
    let leader = in_sync[chance.below(in_sync.len())];
    let mut pass = lead(&cluster, leader)?;
    replicate_all(&cluster, leader)?;
    for producer in 0..PRODUCERS {
        for _ in 0..2 {
            let receipt = pay(&cluster, &mut pass, |leader| replicate_all(&cluster, leader), (producer, told.paid[producer]))?;
            told.hear_paid(producer, told.paid[producer], receipt.last);
        }
    }
    replicate_all(&cluster, leader)?;
    check_records(&cluster, &mut pass, told)
}

fn check_records(cluster: &Cluster, pass: &mut Pass, told: &Told) -> Result<(), Fault> {
    let log = |node: u8| -> Result<Vec<u8>, Error> {
        let (mut batches, mut bytes) = (cluster.node(node)?.log_from(0, u32::MAX)?, Vec::new());
        while batches.append_to(&mut bytes)? {}
        Ok(bytes)
    };
    let (first, shown) = (log(0)?, given(cluster, pass, 0, 0)?);
    for node in 1..NODES {
        assert!(log(node)? == first, "node {node} has another log");
        assert_eq!(given(cluster, pass, node, 0)?, shown);
    }
    // A consumer was shown all up to where it came, and nothing else.
    let end = told.shown.last_key_value().map_or(0, |it| it.0 + 1);
    let again: BTreeMap<u64, String> = shown.iter().filter(|it| it.0 < end).cloned().collect();
    assert_eq!(again, told.shown);
    let mut fetched = cluster.node(0)?.fetch(pass, 0, u32::MAX, Isolation::ReadUncommitted)?;
    let all: Result<Vec<String>, Error> =
        fetched.batches.records(0).map(|it| Ok(String::from_utf8_lossy(&it?.value.unwrap_or_default()).into_owned())).collect();
    let all = all?;
    for (producer, paid) in told.paid.iter().enumerate() {
        let start = format!("{producer}-");
        let own: Vec<&String> = all.iter().filter(|it| it.starts_with(&start)).collect();
        assert!(
            own.into_iter().cloned().eq((0..*paid).map(|it| value(producer, it))),
            "each payment of {producer} is there once, in order"
        );
        let own: Vec<&String> = shown.iter().map(|it| &it.1).filter(|it| it.starts_with(&start)).collect();
        let wanted = (0..*paid).filter(|it| commits(*it)).map(|it| value(producer, it));
        assert!(own.into_iter().cloned().eq(wanted), "each payment of {producer} that wasn't aborted is shown");
    }
    Ok(())
}

// ---- processes that end

const MODE: &str = "KPART_CHILD";
const PLACE: &str = "KPART_FOLDER";
const TOLD: &str = "KPART_TOLD";

// What a process does that one of these tests has started; in any other one nothing.
#[test]
fn child() -> Result<(), Fault> {
    let (Ok(mode), Ok(folder)) = (std::env::var(MODE), std::env::var(PLACE)) else { return Ok(()) };
    println!(); // behind the test's name
    match mode.as_str() {
        "load" => load(Path::new(&folder)),
        _ => acts(Path::new(&folder)),
    }
}

fn command(mode: &str, folder: &Folder) -> Result<Command, Fault> {
    let mut command = Command::new(std::env::current_exe()?);
    command.args(["child", "--exact", "--nocapture", "--test-threads=1"]);
    command.env(MODE, mode).env(PLACE, folder.store()).stdout(Stdio::piped()).stderr(Stdio::inherit());
    Ok(command)
}

// One thread, so that each time the same calls come in the same order: payments, a leader whose log is cut, a node that stops and comes back,
// checkpoints, and a second opening.
fn acts(folder: &Path) -> Result<(), Fault> {
    let mut next = 0;
    for begin in [0, 8] {
        let (cluster, _) = Store::open(folder, NODES, LIMITS)?;
        let mut pass = lead(&cluster, 0)?;
        replicate_all(&cluster, 0)?;
        tell_nodes(&cluster)?;
        let mut show = |pass: &mut Pass, node| given(&cluster, pass, node, next).map(|it| next = tell_shown(&it).map_or(next, |it| it + 1));
        let paid = |pass: &mut Pass, number: u64| {
            pay(&cluster, pass, |leader| replicate_all(&cluster, leader), (0, begin + number)).map(|it| tell_paid(0, begin + number, &it))
        };
        (0..3).try_for_each(|it| paid(&mut pass, it))?;
        show(&mut pass, 1)?;
        cluster.node(0)?.checkpoint()?;
        diverge(&cluster, &mut pass)?;
        tell_nodes(&cluster)?;
        (3..6).try_for_each(|it| paid(&mut pass, it))?;
        leave_and_join(&cluster, &mut pass, || paid(&mut cluster.pass()?, 6))?;
        tell_nodes(&cluster)?;
        paid(&mut pass, 7)?;
        show(&mut pass, 2)?;
        (0..NODES).try_for_each(|it| cluster.node(it)?.checkpoint().map(drop))?;
    }
    Ok(())
}

// Node 0 has several segments that no other one has, and follows node 1 then.
fn diverge(cluster: &Cluster, pass: &mut Pass) -> Result<(), Error> {
    for number in 0..12 {
        let batch = made::batch(Some((PRODUCERS as u64, number)), &[b"of no payment"]);
        cluster.node(0)?.produce(pass, &batch)?;
    }
    cluster.node(0)?.raise()?;
    pass.elect(1)?;
    (0..NODES).try_for_each(|it| cluster.node(it)?.adopt().map(drop))?;
    replicate_all(cluster, 1)
}

// Node 2 stops and isn't waited for, until it comes back.
fn leave_and_join(cluster: &Cluster, pass: &mut Pass, pays: impl FnOnce() -> Result<(), Error>) -> Result<(), Error> {
    let mut change = |which| {
        let proposal = cluster.node(1)?.alter(which)?;
        let decision = pass.decide(proposal)?;
        cluster.node(1)?.step(decision).map(drop)
    };
    cluster.node(2)?.stop()?;
    change(Change::Leave(2))?;
    pays()?;
    cluster.node(2)?.restart()?;
    cluster.node(2)?.adopt()?;
    replicate_all(cluster, 1)?;
    change(Change::Join(2))
}

const SIGKILL: c_int = 9;

unsafe extern "C" {
    fn kill(process: c_int, signal: c_int) -> c_int;
}

// `tools/lib/kill.c`, which a process loads.
fn killer(folder: &Folder) -> Result<PathBuf, Fault> {
    let source = concat!(env!("CARGO_MANIFEST_DIR"), "/../../tools/lib/kill.c");
    let program = folder.0.join("kill.so");
    let built = Command::new("cc").args(["-O2", "-shared", "-fPIC", source, "-o"]).arg(&program).status()?;
    assert!(built.success(), "{built}");
    Ok(program)
}

#[test]
fn a_process_is_killed_at_each_call() -> Result<(), Fault> {
    let (room, mut chance) = (Folder::new("killer", true), Chance(5));
    let killer = killer(&room)?;
    let mut counts = [0; 3];
    for (count, place) in counts.iter_mut().zip(["before", "behind", "half"]) {
        let mut has_ended = false;
        while !has_ended {
            let (folder, mut told) = (Folder::new("killed", true), Told::default());
            let mut command = command("acts", &folder)?;
            command.env("LD_PRELOAD", &killer).env("KILL_FOLDER", &folder.0);
            let mut child = command.env("KILL_WHERE", place).env("KILL_PLACE", (*count + 1).to_string()).spawn()?;
            told.hear(&mut child)?;
            let ended = child.wait()?;
            has_ended = ended.success();
            assert!(has_ended || ended.signal() == Some(SIGKILL), "{ended}");
            check(&folder, &mut told, place != "half", &mut chance)?;
            assert!(!has_ended || told.paid[0] >= 16, "{told:?}");
            *count += 1;
        }
        *count -= 1;
    }
    println!("killed before each of {} calls, behind each of {}, and half way of each of {} writes", counts[0], counts[1], counts[2]);
    assert!(counts[0] == counts[1] && counts[0] > 500 && counts[2] > 100, "{counts:?}");
    Ok(())
}

// A process under load, which is killed after a time.
fn killed(folder: &Folder, told: &mut Told, time: Duration) -> Result<(), Fault> {
    let mut child = command("load", folder)?.env(TOLD, told.words()).spawn()?;
    let id = child.id() as c_int;
    thread::scope(|scope| {
        scope.spawn(move || {
            thread::sleep(time);
            // SAFETY: nobody has waited for the child yet, so it is the one of that number.
            unsafe { kill(id, SIGKILL) };
        });
        told.hear(&mut child)
    })?;
    let ended = child.wait()?;
    assert!(ended.signal() == Some(SIGKILL), "{ended}");
    Ok(())
}

// As many as KPART_ROUNDS says; each 20 have a folder, of two every other one where a sync costs nothing, so that more comes of it.
#[test]
fn a_process_is_killed_at_any_moment() -> Result<(), Fault> {
    let rounds = std::env::var("KPART_ROUNDS").ok().and_then(|it| it.parse().ok()).unwrap_or(60);
    let (mut chance, mut folder, mut told, mut paid, mut shown) = (Chance(17), Folder::new("killed", true), Told::default(), 0, 0);
    for round in 0..rounds {
        if round % 20 == 0 {
            (folder, told) = (Folder::new("killed", round % 40 == 0), Told::default());
        }
        let before = (told.paid.iter().sum::<u64>(), told.shown.len());
        killed(&folder, &mut told, Duration::from_millis(chance.below(250) as u64))?;
        (paid, shown) = (paid + told.paid.iter().sum::<u64>() - before.0, shown + told.shown.len() - before.1);
        check(&folder, &mut told, true, &mut chance)?;
    }
    println!("{rounds} processes were killed; {paid} payments were acknowledged, and {shown} records shown");
    assert!(rounds < 10 || paid > 0 && shown > 0);
    Ok(())
}

// Producers and a consumer, while nodes are elected, stopped and cut off, until somebody kills this process.
fn load(folder: &Path) -> Result<(), Fault> {
    let told: Vec<u64> = std::env::var(TOLD)?.split(' ').map(|it| it.parse().expect("a number")).collect();
    let (cluster, _) = Store::open(folder, NODES, LIMITS)?;
    let workers = Workers::start(&cluster, EVERY)?;
    thread::scope(|scope| {
        for (producer, next) in told[..PRODUCERS].iter().copied().enumerate() {
            let (cluster, workers) = (&cluster, &workers);
            scope.spawn(move || goes_on(produce(cluster, workers, producer, next)));
        }
        scope.spawn(|| goes_on(consume(&cluster, told[PRODUCERS])));
        goes_on(disturb(&cluster, &workers));
    });
    Ok(())
}

// A thread that doesn't go on ends the process, by another signal than it is killed by.
fn goes_on(done: Result<(), Error>) {
    eprintln!("it has ended: {done:?}");
    std::process::abort();
}

fn produce(cluster: &Cluster, workers: &Workers, producer: usize, first: u64) -> Result<(), Error> {
    let mut pass = cluster.pass()?;
    for number in first.. {
        let receipt = pay(cluster, &mut pass, |leader| workers.replicate(leader), (producer, number))?;
        tell_paid(producer, number, &receipt);
    }
    Ok(())
}

// Of the nodes by turns.
fn consume(cluster: &Cluster, mut next: u64) -> Result<(), Error> {
    let mut pass = cluster.pass()?;
    for node in (0..NODES).cycle() {
        match given(cluster, &mut pass, node, next) {
            Ok(records) => next = tell_shown(&records).map_or(next, |it| it + 1),
            Err(Error::Refused(Refusal::Down | Refusal::OffsetOutOfRange)) => {}
            Err(error) => return Err(error),
        }
        thread::sleep(Duration::from_millis(2));
    }
    Ok(())
}

fn disturb(cluster: &Cluster, workers: &Workers) -> Result<(), Error> {
    let (mut pass, start) = (cluster.pass()?, Instant::now());
    let mut chance = Chance(u64::from(std::process::id()) << 20 | 1);
    let pause = Duration::from_millis([1, 5, 25][chance.below(3)]);
    loop {
        let (node, other) = (chance.below(3) as u8, chance.below(3) as u8);
        let record = pass.leadership()?;
        let leader = record.leader.map_or(node, |it| it.0);
        match chance.below(8) {
            0..3 => drop(pass.elect(node)),
            3 => {
                let _stopped = cluster.node(node)?.stop();
                workers.propose(leader, Change::Leave(node));
                thread::sleep(Duration::from_millis(2));
                let _started = cluster.node(node)?.restart();
            }
            4 => workers.propose(leader, Change::Leave(node)),
            5 => {
                workers.link(Place::Node(node), Place::Node(other), Link::Cut);
                thread::sleep(Duration::from_millis(3));
                workers.link(Place::Node(node), Place::Node(other), Link::Up);
            }
            _ => workers.propose(leader, Change::Join(node)),
        }
        // A leader that was restarted has to be elected anew.
        if cluster.node(leader)?.show()?.status == Status::Idle {
            let _elected = pass.elect(leader);
        }
        tell_nodes(cluster)?;
        assert!(start.elapsed() < LONG, "nobody has killed it");
        thread::sleep(pause);
    }
}
