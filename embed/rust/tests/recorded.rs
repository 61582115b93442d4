//! Runs that are recorded: played again each line is answered as it was then.

mod made;
mod player;

use kpart::{
    Batch, Change, Cluster, Error, Isolation, Limits, Link, Marker, Message, Pass, Place, Recorder, RecorderFault, Refusal, Workers,
};
use std::path::{Path, PathBuf};
use std::sync::atomic::{AtomicBool, AtomicU64, Ordering};
use std::thread;
use std::time::Duration;

type Done = Result<(), Box<dyn std::error::Error>>;

// A script in a folder of its own, which goes with it.
struct Room {
    folder: PathBuf,
    script: PathBuf,
}

impl Room {
    fn new() -> Result<Room, std::io::Error> {
        static COUNT: AtomicU64 = AtomicU64::new(0);
        let number = COUNT.fetch_add(1, Ordering::Relaxed);
        let folder = std::env::temp_dir().join(format!("kpart-recorded-{}-{number}", std::process::id()));
        std::fs::create_dir_all(&folder)?;
        Ok(Room { script: folder.join("run.script"), folder })
    }

    fn open(&self, nodes: u8) -> Result<(Cluster, Recorder), RecorderFault> {
        Recorder::open(&self.script, nodes, Limits::default())
    }

    // Both files, without the bytes of batches.
    fn texts(&self) -> Result<(String, String), std::io::Error> {
        let script = std::fs::read_to_string(&self.script)?;
        let shown = script.lines().map(|line| match line.split_once("raw ") {
            Some((before, batch)) => format!("{before}raw {} ..\n", &batch[..1]),
            None => format!("{line}\n"),
        });
        Ok((shown.collect(), std::fs::read_to_string(Recorder::answers_of(&self.script))?))
    }
}

impl Drop for Room {
    fn drop(&mut self) {
        // KPART_SCRIPTS keeps what a test has written.
        if std::env::var_os("KPART_SCRIPTS").is_none() {
            let _gone = std::fs::remove_dir_all(&self.folder);
        }
    }
}

fn one(value: &str) -> Vec<u8> {
    made::batch(None, &[value.as_bytes()])
}

fn step(cluster: &Cluster, node: u8, message: Message) -> Result<Option<Message>, Error> {
    cluster.node(node)?.step(message)
}

fn answer(cluster: &Cluster, node: u8, message: Message) -> Result<Message, Error> {
    Ok(step(cluster, node, message)?.expect("an answer"))
}

// A batch is committed on two nodes; then node 0 takes one that is lost, as node 1 is elected.
fn failover(cluster: &Cluster, pass: &mut Pass) -> Result<(), Error> {
    pass.elect(0)?;
    (0..2).try_for_each(|it| cluster.node(it)?.adopt().map(drop))?;
    cluster.node(0)?.produce(pass, &one("a"))?;
    for _ in 0..2 {
        let request = cluster.node(1)?.ask()?;
        let batches = answer(cluster, 0, request)?;
        assert!(step(cluster, 1, batches)?.is_none());
        cluster.node(0)?.raise()?;
    }
    cluster.node(0)?.produce(pass, &one("lost"))?;
    pass.elect(1)?;
    assert_eq!(cluster.node(0)?.adopt()?, kpart::Role::Follows { leader: 1, epoch: 1 });
    cluster.node(1)?.adopt()?;
    let request = cluster.node(0)?.ask()?;
    let diverging = answer(cluster, 1, request)?;
    assert!(step(cluster, 0, diverging)?.is_none());
    Ok(())
}

#[test]
fn a_failover_is_a_script() -> Done {
    let room = Room::new()?;
    let (cluster, recorder) = room.open(2)?;
    failover(&cluster, &mut cluster.pass()?)?;
    let recorded = recorder.flush()?;
    let (script, answers) = room.texts()?;
    let wanted = "nodes 2 segment 1073741824 interval 4096\nelect 0\nadopt 0\nadopt 1\nraw 0 ..\n\
        ask 1\ndeliver 0\ndeliver 1\nraise 0\nask 1\ndeliver 2\ndeliver 3\nraise 0\nraw 0 ..\n\
        elect 1\nadopt 0\nadopt 1\nask 0\ndeliver 4\n";
    assert!(script.starts_with(wanted), "{script}");
    let told = "2 record leader 0 epoch 0 isr 0,1 version 1\n3 leads epoch 0 from 0\n4 follows 0 epoch 0\n5 at 0\n\
        6 sent 0 asks from 0 no epoch\n7 sent 1 batches 1 mark 0\n8 end 1 mark 0\n9 mark 0\n\
        10 sent 2 asks from 1 epoch 0\n11 sent 3 batches 0 mark 0\n12 end 1 mark 0\n13 mark 1\n14 at 1\n\
        15 record leader 1 epoch 1 isr 0,1 version 2\n16 follows 1 epoch 1\n17 leads epoch 1 from 1\n\
        18 sent 4 asks from 2 epoch 0\n19 sent 5 diverges epoch 0 end 1\n";
    assert!(answers.starts_with(told), "{answers}");
    assert_eq!((recorded.events, recorded.messages), (19, 6));
    assert!(script.ends_with("deliver 4\ndeliver 5\n") && answers.ends_with("20 cut 1\n"));
    assert_eq!(player::check(&room.script)?.0, 19);
    Ok(())
}

// What `all_calls` is as a script, with the answers.
const ALL_CALLS: &str = "\
nodes 2 segment 1073741824 interval 4096
adopt 0 -> F22 StaleRecord
elect 0 -> record leader 0 epoch 0 isr 0,1 version 1
adopt 0 -> leads epoch 0 from 0
raw 0 .. -> F1 Truncated
raw 0 .. -> F3 BadLength
raw 1 .. -> F15 NotLeader
raw 0 .. -> at 0
raw 0 .. -> duplicate 0
raw 1 .. -> F15 NotLeader
raw 0 .. -> F1 Truncated
leave 0 1 -> sent 0 proposes isr 0 version 1
join 0 1 -> F34 ChangePending
deliver 0 -> sent 1 record leader 0 epoch 0 isr 0 version 2
deliver 1 -> isr 0 version 2
deliver 0 -> sent 2 record leader 0 epoch 0 isr 0 version 2
deliver 2 -> F29 StaleAnswer
raise 0 -> mark 2
show 0 -> node 0 life 0 end 2 mark 2 stable 0
mark 0 2000 7 0 3 commit -> at 2
mark 0 2000 7 0 2 commit -> F14 CoordinatorFenced
raise 0 -> mark 3
show 0 -> node 0 life 0 end 3 mark 3 stable 3
committed 0 4 -> F16 OffsetOutOfRange
committed 0 1 -> read 1 1=79
elect 1 -> F21 NotInSync
checkpoint 0 -> checkpoint 3
stop 0 -> stopped
raise 0 -> F28 Down
restart 0 -> life 1 end 3 mark 3
restart 0 -> F28 Down
adopt 0 -> F22 StaleRecord
";

// In-sync changes, a transaction, fetches, a restart, and calls that are refused.
fn all_calls(cluster: &Cluster, pass: &mut Pass) -> Result<(), Error> {
    let refused = |error: Option<Error>, wanted: Refusal| assert_eq!(error, Some(wanted.into()));
    refused(cluster.node(0)?.adopt().err(), Refusal::StaleRecord);
    pass.elect(0)?;
    cluster.node(0)?.adopt()?;
    refused(cluster.node(0)?.produce(pass, &[]).err(), Refusal::Truncated);
    refused(cluster.node(0)?.produce(pass, &[one("a"), vec![0]].concat()).err(), Refusal::BadLength);
    refused(cluster.node(1)?.produce(pass, &one("a")).err(), Refusal::NotLeader);
    let mut batch = Batch::new(&made::transactional((7, 0), &[b"x", b"y"]))?;
    assert!(!cluster.node(0)?.produce_batch(pass, &mut batch)?.duplicate);
    assert!(cluster.node(0)?.produce_batch(pass, &mut batch)?.duplicate);
    refused(cluster.node(1)?.produce_batch(pass, &mut batch).err(), Refusal::NotLeader);
    batch.set(&one("surplus")[1..])?;
    refused(cluster.node(0)?.produce_batch(pass, &mut batch).err(), Refusal::Truncated);
    let mut proposal = cluster.node(0)?.alter(Change::Leave(1))?;
    refused(cluster.node(0)?.alter(Change::Join(1)).err(), Refusal::ChangePending);
    let again = proposal.repeat(pass)?;
    for proposal in [proposal, again] {
        let decision = pass.decide(proposal)?;
        let _learned = step(cluster, 0, decision); // the second one is no news
    }
    cluster.node(0)?.raise()?;
    let marker = Marker { producer_id: 7, producer_epoch: 0, coordinator_epoch: 3, timestamp: 2_000, commits: true };
    assert_eq!(cluster.node(0)?.fetch(pass, 0, 1, Isolation::ReadCommitted)?.stable, 0);
    cluster.node(0)?.mark(pass, &marker)?;
    refused(cluster.node(0)?.mark(pass, &Marker { coordinator_epoch: 2, ..marker }).err(), Refusal::CoordinatorFenced);
    cluster.node(0)?.raise()?;
    assert_eq!(cluster.node(0)?.fetch(pass, 0, 1, Isolation::ReadUncommitted)?.stable, 3);
    refused(cluster.node(0)?.fetch(pass, 4, 1, Isolation::ReadCommitted).err(), Refusal::OffsetOutOfRange);
    assert_eq!(cluster.node(0)?.read_committed(pass, 1)?.len(), 1);
    refused(pass.elect(1).err(), Refusal::NotInSync);
    cluster.node(0)?.checkpoint()?;
    cluster.node(0)?.stop()?;
    refused(cluster.node(0)?.raise().err(), Refusal::Down);
    cluster.node(0)?.restart()?;
    refused(cluster.node(0)?.restart().err(), Refusal::Down);
    refused(cluster.node(0)?.adopt().err(), Refusal::StaleRecord);
    assert_eq!(cluster.node(0)?.mark(pass, &Marker { timestamp: 1 << 62, ..marker }).err(), Some(Error::OutOfRange));
    Ok(())
}

#[test]
fn each_call_has_its_line() -> Done {
    let room = Room::new()?;
    let (cluster, recorder) = room.open(2)?;
    all_calls(&cluster, &mut cluster.pass()?)?;
    let recorded = recorder.stop()?;
    let (script, answers) = room.texts()?;
    let mut lines = script.lines().zip([""].into_iter().chain(answers.lines()));
    for (number, wanted) in (1..).zip(ALL_CALLS.lines()) {
        let (line, told) = wanted.split_once(" -> ").unwrap_or((wanted, ""));
        let told = if number == 1 { String::new() } else { format!("{number} {told}") };
        assert_eq!(lines.next(), Some((line, told.as_str())));
    }
    assert_eq!(lines.next(), None);
    assert_eq!(player::check(&room.script)?.0 as u64, recorded.events);
    Ok(())
}

#[test]
fn what_no_line_says_ends_the_record() -> Done {
    let room = Room::new()?;
    let (cluster, recorder) = room.open(3)?;
    let mut pass = cluster.pass()?;
    failover(&cluster, &mut pass)?;
    cluster.node(2)?.adopt()?;
    let events = recorder.flush()?.events;
    // Refused by whom it isn't for: a comment, and the record goes on.
    let request = cluster.node(2)?.ask()?;
    assert_eq!(step(&cluster, 0, request).err(), Some(Refusal::NotLeader.into()));
    let proposal = cluster.node(1)?.alter(Change::Leave(2))?;
    assert_eq!(step(&cluster, 1, proposal).err(), Some(Refusal::StaleAnswer.into()));
    let request = cluster.node(2)?.ask()?;
    assert_eq!(pass.decide(request).err(), Some(Refusal::StaleAnswer.into()));
    assert_eq!(recorder.flush()?.events, events + 3);
    // Taken by whom it isn't for: node 2 has just what node 0 had, so the answer to that is one to it.
    let request = cluster.node(2)?.ask()?;
    let batches = answer(&cluster, 1, request)?;
    assert!(step(&cluster, 2, batches)?.is_none());
    let request = cluster.node(0)?.ask()?;
    let batches = answer(&cluster, 1, request)?;
    assert!(step(&cluster, 2, batches)?.is_none());
    assert!(matches!(recorder.flush(), Err(RecorderFault::NoLine(why)) if why.contains("somebody else")));
    let (script, _) = room.texts()?;
    assert_eq!(script.matches("# left out, the message is for somebody else: deliver").count(), 3);
    assert!(script.ends_with("# the record ends: a node took a message that is for somebody else\n"), "{script}");
    player::check(&room.script)?;
    drop(recorder);
    let _written = cluster.node(1)?.produce(&mut pass, &one("later"));
    assert_eq!(room.texts()?.0, script);
    Ok(())
}

#[test]
fn files_and_limits_that_are_refused() -> Done {
    let room = Room::new()?;
    for (nodes, limits) in [
        (0, Limits::default()),
        (8, Limits::default()),
        (1, Limits { max_batch: 1_048_588, ..Limits::default() }),
        (1, Limits { segment_bytes: 1_023, ..Limits::default() }),
        (1, Limits { index_interval: 1_048_577, ..Limits::default() }),
    ] {
        assert_eq!(Recorder::open(&room.script, nodes, limits).err(), Some(RecorderFault::Limits));
    }
    let (_cluster, _recorder) = room.open(1)?;
    let fault = room.open(1).expect_err("the file is there");
    assert!(matches!(&fault, RecorderFault::File { path, kind: std::io::ErrorKind::AlreadyExists, .. } if *path == room.script));
    let nowhere = room.folder.join("nowhere").join("run.script");
    assert!(matches!(Recorder::open(&nowhere, 1, Limits::default()), Err(RecorderFault::File { .. })));
    Ok(())
}

#[test]
fn long_lines_are_those_of_scripts() -> Done {
    const BATCHES: usize = 5;
    let room = Room::new()?;
    let (cluster, recorder) = room.open(1)?;
    let mut pass = cluster.pass()?;
    pass.elect(0)?;
    cluster.node(0)?.adopt()?;
    let big = vec![b'x'; 1_000_000];
    let mut batch = Batch::new(&made::batch(None, &[&big]))?;
    for count in 0..BATCHES {
        assert_eq!(cluster.node(0)?.produce_batch(&mut pass, &mut batch)?.base, count as u64);
    }
    // One above the greatest is refused by its first bytes.
    let most = vec![b'x'; 1_100_000];
    assert_eq!(cluster.node(0)?.produce(&mut pass, &made::batch(None, &[&most])).err(), Some(Refusal::TooLarge.into()));
    let surplus = [made::batch(None, &[&big]), most].concat();
    assert_eq!(cluster.node(0)?.produce(&mut pass, &surplus).err(), Some(Refusal::BadLength.into()));
    assert_eq!(recorder.stop()?.events, 2 + BATCHES as u64 + 2);
    let script = std::fs::read_to_string(&room.script)?;
    assert!(script.lines().all(|it| it.len() <= 2_100_000));
    assert_eq!(player::check(&room.script)?.0, 2 + BATCHES + 2);
    Ok(())
}

// Calls so often, and counts that it has ended.
fn many<'a>(times: u32, left: &'a AtomicU64, mut call: impl FnMut() + Send + 'a) -> impl FnOnce() + Send + 'a {
    move || {
        (0..times).for_each(|_| call());
        left.fetch_sub(1, Ordering::Relaxed);
    }
}

// One thread elects, one takes up the record, one has its node cut its log again and again: what each is answered says which record it saw.
fn race(room: &Room, tries: u32) -> Result<(Cluster, u64), Box<dyn std::error::Error>> {
    let (cluster, recorder) = room.open(3)?;
    let mut pass = cluster.pass()?;
    failover(&cluster, &mut pass)?;
    cluster.node(1)?.produce(&mut pass, &one("more"))?;
    pass.elect(0)?;
    cluster.node(0)?.adopt()?;
    cluster.node(0)?.produce(&mut pass, &one("goes"))?;
    pass.elect(1)?;
    (0..2).try_for_each(|it| cluster.node(it)?.adopt().map(drop))?;
    let request = cluster.node(0)?.ask()?;
    let mut diverging = answer(&cluster, 1, request)?;
    assert!(matches!(diverging.said()?, kpart::Said::Diverging(_)));
    let left = AtomicU64::new(3);
    thread::scope(|scope| {
        for node in [0, 2] {
            let cluster = &cluster;
            scope.spawn(many(tries, &left, move || {
                let _adopted = cluster.node(node).and_then(|mut it| it.adopt());
            }));
        }
        let (cluster, diverging, mut repeats) = (&cluster, &mut diverging, cluster.pass().expect("a pass"));
        scope.spawn(many(tries, &left, move || {
            let _cut = step(cluster, 0, diverging.repeat(&mut repeats).expect("memory"));
        }));
        let mut next = 0;
        while left.load(Ordering::Relaxed) > 0 {
            next = 3 - next.max(1);
            pass.elect(next).expect("it is in sync");
            (0..500).for_each(|_| std::hint::spin_loop());
        }
    });
    Ok((cluster, recorder.stop()?.events))
}

// Rounds, until each answer has come that depends on the record: how many come is up to the threads.
#[test]
fn who_saw_which_record() -> Done {
    const WANTED: [&str; 4] = [" follows 1 ", " follows 2 ", " F22 StaleRecord", " F29 StaleAnswer"];
    let (mut told, mut rounds) = (String::new(), 0);
    while rounds < 4 || WANTED.iter().any(|it| told.matches(it).count() < 20) {
        let room = Room::new()?;
        let (cluster, events) = race(&room, 4_000)?;
        assert_eq!(check_both(&room.script, &cluster)? as u64, events);
        told += &room.texts()?.1;
        rounds += 1;
        assert!(rounds < 200, "{:?}", WANTED.map(|it| told.matches(it).count()));
    }
    Ok(())
}

// ---- loads

const NODES: u8 = 3;

struct Load {
    cluster: Cluster,
    workers: Workers,
    ends: AtomicBool,
}

impl Load {
    // Hands batches in at whoever leads, also such as are refused; some of a transaction, which is ended.
    fn produce(&self, producer: u64) -> Result<(), Error> {
        let (mut pass, mut sequence, mut batch) = (self.cluster.pass()?, 0, Batch::new(&[])?);
        while !self.ends.load(Ordering::Relaxed) {
            let Some((leader, _)) = pass.leadership()?.leader else { continue };
            batch.set(&made::batch(Some((producer, sequence)), &[&sequence.to_be_bytes()]))?;
            let taken = self.cluster.node(leader)?.produce_batch(&mut pass, &mut batch);
            sequence += i32::from(taken.is_ok());
            self.workers.replicate(leader)?;
            if sequence % 8 == 0 {
                let fields = Marker { producer_id: producer + 100, producer_epoch: 0, coordinator_epoch: 0, timestamp: 1, commits: true };
                let _ended = self.cluster.node(leader)?.mark(&mut pass, &fields);
                let _fetched = self.cluster.node(leader)?.fetch(&mut pass, 0, 1_000, Isolation::ReadCommitted);
            }
            thread::sleep(Duration::from_micros(300));
        }
        Ok(())
    }

    // Elects, stops and starts nodes, and has others leave and join, so many times.
    fn move_leaders(&self, moves: u32, seed: u32) -> Result<(), Error> {
        let mut pass = self.cluster.pass()?;
        for step in 0..moves {
            let node = ((step + seed) % 3) as u8;
            match (step + seed) % 4 {
                0 => drop(self.cluster.node(node)?.stop()),
                1 => drop((0..NODES).map(|it| self.cluster.node(it)?.restart()).collect::<Vec<_>>()),
                _ => drop(pass.elect(node)),
            }
            let leader = pass.leadership()?.leader.map_or(0, |it| it.0);
            self.workers.propose(leader, if step % 2 == 0 { Change::Leave(node) } else { Change::Join(node) });
            thread::sleep(Duration::from_millis(3));
        }
        Ok(())
    }
}

// A load over links of all kinds, with leaders that move: how many events it has.
fn load(room: &Room, moves: u32, seed: u32) -> Result<usize, Box<dyn std::error::Error>> {
    let (cluster, recorder) = room.open(NODES)?;
    cluster.pass()?.elect((seed % 3) as u8)?;
    let workers = Workers::start_seeded(&cluster, Duration::from_micros(500), seed.into(), |_event| {})?;
    let (a, b, c) = (Place::Node(0), Place::Node(1), Place::Node(2));
    let kinds = [Link::Doubling { one_in: 3 }, Link::Lossy { one_in: 4 }, Link::Delayed(Duration::from_millis(1)), Link::Up];
    for (at, (from, to)) in [(a, b), (b, a), (a, c), (c, b), (b, Place::Controller), (Place::Controller, c)].into_iter().enumerate() {
        workers.link(from, to, kinds[(at + seed as usize) % kinds.len()]);
    }
    let load = Load { cluster, workers, ends: AtomicBool::new(false) };
    thread::scope(|scope| {
        let producing: Vec<_> = (0..2)
            .map(|it| {
                scope.spawn({
                    let load = &load;
                    move || load.produce(it)
                })
            })
            .collect();
        let moved = load.move_leaders(moves, seed);
        load.ends.store(true, Ordering::Relaxed);
        producing.into_iter().try_for_each(|it| it.join().expect("no panic"))?;
        moved
    })?;
    let Load { cluster, workers, .. } = load;
    workers.stop();
    for node in 0..NODES {
        let _read = cluster.node(node)?.read_committed(&mut cluster.pass()?, 0);
    }
    let events = recorder.stop()?.events as usize;
    let played = check_both(&room.script, &cluster)?;
    if played == events { Ok(events) } else { Err(format!("{played} events, not {events}").into()) }
}

// What a node has: its state, what it knows as a leader, its log byte by byte.
fn left(cluster: &Cluster, node: u8) -> Result<String, Error> {
    let mut node = cluster.node(node)?;
    let mut batches = node.log_from(0, u32::MAX)?;
    let mut log = Vec::new();
    while batches.append_to(&mut log)? {}
    Ok(format!("{:?} {:?} {log:?}", node.show()?, node.known()))
}

// By the library, which has to leave what the run has left; and by the program that KPART names, where it names one.
fn check_both(script: &Path, cluster: &Cluster) -> Result<usize, Box<dyn std::error::Error>> {
    let (count, player) = player::check(script)?;
    for node in 0..cluster.nodes() {
        if left(cluster, node)? != left(&player.cluster, node)? {
            return Err(format!("{}: node {node} is another one", script.display()).into());
        }
    }
    if let Some(program) = std::env::var_os("KPART") {
        let ran = std::process::Command::new(program).arg("run").arg(script).output()?;
        if ran.stdout != std::fs::read(Recorder::answers_of(script))? {
            return Err(format!("{}: the program answers otherwise", script.display()).into());
        }
    }
    Ok(count)
}

#[test]
fn loads_with_failovers_are_played_again() -> Done {
    // KPART_LOADS says how many.
    let loads = std::env::var("KPART_LOADS").ok().and_then(|it| it.parse().ok()).unwrap_or(6);
    let (mut events, mut lines) = (0, String::new());
    for seed in 0..loads {
        let room = Room::new()?;
        events += load(&room, 20, seed)?;
        lines += &room.texts()?.1;
    }
    println!("{loads} loads, {events} events");
    for kind in ["leads epoch", "follows", "cut ", "diverges", "record leader", "proposes", "stopped", "life 1", "at ", "F15", "F22", "F28"]
    {
        assert!(lines.contains(kind), "no '{kind}' in {loads} loads");
    }
    Ok(())
}
