//! Times opening a folder in which a log is kept, and acknowledging batches that are kept there, beside plain Rust.
//!
//!     store FOLDER BATCHES ROUNDS RUNS          the table
//!     store make FOLDER BATCHES                 makes the log that is opened, for a profile
//!     store one opened SIDE FOLDER              nanoseconds of the clock for opening the log that lies there, and how many batches it has
//!     store one taken SIDE FOLDER               the same, where plain Rust has a node take each batch
//!     store one acked SIDE FOLDER NODES ROUNDS  nanoseconds for a batch that is acknowledged, and how many were
//!
//! SIDE is 0 for the library's `Store`, 1 for plain Rust. That reads the log's files whole, and sums each batch (CRC-32C, by tables as the
//! library does); or has a node (`../nodes/node.rs`) take each, which reads and sums it, and builds a log's tables. Of batches that are
//! acknowledged it appends the bytes to as many files as there are nodes, one behind another, and syncs each. Batches have one record of 100
//! bytes. A node's own log is on the disk before it answers a request or raises its high watermark, and a follower's before it asks for what
//! comes next: one sync of each file for a batch on either side. Each run of a side is a process of its own.

#![allow(dead_code)]

#[path = "../shared/alone.rs"]
mod alone;
#[path = "../plain/decoder.rs"]
mod decoder;
#[path = "../plain/encoder.rs"]
mod encoder;
#[path = "../plain/log.rs"]
mod log;
#[path = "../nodes/node.rs"]
mod node;
#[path = "../shared/pairs.rs"]
mod pairs;
#[path = "../plain/record.rs"]
mod record;
#[path = "../plain/segments.rs"]
mod segments;
#[path = "../plain/senders.rs"]
mod senders;
#[path = "../plain/spelling.rs"]
mod spelling;

use kpart::{Ack, Cluster, Error, Limits, Pass, Store};
use node::Node;
use pairs::Pairs;
use std::cell::Cell;
use std::fs::{self, File, OpenOptions};
use std::io::Write;
use std::path::Path;
use std::sync::Arc;
use std::time::Instant;

const SIZE: usize = 100;
const AT_ONCE: u64 = 10_000;
const NODES: [u8; 2] = [2, 3];

type Fault = Box<dyn std::error::Error>;

fn lead(cluster: &Cluster) -> Result<Pass, Error> {
    let mut pass = cluster.pass()?;
    pass.elect(0)?;
    (0..cluster.nodes()).try_for_each(|it| cluster.node(it)?.adopt().map(drop))?;
    Ok(pass)
}

// A log of so many batches, of one node.
fn make(folder: &Path, batches: u64) -> Result<(), Fault> {
    let (cluster, _) = Store::open(folder, 1, Limits::default())?;
    let (mut pass, bytes) = (lead(&cluster)?, encoder::batch(1_000, 1, SIZE, 0, false));
    let mut node = cluster.node(0)?;
    for number in 1..=batches {
        node.produce(&mut pass, &bytes)?;
        if number % AT_ONCE == 0 || number == batches {
            node.raise()?;
        }
    }
    node.checkpoint()?;
    Ok(())
}

fn open_library(folder: &Path) -> Result<(u128, u64), Fault> {
    let began = Instant::now();
    let (cluster, _) = Store::open(folder, 1, Limits::default())?;
    let spent = began.elapsed().as_nanos();
    Ok((spent, cluster.node(0)?.show()?.end))
}

// How many batches the bytes are; each is given to `took`.
fn parted(bytes: &[u8], mut took: impl FnMut(&[u8])) -> u64 {
    let (mut rest, mut count) = (bytes, 0);
    while let Some(length) = rest.get(8..12) {
        let (batch, behind) = rest.split_at(12 + u32::from_be_bytes(length.try_into().expect("four bytes")) as usize);
        took(batch);
        (rest, count) = (behind, count + 1);
    }
    count
}

fn read_plain(folder: &Path, mut took: impl FnMut(&[u8])) -> Result<(u128, u64), Fault> {
    let began = Instant::now();
    let mut count = 0;
    for entry in fs::read_dir(folder.join("node-0"))? {
        let path = entry?.path();
        if path.extension().is_some_and(|it| it == "log") {
            count += parted(&fs::read(path)?, &mut took);
        }
    }
    Ok((began.elapsed().as_nanos(), count))
}

fn open_plain(folder: &Path) -> Result<(u128, u64), Fault> {
    read_plain(folder, |batch| assert_eq!(decoder::crc32c(&batch[21..]).to_be_bytes(), batch[17..21]))
}

fn take_plain(folder: &Path) -> Result<(u128, u64), Fault> {
    let node = Node::new(0, 1);
    read_plain(folder, |batch| assert!(node.produce(Arc::from(batch)).is_ok()))
}

// The leader takes a batch, each follower asks, takes it, and asks again; the leader raises, and the batch is acknowledged.
fn round(cluster: &Cluster, pass: &mut Pass, bytes: &[u8]) -> Result<Ack, Error> {
    let receipt = cluster.node(0)?.produce(pass, bytes)?;
    for follower in 1..cluster.nodes() {
        let request = cluster.node(follower)?.ask()?;
        let answer = cluster.node(0)?.step(request)?.expect("a leader answers");
        cluster.node(follower)?.step(answer)?;
        let report = cluster.node(follower)?.ask()?;
        cluster.node(0)?.step(report)?;
    }
    let mut leader = cluster.node(0)?;
    leader.raise()?;
    leader.acked(pass, &receipt)
}

fn ack_library(folder: &Path, nodes: u8, rounds: u64) -> Result<(u128, u64), Fault> {
    let (cluster, _) = Store::open(folder, nodes, Limits::default())?;
    let (mut pass, bytes, mut acked) = (lead(&cluster)?, encoder::batch(1_000, 1, SIZE, 0, false), 0);
    round(&cluster, &mut pass, &bytes)?; // its segment is made
    let began = Instant::now();
    for _ in 0..rounds {
        acked += u64::from(round(&cluster, &mut pass, &bytes)? == Ack::Yes);
    }
    Ok((began.elapsed().as_nanos() / u128::from(rounds), acked))
}

fn ack_plain(folder: &Path, nodes: u8, rounds: u64) -> Result<(u128, u64), Fault> {
    fs::create_dir(folder)?;
    let bytes = encoder::batch(1_000, 1, SIZE, 0, false);
    let opened = (0..nodes).map(|it| OpenOptions::new().append(true).create(true).open(folder.join(it.to_string())));
    let mut files: Vec<File> = opened.collect::<Result<_, _>>()?;
    let mut append = || {
        files.iter_mut().try_for_each(|file| {
            file.write_all(&bytes)?;
            file.sync_data()
        })
    };
    append()?;
    let began = Instant::now();
    for _ in 0..rounds {
        append()?;
    }
    Ok((began.elapsed().as_nanos() / u128::from(rounds), rounds))
}

fn run_one(words: &[String]) -> Result<(), Fault> {
    let (job, side, folder) = (words[0].as_str(), words[1].as_str(), Path::new(&words[2]));
    let (spent, count) = match (job, side) {
        ("opened" | "taken", "0") => open_library(folder)?,
        ("opened", _) => open_plain(folder)?,
        ("taken", _) => take_plain(folder)?,
        (_, side) => {
            let (folder, nodes, rounds) = (folder.join("acked"), words[3].parse()?, words[4].parse()?);
            let done = if side == "0" { ack_library(&folder, nodes, rounds) } else { ack_plain(&folder, nodes, rounds) };
            fs::remove_dir_all(folder)?;
            done?
        }
    };
    println!("{spent}\n{count}");
    Ok(())
}

// Both sides by turns. What they count has to be the same.
fn timed(runs: usize, words: impl Fn(usize) -> Vec<String>) -> Pairs<1> {
    let (mut pairs, wanted) = (Pairs::new(), Cell::new(None));
    for _ in 0..runs {
        pairs.run(|side| {
            let words = words(side);
            let words: Vec<&dyn ToString> = words.iter().map(|it| it as &dyn ToString).collect();
            let found: Vec<u64> = alone::numbers(&words);
            assert_eq!(*wanted.get().get_or_insert(found[1]), found[1], "the counts differ");
            wanted.set(Some(found[1]));
            [found[0] as f64]
        });
    }
    pairs
}

fn print(name: &str, pairs: &Pairs<1>, unit: f64) {
    let [library, rust] = pairs.least(0).map(|it| it / unit);
    println!("{name:<48}  {library:>9.2}  {rust:>9.2}  {:>6.2}", pairs.ratio(0));
}

fn table(folder: &Path, batches: u64, rounds: u64, runs: usize) -> Result<(), Fault> {
    let opened = folder.join("opened");
    make(&opened, batches)?;
    println!("job                                                 library       rust   ratio   (of the clock)");
    let words = |job: &str, side: usize, folder: &Path| vec![job.to_string(), side.to_string(), folder.display().to_string()];
    for (job, name) in [("opened", "read and summed"), ("taken", "taken by a node")] {
        let pairs = timed(runs, |side| words(job, side, &opened));
        print(&format!("{batches} batches opened; {name}, s"), &pairs, 1e9);
    }
    fs::remove_dir_all(&opened)?;
    for nodes in NODES {
        let pairs = timed(runs, |side| [words("acked", side, folder), vec![nodes.to_string(), rounds.to_string()]].concat());
        print(&format!("acknowledged on {nodes} nodes, µs a batch"), &pairs, 1e3);
    }
    Ok(())
}

fn main() -> Result<(), Fault> {
    let words: Vec<String> = std::env::args().skip(1).collect();
    match &words[..] {
        [one, words @ ..] if one == "one" => run_one(words),
        [make_one, folder, batches] if make_one == "make" => make(Path::new(folder), batches.parse()?),
        [folder, batches, rounds, runs] => table(Path::new(folder), batches.parse()?, rounds.parse()?, runs.parse()?),
        _ => Err("store FOLDER BATCHES ROUNDS RUNS".into()),
    }
}
