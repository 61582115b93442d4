//! Times producing and reading through the library's C functions (`embed/kpart.h`), beside a node of plain Rust (`../nodes/node.rs`).
//!
//!     embed MIB RUNS                    the table: batches of 100 bytes and of 16 KiB, by one thread and by four
//!     embed one SIDE BYTES THREADS MIB  nanoseconds of the clock for producing, reading and fetching a batch, and a sum of what was read
//!
//! SIDE is 0 for the library, 1 for plain Rust. All threads share one node, which is alone in sync. Each produces its share of the
//! batches from bytes of its own, which the node copies; the last one raises the high watermark. Then each reads the whole log in pieces
//! of at most 1 MiB, and copies each batch into a buffer, with what the leader has stamped; and once more as a read-committed consumer's fetch,
//! with high watermark, last stable offset, log end and the aborted transactions of each piece. Each run of a side is a process of its own.

#![allow(dead_code)]

#[path = "../shared/alone.rs"]
mod alone;
#[path = "../plain/decoder.rs"]
mod decoder;
#[path = "../plain/encoder.rs"]
mod encoder;
mod library;
#[path = "../plain/log.rs"]
mod log;
#[path = "../nodes/node.rs"]
mod node;
#[path = "../shared/pairs.rs"]
mod pairs;
#[path = "../plain/record.rs"]
mod record;
#[path = "../plain/segments.rs"]
mod segments;
#[path = "../plain/senders.rs"]
mod senders;
#[path = "../plain/spelling.rs"]
mod spelling;

use library::Library;
use node::Node;
use pairs::Pairs;
use std::sync::{Arc, Barrier};
use std::thread;
use std::time::Instant;

const SIZES: [usize; 2] = [100, 16_384];
const THREADS: [usize; 2] = [1, 4];

/// What a side does for a thread.
pub trait Side: Sync {
    /// What each thread has of its own.
    type Own;

    fn own(&self) -> Self::Own;

    fn produce(&self, own: &mut Self::Own, bytes: &[u8]);

    fn raise(&self);

    /// Copies a piece from an offset on, batch by batch, into the buffer, and gives each to `took`; the offset behind it.
    fn read(&self, own: &mut Self::Own, from: u64, buffer: &mut Vec<u8>, took: &mut impl FnMut(&[u8])) -> u64;

    /// The same of a read-committed consumer's fetch; what it tells besides goes into the sum.
    fn fetch(&self, own: &mut Self::Own, from: u64, buffer: &mut Vec<u8>, took: &mut impl FnMut(&[u8]), told: &mut u64) -> u64;
}

struct Plain {
    node: Node,
}

impl Side for Plain {
    type Own = ();

    fn own(&self) {}

    fn produce(&self, _own: &mut (), bytes: &[u8]) {
        self.node.produce(Arc::from(bytes)).expect("a receipt");
    }

    fn raise(&self) {
        self.node.raise().expect("a leader");
    }

    fn read(&self, _own: &mut (), from: u64, buffer: &mut Vec<u8>, took: &mut impl FnMut(&[u8])) -> u64 {
        let batches = self.node.read(from).expect("batches");
        copied(&batches, buffer, took);
        from + batches.len() as u64
    }

    fn fetch(&self, _own: &mut (), from: u64, buffer: &mut Vec<u8>, took: &mut impl FnMut(&[u8]), told: &mut u64) -> u64 {
        let fetched = self.node.fetch(from).expect("batches");
        copied(&fetched.batches, buffer, took);
        *told += fetched.mark + fetched.stable + fetched.end + fetched.aborted.len() as u64;
        from + fetched.batches.len() as u64
    }
}

fn copied(batches: &[decoder::Batch], buffer: &mut Vec<u8>, took: &mut impl FnMut(&[u8])) {
    for batch in batches {
        buffer.clear();
        buffer.extend_from_slice(batch.bytes());
        encoder::stamp(buffer, batch.base as i64, batch.epoch.map_or(-1, |epoch| epoch as i32));
        took(buffer);
    }
}

// Nanoseconds from when all threads are ready to when all are done, and the sum of what they found.
fn timed(threads: usize, job: impl Fn() -> u64 + Sync) -> (u128, u64) {
    let ready = Barrier::new(threads + 1);
    thread::scope(|scope| {
        let start = || {
            ready.wait();
            job()
        };
        let running: Vec<_> = (0..threads).map(|_| scope.spawn(start)).collect();
        let began = Instant::now();
        ready.wait();
        let sum = running.into_iter().map(|it| it.join().expect("no panic")).sum();
        (began.elapsed().as_nanos(), sum)
    })
}

// Base offset, leader epoch and size of what was read.
fn sum_of(bytes: &[u8]) -> u64 {
    bytes[..8].iter().chain(&bytes[12..16]).fold(bytes.len() as u64, |sum, byte| sum * 31 % 1_000_003 + u64::from(*byte))
}

fn read_all<S: Side>(side: &S, end: u64) -> u64 {
    let (mut own, mut buffer, mut next, mut sum) = (side.own(), Vec::new(), 0, 0);
    while next < end {
        next = side.read(&mut own, next, &mut buffer, &mut |bytes| sum += sum_of(bytes));
    }
    sum
}

fn fetch_all<S: Side>(side: &S, end: u64) -> u64 {
    let (mut own, mut buffer, mut next, mut sum, mut told) = (side.own(), Vec::new(), 0, 0, 0);
    while next < end {
        next = side.fetch(&mut own, next, &mut buffer, &mut |bytes| sum += sum_of(bytes), &mut told);
    }
    sum + told
}

fn one<S: Side>(side: &S, size: usize, threads: usize, mib: usize) {
    let bytes = encoder::batch(1_000, 1, size, 0, false);
    let each = (mib << 20) / (size + 128) / threads;
    let produce = || {
        let (mut own, bytes) = (side.own(), bytes.clone());
        (0..each).for_each(|_| side.produce(&mut own, &bytes));
        each as u64
    };
    let (producing, count) = timed(threads, produce);
    side.raise();
    let (reading, sum) = timed(threads, || read_all(side, count));
    let (fetching, told) = timed(threads, || fetch_all(side, count));
    let each = u128::from(count * threads as u64);
    println!("{}\n{}\n{}\n{}", producing / u128::from(count), reading / each, fetching / each, sum + told);
}

fn run_one(words: &[usize]) {
    let [side, size, threads, mib] = words[..] else { panic!("four numbers") };
    match side {
        0 => one(&Library::open(threads), size, threads, mib),
        _ => one(&Plain { node: Node::new(0, 1) }, size, threads, mib),
    }
}

fn table(mib: usize, runs: usize) {
    println!("bytes   threads  job        library      rust   ratio   (nanoseconds of the clock for one batch)");
    for size in SIZES {
        for threads in THREADS {
            let mut pairs: Pairs<3> = Pairs::new();
            let wanted = std::cell::Cell::new(None);
            for _ in 0..runs {
                pairs.run(|side| {
                    let found: Vec<u64> = alone::numbers(&[&side, &size, &threads, &mib]);
                    assert_eq!(*wanted.get().get_or_insert(found[3]), found[3], "the sums differ");
                    wanted.set(Some(found[3]));
                    [found[0] as f64, found[1] as f64, found[2] as f64]
                });
            }
            for (job, name) in ["produce", "read", "fetch"].iter().enumerate() {
                let [library, rust] = pairs.least(job);
                println!("{size:<6}  {threads:<7}  {name:<8}  {library:>8.0}  {rust:>8.0}  {:>6.2}", pairs.ratio(job));
            }
        }
    }
}

fn main() {
    let words: Vec<String> = std::env::args().skip(1).collect();
    let numbers = |words: &[String]| -> Vec<usize> { words.iter().map(|word| word.parse().expect("a number")).collect() };
    match words[0].as_str() {
        "one" => run_one(&numbers(&words[1..])),
        _ => {
            let found = numbers(&words);
            table(found[0], found[1]);
        }
    }
}
