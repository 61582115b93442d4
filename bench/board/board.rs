//! Times calls of a board, beside a board of plain Rust: three AtomicU64 and the same packing of the record.
//!
//!     board PROGRAM CALLS RUNS        the tables, with so many elections and 16 times as many looks of either kind by each thread,
//!                                      of one thread and of as many as there are processors
//!     board one THREADS CALLS NODE    nanoseconds of the clock for each kind of call of the plain side, and the sum of the answers
//!
//! PROGRAM is what `board.rt.in` is built to: it takes the words THREADS, CALLS and NODE, and prints the same. Both make a board of one
//! node, and time elections first, then looks at the record, then looks at the watermark, from before the first thread to after the
//! last. Each run is a process of its own.
//!
//! What is compared is a call: each is made by its number, by a function that isn't inlined, so that neither side's loop is unrolled
//! round it or does without what isn't used of an answer. The node is a word of the program, so no compiler knows it; the plain board
//! tests that it has such a word, where the other one has that proved.

#[path = "../shared/pairs.rs"]
mod pairs;

use pairs::Pairs;
use std::process::Command;
use std::sync::atomic::{AtomicU64, Ordering::SeqCst};
use std::time::Instant;

const JOBS: [&str; 3] = ["elect", "record", "watermark"];
// How many calls of a kind there are for each election.
const EACH: [u32; 3] = [1, 16, 16];

#[derive(Clone, Copy)]
struct Leader {
    node: u8,
    epoch: u32,
}

// The controller's record.
#[derive(Clone, Copy)]
struct Record {
    leader: Option<Leader>,
    isr: [bool; 7],
    version: u32,
}

impl Record {
    fn pack(&self) -> u64 {
        let (leader, epoch) = match self.leader {
            None => (15, 0),
            Some(leader) => (u64::from(leader.node), u64::from(leader.epoch) + 1),
        };
        let mut bits = 0;
        for (node, member) in self.isr.iter().enumerate() {
            bits |= u64::from(*member) << node;
        }
        leader << 60 | bits << 52 | epoch << 28 | u64::from(self.version)
    }

    fn unpack(word: u64) -> Option<Record> {
        let version = (word & 0xfff_ffff) as u32;
        let epoch = (word >> 28 & 0xff_ffff) as u32;
        let bits = word >> 52 & 0xff;
        let node = (word >> 60) as u8;
        if bits >= 128 {
            return None;
        }
        let isr = std::array::from_fn(|node| bits >> node & 1 == 1);
        let leader = match (node, epoch) {
            (15, 0) => None,
            (0..7, 1..) => Some(Leader { node, epoch: epoch - 1 }),
            _ => return None,
        };
        Some(Record { leader, isr, version })
    }

    fn elected(&self, node: u8) -> Result<Record, Refusal> {
        if !self.isr.get(usize::from(node)).copied().unwrap_or(false) {
            return Err(Refusal::NotInSync);
        }
        let epoch = self.leader.map_or(0, |leader| leader.epoch + 1);
        if epoch > 16_777_214 || self.version >= 268_435_455 {
            return Err(Refusal::RecordFull);
        }
        Ok(Record { leader: Some(Leader { node, epoch }), isr: self.isr, version: self.version + 1 })
    }
}

enum Refusal {
    NotInSync,
    RecordFull,
    StaleRecord,
}

// Word 0 is the record; then the node's end and its watermark.
struct Board {
    words: [AtomicU64; 3],
}

impl Board {
    fn new() -> Board {
        let record = Record { leader: None, isr: std::array::from_fn(|node| node == 0), version: 0 };
        Board { words: [record.pack(), 0, 0].map(AtomicU64::new) }
    }

    fn record(&self) -> Record {
        Record::unpack(self.words[0].load(SeqCst)).expect("a record's word")
    }

    fn watermark(&self, node: u8) -> u64 {
        self.words[2 * usize::from(node) + 2].load(SeqCst)
    }

    fn elect(&self, node: u8) -> Result<Record, Refusal> {
        let shown = self.record();
        let next = shown.elected(node)?;
        match self.words[0].compare_exchange(shown.pack(), next.pack(), SeqCst, SeqCst) {
            Ok(_) => Ok(next),
            Err(_) => Err(Refusal::StaleRecord),
        }
    }
}

// Each kind of call, by itself.
#[inline(never)]
fn elect(board: &Board, node: u8) -> Result<Record, Refusal> {
    board.elect(node)
}

#[inline(never)]
fn record(board: &Board) -> Record {
    board.record()
}

#[inline(never)]
fn watermark(board: &Board, node: u8) -> u64 {
    board.watermark(node)
}

// So many calls of a kind by each thread: the sum of their answers, and the nanoseconds.
fn timed(threads: usize, calls: u32, call: impl Fn() -> u64 + Sync) -> (u64, u64) {
    let began = Instant::now();
    let sum = std::thread::scope(|scope| {
        let work = || (0..calls).fold(0u64, |sum, _| sum.wrapping_add(call()));
        let started: Vec<_> = (1..threads).map(|_| scope.spawn(work)).collect();
        let own = work();
        started.into_iter().fold(own, |sum, thread| sum.wrapping_add(thread.join().expect("a sum")))
    });
    (began.elapsed().as_nanos() as u64, sum)
}

fn one(threads: usize, calls: u32, node: u8) {
    let board = Board::new();
    let print = |(spent, sum)| println!("{spent} {sum}");
    print(timed(threads, EACH[0] * calls, || u64::from(elect(&board, node).is_ok())));
    print(timed(threads, EACH[1] * calls, || u64::from(record(&board).version)));
    print(timed(threads, EACH[2] * calls, || watermark(&board, node)));
}

// What a side prints: nanoseconds of each kind of call.
fn side(program: &str, words: &[String]) -> [f64; 3] {
    let output = Command::new(program).args(words).output().expect("a run");
    assert!(output.status.success(), "{program} failed");
    let text = String::from_utf8(output.stdout).expect("numbers");
    let mut lines = text.lines().map(|line| line.split(' ').next().and_then(|word| word.parse().ok()).expect("a number"));
    std::array::from_fn(|_| lines.next().expect("three lines"))
}

fn table(program: &str, threads: usize, calls: u32, runs: usize) {
    let own = std::env::current_exe().expect("the program");
    let words = [threads.to_string(), calls.to_string(), "0".to_string()];
    let plain: Vec<String> = ["one".to_string()].into_iter().chain(words.clone()).collect();
    let mut pairs: Pairs<3> = Pairs::new();
    for _ in 0..runs {
        pairs.run(|number| match number {
            0 => side(program, &words),
            _ => side(own.to_str().expect("a path"), &plain),
        });
    }
    for (job, name) in JOBS.iter().enumerate() {
        let [rattle, rust] = pairs.least(job).map(|spent| spent / f64::from(EACH[job] * calls));
        println!("{threads:>7}  {name:<9}  {rattle:>8.2}  {rust:>8.2}  {:>6.2}", pairs.ratio(job));
    }
}

fn main() {
    let words: Vec<String> = std::env::args().skip(1).collect();
    let number = |place: usize| words[place].parse::<u32>().expect("a number");
    if words[0] == "one" {
        return one(number(1) as usize, number(2), number(3) as u8);
    }
    let cores = std::thread::available_parallelism().map_or(1, usize::from);
    println!("threads  call         rattle      rust   ratio   (nanoseconds of the clock for one call of each thread)");
    for threads in [1, cores] {
        table(&words[0], threads, number(1), number(2) as usize);
    }
}
