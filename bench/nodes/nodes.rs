//! Times calls of a node under a lock, beside a node of plain Rust (`node.rs`): one Mutex, two AtomicU64, and the log of the plain
//! program.
//!
//!     nodes PROGRAM OTHER CALLS RUNS  the table: each kind of call, made so often by one thread; and three nodes in three threads that
//!                                     replicate so many batches
//!     nodes one CALLS                 nanoseconds of the clock for each kind of call of the plain side, and a sum of the answers
//!     nodes three BATCHES             the same of three threads, and how many requests were served
//!
//! PROGRAM is what `nodes.rt.in` is built to, OTHER what `replicating.rt.in` is: each takes the number, and prints the same. Each run
//! is a process of its own.

#![allow(dead_code)]

#[path = "../plain/decoder.rs"]
mod decoder;
#[path = "../plain/encoder.rs"]
mod encoder;
#[path = "../plain/log.rs"]
mod log;
mod node;
#[path = "../shared/pairs.rs"]
mod pairs;
#[path = "../plain/record.rs"]
mod record;
#[path = "../plain/segments.rs"]
mod segments;
#[path = "../plain/senders.rs"]
mod senders;
#[path = "../plain/spelling.rs"]
mod spelling;
mod threads;

use node::{Ack, Message, Node, Receipt};
use pairs::Pairs;
use std::process::Command;
use std::sync::Arc;
use std::time::Instant;

const JOBS: [&str; 6] = ["produce", "acked", "read", "ask", "step: serve", "step: take"];
const NODES: u8 = 7;

// Nanoseconds of the clock, and the sum of what was answered.
#[derive(Clone, Copy, Default)]
struct Spent {
    nanos: u128,
    sum: u64,
}

impl Spent {
    fn time(&mut self, call: impl FnOnce() -> u64) {
        let began = Instant::now();
        let sum = call();
        self.nanos += began.elapsed().as_nanos();
        self.sum += sum;
    }
}

// Each follower asks: how many did.
fn ask(nodes: &[Node], requests: &mut Vec<Message>) -> u64 {
    let mut sum = 0;
    for follower in &nodes[1..] {
        requests.push(follower.ask().expect("a request"));
        sum += 1;
    }
    sum
}

// The requests come to the leader: how many it served.
fn serve(leader: &Node, requests: &mut Vec<Message>, answers: &mut Vec<Message>) -> u64 {
    let mut sum = 0;
    while let Some(request) = requests.pop() {
        if let Some(answer) = leader.step(request).expect("an answer") {
            answers.push(answer);
            sum += 1;
        }
    }
    sum
}

// The answers come to the followers: how many were taken.
fn take(nodes: &[Node], answers: &mut Vec<Message>) -> u64 {
    let mut sum = 0;
    while let Some(answer) = answers.pop() {
        let follower = &nodes[usize::from(answer.addressee())];
        if follower.step(answer).expect("an awaited answer").is_none() {
            sum += 1;
        }
    }
    sum
}

// A batch is produced; the followers fetch it, all of them at a time.
fn fetches(nodes: &[Node], bytes: &Arc<[u8]>, rounds: u64) -> [Spent; 3] {
    let [mut asking, mut serving, mut taking] = [Spent::default(); 3];
    let (mut requests, mut answers) = (Vec::with_capacity(8), Vec::with_capacity(8));
    for _ in 0..rounds {
        nodes[0].produce(bytes.clone()).expect("a receipt");
        nodes[0].raise().expect("a leader");
        asking.time(|| ask(nodes, &mut requests));
        serving.time(|| serve(&nodes[0], &mut requests, &mut answers));
        taking.time(|| take(nodes, &mut answers));
    }
    [asking, serving, taking]
}

// So many calls of a kind: the sum of their answers.
fn sum_of(calls: u64, call: impl Fn(u64) -> u64) -> u64 {
    (0..calls).fold(0u64, |sum, place| sum.wrapping_add(call(place)))
}

// What a client calls.
fn calls_of_a_client(leader: &Node, bytes: &Arc<[u8]>, calls: u64) -> [Spent; 3] {
    let [mut producing, mut asking, mut reading] = [Spent::default(); 3];
    producing.time(|| sum_of(calls, |_| leader.produce(bytes.clone()).expect("a receipt").base));
    let end = leader.raise().expect("a leader");
    let receipt = |base| Receipt { base, last: base, epoch: 0, duplicate: false };
    asking.time(|| sum_of(calls, |base| u64::from(leader.acked(&receipt(base)) == Ack::Yes)));
    reading.time(|| sum_of(calls, |_| leader.read(end - 1).expect("batches").len() as u64));
    [producing, asking, reading]
}

fn batch() -> Arc<[u8]> {
    encoder::batch(1_000, 1, 100, 0, false).into()
}

fn one(calls: u64) {
    let nodes: Vec<Node> = (0..NODES).map(|number| Node::new(number, 1)).collect();
    let bytes = batch();
    let fetched = fetches(&nodes, &bytes, calls / u64::from(NODES - 1));
    for spent in calls_of_a_client(&nodes[0], &bytes, calls).into_iter().chain(fetched) {
        println!("{} {}", spent.nanos, spent.sum);
    }
}

// What a side prints: nanoseconds of each kind of call, and the sum of the answers.
fn side<const N: usize>(program: &str, words: &[String]) -> [(f64, u64); N] {
    let output = Command::new(program).args(words).output().expect("a run");
    assert!(output.status.success(), "{program} failed");
    let text = String::from_utf8(output.stdout).expect("numbers");
    let mut lines = text.lines().map(|line| {
        let mut words = line.split(' ');
        let mut word = || words.next().expect("a word");
        (word().parse().expect("nanoseconds"), word().parse().expect("a sum"))
    });
    std::array::from_fn(|_| lines.next().expect("a line"))
}

// Times both sides in pairs. Their sums must be the same.
fn paired<const N: usize>(program: &str, kind: &str, number: u64, runs: usize) -> Pairs<N> {
    let own = std::env::current_exe().expect("the program");
    let plain = [kind.to_string(), number.to_string()];
    let mut pairs: Pairs<N> = Pairs::new();
    let sums = std::cell::Cell::new(None);
    for _ in 0..runs {
        pairs.run(|place| {
            let found = match place {
                0 => side(program, &plain[1..]),
                _ => side(own.to_str().expect("a path"), &plain),
            };
            let found_sums = found.map(|line| line.1);
            assert_eq!(*sums.get().get_or_insert(found_sums), found_sums, "the sums differ");
            sums.set(Some(found_sums));
            found.map(|line| line.0)
        });
    }
    pairs
}

fn print_row<const N: usize>(pairs: &Pairs<N>, job: usize, name: &str, calls: u64) {
    let [rattle, rust] = pairs.least(job).map(|spent| spent / calls as f64);
    println!("{name:<13}  {rattle:>8.1}  {rust:>8.1}  {:>6.2}", pairs.ratio(job));
}

fn main() {
    let words: Vec<String> = std::env::args().skip(1).collect();
    let number = |place: usize| words[place].parse::<u64>().expect("a number");
    match words[0].as_str() {
        "one" => one(number(1)),
        "three" => threads::three(batch(), number(1)),
        program => {
            let (calls, runs) = (number(2), number(3) as usize);
            println!("call             rattle      rust   ratio   (nanoseconds of the clock for one call)");
            let pairs: Pairs<6> = paired(program, "one", calls, runs);
            for (job, name) in JOBS.iter().enumerate() {
                print_row(&pairs, job, name, calls);
            }
            let pairs: Pairs<1> = paired(&words[1], "three", calls, runs);
            print_row(&pairs, 0, "three threads", calls);
        }
    }
}
