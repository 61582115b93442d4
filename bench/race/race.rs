//! A race of nodes, producers and elections in threads of plain Rust, which `kpart race` is compared with: std alone.
//!
//!     race NODES PRODUCERS BATCHES MOVES      what came of it, in the five lines of `kpart race`
//!
//! Each node has a worker, which takes parcels from a channel and handles each under the node's lock. Each producer hands in so many
//! batches of one record, and one more thread moves the leadership so often. Threads are paced as kp_race's are. Nothing here is proved.

#![allow(dead_code)]

#[path = "../plain/decoder.rs"]
mod decoder;
#[path = "../plain/encoder.rs"]
mod encoder;
mod judge;
#[path = "../plain/log.rs"]
mod log;
#[path = "../nodes/node.rs"]
mod node;
mod post;
mod racer;
#[path = "../plain/record.rs"]
mod record;
#[path = "../plain/segments.rs"]
mod segments;
#[path = "../plain/senders.rs"]
mod senders;
#[path = "../plain/spelling.rs"]
mod spelling;

use node::{Board, Node, Receipt};
use post::{Parcel, Post};
use racer::{Field, PATIENCE};
use std::sync::Arc;
use std::sync::mpsc::Receiver;
use std::thread::{self, Builder, Scope};
use std::{env, process};

const SEGMENT: usize = 1_048_576;

// The bytes of a worker's stack.
const STACK: usize = 1 << 20;

// How many turns each node has after the producers' end.
const LAST_TURNS: u32 = 100;

// How many producers hand in how many batches each, and how many elections there are meanwhile.
struct Plan {
    nodes: usize,
    producers: usize,
    batches: usize,
    moves: usize,
}

// A worker for each node.
fn start<'scope>(
    scope: &'scope Scope<'scope, '_>,
    field: &'scope Field,
    receivers: Vec<Receiver<Parcel>>,
) {
    for (place, receiver) in receivers.into_iter().enumerate() {
        let work = move || field.work(place, &receiver);
        Builder::new()
            .stack_size(STACK)
            .spawn_scoped(scope, work)
            .expect("a thread");
    }
}

// Node 0 leads before anybody hands in a batch.
fn lead(field: &Field) {
    if let Some(first) = field.nodes.first() {
        field.board.elect(0).expect("node 0 is in sync");
        first.adopt().expect("a first leader");
    }
}

// The producers and the mover, each in a thread of its own, until all of them have ended: each producer's receipts.
fn run_all(field: &Field, plan: &Plan) -> Vec<Vec<Receipt>> {
    thread::scope(|scope| {
        let produce = |number| scope.spawn(move || field.produce_all(number, plan.batches));
        let producers: Vec<_> = (0..plan.producers).map(produce).collect();
        scope.spawn(|| field.move_all(plan.moves));
        producers
            .into_iter()
            .map(|one| one.join().expect("a producer's end"))
            .collect()
    })
}

// A turn of each node, and then the next one once nothing is under way.
fn last_turns(post: &Post) {
    for _ in 0..LAST_TURNS {
        post.turn_all();
        post.settle(0, PATIENCE);
    }
}

fn race(nodes: &[Node], board: &Board, plan: &Plan) -> Vec<Vec<Receipt>> {
    let (post, receivers) = Post::new(nodes.len());
    let field = Field {
        board,
        nodes,
        post: &post,
    };
    thread::scope(|scope| {
        start(scope, &field, receivers);
        lead(&field);
        let receipts = run_all(&field, plan);
        last_turns(&post);
        post.stop_all();
        receipts
    })
}

fn plan() -> Option<Plan> {
    let words: Vec<usize> = env::args()
        .skip(1)
        .map(|word| word.parse().ok())
        .collect::<Option<_>>()?;
    let [nodes @ 1..=7, producers, batches, moves] = words[..] else {
        return None;
    };
    Some(Plan {
        nodes,
        producers,
        batches,
        moves,
    })
}

fn main() {
    let Some(plan) = plan() else {
        eprintln!("race NODES PRODUCERS BATCHES MOVES, of one to seven nodes");
        process::exit(2);
    };
    let board = Arc::new(Board::new(plan.nodes));
    let node = |number| Node::idle(number as u8, board.clone(), SEGMENT);
    let nodes: Vec<Node> = (0..plan.nodes).map(node).collect();
    let receipts = race(&nodes, &board, &plan);
    let acknowledged: usize = receipts
        .iter()
        .map(|own| judge::count_acked(&nodes, own))
        .sum();
    let agree = judge::do_agree(&nodes).expect("a log that begins at 0");
    println!("nodes {}", plan.nodes);
    println!("receipts {}", receipts.iter().map(Vec::len).sum::<usize>());
    println!("acknowledged {acknowledged}");
    println!(
        "committed {}",
        nodes.iter().map(Node::mark).max().unwrap_or(0)
    );
    println!("agree {}", if agree { "yes" } else { "no" });
}
