//! Three nodes of plain Rust in three threads: the leader's thread produces and serves, the others ask and take.

use crate::node::{Message, Node};
use std::collections::VecDeque;
use std::sync::{Arc, Mutex};
use std::thread;
use std::time::Instant;

const NODES: usize = 3;

// A node, and its mail.
struct Place {
    node: Node,
    mail: Mutex<VecDeque<Message>>,
}

fn is_done(places: &[Place], batches: u64) -> bool {
    places.iter().all(|place| place.node.mark() >= batches)
}

fn post(places: &[Place], message: Message) {
    let place = &places[usize::from(message.addressee())];
    place.mail.lock().expect("mail").push_back(message);
}

fn next_for(place: &Place) -> Option<Message> {
    place.mail.lock().expect("mail").pop_front()
}

// The leader serves a request and raises its high watermark, or appends a batch. Answers how many requests came.
fn lead(places: &[Place], bytes: &Arc<[u8]>, batches: u64) -> u64 {
    let (mut made, mut came) = (0, 0);
    loop {
        if let Some(request) = next_for(&places[0]) {
            if let Some(answer) = places[0].node.step(request).expect("an answer") {
                post(places, answer);
            }
            places[0].node.raise().expect("a leader");
            came += 1;
        } else if made < batches {
            places[0].node.produce(bytes.clone()).expect("a receipt");
            made += 1;
        } else if is_done(places, batches) {
            return came;
        } else {
            thread::yield_now();
        }
    }
}

// A follower asks, takes the answer, and asks again.
fn follow(places: &[Place], number: usize, batches: u64) {
    let own = &places[number];
    post(places, own.node.ask().expect("a request"));
    while !is_done(places, batches) {
        match next_for(own) {
            Some(answer) => {
                own.node.step(answer).expect("an awaited answer");
                post(places, own.node.ask().expect("a request"));
            }
            None => thread::yield_now(),
        }
    }
}

/// Prints nanoseconds of the clock, the sum of the high watermarks at the end, and how many requests there were.
pub fn three(bytes: Arc<[u8]>, batches: u64) {
    let place = |number| Place { node: Node::new(number as u8, NODES), mail: Mutex::new(VecDeque::new()) };
    let places: Vec<Place> = (0..NODES).map(place).collect();
    let began = Instant::now();
    let came = thread::scope(|scope| {
        let places = &places;
        for number in 1..NODES {
            scope.spawn(move || follow(places, number, batches));
        }
        lead(places, &bytes, batches)
    });
    let spent = began.elapsed().as_nanos();
    println!("{spent} {} {came}", places.iter().map(|place| place.node.mark()).sum::<u64>());
}
