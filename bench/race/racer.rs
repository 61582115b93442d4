//! The threads that race: a worker for each node, producers, and the one that moves the leadership.

use crate::decoder::Batch;
use crate::node::{Board, Node, Receipt, Refusal};
use crate::post::{Parcel, Post};
use crate::spelling::{self, Sender};
use std::sync::mpsc::Receiver;

/// How often the end of a turn is waited for at most.
pub const PATIENCE: u32 = 10_000;

// How often a producer tries to hand in one batch, and how many tries it has for each batch of its plan.
const TRIES: usize = 100;

// How many parcels may be under way to a place before a thread that gives turns waits.
const MOST_WAITING: u64 = 8;

/// What all threads share.
pub struct Field<'a> {
    pub board: &'a Board,
    pub nodes: &'a [Node],
    pub post: &'a Post,
}

// What a try to hand in a batch came to.
enum Tried {
    Took(Receipt),
    OutOfOrder,
    NoLeader,
}

// A producer's batches: the receipt of each that was handed in, and which batch is next. That is the first without a receipt, or one
// before it that a new leader lacks.
struct HandedIn {
    batches: usize,
    receipts: Vec<Receipt>,
    next: usize,
    seeks: bool,
}

impl HandedIn {
    fn took(&mut self, receipt: Receipt) {
        match self.receipts.get_mut(self.next) {
            Some(former) => *former = receipt,
            None => self.receipts.push(receipt),
        }
        self.next += 1;
        self.seeks = false;
    }

    // Seeks the batch behind the leader's last one: from the first without a receipt down, one a try.
    fn seek(&mut self) {
        let front = self.receipts.len().min(self.batches - 1);
        self.next = match self.next.checked_sub(1) {
            Some(before) if self.seeks || self.next == front => before,
            _ => front,
        };
        self.seeks = true;
    }
}

// The bytes of a producer's batch: spelled and summed here, and not read again by the node, as kpart's aren't.
fn batch_of(buffer: &mut Vec<u8>, number: usize, sequence: usize) -> Batch {
    let sender = Sender {
        producer: number as i64,
        epoch: 0,
        sequence: sequence as i32,
    };
    spelling::batch(
        buffer,
        0,
        1_000,
        sender,
        [(None, b"a".as_slice())].into_iter(),
    );
    Batch::of(buffer)
}

impl Field<'_> {
    /// Handles the parcels of a place until it is told to stop. The node's lock is given up before what comes of one is sent, and a
    /// refusal ends that one alone.
    pub fn work(&self, place: usize, receiver: &Receiver<Parcel>) {
        let node = &self.nodes[place];
        while let Ok(parcel) = receiver.recv() {
            self.post.came(place);
            let handled = match parcel {
                Parcel::Message(message) => node.step(message),
                Parcel::Turn => node.turn(),
                Parcel::Stop => return,
            };
            if let Ok(Some(message)) = handled {
                self.post
                    .send(usize::from(message.addressee()), Parcel::Message(message));
            }
        }
    }

    // It is each node's turn. Waits for a while where much is under way.
    fn turn(&self) {
        self.post.turn_all();
        self.post.settle(MOST_WAITING, PATIENCE);
    }

    // Tries the nodes in turn, from the one that took the last batch on.
    fn produce_one(&self, at: &mut usize, batch: &Batch) -> Tried {
        for _ in 0..TRIES {
            let Some(node) = self.nodes.get(*at) else {
                *at = 0;
                continue;
            };
            let tried = node.produce_spelled(batch.clone());
            self.turn();
            match tried {
                Ok(receipt) => return Tried::Took(receipt),
                Err(Refusal::BadProducer) => return Tried::OutOfOrder,
                Err(_) => *at += 1,
            }
        }
        Tried::NoLeader
    }

    /// Hands all batches in, with sequence numbers from 0 on, and again those that a new leader lacks.
    pub fn produce_all(&self, number: usize, batches: usize) -> Vec<Receipt> {
        let (mut buffer, mut at) = (Vec::new(), 0);
        let mut handed = HandedIn {
            batches,
            receipts: Vec::new(),
            next: 0,
            seeks: false,
        };
        for _ in 0..TRIES * batches {
            if handed.next >= batches {
                break;
            }
            let batch = batch_of(&mut buffer, number, handed.next);
            match self.produce_one(&mut at, &batch) {
                Tried::Took(receipt) => handed.took(receipt),
                Tried::OutOfOrder => handed.seek(),
                Tried::NoLeader => break,
            }
        }
        handed.receipts
    }

    /// Moves the leadership from node to node, by one try each, which counts as a move whatever it answers.
    pub fn move_all(&self, moves: usize) {
        for count in 1..=moves {
            let _ = self.board.elect(count % self.nodes.len());
            self.turn();
        }
    }
}
