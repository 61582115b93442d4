//! What goes to the nodes' workers: a channel for each place, and how much is under way there.

use crate::node::Message;
use std::sync::atomic::{AtomicU64, Ordering::SeqCst};
use std::sync::mpsc::{Receiver, Sender, channel};
use std::thread;

const PLACES: usize = 7;

pub enum Parcel {
    /// A message of another node.
    Message(Message),
    /// The node takes the record up, then asks or raises.
    Turn,
    /// The worker is to end.
    Stop,
}

/// One channel a place. The worker of the place has the other end.
pub struct Post {
    senders: Vec<Sender<Parcel>>,
    counts: [AtomicU64; PLACES],
}

impl Post {
    /// Empty channels, and each place's end of its own.
    pub fn new(places: usize) -> (Post, Vec<Receiver<Parcel>>) {
        let (senders, receivers) = (0..places).map(|_| channel()).unzip();
        let counts = std::array::from_fn(|_| AtomicU64::new(0));
        (Post { senders, counts }, receivers)
    }

    /// The count rises before the parcel can come.
    pub fn send(&self, place: usize, parcel: Parcel) {
        self.counts[place].fetch_add(1, SeqCst);
        if self.senders[place].send(parcel).is_err() {
            // Its worker has ended.
            self.came(place);
        }
    }

    /// A parcel has come to this place.
    pub fn came(&self, place: usize) {
        self.counts[place].fetch_sub(1, SeqCst);
    }

    /// It is each node's turn.
    pub fn turn_all(&self) {
        for place in 0..self.senders.len() {
            self.send(place, Parcel::Turn);
        }
    }

    /// Each worker is to end.
    pub fn stop_all(&self) {
        for place in 0..self.senders.len() {
            self.send(place, Parcel::Stop);
        }
    }

    // The most that is under way to one place.
    fn most(&self) -> u64 {
        self.counts
            .iter()
            .fold(0, |most, count| most.max(count.load(SeqCst)))
    }

    /// Yields until no place has more than so many parcels under way, at most so often.
    pub fn settle(&self, most: u64, yields: u32) {
        for _ in 0..yields {
            if self.most() <= most {
                return;
            }
            thread::yield_now();
        }
    }
}
