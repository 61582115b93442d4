//! What becomes of a node, as its host is told.

use crate::cluster::{Pass, lock};
use crate::node::Node;
use crate::values::Role;
use std::collections::VecDeque;
use std::sync::{Arc, Mutex};
use std::thread;

/// What workers tell of a node ([`Workers::start_with`](crate::Workers::start_with)).
#[derive(Clone, Copy, Debug, PartialEq, Eq)]
#[non_exhaustive]
pub enum Event {
    /// The high watermark that callers are shown ([`Pass::watermark`]) has risen: all below it is committed.
    Mark {
        /// The node.
        node: u8,
        /// Where it is, above where it was told to be before; at the start that is 0.
        offset: u64,
    },
    /// The node took up the controller's record ([`Node::adopt`](crate::Node::adopt)).
    Role {
        /// The node.
        node: u8,
        /// What that made of it.
        role: Role,
    },
    /// The node went down: somebody stopped it, or memory was refused as it took batches. Once for each time.
    Down {
        /// The node.
        node: u8,
    },
}

pub(crate) type Hook = Arc<dyn Fn(Event) + Send + Sync>;

// Tells the hook of a node, one event at a time and in their order, whichever threads look at the node.
pub(crate) struct Teller {
    number: u8,
    hook: Hook,
    seen: Mutex<Seen>,
}

// What was seen so far, and what of that the hook wasn't told yet.
struct Seen {
    pass: Pass,
    // How often it went down; none before the first look.
    falls: Option<u64>,
    records: u64,
    mark: u64,
    news: VecDeque<Event>,
    // Some thread tells the news.
    is_told: bool,
}

impl Seen {
    fn look(&mut self, number: u8, node: &Node<'_>, is_down: bool) {
        let past = node.past();
        if is_down {
            self.look_at_mark(number); // it rose before
        }
        let falls = past.life + u64::from(is_down);
        let told = self.falls.unwrap_or(past.life);
        self.news.extend((told..falls).map(|_| Event::Down { node: number }));
        self.falls = Some(told.max(falls));
        if past.records > self.records && !is_down {
            self.news.extend(past.role.map(|role| Event::Role { node: number, role }));
        }
        self.records = past.records;
        self.look_at_mark(number);
    }

    fn look_at_mark(&mut self, node: u8) {
        let offset = self.pass.watermark(node).unwrap_or(self.mark);
        if offset > self.mark {
            self.mark = offset;
            self.news.push_back(Event::Mark { node, offset });
        }
    }
}

// The thread that tells. Where the hook panics, another one tells what is left.
struct Telling<'a>(&'a Teller);

impl Drop for Telling<'_> {
    fn drop(&mut self) {
        if thread::panicking() {
            lock(&self.0.seen).is_told = false;
        }
    }
}

impl Teller {
    pub(crate) fn new(number: u8, hook: Hook, pass: Pass) -> Teller {
        let seen = Seen { pass, falls: None, records: 0, mark: 0, news: VecDeque::new(), is_told: false };
        Teller { number, hook, seen: Mutex::new(seen) }
    }

    // What has changed since the last look. The node's lock is held, so it is of one moment.
    pub(crate) fn look(&self, node: &Node<'_>, is_down: bool) {
        lock(&self.seen).look(self.number, node, is_down);
    }

    // Hold no lock. Where another thread tells, that one goes on with what is new.
    pub(crate) fn tell(&self) {
        if !self.begins() {
            return;
        }
        let _telling = Telling(self);
        while let Some(event) = self.next() {
            (self.hook)(event);
        }
    }

    fn begins(&self) -> bool {
        let mut seen = lock(&self.seen);
        let begins = !seen.is_told && !seen.news.is_empty();
        seen.is_told |= begins;
        begins
    }

    // Of the thread that tells; it has ended where there is none.
    fn next(&self) -> Option<Event> {
        let mut seen = lock(&self.seen);
        let event = seen.news.pop_front();
        seen.is_told = event.is_some();
        event
    }
}
