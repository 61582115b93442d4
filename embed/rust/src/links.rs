//! Links between the nodes and the controller, which a tester cuts, delays, or makes lossy or doubling.

use crate::cluster::lock;
use crate::message::Addressee;
use std::sync::Mutex;
use std::sync::atomic::{AtomicBool, AtomicUsize, Ordering};
use std::time::{Duration, Instant};

/// An end of a link.
#[derive(Clone, Copy, Debug, PartialEq, Eq)]
pub enum Place {
    /// The node of this number.
    Node(u8),
    /// The controller.
    Controller,
}

impl From<Addressee> for Place {
    fn from(addressee: Addressee) -> Place {
        match addressee {
            Addressee::Node(number) => Place::Node(number),
            Addressee::Controller => Place::Controller,
        }
    }
}

/// What becomes of a message that is sent over a link, one way ([`Workers::link`](crate::Workers::link)).
#[derive(Clone, Copy, Debug, Default, PartialEq, Eq)]
#[non_exhaustive]
pub enum Link {
    /// It comes, behind all that was sent over the link before.
    #[default]
    Up,
    /// It is lost.
    Cut,
    /// It comes after so long, or later where an earlier one of the link comes later, and lies in memory until then. Where no clock
    /// reaches that time it is lost.
    Delayed(Duration),
    /// It is lost by chance ([`Workers::start_seeded`](crate::Workers::start_seeded)), one in so many: with 1 each, with 0 none. Else it
    /// comes as over [`Link::Up`].
    Lossy {
        /// One in how many.
        one_in: u32,
    },
    /// It comes twice by chance, as [`Link::Lossy`] loses it, the second one right behind the first ([`Message::repeat`]). Where memory is
    /// refused for the second it comes once. Else it comes as over [`Link::Up`].
    ///
    /// [`Message::repeat`]: crate::Message::repeat
    Doubling {
        /// One in how many.
        one_in: u32,
    },
}

// What becomes of one message.
#[derive(Clone, Copy, Debug, PartialEq, Eq)]
pub(crate) enum Fate {
    Lost,
    Comes {
        // When, where that isn't now.
        at: Option<Instant>,
        twice: bool,
    },
}

const COMES: Fate = Fate::Comes { at: None, twice: false };

// One way from one place to another.
#[derive(Clone, Debug)]
struct Line {
    link: Link,
    // When the last message that was held comes.
    busy_until: Option<Instant>,
    // Of the chances: never 0.
    state: u64,
}

impl Line {
    fn new(seed: u64) -> Line {
        Line { link: Link::Up, busy_until: None, state: mixed(seed).max(1) }
    }

    fn fate(&mut self, now: Instant) -> Fate {
        let link = self.link;
        match link {
            Link::Cut => Fate::Lost,
            Link::Lossy { one_in } if self.is_drawn(one_in) => Fate::Lost,
            Link::Doubling { one_in } if self.is_drawn(one_in) => Fate::Comes { at: self.in_order(now, now), twice: true },
            Link::Up | Link::Lossy { .. } | Link::Doubling { .. } => Fate::Comes { at: self.in_order(now, now), twice: false },
            Link::Delayed(time) => match now.checked_add(time) {
                Some(due) => Fate::Comes { at: self.in_order(now, due), twice: false },
                None => Fate::Lost,
            },
        }
    }

    // Not before any that was sent earlier; none where that is now.
    fn in_order(&mut self, now: Instant, due: Instant) -> Option<Instant> {
        let due = self.busy_until.map_or(due, |earlier| earlier.max(due));
        self.busy_until = (due > now).then_some(due);
        self.busy_until
    }

    // Marsaglia's xorshift of 64 bits, of whose product the upper half counts (xorshift64*).
    fn is_drawn(&mut self, one_in: u32) -> bool {
        self.state ^= self.state << 13;
        self.state ^= self.state >> 7;
        self.state ^= self.state << 17;
        let number = (self.state.wrapping_mul(0x2545_F491_4F6C_DD1D) >> 32) as u32;
        number.checked_rem(one_in) == Some(0)
    }
}

// Steele's splitmix64: seeds that follow one another give states that are far apart.
fn mixed(seed: u64) -> u64 {
    let mut word = seed.wrapping_add(0x9E37_79B9_7F4A_7C15);
    word = (word ^ (word >> 30)).wrapping_mul(0xBF58_476D_1CE4_E5B9);
    word = (word ^ (word >> 27)).wrapping_mul(0x94D0_49BB_1331_11EB);
    word ^ (word >> 31)
}

// The links from each place to each place; the controller's number is behind the nodes'.
#[derive(Debug)]
pub(crate) struct Links {
    nodes: u8,
    // Whether any was ever set; else all are up, and nobody takes the lock.
    were_set: AtomicBool,
    lines: Mutex<Vec<Line>>,
    // How many messages of each link are in its addressee's channel.
    posted: Vec<AtomicUsize>,
}

impl Links {
    pub(crate) fn new(nodes: u8, seed: u64) -> Links {
        let places = u64::from(nodes) + 1;
        let seeds = (0..places * places).map(|line| mixed(seed).wrapping_add(line));
        let posted = (0..places * places).map(|_| AtomicUsize::new(0)).collect();
        Links { nodes, were_set: AtomicBool::new(false), lines: Mutex::new(seeds.map(Line::new).collect()), posted }
    }

    pub(crate) fn set(&self, from: Place, to: Place, link: Link) {
        let Some(line) = self.line(from, to) else { return };
        lock(&self.lines)[line].link = link;
        self.were_set.store(true, Ordering::Release);
    }

    // Asked once for each message that is sent, in the order of sending.
    pub(crate) fn fate(&self, from: Place, to: Place) -> Fate {
        if !self.were_set.load(Ordering::Acquire) {
            return COMES;
        }
        self.line(from, to).map_or(COMES, |line| lock(&self.lines)[line].fate(Instant::now()))
    }

    // A message goes by its addressee's channel; whoever sends over the link has the way between its ends. So with the two below.
    pub(crate) fn begins(&self, from: Place, to: Place) {
        if let Some(posted) = self.posted(from, to) {
            posted.fetch_add(1, Ordering::Relaxed);
        }
    }

    // One of them was taken.
    pub(crate) fn ends(&self, from: Place, to: Place) {
        if let Some(posted) = self.posted(from, to) {
            posted.fetch_sub(1, Ordering::Relaxed);
        }
    }

    // Whether what came at once would overtake one of them.
    pub(crate) fn is_busy(&self, from: Place, to: Place) -> bool {
        self.posted(from, to).is_some_and(|it| it.load(Ordering::Relaxed) > 0)
    }

    fn posted(&self, from: Place, to: Place) -> Option<&AtomicUsize> {
        self.posted.get(self.line(from, to)?)
    }

    fn line(&self, from: Place, to: Place) -> Option<usize> {
        Some(self.number(from)? * (usize::from(self.nodes) + 1) + self.number(to)?)
    }

    fn number(&self, place: Place) -> Option<usize> {
        match place {
            Place::Node(number) => (number < self.nodes).then_some(usize::from(number)),
            Place::Controller => Some(usize::from(self.nodes)),
        }
    }
}

#[cfg(test)]
mod tests {
    use super::*;

    const ONE: Place = Place::Node(1);
    const LONG: Duration = Duration::from_secs(60);

    const TWICE: Fate = Fate::Comes { at: None, twice: true };

    // Of 1,000 messages those that have this fate over the link.
    fn drawn(seed: u64, from: Place, link: Link, fate: Fate) -> Vec<bool> {
        let links = Links::new(3, seed);
        links.set(from, ONE, link);
        (0..1_000).map(|_| links.fate(from, ONE) == fate).collect()
    }

    #[test]
    fn chances_are_the_seeds() {
        let lossy = |one_in| (Link::Lossy { one_in }, Fate::Lost);
        let doubling = |one_in| (Link::Doubling { one_in }, TWICE);
        let zero = Place::Node(0);
        let of = |seed, from, (link, fate)| drawn(seed, from, link, fate);
        for kind in [&lossy as &dyn Fn(u32) -> (Link, Fate), &doubling] {
            let found = of(7, zero, kind(4));
            assert_eq!(found, of(7, zero, kind(4)));
            assert_ne!(found, of(8, zero, kind(4)));
            assert_ne!(found, of(7, Place::Controller, kind(4))); // each link has its own
            let many = found.iter().filter(|it| **it).count();
            assert!((150..350).contains(&many), "{many} of 1,000");
            assert!(of(7, zero, kind(1)).iter().all(|it| *it));
            assert!(!of(7, zero, kind(0)).iter().any(|it| *it));
        }
        // What isn't drawn comes once.
        assert!(drawn(7, zero, Link::Doubling { one_in: 0 }, COMES).iter().all(|it| *it));
    }

    #[test]
    fn a_link_is_one_way_and_keeps_its_order() {
        let links = Links::new(2, 0);
        assert_eq!(links.fate(Place::Node(0), ONE), COMES);
        links.set(Place::Node(0), ONE, Link::Cut);
        assert_eq!(links.fate(Place::Node(0), ONE), Fate::Lost);
        assert_eq!(links.fate(ONE, Place::Node(0)), COMES);
        assert_eq!(links.fate(Place::Controller, ONE), COMES);
        let before = Instant::now();
        links.set(Place::Node(0), ONE, Link::Delayed(LONG));
        let Fate::Comes { at: Some(first), .. } = links.fate(Place::Node(0), ONE) else { panic!("it is held") };
        assert!(first >= before + LONG);
        for link in [Link::Up, Link::Delayed(Duration::from_millis(1)), Link::Lossy { one_in: 0 }, Link::Doubling { one_in: 1 }] {
            links.set(Place::Node(0), ONE, link);
            let twice = link == Link::Doubling { one_in: 1 };
            assert_eq!(links.fate(Place::Node(0), ONE), Fate::Comes { at: Some(first), twice }, "none overtakes it");
        }
        links.set(Place::Node(0), ONE, Link::Delayed(Duration::MAX));
        assert_eq!(links.fate(Place::Node(0), ONE), Fate::Lost);
        links.set(Place::Node(2), ONE, Link::Cut); // no such node
        assert_eq!(links.fate(Place::Node(2), ONE), COMES);
    }

    #[test]
    fn what_is_in_a_channel_keeps_its_link_busy() {
        let links = Links::new(2, 0);
        links.begins(Place::Node(0), ONE);
        links.begins(Place::Node(0), ONE);
        links.ends(Place::Node(0), ONE);
        assert!(links.is_busy(Place::Node(0), ONE));
        assert!(!links.is_busy(ONE, Place::Node(0)));
        links.ends(Place::Node(0), ONE);
        assert!(!links.is_busy(Place::Node(0), ONE));
    }
}
