//! What carries messages from node to node: the thread that has a node ask, and where a link holds something back the workers' channels.

use crate::cluster::{Cluster, Pass, lock};
use crate::error::Error;
use crate::inbox::{Letter, Parcel};
use crate::links::{Fate, Links, Place};
use crate::message::{Addressee, Message, Said};
use crate::node::Node;
use crate::teller::Teller;
use crate::values::Role;
use std::collections::VecDeque;
use std::sync::atomic::{AtomicBool, Ordering};
use std::sync::mpsc::Sender;
use std::sync::{Mutex, MutexGuard};
use std::time::{Duration, Instant};

// So many messages a thread carries that has a node ask. Where there are more, as somebody hands in batch after batch, a worker goes on.
const MOST: u32 = 32;

// What is kept of a node outside of its lock.
pub(crate) struct Desk {
    post: Sender<Parcel>,
    // When it asked its leader; none where no answer is under way, as it has come, or the request was refused.
    asked: Mutex<Option<Instant>>,
    // It went down as memory was refused while it took something.
    has_fallen: AtomicBool,
    teller: Option<Teller>,
}

impl Desk {
    pub(crate) fn new(post: Sender<Parcel>, teller: Option<Teller>) -> Desk {
        Desk { post, asked: Mutex::default(), has_fallen: AtomicBool::new(false), teller }
    }

    pub(crate) fn has_fallen(&self) -> bool {
        self.has_fallen.load(Ordering::Relaxed)
    }

    pub(crate) fn set_fallen(&self, has_fallen: bool) {
        self.has_fallen.store(has_fallen, Ordering::Relaxed);
    }

    pub(crate) fn set_asked(&self, asked: Option<Instant>) {
        *lock(&self.asked) = asked;
    }

    fn waits(&self, patience: Duration) -> bool {
        lock(&self.asked).is_some_and(|asked| asked.elapsed() < patience)
    }

    // The node's lock is held.
    pub(crate) fn look(&self, node: &Node<'_>, is_down: bool) {
        if let Some(teller) = &self.teller {
            teller.look(node, is_down);
        }
    }

    // No lock is held.
    pub(crate) fn tell(&self) {
        if let Some(teller) = &self.teller {
            teller.tell();
        }
    }
}

// Locks are taken in this order: the way between two nodes, then one node at a time, then what is kept outside of it.
pub(crate) struct Carrier {
    cluster: Cluster,
    links: Links,
    desks: Vec<Desk>,
    controller: Sender<Parcel>,
    // Between each two nodes, by the lower number and the higher one: held from the call by which one of them sends until the other one has
    // taken what was sent, so nothing overtakes.
    ways: Vec<Mutex<()>>,
    // The controller's, by which messages are repeated, too.
    pass: Mutex<Pass>,
    // A follower that gets no answer asks again after so long.
    patience: Duration,
}

impl Carrier {
    // To each node's desk, and to the controller.
    pub(crate) fn new(
        cluster: &Cluster,
        links: Links,
        desks: Vec<Desk>,
        controller: Sender<Parcel>,
        patience: Duration,
    ) -> Result<Carrier, Error> {
        let ways = (0..desks.len() * desks.len()).map(|_| Mutex::default()).collect();
        let pass = Mutex::new(cluster.pass()?);
        Ok(Carrier { cluster: cluster.clone(), links, desks, controller, ways, pass, patience })
    }

    pub(crate) fn nodes(&self) -> u8 {
        self.cluster.nodes()
    }

    pub(crate) fn links(&self) -> &Links {
        &self.links
    }

    // None for a number that the cluster hasn't got.
    pub(crate) fn desk(&self, number: u8) -> Option<&Desk> {
        self.desks.get(usize::from(number))
    }

    // What comes to a worker that has ended is dropped, as any message may be.
    pub(crate) fn put(&self, to: Addressee, parcel: Parcel) {
        let post = match to {
            Addressee::Node(number) => self.desk(number).map(|it| &it.post),
            Addressee::Controller => Some(&self.controller),
        };
        if let Some(post) = post {
            let _sent = post.send(parcel);
        }
    }

    // By a channel, over this link, or over none.
    pub(crate) fn post(&self, from: Option<Place>, message: Message, due: Option<Instant>) {
        let to = message.addressee();
        if let Some(from) = from {
            self.links.begins(from, to.into());
        }
        self.put(to, Parcel::Letter(Letter { message, from, due }));
    }

    fn way(&self, one: u8, other: u8) -> Option<MutexGuard<'_, ()>> {
        let place = usize::from(one.min(other)) * self.desks.len() + usize::from(one.max(other));
        self.ways.get(place).map(lock)
    }

    // Has the other nodes ask this one, and commits what they all have.
    pub(crate) fn replicate(&self, leader: u8) -> Result<(), Error> {
        if self.raises(leader)? {
            for follower in (0..self.cluster.nodes()).filter(|it| *it != leader) {
                self.ask(follower);
            }
        }
        Ok(())
    }

    // Whether it leads.
    fn raises(&self, number: u8) -> Result<bool, Error> {
        let mut node = self.cluster.node(number)?;
        let leads = node.raise().is_ok();
        let Some(desk) = self.desk(number).filter(|_| leads) else { return Ok(leads) };
        desk.look(&node, false);
        drop(node);
        desk.tell();
        Ok(true)
    }

    // Has a node that follows ask its leader, unless an answer is under way, and carries what comes of it. Whether batches came.
    pub(crate) fn ask(&self, number: u8) -> bool {
        let Some(leader) = self.leader_of(number) else { return false };
        let (Some(desk), Some(way)) = (self.desk(number), self.way(number, leader)) else { return false };
        if desk.waits(self.patience) {
            return false;
        }
        let request = self.cluster.node(number).and_then(|mut it| it.ask());
        // Where it has heard of another leader meanwhile, that one is asked at its next turn.
        let Some(request) = request.ok().filter(|it| it.addressee() == Addressee::Node(leader)) else { return false };
        let count = self.carry(number, Some((number, request)));
        drop(way);
        self.tell(number);
        self.tell(leader);
        count > 2 // behind a request and its answer comes another request
    }

    fn leader_of(&self, number: u8) -> Option<u8> {
        match self.cluster.node(number).ok()?.past().role {
            Some(Role::Follows { leader, .. }) if leader != number => Some(leader),
            _ => None,
        }
    }

    pub(crate) fn tell(&self, number: u8) {
        if let Some(desk) = self.desk(number) {
            desk.tell();
        }
    }

    // A node's worker got a letter: it is taken, and what comes of it carried on.
    pub(crate) fn deliver(&self, number: u8, letter: Letter) {
        let Letter { mut message, from, .. } = letter;
        let other = match message.sender() {
            Ok(Addressee::Node(other)) => Some(other),
            _ => None,
        };
        let asker = match message.said() {
            Ok(Said::AsksFrom { .. }) => other.unwrap_or(number),
            _ => number,
        };
        let way = other.and_then(|other| self.way(number, other));
        let next = self.take(number, asker, message);
        if let Some(from) = from {
            self.links.ends(from, Place::Node(number));
        }
        if other.is_some() {
            self.carry(asker, next.map(|it| (number, it)));
        }
        drop(way);
        self.tell(number);
        other.into_iter().for_each(|it| self.tell(it));
    }

    // Carries what a node has sent, and what comes of it, in the order of sending, between the node that asks and its leader, and says how many
    // messages were taken. The way between them is held.
    fn carry(&self, asker: u8, first: Option<(u8, Message)>) -> u32 {
        let mut sent: VecDeque<_> = first.into_iter().collect();
        let (mut count, mut waits) = (0, false);
        while let Some((from, message)) = sent.pop_front() {
            let has_come = self.send_with(Place::Node(from), message, |message| match message.addressee() {
                Addressee::Node(to) if count < MOST => {
                    count += 1;
                    let next = self.take(to, asker, message);
                    sent.extend(next.map(|it| (to, it)));
                    None
                }
                _ => Some(message),
            });
            waits |= !has_come;
        }
        if let Some(desk) = self.desk(asker) {
            desk.set_asked(waits.then(Instant::now));
        }
        count
    }

    // Over the link from there: what nothing holds back is given to `arrives`, and what that gives back, and all else, goes by a channel. Whether
    // it has arrived.
    fn send_with(&self, from: Place, mut message: Message, mut arrives: impl FnMut(Message) -> Option<Message>) -> bool {
        let to = message.addressee().into();
        let Fate::Comes { at, twice } = self.links.fate(from, to) else { return false };
        let again = if twice { message.repeat(&mut lock(&self.pass)).ok() } else { None };
        let mut has_come = true;
        for message in [Some(message), again].into_iter().flatten() {
            let held = if at.is_some() || self.links.is_busy(from, to) { Some(message) } else { arrives(message) };
            if let Some(message) = held {
                self.post(Some(from), message, at);
                has_come = false;
            }
        }
        has_come
    }

    // The controller got a letter: it decides, and sends the decision on.
    pub(crate) fn decide(&self, proposal: Message) {
        let decided = lock(&self.pass).decide(proposal);
        if let Ok(decision) = decided {
            self.send(Place::Controller, decision);
        }
    }

    // Over the link from there, by a channel.
    pub(crate) fn send(&self, from: Place, message: Message) {
        self.send_with(from, message, Some);
    }

    // Hands a node a message. What it sends is a leader's answer, or what a follower asks for that took batches, so that its leader knows at once
    // what it has.
    fn take(&self, number: u8, asker: u8, mut message: Message) -> Option<Message> {
        let desk = self.desk(number)?;
        let brings = number == asker && matches!(message.said(), Ok(Said::Batches { count: 1.., .. }));
        let mut node = self.cluster.node(number).ok()?;
        let mut is_down = false;
        let next = match node.step(message) {
            Ok(Some(answer)) => {
                let _raised = node.raise();
                Some(answer)
            }
            Ok(None) if brings => node.ask().ok(),
            Ok(None) => None,
            Err(error) => {
                is_down = node.is_down();
                // It has fallen also where something else comes before its next turn, and is refused since it is down.
                if is_down && error.is_memory() {
                    desk.set_fallen(true);
                }
                None
            }
        };
        desk.look(&node, is_down);
        next
    }
}

#[cfg(test)]
mod tests {
    use super::*;
    use crate::ffi::Limits;
    use crate::links::Link;
    use crate::values::{Ack, Change, Receipt};
    use std::sync::mpsc::{Receiver, channel};

    const ONE_RECORD: &[u8] = include_bytes!("../tests/one_record.batch");
    const HOUR: Duration = Duration::from_secs(3_600);

    // A cluster without workers, whose node 0 leads, and what comes by the channels of its nodes and of the controller.
    struct Room {
        cluster: Cluster,
        carrier: Carrier,
        nodes: Vec<Receiver<Parcel>>,
        controller: Receiver<Parcel>,
        pass: Pass,
    }

    impl Room {
        fn new(nodes: u8, patience: Duration) -> Result<Room, Error> {
            let cluster = Cluster::open(nodes, Limits::default())?;
            let mut pass = cluster.pass()?;
            pass.elect(0)?;
            (0..nodes).try_for_each(|it| cluster.node(it)?.adopt().map(drop))?;
            let (posts, parcels): (Vec<_>, Vec<_>) = (0..nodes).map(|_| channel()).unzip();
            let (decides, controller) = channel();
            let desks = posts.into_iter().map(|it| Desk::new(it, None)).collect();
            let carrier = Carrier::new(&cluster, Links::new(nodes, 0), desks, decides, patience)?;
            Ok(Room { cluster, carrier, nodes: parcels, controller, pass })
        }

        fn put(&mut self) -> Result<Receipt, Error> {
            self.cluster.node(0)?.produce(&mut self.pass, ONE_RECORD)
        }

        fn ack(&mut self, receipt: &Receipt) -> Result<Ack, Error> {
            self.cluster.node(0)?.acked(&mut self.pass, receipt)
        }

        fn end(&self, node: u8) -> Result<u64, Error> {
            Ok(self.cluster.node(node)?.show()?.end)
        }

        // Hands the next letter in node 1's channel to it, as its worker does.
        fn deliver(&self) -> Option<()> {
            let Ok(Parcel::Letter(letter)) = self.nodes[1].try_recv() else { return None };
            self.carrier.deliver(1, letter);
            Some(())
        }
    }

    #[test]
    fn a_thread_replicates_by_itself() -> Result<(), Error> {
        let mut room = Room::new(3, HOUR)?;
        for _ in 0..3 {
            let receipt = room.put()?;
            assert_eq!(room.ack(&receipt)?, Ack::NotYet);
            room.carrier.replicate(0)?;
            assert_eq!(room.ack(&receipt)?, Ack::Yes);
        }
        assert_eq!((room.end(1)?, room.end(2)?), (3, 3));
        assert!(room.nodes.iter().all(|it| it.try_recv().is_err()));
        room.put()?;
        room.carrier.replicate(1)?; // it doesn't lead
        assert_eq!(room.end(1)?, 3);
        assert_eq!(room.carrier.replicate(3), Err(Error::OutOfRange));
        let mut alone = Room::new(1, HOUR)?;
        let receipt = alone.put()?;
        alone.carrier.replicate(0)?;
        assert_eq!(alone.ack(&receipt)?, Ack::Yes);
        Ok(())
    }

    #[test]
    fn a_link_that_holds_back_has_the_channel() -> Result<(), Error> {
        let mut room = Room::new(2, HOUR)?;
        room.carrier.links().set(Place::Node(0), Place::Node(1), Link::Delayed(HOUR));
        let receipt = room.put()?;
        room.carrier.replicate(0)?;
        room.carrier.replicate(0)?; // an answer is under way: it doesn't ask again
        assert_eq!((room.end(1)?, room.ack(&receipt)?), (0, Ack::NotYet));
        assert_eq!(room.deliver(), Some(()));
        assert_eq!((room.end(1)?, room.ack(&receipt)?), (1, Ack::Yes)); // what it took it has reported
        assert_eq!((room.deliver(), room.deliver()), (Some(()), None));
        Ok(())
    }

    #[test]
    fn nothing_overtakes_what_a_channel_has() -> Result<(), Error> {
        let mut room = Room::new(2, Duration::ZERO)?;
        room.put()?;
        let request = room.cluster.node(1)?.ask()?;
        let answer = room.cluster.node(0)?.step(request)?.expect("an answer");
        room.carrier.post(Some(Place::Node(0)), answer, None);
        let receipt = room.put()?;
        room.carrier.replicate(0)?; // what it answers comes behind
        assert_eq!(room.end(1)?, 0);
        let ends: Result<Vec<u64>, Error> = std::iter::from_fn(|| room.deliver()).map(|()| room.end(1)).collect();
        assert_eq!(ends?, [1, 1, 2]); // the second one isn't of what it asked for last; the third is
        assert_eq!(room.ack(&receipt)?, Ack::Yes);
        room.put()?;
        room.carrier.replicate(0)?; // the channel is empty
        assert_eq!(room.end(1)?, 3);
        Ok(())
    }

    #[test]
    fn a_request_that_is_refused_may_come_again() -> Result<(), Error> {
        let mut room = Room::new(2, HOUR)?;
        let receipt = room.put()?;
        room.cluster.node(0)?.stop()?;
        assert!(!room.carrier.ask(1));
        room.cluster.node(0)?.restart()?;
        room.pass.elect(0)?;
        (0..2).try_for_each(|it| room.cluster.node(it)?.adopt().map(drop))?;
        assert!(room.carrier.ask(1));
        assert_eq!(room.ack(&receipt)?, Ack::Yes);
        Ok(())
    }

    #[test]
    fn what_is_doubled_comes_twice() -> Result<(), Error> {
        let mut room = Room::new(2, HOUR)?;
        room.carrier.links().set(Place::Node(0), Place::Controller, Link::Doubling { one_in: 1 });
        let proposal = room.cluster.node(0)?.alter(Change::Leave(1))?;
        room.carrier.send(Place::Node(0), proposal);
        let came: Vec<Parcel> = room.controller.try_iter().collect();
        assert_eq!(came.len(), 2);
        for (parcel, is_decided) in came.into_iter().zip([true, false]) {
            let Parcel::Letter(letter) = parcel else { panic!("a letter") };
            let version = room.pass.leadership()?.version;
            let _decision = room.pass.decide(letter.message);
            assert_eq!(room.pass.leadership()?.version > version, is_decided, "just the first one changes anything");
        }
        Ok(())
    }

    #[test]
    fn a_doubled_answer_is_taken_once() -> Result<(), Error> {
        let mut room = Room::new(2, HOUR)?;
        for (from, to) in [(0, 1), (1, 0)] {
            room.carrier.links().set(Place::Node(from), Place::Node(to), Link::Doubling { one_in: 1 });
        }
        for count in 1..=5 {
            let receipt = room.put()?;
            room.carrier.replicate(0)?;
            assert_eq!((room.end(1)?, room.ack(&receipt)?), (count, Ack::Yes));
        }
        assert_eq!(room.deliver(), None);
        Ok(())
    }
}
