//! A cluster: its nodes, each behind its lock, and the passes of its callers.

use crate::error::Error;
use crate::ffi::{Limits, RawCluster, RawMessage, RawNode, RawPass, RestartOut, RoleOut};
use crate::message::Message;
use crate::node::Node;
use crate::recorder::journal::{Call, Journal, Told};
use crate::store::{Keeper, RecordKeeper, StoreFault};
use crate::values::{Ack, Leadership, NodeState, Receipt, Role};
use std::mem::replace;
use std::ops::{Deref, DerefMut};
use std::sync::atomic::{AtomicU64, AtomicUsize, Ordering};
use std::sync::{Arc, Condvar, Mutex, MutexGuard, PoisonError};
use std::time::{Duration, Instant};

impl Default for Limits {
    /// Kafka's own: segments of 1 GiB, an index entry each 4 KiB, batches of up to 1 MiB.
    fn default() -> Limits {
        Limits { segment_bytes: 1 << 30, index_interval: 4_096, max_batch: 1_048_576 }
    }
}

// The lock of a thread that panicked is taken all the same: no call of the library ends in a panic, so what it holds is whole.
pub(crate) fn lock<T>(mutex: &Mutex<T>) -> MutexGuard<'_, T> {
    mutex.lock().unwrap_or_else(PoisonError::into_inner)
}

// Wakes those that wait at a node.
//
// No wake-up is lost. Who waits counts itself in `waiting`, reads `rung`, looks, and goes to sleep only where `rung` is still the same
// under the lock of `door`. Who changed something counts it in `rung`, reads `waiting`, and where anybody waits takes that lock before it
// notifies. All four are in the one order of `SeqCst`. If nobody was read to wait, whoever waits later reads this count in `rung`, so what
// was changed before it is seen by the look. If somebody was, the lock is taken before that one tests `rung`, which has changed then, or
// after that one sleeps, whom the notice wakes.
#[derive(Debug, Default)]
struct Bell {
    rung: AtomicU64,
    waiting: AtomicUsize,
    door: Mutex<()>,
    wakes: Condvar,
}

impl Bell {
    // Counts a change that stands already, and says whether anybody waits.
    fn count(&self) -> bool {
        self.rung.fetch_add(1, Ordering::SeqCst);
        self.waiting.load(Ordering::SeqCst) > 0
    }

    // After `count`.
    fn wake(&self) {
        drop(lock(&self.door));
        self.wakes.notify_all();
    }

    fn ring(&self) {
        if self.count() {
            self.wake();
        }
    }

    // Looks now, and after each change, until something is found; the last look begins when the time is up.
    fn wait<T>(&self, limit: Duration, look: impl FnMut() -> Result<Option<T>, Error>) -> Result<Option<T>, Error> {
        let end = Instant::now().checked_add(limit); // none: for ever
        self.waiting.fetch_add(1, Ordering::SeqCst);
        let found = self.look_until(end, look);
        self.waiting.fetch_sub(1, Ordering::SeqCst);
        found
    }

    fn look_until<T>(&self, end: Option<Instant>, mut look: impl FnMut() -> Result<Option<T>, Error>) -> Result<Option<T>, Error> {
        loop {
            let seen = self.rung.load(Ordering::SeqCst);
            let is_last = end.is_some_and(|end| end <= Instant::now());
            let found = look()?;
            if found.is_some() || is_last {
                return Ok(found);
            }
            self.sleep(seen, end);
        }
    }

    // Until a change is counted that wasn't seen, or the time is up.
    fn sleep(&self, seen: u64, end: Option<Instant>) {
        let mut door = lock(&self.door);
        while self.rung.load(Ordering::SeqCst) == seen {
            let left = end.map_or(Duration::MAX, |end| end.saturating_duration_since(Instant::now()));
            if left.is_zero() {
                return;
            }
            door = match end {
                Some(_) => self.wakes.wait_timeout(door, left).unwrap_or_else(PoisonError::into_inner).0,
                None => self.wakes.wait(door).unwrap_or_else(PoisonError::into_inner),
            };
        }
    }
}

// What befell a node by calls of this crate.
#[derive(Clone, Copy, Debug, Default)]
pub(crate) struct Past {
    // How often it was restarted.
    pub life: u64,
    // How many records it took up.
    pub records: u64,
    // What the last one made of it, in this life.
    pub role: Option<Role>,
    // Why its files couldn't be written, in this life.
    pub fault: Option<StoreFault>,
}

// What keeps a cluster in a store's folder.
#[derive(Debug)]
pub(crate) struct Keeping {
    // Of each node.
    pub keepers: Vec<Keeper>,
    pub record: Arc<RecordKeeper>,
    // Whether something was promised that each pass recalls.
    pub recalls: bool,
}

#[derive(Debug)]
struct Kept {
    raw: RawNode,
    past: Past,
    // A high watermark that it had in this life; where nobody waits it may have a higher one.
    mark: u64,
    // Of a node in a store.
    keeper: Option<Keeper>,
}

#[derive(Debug)]
struct Room {
    kept: Mutex<Kept>,
    bell: Bell,
}

impl Room {
    fn new(mut raw: RawNode, keeper: Option<Keeper>) -> Result<Room, Error> {
        let state = raw.show()?;
        let past = Past { life: state.life, ..Past::default() };
        let kept = Kept { raw, past, mark: state.watermark, keeper };
        Ok(Room { kept: Mutex::new(kept), bell: Bell::default() })
    }
}

// The library's node behind its lock. The calls that may change its high watermark, or whether it is up, wake those that wait for that.
#[derive(Debug)]
pub(crate) struct Held<'a> {
    kept: MutexGuard<'a, Kept>,
    bell: &'a Bell,
}

impl Deref for Held<'_> {
    type Target = RawNode;

    fn deref(&self) -> &RawNode {
        &self.kept.raw
    }
}

impl DerefMut for Held<'_> {
    fn deref_mut(&mut self) -> &mut RawNode {
        &mut self.kept.raw
    }
}

impl Held<'_> {
    pub(crate) fn past(&self) -> Past {
        self.kept.past
    }

    // Has the keeper do its part, where a store keeps the node. A node whose files can't be written is stopped.
    fn keeps(&mut self, part: impl FnOnce(&mut Keeper, &mut RawNode, &NodeState) -> Result<(), Error>) -> Result<(), Error> {
        let Kept { raw, past, keeper: Some(keeper), .. } = &mut *self.kept else { return Ok(()) };
        let state = NodeState::from(raw.show()?);
        let done = part(keeper, raw, &state);
        if let Err(Error::Store(fault)) = done {
            past.fault = Some(fault);
            if raw.stop().is_ok() {
                past.role = None;
                self.bell.ring();
            }
        }
        done
    }

    pub(crate) fn adopt(&mut self) -> Result<RoleOut, Error> {
        self.keeps(Keeper::before_sending)?;
        let role = self.kept.raw.adopt()?;
        let past = &mut self.kept.past;
        (past.records, past.role) = (past.records + 1, Some(Role::from(role)));
        self.bell.ring();
        self.keeps(Keeper::after_change)?;
        Ok(role)
    }

    pub(crate) fn raise(&mut self) -> Result<u64, Error> {
        self.keeps(Keeper::before_sending)?;
        let mark = self.kept.raw.raise()?;
        if self.has_moved(mark) {
            if let Some(keeper) = &mut self.kept.keeper {
                keeper.note_mark(mark);
            }
            self.bell.ring();
        }
        Ok(mark)
    }

    pub(crate) fn checkpoint(&mut self) -> Result<u64, Error> {
        self.keeps(Keeper::before_checkpoint)?;
        self.kept.raw.checkpoint()
    }

    // A checkpoint at a node's own turn, which a store notes more rarely; the high watermark in any case.
    pub(crate) fn note(&mut self) -> Result<u64, Error> {
        match &self.kept.keeper {
            Some(keeper) if !keeper.is_due() => self.kept.raw.show().map(|it| it.watermark),
            _ => self.checkpoint(),
        }
    }

    pub(crate) fn stop(&mut self) -> Result<(), Error> {
        if let Err(error @ Error::Store(_)) = self.keeps(Keeper::before_stop) {
            return Err(error); // it is stopped all the same
        }
        self.kept.raw.stop()?;
        self.kept.past.role = None;
        self.bell.ring();
        Ok(())
    }

    pub(crate) fn restart(&mut self) -> Result<RestartOut, Error> {
        self.keeps(Keeper::before_start)?;
        let restarted = self.kept.raw.restart()?;
        self.kept.past = Past { life: restarted.life, role: None, fault: None, ..self.kept.past };
        self.kept.mark = restarted.watermark;
        self.bell.ring();
        self.keeps(Keeper::after_change)?;
        Ok(restarted)
    }

    pub(crate) fn ask(&mut self) -> Result<RawMessage, Error> {
        self.keeps(Keeper::before_sending)?;
        self.kept.raw.ask()
    }

    pub(crate) fn alter(&mut self, joins: bool, which: u8) -> Result<RawMessage, Error> {
        self.keeps(Keeper::before_sending)?;
        self.kept.raw.alter(joins, which)
    }

    pub(crate) fn step(&mut self, message: RawMessage) -> Result<Option<RawMessage>, Error> {
        self.keeps(Keeper::before_sending)?;
        let stepped = self.kept.raw.step(message);
        match &stepped {
            Ok(_) => {
                if self.bell.count() && self.may_have_moved() {
                    self.bell.wake();
                }
            }
            Err(error) if error.is_memory() => self.bell.ring(), // it may be down
            Err(_) => {}                                         // it is as before
        }
        if matches!(stepped, Ok(None)) {
            self.keeps(Keeper::after_step)?;
        }
        stepped
    }

    // Within a life a high watermark only rises, and is never below what is kept of it.
    fn has_moved(&mut self, mark: u64) -> bool {
        mark != replace(&mut self.kept.mark, mark)
    }

    fn may_have_moved(&mut self) -> bool {
        match self.kept.raw.show() {
            Ok(state) => self.has_moved(state.watermark),
            Err(_) => true,
        }
    }
}

#[derive(Debug)]
struct Shared {
    // The cluster's.
    number: u64,
    board: Mutex<RawCluster>,
    nodes: Vec<Room>,
    // Of a cluster in a store.
    record: Option<Arc<RecordKeeper>>,
    recalls: bool,
    // Of a cluster that is recorded.
    journal: Option<Arc<Journal>>,
}

/// One to seven nodes that replicate one log, and the controller's record of who leads. A clone is the same cluster; its memory is
/// freed with the last clone and the last [`Pass`]. The logs lie in memory alone, unless a [`Store`](crate::Store) has opened it. It may be
/// shared among threads; what is called of a node waits for that node's lock alone.
///
/// Of a cluster in a store, what a node's calls rest on is on the disk first: they wait for the disk, may be refused by F33, and give
/// [`Error::Store`] where it fails.
///
/// ```
/// use kpart::{Ack, Cluster, Limits, Role};
///
/// # fn main() -> Result<(), kpart::Error> {
/// let cluster = Cluster::open(1, Limits::default())?;
/// let mut pass = cluster.pass()?;
/// pass.elect(0)?;
/// let batch = include_bytes!(concat!(env!("CARGO_MANIFEST_DIR"), "/tests/one_record.batch"));
///
/// let mut leader = cluster.node(0)?;
/// assert_eq!(leader.adopt()?, Role::Leads { epoch: 0, start: 0 });
/// let receipt = leader.produce(&mut pass, batch)?;
/// assert_eq!(leader.acked(&mut pass, &receipt)?, Ack::NotYet);
/// leader.raise()?; // it is alone in sync, so its log's end is committed
/// assert_eq!(leader.acked(&mut pass, &receipt)?, Ack::Yes);
/// # Ok(()) }
/// ```
#[derive(Clone, Debug)]
pub struct Cluster {
    shared: Arc<Shared>,
}

impl Cluster {
    /// Opens so many nodes, with empty logs: all in sync, and nobody leads. [`Error::OutOfRange`] above seven nodes,
    /// [`Error::NoRoom`]. O(n) in the nodes.
    pub fn open(nodes: u8, limits: Limits) -> Result<Cluster, Error> {
        Cluster::of(RawCluster::open(nodes, &limits)?, nodes, None)
    }

    // The same, and each call is noted.
    pub(crate) fn open_noted(nodes: u8, limits: Limits, journal: Arc<Journal>) -> Result<Cluster, Error> {
        Cluster::made(RawCluster::open(nodes, &limits)?, nodes, None, Some(journal))
    }

    // The board's nodes, of which none is open yet.
    pub(crate) fn of(board: RawCluster, nodes: u8, keeping: Option<Keeping>) -> Result<Cluster, Error> {
        Cluster::made(board, nodes, keeping, None)
    }

    fn made(mut board: RawCluster, nodes: u8, keeping: Option<Keeping>, journal: Option<Arc<Journal>>) -> Result<Cluster, Error> {
        let (keepers, record, recalls) = match keeping {
            Some(it) => (it.keepers, Some(it.record), it.recalls),
            None => (Vec::new(), None, false),
        };
        let mut keepers = keepers.into_iter();
        let opened: Result<Vec<Room>, Error> = (0..nodes).map(|_| Room::new(board.node()?, keepers.next())).collect();
        let shared = Shared { number: board.cluster(), nodes: opened?, board: Mutex::new(board), record, recalls, journal };
        Ok(Cluster { shared: Arc::new(shared) })
    }

    /// How many nodes it has.
    pub fn nodes(&self) -> u8 {
        self.shared.nodes.len() as u8
    }

    /// A new caller's pass; of a cluster in a store it has recalled what was promised ([`Pass::recall`]). [`Error::NoRoom`]. O(1).
    pub fn pass(&self) -> Result<Pass, Error> {
        let mut raw = lock(&self.shared.board).pass()?;
        if self.shared.recalls {
            raw.recall()?;
        }
        Ok(Pass { raw, record: self.shared.record.clone(), journal: self.shared.journal.clone() })
    }

    /// Waits for a node's lock, and takes it. Let go of it before you ask for another node's, as two threads that hold one node
    /// each could wait for one another. [`Error::OutOfRange`] where there is no such node.
    pub fn node(&self, number: u8) -> Result<Node<'_>, Error> {
        let room = self.room(number)?;
        Ok(Node::new(number, Held { kept: lock(&room.kept), bell: &room.bell }, self.shared.journal.as_deref()))
    }

    /// Waits until a node's high watermark lies above an offset, for so long at most, and says where it is then: at once where it
    /// lies above already, and `None` where the time is up. A time that no clock reaches is no bound. A node that is down is waited for,
    /// too, as somebody may restart it. [`Error::OutOfRange`] where there is no such node; [`Error::OtherCluster`].
    ///
    /// It sleeps, and looks anew, without a lock and in O(1), after each call of this crate by which the node's watermark may have
    /// risen. Hold no node meanwhile: whoever would raise it waits for that.
    ///
    /// ```
    /// use kpart::{Cluster, Limits};
    /// use std::time::Duration;
    ///
    /// # fn main() -> Result<(), kpart::Error> {
    /// let cluster = Cluster::open(1, Limits::default())?;
    /// let mut pass = cluster.pass()?;
    /// pass.elect(0)?;
    /// assert_eq!(cluster.wait_mark(&mut pass, 0, 0, Duration::from_millis(1))?, None);
    /// let batch = include_bytes!(concat!(env!("CARGO_MANIFEST_DIR"), "/tests/one_record.batch"));
    /// let other = cluster.clone();
    /// std::thread::spawn(move || -> Result<(), kpart::Error> {
    ///     let mut producer = other.pass()?;
    ///     let mut leader = other.node(0)?;
    ///     leader.adopt()?;
    ///     leader.produce(&mut producer, batch)?;
    ///     leader.raise()?;
    ///     Ok(())
    /// });
    /// assert_eq!(cluster.wait_mark(&mut pass, 0, 0, Duration::from_secs(20))?, Some(1));
    /// # Ok(()) }
    /// ```
    pub fn wait_mark(&self, pass: &mut Pass, node: u8, above: u64, limit: Duration) -> Result<Option<u64>, Error> {
        let room = self.room(node)?;
        if pass.raw.cluster() != self.shared.number {
            return Err(Error::OtherCluster);
        }
        room.bell.wait(limit, || {
            let mark = pass.watermark(node)?;
            Ok((mark > above).then_some(mark))
        })
    }

    /// Waits until a node knows whether the receipt's batch is committed, for so long at most: what [`Node::acked`] says then, at once
    /// where it is known already, and [`Ack::NotYet`] where the time is up. F28 as soon as the node is down. [`Error::OutOfRange`]
    /// where there is no such node; [`Error::OtherCluster`].
    ///
    /// It sleeps as [`Cluster::wait_mark`] does, but looks under the node's lock, as [`Node::acked`] does: hold no node meanwhile. A
    /// node that leads no more may never know: bound the time, and ask the next leader.
    ///
    /// ```
    /// use kpart::{Ack, Cluster, Limits, Workers};
    /// use std::time::Duration;
    ///
    /// # fn main() -> Result<(), kpart::Error> {
    /// let cluster = Cluster::open(3, Limits::default())?;
    /// let mut pass = cluster.pass()?;
    /// pass.elect(0)?;
    /// cluster.node(0)?.adopt()?;
    /// let _workers = Workers::start(&cluster, Duration::from_millis(1))?;
    /// let batch = include_bytes!(concat!(env!("CARGO_MANIFEST_DIR"), "/tests/one_record.batch"));
    /// let receipt = cluster.node(0)?.produce(&mut pass, batch)?;
    /// assert_eq!(cluster.wait_acked(&mut pass, 0, &receipt, Duration::from_secs(20))?, Ack::Yes);
    /// # Ok(()) }
    /// ```
    pub fn wait_acked(&self, pass: &mut Pass, node: u8, receipt: &Receipt, limit: Duration) -> Result<Ack, Error> {
        let known = self.room(node)?.bell.wait(limit, || {
            let ack = self.node(node)?.acked(pass, receipt)?;
            Ok((ack != Ack::NotYet).then_some(ack))
        })?;
        Ok(known.unwrap_or(Ack::NotYet))
    }

    fn room(&self, number: u8) -> Result<&Room, Error> {
        self.shared.nodes.get(usize::from(number)).ok_or(Error::OutOfRange)
    }
}

/// What a caller was shown so far, and the receipts that it got. What two nodes tell one pass never contradicts: a high watermark
/// never goes back, and of two committed lists one begins the other. Each thread has its own.
///
/// A pass of one cluster is refused by the nodes of another one:
///
/// ```
/// use kpart::{Cluster, Error, Limits};
///
/// # fn main() -> Result<(), kpart::Error> {
/// let (one, other) = (Cluster::open(1, Limits::default())?, Cluster::open(1, Limits::default())?);
/// let mut pass = one.pass()?;
/// assert_eq!(other.node(0)?.read(&mut pass, 0).err(), Some(Error::OtherCluster));
/// # Ok(()) }
/// ```
#[derive(Debug)]
pub struct Pass {
    pub(crate) raw: RawPass,
    // Of a cluster in a store.
    record: Option<Arc<RecordKeeper>>,
    // Of one that is recorded.
    journal: Option<Arc<Journal>>,
}

impl Pass {
    /// Elects a node, which has to be in sync (F21), by one exchange at the controller's record; F22 where another change came
    /// between. Nodes learn it by [`Node::adopt`]. F24 where epochs are used up. O(1), takes no lock, and waits for nobody; but of a cluster
    /// in a store elections and decisions come one by one, each once its record is on the disk, so F22 doesn't come; nor does it of a recorded
    /// one, where they take a lock.
    pub fn elect(&mut self, node: u8) -> Result<Leadership, Error> {
        let open = self.journal.as_ref().map(|it| it.open());
        let elected = match &self.record {
            Some(record) => record.elect(&mut self.raw, node),
            None => self.raw.elect(node).map(Leadership::from),
        };
        if let Some(open) = open {
            open.enter(Call::Elect(node), elected.map(Told::from));
        }
        elected
    }

    /// The controller's record as it is now. O(1), and no lock.
    pub fn leadership(&mut self) -> Result<Leadership, Error> {
        self.raw.leadership().map(Leadership::from)
    }

    /// A node's high watermark: all below it is committed. [`Error::OutOfRange`] where there is no such node. O(1), and no lock.
    /// [`Cluster::wait_mark`] waits until it rises.
    pub fn watermark(&mut self, node: u8) -> Result<u64, Error> {
        self.raw.watermark(node)
    }

    /// Takes over the receipts that another caller's pass has, which keeps them, too. What [`Node::acked`] promises of the receipts of its
    /// pass, it promises then of these: hand a receipt on with the pass that it came to. [`Error::OtherCluster`]. O(1), and no lock.
    ///
    /// ```
    /// use kpart::{Ack, Cluster, Limits};
    ///
    /// # fn main() -> Result<(), kpart::Error> {
    /// let cluster = Cluster::open(1, Limits::default())?;
    /// let (mut producer, mut consumer) = (cluster.pass()?, cluster.pass()?);
    /// producer.elect(0)?;
    /// let batch = include_bytes!(concat!(env!("CARGO_MANIFEST_DIR"), "/tests/one_record.batch"));
    ///
    /// let mut leader = cluster.node(0)?;
    /// leader.adopt()?;
    /// let receipt = leader.produce(&mut producer, batch)?;
    /// leader.raise()?;
    /// consumer.take_receipts(&mut producer)?;
    /// assert_eq!(leader.acked(&mut consumer, &receipt)?, Ack::Yes);
    /// # Ok(()) }
    /// ```
    pub fn take_receipts(&mut self, from: &mut Pass) -> Result<(), Error> {
        self.raw.take_receipts(&mut from.raw)
    }

    /// What the controller decides on a proposal ([`Node::alter`]): hand it to the node that it goes to. F24 where versions are used
    /// up; F29 where the message is no proposal. The message is spent in any case. O(1), and no lock but as [`Pass::elect`].
    pub fn decide(&mut self, proposal: Message) -> Result<Message, Error> {
        match (&self.record, &self.journal) {
            (Some(record), _) => record.decide(&mut self.raw, proposal),
            (None, Some(journal)) => journal.enter_decided(proposal, |it| {
                let decision = Message::new(self.raw.decide(it.raw)?)?;
                Ok((decision, self.raw.leadership()?.into()))
            }),
            (None, None) => Message::new(self.raw.decide(proposal.raw)?),
        }
    }

    /// Makes what the process had promised that left the cluster ([`Cluster::open_again`]) a part of what this pass has seen, so that all that
    /// it sees later, at any node, goes on from that. Of any other cluster nothing was promised. O(1), and no lock.
    pub fn recall(&mut self) -> Result<(), Error> {
        self.raw.recall()
    }
}

#[cfg(test)]
mod tests {
    use super::*;
    use std::sync::atomic::AtomicBool;
    use std::thread;

    const SOON: Duration = Duration::from_millis(50);
    const LONG: Duration = Duration::from_secs(20);

    // A change that comes between the look and the sleep.
    #[test]
    fn what_changes_behind_a_look_is_seen_at_once() {
        let (bell, start, mut looks) = (Bell::default(), Instant::now(), 0);
        let found = bell.wait(LONG, || {
            looks += 1;
            bell.ring();
            Ok((looks == 3).then_some(looks))
        });
        assert_eq!(found, Ok(Some(3)));
        assert!(start.elapsed() < LONG);
    }

    #[test]
    fn one_looks_at_first_at_changes_and_at_last() {
        let (bell, mut looks) = (Bell::default(), 0);
        let mut look = || {
            looks += 1;
            Ok(None::<()>)
        };
        assert_eq!(bell.wait(SOON, &mut look), Ok(None));
        assert_eq!(bell.wait(Duration::ZERO, &mut look), Ok(None));
        assert_eq!(looks, 2 + 1);
        let (mut looks, has_rung) = (0, AtomicBool::new(false));
        thread::scope(|scope| {
            scope.spawn(|| {
                while bell.waiting.load(Ordering::SeqCst) == 0 {
                    thread::yield_now();
                }
                for _ in 0..100 {
                    bell.count(); // nothing that anybody waits for
                }
                has_rung.store(true, Ordering::SeqCst);
                bell.ring();
            });
            let found = bell.wait(LONG, || {
                looks += 1;
                Ok(has_rung.load(Ordering::SeqCst).then_some(7))
            });
            assert_eq!(found, Ok(Some(7)));
        });
        assert!(looks <= 1 + 100 + 1, "{looks} looks");
        assert_eq!(bell.wait(LONG, || Err::<Option<()>, _>(Error::NoRoom)), Err(Error::NoRoom));
        assert_eq!(bell.waiting.load(Ordering::SeqCst), 0);
    }
}
