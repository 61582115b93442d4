//! A thread for each node, which gives it its turns, and takes what links hold back.

use crate::carrier::{Carrier, Desk};
use crate::cluster::Cluster;
use crate::error::{Error, Refusal};
use crate::inbox::{Inbox, Parcel};
use crate::links::{Link, Links, Place};
use crate::message::{Addressee, Message};
use crate::teller::{Event, Hook, Teller};
use crate::values::Change;
use std::fmt;
use std::mem::replace;
use std::sync::Arc;
use std::sync::mpsc::channel;
use std::thread::{Builder, JoinHandle};
use std::time::{Duration, Instant};

// After so many turns without an answer a follower asks again.
const PATIENCE: u32 = 50;
// After so many turns that did nothing the next one comes later, and at last so many times as late.
const QUIET: u32 = 16;
const SLOWEST: u32 = 8;

/// A worker for each node and one for the controller: each a thread, with a channel of std for what comes to it.
///
/// At its turn, which comes again and again, a node takes up the controller's record; then it asks its leader, unless an answer is
/// under way, or, where it leads, raises its high watermark; and it notes its high watermark as the checkpoint, in a store once a second at
/// most. A follower that took batches asks again at once. While a node's turns do nothing, as nothing changes or others were faster, they come more rarely, at last
/// eight times as late; [`Workers::turn`] ends that at once. A node that was stopped stays down until somebody restarts it; one that went down as memory
/// was refused in a take is started again at its next turn. Dropping the workers stops them. [`Workers::start_with`] tells the host
/// what becomes of the nodes; by [`Workers::link`] a test loses messages, holds them back, or doubles them.
///
/// The thread that has a node ask carries the request to the leader, and what comes of it, by one node's lock after another: no other
/// thread has to wake for it. What a link holds back, and what goes to the controller or comes from it, goes by the channels. Whoever
/// hands in batches can have them replicated so, in its own thread, by [`Workers::replicate`].
///
/// ```
/// use kpart::{Change, Cluster, Limits, Workers};
/// use std::time::Duration;
///
/// # fn main() -> Result<(), kpart::Error> {
/// let cluster = Cluster::open(2, Limits::default())?;
/// let mut pass = cluster.pass()?;
/// pass.elect(0)?;
/// let workers = Workers::start(&cluster, Duration::from_millis(1))?;
/// cluster.node(1)?.stop()?;
/// while pass.leadership()?.has_in_sync(1) {
///     workers.propose(0, Change::Leave(1)); // the same proposal again does no harm
///     std::thread::sleep(Duration::from_millis(1));
/// }
/// # Ok(()) }
/// ```
pub struct Workers {
    carrier: Arc<Carrier>,
    threads: Vec<JoinHandle<()>>,
}

impl fmt::Debug for Workers {
    fn fmt(&self, out: &mut fmt::Formatter<'_>) -> fmt::Result {
        out.debug_struct("Workers").field("threads", &self.threads).finish_non_exhaustive()
    }
}

impl Workers {
    /// Starts them: a node's turn comes `every` after its last one ended, or later where turns do nothing. [`Error::NoRoom`]; [`Error::NoThread`].
    pub fn start(cluster: &Cluster, every: Duration) -> Result<Workers, Error> {
        Workers::begin(cluster, every, 0, None)
    }

    /// Starts them with a hook, to which each worker tells what becomes of its node: so a host learns who leads, and what is committed,
    /// without asking. [`Error::NoRoom`]; [`Error::NoThread`].
    ///
    /// The events of one node come in their order, one at a time; those of several nodes in any order, and at the same time. First
    /// comes what the worker finds: [`Event::Down`], or the role that the node has, and its watermark where that is above 0. After
    /// that each change is told once, whoever made it: what a message or a turn changed right after that, and what the host's own calls
    /// changed at the node's next message or turn. Of what they changed meanwhile each [`Event::Down`] is told, then the last role, where
    /// it is up, and the last watermark: behind these where it is up, before them where it is down.
    ///
    /// The hook is called outside of any node's lock, so it may take one: by a worker, or by a thread in [`Workers::replicate`]. As long
    /// as it runs, that thread carries nothing: hand on what takes time. It must not drop the workers, which would wait for themselves; a
    /// panic in it ends that worker, or goes through that call.
    ///
    /// ```
    /// use kpart::{Cluster, Event, Limits, Role, Workers};
    /// use std::sync::mpsc::channel;
    /// use std::time::Duration;
    ///
    /// # fn main() -> Result<(), kpart::Error> {
    /// let cluster = Cluster::open(1, Limits::default())?;
    /// let mut pass = cluster.pass()?;
    /// pass.elect(0)?;
    /// let (told, events) = channel();
    /// let _workers = Workers::start_with(&cluster, Duration::from_millis(1), move |event| {
    ///     let _heard = told.send(event);
    /// })?;
    /// assert_eq!(events.recv(), Ok(Event::Role { node: 0, role: Role::Leads { epoch: 0, start: 0 } }));
    /// let batch = include_bytes!(concat!(env!("CARGO_MANIFEST_DIR"), "/tests/one_record.batch"));
    /// cluster.node(0)?.produce(&mut pass, batch)?;
    /// assert_eq!(events.recv(), Ok(Event::Mark { node: 0, offset: 1 }));
    /// # Ok(()) }
    /// ```
    pub fn start_with(cluster: &Cluster, every: Duration, hook: impl Fn(Event) + Send + Sync + 'static) -> Result<Workers, Error> {
        Workers::begin(cluster, every, 0, Some(Arc::new(hook)))
    }

    /// Starts them as [`Workers::start_with`] does, with a seed for the chances of [`Link::Lossy`] and [`Link::Doubling`]; the other calls take 0. Of
    /// the messages that are sent over a link while it is lossy, one seed loses the same in each run: the third and the tenth, say.
    /// [`Error::NoRoom`]; [`Error::NoThread`].
    ///
    /// ```
    /// use kpart::{Cluster, Limits, Link, Place, Workers};
    /// use std::time::Duration;
    ///
    /// # fn main() -> Result<(), kpart::Error> {
    /// let cluster = Cluster::open(2, Limits::default())?;
    /// let mut pass = cluster.pass()?;
    /// pass.elect(0)?;
    /// cluster.node(0)?.adopt()?;
    /// let workers = Workers::start_seeded(&cluster, Duration::from_millis(1), 17, |_event| {})?;
    /// workers.link(Place::Node(1), Place::Node(0), Link::Lossy { one_in: 3 });
    /// let batch = include_bytes!(concat!(env!("CARGO_MANIFEST_DIR"), "/tests/one_record.batch"));
    /// cluster.node(0)?.produce(&mut pass, batch)?;
    /// assert_eq!(cluster.wait_mark(&mut pass, 0, 0, Duration::from_secs(20))?, Some(1)); // node 1 asks again where it has to
    /// # Ok(()) }
    /// ```
    pub fn start_seeded(
        cluster: &Cluster,
        every: Duration,
        seed: u64,
        hook: impl Fn(Event) + Send + Sync + 'static,
    ) -> Result<Workers, Error> {
        Workers::begin(cluster, every, seed, Some(Arc::new(hook)))
    }

    fn begin(cluster: &Cluster, every: Duration, seed: u64, hook: Option<Hook>) -> Result<Workers, Error> {
        let (mut desks, mut inboxes) = (Vec::new(), Vec::new());
        for number in 0..cluster.nodes() {
            let teller = match &hook {
                Some(hook) => Some(Teller::new(number, hook.clone(), cluster.pass()?)),
                None => None,
            };
            let (post, parcels) = channel();
            desks.push(Desk::new(post, teller));
            inboxes.push(Inbox::new(parcels));
        }
        let (controller, parcels) = channel();
        let links = Links::new(cluster.nodes(), seed);
        let carrier = Arc::new(Carrier::new(cluster, links, desks, controller, every.saturating_mul(PATIENCE))?);
        let mut workers = Workers { carrier: carrier.clone(), threads: Vec::new() };
        workers.spawn("kpart controller".to_string(), move || control(Inbox::new(parcels), &carrier))?;
        for (number, inbox) in (0..).zip(inboxes) {
            let mut worker = Worker::new(cluster.clone(), number, workers.carrier.clone(), every);
            workers.spawn(format!("kpart node {number}"), move || worker.serve(inbox))?;
        }
        Ok(workers)
    }

    fn spawn(&mut self, name: String, work: impl FnOnce() + Send + 'static) -> Result<(), Error> {
        let started = Builder::new().name(name).spawn(work);
        self.threads.push(started.map_err(|_| Error::NoThread)?);
        Ok(())
    }

    /// Gives a node a turn now. A number that the cluster hasn't got is no node's.
    pub fn turn(&self, node: u8) {
        self.carrier.put(Addressee::Node(node), Parcel::Turn);
    }

    /// Replicates what a leader has taken, in the calling thread: each node that follows it asks it, unless an answer is under way, and what
    /// comes of that is carried on; and it raises its high watermark. So where the links hold nothing back, and all that are in sync follow
    /// it, what it had taken before is committed when this returns, and nobody has to wait for a worker's turn. Else the workers do what
    /// is left. A node that doesn't lead does nothing. [`Error::OutOfRange`] where there is no such node.
    ///
    /// It takes one node's lock after another, so hold no node meanwhile. O(n) in the nodes, and O(1) for each batch.
    ///
    /// ```
    /// use kpart::{Ack, Cluster, Limits, Workers};
    /// use std::time::Duration;
    ///
    /// # fn main() -> Result<(), kpart::Error> {
    /// let cluster = Cluster::open(3, Limits::default())?;
    /// let mut pass = cluster.pass()?;
    /// pass.elect(0)?;
    /// for number in 0..3 {
    ///     cluster.node(number)?.adopt()?;
    /// }
    /// let workers = Workers::start(&cluster, Duration::from_millis(100))?;
    /// let batch = include_bytes!(concat!(env!("CARGO_MANIFEST_DIR"), "/tests/one_record.batch"));
    /// let receipt = cluster.node(0)?.produce(&mut pass, batch)?;
    /// workers.replicate(0)?;
    /// assert_eq!(cluster.node(0)?.acked(&mut pass, &receipt)?, Ack::Yes); // it is there
    /// # Ok(()) }
    /// ```
    pub fn replicate(&self, leader: u8) -> Result<(), Error> {
        self.carrier.replicate(leader)
    }

    /// Has a node, if it leads, propose a change of the in-sync replicas to the controller. Look at [`Pass::leadership`](crate::Pass::leadership) for what came
    /// of it, and call it again while nothing did.
    pub fn propose(&self, node: u8, change: Change) {
        self.carrier.put(Addressee::Node(node), Parcel::Propose(change));
    }

    /// Carries a message that you got from a node yourself, over no link: it comes.
    pub fn post(&self, message: Message) {
        self.carrier.post(None, message, None);
    }

    /// Sets what becomes of what is sent from one place to another from now on, to test what stands on a cluster. At the start all
    /// links are up. What is under way over the link stays as it is, and nothing overtakes it. A follower that gets no answer asks
    /// again after 50 times the time between two turns. A node that the cluster hasn't got has no link. O(1).
    ///
    /// ```
    /// use kpart::{Cluster, Limits, Link, Place, Workers};
    /// use std::time::Duration;
    ///
    /// # fn main() -> Result<(), kpart::Error> {
    /// let cluster = Cluster::open(2, Limits::default())?;
    /// let mut pass = cluster.pass()?;
    /// pass.elect(0)?;
    /// cluster.node(0)?.adopt()?;
    /// let workers = Workers::start(&cluster, Duration::from_millis(1))?;
    /// workers.link(Place::Node(0), Place::Node(1), Link::Cut); // what node 1 asks still comes to node 0
    /// let batch = include_bytes!(concat!(env!("CARGO_MANIFEST_DIR"), "/tests/one_record.batch"));
    /// cluster.node(0)?.produce(&mut pass, batch)?;
    /// assert_eq!(cluster.wait_mark(&mut pass, 1, 0, Duration::from_millis(20))?, None);
    /// workers.link(Place::Node(0), Place::Node(1), Link::Up);
    /// assert_eq!(cluster.wait_mark(&mut pass, 1, 0, Duration::from_secs(20))?, Some(1));
    /// # Ok(()) }
    /// ```
    pub fn link(&self, from: Place, to: Place, link: Link) {
        self.carrier.links().set(from, to, link);
    }

    /// Stops them, and waits for their threads' end. What is under way is dropped; the nodes stay as they are.
    pub fn stop(self) {}
}

impl Drop for Workers {
    fn drop(&mut self) {
        let nodes = (0..self.carrier.nodes()).map(Addressee::Node);
        nodes.chain([Addressee::Controller]).for_each(|it| self.carrier.put(it, Parcel::Stop));
        for thread in self.threads.drain(..) {
            let _ended = thread.join();
        }
    }
}

// Decides on each proposal that comes, and sends the decision on.
fn control(mut inbox: Inbox, carrier: &Carrier) {
    while let Some(parcel) = inbox.next(None) {
        match parcel {
            Parcel::Letter(letter) => carrier.decide(letter.message),
            Parcel::Turn | Parcel::Propose(_) => {}
            Parcel::Stop => return,
        }
    }
}

struct Worker {
    cluster: Cluster,
    number: u8,
    carrier: Arc<Carrier>,
    every: Duration,
    next_turn: Instant,
    // What its node noted at the last turn.
    noted: u64,
    // How many turns did nothing since one did something.
    quiet: u32,
}

impl Worker {
    fn new(cluster: Cluster, number: u8, carrier: Arc<Carrier>, every: Duration) -> Worker {
        Worker { cluster, number, carrier, every, next_turn: Instant::now(), noted: 0, quiet: 0 }
    }

    fn serve(&mut self, mut inbox: Inbox) {
        loop {
            match inbox.next(Some(self.next_turn)) {
                Some(Parcel::Letter(letter)) => self.carrier.deliver(self.number, letter),
                // A refusal ends that alone: the node is as before, and a later turn comes.
                Some(Parcel::Propose(change)) => {
                    let _done = self.propose(change);
                }
                Some(Parcel::Turn) => {
                    self.quiet = 0;
                    self.turn();
                }
                None => self.turn(),
                Some(Parcel::Stop) => return,
            }
            if self.next_turn <= Instant::now() {
                self.turn();
            }
        }
    }

    // Between two turns the node's lock is free for so long, also where a turn takes longer than that: a lock goes to whoever asks first,
    // and a worker that asked again at once would keep others from it.
    fn turn(&mut self) {
        let did = self.take_turn().unwrap_or(false);
        self.carrier.tell(self.number);
        let did = self.carrier.ask(self.number) || did;
        self.quiet = if did { 0 } else { self.quiet.saturating_add(1) };
        self.next_turn = Instant::now() + self.every * (1 + self.quiet / QUIET).min(SLOWEST);
    }

    // All of a turn that needs no other node. Whether it took up a record, or leads, and more is committed than at the last turn.
    fn take_turn(&mut self) -> Result<bool, Error> {
        let desk = self.carrier.desk(self.number).ok_or(Error::OutOfRange)?;
        let mut node = self.cluster.node(self.number)?;
        if desk.has_fallen() {
            match node.restart() {
                Err(error) if error.is_memory() => return Err(error),
                // Refused otherwise, it was started by somebody else, or has no life left.
                _done => desk.set_fallen(false),
            }
        }
        let adopted = node.adopt();
        if adopted.is_ok() {
            desk.set_asked(None);
        }
        let leads = node.raise().is_ok();
        let noted = node.note().unwrap_or(self.noted);
        let has_moved = noted != replace(&mut self.noted, noted);
        desk.look(&node, adopted == Err(Refusal::Down.into()));
        Ok(adopted.is_ok() || leads && has_moved)
    }

    fn propose(&self, change: Change) -> Result<(), Error> {
        let proposal = self.cluster.node(self.number)?.alter(change)?;
        self.carrier.send(Place::Node(self.number), proposal);
        Ok(())
    }
}
