//! The transaction coordinator's state: ids, epochs, and markers that are handed in until they are committed.
//!
//! One thread at a time ends a transaction: a second marker that came late could end the producer's next one.

use crate::codes::code;
use crate::hub::Hub;
use crate::keep::Keep;
use crate::kept::{KeptTransaction, Left, Standing};
use crate::lock;
use crate::members::CommittedOffset;
use crate::partition::Waited;
use crate::reply::Passes;
use kpart::{Error, Marker, Refusal};
use kwire::ErrorCode;
use std::collections::{BTreeSet, HashMap};
use std::sync::{Arc, Mutex};
use std::time::{Duration, Instant, SystemTime, UNIX_EPOCH};

/// Kafka's `transaction.max.timeout.ms`.
const LONGEST: i32 = 900_000;
/// For so long markers are handed in again, before the client is told to try again.
const ENDING: Duration = Duration::from_secs(30);
/// The same where nobody waits for it.
const EXPIRING: Duration = Duration::from_secs(2);
/// How often a marker is tried where nothing has changed.
const RETRY: Duration = Duration::from_millis(20);
/// The longest transactional id.
const LONGEST_ID: usize = 1_000;
/// The most offsets that a transaction keeps.
const MOST_OFFSETS: usize = 1_000;
/// The greatest epoch that a producer is given; behind it comes a new producer id.
const LAST_EPOCH: i16 = i16::MAX - 1;

/// All transactional ids.
pub struct Transactions {
    most: usize,
    all: Mutex<HashMap<String, Transaction>>,
    keep: Arc<Keep>,
}

/// Offsets of a group that are kept once their transaction commits.
#[derive(Clone, Debug, PartialEq, Eq)]
pub struct PendingOffset {
    /// The group.
    pub group: String,
    /// The partition's place.
    pub place: usize,
    /// What is committed.
    pub offset: CommittedOffset,
}

#[derive(Clone, Copy, PartialEq, Eq)]
enum State {
    Empty,
    Open,
    /// Markers are to be handed in; somebody does so where it is busy.
    Ending {
        commits: bool,
        busy: bool,
    },
    Ended {
        commits: bool,
    },
}

struct Transaction {
    producer_id: i64,
    epoch: i16,
    timeout: Duration,
    state: State,
    since: Instant,
    /// The same as a clock says it: milliseconds since 1970.
    began: u64,
    partitions: BTreeSet<usize>,
    offsets: Vec<PendingOffset>,
    /// By which this is settled.
    ticket: u64,
}

/// A producer's id and epoch.
pub type Producer = (i64, i16);

/// A transaction that somebody has begun to end.
struct Ending {
    producer: Producer,
    commits: bool,
    partitions: Vec<usize>,
    /// By which its beginning is settled.
    ticket: u64,
}

impl Transaction {
    /// One that nobody has begun.
    fn new(producer_id: i64, timeout: Duration) -> Transaction {
        let (state, since, began, ticket) = (State::Empty, Instant::now(), 0, 0);
        Transaction { producer_id, epoch: 0, timeout, state, since, began, partitions: BTreeSet::new(), offsets: Vec::new(), ticket }
    }

    /// As it is kept.
    fn kept(&self) -> KeptTransaction {
        let standing = match self.state {
            State::Empty => Standing::Empty,
            State::Open => Standing::Ongoing,
            State::Ending { commits, .. } => Standing::Prepared { commits },
            State::Ended { commits } => Standing::Complete { commits },
        };
        KeptTransaction {
            producer: (self.producer_id, self.epoch),
            timeout: u64::try_from(self.timeout.as_millis()).unwrap_or(u64::MAX),
            began: self.began,
            standing,
            partitions: self.partitions.iter().copied().collect(),
            offsets: self.offsets.clone(),
        }
    }

    /// As it was kept. What was to be ended somebody goes on to end, and what is open is so since it was begun.
    fn of(kept: &KeptTransaction) -> Transaction {
        let state = match kept.standing {
            Standing::Empty => State::Empty,
            Standing::Ongoing => State::Open,
            Standing::Prepared { commits } => State::Ending { commits, busy: false },
            Standing::Complete { commits } => State::Ended { commits },
        };
        let now = Instant::now();
        Transaction {
            epoch: kept.producer.1,
            state,
            since: now.checked_sub(Duration::from_millis(now_ms().saturating_sub(kept.began))).unwrap_or(now),
            began: kept.began,
            partitions: kept.partitions.iter().copied().collect(),
            offsets: kept.offsets.clone(),
            ..Transaction::new(kept.producer.0, Duration::from_millis(kept.timeout))
        }
    }

    /// Has it kept as it is. Nothing may be told of it, or done, before it is settled.
    fn put(&mut self, keep: &Keep, id: &str) {
        if keep.is_kept() {
            self.ticket = keep.put(vec![keep.transaction(id, &self.kept())]);
        }
    }

    /// Begins to end it, if nobody does.
    fn ending(&mut self, keep: &Keep, id: &str, commits: bool) -> Ending {
        self.state = State::Ending { commits, busy: true };
        self.put(keep, id);
        let partitions = self.partitions.iter().copied().collect();
        Ending { producer: (self.producer_id, self.epoch), commits, partitions, ticket: self.ticket }
    }

    /// Fences the producer that has begun it, and aborts.
    fn fenced(&mut self, keep: &Keep, id: &str) -> Ending {
        self.epoch = self.epoch.saturating_add(1);
        self.ending(keep, id, false)
    }

    /// Opens it, where it isn't open.
    fn open(&mut self) -> Result<(), ErrorCode> {
        match self.state {
            State::Ending { .. } => return Err(ErrorCode::ConcurrentTransactions),
            State::Open => {}
            State::Empty | State::Ended { .. } => (self.state, self.since, self.began) = (State::Open, Instant::now(), now_ms()),
        }
        Ok(())
    }
}

impl Transactions {
    /// At most so many ids.
    pub fn new(most: usize) -> Transactions {
        Transactions { most, all: Mutex::default(), keep: Arc::default() }
    }

    /// With those that were left, and what keeps them.
    pub fn kept(self, keep: &Arc<Keep>, left: &Left) -> Transactions {
        let all = left.transactions.iter().map(|(id, it)| (id.clone(), Transaction::of(it)));
        Transactions { all: Mutex::new(all.collect()), keep: keep.clone(), ..self }
    }

    /// How many ids there are, and how many of their transactions are open or ending.
    pub fn count(&self) -> (usize, usize) {
        let all = lock(&self.all);
        (all.len(), all.values().filter(|it| matches!(it.state, State::Open | State::Ending { .. })).count())
    }

    fn with<T>(&self, id: &str, producer: Producer, act: impl FnOnce(&mut Transaction) -> Result<T, ErrorCode>) -> Result<T, ErrorCode> {
        let mut all = lock(&self.all);
        let found = all.get_mut(id).ok_or(ErrorCode::InvalidProducerIdMapping)?;
        if found.producer_id != producer.0 {
            return Err(ErrorCode::InvalidProducerIdMapping);
        }
        if found.epoch != producer.1 {
            return Err(ErrorCode::InvalidProducerEpoch);
        }
        act(found)
    }

    /// Partitions join the transaction, which is opened.
    pub fn add(&self, id: &str, producer: Producer, places: &[usize]) -> Result<(), ErrorCode> {
        self.with(id, producer, |it| {
            it.open()?;
            it.partitions.extend(places);
            it.put(&self.keep, id);
            Ok(())
        })
    }

    /// Whether a batch of the producer's transaction may go to the partition: it was added to the transaction, which is open (KIP-890). As
    /// in Kafka a producer is told to try again while its last one is ending.
    pub fn check_added(&self, id: Option<&str>, producer: Producer, place: usize) -> Result<(), ErrorCode> {
        let id = id.ok_or(ErrorCode::TransactionalIdAuthorizationFailed)?;
        let ticket = self.with(id, producer, |it| match it.state {
            State::Open if it.partitions.contains(&place) => Ok(it.ticket),
            State::Ending { .. } => Err(ErrorCode::NotEnoughReplicas),
            State::Open | State::Empty | State::Ended { .. } => Err(ErrorCode::InvalidTxnState),
        })?;
        // Else nobody would end it here where the process ends now.
        self.keep.settle_to(ticket).map_err(|_| ErrorCode::KafkaStorageError)
    }

    /// Keeps a group's offsets until the transaction ends.
    pub fn keep_offsets(&self, id: &str, producer: Producer, offsets: Vec<PendingOffset>) -> Result<(), ErrorCode> {
        self.with(id, producer, |it| match it.state {
            State::Open => {
                for new in offsets {
                    it.offsets.retain(|old| (old.place, &old.group) != (new.place, &new.group));
                    if it.offsets.len() >= MOST_OFFSETS {
                        return Err(ErrorCode::InvalidCommitOffsetSize);
                    }
                    it.offsets.push(new);
                }
                it.put(&self.keep, id);
                Ok(())
            }
            State::Ending { .. } => Err(ErrorCode::ConcurrentTransactions),
            State::Empty | State::Ended { .. } => Err(ErrorCode::InvalidTxnState),
        })
    }

    /// Whether a transaction has offsets of the group for the partition, of which isn't known yet whether they count.
    pub fn has_pending(&self, group: &str, place: usize) -> bool {
        lock(&self.all).values().any(|it| it.offsets.iter().any(|it| it.place == place && it.group == group))
    }
}

/// What InitProducerId answers. A transaction that is open is aborted first, and whoever began it is fenced.
pub fn init(hub: &Hub, passes: &mut Passes, id: Option<&str>, timeout_ms: i32, own: Option<Producer>) -> Result<Producer, ErrorCode> {
    let Some(id) = id else { return Ok((hub.keep.fresh_id(), 0)) };
    if id.is_empty() || id.len() > LONGEST_ID {
        return Err(ErrorCode::InvalidRequest);
    }
    if !(1..=LONGEST).contains(&timeout_ms) {
        return Err(ErrorCode::InvalidTransactionTimeout);
    }
    let timeout = Duration::from_millis(u64::from(timeout_ms.unsigned_abs()));
    let mut own = own;
    loop {
        match begin(hub, id, timeout, own)? {
            Begun::Ready(producer) => return Ok(producer),
            Begun::Aborts(ending) => complete(hub, passes, id, &ending, Instant::now() + ENDING)?,
        }
        own = None; // it was looked at, and the epoch has been raised since
    }
}

enum Begun {
    Ready(Producer),
    Aborts(Ending),
}

fn begin(hub: &Hub, id: &str, timeout: Duration, own: Option<Producer>) -> Result<Begun, ErrorCode> {
    let (transactions, keep) = (&hub.transactions, &hub.keep);
    let mut all = lock(&transactions.all);
    let count = all.len();
    let Some(found) = all.get_mut(id) else {
        if count >= transactions.most {
            return Err(ErrorCode::InvalidRequest);
        }
        let mut new = Transaction::new(keep.fresh_id(), timeout);
        new.put(keep, id);
        let producer = (new.producer_id, new.epoch);
        all.insert(id.to_string(), new);
        return Ok(Begun::Ready(producer));
    };
    if own.is_some_and(|it| it != (found.producer_id, found.epoch)) {
        return Err(ErrorCode::InvalidProducerEpoch);
    }
    match found.state {
        State::Ending { busy: true, .. } => return Err(ErrorCode::ConcurrentTransactions),
        State::Ending { commits, busy: false } => return Ok(Begun::Aborts(found.ending(keep, id, commits))),
        State::Open => return Ok(Begun::Aborts(found.fenced(keep, id))),
        State::Empty | State::Ended { .. } => {}
    }
    if found.epoch >= LAST_EPOCH {
        (found.producer_id, found.epoch) = (keep.fresh_id(), 0);
    } else {
        found.epoch += 1;
    }
    (found.state, found.timeout) = (State::Empty, timeout);
    found.put(keep, id);
    Ok(Begun::Ready((found.producer_id, found.epoch)))
}

/// What EndTxn answers. The same end again is no fault.
pub fn end(hub: &Hub, passes: &mut Passes, id: &str, producer: Producer, commits: bool) -> Result<(), ErrorCode> {
    let ending = hub.transactions.with(id, producer, |it| match it.state {
        State::Open => Ok(Some(it.ending(&hub.keep, id, commits))),
        State::Ending { commits: before, busy } if before == commits => {
            if busy {
                Err(ErrorCode::ConcurrentTransactions)
            } else {
                Ok(Some(it.ending(&hub.keep, id, commits)))
            }
        }
        State::Ended { commits: before } if before == commits => Ok(None),
        State::Empty | State::Ending { .. } | State::Ended { .. } => Err(ErrorCode::InvalidTxnState),
    })?;
    match ending {
        Some(ending) => complete(hub, passes, id, &ending, Instant::now() + ENDING),
        None => Ok(()),
    }
}

/// Hands the markers of all partitions in, and then lets the group's offsets count. That it is to end is on the disk before the first of them,
/// so that all get the same one, also where the process ends between.
fn complete(hub: &Hub, passes: &mut Passes, id: &str, ending: &Ending, until: Instant) -> Result<(), ErrorCode> {
    let settled = hub.keep.settle_to(ending.ticket);
    let marked = settled.and_then(|()| ending.partitions.iter().try_for_each(|place| mark(hub, passes, *place, ending, until)));
    let mut all = lock(&hub.transactions.all);
    let Some(found) = all.get_mut(id) else { return marked };
    let commits = ending.commits;
    if marked.is_err() {
        found.state = State::Ending { commits, busy: false };
        return marked;
    }
    found.state = State::Ended { commits };
    found.partitions.clear();
    let offsets = std::mem::take(&mut found.offsets);
    let change = hub.keep.is_kept().then(|| hub.keep.transaction(id, &found.kept()));
    if commits || change.is_some() {
        found.ticket = hub.groups.put(if commits { offsets } else { Vec::new() }, change);
    }
    marked
}

fn now_ms() -> u64 {
    let since = SystemTime::now().duration_since(UNIX_EPOCH).unwrap_or_default();
    u64::try_from(since.as_millis()).unwrap_or_default()
}

/// Hands a marker in at whoever leads, until it is committed. One more of the same transaction ends nothing.
fn mark(hub: &Hub, passes: &mut Passes, place: usize, ending: &Ending, until: Instant) -> Result<(), ErrorCode> {
    let partition = hub.partitions.get(place).ok_or(ErrorCode::UnknownTopicOrPartition)?;
    let marker = Marker {
        producer_id: u64::try_from(ending.producer.0).map_err(|_| ErrorCode::InvalidProducerIdMapping)?,
        producer_epoch: u16::try_from(ending.producer.1).map_err(|_| ErrorCode::InvalidProducerEpoch)?,
        coordinator_epoch: 0,
        timestamp: now_ms(),
        commits: ending.commits,
    };
    while Instant::now() < until && !hub.is_closing() {
        let count = hub.news.count();
        // Where there is no memory to ask, it is tried again.
        let leader = passes.of(hub, place).ok().and_then(|it| it.leadership().ok()?.leader).map(|it| it.0);
        if let Some(leader) = leader.filter(|it| hub.is_up(*it)) {
            let pass = passes.of(hub, place)?;
            let handed = partition.cluster.node(leader).and_then(|mut it| it.mark(pass, &marker));
            match handed {
                Ok(receipt) => {
                    partition.replicate(leader);
                    let taken = (&receipt, Some(receipt.epoch));
                    if partition.wait_acked(pass, leader, taken, until, || !hub.is_up(leader)) == Waited::Committed {
                        return Ok(());
                    }
                }
                Err(Error::Refused(Refusal::NotLeader | Refusal::Down)) => {}
                Err(error) if error.is_memory() => {}
                Err(error) => return Err(code(error)),
            }
        }
        hub.news.wait(count, until.min(Instant::now() + RETRY));
    }
    Err(ErrorCode::CoordinatorNotAvailable)
}

/// Aborts transactions that are open for too long, and ends those whose end nobody waits for any more.
pub fn expire(hub: &Hub, passes: &mut Passes) {
    let mut late = Vec::new();
    for (id, it) in lock(&hub.transactions.all).iter_mut() {
        match it.state {
            State::Open if it.since.elapsed() > it.timeout => late.push((id.clone(), it.fenced(&hub.keep, id))),
            State::Ending { commits, busy: false } => late.push((id.clone(), it.ending(&hub.keep, id, commits))),
            _ => {}
        }
    }
    for (id, ending) in late {
        // A later look tries again.
        let _ended = complete(hub, passes, &id, &ending, Instant::now() + EXPIRING);
    }
}
