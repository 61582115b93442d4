//! A partition: a cluster of the library, and the workers that carry its messages.

use crate::broker::Fault;
use crate::codes::code;
use crate::lock;
use crate::news::News;
use crate::options::Options;
use crate::recording::{self, Script};
use kpart::{Ack, Change, Cluster, Error, Event, Leadership, Limits, NodeState, Pass, Receipt, Refusal, Role, Status, Workers};
use kwire::ErrorCode;
use std::sync::atomic::{AtomicU8, Ordering::SeqCst};
use std::sync::{Arc, Mutex, MutexGuard};
use std::time::{Duration, Instant};

/// Kafka's own `message.max.bytes`.
const MAX_BATCH: u32 = 1_048_588;
/// The limits of each partition's log.
pub const LIMITS: Limits = Limits { segment_bytes: 1 << 30, index_interval: 4_096, max_batch: MAX_BATCH };
/// Stands for no node.
const NOBODY: u8 = u8::MAX;
/// After so long without an acknowledgement the followers are asked again, and then after twice as long each time.
const FIRST_NUDGE: Duration = Duration::from_micros(500);
const LONGEST_NUDGE: Duration = Duration::from_millis(4);
/// For so long a node that leads no more may find out what became of a batch.
const GRACE: Duration = Duration::from_millis(20);

/// A partition of a topic.
pub struct Partition {
    /// The topic.
    pub topic: String,
    /// Its number in the topic.
    pub index: i32,
    /// The nodes that replicate it.
    pub cluster: Cluster,
    /// Who carries their messages.
    pub workers: Workers,
    control: Mutex<Control>,
    /// Of what its nodes are asked, where that is recorded. It ends behind the workers.
    pub script: Option<Script>,
}

/// What the controller keeps of a partition from one look to the next.
pub struct Control {
    /// The controller's pass.
    pub pass: Pass,
    /// The leader and its epoch at the last look.
    pub leader: Option<(u8, u32)>,
    /// The leader's log end at the last look.
    pub end: u64,
    /// When each node was last seen to have caught up.
    pub caught_up: Vec<Instant>,
}

/// How a wait for an acknowledgement ended.
#[derive(Clone, Copy, Debug, PartialEq, Eq)]
pub enum Waited {
    /// The batch is committed.
    Committed,
    /// It isn't, or isn't known to be.
    Failed(ErrorCode),
    /// The node is down: nobody is answered.
    Down,
}

/// The leader epoch in which a node of this state leads.
#[must_use]
pub fn led_epoch(state: &NodeState) -> Option<u32> {
    match state.status {
        Status::Plays(Role::Leads { epoch, .. }) => Some(epoch),
        _ => None,
    }
}

/// Holds the leader epoch that a client knows (-1 for none) against the node's state: the node's own epoch, or what to answer.
pub fn check_epoch(state: &NodeState, known: i32) -> Result<u32, ErrorCode> {
    let epoch = led_epoch(state).ok_or(ErrorCode::NotLeaderOrFollower)?;
    match u32::try_from(known) {
        Ok(known) if known < epoch => Err(ErrorCode::FencedLeaderEpoch),
        Ok(known) if known > epoch => Err(ErrorCode::UnknownLeaderEpoch),
        _ => Ok(epoch),
    }
}

/// Tells of what a client may wait for: a leader's high watermark, and who leads.
fn hook(news: Arc<News>) -> impl Fn(Event) + Send + Sync + 'static {
    let leader = AtomicU8::new(NOBODY);
    move |event| {
        match event {
            Event::Mark { node, .. } if node != leader.load(SeqCst) => return,
            Event::Role { node, role: Role::Leads { .. } } => leader.store(node, SeqCst),
            _ => {}
        }
        news.tell();
    }
}

impl Partition {
    /// Opens it in memory, with nobody leading.
    pub fn open(topic: &str, index: i32, options: &Options, news: &Arc<News>) -> Result<Partition, Fault> {
        let (cluster, script) = recording::open(topic, index, options)?;
        let mut opened = Partition::over(cluster, topic, index, options, news)?;
        opened.script = script;
        Ok(opened)
    }

    /// Of this cluster.
    pub fn over(cluster: Cluster, topic: &str, index: i32, options: &Options, news: &Arc<News>) -> Result<Partition, Error> {
        let workers = Workers::start_with(&cluster, options.turn_time(), hook(news.clone()))?;
        let caught_up = vec![Instant::now(); usize::from(options.nodes)];
        let control = Control { pass: cluster.pass()?, leader: None, end: 0, caught_up };
        Ok(Partition { topic: topic.to_string(), index, cluster, workers, control: Mutex::new(control), script: None })
    }

    /// What the controller keeps. Hold no node meanwhile.
    pub fn control(&self) -> MutexGuard<'_, Control> {
        lock(&self.control)
    }

    /// A node's state.
    pub fn state(&self, node: u8) -> Result<NodeState, Error> {
        self.cluster.node(node)?.show()
    }

    /// Whether the node leads that epoch, as far as there is memory to ask it.
    fn may_lead(&self, node: u8, epoch: u32) -> bool {
        match self.state(node) {
            Ok(state) => led_epoch(&state) == Some(epoch),
            Err(error) => error.is_memory(),
        }
    }

    /// Has the nodes that follow take what the leader has, and it commit that, in this thread. Hold no node meanwhile.
    pub fn replicate(&self, leader: u8) {
        // Where there is no such node nothing is to be done.
        let _done = self.workers.replicate(leader);
    }

    /// The same where it hasn't been enough: nodes may have to hear of their leader first, for which they have turns.
    fn nudge(&self, leader: u8) {
        self.replicate(leader);
        (0..self.cluster.nodes()).filter(|it| *it != leader).for_each(|it| self.workers.turn(it));
    }

    /// Elects the node, and has all nodes hear of it.
    pub fn elect(&self, pass: &mut Pass, node: u8) -> Result<Leadership, Error> {
        let record = loop {
            match pass.elect(node) {
                Err(Error::Refused(Refusal::StaleRecord)) => {}
                elected => break elected?,
            }
        };
        // Its worker may have been faster.
        let _adopted = self.cluster.node(node).and_then(|mut it| it.adopt());
        (0..self.cluster.nodes()).for_each(|it| self.workers.turn(it));
        Ok(record)
    }

    /// Has the leader propose a change of the in-sync replicas, and hear at once what the controller decides.
    pub fn change(&self, pass: &mut Pass, leader: u8, change: Change) -> Result<(), Error> {
        let proposal = self.cluster.node(leader)?.alter(change)?;
        let decision = pass.decide(proposal)?;
        let mut node = self.cluster.node(leader)?;
        node.step(decision)?;
        let _raised = node.raise();
        drop(node);
        self.workers.turn(leader);
        Ok(())
    }

    /// Waits until the batch is committed that the node has taken as the leader of an epoch, or is known not to be, or it is time. The
    /// pass has the receipt.
    pub fn wait_acked(
        &self,
        pass: &mut Pass,
        node: u8,
        (receipt, epoch): (&Receipt, Option<u32>),
        until: Instant,
        is_off: impl Fn() -> bool,
    ) -> Waited {
        let mut nudge = FIRST_NUDGE;
        loop {
            if is_off() {
                return Waited::Down;
            }
            let left = until.saturating_duration_since(Instant::now());
            match self.cluster.wait_acked(pass, node, receipt, nudge.min(left)) {
                Ok(Ack::NotYet) if epoch.is_some_and(|it| self.may_lead(node, it)) => {}
                // It has been taken, and may be committed by now.
                Err(error) if error.is_memory() => std::thread::sleep(nudge.min(left)),
                // It leads no more, and will soon hear of the next leader what became of the batch. Without this look a producer that
                // isn't idempotent would hand a committed batch in twice.
                Ok(Ack::NotYet) => return answered(self.cluster.wait_acked(pass, node, receipt, GRACE.min(left))),
                told => return answered(told),
            }
            if left.is_zero() {
                return Waited::Failed(ErrorCode::RequestTimedOut);
            }
            self.nudge(node);
            nudge = (nudge * 2).min(LONGEST_NUDGE);
        }
    }
}

/// A batch that is lost, or of which nothing is known, is to be handed in again, at the next leader. Where there is no memory to ask, it may be
/// there: another code would say that it isn't, and librdkafka hands it in anew then, in a later epoch of its own.
fn answered(told: Result<Ack, Error>) -> Waited {
    match told {
        Err(error) if error.is_memory() => Waited::Failed(ErrorCode::RequestTimedOut),
        Ok(Ack::Yes) => Waited::Committed,
        Ok(Ack::Lost | Ack::NotYet) => Waited::Failed(ErrorCode::NotLeaderOrFollower),
        Err(Error::Refused(Refusal::Down)) => Waited::Down,
        Err(error) => Waited::Failed(code(error)),
    }
}
