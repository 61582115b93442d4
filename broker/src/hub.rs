//! What all threads of a broker share.

use crate::coordinator::Transactions;
use crate::data::Opened;
use crate::keep::Keep;
use crate::lock;
use crate::members::Groups;
use crate::news::News;
use crate::options::{MOST_NODES, Options};
use crate::partition::Partition;
use kpart::Link;
use kwire::ErrorCode;
use std::collections::HashMap;
use std::io::Write as _;
use std::net::{Shutdown, TcpStream};
use std::sync::atomic::{AtomicBool, AtomicU64, Ordering::SeqCst};
use std::sync::{Arc, Mutex};
use std::thread::JoinHandle;
use std::time::{Duration, Instant};

/// What there is of a node outside of the partitions.
#[derive(Default)]
pub struct Gate {
    /// Its port.
    pub port: u16,
    /// Whether it is up.
    pub up: AtomicBool,
    /// Whether its acknowledgements are held back.
    pub held: AtomicBool,
    /// Held by whoever stops or restarts it.
    pub moving: Mutex<()>,
    /// Who accepts its connections.
    pub acceptor: Mutex<Option<JoinHandle<()>>>,
}

/// Answers that are to fail: how many, and with which code.
type Failures = HashMap<i16, (u32, i16)>;

/// What the links are, by sender and receiver.
pub type Lines = [[Link; MOST_NODES as usize]; MOST_NODES as usize];

/// An open connection of a node.
struct Open {
    node: u8,
    stream: TcpStream,
    doing: Arc<Doing>,
}

/// Which request a connection answers, by its number, and since when.
#[derive(Default)]
pub struct Doing(Mutex<Option<(i16, Instant)>>);

impl Doing {
    /// It begins to.
    pub fn begin(&self, api: i16) {
        *lock(&self.0) = Some((api, Instant::now()));
    }

    /// It is answered.
    pub fn end(&self) {
        *lock(&self.0) = None;
    }
}

/// A request that isn't answered for some time.
pub struct Waiting {
    /// The node.
    pub node: u8,
    /// The request's number.
    pub api: i16,
    /// For how long.
    pub time: Duration,
}

/// What all threads share.
pub struct Hub {
    /// What it was started with.
    pub options: Options,
    /// All partitions of all topics, in the order of the options.
    pub partitions: Vec<Partition>,
    /// Tells of watermarks, roles, and of nodes that stop.
    pub news: Arc<News>,
    /// Tells that the broker ends, and of nothing else.
    pub end: News,
    /// Held until a line that ended the broker is answered: a process ends no sooner.
    pub telling: Mutex<()>,
    /// By node.
    pub gates: Vec<Gate>,
    /// Transactional ids.
    pub transactions: Transactions,
    /// Consumer groups.
    pub groups: Groups,
    /// What the links are.
    pub links: Mutex<Lines>,
    /// Keeps what the coordinators tell.
    pub keep: Arc<Keep>,
    /// For how many milliseconds each answer is held back.
    pub rtt: AtomicU64,
    /// How many requests came, and how many connections were closed by the broker.
    pub counts: Counts,
    failures: Mutex<Failures>,
    coordinator: Mutex<Option<u8>>,
    connections: Mutex<HashMap<u64, Open>>,
    next_connection: AtomicU64,
    closing: AtomicBool,
}

/// How often each request came, by its number.
#[derive(Debug)]
pub struct Asked([AtomicU64; 64]);

impl Default for Asked {
    fn default() -> Asked {
        Asked(std::array::from_fn(|_| AtomicU64::new(0)))
    }
}

impl Asked {
    fn of(&self, api: i16) -> Option<&AtomicU64> {
        self.0.get(usize::try_from(api).ok()?)
    }

    /// One more; a request that nobody knows isn't counted.
    pub fn add(&self, api: i16) {
        if let Some(count) = self.of(api) {
            count.fetch_add(1, SeqCst);
        }
    }

    /// How often it came.
    pub fn count(&self, api: i16) -> u64 {
        self.of(api).map_or(0, |it| it.load(SeqCst))
    }
}

/// What `show` counts.
#[derive(Debug, Default)]
pub struct Counts {
    /// Requests of all kinds.
    pub requests: AtomicU64,
    /// Requests by their numbers.
    pub asked: Asked,
    /// Batches that were appended, or were there already.
    pub batches: AtomicU64,
    /// Of these, those that were there already.
    pub duplicates: AtomicU64,
    /// Connections that the broker closed for a fault of the client's.
    pub closed: AtomicU64,
}

impl Hub {
    /// A hub of these partitions, at these ports; all nodes are up.
    pub fn new(options: Options, opened: Opened, news: Arc<News>, ports: &[u16]) -> Hub {
        let Opened { partitions, keep, left } = opened;
        let keep = Arc::new(keep);
        let gate = |port: &u16| Gate { port: *port, up: AtomicBool::new(true), ..Gate::default() };
        Hub {
            transactions: Transactions::new(options.most_transactional_ids).kept(&keep, &left),
            groups: Groups::new(options.most_groups, options.most_members).kept(&keep, &left),
            gates: ports.iter().map(gate).collect(),
            options,
            partitions,
            news,
            end: News::default(),
            telling: Mutex::default(),
            links: Mutex::default(),
            keep,
            rtt: AtomicU64::new(0),
            counts: Counts::default(),
            failures: Mutex::default(),
            coordinator: Mutex::default(),
            connections: Mutex::default(),
            next_connection: AtomicU64::new(0),
            closing: AtomicBool::new(false),
        }
    }

    /// How many nodes there are.
    pub fn nodes(&self) -> u8 {
        self.options.nodes
    }

    /// What there is of a node outside of the partitions.
    pub fn gate(&self, node: u8) -> Option<&Gate> {
        self.gates.get(usize::from(node))
    }

    /// A node's port.
    pub fn port(&self, node: u8) -> i32 {
        self.gate(node).map_or(-1, |it| it.port.into())
    }

    /// The host that clients are told.
    pub fn host(&self) -> String {
        match &self.options.advertise {
            Some(host) => host.clone(),
            None if self.options.listen.is_unspecified() => "127.0.0.1".to_string(),
            None => self.options.listen.to_string(),
        }
    }

    /// Whether a node is up, and the broker with it.
    pub fn is_up(&self, node: u8) -> bool {
        !self.is_closing() && self.gate(node).is_some_and(|it| it.up.load(SeqCst))
    }

    /// Whether the broker ends.
    pub fn is_closing(&self) -> bool {
        self.closing.load(SeqCst)
    }

    /// The broker ends: threads that see this do so, too.
    pub fn close(&self) {
        self.closing.store(true, SeqCst);
        self.news.tell();
        self.end.tell();
    }

    /// Where a partition stands in the table.
    pub fn find(&self, topic: &str, index: i32) -> Result<usize, ErrorCode> {
        let found = self.partitions.iter().position(|it| it.index == index && it.topic == topic);
        found.ok_or(ErrorCode::UnknownTopicOrPartition)
    }

    /// The node that coordinates groups and transactions: the same one until it goes down.
    pub fn coordinator(&self) -> Option<u8> {
        let mut coordinator = lock(&self.coordinator);
        if coordinator.is_none_or(|it| !self.is_up(it)) {
            *coordinator = (0..self.nodes()).find(|it| self.is_up(*it));
        }
        *coordinator
    }

    // ---- what a tester wants to go wrong

    /// Each answer is held back for so long, a minute at most.
    pub fn set_rtt(&self, time: Duration) {
        let millis = time.min(Duration::from_secs(60)).as_millis();
        self.rtt.store(u64::try_from(millis).unwrap_or_default(), SeqCst);
    }

    /// The next so many answers to this request fail with the code.
    pub fn fail(&self, count: u32, code: i16, api: i16) {
        lock(&self.failures).insert(api, (count, code));
    }

    /// The code with which this answer is to fail.
    pub fn failure(&self, api: i16) -> Option<i16> {
        let mut failures = lock(&self.failures);
        let (left, code) = failures.get_mut(&api)?;
        let code = *code;
        *left = left.saturating_sub(1);
        if *left == 0 {
            failures.remove(&api);
        }
        Some(code)
    }

    /// Whether a tester has a node's acknowledgements held back, or all answers come later.
    pub fn is_slowed(&self, node: u8) -> bool {
        self.rtt.load(SeqCst) > 0 || self.gate(node).is_some_and(|it| it.held.load(SeqCst))
    }

    /// Waits while the node's acknowledgements are held back, and somebody waits for them.
    pub fn wait_released(&self, node: u8, is_off: &dyn Fn() -> bool) {
        while !is_off() && self.gate(node).is_some_and(|it| it.held.load(SeqCst)) {
            let count = self.news.count();
            self.news.wait(count, Instant::now() + Duration::from_millis(20));
        }
    }

    // ---- connections

    /// Notes a connection, unless there are too many.
    pub fn enter(&self, node: u8, stream: &TcpStream, doing: &Arc<Doing>) -> std::io::Result<Option<u64>> {
        let stream = stream.try_clone()?;
        let number = self.next_connection.fetch_add(1, SeqCst);
        let mut connections = lock(&self.connections);
        if connections.len() >= self.options.most_connections {
            return Ok(None);
        }
        connections.insert(number, Open { node, stream, doing: doing.clone() });
        Ok(Some(number))
    }

    /// Forgets a connection that has ended.
    pub fn leave(&self, number: u64) {
        lock(&self.connections).remove(&number);
    }

    /// How many connections a node has.
    pub fn connections(&self, node: u8) -> usize {
        lock(&self.connections).values().filter(|it| it.node == node).count()
    }

    /// The requests that aren't answered for so long.
    pub fn waiting(&self, least: Duration) -> Vec<Waiting> {
        let found = lock(&self.connections).values().filter_map(|it| Some((it.node, (*lock(&it.doing.0))?))).collect::<Vec<_>>();
        let found = found.into_iter().map(|(node, (api, since))| Waiting { node, api, time: since.elapsed() });
        found.filter(|it| it.time >= least).collect()
    }

    /// Ends a node's connections; their threads see it.
    pub fn hang_up(&self, node: u8) {
        for open in lock(&self.connections).values().filter(|it| it.node == node) {
            let _shut = open.stream.shutdown(Shutdown::Both);
        }
    }

    /// Says on stderr why a connection was closed.
    pub fn log(&self, node: u8, peer: &str, why: &str) {
        self.counts.closed.fetch_add(1, SeqCst);
        // Nobody may be there to read it.
        let _said = writeln!(std::io::stderr(), "kpart-broker: node {node}: {peer}: closed: {why}");
    }
}
