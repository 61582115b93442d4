//! Sockets: an acceptor for each node; for each connection a thread that reads, appends and answers what is known at once, and one that
//! waits, and answers all else in order.

use crate::hub::{Doing, Hub};
use crate::produce::{self, Produced, Producer};
use crate::reply::{Answered, Call, Close, Passes, Reply};
use crate::{lock, requests};
use kwire::frame::{FrameDecoder, LEAST_REQUEST, RequestHeader};
use kwire::{Reader, api};
use std::io;
use std::net::{IpAddr, Ipv4Addr, Ipv6Addr, Shutdown, SocketAddr, TcpListener, TcpStream};
use std::sync::Arc;
use std::sync::atomic::{AtomicBool, AtomicUsize, Ordering::SeqCst};
use std::sync::mpsc::{Receiver, SyncSender, sync_channel};
use std::thread::Builder;
use std::time::{Duration, Instant};

/// So many requests of a connection may be under way; more wait in the socket.
const DEEP: usize = 32;
/// The most bytes of a request that brings no batches.
const MOST_OTHER: usize = 1 << 20;
/// Bytes that are read at once.
const CHUNK: usize = 64 << 10;
/// How long one read or write waits, before the thread looks at the clock.
const PATIENCE: Duration = Duration::from_millis(200);
const STACK: usize = 512 << 10;

/// A request that was read, in the order in which they came.
enum Pending {
    Produced(Box<Produced>),
    Other(Request),
}

/// A request that waits for its turn.
struct Request {
    header: Header,
    client: String,
    body: Vec<u8>,
}

/// What a request's header says.
#[derive(Clone, Copy)]
pub struct Header {
    /// Its key.
    pub key: i16,
    /// Its version.
    pub version: i16,
    /// What the answer brings back.
    pub correlation_id: i32,
    /// When it came.
    pub came: Instant,
}

/// A connection, as both of its threads know it.
struct Connection {
    hub: Arc<Hub>,
    node: u8,
    number: u64,
    peer: String,
    stream: TcpStream,
    has_ended: AtomicBool,
    /// The client has closed it: nobody waits for answers.
    is_gone: AtomicBool,
    /// What the answering thread is at.
    doing: Arc<Doing>,
    /// How many requests the answering thread has yet to answer. The reading thread raises it, and writes only where it is 0.
    under_way: AtomicUsize,
}

impl Connection {
    /// Whether nobody waits for an answer, or the node is down.
    fn is_off(&self) -> bool {
        !self.hub.is_up(self.node) || self.is_gone.load(SeqCst)
    }

    /// Where the answer to a request goes.
    fn reply<'a>(&'a self, header: Header, buffer: &'a mut Vec<u8>) -> Reply<'a> {
        Reply::new(&self.hub, &self.stream, header.version, header.correlation_id, header.came, buffer)
    }

    /// Ends it, and says why, once.
    fn end(&self, why: Result<(), Close>) {
        let first = !self.has_ended.swap(true, SeqCst);
        if let (true, Err(Close::Because(text))) = (first, why) {
            self.hub.log(self.node, &self.peer, &text);
        }
        let _shut = self.stream.shutdown(Shutdown::Both);
        self.is_gone.store(true, SeqCst);
        self.hub.news.tell();
    }
}

/// Takes a port. Where it was in use a moment ago, it is tried again for a second.
pub fn bind(listen: IpAddr, port: u16) -> io::Result<TcpListener> {
    let until = Instant::now() + Duration::from_secs(1);
    loop {
        match TcpListener::bind((listen, port)) {
            Err(error) if error.kind() == io::ErrorKind::AddrInUse && port != 0 && Instant::now() < until => {
                std::thread::sleep(Duration::from_millis(20));
            }
            bound => return bound,
        }
    }
}

/// Accepts a node's connections until it is down.
pub fn accept(hub: &Arc<Hub>, node: u8, listener: TcpListener) -> io::Result<()> {
    let shared = hub.clone();
    let accepting = Builder::new().name(format!("accept {node}")).stack_size(STACK).spawn(move || {
        loop {
            let accepted = listener.accept();
            if !shared.is_up(node) {
                return;
            }
            match accepted {
                Ok((stream, peer)) => serve(&shared, node, stream, peer),
                // As where the system has no more files: others may go on meanwhile.
                Err(_) => std::thread::sleep(Duration::from_millis(10)),
            }
        }
    })?;
    if let Some(gate) = hub.gate(node) {
        *lock(&gate.acceptor) = Some(accepting);
    }
    Ok(())
}

/// Closes all ports and connections of a broker that ends.
pub fn close_all(hub: &Hub) {
    for node in 0..hub.nodes() {
        close_port(hub, node);
        hub.hang_up(node);
    }
}

/// Ends the acceptor of a node that is down, and so closes its port.
pub fn close_port(hub: &Hub, node: u8) {
    let Some(gate) = hub.gate(node) else { return };
    let Some(acceptor) = lock(&gate.acceptor).take() else { return };
    let address = match hub.options.listen {
        IpAddr::V4(it) if it.is_unspecified() => IpAddr::V4(Ipv4Addr::LOCALHOST),
        IpAddr::V6(it) if it.is_unspecified() => IpAddr::V6(Ipv6Addr::LOCALHOST),
        address => address,
    };
    while !acceptor.is_finished() {
        // It waits for a connection: here is one.
        let _woken = TcpStream::connect_timeout(&SocketAddr::new(address, gate.port), PATIENCE);
        std::thread::sleep(Duration::from_millis(1));
    }
    let _ended = acceptor.join();
}

/// Starts a connection's threads, or closes it where that can't be.
fn serve(hub: &Arc<Hub>, node: u8, stream: TcpStream, peer: SocketAddr) {
    let doing = Arc::new(Doing::default());
    let number = match hub.enter(node, &stream, &doing) {
        Ok(Some(number)) => number,
        Ok(None) => return hub.log(node, &peer.to_string(), "there are as many connections as there may be"),
        Err(error) => return hub.log(node, &peer.to_string(), &error.to_string()),
    };
    if let Err(error) = start(hub, node, number, stream, peer, doing) {
        hub.leave(number);
        hub.log(node, &peer.to_string(), &error.to_string());
    } else if !hub.is_up(node) {
        hub.hang_up(node); // it was stopped meanwhile
    }
}

fn start(hub: &Arc<Hub>, node: u8, number: u64, stream: TcpStream, peer: SocketAddr, doing: Arc<Doing>) -> io::Result<()> {
    stream.set_nodelay(true)?;
    stream.set_read_timeout(Some(PATIENCE))?;
    stream.set_write_timeout(Some(PATIENCE))?;
    let (hub, peer) = (hub.clone(), peer.to_string());
    let (has_ended, is_gone, under_way) = (AtomicBool::new(false), AtomicBool::new(false), AtomicUsize::new(0));
    let connection = Arc::new(Connection { hub, node, number, peer, stream, has_ended, is_gone, doing, under_way });
    let producer = Arc::new(Producer::new(&connection.hub));
    let (sender, inbox) = sync_channel(DEEP);
    let (reads, receipts) = (connection.clone(), producer.clone());
    let answering = Builder::new().name(format!("answer {node}")).stack_size(STACK).spawn(move || {
        connection.end(answer_all(&connection, &receipts, &inbox));
        connection.hub.leave(connection.number);
    });
    answering?;
    // Where this fails, the sender is dropped, and the other thread ends.
    let reading = Builder::new().name(format!("read {node}")).stack_size(STACK);
    reading.spawn(move || {
        let ended = Reading { connection: &reads, producer: &producer, to: &sender, batch: None, buffer: Vec::new() }.read_all();
        match ended {
            Ok(()) => {
                // What has come is answered first, but nothing is waited for.
                reads.is_gone.store(true, SeqCst);
                reads.hub.news.tell();
                drop(sender);
            }
            Err(_) => reads.end(ended),
        }
    })?;
    Ok(())
}

/// What a connection's reading thread has.
struct Reading<'a> {
    connection: &'a Connection,
    producer: &'a Producer,
    to: &'a SyncSender<Pending>,
    /// The memory of a batch, and of an answer, which are used again.
    batch: Option<kpart::Batch>,
    buffer: Vec<u8>,
}

impl Reading<'_> {
    /// Reads requests until the client ends, or is refused.
    fn read_all(mut self) -> Result<(), Close> {
        let (hub, node) = (&self.connection.hub, self.connection.node);
        let mut input = &self.connection.stream;
        let mut frames = FrameDecoder::new(LEAST_REQUEST, hub.options.most_frame);
        let (mut last, mut began) = (Instant::now(), None);
        loop {
            let before = last;
            while let Some(frame) = frames.next_frame()? {
                last = Instant::now();
                self.take(frame, last)?;
            }
            if frames.waiting() == 0 || last > before {
                began = None;
            }
            if frames.waiting() > 0 {
                began = began.or(Some(Instant::now()));
            }
            match frames.fill_from(&mut input, CHUNK) {
                Ok(0) => return Ok(()),
                Ok(_) => {}
                Err(error) if is_early(&error) => {}
                Err(_) => return Err(Close::Quiet),
            }
            if !hub.is_up(node) {
                return Err(Close::Quiet);
            }
            if began.is_some_and(|it: Instant| it.elapsed() > hub.options.slow) {
                return Err(Close::because("a request takes too long to come"));
            }
            if last.elapsed() > hub.options.idle {
                return Err(Close::because("no request came for too long"));
            }
        }
    }

    /// Appends what a Produce brings, and answers it where it can; all else goes to the answering thread.
    fn take(&mut self, frame: &[u8], came: Instant) -> Result<(), Close> {
        let connection = self.connection;
        let hub = &connection.hub;
        hub.counts.requests.fetch_add(1, SeqCst);
        let mut reader = Reader::new(frame);
        let header = RequestHeader::decode(&mut reader)?;
        hub.counts.asked.add(header.api_key);
        let client = header.client_id.unwrap_or_default();
        let header = Header { key: header.api_key, version: header.api_version, correlation_id: header.correlation_id, came };
        if header.key == api::PRODUCE.key {
            let produced = produce::append(hub, connection.node, self.producer, &mut self.batch, header, &mut reader)?;
            return self.answer(produced);
        }
        if frame.len() > MOST_OTHER {
            return Err(Close::because("a request that brings no batches is too long"));
        }
        let body = frame.get(reader.position()..).unwrap_or_default().to_vec();
        self.hand_on(Pending::Other(Request { header, client: client.to_string(), body }))
    }

    /// Answers at once where all is known and no other answer comes before.
    fn answer(&mut self, mut produced: Produced) -> Result<(), Close> {
        let connection = self.connection;
        let (hub, node) = (&connection.hub, connection.node);
        let is_known = produce::replicate(hub, node, self.producer, &mut produced);
        if !is_known || connection.under_way.load(SeqCst) > 0 || hub.is_slowed(node) {
            return self.hand_on(Pending::Produced(Box::new(produced)));
        }
        let reply = connection.reply(produced.header, &mut self.buffer);
        let passes = &mut Passes::default();
        let Answered { .. } = produce::answer(hub, node, self.producer, passes, &produced, &|| connection.is_off(), reply)?;
        Ok(())
    }

    fn hand_on(&self, pending: Pending) -> Result<(), Close> {
        self.connection.under_way.fetch_add(1, SeqCst);
        self.to.send(pending).map_err(|_| Close::Quiet)
    }
}

fn is_early(error: &io::Error) -> bool {
    matches!(error.kind(), io::ErrorKind::WouldBlock | io::ErrorKind::TimedOut | io::ErrorKind::Interrupted)
}

/// Answers requests in their order.
fn answer_all(connection: &Connection, producer: &Producer, inbox: &Receiver<Pending>) -> Result<(), Close> {
    let (hub, node) = (&connection.hub, connection.node);
    let mut passes = Passes::default();
    let mut buffer = Vec::new();
    for pending in inbox {
        let Answered { .. } = match pending {
            Pending::Produced(produced) => {
                connection.doing.begin(api::PRODUCE.key);
                let reply = connection.reply(produced.header, &mut buffer);
                produce::answer(hub, node, producer, &mut passes, &produced, &|| connection.is_off(), reply)?
            }
            Pending::Other(request) => {
                let Header { key, version, .. } = request.header;
                connection.doing.begin(key);
                let reply = connection.reply(request.header, &mut buffer);
                let failing = hub.failure(key);
                let (client, peer) = (request.client.as_str(), connection.peer.as_str());
                let gone = &connection.is_gone;
                let mut call = Call { hub, node, client, peer, gone, version, failing, passes: &mut passes };
                requests::answer(&mut call, key, &request.body, reply)?
            }
        };
        connection.doing.end();
        connection.under_way.fetch_sub(1, SeqCst);
        if !hub.is_up(node) {
            return Err(Close::Quiet);
        }
    }
    Ok(())
}
