//! What a handler of a request gets, and where it puts its answer.

use crate::codes::code;
use crate::hub::Hub;
use kpart::Pass;
use kwire::frame::response_frame;
use kwire::{ErrorCode, Response, WireError};
use std::io::{self, IoSlice, Write};
use std::net::TcpStream;
use std::sync::Arc;
use std::sync::atomic::{AtomicBool, Ordering::SeqCst};
use std::thread;
use std::time::{Duration, Instant};

/// Why a connection ends.
#[derive(Debug)]
pub enum Close {
    /// The client has gone, or the node.
    Quiet,
    /// The client did something that it may not do.
    Because(String),
}

impl Close {
    /// With a reason.
    pub fn because(text: &str) -> Close {
        Close::Because(text.to_string())
    }
}

impl From<WireError> for Close {
    fn from(error: WireError) -> Close {
        Close::Because(format!("a request isn't Kafka's: {error}"))
    }
}

/// The passes of one thread, by partition.
#[derive(Debug, Default)]
pub struct Passes {
    all: Vec<Option<Pass>>,
}

impl Passes {
    /// The pass for a partition.
    pub fn of(&mut self, hub: &Hub, place: usize) -> Result<&mut Pass, ErrorCode> {
        if self.all.len() <= place {
            self.all.resize_with(place + 1, || None);
        }
        let unknown = ErrorCode::UnknownTopicOrPartition;
        let slot = self.all.get_mut(place).ok_or(unknown)?;
        if slot.is_none() {
            let partition = hub.partitions.get(place).ok_or(unknown)?;
            *slot = Some(partition.cluster.pass().map_err(code)?);
        }
        slot.as_mut().ok_or(unknown)
    }
}

/// A request, but for its own fields.
pub struct Call<'a> {
    /// What all share.
    pub hub: &'a Arc<Hub>,
    /// The node that was asked.
    pub node: u8,
    /// The client's name for itself.
    pub client: &'a str,
    /// Its address.
    pub peer: &'a str,
    /// Whether the client has closed the connection.
    pub gone: &'a AtomicBool,
    /// The request's version.
    pub version: i16,
    /// The code with which a tester wants the answer to fail.
    pub failing: Option<i16>,
    /// The answering thread's passes.
    pub passes: &'a mut Passes,
}

impl Call<'_> {
    /// Whether nobody waits for the answer, or the node is down.
    pub fn is_off(&self) -> bool {
        !self.hub.is_up(self.node) || self.gone.load(SeqCst)
    }

    /// What a tester wants, as an early end.
    pub fn check_failing(&self) -> Result<(), i16> {
        self.failing.map_or(Ok(()), Err)
    }

    /// Whether this node coordinates groups and transactions; else what to answer.
    pub fn check_coordinator(&self) -> Result<(), i16> {
        self.check_failing()?;
        match self.hub.coordinator() {
            Some(node) if node == self.node => Ok(()),
            _ => Err(ErrorCode::NotCoordinator.into()),
        }
    }
}

/// That a request has got its answer. Who handles one gives this back, or has the connection closed: so none is forgotten.
#[must_use]
pub struct Answered(());

/// Where an answer goes.
pub struct Reply<'a> {
    stream: &'a TcpStream,
    version: i16,
    correlation_id: i32,
    not_before: Instant,
    /// Whether it tells what the coordinators know, which has to be kept first.
    is_kept: bool,
    hub: &'a Hub,
    buffer: &'a mut Vec<u8>,
}

impl<'a> Reply<'a> {
    /// Of a request that came then.
    pub fn new(
        hub: &'a Hub,
        stream: &'a TcpStream,
        version: i16,
        correlation_id: i32,
        came: Instant,
        buffer: &'a mut Vec<u8>,
    ) -> Reply<'a> {
        let rtt = Duration::from_millis(hub.rtt.load(SeqCst));
        Reply { stream, version, correlation_id, not_before: came + rtt, is_kept: false, hub, buffer }
    }

    /// The same at another version.
    #[must_use]
    pub fn at_version(mut self, version: i16) -> Reply<'a> {
        self.version = version;
        self
    }

    /// The same, of what the coordinators know: it is sent once that is on the disk, where there is a folder.
    #[must_use]
    pub fn kept(mut self) -> Reply<'a> {
        self.is_kept = true;
        self
    }

    /// Waits until a tester wants the answer to come.
    fn wait(&self) -> Result<(), Close> {
        loop {
            let left = self.not_before.saturating_duration_since(Instant::now());
            if left.is_zero() {
                return Ok(());
            }
            if self.hub.is_closing() {
                return Err(Close::Quiet);
            }
            thread::sleep(left.min(Duration::from_millis(20)));
        }
    }

    /// The client wants no answer.
    pub fn spared(self) -> Answered {
        Answered(())
    }

    /// Sends the answer. Hold no lock meanwhile.
    pub fn send<'m, M: Response<'m>>(self, message: &M) -> Result<Answered, Close> {
        if self.is_kept && self.hub.keep.settle().is_err() {
            return Err(Close::Quiet); // the controller says why
        }
        let frame = response_frame(message, self.version, self.correlation_id, std::mem::take(self.buffer))?;
        self.wait()?;
        let mut output = Bounded { stream: self.stream, until: Instant::now() + self.hub.options.slow };
        let sent = frame.write_to(&mut output);
        *self.buffer = frame.into_buffer();
        match sent {
            Ok(()) => Ok(Answered(())),
            Err(error) if error.kind() == io::ErrorKind::TimedOut => Err(Close::because("it doesn't take its answer")),
            Err(_) => Err(Close::Quiet),
        }
    }
}

/// A stream that takes bytes until it is time. Its own time for one write is shorter.
struct Bounded<'a> {
    stream: &'a TcpStream,
    until: Instant,
}

impl Bounded<'_> {
    fn retried(&mut self, mut write: impl FnMut(&mut &TcpStream) -> io::Result<usize>) -> io::Result<usize> {
        loop {
            if Instant::now() > self.until {
                return Err(io::ErrorKind::TimedOut.into());
            }
            match write(&mut self.stream) {
                Err(error) if matches!(error.kind(), io::ErrorKind::WouldBlock | io::ErrorKind::TimedOut) => {}
                written => return written,
            }
        }
    }
}

impl Write for Bounded<'_> {
    fn write(&mut self, bytes: &[u8]) -> io::Result<usize> {
        self.retried(|it| it.write(bytes))
    }

    fn write_vectored(&mut self, slices: &[IoSlice<'_>]) -> io::Result<usize> {
        self.retried(|it| it.write_vectored(slices))
    }

    fn flush(&mut self) -> io::Result<()> {
        Ok(())
    }
}
