//! A run as a script: what each node and the controller were asked and answered, in an order in which it happened.

pub(crate) mod journal;
pub(crate) mod noting;
mod spelling;
mod writer;

use crate::cluster::Cluster;
use crate::error::Error;
use crate::ffi::Limits;
use journal::Journal;
use std::fmt;
use std::io;
use std::path::{Path, PathBuf};
use std::sync::Arc;
use std::sync::atomic::{AtomicUsize, Ordering};
use std::thread::{Builder, JoinHandle};
use writer::Writer;

// Of scripts.
const MAX_BATCH: u32 = 1_048_576;
const NODES: std::ops::RangeInclusive<u8> = 1..=7;
const SEGMENT_BYTES: std::ops::RangeInclusive<u32> = 1_024..=1_073_741_824;
const MOST_INTERVAL: u32 = 1_048_576;

// How many recorders there are: while there is one, a batch that is made keeps its bytes.
static RECORDERS: AtomicUsize = AtomicUsize::new(0);

// The bytes of a batch, where it may come to a recorded node.
pub(crate) fn kept(bytes: &[u8]) -> Option<Arc<[u8]>> {
    (RECORDERS.load(Ordering::SeqCst) > 0).then(|| Arc::from(bytes))
}

/// What was recorded so far.
#[derive(Clone, Copy, Debug, PartialEq, Eq)]
pub struct Recorded {
    /// How many events the script has. `kpart run` takes 1,000,000 of them, `kpart pipe` any number.
    pub events: u64,
    /// How many messages they send.
    pub messages: u32,
}

/// Why a run isn't recorded, or isn't recorded any further.
#[derive(Clone, Debug, PartialEq, Eq)]
#[non_exhaustive]
pub enum RecorderFault {
    /// A file was there already, or can't be made or written.
    File {
        /// The file.
        path: PathBuf,
        /// Of which kind the system's error is.
        kind: io::ErrorKind,
        /// What the system says.
        said: String,
    },
    /// No script has so many nodes, or such limits: 1 to 7 nodes, `segment_bytes` from 1,024 to 2^30, `index_interval` up to 1,048,576, and
    /// `max_batch` 1,048,576.
    Limits,
    /// The library refuses the cluster.
    Library(Error),
    /// The system gave no thread for the writer, or that has ended.
    NoThread,
    /// Something has happened that no line of a script says: what. The script ends before it, and is right up to there.
    NoLine(String),
}

impl RecorderFault {
    fn file(path: &Path, error: &io::Error) -> RecorderFault {
        RecorderFault::File { path: path.to_path_buf(), kind: error.kind(), said: error.to_string() }
    }
}

impl fmt::Display for RecorderFault {
    fn fmt(&self, out: &mut fmt::Formatter<'_>) -> fmt::Result {
        match self {
            RecorderFault::File { path, said, .. } => write!(out, "{}: {said}", path.display()),
            RecorderFault::Limits => out.write_str("no script has so many nodes, or such limits"),
            RecorderFault::Library(error) => error.fmt(out),
            RecorderFault::NoThread => out.write_str("it has no thread that writes"),
            RecorderFault::NoLine(what) => write!(out, "no line of a script says it: {what}"),
        }
    }
}

impl std::error::Error for RecorderFault {}

/// The recorder of a cluster. It writes a script, which `kpart run` plays and `kpart draw` draws, and beside it what was answered, in the form of
/// the trace that `kpart run` prints (`docs/FORMATS.md`): played again each line is answered as it was then.
///
/// A line stands for each call that may change something: [`Node::produce`], [`Node::mark`], [`Node::adopt`], [`Node::ask`], [`Node::step`],
/// [`Node::raise`], [`Node::alter`], [`Node::checkpoint`], [`Node::stop`], [`Node::restart`], [`Pass::elect`] and [`Pass::decide`], of workers, too;
/// and for each [`Node::read_committed`] and [`Node::fetch`]. A fetch is a `show` of what it told, and where it was refused a `read` or a
/// `committed`. Other calls change nothing, and have none. A message that was lost has no delivery, one that came twice has two. A call that
/// never came to a node, as its pass was of another cluster, isn't there. One that was refused for want of memory, or since its message is
/// for somebody else, is a comment.
///
/// **Order.** A line is entered while its node's lock is held. What looks at the controller's record or changes it ([`Node::adopt`], a
/// [`Node::step`] that may cut, [`Pass::elect`], [`Pass::decide`]) holds the record's lock from before the call until its line is entered. So
/// two calls of which one could see what the other one did are entered in the order in which they happened, a message is delivered behind the
/// call that sent it, and the lines could have happened just so in one thread. Of a recorded cluster an election takes a lock, and F22
/// doesn't come of it.
///
/// **The record ends** where something happens that no script says, as a take that is refused for want of memory: [`Recorder::flush`] says what.
///
/// A call costs an entry, and a copy of the batch that it hands in, from [`Batch::new`] on while there is any recorder. A thread writes the
/// lines, as a rule within 20 ms; entries take at most 64 MiB until then: callers wait where there are more. Where memory is refused to the
/// recorder itself the process ends, as with any of Rust's collections.
///
/// ```
/// use kpart::{Limits, Recorder};
///
/// # fn main() -> Result<(), Box<dyn std::error::Error>> {
/// let script = std::env::temp_dir().join(format!("recorded-{}.script", std::process::id()));
/// let (cluster, recorder) = Recorder::open(&script, 1, Limits::default())?;
/// let mut pass = cluster.pass()?;
/// pass.elect(0)?;
/// cluster.node(0)?.adopt()?;
/// cluster.node(0)?.raise()?;
/// assert_eq!(recorder.stop()?.events, 3);
/// assert_eq!(std::fs::read_to_string(&script)?, "nodes 1 segment 1073741824 interval 4096\nelect 0\nadopt 0\nraise 0\n");
/// let answers = kpart::Recorder::answers_of(&script);
/// let told = "2 record leader 0 epoch 0 isr 0 version 1\n3 leads epoch 0 from 0\n4 mark 0\n";
/// assert_eq!(std::fs::read_to_string(&answers)?, told);
/// # std::fs::remove_file(script)?;
/// # std::fs::remove_file(answers)?;
/// # Ok(()) }
/// ```
///
/// [`Node::produce`]: crate::Node::produce
/// [`Node::mark`]: crate::Node::mark
/// [`Node::adopt`]: crate::Node::adopt
/// [`Node::ask`]: crate::Node::ask
/// [`Node::step`]: crate::Node::step
/// [`Node::raise`]: crate::Node::raise
/// [`Node::alter`]: crate::Node::alter
/// [`Node::checkpoint`]: crate::Node::checkpoint
/// [`Node::stop`]: crate::Node::stop
/// [`Node::restart`]: crate::Node::restart
/// [`Node::fetch`]: crate::Node::fetch
/// [`Node::read_committed`]: crate::Node::read_committed
/// [`Pass::elect`]: crate::Pass::elect
/// [`Pass::decide`]: crate::Pass::decide
/// [`Batch::new`]: crate::Batch::new
#[derive(Debug)]
pub struct Recorder {
    journal: Arc<Journal>,
    writer: Option<JoinHandle<()>>,
}

impl Recorder {
    /// Opens a cluster as [`Cluster::open`] does, with its recorder, which makes the script and the file of its answers
    /// ([`Recorder::answers_of`]). Neither may be there.
    pub fn open(script: &Path, nodes: u8, limits: Limits) -> Result<(Cluster, Recorder), RecorderFault> {
        let Limits { segment_bytes, index_interval, max_batch } = limits;
        let is_scripts = NODES.contains(&nodes) && SEGMENT_BYTES.contains(&segment_bytes) && index_interval <= MOST_INTERVAL;
        if !is_scripts || max_batch != MAX_BATCH {
            return Err(RecorderFault::Limits);
        }
        let journal = Arc::new(Journal::default());
        let cluster = Cluster::open_noted(nodes, limits, journal.clone()).map_err(RecorderFault::Library)?;
        let header = format!("nodes {nodes} segment {segment_bytes} interval {index_interval}\n");
        let writer = Writer::make(script, &Recorder::answers_of(script), &header)?;
        let theirs = journal.clone();
        let started = Builder::new().name("kpart recorder".to_string()).spawn(move || writer.run(&theirs));
        let writer = Some(started.map_err(|_| RecorderFault::NoThread)?);
        RECORDERS.fetch_add(1, Ordering::SeqCst);
        Ok((cluster, Recorder { journal, writer }))
    }

    /// Where the answers stand: `FILE.answers`.
    pub fn answers_of(script: &Path) -> PathBuf {
        let mut name = script.as_os_str().to_os_string();
        name.push(".answers");
        PathBuf::from(name)
    }

    /// Waits until all that happened before this call is in the files, and says how much that is, or why there isn't more. The files may
    /// be read meanwhile: they have whole lines.
    pub fn flush(&self) -> Result<Recorded, RecorderFault> {
        self.journal.flush()
    }

    /// Ends the record, and waits until it is written: what happens later isn't in it. Dropping the recorder does so, too.
    pub fn stop(&self) -> Result<Recorded, RecorderFault> {
        self.journal.close();
        self.flush()
    }
}

impl Drop for Recorder {
    fn drop(&mut self) {
        self.journal.close();
        if let Some(writer) = self.writer.take() {
            let _ended = writer.join();
        }
        RECORDERS.fetch_sub(1, Ordering::SeqCst);
    }
}
