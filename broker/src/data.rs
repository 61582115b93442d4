//! A folder in which partitions, transactions, groups' offsets and producer ids outlive the process.

use crate::broker::Fault;
use crate::cluster;
use crate::hub::Hub;
use crate::keep::Keep;
use crate::kept::{self, Left, Name, Places};
use crate::news::News;
use crate::options::{Options, is_topic_name};
use crate::partition::{self, Partition};
use kpart::{Error, Journal, Store, StoreError, StoreFile};
use kwire::WireError;
use std::collections::BTreeSet;
use std::fmt;
use std::io::{self, Write as _};
use std::path::{Path, PathBuf};
use std::sync::Arc;
use std::time::{Duration, Instant};

/// For so long a start waits until all is committed that the leaders have.
const CATCHING_UP: Duration = Duration::from_secs(10);

/// Why a folder wasn't opened. Nothing was removed.
#[derive(Debug)]
pub enum DataFault {
    /// A partition's folder or the journal.
    Store(StoreError),
    /// An entry of the journal isn't as this broker makes them.
    Entry {
        /// The journal.
        path: PathBuf,
        /// What is wrong with it.
        error: WireError,
    },
    /// A partition that the folder has isn't among the topics.
    Unnamed {
        /// The partition's folder.
        path: PathBuf,
        /// The topic, and how many partitions it has at least.
        topic: String,
        /// How many partitions the topic has in the folder, at least.
        partitions: i32,
    },
    /// What was there isn't there.
    Gone(PathBuf),
    /// The system refuses to list the folder.
    System(PathBuf, io::Error),
    /// The library refuses.
    Library(Error),
}

impl fmt::Display for DataFault {
    fn fmt(&self, out: &mut fmt::Formatter<'_>) -> fmt::Result {
        match self {
            DataFault::Store(it) => it.fmt(out),
            DataFault::Entry { path, error } => write!(out, "{}: an entry is of another grammar: {error}", path.display()),
            DataFault::Unnamed { path, topic, partitions } => {
                write!(out, "{}: it is kept, and isn't among the topics: --topic {topic}:{partitions}", path.display())
            }
            DataFault::Gone(path) => write!(out, "{}: it isn't there", path.display()),
            DataFault::System(path, error) => write!(out, "{}: {error}", path.display()),
            DataFault::Library(error) => error.fmt(out),
        }
    }
}

impl std::error::Error for DataFault {}

impl From<StoreError> for DataFault {
    fn from(error: StoreError) -> DataFault {
        DataFault::Store(error)
    }
}

impl From<Error> for DataFault {
    fn from(error: Error) -> DataFault {
        DataFault::Library(error)
    }
}

/// What a broker begins with.
#[derive(Default)]
pub struct Opened {
    /// The partitions, in the order of the options.
    pub partitions: Vec<Partition>,
    /// What keeps that which the coordinators tell.
    pub keep: Keep,
    /// What they have told.
    pub left: Left,
}

/// Opens all partitions, in the folder of the options or in memory.
pub fn open(options: &Options, news: &Arc<News>) -> Result<Opened, Fault> {
    let index = |number: u32| i32::try_from(number).unwrap_or(i32::MAX);
    let names: Vec<Name> =
        options.topics.iter().flat_map(|topic| (0..topic.partitions).map(move |it| (topic.name.clone(), index(it)))).collect();
    match &options.data {
        Some(folder) => Ok(Folder::open(folder, names, options, news)?.opened()?),
        None => {
            let partitions = names.iter().map(|(topic, index)| Partition::open(topic, *index, options, news));
            Ok(Opened { partitions: partitions.collect::<Result<_, _>>()?, ..Opened::default() })
        }
    }
}

/// A folder that is locked and read, but for its partitions.
struct Folder<'a> {
    names: Vec<Name>,
    /// Those that have folders already.
    known: BTreeSet<Name>,
    journal: Journal,
    left: Left,
    options: &'a Options,
    news: &'a Arc<News>,
}

impl<'a> Folder<'a> {
    fn open(folder: &Path, names: Vec<Name>, options: &'a Options, news: &'a Arc<News>) -> Result<Folder<'a>, DataFault> {
        let journal = Journal::open(folder)?;
        let path = StoreFile::Journal.path(journal.folder());
        let grammar = |error| DataFault::Entry { path: path.clone(), error };
        let entries = journal.entries();
        let noted = kept::partitions(&entries).map_err(grammar)?;
        let there = there(journal.folder()).map_err(|it| DataFault::System(journal.folder().to_path_buf(), it))?;
        if journal.is_new() && !there.is_empty() {
            return Err(DataFault::Gone(path));
        }
        if let Some(lacking) = noted.iter().find(|it| !there.contains(it)) {
            return Err(DataFault::Gone(folder_of(journal.folder(), lacking)));
        }
        if let Some(name) = there.iter().find(|it| !names.contains(it)) {
            let partitions = there.iter().filter(|it| it.0 == name.0).map(|it| it.1.saturating_add(1)).max().unwrap_or(1);
            return Err(DataFault::Unnamed { path: folder_of(journal.folder(), name), topic: name.0.clone(), partitions });
        }
        let left = Places(&names).left(&entries).map_err(grammar)?;
        Ok(Folder { names, known: there, journal, left, options, news })
    }

    /// Those that are there come first: where one of them is refused, nothing was made. The journal is there before the first partition.
    fn opened(self) -> Result<Opened, DataFault> {
        let (known, new): (Vec<usize>, Vec<usize>) = (0..self.names.len()).partition(|it| self.known.contains(&self.names[*it]));
        let mut partitions = self.partitions(known)?;
        self.settle(vec![kept::life(self.left.life + 1)])?;
        partitions.extend(self.partitions(new)?);
        self.settle(self.names.iter().map(kept::partition).collect())?;
        if let Some((byte, bytes)) = self.journal.torn() {
            tell_torn(&StoreFile::Journal.path(self.journal.folder()), byte, bytes);
        }
        partitions.sort_by_key(|it| it.0);
        let keep = Keep::of(self.journal, self.names, self.left.next_id);
        Ok(Opened { partitions: partitions.into_iter().map(|it| it.1).collect(), keep, left: self.left })
    }

    fn partitions(&self, places: Vec<usize>) -> Result<Vec<(usize, Partition)>, DataFault> {
        places.into_iter().map(|place| Ok((place, self.partition(place)?))).collect()
    }

    fn settle(&self, changes: Vec<kept::Change>) -> Result<(), DataFault> {
        let ticket = self.journal.put(changes);
        self.journal.settle(ticket).map_err(|fault| {
            let error = fault.code.map_or_else(|| fault.kind.into(), io::Error::from_raw_os_error);
            DataFault::System(fault.file.path(self.journal.folder()), error)
        })
    }

    fn partition(&self, place: usize) -> Result<Partition, DataFault> {
        let (topic, index) = &self.names[place];
        let folder = folder_of(self.journal.folder(), &self.names[place]);
        let (cluster, store) = Store::open(&folder, self.options.nodes, partition::LIMITS)?;
        for torn in &store.torn {
            tell_torn(&StoreFile::Segment { node: torn.node, base: torn.base }.path(&folder), torn.byte, torn.bytes);
        }
        Ok(Partition::over(cluster, topic, *index, self.options, self.news)?)
    }
}

fn tell(text: &str) {
    // Nobody may be there to read it.
    let _said = writeln!(io::stderr(), "kpart-broker: {text}");
}

fn tell_torn(path: &Path, byte: u64, bytes: u64) {
    tell(&format!("{}: {bytes} bytes from byte {byte} on aren't whole, and never counted: they are cut off", path.display()));
}

fn folder_of(folder: &Path, (topic, index): &Name) -> PathBuf {
    folder.join(format!("{topic}-{index}"))
}

/// The partitions that have folders. Anything else in the folder is nobody's.
fn there(folder: &Path) -> io::Result<BTreeSet<Name>> {
    let mut found = BTreeSet::new();
    for entry in std::fs::read_dir(folder)? {
        let entry = entry?;
        if let Some(name) = entry.file_name().to_str().and_then(name_of).filter(|_| entry.path().is_dir()) {
            found.insert(name);
        }
    }
    Ok(found)
}

/// Of a partition's folder, as Kafka names it.
fn name_of(text: &str) -> Option<Name> {
    let (topic, digits) = text.rsplit_once('-')?;
    let index: i32 = digits.parse().ok().filter(|it: &i32| it.to_string() == digits)?;
    is_topic_name(topic).then(|| (topic.to_string(), index))
}

/// Waits until all is committed that the leaders have, for a time: what consumers were shown is shown again from the start on.
pub fn catch_up(hub: &Hub) {
    let until = Instant::now() + CATCHING_UP;
    hub.partitions.iter().for_each(|it| wait_caught_up(it, until));
}

fn wait_caught_up(partition: &Partition, until: Instant) {
    while !has_caught_up(partition) && Instant::now() < until {
        std::thread::sleep(Duration::from_millis(1));
    }
}

fn has_caught_up(partition: &Partition) -> bool {
    let Some(leader) = partition.control().pass.leadership().ok().and_then(|it| it.leader) else { return true };
    partition.replicate(leader.0);
    partition.state(leader.0).is_ok_and(|it| it.watermark == it.end)
}

/// Stops each node whose files can't be written, as Kafka's broker ends whose folder fails, and says why, once. `restart` starts it again.
pub fn stop_failed(hub: &Hub) {
    let Some(folder) = &hub.options.data else { return };
    for node in (0..hub.nodes()).filter(|it| hub.is_up(*it)) {
        let fault = hub.partitions.iter().find_map(|it| Some((it, it.cluster.node(node).ok()?.fault()?)));
        if let Some((partition, fault)) = fault {
            let name = (partition.topic.clone(), partition.index);
            stop(hub, node, &format!("{}/{fault}", folder_of(folder, &name).display()));
        }
    }
    // What has failed is tried again: there may be room by now.
    if hub.keep.take_fault().is_none() || hub.keep.settle().is_ok() {
        return;
    }
    if let (Some(fault), Some(node)) = (hub.keep.take_fault(), hub.coordinator()) {
        stop(hub, node, &format!("{}/{fault}", folder.display()));
    }
}

fn stop(hub: &Hub, node: u8, why: &str) {
    // What can't be written then, it says itself.
    let _stopped = cluster::stop(hub, node);
    tell(&format!("node {node} has stopped: {why}"));
}

#[cfg(test)]
mod tests {
    use super::*;

    #[test]
    fn folders_are_named_as_kafkas_are() {
        assert_eq!(name_of("payments-0"), Some(("payments".to_string(), 0)));
        assert_eq!(name_of("a-b-17"), Some(("a-b".to_string(), 17)));
        for text in
            ["journal", "payments", "payments-", "payments-x", "payments-01", "payments-+1", "-1", "..-1", "lost+found", "a-99999999999"]
        {
            assert_eq!(name_of(text), None, "{text}");
        }
    }
}
