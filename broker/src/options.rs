//! What a broker is started with.

use std::fmt;
use std::net::{IpAddr, Ipv4Addr};
use std::path::PathBuf;
use std::time::Duration;

/// The most partitions of all topics together.
pub const MOST_PARTITIONS: u32 = 64;
/// The longest time of an option.
const LONGEST: Duration = Duration::from_secs(86_400);
/// The most nodes.
pub const MOST_NODES: u8 = 7;

/// A topic and the count of its partitions.
#[derive(Clone, Debug, PartialEq, Eq)]
pub struct TopicOption {
    /// Its name, of Kafka's letters: `a-z`, `A-Z`, `0-9`, `.`, `_` and `-`.
    pub name: String,
    /// How many partitions it has.
    pub partitions: u32,
}

/// What a broker is started with. [`Options::default`] is three nodes on free ports of 127.0.0.1, and one topic `events` of one
/// partition.
#[derive(Clone, Debug, PartialEq, Eq)]
pub struct Options {
    /// How many nodes, 1 to 7.
    pub nodes: u8,
    /// Where the nodes listen.
    pub listen: IpAddr,
    /// The host that clients are told; none for that where the nodes listen.
    pub advertise: Option<String>,
    /// Node i listens at this port plus i; with 0, each at a free one.
    pub port: u16,
    /// Where the admin's lines come in, on 127.0.0.1 always: none for nowhere, 0 for a free port.
    pub admin: Option<u16>,
    /// The topics; at most 64 partitions in all.
    pub topics: Vec<TopicOption>,
    /// The folder in which all that clients are told outlives the process; none for memory alone.
    pub data: Option<PathBuf>,
    /// How many nodes have to be in sync for a Produce of acks all (`min.insync.replicas`).
    pub min_insync: u8,
    /// A follower that hasn't caught up for so long leaves the in-sync replicas (`replica.lag.time.max.ms`).
    pub lag: Duration,
    /// How often a node has its turn where nobody waits; none for 2 ms, and more where there are more than 4 partitions.
    pub turn: Option<Duration>,
    /// The folder of the records: for each partition a script of its calls, `TOPIC-N.script`, and what they were answered. It is made, or is
    /// there and empty; none for no records.
    pub record: Option<PathBuf>,
    /// The most connections at a time; one more is closed at once.
    pub most_connections: usize,
    /// The most bytes of a request; reading one takes up to 64 times as many.
    pub most_frame: usize,
    /// The most consumer groups.
    pub most_groups: usize,
    /// The most members of a group.
    pub most_members: usize,
    /// The most transactional ids.
    pub most_transactional_ids: usize,
    /// A connection without a request for so long is closed (`connections.max.idle.ms`).
    pub idle: Duration,
    /// A request or an answer that takes longer than this on its way is given up, with its connection.
    pub slow: Duration,
}

impl Default for Options {
    fn default() -> Options {
        Options {
            nodes: 3,
            listen: IpAddr::V4(Ipv4Addr::LOCALHOST),
            advertise: None,
            port: 0,
            admin: None,
            topics: vec![TopicOption { name: "events".to_string(), partitions: 1 }],
            data: None,
            min_insync: 1,
            lag: Duration::from_secs(1),
            turn: None,
            record: None,
            most_connections: 256,
            most_frame: 4 << 20,
            most_groups: 1_000,
            most_members: 100,
            most_transactional_ids: 10_000,
            idle: Duration::from_secs(600),
            slow: Duration::from_secs(30),
        }
    }
}

/// What the command line takes.
pub const USAGE: &str = "\
kpart-broker [OPTION VALUE]..

  --nodes N                    how many nodes, 1 to 7 (3)
  --listen ADDRESS             where they listen (127.0.0.1)
  --advertise HOST             the host that clients are told (the one of --listen)
  --port BASE                  node i listens at BASE + i; 0: each at a free port (19092)
  --admin PORT                 takes the admin's lines at 127.0.0.1:PORT; 0: at a free port (nowhere)
  --topic NAME[:PARTITIONS]    a topic; several times for several, at most 64 partitions in all (events:1)
  --data FOLDER                keeps logs, transactions, offsets and producer ids in that folder, which is made where it isn't there
                               (in memory: all is gone with the process)
  --min-insync N               how many nodes have to be in sync for acks=all (1)
  --lag MS                     a follower that hasn't caught up for so long leaves the in-sync replicas (1000)
  --turn MICROSECONDS          how often a node has its turn where nobody waits (2000, more for many partitions)
  --record FOLDER              writes each partition's calls as a script, FOLDER/NAME-N.script, which 'kpart run' plays again, and
                               its answers as FOLDER/NAME-N.script.answers; FOLDER is made, or is there and empty (nowhere)
  --most-connections N         (256)
  --most-frame BYTES           the most bytes of a request (4194304)
  --most-groups N              (1000)
  --most-members N             of a group (100)
  --most-transactional-ids N   (10000)
  --idle SECONDS               a connection without a request for so long is closed (600)
  --slow SECONDS               a request or answer that is longer on its way is given up (30)
";

/// What is wrong with options.
#[derive(Clone, Debug, PartialEq, Eq)]
pub struct BadOption(pub String);

impl fmt::Display for BadOption {
    fn fmt(&self, out: &mut fmt::Formatter<'_>) -> fmt::Result {
        out.write_str(&self.0)
    }
}

impl std::error::Error for BadOption {}

impl Options {
    /// Of the command line's words, without the program's name. What isn't said is as in [`Options::default`], but for the port,
    /// 19092.
    ///
    /// # Errors
    /// What is wrong, in a line.
    pub fn of_words(words: &[String]) -> Result<Options, BadOption> {
        let mut options = Options { port: 19_092, ..Options::default() };
        let mut topics = Vec::new();
        for pair in words.chunks(2) {
            let [name, value] = pair else { return Err(BadOption(format!("{} has no value", pair[0]))) };
            match name.as_str() {
                "--topic" => topics.push(topic(value)?),
                _ => options.set(name, value)?,
            }
        }
        if !topics.is_empty() {
            options.topics = topics;
        }
        options.checked()
    }

    fn set(&mut self, name: &str, value: &str) -> Result<(), BadOption> {
        match name {
            "--nodes" => self.nodes = number(name, value)?,
            "--listen" => self.listen = number(name, value)?,
            "--advertise" => self.advertise = Some(value.to_string()),
            "--port" => self.port = number(name, value)?,
            "--admin" => self.admin = Some(number(name, value)?),
            "--data" => self.data = Some(PathBuf::from(value)),
            "--min-insync" => self.min_insync = number(name, value)?,
            "--lag" => self.lag = Duration::from_millis(number(name, value)?),
            "--turn" => self.turn = Some(Duration::from_micros(number(name, value)?)),
            "--record" => self.record = Some(PathBuf::from(value)),
            "--most-connections" => self.most_connections = number(name, value)?,
            "--most-frame" => self.most_frame = number(name, value)?,
            "--most-groups" => self.most_groups = number(name, value)?,
            "--most-members" => self.most_members = number(name, value)?,
            "--most-transactional-ids" => self.most_transactional_ids = number(name, value)?,
            "--idle" => self.idle = Duration::from_secs(number(name, value)?),
            "--slow" => self.slow = Duration::from_secs(number(name, value)?),
            _ => return Err(BadOption(format!("{name} is no option"))),
        }
        Ok(())
    }

    /// The options, if a broker can be started with them.
    ///
    /// # Errors
    /// What is wrong, in a line.
    pub fn checked(self) -> Result<Options, BadOption> {
        let fault = |text: &str| Err(BadOption(text.to_string()));
        if !(1..=MOST_NODES).contains(&self.nodes) {
            return fault("--nodes is 1 to 7");
        }
        if self.port != 0 && self.port.checked_add(u16::from(self.nodes) - 1).is_none() {
            return fault("--port and the nodes behind it go beyond 65535");
        }
        let all: u64 = self.topics.iter().map(|it| u64::from(it.partitions)).sum();
        if self.topics.iter().any(|it| it.partitions == 0) || !(1..=u64::from(MOST_PARTITIONS)).contains(&all) {
            return fault("--topic: each has a partition, and all together have at most 64");
        }
        for (at, topic) in self.topics.iter().enumerate() {
            if !is_topic_name(&topic.name) || self.topics[..at].iter().any(|it| it.name == topic.name) {
                return Err(BadOption(format!("--topic: '{}' is no name, or is there twice", topic.name)));
            }
        }
        if self.data.is_some() && self.record.is_some() {
            return fault("--record begins with empty logs, so it doesn't go with --data");
        }
        if !(1..=self.nodes).contains(&self.min_insync) {
            return fault("--min-insync is 1 to the count of nodes");
        }
        let times = [self.turn.unwrap_or(self.lag), self.lag, self.idle, self.slow];
        if times.iter().any(|it| it.is_zero() || *it > LONGEST) {
            return fault("a time is above 0, and a day at most");
        }
        if self.advertise.as_ref().is_some_and(|it| it.is_empty() || it.len() > 255) {
            return fault("--advertise is a host's name of at most 255 bytes");
        }
        Ok(self)
    }

    /// How often a node has its turn where nobody waits.
    #[must_use]
    pub fn turn_time(&self) -> Duration {
        let partitions: u32 = self.topics.iter().map(|it| it.partitions).sum();
        self.turn.unwrap_or(Duration::from_micros(500) * partitions.max(4))
    }
}

fn number<T: std::str::FromStr>(name: &str, value: &str) -> Result<T, BadOption> {
    value.parse().map_err(|_| BadOption(format!("{name} can't be '{value}'")))
}

fn topic(value: &str) -> Result<TopicOption, BadOption> {
    let (name, count) = value.split_once(':').unwrap_or((value, "1"));
    Ok(TopicOption { name: name.to_string(), partitions: number("--topic", count)? })
}

/// Whether Kafka allows the name for a topic.
#[must_use]
pub fn is_topic_name(name: &str) -> bool {
    let allowed = |it: u8| it.is_ascii_alphanumeric() || matches!(it, b'.' | b'_' | b'-');
    (1..=249).contains(&name.len()) && name != "." && name != ".." && name.bytes().all(allowed)
}

#[cfg(test)]
mod tests {
    use super::*;

    fn of(line: &str) -> Result<Options, BadOption> {
        Options::of_words(&line.split_whitespace().map(str::to_string).collect::<Vec<_>>())
    }

    #[test]
    fn words_are_taken() -> Result<(), BadOption> {
        let options = of("--topic payments:3 --topic audit --port 7000 --nodes 5 --admin 0 --lag 250 --record a/b")?;
        assert_eq!(options.topics[0], TopicOption { name: "payments".to_string(), partitions: 3 });
        assert_eq!((options.topics[1].partitions, options.port, options.nodes, options.admin), (1, 7000, 5, Some(0)));
        assert_eq!((options.lag, options.record), (Duration::from_millis(250), Some(PathBuf::from("a/b"))));
        assert_eq!((&of("")?.topics[0].name[..], of("")?.data), ("events", None));
        assert_eq!(of("--data kept/here")?.data, Some(PathBuf::from("kept/here")));
        assert!(of("--data kept --record a").is_err());
        Ok(())
    }

    #[test]
    fn what_cannot_be_is_refused() {
        for line in [
            "--nodes 0",
            "--nodes 8",
            "--nodes",
            "--node 3",
            "--port 65535",
            "--topic a:65",
            "--topic a:0",
            "--topic a --topic a",
            "--topic a/b",
            "--topic ..",
            "--min-insync 4",
            "--slow 0",
            "--idle 18446744073709551615",
            "--lag x",
        ] {
            assert!(of(line).is_err(), "{line}");
        }
    }
}
