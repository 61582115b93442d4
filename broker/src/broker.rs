//! A broker in the process of its tests.

use crate::cluster::{self, Undone};
use crate::connection;
use crate::data::{self, DataFault};
use crate::hub::Hub;
use crate::news::News;
use crate::options::{BadOption, Options};
use crate::reply::Passes;
use crate::{admin, coordinator, lock, recording, requests};
use kpart::{Link, RecorderFault};
use std::fmt;
use std::net::TcpListener;
use std::path::PathBuf;
use std::sync::Arc;
use std::thread::{Builder, JoinHandle};
use std::time::{Duration, Instant};

/// How often transactions are looked at.
const EXPIRE: Duration = Duration::from_millis(50);
/// For so long connections' threads are waited for that hold a folder.
const LETTING_GO: Duration = Duration::from_secs(5);

/// Why a broker didn't start, or didn't do what was asked of it.
#[derive(Debug)]
pub enum Fault {
    /// The options can't be.
    Options(BadOption),
    /// The library refuses.
    Library(kpart::Error),
    /// The folder isn't opened.
    Data(DataFault),
    /// The system refuses a socket or a thread.
    System(std::io::Error),
    /// What happens isn't recorded, or isn't any more.
    Record(RecorderFault),
    /// There is no such node, partition, link or request.
    NoSuch,
}

impl fmt::Display for Fault {
    fn fmt(&self, out: &mut fmt::Formatter<'_>) -> fmt::Result {
        match self {
            Fault::Options(it) => it.fmt(out),
            Fault::Library(it) => it.fmt(out),
            Fault::Data(it) => it.fmt(out),
            Fault::System(it) => it.fmt(out),
            Fault::Record(it) => it.fmt(out),
            Fault::NoSuch => out.write_str("there is no such node, partition, link or request"),
        }
    }
}

impl std::error::Error for Fault {}

impl From<BadOption> for Fault {
    fn from(it: BadOption) -> Fault {
        Fault::Options(it)
    }
}

impl From<kpart::Error> for Fault {
    fn from(it: kpart::Error) -> Fault {
        Fault::Library(it)
    }
}

impl From<DataFault> for Fault {
    fn from(it: DataFault) -> Fault {
        match it {
            DataFault::Library(it) => Fault::Library(it),
            it => Fault::Data(it),
        }
    }
}

impl From<std::io::Error> for Fault {
    fn from(it: std::io::Error) -> Fault {
        Fault::System(it)
    }
}

impl From<Undone> for Fault {
    fn from(it: Undone) -> Fault {
        match it {
            Undone::Library(it) => Fault::Library(it),
            Undone::Socket(it) => Fault::System(it),
            Undone::NoSuch => Fault::NoSuch,
        }
    }
}

/// A running broker: its nodes, ports and threads. Dropping it ends them, and closes the ports.
pub struct Broker {
    hub: Arc<Hub>,
    admin: Option<u16>,
    threads: Vec<JoinHandle<()>>,
}

impl Broker {
    /// Opens the partitions, elects their leaders, and listens. In a folder it goes on from what was left there.
    ///
    /// # Errors
    /// What is wrong with the options, or what the system or the library refuses.
    pub fn start(options: Options) -> Result<Broker, Fault> {
        let options = options.checked()?;
        let listeners = bind_all(&options)?;
        let ports = listeners.iter().map(|it| it.local_addr().map(|it| it.port())).collect::<Result<Vec<u16>, _>>()?;
        options.record.as_deref().map_or(Ok(()), recording::make_folder)?;
        let news = Arc::new(News::default());
        let opened = data::open(&options, &news)?;
        let hub = Arc::new(Hub::new(options, opened, news, &ports));
        let mut broker = Broker { hub, admin: None, threads: Vec::new() };
        broker.serve(listeners)?;
        Ok(broker)
    }

    fn serve(&mut self, listeners: Vec<TcpListener>) -> Result<(), Fault> {
        let hub = &self.hub;
        hub.partitions.iter().for_each(|it| cluster::mend(hub, it));
        if hub.options.data.is_some() {
            data::catch_up(hub);
        }
        for (node, listener) in (0..).zip(listeners) {
            connection::accept(hub, node, listener)?;
        }
        let ticks = hub.clone();
        self.threads.push(Builder::new().name("controller".to_string()).spawn(move || cluster::tick(&ticks))?);
        let expires = hub.clone();
        self.threads.push(Builder::new().name("coordinator".to_string()).spawn(move || expire(&expires))?);
        self.admin = hub.options.admin.map(|port| admin::listen(hub, port)).transpose()?;
        Ok(())
    }

    /// What a client takes as `bootstrap.servers`.
    #[must_use]
    pub fn bootstrap(&self) -> String {
        let host = self.hub.host();
        let all: Vec<String> = self.hub.gates.iter().map(|it| format!("{host}:{}", it.port)).collect();
        all.join(",")
    }

    /// Each node's port.
    #[must_use]
    pub fn ports(&self) -> Vec<u16> {
        self.hub.gates.iter().map(|it| it.port).collect()
    }

    /// The port of the admin's lines.
    #[must_use]
    pub fn admin_port(&self) -> Option<u16> {
        self.admin
    }

    /// The node that leads a partition, if that is up, by the controller's record.
    #[must_use]
    pub fn leader(&self, topic: &str, index: i32) -> Option<u8> {
        let partition = self.hub.partitions.get(self.hub.find(topic, index).ok()?)?;
        let record = partition.control().pass.leadership().ok()?;
        record.leader.map(|it| it.0).filter(|it| self.hub.is_up(*it))
    }

    /// Stops a node: its log and its checkpoint stay, its port and its connections are closed, and where it led another one that is in
    /// sync is elected at once.
    ///
    /// # Errors
    /// [`Fault::NoSuch`]; [`Fault::Library`] with F28 where it is down.
    pub fn stop(&self, node: u8) -> Result<(), Fault> {
        Ok(cluster::stop(&self.hub, node)?)
    }

    /// Starts a node again, at its old port. It joins the in-sync replicas once it has caught up.
    ///
    /// # Errors
    /// [`Fault::NoSuch`]; [`Fault::Library`] with F28 where it is up; [`Fault::System`] where the port has gone.
    pub fn restart(&self, node: u8) -> Result<(), Fault> {
        Ok(cluster::restart(&self.hub, node)?)
    }

    /// Elects a node in each partition.
    ///
    /// # Errors
    /// [`Fault::NoSuch`]; [`Fault::Library`] with F28 where it is down, and F21 where it isn't in sync.
    pub fn elect(&self, node: u8) -> Result<(), Fault> {
        Ok(cluster::elect(&self.hub, node, None)?)
    }

    /// Elects a node in one partition.
    ///
    /// # Errors
    /// As [`Broker::elect`].
    pub fn elect_of(&self, topic: &str, index: i32, node: u8) -> Result<(), Fault> {
        let place = self.hub.find(topic, index).map_err(|_| Fault::NoSuch)?;
        Ok(cluster::elect(&self.hub, node, Some(place))?)
    }

    /// Loses all messages from one node to another.
    ///
    /// # Errors
    /// [`Fault::NoSuch`].
    pub fn cut(&self, from: u8, to: u8) -> Result<(), Fault> {
        Ok(cluster::set_link(&self.hub, from, to, Link::Cut)?)
    }

    /// Holds each message from one node to another back for so long.
    ///
    /// # Errors
    /// [`Fault::NoSuch`].
    pub fn delay(&self, from: u8, to: u8, time: Duration) -> Result<(), Fault> {
        Ok(cluster::set_link(&self.hub, from, to, Link::Delayed(time))?)
    }

    /// Loses one in so many of the messages from one node to another, by chance: with 1 each, with 0 none.
    ///
    /// # Errors
    /// [`Fault::NoSuch`].
    pub fn lossy(&self, from: u8, to: u8, one_in: u32) -> Result<(), Fault> {
        Ok(cluster::set_link(&self.hub, from, to, Link::Lossy { one_in })?)
    }

    /// Has one in so many of the messages from one node to another come twice, by chance: with 1 each, with 0 none.
    ///
    /// # Errors
    /// [`Fault::NoSuch`].
    pub fn doubling(&self, from: u8, to: u8, one_in: u32) -> Result<(), Fault> {
        Ok(cluster::set_link(&self.hub, from, to, Link::Doubling { one_in })?)
    }

    /// Has all links up again.
    pub fn heal(&self) {
        cluster::heal(&self.hub);
    }

    /// Holds a node's acknowledgements of batches back. Where the node is stopped meanwhile they are lost, with their connections.
    ///
    /// # Errors
    /// [`Fault::NoSuch`].
    pub fn hold(&self, node: u8) -> Result<(), Fault> {
        admin::hold(&self.hub, node, true).map_err(|_| Fault::NoSuch)
    }

    /// Lets a node's acknowledgements go.
    ///
    /// # Errors
    /// [`Fault::NoSuch`].
    pub fn release(&self, node: u8) -> Result<(), Fault> {
        admin::hold(&self.hub, node, false).map_err(|_| Fault::NoSuch)
    }

    /// The next so many answers to a request of this name (`Produce`, `EndTxn`) fail with a code, and do nothing else.
    ///
    /// # Errors
    /// [`Fault::NoSuch`].
    pub fn fail(&self, count: u32, code: i16, api: &str) -> Result<(), Fault> {
        let found = requests::named(api).ok_or(Fault::NoSuch)?;
        self.hub.fail(count, code, found.key);
        Ok(())
    }

    /// Each answer comes so long after its request, or later; a minute is the most.
    pub fn rtt(&self, time: Duration) {
        self.hub.set_rtt(time);
    }

    /// The state of all of it, in lines.
    #[must_use]
    pub fn show(&self) -> String {
        admin::show(&self.hub)
    }

    /// Waits until all that has happened is in the records ([`Options::record`]): the script of each partition.
    ///
    /// # Errors
    /// [`Fault::Record`] where something isn't recorded: why.
    pub fn recorded(&self) -> Result<Vec<PathBuf>, Fault> {
        let scripts = self.hub.partitions.iter().filter_map(|it| it.script.as_ref());
        scripts.map(|it| it.flush().map(|_| it.path.clone()).map_err(Fault::Record)).collect()
    }

    /// What an admin's line is answered.
    #[must_use]
    pub fn line(&self, line: &str) -> String {
        admin::answer(&self.hub, line)
    }

    /// Waits for the connections' threads, so that the folder is free once this is dropped.
    fn let_go(&self) {
        let until = Instant::now() + LETTING_GO;
        while Arc::strong_count(&self.hub) > 1 && Instant::now() < until {
            std::thread::sleep(Duration::from_millis(1));
        }
    }

    /// Waits until an admin's line says `quit`.
    pub fn wait(&self) {
        while !self.hub.is_closing() {
            let count = self.hub.end.count();
            self.hub.end.wait(count, Instant::now() + Duration::from_secs(1));
        }
    }
}

impl Drop for Broker {
    fn drop(&mut self) {
        self.hub.close();
        connection::close_all(&self.hub);
        for thread in self.threads.drain(..) {
            let _ended = thread.join();
        }
        if self.hub.options.data.is_some() {
            self.let_go();
        }
        drop(lock(&self.hub.telling));
        recording::stop(&self.hub);
    }
}

fn bind_all(options: &Options) -> Result<Vec<TcpListener>, Fault> {
    let port = |node: u8| if options.port == 0 { 0 } else { options.port + u16::from(node) };
    Ok((0..options.nodes).map(|node| connection::bind(options.listen, port(node))).collect::<Result<_, _>>()?)
}

/// Looks after transactions that take too long.
fn expire(hub: &Arc<Hub>) {
    let mut passes = Passes::default();
    while !hub.is_closing() {
        std::thread::sleep(EXPIRE);
        coordinator::expire(hub, &mut passes);
    }
}
