//! The controller: who leads, who is in sync, and what a tester does to nodes and links.

use crate::connection;
use crate::data;
use crate::hub::Hub;
use crate::lock;
use crate::partition::{Control, Partition, led_epoch};
use kpart::{Change, Error, Leadership, Link, NodeState, Place, Status};
use std::sync::Arc;
use std::sync::atomic::Ordering::SeqCst;
use std::time::{Duration, Instant};

/// How often the controller looks.
const TICK: Duration = Duration::from_millis(20);

/// A look at a partition's nodes: the state of each that is up.
type States = Vec<Option<NodeState>>;

fn states(hub: &Hub, partition: &Partition) -> States {
    let state = |node| if hub.is_up(node) { partition.state(node).ok().filter(|it| it.status != Status::Down) } else { None };
    (0..hub.nodes()).map(state).collect()
}

fn of(states: &States, node: u8) -> Option<&NodeState> {
    states.get(usize::from(node)).and_then(Option::as_ref)
}

/// Does the controller's part for a partition: elects a leader where there is none, and changes who is in sync.
pub fn mend(hub: &Hub, partition: &Partition) {
    let mut control = partition.control();
    let states = states(hub, partition);
    let Ok(record) = control.pass.leadership() else { return };
    let Some(record) = with_leader(hub, partition, &mut control, &states, record) else { return };
    settle_in_sync(hub, partition, &mut control, &record);
}

/// The record with a leader that is up, which is elected where there is none.
fn with_leader(hub: &Hub, partition: &Partition, control: &mut Control, states: &States, record: Leadership) -> Option<Leadership> {
    let leads = |(node, _): (u8, u32)| match of(states, node) {
        // One that was restarted leads nobody until it is elected anew.
        Some(state) => state.status != Status::Idle,
        None => false,
    };
    if record.leader.is_some_and(leads) {
        return Some(record);
    }
    let before = record.leader.map_or(0, |it| it.0);
    let first = if record.leader.is_some() { before } else { preferred(hub, partition) };
    let nodes = hub.nodes();
    let next = (0..nodes).map(|it| (first + it) % nodes).find(|it| of(states, *it).is_some() && record.has_in_sync(*it))?;
    partition.elect(&mut control.pass, next).ok()
}

/// The node that leads a partition at first, so that several partitions have several leaders.
fn preferred(hub: &Hub, partition: &Partition) -> u8 {
    (partition.index.rem_euclid(hub.nodes().into())) as u8
}

/// Has the leader propose that nodes leave which are down or lag, and that others join which have caught up.
fn settle_in_sync(hub: &Hub, partition: &Partition, control: &mut Control, record: &Leadership) {
    let Some((leader, epoch)) = record.leader else { return };
    let states = states(hub, partition);
    let Some(state) = of(&states, leader).filter(|it| led_epoch(it) == Some(epoch)) else { return };
    let now = Instant::now();
    if control.leader != record.leader {
        control.leader = record.leader;
        control.caught_up.fill(now);
        control.end = state.end;
    }
    let links = *lock(&hub.links);
    for node in (0..hub.nodes()).filter(|it| *it != leader) {
        let (place, other) = (usize::from(node), usize::from(leader));
        let is_cut = links[place][other] == Link::Cut || links[other][place] == Link::Cut;
        let follower = of(&states, node);
        let has_all = !is_cut && follower.is_some_and(|it| it.end >= control.end);
        if has_all {
            control.caught_up[place] = now;
        }
        let lags = now.duration_since(control.caught_up[place]) > hub.options.lag;
        let change = match record.has_in_sync(node) {
            true if follower.is_none() || lags => Change::Leave(node),
            false if has_all => Change::Join(node),
            _ => continue,
        };
        // The library refuses one that can't be; a later look comes.
        let _changed = partition.change(&mut control.pass, leader, change);
    }
    control.end = state.end;
}

/// Looks at all partitions and groups, again and again.
pub fn tick(hub: &Arc<Hub>) {
    while !hub.is_closing() {
        std::thread::sleep(TICK);
        data::stop_failed(hub);
        hub.partitions.iter().for_each(|it| mend(hub, it));
        hub.groups.expire();
    }
}

/// Why something wasn't done.
#[derive(Debug)]
pub enum Undone {
    /// The library refuses.
    Library(Error),
    /// The node has no socket.
    Socket(std::io::Error),
    /// There is no such node, partition or link.
    NoSuch,
}

impl From<Error> for Undone {
    fn from(error: Error) -> Undone {
        Undone::Library(error)
    }
}

impl From<std::io::Error> for Undone {
    fn from(error: std::io::Error) -> Undone {
        Undone::Socket(error)
    }
}

impl std::fmt::Display for Undone {
    fn fmt(&self, out: &mut std::fmt::Formatter<'_>) -> std::fmt::Result {
        match self {
            Undone::Library(error) => error.fmt(out),
            Undone::Socket(error) => error.fmt(out),
            Undone::NoSuch => out.write_str("there is no such node, partition or link"),
        }
    }
}

/// Stops a node of each partition, closes its port and its connections, and elects others where it led.
pub fn stop(hub: &Hub, node: u8) -> Result<(), Undone> {
    let gate = hub.gate(node).ok_or(Undone::NoSuch)?;
    let _moving = lock(&gate.moving);
    if !gate.up.swap(false, SeqCst) {
        return Err(Undone::Library(kpart::Refusal::Down.into()));
    }
    let mut first = Ok(());
    for partition in &hub.partitions {
        first = first.and(partition.cluster.node(node).and_then(|mut it| it.stop()));
    }
    // First the next leaders: a client whose connection ends asks at once who they are.
    hub.partitions.iter().for_each(|it| mend(hub, it));
    connection::close_port(hub, node);
    hub.hang_up(node);
    hub.news.tell();
    Ok(first?)
}

/// Starts a node again, with its port. It joins the in-sync replicas once it has caught up.
pub fn restart(hub: &Arc<Hub>, node: u8) -> Result<(), Undone> {
    let gate = hub.gate(node).ok_or(Undone::NoSuch)?;
    let _moving = lock(&gate.moving);
    if gate.up.load(SeqCst) {
        return Err(Undone::Library(kpart::Refusal::Down.into()));
    }
    let listener = connection::bind(hub.options.listen, gate.port)?;
    for partition in &hub.partitions {
        let mut held = partition.cluster.node(node)?;
        if held.show()?.status == Status::Down {
            held.restart()?;
        }
        drop(held);
        partition.workers.turn(node);
    }
    gate.up.store(true, SeqCst);
    connection::accept(hub, node, listener)?;
    hub.news.tell();
    hub.partitions.iter().for_each(|it| mend(hub, it));
    Ok(())
}

/// Elects a node in one partition, or in all of them.
pub fn elect(hub: &Hub, node: u8, place: Option<usize>) -> Result<(), Undone> {
    hub.gate(node).ok_or(Undone::NoSuch)?;
    if !hub.is_up(node) {
        return Err(Undone::Library(kpart::Refusal::Down.into()));
    }
    for partition in hub.partitions.iter().enumerate().filter(|it| place.is_none_or(|at| at == it.0)).map(|it| it.1) {
        let mut control = partition.control();
        partition.elect(&mut control.pass, node)?;
    }
    hub.news.tell();
    Ok(())
}

/// Sets the link from one node to another, in each partition.
pub fn set_link(hub: &Hub, from: u8, to: u8, link: Link) -> Result<(), Undone> {
    if from >= hub.nodes() || to >= hub.nodes() || from == to {
        return Err(Undone::NoSuch);
    }
    lock(&hub.links)[usize::from(from)][usize::from(to)] = link;
    hub.partitions.iter().for_each(|it| it.workers.link(Place::Node(from), Place::Node(to), link));
    Ok(())
}

/// Has all links up again.
pub fn heal(hub: &Hub) {
    for from in 0..hub.nodes() {
        for to in (0..hub.nodes()).filter(|it| *it != from) {
            let _set = set_link(hub, from, to, Link::Up);
        }
    }
}
