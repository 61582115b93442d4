//! What workers tell of their nodes, and what becomes of messages over links that are cut, delayed, lossy or doubling.

use kpart::{Change, Cluster, Error, Event, Limits, Link, Pass, Place, Role, Workers};
use std::sync::mpsc::{Receiver, channel};
use std::sync::{Arc, Mutex};
use std::time::{Duration, Instant};

const ONE_RECORD: &[u8] = include_bytes!("one_record.batch");
const SOON: Duration = Duration::from_millis(40);
const LONG: Duration = Duration::from_secs(20);
const EVERY: Duration = Duration::from_micros(300);

type Done = Result<(), Error>;

fn opened(nodes: u8) -> Result<(Cluster, Pass), Error> {
    let cluster = Cluster::open(nodes, Limits::default())?;
    let mut pass = cluster.pass()?;
    pass.elect(0)?;
    Ok((cluster, pass))
}

// Node 0 knows that it leads.
fn led(nodes: u8) -> Result<(Cluster, Pass), Error> {
    let (cluster, pass) = opened(nodes)?;
    cluster.node(0)?.adopt()?;
    Ok((cluster, pass))
}

fn put(cluster: &Cluster, pass: &mut Pass) -> Result<u64, Error> {
    Ok(cluster.node(0)?.produce(pass, ONE_RECORD)?.last + 1)
}

// The workers, and where their events come.
fn heard(cluster: &Cluster, every: Duration) -> Result<(Workers, Receiver<Event>), Error> {
    let (told, events) = channel();
    let workers = Workers::start_with(cluster, every, move |event| {
        let _heard = told.send(event);
    })?;
    Ok((workers, events))
}

fn next(events: &Receiver<Event>) -> Event {
    events.recv_timeout(LONG).expect("an event")
}

fn node_of(event: &Event) -> u8 {
    match event {
        Event::Mark { node, .. } | Event::Role { node, .. } | Event::Down { node } => *node,
        _ => panic!("another event"),
    }
}

// Waits until it holds.
fn comes(mut holds: impl FnMut() -> bool) -> bool {
    let end = Instant::now() + LONG;
    while Instant::now() < end {
        if holds() {
            return true;
        }
        std::thread::sleep(Duration::from_millis(1));
    }
    false
}

#[test]
fn each_change_is_told_once_and_in_order() -> Done {
    const BATCHES: u64 = 20;
    let (cluster, mut pass) = opened(3)?;
    let events = Arc::new(Mutex::new(Vec::new()));
    let hears = events.clone();
    let workers = Workers::start_with(&cluster, EVERY, move |event| hears.lock().expect("no panic").push(event))?;
    assert!(comes(|| put(&cluster, &mut pass).is_ok()));
    for _ in 1..BATCHES {
        put(&cluster, &mut pass)?;
    }
    for node in 0..3 {
        assert_eq!(cluster.wait_mark(&mut pass, node, BATCHES - 1, LONG)?, Some(BATCHES));
    }
    workers.stop();
    let events = events.lock().expect("no panic");
    for node in 0..3 {
        let own: Vec<&Event> = events.iter().filter(|it| node_of(it) == node).collect();
        let leads = Role::Leads { epoch: 0, start: 0 };
        let role = if node == 0 { leads } else { Role::Follows { leader: 0, epoch: 0 } };
        assert_eq!(*own[0], Event::Role { node, role });
        let offset = |event: &Event| match event {
            Event::Mark { offset, .. } => *offset,
            other => panic!("{other:?}"),
        };
        let marks: Vec<u64> = own[1..].iter().map(|it| offset(it)).collect();
        assert!(marks[0] > 0 && marks.is_sorted_by(|one, next| one < next), "{marks:?}");
        assert_eq!(marks.last(), Some(&BATCHES));
    }
    Ok(())
}

#[test]
fn what_others_do_is_told_too() -> Done {
    let (cluster, mut pass) = led(1)?;
    put(&cluster, &mut pass)?;
    cluster.node(0)?.raise()?;
    let role = |epoch, start| Event::Role { node: 0, role: Role::Leads { epoch, start } };
    let (workers, events) = heard(&cluster, Duration::from_secs(3_600))?;
    assert_eq!(next(&events), role(0, 0)); // what it finds
    assert_eq!(next(&events), Event::Mark { node: 0, offset: 1 });
    put(&cluster, &mut pass)?;
    {
        let mut node = cluster.node(0)?;
        node.raise()?;
        node.stop()?;
    }
    for _ in 0..3 {
        workers.turn(0); // once, not at each turn
    }
    assert_eq!(next(&events), Event::Mark { node: 0, offset: 2 });
    assert_eq!(next(&events), Event::Down { node: 0 });
    // Up and down again between two looks; then up, and it leads anew. The last turn comes while the lock is held, so sees just the end.
    let mut node = cluster.node(0)?;
    workers.turn(0);
    node.restart()?;
    node.stop()?;
    node.restart()?;
    pass.elect(0)?;
    node.adopt()?;
    drop(node);
    assert_eq!(next(&events), Event::Down { node: 0 });
    assert_eq!(next(&events), role(1, 2));
    workers.stop();
    assert_eq!(events.try_iter().count(), 0);
    Ok(())
}

#[test]
fn a_hook_may_take_the_lock() -> Done {
    let (cluster, mut pass) = led(2)?;
    let (told, events) = channel();
    let hooks = cluster.clone();
    let _workers = Workers::start_with(&cluster, EVERY, move |event| {
        let life = hooks.node(node_of(&event)).map(|mut node| node.checkpoint());
        let _heard = told.send(life.is_ok());
    })?;
    put(&cluster, &mut pass)?;
    assert_eq!(cluster.wait_mark(&mut pass, 1, 0, LONG)?, Some(1));
    assert!(events.recv_timeout(LONG).expect("an event"));
    Ok(())
}

#[test]
fn a_cut_link_carries_nothing_until_it_is_up() -> Done {
    let (cluster, mut pass) = led(3)?;
    let workers = Workers::start(&cluster, EVERY)?;
    workers.link(Place::Node(0), Place::Node(1), Link::Cut);
    put(&cluster, &mut pass)?;
    // Node 2 has it, which the leader can't commit without node 1.
    assert_eq!(cluster.wait_mark(&mut pass, 0, 0, SOON)?, None);
    assert_eq!(pass.watermark(1)?, 0);
    workers.link(Place::Node(0), Place::Node(1), Link::Up);
    for node in 0..3 {
        assert_eq!(cluster.wait_mark(&mut pass, node, 0, LONG)?, Some(1));
    }
    // The other way: the leader doesn't hear what node 1 has.
    workers.link(Place::Node(1), Place::Node(0), Link::Cut);
    put(&cluster, &mut pass)?;
    assert_eq!(cluster.wait_mark(&mut pass, 0, 1, SOON)?, None);
    workers.link(Place::Node(1), Place::Node(0), Link::Up);
    assert_eq!(cluster.wait_mark(&mut pass, 1, 1, LONG)?, Some(2));
    Ok(())
}

#[test]
fn the_controllers_links_are_cut_alike() -> Done {
    let (cluster, mut pass) = led(2)?;
    let workers = Workers::start(&cluster, EVERY)?;
    workers.link(Place::Node(0), Place::Controller, Link::Cut);
    workers.propose(0, Change::Leave(1));
    std::thread::sleep(SOON);
    assert!(pass.leadership()?.has_in_sync(1));
    workers.link(Place::Node(0), Place::Controller, Link::Up);
    workers.link(Place::Controller, Place::Node(0), Link::Cut);
    // It is decided now, but the leader doesn't hear it, so it still waits for node 1, which is stopped.
    cluster.node(1)?.stop()?;
    workers.propose(0, Change::Leave(1));
    assert!(comes(|| pass.leadership().is_ok_and(|it| !it.has_in_sync(1))));
    put(&cluster, &mut pass)?;
    assert_eq!(cluster.wait_mark(&mut pass, 0, 0, SOON)?, None);
    workers.link(Place::Controller, Place::Node(0), Link::Up);
    assert!(comes(|| {
        workers.propose(0, Change::Leave(1));
        cluster.wait_mark(&mut pass, 0, 0, SOON) == Ok(Some(1))
    }));
    Ok(())
}

#[test]
fn a_delay_lasts_at_least_so_long() -> Done {
    const DELAY: Duration = Duration::from_millis(100);
    let (cluster, mut pass) = led(2)?;
    let workers = Workers::start(&cluster, EVERY)?;
    workers.link(Place::Node(0), Place::Node(1), Link::Delayed(DELAY));
    let start = Instant::now();
    put(&cluster, &mut pass)?;
    assert_eq!(cluster.wait_mark(&mut pass, 0, 0, LONG)?, Some(1)); // node 1 has it, and said so
    assert!(start.elapsed() >= DELAY);
    assert_eq!(cluster.wait_mark(&mut pass, 1, 0, LONG)?, Some(1)); // by one more answer
    assert!(start.elapsed() >= 2 * DELAY);
    workers.link(Place::Node(0), Place::Node(1), Link::Up);
    put(&cluster, &mut pass)?;
    assert_eq!(cluster.wait_mark(&mut pass, 1, 1, LONG)?, Some(2));
    // The worker doesn't sleep for what is held: it ends at once, and what is held is dropped.
    workers.link(Place::Node(0), Place::Node(1), Link::Delayed(Duration::from_secs(3_600)));
    std::thread::sleep(SOON);
    let start = Instant::now();
    workers.stop();
    assert!(start.elapsed() < LONG);
    Ok(())
}

#[test]
fn what_is_lost_is_asked_for_again() -> Done {
    const BATCHES: u64 = 20;
    let (cluster, mut pass) = led(3)?;
    let workers = Workers::start_seeded(&cluster, EVERY, 17, |_| {})?;
    for follower in [1, 2].map(Place::Node) {
        workers.link(Place::Node(0), follower, Link::Lossy { one_in: 3 });
        workers.link(follower, Place::Node(0), Link::Lossy { one_in: 3 });
    }
    for _ in 0..BATCHES {
        put(&cluster, &mut pass)?;
        std::thread::sleep(Duration::from_millis(1));
    }
    for node in 0..3 {
        assert_eq!(cluster.wait_mark(&mut pass, node, BATCHES - 1, LONG)?, Some(BATCHES));
    }
    Ok(())
}

// Also the proposals and decisions come twice.
#[test]
fn what_comes_twice_is_taken_once() -> Done {
    const BATCHES: u64 = 20;
    let (cluster, mut pass) = led(3)?;
    let workers = Workers::start_seeded(&cluster, EVERY, 17, |_| {})?;
    let places = [Place::Node(0), Place::Node(1), Place::Node(2), Place::Controller];
    for (from, to) in places.iter().flat_map(|from| places.iter().map(move |to| (*from, *to))) {
        workers.link(from, to, Link::Doubling { one_in: if from == Place::Node(0) { 1 } else { 2 } });
    }
    for batch in 0..BATCHES {
        put(&cluster, &mut pass)?;
        if batch % 2 == 0 {
            workers.replicate(0)?;
        }
    }
    for node in 0..3 {
        assert_eq!(cluster.wait_mark(&mut pass, node, BATCHES - 1, LONG)?, Some(BATCHES));
        assert_eq!(cluster.node(node)?.read(&mut pass, 0)?.count() as u64, BATCHES);
    }
    cluster.node(2)?.stop()?;
    assert!(comes(|| {
        workers.propose(0, Change::Leave(2));
        pass.leadership().is_ok_and(|it| !it.has_in_sync(2))
    }));
    put(&cluster, &mut pass)?;
    assert_eq!(cluster.wait_mark(&mut pass, 0, BATCHES, LONG)?, Some(BATCHES + 1));
    Ok(())
}

// The thread that hands a batch in has it committed, with no worker's turn.
#[test]
fn a_batch_is_replicated_in_the_callers_thread() -> Done {
    let (cluster, mut pass) = led(3)?;
    let (workers, events) = heard(&cluster, Duration::from_secs(3_600))?;
    // Each node's first turn.
    let roles: Vec<Event> = (0..3).map(|_| next(&events)).collect();
    assert!(roles.iter().all(|it| matches!(it, Event::Role { .. })), "{roles:?}");
    for batch in 1..=3 {
        put(&cluster, &mut pass)?;
        workers.replicate(0)?;
        assert_eq!(pass.watermark(0)?, batch);
        let told: Vec<Event> = events.try_iter().collect();
        assert!(told.contains(&Event::Mark { node: 0, offset: batch }), "{told:?}");
    }
    assert_eq!(workers.replicate(3), Err(Error::OutOfRange));
    workers.link(Place::Node(2), Place::Node(0), Link::Cut);
    put(&cluster, &mut pass)?;
    workers.replicate(0)?;
    assert_eq!(pass.watermark(0)?, 3); // what node 2 asks is lost
    Ok(())
}
