//! Brokers that record what their partitions do: each script, played again, is answered as it was then.

mod common;
#[path = "../../embed/rust/tests/player/mod.rs"]
mod player;

use common::{Client, Fallible, LONG, NOBODY, Outcome, TOPIC, Writes, batch};
use kpart_broker::{Broker, Fault, Options, TopicOption};
use kwire::ErrorCode;
use std::path::{Path, PathBuf};
use std::sync::atomic::{AtomicBool, AtomicU64, Ordering::SeqCst};
use std::time::{Duration, Instant};

/// A folder of a test's own, which goes with it.
struct Room(PathBuf);

impl Room {
    fn new() -> Fallible<Room> {
        static COUNT: AtomicU64 = AtomicU64::new(0);
        let name = format!("kpart-broker-recorded-{}-{}", std::process::id(), COUNT.fetch_add(1, SeqCst));
        let folder = std::env::temp_dir().join(name);
        std::fs::create_dir_all(&folder)?;
        Ok(Room(folder))
    }

    fn options(&self, partitions: u32) -> Options {
        let topics = vec![TopicOption { name: TOPIC.to_string(), partitions }];
        Options { topics, record: Some(self.0.join("records")), ..Options::default() }
    }

    fn script(&self, index: i32) -> PathBuf {
        self.0.join("records").join(format!("{TOPIC}-{index}.script"))
    }
}

impl Drop for Room {
    fn drop(&mut self) {
        let _gone = std::fs::remove_dir_all(&self.0);
    }
}

/// How many events the script has; each is answered as it was then.
fn check(script: &Path) -> Fallible<usize> {
    Ok(player::check(script)?.0)
}

/// Hands a batch in until it is acknowledged.
fn persist(broker: &Broker, client: &mut Option<Client>, bytes: &[u8]) -> Fallible<i64> {
    let limit = Instant::now() + LONG;
    while Instant::now() < limit {
        let open = match client.take() {
            Some(open) => Ok(open),
            None => Client::of_leader(broker, 0),
        };
        let Ok(mut open) = open else { continue };
        match open.produce(0, bytes, -1) {
            Ok((0, offset)) => {
                *client = Some(open);
                return Ok(offset);
            }
            Ok((code, _)) if !ErrorCode::of(code).is_some_and(ErrorCode::is_retriable) => return Err(format!("code {code}").into()),
            _ => {}
        }
    }
    Err("never acknowledged".into())
}

/// What befalls the leader, by turns.
fn move_leader(broker: &Broker, turn: u64) -> Outcome {
    let Some(leader) = broker.leader(TOPIC, 0) else { return Ok(()) };
    let other = (leader + 1) % 3;
    match turn % 4 {
        0 => {
            broker.stop(leader)?;
            std::thread::sleep(Duration::from_millis(10));
            broker.restart(leader)?;
        }
        1 => broker.doubling(leader, other, 2)?,
        2 => broker.lossy(other, leader, 3)?,
        _ => {
            let _elected = broker.elect(other); // refused where that node isn't in sync
            broker.heal();
        }
    }
    Ok(())
}

/// A load of an idempotent producer while leaders are moved: how many events its script has.
fn load(batches: i32, seed: u64) -> Fallible<usize> {
    let room = Room::new()?;
    let broker = Broker::start(room.options(1))?;
    let ends = AtomicBool::new(false);
    std::thread::scope(|scope| {
        let mover = scope.spawn(|| {
            let mut turn = seed;
            while !ends.load(SeqCst) {
                std::thread::sleep(Duration::from_millis(25));
                move_leader(&broker, turn).map_err(|it| it.to_string())?;
                turn += 1;
            }
            Ok::<(), String>(())
        });
        let mut client = None;
        let all = (0..batches).map(|sequence| {
            let writes = Writes { producer: (9, 0), sequence, transactional: false };
            persist(&broker, &mut client, &batch(&[&sequence.to_string()], writes, 1))
        });
        let offsets: Fallible<Vec<i64>> = all.collect();
        ends.store(true, SeqCst);
        mover.join().map_err(|_| "it panicked")??;
        assert!(offsets?.into_iter().eq(0..batches.into()));
        Ok::<(), Box<dyn std::error::Error>>(())
    })?;
    drop(broker);
    check(&room.script(0))
}

#[test]
fn loads_with_failovers_are_played_again() -> Outcome {
    // KPART_LOADS says how many.
    let loads = std::env::var("KPART_LOADS").ok().and_then(|it| it.parse().ok()).unwrap_or(4);
    let mut events = 0;
    for seed in 0..loads {
        events += load(150, seed)?;
    }
    println!("{loads} loads, {events} events");
    Ok(())
}

#[test]
fn each_partition_has_its_script() -> Outcome {
    let room = Room::new()?;
    let broker = Broker::start(Options { admin: Some(0), ..room.options(2) })?;
    for index in 0..2 {
        let mut client = Client::of_leader(&broker, index)?;
        assert_eq!(client.produce(index, &batch(&["a"], NOBODY, 1), -1)?, (0, 0));
        assert_eq!(client.fetch(index, 0, 1)?.stable, 1);
    }
    assert_eq!(broker.recorded()?, [room.script(0), room.script(1)]);
    let said = broker.line("recorded");
    assert!(said.starts_with(&format!("script {} events ", room.script(0).display())) && said.ends_with("\nok\n"), "{said}");
    for index in 0..2 {
        check(&room.script(index))?; // it is still being written
        let script = std::fs::read_to_string(room.script(index))?;
        assert!(script.starts_with("nodes 3 segment 1073741824 interval 4096\n"), "{script}");
        for line in ["elect", "raw", "show"] {
            assert!(script.contains(&format!("\n{line} {index}")), "{script}");
        }
    }
    drop(broker);
    (0..2).try_for_each(|it| check(&room.script(it)).map(drop))
}

#[test]
fn a_folder_that_has_something_is_left_alone() -> Outcome {
    let room = Room::new()?;
    let first = Broker::start(room.options(1))?;
    assert!(matches!(Broker::start(room.options(1)), Err(Fault::Record(_))));
    drop(first);
    let again = Broker::start(room.options(1)).err().ok_or("it was started")?;
    assert!(again.to_string().ends_with("records: it isn't empty"), "{again}");
    let nowhere = Options { record: Some(room.0.join("no").join("records")), ..Options::default() };
    assert!(matches!(Broker::start(nowhere), Err(Fault::Record(_))));
    let broker = common::broker()?;
    assert!(broker.recorded()?.is_empty() && broker.line("recorded") == "ok\n");
    Ok(())
}

#[test]
fn the_greatest_batch_is_that_of_a_script() -> Outcome {
    const MOST: usize = 1_048_576;
    let room = Room::new()?;
    let broker = Broker::start(room.options(1))?;
    let mut client = Client::of_leader(&broker, 0)?;
    let of_size = |size: usize| {
        let value = "x".repeat(size - 72); // what else a batch of one such record has
        batch(&[&value], NOBODY, 1)
    };
    assert_eq!(of_size(MOST).len(), MOST);
    assert_eq!(client.produce(0, &of_size(MOST), -1)?.0, 0);
    assert_eq!(client.produce(0, &of_size(MOST + 1), -1)?.0, i16::from(ErrorCode::MessageTooLarge));
    drop(broker);
    assert!(check(&room.script(0))? > 4);
    Ok(())
}

/// How long so many Produce requests take that have a batch of one such value each, one after the other, acknowledged by all.
fn time_of(options: Options, value: &str, requests: u32) -> Fallible<Duration> {
    let broker = Broker::start(options)?;
    let mut client = Client::of_leader(&broker, 0)?;
    let sent = batch(&[value], NOBODY, 1);
    let start = Instant::now();
    for _ in 0..requests {
        assert_eq!(client.produce(0, &sent, -1)?.0, 0);
    }
    Ok(start.elapsed())
}

/// `cargo test --release --offline --test recorded -- --ignored --nocapture`, with the count of pairs as RUNS (11 where it isn't set).
#[test]
#[ignore = "a measurement"]
fn what_recording_costs() -> Outcome {
    let runs = std::env::var("RUNS").ok().and_then(|it| it.parse().ok()).unwrap_or(11);
    for (size, requests) in [(100, 10_000), (1_000, 10_000), (16_000, 5_000), (200_000, 500)] {
        let value = "x".repeat(size);
        let mut times = Vec::new();
        for _ in 0..runs {
            let room = Room::new()?;
            let without = time_of(Options { record: None, ..room.options(1) }, &value, requests)?.as_secs_f64();
            times.push((time_of(room.options(1), &value, requests)?.as_secs_f64() / without, without));
        }
        times.sort_by(|one, other| one.0.total_cmp(&other.0));
        let (half, without) = times[times.len() / 2];
        let each = without * 1e6 / f64::from(requests);
        println!("{size} bytes: {half:.3} times ({:.3} to {:.3}) of {each:.1} us a request", times[0].0, times[times.len() - 1].0);
    }
    Ok(())
}
