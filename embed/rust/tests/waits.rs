//! Waits that sleep: at once, at the time-out, and as another thread raises.

use kpart::{Ack, Cluster, Error, Limits, Pass, Receipt, Refusal, Workers};
use std::thread;
use std::time::{Duration, Instant};

const ONE_RECORD: &[u8] = include_bytes!("one_record.batch");
const SOON: Duration = Duration::from_millis(30);
const LONG: Duration = Duration::from_secs(20);
const EVERY: Duration = Duration::from_micros(300);

type Done = Result<(), Error>;

// Node 0 leads, and the others follow.
fn led(nodes: u8) -> Result<(Cluster, Pass), Error> {
    let cluster = Cluster::open(nodes, Limits::default())?;
    let mut pass = cluster.pass()?;
    pass.elect(0)?;
    for number in 0..nodes {
        cluster.node(number)?.adopt()?;
    }
    Ok((cluster, pass))
}

fn put(cluster: &Cluster, pass: &mut Pass) -> Result<Receipt, Error> {
    cluster.node(0)?.produce(pass, ONE_RECORD)
}

// One request and its answer.
fn replicate(cluster: &Cluster) -> Done {
    let request = cluster.node(1)?.ask()?;
    let answer = cluster.node(0)?.step(request)?.expect("an answer");
    cluster.node(1)?.step(answer)?;
    Ok(())
}

// What `wait` gives, and how long it took.
fn timed<T>(wait: impl FnOnce() -> T) -> (T, Duration) {
    let start = Instant::now();
    (wait(), start.elapsed())
}

// What `wait` gives, before its time is up, while `acts` runs in this thread: once the other one sleeps, as far as can be known.
fn meanwhile<T: Send>(wait: impl FnOnce() -> T + Send, acts: impl FnOnce() -> Done) -> Result<T, Error> {
    thread::scope(|scope| {
        let waiting = scope.spawn(|| timed(wait));
        thread::sleep(SOON);
        acts()?;
        let (found, took) = waiting.join().expect("no panic");
        assert!(took < LONG, "nobody woke it");
        Ok(found)
    })
}

#[test]
fn what_is_there_already_is_said_at_once() -> Done {
    let (cluster, mut pass) = led(1)?;
    let receipt = put(&cluster, &mut pass)?;
    cluster.node(0)?.raise()?;
    let (found, took) = timed(|| cluster.wait_mark(&mut pass, 0, 0, LONG));
    assert_eq!(found, Ok(Some(1)));
    assert!(took < LONG);
    assert_eq!(cluster.wait_mark(&mut pass, 0, 0, Duration::ZERO), Ok(Some(1)));
    assert_eq!(cluster.wait_mark(&mut pass, 0, 0, Duration::MAX), Ok(Some(1)));
    for limit in [Duration::ZERO, LONG, Duration::MAX] {
        assert_eq!(cluster.wait_acked(&mut pass, 0, &receipt, limit), Ok(Ack::Yes));
    }
    assert_eq!(cluster.wait_mark(&mut pass, 1, 0, LONG), Err(Error::OutOfRange));
    assert_eq!(cluster.wait_acked(&mut pass, 1, &receipt, LONG), Err(Error::OutOfRange));
    let (_, mut stranger) = led(1)?;
    assert_eq!(cluster.wait_acked(&mut stranger, 0, &receipt, LONG), Err(Error::OtherCluster));
    assert_eq!(cluster.wait_mark(&mut stranger, 0, 0, LONG), Err(Error::OtherCluster));
    Ok(())
}

#[test]
fn a_wait_ends_at_its_time() -> Done {
    let (cluster, mut pass) = led(2)?;
    let receipt = put(&cluster, &mut pass)?;
    let (found, took) = timed(|| cluster.wait_mark(&mut pass, 0, 0, SOON));
    assert_eq!(found, Ok(None));
    assert!(took >= SOON && took < LONG);
    let (found, took) = timed(|| cluster.wait_acked(&mut pass, 0, &receipt, SOON));
    assert_eq!(found, Ok(Ack::NotYet));
    assert!(took >= SOON && took < LONG);
    assert_eq!(cluster.wait_mark(&mut pass, 0, 0, Duration::ZERO), Ok(None));
    Ok(())
}

// Also where calls that change nothing come without end.
#[test]
fn a_wait_ends_at_its_time_beside_calls() -> Done {
    let (cluster, mut pass) = led(2)?;
    put(&cluster, &mut pass)?;
    let _workers = Workers::start(&cluster, EVERY)?;
    let (found, took) = timed(|| cluster.wait_mark(&mut pass, 0, 1, SOON));
    assert_eq!(found, Ok(None));
    assert!(took >= SOON && took < LONG);
    Ok(())
}

#[test]
fn a_rise_wakes_whoever_waits() -> Done {
    let (cluster, mut pass) = led(2)?;
    let mut other = cluster.pass()?;
    let receipt = put(&cluster, &mut pass)?;
    other.take_receipts(&mut pass)?;
    replicate(&cluster)?;
    replicate(&cluster)?; // tells the leader that it has it
    let raised = meanwhile(|| cluster.wait_mark(&mut pass, 0, 0, LONG), || cluster.node(0)?.raise().map(drop))?;
    assert_eq!(raised, Ok(Some(1)));
    // Node 1 learns it by a step.
    let learned = meanwhile(|| cluster.wait_mark(&mut pass, 1, 0, LONG), || replicate(&cluster))?;
    assert_eq!(learned, Ok(Some(1)));
    assert_eq!(cluster.wait_acked(&mut other, 1, &receipt, LONG), Ok(Ack::Yes));
    Ok(())
}

#[test]
fn acks_wake_and_a_stop_does() -> Done {
    let (cluster, mut pass) = led(1)?;
    let receipt = put(&cluster, &mut pass)?;
    let raise = || cluster.node(0)?.raise().map(drop);
    assert_eq!(meanwhile(|| cluster.wait_acked(&mut pass, 0, &receipt, LONG), raise)?, Ok(Ack::Yes));
    let receipt = put(&cluster, &mut pass)?;
    let stop = || cluster.node(0)?.stop();
    assert_eq!(meanwhile(|| cluster.wait_acked(&mut pass, 0, &receipt, LONG), stop)?, Err(Refusal::Down.into()));
    assert_eq!(cluster.wait_acked(&mut pass, 0, &receipt, LONG), Err(Refusal::Down.into()));
    // Of a node that is down a mark is waited for, as it may come up again.
    let again = || {
        cluster.node(0)?.restart()?;
        cluster.pass()?.elect(0)?;
        cluster.node(0)?.adopt()?;
        cluster.node(0)?.raise().map(drop)
    };
    assert_eq!(meanwhile(|| cluster.wait_mark(&mut pass, 0, 1, LONG), again)?, Ok(Some(2)));
    Ok(())
}

// After a restart a node's own watermark rises anew, where the one that is shown stays: an ack is known by it all the same.
#[test]
fn an_ack_wakes_where_the_watermark_was_there_before() -> Done {
    let (cluster, mut pass) = led(1)?;
    let receipt = put(&cluster, &mut pass)?;
    cluster.node(0)?.raise()?;
    cluster.node(0)?.stop()?;
    assert_eq!(cluster.node(0)?.restart()?.watermark, 0);
    pass.elect(0)?;
    cluster.node(0)?.adopt()?;
    assert_eq!(cluster.wait_acked(&mut pass, 0, &receipt, Duration::ZERO), Ok(Ack::NotYet));
    let raise = || cluster.node(0)?.raise().map(drop);
    assert_eq!(meanwhile(|| cluster.wait_acked(&mut pass, 0, &receipt, LONG), raise)?, Ok(Ack::Yes));
    Ok(())
}

// Two threads wait for one another, turn by turn: no wake-up is lost, or one of them would wait until its time is up.
#[test]
fn no_rise_is_missed() -> Done {
    const ROUNDS: u64 = 300;
    let (one, mut ones) = led(1)?;
    let (other, mut others) = led(1)?;
    let start = Instant::now();
    let answers = || -> Done {
        let (mut hears, mut speaks) = (one.pass()?, other.pass()?);
        for round in 0..ROUNDS {
            assert_eq!(one.wait_mark(&mut hears, 0, round, LONG)?, Some(round + 1));
            put(&other, &mut speaks)?;
            other.node(0)?.raise()?;
        }
        Ok(())
    };
    thread::scope(|scope| {
        let answering = scope.spawn(answers);
        for round in 0..ROUNDS {
            put(&one, &mut ones)?;
            one.node(0)?.raise()?;
            assert_eq!(other.wait_mark(&mut others, 0, round, LONG)?, Some(round + 1));
        }
        answering.join().expect("no panic")
    })?;
    assert!(start.elapsed() < LONG, "{:?}", start.elapsed());
    Ok(())
}

// The clock of this thread's own time on a processor, where the system has one: in ticks of 10 ms, as a rule.
fn ticks() -> Option<u64> {
    let told = std::fs::read_to_string("/proc/thread-self/stat").ok()?;
    let words: Vec<&str> = told.rsplit_once(')')?.1.split_whitespace().collect();
    Some(words.get(11)?.parse::<u64>().ok()? + words.get(12)?.parse::<u64>().ok()?)
}

#[test]
fn a_wait_sleeps() -> Done {
    let (cluster, mut pass) = led(3)?;
    put(&cluster, &mut pass)?;
    let _workers = Workers::start(&cluster, EVERY)?;
    assert_eq!(cluster.wait_mark(&mut pass, 2, 0, LONG)?, Some(1));
    let before = ticks();
    assert_eq!(cluster.wait_mark(&mut pass, 2, 1, Duration::from_millis(1_500))?, None);
    if let (Some(before), Some(after)) = (before, ticks()) {
        assert!(after - before < 50, "{} ticks in 1.5 seconds", after - before);
    }
    Ok(())
}
