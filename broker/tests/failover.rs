//! Nodes that stop, restart and are elected under producers: nothing that was acknowledged is lost, or there twice.

mod common;

use common::{Ask, Client, Fallible, LONG, NOBODY, Outcome, TOPIC, Writes, batch, broker, produce_request, produced, until};
use kpart_broker::{Broker, Options};
use kwire::ErrorCode;
use kwire::offsets::list_offsets::{EARLIEST, LATEST, MAX_TIMESTAMP};
use std::sync::atomic::{AtomicBool, Ordering::SeqCst};
use std::time::{Duration, Instant};

const COUNT: i32 = 400;

/// Hands a batch in until it is acknowledged: its offset.
fn persist(broker: &Broker, client: &mut Option<Client>, bytes: &[u8]) -> Fallible<i64> {
    let limit = Instant::now() + LONG;
    while Instant::now() < limit {
        let mut open = match client.take() {
            Some(open) => open,
            None => match Client::of_leader(broker, 0) {
                Ok(open) => open,
                Err(_) => continue,
            },
        };
        match open.produce(0, bytes, -1) {
            Ok((0, offset)) => {
                *client = Some(open);
                return Ok(offset);
            }
            Ok((code, _)) if ErrorCode::of(code).is_some_and(ErrorCode::is_retriable) => {}
            Ok((code, _)) => return Err(format!("code {code}").into()),
            Err(_) => {} // the connection has ended
        }
    }
    Err("never acknowledged".into())
}

/// An idempotent producer while somebody moves the leader: its batches' offsets.
fn produce_all(broker: &Broker, move_leader: impl Fn(u8) -> Fallible<()> + Sync) -> Fallible<Vec<i64>> {
    let ends = AtomicBool::new(false);
    std::thread::scope(|scope| {
        let mover = scope.spawn(|| {
            let mut moves = 0;
            while !ends.load(SeqCst) {
                std::thread::sleep(Duration::from_millis(60));
                let Some(leader) = broker.leader(TOPIC, 0) else { continue };
                if let Err(fault) = move_leader(leader) {
                    return Err(fault.to_string());
                }
                moves += 1;
            }
            Ok(moves)
        });
        let mut client = None;
        let mut offsets = Vec::new();
        for sequence in 0..COUNT {
            let writes = Writes { producer: (9, 0), sequence, transactional: false };
            offsets.push(persist(broker, &mut client, &batch(&[&sequence.to_string()], writes, 1)));
            std::thread::sleep(Duration::from_millis(1));
        }
        ends.store(true, SeqCst);
        let moves = mover.join().map_err(|_| "it panicked")??;
        assert!(moves > 2, "{moves} moves");
        offsets.into_iter().collect()
    })
}

fn check(broker: &Broker, offsets: &[i64]) -> Outcome {
    let mut client = Client::of_leader(broker, 0)?;
    until("the last batch is committed", || client.list(0, -1, 0).is_ok_and(|it| it.1 == i64::from(COUNT)))?;
    let all = client.read_to(0, i64::from(COUNT), 0)?;
    let wanted: Vec<(i64, String)> = (0..COUNT).map(|it| (i64::from(it), it.to_string())).collect();
    assert_eq!(all, wanted);
    assert!(offsets.iter().copied().eq(0..i64::from(COUNT)));
    Ok(())
}

#[test]
fn leaders_that_stop() -> Outcome {
    let broker = broker()?;
    let offsets = produce_all(&broker, |leader| {
        broker.stop(leader)?;
        std::thread::sleep(Duration::from_millis(20));
        Ok(broker.restart(leader)?)
    })?;
    check(&broker, &offsets)
}

#[test]
fn leaders_that_are_moved() -> Outcome {
    let broker = broker()?;
    let offsets = produce_all(&broker, |leader| {
        let _elected = broker.elect((leader + 1) % 3); // refused where that node isn't in sync
        Ok(())
    })?;
    check(&broker, &offsets)
}

#[test]
fn a_node_that_was_down_joins_again() -> Outcome {
    let broker = broker()?;
    let mut client = Client::of_leader(&broker, 0)?;
    broker.stop(2)?;
    assert!(broker.show().contains("in-sync 0,1\n"));
    for _ in 0..50 {
        assert_eq!(client.produce(0, &batch(&["a"], NOBODY, 1), -1)?.0, 0);
    }
    assert!(broker.elect(2).is_err());
    broker.restart(2)?;
    until("it is in sync", || broker.show().contains("in-sync 0,1,2\n"))?;
    broker.elect(2)?;
    let mut client = Client::of_node(&broker, 2)?;
    assert_eq!(client.read_to(0, 50, 0)?.len(), 50);
    Ok(())
}

#[test]
fn an_answer_that_is_lost_after_the_commit() -> Outcome {
    let broker = broker()?;
    let leader = broker.leader(TOPIC, 0).ok_or("no leader")?;
    let sent = batch(&["once"], Writes { producer: (9, 0), sequence: 0, transactional: false }, 1);
    let mut client = Client::of_node(&broker, leader)?;
    broker.hold(leader)?;
    client.send(&produce_request(0, &sent, -1), 9)?;
    let mut reader = Client::of_node(&broker, leader)?;
    until("it is committed", || reader.list(0, -1, 0).is_ok_and(|it| it.1 == 1))?;
    broker.stop(leader)?;
    assert!(client.receive().is_err());
    broker.release(leader)?;
    let mut client = Client::of_leader(&broker, 0)?;
    assert_eq!(client.produce(0, &sent, -1)?, (0, 0));
    assert_eq!(client.read_to(0, 1, 0)?.len(), 1);
    assert_eq!(client.list(0, -1, 0)?.1, 1);
    Ok(())
}

#[test]
fn acknowledgements_that_are_held_back_come() -> Outcome {
    let broker = broker()?;
    let leader = broker.leader(TOPIC, 0).ok_or("no leader")?;
    let mut client = Client::of_node(&broker, leader)?;
    broker.hold(leader)?;
    let sent = batch(&["a"], NOBODY, 1);
    let request = produce_request(0, &sent, -1);
    let number = client.send(&request, 9)?;
    std::thread::sleep(Duration::from_millis(100));
    client.stream.set_read_timeout(Some(Duration::from_millis(50)))?;
    assert!(client.receive().is_err());
    client.stream.set_read_timeout(Some(LONG))?;
    broker.release(leader)?;
    assert_eq!(produced(&client.answer(&request, 9, number)?)?, (0, 0));
    Ok(())
}

#[test]
fn a_leader_that_is_cut_off() -> Outcome {
    let broker = broker()?;
    let leader = broker.leader(TOPIC, 0).ok_or("no leader")?;
    for other in (0..3).filter(|it| *it != leader) {
        broker.cut(leader, other)?;
        broker.cut(other, leader)?;
    }
    // With acks 1 it is acknowledged, and lost. With acks all it isn't acknowledged.
    let mut old = Client::of_node(&broker, leader)?;
    assert_eq!(old.produce(0, &batch(&["lost"], NOBODY, 1), 1)?, (0, 0));
    let sent = batch(&["not acknowledged"], NOBODY, 1);
    let request = produce_request(0, &sent, -1);
    let numbers = [old.send(&request, 9)?, old.send(&request, 9)?];
    std::thread::sleep(Duration::from_millis(20));
    broker.elect((leader + 1) % 3)?;
    for number in numbers {
        assert_eq!(produced(&old.answer(&request, 9, number)?)?.0, i16::from(ErrorCode::NotLeaderOrFollower));
    }
    let mut client = Client::of_leader(&broker, 0)?;
    assert_eq!(client.produce(0, &batch(&["kept"], NOBODY, 1), 1)?, (0, 0));
    broker.heal();
    until("it is committed", || client.list(0, -1, 0).is_ok_and(|it| it.1 == 1))?;
    assert_eq!(client.read_to(0, 1, 0)?, [(0, "kept".to_string())]);
    until("the old leader has cut its log", || broker.show().matches("end 1 watermark 1").count() == 3)?;
    Ok(())
}

/// An end that was told doesn't go back: a new leader that doesn't know yet what is committed says so (KIP-207).
#[test]
fn an_end_does_not_go_back() -> Outcome {
    let broker = Broker::start(Options { lag: LONG, ..Options::default() })?;
    let mut client = Client::of_leader(&broker, 0)?;
    assert_eq!(client.produce(0, &batch(&["a"], NOBODY, 1_000), -1)?, (0, 0));
    assert_eq!(client.list(0, LATEST, 0)?.1, 1);
    // Node 1 has the next batch, and node 2 hasn't: nobody commits it.
    broker.cut(0, 2)?;
    assert_eq!(client.produce(0, &batch(&["b"], NOBODY, 2_000), 1)?, (0, 1));
    until("node 1 has it", || broker.show().contains("  node 1 leads - end 2 "))?;
    broker.cut(1, 2)?;
    broker.elect(1)?;
    let mut client = Client::of_node(&broker, 1)?;
    until("it leads", || client.list(0, EARLIEST, 0).is_ok_and(|it| it.0 == 0))?;
    for isolation in [0, 1] {
        for (version, time, code) in [
            (6, LATEST, ErrorCode::OffsetNotAvailable),
            (4, LATEST, ErrorCode::LeaderNotAvailable),
            (6, 1_500, ErrorCode::OffsetNotAvailable),
            (7, MAX_TIMESTAMP, ErrorCode::OffsetNotAvailable),
        ] {
            assert_eq!(client.list_at(version, 0, time, isolation)?.0, i16::from(code), "version {version}, time {time}");
        }
        assert_eq!(client.list(0, 500, isolation)?.1, 0, "what is known to be committed is found");
    }
    broker.heal();
    until("it knows", || client.list(0, LATEST, 0).is_ok_and(|it| (it.0, it.1) == (0, 2)))?;
    assert_eq!((client.list(0, 1_500, 0)?.1, client.list_at(7, 0, MAX_TIMESTAMP, 0)?.1), (1, 1));
    Ok(())
}

#[test]
fn a_follower_that_is_cut_off_leaves() -> Outcome {
    let broker = broker()?;
    let leader = broker.leader(TOPIC, 0).ok_or("no leader")?;
    let other = (leader + 1) % 3;
    broker.cut(other, leader)?;
    let mut client = Client::of_node(&broker, leader)?;
    let start = Instant::now();
    assert_eq!(client.produce(0, &batch(&["a"], NOBODY, 1), -1)?, (0, 0)); // once it has left
    assert!(start.elapsed() > Duration::from_millis(500));
    assert!(!broker.show().contains("in-sync 0,1,2\n"));
    broker.heal();
    until("it is in sync", || broker.show().contains("in-sync 0,1,2\n"))?;
    Ok(())
}

#[test]
fn a_link_that_is_slow() -> Outcome {
    let broker = broker()?;
    let leader = broker.leader(TOPIC, 0).ok_or("no leader")?;
    for other in (0..3).filter(|it| *it != leader) {
        broker.delay(leader, other, Duration::from_millis(60))?;
    }
    let mut client = Client::of_node(&broker, leader)?;
    let start = Instant::now();
    assert_eq!(client.produce(0, &batch(&["a"], NOBODY, 1), -1)?, (0, 0));
    assert!(start.elapsed() >= Duration::from_millis(60));
    assert_eq!(client.fetch_of(0, &Ask::default())?.watermark, 1);
    Ok(())
}

#[test]
fn links_that_lose_and_double() -> Outcome {
    const BATCHES: i32 = 10;
    let broker = broker()?;
    let leader = broker.leader(TOPIC, 0).ok_or("no leader")?;
    for other in (0..3).filter(|it| *it != leader) {
        broker.doubling(leader, other, 1)?;
        broker.lossy(other, leader, 5)?;
    }
    let other = (leader + 1) % 3;
    assert!(broker.show().contains(&format!("link {leader} {other} doubling 1\nlink ")));
    assert!(broker.show().contains(&format!("link {other} {leader} lossy 5\n")));
    let mut client = Client::of_node(&broker, leader)?;
    for sequence in 0..BATCHES {
        let writes = Writes { producer: (9, 0), sequence, transactional: false };
        assert_eq!(client.produce(0, &batch(&[&sequence.to_string()], writes, 1), -1)?, (0, sequence.into()));
    }
    broker.heal();
    assert!(!broker.show().contains("link "));
    let end = format!("end {BATCHES} watermark {BATCHES}");
    until("all have each batch once", || broker.show().matches(&end).count() == 3)?;
    Ok(())
}
