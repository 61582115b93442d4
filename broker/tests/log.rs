//! Produce, Fetch, ListOffsets, OffsetForLeaderEpoch and Metadata over loopback.

mod common;

use common::{Ask, Client, LONG, NOBODY, Outcome, TOPIC, Writes, batch, broker, broker_of, produce_request, produced, until};
use kpart_broker::{Broker, Options};
use kwire::fetch::FetchRequest;
use kwire::metadata::{AskedTopic, MetadataRequest, MetadataResponse};
use kwire::offsets::offset_for_leader_epoch::{EpochPartition, EpochTopic, OffsetForLeaderEpochRequest, OffsetForLeaderEpochResponse};
use kwire::{ErrorCode, Message, Reader};
use std::time::{Duration, Instant};

#[test]
fn what_is_produced_is_fetched() -> Outcome {
    let broker = broker()?;
    let mut client = Client::of_leader(&broker, 0)?;
    let sent = batch(&["a", "b", "c"], NOBODY, 1_000);
    assert_eq!(client.produce(0, &sent, -1)?, (0, 0));
    assert_eq!(client.produce(0, &batch(&["d"], NOBODY, 2_000), -1)?, (0, 3));
    let got = client.fetch(0, 0, 0)?;
    assert_eq!((got.code, got.watermark, got.stable), (0, 4, 4));
    let values: Vec<String> = got.values()?.into_iter().map(|it| it.1).collect();
    assert_eq!(values, ["a", "b", "c", "d"]);
    // But for base offset and leader epoch, which the leader stamps, the bytes are those that were handed in.
    assert_eq!(got.bytes[16..sent.len()], sent[16..]);
    assert_eq!(client.fetch(0, 4, 0)?.bytes.len(), 0);
    assert_eq!(client.fetch(0, 5, 0)?.code, i16::from(ErrorCode::OffsetOutOfRange));
    assert_eq!(client.fetch(1, 0, 0)?.code, i16::from(ErrorCode::UnknownTopicOrPartition));
    // A batch comes whole, though fewer bytes were asked for.
    assert_eq!(client.fetch_of(0, &Ask { from: 1, most: 1, ..Ask::default() })?.values()?.len(), 3);
    Ok(())
}

#[test]
fn batches_that_are_not_taken() -> Outcome {
    let broker = broker()?;
    let mut client = Client::of_leader(&broker, 0)?;
    let good = batch(&["a"], NOBODY, 1_000);
    let with = |at: usize, byte: u8| {
        let mut bad = good.clone();
        bad[at] ^= byte;
        bad
    };
    let mut code = |bytes: &[u8]| client.produce(0, bytes, -1).map(|it| ErrorCode::of(it.0));
    assert_eq!(code(&with(good.len() - 1, 1))?, Some(ErrorCode::CorruptMessage));
    assert_eq!(code(&with(16, 3))?, Some(ErrorCode::UnsupportedForMessageFormat));
    assert_eq!(code(&good[..40])?, Some(ErrorCode::CorruptMessage));
    assert_eq!(code(&[])?, Some(ErrorCode::CorruptMessage));
    assert_eq!(code(&[&good[..], &good[..]].concat())?, Some(ErrorCode::InvalidRecord));
    let big = "x".repeat(1_048_588);
    assert_eq!(code(&batch(&[&big], NOBODY, 1))?, Some(ErrorCode::MessageTooLarge));
    assert_eq!(client.produce(0, &good, 2)?.0, i16::from(ErrorCode::InvalidRequiredAcks));
    assert_eq!(client.produce(7, &good, -1)?.0, i16::from(ErrorCode::UnknownTopicOrPartition));
    assert_eq!(client.list(0, -1, 0)?.1, 0);
    Ok(())
}

#[test]
fn a_batch_as_sarama_writes_it_is_mended() -> Outcome {
    let broker = broker()?;
    let mut client = Client::of_leader(&broker, 0)?;
    let mut odd = batch(&["a", "b"], NOBODY, 1_000);
    odd[35..43].copy_from_slice(&(-1i64).to_be_bytes()); // the greatest timestamp
    odd[53..57].copy_from_slice(&0i32.to_be_bytes()); // a sequence number without a producer
    let crc = kwire::crc32c(&odd[21..]);
    odd[17..21].copy_from_slice(&crc.to_be_bytes());
    assert_eq!(client.produce(0, &odd, -1)?, (0, 0));
    let heads = client.fetch(0, 0, 0)?.heads()?;
    assert_eq!((heads[0].max_timestamp, heads[0].base_sequence), (1_001, -1));
    assert_eq!(client.list(0, 1_001, 0)?.1, 1);
    Ok(())
}

#[test]
fn one_and_no_acknowledgements() -> Outcome {
    let broker = broker()?;
    let mut client = Client::of_leader(&broker, 0)?;
    assert_eq!(client.produce(0, &batch(&["one"], NOBODY, 1), 1)?, (0, 0));
    client.send(&produce_request(0, &batch(&["none"], NOBODY, 2), 0), 9)?;
    assert_eq!(client.produce(0, &batch(&["all"], NOBODY, 3), -1)?, (0, 2)); // the next answer is this one's
    // Nobody can be told of a refusal but by the connection's end.
    client.send(&produce_request(0, b"none", 0), 9)?;
    assert!(client.receive().is_err());
    Ok(())
}

#[test]
fn a_retry_is_stored_once() -> Outcome {
    let broker = broker()?;
    let mut client = Client::of_leader(&broker, 0)?;
    let of = |sequence| Writes { producer: (7, 0), sequence, transactional: false };
    let first = batch(&["a", "b"], of(0), 1);
    assert_eq!(client.produce(0, &first, -1)?, (0, 0));
    assert_eq!(client.produce(0, &batch(&["c"], of(2), 2), -1)?, (0, 2));
    let mut again = Client::of_leader(&broker, 0)?;
    assert_eq!(again.produce(0, &first, -1)?, (0, 0));
    assert_eq!(again.produce(0, &batch(&["e"], of(9), 2), -1)?.0, i16::from(ErrorCode::OutOfOrderSequenceNumber));
    let newer = Writes { producer: (7, 1), ..of(0) };
    assert_eq!(again.produce(0, &batch(&["f"], newer, 2), -1)?, (0, 3));
    assert_eq!(again.produce(0, &batch(&["g"], of(3), 2), -1)?.0, i16::from(ErrorCode::InvalidProducerEpoch));
    assert_eq!(again.read_to(0, 4, 0)?.len(), 4);
    assert!(broker.show().contains("duplicates 1"));
    Ok(())
}

#[test]
fn requests_are_answered_in_order() -> Outcome {
    let broker = broker()?;
    let mut client = Client::of_leader(&broker, 0)?;
    let batches: Vec<_> = (0..100).map(|it| batch(&[&it.to_string()], NOBODY, it)).collect();
    let requests: Vec<_> = batches.iter().map(|it| produce_request(0, it, -1)).collect();
    let numbers = requests.iter().map(|it| client.send(it, 9)).collect::<Result<Vec<_>, _>>()?;
    for (place, (request, number)) in (0..).zip(requests.iter().zip(numbers)) {
        let answer = client.answer(request, 9, number)?;
        assert_eq!(produced(&answer)?, (0, place));
    }
    Ok(())
}

// A batch whose fate is known at once is answered behind a request that waits, and before one that comes later.
#[test]
fn no_answer_overtakes_another_one() -> Outcome {
    let broker = broker()?;
    let mut client = Client::of_leader(&broker, 0)?;
    let waits = FetchRequest { max_wait_ms: 200, min_bytes: 1 << 20, topics: vec![], ..FetchRequest::default() };
    let sent = batch(&["a"], NOBODY, 1);
    let produce = produce_request(0, &sent, -1);
    for round in 0..3 {
        let start = Instant::now();
        let numbers = [client.send(&waits, 12)?, client.send(&produce, 9)?, client.send(&waits, 12)?];
        client.answer(&waits, 12, numbers[0])?;
        assert!(start.elapsed() >= Duration::from_millis(200));
        let answer = client.answer(&produce, 9, numbers[1])?;
        assert_eq!(produced(&answer)?, (0, round));
        client.answer(&waits, 12, numbers[2])?;
        assert_eq!(client.list(0, -1, 0)?.1, round + 1);
    }
    Ok(())
}

#[test]
fn a_fetch_waits_for_bytes() -> Outcome {
    let broker = broker()?;
    let port = broker.ports()[0];
    let start = Instant::now();
    let mut consumer = Client::of_leader(&broker, 0)?;
    let got = consumer.fetch_of(0, &Ask { wait_ms: 150, ..Ask::default() })?;
    assert!(got.bytes.is_empty() && start.elapsed() >= Duration::from_millis(150));
    let waits = std::thread::spawn(move || {
        let got = Client::of_port(port).and_then(|mut it| it.fetch_of(0, &Ask { wait_ms: 15_000, ..Ask::default() }));
        got.map(|it| it.bytes.len()).map_err(|it| it.to_string())
    });
    std::thread::sleep(Duration::from_millis(50));
    let sent = batch(&["a"], NOBODY, 1);
    let start = Instant::now();
    assert_eq!(consumer.produce(0, &sent, -1)?, (0, 0));
    assert_eq!(waits.join().map_err(|_| "it panicked")?, Ok(sent.len()));
    assert!(start.elapsed() < LONG / 4);
    // An error doesn't wait.
    let start = Instant::now();
    assert_ne!(consumer.fetch_of(0, &Ask { from: 99, wait_ms: 15_000, ..Ask::default() })?.code, 0);
    assert!(start.elapsed() < LONG / 4);
    Ok(())
}

#[test]
fn there_are_no_fetch_sessions() -> Outcome {
    let broker = broker()?;
    let mut client = Client::of_leader(&broker, 0)?;
    let got = client.fetch_of(0, &Ask { session: 5, ..Ask::default() })?;
    assert_eq!(got.code, i16::from(ErrorCode::FetchSessionIdNotFound));
    assert_eq!(client.fetch(0, 0, 0)?.code, 0);
    Ok(())
}

#[test]
fn offsets_by_time() -> Outcome {
    let broker = broker()?;
    let mut client = Client::of_leader(&broker, 0)?;
    assert_eq!(client.list(0, -1, 0)?, (0, 0, -1, 0));
    client.produce(0, &batch(&["a", "b", "c"], NOBODY, 1_000), -1)?;
    client.produce(0, &batch(&["d"], NOBODY, 5_000), -1)?;
    assert_eq!(client.list(0, -1, 0)?, (0, 4, -1, 0));
    assert_eq!(client.list(0, -1, 1)?, (0, 4, -1, 0));
    assert_eq!(client.list(0, -2, 0)?.1, 0);
    let by_time = |it: (i16, i64, i64, i32)| (it.0, it.1, it.2);
    assert_eq!(by_time(client.list(0, 0, 0)?), (0, 0, 1_000));
    assert_eq!(by_time(client.list(0, 1_001, 0)?), (0, 1, 1_001));
    assert_eq!(by_time(client.list(0, 1_003, 0)?), (0, 3, 5_000));
    assert_eq!(by_time(client.list(0, 5_001, 0)?), (0, -1, -1));
    assert_eq!(client.list(0, -3, 0)?.0, i16::from(ErrorCode::UnsupportedVersion));
    Ok(())
}

// By KIP-734, of the records that a consumer of the isolation level is shown.
#[test]
fn the_record_of_the_greatest_time() -> Outcome {
    const GREATEST: i64 = (1 << 62) - 1;
    let broker = broker()?;
    let mut client = Client::of_leader(&broker, 0)?;
    let greatest = |client: &mut Client, isolation: i8| client.list_at(7, 0, -3, isolation);
    assert_eq!(greatest(&mut client, 0)?, (0, -1, -1, -1));
    client.produce(0, &batch(&["a", "b", "c"], NOBODY, 1_000), -1)?;
    assert_eq!(greatest(&mut client, 0)?, (0, 2, 1_002, -1));
    client.produce(0, &batch(&["d"], NOBODY, 5_000), -1)?;
    client.produce(0, &batch(&["e", "f"], NOBODY, 4_999), -1)?; // the first one of the time counts
    assert_eq!(greatest(&mut client, 0)?, (0, 3, 5_000, -1));
    assert_eq!(client.list_at(7, 0, -1, 0)?.1, 6);
    client.produce(0, &batch(&["g"], NOBODY, GREATEST), -1)?;
    client.produce(0, &batch(&["h"], NOBODY, 0), -1)?;
    assert_eq!(greatest(&mut client, 0)?, (0, 6, GREATEST, -1));
    Ok(())
}

/// Code, epoch and end of an epoch.
fn epoch_end(client: &mut Client, known: i32, epoch: i32) -> common::Fallible<(i16, i32, i64)> {
    let partitions = vec![EpochPartition { partition: 0, current_leader_epoch: known, leader_epoch: epoch }];
    let topics = vec![EpochTopic { topic: TOPIC, partitions }];
    let answer = client.ask(&OffsetForLeaderEpochRequest { replica_id: -1, topics }, 4)?;
    let response = OffsetForLeaderEpochResponse::decode(&mut Reader::new(&answer), 4)?;
    let it = &response.topics[0].partitions[0];
    Ok((it.error_code, it.leader_epoch, it.end_offset))
}

#[test]
fn epochs_of_leaders() -> Outcome {
    let broker = broker()?;
    let first = broker.leader(TOPIC, 0).ok_or("no leader")?;
    let mut old = Client::of_leader(&broker, 0)?;
    assert_eq!(old.produce(0, &batch(&["a", "b"], NOBODY, 1), -1)?, (0, 0));
    let next = (first + 1) % 3;
    broker.elect(next)?;
    let mut client = Client::of_leader(&broker, 0)?;
    assert_eq!(client.produce(0, &batch(&["c"], NOBODY, 2), -1)?, (0, 2));
    assert_eq!(epoch_end(&mut client, -1, 0)?, (0, 0, 2));
    assert_eq!(epoch_end(&mut client, 1, 1)?, (0, 1, 3));
    assert_eq!(epoch_end(&mut client, 0, 1)?.0, i16::from(ErrorCode::FencedLeaderEpoch));
    assert_eq!(epoch_end(&mut client, 2, 1)?.0, i16::from(ErrorCode::UnknownLeaderEpoch));
    let with = |epoch| Ask { epoch, ..Ask::default() };
    assert_eq!(client.fetch_of(0, &with(0))?.code, i16::from(ErrorCode::FencedLeaderEpoch));
    assert_eq!(client.fetch_of(0, &with(2))?.code, i16::from(ErrorCode::UnknownLeaderEpoch));
    assert_eq!(client.fetch_of(0, &with(1))?.code, 0);
    // The old leader says so as soon as it knows.
    let refused = i16::from(ErrorCode::NotLeaderOrFollower);
    until("the old leader follows", || old.fetch(0, 0, 0).is_ok_and(|it| it.code == refused))?;
    assert_eq!(old.produce(0, &batch(&["d"], NOBODY, 1), -1)?.0, refused);
    assert_eq!(old.list(0, -1, 0)?.0, refused);
    assert_eq!(epoch_end(&mut old, -1, 0)?.0, refused);
    Ok(())
}

fn metadata(client: &mut Client, names: Option<&[&str]>) -> common::Fallible<Vec<(i16, String, Vec<i32>)>> {
    let topic = |it: &&'static str| AskedTopic { name: Some(it), ..AskedTopic::default() };
    let known = ["events", "nothing"];
    let topics = names.map(|it| known.iter().filter(|name| it.contains(name)).map(topic).collect());
    let answer = client.ask(&MetadataRequest { topics, ..MetadataRequest::default() }, 12)?;
    let response = MetadataResponse::decode(&mut Reader::new(&answer), 12)?;
    let leaders = |it: &kwire::metadata::MetadataTopic<'_>| it.partitions.iter().map(|it| it.leader_id).collect();
    Ok(response.topics.iter().map(|it| (it.error_code, it.name.unwrap_or("").to_string(), leaders(it))).collect())
}

#[test]
fn metadata_names_leaders() -> Outcome {
    let broker = broker_of(3, 4)?;
    let mut client = Client::of_node(&broker, 2)?;
    let all = [(0, TOPIC.to_string(), vec![0, 1, 2, 0])];
    assert_eq!(metadata(&mut client, None)?, all);
    assert_eq!(metadata(&mut client, Some(&[]))?, []);
    let unknown = metadata(&mut client, Some(&["nothing"]))?;
    assert_eq!(unknown, [(3, "nothing".to_string(), vec![])]);
    broker.stop(0)?;
    assert_eq!(metadata(&mut client, Some(&[TOPIC]))?, [(0, TOPIC.to_string(), vec![1, 1, 2, 1])]);
    broker.stop(1)?;
    assert_eq!(metadata(&mut client, Some(&[TOPIC]))?, [(0, TOPIC.to_string(), vec![2, 2, 2, 2])]);
    Ok(())
}

#[test]
fn a_partition_without_a_leader_says_so() -> Outcome {
    let broker = broker_of(2, 1)?;
    broker.stop(1)?;
    let mut client = Client::of_leader(&broker, 0)?;
    client.produce(0, &batch(&["a"], NOBODY, 1), -1)?;
    broker.stop(0)?; // it alone was in sync
    broker.restart(1)?;
    let mut other = Client::of_node(&broker, 1)?;
    assert_eq!(metadata(&mut other, Some(&[TOPIC]))?[0].2, [-1]);
    broker.restart(0)?;
    let mut client = Client::of_leader(&broker, 0)?;
    until("it leads again", || client.fetch(0, 0, 0).is_ok_and(|it| it.code == 0 && it.watermark == 1))?;
    Ok(())
}

#[test]
fn partitions_are_logs_of_their_own() -> Outcome {
    let broker = broker_of(3, 64)?;
    for index in [0, 1, 63] {
        let mut client = Client::of_leader(&broker, index)?;
        assert_eq!(client.produce(index, &batch(&[&index.to_string()], NOBODY, 1), -1)?, (0, 0));
        assert_eq!(client.read_to(index, 1, 0)?, [(0, index.to_string())]);
    }
    broker.elect_of(TOPIC, 63, 1)?;
    assert_eq!((broker.leader(TOPIC, 63), broker.leader(TOPIC, 0)), (Some(1), Some(0)));
    Ok(())
}

#[test]
fn one_node_is_a_cluster() -> Outcome {
    let broker = broker_of(1, 1)?;
    let mut client = Client::of_leader(&broker, 0)?;
    for number in 0..20 {
        assert_eq!(client.produce(0, &batch(&["a"], NOBODY, 1), -1)?, (0, number));
    }
    broker.stop(0)?;
    assert!(client.fetch(0, 0, 0).is_err());
    broker.restart(0)?;
    let mut client = Client::of_leader(&broker, 0)?;
    assert_eq!(client.produce(0, &batch(&["a"], NOBODY, 1), -1)?, (0, 20));
    Ok(())
}

#[test]
fn fewer_in_sync_than_required() -> Outcome {
    let broker = Broker::start(Options { min_insync: 2, ..Options::default() })?;
    broker.stop(2)?;
    let mut client = Client::of_leader(&broker, 0)?;
    assert_eq!(client.produce(0, &batch(&["a"], NOBODY, 1), -1)?, (0, 0));
    broker.stop(1)?;
    let mut client = Client::of_leader(&broker, 0)?;
    assert_eq!(client.produce(0, &batch(&["b"], NOBODY, 1), -1)?.0, i16::from(ErrorCode::NotEnoughReplicas));
    assert_eq!(client.produce(0, &batch(&["c"], NOBODY, 1), 1)?, (0, 1));
    Ok(())
}
