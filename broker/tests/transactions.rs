//! Transactions over loopback: what Fetch names, and what a client that filters is left with.

mod common;

use common::{Client, Fallible, NOBODY, Outcome, TOPIC, Writes, batch, broker, broker_of, until};
use kpart_broker::{Broker, Options};
use kwire::offsets::offset_fetch::{OffsetFetchRequest, OffsetFetchResponse, OffsetsGroup};
use kwire::transactions::add_offsets_to_txn::{AddOffsetsToTxnRequest, AddOffsetsToTxnResponse};
use kwire::transactions::add_partitions_to_txn::{AddPartitionsToTxnRequest, AddPartitionsToTxnResponse, JoiningTopic};
use kwire::transactions::end_txn::{EndTxnRequest, EndTxnResponse};
use kwire::transactions::init_producer_id::{InitProducerIdRequest, InitProducerIdResponse};
use kwire::transactions::txn_offset_commit::{TxnCommitPartition, TxnCommitTopic, TxnOffsetCommitRequest, TxnOffsetCommitResponse};
use kwire::{ErrorCode, Message, Reader};

type Producer = (i64, i16);

fn init(client: &mut Client, id: Option<&str>, timeout: i32) -> Fallible<Result<Producer, i16>> {
    let request = InitProducerIdRequest { transactional_id: id, transaction_timeout_ms: timeout, ..InitProducerIdRequest::default() };
    let answer = client.ask(&request, 4)?;
    let it = InitProducerIdResponse::decode(&mut Reader::new(&answer), 4)?;
    Ok(if it.error_code == 0 { Ok((it.producer_id, it.producer_epoch)) } else { Err(it.error_code) })
}

fn add(client: &mut Client, id: &str, producer: Producer, partitions: &[i32]) -> Fallible<Vec<i16>> {
    let topics = vec![JoiningTopic { name: TOPIC, partitions: partitions.to_vec() }];
    let request = AddPartitionsToTxnRequest { transactional_id: id, producer_id: producer.0, producer_epoch: producer.1, topics };
    let answer = client.ask(&request, 3)?;
    let it = AddPartitionsToTxnResponse::decode(&mut Reader::new(&answer), 3)?;
    Ok(it.results_by_topic[0].results_by_partition.iter().map(|it| it.partition_error_code).collect())
}

fn end(client: &mut Client, id: &str, producer: Producer, committed: bool) -> Fallible<i16> {
    let request = EndTxnRequest { transactional_id: id, producer_id: producer.0, producer_epoch: producer.1, committed };
    let answer = client.ask(&request, 3)?;
    Ok(EndTxnResponse::decode(&mut Reader::new(&answer), 3)?.error_code)
}

fn part(values: &[&str], producer: Producer, sequence: i32) -> Vec<u8> {
    batch(values, Writes { producer, sequence, transactional: true }, 1_000)
}

fn begun(client: &mut Client, id: &str) -> Fallible<Producer> {
    let producer = init(client, Some(id), 60_000)?.map_err(|it| format!("code {it}"))?;
    assert_eq!(add(client, id, producer, &[0])?, [0]);
    Ok(producer)
}

fn texts(shown: &[(i64, String)]) -> Vec<&str> {
    shown.iter().map(|it| it.1.as_str()).collect()
}

#[test]
fn what_is_aborted_is_named_and_left_out() -> Outcome {
    let broker = broker()?;
    let mut client = Client::of_leader(&broker, 0)?;
    let (one, other) = (begun(&mut client, "one")?, begun(&mut client, "other")?);
    assert_eq!(client.produce_in("one", 0, &part(&["a0", "a1"], one, 0))?, (0, 0));
    assert_eq!(client.produce_in("other", 0, &part(&["b0"], other, 0))?, (0, 2));
    assert_eq!(client.produce(0, &batch(&["plain"], NOBODY, 1), -1)?, (0, 3));
    let got = client.fetch(0, 0, 1)?;
    assert_eq!((got.watermark, got.stable, got.bytes.len()), (4, 0, 0)); // both are open
    assert_eq!((client.list(0, -1, 1)?.1, client.list(0, -1, 0)?.1), (0, 4));
    // The record of the greatest time is one that the consumer is shown.
    assert_eq!(client.list_at(7, 0, -3, 1)?.1, -1);
    assert!(client.list_at(7, 0, -3, 0)?.1 >= 0);
    assert_eq!(end(&mut client, "one", one, false)?, 0);
    let got = client.fetch(0, 0, 1)?;
    assert_eq!((got.watermark, got.stable), (5, 2));
    assert_eq!((got.aborted.as_slice(), texts(&got.visible()?).len()), ([(one.0, 0)].as_slice(), 0));
    assert_eq!(end(&mut client, "other", other, true)?, 0);
    let got = client.fetch(0, 0, 1)?;
    assert_eq!((got.watermark, got.stable, got.aborted.as_slice()), (6, 6, [(one.0, 0)].as_slice()));
    assert_eq!(texts(&got.values()?), ["a0", "a1", "b0", "plain"]);
    assert_eq!(texts(&got.visible()?), ["b0", "plain"]);
    // Behind the aborted one's marker nothing is named; and read uncommitted there is no list at all.
    let got = client.fetch(0, 5, 1)?;
    assert!(got.aborted.is_empty() && got.visible()?.is_empty());
    let got = client.fetch(0, 0, 0)?;
    assert_eq!((got.aborted.len(), texts(&got.visible()?).len()), (0, 4));
    Ok(())
}

#[test]
fn the_end_may_be_asked_for_again() -> Outcome {
    let broker = broker()?;
    let mut client = Client::of_leader(&broker, 0)?;
    let one = begun(&mut client, "one")?;
    client.produce_in("one", 0, &part(&["a"], one, 0))?;
    assert_eq!(end(&mut client, "one", one, true)?, 0);
    assert_eq!(end(&mut client, "one", one, true)?, 0);
    assert_eq!(end(&mut client, "one", one, false)?, i16::from(ErrorCode::InvalidTxnState));
    assert_eq!(client.list(0, -1, 0)?.1, 2); // one marker
    let unknown = i16::from(ErrorCode::InvalidProducerIdMapping);
    assert_eq!(end(&mut client, "nobody", one, true)?, unknown);
    assert_eq!(end(&mut client, "one", (one.0 + 1, 0), true)?, unknown);
    let other = init(&mut client, Some("other"), 60_000)?.map_err(|it| format!("code {it}"))?;
    assert_eq!(end(&mut client, "other", other, true)?, i16::from(ErrorCode::InvalidTxnState));
    let codes = add(&mut client, "other", other, &[0, 9])?;
    assert_eq!(codes, [i16::from(ErrorCode::OperationNotAttempted), i16::from(ErrorCode::UnknownTopicOrPartition)]);
    Ok(())
}

#[test]
fn a_new_producer_fences_the_old_one() -> Outcome {
    let broker = broker()?;
    let mut client = Client::of_leader(&broker, 0)?;
    let old = begun(&mut client, "one")?;
    client.produce_in("one", 0, &part(&["lost"], old, 0))?;
    let new = begun(&mut client, "one")?;
    assert!(new.0 == old.0 && new.1 > old.1);
    let fenced = i16::from(ErrorCode::InvalidProducerEpoch);
    assert_eq!(end(&mut client, "one", old, true)?, fenced);
    assert_eq!(add(&mut client, "one", old, &[0])?, [fenced]);
    assert_eq!(client.produce_in("one", 0, &part(&["late"], old, 1))?.0, fenced);
    client.produce_in("one", 0, &part(&["kept"], new, 0))?;
    assert_eq!(end(&mut client, "one", new, true)?, 0);
    let end = client.list(0, -1, 1)?.1;
    assert_eq!(texts(&client.read_to(0, end, 1)?), ["kept"]);
    let wrong = |timeout| i16::from(if timeout > 0 { ErrorCode::InvalidTransactionTimeout } else { ErrorCode::InvalidRequest });
    assert_eq!(init(&mut client, Some("one"), 900_001)?, Err(wrong(1)));
    assert_eq!(init(&mut client, Some(""), 1_000)?, Err(wrong(0)));
    let (one, other) = (init(&mut client, None, 0)?, init(&mut client, None, 0)?);
    assert!(one.is_ok() && other.is_ok() && one != other);
    Ok(())
}

#[test]
fn one_that_takes_too_long_is_aborted() -> Outcome {
    let broker = broker()?;
    let mut client = Client::of_leader(&broker, 0)?;
    let slow = init(&mut client, Some("slow"), 100)?.map_err(|it| format!("code {it}"))?;
    add(&mut client, "slow", slow, &[0])?;
    client.produce_in("slow", 0, &part(&["slow"], slow, 0))?;
    until("it is aborted", || client.list(0, -1, 1).is_ok_and(|it| it.1 == 2))?;
    assert_eq!(end(&mut client, "slow", slow, true)?, i16::from(ErrorCode::InvalidProducerEpoch));
    assert_eq!(client.read_to(0, 2, 1)?, []);
    Ok(())
}

/// A transaction that nobody ends would hold back all readers of what is committed (KIP-890).
#[test]
fn a_batch_of_no_open_transaction_is_refused() -> Outcome {
    let broker = broker_of(3, 2)?;
    let (mut client, mut coordinator) = (Client::of_leader(&broker, 1)?, Client::of_node(&broker, 0)?);
    let one = init(&mut coordinator, Some("one"), 60_000)?.map_err(|it| format!("code {it}"))?;
    let [not_named, not_added, unknown] =
        [ErrorCode::TransactionalIdAuthorizationFailed, ErrorCode::InvalidTxnState, ErrorCode::InvalidProducerIdMapping].map(i16::from);
    assert_eq!(client.produce_in("one", 1, &part(&["early"], one, 0))?.0, not_added);
    assert_eq!(add(&mut coordinator, "one", one, &[0])?, [0]);
    assert_eq!(client.produce_in("one", 1, &part(&["elsewhere"], one, 0))?.0, not_added);
    assert_eq!(add(&mut coordinator, "one", one, &[1])?, [0]);
    assert_eq!(client.produce(1, &part(&["nameless"], one, 0), -1)?.0, not_named);
    assert_eq!(client.produce_in("other", 1, &part(&["misnamed"], one, 0))?.0, unknown);
    assert_eq!(client.produce_in("one", 1, &part(&["taken"], one, 0))?, (0, 0));
    assert_eq!(end(&mut coordinator, "one", one, true)?, 0);
    assert_eq!(client.produce_in("one", 1, &part(&["late"], one, 1))?.0, not_added);
    assert_eq!(texts(&client.read_to(1, 2, 1)?), ["taken"]);
    assert_eq!(client.list(1, -1, 1)?.1, 2); // nothing is open
    Ok(())
}

#[test]
fn an_end_survives_a_failover() -> Outcome {
    let broker = broker_of(3, 3)?;
    let mut coordinator = Client::of_node(&broker, 0)?;
    let one = begun(&mut coordinator, "one")?;
    assert_eq!(add(&mut coordinator, "one", one, &[0, 1, 2])?, [0, 0, 0]);
    for index in 0..3 {
        let mut client = Client::of_leader(&broker, index)?;
        assert_eq!(client.produce_in("one", index, &part(&["a"], one, 0))?.0, 0);
    }
    broker.stop(2)?;
    broker.elect_of(TOPIC, 0, 1)?;
    assert_eq!(end(&mut coordinator, "one", one, true)?, 0);
    for index in 0..3 {
        let mut client = Client::of_leader(&broker, index)?;
        assert_eq!(texts(&client.read_to(index, 2, 1)?), ["a"]);
    }
    Ok(())
}

/// What the group has committed of partition 0: code and offset.
fn committed(client: &mut Client, group: &str) -> Fallible<Vec<(i16, i64)>> {
    let groups = vec![OffsetsGroup { group_id: group, topics: None }];
    let answer = client.ask(&OffsetFetchRequest { groups, require_stable: true, ..OffsetFetchRequest::default() }, 8)?;
    let response = OffsetFetchResponse::decode(&mut Reader::new(&answer), 8)?;
    let all = response.groups.iter().flat_map(|it| &it.topics).flat_map(|it| &it.partitions);
    Ok(all.map(|it| (it.error_code, it.committed_offset)).collect())
}

fn keep(client: &mut Client, id: &str, producer: Producer, offset: i64) -> Fallible<i16> {
    let (producer_id, producer_epoch) = producer;
    let request = AddOffsetsToTxnRequest { transactional_id: id, producer_id, producer_epoch, group_id: "g" };
    let answer = client.ask(&request, 3)?;
    assert_eq!(AddOffsetsToTxnResponse::decode(&mut Reader::new(&answer), 3)?.error_code, 0);
    let partitions = vec![TxnCommitPartition { partition_index: 0, committed_offset: offset, ..TxnCommitPartition::default() }];
    let topics = vec![TxnCommitTopic { name: TOPIC, partitions }];
    let request = TxnOffsetCommitRequest {
        transactional_id: id,
        group_id: "g",
        producer_id,
        producer_epoch,
        topics,
        ..TxnOffsetCommitRequest::default()
    };
    let answer = client.ask(&request, 3)?;
    Ok(TxnOffsetCommitResponse::decode(&mut Reader::new(&answer), 3)?.topics[0].partitions[0].error_code)
}

#[test]
fn offsets_count_once_the_transaction_commits() -> Outcome {
    let broker = broker()?;
    let mut client = Client::of_node(&broker, 0)?;
    let one = begun(&mut client, "one")?;
    assert_eq!(keep(&mut client, "one", one, 5)?, 0);
    assert_eq!(committed(&mut client, "g")?, []);
    assert_eq!(end(&mut client, "one", one, false)?, 0);
    assert_eq!(committed(&mut client, "g")?, []);
    assert_eq!(keep(&mut client, "one", one, 6)?, 0);
    assert_eq!(end(&mut client, "one", one, true)?, 0);
    assert_eq!(committed(&mut client, "g")?, [(0, 6)]);
    assert_eq!(keep(&mut client, "one", one, 7)?, 0);
    assert_eq!(committed(&mut client, "g")?, [(i16::from(ErrorCode::UnstableOffsetCommit), -1)]);
    assert_eq!(end(&mut client, "one", one, true)?, 0);
    assert_eq!(committed(&mut client, "g")?, [(0, 7)]);
    Ok(())
}

#[test]
fn ids_are_bounded() -> Outcome {
    let broker = Broker::start(Options { most_transactional_ids: 2, ..Options::default() })?;
    let mut client = Client::of_node(&broker, 0)?;
    assert!(init(&mut client, Some("a"), 1_000)?.is_ok() && init(&mut client, Some("b"), 1_000)?.is_ok());
    assert_eq!(init(&mut client, Some("c"), 1_000)?, Err(ErrorCode::InvalidRequest.into()));
    assert!(init(&mut client, Some("a"), 1_000)?.is_ok());
    // Another node doesn't coordinate.
    let mut other = Client::of_node(&broker, 1)?;
    assert_eq!(init(&mut other, Some("a"), 1_000)?, Err(ErrorCode::NotCoordinator.into()));
    broker.stop(0)?;
    assert!(init(&mut other, Some("a"), 1_000)?.is_ok());
    Ok(())
}
