//! What a client asks of the coordinators.

use super::{Client, Fallible, TOPIC};
use kwire::offsets::offset_commit::{CommitPartition, CommitTopic, OffsetCommitRequest, OffsetCommitResponse};
use kwire::offsets::offset_fetch::{OffsetFetchRequest, OffsetFetchResponse, OffsetsTopic};
use kwire::transactions::add_offsets_to_txn::{AddOffsetsToTxnRequest, AddOffsetsToTxnResponse};
use kwire::transactions::add_partitions_to_txn::{AddPartitionsToTxnRequest, AddPartitionsToTxnResponse, JoiningTopic};
use kwire::transactions::end_txn::{EndTxnRequest, EndTxnResponse};
use kwire::transactions::init_producer_id::{InitProducerIdRequest, InitProducerIdResponse};
use kwire::transactions::txn_offset_commit::{TxnCommitPartition, TxnCommitTopic, TxnOffsetCommitRequest, TxnOffsetCommitResponse};
use kwire::{Message, Reader};

pub type Producer = (i64, i16);

/// A producer's id and epoch, or the code.
pub fn init(client: &mut Client, id: Option<&str>, timeout: i32) -> Fallible<Result<Producer, i16>> {
    let request = InitProducerIdRequest { transactional_id: id, transaction_timeout_ms: timeout, ..InitProducerIdRequest::default() };
    let answer = client.ask(&request, 4)?;
    let it = InitProducerIdResponse::decode(&mut Reader::new(&answer), 4)?;
    Ok(if it.error_code == 0 { Ok((it.producer_id, it.producer_epoch)) } else { Err(it.error_code) })
}

/// The first code that isn't 0, if there is one.
pub fn add(client: &mut Client, id: &str, producer: Producer, partitions: &[i32]) -> Fallible<i16> {
    let topics = vec![JoiningTopic { name: TOPIC, partitions: partitions.to_vec() }];
    let request = AddPartitionsToTxnRequest { transactional_id: id, producer_id: producer.0, producer_epoch: producer.1, topics };
    let answer = client.ask(&request, 3)?;
    let it = AddPartitionsToTxnResponse::decode(&mut Reader::new(&answer), 3)?;
    let codes = it.results_by_topic[0].results_by_partition.iter().map(|it| it.partition_error_code);
    Ok(codes.into_iter().find(|it| *it != 0).unwrap_or_default())
}

pub fn end(client: &mut Client, id: &str, producer: Producer, committed: bool) -> Fallible<i16> {
    let request = EndTxnRequest { transactional_id: id, producer_id: producer.0, producer_epoch: producer.1, committed };
    let answer = client.ask(&request, 3)?;
    Ok(EndTxnResponse::decode(&mut Reader::new(&answer), 3)?.error_code)
}

/// Offsets of a group, for partition 0, in a transaction.
pub fn keep(client: &mut Client, id: &str, producer: Producer, group: &str, offset: i64) -> Fallible<i16> {
    let (producer_id, producer_epoch) = producer;
    let request = AddOffsetsToTxnRequest { transactional_id: id, producer_id, producer_epoch, group_id: group };
    let answer = client.ask(&request, 3)?;
    let code = AddOffsetsToTxnResponse::decode(&mut Reader::new(&answer), 3)?.error_code;
    if code != 0 {
        return Ok(code);
    }
    let partitions = vec![TxnCommitPartition { partition_index: 0, committed_offset: offset, ..TxnCommitPartition::default() }];
    let topics = vec![TxnCommitTopic { name: TOPIC, partitions }];
    let request = TxnOffsetCommitRequest {
        transactional_id: id,
        group_id: group,
        producer_id,
        producer_epoch,
        topics,
        ..TxnOffsetCommitRequest::default()
    };
    let answer = client.ask(&request, 3)?;
    Ok(TxnOffsetCommitResponse::decode(&mut Reader::new(&answer), 3)?.topics[0].partitions[0].error_code)
}

/// Commits an offset of partition 0 for a group without members.
pub fn commit(client: &mut Client, group: &str, offset: i64, note: &str) -> Fallible<i16> {
    let partitions = vec![CommitPartition {
        committed_offset: offset,
        committed_leader_epoch: 3,
        committed_metadata: Some(note),
        ..CommitPartition::default()
    }];
    let topics = vec![CommitTopic { name: TOPIC, partitions }];
    let request = OffsetCommitRequest { group_id: group, generation_id: -1, member_id: "", topics, ..OffsetCommitRequest::default() };
    let answer = client.ask(&request, 8)?;
    Ok(OffsetCommitResponse::decode(&mut Reader::new(&answer), 8)?.topics[0].partitions[0].error_code)
}

/// What a group has committed of a partition: code, offset, leader epoch and text.
pub type Committed = (i16, i64, i32, String);

/// What a group has committed of partition 0, also while a transaction has offsets of it, or only where none has.
pub fn committed(client: &mut Client, group: &str, require_stable: bool) -> Fallible<Committed> {
    let topics = Some(vec![OffsetsTopic { name: TOPIC, partition_indexes: vec![0] }]);
    let request = OffsetFetchRequest { group_id: group, topics, require_stable, ..OffsetFetchRequest::default() };
    let answer = client.ask(&request, 7)?;
    let response = OffsetFetchResponse::decode(&mut Reader::new(&answer), 7)?;
    if response.error_code != 0 {
        return Ok((response.error_code, -1, -1, String::new()));
    }
    let it = &response.topics[0].partitions[0];
    Ok((it.error_code, it.committed_offset, it.committed_leader_epoch, it.metadata.unwrap_or("").to_string()))
}
