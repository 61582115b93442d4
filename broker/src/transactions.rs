//! InitProducerId, AddPartitionsToTxn, AddOffsetsToTxn, EndTxn, TxnOffsetCommit.

use crate::coordinator::{self, PendingOffset, Producer};
use crate::members::{CommittedOffset, LONGEST_METADATA, Who};
use crate::reply::{Answered, Call, Close, Reply};
use kwire::ErrorCode;
use kwire::transactions::add_offsets_to_txn::{AddOffsetsToTxnRequest, AddOffsetsToTxnResponse};
use kwire::transactions::add_partitions_to_txn::{
    AddPartitionsToTxnRequest, AddPartitionsToTxnResponse, JoinedPartition, JoinedTopic, JoiningTopic,
};
use kwire::transactions::end_txn::{EndTxnRequest, EndTxnResponse};
use kwire::transactions::init_producer_id::{InitProducerIdRequest, InitProducerIdResponse};
use kwire::transactions::txn_offset_commit::{
    TxnCommitTopic, TxnCommittedPartition, TxnCommittedTopic, TxnOffsetCommitRequest, TxnOffsetCommitResponse,
};

fn number(result: Result<(), i16>) -> i16 {
    result.err().unwrap_or_default()
}

/// A producer's id and epoch. Without a transactional id any node gives them.
pub fn init_producer_id(call: &mut Call<'_>, request: &InitProducerIdRequest<'_>, reply: Reply<'_>) -> Result<Answered, Close> {
    let id = request.transactional_id;
    let checked = if id.is_some() { call.check_coordinator() } else { call.check_failing() };
    let own: Option<Producer> = (request.producer_id >= 0).then_some((request.producer_id, request.producer_epoch));
    let given = checked.and_then(|()| coordinator::init(call.hub, call.passes, id, request.transaction_timeout_ms, own).map_err(i16::from));
    reply.send(&match given {
        Ok((producer_id, producer_epoch)) => InitProducerIdResponse { producer_id, producer_epoch, ..InitProducerIdResponse::default() },
        Err(error_code) => InitProducerIdResponse { error_code, producer_epoch: -1, ..InitProducerIdResponse::default() },
    })
}

/// Partitions join a transaction, all or none.
pub fn add_partitions_to_txn(call: &mut Call<'_>, request: &AddPartitionsToTxnRequest<'_>, reply: Reply<'_>) -> Result<Answered, Close> {
    let producer = (request.producer_id, request.producer_epoch);
    let added = call.check_coordinator().and_then(|()| {
        let places = places(call, &request.topics)?;
        call.hub.transactions.add(request.transactional_id, producer, &places).map_err(i16::from)
    });
    let code = number(added);
    let unknown: i16 = ErrorCode::UnknownTopicOrPartition.into();
    let one = |topic: &str, index: i32| {
        // Kafka names those that are unknown, and doesn't attempt the others.
        let is_known = call.hub.find(topic, index).is_ok();
        let spared = code == unknown && is_known;
        let code = if spared { ErrorCode::OperationNotAttempted.into() } else { code };
        JoinedPartition { partition_index: index, partition_error_code: code }
    };
    let topic = |it: &JoiningTopic<'_>| it.partitions.iter().map(|index| one(it.name, *index)).collect();
    let results = request.topics.iter().map(|it| JoinedTopic { name: it.name, results_by_partition: topic(it) });
    reply.send(&AddPartitionsToTxnResponse { throttle_time_ms: 0, results_by_topic: results.collect() })
}

fn places(call: &Call<'_>, topics: &[JoiningTopic<'_>]) -> Result<Vec<usize>, i16> {
    let all = topics.iter().flat_map(|topic| topic.partitions.iter().map(|index| call.hub.find(topic.name, *index)));
    all.collect::<Result<_, _>>().map_err(i16::from)
}

/// A group's offsets join a transaction.
pub fn add_offsets_to_txn(call: &mut Call<'_>, request: &AddOffsetsToTxnRequest<'_>, reply: Reply<'_>) -> Result<Answered, Close> {
    let producer = (request.producer_id, request.producer_epoch);
    let added =
        call.check_coordinator().and_then(|()| call.hub.transactions.add(request.transactional_id, producer, &[]).map_err(i16::from));
    reply.send(&AddOffsetsToTxnResponse { throttle_time_ms: 0, error_code: number(added) })
}

/// Commits or aborts; answered once all markers are committed.
pub fn end_txn(call: &mut Call<'_>, request: &EndTxnRequest<'_>, reply: Reply<'_>) -> Result<Answered, Close> {
    let producer = (request.producer_id, request.producer_epoch);
    let ended = call
        .check_coordinator()
        .and_then(|()| coordinator::end(call.hub, call.passes, request.transactional_id, producer, request.committed).map_err(i16::from));
    if !call.hub.is_up(call.node) {
        return Err(Close::Quiet);
    }
    reply.send(&EndTxnResponse { throttle_time_ms: 0, error_code: number(ended) })
}

/// Keeps a group's offsets until the transaction commits.
pub fn txn_offset_commit(call: &mut Call<'_>, request: &TxnOffsetCommitRequest<'_>, reply: Reply<'_>) -> Result<Answered, Close> {
    let code = number(call.check_coordinator().and_then(|()| keep(call, request).map_err(i16::from)));
    let one = |index: i32| TxnCommittedPartition { partition_index: index, error_code: code };
    let topic = |it: &TxnCommitTopic<'_>| it.partitions.iter().map(|it| one(it.partition_index)).collect();
    let topics = request.topics.iter().map(|it| TxnCommittedTopic { name: it.name, partitions: topic(it) });
    reply.send(&TxnOffsetCommitResponse { throttle_time_ms: 0, topics: topics.collect() })
}

fn keep(call: &Call<'_>, request: &TxnOffsetCommitRequest<'_>) -> Result<(), ErrorCode> {
    let hub = call.hub;
    let who = Who { member: request.member_id, instance: request.group_instance_id };
    hub.groups.check_commit(request.group_id, request.generation_id, who)?;
    let mut offsets = Vec::new();
    for topic in &request.topics {
        for it in &topic.partitions {
            let metadata = it.committed_metadata.unwrap_or_default();
            if metadata.len() > LONGEST_METADATA {
                return Err(ErrorCode::OffsetMetadataTooLarge);
            }
            let place = hub.find(topic.name, it.partition_index)?;
            let offset = CommittedOffset { offset: it.committed_offset, epoch: it.committed_leader_epoch, metadata: metadata.to_string() };
            offsets.push(PendingOffset { group: request.group_id.to_string(), place, offset });
        }
    }
    hub.transactions.keep_offsets(request.transactional_id, (request.producer_id, request.producer_epoch), offsets)
}
