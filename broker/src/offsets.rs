//! ListOffsets and OffsetForLeaderEpoch.

use crate::codes::code;
use crate::fetch::isolation;
use crate::partition::check_epoch;
use crate::reply::{Answered, Call, Close, Reply};
use kpart::{Isolation, Node, NodeState, Pass, Role, Status, TimeOffset};
use kwire::ErrorCode;
use kwire::offsets::list_offsets::{
    EARLIEST, LATEST, ListOffsetsPartition, ListOffsetsRequest, ListOffsetsResponse, ListedPartition, ListedTopic, MAX_TIMESTAMP,
};

/// No record has this time or a later one, in milliseconds since 1970.
const END_OF_TIMES: u64 = 1 << 62;
/// From this version on a client may ask for the record of the greatest timestamp (KIP-734).
const KNOWS_GREATEST: i16 = 7;
/// From this version on a client knows that a new leader doesn't know its high watermark yet (KIP-207).
const KNOWS_UNKNOWN: i16 = 5;
use kwire::offsets::offset_for_leader_epoch::{
    EpochEnd, EpochEndTopic, EpochPartition, OffsetForLeaderEpochRequest, OffsetForLeaderEpochResponse,
};

fn signed(number: u64) -> i64 {
    i64::try_from(number).unwrap_or(i64::MAX)
}

fn epoch_number(epoch: u32) -> i32 {
    i32::try_from(epoch).unwrap_or(-1)
}

/// Offsets by time, or the log's ends.
pub fn list_offsets(call: &mut Call<'_>, request: &ListOffsetsRequest<'_>, reply: Reply<'_>) -> Result<Answered, Close> {
    let isolation = isolation(request.isolation_level);
    let mut topics = Vec::with_capacity(request.topics.len());
    for topic in &request.topics {
        let mut partitions = Vec::with_capacity(topic.partitions.len());
        for asked in &topic.partitions {
            let found = call.check_failing().and_then(|()| listed(call, topic.name, asked, isolation).map_err(i16::from));
            let fault = |error_code| ListedPartition { error_code, ..ListedPartition::default() };
            let listed = found.unwrap_or_else(fault);
            partitions.push(ListedPartition { partition_index: asked.partition_index, ..listed });
        }
        topics.push(ListedTopic { name: topic.name, partitions });
    }
    reply.send(&ListOffsetsResponse { throttle_time_ms: 0, topics })
}

fn listed(call: &mut Call<'_>, topic: &str, asked: &ListOffsetsPartition, isolation: Isolation) -> Result<ListedPartition, ErrorCode> {
    let place = call.hub.find(topic, asked.partition_index)?;
    let partition = call.hub.partitions.get(place).ok_or(ErrorCode::UnknownTopicOrPartition)?;
    let pass = call.passes.of(call.hub, place)?;
    let mut node = partition.cluster.node(call.node).map_err(code)?;
    let state = node.show().map_err(code)?;
    let epoch = check_epoch(&state, asked.current_leader_epoch)?;
    let of = |offset| ListedPartition { offset, leader_epoch: epoch_number(epoch), ..ListedPartition::default() };
    let is_greatest = asked.timestamp == MAX_TIMESTAMP && call.version >= KNOWS_GREATEST;
    let found = match asked.timestamp {
        EARLIEST => return Ok(ListedPartition { offset: 0, ..ListedPartition::default() }),
        LATEST => None,
        _ if is_greatest => of_greatest_time(&mut node, pass, isolation).map_err(code)?,
        time => {
            let time = u64::try_from(time).map_err(|_| ErrorCode::UnsupportedVersion)?;
            node.offset_for_time(pass, time, isolation).map_err(code)?
        }
    };
    if lags(&state) && (found.is_none() || is_greatest) {
        return Err(if call.version >= KNOWS_UNKNOWN { ErrorCode::OffsetNotAvailable } else { ErrorCode::LeaderNotAvailable });
    }
    Ok(match asked.timestamp {
        LATEST if isolation == Isolation::ReadCommitted => of(signed(state.stable)),
        LATEST => of(signed(state.watermark)),
        _ => at_time(found),
    })
}

/// Whether the leader doesn't know yet all to be committed that was so when it began: an end that was told before may be above its own (KIP-207).
fn lags(state: &NodeState) -> bool {
    matches!(state.status, Status::Plays(Role::Leads { start, .. }) if state.watermark < start)
}

fn at_time(found: Option<TimeOffset>) -> ListedPartition {
    let one = |it: TimeOffset| ListedPartition { timestamp: signed(it.timestamp), offset: signed(it.offset), ..ListedPartition::default() };
    found.map(one).unwrap_or_default()
}

/// The first record of the greatest time, of those that a consumer is shown. The node finds the first one of a time or a later one: here the
/// last time is searched for which it finds any, by halving what is left. It is asked twice at least: for the time of the record that is
/// answered, and for the one behind it, of which there is none.
fn of_greatest_time(node: &mut Node<'_>, pass: &mut Pass, isolation: Isolation) -> Result<Option<TimeOffset>, kpart::Error> {
    let (mut found, mut end) = (node.offset_for_time(pass, 0, isolation)?, END_OF_TIMES);
    while let Some(next) = found.map(|it| it.timestamp + 1).filter(|it| *it < end) {
        let middle = next + (end - next) / 2;
        match node.offset_for_time(pass, middle, isolation)? {
            Some(later) => found = Some(later),
            None => end = middle,
        }
    }
    Ok(found)
}

/// Where an epoch ends in the leader's log.
pub fn offset_for_leader_epoch(
    call: &mut Call<'_>,
    request: &OffsetForLeaderEpochRequest<'_>,
    reply: Reply<'_>,
) -> Result<Answered, Close> {
    let mut topics = Vec::with_capacity(request.topics.len());
    for topic in &request.topics {
        let mut partitions = Vec::with_capacity(topic.partitions.len());
        for asked in &topic.partitions {
            let found = call.check_failing().and_then(|()| epoch_end(call, topic.topic, asked).map_err(i16::from));
            let fault = |error_code| EpochEnd { error_code, ..EpochEnd::default() };
            partitions.push(EpochEnd { partition: asked.partition, ..found.unwrap_or_else(fault) });
        }
        topics.push(EpochEndTopic { topic: topic.topic, partitions });
    }
    reply.send(&OffsetForLeaderEpochResponse { throttle_time_ms: 0, topics })
}

fn epoch_end(call: &Call<'_>, topic: &str, asked: &EpochPartition) -> Result<EpochEnd, ErrorCode> {
    let place = call.hub.find(topic, asked.partition)?;
    let partition = call.hub.partitions.get(place).ok_or(ErrorCode::UnknownTopicOrPartition)?;
    let mut node = partition.cluster.node(call.node).map_err(code)?;
    check_epoch(&node.show().map_err(code)?, asked.current_leader_epoch)?;
    let Ok(epoch) = u32::try_from(asked.leader_epoch) else { return Ok(EpochEnd::default()) };
    let found = node.end_for(epoch).map_err(code)?;
    let one = |it: kpart::EpochEnd| EpochEnd { leader_epoch: epoch_number(it.epoch), end_offset: signed(it.end), ..EpochEnd::default() };
    Ok(found.map(one).unwrap_or_default())
}
