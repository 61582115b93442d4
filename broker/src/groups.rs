//! JoinGroup, SyncGroup, Heartbeat, LeaveGroup, OffsetCommit, OffsetFetch, DescribeGroups, ListGroups.

use crate::members::{CommittedOffset, Described, Join, LONGEST_METADATA, Peer, Who};
use crate::reply::{Answered, Call, Close, Reply};
use kwire::ErrorCode;
use kwire::groups::describe_groups::{DescribeGroupsRequest, DescribeGroupsResponse, DescribedGroup, DescribedMember};
use kwire::groups::heartbeat::{HeartbeatRequest, HeartbeatResponse};
use kwire::groups::join_group::{JoinGroupRequest, JoinGroupResponse, JoinedMember};
use kwire::groups::leave_group::{LeaveGroupRequest, LeaveGroupResponse, LeavingMember, LeftMember};
use kwire::groups::list_groups::{ListGroupsRequest, ListGroupsResponse, ListedGroup};
use kwire::groups::sync_group::{SyncGroupRequest, SyncGroupResponse};
use kwire::offsets::offset_commit::{
    CommitPartition, CommitTopic, CommittedPartition, CommittedTopic, OffsetCommitRequest, OffsetCommitResponse,
};
use kwire::offsets::offset_fetch::{
    FetchedOffset, FetchedOffsetsGroup, FetchedOffsetsTopic, OffsetFetchRequest, OffsetFetchResponse, OffsetsTopic,
};
use std::collections::BTreeMap;

/// From this version on a member joins by an id that it was given (KIP-394).
const BY_ID: i16 = 4;

/// Waits for the group's next generation.
pub fn join_group(call: &mut Call<'_>, request: &JoinGroupRequest<'_>, reply: Reply<'_>) -> Result<Answered, Close> {
    let version = call.version;
    let mut given = None;
    let joined = match call.check_coordinator() {
        Ok(()) if version >= BY_ID && request.member_id.is_empty() && request.group_instance_id.is_none() => {
            let id = call.hub.groups.give_id(&joining(call, request));
            Err(id.map_or_else(i16::from, |id| {
                given = Some(id);
                ErrorCode::MemberIdRequired.into()
            }))
        }
        Ok(()) => call.hub.groups.join(joining(call, request), || call.is_off()).ok_or(Close::Quiet)?.map_err(i16::from),
        Err(code) => Err(code),
    };
    match &joined {
        Ok(joined) => reply.send(&JoinGroupResponse {
            generation_id: joined.generation,
            protocol_type: Some(&joined.kind),
            protocol_name: Some(&joined.protocol),
            leader: &joined.leader,
            member_id: &joined.member,
            members: joined.members.iter().map(peer).collect(),
            ..JoinGroupResponse::default()
        }),
        Err(code) => reply.send(&JoinGroupResponse {
            error_code: *code,
            protocol_name: if version >= 7 { None } else { Some("") },
            member_id: given.as_deref().unwrap_or(request.member_id),
            ..JoinGroupResponse::default()
        }),
    }
}

fn peer(it: &Peer) -> JoinedMember<'_> {
    JoinedMember { member_id: &it.member, group_instance_id: it.instance.as_deref(), metadata: &it.metadata }
}

fn joining<'a>(call: &'a Call<'_>, request: &'a JoinGroupRequest<'a>) -> Join<'a> {
    Join {
        group: request.group_id,
        who: Who { member: request.member_id, instance: request.group_instance_id },
        client: (call.client, call.peer),
        kind: request.protocol_type,
        session: request.session_timeout_ms,
        rebalance: if call.version >= 1 { request.rebalance_timeout_ms } else { request.session_timeout_ms },
        protocols: request.protocols.iter().map(|it| (it.name.to_string(), it.metadata.to_vec())).collect(),
    }
}

/// Waits for the assignment, which the leader hands in.
pub fn sync_group(call: &mut Call<'_>, request: &SyncGroupRequest<'_>, reply: Reply<'_>) -> Result<Answered, Close> {
    let given: Vec<_> = request.assignments.iter().map(|it| (it.member_id.to_string(), it.assignment.to_vec())).collect();
    let hub = call.hub;
    let synced = match call.check_coordinator() {
        Ok(()) => {
            let who = Who { member: request.member_id, instance: request.group_instance_id };
            let synced = hub.groups.sync(request.group_id, request.generation_id, who, &given, || call.is_off());
            synced.ok_or(Close::Quiet)?.map_err(i16::from)
        }
        Err(code) => Err(code),
    };
    match &synced {
        Ok((assignment, kind, protocol)) => reply.send(&SyncGroupResponse {
            protocol_type: Some(kind),
            protocol_name: Some(protocol),
            assignment,
            ..SyncGroupResponse::default()
        }),
        Err(error_code) => reply.send(&SyncGroupResponse { error_code: *error_code, ..SyncGroupResponse::default() }),
    }
}

fn number(result: Result<(), i16>) -> i16 {
    result.err().unwrap_or_default()
}

/// A member is alive.
pub fn heartbeat(call: &mut Call<'_>, request: &HeartbeatRequest<'_>, reply: Reply<'_>) -> Result<Answered, Close> {
    let who = Who { member: request.member_id, instance: request.group_instance_id };
    let heard =
        call.check_coordinator().and_then(|()| call.hub.groups.heartbeat(request.group_id, request.generation_id, who).map_err(i16::from));
    reply.send(&HeartbeatResponse { throttle_time_ms: 0, error_code: number(heard) })
}

/// Members leave.
pub fn leave_group(call: &mut Call<'_>, request: &LeaveGroupRequest<'_>, reply: Reply<'_>) -> Result<Answered, Close> {
    let checked = call.check_coordinator();
    let leave = |who: Who<'_>| number(call.hub.groups.leave(request.group_id, who).map_err(i16::from));
    if let Err(error_code) = checked {
        return reply.send(&LeaveGroupResponse { error_code, ..LeaveGroupResponse::default() });
    }
    if call.version < 3 {
        let error_code = leave(Who { member: request.member_id, instance: None });
        return reply.send(&LeaveGroupResponse { error_code, ..LeaveGroupResponse::default() });
    }
    let left = |it: &LeavingMember<'_>| leave(Who { member: it.member_id, instance: it.group_instance_id });
    let members = request.members.iter().map(|it| LeftMember {
        member_id: it.member_id,
        group_instance_id: it.group_instance_id,
        error_code: left(it),
    });
    let members = members.collect();
    reply.send(&LeaveGroupResponse { throttle_time_ms: 0, error_code: 0, members })
}

/// Keeps a group's offsets.
pub fn offset_commit(call: &mut Call<'_>, request: &OffsetCommitRequest<'_>, reply: Reply<'_>) -> Result<Answered, Close> {
    let who = Who { member: request.member_id, instance: request.group_instance_id };
    let checked = call
        .check_coordinator()
        .and_then(|()| call.hub.groups.check_commit(request.group_id, request.generation_id, who).map_err(i16::from));
    let mut offsets = Vec::new();
    let mut topics = Vec::with_capacity(request.topics.len());
    for topic in &request.topics {
        topics.push(CommittedTopic { name: topic.name, partitions: kept(call, topic, checked, &mut offsets) });
    }
    if checked.is_ok() && !offsets.is_empty() {
        if let Err(code) = call.hub.groups.commit(request.group_id, offsets) {
            let all = topics.iter_mut().flat_map(|it| &mut it.partitions);
            all.for_each(|it| it.error_code = code.into());
        }
    }
    reply.send(&OffsetCommitResponse { throttle_time_ms: 0, topics })
}

fn kept(
    call: &Call<'_>,
    topic: &CommitTopic<'_>,
    checked: Result<(), i16>,
    offsets: &mut Vec<(usize, CommittedOffset)>,
) -> Vec<CommittedPartition> {
    let mut one = |it: &CommitPartition<'_>| -> Result<(), i16> {
        checked?;
        let place = call.hub.find(topic.name, it.partition_index).map_err(i16::from)?;
        let metadata = it.committed_metadata.unwrap_or_default();
        if metadata.len() > LONGEST_METADATA {
            return Err(ErrorCode::OffsetMetadataTooLarge.into());
        }
        let metadata = metadata.to_string();
        offsets.push((place, CommittedOffset { offset: it.committed_offset, epoch: it.committed_leader_epoch, metadata }));
        Ok(())
    };
    let all = topic.partitions.iter();
    all.map(|it| CommittedPartition { partition_index: it.partition_index, error_code: number(one(it)) }).collect()
}

/// A group's offsets, as the answer's items borrow them.
type Committed = BTreeMap<usize, CommittedOffset>;

/// What groups have committed.
pub fn offset_fetch(call: &mut Call<'_>, request: &OffsetFetchRequest<'_>, reply: Reply<'_>) -> Result<Answered, Close> {
    let error_code = number(call.check_coordinator());
    let groups = &call.hub.groups;
    if call.version < 8 {
        let committed = if error_code == 0 { groups.committed(request.group_id) } else { Committed::new() };
        let topics = fetched_topics(call, request.group_id, request.topics.as_deref(), &committed, request.require_stable);
        return reply.send(&OffsetFetchResponse { topics, error_code, ..OffsetFetchResponse::default() });
    }
    let all: Vec<Committed> = request.groups.iter().map(|it| groups.committed(it.group_id)).collect();
    let groups = request.groups.iter().zip(&all).map(|(it, committed)| FetchedOffsetsGroup {
        group_id: it.group_id,
        topics: if error_code == 0 {
            fetched_topics(call, it.group_id, it.topics.as_deref(), committed, request.require_stable)
        } else {
            Vec::new()
        },
        error_code,
    });
    reply.send(&OffsetFetchResponse { groups: groups.collect(), ..OffsetFetchResponse::default() })
}

/// The offsets of the topics that are asked for, or of all where none are named.
fn fetched_topics<'a>(
    call: &'a Call<'_>,
    group: &str,
    asked: Option<&[OffsetsTopic<'a>]>,
    committed: &'a Committed,
    stable: bool,
) -> Vec<FetchedOffsetsTopic<'a>> {
    let hub = call.hub;
    let one = |index: i32, place: Option<usize>| fetched(call, group, index, place, committed, stable);
    if let Some(asked) = asked {
        let topic = |it: &OffsetsTopic<'a>| {
            let partitions = it.partition_indexes.iter().map(|index| one(*index, hub.find(it.name, *index).ok()));
            FetchedOffsetsTopic { name: it.name, partitions: partitions.collect() }
        };
        return asked.iter().map(topic).collect();
    }
    let mut topics: Vec<FetchedOffsetsTopic<'a>> = Vec::new();
    for place in committed.keys() {
        let Some(partition) = hub.partitions.get(*place) else { continue };
        let found = one(partition.index, Some(*place));
        match topics.iter_mut().find(|it| it.name == partition.topic) {
            Some(topic) => topic.partitions.push(found),
            None => topics.push(FetchedOffsetsTopic { name: &partition.topic, partitions: vec![found] }),
        }
    }
    topics
}

fn fetched<'a>(
    call: &Call<'_>,
    group: &str,
    index: i32,
    place: Option<usize>,
    committed: &'a Committed,
    stable: bool,
) -> FetchedOffset<'a> {
    let none = FetchedOffset { partition_index: index, committed_offset: -1, metadata: Some(""), ..FetchedOffset::default() };
    let Some(place) = place else { return none };
    if stable && call.hub.transactions.has_pending(group, place) {
        return FetchedOffset { error_code: ErrorCode::UnstableOffsetCommit.into(), ..none };
    }
    match committed.get(&place) {
        Some(it) => FetchedOffset { committed_offset: it.offset, committed_leader_epoch: it.epoch, metadata: Some(&it.metadata), ..none },
        None => none,
    }
}

/// Groups with their members.
pub fn describe_groups(call: &mut Call<'_>, request: &DescribeGroupsRequest<'_>, reply: Reply<'_>) -> Result<Answered, Close> {
    let checked = call.check_coordinator();
    let found: Vec<_> = request.groups.iter().map(|it| (*it, call.hub.groups.describe(it))).collect();
    let groups = found.iter().map(|(name, it)| match (checked, it) {
        (Err(error_code), _) => DescribedGroup { error_code, group_id: name, ..DescribedGroup::default() },
        (Ok(()), None) => DescribedGroup { group_id: name, group_state: "Dead", ..DescribedGroup::default() },
        (Ok(()), Some(it)) => described(name, it),
    });
    reply.send(&DescribeGroupsResponse { throttle_time_ms: 0, groups: groups.collect() })
}

fn described<'a>(name: &'a str, it: &'a Described) -> DescribedGroup<'a> {
    let members = it.members.iter().map(|it| DescribedMember {
        member_id: &it.member,
        group_instance_id: it.instance.as_deref(),
        client_id: &it.client,
        client_host: &it.host,
        member_metadata: &it.metadata,
        member_assignment: &it.assignment,
    });
    DescribedGroup {
        group_id: name,
        group_state: it.state.name(),
        protocol_type: &it.kind,
        protocol_data: &it.protocol,
        members: members.collect(),
        ..DescribedGroup::default()
    }
}

/// All groups.
pub fn list_groups(call: &mut Call<'_>, request: &ListGroupsRequest<'_>, reply: Reply<'_>) -> Result<Answered, Close> {
    let error_code = number(call.check_coordinator());
    let list = if error_code == 0 { call.hub.groups.list() } else { Vec::new() };
    let is_asked = |state: &str| request.states_filter.is_empty() || request.states_filter.contains(&state);
    let groups = list.iter().filter(|it| is_asked(it.2.name())).map(|(name, kind, state, _, _)| ListedGroup {
        group_id: name,
        protocol_type: kind,
        group_state: state.name(),
    });
    reply.send(&ListGroupsResponse { throttle_time_ms: 0, error_code, groups: groups.collect() })
}
