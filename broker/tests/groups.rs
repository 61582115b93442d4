//! Groups over loopback: two members, offsets, and what an admin's client asks.

mod common;

use common::{Client, Fallible, Outcome, TOPIC, broker, until};
use kpart_broker::{Broker, Options};
use kwire::groups::describe_groups::{DescribeGroupsRequest, DescribeGroupsResponse};
use kwire::groups::find_coordinator::{FindCoordinatorRequest, FindCoordinatorResponse, GROUP};
use kwire::groups::heartbeat::{HeartbeatRequest, HeartbeatResponse};
use kwire::groups::join_group::{JoinGroupRequest, JoinGroupResponse, JoinProtocol};
use kwire::groups::leave_group::{LeaveGroupRequest, LeaveGroupResponse, LeavingMember};
use kwire::groups::list_groups::{ListGroupsRequest, ListGroupsResponse};
use kwire::groups::sync_group::{MemberAssignment, SyncGroupRequest, SyncGroupResponse};
use kwire::offsets::offset_commit::{CommitPartition, CommitTopic, OffsetCommitRequest, OffsetCommitResponse};
use kwire::offsets::offset_fetch::{OffsetFetchRequest, OffsetFetchResponse, OffsetsTopic};
use kwire::{ErrorCode, Message, Reader};
use std::time::{Duration, Instant};

#[derive(Debug)]
struct Joined {
    code: i16,
    generation: i32,
    member: String,
    leader: String,
    members: Vec<String>,
}

fn joining<'a>(group: &'a str, member: &'a str) -> JoinGroupRequest<'a> {
    JoinGroupRequest {
        group_id: group,
        session_timeout_ms: 10_000,
        rebalance_timeout_ms: 10_000,
        member_id: member,
        protocol_type: "consumer",
        protocols: vec![JoinProtocol { name: "range", metadata: b"events" }],
        ..JoinGroupRequest::default()
    }
}

/// One answer, which may give an id by which to join.
fn join_once(client: &mut Client, group: &str, member: &str, version: i16) -> Fallible<Joined> {
    let answer = client.ask(&joining(group, member), version)?;
    let it = JoinGroupResponse::decode(&mut Reader::new(&answer), version)?;
    Ok(Joined {
        code: it.error_code,
        generation: it.generation_id,
        member: it.member_id.to_string(),
        leader: it.leader.to_string(),
        members: it.members.iter().map(|it| it.member_id.to_string()).collect(),
    })
}

/// Joins, by the id that it is given where it has none.
fn join(client: &mut Client, group: &str, member: &str) -> Fallible<Joined> {
    let joined = join_once(client, group, member, 9)?;
    if joined.code == i16::from(ErrorCode::MemberIdRequired) {
        assert!(member.is_empty() && !joined.member.is_empty());
        return join_once(client, group, &joined.member, 9);
    }
    Ok(joined)
}

fn sync(client: &mut Client, joined: &Joined) -> Fallible<Vec<u8>> {
    let assignments = joined.members.iter().map(|it| MemberAssignment { member_id: it, assignment: it.as_bytes() }).collect();
    let request = SyncGroupRequest {
        group_id: "g",
        generation_id: joined.generation,
        member_id: &joined.member,
        assignments,
        ..SyncGroupRequest::default()
    };
    let answer = client.ask(&request, 5)?;
    let it = SyncGroupResponse::decode(&mut Reader::new(&answer), 5)?;
    assert_eq!((it.error_code, it.protocol_name), (0, Some("range")));
    Ok(it.assignment.to_vec())
}

fn heartbeat(client: &mut Client, joined: &Joined) -> Fallible<i16> {
    let request =
        HeartbeatRequest { group_id: "g", generation_id: joined.generation, member_id: &joined.member, ..HeartbeatRequest::default() };
    let answer = client.ask(&request, 4)?;
    Ok(HeartbeatResponse::decode(&mut Reader::new(&answer), 4)?.error_code)
}

fn commit(client: &mut Client, generation: i32, member: &str, offset: i64) -> Fallible<i16> {
    let partitions = vec![CommitPartition { committed_offset: offset, committed_metadata: Some("note"), ..CommitPartition::default() }];
    let topics = vec![CommitTopic { name: TOPIC, partitions }];
    let request =
        OffsetCommitRequest { group_id: "g", generation_id: generation, member_id: member, topics, ..OffsetCommitRequest::default() };
    let answer = client.ask(&request, 8)?;
    Ok(OffsetCommitResponse::decode(&mut Reader::new(&answer), 8)?.topics[0].partitions[0].error_code)
}

fn committed(client: &mut Client) -> Fallible<(i64, String)> {
    let topics = Some(vec![OffsetsTopic { name: TOPIC, partition_indexes: vec![0] }]);
    let answer = client.ask(&OffsetFetchRequest { group_id: "g", topics, ..OffsetFetchRequest::default() }, 7)?;
    let response = OffsetFetchResponse::decode(&mut Reader::new(&answer), 7)?;
    let it = &response.topics[0].partitions[0];
    Ok((it.committed_offset, it.metadata.unwrap_or("").to_string()))
}

fn leave(client: &mut Client, member: &str) -> Fallible<i16> {
    let members = vec![LeavingMember { member_id: member, ..LeavingMember::default() }];
    let answer = client.ask(&LeaveGroupRequest { group_id: "g", members, ..LeaveGroupRequest::default() }, 5)?;
    Ok(LeaveGroupResponse::decode(&mut Reader::new(&answer), 5)?.members[0].error_code)
}

#[test]
fn two_members_come_and_go() -> Outcome {
    let broker = broker()?;
    let mut client = Client::of_node(&broker, 0)?;
    let alone = join(&mut client, "g", "")?;
    assert_eq!((alone.code, alone.members.len()), (0, 1));
    assert_eq!(sync(&mut client, &alone)?, alone.member.as_bytes());
    assert_eq!(heartbeat(&mut client, &alone)?, 0);

    let port = broker.ports()[0];
    let second = std::thread::spawn(move || {
        let mut client = Client::of_port(port).map_err(|it| it.to_string())?;
        let joined = join(&mut client, "g", "").map_err(|it| it.to_string())?;
        let part = sync(&mut client, &joined).map_err(|it| it.to_string())?;
        Ok::<_, String>((client, joined, part))
    });
    let rebalance = i16::from(ErrorCode::RebalanceInProgress);
    until("the first one is told", || heartbeat(&mut client, &alone).is_ok_and(|it| it == rebalance))?;
    let first = join(&mut client, "g", &alone.member)?;
    assert_eq!((first.code, first.members.len(), &first.leader), (0, 2, &first.member));
    assert_eq!(sync(&mut client, &first)?, first.member.as_bytes());
    let (mut other, second, part) = second.join().map_err(|_| "it panicked")??;
    assert_eq!((second.generation, &second.leader, part.as_slice()), (first.generation, &first.member, second.member.as_bytes()));

    assert_eq!(commit(&mut client, first.generation, &first.member, 5)?, 0);
    assert_eq!(committed(&mut other)?, (5, "note".to_string()));
    assert_eq!(commit(&mut client, alone.generation, &first.member, 6)?, i16::from(ErrorCode::IllegalGeneration));
    assert_eq!(commit(&mut client, -1, "", 6)?, i16::from(ErrorCode::UnknownMemberId));
    assert_eq!(leave(&mut client, &first.member)?, 0);
    assert_eq!(leave(&mut client, &first.member)?, i16::from(ErrorCode::UnknownMemberId));
    until("the other one is told", || heartbeat(&mut other, &second).is_ok_and(|it| it == rebalance))?;
    let last = join(&mut other, "g", &second.member)?;
    assert_eq!((last.members.len(), last.generation), (1, second.generation + 1));
    Ok(())
}

/// Who loses its connection as it joins leaves nobody behind for whom others would wait: by the id that it was given it comes back as the same
/// member (KIP-394), and of an older client, which was told none, nothing stays.
#[test]
fn a_join_whose_answer_is_lost_holds_nobody_up() -> Outcome {
    let broker = broker()?;
    for version in [3, 4, 9] {
        let (start, group) = (Instant::now(), format!("g{version}"));
        let mut lost = Client::of_node(&broker, 0)?;
        let given = if version < 4 { String::new() } else { join_once(&mut lost, &group, "", version)?.member };
        assert_eq!(given.is_empty(), version < 4);
        lost.send(&joining(&group, &given), version)?;
        drop(lost);
        let joined = join_once(&mut Client::of_node(&broker, 0)?, &group, &given, version)?;
        assert_eq!((joined.code, &joined.members), (0, &vec![joined.member.clone()]), "version {version}");
        assert!(given.is_empty() || joined.member == given);
        assert!(start.elapsed() < Duration::from_secs(5), "version {version}: {:?}", start.elapsed());
    }
    Ok(())
}

/// An id that was given counts as a member, until its time is up; one that wasn't is nobody's.
#[test]
fn ids_that_were_given_are_bounded() -> Outcome {
    let broker = Broker::start(Options { most_members: 1, ..Options::default() })?;
    let mut client = Client::of_node(&broker, 0)?;
    let required = i16::from(ErrorCode::MemberIdRequired);
    let brief = JoinGroupRequest { session_timeout_ms: 50, ..joining("g", "") };
    let ask = |client: &mut Client| -> Fallible<i16> {
        let answer = client.ask(&brief, 9)?;
        Ok(JoinGroupResponse::decode(&mut Reader::new(&answer), 9)?.error_code)
    };
    assert_eq!((ask(&mut client)?, ask(&mut client)?), (required, i16::from(ErrorCode::GroupMaxSizeReached)));
    until("its time is up", || ask(&mut client).is_ok_and(|it| it == required))?;
    assert_eq!(join_once(&mut client, "g", "test-99", 9)?.code, i16::from(ErrorCode::UnknownMemberId));
    Ok(())
}

#[test]
fn offsets_of_a_client_without_a_group() -> Outcome {
    let broker = broker()?;
    let mut client = Client::of_node(&broker, 0)?;
    assert_eq!(committed(&mut client)?, (-1, String::new()));
    assert_eq!(commit(&mut client, -1, "", 3)?, 0);
    assert_eq!(committed(&mut client)?, (3, "note".to_string()));
    Ok(())
}

#[test]
fn the_coordinator_moves_with_its_node() -> Outcome {
    let broker = broker()?;
    let mut client = Client::of_node(&broker, 1)?;
    let find = |client: &mut Client| -> Fallible<i32> {
        let request = FindCoordinatorRequest { key_type: GROUP, coordinator_keys: vec!["g", "h"], ..FindCoordinatorRequest::default() };
        let answer = client.ask(&request, 4)?;
        let response = FindCoordinatorResponse::decode(&mut Reader::new(&answer), 4)?;
        assert_eq!(response.coordinators.len(), 2);
        Ok(response.coordinators[1].node_id)
    };
    assert_eq!(find(&mut client)?, 0);
    assert_eq!(commit(&mut client, -1, "", 3)?, i16::from(ErrorCode::NotCoordinator));
    broker.stop(0)?;
    assert_eq!(find(&mut client)?, 1);
    assert_eq!(commit(&mut client, -1, "", 3)?, 0);
    broker.restart(0)?;
    assert_eq!(find(&mut client)?, 1); // it stays
    assert_eq!(committed(&mut client)?.0, 3);
    Ok(())
}

#[test]
fn an_admin_sees_groups() -> Outcome {
    let broker = broker()?;
    let mut client = Client::of_node(&broker, 0)?;
    let joined = join(&mut client, "g", "")?;
    sync(&mut client, &joined)?;
    let answer = client.ask(&ListGroupsRequest::default(), 4)?;
    let list = ListGroupsResponse::decode(&mut Reader::new(&answer), 4)?;
    assert_eq!((list.groups.len(), list.groups[0].group_id, list.groups[0].group_state), (1, "g", "Stable"));
    let answer = client.ask(&DescribeGroupsRequest { groups: vec!["g", "h"], ..DescribeGroupsRequest::default() }, 5)?;
    let described = DescribeGroupsResponse::decode(&mut Reader::new(&answer), 5)?;
    let it = &described.groups[0];
    assert_eq!((it.group_state, it.protocol_data, it.members.len()), ("Stable", "range", 1));
    assert_eq!((it.members[0].member_metadata, it.members[0].client_id), (b"events".as_slice(), "test"));
    assert_eq!(described.groups[1].group_state, "Dead");
    Ok(())
}

#[test]
fn groups_are_bounded() -> Outcome {
    let broker = Broker::start(Options { most_groups: 2, most_members: 1, ..Options::default() })?;
    let mut client = Client::of_node(&broker, 0)?;
    assert_eq!((join(&mut client, "g", "")?.code, join(&mut client, "h", "")?.code), (0, 0));
    assert_eq!(join(&mut client, "i", "")?.code, i16::from(ErrorCode::InvalidGroupId));
    assert_eq!(join(&mut client, "g", "")?.code, i16::from(ErrorCode::GroupMaxSizeReached));
    assert_eq!(join(&mut client, "", "")?.code, i16::from(ErrorCode::InvalidGroupId));
    Ok(())
}
