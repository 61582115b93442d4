//! Static members (KIP-345): who comes back with its name has its old part, and nobody has to join anew.

mod common;

use common::{Client, Fallible, Outcome, TOPIC, broker, until};
use kwire::ErrorCode::{self, FencedInstanceId, IllegalGeneration, RebalanceInProgress, UnknownMemberId};
use kwire::groups::describe_groups::{DescribeGroupsRequest, DescribeGroupsResponse};
use kwire::groups::heartbeat::{HeartbeatRequest, HeartbeatResponse};
use kwire::groups::join_group::{JoinGroupRequest, JoinGroupResponse, JoinProtocol};
use kwire::groups::leave_group::{LeaveGroupRequest, LeaveGroupResponse, LeavingMember};
use kwire::groups::sync_group::{MemberAssignment, SyncGroupRequest, SyncGroupResponse};
use kwire::offsets::offset_commit::{CommitPartition, CommitTopic, OffsetCommitRequest, OffsetCommitResponse};
use kwire::{Message, Reader};

/// A member, as it knows itself.
#[derive(Clone, Debug, Default)]
struct Own {
    id: String,
    name: Option<&'static str>,
    generation: i32,
    leader: String,
    /// The ids and names of all, where it leads.
    members: Vec<(String, Option<String>)>,
}

/// Joins as the member, at a version, with what it says in the protocol: the code, or the member as it is then.
fn join(client: &mut Client, own: &Own, version: i16, says: &[u8]) -> Fallible<Result<Own, i16>> {
    let request = JoinGroupRequest {
        group_id: "g",
        session_timeout_ms: 10_000,
        rebalance_timeout_ms: 10_000,
        member_id: &own.id,
        group_instance_id: own.name,
        protocol_type: "consumer",
        protocols: vec![JoinProtocol { name: "range", metadata: says }],
        ..JoinGroupRequest::default()
    };
    let answer = client.ask(&request, version)?;
    let it = JoinGroupResponse::decode(&mut Reader::new(&answer), version)?;
    if it.error_code == i16::from(ErrorCode::MemberIdRequired) {
        return join(client, &Own { id: it.member_id.to_string(), ..own.clone() }, version, says);
    }
    if it.error_code != 0 {
        return Ok(Err(it.error_code));
    }
    let members = it.members.iter().map(|it| (it.member_id.to_string(), it.group_instance_id.map(str::to_string)));
    Ok(Ok(Own {
        id: it.member_id.to_string(),
        name: own.name,
        generation: it.generation_id,
        leader: it.leader.to_string(),
        members: members.collect(),
    }))
}

fn named(name: &'static str) -> Own {
    Own { name: Some(name), ..Own::default() }
}

fn joined(client: &mut Client, own: &Own) -> Fallible<Own> {
    Ok(join(client, own, 9, b"events")?.map_err(|it| format!("code {it}"))?)
}

/// The code, or the part, which for each member is its name.
fn sync(client: &mut Client, own: &Own) -> Fallible<Result<String, i16>> {
    let part = |it: &'_ (String, Option<String>)| it.1.clone().unwrap_or_default().into_bytes();
    let parts: Vec<_> = own.members.iter().map(|it| (&it.0, part(it))).collect();
    let request = SyncGroupRequest {
        group_id: "g",
        generation_id: own.generation,
        member_id: &own.id,
        group_instance_id: own.name,
        assignments: parts.iter().map(|it| MemberAssignment { member_id: it.0, assignment: &it.1 }).collect(),
        ..SyncGroupRequest::default()
    };
    let answer = client.ask(&request, 3)?;
    let it = SyncGroupResponse::decode(&mut Reader::new(&answer), 3)?;
    Ok(if it.error_code == 0 { Ok(String::from_utf8(it.assignment.to_vec())?) } else { Err(it.error_code) })
}

fn heartbeat(client: &mut Client, own: &Own) -> Fallible<i16> {
    let request = HeartbeatRequest { group_id: "g", generation_id: own.generation, member_id: &own.id, group_instance_id: own.name };
    let answer = client.ask(&request, 3)?;
    Ok(HeartbeatResponse::decode(&mut Reader::new(&answer), 3)?.error_code)
}

fn commit(client: &mut Client, own: &Own) -> Fallible<i16> {
    let topics = vec![CommitTopic { name: TOPIC, partitions: vec![CommitPartition { committed_offset: 5, ..CommitPartition::default() }] }];
    let request = OffsetCommitRequest {
        group_id: "g",
        generation_id: own.generation,
        member_id: &own.id,
        group_instance_id: own.name,
        topics,
        ..OffsetCommitRequest::default()
    };
    let answer = client.ask(&request, 7)?;
    Ok(OffsetCommitResponse::decode(&mut Reader::new(&answer), 7)?.topics[0].partitions[0].error_code)
}

fn leave(client: &mut Client, own: &Own) -> Fallible<i16> {
    let members = vec![LeavingMember { member_id: &own.id, group_instance_id: own.name, ..LeavingMember::default() }];
    let answer = client.ask(&LeaveGroupRequest { group_id: "g", members, ..LeaveGroupRequest::default() }, 3)?;
    Ok(LeaveGroupResponse::decode(&mut Reader::new(&answer), 3)?.members[0].error_code)
}

/// Two members that have their parts; the first one leads.
fn pair(one: &mut Client, other: &mut Client) -> Fallible<(Own, Own)> {
    let (first, second) = std::thread::scope(|scope| -> Fallible<(Own, Own)> {
        let second = scope.spawn(|| joined(other, &named("b")).map_err(|it| it.to_string()));
        let first = joined(one, &named("a"))?;
        Ok((first, second.join().map_err(|_| "it panicked")??))
    })?;
    let (leads, follows) = if first.members.is_empty() { (&second, &first) } else { (&first, &second) };
    let mut names: Vec<_> = leads.members.iter().map(|it| it.1.as_deref()).collect();
    names.sort_unstable();
    assert_eq!((names, leads.generation), (vec![Some("a"), Some("b")], follows.generation));
    let clients = if first.members.is_empty() { [other, one] } else { [one, other] };
    assert_eq!(sync(clients[0], leads)?, Ok(leads.name.unwrap_or_default().to_string()));
    assert_eq!(sync(clients[1], follows)?, Ok(follows.name.unwrap_or_default().to_string()));
    Ok((first, second))
}

fn code<T>(code: ErrorCode) -> Result<T, i16> {
    Err(code.into())
}

#[test]
fn who_comes_back_has_its_old_part() -> Outcome {
    let broker = broker()?;
    let (mut one, mut other) = (Client::of_node(&broker, 0)?, Client::of_node(&broker, 0)?);
    let (first, second) = pair(&mut one, &mut other)?;
    for (old, stays, says) in [(&first, &second, "a"), (&second, &first, "b")] {
        let mut restarted = Client::of_node(&broker, 0)?;
        let again = joined(&mut restarted, &Own { id: String::new(), ..old.clone() })?;
        assert_ne!(again.id, old.id);
        // Also one that led is told the old leader's id, so it makes no assignment.
        assert_eq!((again.generation, again.members.len()), (first.generation, 0));
        assert_ne!(again.leader, again.id);
        assert_eq!(sync(&mut restarted, &again)?, Ok(says.to_string()));
        assert_eq!((heartbeat(&mut restarted, &again)?, commit(&mut restarted, &again)?), (0, 0));
        // The old client is fenced in all that it asks, and does no harm.
        let fenced = i16::from(FencedInstanceId);
        assert_eq!((heartbeat(&mut one, old)?, commit(&mut one, old)?, leave(&mut one, old)?), (fenced, fenced, fenced));
        assert_eq!(sync(&mut one, old)?, code(FencedInstanceId));
        assert_eq!(join(&mut one, old, 5, b"events")?.err(), Some(fenced));
        let nameless = Own { name: None, ..old.clone() };
        assert_eq!(heartbeat(&mut one, &nameless)?, i16::from(UnknownMemberId));
        assert_eq!(heartbeat(&mut restarted, &again)?, 0);
        if stays.name == Some("b") {
            assert_eq!(heartbeat(&mut other, stays)?, 0); // it never had to join anew
        }
    }
    Ok(())
}

#[test]
fn another_protocol_has_all_join_anew() -> Outcome {
    let broker = broker()?;
    let (mut one, mut other) = (Client::of_node(&broker, 0)?, Client::of_node(&broker, 0)?);
    let (first, second) = pair(&mut one, &mut other)?;
    // It says something else in the protocol, which is still the one that all know: nobody has to.
    let again = join(&mut one, &named("a"), 9, b"others")?.map_err(|it| format!("code {it}"))?;
    assert_eq!((again.generation, heartbeat(&mut other, &second)?), (first.generation, 0));
    assert_eq!(heartbeat(&mut one, &Own { generation: 7, ..again.clone() })?, i16::from(IllegalGeneration));
    // By its id it asks for a new generation, as it says something else than before.
    std::thread::scope(|scope| -> Outcome {
        let joins = scope.spawn(|| join(&mut one, &again, 9, b"third").map_err(|it| it.to_string()));
        until("the other one is told", || heartbeat(&mut other, &second).is_ok_and(|it| it == i16::from(RebalanceInProgress)))?;
        let last = joined(&mut other, &second)?;
        let first = joins.join().map_err(|_| "it panicked")??.map_err(|it| format!("code {it}"))?;
        assert_eq!((first.generation, &first.id), (last.generation, &again.id));
        assert!(last.generation > second.generation);
        Ok(())
    })
}

#[test]
fn one_that_waits_is_fenced() -> Outcome {
    let broker = broker()?;
    let (mut one, mut other) = (Client::of_node(&broker, 0)?, Client::of_node(&broker, 0)?);
    let (first, second) = pair(&mut one, &mut other)?;
    std::thread::scope(|scope| -> Outcome {
        // It waits for the other one, which doesn't join.
        let waits = scope.spawn(|| join(&mut one, &first, 9, b"news").map_err(|it| it.to_string()));
        until("the other one is told", || heartbeat(&mut other, &second).is_ok_and(|it| it == i16::from(RebalanceInProgress)))?;
        let port = broker.ports()[0];
        let again = scope.spawn(move || {
            let mut restarted = Client::of_port(port).map_err(|it| it.to_string())?;
            joined(&mut restarted, &named("a")).map_err(|it| it.to_string())
        });
        assert_eq!(waits.join().map_err(|_| "it panicked")??.err(), Some(i16::from(FencedInstanceId)));
        let last = joined(&mut other, &second)?;
        let again = again.join().map_err(|_| "it panicked")??;
        assert_eq!(again.generation, last.generation);
        assert_ne!(again.id, first.id);
        Ok(())
    })
}

#[test]
fn an_admin_sees_names_and_takes_members_out_by_them() -> Outcome {
    let broker = broker()?;
    let (mut one, mut other) = (Client::of_node(&broker, 0)?, Client::of_node(&broker, 0)?);
    let (_, second) = pair(&mut one, &mut other)?;
    let answer = one.ask(&DescribeGroupsRequest { groups: vec!["g"], ..DescribeGroupsRequest::default() }, 4)?;
    let described = DescribeGroupsResponse::decode(&mut Reader::new(&answer), 4)?;
    let mut names: Vec<_> = described.groups[0].members.iter().map(|it| it.group_instance_id).collect();
    names.sort_unstable();
    assert_eq!(names, [Some("a"), Some("b")]);
    assert_eq!(leave(&mut one, &named("c"))?, i16::from(UnknownMemberId));
    assert_eq!(leave(&mut one, &named("a"))?, 0);
    assert_eq!(leave(&mut one, &named("a"))?, i16::from(UnknownMemberId));
    until("the other one is told", || heartbeat(&mut other, &second).is_ok_and(|it| it == i16::from(RebalanceInProgress)))?;
    let last = joined(&mut other, &second)?;
    assert_eq!(last.members, [(last.id.clone(), Some("b".to_string()))]);
    assert_eq!(join(&mut one, &named(""), 9, b"events")?.err(), Some(i16::from(ErrorCode::InvalidRequest)));
    Ok(())
}
