//! A broker with a folder ends and starts again: what it was told is there, and what a folder hasn't got is refused.

mod common;

use common::coordinators::{Producer, add, commit, committed, end, init, keep};
use common::program::{Folder, Program, copy};
use common::{Client, Fallible, NOBODY, Outcome, TOPIC, Writes, batch, until};
use kpart_broker::{Broker, Options, TopicOption};
use kwire::groups::heartbeat::{HeartbeatRequest, HeartbeatResponse};
use kwire::groups::join_group::{JoinGroupRequest, JoinGroupResponse, JoinProtocol};
use kwire::{ErrorCode, Message, Reader};
use std::collections::BTreeMap;
use std::path::Path;
use std::thread;
use std::time::{Duration, Instant};

fn options(folder: &Folder, partitions: u32) -> Options {
    let topics = vec![TopicOption { name: TOPIC.to_string(), partitions }];
    Options { topics, data: Some(folder.data()), ..Options::default() }
}

fn start(folder: &Folder, partitions: u32) -> Fallible<Broker> {
    Ok(Broker::start(options(folder, partitions))?)
}

fn part(values: &[&str], producer: Producer, sequence: i32) -> Vec<u8> {
    batch(values, Writes { producer, sequence, transactional: true }, 1_000)
}

fn begun(client: &mut Client, id: &str, timeout: i32, partitions: &[i32]) -> Fallible<Producer> {
    let producer = init(client, Some(id), timeout)?.map_err(|it| format!("code {it}"))?;
    assert_eq!(add(client, id, producer, partitions)?, 0);
    Ok(producer)
}

/// What a read-committed consumer is shown of a partition.
fn shown(broker: &Broker, index: i32) -> Fallible<Vec<String>> {
    let mut client = Client::of_leader(broker, index)?;
    let end = client.list(index, -1, 1)?.1;
    Ok(client.read_to(index, end, 1)?.into_iter().map(|it| it.1).collect())
}

#[test]
fn batches_offsets_and_ids_are_there_again() -> Outcome {
    let folder = Folder::new("data", true);
    let mut ids = Vec::new();
    for life in 0..3 {
        let broker = start(&folder, 2)?;
        let mut client = Client::of_node(&broker, 0)?;
        for index in 0..2 {
            let mut leader = Client::of_leader(&broker, index)?;
            assert_eq!((leader.list(index, -1, 0)?.1, leader.list(index, -1, 1)?.1), (life, life), "at once, from the start on");
            assert_eq!(leader.produce(index, &batch(&[&life.to_string()], NOBODY, 1), -1)?, (0, life));
            assert_eq!(shown(&broker, index)?, (0..=life).map(|it| it.to_string()).collect::<Vec<_>>());
        }
        let before = if life == 0 { (0, -1, -1, String::new()) } else { (0, 10 * (life - 1), 3, format!("life {}", life - 1)) };
        assert_eq!(committed(&mut client, "g", false)?, before);
        assert_eq!(commit(&mut client, "g", 10 * life, &format!("life {life}"))?, 0);
        ids.push(init(&mut client, None, 0)?.map_err(|it| format!("code {it}"))?.0);
        ids.push(init(&mut client, Some("one"), 1_000)?.map_err(|it| format!("code {it}"))?.0);
    }
    // The transactional id has its producer id; the others are of blocks of 1,000, as in Kafka.
    assert_eq!(ids, [1_000, 1_001, 2_000, 1_001, 3_000, 1_001]);
    Ok(())
}

/// Who asks as soon as a broker has started is told no less than those before.
#[test]
fn what_was_committed_is_so_from_the_start_on() -> Outcome {
    let (folder, partitions) = (Folder::new("data", false), 2);
    for life in 0..8 {
        let broker = start(&folder, partitions)?;
        let shown = broker.show();
        let leads = |line: &&str| line.starts_with("  node ") && !line.contains(" leads - ");
        let wanted = format!(" end {life} watermark {life} stable {life} ");
        let found = shown.lines().filter(leads).filter(|it| it.contains(&wanted)).count();
        assert_eq!(found, partitions as usize, "{shown}");
        for index in 0..partitions as i32 {
            assert_eq!(Client::of_leader(&broker, index)?.produce(index, &batch(&["a"], NOBODY, 1), -1)?, (0, life));
        }
    }
    Ok(())
}

#[test]
fn an_open_transaction_stays_open() -> Outcome {
    let folder = Folder::new("data", true);
    let (old, one) = {
        let broker = start(&folder, 2)?;
        let mut client = Client::of_node(&broker, 0)?;
        let old = begun(&mut client, "old", 60_000, &[0])?;
        client.produce_in("old", 0, &part(&["fenced"], old, 0))?;
        let one = begun(&mut client, "one", 60_000, &[0])?;
        assert_eq!(client.produce_in("one", 0, &part(&["before"], one, 0))?.0, 0);
        assert_eq!(keep(&mut client, "one", one, "g", 17)?, 0);
        (old, one)
    };
    let broker = start(&folder, 2)?;
    let mut client = Client::of_node(&broker, 0)?;
    assert_eq!(committed(&mut client, "g", true)?.0, i16::from(ErrorCode::UnstableOffsetCommit), "its offsets are known again");
    assert_eq!(shown(&broker, 0)?, [""; 0]);
    // It goes on, also in partitions that are added now, and its batch that comes again is stored once.
    let mut leader = Client::of_leader(&broker, 1)?;
    assert_eq!(leader.produce_in("one", 1, &part(&["early"], one, 0))?.0, i16::from(ErrorCode::InvalidTxnState));
    assert_eq!(add(&mut client, "one", one, &[1])?, 0);
    assert_eq!(leader.produce_in("one", 1, &part(&["elsewhere"], one, 0))?, (0, 0));
    assert_eq!(client.produce_in("one", 0, &part(&["before"], one, 0))?, (0, 1));
    assert_eq!(client.produce_in("one", 0, &part(&["behind"], one, 1))?, (0, 2));
    // A new producer of the same id fences the old one, and aborts what that has begun.
    let new = init(&mut client, Some("old"), 60_000)?.map_err(|it| format!("code {it}"))?;
    assert!(new.0 == old.0 && new.1 > old.1, "{old:?}, then {new:?}");
    assert_eq!(end(&mut client, "old", old, true)?, i16::from(ErrorCode::InvalidProducerEpoch));
    assert_eq!(end(&mut client, "one", one, true)?, 0);
    assert_eq!(committed(&mut client, "g", true)?.1, 17);
    assert_eq!(commit(&mut client, "g", 18, "")?, 0);
    drop(broker);
    let broker = start(&folder, 2)?;
    let mut client = Client::of_node(&broker, 0)?;
    assert_eq!((shown(&broker, 0)?, shown(&broker, 1)?), (vec!["before".to_string(), "behind".to_string()], vec!["elsewhere".to_string()]));
    assert_eq!(committed(&mut client, "g", true)?.1, 18);
    let next = init(&mut client, Some("old"), 60_000)?.map_err(|it| format!("code {it}"))?;
    assert!(next.1 > new.1, "{new:?}, then {next:?}");
    // The same end again is no fault, and another one is.
    assert_eq!(end(&mut client, "one", one, true)?, 0);
    assert_eq!(end(&mut client, "one", one, false)?, i16::from(ErrorCode::InvalidTxnState));
    assert_eq!(end(&mut client, "old", old, true)?, i16::from(ErrorCode::InvalidProducerEpoch));
    Ok(())
}

/// The time counts from when it was begun, also where no process was there meanwhile.
#[test]
fn an_open_transaction_is_aborted_in_its_time() -> Outcome {
    let folder = Folder::new("data", true);
    let broker = start(&folder, 1)?;
    let mut client = Client::of_node(&broker, 0)?;
    let (soon, late) = (begun(&mut client, "soon", 1_500, &[0])?, begun(&mut client, "late", 60_000, &[0])?);
    for (id, producer) in [("soon", soon), ("late", late)] {
        client.produce_in(id, 0, &part(&[id], producer, 0))?;
    }
    drop(broker);
    thread::sleep(Duration::from_millis(1_500));
    let (broker, began) = (start(&folder, 1)?, Instant::now());
    let mut client = Client::of_node(&broker, 0)?;
    let fenced = i16::from(ErrorCode::InvalidProducerEpoch);
    until("it is aborted", || client.fetch(0, 0, 1).is_ok_and(|it| it.stable == 1))?;
    assert!(began.elapsed() < Duration::from_millis(1_200), "{:?}", began.elapsed());
    assert_eq!(end(&mut client, "soon", soon, true)?, fenced);
    assert_eq!(end(&mut client, "late", late, true)?, 0);
    assert_eq!(shown(&broker, 0)?, ["late"]);
    Ok(())
}

/// A transaction of a broker of two nodes and two partitions, of which each node leads one, alone in sync, and node 1 is down.
fn half_ending(folder: &Folder) -> Fallible<(Broker, Client, Producer)> {
    let broker = Broker::start(Options { nodes: 2, lag: Duration::from_millis(50), ..options(folder, 2) })?;
    let mut client = Client::of_node(&broker, 0)?;
    let one = begun(&mut client, "one", 60_000, &[0, 1])?;
    for index in 0..2 {
        assert_eq!(Client::of_leader(&broker, index)?.produce_in("one", index, &part(&["a"], one, 0))?.0, 0);
    }
    assert_eq!(keep(&mut client, "one", one, "g", 5)?, 0);
    broker.cut(0, 1)?;
    broker.cut(1, 0)?;
    let is_alone = |shown: &str, node: u8| shown.contains(&format!("partition {TOPIC} {node} leader {node} epoch 0 in-sync {node}\n"));
    until("each is alone in sync", || is_alone(&broker.show(), 0) && is_alone(&broker.show(), 1))?;
    broker.stop(1)?;
    Ok((broker, client, one))
}

/// Markers were on their way as the broker ended: at its next start they are written to all partitions, and to some of them twice.
#[test]
fn an_end_that_was_begun_is_ended() -> Outcome {
    for commits in [true, false] {
        let folder = Folder::new("data", true);
        let (broker, mut client, one) = half_ending(&folder)?;
        let mut reader = Client::of_leader(&broker, 0)?;
        let ending = thread::spawn(move || end(&mut client, "one", one, commits).map_err(|it| it.to_string()));
        until("the first marker is there", || reader.list(0, -1, 1).is_ok_and(|it| it.1 == 2))?;
        assert!(!ending.is_finished());
        drop(broker);
        assert!(ending.join().is_ok_and(|it| it != Ok(0)), "nobody is told that it has ended");
        let broker = Broker::start(Options { nodes: 2, ..options(&folder, 2) })?;
        let mut client = Client::of_node(&broker, 0)?;
        for index in 0..2 {
            let mut leader = Client::of_leader(&broker, index)?;
            until("nothing is open", || leader.list(index, -1, 1).is_ok_and(|it| it.1 > 1))?;
            assert_eq!(shown(&broker, index)?, if commits { vec!["a"] } else { vec![] }, "partition {index}");
        }
        until("it has ended", || committed(&mut client, "g", true).is_ok_and(|it| it.0 == 0))?;
        assert_eq!(committed(&mut client, "g", true)?.1, if commits { 5 } else { -1 });
        assert_eq!(end(&mut client, "one", one, commits)?, 0);
        assert_eq!(end(&mut client, "one", one, !commits)?, i16::from(ErrorCode::InvalidTxnState));
        // The next transaction of the same producer isn't ended by a marker of this one.
        assert_eq!(add(&mut client, "one", one, &[0])?, 0);
        assert_eq!(client.produce_in("one", 0, &part(&["b"], one, 1))?.0, 0);
        assert_eq!(end(&mut client, "one", one, true)?, 0);
        assert_eq!(shown(&broker, 0)?.last().map(String::as_str), Some("b"));
    }
    Ok(())
}

/// Where each of a journal's frames ends (docs/DURABLE.md); the seal is none.
fn frame_ends(bytes: &[u8]) -> Vec<usize> {
    let (mut ends, mut at) = (Vec::new(), 16);
    while at + 16 < bytes.len() {
        at += 16 + u32::from_be_bytes(std::array::from_fn(|it| bytes[at + it])) as usize;
        ends.push(at);
    }
    ends
}

/// Whichever frame of the journal is the last one: from where a transaction's offsets were answered on, they count once it commits, and never before.
#[test]
fn an_end_and_its_offsets_come_together() -> Outcome {
    let folder = Folder::new("data", true);
    let journal = |folder: &Folder| folder.data().join("journal");
    let broker = start(&folder, 1)?;
    let mut client = Client::of_node(&broker, 0)?;
    let one = begun(&mut client, "one", 60_000, &[0])?;
    assert_eq!(client.produce_in("one", 0, &part(&["a"], one, 0))?.0, 0);
    assert_eq!(keep(&mut client, "one", one, "g", 5)?, 0);
    let answered = std::fs::metadata(journal(&folder))?.len() as usize - 16;
    assert_eq!(end(&mut client, "one", one, true)?, 0);
    drop(broker);
    let bytes = std::fs::read(journal(&folder))?;
    let ends: Vec<usize> = frame_ends(&bytes).into_iter().filter(|it| *it >= answered).collect();
    assert!(ends.len() >= 3, "{ends:?}: it was open, is to be ended, and has ended");
    for end_of_last in ends {
        let other = Folder::new("data", true);
        copy(&folder.data(), &other.data())?;
        std::fs::write(journal(&other), &bytes[..end_of_last])?;
        let broker = start(&other, 1)?;
        let mut client = Client::of_node(&broker, 0)?;
        assert!([(88, -1), (0, 5)].contains(&committed(&mut client, "g", true).map(|it| (it.0, it.1))?), "up to {end_of_last}");
        until("it has ended", || end(&mut client, "one", one, true).is_ok_and(|it| it == 0))?;
        assert_eq!(committed(&mut client, "g", true)?.1, 5, "up to {end_of_last}");
    }
    Ok(())
}

// ---- groups

/// Of two clients that commit for a group at the same time the one that came last is the last one at the next start, too.
#[test]
fn commits_stay_in_their_order() -> Outcome {
    const GROUPS: usize = 400;
    let folder = Folder::new("data", true);
    let all = |broker: &Broker| -> Fallible<Vec<i64>> {
        let mut client = Client::of_node(broker, 0)?;
        (0..GROUPS).map(|it| Ok(committed(&mut client, &format!("g{it}"), true)?.1)).collect()
    };
    let broker = start(&folder, 1)?;
    thread::scope(|scope| {
        for offset in [1, 2] {
            let mut client = Client::of_node(&broker, 0).expect("it listens");
            scope.spawn(move || (0..GROUPS).for_each(|it| assert_eq!(commit(&mut client, &format!("g{it}"), offset, "").ok(), Some(0))));
        }
    });
    let before = all(&broker)?;
    drop(broker);
    assert_eq!(all(&start(&folder, 1)?)?, before);
    Ok(())
}

fn join(client: &mut Client, member: &str) -> Fallible<(i16, i32, String)> {
    let protocols = vec![JoinProtocol { name: "range", metadata: b"events" }];
    let request = JoinGroupRequest {
        group_id: "g",
        session_timeout_ms: 10_000,
        rebalance_timeout_ms: 10_000,
        member_id: member,
        protocol_type: "consumer",
        protocols,
        ..JoinGroupRequest::default()
    };
    let answer = client.ask(&request, 9)?;
    let it = JoinGroupResponse::decode(&mut Reader::new(&answer), 9)?;
    if it.error_code == i16::from(ErrorCode::MemberIdRequired) {
        return join(client, it.member_id);
    }
    Ok((it.error_code, it.generation_id, it.member_id.to_string()))
}

/// Members join anew. No generation comes again, nor a member's id: who was one before may not commit.
#[test]
fn generations_go_on() -> Outcome {
    let (folder, mut members) = (Folder::new("data", true), Vec::<String>::new());
    for life in 0..3 {
        let broker = start(&folder, 1)?;
        let mut client = Client::of_node(&broker, 0)?;
        for (generation, member) in (1..).zip(&members) {
            let request = HeartbeatRequest { group_id: "g", generation_id: generation, member_id: member, ..HeartbeatRequest::default() };
            let answer = client.ask(&request, 4)?;
            let code = HeartbeatResponse::decode(&mut Reader::new(&answer), 4)?.error_code;
            assert_eq!(code, i16::from(ErrorCode::UnknownMemberId));
        }
        if life == 0 {
            assert_eq!(commit(&mut client, "g", 1, "")?, 0);
        }
        let (code, generation, member) = join(&mut client, "")?;
        assert_eq!((code, generation), (0, life + 1));
        assert!(!members.contains(&member), "{member}");
        members.push(member);
    }
    Ok(())
}

// ---- folders

/// What is in a folder, and in those in it.
fn files_of(folder: &Path) -> Fallible<BTreeMap<String, Vec<u8>>> {
    let mut files = BTreeMap::new();
    for entry in std::fs::read_dir(folder)? {
        let (path, name) = entry.map(|it| (it.path(), it.file_name().to_string_lossy().into_owned()))?;
        if path.is_dir() {
            files.extend(files_of(&path)?.into_iter().map(|(inner, bytes)| (format!("{name}/{inner}"), bytes)));
        } else {
            files.insert(name, std::fs::read(&path)?);
        }
    }
    Ok(files)
}

fn refused(options: Options) -> Fallible<String> {
    match Broker::start(options) {
        Ok(_) => Err("it has started".into()),
        Err(fault) => Ok(fault.to_string()),
    }
}

fn topics(names: &[(&str, u32)]) -> Vec<TopicOption> {
    names.iter().map(|(name, partitions)| TopicOption { name: (*name).to_string(), partitions: *partitions }).collect()
}

#[test]
fn another_folder_is_refused() -> Outcome {
    let folder = Folder::new("data", true);
    let of = |names: &[(&str, u32)]| Options { topics: topics(names), ..options(&folder, 1) };
    let broker = Broker::start(of(&[("a", 1), ("b-c", 2)]))?;
    let data = folder.data().display().to_string();
    assert_eq!(refused(of(&[("a", 1), ("b-c", 2)]))?, format!("{data}: it is open already"));
    drop(broker);
    let before = files_of(&folder.data())?;
    assert_eq!(refused(of(&[("a", 1)]))?, format!("{data}/b-c-0: it is kept, and isn't among the topics: --topic b-c:2"));
    assert_eq!(refused(of(&[("a", 1), ("b-c", 1)]))?, format!("{data}/b-c-1: it is kept, and isn't among the topics: --topic b-c:2"));
    assert_eq!(refused(Options { nodes: 5, ..of(&[("x", 1), ("a", 1), ("b-c", 2)]) })?, format!("{data}/a-0: it has 3 nodes"));
    assert_eq!(files_of(&folder.data())?, before, "nothing is written");
    // Topics and partitions that are new are made; what isn't the broker's is left alone.
    std::fs::create_dir(folder.data().join("lost+found"))?;
    std::fs::write(folder.data().join("notes"), "kept")?;
    let all = of(&[("new", 1), ("b-c", 3), ("a", 1)]);
    drop(Broker::start(all.clone())?);
    assert_eq!(refused(of(&[("a", 1), ("b-c", 2)]))?, format!("{data}/b-c-2: it is kept, and isn't among the topics: --topic b-c:3"));
    std::fs::rename(folder.data().join("a-0"), folder.0.join("a-0"))?;
    assert_eq!(refused(all.clone())?, format!("{data}/a-0: it isn't there"));
    std::fs::rename(folder.0.join("a-0"), folder.data().join("a-0"))?;
    std::fs::rename(folder.data().join("journal"), folder.0.join("journal"))?;
    assert_eq!(refused(all.clone())?, format!("{data}/journal: it isn't there"));
    let mut bytes = std::fs::read(folder.0.join("journal"))?;
    bytes[40] ^= 1;
    std::fs::write(folder.data().join("journal"), &bytes)?;
    assert_eq!(refused(all.clone())?, format!("{data}/journal: byte 16: no whole entry with a right checksum begins here"));
    assert_eq!(std::fs::read(folder.data().join("journal"))?, bytes, "it stays as it is");
    bytes[40] ^= 1;
    std::fs::write(folder.data().join("journal"), &bytes)?;
    drop(Broker::start(all)?);
    assert_eq!(std::fs::read(folder.data().join("notes"))?, b"kept");
    Ok(())
}

/// A process that was killed has left the folder; a copy of it goes on by itself.
#[test]
fn a_copied_folder_starts() -> Outcome {
    let (folder, other) = (Folder::new("data", true), Folder::new("copy", true));
    let mut program = Program::start(&mut Program::command(&folder.data(), 1))?;
    let mut client = program.at.client(0)?;
    let open = begun(&mut client, "open", 60_000, &[0])?;
    assert_eq!(client.produce(0, &batch(&["plain"], NOBODY, 1), -1)?, (0, 0));
    assert_eq!(client.produce_in("open", 0, &part(&["open"], open, 0))?, (0, 1));
    assert_eq!(commit(&mut client, "g", 1, "note")?, 0);
    program.kill();
    copy(&folder.data(), &other.data())?;
    for (at, folder) in [&folder, &other].into_iter().enumerate() {
        let broker = start(folder, 1)?;
        let mut client = Client::of_node(&broker, 0)?;
        assert_eq!(committed(&mut client, "g", true)?, (0, 1, 3, "note".to_string()));
        assert_eq!(end(&mut client, "open", open, at == 0)?, 0);
        assert_eq!(shown(&broker, 0)?, if at == 0 { vec!["plain", "open"] } else { vec!["plain"] });
    }
    Ok(())
}
