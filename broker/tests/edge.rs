//! What comes from outside and isn't Kafka's, or is too much of it; and the admin's lines.

mod common;

use common::{Ask, Client, Fallible, LONG, NOBODY, Outcome, TOPIC, batch, broker, produce_request, until};
use kpart_broker::{ADVERTISED, Broker, Options};
use kwire::fetch::{FetchPartition, FetchRequest, FetchTopic};
use kwire::frame::request_frame;
use kwire::groups::heartbeat::HeartbeatRequest;
use kwire::groups::join_group::{JoinGroupRequest, JoinProtocol};
use kwire::metadata::MetadataRequest;
use kwire::metadata::create_topics::{CreateTopicsRequest, CreateTopicsResponse, NewTopic};
use kwire::metadata::describe_cluster::{DescribeClusterRequest, DescribeClusterResponse};
use kwire::offsets::list_offsets::{ListOffsetsPartition, ListOffsetsRequest, ListOffsetsTopic};
use kwire::transactions::add_partitions_to_txn::{AddPartitionsToTxnRequest, JoiningTopic};
use kwire::transactions::init_producer_id::InitProducerIdRequest;
use kwire::versions::{ApiVersionsRequest, ApiVersionsResponse};
use kwire::{ErrorCode, Message, Reader};
use std::io::{BufRead, BufReader, ErrorKind, Read, Write};
use std::net::TcpStream;
use std::time::{Duration, Instant};

/// Whether the broker closes the connection.
fn ends(mut stream: &TcpStream) -> bool {
    let mut byte = [0; 1];
    match stream.read(&mut byte) {
        Ok(count) => count == 0,
        Err(error) => !matches!(error.kind(), ErrorKind::WouldBlock | ErrorKind::TimedOut),
    }
}

/// Whether the broker closes a connection on which these bytes came.
fn is_refused(broker: &Broker, bytes: &[u8]) -> Fallible<bool> {
    let mut stream = TcpStream::connect(("127.0.0.1", broker.ports()[0]))?;
    stream.set_read_timeout(Some(LONG))?;
    stream.write_all(bytes)?;
    Ok(ends(&stream))
}

#[test]
fn versions_are_told() -> Outcome {
    let broker = broker()?;
    let mut client = Client::of_node(&broker, 0)?;
    for version in 0..=4 {
        let request = ApiVersionsRequest { client_software_name: "test", client_software_version: "1" };
        let answer = client.ask(&request, version)?;
        let response = ApiVersionsResponse::decode(&mut Reader::new(&answer), version)?;
        assert_eq!((response.error_code, response.api_keys.len()), (0, ADVERTISED.len()));
    }
    // A version of the future: an answer at version 0 (KIP-511).
    client.stream.write_all(b"\0\0\0\x0b\0\x12\0\x63\0\0\0\x07\0\0\0")?;
    let frame = client.receive()?;
    let response = ApiVersionsResponse::decode(&mut Reader::new(&frame[4..]), 0)?;
    assert_eq!((response.error_code, frame[3]), (i16::from(ErrorCode::UnsupportedVersion), 7));
    let listed = response.api_keys.iter().find(|it| it.api_key == 2).ok_or("no ListOffsets")?;
    assert_eq!((listed.min_version, listed.max_version), (1, 7));
    Ok(())
}

#[test]
fn what_is_no_request_ends_the_connection() -> Outcome {
    let broker = broker()?;
    for bytes in [
        b"GET / HTTP/1.1\r\n\r\n".as_slice(),                      // a size above the greatest
        b"\0\0\0\x02\0\x12",                                       // shorter than a header
        b"\xff\xff\xff\xff",                                       // a size below 0
        b"\0\0\0\x0a\0\x4d\0\0\0\0\0\0\xff\xff",                   // an unknown request
        b"\0\0\0\x0a\0\x02\0\x08\0\0\0\0\xff\xff\0\0",             // a version that isn't advertised
        b"\0\0\0\x0a\0\0\0\x63\0\0\0\0\xff\xff",                   // a Produce of an unknown version
        b"\0\0\0\x0e\0\x03\0\x01\0\0\0\0\xff\xff\x7f\xff\xff\xff", // an array that claims too much
        b"\0\0\0\x0a\0\x03\0\x01\0\0\0\0\0\x09",                   // a client id that isn't there
    ] {
        assert!(is_refused(&broker, bytes)?, "{bytes:?}");
    }
    let long = [b"\0\x18\0\0\0\x03\0\x01\0\0\0\0\xff\xff".as_slice(), &vec![0; 0x18_0000]].concat();
    assert!(is_refused(&broker, &long)?); // no batches, and 1.5 MiB
    assert!(broker.show().contains("closed 9\n"), "{}", broker.show());
    assert_eq!(Client::of_leader(&broker, 0)?.produce(0, &batch(&["a"], NOBODY, 1), -1)?, (0, 0));
    Ok(())
}

/// Requests of several kinds, to be mutated.
fn samples() -> Fallible<Vec<Vec<u8>>> {
    let sent = batch(&["a", "b"], NOBODY, 1);
    let partition = FetchPartition { partition_max_bytes: 1 << 20, ..FetchPartition::default() };
    let fetch = FetchRequest { topics: vec![FetchTopic { topic: TOPIC, partitions: vec![partition] }], ..FetchRequest::default() };
    let list = ListOffsetsRequest {
        topics: vec![ListOffsetsTopic { name: TOPIC, partitions: vec![ListOffsetsPartition::default()] }],
        ..ListOffsetsRequest::default()
    };
    let join = JoinGroupRequest {
        group_id: "g",
        session_timeout_ms: 100,
        rebalance_timeout_ms: 100,
        protocol_type: "consumer",
        protocols: vec![JoinProtocol { name: "range", metadata: b"x" }],
        ..JoinGroupRequest::default()
    };
    let add = AddPartitionsToTxnRequest {
        transactional_id: "t",
        producer_id: 1_000,
        topics: vec![JoiningTopic { name: TOPIC, partitions: vec![0] }],
        ..AddPartitionsToTxnRequest::default()
    };
    let init = InitProducerIdRequest { transactional_id: Some("t"), transaction_timeout_ms: 100, ..InitProducerIdRequest::default() };
    let beat = HeartbeatRequest { group_id: "g", member_id: "m", ..HeartbeatRequest::default() };
    let mut frames = Vec::new();
    for version in [3, 9] {
        frames.push(request_frame(&produce_request(0, &sent, -1), version, 1, Some("x"))?.to_vec());
    }
    for version in [4, 12] {
        frames.push(request_frame(&fetch, version, 2, Some("x"))?.to_vec());
    }
    frames.push(request_frame(&list, 6, 3, Some("x"))?.to_vec());
    frames.push(request_frame(&MetadataRequest::default(), 9, 4, Some("x"))?.to_vec());
    frames.push(request_frame(&join, 5, 5, Some("x"))?.to_vec());
    frames.push(request_frame(&beat, 4, 6, Some("x"))?.to_vec());
    frames.push(request_frame(&init, 4, 7, Some("x"))?.to_vec());
    frames.push(request_frame(&add, 3, 8, Some("x"))?.to_vec());
    Ok(frames)
}

/// Marsaglia's xorshift.
struct Chance(u64);

impl Chance {
    fn below(&mut self, most: usize) -> usize {
        self.0 ^= self.0 << 13;
        self.0 ^= self.0 >> 7;
        self.0 ^= self.0 << 17;
        (self.0 % most.max(1) as u64) as usize
    }
}

/// A frame whose size is right, and of which some other bytes aren't.
fn mutated(frame: &[u8], chance: &mut Chance) -> Vec<u8> {
    let mut out = frame.to_vec();
    for _ in 0..=chance.below(4) {
        let at = 4 + chance.below(out.len() - 4);
        match chance.below(4) {
            0 => out[at] = chance.below(256) as u8,
            1 => out[at] ^= 1 << chance.below(8),
            2 if out.len() > 20 => drop(out.remove(at)),
            _ => out.insert(at, [0, 0x7f, 0xff, 0x80][chance.below(4)]),
        }
    }
    let size = (out.len() - 4) as u32;
    out[..4].copy_from_slice(&size.to_be_bytes());
    out
}

#[test]
fn mutated_frames_do_no_harm() -> Outcome {
    const FRAMES: usize = 30_000;
    let broker = broker()?;
    let samples = samples()?;
    let mut chance = Chance(0x9E37_79B9_7F4A_7C15);
    let mut sent = 0;
    while sent < FRAMES {
        let mut stream = TcpStream::connect(("127.0.0.1", broker.ports()[0]))?;
        stream.set_write_timeout(Some(LONG))?;
        let count = 1 + chance.below(30);
        let frames: Vec<u8> = (0..count).flat_map(|_| mutated(&samples[chance.below(samples.len())], &mut chance)).collect();
        let _written = stream.write_all(&frames); // it may be closed already
        sent += count;
    }
    until("their connections have ended", || !broker.show().lines().any(|it| it.starts_with("node 0") && !it.contains("connections 0")))?;
    let mut client = Client::of_leader(&broker, 0)?;
    let (code, offset) = client.produce(0, &batch(&["still there"], NOBODY, 1), -1)?;
    assert_eq!(code, 0);
    // Others may still come of connections that wait to be accepted.
    let got = client.fetch_of(0, &Ask { from: offset, ..Ask::default() })?;
    assert_eq!(got.values()?.first(), Some(&(offset, "still there".to_string())));
    Ok(())
}

#[test]
fn connections_are_bounded() -> Outcome {
    let broker = Broker::start(Options { most_connections: 3, ..Options::default() })?;
    let mut held = Vec::new();
    for node in [0, 1, 2] {
        let mut client = Client::of_node(&broker, node)?;
        client.ask(&MetadataRequest::default(), 9)?;
        held.push(client);
    }
    let more = Client::of_node(&broker, 0)?;
    assert!(ends(&more.stream));
    drop(held.pop());
    until("there is room again", || Client::of_node(&broker, 0).is_ok_and(|mut it| it.ask(&MetadataRequest::default(), 9).is_ok()))?;
    Ok(())
}

#[test]
fn who_says_nothing_or_is_slow_is_closed() -> Outcome {
    let (idle, slow) = (Duration::from_millis(900), Duration::from_millis(300));
    let broker = Broker::start(Options { idle, slow, ..Options::default() })?;
    let silent = Client::of_node(&broker, 0)?;
    let mut begins = Client::of_node(&broker, 0)?;
    let start = Instant::now();
    begins.stream.write_all(b"\0\0\0\x20\0")?;
    assert!(ends(&begins.stream) && start.elapsed() >= slow && start.elapsed() < idle + slow);
    assert!(ends(&silent.stream) && start.elapsed() >= idle);
    // One that doesn't take its answers: the broker's writes find no room.
    let mut client = Client::of_leader(&broker, 0)?;
    let big = "x".repeat(1 << 20);
    for _ in 0..8 {
        assert_eq!(client.produce(0, &batch(&[&big[..1_000_000]], NOBODY, 1), -1)?.0, 0);
    }
    let partition = FetchPartition { partition_max_bytes: 16 << 20, ..FetchPartition::default() };
    let request = FetchRequest { topics: vec![FetchTopic { topic: TOPIC, partitions: vec![partition] }], ..FetchRequest::default() };
    for _ in 0..4 {
        client.send(&request, 12)?;
    }
    until("it is closed", || broker.show().contains("closed 3\n"))?;
    Ok(())
}

#[test]
fn topics_are_those_of_the_options() -> Outcome {
    let broker = broker()?;
    let mut client = Client::of_node(&broker, 1)?;
    let topics = [TOPIC, "more"].map(|name| NewTopic { name, num_partitions: 1, replication_factor: 1, ..NewTopic::default() });
    let answer = client.ask(&CreateTopicsRequest { topics: topics.to_vec(), ..CreateTopicsRequest::default() }, 7)?;
    let response = CreateTopicsResponse::decode(&mut Reader::new(&answer), 7)?;
    let codes: Vec<i16> = response.topics.iter().map(|it| it.error_code).collect();
    assert_eq!(codes, [i16::from(ErrorCode::TopicAlreadyExists), i16::from(ErrorCode::InvalidRequest)]);
    let answer = client.ask(&DescribeClusterRequest::default(), 0)?;
    let response = DescribeClusterResponse::decode(&mut Reader::new(&answer), 0)?;
    assert_eq!((response.brokers.len(), response.controller_id), (3, 0));
    Ok(())
}

#[test]
fn an_admin_has_lines() -> Outcome {
    let broker = Broker::start(Options { admin: Some(0), ..Options::default() })?;
    let stream = TcpStream::connect(("127.0.0.1", broker.admin_port().ok_or("no port")?))?;
    stream.set_read_timeout(Some(LONG))?;
    let mut answers = BufReader::new(stream.try_clone()?).lines();
    let mut ask = |line: &str| -> Fallible<(String, String)> {
        (&stream).write_all(format!("{line}\n").as_bytes())?;
        let mut said = String::new();
        loop {
            let line = answers.next().ok_or("it has ended")??;
            if line == "ok" || line.starts_with("error") {
                return Ok((line, said));
            }
            said += &(line + "\n");
        }
    };
    for line in ["stop 0", "restart 0", "cut 0 1", "delay 1 0 5", "lossy 1 2 9", "doubling 2 1 8"] {
        assert_eq!(ask(line)?.0, "ok", "{line}");
    }
    let shown = ask("show")?.1;
    assert!(shown.contains("link 0 1 cut\nlink 1 0 delay 5\nlink 1 2 lossy 9\nlink 2 1 doubling 8\n"), "{shown}");
    for line in ["heal", "hold 1", "release 1", "rtt 0", "fail 1 7 produce"] {
        assert_eq!(ask(line)?.0, "ok", "{line}");
    }
    let bad = ["", "stop", "stop 9", "stop x", "restart 1", "cut 1 1", "elect 1 events 7", "fail 1 7 nothing", "stop 0 1"];
    for line in bad.into_iter().chain(["lossy 0 1", "lossy 0 1 x", "doubling 0 3 2", "delay 0 1 -1"]) {
        assert!(ask(line)?.0.starts_with("error"), "{line}");
    }
    assert!(ask("elect 1 events 0")?.0 == "ok" && ask("elect 2")?.0 == "ok");
    assert!(ask("show")?.1.contains("partition events 0 leader 2"));
    assert_eq!(ask("quit")?.0, "ok");
    broker.wait();
    Ok(())
}

#[test]
fn what_waits_is_shown() -> Outcome {
    let broker = broker()?;
    let mut client = Client::of_leader(&broker, 0)?;
    let waits = FetchRequest { max_wait_ms: 1_500, min_bytes: 1, topics: vec![], ..FetchRequest::default() };
    let number = client.send(&waits, 12)?;
    assert!(!broker.show().contains("waiting"), "{}", broker.show());
    until("it is shown", || broker.show().contains("\nwaiting node 0 Fetch "))?;
    client.answer(&waits, 12, number)?;
    until("it is answered", || !broker.show().contains("waiting"))?;
    client.list(0, -1, 0)?;
    assert!(broker.show().contains("\nasked Fetch 1 ListOffsets 1"), "{}", broker.show());
    Ok(())
}

#[test]
fn answers_fail_as_the_tester_wants() -> Outcome {
    let broker = broker()?;
    let mut client = Client::of_leader(&broker, 0)?;
    let sent = batch(&["a"], NOBODY, 1);
    broker.fail(2, 7, "Produce")?;
    assert_eq!((client.produce(0, &sent, -1)?.0, client.produce(0, &sent, -1)?.0), (7, 7));
    assert_eq!(client.produce(0, &sent, -1)?, (0, 0));
    broker.fail(1, 6, "fetch")?;
    assert_eq!((client.fetch(0, 0, 0)?.code, client.fetch(0, 0, 0)?.code), (6, 0));
    broker.fail(1, 1, "ListOffsets")?;
    assert_eq!((client.list(0, -1, 0)?.0, client.list(0, -1, 0)?.0), (1, 0));
    assert!(broker.fail(1, 1, "Nothing").is_err());
    broker.rtt(Duration::from_millis(80));
    let start = Instant::now();
    assert_eq!(client.list(0, -1, 0)?.0, 0);
    assert!(start.elapsed() >= Duration::from_millis(80));
    Ok(())
}

#[test]
fn a_broker_that_is_dropped_gives_its_ports_back() -> Outcome {
    let broker = broker()?;
    let mut client = Client::of_leader(&broker, 0)?;
    let ports = broker.ports();
    drop(broker);
    assert!(client.fetch(0, 0, 0).is_err());
    for port in ports {
        assert!(TcpStream::connect(("127.0.0.1", port)).is_err());
    }
    Ok(())
}
