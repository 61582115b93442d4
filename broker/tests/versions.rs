//! Each request at each version that is advertised has an answer which can be read; and the program itself.

mod common;

use common::{Client, LONG, Outcome, TOPIC, broker};
use kpart_broker::ADVERTISED;
use kwire::fetch::{FetchPartition, FetchRequest, FetchResponse, FetchTopic};
use kwire::groups::describe_groups::{DescribeGroupsRequest, DescribeGroupsResponse};
use kwire::groups::find_coordinator::{FindCoordinatorRequest, FindCoordinatorResponse};
use kwire::groups::heartbeat::{HeartbeatRequest, HeartbeatResponse};
use kwire::groups::join_group::{JoinGroupRequest, JoinGroupResponse, JoinProtocol};
use kwire::groups::leave_group::{LeaveGroupRequest, LeaveGroupResponse};
use kwire::groups::list_groups::{ListGroupsRequest, ListGroupsResponse};
use kwire::groups::sync_group::{SyncGroupRequest, SyncGroupResponse};
use kwire::metadata::create_topics::{CreateTopicsRequest, CreateTopicsResponse, NewTopic};
use kwire::metadata::describe_cluster::{DescribeClusterRequest, DescribeClusterResponse};
use kwire::metadata::{MetadataRequest, MetadataResponse};
use kwire::offsets::list_offsets::{ListOffsetsPartition, ListOffsetsRequest, ListOffsetsResponse, ListOffsetsTopic};
use kwire::offsets::offset_commit::{OffsetCommitRequest, OffsetCommitResponse};
use kwire::offsets::offset_fetch::{OffsetFetchRequest, OffsetFetchResponse, OffsetsTopic};
use kwire::offsets::offset_for_leader_epoch::{OffsetForLeaderEpochRequest, OffsetForLeaderEpochResponse};
use kwire::produce::{ProducePartition, ProduceRequest, ProduceResponse, ProduceTopic};
use kwire::transactions::add_offsets_to_txn::{AddOffsetsToTxnRequest, AddOffsetsToTxnResponse};
use kwire::transactions::add_partitions_to_txn::{AddPartitionsToTxnRequest, AddPartitionsToTxnResponse};
use kwire::transactions::end_txn::{EndTxnRequest, EndTxnResponse};
use kwire::transactions::init_producer_id::{InitProducerIdRequest, InitProducerIdResponse};
use kwire::transactions::txn_offset_commit::{TxnOffsetCommitRequest, TxnOffsetCommitResponse};
use kwire::versions::{ApiVersionsRequest, ApiVersionsResponse};
use kwire::{Message, Reader, Records};
use std::io::{BufRead, BufReader, Read, Write};
use std::net::TcpStream;
use std::process::{Command, Stdio};

/// Asks at each version that is advertised, and reads the answer to its end; counts the versions.
macro_rules! asked {
    ($client:expr, $count:expr, $request:expr => $response:ident) => {{
        let known = ADVERTISED.iter().find(|it| it.api == $response::API).ok_or("it isn't advertised")?;
        for version in known.least..=known.greatest {
            let request = $request(version);
            let answer = $client.ask(&request, version)?;
            let mut reader = Reader::new(&answer);
            $response::decode(&mut reader, version)?;
            reader.finish().map_err(|it| format!("{} {version}: {it}", known.api.name))?;
            $count += 1;
        }
    }};
}

#[test]
fn each_version_is_answered() -> Outcome {
    let broker = broker()?;
    let mut client = Client::of_leader(&broker, 0)?;
    let mut count = 0;
    asked!(client, count, |_| ApiVersionsRequest::default() => ApiVersionsResponse);
    let topics = |version| if version == 0 { Some(Vec::new()) } else { None };
    asked!(client, count, |it| MetadataRequest { topics: topics(it), ..MetadataRequest::default() } => MetadataResponse);
    let produce = |_| {
        let partition_data = vec![ProducePartition { index: 0, records: Records::Whole(b"none") }];
        ProduceRequest { acks: -1, topic_data: vec![ProduceTopic { name: TOPIC, partition_data }], ..ProduceRequest::default() }
    };
    asked!(client, count, produce => ProduceResponse);
    let partitions = || vec![FetchPartition::default(), FetchPartition { partition: 9, ..FetchPartition::default() }];
    let fetch = |_| FetchRequest {
        isolation_level: 1,
        topics: vec![FetchTopic { topic: TOPIC, partitions: partitions() }],
        ..FetchRequest::default()
    };
    asked!(client, count, fetch => FetchResponse);
    let partition = || vec![ListOffsetsPartition { current_leader_epoch: -1, timestamp: -1, ..ListOffsetsPartition::default() }];
    let list =
        |_| ListOffsetsRequest { topics: vec![ListOffsetsTopic { name: TOPIC, partitions: partition() }], ..ListOffsetsRequest::default() };
    asked!(client, count, list => ListOffsetsResponse);
    asked!(client, count, |_| OffsetForLeaderEpochRequest::default() => OffsetForLeaderEpochResponse);
    asked!(client, count, |_| CreateTopicsRequest {
        topics: vec![NewTopic { name: TOPIC, ..NewTopic::default() }],
        ..CreateTopicsRequest::default()
    } => CreateTopicsResponse);
    asked!(client, count, |_| DescribeClusterRequest::default() => DescribeClusterResponse);
    asked!(client, count, |_| FindCoordinatorRequest { coordinator_keys: vec!["g"], ..FindCoordinatorRequest::default() }
        => FindCoordinatorResponse);
    let join = |version| JoinGroupRequest {
        group_id: if version % 2 == 0 { "" } else { "g" }, // refused, or taken
        session_timeout_ms: 100,
        rebalance_timeout_ms: 100,
        protocol_type: "consumer",
        protocols: vec![JoinProtocol { name: "range", metadata: b"x" }],
        ..JoinGroupRequest::default()
    };
    asked!(client, count, join => JoinGroupResponse);
    asked!(client, count, |_| SyncGroupRequest::default() => SyncGroupResponse);
    asked!(client, count, |_| HeartbeatRequest::default() => HeartbeatResponse);
    asked!(client, count, |_| LeaveGroupRequest::default() => LeaveGroupResponse);
    asked!(client, count, |_| OffsetCommitRequest::default() => OffsetCommitResponse);
    let topics = || Some(vec![OffsetsTopic { name: TOPIC, partition_indexes: vec![0, 9] }]);
    asked!(client, count, |_| OffsetFetchRequest { topics: topics(), ..OffsetFetchRequest::default() } => OffsetFetchResponse);
    asked!(client, count, |_| DescribeGroupsRequest { groups: vec!["g"], ..DescribeGroupsRequest::default() }
        => DescribeGroupsResponse);
    asked!(client, count, |_| ListGroupsRequest::default() => ListGroupsResponse);
    let init = |_| InitProducerIdRequest { transactional_id: Some("t"), transaction_timeout_ms: 9, ..InitProducerIdRequest::default() };
    asked!(client, count, init => InitProducerIdResponse);
    asked!(client, count, |_| AddPartitionsToTxnRequest::default() => AddPartitionsToTxnResponse);
    asked!(client, count, |_| AddOffsetsToTxnRequest::default() => AddOffsetsToTxnResponse);
    asked!(client, count, |_| EndTxnRequest::default() => EndTxnResponse);
    asked!(client, count, |_| TxnOffsetCommitRequest::default() => TxnOffsetCommitResponse);
    let all: i16 = ADVERTISED.iter().map(|it| it.greatest - it.least + 1).sum();
    assert_eq!(count, all);
    Ok(())
}

#[test]
fn the_program_says_where_it_listens() -> Outcome {
    let program = env!("CARGO_BIN_EXE_kpart-broker");
    let mut running = Command::new(program)
        .args(["--port", "0", "--admin", "0", "--topic", "events:2", "--nodes", "2"])
        .stdout(Stdio::piped())
        .spawn()?;
    let mut said = String::new();
    BufReader::new(running.stdout.take().ok_or("no output")?).read_line(&mut said)?;
    let words: Vec<&str> = said.split_whitespace().collect();
    let ["ready:", "bootstrap", bootstrap, "admin", admin] = words[..] else { return Err(said.into()) };
    assert_eq!(bootstrap.matches("127.0.0.1:").count(), 2);
    let mut lines = TcpStream::connect(admin)?;
    lines.set_read_timeout(Some(LONG))?;
    lines.write_all(b"quit\n")?;
    let mut answer = [0; 3];
    lines.read_exact(&mut answer)?;
    assert_eq!((answer.as_slice(), running.wait()?.code()), (b"ok\n".as_slice(), Some(0)));
    let refused = Command::new(program).args(["--nodes", "9"]).stderr(Stdio::null()).status()?;
    let helped = Command::new(program).arg("--help").stdout(Stdio::null()).status()?;
    assert_eq!((refused.code(), helped.code()), (Some(2), Some(0)));
    Ok(())
}
