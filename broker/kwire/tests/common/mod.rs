//! What the tests share: each message as a case, and bytes from data files.
#![allow(dead_code)]

pub mod random;
pub mod samples;

use kwire::{Api, Message, Reader, WireError, Writer};
use samples as s;

/// A message with its sample, without its type.
pub struct Case {
    pub name: &'static str,
    pub api: Api,
    /// The least version at which the sample has a meaning, and the greatest, at which all of its fields are written.
    pub least: i16,
    pub whole_at: i16,
    /// The sample's bytes.
    pub encode: fn(i16) -> Result<Vec<u8>, WireError>,
    /// What was read, written again; bytes left over are an error.
    pub again: fn(&[u8], i16) -> Result<Vec<u8>, WireError>,
    /// Whether something is read.
    pub reads: fn(&[u8], i16) -> bool,
    /// Whether the sample is read.
    pub is_sample: fn(&[u8], i16) -> bool,
    /// What is read, for people.
    pub show: fn(&[u8], i16) -> String,
}

impl Case {
    pub fn versions(&self) -> std::ops::RangeInclusive<i16> {
        self.least..=self.whole_at
    }
}

pub fn encoded<'a>(message: &impl Message<'a>, version: i16) -> Result<Vec<u8>, WireError> {
    let mut writer = Writer::new();
    message.encode(&mut writer, version)?;
    Ok(writer.finish().to_vec())
}

pub fn decoded<'a, M: Message<'a>>(bytes: &'a [u8], version: i16) -> Result<M, WireError> {
    let mut reader = Reader::new(bytes);
    let message = M::decode(&mut reader, version)?;
    reader.finish()?;
    Ok(message)
}

fn reencoded<'a, M: Message<'a>>(bytes: &'a [u8], version: i16) -> Result<Vec<u8>, WireError> {
    encoded(&decoded::<M>(bytes, version)?, version)
}

fn is_same<'a, M: Message<'a> + PartialEq>(sample: &M, bytes: &'a [u8], version: i16) -> bool {
    decoded::<M>(bytes, version).as_ref() == Ok(sample)
}

fn shown<'a, M: Message<'a> + std::fmt::Debug>(_: &M, bytes: &'a [u8], version: i16) -> String {
    format!("{:?}", decoded::<M>(bytes, version))
}

fn again_like<'a, M: Message<'a>>(_: &M, bytes: &'a [u8], version: i16) -> Result<Vec<u8>, WireError> {
    reencoded::<M>(bytes, version)
}

fn reads_like<'a, M: Message<'a>>(_: &M, bytes: &'a [u8], version: i16) -> bool {
    decoded::<M>(bytes, version).is_ok()
}

fn api_of<'a, M: Message<'a>>(_: &M) -> Api {
    M::API
}

macro_rules! case {
    ($name:literal, $sample:ident, $least:expr, $whole:expr) => {
        Case {
            name: $name,
            api: api_of(&s::$sample()),
            least: $least.unwrap_or(api_of(&s::$sample()).least),
            whole_at: $whole.unwrap_or(api_of(&s::$sample()).greatest),
            encode: |version| encoded(&s::$sample(), version),
            again: |bytes, version| again_like(&s::$sample(), bytes, version),
            reads: |bytes, version| reads_like(&s::$sample(), bytes, version),
            is_sample: |bytes, version| is_same(&s::$sample(), bytes, version),
            show: |bytes, version| shown(&s::$sample(), bytes, version),
        }
    };
}

macro_rules! cases {
    ($($name:literal: $sample:ident $(from $least:literal)? $(to $whole:literal)?;)*) => {
        /// Each message; twice, where fields of its older versions are gone at the greatest.
        pub fn cases() -> Vec<Case> {
            vec![$(case!($name, $sample, cases!(@ $($least)?), cases!(@ $($whole)?))),*]
        }
    };
    (@) => { None };
    (@ $number:literal) => { Some($number) };
}

cases! {
    "ProduceRequest": produce_request;
    "ProduceResponse": produce_response;
    "FetchRequest": fetch_request;
    "FetchResponse": fetch_response;
    "ListOffsetsRequest": list_offsets_request;
    "ListOffsetsResponse": list_offsets_response;
    "MetadataRequest": metadata_request;
    "MetadataRequest": metadata_request_for_cluster from 8 to 10;
    "MetadataResponse": metadata_response;
    "MetadataResponse": metadata_response_for_cluster from 8 to 10;
    "OffsetCommitRequest": offset_commit_request from 5;
    "OffsetCommitRequest": offset_commit_request_with_retention from 2 to 4;
    "OffsetCommitRequest": offset_commit_request_with_time from 0 to 1;
    "OffsetCommitResponse": offset_commit_response;
    "OffsetFetchRequest": offset_fetch_request from 8;
    "OffsetFetchRequest": offset_fetch_request_of_one to 7;
    "OffsetFetchResponse": offset_fetch_response from 8;
    "OffsetFetchResponse": offset_fetch_response_of_one to 7;
    "FindCoordinatorRequest": find_coordinator_request from 4;
    "FindCoordinatorRequest": find_coordinator_request_of_one to 3;
    "FindCoordinatorResponse": find_coordinator_response from 4;
    "FindCoordinatorResponse": find_coordinator_response_of_one to 3;
    "JoinGroupRequest": join_group_request;
    "JoinGroupResponse": join_group_response;
    "HeartbeatRequest": heartbeat_request;
    "HeartbeatResponse": heartbeat_response;
    "LeaveGroupRequest": leave_group_request from 3;
    "LeaveGroupRequest": leave_group_request_of_one to 2;
    "LeaveGroupResponse": leave_group_response;
    "SyncGroupRequest": sync_group_request;
    "SyncGroupResponse": sync_group_response;
    "DescribeGroupsRequest": describe_groups_request;
    "DescribeGroupsResponse": describe_groups_response;
    "ListGroupsRequest": list_groups_request;
    "ListGroupsResponse": list_groups_response;
    "ApiVersionsRequest": api_versions_request;
    "ApiVersionsResponse": api_versions_response;
    "CreateTopicsRequest": create_topics_request;
    "CreateTopicsResponse": create_topics_response;
    "InitProducerIdRequest": init_producer_id_request;
    "InitProducerIdResponse": init_producer_id_response;
    "OffsetForLeaderEpochRequest": offset_for_leader_epoch_request;
    "OffsetForLeaderEpochResponse": offset_for_leader_epoch_response;
    "AddPartitionsToTxnRequest": add_partitions_to_txn_request;
    "AddPartitionsToTxnResponse": add_partitions_to_txn_response;
    "AddOffsetsToTxnRequest": add_offsets_to_txn_request;
    "AddOffsetsToTxnResponse": add_offsets_to_txn_response;
    "EndTxnRequest": end_txn_request;
    "EndTxnResponse": end_txn_response;
    "TxnOffsetCommitRequest": txn_offset_commit_request;
    "TxnOffsetCommitResponse": txn_offset_commit_response;
    "DescribeClusterRequest": describe_cluster_request;
    "DescribeClusterResponse": describe_cluster_response;
}

/// The case of this message that has a sample for this version.
pub fn case_of(name: &str, version: i16) -> Case {
    cases().into_iter().find(|it| it.name == name && it.versions().contains(&version)).unwrap_or_else(|| panic!("no {name} {version}"))
}

/// The bytes of these hexadecimal digits; white space is skipped.
pub fn bytes_of(hex: &str) -> Vec<u8> {
    let digits: Vec<u8> = hex.chars().filter(|it| !it.is_whitespace()).map(|it| it.to_digit(16).unwrap() as u8).collect();
    assert!(digits.len() % 2 == 0, "half a byte: {hex}");
    digits.chunks(2).map(|it| it[0] << 4 | it[1]).collect()
}

/// Bytes as hexadecimal digits.
pub fn hex_of(bytes: &[u8]) -> String {
    bytes.iter().map(|it| format!("{it:02x}")).collect()
}
