//! Defaults that aren't their type's.

use kwire::Records;
use kwire::fetch::*;
use kwire::groups::{describe_groups::DescribedGroup, join_group::*};
use kwire::metadata::{create_topics::*, describe_cluster::DescribeClusterResponse, *};
use kwire::offsets::{list_offsets::*, offset_commit::*, offset_fetch::FetchedOffset, offset_for_leader_epoch::*};
use kwire::produce::{ProducePartition, ProducedPartition};
use kwire::transactions::{init_producer_id::*, txn_offset_commit::*};

macro_rules! defaults {
    ($($type:ident { $($field:ident: $value:expr),* })*) => {$(
        let it = $type::default();
        $(assert_eq!(it.$field, $value, "{}", concat!(stringify!($type), " ", stringify!($field)));)*
    )*};
}

/// As the message definitions have them: -1 for 'not known' or 'none' nearly everywhere.
#[test]
fn of_a_log() {
    defaults! {
        ProducedPartition { log_append_time_ms: -1, log_start_offset: -1 }
        FetchRequest { replica_id: -1, max_bytes: 0x7fff_ffff, session_id: 0, session_epoch: -1 }
        FetchPartition { current_leader_epoch: -1, last_fetched_epoch: -1, log_start_offset: -1 }
        FetchedPartition { last_stable_offset: -1, log_start_offset: -1, aborted_transactions: None, preferred_read_replica: -1 }
        FetchedPartition { records: Records::Whole(b"") }
        ProducePartition { records: Records::Null }
        ListOffsetsRequest { replica_id: -1 }
        ListOffsetsPartition { current_leader_epoch: -1 }
        ListedPartition { timestamp: -1, offset: -1, leader_epoch: -1 }
        OffsetForLeaderEpochRequest { replica_id: -2 }
        EpochPartition { current_leader_epoch: -1 }
        EpochEnd { leader_epoch: -1, end_offset: -1 }
    }
}

#[test]
fn of_groups_and_transactions() {
    defaults! {
        OffsetCommitRequest { generation_id: -1, retention_time_ms: -1 }
        CommitPartition { committed_leader_epoch: -1, commit_timestamp: -1 }
        FetchedOffset { committed_leader_epoch: -1 }
        JoinGroupRequest { rebalance_timeout_ms: -1 }
        JoinGroupResponse { generation_id: -1, protocol_name: Some("") }
        DescribedGroup { authorized_operations: -0x8000_0000 }
        InitProducerIdRequest { producer_id: -1, producer_epoch: -1 }
        InitProducerIdResponse { producer_id: -1 }
        TxnOffsetCommitRequest { generation_id: -1 }
        TxnCommitPartition { committed_leader_epoch: -1 }
    }
}

#[test]
fn of_a_cluster() {
    defaults! {
        MetadataRequest { topics: None, allow_auto_topic_creation: true }
        MetadataResponse { controller_id: -1, cluster_authorized_operations: -0x8000_0000 }
        MetadataTopic { topic_authorized_operations: -0x8000_0000 }
        MetadataPartition { leader_epoch: -1 }
        DescribeClusterResponse { controller_id: -1, cluster_authorized_operations: -0x8000_0000 }
        CreateTopicsRequest { timeout_ms: 60_000 }
        CreatedTopic { num_partitions: -1, replication_factor: -1 }
        CreatedConfig { config_source: -1 }
    }
}
