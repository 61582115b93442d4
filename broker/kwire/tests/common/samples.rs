//! One of each message, all of whose fields have values of their own.

use kwire::fetch::*;
use kwire::groups::{describe_groups::*, find_coordinator::*, heartbeat::*, join_group::*, leave_group::*, list_groups::*, sync_group::*};
use kwire::metadata::{create_topics::*, describe_cluster::*, *};
use kwire::offsets::{list_offsets::*, offset_commit::*, offset_fetch::*, offset_for_leader_epoch::*};
use kwire::produce::*;
use kwire::transactions::{add_offsets_to_txn::*, add_partitions_to_txn::*, end_txn::*, init_producer_id::*, txn_offset_commit::*};
use kwire::versions::*;
use kwire::{Records, Uuid};

pub const ID: Uuid = Uuid([0xa0, 0xa1, 0xa2, 0xa3, 0xa4, 0xa5, 0xa6, 0xa7, 0xa8, 0xa9, 0xaa, 0xab, 0xac, 0xad, 0xae, 0xaf]);

pub fn produce_request() -> ProduceRequest<'static> {
    ProduceRequest {
        transactional_id: Some("tx"),
        acks: -1,
        timeout_ms: 1500,
        topic_data: vec![ProduceTopic {
            name: "pay",
            partition_data: vec![ProducePartition { index: 3, records: Records::Whole(b"batch") }],
        }],
    }
}

pub fn produce_response() -> ProduceResponse<'static> {
    let partition = ProducedPartition {
        index: 3,
        error_code: 87,
        base_offset: 0x0102_0304_0506,
        log_append_time_ms: 1_700_000_000_000,
        log_start_offset: 17,
        record_errors: vec![RecordError { batch_index: 2, batch_index_error_message: Some("bad") }],
        error_message: Some("worse"),
    };
    ProduceResponse { responses: vec![ProducedTopic { name: "pay", partition_responses: vec![partition] }], throttle_time_ms: 70 }
}

pub fn fetch_request() -> FetchRequest<'static> {
    let partition = FetchPartition {
        partition: 3,
        current_leader_epoch: 6,
        fetch_offset: 0x0102_0304_0506,
        last_fetched_epoch: 5,
        log_start_offset: 17,
        partition_max_bytes: 4096,
    };
    FetchRequest {
        replica_id: 2,
        max_wait_ms: 500,
        min_bytes: 1,
        max_bytes: 65_536,
        isolation_level: 1,
        session_id: 77,
        session_epoch: 8,
        topics: vec![FetchTopic { topic: "pay", partitions: vec![partition] }],
        forgotten_topics_data: vec![ForgottenTopic { topic: "old", partitions: vec![4, 9] }],
        rack_id: "r1",
    }
}

pub fn fetch_response() -> FetchResponse<'static> {
    let partition = FetchedPartition {
        partition_index: 3,
        error_code: 1,
        high_watermark: 0x0102_0304_0506,
        last_stable_offset: 300,
        log_start_offset: 17,
        aborted_transactions: Some(vec![AbortedTransaction { producer_id: 4001, first_offset: 250 }]),
        preferred_read_replica: 2,
        records: Records::Whole(b"batch"),
    };
    FetchResponse {
        throttle_time_ms: 70,
        error_code: 71,
        session_id: 77,
        responses: vec![FetchedTopic { topic: "pay", partitions: vec![partition] }],
    }
}

pub fn list_offsets_request() -> ListOffsetsRequest<'static> {
    let partition = ListOffsetsPartition { partition_index: 3, current_leader_epoch: 6, timestamp: -2 };
    ListOffsetsRequest { replica_id: 2, isolation_level: 1, topics: vec![ListOffsetsTopic { name: "pay", partitions: vec![partition] }] }
}

pub fn list_offsets_response() -> ListOffsetsResponse<'static> {
    let partition =
        ListedPartition { partition_index: 3, error_code: 74, timestamp: 1_700_000_000_000, offset: 0x0102_0304_0506, leader_epoch: 6 };
    ListOffsetsResponse { throttle_time_ms: 70, topics: vec![ListedTopic { name: "pay", partitions: vec![partition] }] }
}

pub fn metadata_request() -> MetadataRequest<'static> {
    MetadataRequest {
        topics: Some(vec![AskedTopic { topic_id: ID, name: Some("pay") }]),
        allow_auto_topic_creation: false,
        include_topic_authorized_operations: true,
        ..Default::default()
    }
}

pub fn metadata_request_for_cluster() -> MetadataRequest<'static> {
    MetadataRequest { include_cluster_authorized_operations: true, ..metadata_request() }
}

pub fn metadata_response() -> MetadataResponse<'static> {
    let partition = MetadataPartition {
        error_code: 5,
        partition_index: 3,
        leader_id: 1,
        leader_epoch: 6,
        replica_nodes: vec![1, 2],
        isr_nodes: vec![1],
        offline_replicas: vec![2],
    };
    MetadataResponse {
        throttle_time_ms: 70,
        brokers: vec![MetadataBroker { node_id: 1, host: "h1", port: 9092, rack: Some("r1") }],
        cluster_id: Some("kp"),
        controller_id: 4,
        topics: vec![MetadataTopic {
            error_code: 3,
            name: Some("pay"),
            topic_id: ID,
            is_internal: true,
            partitions: vec![partition],
            topic_authorized_operations: 0x0df8,
        }],
        ..Default::default()
    }
}

pub fn metadata_response_for_cluster() -> MetadataResponse<'static> {
    MetadataResponse { cluster_authorized_operations: 0x0264, ..metadata_response() }
}

pub fn create_topics_request() -> CreateTopicsRequest<'static> {
    CreateTopicsRequest {
        topics: vec![NewTopic {
            name: "pay",
            num_partitions: 3,
            replication_factor: 2,
            assignments: vec![NewPartition { partition_index: 1, broker_ids: vec![4, 9] }],
            configs: vec![NewConfig { name: "k", value: Some("v") }],
        }],
        timeout_ms: 1500,
        validate_only: true,
    }
}

pub fn create_topics_response() -> CreateTopicsResponse<'static> {
    let config = CreatedConfig { name: "k", value: Some("v"), read_only: true, config_source: 5, is_sensitive: false };
    CreateTopicsResponse {
        throttle_time_ms: 70,
        topics: vec![CreatedTopic {
            name: "pay",
            topic_id: ID,
            error_code: 36,
            error_message: Some("there"),
            num_partitions: 3,
            replication_factor: 2,
            configs: Some(vec![config]),
        }],
    }
}

pub fn describe_cluster_request() -> DescribeClusterRequest {
    DescribeClusterRequest { include_cluster_authorized_operations: true }
}

pub fn describe_cluster_response() -> DescribeClusterResponse<'static> {
    DescribeClusterResponse {
        throttle_time_ms: 70,
        error_code: 41,
        error_message: Some("no"),
        cluster_id: "kp",
        controller_id: 4,
        brokers: vec![DescribedBroker { broker_id: 1, host: "h1", port: 9092, rack: Some("r1") }],
        cluster_authorized_operations: 0x0264,
    }
}

pub fn offset_commit_request() -> OffsetCommitRequest<'static> {
    let partition = CommitPartition {
        partition_index: 3,
        committed_offset: 0x0102_0304_0506,
        committed_leader_epoch: 6,
        commit_timestamp: -1,
        committed_metadata: Some("note"),
    };
    OffsetCommitRequest {
        group_id: "ledger",
        generation_id: 12,
        member_id: "m1",
        group_instance_id: Some("i1"),
        retention_time_ms: -1,
        topics: vec![CommitTopic { name: "pay", partitions: vec![partition] }],
    }
}

pub fn offset_commit_request_with_retention() -> OffsetCommitRequest<'static> {
    let mut request = offset_commit_request();
    request.group_instance_id = None;
    request.retention_time_ms = 86_400_000;
    request.topics[0].partitions[0].committed_leader_epoch = -1;
    request
}

pub fn offset_commit_request_with_time() -> OffsetCommitRequest<'static> {
    let mut request = offset_commit_request_with_retention();
    request.retention_time_ms = -1;
    request.topics[0].partitions[0].commit_timestamp = 1_700_000_000_000;
    request
}

pub fn offset_commit_response() -> OffsetCommitResponse<'static> {
    let partition = CommittedPartition { partition_index: 3, error_code: 22 };
    OffsetCommitResponse { throttle_time_ms: 70, topics: vec![CommittedTopic { name: "pay", partitions: vec![partition] }] }
}

fn offsets_topics() -> Option<Vec<OffsetsTopic<'static>>> {
    Some(vec![OffsetsTopic { name: "pay", partition_indexes: vec![3, 5] }])
}

pub fn offset_fetch_request_of_one() -> OffsetFetchRequest<'static> {
    OffsetFetchRequest { group_id: "ledger", topics: offsets_topics(), groups: Vec::new(), require_stable: true }
}

pub fn offset_fetch_request() -> OffsetFetchRequest<'static> {
    let groups = vec![OffsetsGroup { group_id: "ledger", topics: offsets_topics() }, OffsetsGroup { group_id: "all", topics: None }];
    OffsetFetchRequest { groups, require_stable: true, ..Default::default() }
}

fn fetched_topics() -> Vec<FetchedOffsetsTopic<'static>> {
    let partition = FetchedOffset {
        partition_index: 3,
        committed_offset: 0x0102_0304_0506,
        committed_leader_epoch: 6,
        metadata: Some("note"),
        error_code: 88,
    };
    vec![FetchedOffsetsTopic { name: "pay", partitions: vec![partition] }]
}

pub fn offset_fetch_response_of_one() -> OffsetFetchResponse<'static> {
    OffsetFetchResponse { throttle_time_ms: 70, topics: fetched_topics(), error_code: 16, groups: Vec::new() }
}

pub fn offset_fetch_response() -> OffsetFetchResponse<'static> {
    let group = FetchedOffsetsGroup { group_id: "ledger", topics: fetched_topics(), error_code: 16 };
    OffsetFetchResponse { throttle_time_ms: 70, groups: vec![group], ..Default::default() }
}

pub fn offset_for_leader_epoch_request() -> OffsetForLeaderEpochRequest<'static> {
    let partition = EpochPartition { partition: 3, current_leader_epoch: 6, leader_epoch: 5 };
    OffsetForLeaderEpochRequest { replica_id: 2, topics: vec![EpochTopic { topic: "pay", partitions: vec![partition] }] }
}

pub fn offset_for_leader_epoch_response() -> OffsetForLeaderEpochResponse<'static> {
    let partition = EpochEnd { error_code: 76, partition: 3, leader_epoch: 5, end_offset: 0x0102_0304_0506 };
    OffsetForLeaderEpochResponse { throttle_time_ms: 70, topics: vec![EpochEndTopic { topic: "pay", partitions: vec![partition] }] }
}

pub fn find_coordinator_request_of_one() -> FindCoordinatorRequest<'static> {
    FindCoordinatorRequest { key: "ledger", key_type: TRANSACTION, coordinator_keys: Vec::new() }
}

pub fn find_coordinator_request() -> FindCoordinatorRequest<'static> {
    FindCoordinatorRequest { key: "", key_type: TRANSACTION, coordinator_keys: vec!["t1", "t2"] }
}

pub fn find_coordinator_response_of_one() -> FindCoordinatorResponse<'static> {
    FindCoordinatorResponse {
        throttle_time_ms: 70,
        error_code: 15,
        error_message: Some("none"),
        node_id: 1,
        host: "h1",
        port: 9092,
        coordinators: Vec::new(),
    }
}

pub fn find_coordinator_response() -> FindCoordinatorResponse<'static> {
    let coordinator = Coordinator { key: "t1", node_id: 1, host: "h1", port: 9092, error_code: 15, error_message: Some("none") };
    FindCoordinatorResponse { throttle_time_ms: 70, coordinators: vec![coordinator], ..Default::default() }
}

pub fn join_group_request() -> JoinGroupRequest<'static> {
    JoinGroupRequest {
        group_id: "ledger",
        session_timeout_ms: 10_000,
        rebalance_timeout_ms: 60_000,
        member_id: "m1",
        group_instance_id: Some("i1"),
        protocol_type: "consumer",
        protocols: vec![JoinProtocol { name: "range", metadata: b"meta" }],
        reason: Some("why"),
    }
}

pub fn join_group_response() -> JoinGroupResponse<'static> {
    JoinGroupResponse {
        throttle_time_ms: 70,
        error_code: 79,
        generation_id: 12,
        protocol_type: Some("consumer"),
        protocol_name: Some("range"),
        leader: "m2",
        skip_assignment: true,
        member_id: "m1",
        members: vec![JoinedMember { member_id: "m3", group_instance_id: Some("i1"), metadata: b"meta" }],
    }
}

pub fn sync_group_request() -> SyncGroupRequest<'static> {
    SyncGroupRequest {
        group_id: "ledger",
        generation_id: 12,
        member_id: "m1",
        group_instance_id: Some("i1"),
        protocol_type: Some("consumer"),
        protocol_name: Some("range"),
        assignments: vec![MemberAssignment { member_id: "m2", assignment: b"part" }],
    }
}

pub fn sync_group_response() -> SyncGroupResponse<'static> {
    SyncGroupResponse {
        throttle_time_ms: 70,
        error_code: 27,
        protocol_type: Some("consumer"),
        protocol_name: Some("range"),
        assignment: b"part",
    }
}

pub fn heartbeat_request() -> HeartbeatRequest<'static> {
    HeartbeatRequest { group_id: "ledger", generation_id: 12, member_id: "m1", group_instance_id: Some("i1") }
}

pub fn heartbeat_response() -> HeartbeatResponse {
    HeartbeatResponse { throttle_time_ms: 70, error_code: 27 }
}

pub fn leave_group_request_of_one() -> LeaveGroupRequest<'static> {
    LeaveGroupRequest { group_id: "ledger", member_id: "m1", members: Vec::new() }
}

pub fn leave_group_request() -> LeaveGroupRequest<'static> {
    let member = LeavingMember { member_id: "m1", group_instance_id: Some("i1"), reason: Some("why") };
    LeaveGroupRequest { group_id: "ledger", member_id: "", members: vec![member] }
}

pub fn leave_group_response() -> LeaveGroupResponse<'static> {
    let member = LeftMember { member_id: "m1", group_instance_id: Some("i1"), error_code: 82 };
    LeaveGroupResponse { throttle_time_ms: 70, error_code: 25, members: vec![member] }
}

pub fn describe_groups_request() -> DescribeGroupsRequest<'static> {
    DescribeGroupsRequest { groups: vec!["ledger", "other"], include_authorized_operations: true }
}

pub fn describe_groups_response() -> DescribeGroupsResponse<'static> {
    let member = DescribedMember {
        member_id: "m1",
        group_instance_id: Some("i1"),
        client_id: "till",
        client_host: "/h1",
        member_metadata: b"meta",
        member_assignment: b"part",
    };
    let group = DescribedGroup {
        error_code: 69,
        group_id: "ledger",
        group_state: "Stable",
        protocol_type: "consumer",
        protocol_data: "range",
        members: vec![member],
        authorized_operations: 0x0264,
    };
    DescribeGroupsResponse { throttle_time_ms: 70, groups: vec![group] }
}

pub fn list_groups_request() -> ListGroupsRequest<'static> {
    ListGroupsRequest { states_filter: vec!["Stable", "Empty"] }
}

pub fn list_groups_response() -> ListGroupsResponse<'static> {
    let group = ListedGroup { group_id: "ledger", protocol_type: "consumer", group_state: "Stable" };
    ListGroupsResponse { throttle_time_ms: 70, error_code: 14, groups: vec![group] }
}

pub fn init_producer_id_request() -> InitProducerIdRequest<'static> {
    InitProducerIdRequest { transactional_id: Some("tx"), transaction_timeout_ms: 30_000, producer_id: 4001, producer_epoch: 9 }
}

pub fn init_producer_id_response() -> InitProducerIdResponse {
    InitProducerIdResponse { throttle_time_ms: 70, error_code: 51, producer_id: 4001, producer_epoch: 9 }
}

pub fn add_partitions_to_txn_request() -> AddPartitionsToTxnRequest<'static> {
    let topic = JoiningTopic { name: "pay", partitions: vec![3, 5] };
    AddPartitionsToTxnRequest { transactional_id: "tx", producer_id: 4001, producer_epoch: 9, topics: vec![topic] }
}

pub fn add_partitions_to_txn_response() -> AddPartitionsToTxnResponse<'static> {
    let partition = JoinedPartition { partition_index: 3, partition_error_code: 48 };
    let topic = JoinedTopic { name: "pay", results_by_partition: vec![partition] };
    AddPartitionsToTxnResponse { throttle_time_ms: 70, results_by_topic: vec![topic] }
}

pub fn add_offsets_to_txn_request() -> AddOffsetsToTxnRequest<'static> {
    AddOffsetsToTxnRequest { transactional_id: "tx", producer_id: 4001, producer_epoch: 9, group_id: "ledger" }
}

pub fn add_offsets_to_txn_response() -> AddOffsetsToTxnResponse {
    AddOffsetsToTxnResponse { throttle_time_ms: 70, error_code: 48 }
}

pub fn end_txn_request() -> EndTxnRequest<'static> {
    EndTxnRequest { transactional_id: "tx", producer_id: 4001, producer_epoch: 9, committed: true }
}

pub fn end_txn_response() -> EndTxnResponse {
    EndTxnResponse { throttle_time_ms: 70, error_code: 47 }
}

pub fn txn_offset_commit_request() -> TxnOffsetCommitRequest<'static> {
    let partition = TxnCommitPartition {
        partition_index: 3,
        committed_offset: 0x0102_0304_0506,
        committed_leader_epoch: 6,
        committed_metadata: Some("note"),
    };
    TxnOffsetCommitRequest {
        transactional_id: "tx",
        group_id: "ledger",
        producer_id: 4001,
        producer_epoch: 9,
        generation_id: 12,
        member_id: "m1",
        group_instance_id: Some("i1"),
        topics: vec![TxnCommitTopic { name: "pay", partitions: vec![partition] }],
    }
}

pub fn txn_offset_commit_response() -> TxnOffsetCommitResponse<'static> {
    let partition = TxnCommittedPartition { partition_index: 3, error_code: 22 };
    TxnOffsetCommitResponse { throttle_time_ms: 70, topics: vec![TxnCommittedTopic { name: "pay", partitions: vec![partition] }] }
}

pub fn api_versions_request() -> ApiVersionsRequest<'static> {
    ApiVersionsRequest { client_software_name: "till", client_software_version: "1.2" }
}

pub fn api_versions_response() -> ApiVersionsResponse {
    let api = ApiRange { api_key: 18, min_version: 1, max_version: 4 };
    ApiVersionsResponse { error_code: 35, api_keys: vec![api], throttle_time_ms: 70 }
}
