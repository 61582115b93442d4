//! What clients ask of the cluster: ApiVersions, Metadata, FindCoordinator, CreateTopics, DescribeCluster.

use crate::hub::Hub;
use crate::partition::Partition;
use crate::reply::{Answered, Call, Close, Reply};
use crate::requests::ADVERTISED;
use kwire::groups::find_coordinator::{Coordinator, FindCoordinatorRequest, FindCoordinatorResponse};
use kwire::metadata::create_topics::{CreateTopicsRequest, CreateTopicsResponse, CreatedTopic, NewTopic};
use kwire::metadata::describe_cluster::{DescribeClusterRequest, DescribeClusterResponse, DescribedBroker};
use kwire::metadata::{MetadataBroker, MetadataPartition, MetadataRequest, MetadataResponse, MetadataTopic};
use kwire::versions::{ApiRange, ApiVersionsRequest, ApiVersionsResponse};
use kwire::{ErrorCode, Uuid};

/// The cluster's id.
const CLUSTER: &str = "kpart";

fn versions(error_code: i16) -> ApiVersionsResponse {
    let range = |it: &crate::requests::Advertised| ApiRange { api_key: it.api.key, min_version: it.least, max_version: it.greatest };
    ApiVersionsResponse { error_code, api_keys: ADVERTISED.iter().map(range).collect(), throttle_time_ms: 0 }
}

/// Which requests are answered.
pub fn api_versions(call: &mut Call<'_>, _: &ApiVersionsRequest<'_>, reply: Reply<'_>) -> Result<Answered, Close> {
    reply.send(&versions(call.failing.unwrap_or_default()))
}

/// The same to a client that asked at a version that isn't known (KIP-511).
pub fn bad_api_versions(reply: Reply<'_>) -> Result<Answered, Close> {
    reply.at_version(0).send(&versions(ErrorCode::UnsupportedVersion.into()))
}

/// Brokers, topics and who leads.
pub fn metadata(call: &mut Call<'_>, request: &MetadataRequest<'_>, reply: Reply<'_>) -> Result<Answered, Close> {
    let hub = call.hub;
    let host = hub.host();
    let brokers = (0..hub.nodes()).map(|node| MetadataBroker { node_id: node.into(), host: &host, port: hub.port(node), rack: None });
    let all = || hub.options.topics.iter().map(|it| known_topic(call, &it.name)).collect();
    let topics = match &request.topics {
        None => all(),
        Some(asked) if asked.is_empty() && call.version == 0 => all(),
        Some(asked) => asked.iter().map(|it| topic(call, it.name)).collect(),
    };
    reply.send(&MetadataResponse {
        brokers: brokers.collect(),
        cluster_id: Some(CLUSTER),
        controller_id: hub.coordinator().map_or(-1, i32::from),
        topics,
        ..MetadataResponse::default()
    })
}

/// A topic that was asked for. No topic has an id.
fn topic<'a>(call: &Call<'_>, name: Option<&'a str>) -> MetadataTopic<'a> {
    let fault = |code: ErrorCode| MetadataTopic { error_code: code.into(), name, ..MetadataTopic::default() };
    match name {
        None => fault(ErrorCode::UnknownTopicId),
        Some(name) if call.hub.options.topics.iter().all(|it| it.name != name) => fault(ErrorCode::UnknownTopicOrPartition),
        Some(name) => known_topic(call, name),
    }
}

fn known_topic<'a>(call: &Call<'_>, name: &'a str) -> MetadataTopic<'a> {
    let partitions = call.hub.partitions.iter().filter(|it| it.topic == name).map(|it| described(call.hub, it));
    MetadataTopic {
        error_code: call.failing.unwrap_or_default(),
        name: Some(name),
        topic_id: Uuid::ZERO,
        partitions: partitions.collect(),
        ..MetadataTopic::default()
    }
}

/// Who leads a partition by the controller's record, if that node is up.
fn described(hub: &Hub, partition: &Partition) -> MetadataPartition {
    let record = partition.control().pass.leadership().ok();
    let leader = record.and_then(|it| it.leader).filter(|it| hub.is_up(it.0));
    let all = || 0..hub.nodes();
    let error = if leader.is_some() { ErrorCode::None } else { ErrorCode::LeaderNotAvailable };
    MetadataPartition {
        error_code: error.into(),
        partition_index: partition.index,
        leader_id: leader.map_or(-1, |it| it.0.into()),
        leader_epoch: leader.and_then(|it| i32::try_from(it.1).ok()).unwrap_or(-1),
        replica_nodes: all().map(i32::from).collect(),
        isr_nodes: all().filter(|it| record.is_some_and(|at| at.has_in_sync(*it))).map(i32::from).collect(),
        offline_replicas: all().filter(|it| !hub.is_up(*it)).map(i32::from).collect(),
    }
}

/// Which node coordinates: one for all groups and transactional ids.
pub fn find_coordinator(call: &mut Call<'_>, request: &FindCoordinatorRequest<'_>, reply: Reply<'_>) -> Result<Answered, Close> {
    let (hub, host) = (call.hub, call.hub.host());
    let found = match (call.failing, hub.coordinator()) {
        (Some(code), _) => Err(code),
        (None, None) => Err(ErrorCode::CoordinatorNotAvailable.into()),
        (None, Some(node)) => Ok(node),
    };
    let error_code = found.err().unwrap_or_default();
    let (node_id, port) = found.map_or((-1, -1), |it| (it.into(), hub.port(it)));
    let host = if found.is_ok() { host.as_str() } else { "" };
    let one = |key| Coordinator { key, node_id, host, port, error_code, error_message: None };
    reply.send(&FindCoordinatorResponse {
        error_code,
        node_id,
        host,
        port,
        coordinators: request.coordinator_keys.iter().map(|it| one(it)).collect(),
        ..FindCoordinatorResponse::default()
    })
}

/// Topics are made by the options alone: one that is there is there, and another one is refused.
pub fn create_topics(call: &mut Call<'_>, request: &CreateTopicsRequest<'_>, reply: Reply<'_>) -> Result<Answered, Close> {
    let topics = request.topics.iter().map(|it| created(call, it)).collect();
    reply.send(&CreateTopicsResponse { throttle_time_ms: 0, topics })
}

fn created<'a>(call: &Call<'_>, asked: &NewTopic<'a>) -> CreatedTopic<'a> {
    let is_there = call.hub.options.topics.iter().any(|it| it.name == asked.name);
    let (code, text) = match (call.failing, is_there) {
        (Some(code), _) => (code, None),
        (None, true) => (ErrorCode::TopicAlreadyExists.into(), None),
        (None, false) => (ErrorCode::InvalidRequest.into(), Some("topics are given at the start, by --topic")),
    };
    CreatedTopic { name: asked.name, error_code: code, error_message: text, ..CreatedTopic::default() }
}

/// The brokers, for an admin's client.
pub fn describe_cluster(call: &mut Call<'_>, _: &DescribeClusterRequest, reply: Reply<'_>) -> Result<Answered, Close> {
    let hub = call.hub;
    let host = hub.host();
    let broker = |node: u8| DescribedBroker { broker_id: node.into(), host: &host, port: hub.port(node), rack: None };
    reply.send(&DescribeClusterResponse {
        error_code: call.failing.unwrap_or_default(),
        cluster_id: CLUSTER,
        controller_id: hub.coordinator().map_or(-1, i32::from),
        brokers: (0..hub.nodes()).map(broker).collect(),
        ..DescribeClusterResponse::default()
    })
}
