//! Brokers, topics and partitions: Metadata, and in modules of their own CreateTopics and DescribeCluster.

pub mod create_topics;
pub mod describe_cluster;

use crate::Uuid;
use crate::message::wire;

/// Stands for 'not asked for' in a field of authorized operations (KIP-430).
pub const NO_OPERATIONS: i32 = i32::MIN;

wire! {
    /// Metadata: asks for brokers, and for topics with their leaders.
    struct MetadataRequest<'a>: Request of METADATA {
        /// Which topics; null for all. At version 0 an empty list asks for all.
        topics: Option<Vec<AskedTopic<'a>>>, 0.., null 1..;
        /// Whether the broker may create what it doesn't have.
        allow_auto_topic_creation: bool = true, 4..;
        /// Whether to say what the client may do with the cluster.
        include_cluster_authorized_operations: bool, 8..=10;
        /// Whether to say what the client may do with each topic.
        include_topic_authorized_operations: bool, 8..;
    }

    /// A topic of a [`MetadataRequest`].
    struct AskedTopic<'a> {
        /// Its id, or zeros where it is asked for by name (KIP-516).
        topic_id: Uuid, 10..;
        /// Its name, or null where it is asked for by id.
        name: Option<&'a str>, 0.., null 10..;
    }

    /// Answers [`MetadataRequest`].
    struct MetadataResponse<'a>: Response of METADATA {
        /// For how many milliseconds the client was held back.
        throttle_time_ms: i32, 3..;
        /// The brokers.
        brokers: Vec<MetadataBroker<'a>>, 0..;
        /// The cluster's id, or null.
        cluster_id: Option<&'a str>, 2..;
        /// The broker that takes an admin's requests, or -1.
        controller_id: i32 = -1, 1..;
        /// The topics.
        topics: Vec<MetadataTopic<'a>>, 0..;
        /// What the client may do with the cluster, as bits, or [`NO_OPERATIONS`].
        cluster_authorized_operations: i32 = NO_OPERATIONS, 8..=10;
    }

    /// A broker of a [`MetadataResponse`].
    struct MetadataBroker<'a> {
        /// Its number.
        node_id: i32, 0..;
        /// Its host.
        host: &'a str, 0..;
        /// Its port.
        port: i32, 0..;
        /// Its rack, or null.
        rack: Option<&'a str>, 1..;
    }

    /// A topic of a [`MetadataResponse`].
    struct MetadataTopic<'a> {
        /// An error's number, or 0.
        error_code: i16, 0..;
        /// Its name; null where it was asked for by an id that isn't known.
        name: Option<&'a str>, 0.., null 12..;
        /// Its id, or zeros.
        topic_id: Uuid, 10..;
        /// Whether it is one of Kafka's own.
        is_internal: bool, 1..;
        /// Its partitions.
        partitions: Vec<MetadataPartition>, 0..;
        /// What the client may do with it, as bits, or [`NO_OPERATIONS`].
        topic_authorized_operations: i32 = NO_OPERATIONS, 8..;
    }

    /// A partition of a [`MetadataTopic`].
    struct MetadataPartition {
        /// An error's number, or 0.
        error_code: i16, 0..;
        /// Its number.
        partition_index: i32, 0..;
        /// Its leader, or -1.
        leader_id: i32, 0..;
        /// Its leader's epoch, or -1 (KIP-320).
        leader_epoch: i32 = -1, 7..;
        /// The brokers that have it.
        replica_nodes: Vec<i32>, 0..;
        /// Those in sync.
        isr_nodes: Vec<i32>, 0..;
        /// Those that are down.
        offline_replicas: Vec<i32>, 5..;
    }
}
