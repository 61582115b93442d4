//! DescribeCluster.

use super::NO_OPERATIONS;
use crate::message::wire;

wire! {
    /// DescribeCluster: asks for the brokers (KIP-700).
    struct DescribeClusterRequest: Request of DESCRIBE_CLUSTER {
        /// Whether to say what the client may do with the cluster.
        include_cluster_authorized_operations: bool, 0..;
    }

    /// Answers [`DescribeClusterRequest`].
    struct DescribeClusterResponse<'a>: Response of DESCRIBE_CLUSTER {
        /// For how many milliseconds the client was held back.
        throttle_time_ms: i32, 0..;
        /// An error's number, or 0.
        error_code: i16, 0..;
        /// What was wrong, in words, or null.
        error_message: Option<&'a str>, 0..;
        /// The cluster's id.
        cluster_id: &'a str, 0..;
        /// The broker that takes an admin's requests, or -1.
        controller_id: i32 = -1, 0..;
        /// The brokers.
        brokers: Vec<DescribedBroker<'a>>, 0..;
        /// What the client may do with the cluster, as bits, or [`NO_OPERATIONS`].
        cluster_authorized_operations: i32 = NO_OPERATIONS, 0..;
    }

    /// A broker of a [`DescribeClusterResponse`].
    struct DescribedBroker<'a> {
        /// Its number.
        broker_id: i32, 0..;
        /// Its host.
        host: &'a str, 0..;
        /// Its port.
        port: i32, 0..;
        /// Its rack, or null.
        rack: Option<&'a str>, 0..;
    }
}
