//! AddPartitionsToTxn.

use crate::message::wire;

wire! {
    /// AddPartitionsToTxn: partitions join a transaction.
    struct AddPartitionsToTxnRequest<'a>: Request of ADD_PARTITIONS_TO_TXN {
        /// The transactional id.
        transactional_id: &'a str, 0..=3;
        /// The producer's id.
        producer_id: i64, 0..=3;
        /// Its epoch.
        producer_epoch: i16, 0..=3;
        /// By topic.
        topics: Vec<JoiningTopic<'a>>, 0..=3;
    }

    /// A topic of an [`AddPartitionsToTxnRequest`].
    struct JoiningTopic<'a> {
        /// Its name.
        name: &'a str, 0..;
        /// Its partitions.
        partitions: Vec<i32>, 0..;
    }

    /// Answers [`AddPartitionsToTxnRequest`].
    struct AddPartitionsToTxnResponse<'a>: Response of ADD_PARTITIONS_TO_TXN {
        /// For how many milliseconds the client was held back.
        throttle_time_ms: i32, 0..;
        /// By topic.
        results_by_topic: Vec<JoinedTopic<'a>>, 0..=3;
    }

    /// A topic of an [`AddPartitionsToTxnResponse`].
    struct JoinedTopic<'a> {
        /// Its name.
        name: &'a str, 0..;
        /// By partition.
        results_by_partition: Vec<JoinedPartition>, 0..;
    }

    /// A partition of an [`AddPartitionsToTxnResponse`].
    struct JoinedPartition {
        /// Its number.
        partition_index: i32, 0..;
        /// An error's number, or 0.
        partition_error_code: i16, 0..;
    }
}
