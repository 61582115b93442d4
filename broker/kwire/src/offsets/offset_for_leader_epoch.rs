//! OffsetForLeaderEpoch.

use crate::message::wire;

wire! {
    /// OffsetForLeaderEpoch: asks where an epoch ends (KIP-101, KIP-320).
    struct OffsetForLeaderEpochRequest<'a>: Request of OFFSET_FOR_LEADER_EPOCH {
        /// The number of the broker that asks; -1 for a consumer.
        replica_id: i32 = -2, 3..;
        /// By topic.
        topics: Vec<EpochTopic<'a>>, 0..;
    }

    /// A topic of an [`OffsetForLeaderEpochRequest`].
    struct EpochTopic<'a> {
        /// Its name.
        topic: &'a str, 0..;
        /// By partition.
        partitions: Vec<EpochPartition>, 0..;
    }

    /// A partition of an [`OffsetForLeaderEpochRequest`].
    struct EpochPartition {
        /// Its number.
        partition: i32, 0..;
        /// The leader epoch that the client knows, or -1.
        current_leader_epoch: i32 = -1, 2..;
        /// The epoch that is asked for.
        leader_epoch: i32, 0..;
    }

    /// Answers [`OffsetForLeaderEpochRequest`].
    struct OffsetForLeaderEpochResponse<'a>: Response of OFFSET_FOR_LEADER_EPOCH {
        /// For how many milliseconds the client was held back.
        throttle_time_ms: i32, 2..;
        /// By topic.
        topics: Vec<EpochEndTopic<'a>>, 0..;
    }

    /// A topic of an [`OffsetForLeaderEpochResponse`].
    struct EpochEndTopic<'a> {
        /// Its name.
        topic: &'a str, 0..;
        /// By partition.
        partitions: Vec<EpochEnd>, 0..;
    }

    /// A partition of an [`OffsetForLeaderEpochResponse`].
    struct EpochEnd {
        /// An error's number, or 0.
        error_code: i16, 0..;
        /// The partition's number.
        partition: i32, 0..;
        /// The greatest epoch of the log that is at most the one asked for, or -1.
        leader_epoch: i32 = -1, 1..;
        /// The offset at which that epoch ends, or -1.
        end_offset: i64 = -1, 0..;
    }
}
