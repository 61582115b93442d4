//! ListOffsets.

use crate::message::wire;

/// As a timestamp: asks for the log's end, or for its last stable offset at isolation level 1.
pub const LATEST: i64 = -1;
/// As a timestamp: asks for the log's first offset.
pub const EARLIEST: i64 = -2;
/// As a timestamp: asks for the record with the greatest timestamp (from version 7 on, KIP-734).
pub const MAX_TIMESTAMP: i64 = -3;
/// As a timestamp: asks for the first offset on the broker's own disk (from version 8 on, KIP-405).
pub const EARLIEST_LOCAL: i64 = -4;

wire! {
    /// ListOffsets: asks for an offset by a timestamp.
    struct ListOffsetsRequest<'a>: Request of LIST_OFFSETS {
        /// The number of the broker that asks; -1 for a consumer.
        replica_id: i32 = -1, 0..;
        /// 0: up to the high watermark; 1: up to the last stable offset.
        isolation_level: i8, 2..;
        /// By topic.
        topics: Vec<ListOffsetsTopic<'a>>, 0..;
    }

    /// A topic of a [`ListOffsetsRequest`].
    struct ListOffsetsTopic<'a> {
        /// Its name.
        name: &'a str, 0..;
        /// By partition.
        partitions: Vec<ListOffsetsPartition>, 0..;
    }

    /// A partition of a [`ListOffsetsRequest`].
    struct ListOffsetsPartition {
        /// Its number.
        partition_index: i32, 0..;
        /// The leader epoch that the client knows, or -1.
        current_leader_epoch: i32 = -1, 4..;
        /// Milliseconds since 1970: the first record of this time or a later one; or one of this module's constants.
        timestamp: i64, 0..;
    }

    /// Answers [`ListOffsetsRequest`].
    struct ListOffsetsResponse<'a>: Response of LIST_OFFSETS {
        /// For how many milliseconds the client was held back.
        throttle_time_ms: i32, 2..;
        /// By topic.
        topics: Vec<ListedTopic<'a>>, 0..;
    }

    /// A topic of a [`ListOffsetsResponse`].
    struct ListedTopic<'a> {
        /// Its name.
        name: &'a str, 0..;
        /// By partition.
        partitions: Vec<ListedPartition>, 0..;
    }

    /// A partition of a [`ListOffsetsResponse`].
    struct ListedPartition {
        /// Its number.
        partition_index: i32, 0..;
        /// An error's number, or 0.
        error_code: i16, 0..;
        /// The record's time, or -1.
        timestamp: i64 = -1, 1..;
        /// The offset; -1 where no record has such a time.
        offset: i64 = -1, 1..;
        /// The epoch of the offset's batch, or -1.
        leader_epoch: i32 = -1, 4..;
    }
}
