//! OffsetFetch.

use crate::message::wire;

wire! {
    /// OffsetFetch: asks for a group's offsets; from version 8 on for those of several groups (KIP-709).
    struct OffsetFetchRequest<'a>: Request of OFFSET_FETCH {
        /// The group.
        group_id: &'a str, 0..=7;
        /// By topic; null for all.
        topics: Option<Vec<OffsetsTopic<'a>>>, 0..=7, null 2..;
        /// By group.
        groups: Vec<OffsetsGroup<'a>>, 8..;
        /// Whether to refuse where a transaction with offsets is open (KIP-447).
        require_stable: bool, 7..;
    }

    /// A group of an [`OffsetFetchRequest`].
    struct OffsetsGroup<'a> {
        /// Its id.
        group_id: &'a str, 8..;
        /// By topic; null for all.
        topics: Option<Vec<OffsetsTopic<'a>>>, 8..;
    }

    /// A topic of an [`OffsetFetchRequest`].
    struct OffsetsTopic<'a> {
        /// Its name.
        name: &'a str, 0..;
        /// Its partitions.
        partition_indexes: Vec<i32>, 0..;
    }

    /// Answers [`OffsetFetchRequest`].
    struct OffsetFetchResponse<'a>: Response of OFFSET_FETCH {
        /// For how many milliseconds the client was held back.
        throttle_time_ms: i32, 3..;
        /// By topic.
        topics: Vec<FetchedOffsetsTopic<'a>>, 0..=7;
        /// An error's number, or 0.
        error_code: i16, 2..=7;
        /// By group.
        groups: Vec<FetchedOffsetsGroup<'a>>, 8..;
    }

    /// A group of an [`OffsetFetchResponse`].
    struct FetchedOffsetsGroup<'a> {
        /// Its id.
        group_id: &'a str, 8..;
        /// By topic.
        topics: Vec<FetchedOffsetsTopic<'a>>, 8..;
        /// An error's number, or 0.
        error_code: i16, 8..;
    }

    /// A topic of an [`OffsetFetchResponse`].
    struct FetchedOffsetsTopic<'a> {
        /// Its name.
        name: &'a str, 0..;
        /// By partition.
        partitions: Vec<FetchedOffset<'a>>, 0..;
    }

    /// A partition of an [`OffsetFetchResponse`].
    struct FetchedOffset<'a> {
        /// Its number.
        partition_index: i32, 0..;
        /// The offset; -1 where the group has none.
        committed_offset: i64, 0..;
        /// The epoch that was committed with it, or -1.
        committed_leader_epoch: i32 = -1, 5..;
        /// The text that was committed with it.
        metadata: Option<&'a str>, 0..;
        /// An error's number, or 0.
        error_code: i16, 0..;
    }
}
