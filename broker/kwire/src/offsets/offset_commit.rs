//! OffsetCommit.

use crate::message::wire;

wire! {
    /// OffsetCommit: keeps a group's offsets.
    struct OffsetCommitRequest<'a>: Request of OFFSET_COMMIT {
        /// The group.
        group_id: &'a str, 0..;
        /// The generation; -1 of a client that is no member.
        generation_id: i32 = -1, 1..;
        /// The member, or empty.
        member_id: &'a str, 1..;
        /// The static member's name, or null (KIP-345).
        group_instance_id: Option<&'a str>, 7..;
        /// For how many milliseconds to keep them; -1 for the broker's own time.
        retention_time_ms: i64 = -1, 2..=4;
        /// By topic.
        topics: Vec<CommitTopic<'a>>, 0..;
    }

    /// A topic of an [`OffsetCommitRequest`].
    struct CommitTopic<'a> {
        /// Its name.
        name: &'a str, 0..;
        /// By partition.
        partitions: Vec<CommitPartition<'a>>, 0..;
    }

    /// A partition of an [`OffsetCommitRequest`].
    struct CommitPartition<'a> {
        /// Its number.
        partition_index: i32, 0..;
        /// The offset.
        committed_offset: i64, 0..;
        /// The epoch of the last record that was consumed, or -1 (KIP-320).
        committed_leader_epoch: i32 = -1, 6..;
        /// The time of the commit in milliseconds since 1970, or -1.
        commit_timestamp: i64 = -1, 1..=1;
        /// A text that the client keeps with it, or null.
        committed_metadata: Option<&'a str>, 0..;
    }

    /// Answers [`OffsetCommitRequest`].
    struct OffsetCommitResponse<'a>: Response of OFFSET_COMMIT {
        /// For how many milliseconds the client was held back.
        throttle_time_ms: i32, 3..;
        /// By topic.
        topics: Vec<CommittedTopic<'a>>, 0..;
    }

    /// A topic of an [`OffsetCommitResponse`].
    struct CommittedTopic<'a> {
        /// Its name.
        name: &'a str, 0..;
        /// By partition.
        partitions: Vec<CommittedPartition>, 0..;
    }

    /// A partition of an [`OffsetCommitResponse`].
    struct CommittedPartition {
        /// Its number.
        partition_index: i32, 0..;
        /// An error's number, or 0.
        error_code: i16, 0..;
    }
}
