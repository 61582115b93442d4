//! TxnOffsetCommit.

use crate::message::wire;

wire! {
    /// TxnOffsetCommit: keeps a group's offsets once a transaction commits.
    struct TxnOffsetCommitRequest<'a>: Request of TXN_OFFSET_COMMIT {
        /// The transactional id.
        transactional_id: &'a str, 0..;
        /// The group.
        group_id: &'a str, 0..;
        /// The producer's id.
        producer_id: i64, 0..;
        /// Its epoch.
        producer_epoch: i16, 0..;
        /// The group's generation, or -1 (KIP-447).
        generation_id: i32 = -1, 3..;
        /// The member, or empty.
        member_id: &'a str, 3..;
        /// The static member's name, or null.
        group_instance_id: Option<&'a str>, 3..;
        /// By topic.
        topics: Vec<TxnCommitTopic<'a>>, 0..;
    }

    /// A topic of a [`TxnOffsetCommitRequest`].
    struct TxnCommitTopic<'a> {
        /// Its name.
        name: &'a str, 0..;
        /// By partition.
        partitions: Vec<TxnCommitPartition<'a>>, 0..;
    }

    /// A partition of a [`TxnOffsetCommitRequest`].
    struct TxnCommitPartition<'a> {
        /// Its number.
        partition_index: i32, 0..;
        /// The offset.
        committed_offset: i64, 0..;
        /// The epoch of the last record that was consumed, or -1 (KIP-320).
        committed_leader_epoch: i32 = -1, 2..;
        /// A text that the client keeps with it, or null.
        committed_metadata: Option<&'a str>, 0..;
    }

    /// Answers [`TxnOffsetCommitRequest`].
    struct TxnOffsetCommitResponse<'a>: Response of TXN_OFFSET_COMMIT {
        /// For how many milliseconds the client was held back.
        throttle_time_ms: i32, 0..;
        /// By topic.
        topics: Vec<TxnCommittedTopic<'a>>, 0..;
    }

    /// A topic of a [`TxnOffsetCommitResponse`].
    struct TxnCommittedTopic<'a> {
        /// Its name.
        name: &'a str, 0..;
        /// By partition.
        partitions: Vec<TxnCommittedPartition>, 0..;
    }

    /// A partition of a [`TxnOffsetCommitResponse`].
    struct TxnCommittedPartition {
        /// Its number.
        partition_index: i32, 0..;
        /// An error's number, or 0.
        error_code: i16, 0..;
    }
}
