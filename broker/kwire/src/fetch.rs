//! Fetch: batches for a consumer.

use crate::message::wire;

wire! {
    /// Fetch: asks for batches.
    struct FetchRequest<'a>: Request of FETCH {
        /// The number of the broker that asks; -1 for a consumer.
        replica_id: i32 = -1, 0..=14;
        /// For how many milliseconds to wait for `min_bytes`.
        max_wait_ms: i32, 0..;
        /// The fewest bytes that are worth an answer.
        min_bytes: i32, 0..;
        /// The most bytes of an answer; the first batch comes whole in any case (KIP-74).
        max_bytes: i32 = i32::MAX, 3..;
        /// 0: all that is committed; 1: no record of a transaction that is open or aborted (KIP-98).
        isolation_level: i8, 4..;
        /// The fetch session, or 0 (KIP-227).
        session_id: i32, 7..;
        /// The session's epoch; -1 for no session.
        session_epoch: i32 = -1, 7..;
        /// By topic.
        topics: Vec<FetchTopic<'a>>, 0..;
        /// What to take out of the session.
        forgotten_topics_data: Vec<ForgottenTopic<'a>>, 7..;
        /// The rack of the consumer, or empty (KIP-392).
        rack_id: &'a str, 11..;
    }

    /// A topic of a [`FetchRequest`].
    struct FetchTopic<'a> {
        /// Its name.
        topic: &'a str, 0..=12;
        /// By partition.
        partitions: Vec<FetchPartition>, 0..;
    }

    /// A partition of a [`FetchRequest`].
    struct FetchPartition {
        /// Its number.
        partition: i32, 0..;
        /// The leader epoch that the consumer knows, or -1 (KIP-320).
        current_leader_epoch: i32 = -1, 9..;
        /// From which offset on.
        fetch_offset: i64, 0..;
        /// The epoch of the last batch that was fetched, or -1 (KIP-595).
        last_fetched_epoch: i32 = -1, 12..;
        /// The first offset of a follower's log; -1 for a consumer.
        log_start_offset: i64 = -1, 5..;
        /// The most bytes of this partition.
        partition_max_bytes: i32, 0..;
    }

    /// A topic that leaves a fetch session.
    struct ForgottenTopic<'a> {
        /// Its name.
        topic: &'a str, 7..=12;
        /// Its partitions that leave.
        partitions: Vec<i32>, 7..;
    }

    /// Answers [`FetchRequest`].
    struct FetchResponse<'a>: Response of FETCH {
        /// For how many milliseconds the client was held back.
        throttle_time_ms: i32, 1..;
        /// An error's number, or 0.
        error_code: i16, 7..;
        /// The fetch session, or 0.
        session_id: i32, 7..;
        /// By topic.
        responses: Vec<FetchedTopic<'a>>, 0..;
    }

    /// A topic of a [`FetchResponse`].
    struct FetchedTopic<'a> {
        /// Its name.
        topic: &'a str, 0..=12;
        /// By partition.
        partitions: Vec<FetchedPartition<'a>>, 0..;
    }

    /// A partition of a [`FetchResponse`].
    struct FetchedPartition<'a> {
        /// Its number.
        partition_index: i32, 0..;
        /// An error's number, or 0.
        error_code: i16, 0..;
        /// The high watermark.
        high_watermark: i64, 0..;
        /// The last stable offset, or -1.
        last_stable_offset: i64 = -1, 4..;
        /// The log's first offset, or -1.
        log_start_offset: i64 = -1, 5..;
        /// The aborted transactions of the records below; null for isolation level 0.
        aborted_transactions: Option<Vec<AbortedTransaction>>, 4..;
        /// Which broker to ask instead, or -1 (KIP-392).
        preferred_read_replica: i32 = -1, 11..;
        /// The batches. They are lent: see [`Encoded`](crate::Encoded). Where there are none, say empty (the default) and not null, as
        /// Kafka does: librdkafka takes a null for a fault.
        records: crate::Records<'a> = crate::Records::Whole(&[]), 0..;
    }

    /// A transaction whose records a consumer has to leave out.
    struct AbortedTransaction {
        /// Its producer.
        producer_id: i64, 4..;
        /// Its first offset.
        first_offset: i64, 4..;
    }
}
