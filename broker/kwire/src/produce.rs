//! Produce: batches from a producer.

use crate::message::wire;

wire! {
    /// Produce: hands batches in. Below version 3 its records are of formats 0 or 1, which the broker refuses.
    struct ProduceRequest<'a>: Request of PRODUCE {
        /// The producer's transactional id, or null.
        transactional_id: Option<&'a str>, 3..;
        /// When to answer: 0 not at all, 1 once the leader has it, -1 once all in sync have it.
        acks: i16, 0..;
        /// For how many milliseconds to wait for that.
        timeout_ms: i32, 0..;
        /// By topic.
        topic_data: Vec<ProduceTopic<'a>>, 0..;
    }

    /// A topic of a [`ProduceRequest`].
    struct ProduceTopic<'a> {
        /// Its name.
        name: &'a str, 0..;
        /// By partition.
        partition_data: Vec<ProducePartition<'a>>, 0..;
    }

    /// A partition of a [`ProduceRequest`].
    struct ProducePartition<'a> {
        /// Its number.
        index: i32, 0..;
        /// One batch; a reader lends it.
        records: crate::Records<'a>, 0..;
    }

    /// Answers [`ProduceRequest`], unless its acks are 0.
    struct ProduceResponse<'a>: Response of PRODUCE {
        /// By topic.
        responses: Vec<ProducedTopic<'a>>, 0..;
        /// For how many milliseconds the client was held back.
        throttle_time_ms: i32, 1..;
    }

    /// A topic of a [`ProduceResponse`].
    struct ProducedTopic<'a> {
        /// Its name.
        name: &'a str, 0..;
        /// By partition.
        partition_responses: Vec<ProducedPartition<'a>>, 0..;
    }

    /// A partition of a [`ProduceResponse`].
    struct ProducedPartition<'a> {
        /// Its number.
        index: i32, 0..;
        /// An error's number, or 0.
        error_code: i16, 0..;
        /// The offset of the batch's first record; -1 where it wasn't taken.
        base_offset: i64, 0..;
        /// When the broker appended it, in milliseconds since 1970; -1 where records keep the producer's times.
        log_append_time_ms: i64 = -1, 2..;
        /// The log's first offset, or -1.
        log_start_offset: i64 = -1, 5..;
        /// Which records were at fault (KIP-467).
        record_errors: Vec<RecordError<'a>>, 8..;
        /// What was wrong, in words, or null.
        error_message: Option<&'a str>, 8..;
    }

    /// A record for which a batch was refused.
    struct RecordError<'a> {
        /// The record's place in its batch.
        batch_index: i32, 8..;
        /// What was wrong, in words, or null.
        batch_index_error_message: Option<&'a str>, 8..;
    }
}
