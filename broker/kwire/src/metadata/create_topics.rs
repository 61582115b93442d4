//! CreateTopics.

use crate::Uuid;
use crate::message::wire;

wire! {
    /// CreateTopics: an admin's wish for topics.
    struct CreateTopicsRequest<'a>: Request of CREATE_TOPICS {
        /// The topics.
        topics: Vec<NewTopic<'a>>, 0..;
        /// For how many milliseconds to wait until they are there.
        timeout_ms: i32 = 60_000, 0..;
        /// Whether to judge the wish alone, and create nothing.
        validate_only: bool, 1..;
    }

    /// A topic of a [`CreateTopicsRequest`].
    struct NewTopic<'a> {
        /// Its name.
        name: &'a str, 0..;
        /// Count of partitions; -1 for the broker's own, or where `assignments` name them (KIP-464).
        num_partitions: i32, 0..;
        /// Brokers for each partition; -1 likewise.
        replication_factor: i16, 0..;
        /// Which brokers shall have which partition, or empty.
        assignments: Vec<NewPartition>, 0..;
        /// Its settings.
        configs: Vec<NewConfig<'a>>, 0..;
    }

    /// Brokers of a partition of a [`NewTopic`].
    struct NewPartition {
        /// The partition.
        partition_index: i32, 0..;
        /// The brokers; the first one is preferred as leader.
        broker_ids: Vec<i32>, 0..;
    }

    /// A setting of a [`NewTopic`].
    struct NewConfig<'a> {
        /// Its name.
        name: &'a str, 0..;
        /// Its value, or null.
        value: Option<&'a str>, 0..;
    }

    /// Answers [`CreateTopicsRequest`]. The tagged field of version 5 (an error of the settings) is never written.
    struct CreateTopicsResponse<'a>: Response of CREATE_TOPICS {
        /// For how many milliseconds the client was held back.
        throttle_time_ms: i32, 2..;
        /// By topic.
        topics: Vec<CreatedTopic<'a>>, 0..;
    }

    /// A topic of a [`CreateTopicsResponse`].
    struct CreatedTopic<'a> {
        /// Its name.
        name: &'a str, 0..;
        /// Its id, or zeros.
        topic_id: Uuid, 7..;
        /// An error's number, or 0.
        error_code: i16, 0..;
        /// What was wrong, in words, or null.
        error_message: Option<&'a str>, 1..;
        /// Count of partitions, or -1 (KIP-525).
        num_partitions: i32 = -1, 5..;
        /// Brokers for each partition, or -1.
        replication_factor: i16 = -1, 5..;
        /// Its settings, or null where the client may not see them.
        configs: Option<Vec<CreatedConfig<'a>>>, 5..;
    }

    /// A setting of a [`CreatedTopic`].
    struct CreatedConfig<'a> {
        /// Its name.
        name: &'a str, 5..;
        /// Its value, or null.
        value: Option<&'a str>, 5..;
        /// Whether it can't be changed.
        read_only: bool, 5..;
        /// Where it comes from; -1 for unknown.
        config_source: i8 = -1, 5..;
        /// Whether it is a secret.
        is_sensitive: bool, 5..;
    }
}
