//! Which requests there are, and at which versions.

use crate::WireError;

/// A kind of request, with the versions that this crate knows of it.
#[derive(Clone, Copy, Debug, PartialEq, Eq)]
pub struct Api {
    /// Its name in Kafka's protocol guide.
    pub name: &'static str,
    /// Its key in a request's header.
    pub key: i16,
    /// The least version.
    pub least: i16,
    /// The greatest version.
    pub greatest: i16,
    /// The first version with compact forms and tagged fields (KIP-482); it may be above the greatest.
    pub first_flexible: i16,
}

/// A version of a request, and whether it is a flexible one.
#[derive(Clone, Copy, Debug, PartialEq, Eq)]
pub struct Version {
    /// The version.
    pub number: i16,
    /// Whether fields have their compact forms, and structures end with tagged fields.
    pub flexible: bool,
}

impl Api {
    const fn new(name: &'static str, key: i16, least: i16, greatest: i16, first_flexible: i16) -> Self {
        Api { name, key, least, greatest, first_flexible }
    }

    /// The request of this key.
    ///
    /// # Errors
    /// [`WireError::UnknownApi`].
    pub fn of(key: i16) -> Result<Self, WireError> {
        APIS.iter().copied().find(|it| it.key == key).ok_or(WireError::UnknownApi { key })
    }

    /// This version of it.
    ///
    /// # Errors
    /// [`WireError::BadVersion`] outside of the table.
    pub fn version(&self, number: i16) -> Result<Version, WireError> {
        if (self.least..=self.greatest).contains(&number) {
            Ok(Version { number, flexible: self.is_flexible(number) })
        } else {
            Err(WireError::BadVersion { key: self.key, version: number })
        }
    }

    /// Whether this version, known or not, is a flexible one.
    #[must_use]
    pub fn is_flexible(&self, version: i16) -> bool {
        version >= self.first_flexible
    }

    /// The version of its request's header: 1, or 2 where flexible.
    #[must_use]
    pub fn request_header(&self, version: i16) -> i16 {
        if self.is_flexible(version) { 2 } else { 1 }
    }

    /// The version of its response's header: 0, or 1 where flexible. That of ApiVersions is 0 always (KIP-511), so that a client
    /// can read the answer to a version that the broker doesn't know.
    #[must_use]
    pub fn response_header(&self, version: i16) -> i16 {
        (self.key != API_VERSIONS.key && self.is_flexible(version)).into()
    }
}

macro_rules! apis {
    ($($constant:ident: $name:literal, $key:literal, $least:literal..=$greatest:literal, $flexible:literal;)*) => {
        $(
            #[doc = concat!($name, ", versions ", $least, " to ", $greatest, ".")]
            pub const $constant: Api = Api::new($name, $key, $least, $greatest, $flexible);
        )*

        /// All requests, by rising key: what a broker says of itself in its answer to ApiVersions.
        ///
        /// Produce stands from 0 and Fetch from 4, although batches of the formats before 2 aren't known: librdkafka takes a broker that
        /// says less for one older than 0.11, and then uses neither.
        ///
        /// Source: the message definitions of Kafka 3.9. There they go on; what is left out here is Fetch by topic id (13), group
        /// types (ListGroups 5), the new group protocol (OffsetCommit and OffsetFetch 9), and what came with KIP-890 (the transactions'
        /// requests above 3, FindCoordinator 5, InitProducerId 5).
        pub const APIS: &[Api] = &[$($constant),*];
    };
}

apis! {
    PRODUCE: "Produce", 0, 0..=11, 9;
    FETCH: "Fetch", 1, 4..=12, 12;
    LIST_OFFSETS: "ListOffsets", 2, 1..=8, 6;
    METADATA: "Metadata", 3, 0..=12, 9;
    OFFSET_COMMIT: "OffsetCommit", 8, 0..=8, 8;
    OFFSET_FETCH: "OffsetFetch", 9, 0..=8, 6;
    FIND_COORDINATOR: "FindCoordinator", 10, 0..=4, 3;
    JOIN_GROUP: "JoinGroup", 11, 0..=9, 6;
    HEARTBEAT: "Heartbeat", 12, 0..=4, 4;
    LEAVE_GROUP: "LeaveGroup", 13, 0..=5, 4;
    SYNC_GROUP: "SyncGroup", 14, 0..=5, 4;
    DESCRIBE_GROUPS: "DescribeGroups", 15, 0..=5, 5;
    LIST_GROUPS: "ListGroups", 16, 0..=4, 3;
    API_VERSIONS: "ApiVersions", 18, 0..=4, 3;
    CREATE_TOPICS: "CreateTopics", 19, 0..=7, 5;
    INIT_PRODUCER_ID: "InitProducerId", 22, 0..=4, 2;
    OFFSET_FOR_LEADER_EPOCH: "OffsetForLeaderEpoch", 23, 0..=4, 4;
    ADD_PARTITIONS_TO_TXN: "AddPartitionsToTxn", 24, 0..=3, 3;
    ADD_OFFSETS_TO_TXN: "AddOffsetsToTxn", 25, 0..=3, 3;
    END_TXN: "EndTxn", 26, 0..=3, 3;
    TXN_OFFSET_COMMIT: "TxnOffsetCommit", 28, 0..=3, 3;
    DESCRIBE_CLUSTER: "DescribeCluster", 60, 0..=0, 0;
}
