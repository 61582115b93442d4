//! Kafka's error codes.

use std::fmt;

macro_rules! codes {
    ($($code:ident: $number:literal, $name:literal, $retriable:literal, $text:literal;)*) => {
        /// What a broker of this kind answers in an error's field. Those of access, tokens, quotas and of a cluster's own traffic are
        /// left out.
        ///
        /// Source: the protocol guide, 'Error Codes'.
        #[derive(Clone, Copy, Debug, PartialEq, Eq, Hash)]
        pub enum ErrorCode {
            $(
                #[doc = $text]
                $code,
            )*
        }

        impl ErrorCode {
            /// All of them, by rising number.
            pub const ALL: &[ErrorCode] = &[$(ErrorCode::$code),*];

            /// The number on the wire.
            #[must_use]
            pub const fn number(self) -> i16 {
                match self {
                    $(ErrorCode::$code => $number,)*
                }
            }

            /// The code of this number, where it is one of these.
            #[must_use]
            pub const fn of(number: i16) -> Option<Self> {
                match number {
                    $($number => Some(ErrorCode::$code),)*
                    _ => None,
                }
            }

            /// Its name in the protocol guide.
            #[must_use]
            pub const fn name(self) -> &'static str {
                match self {
                    $(ErrorCode::$code => $name,)*
                }
            }

            /// Whether the protocol guide lists it as retriable: the same request may succeed later, after a look at metadata where
            /// the code says that it was sent to the wrong broker.
            #[must_use]
            pub const fn is_retriable(self) -> bool {
                match self {
                    $(ErrorCode::$code => $retriable,)*
                }
            }

            /// What it says, in one line.
            #[must_use]
            pub const fn text(self) -> &'static str {
                match self {
                    $(ErrorCode::$code => $text,)*
                }
            }
        }
    };
}

codes! {
    UnknownServerError: -1, "UNKNOWN_SERVER_ERROR", false, "The broker met an error that it didn't expect.";
    None: 0, "NONE", false, "No error.";
    OffsetOutOfRange: 1, "OFFSET_OUT_OF_RANGE", false, "The offset is outside of the log.";
    CorruptMessage: 2, "CORRUPT_MESSAGE", true, "The batch fails its checksum, or isn't whole.";
    UnknownTopicOrPartition: 3, "UNKNOWN_TOPIC_OR_PARTITION", true, "The broker has no such topic or partition.";
    LeaderNotAvailable: 5, "LEADER_NOT_AVAILABLE", true, "The partition has no leader at the moment.";
    NotLeaderOrFollower: 6, "NOT_LEADER_OR_FOLLOWER", true, "The broker doesn't lead the partition.";
    RequestTimedOut: 7, "REQUEST_TIMED_OUT", true, "The request wasn't done in its time.";
    BrokerNotAvailable: 8, "BROKER_NOT_AVAILABLE", false, "The broker isn't there.";
    MessageTooLarge: 10, "MESSAGE_TOO_LARGE", false, "The batch is larger than the broker takes.";
    OffsetMetadataTooLarge: 12, "OFFSET_METADATA_TOO_LARGE", false, "The text of a committed offset is too long.";
    CoordinatorLoadInProgress: 14, "COORDINATOR_LOAD_IN_PROGRESS", true, "The coordinator isn't ready yet.";
    CoordinatorNotAvailable: 15, "COORDINATOR_NOT_AVAILABLE", true, "There is no coordinator at the moment.";
    NotCoordinator: 16, "NOT_COORDINATOR", true, "The broker isn't the coordinator.";
    InvalidTopicException: 17, "INVALID_TOPIC_EXCEPTION", false, "The topic's name isn't allowed.";
    RecordListTooLarge: 18, "RECORD_LIST_TOO_LARGE", false, "The records are more than a segment holds.";
    NotEnoughReplicas: 19, "NOT_ENOUGH_REPLICAS", true, "Fewer brokers are in sync than required; nothing was appended.";
    NotEnoughReplicasAfterAppend: 20, "NOT_ENOUGH_REPLICAS_AFTER_APPEND", true, "As NOT_ENOUGH_REPLICAS, but the batch was appended.";
    InvalidRequiredAcks: 21, "INVALID_REQUIRED_ACKS", false, "Acks is none of 0, 1 and -1.";
    IllegalGeneration: 22, "ILLEGAL_GENERATION", false, "The group is in another generation.";
    InconsistentGroupProtocol: 23, "INCONSISTENT_GROUP_PROTOCOL", false, "The member's protocols don't go with the group's.";
    InvalidGroupId: 24, "INVALID_GROUP_ID", false, "The group's id isn't allowed.";
    UnknownMemberId: 25, "UNKNOWN_MEMBER_ID", false, "The group has no such member.";
    InvalidSessionTimeout: 26, "INVALID_SESSION_TIMEOUT", false, "The session's time is outside of what the broker takes.";
    RebalanceInProgress: 27, "REBALANCE_IN_PROGRESS", false, "The group begins a new generation: join it.";
    InvalidCommitOffsetSize: 28, "INVALID_COMMIT_OFFSET_SIZE", false, "The committed offsets take too many bytes.";
    InvalidTimestamp: 32, "INVALID_TIMESTAMP", false, "A record's time is outside of what the broker takes.";
    UnsupportedVersion: 35, "UNSUPPORTED_VERSION", false, "The broker doesn't know the request at this version.";
    TopicAlreadyExists: 36, "TOPIC_ALREADY_EXISTS", false, "The topic is there already.";
    InvalidPartitions: 37, "INVALID_PARTITIONS", false, "The count of partitions isn't allowed.";
    InvalidReplicationFactor: 38, "INVALID_REPLICATION_FACTOR", false, "The count of brokers for each partition isn't allowed.";
    InvalidReplicaAssignment: 39, "INVALID_REPLICA_ASSIGNMENT", false, "The brokers named for a partition aren't allowed.";
    InvalidConfig: 40, "INVALID_CONFIG", false, "A setting isn't allowed.";
    NotController: 41, "NOT_CONTROLLER", true, "The broker isn't the controller.";
    InvalidRequest: 42, "INVALID_REQUEST", false, "The request contradicts itself or the protocol.";
    UnsupportedForMessageFormat: 43, "UNSUPPORTED_FOR_MESSAGE_FORMAT", false, "The batch's format can't do this.";
    OutOfOrderSequenceNumber: 45, "OUT_OF_ORDER_SEQUENCE_NUMBER", false, "The batch's sequence number isn't the producer's next one.";
    DuplicateSequenceNumber: 46, "DUPLICATE_SEQUENCE_NUMBER", false, "The batch's sequence number is one that was taken long ago.";
    InvalidProducerEpoch: 47, "INVALID_PRODUCER_EPOCH", false, "The producer's epoch is older than the one known.";
    InvalidTxnState: 48, "INVALID_TXN_STATE", false, "The transaction isn't in a state in which this can be done.";
    InvalidProducerIdMapping: 49, "INVALID_PRODUCER_ID_MAPPING", false, "The transactional id has another producer id, or none.";
    InvalidTransactionTimeout: 50, "INVALID_TRANSACTION_TIMEOUT", false, "The transaction's time is more than the broker takes.";
    ConcurrentTransactions: 51, "CONCURRENT_TRANSACTIONS", true, "The transaction before this one is still ending.";
    TransactionCoordinatorFenced: 52, "TRANSACTION_COORDINATOR_FENCED", false, "A marker is of an older coordinator.";
    TransactionalIdAuthorizationFailed: 53, "TRANSACTIONAL_ID_AUTHORIZATION_FAILED", false, "The transactional id isn't named, or not allowed.";
    OperationNotAttempted: 55, "OPERATION_NOT_ATTEMPTED", false, "Not tried, as another part of the request failed.";
    KafkaStorageError: 56, "KAFKA_STORAGE_ERROR", true, "The broker can't keep or read the log.";
    UnknownProducerId: 59, "UNKNOWN_PRODUCER_ID", false, "The log knows nothing of the producer.";
    NonEmptyGroup: 68, "NON_EMPTY_GROUP", false, "The group has members.";
    GroupIdNotFound: 69, "GROUP_ID_NOT_FOUND", false, "There is no such group.";
    FetchSessionIdNotFound: 70, "FETCH_SESSION_ID_NOT_FOUND", true, "There is no such fetch session.";
    InvalidFetchSessionEpoch: 71, "INVALID_FETCH_SESSION_EPOCH", true, "The fetch session is in another epoch.";
    FencedLeaderEpoch: 74, "FENCED_LEADER_EPOCH", true, "The client's leader epoch is older than the broker's.";
    UnknownLeaderEpoch: 75, "UNKNOWN_LEADER_EPOCH", true, "The client's leader epoch is newer than the broker's.";
    UnsupportedCompressionType: 76, "UNSUPPORTED_COMPRESSION_TYPE", false, "The broker doesn't take this compression.";
    OffsetNotAvailable: 78, "OFFSET_NOT_AVAILABLE", true, "The new leader doesn't know its high watermark yet.";
    MemberIdRequired: 79, "MEMBER_ID_REQUIRED", false, "Join again with the member id that was given (KIP-394).";
    GroupMaxSizeReached: 81, "GROUP_MAX_SIZE_REACHED", false, "The group has as many members as it may.";
    FencedInstanceId: 82, "FENCED_INSTANCE_ID", false, "The static member's name has gone to another client (KIP-345).";
    InvalidRecord: 87, "INVALID_RECORD", false, "A record isn't allowed.";
    UnstableOffsetCommit: 88, "UNSTABLE_OFFSET_COMMIT", true, "A transaction with offsets of the group is open (KIP-447).";
    ProducerFenced: 90, "PRODUCER_FENCED", false, "A newer producer has the same transactional id (KIP-588).";
    UnknownTopicId: 100, "UNKNOWN_TOPIC_ID", true, "The broker has no topic of this id.";
    InconsistentTopicId: 103, "INCONSISTENT_TOPIC_ID", true, "The topic has another id.";
    TransactionalIdNotFound: 105, "TRANSACTIONAL_ID_NOT_FOUND", false, "There is no such transactional id.";
}

impl From<ErrorCode> for i16 {
    fn from(code: ErrorCode) -> i16 {
        code.number()
    }
}

impl fmt::Display for ErrorCode {
    fn fmt(&self, f: &mut fmt::Formatter<'_>) -> fmt::Result {
        write!(f, "{} ({}): {}", self.name(), self.number(), self.text())
    }
}
