//! Which of Kafka's error codes a refusal of the library is.

use kpart::{Error, Refusal};
use kwire::ErrorCode;

/// What a client is told where the library refuses, or has no room.
#[must_use]
pub fn code(error: Error) -> ErrorCode {
    match error {
        Error::Refused(refusal) => refused(refusal),
        Error::NoRoom => ErrorCode::KafkaStorageError,
        Error::BadLength => ErrorCode::MessageTooLarge,
        _ => ErrorCode::UnknownServerError,
    }
}

/// The code that the rules name, or, where they name none, what Kafka's broker answers in such a case.
fn refused(refusal: Refusal) -> ErrorCode {
    if let Some(code) = refusal.kafka_code().and_then(ErrorCode::of) {
        return code;
    }
    match refusal {
        Refusal::Compressed => ErrorCode::UnsupportedCompressionType,
        Refusal::BadMagic => ErrorCode::UnsupportedForMessageFormat,
        Refusal::Truncated => ErrorCode::CorruptMessage,
        Refusal::BadLength
        | Refusal::BadAttributes
        | Refusal::BadCount
        | Refusal::BadRecord(_)
        | Refusal::BadProducerFields
        | Refusal::ControlFromClient => ErrorCode::InvalidRecord,
        Refusal::CoordinatorFenced => ErrorCode::TransactionCoordinatorFenced,
        Refusal::Down => ErrorCode::NotLeaderOrFollower,
        Refusal::Memory => ErrorCode::KafkaStorageError,
        _ => ErrorCode::UnknownServerError,
    }
}

#[cfg(test)]
mod tests {
    use super::*;

    #[test]
    fn clients_are_told_what_they_can_act_on() {
        assert_eq!(code(Refusal::NotLeader.into()), ErrorCode::NotLeaderOrFollower);
        assert_eq!(code(Refusal::Down.into()), ErrorCode::NotLeaderOrFollower);
        assert_eq!(code(Refusal::Compressed.into()), ErrorCode::UnsupportedCompressionType);
        assert_eq!(code(Refusal::InvalidProducerEpoch.into()), ErrorCode::InvalidProducerEpoch);
        assert_eq!(code(Refusal::OutOfOrderSequence.into()), ErrorCode::OutOfOrderSequenceNumber);
        assert_eq!(code(Refusal::BadRecord(61).into()), ErrorCode::InvalidRecord);
        assert_eq!(code(Error::NoRoom), ErrorCode::KafkaStorageError);
        assert_eq!(code(Error::OtherCluster), ErrorCode::UnknownServerError);
    }
}
