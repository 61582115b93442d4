//! InitProducerId.

use crate::message::wire;

wire! {
    /// InitProducerId: asks for a producer's id and epoch.
    struct InitProducerIdRequest<'a>: Request of INIT_PRODUCER_ID {
        /// The transactional id, or null for a producer that is idempotent alone.
        transactional_id: Option<&'a str>, 0..;
        /// After how many milliseconds an open transaction is aborted.
        transaction_timeout_ms: i32, 0..;
        /// The id that the producer has, or -1 (KIP-360).
        producer_id: i64 = -1, 3..;
        /// The epoch that it has, or -1.
        producer_epoch: i16 = -1, 3..;
    }

    /// Answers [`InitProducerIdRequest`].
    struct InitProducerIdResponse: Response of INIT_PRODUCER_ID {
        /// For how many milliseconds the client was held back.
        throttle_time_ms: i32, 0..;
        /// An error's number, or 0.
        error_code: i16, 0..;
        /// The producer's id, or -1.
        producer_id: i64 = -1, 0..;
        /// Its epoch.
        producer_epoch: i16, 0..;
    }
}
