//! AddOffsetsToTxn.

use crate::message::wire;

wire! {
    /// AddOffsetsToTxn: a group's offsets join a transaction.
    struct AddOffsetsToTxnRequest<'a>: Request of ADD_OFFSETS_TO_TXN {
        /// The transactional id.
        transactional_id: &'a str, 0..;
        /// The producer's id.
        producer_id: i64, 0..;
        /// Its epoch.
        producer_epoch: i16, 0..;
        /// The group.
        group_id: &'a str, 0..;
    }

    /// Answers [`AddOffsetsToTxnRequest`].
    struct AddOffsetsToTxnResponse: Response of ADD_OFFSETS_TO_TXN {
        /// For how many milliseconds the client was held back.
        throttle_time_ms: i32, 0..;
        /// An error's number, or 0.
        error_code: i16, 0..;
    }
}
