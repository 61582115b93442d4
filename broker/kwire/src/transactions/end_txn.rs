//! EndTxn.

use crate::message::wire;

wire! {
    /// EndTxn: commits or aborts a transaction.
    struct EndTxnRequest<'a>: Request of END_TXN {
        /// The transactional id.
        transactional_id: &'a str, 0..;
        /// The producer's id.
        producer_id: i64, 0..;
        /// Its epoch.
        producer_epoch: i16, 0..;
        /// Whether to commit; else it is aborted.
        committed: bool, 0..;
    }

    /// Answers [`EndTxnRequest`].
    struct EndTxnResponse: Response of END_TXN {
        /// For how many milliseconds the client was held back.
        throttle_time_ms: i32, 0..;
        /// An error's number, or 0.
        error_code: i16, 0..;
    }
}
