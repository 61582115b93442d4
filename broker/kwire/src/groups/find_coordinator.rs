//! FindCoordinator.

use crate::message::wire;

/// The key is a group's id.
pub const GROUP: i8 = 0;
/// The key is a transactional id.
pub const TRANSACTION: i8 = 1;

wire! {
    /// FindCoordinator: asks who coordinates a group or a transactional id; from version 4 on for several (KIP-699).
    struct FindCoordinatorRequest<'a>: Request of FIND_COORDINATOR {
        /// The group or the transactional id.
        key: &'a str, 0..=3;
        /// [`GROUP`] or [`TRANSACTION`].
        key_type: i8, 1..;
        /// The groups or transactional ids.
        coordinator_keys: Vec<&'a str>, 4..;
    }

    /// Answers [`FindCoordinatorRequest`].
    struct FindCoordinatorResponse<'a>: Response of FIND_COORDINATOR {
        /// For how many milliseconds the client was held back.
        throttle_time_ms: i32, 1..;
        /// An error's number, or 0.
        error_code: i16, 0..=3;
        /// What was wrong, in words, or null.
        error_message: Option<&'a str>, 1..=3;
        /// The coordinator's number, or -1.
        node_id: i32, 0..=3;
        /// Its host.
        host: &'a str, 0..=3;
        /// Its port.
        port: i32, 0..=3;
        /// By key.
        coordinators: Vec<Coordinator<'a>>, 4..;
    }

    /// A key's coordinator.
    struct Coordinator<'a> {
        /// The group or the transactional id.
        key: &'a str, 4..;
        /// The coordinator's number, or -1.
        node_id: i32, 4..;
        /// Its host.
        host: &'a str, 4..;
        /// Its port.
        port: i32, 4..;
        /// An error's number, or 0.
        error_code: i16, 4..;
        /// What was wrong, in words, or null.
        error_message: Option<&'a str>, 4..;
    }
}
