//! Heartbeat.

use crate::message::wire;

wire! {
    /// Heartbeat: a member is alive.
    struct HeartbeatRequest<'a>: Request of HEARTBEAT {
        /// The group.
        group_id: &'a str, 0..;
        /// The generation.
        generation_id: i32, 0..;
        /// The member.
        member_id: &'a str, 0..;
        /// The static member's name, or null (KIP-345).
        group_instance_id: Option<&'a str>, 3..;
    }

    /// Answers [`HeartbeatRequest`].
    struct HeartbeatResponse: Response of HEARTBEAT {
        /// For how many milliseconds the client was held back.
        throttle_time_ms: i32, 1..;
        /// An error's number, or 0.
        error_code: i16, 0..;
    }
}
