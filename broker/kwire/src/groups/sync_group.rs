//! SyncGroup.

use crate::message::wire;

wire! {
    /// SyncGroup: the leader hands the assignment in, and each member asks for its part.
    struct SyncGroupRequest<'a>: Request of SYNC_GROUP {
        /// The group.
        group_id: &'a str, 0..;
        /// The generation.
        generation_id: i32, 0..;
        /// The member.
        member_id: &'a str, 0..;
        /// The static member's name, or null (KIP-345).
        group_instance_id: Option<&'a str>, 3..;
        /// The kind of protocol that the member believes in, or null (KIP-559).
        protocol_type: Option<&'a str>, 5..;
        /// The protocol that it believes in, or null (KIP-559).
        protocol_name: Option<&'a str>, 5..;
        /// The assignment; of members that don't lead, empty.
        assignments: Vec<MemberAssignment<'a>>, 0..;
    }

    /// A member's part of the assignment.
    struct MemberAssignment<'a> {
        /// The member.
        member_id: &'a str, 0..;
        /// Bytes that the broker only hands on.
        assignment: &'a [u8], 0..;
    }

    /// Answers [`SyncGroupRequest`].
    struct SyncGroupResponse<'a>: Response of SYNC_GROUP {
        /// For how many milliseconds the client was held back.
        throttle_time_ms: i32, 1..;
        /// An error's number, or 0.
        error_code: i16, 0..;
        /// The kind of protocol, or null.
        protocol_type: Option<&'a str>, 5..;
        /// The protocol, or null.
        protocol_name: Option<&'a str>, 5..;
        /// The member's part.
        assignment: &'a [u8], 0..;
    }
}
