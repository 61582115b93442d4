//! JoinGroup.

use crate::message::wire;

wire! {
    /// JoinGroup: a consumer joins a group's next generation.
    struct JoinGroupRequest<'a>: Request of JOIN_GROUP {
        /// The group.
        group_id: &'a str, 0..;
        /// After how many milliseconds without a heartbeat the member is taken out.
        session_timeout_ms: i32, 0..;
        /// For how many milliseconds to wait for members; at version 0 it is the session's.
        rebalance_timeout_ms: i32 = -1, 1..;
        /// The member; empty for a new one.
        member_id: &'a str, 0..;
        /// The static member's name, or null (KIP-345).
        group_instance_id: Option<&'a str>, 5..;
        /// The kind of protocol: `consumer`.
        protocol_type: &'a str, 0..;
        /// The protocols that the member knows, the best first.
        protocols: Vec<JoinProtocol<'a>>, 0..;
        /// Why it joins, in words, or null (KIP-800).
        reason: Option<&'a str>, 8..;
    }

    /// A protocol of a [`JoinGroupRequest`].
    struct JoinProtocol<'a> {
        /// Its name.
        name: &'a str, 0..;
        /// What the member says in it: bytes that the broker only hands on.
        metadata: &'a [u8], 0..;
    }

    /// Answers [`JoinGroupRequest`].
    struct JoinGroupResponse<'a>: Response of JOIN_GROUP {
        /// For how many milliseconds the client was held back.
        throttle_time_ms: i32, 2..;
        /// An error's number, or 0.
        error_code: i16, 0..;
        /// The generation, or -1.
        generation_id: i32 = -1, 0..;
        /// The kind of protocol, or null.
        protocol_type: Option<&'a str>, 7..;
        /// The protocol that all members know, or null.
        protocol_name: Option<&'a str> = Some(""), 0.., null 7..;
        /// The member that makes the assignment.
        leader: &'a str, 0..;
        /// Whether the leader needn't make one (KIP-814).
        skip_assignment: bool, 9..;
        /// The member's own id.
        member_id: &'a str, 0..;
        /// All members, for the leader alone.
        members: Vec<JoinedMember<'a>>, 0..;
    }

    /// A member of a [`JoinGroupResponse`].
    struct JoinedMember<'a> {
        /// Its id.
        member_id: &'a str, 0..;
        /// The static member's name, or null.
        group_instance_id: Option<&'a str>, 5..;
        /// What it said in the protocol.
        metadata: &'a [u8], 0..;
    }
}
