//! DescribeGroups.

use crate::message::wire;
use crate::metadata::NO_OPERATIONS;

wire! {
    /// DescribeGroups: asks for groups with their members.
    struct DescribeGroupsRequest<'a>: Request of DESCRIBE_GROUPS {
        /// Ids of the groups.
        groups: Vec<&'a str>, 0..;
        /// Whether to say what the client may do with each.
        include_authorized_operations: bool, 3..;
    }

    /// Answers [`DescribeGroupsRequest`].
    struct DescribeGroupsResponse<'a>: Response of DESCRIBE_GROUPS {
        /// For how many milliseconds the client was held back.
        throttle_time_ms: i32, 1..;
        /// By group.
        groups: Vec<DescribedGroup<'a>>, 0..;
    }

    /// A group of a [`DescribeGroupsResponse`].
    struct DescribedGroup<'a> {
        /// An error's number, or 0.
        error_code: i16, 0..;
        /// Its id.
        group_id: &'a str, 0..;
        /// `Empty`, `PreparingRebalance`, `CompletingRebalance`, `Stable` or `Dead`.
        group_state: &'a str, 0..;
        /// The kind of protocol.
        protocol_type: &'a str, 0..;
        /// The protocol.
        protocol_data: &'a str, 0..;
        /// Its members.
        members: Vec<DescribedMember<'a>>, 0..;
        /// What the client may do with it, as bits, or [`NO_OPERATIONS`].
        authorized_operations: i32 = NO_OPERATIONS, 3..;
    }

    /// A member of a [`DescribedGroup`].
    struct DescribedMember<'a> {
        /// Its id.
        member_id: &'a str, 0..;
        /// The static member's name, or null (KIP-345).
        group_instance_id: Option<&'a str>, 4..;
        /// The client id of its requests.
        client_id: &'a str, 0..;
        /// Its host.
        client_host: &'a str, 0..;
        /// What it said in the protocol.
        member_metadata: &'a [u8], 0..;
        /// Its part of the assignment.
        member_assignment: &'a [u8], 0..;
    }
}
