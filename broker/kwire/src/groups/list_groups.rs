//! ListGroups.

use crate::message::wire;

wire! {
    /// ListGroups: asks for all groups.
    struct ListGroupsRequest<'a>: Request of LIST_GROUPS {
        /// The states that are asked for; empty for all (KIP-518).
        states_filter: Vec<&'a str>, 4..;
    }

    /// Answers [`ListGroupsRequest`].
    struct ListGroupsResponse<'a>: Response of LIST_GROUPS {
        /// For how many milliseconds the client was held back.
        throttle_time_ms: i32, 1..;
        /// An error's number, or 0.
        error_code: i16, 0..;
        /// The groups.
        groups: Vec<ListedGroup<'a>>, 0..;
    }

    /// A group of a [`ListGroupsResponse`].
    struct ListedGroup<'a> {
        /// Its id.
        group_id: &'a str, 0..;
        /// The kind of protocol.
        protocol_type: &'a str, 0..;
        /// Its state, as in [`DescribedGroup`](super::describe_groups::DescribedGroup).
        group_state: &'a str, 4..;
    }
}
