//! LeaveGroup.

use crate::message::wire;

wire! {
    /// LeaveGroup: takes a member out of its group; from version 3 on several (KIP-345).
    struct LeaveGroupRequest<'a>: Request of LEAVE_GROUP {
        /// The group.
        group_id: &'a str, 0..;
        /// The member.
        member_id: &'a str, 0..=2;
        /// The members.
        members: Vec<LeavingMember<'a>>, 3..;
    }

    /// A member of a [`LeaveGroupRequest`].
    struct LeavingMember<'a> {
        /// Its id; may be empty where it has a name.
        member_id: &'a str, 3..;
        /// The static member's name, or null.
        group_instance_id: Option<&'a str>, 3..;
        /// Why it leaves, in words, or null (KIP-800).
        reason: Option<&'a str>, 5..;
    }

    /// Answers [`LeaveGroupRequest`].
    struct LeaveGroupResponse<'a>: Response of LEAVE_GROUP {
        /// For how many milliseconds the client was held back.
        throttle_time_ms: i32, 1..;
        /// An error's number, or 0.
        error_code: i16, 0..;
        /// By member.
        members: Vec<LeftMember<'a>>, 3..;
    }

    /// A member of a [`LeaveGroupResponse`].
    struct LeftMember<'a> {
        /// Its id.
        member_id: &'a str, 3..;
        /// The static member's name, or null.
        group_instance_id: Option<&'a str>, 3..;
        /// An error's number, or 0.
        error_code: i16, 3..;
    }
}
