//! Offsets: of a log (ListOffsets, OffsetForLeaderEpoch), and of a group (OffsetCommit, OffsetFetch).

pub mod list_offsets;
pub mod offset_commit;
pub mod offset_fetch;
pub mod offset_for_leader_epoch;
