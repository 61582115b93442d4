//! What the library's functions read and write, as C has it.

/// The sizes of the nodes' logs.
#[derive(Clone, Copy, Debug, PartialEq, Eq)]
#[repr(C)]
pub struct Limits {
    /// The most bytes of a segment that has more than one batch.
    pub segment_bytes: u32,
    /// How many bytes lie between two entries of a segment's indexes.
    pub index_interval: u32,
    /// The most bytes of a batch; a longer one is refused by F9.
    pub max_batch: u32,
}

#[repr(C)]
#[derive(Clone, Copy, Default)]
pub(crate) struct RoleOut {
    pub start: u64,
    pub epoch: u32,
    pub leader: u8,
    pub leads: bool,
}

#[repr(C)]
#[derive(Clone, Copy, Default)]
pub(crate) struct LeadershipOut {
    pub version: u32,
    pub epoch: u32,
    pub leader: u8,
    pub elected: bool,
    pub in_sync: [bool; 7],
}

#[repr(C)]
#[derive(Clone, Copy, Default)]
pub(crate) struct RestartOut {
    pub life: u64,
    pub end: u64,
    pub watermark: u64,
}

#[repr(C)]
#[derive(Clone, Copy, Default)]
pub(crate) struct ReceiptOut {
    pub base: u64,
    pub last: u64,
    pub place: u64,
    pub epoch: u32,
    pub duplicate: bool,
}

#[repr(C)]
#[derive(Clone, Copy)]
pub(crate) struct MarkerIn {
    pub producer_id: u64,
    pub timestamp: u64,
    pub coordinator_epoch: u32,
    pub producer_epoch: u16,
    pub commits: bool,
}

#[repr(C)]
#[derive(Clone, Copy, Default)]
pub(crate) struct ValueOut {
    pub offset: u64,
    pub size: usize,
    pub null: bool,
}

#[repr(C)]
#[derive(Clone, Copy, Default)]
pub(crate) struct FetchedOut {
    pub watermark: u64,
    pub stable: u64,
    pub end: u64,
    pub aborted: usize,
}

#[repr(C)]
#[derive(Clone, Copy, Default)]
pub(crate) struct AbortedOut {
    pub producer_id: u64,
    pub first: u64,
}

#[repr(C)]
#[derive(Clone, Copy, Default)]
pub(crate) struct StateOut {
    pub life: u64,
    pub end: u64,
    pub watermark: u64,
    pub stable: u64,
    pub checkpoint: u64,
    pub start: u64,
    pub kept_epoch: u32,
    pub epoch: u32,
    pub adopted: bool,
    pub status: u8,
    pub leader: u8,
}

#[repr(C)]
#[derive(Clone, Copy, Default)]
pub(crate) struct KnownOut {
    pub leadership: LeadershipOut,
    pub reported: [u64; 7],
    pub pending: bool,
    pub proposed: [bool; 7],
}

#[repr(C)]
#[derive(Clone, Copy, Default)]
pub(crate) struct ProducerOut {
    pub open_from: u64,
    pub last_sequence: u32,
    pub coordinator_epoch: u32,
    pub epoch: u16,
    pub found: bool,
}

#[repr(C)]
#[derive(Clone, Copy, Default)]
pub(crate) struct OpenOut {
    pub producer_id: u64,
    pub first: u64,
}

#[repr(C)]
#[derive(Clone, Copy, Default)]
pub(crate) struct HeadOut {
    pub base: u64,
    pub base_timestamp: u64,
    pub max_timestamp: u64,
    pub producer_id: u64,
    pub epoch: u32,
    pub count: u32,
    pub base_sequence: u32,
    pub size: u32,
    pub producer_epoch: u16,
    pub attributes: u16,
}

#[repr(C)]
#[derive(Clone, Copy, Default)]
pub(crate) struct FoundOut {
    pub size: usize,
    pub place: u64,
    pub fault: u32,
}

/// Where a record stands among batches.
#[repr(C)]
#[derive(Clone, Copy, Debug, Default)]
pub(crate) struct RecordPlace {
    pub batch: usize,
    pub number: u32,
    pub byte: u32,
}

#[repr(C)]
#[derive(Clone, Copy, Default)]
pub(crate) struct RecordOut {
    pub next: RecordPlace,
    pub offset: u64,
    pub timestamp: u64,
    pub producer_id: u64,
    pub producer_epoch: u16,
    pub shown: bool,
}

#[repr(C)]
#[derive(Clone, Copy, Default)]
pub(crate) struct PartOut {
    pub size: usize,
    pub null: bool,
}

#[repr(C)]
#[derive(Clone, Copy, Default)]
pub(crate) struct SaidOut {
    pub offset: u64,
    pub count: u64,
    pub watermark: u64,
    pub epoch: u32,
    pub version: u32,
    pub kind: u8,
    pub sender: u8,
    pub in_sync: [bool; 7],
}

#[repr(C)]
#[derive(Clone, Copy, Default)]
pub(crate) struct EpochOut {
    pub end: u64,
    pub epoch: u32,
    pub found: bool,
}

#[repr(C)]
#[derive(Clone, Copy, Default)]
pub(crate) struct TimeOut {
    pub offset: u64,
    pub timestamp: u64,
    pub found: bool,
}

#[repr(C)]
#[derive(Clone, Copy)]
pub(crate) struct KeptIn {
    pub checkpoint: u64,
    pub life: u64,
    pub kept_epoch: u32,
    pub adopted: bool,
}

#[repr(C)]
#[derive(Clone, Copy)]
pub(crate) struct PromiseIn {
    pub offset: u64,
    pub node: u8,
}
