//! The library's C functions, and all of this crate's `unsafe`.
//!
//! What the library asks of its callers stands in `embed/kpart.h`, and is kept by these types alone:
//!
//! - **A handle is all zero, or was written by the library.** `Handle` is made closed, and its fields are private to this module.
//! - **No two calls have one handle at a time.** Each call borrows its handles by `&mut`, so also no two parameters are one handle.
//! - **The handles of a call are of one cluster.** Each typed handle knows its cluster's number, and a call of two tests them first.
//! - **A handle is closed once, and never used afterwards.** `Drop` closes it.
//!
//! - **What is opened again was left by some process.** No type can know that: `Cluster::open_again` is `unsafe`, and a store keeps it.
//!
//! No call is made from a signal handler or in the forked child of a process with threads unless other `unsafe` code does so.

mod again;
mod finding;
mod outs;
mod system;

pub(crate) use again::{RawLeft, open_what_a_store_left};
pub(crate) use finding::crc32c;
pub use outs::Limits;
pub(crate) use outs::{
    AbortedOut, EpochOut, FetchedOut, HeadOut, KeptIn, KnownOut, LeadershipOut, MarkerIn, OpenOut, PartOut, ProducerOut, PromiseIn,
    ReceiptOut, RecordOut, RecordPlace, RestartOut, RoleOut, SaidOut, StateOut, TimeOut, ValueOut,
};
pub(crate) use system::{lock_alone, unlock};

use crate::error::Error;
use std::sync::atomic::{AtomicU64, Ordering};

// Closed where all is zero; else it owns what lies at its pointer.
#[derive(Debug)]
#[repr(C)]
struct Handle {
    at: *mut u8,
    state: u64,
}

unsafe extern "C" {
    fn kp_open(cluster: &mut Handle, nodes: u8, limits: &Limits) -> u32;
    fn kp_open_node(cluster: &mut Handle, node: &mut Handle) -> u32;
    fn kp_open_pass(cluster: &mut Handle, pass: &mut Handle) -> u32;
    fn kp_close(handle: &mut Handle) -> u32;

    fn kp_elect(pass: &mut Handle, node: u8, found: &mut LeadershipOut) -> u32;
    fn kp_leadership(pass: &mut Handle, found: &mut LeadershipOut) -> u32;
    fn kp_watermark(pass: &mut Handle, node: u8, offset: &mut u64) -> u32;
    fn kp_decide(pass: &mut Handle, message: &mut Handle) -> u32;
    fn kp_repeat(pass: &mut Handle, message: &mut Handle, copy: &mut Handle) -> u32;
    fn kp_tell_receipts(from: &mut Handle, to: &mut Handle) -> u32;

    fn kp_adopt(node: &mut Handle, role: &mut RoleOut) -> u32;
    fn kp_raise(node: &mut Handle, offset: &mut u64) -> u32;
    fn kp_checkpoint(node: &mut Handle, offset: &mut u64) -> u32;
    fn kp_show(node: &mut Handle, found: &mut StateOut) -> u32;
    fn kp_end_for(node: &mut Handle, epoch: u32, found: &mut EpochOut) -> u32;
    fn kp_known(node: &mut Handle, found: &mut KnownOut) -> u32;
    fn kp_producer(node: &mut Handle, producer_id: u64, found: &mut ProducerOut) -> u32;
    fn kp_open_transactions(node: &mut Handle, transactions: &mut Handle) -> u32;
    fn kp_log_from(node: &mut Handle, from: u64, most_bytes: u32, batches: &mut Handle) -> u32;
    fn kp_stop(node: &mut Handle) -> u32;
    fn kp_restart(node: &mut Handle, restarted: &mut RestartOut) -> u32;
    fn kp_ask(node: &mut Handle, message: &mut Handle) -> u32;
    fn kp_alter(node: &mut Handle, joins: bool, which: u8, message: &mut Handle) -> u32;
    fn kp_step(node: &mut Handle, message: &mut Handle) -> u32;

    fn kp_produce(node: &mut Handle, pass: &mut Handle, bytes: *const u8, count: usize, receipt: &mut ReceiptOut) -> u32;
    fn kp_hand(handed: &mut Handle, bytes: *const u8, count: usize) -> u32;
    fn kp_produce_handed(node: &mut Handle, pass: &mut Handle, handed: &mut Handle, receipt: &mut ReceiptOut) -> u32;
    fn kp_mark(node: &mut Handle, pass: &mut Handle, marker: &MarkerIn, receipt: &mut ReceiptOut) -> u32;
    fn kp_acked(node: &mut Handle, pass: &mut Handle, receipt: &ReceiptOut, ack: &mut u32) -> u32;
    fn kp_read(node: &mut Handle, pass: &mut Handle, from: u64, batches: &mut Handle) -> u32;

    fn kp_read_committed(node: &mut Handle, pass: &mut Handle, from: u64, records: &mut Handle) -> u32;
    fn kp_offset_for_time(node: &mut Handle, pass: &mut Handle, time: u64, read_committed: bool, found: &mut TimeOut) -> u32;
    fn kp_fetch(node: &mut Handle, pass: &mut Handle, from: u64, most_bytes: u32, read_committed: bool, fetched: &mut Handle) -> u32;
    fn kp_segments(node: &mut Handle, segments: &mut Handle) -> u32;

    fn kp_count(handle: &mut Handle, found: &mut usize) -> u32;
    fn kp_batch_size(batches: &mut Handle, index: usize, size: &mut u32) -> u32;
    fn kp_batch(batches: &mut Handle, index: usize, to: *mut u8, count: usize) -> u32;
    fn kp_batch_head(batches: &mut Handle, index: usize, found: &mut HeadOut) -> u32;
    fn kp_record(batches: &mut Handle, place: &RecordPlace, found: &mut RecordOut) -> u32;
    fn kp_record_part(batches: &mut Handle, place: &RecordPlace, part: usize, found: &mut PartOut) -> u32;
    fn kp_record_bytes(batches: &mut Handle, place: &RecordPlace, part: usize, to: *mut u8, count: usize) -> u32;
    fn kp_open_transaction(transactions: &mut Handle, index: usize, found: &mut OpenOut) -> u32;
    fn kp_fetched(fetched: &mut Handle, found: &mut FetchedOut) -> u32;
    fn kp_aborted(fetched: &mut Handle, index: usize, found: &mut AbortedOut) -> u32;
    fn kp_committed(records: &mut Handle, index: usize, found: &mut ValueOut) -> u32;
    fn kp_value(records: &mut Handle, index: usize, to: *mut u8, count: usize) -> u32;
    fn kp_segment(segments: &mut Handle, index: usize, name: *mut u8, count: usize, batches: &mut Handle) -> u32;
    fn kp_addressee(message: &mut Handle, node: &mut u8) -> u32;
    fn kp_said(message: &mut Handle, found: &mut SaidOut) -> u32;
    fn kp_text(number: u32, to: *mut u8, count: usize) -> usize;
}

// SAFETY: the library's own handle is Send, whatever it holds: `unsafe impl Send for Handle` in `crates/kp_handles/src/handle.rt`, which is
// proved. It asks that calls with one handle in two threads come one after the other; whoever has it by `&mut` came by it through a
// lock, a channel, or the start or end of a thread.
unsafe impl Send for Handle {}

// SAFETY: nothing can be done with a `&Handle` but to read its two words, which are plain: each call takes a `&mut Handle`.
unsafe impl Sync for Handle {}

impl Handle {
    const fn closed() -> Handle {
        Handle { at: std::ptr::null_mut(), state: 0 }
    }

    fn is_open(&self) -> bool {
        self.state != 0
    }
}

impl Drop for Handle {
    fn drop(&mut self) {
        if self.is_open() {
            // SAFETY: the handle is the library's, nobody else has it, and it isn't used again.
            unsafe { kp_close(self) };
        }
    }
}

fn answered(number: u32) -> Result<(), Error> {
    if number == 0 { Ok(()) } else { Err(Error::of(number, 0)) }
}

// Whether two handles are of one cluster.
fn of_one(one: u64, other: u64) -> Result<(), Error> {
    if one == other { Ok(()) } else { Err(Error::OtherCluster) }
}

static CLUSTERS: AtomicU64 = AtomicU64::new(0);

/// A board, the passes of its nodes that aren't open yet, and the logs' sizes.
#[derive(Debug)]
pub(crate) struct RawCluster {
    handle: Handle,
    cluster: u64,
}

/// A node.
#[derive(Debug)]
pub(crate) struct RawNode {
    handle: Handle,
    cluster: u64,
}

/// A caller's pass.
#[derive(Debug)]
pub(crate) struct RawPass {
    handle: Handle,
    cluster: u64,
}

/// A message that was sent.
#[derive(Debug)]
pub(crate) struct RawMessage {
    handle: Handle,
    cluster: u64,
}

/// The bytes of a batch that was copied.
#[derive(Debug)]
pub(crate) struct RawHanded {
    handle: Handle,
}

/// Batches that were read, or what was fetched with them.
#[derive(Debug)]
pub(crate) struct RawBatches {
    handle: Handle,
}

/// Records, as a read-committed consumer gets them.
#[derive(Debug)]
pub(crate) struct RawRecords {
    handle: Handle,
}

/// Open transactions.
#[derive(Debug)]
pub(crate) struct RawTransactions {
    handle: Handle,
}

/// A node's log as segments.
#[derive(Debug)]
pub(crate) struct RawSegments {
    handle: Handle,
}

impl RawCluster {
    /// Its number, which no other cluster has.
    pub(crate) fn cluster(&self) -> u64 {
        self.cluster
    }

    pub(crate) fn open(nodes: u8, limits: &Limits) -> Result<RawCluster, Error> {
        let mut handle = Handle::closed();
        // SAFETY: the handle is closed.
        answered(unsafe { kp_open(&mut handle, nodes, limits) })?;
        let cluster = CLUSTERS.fetch_add(1, Ordering::Relaxed);
        Ok(RawCluster { handle, cluster })
    }

    pub(crate) fn node(&mut self) -> Result<RawNode, Error> {
        let mut handle = Handle::closed();
        // SAFETY: one handle is the library's, the other is closed.
        answered(unsafe { kp_open_node(&mut self.handle, &mut handle) })?;
        Ok(RawNode { handle, cluster: self.cluster })
    }

    pub(crate) fn pass(&mut self) -> Result<RawPass, Error> {
        let mut handle = Handle::closed();
        // SAFETY: one handle is the library's, the other is closed.
        answered(unsafe { kp_open_pass(&mut self.handle, &mut handle) })?;
        Ok(RawPass { handle, cluster: self.cluster })
    }
}

impl RawPass {
    /// The number of its cluster.
    pub(crate) fn cluster(&self) -> u64 {
        self.cluster
    }

    pub(crate) fn elect(&mut self, node: u8) -> Result<LeadershipOut, Error> {
        let mut found = LeadershipOut::default();
        // SAFETY: the handle is the library's.
        answered(unsafe { kp_elect(&mut self.handle, node, &mut found) })?;
        Ok(found)
    }

    pub(crate) fn leadership(&mut self) -> Result<LeadershipOut, Error> {
        let mut found = LeadershipOut::default();
        // SAFETY: the handle is the library's.
        answered(unsafe { kp_leadership(&mut self.handle, &mut found) })?;
        Ok(found)
    }

    pub(crate) fn watermark(&mut self, node: u8) -> Result<u64, Error> {
        let mut offset = 0;
        // SAFETY: the handle is the library's.
        answered(unsafe { kp_watermark(&mut self.handle, node, &mut offset) })?;
        Ok(offset)
    }

    /// Another pass's receipts.
    pub(crate) fn take_receipts(&mut self, from: &mut RawPass) -> Result<(), Error> {
        of_one(self.cluster, from.cluster)?;
        // SAFETY: both handles are the library's, and of one cluster.
        answered(unsafe { kp_tell_receipts(&mut from.handle, &mut self.handle) })
    }

    /// The decision on a proposal.
    pub(crate) fn decide(&mut self, mut message: RawMessage) -> Result<RawMessage, Error> {
        of_one(self.cluster, message.cluster)?;
        // SAFETY: both handles are the library's, and of one cluster.
        answered(unsafe { kp_decide(&mut self.handle, &mut message.handle) })?;
        Ok(message)
    }
}

impl RawNode {
    pub(crate) fn adopt(&mut self) -> Result<RoleOut, Error> {
        let mut role = RoleOut::default();
        // SAFETY: the handle is the library's.
        answered(unsafe { kp_adopt(&mut self.handle, &mut role) })?;
        Ok(role)
    }

    pub(crate) fn raise(&mut self) -> Result<u64, Error> {
        let mut offset = 0;
        // SAFETY: the handle is the library's.
        answered(unsafe { kp_raise(&mut self.handle, &mut offset) })?;
        Ok(offset)
    }

    pub(crate) fn checkpoint(&mut self) -> Result<u64, Error> {
        let mut offset = 0;
        // SAFETY: the handle is the library's.
        answered(unsafe { kp_checkpoint(&mut self.handle, &mut offset) })?;
        Ok(offset)
    }

    pub(crate) fn show(&mut self) -> Result<StateOut, Error> {
        let mut found = StateOut::default();
        // SAFETY: the handle is the library's.
        answered(unsafe { kp_show(&mut self.handle, &mut found) })?;
        Ok(found)
    }

    pub(crate) fn end_for(&mut self, epoch: u32) -> Result<EpochOut, Error> {
        let mut found = EpochOut::default();
        // SAFETY: the handle is the library's.
        answered(unsafe { kp_end_for(&mut self.handle, epoch, &mut found) })?;
        Ok(found)
    }

    pub(crate) fn offset_for_time(&mut self, pass: &mut RawPass, time: u64, read_committed: bool) -> Result<TimeOut, Error> {
        of_one(self.cluster, pass.cluster)?;
        let mut found = TimeOut::default();
        // SAFETY: both handles are the library's, and of one cluster.
        answered(unsafe { kp_offset_for_time(&mut self.handle, &mut pass.handle, time, read_committed, &mut found) })?;
        Ok(found)
    }

    pub(crate) fn known(&mut self) -> Result<KnownOut, Error> {
        let mut found = KnownOut::default();
        // SAFETY: the handle is the library's.
        answered(unsafe { kp_known(&mut self.handle, &mut found) })?;
        Ok(found)
    }

    pub(crate) fn producer(&mut self, producer_id: u64) -> Result<ProducerOut, Error> {
        let mut found = ProducerOut::default();
        // SAFETY: the handle is the library's.
        answered(unsafe { kp_producer(&mut self.handle, producer_id, &mut found) })?;
        Ok(found)
    }

    pub(crate) fn open_transactions(&mut self) -> Result<RawTransactions, Error> {
        let mut handle = Handle::closed();
        // SAFETY: one handle is the library's, the other is closed.
        answered(unsafe { kp_open_transactions(&mut self.handle, &mut handle) })?;
        Ok(RawTransactions { handle })
    }

    pub(crate) fn log_from(&mut self, from: u64, most_bytes: u32) -> Result<RawBatches, Error> {
        let mut handle = Handle::closed();
        // SAFETY: one handle is the library's, the other is closed.
        answered(unsafe { kp_log_from(&mut self.handle, from, most_bytes, &mut handle) })?;
        Ok(RawBatches { handle })
    }

    pub(crate) fn stop(&mut self) -> Result<(), Error> {
        // SAFETY: the handle is the library's.
        answered(unsafe { kp_stop(&mut self.handle) })
    }

    pub(crate) fn restart(&mut self) -> Result<RestartOut, Error> {
        let mut restarted = RestartOut::default();
        // SAFETY: the handle is the library's.
        answered(unsafe { kp_restart(&mut self.handle, &mut restarted) })?;
        Ok(restarted)
    }

    pub(crate) fn ask(&mut self) -> Result<RawMessage, Error> {
        let mut handle = Handle::closed();
        // SAFETY: one handle is the library's, the other is closed.
        answered(unsafe { kp_ask(&mut self.handle, &mut handle) })?;
        Ok(RawMessage { handle, cluster: self.cluster })
    }

    pub(crate) fn alter(&mut self, joins: bool, which: u8) -> Result<RawMessage, Error> {
        let mut handle = Handle::closed();
        // SAFETY: one handle is the library's, the other is closed.
        answered(unsafe { kp_alter(&mut self.handle, joins, which, &mut handle) })?;
        Ok(RawMessage { handle, cluster: self.cluster })
    }

    /// The answer to the message, where there is one.
    pub(crate) fn step(&mut self, mut message: RawMessage) -> Result<Option<RawMessage>, Error> {
        of_one(self.cluster, message.cluster)?;
        // SAFETY: both handles are the library's, and of one cluster.
        answered(unsafe { kp_step(&mut self.handle, &mut message.handle) })?;
        Ok(message.handle.is_open().then_some(message))
    }

    pub(crate) fn produce(&mut self, pass: &mut RawPass, bytes: &[u8]) -> Result<ReceiptOut, Error> {
        of_one(self.cluster, pass.cluster)?;
        let mut receipt = ReceiptOut::default();
        // SAFETY: both handles are the library's, and of one cluster; the pointer and the count are a slice's.
        let number = unsafe { kp_produce(&mut self.handle, &mut pass.handle, bytes.as_ptr(), bytes.len(), &mut receipt) };
        if number == 0 { Ok(receipt) } else { Err(Error::of(number, receipt.place)) }
    }

    pub(crate) fn produce_handed(&mut self, pass: &mut RawPass, handed: &mut RawHanded) -> Result<ReceiptOut, Error> {
        of_one(self.cluster, pass.cluster)?;
        let mut receipt = ReceiptOut::default();
        // SAFETY: two handles are the library's, and of one cluster; bytes are of any.
        let number = unsafe { kp_produce_handed(&mut self.handle, &mut pass.handle, &mut handed.handle, &mut receipt) };
        if number == 0 { Ok(receipt) } else { Err(Error::of(number, receipt.place)) }
    }

    pub(crate) fn mark(&mut self, pass: &mut RawPass, marker: &MarkerIn) -> Result<ReceiptOut, Error> {
        of_one(self.cluster, pass.cluster)?;
        let mut receipt = ReceiptOut::default();
        // SAFETY: both handles are the library's, and of one cluster.
        answered(unsafe { kp_mark(&mut self.handle, &mut pass.handle, marker, &mut receipt) })?;
        Ok(receipt)
    }

    pub(crate) fn acked(&mut self, pass: &mut RawPass, receipt: &ReceiptOut) -> Result<u32, Error> {
        of_one(self.cluster, pass.cluster)?;
        let mut ack = 0;
        // SAFETY: both handles are the library's, and of one cluster.
        answered(unsafe { kp_acked(&mut self.handle, &mut pass.handle, receipt, &mut ack) })?;
        Ok(ack)
    }

    pub(crate) fn read(&mut self, pass: &mut RawPass, from: u64) -> Result<RawBatches, Error> {
        of_one(self.cluster, pass.cluster)?;
        let mut handle = Handle::closed();
        // SAFETY: two handles are the library's, and of one cluster; the third is closed.
        answered(unsafe { kp_read(&mut self.handle, &mut pass.handle, from, &mut handle) })?;
        Ok(RawBatches { handle })
    }

    pub(crate) fn read_committed(&mut self, pass: &mut RawPass, from: u64) -> Result<RawRecords, Error> {
        of_one(self.cluster, pass.cluster)?;
        let mut handle = Handle::closed();
        // SAFETY: two handles are the library's, and of one cluster; the third is closed.
        answered(unsafe { kp_read_committed(&mut self.handle, &mut pass.handle, from, &mut handle) })?;
        Ok(RawRecords { handle })
    }

    pub(crate) fn fetch(&mut self, pass: &mut RawPass, from: u64, most_bytes: u32, read_committed: bool) -> Result<RawBatches, Error> {
        of_one(self.cluster, pass.cluster)?;
        let mut handle = Handle::closed();
        // SAFETY: two handles are the library's, and of one cluster; the third is closed.
        answered(unsafe { kp_fetch(&mut self.handle, &mut pass.handle, from, most_bytes, read_committed, &mut handle) })?;
        Ok(RawBatches { handle })
    }

    pub(crate) fn segments(&mut self) -> Result<RawSegments, Error> {
        let mut handle = Handle::closed();
        // SAFETY: one handle is the library's, the other is closed.
        answered(unsafe { kp_segments(&mut self.handle, &mut handle) })?;
        Ok(RawSegments { handle })
    }
}

impl RawHanded {
    pub(crate) const fn closed() -> RawHanded {
        RawHanded { handle: Handle::closed() }
    }

    /// Copies the bytes in place of those that it has.
    pub(crate) fn hand(&mut self, bytes: &[u8]) -> Result<(), Error> {
        // SAFETY: the handle is closed, or the library's, with bytes in it; the pointer and the count are a slice's.
        answered(unsafe { kp_hand(&mut self.handle, bytes.as_ptr(), bytes.len()) })
    }
}

// How many batches, records, open transactions or segments stand in the handle.
fn count(handle: &mut Handle) -> Result<usize, Error> {
    let mut found = 0;
    // SAFETY: the handle is the library's.
    answered(unsafe { kp_count(handle, &mut found) })?;
    Ok(found)
}

impl RawMessage {
    /// The number of its cluster.
    pub(crate) fn cluster(&self) -> u64 {
        self.cluster
    }

    /// The number of the node that it goes to, or 255 for the controller.
    pub(crate) fn addressee(&mut self) -> Result<u8, Error> {
        let mut found = 0;
        // SAFETY: the handle is the library's.
        answered(unsafe { kp_addressee(&mut self.handle, &mut found) })?;
        Ok(found)
    }

    /// The same message once more.
    pub(crate) fn repeat(&mut self, pass: &mut RawPass) -> Result<RawMessage, Error> {
        of_one(self.cluster, pass.cluster)?;
        let mut handle = Handle::closed();
        // SAFETY: two handles are the library's, and of one cluster; the third is closed.
        answered(unsafe { kp_repeat(&mut pass.handle, &mut self.handle, &mut handle) })?;
        Ok(RawMessage { handle, cluster: self.cluster })
    }

    pub(crate) fn said(&mut self) -> Result<SaidOut, Error> {
        let mut found = SaidOut::default();
        // SAFETY: the handle is the library's.
        answered(unsafe { kp_said(&mut self.handle, &mut found) })?;
        Ok(found)
    }
}

impl RawTransactions {
    pub(crate) fn count(&mut self) -> Result<usize, Error> {
        count(&mut self.handle)
    }

    /// One of them.
    pub(crate) fn transaction(&mut self, index: usize) -> Result<OpenOut, Error> {
        let mut found = OpenOut::default();
        // SAFETY: the handle is the library's.
        answered(unsafe { kp_open_transaction(&mut self.handle, index, &mut found) })?;
        Ok(found)
    }
}

impl RawRecords {
    pub(crate) fn count(&mut self) -> Result<usize, Error> {
        count(&mut self.handle)
    }

    /// A record's offset, how many bytes its value has, and whether it is null.
    pub(crate) fn record(&mut self, index: usize) -> Result<ValueOut, Error> {
        let mut found = ValueOut::default();
        // SAFETY: the handle is the library's.
        answered(unsafe { kp_committed(&mut self.handle, index, &mut found) })?;
        Ok(found)
    }

    /// Copies a record's value to the front of the place.
    pub(crate) fn copy(&mut self, index: usize, to: &mut [u8]) -> Result<(), Error> {
        // SAFETY: the handle is the library's; the pointer and the count are a slice's.
        answered(unsafe { kp_value(&mut self.handle, index, to.as_mut_ptr(), to.len()) })
    }
}

impl RawSegments {
    pub(crate) fn count(&mut self) -> Result<usize, Error> {
        count(&mut self.handle)
    }

    /// Writes the name of a segment's file, and gives the segment's batches.
    pub(crate) fn segment(&mut self, index: usize, name: &mut [u8]) -> Result<RawBatches, Error> {
        let mut handle = Handle::closed();
        // SAFETY: one handle is the library's, the other is closed; the pointer and the count are a slice's.
        answered(unsafe { kp_segment(&mut self.handle, index, name.as_mut_ptr(), name.len(), &mut handle) })?;
        Ok(RawBatches { handle })
    }
}

// What was found, if it was there.
fn found_there<T>(answer: Result<(), Error>, found: T) -> Result<Option<T>, Error> {
    match answer {
        Ok(()) => Ok(Some(found)),
        Err(Error::OutOfRange) => Ok(None),
        Err(error) => Err(error),
    }
}

impl RawBatches {
    pub(crate) fn count(&mut self) -> Result<usize, Error> {
        count(&mut self.handle)
    }

    pub(crate) fn size(&mut self, index: usize) -> Result<usize, Error> {
        let mut size = 0;
        // SAFETY: the handle is the library's.
        answered(unsafe { kp_batch_size(&mut self.handle, index, &mut size) })?;
        Ok(size as usize)
    }

    pub(crate) fn head(&mut self, index: usize) -> Result<HeadOut, Error> {
        let mut found = HeadOut::default();
        // SAFETY: the handle is the library's.
        answered(unsafe { kp_batch_head(&mut self.handle, index, &mut found) })?;
        Ok(found)
    }

    /// What was fetched beside the batches.
    pub(crate) fn fetched(&mut self) -> Result<FetchedOut, Error> {
        let mut found = FetchedOut::default();
        // SAFETY: the handle is the library's.
        answered(unsafe { kp_fetched(&mut self.handle, &mut found) })?;
        Ok(found)
    }

    /// One of the aborted transactions.
    pub(crate) fn aborted(&mut self, index: usize) -> Result<AbortedOut, Error> {
        let mut found = AbortedOut::default();
        // SAFETY: the handle is the library's.
        answered(unsafe { kp_aborted(&mut self.handle, index, &mut found) })?;
        Ok(found)
    }

    /// The record at the place; none where none stands there.
    pub(crate) fn record(&mut self, place: &RecordPlace) -> Result<Option<RecordOut>, Error> {
        let mut found = RecordOut::default();
        // SAFETY: the handle is the library's.
        found_there(answered(unsafe { kp_record(&mut self.handle, place, &mut found) }), found)
    }

    /// A part of the record at the place, but for its bytes; none where it hasn't got so many.
    pub(crate) fn record_part(&mut self, place: &RecordPlace, part: usize) -> Result<Option<PartOut>, Error> {
        let mut found = PartOut::default();
        // SAFETY: the handle is the library's.
        found_there(answered(unsafe { kp_record_part(&mut self.handle, place, part, &mut found) }), found)
    }

    /// Copies a part of the record at the place.
    pub(crate) fn copy_part(&mut self, place: &RecordPlace, part: usize, to: &mut [u8]) -> Result<(), Error> {
        // SAFETY: the handle is the library's; the pointer and the count are a slice's.
        answered(unsafe { kp_record_bytes(&mut self.handle, place, part, to.as_mut_ptr(), to.len()) })
    }

    /// Copies a batch to the front of the place.
    pub(crate) fn copy(&mut self, index: usize, to: &mut [u8]) -> Result<(), Error> {
        // SAFETY: the handle is the library's; the pointer and the count are a slice's.
        answered(unsafe { kp_batch(&mut self.handle, index, to.as_mut_ptr(), to.len()) })
    }
}

/// The library's name of what a call answers.
pub(crate) struct Text {
    bytes: [u8; 64],
    count: usize,
}

impl Text {
    pub(crate) fn of(number: u32) -> Text {
        let mut bytes = [0; 64];
        // SAFETY: the pointer and the count are an array's.
        let count = unsafe { kp_text(number, bytes.as_mut_ptr(), bytes.len()) };
        Text { bytes, count }
    }

    pub(crate) fn as_str(&self) -> &str {
        std::str::from_utf8(&self.bytes[..self.count]).unwrap_or("")
    }
}
