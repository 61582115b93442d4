//! The library's side: a node's handle under a Mutex, and a pass of each thread.

use crate::Side;
use std::ptr::null_mut;
use std::sync::Mutex;

#[repr(C)]
struct Handle {
    at: *mut u8,
    state: u64,
}

#[repr(C)]
struct Limits {
    segment_bytes: u32,
    index_interval: u32,
    max_batch: u32,
}

// Room for whatever a call writes: no struct of the header has more bytes.
type Out = [u64; 8];

unsafe extern "C" {
    fn kp_open(cluster: &mut Handle, nodes: u8, limits: &Limits) -> u32;
    fn kp_open_node(cluster: &mut Handle, node: &mut Handle) -> u32;
    fn kp_open_pass(cluster: &mut Handle, pass: &mut Handle) -> u32;
    fn kp_close(handle: &mut Handle) -> u32;
    fn kp_elect(pass: &mut Handle, node: u8, found: &mut Out) -> u32;
    fn kp_adopt(node: &mut Handle, role: &mut Out) -> u32;
    fn kp_raise(node: &mut Handle, offset: &mut u64) -> u32;
    fn kp_produce(node: &mut Handle, pass: &mut Handle, bytes: *const u8, length: usize, receipt: &mut Out) -> u32;
    fn kp_hand(handed: &mut Handle, bytes: *const u8, length: usize) -> u32;
    fn kp_produce_handed(node: &mut Handle, pass: &mut Handle, handed: &mut Handle, receipt: &mut Out) -> u32;
    fn kp_read(node: &mut Handle, pass: &mut Handle, from: u64, batches: &mut Handle) -> u32;
    fn kp_fetch(node: &mut Handle, pass: &mut Handle, from: u64, most_bytes: u32, read_committed: bool, fetched: &mut Handle) -> u32;
    fn kp_fetched(fetched: &mut Handle, found: &mut Out) -> u32;
    fn kp_count(handle: &mut Handle, found: &mut usize) -> u32;
    fn kp_batch_size(batches: &mut Handle, index: usize, size: &mut u32) -> u32;
    fn kp_batch(batches: &mut Handle, index: usize, to: *mut u8, length: usize) -> u32;
}

// SAFETY: the library proves that a handle may go from thread to thread (`unsafe impl Send for Handle` of kp_handles).
unsafe impl Send for Handle {}

impl Handle {
    fn closed() -> Handle {
        Handle { at: null_mut(), state: 0 }
    }
}

impl Drop for Handle {
    fn drop(&mut self) {
        // SAFETY: the handle is closed, or the library's and not used again.
        unsafe { kp_close(self) };
    }
}

fn done(answer: u32) {
    assert_eq!(answer, 0, "a call is refused");
}

pub struct Library {
    cluster: Mutex<Handle>,
    node: Mutex<Handle>,
    // Whether several threads produce: then each copies its bytes before it locks the node, as the header advises.
    shared: bool,
}

impl Library {
    /// One node, which leads.
    pub fn open(threads: usize) -> Library {
        let limits = Limits { segment_bytes: 1 << 30, index_interval: 4_096, max_batch: 1_048_576 };
        let [mut cluster, mut node, mut pass] = [Handle::closed(), Handle::closed(), Handle::closed()];
        let mut out = Out::default();
        // SAFETY: the handles are closed, or the library's, and of one cluster.
        unsafe {
            done(kp_open(&mut cluster, 1, &limits));
            done(kp_open_node(&mut cluster, &mut node));
            done(kp_open_pass(&mut cluster, &mut pass));
            done(kp_elect(&mut pass, 0, &mut out));
            done(kp_adopt(&mut node, &mut out));
        }
        Library { cluster: Mutex::new(cluster), node: Mutex::new(node), shared: threads > 1 }
    }
}

impl Side for Library {
    type Own = PassOf;

    fn own(&self) -> PassOf {
        let mut pass = Handle::closed();
        // SAFETY: one handle is the library's, the other is closed.
        done(unsafe { kp_open_pass(&mut self.cluster.lock().expect("a cluster"), &mut pass) });
        PassOf { pass, handed: Handle::closed() }
    }

    fn produce(&self, own: &mut PassOf, bytes: &[u8]) {
        let mut receipt = Out::default();
        if self.shared {
            // SAFETY: the handle is closed, or the library's with bytes in it; the pointer and the length are a slice's.
            done(unsafe { kp_hand(&mut own.handed, bytes.as_ptr(), bytes.len()) });
            let mut node = self.node.lock().expect("a node");
            // SAFETY: the handles are the library's, and of one cluster.
            done(unsafe { kp_produce_handed(&mut node, &mut own.pass, &mut own.handed, &mut receipt) });
        } else {
            let mut node = self.node.lock().expect("a node");
            // SAFETY: both handles are the library's, and of one cluster; the pointer and the length are a slice's.
            done(unsafe { kp_produce(&mut node, &mut own.pass, bytes.as_ptr(), bytes.len(), &mut receipt) });
        }
    }

    fn raise(&self) {
        let mut offset = 0;
        // SAFETY: the handle is the library's.
        done(unsafe { kp_raise(&mut self.node.lock().expect("a node"), &mut offset) });
    }

    fn read(&self, own: &mut PassOf, from: u64, buffer: &mut Vec<u8>, took: &mut impl FnMut(&[u8])) -> u64 {
        let mut batches = Handle::closed();
        // SAFETY: two handles are the library's, and of one cluster; the third is closed.
        done(unsafe { kp_read(&mut self.node.lock().expect("a node"), &mut own.pass, from, &mut batches) });
        from + copied(&mut batches, buffer, took)
    }

    fn fetch(&self, own: &mut PassOf, from: u64, buffer: &mut Vec<u8>, took: &mut impl FnMut(&[u8]), told: &mut u64) -> u64 {
        let (mut fetched, mut found) = (Handle::closed(), Out::default());
        // SAFETY: two handles are the library's, and of one cluster; the third is closed.
        done(unsafe { kp_fetch(&mut self.node.lock().expect("a node"), &mut own.pass, from, 1 << 20, true, &mut fetched) });
        // SAFETY: the handle is the library's.
        done(unsafe { kp_fetched(&mut fetched, &mut found) });
        *told += found[..4].iter().sum::<u64>(); // high watermark, last stable offset, log end, how many aborted transactions
        from + copied(&mut fetched, buffer, took)
    }
}

fn copied(batches: &mut Handle, buffer: &mut Vec<u8>, took: &mut impl FnMut(&[u8])) -> u64 {
    let mut count = 0;
    // SAFETY: the handle is the library's.
    done(unsafe { kp_count(batches, &mut count) });
    for index in 0..count {
        let mut size = 0;
        // SAFETY: the handle is the library's.
        done(unsafe { kp_batch_size(batches, index, &mut size) });
        buffer.resize(size as usize, 0);
        // SAFETY: the handle is the library's; the pointer and the length are a vector's.
        done(unsafe { kp_batch(batches, index, buffer.as_mut_ptr(), buffer.len()) });
        took(buffer);
    }
    count as u64
}

/// A thread's pass.
pub struct PassOf {
    pass: Handle,
    // Its bytes, where several threads produce.
    handed: Handle,
}
