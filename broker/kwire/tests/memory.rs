//! Memory that reading takes: in proportion to the bytes that came. One test alone, as the count is of the whole program.

mod common;

use common::cases;
use common::random::Random;
use kwire::frame::FrameDecoder;
use std::alloc::{GlobalAlloc, Layout, System};
use std::sync::atomic::{AtomicUsize, Ordering::SeqCst};

struct Counting;

static HELD: AtomicUsize = AtomicUsize::new(0);
static MOST: AtomicUsize = AtomicUsize::new(0);

// SAFETY: the system's allocator does all of the work; beside it, two numbers are counted.
unsafe impl GlobalAlloc for Counting {
    unsafe fn alloc(&self, layout: Layout) -> *mut u8 {
        let held = HELD.fetch_add(layout.size(), SeqCst) + layout.size();
        MOST.fetch_max(held, SeqCst);
        // SAFETY: as the caller promises.
        unsafe { System.alloc(layout) }
    }

    unsafe fn dealloc(&self, pointer: *mut u8, layout: Layout) {
        HELD.fetch_sub(layout.size(), SeqCst);
        // SAFETY: as the caller promises.
        unsafe { System.dealloc(pointer, layout) }
    }
}

#[global_allocator]
static COUNTING: Counting = Counting;

/// The most bytes that were held at once in `act`, above those held before.
fn taken(act: impl FnOnce()) -> usize {
    let before = HELD.load(SeqCst);
    MOST.store(before, SeqCst);
    act();
    MOST.load(SeqCst) - before
}

#[test]
fn reading_takes_memory_by_what_came() {
    let mut random = Random::new(0x6b77_6972_6504);
    let mut inputs: Vec<Vec<u8>> = [0, 1, 0x7f, 0x80, 0xff].iter().flat_map(|it| [40, 4000].map(|count| vec![*it; count])).collect();
    // A great count, flexible or not, with as many items behind it that take the fewest bytes: 0x100001 of them, so that a list has just
    // doubled its room.
    inputs.push([&[0x82, 0x80, 0x40][..], &[1; 0x10_0001]].concat());
    inputs.push([&[0x00, 0x0f, 0x42, 0x40][..], &[0; 2_000_000]].concat());
    for case in cases() {
        for version in case.versions() {
            let mut some = inputs.clone();
            for _ in 0..20 {
                let mut bytes = (case.encode)(version).unwrap();
                random.mutate(&mut bytes);
                some.push(bytes);
            }
            for bytes in some.iter().filter(|it| it.len() < 10_000 || version == case.whole_at) {
                let took = taken(|| {
                    (case.reads)(bytes, version);
                });
                assert!(took <= 64 * bytes.len() + 1024, "{} {version}: {took} bytes for {}", case.name, bytes.len());
            }
        }
    }
    let took = taken(|| {
        let mut frames = FrameDecoder::new(8, 1 << 30);
        frames.push(&(1i32 << 30).to_be_bytes());
        frames.push(&[1; 1000]);
        assert_eq!(frames.next_frame(), Ok(None));
    });
    assert!(took < 8192, "{took} bytes for a frame that hasn't come");
    a_large_frames_memory_is_given_back();
}

fn a_large_frames_memory_is_given_back() {
    let mut frames = FrameDecoder::new(8, 1 << 30);
    let before = HELD.load(SeqCst);
    frames.push(&(5i32 << 20).to_be_bytes());
    frames.push(&vec![1; 5 << 20]);
    assert_eq!(frames.next_frame().map(|it| it.map(<[u8]>::len)), Ok(Some(5 << 20)));
    frames.push(&[]);
    assert!(HELD.load(SeqCst) < before + 8192);
}
