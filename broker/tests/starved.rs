//! Growths of the library's memory that are refused, one after the other, in a broker of this process: no answer to a producer says that a batch
//! isn't there which is. librdkafka hands such a one in anew, in a later epoch of its own.
//!
//! This program has a heap of its own for the library, in place of the kit's.

mod common;

use common::{Client, Fallible, LONG, Outcome, Writes, batch, until};
use kpart_broker::{Broker, Options};
use kwire::ErrorCode;
use kwire::offsets::list_offsets::LATEST;
use std::alloc::{Layout, alloc, dealloc, realloc};
use std::collections::BTreeMap;
use std::sync::atomic::{AtomicU64, Ordering::SeqCst};
use std::time::Instant;

/// Before each block stands its size.
const HEAD: usize = 32;
/// So many growths come before the ones that are refused, at most, and so many of these, by turns.
const GROWTHS: u64 = 150;
const AT_ONCE: [u64; 3] = [1, 3, 20];

/// Growths up to the first one that is refused, and those from there on; none with 0.
static LEFT: AtomicU64 = AtomicU64::new(0);
static MANY: AtomicU64 = AtomicU64::new(0);
static REFUSED: AtomicU64 = AtomicU64::new(0);

#[repr(C)]
struct Tried {
    ok: bool,
    at: *mut u8,
}

const NONE: Tried = Tried { ok: false, at: std::ptr::without_provenance_mut(16) };

fn taken(number: &AtomicU64) -> bool {
    number.fetch_update(SeqCst, SeqCst, |it| it.checked_sub(1)).is_ok()
}

fn is_refused() -> bool {
    let is_one = MANY.load(SeqCst) > 0 && !taken(&LEFT) && taken(&MANY);
    REFUSED.fetch_add(is_one.into(), SeqCst);
    is_one
}

fn layout(size: usize) -> Layout {
    Layout::from_size_align(size + HEAD, 16).expect("a size")
}

// SAFETY (of the three): the library hands back just what it was given, once; the alignments that it asks for divide 16.
#[unsafe(no_mangle)]
extern "C" fn rattle_alloc(size: usize, _align: usize) -> Tried {
    if is_refused() {
        return NONE;
    }
    unsafe {
        let block = alloc(layout(size));
        block.cast::<usize>().write(size);
        Tried { ok: true, at: block.add(HEAD) }
    }
}

#[unsafe(no_mangle)]
unsafe extern "C" fn rattle_realloc(at: *mut u8, _kept: usize, size: usize, _align: usize) -> Tried {
    if is_refused() {
        return NONE;
    }
    unsafe {
        let block = at.sub(HEAD);
        let block = realloc(block, layout(block.cast::<usize>().read()), size + HEAD);
        block.cast::<usize>().write(size);
        Tried { ok: true, at: block.add(HEAD) }
    }
}

#[unsafe(no_mangle)]
unsafe extern "C" fn rattle_dealloc(at: *mut u8) {
    unsafe {
        let block = at.sub(HEAD);
        dealloc(block, layout(block.cast::<usize>().read()));
    }
}

/// Hands a batch in over a new connection, while growths are refused: what is answered.
fn produce(broker: &Broker, value: &str, writes: Writes, before: u64, many: u64) -> Fallible<(i16, i64)> {
    let mut client = Client::of_leader(broker, 0)?;
    LEFT.store(before, SeqCst);
    MANY.store(many, SeqCst);
    let answer = client.produce(0, &batch(&[value], writes, 1_000), -1);
    MANY.store(0, SeqCst);
    answer
}

#[test]
fn what_is_there_is_never_said_not_to_be() -> Outcome {
    let broker = Broker::start(Options { lag: LONG, ..Options::default() })?;
    let (mut told, mut codes, start) = (BTreeMap::new(), BTreeMap::<i16, usize>::new(), Instant::now());
    for number in 0..GROWTHS * AT_ONCE.len() as u64 {
        // Each from a producer of its own, so that none is out of order.
        let (value, writes) = (number.to_string(), Writes { producer: (number as i64, 0), sequence: 0, transactional: false });
        let (before, many) = (number / AT_ONCE.len() as u64, AT_ONCE[number as usize % AT_ONCE.len()]);
        // A connection may be closed, as where its node falls: that says nothing.
        if let Ok((code, base)) = produce(&broker, &value, writes, before, many) {
            *codes.entry(code).or_default() += 1;
            told.insert(value, (code, base));
        }
    }
    let mut client = Client::of_leader(&broker, 0)?;
    let mut end = -1;
    until("an end", || {
        end = client.list(0, LATEST, 0).map_or(-1, |it| it.1);
        end > 0
    })?;
    let found: BTreeMap<String, i64> = client.read_to(0, end, 0)?.into_iter().map(|it| (it.1, it.0)).collect();
    for (value, (code, base)) in &told {
        match (ErrorCode::of(*code), found.get(value)) {
            (Some(ErrorCode::None), at) => assert_eq!(at, Some(base), "{value}"),
            (Some(ErrorCode::RequestTimedOut), _) => {}
            (_, at) => assert_eq!(at, None, "{value} was answered {code}, and is there"),
        }
    }
    println!("{:.1?}: {} refused; answers by code {codes:?}", start.elapsed(), REFUSED.load(SeqCst));
    assert!(codes[&0] > 0 && codes.contains_key(&i16::from(ErrorCode::KafkaStorageError)));
    Ok(())
}
