//! Each growth of the library's memory refused in turn, under the Rust face.
//!
//! This program has a heap of its own for the library, in place of the kit's: it counts growths, and refuses one of them, or
//! each so many of the first ones.

use kpart::{
    AbortedTransaction, Ack, Addressee, BatchesIn, Change, Cluster, CommittedRecord, EpochEnd, Error, Event, Isolation, Limits, Marker,
    Message, OpenTransaction, Pass, Receipt, Refusal, Role, Said, Store, StoreError, Workers,
};
use std::alloc::{Layout, alloc, dealloc, realloc};
use std::path::Path;
use std::sync::Mutex;
use std::sync::atomic::{AtomicU64, Ordering};
use std::sync::mpsc::channel;
use std::time::Duration;

const ONE_RECORD: &[u8] = include_bytes!("one_record.batch");
// Of producer 13's transaction: one record.
const ABORTED: &[u8] = include_bytes!("aborted.batch");
// Of producer 12's transaction: two records.
const TRANSACTION: &[u8] = include_bytes!("transaction.batch");
const HEAD: usize = 32; // before each block stands its size
const FIRST: u64 = 1_000;

static GROWTHS: AtomicU64 = AtomicU64::new(0);
static REFUSED: AtomicU64 = AtomicU64::new(u64::MAX);
static EVERY: AtomicU64 = AtomicU64::new(u64::MAX);
static HELD: AtomicU64 = AtomicU64::new(0);

#[repr(C)]
struct Tried {
    ok: bool,
    at: *mut u8,
}

fn is_refused() -> bool {
    let number = GROWTHS.fetch_add(1, Ordering::SeqCst);
    let every = EVERY.load(Ordering::SeqCst);
    number == REFUSED.load(Ordering::SeqCst) || (number < FIRST && number % every == every - 1)
}

fn layout(size: usize) -> Layout {
    Layout::from_size_align(size + HEAD, 16).expect("a size")
}

// SAFETY (of the three): the library hands back just what it was given, once; the alignments that it asks for divide 16.
#[unsafe(no_mangle)]
extern "C" fn rattle_alloc(size: usize, _align: usize) -> Tried {
    if is_refused() {
        return Tried { ok: false, at: std::ptr::without_provenance_mut(16) };
    }
    HELD.fetch_add(1, Ordering::SeqCst);
    unsafe {
        let block = alloc(layout(size));
        block.cast::<usize>().write(size);
        Tried { ok: true, at: block.add(HEAD) }
    }
}

#[unsafe(no_mangle)]
unsafe extern "C" fn rattle_realloc(at: *mut u8, _kept: usize, size: usize, _align: usize) -> Tried {
    if is_refused() {
        return Tried { ok: false, at: std::ptr::without_provenance_mut(16) };
    }
    unsafe {
        let block = at.sub(HEAD);
        let block = realloc(block, layout(block.cast::<usize>().read()), size + HEAD);
        block.cast::<usize>().write(size);
        Tried { ok: true, at: block.add(HEAD) }
    }
}

#[unsafe(no_mangle)]
unsafe extern "C" fn rattle_dealloc(at: *mut u8) {
    HELD.fetch_sub(1, Ordering::SeqCst);
    unsafe {
        let block = at.sub(HEAD);
        dealloc(block, layout(block.cast::<usize>().read()));
    }
}

// Each step again where memory was refused; only one growth is.
fn again<T>(mut step: impl FnMut() -> Result<T, Error>) -> Result<T, Error> {
    match step() {
        Err(error) if error.is_memory() => step(),
        done => done,
    }
}

// A node that fell as memory was refused in a take starts again.
fn carry(cluster: &Cluster, pass: &mut Pass, message: Message) -> Result<(), Error> {
    let mut under_way = Some(message);
    while let Some(message) = under_way.take() {
        under_way = match message.addressee() {
            Addressee::Node(number) => {
                let mut node = cluster.node(number)?;
                match node.step(message) {
                    Err(error) if error.is_memory() => {
                        if node.checkpoint() == Err(Refusal::Down.into()) {
                            again(|| node.restart())?;
                            node.adopt()?;
                        }
                        None
                    }
                    done => done?,
                }
            }
            Addressee::Controller => Some(pass.decide(message)?),
        };
    }
    Ok(())
}

fn replicate(cluster: &Cluster, pass: &mut Pass) -> Result<(), Error> {
    let request = again(|| cluster.node(1)?.ask())?;
    carry(cluster, pass, request)
}

fn all_read(cluster: &Cluster, pass: &mut Pass, node: u8) -> Result<Vec<Vec<u8>>, Error> {
    let mut batches = again(|| cluster.node(node)?.read(pass, 0))?;
    let (mut bytes, mut all) = (Vec::new(), Vec::new());
    while again(|| batches.next_into(&mut bytes))? {
        all.push(bytes.clone());
    }
    Ok(all)
}

fn all_committed(cluster: &Cluster, pass: &mut Pass) -> Result<Vec<CommittedRecord>, Error> {
    again(|| cluster.node(0)?.read_committed(pass, 0))?.collect()
}

// The bytes of all segments' files, batch by batch.
fn all_kept(cluster: &Cluster) -> Result<Vec<Vec<u8>>, Error> {
    let mut segments = again(|| cluster.node(0)?.segments())?;
    let mut all = Vec::new();
    while let Some(segment) = again(|| segments.next().transpose())? {
        for bytes in segment.batches {
            all.push(bytes?);
        }
    }
    Ok(all)
}

// A small service: batches, a marker, replication, an in-sync change, a stop, an election, reads. What it read.
fn serve() -> Result<Vec<Vec<u8>>, Error> {
    let limits = Limits { segment_bytes: 1_024, index_interval: 0, max_batch: 1_048_576 };
    let cluster = again(|| Cluster::open(2, limits))?;
    let mut pass = again(|| cluster.pass())?;
    pass.elect(0)?;
    cluster.node(0)?.adopt()?;
    cluster.node(1)?.adopt()?;
    let mut receipts: Vec<Receipt> = Vec::new();
    for _ in 0..20 {
        receipts.push(again(|| cluster.node(0)?.produce(&mut pass, ONE_RECORD))?);
    }
    let marker = Marker { producer_id: 12, producer_epoch: 0, coordinator_epoch: 1, timestamp: 1_000, commits: true };
    receipts.push(again(|| cluster.node(0)?.mark(&mut pass, &marker))?);
    for _ in 0..4 {
        replicate(&cluster, &mut pass)?;
        again(|| cluster.node(0)?.raise())?;
    }
    for receipt in &receipts {
        assert_eq!(cluster.wait_acked(&mut pass, 0, receipt, Duration::ZERO)?, Ack::Yes);
    }
    assert_eq!(cluster.wait_mark(&mut pass, 1, 20, Duration::ZERO)?, Some(21));
    let proposal = again(|| cluster.node(0)?.alter(Change::Leave(1)))?;
    carry(&cluster, &mut pass, proposal)?;
    cluster.node(0)?.checkpoint()?;
    cluster.node(0)?.stop()?;
    again(|| cluster.node(0)?.restart())?;
    pass.elect(0)?;
    cluster.node(0)?.adopt()?;
    cluster.node(0)?.raise()?;
    let all = all_read(&cluster, &mut pass, 0)?;
    assert_eq!(all_read(&cluster, &mut pass, 1)?, all);
    assert_eq!(all_committed(&cluster, &mut pass)?.len(), 20);
    assert_eq!(all_kept(&cluster)?, all);
    fetches(&cluster, &mut pass)?;
    describes(&cluster, &mut pass)?;
    Ok(all)
}

// A transaction more, which stays open, and what an operator asks.
fn describes(cluster: &Cluster, pass: &mut Pass) -> Result<(), Error> {
    again(|| cluster.node(0)?.produce(pass, TRANSACTION))?;
    let opened = again(|| cluster.node(0)?.open_transactions())?;
    assert_eq!(opened, [OpenTransaction { producer_id: 12, first: 23 }]);
    assert_eq!(cluster.node(0)?.producer(12)?.map(|it| (it.last_sequence, it.open_from)), Some((Some(1), Some(23))));
    let mut log = again(|| cluster.node(0)?.log_from(22, u32::MAX))?;
    assert_eq!(log.head()?.map(|it| (it.base, it.control)), Some((22, true)));
    assert_eq!((log.len(), cluster.node(0)?.known()?.proposed), (2, None));
    let mut request = again(|| cluster.node(1)?.ask())?;
    assert_eq!((request.sender()?, request.said()?), (Addressee::Node(1), Said::AsksFrom { offset: 21, last_epoch: Some(0) }));
    let mut once_more = again(|| request.repeat(pass))?;
    assert_eq!(once_more.said()?, request.said()?);
    let file = [ONE_RECORD, TRANSACTION, &ABORTED[..70]].concat();
    let found = again(|| BatchesIn::of(&file, u32::MAX))?;
    assert_eq!((found.batches.len(), found.fault), (2, Some(Refusal::Truncated)));
    Ok(())
}

// A transaction more, which is aborted, and what a consumer's fetch tells then.
fn fetches(cluster: &Cluster, pass: &mut Pass) -> Result<(), Error> {
    again(|| cluster.node(0)?.produce(pass, ABORTED))?;
    let marker = Marker { producer_id: 13, producer_epoch: 0, coordinator_epoch: 0, timestamp: 1_000, commits: false };
    again(|| cluster.node(0)?.mark(pass, &marker))?;
    cluster.node(0)?.raise()?;
    let fetched = again(|| cluster.node(0)?.fetch(pass, 0, u32::MAX, Isolation::ReadCommitted))?;
    let aborted = vec![AbortedTransaction { producer_id: 13, first: 21 }];
    assert_eq!((fetched.batches.len(), fetched.aborted, fetched.stable), (23, aborted, 23));
    assert_eq!(cluster.node(0)?.show()?.end, 23);
    assert_eq!(cluster.node(0)?.end_for(0)?, Some(EpochEnd { epoch: 0, end: 21 }));
    let last = cluster.node(0)?.offset_for_time(pass, 0, Isolation::ReadCommitted)?;
    assert_eq!(last.map(|it| it.offset), Some(0));
    Ok(())
}

// Opens the store, again where memory was refused.
fn opened(folder: &Path) -> Cluster {
    let limits = Limits { segment_bytes: 300, index_interval: 0, max_batch: 1_048_576 };
    let refused = match Store::open(folder, 2, limits) {
        Ok((cluster, _)) => return cluster,
        Err(refused) => refused,
    };
    assert!(matches!(refused, StoreError::Refused { error, .. } if error.is_memory()), "{refused}");
    Store::open(folder, 2, limits).expect("there is room").0
}

// Two lives of a cluster in a store, in which a node's log is cut. What it read.
fn keep() -> Result<Vec<Vec<u8>>, Error> {
    let fast = Path::new("/dev/shm"); // where a sync costs nothing
    let place = if fast.is_dir() { fast.to_path_buf() } else { std::env::temp_dir() };
    let folder = place.join(format!("kpart-refused-{}", std::process::id()));
    let _gone = std::fs::remove_dir_all(&folder);
    let mut all = Vec::new();
    for leader in [0, 1] {
        let cluster = opened(&folder);
        let mut pass = again(|| cluster.pass())?;
        pass.elect(leader)?;
        (0..2).try_for_each(|it| again(|| cluster.node(it)?.adopt()).map(drop))?;
        for _ in 0..5 {
            again(|| cluster.node(leader)?.produce(&mut pass, ONE_RECORD))?;
        }
        for _ in 0..4 {
            let request = again(|| cluster.node(1 - leader)?.ask())?;
            carry(&cluster, &mut pass, request)?;
        }
        again(|| cluster.node(leader)?.raise())?;
        all = all_read(&cluster, &mut pass, leader)?;
        for _ in 0..3 {
            again(|| cluster.node(leader)?.produce(&mut pass, ONE_RECORD))?; // the next leader hasn't got them
        }
        again(|| cluster.node(leader)?.raise())?;
    }
    let _gone = std::fs::remove_dir_all(&folder);
    Ok(all)
}

fn counted(serve: impl Fn() -> Result<Vec<Vec<u8>>, Error>) -> (u64, Vec<Vec<u8>>) {
    GROWTHS.store(0, Ordering::SeqCst);
    let read = serve().expect("the service serves");
    assert_eq!(HELD.load(Ordering::SeqCst), 0, "all memory came back");
    (GROWTHS.load(Ordering::SeqCst), read)
}

static ONE_AT_A_TIME: Mutex<()> = Mutex::new(());

#[test]
fn each_growth_is_refused_in_turn() {
    let _alone = ONE_AT_A_TIME.lock().unwrap_or_else(|poisoned| poisoned.into_inner());
    for (serve, batches) in [(serve as fn() -> Result<_, _>, 21), (keep, 10)] {
        let (growths, wanted) = counted(serve);
        assert!(growths > 50 && wanted.len() == batches, "{growths} growths, {} batches", wanted.len());
        for refused in 0..growths {
            REFUSED.store(refused, Ordering::SeqCst);
            let (_, read) = counted(serve);
            assert_eq!(read, wanted, "growth {refused} was refused");
        }
        REFUSED.store(u64::MAX, Ordering::SeqCst);
        println!("{growths} growths refused in turn");
    }
}

// Hands batches in over and over while workers replicate them, until node 1 has committed so many.
fn replicated(cluster: &Cluster, batches: u64) -> Result<(), Error> {
    let mut pass = again(|| cluster.pass())?;
    pass.elect(0)?;
    let workers = again(|| again(|| Workers::start(cluster, Duration::from_micros(200))))?;
    let mut appended = 0;
    while cluster.wait_mark(&mut pass, 1, batches - 1, Duration::from_micros(100))?.is_none() {
        if appended < batches {
            match cluster.node(0)?.produce(&mut pass, ONE_RECORD) {
                Ok(_) => appended += 1,
                Err(error) => assert!(error.is_memory() || error == Refusal::NotLeader.into(), "{error}"),
            }
        }
    }
    workers.stop();
    Ok(())
}

#[test]
fn workers_go_on_after_refusals() {
    let _alone = ONE_AT_A_TIME.lock().unwrap_or_else(|poisoned| poisoned.into_inner());
    for every in [2, 3, 5, 7, 11] {
        let cluster = Cluster::open(2, Limits::default()).expect("there is room");
        GROWTHS.store(0, Ordering::SeqCst);
        EVERY.store(every, Ordering::SeqCst);
        let done = replicated(&cluster, 60);
        EVERY.store(u64::MAX, Ordering::SeqCst);
        done.expect("it comes to its end");
        drop(cluster);
        assert_eq!(HELD.load(Ordering::SeqCst), 0, "all memory came back");
    }
}

// Waits until it holds, for ten seconds at most.
fn comes(mut holds: impl FnMut() -> bool) -> bool {
    (0..10_000).any(|_| {
        std::thread::sleep(Duration::from_millis(1));
        holds()
    })
}

fn is_of_the_follower(event: &Event) -> bool {
    matches!(event, Event::Mark { node: 1, .. } | Event::Role { node: 1, .. } | Event::Down { node: 1 })
}

#[test]
fn a_fallen_node_starts_again_whatever_comes_before_its_turn() {
    let _alone = ONE_AT_A_TIME.lock().unwrap_or_else(|poisoned| poisoned.into_inner());
    let cluster = Cluster::open(2, Limits::default()).expect("there is room");
    let node = |number| cluster.node(number).expect("it is there");
    let mut pass = cluster.pass().expect("there is room");
    pass.elect(0).expect("it is elected");
    node(0).adopt().expect("it leads");
    node(0).produce(&mut pass, ONE_RECORD).expect("it leads");
    let (told, events) = channel();
    let hook = move |event| {
        let _heard = told.send(event);
    };
    let workers = Workers::start_with(&cluster, Duration::from_secs(3_600), hook).expect("there is room");
    // Node 1 has asked at its first turn, taken the answer, and told its leader so: what may still be under way brings nothing.
    assert!(comes(|| node(0).show().is_ok_and(|it| it.watermark == 1)));
    // So many that their lists grow as node 1 takes them.
    for _ in 0..20 {
        node(0).produce(&mut pass, ONE_RECORD).expect("it leads");
    }
    let answered = || {
        let request = node(1).ask().expect("it follows");
        node(0).step(request).expect("it leads").expect("an answer")
    };
    let (first, second) = (answered(), answered());
    GROWTHS.store(0, Ordering::SeqCst);
    EVERY.store(1, Ordering::SeqCst);
    workers.post(first);
    let has_fallen = comes(|| node(1).checkpoint() == Err(Refusal::Down.into()));
    EVERY.store(u64::MAX, Ordering::SeqCst);
    assert!(has_fallen, "memory was refused as it took the batch");
    let follows = Event::Role { node: 1, role: Role::Follows { leader: 0, epoch: 0 } };
    let heard = || std::iter::from_fn(|| events.recv_timeout(Duration::from_secs(20)).ok()).find(is_of_the_follower);
    let fell = Event::Down { node: 1 };
    assert_eq!((heard(), heard()), (Some(follows), Some(fell)));
    workers.post(second);
    workers.turn(1);
    assert!(comes(|| node(1).checkpoint().is_ok()), "it is up again");
    drop(workers);
    // It is told once that it fell, though more came for it before it was up again.
    let rest: Vec<Event> = std::iter::from_fn(heard).collect();
    assert!(rest.first() == Some(&follows) && !rest.contains(&fell), "{rest:?}");
}

#[test]
fn a_refused_start_leaves_nothing() {
    let _alone = ONE_AT_A_TIME.lock().unwrap_or_else(|poisoned| poisoned.into_inner());
    let cluster = Cluster::open(3, Limits::default()).expect("there is room");
    let held = HELD.load(Ordering::SeqCst);
    let mut refused = 0;
    loop {
        GROWTHS.store(0, Ordering::SeqCst);
        REFUSED.store(refused, Ordering::SeqCst);
        let started = Workers::start_with(&cluster, Duration::from_secs(3_600), |_| {});
        REFUSED.store(u64::MAX, Ordering::SeqCst);
        let error = started.map(Workers::stop).err();
        assert_eq!(HELD.load(Ordering::SeqCst), held, "all memory came back");
        match error {
            Some(error) => assert_eq!(error, Error::NoRoom),
            None => break,
        }
        refused += 1;
    }
    assert!(refused >= 4, "a pass for the controller, and one for each node");
}
