//! A log's files by themselves: what is read back wherever the power goes, and where the disk is full. No node is needed.

use super::crashes::{Wrong, holds};
use super::disk::Disk;
use super::fault::{StoreError, StoreFault, StoreFile};
use super::keeper::Keeper;
use super::log_files::{Extent, LogFiles};
use super::made;
use super::read_back::{ReadBack, read_back};
use super::text::StateText;
use super::watch::{Chance, Order, Watch, Wreck, ordered, own_order, put, seeds};
use crate::finding::BatchesIn;
use crate::values::{BatchHead, NodeState, Status};
use std::fs;
use std::path::{Path, PathBuf};
use std::sync::Arc;
use std::sync::atomic::{AtomicUsize, Ordering};

const SEGMENT_BYTES: u32 = 300;

/// So many runs by chance a test has, of so many steps.
pub(super) const SEEDS: u64 = 3;
pub(super) const STEPS: usize = 25;

/// A folder that is gone with this.
pub(crate) struct Folder(pub PathBuf);

impl Folder {
    pub(crate) fn new(name: &str) -> Folder {
        let fast = Path::new("/dev/shm"); // where a sync costs nothing
        let place = if fast.is_dir() { fast.to_path_buf() } else { std::env::temp_dir() };
        static COUNT: AtomicUsize = AtomicUsize::new(0);
        let number = COUNT.fetch_add(1, Ordering::Relaxed);
        let path = place.join(format!("kpart-{name}-{}-{number}", std::process::id()));
        let _gone = fs::remove_dir_all(&path);
        Folder(path)
    }
}

impl Drop for Folder {
    fn drop(&mut self) {
        let _gone = fs::remove_dir_all(&self.0);
    }
}

// A batch of so many records, of which the first one has this value, as a leader has stamped it.
fn stamped(base: u64, epoch: u32, count: u32, value: &[u8]) -> Vec<u8> {
    let values: Vec<&[u8]> = (0..count).map(|it| if it == 0 { value } else { b"" }).collect();
    let mut bytes = made::batch(None, &values);
    bytes[..8].copy_from_slice(&base.to_be_bytes());
    bytes[12..16].copy_from_slice(&epoch.to_be_bytes());
    bytes
}

// A log as a node has it, and its state.
#[derive(Clone, Debug, Default, PartialEq, Eq)]
struct Log {
    batches: Vec<(BatchHead, Vec<u8>)>,
    checkpoint: u64,
    kept_epoch: u32,
}

impl Log {
    fn end(&self) -> u64 {
        self.batches.last().map_or(0, |it| it.0.end())
    }

    fn add(&mut self, count: u32, value: &[u8]) {
        let bytes = stamped(self.end(), self.kept_epoch, count, value);
        let found = BatchesIn::of(&bytes, u32::MAX).and_then(|mut it| it.batches.head());
        self.batches.push((found.expect("there is memory").expect("a batch"), bytes));
    }

    fn cut(&mut self, end: u64) {
        self.batches.retain(|it| it.0.base < end);
    }

    fn bytes(&self) -> Vec<u8> {
        self.batches.iter().flat_map(|it| it.1.clone()).collect()
    }

    fn state(&self) -> NodeState {
        let (kept_epoch, end, watermark) = (Some(self.kept_epoch), self.end(), self.checkpoint);
        NodeState { life: 0, kept_epoch, status: Status::Idle, end, watermark, stable: watermark, checkpoint: self.checkpoint }
    }
}

fn add_all(files: &mut LogFiles, log: &Log) -> Result<(), StoreFault> {
    let next = files.extent().end;
    for (frame, bytes) in log.batches.iter().filter(|it| it.0.base >= next) {
        files.place(frame)?.extend_from_slice(bytes);
    }
    files.sync()
}

fn disk(folder: &Folder) -> Arc<Disk> {
    let disk = Disk::open(&folder.0).expect("a folder");
    disk.make_folder(StoreFile::Node(0)).expect("a node's folder");
    disk.sync_folder(StoreFile::Folder).expect("it is there");
    Arc::new(disk)
}

fn read_all(folder: &Path) -> Result<(StateText, ReadBack), StoreError> {
    let disk = Disk::open(folder).expect("it is free");
    let text = disk.read(StoreFile::State(0)).expect("it can be read").expect("a state");
    let state = StateText::of(&text).expect("it is whole");
    read_back(&disk, 0, &state).map(|it| (state, it))
}

fn name(base: u64) -> StoreFile {
    StoreFile::Segment { node: 0, base }
}

fn keeper(disk: &Arc<Disk>, segment_bytes: u32, extent: Extent) -> Result<Keeper, StoreFault> {
    let mut keeper = Keeper::new(disk.clone(), 0, segment_bytes, extent, 0);
    keeper.files().mend()?;
    Ok(keeper)
}

#[test]
fn segments_roll_as_the_librarys_do() -> Result<(), StoreFault> {
    let folder = Folder::new("roll");
    let (disk, mut log) = (disk(&folder), Log::default());
    let mut keeper = keeper(&disk, 200, Extent::default())?;
    for value in [3, 61, 2, 291, 2, 130, 1] {
        log.add(1, &vec![7; value]);
        add_all(keeper.files(), &log)?;
    }
    let wanted = [(0, 71), (1, 130 + 70), (3, 361), (4, 70), (5, 200), (6, 69)];
    let sizes: Vec<(u64, u64)> = keeper.files().extent().segments.iter().map(|it| (it.base, it.bytes)).collect();
    assert_eq!(sizes, wanted);
    for (base, bytes) in wanted {
        assert_eq!(fs::metadata(name(base).path(&folder.0)).expect("it is there").len(), bytes);
    }
    keeper.write_state(&log.state())?;
    drop((keeper, disk));
    let (_, found) = read_all(&folder.0).expect("it is whole");
    assert_eq!((found.log, found.extent.end, found.torn), (log.bytes(), 7, None));
    Ok(())
}

// By the offsets that name them.
type Segments = Vec<(u64, Vec<u8>)>;

// Seven batches of 100 bytes, three in a segment: five were there as the state was written.
fn seven() -> Result<(Folder, Segments), StoreFault> {
    let folder = Folder::new("seven");
    let (disk, mut log) = (disk(&folder), Log::default());
    let mut keeper = keeper(&disk, SEGMENT_BYTES, Extent::default())?;
    for number in 0..7 {
        log.kept_epoch = number / 3;
        log.add(1, &[7; 32]);
        add_all(keeper.files(), &log)?;
        if number == 4 {
            keeper.write_state(&log.state())?;
        }
    }
    let segments = [0, 3, 6].map(|it| (it, fs::read(name(it).path(&folder.0)).expect("it is there")));
    Ok((folder, segments.into()))
}

fn write(folder: &Folder, base: u64, bytes: &[u8]) {
    fs::write(name(base).path(&folder.0), bytes).expect("it is written");
}

#[test]
fn a_torn_tail_is_cut() -> Result<(), StoreFault> {
    let (folder, segments) = seven()?;
    let last = &segments[2].1;
    for length in 0..100 {
        write(&folder, 6, &last[..length]);
        let (_, found) = read_all(&folder.0).expect("it is cut");
        assert_eq!((found.extent.end, found.log.len()), (6, 600));
        assert_eq!(found.torn.map(|it| (it.base, it.byte, it.bytes)), (length > 0).then_some((6, 0, length as u64)));
        write(&folder, 6, &[&last[..length], &vec![0; 100 - length]].concat());
        let (_, found) = read_all(&folder.0).expect("it is cut");
        assert!(found.extent.end == 6 || found.log[600..] == last[..]); // it may end with zeros
    }
    for length in 8..100 {
        write(&folder, 6, &[&vec![0; length], &last[length..]].concat()); // the front never came
        assert_eq!(read_all(&folder.0).expect("it is cut").1.extent.end, 6);
    }
    write(&folder, 6, &[&last[..], b"and more"].concat());
    let (_, found) = read_all(&folder.0).expect("it is cut");
    assert_eq!((found.extent.end, found.torn.map(|it| (it.byte, it.bytes))), (7, Some((100, 8))));
    Ok(())
}

// Which file is damaged, and at which byte.
fn damage(folder: &Folder) -> (PathBuf, u64) {
    match read_all(&folder.0) {
        Err(StoreError::Damaged { path, byte, .. }) => (path, byte),
        other => panic!("{other:?}"),
    }
}

#[test]
fn damage_is_named() -> Result<(), StoreFault> {
    let (folder, segments) = seven()?;
    for (base, segment) in &segments[..2] {
        let path = name(*base).path(&folder.0);
        for place in 0..300 {
            let mut other = segment.clone();
            other[place] ^= 0x40;
            write(&folder, *base, &other);
            let at = damage(&folder);
            let batch = place as u64 / 100 * 100;
            // Of the sixth batch the leader epoch isn't known, but the next one's is lower then. The first byte of an epoch is 0.
            let is_known = base + batch / 100 < 5 || !(13..16).contains(&(place % 100));
            assert_eq!(at, if is_known { (path.clone(), batch) } else { (name(6).path(&folder.0), 0) }, "byte {place}");
        }
        for length in 0..300 {
            write(&folder, *base, &segment[..length]);
            let whole = length as u64 / 100 * 100;
            let is_hole = length as u64 == whole;
            assert_eq!(damage(&folder), if is_hole { (name(base + 3).path(&folder.0), 0) } else { (path.clone(), whole) });
        }
        write(&folder, *base, segment);
    }
    assert_eq!(read_all(&folder.0).expect("it is whole").1.extent.end, 7);
    fs::remove_file(name(6).path(&folder.0)).expect("it was there");
    write(&folder, 3, &segments[1].1[..150]);
    assert_eq!(damage(&folder), (name(3).path(&folder.0), 100)); // it was known to be there
    write(&folder, 3, &segments[1].1[..100]);
    assert_eq!(damage(&folder), (name(3).path(&folder.0), 100));
    write(&folder, 3, &segments[1].1[..250]);
    assert_eq!(read_all(&folder.0).expect("it is cut").1.extent.end, 5);
    fs::remove_file(name(0).path(&folder.0)).expect("it was there");
    assert_eq!(damage(&folder), (name(3).path(&folder.0), 0));
    fs::remove_file(name(3).path(&folder.0)).expect("it was there");
    assert_eq!(damage(&folder), (name(0).path(&folder.0), 0));
    Ok(())
}

// What a keeper is told by chance.
#[derive(Clone, Copy, Debug)]
enum Step {
    // So many batches more, each of so many bytes.
    Add(usize, usize),
    // The next leader epoch, or a checkpoint.
    Epoch,
    Checkpoint,
    Cut(u64),
}

fn drawn(log: &Log, chance: &mut Chance) -> Step {
    let places: Vec<u64> = log.batches.iter().map(|it| it.0.base).filter(|it| *it >= log.checkpoint).collect();
    match chance.below(8) {
        0 => Step::Epoch,
        1 => Step::Checkpoint,
        2 if !places.is_empty() => Step::Cut(places[chance.below(places.len())]),
        _ => Step::Add(1 + chance.below(6), chance.below(120)),
    }
}

fn done(step: Step, log: &mut Log, chance: &mut Chance) {
    match step {
        Step::Add(count, size) => (0..count).for_each(|_| log.add(1 + chance.below(3) as u32, &vec![chance.below(256) as u8; size])),
        Step::Epoch => log.kept_epoch += 1,
        Step::Checkpoint => {
            log.checkpoint = log.batches.get(chance.below(log.batches.len() + 1)).map_or(log.end(), |it| it.0.base).max(log.checkpoint)
        }
        Step::Cut(end) => log.cut(end),
    }
}

// The log is as it is after the step; the node's lock is held.
fn keep(keeper: &mut Keeper, step: Step, log: &Log) -> Result<(), StoreFault> {
    match step {
        Step::Add(..) => add_all(keeper.files(), log),
        Step::Epoch | Step::Checkpoint => keeper.write_state(&log.state()),
        Step::Cut(_) => keeper.follow_cut(&log.state()),
    }
}

// How many operations were heard of once the step was done, and the log then.
type Moment = (usize, Step, Log);

fn run(folder: &Folder, seed: u64, steps: usize) -> Result<(Arc<Watch>, Vec<Moment>), StoreFault> {
    let (watch, mut chance, mut log) = (Watch::start(), Chance::new(seed), Log::default());
    let disk = disk(folder);
    let mut keeper = keeper(&disk, SEGMENT_BYTES, Extent::default())?;
    keeper.write_state(&log.state())?;
    let mut moments = vec![(watch.count(), Step::Epoch, log.clone())];
    for _ in 0..steps {
        let step = drawn(&log, &mut chance);
        done(step, &mut log, &mut chance);
        keep(&mut keeper, step, &log)?;
        moments.push((watch.count(), step, log.clone()));
    }
    Ok((watch, moments))
}

fn read_whole(folder: &Path) -> Result<(StateText, ReadBack), Wrong> {
    let state = fs::read(StoreFile::State(0).path(folder)).unwrap_or_default();
    StateText::of(&state).map_err(|it| Wrong(format!("damaged: state: byte {}: {}", it.byte, it.why)))?;
    read_all(folder).map_err(|it| Wrong(format!("damaged: {it}")))
}

// What was read back, where the step after `old` was under way by which it was to be `new`.
fn found(image: &Folder, step: Step, old: &Log, new: &Log) -> Result<(), Wrong> {
    let (state, found) = read_whole(&image.0)?;
    let (kept, bytes, extent) = (state.kept, &found.log[..], &found.extent);
    let is_kept = [old, new].iter().any(|it| (it.checkpoint, Some(it.kept_epoch)) == (kept.checkpoint, kept.kept_epoch));
    holds(is_kept, || format!("older: {step:?}: {kept:?}"))?;
    let is_moment = match step {
        Step::Add(..) => {
            let is_whole = new.batches.iter().any(|it| it.0.end() == extent.end) || extent.end == 0;
            bytes.starts_with(&old.bytes()) && new.bytes().starts_with(bytes) && is_whole
        }
        _ => bytes == old.bytes() || bytes == new.bytes(),
    };
    let ends = [old.end(), new.end(), extent.end];
    holds(is_moment, || format!("{}: {step:?}: {ends:?}", if extent.end < old.end().min(new.end()) { "lost" } else { "no moment" }))?;
    holds(kept.checkpoint <= extent.end, || format!("lost: {step:?}: {ends:?}, with checkpoint {}", kept.checkpoint))?;
    let is_risen = extent.epochs.windows(2).all(|it| it[0].epoch < it[1].epoch);
    let is_adopted = extent.epochs.iter().all(|it| it.epoch <= new.kept_epoch);
    holds(is_risen && is_adopted, || format!("disagree: {step:?}: {:?}", extent.epochs))
}

/// Wherever the power goes, or the process is killed, in a run of so many steps: a moment of it is there.
pub(super) fn tears(seed: u64, steps: usize, order: Order) -> Result<(), Wrong> {
    let folder = Folder::new("power");
    let (watch, moments) = run(&folder, seed, steps).map_err(|it| Wrong(it.to_string()))?;
    let (acts, mut wreck, mut chance) = (watch.acts(), Wreck::default(), Chance::new(seed + 100));
    let mut rest = ordered(&acts, order).into_iter().peekable();
    for count in 1..=acts.len() {
        while let Some((_, (name, act))) = rest.next_if(|it| it.0 < count) {
            wreck.hears(*name, act);
        }
        let Some(at) = moments.iter().rposition(|it| it.0 <= count) else { continue };
        let (ended, old) = (moments[at].0 == count, &moments[at].2);
        // Where a step has just ended, all of it is there.
        let (step, new) = if ended { (Step::Checkpoint, old) } else { (moments[at + 1].1, &moments[at + 1].2) };
        for kills in [true, false, false, false] {
            let image = Folder::new("power-image");
            let files = if kills { wreck.all_of() } else { wreck.clone().some_of(&mut chance) };
            put(&files, &image.0).expect("it is written");
            found(&image, step, old, new)?;
        }
    }
    Ok(())
}

#[test]
fn wherever_the_power_goes_a_moment_is_there() {
    (0..seeds(SEEDS)).for_each(|seed| tears(seed, STEPS, own_order).unwrap_or_else(|it| panic!("seed {seed}: {}", it.0)));
}

#[test]
fn a_full_disk_is_mended() -> Result<(), StoreFault> {
    for seed in 0..seeds(3) {
        let folder = Folder::new("full");
        let (watch, moments) = run(&folder, seed, 15)?;
        for fault in moments[0].0..watch.count() {
            let folder = Folder::new("full-again");
            let (watch, mut chance, mut log) = (Watch::start(), Chance::new(seed), Log::default());
            let disk = disk(&folder);
            let mut keeper = keeper(&disk, SEGMENT_BYTES, Extent::default())?;
            keeper.write_state(&log.state())?;
            watch.refuse(fault..fault + 1 + chance.below(3));
            chance = Chance::new(seed);
            for _ in 0..15 {
                let step = drawn(&log, &mut chance);
                done(step, &mut log, &mut chance);
                let mut done = keep(&mut keeper, step, &log);
                while let Err(found) = done {
                    assert_eq!(found.code, Some(28));
                    done = keeper.files().mend().and_then(|()| keep(&mut keeper, step, &log));
                }
            }
            keeper.files().mend()?;
            keeper.write_state(&log.state())?;
            let extent = keeper.files().extent().clone();
            drop((keeper, disk));
            let (_, found) = read_all(&folder.0).expect("it is whole");
            assert_eq!((found.log, found.extent, found.torn), (log.bytes(), extent, None));
        }
    }
    Ok(())
}
