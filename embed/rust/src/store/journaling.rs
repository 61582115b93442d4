//! A journal whose bytes are torn or flipped, whose power goes at each operation, or whose disk is full: what was settled is there, and of what was
//! put together all or nothing.

use super::disk::Disk;
use super::fault::{StoreError, StoreFile};
use super::frames::{self, HEAD};
use super::journal::Journal;
use super::tearing::Folder;
use super::watch::{Act, Chance, Deed, Order, Watch, Wreck, ordered, own_order, put, seeds};
use std::collections::BTreeMap;
use std::fs;
use std::path::Path;
use std::sync::atomic::{AtomicU64, Ordering};

const SEEDS: u64 = 60;
const LIVES: usize = 5;
const ACTS: usize = 40;
// So that files are written anew now and then.
const GROWS: u64 = 300;

type Entries = Vec<(Vec<u8>, Vec<u8>)>;

fn entry(key: &str, value: &str) -> (Vec<u8>, Vec<u8>) {
    (key.as_bytes().to_vec(), value.as_bytes().to_vec())
}

fn set(key: &str, value: &str) -> (Vec<u8>, Option<Vec<u8>>) {
    (key.as_bytes().to_vec(), Some(value.as_bytes().to_vec()))
}

fn opened(folder: &Path) -> Journal {
    Journal::open_with(folder, GROWS).unwrap_or_else(|it| panic!("{it}"))
}

fn bytes_of(folder: &Folder) -> Vec<u8> {
    fs::read(folder.0.join("journal")).expect("it is there")
}

// Three frames: the first one has `a`, the second `b`, and the third changes both.
fn three(folder: &Folder) -> Vec<u8> {
    let journal = Journal::open(&folder.0).unwrap_or_else(|it| panic!("{it}"));
    for changes in [vec![set("a", "1")], vec![set("b", "22")], vec![set("a", "333"), (b"b".to_vec(), None)]] {
        let ticket = journal.put(changes);
        journal.settle(ticket).expect("there is room");
    }
    drop(journal);
    bytes_of(folder)
}

fn read_of(bytes: &[u8]) -> Result<Entries, u64> {
    frames::read(bytes).map(|it| it.entries.into_iter().collect()).map_err(|it| it.byte)
}

// The bytes of docs/DURABLE.md's page; the checksums are those of another program's CRC-32C.
#[test]
fn a_journal_is_as_the_page_says() {
    let folder = Folder::new("journal-page");
    let hex: String = three(&folder).iter().map(|it| format!("{it:02x}")).collect();
    let header = "6b70617274206a6f75726e616c20310a";
    let first = "0000000a000000000000000043840b6500000001610000000131";
    let second = "0000000b0000000000000001b72f575d0000000162000000023232";
    let third = "000000150000000000000002b1493c5d0000000161000000033333330000000162ffffffff";
    let seal = "000000000000000000000002ca5bc5aa";
    assert_eq!(hex, [header, first, second, third, seal].concat());
}

// Where a file ends early, in its last frame or the seal, all before is there; where it ends in its first frame it is damaged.
#[test]
fn a_torn_tail_is_cut() {
    let bytes = three(&Folder::new("journal-torn"));
    let (first, second) = (HEAD + HEAD + 10, HEAD + HEAD + 10 + HEAD + 11);
    let whole = bytes.len() - HEAD;
    for end in 0..bytes.len() {
        let expected = match end {
            0..HEAD => Err(0),
            it if it < first => Err(HEAD as u64),
            it if it < second => Ok(vec![entry("a", "1")]),
            it if it < whole => Ok(vec![entry("a", "1"), entry("b", "22")]),
            _ => Ok(vec![entry("a", "333")]),
        };
        assert_eq!(read_of(&bytes[..end]), expected, "{end} bytes");
        // The file was made longer, and its bytes didn't come.
        let zeros = [&bytes[..end], &vec![0; bytes.len() - end]].concat();
        let came = bytes[end..].iter().all(|it| *it == 0);
        assert_eq!(read_of(&zeros), if came { read_of(&bytes) } else { expected }, "{end} bytes, then zeros");
    }
}

// A frame that is being written over the seal, of which any pieces have come.
#[test]
fn a_frame_over_the_seal_may_be_torn() {
    let bytes = three(&Folder::new("journal-over"));
    let known = read_of(&bytes);
    let (place, mut body) = (bytes.len() - HEAD, Vec::new());
    frames::put_change(&mut body, b"c", Some(&[7; 60]));
    let frame = frames::frame(3, &body).expect("it is short");
    let pieces = frame.len().div_ceil(HEAD);
    for came in 0..1_u32 << pieces {
        let mut file = bytes.clone();
        file.resize(place + frame.len(), 0);
        for piece in (0..pieces).filter(|it| came >> it & 1 == 1) {
            let range = piece * HEAD..frame.len().min(piece * HEAD + HEAD);
            file[place + range.start..place + range.end].copy_from_slice(&frame[range]);
        }
        let is_all = came + 1 == 1 << pieces;
        assert_eq!(read_of(&file) == known, !is_all, "pieces {came:b}");
        assert!(read_of(&file).is_ok_and(|it| it.len() == 1 + usize::from(is_all)), "pieces {came:b}");
    }
}

// Of what was settled each byte counts, also those of the last frame, as its seal is there. A seal that is gone says nothing.
#[test]
fn what_is_damaged_is_refused() {
    let bytes = three(&Folder::new("journal-flipped"));
    let known = read_of(&bytes);
    for place in 0..bytes.len() {
        for bit in 0..8 {
            let mut other = bytes.clone();
            other[place] ^= 1 << bit;
            let is_seal = place >= bytes.len() - HEAD;
            assert_eq!(read_of(&other).is_ok(), is_seal, "byte {place}, bit {bit}");
            assert!(!is_seal || read_of(&other) == known, "byte {place}, bit {bit}");
        }
    }
    for bytes in [&b""[..], b"kpart journal 2\n", b"kpart journal 1\n"] {
        assert!(frames::read(bytes).is_err());
    }
    // A key without a value, and a frame of another number.
    for (number, body) in [(0, &[0, 0, 0, 1, b'a'][..]), (0, &[255; 8]), (1, &[])] {
        let file = [&b"kpart journal 1\n"[..], &frames::frame(number, body).expect("it is short")].concat();
        assert_eq!(read_of(&file), Err(HEAD as u64), "{number} {body:?}");
    }
}

#[test]
fn damage_names_its_file() {
    let folder = Folder::new("journal-named");
    let mut bytes = three(&folder);
    bytes[HEAD + 3] ^= 1;
    fs::write(folder.0.join("journal"), &bytes).expect("it is written");
    match Journal::open(&folder.0) {
        Err(StoreError::Damaged { path, byte, .. }) => assert_eq!((path, byte), (folder.0.join("journal"), HEAD as u64)),
        other => panic!("{other:?}"),
    }
    assert_eq!(bytes_of(&folder), bytes, "nothing is written");
    bytes[HEAD + 3] ^= 1;
    bytes.truncate(bytes.len() - HEAD - 2);
    fs::write(folder.0.join("journal"), &bytes).expect("it is written");
    let journal = opened(&folder.0);
    assert_eq!(journal.torn(), Some((bytes.len() as u64 - HEAD as u64 - 19, HEAD as u64 + 19)));
    assert!(matches!(Journal::open(&folder.0), Err(StoreError::Taken(path)) if path == folder.0));
    assert_eq!(bytes_of(&folder), bytes, "nothing is written yet");
}

// ---- lives whose power goes

// What was put, in its order: after each ticket what there is. Each put changes `first` and `last` alike, and one key of a few.
#[derive(Clone, Debug, Default)]
struct Host {
    history: Vec<BTreeMap<Vec<u8>, Vec<u8>>>,
    settled: usize,
}

impl Host {
    fn new() -> Host {
        Host { history: vec![BTreeMap::new()], settled: 0 }
    }

    fn put(&mut self, journal: &Journal, chance: &mut Chance) -> u64 {
        let number = self.history.len().to_string();
        let key = format!("key {}", chance.below(6));
        let value = (chance.below(3) > 0).then(|| "x".repeat(chance.below(50)));
        let changes = vec![set("first", &number), (key.into_bytes(), value.map(String::into_bytes)), set("last", &number)];
        let mut next = self.history.last().cloned().unwrap_or_default();
        for (key, value) in &changes {
            match value {
                Some(value) => next.insert(key.clone(), value.clone()),
                None => next.remove(key),
            };
        }
        self.history.push(next);
        journal.put(changes)
    }
}

// What a life has heard behind how many operations.
type Moments = Vec<(usize, usize)>;

fn lived(folder: &Path, host: &mut Host, chance: &mut Chance) -> (Vec<Deed>, Moments) {
    let watch = Watch::start();
    let (journal, mut moments) = (opened(folder), Vec::new());
    for _ in 0..ACTS {
        let ticket = if chance.below(3) > 0 { host.put(&journal, chance) } else { journal.last() };
        if chance.below(3) == 0 {
            journal.settle(ticket).expect("there is room");
            moments.push((watch.count(), host.history.len() - 1));
        }
    }
    (watch.acts(), moments)
}

// Some moment from the last one that was settled on is there, whole.
fn found(image: &BTreeMap<String, Vec<u8>>, host: &Host) -> Result<usize, String> {
    let folder = Folder::new("journal-found");
    put(image, &folder.0).expect("it is written");
    let _watch = Watch::start();
    let journal = Journal::open_with(&folder.0, GROWS).map_err(|it| it.to_string())?;
    let entries: BTreeMap<Vec<u8>, Vec<u8>> = journal.entries().into_iter().collect();
    let place = host.history.iter().rposition(|it| *it == entries).ok_or("lacking: no moment is there")?;
    if place < host.settled { Err(format!("lacking: {} was settled, and {place} is there", host.settled)) } else { Ok(place) }
}

fn crashes(seed: u64, order: Order) -> Result<usize, String> {
    let (mut chance, mut host, mut wreck, mut count) = (Chance::new(seed), Host::new(), Wreck::default(), 0);
    for _ in 0..LIVES {
        let folder = Folder::new("journal-crash");
        put(&wreck.all_of(), &folder.0).expect("it is written");
        let mut next = host.clone();
        let (acts, moments) = lived(&folder.0, &mut next, &mut chance);
        let end = chance.below(acts.len() + 1);
        ordered(&acts, order).iter().filter(|it| it.0 < end).for_each(|(_, (name, act))| wreck.hears(*name, act));
        let settled = moments.iter().rfind(|it| it.0 <= end).map_or(host.settled, |it| it.1);
        host = Host { settled, ..next };
        count += settled;
        if chance.below(3) > 0 {
            wreck = Wreck::of(&wreck.some_of(&mut chance));
        }
        let place = found(&wreck.all_of(), &host)?;
        host.history.truncate(place + 1); // what is there is what the next life begins with
        host.settled = place;
    }
    Ok(count)
}

#[test]
fn what_was_settled_stays_wherever_the_power_goes() {
    let settled: usize = (0..seeds(SEEDS)).map(|seed| crashes(seed, own_order).unwrap_or_else(|it| panic!("seed {seed}: {it}"))).sum();
    assert!(settled > 0, "nothing was settled");
}

// At each of its operations, and of each any pieces.
#[test]
fn each_operation_may_be_the_last() {
    let (folder, mut chance, mut host) = (Folder::new("journal-each"), Chance::new(9), Host::new());
    let (acts, moments) = lived(&folder.0, &mut host, &mut chance);
    assert!(acts.iter().filter(|it| matches!(it.1, Act::Rename)).count() > 1, "it is written anew");
    let mut wreck = Wreck::default();
    for (end, (name, act)) in (1..).zip(&acts) {
        wreck.hears(*name, act);
        host.settled = moments.iter().rfind(|it| it.0 <= end).map_or(0, |it| it.1);
        let images = (0..20).map(|_| wreck.clone().some_of(&mut chance)).chain([wreck.all_of(), wreck.least_of()]);
        images.for_each(|it| assert!(found(&it, &host).is_ok(), "operation {end}: {:?}", found(&it, &host)));
    }
}

// Some run finds that an order loses what was settled.
fn finds(order: Order) {
    let told = (0..SEEDS).find_map(|seed| crashes(seed, order).err());
    println!("{}", told.expect("nothing is found"));
}

fn never(deeds: &[Deed], at: usize, is: fn(&Act) -> bool) -> Option<usize> {
    if is(&deeds[at].1) { None } else { Some(at) }
}

#[test]
fn journals_that_sync_less_are_found() {
    finds(|deeds, at| never(deeds, at, |it| matches!(it, Act::Sync)));
    finds(|deeds, at| never(deeds, at, |it| matches!(it, Act::SyncNext)));
    finds(|deeds, at| never(deeds, at, |it| matches!(it, Act::SyncFolder)));
    // Frames that come to the disk behind what is answered.
    finds(|_, at| Some(at + 6));
}

// ---- a full disk

#[test]
fn a_full_disk_settles_nothing_and_loses_nothing() {
    for seed in 0..seeds(20) {
        let (mut chance, watch, folder) = (Chance::new(seed), Watch::start(), Folder::new("journal-full"));
        let (journal, mut host, mut faults) = (opened(&folder.0), Host::new(), 0);
        for act in 0..100 {
            if act % 10 == 5 {
                let first = watch.count() + chance.below(6);
                watch.refuse(first..first + 1 + chance.below(4));
            }
            let ticket = host.put(&journal, &mut chance);
            // What has failed is tried again now and then, also where it fails again.
            let tries = (0..1 + chance.below(3)).map(|_| journal.settle(ticket)).collect::<Vec<_>>();
            faults += tries.iter().filter(|it| it.is_err_and(|it| it.code == Some(28))).count();
            if tries.contains(&Ok(())) {
                host.settled = host.history.len() - 1;
            }
            let mut wreck = Wreck::default();
            watch.acts().iter().for_each(|(name, act)| wreck.hears(*name, act));
            found(&wreck.some_of(&mut chance), &host).unwrap_or_else(|it| panic!("seed {seed}, act {act}: {it}"));
        }
        assert!(faults > 0, "the disk was never full");
        watch.refuse(0..0);
        journal.settle(journal.last()).expect("there is room");
        host.settled = host.history.len() - 1;
        drop(journal);
        let image = BTreeMap::from([("journal".to_string(), bytes_of(&folder))]);
        assert_eq!(found(&image, &host), Ok(host.settled));
    }
}

// ---- several threads

// What one thread has settled is there, and each thread's changes are in their order, while one writes for all.
#[test]
fn threads_share_a_sync() {
    let (folder, count) = (Folder::new("journal-threads"), AtomicU64::new(0));
    let journal = opened(&folder.0);
    std::thread::scope(|scope| {
        for thread in 0..4 {
            let (journal, folder, count) = (&journal, &folder, &count);
            scope.spawn(move || {
                for number in 0..50_u32 {
                    let ticket = journal.put([set(&format!("thread {thread}"), &number.to_string())]);
                    journal.settle(ticket).expect("there is room");
                    let bytes = fs::read(folder.0.join("journal")).expect("it is there");
                    let entries = frames::read(&bytes).map(|it| it.entries);
                    // Others may be writing.
                    let Ok(entries) = entries else { continue };
                    let value = entries.get(format!("thread {thread}").as_bytes()).expect("it was settled");
                    assert_eq!(String::from_utf8_lossy(value), number.to_string());
                    count.fetch_add(1, Ordering::SeqCst);
                }
            });
        }
    });
    assert!(count.load(Ordering::SeqCst) > 0);
    assert_eq!(journal.entries().len(), 4);
}

#[test]
fn what_changes_nothing_takes_no_room() {
    let folder = Folder::new("journal-same");
    let journal = opened(&folder.0);
    let ticket = journal.put([set("a", "1"), (b"b".to_vec(), None)]);
    journal.settle(ticket).expect("there is room");
    assert_eq!((journal.put([set("a", "1")]), journal.put([(b"b".to_vec(), None)]), journal.put([])), (ticket, ticket, ticket));
    let long = bytes_of(&folder).len();
    journal.settle(journal.last()).expect("there is nothing to do");
    assert_eq!(bytes_of(&folder).len(), long);
    // However often a key changes, the file stays small.
    for number in 0..1_000 {
        journal.settle(journal.put([set("a", &number.to_string())])).expect("there is room");
        assert!(bytes_of(&folder).len() < GROWS as usize + 200);
    }
    drop(journal);
    let disk = Disk::open(&folder.0).expect("it is free");
    assert!(disk.read(StoreFile::Journal).is_ok_and(|it| it.is_some()));
    drop(disk);
    assert_eq!(opened(&folder.0).entries(), [entry("a", "999")]);
}
