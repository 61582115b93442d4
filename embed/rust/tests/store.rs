//! Logs that outlive the process: what was acknowledged is there again, whatever ended it.

mod made;

use kpart::{
    Ack, Change, Cluster, Error, Isolation, Limits, Pass, Receipt, Refusal, Role, Said, Status, Store, StoreError, StoreFile, Workers,
};
use made::batch;
use std::collections::BTreeMap;
use std::ffi::c_int;
use std::fs;
use std::io::{BufRead, BufReader, ErrorKind};
use std::os::unix::fs::{MetadataExt, PermissionsExt, symlink};
use std::os::unix::process::CommandExt;
use std::path::{Path, PathBuf};
use std::process::{Child, Command, Stdio};
use std::sync::atomic::{AtomicU64, Ordering};
use std::time::Duration;

type Done = Result<(), Box<dyn std::error::Error>>;

const LIMITS: Limits = Limits { segment_bytes: 1_000, index_interval: 100, max_batch: 100_000 };
const EVERY: Duration = Duration::from_millis(1);
const LONG: Duration = Duration::from_secs(60);
const PRODUCER: u64 = 7;

// A folder that is gone with this.
struct Folder(PathBuf);

impl Folder {
    fn new(name: &str) -> Folder {
        static COUNT: AtomicU64 = AtomicU64::new(0);
        let number = COUNT.fetch_add(1, Ordering::Relaxed);
        let path = std::env::temp_dir().join(format!("kpart-{name}-{}-{number}", std::process::id()));
        let _gone = fs::remove_dir_all(&path);
        Folder(path)
    }

    // Each file with its bytes.
    fn files(&self) -> BTreeMap<PathBuf, Vec<u8>> {
        let (mut files, mut folders) = (BTreeMap::new(), vec![self.0.clone()]);
        while let Some(folder) = folders.pop() {
            for entry in fs::read_dir(&folder).expect("it is there") {
                let path = entry.expect("it is there").path();
                if path.is_dir() {
                    folders.push(path);
                } else {
                    let name = path.strip_prefix(&self.0).expect("it lies there").to_path_buf();
                    files.insert(name, fs::read(&path).expect("it can be read"));
                }
            }
        }
        files
    }

    // Another one with these files.
    fn of(name: &str, files: &BTreeMap<PathBuf, Vec<u8>>) -> Folder {
        let folder = Folder::new(name);
        for (name, bytes) in files {
            let path = folder.0.join(name);
            fs::create_dir_all(path.parent().expect("a folder")).expect("it is made");
            fs::write(path, bytes).expect("it is written");
        }
        folder
    }
}

impl Drop for Folder {
    fn drop(&mut self) {
        let _gone = fs::remove_dir_all(&self.0);
    }
}

// Node 0 is elected, and all hear of it.
fn lead(cluster: &Cluster, node: u8) -> Result<Pass, Error> {
    let mut pass = cluster.pass()?;
    pass.elect(node)?;
    (0..cluster.nodes()).try_for_each(|it| cluster.node(it)?.adopt().map(drop))?;
    Ok(pass)
}

fn open(folder: &Folder, nodes: u8) -> Result<(Cluster, Pass), Box<dyn std::error::Error>> {
    let (cluster, _) = Store::open(&folder.0, nodes, LIMITS)?;
    let pass = lead(&cluster, 0)?;
    Ok((cluster, pass))
}

// The batch of a producer that has the value `producer-number`.
fn numbered(producer: u64, number: u64) -> Vec<u8> {
    batch(Some((producer, number as i32)), &[format!("{producer}-{number}").as_bytes()])
}

fn put(cluster: &Cluster, pass: &mut Pass, leader: u8, number: u64) -> Result<Receipt, Error> {
    cluster.node(leader)?.produce(pass, &numbered(PRODUCER, number))
}

// Has a node take what its leader has, and tell it so.
fn replicate(cluster: &Cluster, leader: u8, follower: u8) -> Result<(), Error> {
    let mut has_all = false;
    while !has_all {
        let request = cluster.node(follower)?.ask()?;
        let mut answer = cluster.node(leader)?.step(request)?.expect("a leader answers");
        has_all = matches!(answer.said()?, Said::Batches { count: 0, .. });
        cluster.node(follower)?.step(answer)?;
    }
    Ok(())
}

fn log(cluster: &Cluster, node: u8) -> Result<Vec<u8>, Error> {
    let mut bytes = Vec::new();
    let mut batches = cluster.node(node)?.log_from(0, u32::MAX)?;
    while batches.append_to(&mut bytes)? {}
    Ok(bytes)
}

// The values that are committed at the node, in order.
fn values(cluster: &Cluster, pass: &mut Pass, node: u8) -> Result<Vec<String>, Error> {
    let mut fetched = cluster.node(node)?.fetch(pass, 0, u32::MAX, Isolation::ReadUncommitted)?;
    fetched.batches.records(0).map(|it| Ok(String::from_utf8_lossy(&it?.value.unwrap_or_default()).into_owned())).collect()
}

fn wanted(producer: u64, count: u64) -> Vec<String> {
    (0..count).map(|it| format!("{producer}-{it}")).collect()
}

#[test]
fn what_was_acknowledged_is_there_again() -> Done {
    const BATCHES: u64 = 40;
    let folder = Folder::new("again");
    for life in 0..3 {
        let (cluster, store) = Store::open(&folder.0, 3, LIMITS)?;
        assert_eq!((store.is_new, store.promise.offset, store.torn.len()), (life == 0, life * BATCHES, 0));
        let mut pass = cluster.pass()?;
        assert_eq!(pass.leadership()?.leader.map(|it| u64::from(it.1)), life.checked_sub(1));
        pass.elect((life % 3) as u8)?;
        let leader = (life % 3) as u8;
        let workers = Workers::start(&cluster, EVERY)?;
        cluster
            .node(leader)?
            .adopt()
            .or_else(|it| if it == Refusal::StaleRecord.into() { Ok(Role::Leads { epoch: 0, start: 0 }) } else { Err(it) })?;
        if life > 0 {
            // Tried again it is there already, and a gap is refused.
            assert!(put(&cluster, &mut pass, leader, life * BATCHES - 1)?.duplicate);
            assert_eq!(put(&cluster, &mut pass, leader, life * BATCHES + 1), Err(Refusal::OutOfOrderSequence.into()));
        }
        for number in life * BATCHES..(life + 1) * BATCHES {
            let receipt = put(&cluster, &mut pass, leader, number)?;
            assert_eq!((receipt.base, receipt.duplicate), (number, false));
            assert_eq!(cluster.wait_acked(&mut pass, leader, &receipt, LONG)?, Ack::Yes);
        }
        assert_eq!(values(&cluster, &mut pass, leader)?, wanted(PRODUCER, (life + 1) * BATCHES));
        drop((workers, pass, cluster)); // no closing call
    }
    let segments = folder.files().keys().filter(|it| it.extension().is_some_and(|it| it == "log")).count();
    assert!(segments > 3 * 3, "{segments} segments");
    Ok(())
}

#[test]
fn an_election_and_a_cut_survive() -> Done {
    let folder = Folder::new("cut");
    let (cluster, mut pass) = open(&folder, 2)?;
    (0..5).try_for_each(|it| put(&cluster, &mut pass, 0, it).map(drop))?;
    replicate(&cluster, 0, 1)?;
    assert_eq!(cluster.node(0)?.raise()?, 5);
    (5..60).try_for_each(|it| put(&cluster, &mut pass, 0, it).map(drop))?; // on node 0 alone, in several segments
    cluster.node(0)?.raise()?;
    drop(cluster);
    drop(pass);
    let (cluster, _) = Store::open(&folder.0, 2, LIMITS)?;
    let mut pass = lead(&cluster, 1)?;
    assert_eq!((cluster.node(0)?.show()?.end, cluster.node(1)?.show()?.end), (60, 5));
    assert_eq!(put(&cluster, &mut pass, 1, 5)?.base, 5);
    let before = folder.files().len();
    replicate(&cluster, 1, 0)?;
    assert!(folder.files().len() < before, "segments are gone");
    assert_eq!(cluster.node(1)?.raise()?, 6);
    let logs = (log(&cluster, 0)?, log(&cluster, 1)?);
    assert_eq!(logs.0, logs.1);
    let record = pass.leadership()?;
    drop((cluster, pass));
    let (cluster, _) = Store::open(&folder.0, 2, LIMITS)?;
    assert_eq!((log(&cluster, 0)?, log(&cluster, 1)?), logs);
    assert_eq!(cluster.pass()?.leadership()?, record);
    assert_eq!(cluster.node(0)?.show()?.kept_epoch, Some(1));
    let mut pass = lead(&cluster, 0)?; // in epoch 2
    assert_eq!(put(&cluster, &mut pass, 0, 6)?.epoch, 2);
    Ok(())
}

// More than is written at once, in batches that have a segment each, or share one.
#[test]
fn much_is_kept_by_one_sync() -> Done {
    let limits = Limits { segment_bytes: 300_000, max_batch: 2_000_000, ..LIMITS };
    let folder = Folder::new("much");
    let mut wanted = Vec::new();
    for sizes in [&[1_500_000, 100, 400_000, 299_000][..], &[100_000; 20]] {
        let (cluster, _) = Store::open(&folder.0, 1, limits)?;
        let mut pass = lead(&cluster, 0)?;
        assert_eq!(log(&cluster, 0)?, wanted);
        for size in sizes {
            cluster.node(0)?.produce(&mut pass, &batch(None, &[&vec![*size as u8; *size]]))?;
        }
        cluster.node(0)?.raise()?;
        wanted = log(&cluster, 0)?;
    }
    let (cluster, store) = Store::open(&folder.0, 1, limits)?;
    assert_eq!((log(&cluster, 0)?.len(), store.promise.offset, store.torn.len()), (wanted.len(), 24, 0));
    assert_eq!(log(&cluster, 0)?, wanted);
    let segments = cluster.node(0)?.segments()?;
    for segment in segments {
        let mut segment = segment?;
        let mut bytes = Vec::new();
        while segment.batches.append_to(&mut bytes)? {}
        assert!(fs::read(folder.0.join("node-0").join(&segment.name))? == bytes, "{}", segment.name);
    }
    Ok(())
}

#[test]
fn who_is_in_sync_survives() -> Done {
    let folder = Folder::new("sync");
    let (cluster, mut pass) = open(&folder, 3)?;
    let proposal = cluster.node(0)?.alter(Change::Leave(2))?;
    let decision = pass.decide(proposal)?;
    cluster.node(0)?.step(decision)?;
    let record = pass.leadership()?;
    assert!(!record.has_in_sync(2));
    drop((cluster, pass));
    let (cluster, _) = Store::open(&folder.0, 3, LIMITS)?;
    let mut pass = cluster.pass()?;
    assert_eq!(pass.leadership()?, record);
    assert_eq!(pass.elect(2), Err(Refusal::NotInSync.into()));
    assert_eq!(pass.leadership()?, record);
    let request = lead(&cluster, 0).and_then(|_| cluster.node(1)?.ask())?;
    assert_eq!(pass.decide(request).err(), Some(Refusal::StaleAnswer.into()));
    Ok(())
}

// One node with batches 0 and 1 below a checkpoint, and batch 2 behind it.
fn three_batches() -> Result<Folder, Box<dyn std::error::Error>> {
    let folder = Folder::new("three");
    let (cluster, mut pass) = open(&folder, 1)?;
    for number in 0..3 {
        put(&cluster, &mut pass, 0, number)?;
        cluster.node(0)?.raise()?;
        if number == 1 {
            cluster.node(0)?.checkpoint()?;
        }
    }
    Ok(folder)
}

const SEGMENT: &str = "node-0/00000000000000000000.log";

#[test]
fn a_torn_tail_is_cut_at_each_byte() -> Done {
    let files = three_batches()?.files();
    let whole = &files[Path::new(SEGMENT)];
    let size = whole.len() / 3;
    for length in 2 * size..whole.len() {
        for is_holed in [false, true] {
            let mut torn = files.clone();
            let bytes = torn.get_mut(Path::new(SEGMENT)).expect("it is there");
            if is_holed {
                bytes[length..].fill(0)
            } else {
                bytes.truncate(length)
            }
            let count = bytes.len() - 2 * size;
            if is_holed && bytes == whole {
                continue;
            }
            let folder = Folder::of("torn", &torn);
            let (cluster, store) = Store::open(&folder.0, 1, LIMITS)?;
            let found: Vec<(u8, u64, u64, u64)> = store.torn.iter().map(|it| (it.node, it.base, it.byte, it.bytes)).collect();
            assert_eq!(found, if count > 0 { vec![(0, 0, 2 * size as u64, count as u64)] } else { vec![] });
            let mut pass = lead(&cluster, 0)?;
            let receipt = put(&cluster, &mut pass, 0, 2)?; // it was lost, so it is no duplicate
            assert_eq!((receipt.base, receipt.duplicate), (2, false));
            cluster.node(0)?.raise()?;
            assert_eq!(values(&cluster, &mut pass, 0)?, wanted(PRODUCER, 3));
        }
    }
    Ok(())
}

fn damage(folder: &Folder, nodes: u8) -> (PathBuf, u64) {
    match Store::open(&folder.0, nodes, LIMITS).map(|it| it.1) {
        Err(StoreError::Damaged { path, byte, why }) => {
            assert!(!why.is_empty());
            (path.strip_prefix(&folder.0).expect("it lies there").to_path_buf(), byte)
        }
        other => panic!("{other:?}"),
    }
}

#[test]
fn damage_is_refused_by_name_and_nothing_is_written() -> Done {
    let files = three_batches()?.files();
    let size = files[Path::new(SEGMENT)].len() / 3;
    let flipped = |name: &str, place: usize| {
        let mut other = files.clone();
        other.get_mut(Path::new(name)).expect("it is there")[place] ^= 4;
        Folder::of("flipped", &other)
    };
    for place in 0..2 * size {
        let folder = flipped(SEGMENT, place);
        let before = folder.files();
        assert_eq!(damage(&folder, 1), (PathBuf::from(SEGMENT), (place / size * size) as u64), "byte {place}");
        assert_eq!(folder.files(), before);
    }
    for name in ["record", "node-0/state"] {
        for place in 0..files[Path::new(name)].len() {
            let folder = flipped(name, place);
            assert_eq!(damage(&folder, 1).0, PathBuf::from(name), "byte {place}");
        }
    }
    for name in ["record", "node-0/state", SEGMENT] {
        let mut less = files.clone();
        less.remove(Path::new(name));
        assert_eq!(damage(&Folder::of("less", &less), 1), (PathBuf::from(name), 0));
    }
    // A mark is of account only where it is whole.
    let mut less = files.clone();
    less.remove(Path::new("node-0/mark"));
    let (_, store) = Store::open(&Folder::of("less", &less).0, 1, LIMITS)?;
    assert_eq!(store.promise.offset, 2);
    let (_, store) = Store::open(&flipped("node-0/mark", 3).0, 1, LIMITS)?;
    assert_eq!(store.promise.offset, 2);
    let (_, store) = Store::open(&Folder::of("whole", &files).0, 1, LIMITS)?;
    assert_eq!(store.promise.offset, 3);
    Ok(())
}

#[test]
fn what_the_library_refuses_is_named() -> Done {
    let files = three_batches()?.files();
    let folder = Folder::of("small", &files);
    match Store::open(&folder.0, 1, Limits { max_batch: 70, ..LIMITS }).map(|it| it.1) {
        Err(StoreError::Refused { folder: found, error }) => {
            assert_eq!((found, error), (folder.0.join("node-0"), Refusal::TooLarge.into()));
        }
        other => panic!("{other:?}"),
    }
    match Store::open(&folder.0, 2, LIMITS).map(|it| it.1) {
        Err(StoreError::OtherNodes { folder: found, found: 1 }) => assert_eq!(found, folder.0),
        other => panic!("{other:?}"),
    }
    match Store::open(Folder::new("eight").0.clone(), 8, LIMITS).map(|it| it.1) {
        Err(StoreError::Refused { error: Error::OutOfRange, .. }) => {}
        other => panic!("{other:?}"),
    }
    match Store::open("/proc/no-such-folder/store", 1, LIMITS).map(|it| it.1) {
        Err(StoreError::File { path, error }) => {
            assert_eq!((path.as_path(), error.kind()), (Path::new("/proc/no-such-folder/store"), ErrorKind::NotFound));
        }
        other => panic!("{other:?}"),
    }
    assert_eq!(folder.files(), files);
    Ok(())
}

#[test]
fn a_folder_is_open_once() -> Done {
    let folder = Folder::new("once");
    let (cluster, pass) = open(&folder, 1)?;
    let is_taken = || match Store::open(&folder.0, 1, LIMITS) {
        Err(StoreError::Taken(path)) => path == folder.0,
        Err(error) => panic!("{error}"),
        Ok(_) => false,
    };
    assert!(is_taken());
    let (clone, workers) = (cluster.clone(), Workers::start(&cluster, EVERY)?);
    drop(cluster);
    assert!(is_taken());
    drop((clone, workers));
    assert!(is_taken()); // the pass is left, by which somebody could be elected
    drop(pass);
    assert!(!is_taken());
    Ok(())
}

#[test]
fn a_disk_that_is_full_for_a_text() -> Done {
    let folder = Folder::new("devfull");
    let (cluster, mut pass) = open(&folder, 1)?;
    put(&cluster, &mut pass, 0, 0)?;
    cluster.node(0)?.raise()?;
    let (state, record) = (folder.0.join("node-0/state.next"), folder.0.join("record.next"));
    symlink("/dev/full", &state)?;
    symlink("/dev/full", &record)?;
    match cluster.node(0)?.checkpoint() {
        Err(Error::Store(fault)) => {
            assert_eq!((fault.file, fault.code), (StoreFile::State(0), Some(28)));
            assert_eq!(fault.to_string(), "node-0/state: No space left on device (os error 28)");
        }
        other => panic!("{other:?}"),
    }
    assert_eq!(cluster.node(0)?.show()?.status, Status::Down);
    assert_eq!(put(&cluster, &mut pass, 0, 1), Err(Refusal::Down.into()));
    let before = pass.leadership()?;
    match pass.elect(0) {
        Err(Error::Store(fault)) => assert_eq!((fault.file, fault.code), (StoreFile::Record, Some(28))),
        other => panic!("{other:?}"),
    }
    assert_eq!(pass.leadership()?, before);
    assert!(matches!(cluster.node(0)?.restart(), Err(Error::Store(_))));
    assert_eq!(cluster.node(0)?.show()?.status, Status::Down);
    fs::remove_file(state)?;
    fs::remove_file(record)?;
    cluster.node(0)?.restart()?;
    pass.elect(0)?;
    cluster.node(0)?.adopt()?;
    assert_eq!(put(&cluster, &mut pass, 0, 1)?.base, 1);
    assert_eq!(cluster.node(0)?.raise()?, 2);
    drop((cluster, pass));
    let (cluster, mut pass) = open(&folder, 1)?;
    cluster.node(0)?.raise()?;
    assert_eq!(values(&cluster, &mut pass, 0)?, wanted(PRODUCER, 2));
    Ok(())
}

// ---- processes that end

const MODE: &str = "KPART_CHILD";
const PLACE: &str = "KPART_FOLDER";
const PRODUCERS: usize = 3;

// What a process does that one of these tests has started; in any other one nothing.
#[test]
fn child() -> Done {
    let (Ok(mode), Ok(folder)) = (std::env::var(MODE), std::env::var(PLACE)) else { return Ok(()) };
    println!(); // behind the test's name
    match mode.as_str() {
        "limited" => limited(Path::new(&folder)),
        _ => read_only(Path::new(&folder)),
    }
}

fn command(program: &Path, mode: &str, folder: &Path) -> Command {
    let mut command = Command::new(program);
    command.args(["child", "--exact", "--nocapture", "--test-threads=1"]);
    command.env(MODE, mode).env(PLACE, folder).stdout(Stdio::piped()).stderr(Stdio::inherit());
    command
}

// `told P N OFFSET`: the batch of producer P that has its number N, at that offset, is acknowledged.
fn tell(producer: usize, number: u64, offset: u64) {
    println!("told {producer} {number} {offset}");
}

// What a process has told until it ended, whole lines alone: how many batches of each producer, and above which offset none lies.
fn heard(child: &mut Child, told: &mut [u64; PRODUCERS]) -> Result<u64, Box<dyn std::error::Error>> {
    let (mut lines, mut line, mut end) = (BufReader::new(child.stdout.take().expect("a pipe")), String::new(), 0);
    while lines.read_line(&mut line)? > 0 {
        let words: Vec<&str> = line.split_whitespace().collect();
        if let (true, ["told", producer, number, offset]) = (line.ends_with('\n'), &words[..]) {
            let count = &mut told[producer.parse::<usize>()?];
            assert_eq!(number.parse(), Ok(*count), "they are told in order");
            *count += 1;
            end = end.max(offset.parse::<u64>()? + 1);
        }
        line.clear();
    }
    Ok(end)
}

// All that was told is there, once, in each producer's order, whichever of those in sync leads.
fn check(folder: &Folder, told: &[u64; PRODUCERS], end: u64, chance: &mut Chance) -> Done {
    let (cluster, store) = Store::open(&folder.0, 3, LIMITS)?;
    assert!(store.promise.offset >= end, "{:?}", store.promise);
    let record = cluster.pass()?.leadership()?;
    let in_sync: Vec<u8> = (0..3).filter(|it| record.has_in_sync(*it)).collect();
    let leader = in_sync[chance.below(in_sync.len())];
    let mut pass = lead(&cluster, leader)?;
    (0..3).filter(|it| *it != leader).try_for_each(|it| replicate(&cluster, leader, it))?;
    cluster.node(leader)?.raise()?;
    let found = values(&cluster, &mut pass, leader)?;
    for (producer, count) in told.iter().enumerate() {
        let start = format!("{producer}-");
        let own: Vec<&String> = found.iter().filter(|it| it.starts_with(&start)).collect();
        assert!(own.len() as u64 >= *count, "producer {producer} was told {count}, and {} are there", own.len());
        assert_eq!(own, wanted(producer as u64, own.len() as u64).iter().collect::<Vec<_>>());
    }
    Ok(())
}

const SIGXFSZ: c_int = 25;
const SIG_IGN: usize = 1;
const RLIMIT_FSIZE: c_int = 1;
const NO_LIMIT: u64 = u64::MAX;

unsafe extern "C" {
    fn signal(signal: c_int, handler: usize) -> usize;
    fn setrlimit(resource: c_int, limits: &[u64; 2]) -> c_int;
}

// Numbers by chance (Marsaglia's xorshift).
struct Chance(u64);

impl Chance {
    fn below(&mut self, bound: usize) -> usize {
        self.0 ^= self.0 << 13;
        self.0 ^= self.0 >> 7;
        self.0 ^= self.0 << 17;
        (self.0 >> 16) as usize % bound
    }
}

// As long as no file may have more bytes.
fn limit_files(bytes: u64) {
    // SAFETY: the numbers are the system's, and the limits are two words.
    let done = unsafe {
        signal(SIGXFSZ, SIG_IGN);
        setrlimit(RLIMIT_FSIZE, &[bytes, NO_LIMIT])
    };
    assert_eq!(done, 0);
}

// Files that can't grow stop their nodes. Once they can, all goes on.
fn limited(folder: &Path) -> Done {
    let (cluster, _) = Store::open(folder, 3, Limits { segment_bytes: 1 << 30, ..LIMITS })?;
    let (mut pass, mut leader, mut faults, mut number) = (lead(&cluster, 0)?, 0, 0, 0);
    limit_files(4_000);
    while faults < 6 {
        let receipt = cluster.node(leader)?.produce(&mut pass, &numbered(0, number))?;
        let others: Vec<u8> = (0..3).filter(|it| *it != leader).collect();
        let done = others.iter().try_for_each(|it| replicate(&cluster, leader, *it)).and_then(|()| cluster.node(leader)?.raise());
        match done {
            Ok(_) => {
                assert_eq!(cluster.node(leader)?.acked(&mut pass, &receipt)?, Ack::Yes);
                tell(0, number, receipt.last);
                number += 1;
                continue;
            }
            Err(Error::Store(fault)) => {
                let StoreFile::Segment { node, base: 0 } = fault.file else { panic!("{fault}") };
                assert_eq!((fault.kind, fault.code), (ErrorKind::FileTooLarge, Some(27)));
                assert_eq!(cluster.node(node)?.show()?.status, Status::Down);
                assert!(matches!(cluster.node(node)?.restart(), Err(Error::Store(_))));
                limit_files(4_000 + 1_000 * (faults + 1));
                cluster.node(node)?.restart()?;
                faults += 1;
            }
            Err(error) => return Err(error.into()),
        }
        leader = (leader + 1) % 3;
        pass.elect(leader)?;
        (0..3).try_for_each(|it| cluster.node(it)?.adopt().map(drop))?;
    }
    Ok(())
}

#[test]
fn files_that_cannot_grow_stop_their_nodes() -> Done {
    let (folder, mut told) = (Folder::new("limited"), [0; PRODUCERS]);
    let mut child = command(&std::env::current_exe()?, "limited", &folder.0).spawn()?;
    let end = heard(&mut child, &mut told)?;
    assert!(child.wait()?.success() && told[0] > 40, "{told:?}");
    check(&folder, &told, end, &mut Chance(1))
}

fn allow(folder: &Path, mode: u32) -> Done {
    for entry in fs::read_dir(folder)? {
        let path = entry?.path();
        if path.is_dir() {
            allow(&path, mode)?;
        }
        fs::set_permissions(&path, fs::Permissions::from_mode(if path.is_dir() { mode | 0o111 } else { mode }))?;
    }
    Ok(fs::set_permissions(folder, fs::Permissions::from_mode(mode | 0o111))?)
}

fn fault_of<T: std::fmt::Debug>(done: Result<T, Error>) -> (StoreFile, ErrorKind) {
    match done {
        Err(Error::Store(fault)) => (fault.file, fault.kind),
        other => panic!("{other:?}"),
    }
}

// A store that can't be written any more, by a user who isn't root.
fn read_only(folder: &Path) -> Done {
    let folder = folder.join("store");
    let limits = Limits { segment_bytes: 150, ..LIMITS };
    let (cluster, _) = Store::open(&folder, 1, limits)?;
    let mut pass = lead(&cluster, 0)?;
    for number in 0..3 {
        put(&cluster, &mut pass, 0, number)?;
        assert_eq!(cluster.node(0)?.raise()?, number + 1);
    }
    allow(&folder, 0o444)?;
    put(&cluster, &mut pass, 0, 3)?;
    put(&cluster, &mut pass, 0, 4)?; // one of them begins a segment
    let (file, kind) = fault_of(cluster.node(0)?.raise());
    assert!(matches!(file, StoreFile::Segment { node: 0, base: 3.. }) && kind == ErrorKind::PermissionDenied, "{file}");
    assert_eq!(pass.watermark(0)?, 3);
    assert_eq!(cluster.node(0)?.raise(), Err(Refusal::Down.into()));
    assert_eq!(fault_of(pass.elect(0)), (StoreFile::Record, ErrorKind::PermissionDenied));
    drop((cluster, pass));
    match Store::open(&folder, 1, limits).map(|it| it.1) {
        Err(StoreError::File { path, error }) => {
            assert!(path.starts_with(folder.join("node-0")) && error.kind() == ErrorKind::PermissionDenied, "{path:?}: {error}");
        }
        other => panic!("{other:?}"),
    }
    allow(&folder, 0o644)?;
    let (cluster, _) = Store::open(&folder, 1, limits)?;
    let mut pass = lead(&cluster, 0)?;
    cluster.node(0)?.raise()?;
    let found = values(&cluster, &mut pass, 0)?;
    assert!(found.len() >= 3 && found == wanted(PRODUCER, found.len() as u64), "{found:?}");
    Ok(())
}

#[test]
fn a_store_that_is_read_only_loses_nothing() -> Done {
    const NOBODY: u32 = 65_534;
    let folder = Folder::new("readonly");
    fs::create_dir(&folder.0)?;
    let program = folder.0.join("program");
    fs::copy(std::env::current_exe()?, &program)?;
    let mut command = command(&program, "read_only", &folder.0);
    if fs::metadata(&folder.0)?.uid() == 0 {
        std::os::unix::fs::chown(&folder.0, Some(NOBODY), Some(NOBODY))?;
        command.uid(NOBODY).gid(NOBODY);
    }
    let ended = command.stdout(Stdio::null()).status()?;
    assert!(ended.success(), "{ended}");
    Ok(())
}
