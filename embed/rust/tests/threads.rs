//! As many threads as cores at one cluster, with workers and elections.

use kpart::{Ack, Batch, Cluster, Error, Limits, Pass, Receipt, Refusal, Workers};
use std::sync::Arc;
use std::sync::atomic::{AtomicBool, Ordering};
use std::thread;
use std::time::Duration;

const ONE_RECORD: &[u8] = include_bytes!("one_record.batch");
const NODES: u8 = 3;
const BATCHES: usize = 100;
const ELECTIONS: u8 = 20;

fn is_send<T: Send>() {}
fn is_sync<T: Sync>() {}

#[test]
fn what_may_cross_threads() {
    is_send::<Cluster>();
    is_sync::<Cluster>();
    is_send::<kpart::Pass>();
    is_send::<kpart::Message>();
    is_send::<kpart::Batches>();
    is_send::<Batch>();
    is_send::<kpart::Event>();
    is_send::<Workers>();
    is_sync::<Workers>();
}

fn pause() {
    thread::sleep(Duration::from_micros(100));
}

// Hands a batch in until one of its receipts is acknowledged. With workers it has each one replicated by itself.
fn put(cluster: &Cluster, pass: &mut Pass, workers: Option<&Workers>) -> Result<Receipt, Error> {
    let mut batch = Batch::new(ONE_RECORD)?;
    loop {
        let (leader, _) = pass.leadership()?.leader.expect("somebody leads");
        let receipt = match cluster.node(leader)?.produce_batch(pass, &mut batch) {
            Ok(receipt) => receipt,
            Err(Error::Refused(Refusal::NotLeader)) => {
                pause();
                continue;
            }
            Err(error) => return Err(error),
        };
        if let Some(workers) = workers {
            workers.replicate(leader)?;
        }
        if is_kept(cluster, pass, &receipt)? {
            return Ok(receipt);
        }
    }
}

fn is_kept(cluster: &Cluster, pass: &mut Pass, receipt: &Receipt) -> Result<bool, Error> {
    let mut rounds = 0;
    while rounds < 20 {
        let (leader, epoch) = pass.leadership()?.leader.expect("somebody leads");
        let ack = cluster.wait_acked(pass, leader, receipt, Duration::from_millis(1))?;
        if ack != Ack::NotYet {
            return Ok(ack == Ack::Yes);
        }
        rounds += u32::from(epoch != receipt.epoch); // maybe no log has it any more
    }
    Ok(false)
}

// Elects one node after another one.
fn elect(cluster: &Cluster) -> Result<(), Error> {
    let mut pass = cluster.pass()?;
    for step in 1..=ELECTIONS {
        pass.elect(step % NODES)?;
        thread::sleep(Duration::from_millis(5));
    }
    Ok(())
}

fn all_of(cluster: &Cluster, node: u8, end: u64) -> Result<Vec<Vec<u8>>, Error> {
    let (mut pass, mut all) = (cluster.pass()?, Vec::new());
    while (all.len() as u64) < end {
        for bytes in cluster.node(node)?.read(&mut pass, all.len() as u64)? {
            all.push(bytes?);
        }
        pause();
    }
    all.truncate(end as usize);
    Ok(all)
}

#[test]
fn as_many_threads_as_cores() -> Result<(), Error> {
    produce_in_threads(false)
}

#[test]
fn threads_that_replicate_by_themselves() -> Result<(), Error> {
    produce_in_threads(true)
}

fn produce_in_threads(replicates: bool) -> Result<(), Error> {
    let threads = thread::available_parallelism().map_or(2, usize::from);
    let cluster = Cluster::open(NODES, Limits::default())?;
    cluster.pass()?.elect(0)?;
    let workers = Arc::new(Workers::start(&cluster, Duration::from_micros(300))?);
    let are_elected = Arc::new(AtomicBool::new(false));
    let producer = |cluster: Cluster| {
        let (workers, are_elected) = (replicates.then(|| workers.clone()), are_elected.clone());
        move || -> Result<Vec<Receipt>, Error> {
            let (mut pass, mut kept) = (cluster.pass()?, Vec::new());
            while kept.len() < BATCHES || !are_elected.load(Ordering::Relaxed) {
                kept.push(put(&cluster, &mut pass, workers.as_deref())?);
            }
            Ok(kept)
        }
    };
    let producing: Vec<_> = (0..threads).map(|_| thread::spawn(producer(cluster.clone()))).collect();
    let elected = elect(&cluster);
    are_elected.store(true, Ordering::Relaxed);
    let kept: Result<Vec<Vec<Receipt>>, Error> = producing.into_iter().map(|it| it.join().expect("no panic")).collect();
    let kept: Vec<Receipt> = kept?.concat();
    elected?;
    assert!(kept.len() >= threads * BATCHES);
    let end = kept.iter().map(|it| it.last + 1).max().unwrap_or(0);
    let logs: Vec<_> = (0..NODES).map(|node| all_of(&cluster, node, end)).collect::<Result<_, _>>()?;
    assert!(logs.iter().all(|log| *log == logs[0]), "the nodes agree");
    for receipt in &kept {
        let stamped = &logs[0][receipt.base as usize];
        assert_eq!(stamped[12..16], receipt.epoch.to_be_bytes(), "each acknowledged batch stands");
    }
    Ok(())
}
