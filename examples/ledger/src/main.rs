//! A ledger that orders payments through kpart.
//!
//!     ledger [--data FOLDER] [PRODUCERS] [PAYMENTS]    so many producers with so many payments each; 4 and 250 where nothing is given
//!
//! With a folder the cluster's logs are kept there, and beside them what was acknowledged. Each run goes on from what those before it have
//! left, also where they were killed, and adds up the payments of all.
//!
//! Each producer hands in payments, each one a transaction of its own, and tries again until it knows that it stays; every fifth
//! payment is aborted. Meanwhile the leader is stopped, another node is elected, the stopped one comes back, and all of that once
//! more. A read-committed consumer reads from whichever node is up, and adds up balances. In the end the program compares what
//! was acknowledged with what was shown. Its exit status is 0 where all is as it has to be, and 1 where not or where a minute passed.

mod batch;
mod book;
mod clock;
mod consumer;
mod operator;
mod payment;
mod producer;

use book::Book;
use clock::{Clock, Fault};
use consumer::Consumer;
use kpart::{Cluster, Limits, Store, Workers};
use operator::Operator;
use producer::{Paid, Producer};
use std::collections::BTreeMap;
use std::path::{Path, PathBuf};
use std::process::ExitCode;
use std::sync::atomic::AtomicU64;
use std::sync::mpsc::channel;
use std::thread;
use std::time::Duration;

const NODES: u8 = 3;
const TURN: Duration = Duration::from_micros(500);
const PATIENCE: Duration = Duration::from_secs(60);
const MOST_PRODUCERS: u64 = 64;

/// What the program is called with.
struct Call {
    data: Option<PathBuf>,
    producers: u64,
    payments: u64,
}

/// What came of a run, and of those before it.
struct Outcome {
    paid: Vec<Paid>,
    consumer: Consumer,
    moves: Vec<String>,
}

fn joined<T>(thread: thread::ScopedJoinHandle<'_, Result<T, Fault>>) -> Result<T, Fault> {
    thread.join().map_err(|_| Fault::from("a thread panicked"))?
}

/// The cluster, in memory or in a folder, and what was acknowledged in it before.
fn opened(data: Option<&Path>) -> Result<(Cluster, Book), Fault> {
    let Some(folder) = data else { return Ok((Cluster::open(NODES, Limits::default())?, Book::default())) };
    std::fs::create_dir_all(folder)?;
    let (cluster, _) = Store::open(folder.join("cluster"), NODES, Limits::default())?;
    Ok((cluster, Book::open(&folder.join("paid"))?)) // the cluster's lock is the book's, too
}

/// Has one of those in sync elected, and all others join it; then what was begun is ended.
fn begin(cluster: &Cluster, workers: &Workers, book: &Book, clock: Clock) -> Result<Vec<Paid>, Fault> {
    let mut pass = cluster.pass()?;
    let record = pass.leadership()?;
    pass.elect((0..NODES).find(|it| record.has_in_sync(*it)).ok_or("nobody is in sync")?)?;
    Operator::new(cluster, workers, clock)?.join_all()?;
    let ended: Result<Vec<Option<Paid>>, Fault> = (0..MOST_PRODUCERS).map(|id| Producer::new(cluster, id, clock)?.finish(book)).collect();
    Ok(ended?.into_iter().flatten().collect())
}

/// Runs producers, operator and consumer side by side.
fn run(call: &Call) -> Result<Outcome, Fault> {
    let (clock, producers, payments) = (Clock::new(PATIENCE), call.producers, call.payments);
    let (cluster, mut book) = opened(call.data.as_deref())?;
    let workers = Workers::start(&cluster, TURN)?;
    let ended = begin(&cluster, &workers, &book, clock)?;
    book.paid.extend(ended);
    let acknowledged = AtomicU64::new(0);
    let (done, ended) = channel();
    thread::scope(|scope| {
        let making: Vec<_> = (0..producers)
            .map(|id| {
                let producer = Producer::new(&cluster, id, clock)?;
                let (book, acknowledged, done) = (&book, &acknowledged, done.clone());
                Ok(scope.spawn(move || producer.run(payments, book, acknowledged, &done)))
            })
            .collect::<Result<_, Fault>>()?;
        let operator = Operator::new(&cluster, &workers, clock)?;
        let moving = scope.spawn(|| operator.run(producers * payments, &acknowledged));
        let consumer = Consumer::new(&cluster, clock)?;
        let last = scope.spawn(move || consumer.run(producers, &ended));
        let paid: Result<Vec<Vec<Paid>>, Fault> = making.into_iter().map(joined).collect();
        let (moves, consumer) = (joined(moving), joined(last));
        let paid = [book.paid.clone(), paid?.concat()].concat();
        Ok(Outcome { paid, moves: moves?, consumer: consumer? })
    })
}

/// What the balances have to be, by what was acknowledged.
fn wanted(paid: &[Paid]) -> BTreeMap<u32, i64> {
    let mut balances = BTreeMap::new();
    for it in paid.iter().filter(|it| it.commits) {
        *balances.entry(it.payment.from).or_insert(0) -= it.payment.amount;
        *balances.entry(it.payment.to).or_insert(0) += it.payment.amount;
    }
    balances
}

/// Prints what came of a run, and says whether all is as it has to be.
fn is_sound(outcome: &Outcome) -> bool {
    let Outcome { paid, consumer, moves } = outcome;
    let shown = |it: &&Paid| consumer.shown.get(&it.payment.id).copied().unwrap_or(0);
    let (committed, aborted): (Vec<&Paid>, Vec<&Paid>) = paid.iter().partition(|it| it.commits);
    let lost = committed.iter().filter(|it| shown(it) == 0).count();
    let twice = committed.iter().filter(|it| shown(it) > 1).count();
    let wrong = aborted.iter().filter(|it| shown(it) > 0).count();
    let agree = consumer.balances == wanted(paid);
    for line in moves {
        println!("{line}");
    }
    println!("{} payments acknowledged: {} committed, {} aborted", paid.len(), committed.len(), aborted.len());
    println!("batches handed in again: {}", paid.iter().map(|it| it.retries).sum::<u64>());
    println!("acknowledged and lost: {lost}");
    println!("shown twice: {twice}");
    println!("aborted and shown: {wrong}");
    println!("balances of {} accounts agree: {}", consumer.balances.len(), if agree { "yes" } else { "no" });
    lost == 0 && twice == 0 && wrong == 0 && agree
}

fn called() -> Option<Call> {
    let words: Vec<String> = std::env::args().skip(1).collect();
    let (data, numbers) = match &words[..] {
        [option, folder, numbers @ ..] if option == "--data" => (Some(PathBuf::from(folder)), numbers),
        numbers => (None, numbers),
    };
    let number = |place: usize, usual: u64| numbers.get(place).map_or(Some(usual), |word| word.parse().ok());
    let call = Call { data, producers: number(0, 4)?, payments: number(1, 250)? };
    let is_right = (1..=MOST_PRODUCERS).contains(&call.producers) && (1..=1_000_000).contains(&call.payments);
    (numbers.len() <= 2 && is_right).then_some(call)
}

fn main() -> ExitCode {
    let Some(call) = called() else {
        eprintln!("usage: ledger [--data FOLDER] [PRODUCERS, 1 to 64] [PAYMENTS, 1 to 1000000]");
        return ExitCode::from(2);
    };
    match run(&call) {
        Ok(outcome) if is_sound(&outcome) => {
            println!("nothing acknowledged was lost, and no aborted payment was shown");
            ExitCode::SUCCESS
        }
        Ok(_) => ExitCode::FAILURE,
        Err(fault) => {
            eprintln!("ledger: {fault}");
            ExitCode::FAILURE
        }
    }
}
