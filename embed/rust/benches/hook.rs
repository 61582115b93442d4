//! What the workers' hook costs a node's lock: `cargo bench --offline --bench hook`, with the pairs' count as RUNS (11 where it isn't set).
//!
//! A thread replicates one batch after another on three nodes ([`Workers::replicate`]), and then nothing, with a hook that does nothing and
//! without one, in turn. With a hook each node is looked at once more while its lock is held: nine times for a batch, and five times where
//! there is none. It prints medians in nanoseconds of the clock, and what they differ by for each of these looks, with the telling behind it.

use kpart::{Batch, Cluster, Error, Limits, Workers};
use std::time::{Duration, Instant};

const NODES: u8 = 3;
const ROUNDS: u32 = 20_000;
const LOOKS: [f64; 2] = [9.0, 5.0];
const NAMES: [&str; 2] = ["a batch on three nodes", "nothing new"];
const ONE_RECORD: &[u8] = include_bytes!(concat!(env!("CARGO_MANIFEST_DIR"), "/tests/one_record.batch"));
const NEVER: Duration = Duration::from_secs(3_600);

// Nanoseconds for replicating a batch, and for replicating none.
fn replicating(has_hook: bool) -> Result<[f64; 2], Error> {
    let cluster = Cluster::open(NODES, Limits::default())?;
    let mut pass = cluster.pass()?;
    pass.elect(0)?;
    (0..NODES).try_for_each(|it| cluster.node(it)?.adopt().map(drop))?;
    let workers = if has_hook { Workers::start_with(&cluster, NEVER, |_event| {})? } else { Workers::start(&cluster, NEVER)? };
    let mut batch = Batch::new(ONE_RECORD)?;
    let mut spent = [Duration::ZERO; 2];
    for _ in 0..ROUNDS {
        cluster.node(0)?.produce_batch(&mut pass, &mut batch)?;
        for time in &mut spent {
            let began = Instant::now();
            workers.replicate(0)?;
            *time += began.elapsed();
        }
    }
    assert_eq!(pass.watermark(0)?, u64::from(ROUNDS));
    Ok(spent.map(|it| it.as_nanos() as f64 / f64::from(ROUNDS)))
}

fn median(mut numbers: Vec<f64>) -> f64 {
    numbers.sort_by(f64::total_cmp);
    numbers[numbers.len() / 2]
}

fn main() -> Result<(), Error> {
    let runs = std::env::var("RUNS").ok().and_then(|it| it.parse().ok()).unwrap_or(11);
    let (mut without, mut with) = (Vec::new(), Vec::new());
    for _ in 0..runs {
        without.push(replicating(false)?);
        with.push(replicating(true)?);
    }
    println!("{runs} pairs of {ROUNDS} replications, ns\n");
    println!("| | without a hook | with one | for each look |\n|---|---|---|---|");
    for (kind, name) in NAMES.iter().enumerate() {
        let of = |times: &[[f64; 2]]| median(times.iter().map(|it| it[kind]).collect());
        let (without, with) = (of(&without), of(&with));
        println!("| {name} | {without:.0} | {with:.0} | {:.0} |", (with - without) / LOOKS[kind]);
    }
    Ok(())
}
