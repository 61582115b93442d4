//! What recording costs: as many batches without it and with it, in turn.
//!
//!     cargo bench --bench recorder [-- PAIRS]
//!
//! Each is handed in by `Node::produce_batch` and replicated to two followers by `Workers::replicate`. It prints the median of the pairs'
//! quotients, and the times of the last pair.

#[path = "../tests/made/mod.rs"]
mod made;

use kpart::{Batch, Cluster, Error, Limits, Recorder, Workers};
use std::time::{Duration, Instant};

const BYTES: usize = 100 << 20; // at most, of a run
const BATCHES: usize = 20_000; // at most

// How long a run takes of so many batches of this size.
fn run(cluster: &Cluster, size: usize, batches: usize) -> Result<Duration, Error> {
    let mut pass = cluster.pass()?;
    pass.elect(0)?;
    (0..3).try_for_each(|it| cluster.node(it)?.adopt().map(drop))?;
    let workers = Workers::start(cluster, Duration::from_millis(2))?;
    let bytes = made::batch(None, &[&vec![b'x'; size]]);
    let mut batch = Batch::new(&bytes)?;
    let start = Instant::now();
    for _ in 0..batches {
        batch.set(&bytes)?;
        cluster.node(0)?.produce_batch(&mut pass, &mut batch)?;
        workers.replicate(0)?;
    }
    Ok(start.elapsed())
}

fn pair(size: usize, batches: usize) -> Result<(Duration, Duration), Box<dyn std::error::Error>> {
    let without = run(&Cluster::open(3, Limits::default())?, size, batches)?;
    let script = std::env::temp_dir().join(format!("kpart-bench-{}.script", std::process::id()));
    let (cluster, recorder) = Recorder::open(&script, 3, Limits::default())?;
    let with = run(&cluster, size, batches)?;
    recorder.stop()?;
    std::fs::remove_file(Recorder::answers_of(&script))?;
    std::fs::remove_file(script)?;
    Ok((without, with))
}

fn main() -> Result<(), Box<dyn std::error::Error>> {
    let pairs = std::env::args().filter_map(|it| it.parse().ok()).next().unwrap_or(9);
    for size in [100, 1_000, 10_000, 100_000] {
        let batches = (BYTES / size).min(BATCHES);
        let times = (0..pairs).map(|_| pair(size, batches)).collect::<Result<Vec<_>, _>>()?;
        let mut quotients: Vec<f64> = times.iter().map(|(without, with)| with.as_secs_f64() / without.as_secs_f64()).collect();
        quotients.sort_by(f64::total_cmp);
        let each = |time: Duration| time.as_secs_f64() * 1e6 / batches as f64;
        let (without, with) = times[times.len() - 1];
        let (half, most) = (quotients[quotients.len() / 2], quotients[quotients.len() - 1]);
        println!(
            "{batches} batches of {size} bytes: {half:.3} times, at most {most:.3}; {:.2} and {:.2} us each",
            each(without),
            each(with)
        );
    }
    Ok(())
}
