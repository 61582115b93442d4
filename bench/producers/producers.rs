//! Times what an idempotent producer's batch costs, by the processor time of the calls.
//!
//!     producers BATCHES RUNS           the table, for logs of a tenth of so many batches and of so many
//!     producers one PRODUCERS BATCHES  nanoseconds of one call of each kind over one log

#[path = "../shared/alone.rs"]
mod alone;

const CALLS: u32 = 100_000;
const PRODUCERS: [u32; 3] = [1, 1_000, 100_000];
const JOBS: usize = 4;

// Nanoseconds of all calls together: admit, apply, undo, append.
type Times = [u64; JOBS];

// The static library's; nothing compares these lines with its own.
unsafe extern "C" {
    fn kp_producing(producers: u32, batches: u32, calls: u32, times: *mut Times) -> u64;
}

fn one(producers: u32, batches: u32) {
    let mut times = [0; JOBS];
    let admitted = unsafe { kp_producing(producers, batches, CALLS, &mut times) };
    assert_eq!(admitted, u64::from(CALLS), "{producers}, {batches}");
    for time in times {
        assert!(time > 0, "no clock");
        println!("{}", time as f64 / f64::from(CALLS));
    }
}

// Nanoseconds of each call.
fn timed(producers: u32, batches: u32) -> Vec<f64> {
    alone::numbers(&[&producers, &batches])
}

fn table(batches: u32, runs: u32) {
    let sizes = [batches / 10, batches];
    let mut least = [[[f64::MAX; JOBS]; 2]; PRODUCERS.len()];
    // The runs go over all logs in turn, so that each has its share of the machine's quiet moments.
    for _ in 0..runs {
        for (least, producers) in least.iter_mut().zip(PRODUCERS) {
            for (least, size) in least.iter_mut().zip(sizes) {
                for (least, time) in least.iter_mut().zip(timed(producers, size)) {
                    *least = least.min(time);
                }
            }
        }
    }
    println!("| Producers | Batches in the log | admit ns | apply ns | undo ns | append ns |");
    println!("|---|---|---|---|---|---|");
    for (rows, producers) in least.iter().zip(PRODUCERS) {
        for ((row, single), size) in rows.iter().zip(&least[0]).zip(sizes) {
            print!("| {producers} | {size} |");
            for (time, single) in row.iter().zip(single) {
                print!(" {time:.0} ({:.2}) |", time / single);
            }
            println!();
        }
    }
}

fn main() {
    let words: Vec<String> = std::env::args().skip(1).collect();
    let number = |word: &str| word.parse().expect("a number");
    match words.iter().map(String::as_str).collect::<Vec<_>>()[..] {
        ["one", producers, batches] => one(number(producers), number(batches)),
        [batches, runs] => table(number(batches), number(runs)),
        _ => panic!("producers BATCHES RUNS"),
    }
}
