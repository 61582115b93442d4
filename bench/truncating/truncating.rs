//! Times truncation and look-ups of an epoch's end, by the processor time of the calls.
//!
//!     truncating BATCHES RUNS      the tables, with a hundredth of so many batches kept and with so many
//!     truncating one KEPT STEP     nanoseconds a batch of append, truncate and note, of one log
//!     truncating one ends EPOCHS   nanoseconds of one look-up among so many epochs

#[path = "../shared/alone.rs"]
mod alone;

const BEHIND: u32 = 10_000;
const ROUNDS: u32 = 10;
const STEPS: [u32; 3] = [1, 100, 10_000];
const CALLS: u32 = 1_000_000;
const EPOCHS: [u32; 2] = [1, 100_000];

// Nanoseconds of all calls together: append, truncate, note.
type Times = [u64; 3];

// The static library's; nothing compares these lines with its own.
unsafe extern "C" {
    fn kp_truncating(kept: u32, step: u32, times: *mut Times) -> u64;
    fn kp_epoch_ends(count: u32, calls: u32, times: *mut Times) -> u64;
}

fn one(kept: u32, step: u32) {
    let mut times = [u64::MAX; 3];
    let taken = unsafe { kp_truncating(kept, step, &mut times) };
    assert_eq!(taken, u64::from(BEHIND * ROUNDS), "{kept}, {step}");
    for time in times {
        assert!(time > 0 && time < u64::MAX, "no clock");
        println!("{}", time as f64 / f64::from(BEHIND));
    }
}

// What kp_epoch_ends sums, by the rule: epoch e begins at e, and the next one where it ends.
fn sum_of_ends(count: u32) -> u64 {
    let mut asked = 0u32;
    let mut sum = 0;
    for _ in 0..CALLS {
        asked = asked.wrapping_mul(1_664_525).wrapping_add(1_013_904_223);
        sum += u64::from((asked >> 8) % count + 1);
    }
    sum
}

fn one_end(count: u32) {
    let mut times = [0; 3];
    let sum = unsafe { kp_epoch_ends(count, CALLS, &mut times) };
    assert_eq!(sum, sum_of_ends(count), "{count}");
    assert!(times[2] > 0, "no clock");
    println!("{}", times[2] as f64 / f64::from(CALLS));
}

fn table(batches: u32, runs: u32) {
    let sizes = [batches / 100, batches];
    let mut least = [[[f64::MAX; 3]; 2]; STEPS.len()];
    let mut ends = [f64::MAX; 2];
    // The runs go over all logs in turn, so that each has its share of the machine's quiet moments.
    for _ in 0..runs {
        for (least, step) in least.iter_mut().zip(STEPS) {
            for (least, size) in least.iter_mut().zip(sizes) {
                for (least, time) in least.iter_mut().zip(alone::numbers(&[&size, &step])) {
                    *least = least.min(time);
                }
            }
        }
        for (least, count) in ends.iter_mut().zip(EPOCHS) {
            *least = least.min(alone::numbers(&[&"ends", &count])[0]);
        }
    }
    println!(
        "| Batches a truncation | Kept | truncate ns a batch | append ns | note ns by itself |"
    );
    println!("|---|---|---|---|---|");
    for (rows, step) in least.iter().zip(STEPS) {
        for (row, size) in rows.iter().zip(sizes) {
            let ratio = row[1] / rows[0][1];
            println!(
                "| {step} | {size} | {:.1} ({ratio:.2}) | {:.1} | {:.1} |",
                row[1], row[0], row[2]
            );
        }
    }
    println!("\n| Epochs | end_for ns |\n|---|---|");
    for (time, count) in ends.iter().zip(EPOCHS) {
        println!("| {count} | {time:.1} |");
    }
}

fn main() {
    let words: Vec<String> = std::env::args().skip(1).collect();
    let number = |word: &str| word.parse().expect("a number");
    match words.iter().map(String::as_str).collect::<Vec<_>>()[..] {
        ["one", "ends", epochs] => one_end(number(epochs)),
        ["one", kept, step] => one(number(kept), number(step)),
        [batches, runs] => table(number(batches), number(runs)),
        _ => panic!("truncating BATCHES RUNS"),
    }
}
