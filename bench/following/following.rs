//! Times producing, serving, taking and raising, by the processor time of the calls.
//!
//!     following PIECES RUNS              the tables, with one piece in both logs before and with so many
//!     following one PIECES NODES SPELLED the least nanoseconds of the jobs of one pair of logs

#[path = "../shared/alone.rs"]
mod alone;

// What the static library has.
const PIECE: f64 = 12_483.0;
const ROUNDS: u32 = 4;
const CALLS: f64 = 1_000.0;
const SERVES: f64 = 100.0;

// The jobs' places in Times.
const PRODUCE: usize = 0;
const SERVE: usize = 1;
const TAKE: usize = 2;
const FREE: usize = 3;
const RAISE: usize = 4;
const SETTLE: usize = 5;
const IDLE: usize = 6;
const ONE: usize = 7;
const HUNDRED: usize = 8;
const WHOLE: usize = 9;
const JOBS: usize = 10;

type Times = [u64; JOBS];

// The static library's; nothing compares these lines with its own.
unsafe extern "C" {
    fn kp_following(before: u32, nodes: u8, spelled: u32, times: *mut Times) -> u64;
}

// A pair of logs: how many pieces stand in them before, how many nodes are in sync, and whether the bytes are spelled.
struct Pair {
    before: u32,
    nodes: u8,
    spelled: u32,
}

fn one(before: u32, nodes: u8, spelled: u32) {
    let mut times = [0; JOBS];
    let watermark = unsafe { kp_following(before, nodes, spelled, &mut times) };
    let end = f64::from(before + ROUNDS) * PIECE;
    assert_eq!(watermark as f64, end, "{before}, {nodes}, {spelled}");
    for time in times {
        assert!(time < u64::MAX, "no clock");
        println!("{time}");
    }
}

// The runs go over all logs in turn, so that each has its share of the machine's quiet moments.
fn least_times(pairs: &[Pair], runs: u32) -> Vec<Times> {
    let mut least = vec![[u64::MAX; JOBS]; pairs.len()];
    for _ in 0..runs {
        for (least, pair) in least.iter_mut().zip(pairs) {
            let times = alone::numbers::<u64>(&[&pair.before, &pair.nodes, &pair.spelled]);
            for (least, time) in least.iter_mut().zip(times) {
                *least = time.min(*least);
            }
        }
    }
    least
}

// A job's nanoseconds by so many, and in brackets the ratio to the same pair with one piece before.
fn cell(least: &[Times], place: usize, job: usize, by: f64) -> String {
    let time = least[place][job] as f64;
    let ratio = time / least[place - place % 2][job] as f64;
    format!("{:.1} ({ratio:.2})", time / by)
}

// What a line of each table begins with.
fn words(pair: &Pair) -> String {
    let bytes = if pair.spelled == 0 { "raw" } else { "spelled" };
    format!("| {bytes} | {}", f64::from(pair.before) * PIECE)
}

fn print_handing(pairs: &[Pair], least: &[Times]) {
    println!("Nanoseconds a batch:\n");
    println!("| Bytes | Before | produce | serve | take | take against produce | answer freed |");
    println!("|---|---|---|---|---|---|---|");
    for (place, pair) in pairs.iter().enumerate().filter(|(_, pair)| pair.nodes == 2) {
        let each = |job| cell(least, place, job, PIECE);
        let ratio = least[place][TAKE] as f64 / least[place][PRODUCE] as f64;
        println!(
            "{} | {} | {} | {} | {ratio:.2} | {} |",
            words(pair),
            each(PRODUCE),
            each(SERVE),
            each(TAKE),
            each(FREE),
        );
    }
}

fn print_serving(pairs: &[Pair], least: &[Times]) {
    println!("\nNanoseconds of serving again:\n");
    println!("| Bytes | Before | 1 batch | 100, each | 12,483, each |\n|---|---|---|---|---|");
    for (place, pair) in pairs.iter().enumerate().filter(|(_, pair)| pair.nodes == 2) {
        println!(
            "{} | {} | {} | {} |",
            words(pair),
            cell(least, place, ONE, CALLS),
            cell(least, place, HUNDRED, SERVES * 100.0),
            cell(least, place, WHOLE, PIECE),
        );
    }
}

fn print_raising(pairs: &[Pair], least: &[Times]) {
    println!("\nNanoseconds of settling:\n");
    println!("| Bytes | Before | In sync | raise of nothing | raise, an entry | take, an entry |");
    println!("|---|---|---|---|---|---|");
    for (place, pair) in pairs.iter().enumerate() {
        println!(
            "{} | {} | {} | {} | {} |",
            words(pair),
            pair.nodes,
            cell(least, place, IDLE, CALLS),
            cell(least, place, RAISE, PIECE),
            cell(least, place, SETTLE, PIECE),
        );
    }
}

fn tables(pieces: u32, runs: u32) {
    let mut pairs = Vec::new();
    for (nodes, spelled) in [(2, 0), (2, 1), (7, 0)] {
        for before in [1, pieces] {
            pairs.push(Pair {
                before,
                nodes,
                spelled,
            });
        }
    }
    let least = least_times(&pairs, runs);
    print_handing(&pairs, &least);
    print_serving(&pairs, &least);
    print_raising(&pairs, &least);
}

fn main() {
    let words: Vec<String> = std::env::args().skip(1).collect();
    let number = |word: &str| word.parse().expect("a number");
    match words.iter().map(String::as_str).collect::<Vec<_>>()[..] {
        ["one", before, nodes, spelled] => one(
            number(before),
            nodes.parse().expect("a number"),
            number(spelled),
        ),
        [pieces, runs] => tables(number(pieces), number(runs)),
        _ => panic!("following PIECES RUNS"),
    }
}
