//! Times opening a closed log again, beside appending its batches, by the processor time of the calls.
//!
//!     restarting BATCHES RUNS      the table, with a hundredth of so many batches and with so many
//!     restarting one COUNT         nanoseconds a batch: append, append and settle, reopen from 0, reopen from the end

#[path = "../shared/alone.rs"]
mod alone;

// The static library's; nothing compares this line with its own.
unsafe extern "C" {
    fn kp_restarting(count: u32, times: *mut [u64; 4]) -> u64;
}

fn one(count: u32) {
    let mut times = [u64::MAX; 4];
    let end = unsafe { kp_restarting(count, &mut times) };
    assert_eq!(end, u64::from(count));
    for time in times {
        assert!(time > 0 && time < u64::MAX, "no clock");
        println!("{}", time as f64 / f64::from(count));
    }
}

fn table(batches: u32, runs: u32) {
    let sizes = [batches / 100, batches];
    let mut least = [[f64::MAX; 4]; 2];
    // The runs go over both logs in turn, so that each has its share of the machine's quiet moments.
    for _ in 0..runs {
        for (least, size) in least.iter_mut().zip(sizes) {
            for (least, time) in least.iter_mut().zip(alone::numbers::<f64>(&[&size])) {
                *least = least.min(time);
            }
        }
    }
    println!(
        "| Batches | append ns a batch | reopen from 0 | ratio | append and settle | reopen from the end | ratio |"
    );
    println!("|---|---|---|---|---|---|---|");
    for ([append, settle, reopen, reopen_settled], size) in least.into_iter().zip(sizes) {
        println!(
            "| {size} | {append:.1} | {reopen:.1} | {:.2} | {settle:.1} | {reopen_settled:.1} | {:.2} |",
            reopen / append,
            reopen_settled / settle
        );
    }
}

fn main() {
    let words: Vec<String> = std::env::args().skip(1).collect();
    let number = |word: &str| word.parse().expect("a number");
    match words.iter().map(String::as_str).collect::<Vec<_>>()[..] {
        ["one", count] => one(number(count)),
        [batches, runs] => table(number(batches), number(runs)),
        _ => panic!("restarting BATCHES RUNS"),
    }
}
