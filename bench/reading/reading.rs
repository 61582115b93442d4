//! Times the proved reader beside the plain decoder, in turn, by the thread's processor time.
//!
//!     reading                    the table
//!     reading only SIDE NUMBER   reads and walks one batch of the table, from 0; SIDE is rattle or rust
//!     reading rows FILE          compares the plain decoder with a file of table rows

#[path = "../plain/decoder.rs"]
mod decoder;
#[path = "../plain/encoder.rs"]
mod encoder;

use decoder::{Batch, Fault};
use encoder::{FIRST, batch};
use std::hint::black_box;
use std::sync::Arc;

const MAX: u32 = 1_048_576;
const BYTES: usize = 16 << 20;
const ROUNDS: usize = 31;

// The static library's; nothing compares these lines with its own.
unsafe extern "C" {
    fn kp_sum(bytes: *const u8, length: usize, rounds: u32) -> u64;
    fn kp_read(bytes: *const u8, length: usize, rounds: u32) -> u64;
    fn kp_walk(bytes: *const u8, length: usize, rounds: u32) -> u64;
    fn clock_gettime(clock: i32, time: *mut [i64; 2]) -> i32;
}

type Job = (&'static str, fn(&[u8], u32) -> u64, fn(&[u8], u32) -> u64);

const JOBS: [Job; 3] = [
    (
        "checksum",
        |b, n| unsafe { kp_sum(b.as_ptr(), b.len(), n) },
        sum,
    ),
    (
        "read",
        |b, n| unsafe { kp_read(b.as_ptr(), b.len(), n) },
        read,
    ),
    (
        "read and walk",
        |b, n| unsafe { kp_walk(b.as_ptr(), b.len(), n) },
        walk,
    ),
];

fn sum(bytes: &[u8], rounds: u32) -> u64 {
    (0..rounds).fold(0, |sum, _| {
        sum + u64::from(decoder::crc32c(black_box(bytes)))
    })
}

// 0 where a batch is refused.
fn read(bytes: &[u8], rounds: u32) -> u64 {
    let bytes: Arc<[u8]> = bytes.into();
    let mut sum = 0u64;
    for _ in 0..rounds {
        let Ok(batch) = Batch::read(black_box(&bytes).clone(), MAX) else {
            return 0;
        };
        sum = sum.wrapping_add(1 + batch.base);
    }
    sum
}

fn walk(bytes: &[u8], rounds: u32) -> u64 {
    let bytes: Arc<[u8]> = bytes.into();
    let mut sum = 0u64;
    for _ in 0..rounds {
        let Ok(batch) = Batch::read(black_box(&bytes).clone(), MAX) else {
            return 0;
        };
        for record in batch.records() {
            let [key, value] = [record.key, record.value].map(|it| it.map_or(0, |it| it.len()));
            sum = sum
                .wrapping_add(record.timestamp)
                .wrapping_add((key + value) as u64);
        }
    }
    sum
}

// Seconds of processor time that this thread has had.
fn now() -> f64 {
    let mut time = [0; 2];
    assert_eq!(unsafe { clock_gettime(3, &mut time) }, 0);
    time[0] as f64 + time[1] as f64 / 1e9
}

fn batches() -> [(&'static str, Vec<u8>); 6] {
    [
        ("1 record of 50 bytes", batch(FIRST, 1, 50, 0, false)),
        ("1 record of 100 bytes", batch(FIRST, 1, 100, 0, false)),
        (
            "1,000 records of 90 to 110 bytes",
            batch(FIRST, 1000, 90, 3, false),
        ),
        (
            "as the third, each with a header",
            batch(FIRST, 1000, 90, 3, true),
        ),
        (
            "as the third, times far apart",
            batch(FIRST, 1000, 90, 100_000, false),
        ),
        (
            "1,000 records of 0 to 20 bytes",
            batch(FIRST, 1000, 0, 3, false),
        ),
    ]
}

// The rounds go over all cases in turn, so that each has its share of the machine's quiet moments.
fn table() {
    let batches = batches();
    let mut cases = Vec::new();
    for (name, bytes) in &batches {
        for (job, rattle, rust) in JOBS {
            let expected = rust(bytes, 1);
            assert!(expected != 0, "{name}: refused by the plain decoder");
            let found = rattle(bytes, 1);
            assert!(
                found == 0 || found == expected,
                "{name}, {job}: {found}, {expected}"
            );
            cases.push((name, job, bytes, [rattle, rust], found != 0, [f64::MAX; 2]));
        }
    }
    for _ in 0..ROUNDS {
        for (_, _, bytes, calls, _, least) in &mut cases {
            let rounds = (BYTES / bytes.len()) as u32;
            for (call, least) in calls.iter().zip(least) {
                let began = now();
                black_box(call(black_box(bytes), rounds));
                *least = least.min((now() - began) / f64::from(rounds));
            }
        }
    }
    println!("| Batch | Job | Rattle MB/s | Rust MB/s | Rattle / Rust (time) |");
    println!("|---|---|---|---|---|");
    for (name, job, bytes, _, is_read, least) in cases {
        let [rattle, rust] = least.map(|it| bytes.len() as f64 / it / 1e6);
        if is_read {
            let ratio = least[0] / least[1];
            println!("| {name} | {job} | {rattle:.0} | {rust:.0} | {ratio:.2} |");
        } else {
            println!("| {name} | {job} | refused | {rust:.0} | |");
        }
    }
}

fn outcome(bytes: &[u8]) -> String {
    let number = match Batch::read(bytes.into(), MAX) {
        Ok(_) => return "read".to_string(),
        Err(Fault::BadRecord(place)) => return format!("F8 BadRecord {place}"),
        Err(Fault::Truncated) => 1,
        Err(Fault::BadMagic) => 2,
        Err(Fault::BadLength) => 3,
        Err(Fault::BadCrc) => 4,
        Err(Fault::Compressed) => 5,
        Err(Fault::BadAttributes) => 6,
        Err(Fault::BadCount) => 7,
        Err(Fault::TooLarge) => 9,
        Err(Fault::BadProducerFields) => 10,
    };
    format!(
        "F{number} {:?}",
        Batch::read(bytes.into(), MAX).err().unwrap()
    )
}

fn rows(file: &str) {
    let (mut count, mut wrong) = (0, 0);
    for line in std::fs::read_to_string(file).expect("the file").lines() {
        let parts: Vec<&str> = line.split(" | ").collect();
        let [name, expected, digits] = parts[..] else {
            continue;
        };
        let bytes: Vec<u8> = (0..digits.len() / 2)
            .map(|i| u8::from_str_radix(&digits[2 * i..2 * i + 2], 16).expect("a digit"))
            .collect();
        count += 1;
        let found = outcome(&bytes);
        if found != expected {
            wrong += 1;
            println!("{name}: {found}, but {expected} is expected");
        }
    }
    println!("{count} rows, {wrong} differ");
    assert!(count > 0 && wrong == 0);
}

fn main() {
    let words: Vec<String> = std::env::args().skip(1).collect();
    match words.iter().map(String::as_str).collect::<Vec<_>>()[..] {
        ["rows", file] => rows(file),
        ["only", side, number] => {
            let number: usize = number.parse().expect("a number");
            let (_, bytes) = &batches()[number];
            let (_, rattle, rust) = JOBS[2];
            let call = if side == "rattle" { rattle } else { rust };
            println!("{}", call(bytes, (20 * BYTES / bytes.len()) as u32));
        }
        _ => table(),
    }
}
