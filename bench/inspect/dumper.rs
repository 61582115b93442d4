//! A plain dump of a log, of std alone, for comparison with `kpart inspect`; and logs to dump.
//!
//!     dumper make FILE MIB BATCH    writes a log of so many MiB at most; BATCH is as 16x1000:
//!                                   so many records with values of so many bytes and up to 20 more
//!     dumper dump FILE              prints a line for each batch, and the end or the first fault

#[path = "../plain/decoder.rs"]
mod decoder;
#[path = "../plain/encoder.rs"]
mod encoder;

use decoder::{Batch, Fault};
use std::fs::{self, File};
use std::io::{self, BufWriter, Write};
use std::process::ExitCode;

const MAX: u32 = 1_048_576;
const HEAD: usize = 61;

/// The batches read so far, all of them kept, and what the next one has to follow.
#[derive(Default)]
struct Log {
    batches: Vec<Batch>,
    end: u64,
    epoch: u32,
}

/// The bytes of a field.
fn field<const N: usize>(bytes: &[u8], place: usize) -> [u8; N] {
    bytes[place..place + N].try_into().unwrap()
}

/// How many bytes the batch has that these begin with.
fn frame(bytes: &[u8]) -> Result<usize, Fault> {
    if bytes.len() < HEAD {
        return Err(Fault::Truncated);
    }
    let length = i32::from_be_bytes(field(bytes, 8));
    if length < 49 {
        return Err(Fault::BadLength);
    }
    let size = 12 + length as usize;
    if size > MAX as usize {
        return Err(Fault::TooLarge);
    }
    if bytes.len() < size {
        return Err(Fault::Truncated);
    }
    Ok(size)
}

fn number(fault: &Fault) -> u32 {
    match fault {
        Fault::Truncated => 1,
        Fault::BadMagic => 2,
        Fault::BadLength => 3,
        Fault::BadCrc => 4,
        Fault::Compressed => 5,
        Fault::BadAttributes => 6,
        Fault::BadCount => 7,
        Fault::BadRecord(_) => 8,
        Fault::TooLarge => 9,
        Fault::BadProducerFields => 10,
    }
}

fn text(fault: Fault) -> String {
    match fault {
        Fault::BadRecord(place) => format!("F8 BadRecord {place}"),
        fault => format!("F{} {fault:?}", number(&fault)),
    }
}

/// `data`, `txn`, or a marker's way and its coordinator's epoch.
fn kind(bytes: &[u8], batch: &Batch) -> String {
    match bytes[22] {
        0 => return "data".to_string(),
        0x10 => return "txn".to_string(),
        _ => {}
    }
    let record = batch.records().next().expect("a marker's record");
    let (key, value) = (record.key.expect("a key"), record.value.expect("a value"));
    let way = if key[3] == 1 { "commit" } else { "abort" };
    format!("{way} {}", i32::from_be_bytes(field(value, 2)))
}

impl Log {
    /// Reads the batch that the bytes begin with, which has to be the next one. Its size.
    fn append(&mut self, bytes: &[u8]) -> Result<usize, String> {
        let size = frame(bytes).map_err(text)?;
        let batch = Batch::read(bytes[..size].into(), MAX).map_err(text)?;
        if batch.base != self.end {
            return Err("F26 NotNext".to_string());
        }
        let Some(epoch) = batch.epoch.filter(|epoch| *epoch >= self.epoch) else {
            return Err("F27 EpochBack".to_string());
        };
        self.epoch = epoch;
        self.end += u64::from(u32::from_be_bytes(field(bytes, 57)));
        self.batches.push(batch);
        Ok(size)
    }

    /// The line of the last batch, whose bytes these are.
    fn write_last(&self, out: &mut impl Write, at: usize, bytes: &[u8]) -> io::Result<()> {
        let batch = self.batches.last().expect("a batch");
        writeln!(
            out,
            "batch {at} size {} base {} last {} epoch {} time {} producer {} {} {} {}",
            bytes.len(),
            batch.base,
            self.end - 1,
            self.epoch,
            i64::from_be_bytes(field(bytes, 35)),
            i64::from_be_bytes(field(bytes, 43)),
            i16::from_be_bytes(field(bytes, 51)),
            i32::from_be_bytes(field(bytes, 53)),
            kind(bytes, batch),
        )
    }
}

/// Whether there is no fault.
fn dump(bytes: &[u8], out: &mut impl Write) -> io::Result<bool> {
    let mut log = Log::default();
    let mut at = 0;
    while at < bytes.len() {
        match log.append(&bytes[at..]) {
            Ok(size) => {
                log.write_last(out, at, &bytes[at..at + size])?;
                at += size;
            }
            Err(fault) => {
                writeln!(out, "fault {fault} at {at}")?;
                return Ok(false);
            }
        }
    }
    writeln!(out, "end {}", log.end)?;
    Ok(true)
}

/// Batches with offsets that follow, of leader epoch 0, each a second later than the one before.
fn make(out: &mut impl Write, most: usize, records: usize, size: usize) -> io::Result<()> {
    let (mut done, mut base) = (0, 0);
    for second in 0.. {
        let first = encoder::FIRST + 1000 * second;
        let mut batch = encoder::batch(first, records, size, 3, false);
        if done + batch.len() > most {
            break;
        }
        encoder::stamp(&mut batch, base, 0);
        out.write_all(&batch)?;
        done += batch.len();
        base += records as i64;
    }
    out.flush()
}

fn main() -> ExitCode {
    let words: Vec<String> = std::env::args().skip(1).collect();
    match words.iter().map(String::as_str).collect::<Vec<_>>()[..] {
        ["make", file, mib, batch] => {
            let (records, size) = batch.split_once('x').expect("RECORDSxBYTES");
            let [mib, records, size] = [mib, records, size].map(|it| it.parse().expect("a number"));
            let mut out = BufWriter::new(File::create(file).expect("the file"));
            make(&mut out, mib << 20, records, size).expect("the log");
            ExitCode::SUCCESS
        }
        ["dump", file] => {
            let bytes = fs::read(file).expect("the file");
            let mut out = BufWriter::with_capacity(1 << 16, io::stdout().lock());
            let is_whole = dump(&bytes, &mut out).expect("the dump");
            out.flush().expect("the dump");
            ExitCode::from(u8::from(!is_whole))
        }
        _ => panic!("make FILE MIB RECORDSxBYTES, or dump FILE"),
    }
}
