//! Plays a script of one to seven nodes, in plain Rust of std alone, with the bytes of `kpart run` as its output: for comparison.
//!
//!     player run FILE        the trace, on standard output
//!
//! It does the whole job: reads the script, spells each batch out and sums it once, reads raw bytes by the plain decoder, admits
//! by producers and transactions, keeps each node's batches with segments, both indexes, leader epochs and an undo entry each,
//! settles them as the high watermark rises or takes batches back by them, builds all tables anew where a node is restarted, keeps
//! all messages, and reads at both isolation levels. An answer has shares of its leader's batches, and the follower's log shares of
//! those. Nothing here is proved. A lawful script is expected: at a faulty one it says F31 and no line, and limits of a line's or a
//! script's length aren't tested.

mod cluster;
mod decoder;
#[allow(dead_code)]
mod encoder;
mod log;
mod node;
mod record;
mod script;
mod segments;
mod senders;
mod spelling;

use cluster::Cluster;
use std::io::Write as _;
use std::{env, fs, io, process};

fn main() -> io::Result<()> {
    let Some(path) = env::args().nth(2) else {
        eprintln!("player run FILE");
        process::exit(2);
    };
    let text = fs::read(path)?;
    let Some((header, events)) = script::script(&text) else {
        bad_script();
    };
    let (mut cluster, mut out, mut refused) = (Cluster::new(&header), Vec::new(), false);
    for event in events {
        let Some((line, event)) = event else {
            bad_script();
        };
        spelling::push(&mut out, "", line as u64);
        out.push(b' ');
        if let Err(refusal) = cluster.play(&event, &mut out) {
            refused = true;
            out.extend_from_slice(refusal.as_bytes());
        }
        out.push(b'\n');
    }
    io::stdout().write_all(&out)?;
    process::exit(i32::from(refused));
}

fn bad_script() -> ! {
    eprintln!("kpart: F31 BadScript");
    process::exit(2);
}
