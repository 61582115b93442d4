//! Prints producer ids that collide in a hash map of the kit's std, from the least one up:
//!
//!     colliding COUNT
//!
//! The hash of an id is a folded multiply with a start state that nobody chooses (`core/src/hash/fold.rt` of the kit). A map of COUNT
//! entries has groups of twelve lanes (`std_collections/src/index_table`): the low bits of the hash choose the group at which a search
//! begins, it goes on to the next group where one has overflowed, and within a group it compares the keys of equal tags, which
//! are the highest eight bits. So ids with one tag, whose searches begin at near groups, make one long run of groups, and each search of
//! one of them goes through it. What is looked for is a beginning within the first sixteenth of that run.

use std::io::{self, BufWriter, Write};

const STATE: u64 = 0x243f_6a88_85a3_08d3;
const MULTIPLIER: u64 = 0x9e37_79b9_7f4a_7c15;
const LANES: u64 = 12;
/// Entries of a group on average, at most.
const LOAD: u64 = 9;

/// The hash by which a map finds an id: the eight bytes folded to 64 bits, and these to 32.
fn hash(id: u64) -> u32 {
    let product = u128::from(STATE ^ id) * u128::from(MULTIPLIER ^ 16);
    let folded = product as u64 ^ (product >> 64) as u64;
    (folded ^ (folded >> 32)) as u32
}

fn main() -> io::Result<()> {
    let count: u64 = std::env::args().nth(1).and_then(|word| word.parse().ok()).unwrap_or(20_000);
    let groups = count.div_ceil(LOAD).next_power_of_two();
    let near = (count / LANES / 16).max(1);
    // Tags 0 and 1 are one.
    let collides = |id: &u64| hash(*id) >> 25 == 0 && u64::from(hash(*id)) & (groups - 1) < near;
    let mut out = BufWriter::new(io::stdout().lock());
    for id in (0..).filter(collides).take(count as usize) {
        writeln!(out, "{id}")?;
    }
    out.flush()
}
