//! What the nodes say once their workers have ended.

use crate::decoder::Batch;
use crate::node::{Ack, Node, Receipt, Refusal};
use crate::spelling::Head;

/// A batch below a node's watermark, by its place and what fixes its bytes.
#[derive(PartialEq)]
struct Committed {
    base: u64,
    epoch: u32,
    checksum: u32,
}

/// For how many of the receipts a node says that the batch is committed.
pub fn count_acked(nodes: &[Node], receipts: &[Receipt]) -> usize {
    let is_acked = |receipt: &&Receipt| nodes.iter().any(|node| node.acked(receipt) == Ack::Yes);
    receipts.iter().filter(is_acked).count()
}

// The checksum that stands in the batch.
fn checksum(batch: &Batch) -> u32 {
    let bytes = batch.bytes();
    u32::from_be_bytes([bytes[17], bytes[18], bytes[19], bytes[20]])
}

// The batches below a node's watermark, read piece by piece.
fn committed_of(node: &Node) -> Result<Vec<Committed>, Refusal> {
    let (mut committed, mut from) = (Vec::new(), 0);
    loop {
        let piece = node.read(from)?;
        let Some(last) = piece.last() else {
            return Ok(committed);
        };
        from = last.base + Head::of(last.bytes()).last + 1;
        committed.extend(piece.iter().map(|batch| Committed {
            base: batch.base,
            epoch: batch.epoch.unwrap_or(0),
            checksum: checksum(batch),
        }));
    }
}

/// Whether of any two nodes' lists one begins the other: so does each with the longest.
pub fn do_agree(nodes: &[Node]) -> Result<bool, Refusal> {
    let mut longest: Vec<Committed> = Vec::new();
    for node in nodes {
        let found = committed_of(node)?;
        if found.len() > longest.len() {
            if !found.starts_with(&longest) {
                return Ok(false);
            }
            longest = found;
        } else if !longest.starts_with(&found) {
            return Ok(false);
        }
    }
    Ok(true)
}
