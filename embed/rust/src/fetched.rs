//! What one fetch of a consumer gives.

use crate::batches::Batches;
use crate::error::Error;
use crate::ffi::RawBatches;

/// What a consumer asks to be shown (Kafka's `isolation.level`).
#[derive(Clone, Copy, Debug, PartialEq, Eq)]
pub enum Isolation {
    /// All that is committed, up to the high watermark.
    ReadUncommitted,
    /// What no open transaction holds back, up to the last stable offset; the client leaves out what was aborted.
    ReadCommitted,
}

/// An aborted transaction, as a client's filter wants it.
#[derive(Clone, Copy, Debug, PartialEq, Eq)]
pub struct AbortedTransaction {
    /// Whose it was.
    pub producer_id: u64,
    /// The offset of its first record.
    pub first: u64,
}

/// What one fetch gives, all of one moment. A client that drops control batches and, of the transactional ones, those whose producer has
/// an entry in `aborted` that begins at or below the batch, until that producer's abort marker, is left with just the batches that a
/// read-committed consumer is to see: that is proved of the library.
///
/// ```
/// use kpart::{AbortedTransaction, Cluster, Isolation, Limits, Marker};
///
/// # fn main() -> Result<(), kpart::Error> {
/// let cluster = Cluster::open(1, Limits::default())?;
/// let mut pass = cluster.pass()?;
/// pass.elect(0)?;
/// let mut leader = cluster.node(0)?;
/// leader.adopt()?;
///
/// // A batch of producer 13's transaction, which is aborted.
/// leader.produce(&mut pass, include_bytes!(concat!(env!("CARGO_MANIFEST_DIR"), "/tests/aborted.batch")))?;
/// let marker = Marker { producer_id: 13, producer_epoch: 0, coordinator_epoch: 0, timestamp: 1_000, commits: false };
/// leader.mark(&mut pass, &marker)?;
/// leader.raise()?;
///
/// let mut fetched = leader.fetch(&mut pass, 0, 1_048_576, Isolation::ReadCommitted)?;
/// assert_eq!((fetched.watermark, fetched.stable, fetched.end), (2, 2, 2));
/// assert_eq!(fetched.aborted, [AbortedTransaction { producer_id: 13, first: 0 }]);
/// let mut answer = Vec::new(); // of a broker: the batches, one behind another
/// while fetched.batches.append_to(&mut answer)? {}
/// # assert!(answer.len() > 100);
/// # Ok(()) }
/// ```
#[derive(Debug)]
pub struct Fetched {
    /// The batches, in the order of the log.
    pub batches: Batches,
    /// Read committed, the aborted transactions that go with these batches, by rising first offset; else none.
    pub aborted: Vec<AbortedTransaction>,
    /// The node's high watermark.
    pub watermark: u64,
    /// The last stable offset at that watermark.
    pub stable: u64,
    /// The node's log end offset. A log begins at offset 0.
    pub end: u64,
}

impl Fetched {
    pub(crate) fn new(mut raw: RawBatches) -> Result<Fetched, Error> {
        let found = raw.fetched()?;
        let aborted = (0..found.aborted).map(|index| {
            let one = raw.aborted(index)?;
            Ok(AbortedTransaction { producer_id: one.producer_id, first: one.first })
        });
        let aborted = aborted.collect::<Result<_, Error>>()?;
        let batches = Batches::new(raw)?;
        Ok(Fetched { batches, aborted, watermark: found.watermark, stable: found.stable, end: found.end })
    }
}
