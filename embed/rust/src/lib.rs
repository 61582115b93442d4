//! A replicated partition log with the rules of Apache Kafka, whose code is proved, for Rust services.
//!
//! A [`Cluster`] has one to seven nodes in this process. An election names a leader, which takes batches from producers; followers
//! ask it for what they lack; and once all that are in sync have a batch, it is *committed*: no election, restart or late message
//! takes it back. What each call does is proved of the library that this crate calls (`docs/PROOFS.md`); this crate adds types by
//! which safe Rust can't break what the library asks of its callers, and threads that carry the messages ([`Workers`]).
//!
//! | You want | Take |
//! |---|---|
//! | nodes, and who leads | [`Cluster`], [`Pass::elect`], [`Node::adopt`] |
//! | to hand in a batch, and to know that it stays | [`Node::produce`], [`Node::acked`] |
//! | to do so from several threads | [`Batch`], [`Node::produce_batch`]: copied and tested outside of the lock |
//! | to read what is committed, batch by batch | [`Node::read`] |
//! | to read records, none of an aborted transaction | [`Node::read_committed`] |
//! | to answer a Kafka consumer's fetch, of one moment | [`Node::fetch`] |
//! | to know what a node is, and where it stands | [`Node::show`], [`Node::end_for`], [`Node::offset_for_time`] |
//! | logs that outlive the process | [`Store::open`]; with files of your own [`Left`], [`Cluster::open_again`] |
//! | what a host keeps beside its logs to outlive the process | [`Journal`] |
//! | to keep a node's log as files | [`Node::segments`]; to know what of a file is whole [`BatchesIn::of`] |
//! | to wait until something is committed, without a loop | [`Cluster::wait_acked`], [`Cluster::wait_mark`] |
//! | followers to replicate | [`Workers`], or [`Node::ask`] and [`Node::step`] by hand |
//! | to have them do so at once, in this thread | [`Workers::replicate`] |
//! | to hear what becomes of the nodes | [`Workers::start_with`] |
//! | to test a service where messages are lost or late | [`Workers::link`] |
//! | a run as a script, that `kpart run` plays again | [`Recorder::open`] |
//! | Kafka's error code for a refusal | [`Refusal::kafka_code`] |
//! | a slow node out of the in-sync set | [`Workers::propose`], or [`Node::alter`] and [`Pass::decide`] |
//!
//! Three nodes, with a worker each, and a batch that is committed on all of them:
//!
//! ```
//! use kpart::{Ack, Cluster, Limits, Workers};
//! use std::time::Duration;
//!
//! # fn main() -> Result<(), kpart::Error> {
//! let cluster = Cluster::open(3, Limits::default())?;
//! let mut pass = cluster.pass()?;
//! pass.elect(0)?;
//! cluster.node(0)?.adopt()?;
//! let workers = Workers::start(&cluster, Duration::from_millis(1))?;
//!
//! let batch = include_bytes!(concat!(env!("CARGO_MANIFEST_DIR"), "/tests/one_record.batch"));
//! let receipt = cluster.node(0)?.produce(&mut pass, batch)?;
//! let limit = Duration::from_secs(20);
//! assert_eq!(cluster.wait_acked(&mut pass, 0, &receipt, limit)?, Ack::Yes);
//! cluster.wait_mark(&mut pass, 2, receipt.last, limit)?; // node 2 has it already, and hears soon that it is committed
//! let read: Vec<Vec<u8>> = cluster.node(2)?.read(&mut pass, 0)?.collect::<Result<_, _>>()?;
//! assert_eq!(read[0][16..], batch[16..]);
//! workers.stop();
//! # Ok(()) }
//! ```
//!
//! What the library asks of its callers, the types keep. A message is used up by the node that takes it:
//!
//! ```compile_fail,E0382
//! # fn main() -> Result<(), kpart::Error> {
//! let cluster = kpart::Cluster::open(2, kpart::Limits::default())?;
//! let request = cluster.node(1)?.ask()?;
//! cluster.node(0)?.step(request)?;
//! cluster.node(0)?.step(request)?; // it is gone
//! # Ok(()) }
//! ```
//!
//! and two threads can't call with one pass:
//!
//! ```compile_fail,E0499
//! # fn main() -> Result<(), kpart::Error> {
//! let cluster = kpart::Cluster::open(1, kpart::Limits::default())?;
//! let mut pass = cluster.pass()?;
//! std::thread::scope(|scope| {
//!     scope.spawn(|| pass.elect(0).is_ok());
//!     scope.spawn(|| pass.leadership().is_ok()); // each thread has its own pass
//! });
//! # Ok(()) }
//! ```
//!
//! Nothing is promised about progress or time: whether a batch is ever committed depends on the messages that are carried.

#![deny(unsafe_code)]
#![warn(missing_docs)]

mod batch;
mod batches;
mod carrier;
mod cluster;
mod error;
mod fetched;
#[allow(unsafe_code)]
mod ffi;
mod finding;
mod inbox;
mod left;
mod links;
mod message;
mod node;
mod record;
mod recorder;
mod records;
mod segments;
mod store;
mod teller;
mod values;
mod workers;

pub use batch::Batch;
pub use batches::Batches;
pub use cluster::{Cluster, Pass};
pub use error::{Error, Refusal};
pub use fetched::{AbortedTransaction, Fetched, Isolation};
pub use ffi::Limits;
pub use finding::{BatchesIn, crc32c};
pub use left::Left;
pub use links::{Link, Place};
pub use message::{Addressee, Message, Said};
pub use node::Node;
pub use record::{Header, Record, ShownRecords};
pub use recorder::{Recorded, Recorder, RecorderFault};
pub use records::{CommittedRecord, Records};
pub use segments::{Segment, Segments};
pub use store::{Journal, Store, StoreError, StoreFault, StoreFile, TornTail};
pub use teller::Event;
pub use values::{
    Ack, BatchHead, Change, EpochEnd, Kept, Known, Leadership, Marker, NodeState, OpenTransaction, ProducerState, Promise, Receipt,
    Restarted, Role, Status, TimeOffset,
};
pub use workers::Workers;
