//! A broker for tests: Kafka's clients talk to replicated partitions, whose code is proved (the crate `kpart`).
//!
//! [`Broker::start`] opens nodes on ports of 127.0.0.1, and a test stops, restarts and elects them while its clients work:
//!
//! ```
//! use kpart_broker::{Broker, Options};
//!
//! # fn main() -> Result<(), kpart_broker::Fault> {
//! let broker = Broker::start(Options::default())?;
//! println!("bootstrap.servers={}", broker.bootstrap());
//! assert_eq!(broker.leader("events", 0), Some(0));
//! broker.stop(0)?; // another node leads now; nothing that was acknowledged is lost
//! assert_eq!(broker.leader("events", 0), Some(1));
//! broker.elect(2)?;
//! broker.restart(0)?; // it is in sync once it has caught up
//! # Ok(()) }
//! ```
//!
//! With [`Options::data`] what clients are told outlives the process, in a folder.
//!
//! What a partition does with batches is proved of the library; the sockets, the coordinators of groups and transactions and all
//! else here is tested. The broker keeps no copy of a log, and judges no batch.

#![forbid(unsafe_code)]
#![warn(missing_docs)]

mod admin;
mod broker;
mod cluster;
mod codes;
mod connection;
mod coordinator;
mod data;
mod fetch;
mod groups;
mod hub;
mod keep;
mod kept;
mod members;
mod metadata;
mod news;
mod offsets;
mod options;
mod partition;
mod produce;
mod recording;
mod reply;
mod requests;
mod transactions;

pub use broker::{Broker, Fault};
pub use data::DataFault;
pub use options::{BadOption, MOST_NODES, MOST_PARTITIONS, Options, TopicOption, USAGE};
pub use requests::{ADVERTISED, Advertised};

use std::sync::{Mutex, MutexGuard, PoisonError};

/// Takes a lock, also one of a thread that panicked.
fn lock<T>(mutex: &Mutex<T>) -> MutexGuard<'_, T> {
    mutex.lock().unwrap_or_else(PoisonError::into_inner)
}
