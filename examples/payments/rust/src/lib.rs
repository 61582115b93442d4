//! A payment service: it orders payments through the topic `payments`, and a worker books them into a ledger.
//!
//! It talks to Kafka by librdkafka. [`Properties`] are that library's, over those of the service; `commit=before` is the worker's own: it
//! commits its offset before its work.

#![deny(unsafe_code)]
#![warn(missing_docs)]

mod ledger;
mod payment;
#[allow(unsafe_code)]
mod rdkafka;
mod service;

pub use ledger::{Book, Ledger};
pub use payment::Payment;
pub use rdkafka::Fault;
pub use service::{Orders, Worker};

/// Names and values of librdkafka's properties.
pub type Properties = std::collections::BTreeMap<String, String>;

/// The topic.
pub const TOPIC: &str = "payments";

/// Reads properties, as `acks=1 linger.ms=5`.
#[must_use]
pub fn properties(words: &str) -> Properties {
    words.split_whitespace().filter_map(|it| it.split_once('=')).map(|(name, value)| (name.to_string(), value.to_string())).collect()
}
