//! What orders payments, and what books them.

use crate::rdkafka::{Consumer, Producer};
use crate::{Book, Fault, Payment, Properties, TOPIC};
use std::time::Duration;

/// An idempotent producer waits for all replicas in sync, too (acks=all).
const ORDERING: &str = "enable.idempotence=true acks=all message.timeout.ms=30000";
const BOOKING: &str = "group.id=ledger auto.offset.reset=earliest enable.auto.commit=false";

fn over(own: &str, bootstrap: &str, given: &Properties) -> Properties {
    let mut all = crate::properties(own);
    all.insert("bootstrap.servers".to_string(), bootstrap.to_string());
    all.extend(given.clone());
    all.remove("commit");
    all
}

/// Takes orders.
pub struct Orders {
    producer: Producer,
}

impl Orders {
    /// Opens its producer.
    ///
    /// # Errors
    /// What librdkafka says of the properties.
    pub fn open(bootstrap: &str, given: &Properties) -> Result<Orders, Fault> {
        Ok(Orders { producer: Producer::open(TOPIC, &over(ORDERING, bootstrap, given))? })
    }

    /// Orders a payment, and answers once it stands.
    ///
    /// # Errors
    /// Why it may not stand.
    pub fn order(&mut self, payment: &Payment) -> Result<(), Fault> {
        self.producer.send(payment.from.as_bytes(), payment.record().as_bytes())
    }
}

/// Books what was ordered.
pub struct Worker {
    consumer: Consumer,
    commits_before: bool,
}

impl Worker {
    /// Joins the group.
    ///
    /// # Errors
    /// What librdkafka says of the properties.
    pub fn open(bootstrap: &str, given: &Properties) -> Result<Worker, Fault> {
        let commits_before = given.get("commit").is_some_and(|it| it == "before");
        Ok(Worker { consumer: Consumer::open(TOPIC, &over(BOOKING, bootstrap, given))?, commits_before })
    }

    /// Books the next payment, if one comes in this time. Of a worker that dies the next one has to find again what it had in hand.
    ///
    /// # Errors
    /// Why the ledger doesn't have it; a record that is no payment.
    pub fn work(&mut self, ledger: &mut impl Book, most: Duration) -> Result<(), Fault> {
        let Some(message) = self.consumer.poll(most) else { return Ok(()) };
        let payment = std::str::from_utf8(message.value()).ok().and_then(Payment::of_record);
        let payment = payment.ok_or_else(|| Fault::from(format!("no payment at {}", message.offset())))?;
        // A commit that fails, as in a rebalance, the next one makes up for.
        if self.commits_before {
            let _committed = self.consumer.commit(&message);
        }
        ledger.book(message.offset(), &payment)?;
        if !self.commits_before {
            let _committed = self.consumer.commit(&message);
        }
        Ok(())
    }
}
