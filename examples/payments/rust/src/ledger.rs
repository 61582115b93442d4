//! The ledger: a file with a line for each booked payment, behind its place in the topic.

use crate::Payment;
use std::fs::{File, OpenOptions};
use std::io::{self, Read, Write};
use std::path::Path;

/// Where payments are booked.
pub trait Book {
    /// Books the payment that stands at this place of the topic, once: what comes again is there.
    ///
    /// # Errors
    /// Why it isn't booked.
    fn book(&mut self, place: i64, payment: &Payment) -> io::Result<()>;
}

/// A ledger in a file, of a topic with one partition.
pub struct Ledger {
    file: File,
    /// The payments, in the order of the topic.
    pub booked: Vec<Payment>,
    /// The place behind the last one.
    pub end: i64,
}

impl Ledger {
    /// Reads what is there. A line that isn't whole is of a process that was killed, and goes.
    ///
    /// # Errors
    /// What the system says, or the line that is none of a ledger.
    pub fn open(path: &Path) -> io::Result<Ledger> {
        let mut file = OpenOptions::new().read(true).append(true).create(true).open(path)?;
        let mut text = String::new();
        file.read_to_string(&mut text)?;
        let whole = text.rfind('\n').map_or(0, |it| it + 1);
        file.set_len(whole as u64)?;
        let mut ledger = Ledger { file, booked: Vec::new(), end: 0 };
        for line in text[..whole].lines() {
            let (place, payment) = parsed(line).ok_or_else(|| io::Error::other(format!("no booking: {line}")))?;
            ledger.booked.push(payment);
            ledger.end = place + 1;
        }
        Ok(ledger)
    }
}

impl Book for Ledger {
    fn book(&mut self, place: i64, payment: &Payment) -> io::Result<()> {
        if place < self.end {
            return Ok(());
        }
        self.file.write_all(format!("{place} {}\n", payment.record()).as_bytes())?;
        self.file.sync_data()?;
        self.booked.push(payment.clone());
        self.end = place + 1;
        Ok(())
    }
}

fn parsed(line: &str) -> Option<(i64, Payment)> {
    let (place, record) = line.split_once(' ')?;
    Some((place.parse().ok()?, Payment::of_record(record)?))
}

#[cfg(test)]
mod tests {
    use super::*;

    #[test]
    fn what_is_booked_is_there_once() -> io::Result<()> {
        let path = std::env::temp_dir().join(format!("payments-ledger-{}", std::process::id()));
        std::fs::write(&path, "0 id=1&from=anna&to=ben&amount=125\n1 id=2&fr")?;
        let payment = Payment::of_order("2 ben carl 150").ok_or_else(|| io::Error::other("no payment"))?;
        let mut ledger = Ledger::open(&path)?;
        assert_eq!((ledger.booked.len(), ledger.end), (1, 1));
        ledger.book(1, &payment)?;
        ledger.book(1, &payment)?;
        assert_eq!(std::fs::read_to_string(&path)?, "0 id=1&from=anna&to=ben&amount=125\n1 id=2&from=ben&to=carl&amount=150\n");
        assert_eq!(Ledger::open(&path)?.booked.len(), 2);
        std::fs::remove_file(&path)
    }
}
