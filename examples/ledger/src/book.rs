//! What was acknowledged, where that is to outlive the process: a line for each payment, written behind the acknowledgement.

use crate::clock::Fault;
use crate::payment::Payment;
use crate::producer::{Paid, commits};
use std::fs::{File, OpenOptions};
use std::io::{Read, Write};
use std::path::Path;
use std::sync::{Mutex, PoisonError};

/// Without a file nothing was paid before, and nothing is kept.
#[derive(Default)]
pub struct Book {
    file: Option<Mutex<File>>,
    /// What runs before this one have paid, in the order of the lines.
    pub paid: Vec<Paid>,
}

impl Book {
    /// Reads what is there. A process that was killed may have left a line that isn't whole: it is taken away.
    pub fn open(path: &Path) -> Result<Book, Fault> {
        let mut file = OpenOptions::new().read(true).append(true).create(true).open(path)?;
        let mut text = String::new();
        file.read_to_string(&mut text)?;
        let whole = text.rfind('\n').map_or(0, |it| it + 1);
        file.set_len(whole as u64)?;
        let mut book = Book::default();
        for line in text[..whole].lines() {
            let paid = parsed(line).filter(|it| it.payment.number() == book.count(it.payment.producer()));
            book.paid.push(paid.ok_or_else(|| format!("{}: {line}", path.display()))?);
        }
        Ok(Book { file: Some(Mutex::new(file)), ..book })
    }

    /// How many payments of a producer were acknowledged before.
    pub fn count(&self, producer: u64) -> u64 {
        self.paid.iter().filter(|it| it.payment.producer() == producer).count() as u64
    }

    /// Notes one that is acknowledged.
    pub fn note(&self, paid: &Paid) -> Result<(), Fault> {
        let Some(file) = &self.file else { return Ok(()) };
        let line = format!("{} {}\n", paid.payment.producer(), paid.payment.number());
        Ok(file.lock().unwrap_or_else(PoisonError::into_inner).write_all(line.as_bytes())?)
    }
}

fn parsed(line: &str) -> Option<Paid> {
    let (producer, number) = line.split_once(' ')?;
    let (producer, number) = (producer.parse().ok()?, number.parse().ok()?);
    Some(Paid { payment: Payment::made_up(producer, number), commits: commits(number), retries: 0 })
}

#[cfg(test)]
mod tests {
    use super::*;

    #[test]
    fn a_line_that_is_not_whole_is_taken_away() -> Result<(), Fault> {
        let path = std::env::temp_dir().join(format!("ledger-book-{}", std::process::id()));
        std::fs::write(&path, "7 0\n8 0\n7 1\n8 ")?;
        let book = Book::open(&path)?;
        assert_eq!((book.paid.len(), book.count(7), book.count(8)), (3, 2, 1));
        book.note(&Paid { payment: Payment::made_up(8, 1), commits: true, retries: 0 })?;
        assert_eq!(std::fs::read_to_string(&path)?, "7 0\n8 0\n7 1\n8 1\n");
        std::fs::write(&path, "7 0\n7 2\n")?;
        assert!(Book::open(&path).is_err());
        Ok(std::fs::remove_file(&path)?)
    }
}
