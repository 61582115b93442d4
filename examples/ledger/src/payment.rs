//! A payment, and how it stands in records.

use kpart::Error;

pub const ACCOUNTS: u64 = 10;

/// An amount that goes from one account to another one.
#[derive(Clone, Copy, Debug, PartialEq, Eq)]
pub struct Payment {
    pub id: u64,
    pub from: u32,
    pub to: u32,
    pub amount: i64,
}

/// What a payment does to one account.
#[derive(Clone, Copy, Debug, PartialEq, Eq)]
pub struct Entry {
    pub payment: u64,
    pub account: u32,
    pub change: i64,
}

impl Payment {
    /// The producer's payment of this number.
    pub fn made_up(producer: u64, number: u64) -> Payment {
        let from = (producer + number) % ACCOUNTS;
        let to = (from + 1 + number % (ACCOUNTS - 1)) % ACCOUNTS;
        Payment { id: producer << 32 | number, from: from as u32, to: to as u32, amount: 1 + (number % 100) as i64 }
    }

    /// Whose payment it is.
    pub fn producer(&self) -> u64 {
        self.id >> 32
    }

    /// Which one of its producer's, from 0.
    pub fn number(&self) -> u64 {
        self.id & u64::from(u32::MAX)
    }

    /// Both entries: they add up to 0.
    pub fn entries(&self) -> [Entry; 2] {
        let entry = |account, change| Entry { payment: self.id, account, change };
        [entry(self.from, -self.amount), entry(self.to, self.amount)]
    }
}

impl Entry {
    /// The bytes of a record's value.
    pub fn text(&self) -> String {
        format!("{} {} {}", self.payment, self.account, self.change)
    }

    pub fn parse(value: &[u8]) -> Result<Entry, Error> {
        let text = std::str::from_utf8(value).map_err(|_| Error::OutOfRange)?;
        let mut words = text.split(' ').map(str::parse::<i64>);
        let mut word = || words.next().and_then(Result::ok).ok_or(Error::OutOfRange);
        Ok(Entry { payment: word()? as u64, account: word()? as u32, change: word()? })
    }
}
