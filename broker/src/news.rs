//! A wait for something to change.

use crate::lock;
use std::sync::{Condvar, Mutex, PoisonError};
use std::time::Instant;

/// Counts changes, and wakes those that wait for one.
#[derive(Debug, Default)]
pub struct News {
    told: Mutex<Told>,
    changed: Condvar,
}

#[derive(Debug, Default)]
struct Told {
    count: u64,
    waiting: usize,
}

impl News {
    /// How many there were so far. Ask before you look at what may change.
    pub fn count(&self) -> u64 {
        lock(&self.told).count
    }

    /// Something has changed. Where nobody waits the system isn't called.
    pub fn tell(&self) {
        let mut told = lock(&self.told);
        told.count += 1;
        let is_awaited = told.waiting > 0;
        drop(told);
        if is_awaited {
            self.changed.notify_all();
        }
    }

    /// Waits until something has changed since that count, or it is time.
    pub fn wait(&self, since: u64, until: Instant) {
        let mut told = lock(&self.told);
        told.waiting += 1;
        while told.count == since {
            let left = until.saturating_duration_since(Instant::now());
            if left.is_zero() {
                break;
            }
            told = self.changed.wait_timeout(told, left).unwrap_or_else(PoisonError::into_inner).0;
        }
        told.waiting -= 1;
    }
}
