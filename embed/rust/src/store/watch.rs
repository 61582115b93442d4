//! What a test is told of the operations on a store's files.

use super::fault::StoreFile;
pub(crate) use super::wreck::{Act, Chance, Wreck, put};
use crate::cluster::lock;
use std::cell::RefCell;
use std::io;
use std::ops::Range;
use std::sync::{Arc, Mutex};

/// Hears of the operations of the stores that this thread opens.
#[derive(Debug, Default)]
pub(crate) struct Watch {
    heard: Mutex<Heard>,
}

#[derive(Debug, Default)]
struct Heard {
    acts: Vec<Deed>,
    count: usize,
    refused: Range<usize>,
}

thread_local! {
    static CURRENT: RefCell<Option<Arc<Watch>>> = const { RefCell::new(None) };
}

const DISK_FULL: i32 = 28;

impl Watch {
    /// Of the stores that this thread opens from now on.
    pub(crate) fn start() -> Arc<Watch> {
        let watch = Arc::new(Watch::default());
        CURRENT.with(|it| it.replace(Some(watch.clone())));
        watch
    }

    pub(crate) fn of_thread() -> Arc<Watch> {
        CURRENT.with(|it| it.borrow().clone()).unwrap_or_default()
    }

    pub(crate) fn hears(&self, name: StoreFile, act: Act) -> io::Result<()> {
        let mut heard = lock(&self.heard);
        heard.count += 1;
        if heard.refused.contains(&(heard.count - 1)) {
            return Err(io::Error::from_raw_os_error(DISK_FULL));
        }
        heard.acts.push((name, act));
        Ok(())
    }

    /// How many it has heard of.
    pub(crate) fn count(&self) -> usize {
        lock(&self.heard).count
    }

    /// The disk is full for these.
    pub(crate) fn refuse(&self, refused: Range<usize>) {
        lock(&self.heard).refused = refused;
    }

    /// All of them that weren't refused.
    pub(crate) fn acts(&self) -> Vec<Deed> {
        lock(&self.heard).acts.clone()
    }
}

/// An operation, and what it is done to.
pub(crate) type Deed = (StoreFile, Act);

/// When an operation is done, of those that a store does, by a store with another order: at which place among them, or never.
pub(crate) type Order = fn(&[Deed], usize) -> Option<usize>;

/// The store's own.
pub(crate) fn own_order(_deeds: &[Deed], at: usize) -> Option<usize> {
    Some(at)
}

/// The operations as they are done by that order, each with its place. What is done later comes behind what is done there anyhow.
pub(crate) fn ordered(deeds: &[Deed], order: Order) -> Vec<(usize, &Deed)> {
    let placed = deeds.iter().enumerate().filter_map(|(at, deed)| order(deeds, at).map(|place| (place, place > at, deed)));
    let mut placed: Vec<_> = placed.collect();
    placed.sort_by_key(|it| (it.0, it.1));
    placed.into_iter().map(|(place, _, deed)| (place, deed)).collect()
}

/// How many runs by chance a test does: as many as KPART_SEEDS says, where it is set.
pub(crate) fn seeds(usual: u64) -> u64 {
    std::env::var("KPART_SEEDS").ok().and_then(|it| it.parse().ok()).unwrap_or(usual)
}
