//! The controller's record, in plain Rust.

use crate::log::Refusal;
use crate::spelling::push;

#[derive(Clone, Copy, PartialEq)]
pub struct Record {
    pub leader: Option<usize>,
    /// -1 before the first election.
    pub epoch: i32,
    /// The in-sync replicas, a bit for each.
    isr: u8,
    version: u64,
}

impl Record {
    /// Of so many nodes, all in sync, before the first election.
    pub fn new(count: usize) -> Record {
        Record {
            leader: None,
            epoch: -1,
            isr: (1 << count) - 1,
            version: 0,
        }
    }

    pub fn is_in_sync(&self, node: usize) -> bool {
        self.isr >> node & 1 == 1
    }

    pub fn elected(&self, node: usize) -> Result<Record, Refusal> {
        if !self.is_in_sync(node) {
            return Err("F21 NotInSync".into());
        }
        Ok(Record {
            leader: Some(node),
            epoch: self.epoch + 1,
            ..self.next(self.isr)
        })
    }

    pub fn with(&self, node: usize) -> Record {
        self.next(self.isr | 1 << node)
    }

    pub fn without(&self, node: usize) -> Record {
        self.next(self.isr & !(1 << node))
    }

    fn next(&self, isr: u8) -> Record {
        Record {
            isr,
            version: self.version + 1,
            ..*self
        }
    }

    /// The record as one word, for the nodes that threads share.
    #[allow(dead_code)]
    pub fn pack(&self) -> u64 {
        let leader = self.leader.map_or(15, |leader| leader as u64);
        let epoch = (self.epoch + 1) as u64;
        leader << 60 | u64::from(self.isr) << 52 | epoch << 28 | self.version
    }

    /// The record whose word this is.
    #[allow(dead_code)]
    pub fn unpack(word: u64) -> Record {
        let leader = (word >> 60) as usize;
        Record {
            leader: (leader < 7).then_some(leader),
            epoch: (word >> 28 & 0xff_ffff) as i32 - 1,
            isr: (word >> 52 & 0xff) as u8,
            version: word & 0xfff_ffff,
        }
    }

    pub fn print(&self, out: &mut Vec<u8>) {
        let leader = self.leader.expect("an elected leader");
        push(out, "record leader ", leader as u64);
        push(out, " epoch ", self.epoch as u64);
        let mut before = " isr ";
        for node in (0..7).filter(|node| self.is_in_sync(*node)) {
            push(out, before, node as u64);
            before = ",";
        }
        push(out, " version ", self.version);
    }
}
