//! What keeps the controller's record in the store's folder.

use super::disk::Disk;
use super::fault::{StoreFault, StoreFile};
use super::text::RecordText;
use crate::cluster::lock;
use crate::error::Error;
use crate::ffi::RawPass;
use crate::message::Message;
use crate::values::Leadership;
use std::sync::{Arc, Mutex};

/// Keeps the record: each next one is on the disk before anybody can see it.
#[derive(Debug)]
pub(crate) struct RecordKeeper {
    disk: Arc<Disk>,
    nodes: u8,
    // Held from the look at the record to the exchange, so no exchange comes between.
    door: Mutex<()>,
}

impl RecordKeeper {
    pub(crate) fn new(disk: Arc<Disk>, nodes: u8) -> RecordKeeper {
        RecordKeeper { disk, nodes, door: Mutex::default() }
    }

    /// Puts this in place of the record that is on the disk.
    pub(crate) fn write(&self, leadership: &Leadership) -> Result<(), StoreFault> {
        let text = RecordText { nodes: self.nodes, leadership: *leadership }.text();
        self.disk.replace(StoreFile::Record, StoreFile::Folder, text.as_bytes())
    }

    /// As [`Pass::elect`](crate::Pass::elect).
    pub(crate) fn elect(&self, pass: &mut RawPass, node: u8) -> Result<Leadership, Error> {
        let _door = lock(&self.door);
        let known = Leadership::from(pass.leadership()?);
        self.write(&known.elected(node)?)?;
        let elected = pass.elect(node);
        if elected.is_err() {
            self.write(&known)?;
        }
        elected.map(Leadership::from)
    }

    /// As [`Pass::decide`](crate::Pass::decide).
    pub(crate) fn decide(&self, pass: &mut RawPass, mut proposal: Message) -> Result<Message, Error> {
        if proposal.raw.cluster() != pass.cluster() {
            return Err(Error::OtherCluster);
        }
        let _door = lock(&self.door);
        let known = Leadership::from(pass.leadership()?);
        let next = proposal.decided(&known)?;
        if next != known {
            self.write(&next)?;
        }
        let decided = pass.decide(proposal.raw);
        if decided.is_err() && next != known {
            self.write(&known)?;
        }
        Message::new(decided?)
    }
}
