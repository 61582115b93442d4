//! What comes to a worker by its channel.

use crate::links::Place;
use crate::message::Message;
use crate::values::Change;
use std::collections::BTreeMap;
use std::sync::mpsc::{Receiver, RecvTimeoutError};
use std::time::Instant;

// A message that goes by a channel.
#[derive(Debug)]
pub(crate) struct Letter {
    pub message: Message,
    // Where its link begins; none where it comes over no link.
    pub from: Option<Place>,
    // When it comes, where that isn't now.
    pub due: Option<Instant>,
}

#[derive(Debug)]
pub(crate) enum Parcel {
    Letter(Letter),
    Turn,
    Propose(Change),
    Stop,
}

// What comes to a worker, and of that the letters whose time hasn't come, by their times.
pub(crate) struct Inbox {
    parcels: Receiver<Parcel>,
    held: BTreeMap<(Instant, u64), Letter>,
    count: u64,
}

impl Inbox {
    pub(crate) fn new(parcels: Receiver<Parcel>) -> Inbox {
        Inbox { parcels, held: BTreeMap::new(), count: 0 }
    }

    // Of two that come at the same time the one that was held first comes first.
    fn hold(&mut self, letter: Letter, due: Instant) {
        self.held.insert((due, self.count), letter);
        self.count += 1;
    }

    // The first one that is held, if its time has come.
    fn due(&mut self, now: Instant) -> Option<Letter> {
        let first = self.held.first_entry().filter(|it| it.key().0 <= now)?;
        Some(first.remove())
    }

    // The next parcel, or none where that time comes first. A letter whose time has come goes before what comes now.
    pub(crate) fn next(&mut self, until: Option<Instant>) -> Option<Parcel> {
        loop {
            let now = Instant::now();
            if let Some(letter) = self.due(now) {
                return Some(Parcel::Letter(letter));
            }
            let due = self.held.first_key_value().map(|(key, _)| key.0);
            let end = until.into_iter().chain(due).min();
            let came = match end {
                Some(end) => self.parcels.recv_timeout(end.saturating_duration_since(now)),
                None => self.parcels.recv().map_err(RecvTimeoutError::from),
            };
            match came {
                // Also one that needn't wait takes its turn among those that are held, as one of its link may have come due meanwhile.
                Ok(Parcel::Letter(letter)) if letter.due.is_some() || !self.held.is_empty() => {
                    let due = letter.due.unwrap_or_else(Instant::now);
                    self.hold(letter, due);
                }
                Ok(parcel) => return Some(parcel),
                Err(RecvTimeoutError::Disconnected) => return Some(Parcel::Stop),
                Err(RecvTimeoutError::Timeout) if until.is_some_and(|until| until <= Instant::now()) => return None,
                Err(RecvTimeoutError::Timeout) => {}
            }
        }
    }
}

#[cfg(test)]
mod tests {
    use super::*;
    use crate::cluster::Cluster;
    use crate::error::Error;
    use crate::ffi::Limits;
    use crate::message::Addressee;
    use std::sync::mpsc::channel;
    use std::time::Duration;

    // A request, to node 0, and a proposal, to the controller.
    fn messages() -> Result<(Message, Message), Error> {
        let cluster = Cluster::open(2, Limits::default())?;
        cluster.pass()?.elect(0)?;
        cluster.node(0)?.adopt()?;
        cluster.node(1)?.adopt()?;
        let request = cluster.node(1)?.ask()?;
        let proposal = cluster.node(0)?.alter(Change::Leave(1))?;
        Ok((request, proposal))
    }

    fn letter(message: Message, due: Option<Instant>) -> Letter {
        Letter { message, from: Some(Place::Node(1)), due }
    }

    const REQUEST: Option<Addressee> = Some(Addressee::Node(0));
    const PROPOSAL: Option<Addressee> = Some(Addressee::Controller);

    #[test]
    fn what_is_held_comes_in_order() -> Result<(), Error> {
        let mut inbox = Inbox::new(channel().1);
        let start = Instant::now();
        let at = |after| start + Duration::from_millis(after);
        let (request, proposal) = messages()?;
        inbox.hold(letter(request, None), at(60));
        inbox.hold(letter(proposal, None), at(60));
        inbox.hold(letter(messages()?.1, None), at(30));
        let mut due = |after| inbox.due(at(after)).map(|it| it.message.addressee());
        assert_eq!((due(29), due(30), due(59)), (None, PROPOSAL, None));
        assert_eq!((due(60), due(60), due(60)), (REQUEST, PROPOSAL, None));
        Ok(())
    }

    fn next(inbox: &mut Inbox) -> Option<Addressee> {
        match inbox.next(None) {
            Some(Parcel::Letter(letter)) => Some(letter.message.addressee()),
            _ => None,
        }
    }

    #[test]
    fn what_is_held_keeps_nothing_up() -> Result<(), Error> {
        const HELD: Duration = Duration::from_millis(30);
        let (sender, parcels) = channel();
        let mut inbox = Inbox::new(parcels);
        let send = |message, due| sender.send(Parcel::Letter(letter(message, due))).expect("it is there");
        let start = Instant::now();
        let (request, proposal) = messages()?;
        send(request, Some(start + HELD));
        assert_eq!(next(&mut inbox), REQUEST);
        assert!(start.elapsed() >= HELD);
        send(proposal, Some(start + HELD)); // its time has passed: what was sent later doesn't overtake it
        let (request, _) = messages()?;
        send(request, None);
        assert_eq!((next(&mut inbox), next(&mut inbox)), (PROPOSAL, REQUEST));
        let (request, proposal) = messages()?;
        send(request, Some(start + Duration::from_secs(3_600)));
        send(proposal, None); // of another link
        assert_eq!(next(&mut inbox), PROPOSAL);
        assert!(inbox.next(Some(start)).is_none());
        sender.send(Parcel::Turn).expect("it is there");
        assert!(matches!(inbox.next(None), Some(Parcel::Turn)));
        drop(sender);
        assert!(matches!(inbox.next(None), Some(Parcel::Stop)));
        Ok(())
    }
}
