//! What is entered of calls that send messages, or take them.

use super::journal::{Call, Journal, Open, Shown, Told};
use crate::error::{Error, Refusal};
use crate::fetched::Fetched;
use crate::message::{Addressee, Message, Said};
use crate::node::Node;
use crate::values::{Leadership, NodeState};

// What a message is in a script.
#[derive(Clone, Copy, Debug)]
pub(crate) struct Post {
    number: u32,
    kind: Kind,
}

#[derive(Clone, Copy, Debug, PartialEq, Eq)]
enum Kind {
    Request,
    Batches,
    Diverging,
    Proposal,
    Decision,
}

impl Kind {
    fn of(said: &Said) -> Kind {
        match said {
            Said::AsksFrom { .. } => Kind::Request,
            Said::Batches { .. } => Kind::Batches,
            Said::Diverging(_) => Kind::Diverging,
            Said::Proposes { .. } => Kind::Proposal,
            Said::Decides { .. } => Kind::Decision,
        }
    }
}

// What is told of a message of this number.
fn sent_by(number: u32, said: Said) -> Told {
    match said {
        Said::AsksFrom { offset, last_epoch } => Told::Asks { number, last_epoch, offset },
        Said::Batches { count, watermark: mark } => Told::HandsOver { number, count, mark },
        other => Told::Sends(number, other.into()),
    }
}

// The greatest offset of a line.
const MOST_OFFSET: u64 = (1 << 62) - 1;

const ELSEWHERE: &str = "the message is for somebody else";
const ASTRAY: &str = "a node took a message that is for somebody else";
const UNSENT: &str = "a message came that no line has sent";

impl Journal {
    pub(crate) fn enter(&self, call: Call, told: Result<Told, Error>) {
        self.open().enter(call, told);
    }

    // A call that sends a message, which gets its number. What it says is asked before the journal is held.
    pub(crate) fn enter_sent(&self, call: Call, sent: Result<Message, Error>) -> Result<Message, Error> {
        let mut message = match sent {
            Ok(message) => message,
            Err(error) => {
                self.enter(call, Err(error));
                return Err(error);
            }
        };
        let said = message.said();
        let mut open = self.open();
        match said {
            Ok(said) => {
                let number = open.number();
                message.post = Some(Post { number, kind: Kind::of(&said) });
                open.enter(call, Ok(sent_by(number, said)));
            }
            Err(error) => open.end(format!("what a message says can't be asked: {error}")),
        }
        Ok(message)
    }

    // A proposal comes to the controller, which decides while the journal is held.
    pub(crate) fn enter_decided(
        &self,
        proposal: Message,
        decide: impl FnOnce(Message) -> Result<(Message, Leadership), Error>,
    ) -> Result<Message, Error> {
        let (post, to) = (proposal.post, proposal.addressee());
        let mut open = self.open();
        match (decide(proposal), post) {
            (Ok((mut decision, record)), Some(post)) => {
                let number = open.number();
                decision.post = Some(Post { number, kind: Kind::Decision });
                open.enter(Call::Deliver(post.number), Ok(Told::Decides(number, record.into())));
                Ok(decision)
            }
            (Ok((decision, _)), None) => {
                open.end(UNSENT.to_string());
                Ok(decision)
            }
            (Err(error), post) => {
                open.enter_refused(post, to == Addressee::Controller, error);
                Err(error)
            }
        }
    }
}

impl Open<'_> {
    // A message was refused by whom it goes to, or by somebody else.
    fn enter_refused(self, post: Option<Post>, is_there: bool, error: Error) {
        match post.map(|it| Call::Deliver(it.number)) {
            Some(call) if is_there => self.enter(call, Err(error)),
            Some(call) if matches!(error, Error::Refused(_)) => self.leave_out(call, ELSEWHERE),
            _ => {}
        }
    }
}

impl Node<'_> {
    // A message comes. A cut looks at the controller's record, so the journal is held from before it on.
    pub(crate) fn step_noted(&mut self, journal: &Journal, message: Message) -> Result<Option<Message>, Error> {
        let (post, to) = (message.post, message.addressee());
        let held = post.filter(|it| it.kind == Kind::Diverging).map(|_| journal.open());
        let stepped = self.take_in(message);
        let is_there = to == Addressee::Node(self.number());
        match (stepped, post.filter(|_| is_there)) {
            (Ok(Some(answer)), Some(post)) => {
                drop(held); // a cut sends nothing
                journal.enter_sent(Call::Deliver(post.number), Ok(answer)).map(Some)
            }
            (Ok(None), Some(post)) => {
                let told = self.told_after(post.kind);
                let open = held.unwrap_or_else(|| journal.open());
                match told {
                    Ok(told) => open.enter(Call::Deliver(post.number), Ok(told)),
                    Err(error) => open.end(format!("what a message did can't be asked: {error}")),
                }
                Ok(None)
            }
            (Ok(answer), None) => {
                let why = if post.is_some() { ASTRAY } else { UNSENT };
                held.unwrap_or_else(|| journal.open()).end(why.to_string());
                Ok(answer)
            }
            (Err(error), _) => {
                let has_fallen = error == Refusal::Memory.into() && self.is_down();
                let open = held.unwrap_or_else(|| journal.open());
                match has_fallen {
                    true => open.end(format!("node {} was refused memory while it took batches (F33)", self.number())),
                    false => open.enter_refused(post, is_there, error),
                }
                Err(error)
            }
        }
    }

    // What a fetch told of the node, as a `show` tells it; where it was refused the `read` that is.
    pub(crate) fn note_fetch(&self, journal: &Journal, from: u64, committed: bool, fetched: &Result<Fetched, Error>) {
        let node = self.number();
        match fetched {
            Ok(Fetched { end, watermark, stable, .. }) => {
                let shown = Shown { node, life: self.past().life, end: *end, mark: *watermark, stable: *stable };
                journal.enter(Call::Show(node), Ok(Told::Shows(shown.into())));
            }
            Err(error) => self.note_read(journal, from, committed, Err(*error)),
        }
    }

    pub(crate) fn note_read(&self, journal: &Journal, from: u64, committed: bool, told: Result<Told, Error>) {
        if from <= MOST_OFFSET {
            journal.enter(Call::Read { node: self.number(), from, committed }, told);
        }
    }

    // What a message did that was taken, and answered by none.
    fn told_after(&mut self, kind: Kind) -> Result<Told, Error> {
        if kind == Kind::Decision {
            let Leadership { in_sync, version, .. } = self.known()?.leadership;
            return Ok(Told::Knows { in_sync, version });
        }
        let NodeState { end, watermark: mark, .. } = self.show()?;
        Ok(if kind == Kind::Diverging { Told::Cut(end) } else { Told::Took { end, mark } })
    }
}
