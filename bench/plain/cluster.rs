//! One to seven nodes, the controller's record and all messages ever sent, in plain Rust.

use crate::log::Refusal;
use crate::node::{Message, Node};
use crate::record::Record;
use crate::script::{Event, Header};
use crate::spelling::push;

pub struct Cluster {
    nodes: Vec<Node>,
    record: Record,
    messages: Vec<Message>,
}

impl Cluster {
    pub fn new(header: &Header) -> Cluster {
        Cluster {
            nodes: (0..header.count).map(|n| Node::new(n, header)).collect(),
            record: Record::new(header.count),
            messages: Vec::new(),
        }
    }

    /// Plays an event, and prints what is answered.
    #[cfg_attr(stages, inline(never))]
    #[cfg_attr(not(stages), inline(always))]
    pub fn play(&mut self, event: &Event, out: &mut Vec<u8>) -> Result<(), Refusal> {
        match event {
            Event::Elect(node) => self.change(self.record.elected(*node)?, out),
            Event::Join(node, other) => {
                let record = self.nodes[*node].up()?.join(&self.record, *other)?;
                self.change(record, out);
            }
            Event::Leave(node, other) => {
                let record = self.nodes[*node].up()?.leave(&self.record, *other)?;
                self.change(record, out);
            }
            Event::Deliver(number) => return self.deliver(*number, out),
            Event::Ask(node) => {
                let request = self.nodes[*node].up()?.ask()?;
                self.send(Message::Asks(request), out);
            }
            Event::Restart(node) => return self.nodes[*node].restart(out),
            Event::At(node, act) => return self.nodes[*node].up()?.act(&self.record, act, out),
        }
        Ok(())
    }

    fn change(&mut self, record: Record, out: &mut Vec<u8>) {
        record.print(out);
        self.record = record;
    }

    fn send(&mut self, message: Message, out: &mut Vec<u8>) {
        push(out, "sent ", self.messages.len() as u64);
        message.print(out);
        self.messages.push(message);
    }

    /// A request goes to the leader that its sender follows, an answer to the sender of its request.
    fn deliver(&mut self, number: usize, out: &mut Vec<u8>) -> Result<(), Refusal> {
        match self.messages.get(number) {
            None => Err("F29 StaleAnswer".into()),
            Some(Message::Asks(request)) => {
                let request = *request;
                let answer = self.nodes[usize::from(request.to)].up()?.serve(request)?;
                self.send(Message::Answers(request, answer), out);
                Ok(())
            }
            Some(Message::Answers(request, answer)) => {
                let node = self.nodes[usize::from(request.from)].up()?;
                node.receive(&self.record, *request, answer, out)
            }
        }
    }
}
