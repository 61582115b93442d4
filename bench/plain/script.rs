//! What a script asks for, in plain Rust. Lawful lines are expected.

use crate::spelling::Sender;

/// One line of the script.
pub enum Event<'a> {
    Elect(usize),
    Ask(usize),
    Deliver(usize),
    Join(usize, usize),
    Leave(usize, usize),
    Restart(usize),
    At(usize, Act<'a>),
}

/// What a node that is up does.
pub enum Act<'a> {
    Adopt,
    Raise,
    Checkpoint,
    Stop,
    Show,
    Append {
        time: i64,
        sender: Sender,
        is_transactional: bool,
        values: &'a [u8],
    },
    Raw(&'a [u8]),
    Mark {
        time: i64,
        sender: Sender,
        coordinator: i32,
        commits: bool,
    },
    Read(u64),
    Committed(u64),
}

pub struct Header {
    pub count: usize,
    pub segment: usize,
    pub interval: usize,
}

/// The words of a text, line by line.
struct Words<'a> {
    rest: &'a [u8],
}

impl<'a> Words<'a> {
    /// Whether the line has another word; steps over the space in front of it.
    fn goes_on(&mut self) -> bool {
        let goes_on = self.rest.first() == Some(&b' ');
        if goes_on {
            self.rest = &self.rest[1..];
        }
        goes_on
    }

    /// The line has ended; steps over its line feed.
    fn ends(&mut self) -> Option<()> {
        match self.rest {
            [b'\n', rest @ ..] => self.rest = rest,
            [] => {}
            _ => return None,
        }
        Some(())
    }

    /// The bytes up to the next space or the line's end.
    fn word(&mut self) -> &'a [u8] {
        let end = self.rest.iter().position(|byte| *byte <= b' ');
        let (word, rest) = self.rest.split_at(end.unwrap_or(self.rest.len()));
        self.rest = rest;
        word
    }

    fn next(&mut self) -> Option<&'a [u8]> {
        self.goes_on().then(|| self.word())
    }

    /// A number, or -1.
    fn number<T: TryFrom<i64>>(&mut self) -> Option<T> {
        if !self.goes_on() {
            return None;
        }
        let sign = if let [b'-', rest @ ..] = self.rest {
            self.rest = rest;
            -1
        } else {
            1
        };
        let mut value = 0i64;
        while let [digit @ b'0'..=b'9', rest @ ..] = self.rest {
            value = value
                .checked_mul(10)?
                .checked_add(i64::from(digit - b'0'))?;
            self.rest = rest;
        }
        T::try_from(sign * value).ok()
    }

    /// A node's number.
    fn node(&mut self, count: usize) -> Option<usize> {
        self.number().filter(|node| *node < count)
    }

    /// To the next line that is no comment and isn't empty, and how many lines were passed over.
    fn skip(&mut self) -> usize {
        let mut passed = 0;
        while let [b'#' | b'\n', ..] = self.rest {
            let end = self.rest.iter().position(|byte| *byte == b'\n');
            self.rest = &self.rest[end.map_or(self.rest.len(), |end| end + 1)..];
            passed += 1;
        }
        passed
    }
}

fn header(words: &mut Words<'_>) -> Option<Header> {
    let count = (words.word() == b"nodes")
        .then(|| words.number())
        .flatten()?;
    let mut named = |name: &[u8]| (words.next()? == name).then(|| words.number()).flatten();
    let (segment, interval) = (named(b"segment")?, named(b"interval")?);
    words.ends()?;
    (1..=7).contains(&count).then_some(Header {
        count,
        segment,
        interval,
    })
}

#[cfg_attr(stages, inline(never))]
fn event<'a>(words: &mut Words<'a>, count: usize) -> Option<Event<'a>> {
    let verb = words.word();
    let place = words.number()?;
    if verb != b"deliver" && place >= count {
        return None;
    }
    let at = |act| Event::At(place, act);
    let event = match verb {
        b"append" => at(Act::Append {
            time: words.number()?,
            sender: sender(words)?,
            is_transactional: words.next()? == b"t",
            values: words.next()?,
        }),
        b"elect" => Event::Elect(place),
        b"ask" => Event::Ask(place),
        b"deliver" => Event::Deliver(place),
        b"join" => Event::Join(place, words.node(count)?),
        b"leave" => Event::Leave(place, words.node(count)?),
        b"restart" => Event::Restart(place),
        b"adopt" => at(Act::Adopt),
        b"raise" => at(Act::Raise),
        b"checkpoint" => at(Act::Checkpoint),
        b"stop" => at(Act::Stop),
        b"show" => at(Act::Show),
        b"read" => at(Act::Read(words.number()?)),
        b"committed" => at(Act::Committed(words.number()?)),
        b"raw" => at(Act::Raw(words.next()?)),
        b"mark" => at(Act::Mark {
            time: words.number()?,
            sender: Sender {
                producer: words.number()?,
                epoch: words.number()?,
                sequence: -1,
            },
            coordinator: words.number()?,
            commits: words.next()? == b"commit",
        }),
        _ => return None,
    };
    words.ends()?;
    Some(event)
}

fn sender(words: &mut Words<'_>) -> Option<Sender> {
    Some(Sender {
        producer: words.number()?,
        epoch: words.number()?,
        sequence: words.number()?,
    })
}

/// The header, and the events with the numbers of their lines, which are read as they are asked for; `None` for a faulty line.
pub fn script(text: &[u8]) -> Option<(Header, impl Iterator<Item = Option<(usize, Event<'_>)>>)> {
    let mut words = Words { rest: text };
    let mut line = words.skip() + 1;
    let head = header(&mut words)?;
    let count = head.count;
    let events = std::iter::from_fn(move || {
        line += words.skip() + 1;
        (!words.rest.is_empty()).then(|| Some((line, event(&mut words, count)?)))
    });
    Some((head, events))
}
