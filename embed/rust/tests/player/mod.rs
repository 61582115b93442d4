//! Plays a script over the library, a line after the other in one thread, and says what each line is answered (`docs/FORMATS.md`). The broker's
//! tests play theirs by it, too.

use kpart::{
    Addressee, Change, Cluster, CommittedRecord, EpochEnd, Error, Isolation, Leadership, Limits, Marker, Message, Pass, Receipt, Role,
    Said, Status,
};
use std::fmt::Write;
use std::path::Path;

/// What is answered, or the refusal.
type Answer = Result<String, Error>;

/// A cluster of a script's header, and each message that was sent.
pub struct Player {
    /// As the script has left it.
    pub cluster: Cluster,
    pass: Pass,
    sent: Vec<Message>,
}

fn number<T: std::str::FromStr>(word: &str) -> T {
    word.parse().ok().unwrap_or_else(|| panic!("'{word}' is no number"))
}

fn bytes_of(hex: &str) -> Vec<u8> {
    let digit = |it: u8| (it as char).to_digit(16).expect("a digit") as u8;
    hex.as_bytes().chunks(2).map(|it| digit(it[0]) << 4 | digit(it[1])).collect()
}

fn in_sync(nodes: &[bool; 7], version: u32) -> String {
    let members: Vec<String> = (0..7).filter(|it| nodes[*it]).map(|it| it.to_string()).collect();
    format!("isr {} version {version}", members.join(","))
}

fn record(it: &Leadership) -> String {
    let (leader, epoch) = it.leader.expect("a record that was changed has a leader");
    format!("record leader {leader} epoch {epoch} {}", in_sync(&it.in_sync, it.version))
}

fn said(said: Said) -> String {
    match said {
        Said::AsksFrom { offset, last_epoch } => {
            format!("asks from {offset} {}", last_epoch.map_or("no epoch".to_string(), |it| format!("epoch {it}")))
        }
        Said::Batches { count, watermark } => format!("batches {count} mark {watermark}"),
        Said::Diverging(None) => "diverges no epoch".to_string(),
        Said::Diverging(Some(EpochEnd { epoch, end })) => format!("diverges epoch {epoch} end {end}"),
        Said::Proposes { in_sync: nodes, version } => format!("proposes {}", in_sync(&nodes, version)),
        Said::Decides { .. } => panic!("a decision has its record"),
    }
}

fn receipt(it: Receipt) -> String {
    format!("{} {}", if it.duplicate { "duplicate" } else { "at" }, it.base)
}

impl Player {
    fn of(header: &str) -> Player {
        let words: Vec<&str> = header.split(' ').collect();
        let ["nodes", nodes, "segment", segment, "interval", interval] = words[..] else { panic!("no header: {header}") };
        let limits = Limits { segment_bytes: number(segment), index_interval: number(interval), max_batch: 1_048_576 };
        let cluster = Cluster::open(number(nodes), limits).expect("a cluster");
        let pass = cluster.pass().expect("a pass");
        Player { cluster, pass, sent: Vec::new() }
    }

    fn keep(&mut self, message: Message, says: &str) -> String {
        self.sent.push(message);
        format!("sent {} {says}", self.sent.len() - 1)
    }

    fn send(&mut self, mut message: Message) -> Answer {
        let says = said(message.said()?);
        Ok(self.keep(message, &says))
    }

    fn deliver(&mut self, at: usize) -> Answer {
        let Some(message) = self.sent.get_mut(at) else { return Ok("F29 StaleAnswer".to_string()) };
        let (message, says) = (message.repeat(&mut self.pass)?, message.said()?);
        let Addressee::Node(node) = message.addressee() else {
            let decision = self.pass.decide(message)?;
            let says = record(&self.pass.leadership()?);
            return Ok(self.keep(decision, &says));
        };
        let stepped = self.cluster.node(node)?.step(message)?;
        if let Some(answer) = stepped {
            return self.send(answer);
        }
        let mut node = self.cluster.node(node)?;
        let state = node.show()?;
        Ok(match says {
            Said::Batches { .. } => format!("end {} mark {}", state.end, state.watermark),
            Said::Diverging(_) => format!("cut {}", state.end),
            _ => {
                let known = node.known()?.leadership;
                in_sync(&known.in_sync, known.version)
            }
        })
    }

    fn hand_in(&mut self, words: &[&str]) -> Answer {
        let mut node = self.cluster.node(number(words[1]))?;
        let received = match words[0] {
            "raw" => node.produce(&mut self.pass, &bytes_of(words[2]))?,
            _ => {
                let marker = Marker {
                    timestamp: number(words[2]),
                    producer_id: number(words[3]),
                    producer_epoch: number(words[4]),
                    coordinator_epoch: number(words[5]),
                    commits: words[6] == "commit",
                };
                node.mark(&mut self.pass, &marker)?
            }
        };
        Ok(receipt(received))
    }

    fn show(&mut self, number: u8) -> Answer {
        let state = self.cluster.node(number)?.show()?;
        if state.status == Status::Down {
            return Ok("F28 Down".to_string());
        }
        let (life, end, mark, stable) = (state.life, state.end, state.watermark, state.stable);
        Ok(format!("node {number} life {life} end {end} mark {mark} stable {stable}"))
    }

    fn read(&mut self, words: &[&str]) -> Answer {
        let (mut node, from) = (self.cluster.node(number(words[1]))?, number(words[2]));
        if words[0] == "read" {
            node.fetch(&mut self.pass, from, 1, Isolation::ReadUncommitted)?;
            return Ok("a read that isn't refused".to_string());
        }
        let records: Vec<_> = node.read_committed(&mut self.pass, from)?.collect::<Result<_, _>>()?;
        let hex = |value: &[u8]| value.iter().map(|it| format!("{it:02x}")).collect::<String>();
        let shown = |it: &CommittedRecord| format!(" {}={}", it.offset, it.value.as_deref().map_or("-".to_string(), hex));
        Ok(format!("read {}{}", records.len(), records.iter().map(shown).collect::<String>()))
    }

    fn call(&mut self, words: &[&str]) -> Answer {
        let which: usize = number(words[1]);
        let place = which as u8;
        match words[0] {
            "elect" => self.pass.elect(place).map(|it| record(&it)),
            "adopt" => self.cluster.node(place)?.adopt().map(|it| match it {
                Role::Leads { epoch, start } => format!("leads epoch {epoch} from {start}"),
                Role::Follows { leader, epoch } => format!("follows {leader} epoch {epoch}"),
            }),
            "raw" | "mark" => self.hand_in(words),
            "deliver" => self.deliver(which),
            "ask" => {
                let request = self.cluster.node(place)?.ask()?;
                self.send(request)
            }
            "join" | "leave" => {
                let other = number(words[2]);
                let change = if words[0] == "join" { Change::Join(other) } else { Change::Leave(other) };
                let proposal = self.cluster.node(place)?.alter(change)?;
                self.send(proposal)
            }
            "raise" => self.cluster.node(place)?.raise().map(|it| format!("mark {it}")),
            "checkpoint" => self.cluster.node(place)?.checkpoint().map(|it| format!("checkpoint {it}")),
            "stop" => self.cluster.node(place)?.stop().map(|()| "stopped".to_string()),
            "restart" => self.cluster.node(place)?.restart().map(|it| format!("life {} end {} mark {}", it.life, it.end, it.watermark)),
            "show" => self.show(place),
            "read" | "committed" => self.read(words),
            other => panic!("'{other}' is no event"),
        }
    }
}

/// What each event of a script is answered, as `kpart run` prints it, and what it leaves.
pub fn played(script: &str) -> (String, Player) {
    let mut lines = (1..).zip(script.lines()).filter(|(_, line)| !line.is_empty() && !line.starts_with('#'));
    let (_, header) = lines.next().expect("a header");
    let mut player = Player::of(header);
    let mut trace = String::new();
    for (place, line) in lines {
        let words: Vec<&str> = line.split(' ').collect();
        let answer = player.call(&words).unwrap_or_else(|error| error.to_string());
        writeln!(trace, "{place} {answer}").expect("a string takes it");
    }
    (trace, player)
}

/// The script up to the line of the last answer: what comes behind it has none yet.
fn front(script: &str, told: &str) -> String {
    let last = told.lines().last().and_then(|it| it.split(' ').next()).map_or(1, number);
    script.split_inclusive('\n').take(last).collect()
}

/// How many events a script has that was recorded, also one that is still being written: each has to be answered as it was then. And what it
/// leaves.
pub fn check(script: &Path) -> Result<(usize, Player), String> {
    let read = |path: &Path| std::fs::read_to_string(path).map_err(|it| format!("{}: {it}", path.display()));
    let told = read(&kpart::Recorder::answers_of(script))?;
    let whole = told.rfind('\n').map_or(0, |it| it + 1);
    let told = &told[..whole];
    let (trace, player) = played(&front(&read(script)?, told));
    let other = trace.lines().zip(told.lines()).find(|(now, then)| now != then);
    match other {
        Some((now, then)) => Err(format!("{}: answered '{then}' then, and now '{now}'", script.display())),
        None if trace.len() != told.len() => {
            Err(format!("{}: {} answers, not {}", script.display(), told.lines().count(), trace.lines().count()))
        }
        None => Ok((trace.lines().count(), player)),
    }
}
