//! Lines by which a tester, in whatever language, stops, restarts and elects nodes, and cuts links.
//!
//! Each line is answered by lines of which the last one is `ok`, or begins with `error`.

use crate::cluster::{self, Undone};
use crate::hub::{Hub, Waiting};
use crate::partition::led_epoch;
use crate::{connection, lock, recording, requests};
use kpart::Link;
use std::fmt::Write as _;
use std::io::{self, BufRead, BufReader, Read, Write};
use std::net::{Ipv4Addr, TcpListener, TcpStream};
use std::sync::Arc;
use std::sync::atomic::{AtomicUsize, Ordering::SeqCst};
use std::thread::Builder;
use std::time::Duration;

/// What the lines are.
pub const HELP: &str = "stop N | restart N | elect N [TOPIC PARTITION] | cut A B | delay A B MS | lossy A B ONE_IN | doubling A B ONE_IN \
| heal | hold N | release N | fail COUNT CODE API | rtt MS | show | recorded | quit";

/// A request that waits for so long is shown.
const LONG: Duration = Duration::from_secs(1);
/// The line that ends the broker.
const QUIT: &str = "quit";
/// The longest line.
const LONGEST: u64 = 1_024;
/// The most connections.
const MOST: usize = 16;
/// How long one read waits, before the thread looks whether the broker ends.
const PATIENCE: Duration = Duration::from_millis(200);

/// Listens on 127.0.0.1, and says at which port.
pub fn listen(hub: &Arc<Hub>, port: u16) -> io::Result<u16> {
    let listener = TcpListener::bind((Ipv4Addr::LOCALHOST, port))?;
    let port = listener.local_addr()?.port();
    // It looks now and then whether the broker ends: nobody waits for its port.
    listener.set_nonblocking(true)?;
    let hub = hub.clone();
    Builder::new().name("admin".to_string()).spawn(move || accept(&hub, &listener))?;
    Ok(port)
}

fn accept(hub: &Arc<Hub>, listener: &TcpListener) {
    let open = Arc::new(AtomicUsize::new(0));
    while !hub.is_closing() {
        let Ok((stream, _)) = listener.accept() else {
            std::thread::sleep(Duration::from_millis(10));
            continue;
        };
        if open.fetch_add(1, SeqCst) >= MOST {
            open.fetch_sub(1, SeqCst);
            continue;
        }
        let (hub, count) = (hub.clone(), open.clone());
        let started = Builder::new().name("admin line".to_string()).spawn(move || {
            let _ended = serve(&hub, &stream);
            count.fetch_sub(1, SeqCst);
        });
        if started.is_err() {
            open.fetch_sub(1, SeqCst);
        }
    }
}

fn serve(hub: &Arc<Hub>, stream: &TcpStream) -> io::Result<()> {
    stream.set_nonblocking(false)?;
    stream.set_nodelay(true)?;
    stream.set_write_timeout(Some(hub.options.slow))?;
    stream.set_read_timeout(Some(PATIENCE))?;
    let mut input = BufReader::new(stream);
    let mut output = stream;
    while let Some(line) = next_line(hub, &mut input)? {
        let _told = (line.trim() == QUIT).then(|| lock(&hub.telling));
        output.write_all(answer(hub, &line).as_bytes())?;
    }
    Ok(())
}

/// The next line; none where it is too long, or the connection or the broker has ended.
fn next_line(hub: &Hub, input: &mut impl BufRead) -> io::Result<Option<String>> {
    let mut line = Vec::new();
    while !hub.is_closing() {
        let left = LONGEST.saturating_sub(line.len() as u64);
        match input.take(left).read_until(b'\n', &mut line) {
            Ok(_) if line.last() == Some(&b'\n') => return Ok(Some(String::from_utf8_lossy(&line).into_owned())),
            Ok(_) => return Ok(None),
            Err(error) if matches!(error.kind(), io::ErrorKind::WouldBlock | io::ErrorKind::TimedOut) => {}
            Err(error) => return Err(error),
        }
    }
    Ok(None)
}

/// What a line is answered.
pub fn answer(hub: &Arc<Hub>, line: &str) -> String {
    match run(hub, line) {
        Ok(text) => format!("{text}ok\n"),
        Err(why) => format!("error {why}\n"),
    }
}

fn run(hub: &Arc<Hub>, line: &str) -> Result<String, String> {
    let words: Vec<&str> = line.split_whitespace().collect();
    let told = |undone: Undone| undone.to_string();
    match words[..] {
        ["stop", node] => cluster::stop(hub, number(node)?).map_err(told)?,
        ["restart", node] => cluster::restart(hub, number(node)?).map_err(told)?,
        ["elect", node] => cluster::elect(hub, number(node)?, None).map_err(told)?,
        ["elect", node, topic, index] => {
            let place = hub.find(topic, number(index)?).map_err(|it| it.to_string())?;
            cluster::elect(hub, number(node)?, Some(place)).map_err(told)?;
        }
        ["cut", from, to] => cluster::set_link(hub, number(from)?, number(to)?, Link::Cut).map_err(told)?,
        [kind @ ("delay" | "lossy" | "doubling"), from, to, count] => {
            cluster::set_link(hub, number(from)?, number(to)?, link(kind, number(count)?)).map_err(told)?;
        }
        ["heal"] => cluster::heal(hub),
        ["hold", node] => hold(hub, number(node)?, true)?,
        ["release", node] => hold(hub, number(node)?, false)?,
        ["fail", count, code, api] => {
            let found = requests::named(api).ok_or_else(|| format!("no such request: {api}"))?;
            hub.fail(number(count)?, number(code)?, found.key);
        }
        ["rtt", ms] => hub.set_rtt(Duration::from_millis(number(ms)?)),
        ["show"] => return Ok(show(hub)),
        ["recorded"] => return recording::flush(hub),
        [QUIT] => quit(hub),
        _ => return Err(HELP.to_string()),
    }
    Ok(String::new())
}

/// The broker ends. No client is told anything from then on, and the records have all that one was told before.
fn quit(hub: &Hub) {
    hub.close();
    connection::close_all(hub);
    recording::stop(hub);
}

/// The link of a line that has a number: milliseconds, or of how many messages one is lost or doubled.
fn link(kind: &str, count: u32) -> Link {
    match kind {
        "delay" => Link::Delayed(Duration::from_millis(count.into())),
        "lossy" => Link::Lossy { one_in: count },
        _ => Link::Doubling { one_in: count },
    }
}

/// A link as its line says it; none for one that is up.
fn spelled(link: Link) -> Option<String> {
    match link {
        Link::Cut => Some("cut".to_string()),
        Link::Delayed(time) => Some(format!("delay {}", time.as_millis())),
        Link::Lossy { one_in } => Some(format!("lossy {one_in}")),
        Link::Doubling { one_in } => Some(format!("doubling {one_in}")),
        _ => None,
    }
}

fn number<T: std::str::FromStr>(word: &str) -> Result<T, String> {
    word.parse().map_err(|_| format!("no such number: {word}"))
}

/// Holds a node's acknowledgements of batches back, or lets them go.
pub fn hold(hub: &Hub, node: u8, held: bool) -> Result<(), String> {
    let gate = hub.gate(node).ok_or_else(|| Undone::NoSuch.to_string())?;
    gate.held.store(held, SeqCst);
    hub.news.tell();
    Ok(())
}

/// Everything that a tester may want to see.
pub fn show(hub: &Hub) -> String {
    let mut out = String::new();
    for node in 0..hub.nodes() {
        let held = hub.gate(node).is_some_and(|it| it.held.load(SeqCst));
        let port = hub.port(node);
        let _ = writeln!(out, "node {node} up {} port {port} connections {} held {held}", hub.is_up(node), hub.connections(node));
    }
    for partition in &hub.partitions {
        let Ok(record) = partition.control().pass.leadership() else { continue };
        let (leader, epoch) = record.leader.map_or((-1, -1), |it| (i64::from(it.0), i64::from(it.1)));
        let in_sync: Vec<String> = (0..hub.nodes()).filter(|it| record.has_in_sync(*it)).map(|it| it.to_string()).collect();
        let (topic, index) = (&partition.topic, partition.index);
        let _ = writeln!(out, "partition {topic} {index} leader {leader} epoch {epoch} in-sync {}", in_sync.join(","));
        for node in 0..hub.nodes() {
            let Ok(state) = partition.state(node) else { continue };
            let leads = led_epoch(&state).map_or("-".to_string(), |it| it.to_string());
            let (end, watermark, stable, life) = (state.end, state.watermark, state.stable, state.life);
            let _ = writeln!(out, "  node {node} leads {leads} end {end} watermark {watermark} stable {stable} life {life}");
        }
    }
    for (from, row) in lock(&hub.links).iter().enumerate() {
        for (to, link) in row.iter().enumerate().filter_map(|(to, link)| Some((to, spelled(*link)?))) {
            let _ = writeln!(out, "link {from} {to} {link}");
        }
    }
    for (name, _, state, generation, members) in hub.groups.list() {
        let _ = writeln!(out, "group {name} {} generation {generation} members {members}", state.name());
    }
    for Waiting { node, api, time } in hub.waiting(LONG) {
        let name = requests::called(api).unwrap_or("a request");
        let _ = writeln!(out, "waiting node {node} {name} {} ms", time.as_millis());
    }
    let (ids, open) = hub.transactions.count();
    let _ = writeln!(out, "transactional-ids {ids} open {open}");
    let count = |it: &std::sync::atomic::AtomicU64| it.load(SeqCst);
    let counts = &hub.counts;
    let asked = requests::ADVERTISED.iter().map(|it| (it.api.name, counts.asked.count(it.api.key))).filter(|(_, count)| *count > 0);
    let _ = writeln!(out, "asked {}", asked.map(|(name, count)| format!("{name} {count}")).collect::<Vec<_>>().join(" "));
    let (requests, batches) = (count(&counts.requests), count(&counts.batches));
    let (duplicates, closed) = (count(&counts.duplicates), count(&counts.closed));
    let _ = writeln!(out, "requests {requests} batches {batches} duplicates {duplicates} closed {closed}");
    out
}
