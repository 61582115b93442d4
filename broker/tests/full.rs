//! A disk that is full: nothing is acknowledged that isn't there, the broker says why its nodes stop, and goes on once there is room.

mod common;

use common::coordinators::{commit, committed};
use common::program::{Folder, Program};
use common::{Client, Fallible, LONG, NOBODY, Outcome, batch, until};
use kwire::ErrorCode;
use std::io::Write;
use std::process::Command;
use std::time::Instant;

/// So many bytes a file may have, where no small disk can be mounted (RLIMIT_FSIZE, in blocks of 512).
const BLOCKS: u32 = 400;
/// The bytes of the small disk.
const SMALL: &str = "1500k";
const LARGE: &str = "64m";

/// Runs a broker in a folder where files may not be longer; as a full disk does, the system refuses a write, of which a part was done.
fn limited(folder: &Folder) -> Command {
    let own = Program::command(&folder.data(), 1);
    let mut command = Command::new("sh");
    command.arg("-c").arg(format!("trap '' XFSZ; ulimit -f {BLOCKS}; exec \"$@\"")).arg("sh").arg(own.get_program()).args(own.get_args());
    command
}

/// The same on a small disk of its own, which is made larger once a line comes in; and once that broker has ended another one runs there. `None`
/// where no disk can be mounted here.
fn mounted(folder: &Folder) -> Option<Command> {
    let place = folder.0.join("disk");
    std::fs::create_dir(&place).ok()?;
    let mount = |size: &str| format!("mount -t tmpfs -o size={size} none {}", place.display());
    let may = Command::new("unshare").args(["-rm", "sh", "-c", &mount(SMALL)]).output().is_ok_and(|it| it.status.success());
    let own = Program::command(&place.join("data"), 1);
    let larger = format!("mount -o remount,size={LARGE} {}", place.display());
    let script = format!("{} || exit; \"$@\" & read -r line; {larger}; echo larger; wait; exec \"$@\"", mount(SMALL));
    let mut command = Command::new("unshare");
    command.args(["-rm", "sh", "-c", &script, "sh"]).arg(own.get_program()).args(own.get_args());
    may.then_some(command)
}

/// What was acknowledged: offsets with their values, and a group's offset.
#[derive(Default)]
struct Told {
    values: Vec<(i64, String)>,
    offset: i64,
}

/// Hands batches in, and commits offsets with long texts, until nothing is acknowledged any more.
fn fill(program: &Program, told: &mut Told) -> Outcome {
    let until = Instant::now() + LONG;
    while let Ok(mut client) = program.at.client(0) {
        while fill_one(&mut client, told).unwrap_or(false) {}
        assert!(Instant::now() < until, "the disk is never full");
    }
    Ok(())
}

fn fill_one(client: &mut Client, told: &mut Told) -> Fallible<bool> {
    let value = format!("{} {}", told.values.len(), "x".repeat(5_000));
    let (code, base) = client.produce(0, &batch(&[&value], NOBODY, 1), -1)?;
    if code == 0 {
        told.values.push((base, value));
    }
    let next = told.offset + 1;
    let kept = commit(client, "g", next, &"y".repeat(4_000))?;
    if kept == 0 {
        told.offset = next;
    }
    Ok(code == 0 && kept == 0)
}

/// The node that coordinates may be another one since a node has stopped.
fn coordinator(program: &Program) -> Fallible<Client> {
    let is_one = |client: &mut Client| committed(client, "g", true).is_ok_and(|it| it.0 != i16::from(ErrorCode::NotCoordinator));
    (0..3).filter_map(|it| program.at.client(it).ok()).find_map(|mut it| is_one(&mut it).then_some(it)).ok_or("nobody coordinates".into())
}

/// All that was acknowledged is there, in order; there may be more, as answers were lost.
fn check(program: &Program, told: &Told) -> Outcome {
    let mut client = program.at.leader(0)?;
    let end = client.list(0, -1, 0)?.1;
    let all = client.read_to(0, end, 0)?;
    let mut rest = all.iter();
    for it in &told.values {
        assert!(rest.any(|other| other == it), "offset {} isn't there", it.0);
    }
    let (code, offset, ..) = committed(&mut coordinator(program)?, "g", true)?;
    assert_eq!(code, 0);
    assert!((told.offset..=told.offset + 1).contains(&offset), "{} was told, and {offset} is there", told.offset);
    Ok(())
}

/// What it says: one line for each node that stops; and the next process of what was half written.
fn check_said(said: &str, why: &str) {
    let lines: Vec<&str> = said.lines().filter(|it| !it.ends_with("they are cut off")).collect();
    for node in 0..3 {
        let start = format!("kpart-broker: node {node} has stopped: ");
        let own: Vec<&&str> = lines.iter().filter(|it| it.starts_with(&start)).collect();
        assert!(own.len() <= 1 && own.iter().all(|it| it.contains(why)), "{said}");
    }
    assert!(lines.iter().any(|it| it.contains(" has stopped: ")) && lines.len() <= 3, "{said}");
}

#[test]
fn a_file_that_may_not_grow_stops_its_nodes() -> Outcome {
    let (folder, mut told) = (Folder::new("full", true), Told::default());
    let mut program = Program::start(&mut limited(&folder))?;
    fill(&program, &mut told)?;
    assert!(told.values.len() > 10, "{} batches", told.values.len());
    program.at.ask("quit")?;
    check_said(&program.said(), "File too large");
    let program = Program::start(&mut Program::command(&folder.data(), 1))?;
    check(&program, &told)?;
    Ok(())
}

/// Where just the journal can't be written, the node that coordinates stops.
#[test]
fn a_journal_that_may_not_grow_stops_the_coordinator() -> Outcome {
    let (folder, mut told) = (Folder::new("full", true), 0);
    let mut program = Program::start(&mut limited(&folder))?;
    let mut client = program.at.client(0)?;
    while commit(&mut client, &format!("g{told}"), 1, &"y".repeat(4_000)).is_ok_and(|it| it == 0) {
        told += 1;
    }
    assert!((10..1_000).contains(&told), "{told} offsets");
    until("node 0 is down", || program.at.ask("show").is_ok_and(|it| it.contains("node 0 up false")))?;
    program.at.ask("quit")?;
    let said = program.said();
    assert!(said.starts_with("kpart-broker: node 0 has stopped: ") && said.ends_with("journal: File too large (os error 27)\n"), "{said}");
    let program = Program::start(&mut Program::command(&folder.data(), 1))?;
    let mut client = program.at.client(0)?;
    for group in 0..told {
        assert_eq!(committed(&mut client, &format!("g{group}"), true)?.1, 1, "{group} of {told}");
    }
    Ok(())
}

#[test]
fn a_full_disk_loses_nothing() -> Outcome {
    let (folder, mut told) = (Folder::new("full", true), Told::default());
    let Some(mut command) = mounted(&folder) else {
        println!("SKIPPED: no disk can be mounted here");
        return Ok(());
    };
    let mut program = Program::start(&mut command)?;
    fill(&program, &mut told)?;
    assert!(told.values.len() > 10, "{} batches", told.values.len());
    // There is room: its nodes start again.
    program.child.stdin.take().ok_or("no pipe")?.write_all(b"\n")?;
    assert_eq!(program.line()?, "larger\n");
    until("all nodes are up", || {
        (0..3).for_each(|it| drop(program.at.ask(&format!("restart {it}"))));
        program.at.ask("show").is_ok_and(|it| it.matches(" up true ").count() == 3)
    })?;
    check(&program, &told)?;
    go_on(&program, &mut told)?;
    program.at.ask("quit")?;
    program.wait_ready()?;
    check(&program, &told)?;
    go_on(&program, &mut told)?;
    program.at.ask("quit")?;
    check_said(&program.said(), "No space left on device");
    Ok(())
}

/// What comes now is acknowledged.
fn go_on(program: &Program, told: &mut Told) -> Outcome {
    let (mut value, mut client) = ((0, "there is room".to_string()), program.at.leader(0)?);
    let (code, base) = client.produce(0, &batch(&[&value.1], NOBODY, 1), -1)?;
    value.0 = base;
    told.values.push(value);
    told.offset += 1;
    assert_eq!((code, commit(&mut coordinator(program)?, "g", told.offset, "")?), (0, 0));
    Ok(())
}
