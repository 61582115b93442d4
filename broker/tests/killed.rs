//! A broker with a folder is killed at any moment under load, again and again: what its clients were told is there at the next start.

mod common;
mod load;

use common::Outcome;
use common::program::{Chance, Folder, Program, preload};
use load::{PARTITIONS, World};
use std::path::Path;
use std::process::Command;
use std::thread;
use std::time::{Duration, Instant};

/// So many kills have a folder.
const EACH: usize = 12;
/// So many of a process's calls of the system, at most, come before the one at which it is killed.
const CALLS: usize = 600;
/// A first start makes about so many.
const FIRST_CALLS: usize = 160;

/// As many kills as KPART_KILLS says; of two folders every other one lies where a sync costs nothing, so that more comes of it.
#[test]
fn what_was_told_stands_after_kills() -> Outcome {
    let kills = std::env::var("KPART_KILLS").ok().and_then(|it| it.parse().ok()).unwrap_or(48);
    let seed = std::env::var("KPART_SEED").ok().and_then(|it| it.parse().ok()).unwrap_or(7);
    let (mut chance, start, room) = (Chance::new(seed), Instant::now(), Folder::new("killer", true));
    let killer = preload(&room, "kill");
    let (mut folder, mut world) = (Folder::new("killed", true), World::new());
    for kill in 0..kills {
        if kill > 0 && kill % EACH == 0 {
            println!("{:.0?}: {} checks, told: {}", start.elapsed(), world.checks, world.told());
            (folder, world) = (Folder::new("killed", kill % (2 * EACH) == 0), World::new());
        }
        match &killer {
            Some(killer) if chance.below(3) == 0 => at_a_call(&folder, killer, &mut world, &mut chance)?,
            _ => at_a_moment(&folder, &mut world, &mut chance)?,
        }
    }
    let mut program = Program::start(&mut command(&folder))?;
    world.check(&program.at, &mut chance)?;
    println!("{:.0?}: {kills} kills, {} checks, told: {}", start.elapsed(), world.checks, world.told());
    program.at.ask("quit")?;
    let said = program.said();
    assert!(said.lines().all(|it| it.ends_with("they are cut off")), "{said}");
    assert!(world.checks > 1 && world.idempotent.iter().any(|it| !it.told.is_empty()));
    Ok(())
}

/// Wherever the first start in a folder is killed, the next one makes what lacks. Some of the calls, as many as KPART_KILLS says, but 24 at most.
#[test]
fn a_first_start_may_be_killed() -> Outcome {
    let count = std::env::var("KPART_KILLS").ok().and_then(|it| it.parse().ok()).unwrap_or(24).min(24);
    let room = Folder::new("killer", true);
    let Some(killer) = preload(&room, "kill") else { return Ok(()) };
    let mut killed = 0;
    for number in 0..count {
        let (folder, place) = (Folder::new("first", true), 1 + number * FIRST_CALLS / count);
        let mut command = command(&folder);
        command
            .env("LD_PRELOAD", &killer)
            .env("KILL_FOLDER", folder.data())
            .env("KILL_WHERE", "behind")
            .env("KILL_PLACE", place.to_string());
        let mut program = Program::spawn(&mut command)?;
        killed += usize::from(program.wait_ready().is_err());
        program.kill();
        let program = Program::start(&mut self::command(&folder)).map_err(|it| format!("killed behind call {place}: {it}"))?;
        World::new().check(&program.at, &mut Chance::new(1))?;
    }
    println!("{killed} of {count} first starts were killed");
    assert!(killed * 2 > count);
    Ok(())
}

fn command(folder: &Folder) -> Command {
    Program::command(&folder.data(), PARTITIONS as u32)
}

/// Some are killed as they start; most once all was checked that those before have told.
fn at_a_moment(folder: &Folder, world: &mut World, chance: &mut Chance) -> Outcome {
    let mut program = Program::spawn(&mut command(folder))?;
    if chance.below(6) == 0 {
        thread::sleep(chance.time(60));
        program.kill();
        return Ok(());
    }
    program.wait_ready()?;
    world.check(&program.at, chance)?;
    let time = chance.time(150);
    world.killed(&mut program, chance, time);
    Ok(())
}

/// One is killed before one of its calls of the system, behind it, or half way of a write (`tools/lib/kill.c`): as it starts, is checked, or has load.
fn at_a_call(folder: &Folder, killer: &Path, world: &mut World, chance: &mut Chance) -> Outcome {
    let (place, way) = (1 + chance.below(CALLS), ["before", "behind", "half"][chance.below(3)]);
    let mut command = command(folder);
    command.env("LD_PRELOAD", killer).env("KILL_FOLDER", folder.data()).env("KILL_WHERE", way).env("KILL_PLACE", place.to_string());
    let mut program = Program::spawn(&mut command)?;
    if let Err(fault) = program.wait_ready().and_then(|()| world.check(&program.at, chance)) {
        thread::sleep(Duration::from_millis(5));
        let is_killed = program.child.try_wait()?.is_some_and(|it| !it.success() && it.code().is_none());
        return if is_killed { Ok(()) } else { Err(fault) };
    }
    world.killed(&mut program, chance, Duration::from_millis(100));
    Ok(())
}
