//! A broker whose power goes at any moment under load, again and again: of what wasn't synced any part is lost, in pieces of 16 bytes, and what its
//! clients were told is there at the next start. `tools/lib/record.c` notes each operation on its files.

mod common;
mod load;
#[path = "../../embed/rust/src/store/wreck.rs"]
#[allow(dead_code)]
mod wreck;

use common::program::{Chance, Folder, Program, preload};
use common::{Fallible, Outcome};
use load::{PARTITIONS, World};
use std::collections::{BTreeMap, BTreeSet};
use std::path::Path;
use std::thread;
use std::time::Instant;
use wreck::{Act, Wreck};

/// So many lives have a folder.
const EACH: usize = 8;

type Image = BTreeMap<String, Vec<u8>>;

/// The operations of a record; what is half written at its end is none.
fn acts_of(record: &[u8], folders: &mut BTreeSet<String>) -> Fallible<Vec<(String, Act)>> {
    let (mut acts, mut rest) = (Vec::new(), record);
    while rest.len() >= 32 {
        let (head, behind) = rest.split_at(32);
        let number = |at: usize| u64::from_ne_bytes(std::array::from_fn(|it| head[8 * at + it]));
        let (path, size) = (number(2) as usize, number(3) as usize);
        if behind.len() < path + size {
            break;
        }
        let name = String::from_utf8(behind[..path].to_vec())?;
        let act = match number(0) as u8 {
            b'm' => {
                folders.insert(name.clone());
                Act::MakeFolder
            }
            b'c' => Act::Create,
            b'w' => Act::Write(number(1), behind[path..path + size].to_vec()),
            b'l' => Act::SetLength(number(1)),
            b's' if folders.contains(&name) => Act::SyncFolder,
            b's' => Act::Sync,
            b'r' => Act::Rename,
            b'u' => Act::Remove,
            letter => return Err(format!("a note of {letter}").into()),
        };
        // The folder itself is there.
        if name != "." || !matches!(act, Act::MakeFolder) {
            acts.push((name, act));
        }
        rest = &behind[path + size..];
    }
    Ok(acts)
}

fn folders_in(image: &Image) -> BTreeSet<String> {
    let all = image.keys().flat_map(|it| it.match_indices('/').map(|at| it[..at.0].to_string()));
    all.chain([".".to_string()]).collect()
}

/// A life on a disk that has this image, and what the disk has once its power has gone. In every other one the journal is slow, so that whatever
/// doesn't wait for it is ahead of it.
fn life(room: &Folder, recorder: &Path, world: &mut World, chance: &mut Chance, image: &Image) -> Fallible<(Image, usize)> {
    let (data, record) = (room.data(), room.0.join("record"));
    let _gone = (std::fs::remove_dir_all(&data), std::fs::remove_file(&record));
    wreck::put(image, &data)?;
    let mut command = Program::command(&data, PARTITIONS as u32);
    let is_slow = chance.below(2) == 0;
    if is_slow {
        command.env("RECORD_SLOW", (1_000 + chance.below(20_000)).to_string());
    }
    let mut program = Program::spawn(command.env("LD_PRELOAD", recorder).env("RECORD_FOLDER", &data).env("RECORD_FILE", &record))?;
    if chance.below(6) == 0 {
        thread::sleep(chance.time(60));
        program.kill();
    } else {
        program.wait_ready()?;
        world.check(&program.at, chance)?;
        let time = chance.time(if is_slow { 300 } else { 120 });
        world.killed(&mut program, chance, time);
    }
    let acts = acts_of(&std::fs::read(&record).unwrap_or_default(), &mut folders_in(image))?;
    let mut disk = Wreck::of(image);
    acts.iter().for_each(|(name, act)| disk.hears(name, act));
    let synced = acts.iter().filter(|it| matches!(it.1, Act::Sync | Act::SyncFolder)).count();
    Ok((disk.some_of(&mut wreck::Chance::new(chance.below(1 << 30) as u64)), synced))
}

/// As many lives as KPART_POWER says.
#[test]
fn what_was_told_stands_after_power_cuts() -> Outcome {
    let lives = std::env::var("KPART_POWER").ok().and_then(|it| it.parse().ok()).unwrap_or(24);
    let seed = std::env::var("KPART_SEED").ok().and_then(|it| it.parse().ok()).unwrap_or(11);
    let (mut chance, start, room) = (Chance::new(seed), Instant::now(), Folder::new("power", true));
    let Some(recorder) = preload(&room, "record") else {
        println!("SKIPPED: there is no cc");
        return Ok(());
    };
    let (mut world, mut image, mut synced) = (World::new(), Image::new(), 0);
    for number in 0..lives {
        if number > 0 && number % EACH == 0 {
            println!("{:.0?}: {synced} syncs, {} checks, told: {}", start.elapsed(), world.checks, world.told());
            (world, image) = (World::new(), Image::new());
        }
        let (next, count) = life(&room, &recorder, &mut world, &mut chance, &image)?;
        (image, synced) = (next, synced + count);
    }
    wreck::put(&image, &room.0.join("last"))?;
    let program = Program::start(&mut Program::command(&room.0.join("last"), PARTITIONS as u32))?;
    world.check(&program.at, &mut chance)?;
    println!("{:.0?}: {lives} power cuts, {synced} syncs, {} checks, told: {}", start.elapsed(), world.checks, world.told());
    assert!(lives < EACH || world.checks > 1 && synced > 0);
    Ok(())
}
