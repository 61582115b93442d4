//! What of a store's files a disk may have once the power has gone. The broker's tests take this file, too.

use std::collections::BTreeMap;
use std::io;
use std::path::Path;

/// An operation on a file or a folder.
#[derive(Clone, Debug)]
pub(crate) enum Act {
    MakeFolder,
    SyncFolder,
    /// Of the file that is to take the other one's place.
    WriteNext(Vec<u8>),
    SyncNext,
    Rename,
    Create,
    Remove,
    Write(u64, Vec<u8>),
    SetLength(u64),
    Sync,
}

/// Numbers by chance (Marsaglia's xorshift).
pub(crate) struct Chance(u64);

impl Chance {
    pub(crate) fn new(seed: u64) -> Chance {
        Chance(seed.wrapping_mul(0x9E37_79B9_7F4A_7C15) | 1)
    }

    pub(crate) fn below(&mut self, bound: usize) -> usize {
        self.0 ^= self.0 << 13;
        self.0 ^= self.0 >> 7;
        self.0 ^= self.0 << 17;
        (self.0 >> 16) as usize % bound.max(1)
    }
}

// So many bytes come to a disk at once.
const SECTOR: usize = 16;

// What a file has on the disk, and what was done to it since it was synced.
#[derive(Clone, Debug, Default)]
struct Inode {
    synced: Vec<u8>,
    later: Vec<Act>,
    is_folder: bool,
}

#[derive(Clone, Debug)]
enum Entry {
    There(usize),
    Gone,
}

/// A disk whose power may go.
#[derive(Clone, Debug, Default)]
pub(crate) struct Wreck {
    inodes: Vec<Inode>,
    // As whoever looks sees them, and as they are on the disk, but for what is later.
    seen: BTreeMap<String, usize>,
    synced: BTreeMap<String, usize>,
    later: Vec<(String, Entry)>,
}

fn folder_of(name: &str) -> &str {
    name.rsplit_once('/').map_or(".", |it| it.0)
}

// All folders in which it lies, but for the outermost one.
fn folders_of(name: &str) -> impl Iterator<Item = &str> {
    name.match_indices('/').map(|it| &name[..it.0])
}

fn written(bytes: &mut Vec<u8>, place: usize, new: &[u8]) {
    bytes.resize(bytes.len().max(place + new.len()), 0);
    bytes[place..place + new.len()].copy_from_slice(new);
}

fn done(bytes: &mut Vec<u8>, act: &Act) {
    match act {
        Act::Write(place, new) => written(bytes, *place as usize, new),
        Act::WriteNext(new) => bytes.clone_from(new),
        Act::SetLength(length) => bytes.resize(*length as usize, 0),
        _ => {}
    }
}

// What has become of an operation that wasn't synced: all of it, nothing, or some of its sectors.
fn half_done(bytes: &mut Vec<u8>, act: &Act, chance: &mut Chance) {
    match (act, chance.below(3)) {
        (_, 0) => {}
        (Act::Write(place, new), 1) => {
            for (at, sector) in new.chunks(SECTOR).enumerate().filter(|_| chance.below(2) == 0) {
                written(bytes, *place as usize + at * SECTOR, sector);
            }
        }
        _ => done(bytes, act),
    }
}

impl Wreck {
    fn link(&mut self, name: &str, inode: usize) {
        self.seen.insert(name.to_string(), inode);
        self.later.push((name.to_string(), Entry::There(inode)));
    }

    fn unlink(&mut self, name: &str) {
        self.seen.remove(name);
        self.later.push((name.to_string(), Entry::Gone));
    }

    // The file of that name, which is made where it isn't there.
    fn inode(&mut self, name: &str) -> &mut Inode {
        let inode = match self.seen.get(name) {
            Some(inode) => *inode,
            None => {
                self.inodes.push(Inode::default());
                self.link(name, self.inodes.len() - 1);
                self.inodes.len() - 1
            }
        };
        &mut self.inodes[inode]
    }

    fn sync(&mut self, name: &str) {
        let inode = self.inode(name);
        for act in std::mem::take(&mut inode.later) {
            done(&mut inode.synced, &act);
        }
    }

    fn sync_folder(&mut self, folder: &str) {
        let (now, later) = std::mem::take(&mut self.later).into_iter().partition(|(name, _)| folder_of(name) == folder);
        self.later = later;
        self.link_all(now);
    }

    fn link_all(&mut self, entries: Vec<(String, Entry)>) {
        for (name, entry) in entries {
            match entry {
                Entry::There(inode) => self.synced.insert(name, inode),
                Entry::Gone => self.synced.remove(&name),
            };
        }
    }

    /// With these files on it.
    pub(crate) fn of(image: &BTreeMap<String, Vec<u8>>) -> Wreck {
        let mut inodes: Vec<Inode> = image.values().map(|it| Inode { synced: it.clone(), ..Inode::default() }).collect();
        let mut names: BTreeMap<String, usize> = image.keys().cloned().zip(0..).collect();
        for folder in image.keys().flat_map(|it| folders_of(it)) {
            names.insert(folder.to_string(), inodes.len());
            inodes.push(Inode { is_folder: true, ..Inode::default() });
        }
        Wreck { inodes, seen: names.clone(), synced: names, later: Vec::new() }
    }

    /// An operation on the file or folder of that name.
    pub(crate) fn hears(&mut self, name: impl ToString, act: &Act) {
        let name = name.to_string();
        let next = format!("{name}.next");
        match act {
            Act::MakeFolder => self.inode(&name).is_folder = true,
            Act::SyncFolder => self.sync_folder(&name),
            Act::WriteNext(_) => self.inode(&next).later.push(act.clone()),
            Act::SyncNext => self.sync(&next),
            Act::Rename => {
                let inode = self.seen[&next];
                self.unlink(&next);
                self.link(&name, inode);
            }
            Act::Create => drop(self.inode(&name)),
            Act::Remove => self.unlink(&name),
            Act::Write(..) | Act::SetLength(_) => self.inode(&name).later.push(act.clone()),
            Act::Sync => self.sync(&name),
        }
    }

    // The files that lie in folders that are there.
    fn files<'a>(&'a self, names: &'a BTreeMap<String, usize>) -> impl Iterator<Item = (String, &'a Inode)> {
        let is_there = |name: &str| folders_of(name).all(|it| names.contains_key(it));
        let files = names.iter().map(|(name, inode)| (name.clone(), &self.inodes[*inode]));
        files.filter(move |(name, inode)| !inode.is_folder && is_there(name))
    }

    /// What is there where the power stays on, and just the process is gone.
    pub(crate) fn all_of(&self) -> BTreeMap<String, Vec<u8>> {
        let bytes = |inode: &Inode| {
            let mut bytes = inode.synced.clone();
            inode.later.iter().for_each(|it| done(&mut bytes, it));
            bytes
        };
        self.files(&self.seen).map(|(name, inode)| (name, bytes(inode))).collect()
    }

    /// What is there in any case once the power has gone.
    pub(crate) fn least_of(&self) -> BTreeMap<String, Vec<u8>> {
        self.files(&self.synced).map(|(name, inode)| (name, inode.synced.clone())).collect()
    }

    /// What may be there once the power has gone: all that was synced, and of the rest what chance gives.
    pub(crate) fn some_of(mut self, chance: &mut Chance) -> BTreeMap<String, Vec<u8>> {
        let later = std::mem::take(&mut self.later).into_iter().filter(|_| chance.below(2) == 0).collect();
        self.link_all(later);
        let mut image = BTreeMap::new();
        for (name, inode) in self.files(&self.synced) {
            let mut bytes = inode.synced.clone();
            inode.later.iter().for_each(|it| half_done(&mut bytes, it, chance));
            image.insert(name, bytes);
        }
        image
    }
}

/// Puts the files into a new folder.
pub(crate) fn put(image: &BTreeMap<String, Vec<u8>>, folder: &Path) -> io::Result<()> {
    std::fs::create_dir_all(folder)?;
    for (name, bytes) in image {
        let path = folder.join(name);
        path.parent().map_or(Ok(()), std::fs::create_dir_all)?;
        std::fs::write(path, bytes)?;
    }
    Ok(())
}
