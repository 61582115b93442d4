//! Bytes that come from outside of this program.

mod common;

use common::{bytes_of, case_of, hex_of};
use std::collections::{BTreeMap, BTreeSet};

/// The sample of this message is these bytes at this version, and is read from them.
fn agrees(name: &str, version: i16, bytes: &[u8]) {
    let case = case_of(name, version);
    let ours = (case.encode)(version).unwrap();
    assert_eq!(hex_of(&ours), hex_of(bytes), "{name} {version}\n{}", (case.show)(bytes, version));
    assert_eq!((case.again)(bytes, version).as_deref(), Ok(bytes), "{name} {version}");
}

/// What kafka-python writes of each message that it knows, at each of its versions.
#[test]
fn kafka_python_writes_the_same() {
    let mut count = 0;
    for line in include_str!("data/vectors.txt").lines().filter(|it| !it.starts_with('#')) {
        let mut words = line.split(' ');
        let (name, version) = (words.next().unwrap(), words.next().unwrap().parse().unwrap());
        agrees(name, version, &bytes_of(words.next().unwrap()));
        count += 1;
    }
    assert_eq!(count, 117);
}

/// Blocks of a head line and lines of digits, with comments.
#[test]
fn what_was_written_by_hand_is_the_same() {
    let mut names = BTreeSet::new();
    for block in include_str!("data/by_hand.txt").split("\n\n").filter(|it| !it.starts_with('#')) {
        let (head, body) = block.split_once('\n').unwrap();
        let (name, version) = head.split_once(' ').unwrap();
        let hex: String = body.lines().map(|it| it.split('#').next().unwrap()).collect();
        agrees(name, version.parse().unwrap(), &bytes_of(&hex));
        names.insert((name, version.parse::<i16>().unwrap()));
    }
    // All messages stand there at their greatest version.
    let whole = common::cases();
    let greatest: Vec<_> = whole.iter().filter(|it| it.whole_at == it.api.greatest).map(|it| (it.name, it.whole_at)).collect();
    assert_eq!(greatest.len(), 2 * kwire::APIS.len());
    assert!(greatest.iter().all(|it| names.contains(it)), "{:?}", greatest.iter().find(|it| !names.contains(it)));
}

/// Each version's bytes are as many more than those of the one before as the fields that come and go take.
#[test]
fn fields_come_and_go_where_the_definitions_say() {
    let table = include_str!("data/changes.txt").lines().filter(|it| !it.starts_with('#') && !it.is_empty());
    let mut changes: BTreeMap<(&str, i16), i64> = table
        .map(|line| {
            let words: Vec<&str> = line.split(' ').collect();
            ((words[0], words[1].parse().unwrap()), words[2].parse().unwrap())
        })
        .collect();
    let named: BTreeSet<_> = common::cases().into_iter().map(|it| (it.name, it.api.least, it.api.greatest)).collect();
    let mut wrong = Vec::new();
    for (name, least, greatest) in named {
        let length = |version| (case_of(name, version).encode)(version).unwrap().len() as i64;
        for version in least + 1..=greatest {
            let (grew, wanted) = (length(version) - length(version - 1), changes.remove(&(name, version)).unwrap_or(0));
            if grew != wanted {
                wrong.push(format!("{name} {version}: {grew}, and not {wanted}"));
            }
        }
    }
    assert!(wrong.is_empty() && changes.is_empty(), "{wrong:#?} {changes:?}");
}
