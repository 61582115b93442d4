//! Stores that break a rule of `docs/DURABLE.md`: the tests by which the power goes have to find what comes of each.
//!
//! A broken store does what the store does, in another order ([`Order`]): one class of its operations is left out, or done later. To leave out
//! a sync is as good as a disk that says 'synced' and lies. While the process lives it sees no difference, so one run serves all orders. That
//! the store's own order passes the same runs is `what_was_acknowledged_stays_wherever_the_power_goes` and
//! `wherever_the_power_goes_a_moment_is_there`.
//!
//! Some orders nothing can tell, so none is here; stores with the first three passed 500 runs, too:
//!
//! - sends: the log isn't synced at `step` and `alter` alone. Who has the leader's batches from it, or its proposal, counts for itself, and
//!   what the leader counts for is synced before it raises. That these calls wait, too, `what_a_call_rests_on_is_on_the_disk` sees.
//! - states: a log that isn't synced before its state is replaced, where the state says no more than what is on the disk: what is lost
//!   nobody has heard of. What is found is a state that says more.
//! - checkpoints: a state that is replaced behind the checkpoint, but before the call returns: nobody sees the node between, as its lock is
//!   held.
//! - the record: several elections at one time, as runs by chance have one thread; `killed.rs` has many.
//! - lives, but by the number of the life itself: no message of an earlier process is left that a life would tell.
//! - cuts: in which order segments go. Behind the word of a cut all from there on is taken away, whatever is left of it
//!   (`cuts_may_begin_with_any_segment`).

use super::crashes::{self, Wrong, crashes};
use super::fault::StoreFile;
use super::tearing::{self, tears};
use super::text::StateText;
use super::watch::{Act, Deed, Order};

// Runs by chance, and how many: the same that the store's own order passes.
struct Runs(fn(u64, Order) -> Result<(), Wrong>, u64);

// Of a cluster, and of a log's files by themselves.
const CLUSTER: Runs = Runs(|seed, order| crashes(seed, crashes::LIVES, crashes::ACTS, order).map(drop), crashes::SEEDS);
const FILES: Runs = Runs(|seed, order| tears(seed, tearing::STEPS, order), tearing::SEEDS);

// Some run finds it to be wrong in that way.
fn finds(runs: Runs, order: Order, kind: &str) {
    let mut others = Vec::new();
    for seed in 0..runs.1 {
        match runs.0(seed, order) {
            Err(Wrong(why)) if why.starts_with(kind) => return println!("seed {seed}: {why}"),
            Err(Wrong(why)) => others.push(why),
            Ok(()) => {}
        }
    }
    panic!("nothing is found as {kind}, but {others:?}");
}

// ---- what an operation is of

// A mark is of no account.
fn node_of(name: StoreFile) -> Option<u8> {
    match name {
        StoreFile::Node(node) | StoreFile::State(node) | StoreFile::Segment { node, .. } => Some(node),
        _ => None,
    }
}

fn is_segment(name: StoreFile) -> bool {
    matches!(name, StoreFile::Segment { .. })
}

// The next operation on the same node's files, and the one before.
fn next(deeds: &[Deed], at: usize) -> Option<&Act> {
    let node = node_of(deeds[at].0);
    deeds[at + 1..].iter().find(|it| node_of(it.0) == node).map(|it| &it.1)
}

fn last(deeds: &[Deed], at: usize) -> Option<&Act> {
    let node = node_of(deeds[at].0);
    deeds[..at].iter().rfind(|it| node_of(it.0) == node).map(|it| &it.1)
}

// Where the replacement of a text begins that this is a part of: it is written and synced, takes the other's name, and the folder is synced.
fn replacement(deeds: &[Deed], at: usize) -> Option<usize> {
    (at.saturating_sub(3)..=at).rfind(|it| matches!(deeds[*it].1, Act::WriteNext(_)))
}

fn state_at(deeds: &[Deed], at: usize) -> Option<StateText> {
    match &deeds[at] {
        (StoreFile::State(_), Act::WriteNext(text)) => StateText::of(text).ok(),
        _ => None,
    }
}

// The state whose replacement this is a part of, with the one that it replaces: of the first one of a process that isn't known.
fn states(deeds: &[Deed], at: usize) -> Option<(StateText, Option<StateText>)> {
    let begin = replacement(deeds, at)?;
    let state = state_at(deeds, begin)?;
    let before = (0..begin).rev().filter(|it| deeds[*it].0 == deeds[begin].0).find_map(|it| state_at(deeds, it));
    Some((state, before))
}

// The first later operation that is so; if there is none the process ends before.
fn behind(deeds: &[Deed], at: usize, is_so: impl Fn(&Deed) -> bool) -> Option<usize> {
    (at + 1..deeds.len()).find(|it| is_so(&deeds[*it]))
}

// Of a state: behind the node's next batches and what comes next then, or never where another state comes before them.
fn behind_a_batch(deeds: &[Deed], at: usize) -> Option<usize> {
    let node = node_of(deeds[at].0);
    let end = behind(deeds, replacement(deeds, at)?, |it| node_of(it.0) == node && matches!(it.1, Act::WriteNext(_)));
    let batch = behind(deeds, at, |it| is_segment(it.0) && node_of(it.0) == node && matches!(it.1, Act::Sync))?;
    Some(batch + 1).filter(|it| end.is_none_or(|end| *it <= end))
}

fn or_own(at: usize, is_left_out: bool) -> Option<usize> {
    (!is_left_out).then_some(at)
}

// ---- the orders

// A log's sync before it rolls, before its state is replaced, as it is cut, and else: before the node sends, or counts itself.
fn syncs_before(deeds: &[Deed], at: usize, is_before: fn(Option<&Act>) -> bool) -> bool {
    let is_cut = matches!(last(deeds, at), Some(Act::SetLength(_)));
    is_segment(deeds[at].0) && matches!(deeds[at].1, Act::Sync) && !is_cut && is_before(next(deeds, at))
}

fn unsynced_before_sending(deeds: &[Deed], at: usize) -> Option<usize> {
    or_own(at, syncs_before(deeds, at, |next| !matches!(next, Some(Act::Create | Act::WriteNext(_)))))
}

fn unsynced_before_a_state(deeds: &[Deed], at: usize) -> Option<usize> {
    or_own(at, syncs_before(deeds, at, |next| matches!(next, Some(Act::WriteNext(_)))))
}

fn unsynced_before_it_rolls(deeds: &[Deed], at: usize) -> Option<usize> {
    or_own(at, syncs_before(deeds, at, |next| matches!(next, Some(Act::Create))))
}

// What a node has adopted comes to the disk behind its next batches.
fn late_adoption(deeds: &[Deed], at: usize) -> Option<usize> {
    match states(deeds, at) {
        Some((state, Some(before))) if state.kept.kept_epoch > before.kept.kept_epoch => behind_a_batch(deeds, at),
        _ => Some(at),
    }
}

fn no_checkpoint(deeds: &[Deed], at: usize) -> Option<usize> {
    let is_one = |state: StateText, before: StateText| {
        let is_same = (state.kept.life, state.kept.kept_epoch) == (before.kept.life, before.kept.kept_epoch);
        is_same && state.kept.checkpoint > before.kept.checkpoint
    };
    or_own(at, states(deeds, at).is_some_and(|(state, before)| before.is_some_and(|before| is_one(state, before))))
}

// A record comes to the disk behind the next state, of a node that may have adopted it, and the next batches.
fn late_record(deeds: &[Deed], at: usize) -> Option<usize> {
    match replacement(deeds, at) {
        Some(begin) if deeds[begin].0 == StoreFile::Record => {
            let state = behind(deeds, at, |it| matches!(it, (StoreFile::State(_), Act::Rename)))?;
            behind(deeds, state, |it| is_segment(it.0) && matches!(it.1, Act::Sync))
        }
        _ => Some(at),
    }
}

fn no_life(deeds: &[Deed], at: usize) -> Option<usize> {
    let is_next = |(state, before): (StateText, Option<StateText>)| state.kept.life > before.map_or(0, |it| it.kept.life);
    or_own(at, states(deeds, at).is_some_and(is_next))
}

fn no_word_of_a_cut(deeds: &[Deed], at: usize) -> Option<usize> {
    or_own(at, states(deeds, at).is_some_and(|it| it.0.cuts))
}

// The state without the word comes to the disk behind the next batches.
fn late_end_of_a_cut(deeds: &[Deed], at: usize) -> Option<usize> {
    match states(deeds, at) {
        Some((_, Some(before))) if before.cuts => behind_a_batch(deeds, at),
        _ => Some(at),
    }
}

fn unsynced_as_it_is_cut(deeds: &[Deed], at: usize) -> Option<usize> {
    or_own(at, matches!((&deeds[at].1, last(deeds, at)), (Act::Sync, Some(Act::SetLength(_)))))
}

// A cut's folder is synced behind the last segment's sync, or, where none is left, behind what is removed.
fn folder_unsynced_as_it_is_cut(deeds: &[Deed], at: usize) -> Option<usize> {
    let is_behind = match last(deeds, at) {
        Some(Act::Sync) => matches!(last(deeds, at.saturating_sub(1)), Some(Act::SetLength(_))),
        it => matches!(it, Some(Act::Remove)),
    };
    or_own(at, matches!(deeds[at], (StoreFile::Node(_), Act::SyncFolder)) && is_behind)
}

// The oldest segment goes first.
fn oldest_first(deeds: &[Deed], at: usize) -> Option<usize> {
    let goes = |it: &Deed| matches!(it.1, Act::Remove);
    if !goes(&deeds[at]) {
        return Some(at);
    }
    let first = (0..at).rfind(|it| !goes(&deeds[*it])).map_or(0, |it| it + 1);
    let end = behind(deeds, at, |it| !goes(it)).unwrap_or(deeds.len());
    Some(first + end - 1 - at)
}

fn folder_unsynced_as_it_rolls(deeds: &[Deed], at: usize) -> Option<usize> {
    or_own(at, matches!((&deeds[at].1, last(deeds, at)), (Act::SyncFolder, Some(Act::Create))))
}

fn unsynced_text(deeds: &[Deed], at: usize) -> Option<usize> {
    or_own(at, matches!(deeds[at].1, Act::SyncNext))
}

// The folder isn't synced once a text has taken its name.
fn unsynced_name(deeds: &[Deed], at: usize) -> Option<usize> {
    or_own(at, matches!(deeds[at].1, Act::SyncFolder) && at > 0 && matches!(deeds[at - 1].1, Act::Rename))
}

// ---- what is found

#[test]
fn sends_before_the_log_is_synced() {
    finds(CLUSTER, unsynced_before_sending, "lost: ");
    finds(FILES, unsynced_before_sending, "lost: ");
}

#[test]
fn states_before_the_log_is_synced() {
    finds(CLUSTER, unsynced_before_a_state, "damaged: ");
}

#[test]
fn states_behind_the_nodes_next_call() {
    finds(CLUSTER, late_adoption, "older: ");
}

#[test]
fn checkpoints_that_are_not_kept() {
    finds(CLUSTER, no_checkpoint, "older: ");
    finds(FILES, no_checkpoint, "older: ");
}

#[test]
fn records_behind_their_exchange() {
    finds(CLUSTER, late_record, "record: ");
}

#[test]
fn lives_that_are_not_kept() {
    finds(CLUSTER, no_life, "life: ");
}

#[test]
fn cuts_without_their_word() {
    finds(CLUSTER, no_word_of_a_cut, "damaged: ");
    finds(FILES, no_word_of_a_cut, "no moment: ");
}

#[test]
fn cuts_that_are_not_synced() {
    finds(FILES, unsynced_as_it_is_cut, "no moment: ");
}

#[test]
fn cuts_whose_folder_is_not_synced() {
    finds(FILES, folder_unsynced_as_it_is_cut, "damaged: ");
}

#[test]
fn cuts_whose_word_stays() {
    finds(FILES, late_end_of_a_cut, "lost: ");
}

#[test]
fn cuts_may_begin_with_any_segment() {
    let Runs(run, seeds) = FILES;
    (0..seeds).for_each(|seed| run(seed, oldest_first).unwrap_or_else(|it| panic!("seed {seed}: {}", it.0)));
}

#[test]
fn segments_that_are_not_synced_as_the_log_rolls() {
    finds(CLUSTER, unsynced_before_it_rolls, "damaged: ");
    finds(FILES, unsynced_before_it_rolls, "damaged: ");
}

#[test]
fn segments_whose_folder_is_not_synced() {
    finds(CLUSTER, folder_unsynced_as_it_rolls, "lost: ");
}

#[test]
fn a_text_that_is_not_synced_before_it_takes_its_name() {
    finds(CLUSTER, unsynced_text, "damaged: ");
}

#[test]
fn a_text_whose_folder_is_not_synced() {
    finds(CLUSTER, unsynced_name, "older: ");
}
