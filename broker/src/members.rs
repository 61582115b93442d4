//! Consumer groups of the classic protocol, and their offsets. Members are in memory alone.

use crate::coordinator::PendingOffset;
use crate::keep::Keep;
use crate::kept::{Change, KeptGroup, Left};
use crate::lock;
use kwire::ErrorCode;
use std::collections::{BTreeMap, HashMap};
use std::sync::atomic::{AtomicU64, Ordering::SeqCst};
use std::sync::{Arc, Condvar, Mutex, MutexGuard, PoisonError};
use std::time::{Duration, Instant};

/// For so long a group's first member waits for others (`group.initial.rebalance.delay.ms`).
const INITIAL: Duration = Duration::from_millis(100);
/// How often a thread that waits looks at the clock.
const PATIENCE: Duration = Duration::from_millis(20);
/// Kafka's `group.max.session.timeout.ms`.
const LONGEST_SESSION: i32 = 1_800_000;
/// The longest that members are waited for.
const LONGEST_REBALANCE: i32 = 3_600_000;
/// The longest text that is kept with an offset (`offset.metadata.max.bytes`).
pub const LONGEST_METADATA: usize = 4_096;
/// The most bytes of all that a member says in its protocols.
const LONGEST_PROTOCOLS: usize = 1 << 16;

/// So many letters of a client's name for itself are kept.
const LONGEST_CLIENT: usize = 200;
/// The longest name of a static member.
const LONGEST_INSTANCE: usize = 249;

/// What a group has committed of a partition.
#[derive(Clone, Debug, Default, PartialEq, Eq)]
pub struct CommittedOffset {
    /// The offset.
    pub offset: i64,
    /// The epoch of the last record that was consumed, or -1.
    pub epoch: i32,
    /// The text that the client keeps with it.
    pub metadata: String,
}

/// Where a group stands.
#[derive(Clone, Copy, Debug, Default, PartialEq, Eq)]
pub enum State {
    /// It has no members.
    #[default]
    Empty,
    /// Members join the next generation.
    Joining,
    /// The leader makes the assignment.
    Syncing,
    /// All have their part.
    Stable,
}

impl State {
    /// Kafka's name for it.
    pub fn name(self) -> &'static str {
        match self {
            State::Empty => "Empty",
            State::Joining => "PreparingRebalance",
            State::Syncing => "CompletingRebalance",
            State::Stable => "Stable",
        }
    }
}

/// Names of protocols, with what the member says in each.
pub type Protocols = Vec<(String, Vec<u8>)>;

/// Who asks: a member's id, and the name that a static member has for itself (KIP-345).
#[derive(Clone, Copy, Debug)]
pub struct Who<'a> {
    /// The id that the group has given it, or empty.
    pub member: &'a str,
    /// Its name, which no other member of the group has (`group.instance.id`).
    pub instance: Option<&'a str>,
}

#[derive(Clone, Debug)]
struct Member {
    instance: Option<String>,
    client: String,
    host: String,
    session: Duration,
    rebalance: Duration,
    protocols: Protocols,
    joined: bool,
    waiting: u32,
    seen: Instant,
    assignment: Vec<u8>,
}

#[derive(Default)]
struct Group {
    state: State,
    generation: i32,
    members: BTreeMap<String, Member>,
    /// Ids that were given, and whose members have to join by them until then (KIP-394).
    given: BTreeMap<String, Instant>,
    leader: String,
    protocol: String,
    kind: String,
    /// Not before this the next generation begins, and at this in any case.
    least: Option<Instant>,
    most: Option<Instant>,
    offsets: BTreeMap<usize, CommittedOffset>,
}

/// What a member asks for that joins.
pub struct Join<'a> {
    /// The group.
    pub group: &'a str,
    /// The member.
    pub who: Who<'a>,
    /// The client's name for itself, and its address.
    pub client: (&'a str, &'a str),
    /// The kind of protocol.
    pub kind: &'a str,
    /// After so many milliseconds without a heartbeat it is taken out.
    pub session: i32,
    /// For so many milliseconds members are waited for.
    pub rebalance: i32,
    /// The protocols that it knows.
    pub protocols: Protocols,
}

/// A generation, as one of its members is told.
#[derive(Debug)]
pub struct Joined {
    /// The generation.
    pub generation: i32,
    /// The protocol that all know.
    pub protocol: String,
    /// The kind of protocol.
    pub kind: String,
    /// The member that makes the assignment.
    pub leader: String,
    /// The member itself.
    pub member: String,
    /// All members, for the leader.
    pub members: Vec<Peer>,
}

/// A member, as the group's leader is told of it.
#[derive(Debug)]
pub struct Peer {
    /// Its id.
    pub member: String,
    /// A static member's name.
    pub instance: Option<String>,
    /// What it says in the protocol.
    pub metadata: Vec<u8>,
}

/// What a member is told once all have their part: its part, the kind of protocol, and the protocol.
pub type Synced = (Vec<u8>, String, String);

/// A group as an admin sees it.
#[derive(Debug, Default)]
pub struct Described {
    /// Where it stands.
    pub state: State,
    /// The kind of protocol.
    pub kind: String,
    /// The protocol.
    pub protocol: String,
    /// Its members.
    pub members: Vec<DescribedMember>,
}

/// A member as an admin sees it.
#[derive(Debug)]
pub struct DescribedMember {
    /// Its id.
    pub member: String,
    /// A static member's name.
    pub instance: Option<String>,
    /// The client's name for itself.
    pub client: String,
    /// Its address.
    pub host: String,
    /// What it says in the protocol.
    pub metadata: Vec<u8>,
    /// Its part.
    pub assignment: Vec<u8>,
}

fn millis(number: i32) -> Duration {
    Duration::from_millis(u64::from(number.max(1).unsigned_abs()))
}

impl Member {
    /// Of who joins.
    fn of(join: &Join<'_>) -> Member {
        Member {
            instance: join.who.instance.map(str::to_string),
            client: join.client.0.chars().take(LONGEST_CLIENT).collect(),
            host: join.client.1.to_string(),
            session: millis(join.session),
            rebalance: millis(join.rebalance.min(LONGEST_REBALANCE)),
            protocols: join.protocols.clone(),
            joined: true,
            waiting: 0,
            seen: Instant::now(),
            assignment: Vec::new(),
        }
    }

    fn says(&self, protocol: &str) -> Vec<u8> {
        self.protocols.iter().find(|it| it.0 == protocol).map(|it| it.1.clone()).unwrap_or_default()
    }
}

impl Group {
    /// Members have to join anew.
    fn rebalance(&mut self) {
        if self.state == State::Joining {
            return;
        }
        let now = Instant::now();
        let longest = self.members.values().map(|it| it.rebalance).max().unwrap_or(INITIAL);
        self.least = Some(if self.state == State::Empty { now + INITIAL } else { now });
        self.most = Some(now + longest.max(INITIAL));
        self.state = State::Joining;
        self.members.values_mut().for_each(|it| it.joined = false);
    }

    /// Begins the next generation where all have joined, or it is time.
    fn settle(&mut self) -> bool {
        let now = Instant::now();
        let (Some(least), Some(most)) = (self.least, self.most) else { return false };
        let all = self.members.values().all(|it| it.joined);
        if self.state != State::Joining || !(all && now >= least || now >= most) {
            return false;
        }
        self.members.retain(|_, it| it.joined);
        self.generation = self.generation.checked_add(1).unwrap_or(1);
        if self.members.is_empty() {
            (self.state, self.protocol) = (State::Empty, String::new());
            return true;
        }
        if !self.members.contains_key(&self.leader) {
            self.leader = self.members.keys().next().cloned().unwrap_or_default();
        }
        self.protocol = self.common().unwrap_or_default();
        self.state = State::Syncing;
        for member in self.members.values_mut() {
            member.assignment.clear();
            member.seen = now;
        }
        true
    }

    /// The first protocol of the leader's that all members know.
    fn common(&self) -> Option<String> {
        let known = |name: &str| self.members.values().all(|it| it.protocols.iter().any(|it| it.0 == name));
        self.members.get(&self.leader)?.protocols.iter().map(|it| it.0.clone()).find(|it| known(it))
    }

    /// Whether a member with these protocols can be one of the group, in the place of this one.
    fn goes_with(&self, join: &Join<'_>, place: &str) -> bool {
        let others = || self.members.iter().filter(|it| it.0 != place).map(|it| it.1);
        let shared = |name: &str| others().all(|it| it.protocols.iter().any(|it| it.0 == name));
        others().next().is_none() || self.kind == join.kind && join.protocols.iter().any(|it| shared(&it.0))
    }

    /// Whether the member asks for a generation that it is in already, as after an answer that was lost.
    fn is_repeated(&self, join: &Join<'_>) -> bool {
        let same = self.members.get(join.who.member).is_some_and(|it| it.protocols == join.protocols);
        same && match self.state {
            State::Syncing => true,
            State::Stable => self.leader != join.who.member,
            State::Empty | State::Joining => false,
        }
    }

    /// What of it outlives the process, beside its offsets.
    fn kept(&self) -> KeptGroup {
        KeptGroup { generation: self.generation, kind: self.kind.clone() }
    }

    fn joined(&self, member: &str) -> Joined {
        let peer = |(name, it): (&String, &Member)| Peer {
            member: name.clone(),
            instance: it.instance.clone(),
            metadata: it.says(&self.protocol),
        };
        Joined {
            generation: self.generation,
            protocol: self.protocol.clone(),
            kind: self.kind.clone(),
            leader: self.leader.clone(),
            member: member.to_string(),
            members: if self.leader == member { self.members.iter().map(peer).collect() } else { Vec::new() },
        }
    }

    /// The id of the member that has a static member's name.
    fn holder(&self, instance: &str) -> Option<&String> {
        self.members.iter().find(|it| it.1.instance.as_deref() == Some(instance)).map(|it| it.0)
    }

    /// A member is fenced whose name another one has taken over.
    fn check_member(&self, who: Who<'_>) -> Result<(), ErrorCode> {
        match who.instance.map(|it| self.holder(it)) {
            Some(Some(holder)) if holder != who.member => Err(ErrorCode::FencedInstanceId),
            Some(None) => Err(ErrorCode::UnknownMemberId),
            _ if self.members.contains_key(who.member) => Ok(()),
            _ => Err(ErrorCode::UnknownMemberId),
        }
    }

    fn check(&self, generation: i32, who: Who<'_>) -> Result<(), ErrorCode> {
        self.check_member(who)?;
        if self.generation != generation { Err(ErrorCode::IllegalGeneration) } else { Ok(()) }
    }

    /// A static member that has come back takes the place, and the part, of the one that had its name. Where the group is stable, and its
    /// protocol stays, nobody has to join anew.
    fn replace(&mut self, old: &str, member: String, mut new: Member) -> Begun {
        let leader = self.leader.clone();
        new.assignment = self.members.remove(old).map(|it| it.assignment).unwrap_or_default();
        self.members.insert(member.clone(), new);
        if self.leader == old {
            self.leader.clone_from(&member);
        }
        if self.state == State::Stable && self.common().as_ref() == Some(&self.protocol) {
            // A leader is told its old id, so that it makes no assignment, which nobody would get.
            return Begun::Is(Joined { leader, members: Vec::new(), ..self.joined(&member) });
        }
        self.rebalance();
        self.wait_for(member)
    }

    /// A member has joined the next generation, and waits for it.
    fn wait_for(&mut self, member: String) -> Begun {
        if let Some(own) = self.members.get_mut(&member) {
            (own.joined, own.waiting) = (true, own.waiting + 1);
        }
        self.most = self.most.map(|it| it.max(Instant::now() + INITIAL));
        Begun::Waits { member, before: self.generation }
    }
}

/// All groups.
pub struct Groups {
    most: usize,
    most_members: usize,
    all: Mutex<HashMap<String, Group>>,
    changed: Condvar,
    next: AtomicU64,
    keep: Arc<Keep>,
}

type All<'a> = MutexGuard<'a, HashMap<String, Group>>;

impl Groups {
    /// At most so many groups, with at most so many members each.
    pub fn new(most: usize, most_members: usize) -> Groups {
        let (all, changed, next, keep) = (Mutex::default(), Condvar::new(), AtomicU64::new(1), Arc::default());
        Groups { most, most_members, all, changed, next, keep }
    }

    /// With those that were left, and what keeps them. Their members have to join anew, by ids that no process before this one has given.
    pub fn kept(self, keep: &Arc<Keep>, left: &Left) -> Groups {
        let group = |it: &KeptGroup| Group { generation: it.generation, kind: it.kind.clone(), ..Group::default() };
        let mut all: HashMap<String, Group> = left.groups.iter().map(|(name, it)| (name.clone(), group(it))).collect();
        for it in &left.offsets {
            all.entry(it.group.clone()).or_default().offsets.insert(it.place, it.offset.clone());
        }
        Groups { all: Mutex::new(all), next: AtomicU64::new((left.life << 32) + 1), keep: keep.clone(), ..self }
    }

    fn wait<'a>(&self, all: All<'a>) -> All<'a> {
        self.changed.wait_timeout(all, PATIENCE).unwrap_or_else(PoisonError::into_inner).0
    }

    /// The group of this name, which is made where there is room.
    fn entry<'a>(&self, all: &'a mut All<'_>, name: &str) -> Result<&'a mut Group, ErrorCode> {
        if !all.contains_key(name) {
            if all.len() >= self.most {
                return Err(ErrorCode::InvalidGroupId);
            }
            all.insert(name.to_string(), Group::default());
        }
        all.get_mut(name).ok_or(ErrorCode::InvalidGroupId)
    }

    /// The id by which a member has to join that has none: so one whose answer is lost comes back as the same one, and nobody waits for another one.
    pub fn give_id(&self, join: &Join<'_>) -> Result<String, ErrorCode> {
        check_join(join)?;
        let mut all = lock(&self.all);
        let group = self.entry(&mut all, join.group)?;
        if !group.goes_with(join, "") {
            return Err(ErrorCode::InconsistentGroupProtocol);
        }
        if group.members.len() + group.given.len() >= self.most_members {
            return Err(ErrorCode::GroupMaxSizeReached);
        }
        let id = self.fresh(&Member::of(join).client);
        group.given.insert(id.clone(), Instant::now() + millis(join.session));
        Ok(id)
    }

    /// A member's id, which no other one has.
    fn fresh(&self, name: &str) -> String {
        format!("{name}-{}", self.next.fetch_add(1, SeqCst))
    }

    /// Joins the next generation, and waits for it. `None` where the node goes down meanwhile.
    pub fn join(&self, join: Join<'_>, is_off: impl Fn() -> bool) -> Option<Result<Joined, ErrorCode>> {
        let mut all = lock(&self.all);
        let (name, instance) = (join.group, join.who.instance);
        let begun = self.begin_join(&mut all, &join);
        let (member, before) = match begun {
            Ok(Begun::Waits { member, before }) => (member, before),
            Ok(Begun::Is(joined)) => return Some(Ok(joined)),
            Err(code) => return Some(Err(code)),
        };
        self.changed.notify_all();
        loop {
            let Some(group) = all.get_mut(name) else { return Some(Err(ErrorCode::UnknownMemberId)) };
            if group.settle() {
                self.keep.put_group(name, Some(&group.kept()));
                self.changed.notify_all();
            }
            let has_begun = group.generation != before;
            if let Err(code) = group.check_member(Who { member: &member, instance }) {
                return Some(Err(code));
            }
            let Some(own) = group.members.get_mut(&member) else { return Some(Err(ErrorCode::UnknownMemberId)) };
            if has_begun || is_off() {
                own.waiting = own.waiting.saturating_sub(1);
                own.seen = Instant::now();
                if has_begun {
                    return Some(Ok(group.joined(&member)));
                }
                if join.who.member.is_empty() && instance.is_none() {
                    group.members.remove(&member); // nobody was told its id, so it never comes back
                }
                return None;
            }
            all = self.wait(all);
        }
    }

    fn begin_join(&self, all: &mut All<'_>, join: &Join<'_>) -> Result<Begun, ErrorCode> {
        check_join(join)?;
        let group = self.entry(all, join.group)?;
        let Who { member, instance } = join.who;
        // A static member that has lost its id has that of whoever has its name.
        let place = if member.is_empty() { instance.and_then(|it| group.holder(it)).cloned() } else { Some(member.to_string()) };
        let is_given = group.given.contains_key(member);
        if !member.is_empty() && !is_given {
            group.check_member(join.who)?;
        }
        if !group.goes_with(join, place.as_deref().unwrap_or_default()) {
            return Err(ErrorCode::InconsistentGroupProtocol);
        }
        if place.is_none() && group.members.len() >= self.most_members {
            return Err(ErrorCode::GroupMaxSizeReached);
        }
        if group.is_repeated(join) {
            return Ok(Begun::Is(group.joined(member)));
        }
        group.kind = join.kind.to_string();
        let mut new = Member::of(join);
        group.given.remove(member);
        let member = if member.is_empty() { self.fresh(instance.unwrap_or(&new.client)) } else { member.to_string() };
        if let Some(old) = place.filter(|it| *it != member) {
            return Ok(group.replace(&old, member, new));
        }
        group.rebalance();
        if let Some(old) = group.members.remove(&member) {
            (new.waiting, new.assignment) = (old.waiting, old.assignment);
        }
        group.members.insert(member.clone(), new);
        Ok(group.wait_for(member))
    }

    /// Hands the assignment in, or waits for it. `None` where the node goes down meanwhile.
    pub fn sync(
        &self,
        name: &str,
        generation: i32,
        who: Who<'_>,
        given: &[(String, Vec<u8>)],
        is_off: impl Fn() -> bool,
    ) -> Option<Result<Synced, ErrorCode>> {
        let mut all = lock(&self.all);
        loop {
            let Some(group) = all.get_mut(name) else { return Some(Err(ErrorCode::UnknownMemberId)) };
            if let Err(code) = group.check(generation, who) {
                return Some(Err(code));
            }
            if group.state == State::Joining {
                return Some(Err(ErrorCode::RebalanceInProgress));
            }
            if group.state == State::Syncing && group.leader == who.member {
                for (to, assignment) in given {
                    if let Some(it) = group.members.get_mut(to) {
                        it.assignment = assignment.clone();
                    }
                }
                group.state = State::Stable;
                self.changed.notify_all();
            }
            let is_stable = group.state == State::Stable;
            let told = (group.kind.clone(), group.protocol.clone());
            if let Some(own) = group.members.get_mut(who.member) {
                own.seen = Instant::now();
                if is_stable {
                    return Some(Ok((own.assignment.clone(), told.0, told.1)));
                }
            }
            if is_off() {
                return None;
            }
            all = self.wait(all);
        }
    }

    /// A member is alive; it is told where it has to join anew.
    pub fn heartbeat(&self, name: &str, generation: i32, who: Who<'_>) -> Result<(), ErrorCode> {
        let mut all = lock(&self.all);
        let group = all.get_mut(name).ok_or(ErrorCode::UnknownMemberId)?;
        group.check(generation, who)?;
        if let Some(own) = group.members.get_mut(who.member) {
            own.seen = Instant::now();
        }
        if group.state == State::Joining { Err(ErrorCode::RebalanceInProgress) } else { Ok(()) }
    }

    /// Takes a member out: also a static one by its name alone, as an admin does.
    pub fn leave(&self, name: &str, who: Who<'_>) -> Result<(), ErrorCode> {
        let mut all = lock(&self.all);
        let group = all.get_mut(name).ok_or(ErrorCode::UnknownMemberId)?;
        let member = match who {
            Who { member: "", instance: Some(instance) } => group.holder(instance).cloned().unwrap_or_default(),
            Who { member, .. } => group.check_member(who).map(|()| member.to_string())?,
        };
        group.members.remove(&member).ok_or(ErrorCode::UnknownMemberId)?;
        group.rebalance();
        group.settle();
        self.keep.put_group(name, Some(&group.kept()));
        self.changed.notify_all();
        Ok(())
    }

    /// Whether offsets may be committed: by a member of this generation, or, with generation -1, while there are no members.
    pub fn check_commit(&self, name: &str, generation: i32, who: Who<'_>) -> Result<(), ErrorCode> {
        let all = lock(&self.all);
        let group = all.get(name);
        let is_alone = generation < 0 && who.member.is_empty() && who.instance.is_none();
        match group {
            None if generation < 0 => Ok(()),
            None => Err(ErrorCode::IllegalGeneration),
            Some(group) if is_alone && (group.members.is_empty() || group.state == State::Empty) => Ok(()),
            Some(group) => {
                group.check(generation, who)?;
                if group.state == State::Syncing { Err(ErrorCode::RebalanceInProgress) } else { Ok(()) }
            }
        }
    }

    /// Keeps offsets.
    pub fn commit(&self, name: &str, offsets: Vec<(usize, CommittedOffset)>) -> Result<(), ErrorCode> {
        let mut all = lock(&self.all);
        let group = self.entry(&mut all, name)?;
        self.keep.put(offsets.iter().filter_map(|(place, it)| self.keep.offset(name, *place, it)).collect());
        group.offsets.extend(offsets);
        Ok(())
    }

    /// Keeps offsets that came with a transaction which has committed, and what is kept of that, together: the ticket of all.
    pub fn put(&self, offsets: Vec<PendingOffset>, change: Option<Change>) -> u64 {
        let mut all = lock(&self.all);
        let mut changes: Vec<Change> = change.into_iter().collect();
        for it in offsets {
            // The group was there when the offsets came; a group that has gone since has no room to claim.
            if let Ok(group) = self.entry(&mut all, &it.group) {
                changes.extend(self.keep.offset(&it.group, it.place, &it.offset));
                group.offsets.insert(it.place, it.offset);
            }
        }
        self.keep.put(changes)
    }

    /// What the group has committed, by partition.
    pub fn committed(&self, name: &str) -> BTreeMap<usize, CommittedOffset> {
        lock(&self.all).get(name).map(|it| it.offsets.clone()).unwrap_or_default()
    }

    /// A group as it is.
    pub fn describe(&self, name: &str) -> Option<Described> {
        let all = lock(&self.all);
        let group = all.get(name)?;
        let member = |(name, it): (&String, &Member)| DescribedMember {
            member: name.clone(),
            instance: it.instance.clone(),
            client: it.client.clone(),
            host: it.host.clone(),
            metadata: it.says(&group.protocol),
            assignment: it.assignment.clone(),
        };
        Some(Described {
            state: group.state,
            kind: group.kind.clone(),
            protocol: group.protocol.clone(),
            members: group.members.iter().map(member).collect(),
        })
    }

    /// All groups: name, kind of protocol, state, generation, count of members.
    pub fn list(&self) -> Vec<(String, String, State, i32, usize)> {
        let all = lock(&self.all);
        let mut list: Vec<_> =
            all.iter().map(|(name, it)| (name.clone(), it.kind.clone(), it.state, it.generation, it.members.len())).collect();
        list.sort_by(|one, other| one.0.cmp(&other.0));
        list
    }

    /// Takes out members that weren't heard of for too long, and groups that hold nothing.
    pub fn expire(&self) {
        let mut all = lock(&self.all);
        for (name, group) in all.iter_mut() {
            let (before, now) = (group.members.len(), Instant::now());
            group.given.retain(|_, until| *until > now);
            group.members.retain(|_, it| it.waiting > 0 && group.state == State::Joining || it.seen.elapsed() < it.session);
            if group.members.len() < before {
                group.rebalance();
            }
            if group.settle() {
                self.keep.put_group(name, Some(&group.kept()));
            }
        }
        all.retain(|name, it| {
            let stays = it.state != State::Empty || !it.offsets.is_empty() || !it.members.is_empty() || !it.given.is_empty();
            if !stays {
                self.keep.put_group(name, None);
            }
            stays
        });
        self.changed.notify_all();
    }
}

/// How a join began.
enum Begun {
    Waits { member: String, before: i32 },
    Is(Joined),
}

fn check_join(join: &Join<'_>) -> Result<(), ErrorCode> {
    if join.group.is_empty() {
        return Err(ErrorCode::InvalidGroupId);
    }
    if !(1..=LONGEST_SESSION).contains(&join.session) {
        return Err(ErrorCode::InvalidSessionTimeout);
    }
    if join.who.instance.is_some_and(|it| !(1..=LONGEST_INSTANCE).contains(&it.len())) {
        return Err(ErrorCode::InvalidRequest);
    }
    let bytes: usize = join.protocols.iter().map(|it| it.0.len() + it.1.len()).sum();
    if join.protocols.is_empty() || join.kind.is_empty() || bytes > LONGEST_PROTOCOLS {
        return Err(ErrorCode::InconsistentGroupProtocol);
    }
    Ok(())
}

#[cfg(test)]
mod tests {
    use super::*;
    use std::thread;

    fn dynamic(member: &str) -> Who<'_> {
        Who { member, instance: None }
    }

    fn join<'a>(member: &'a str, kind: &'a str, protocol: &str) -> Join<'a> {
        let protocols = vec![(protocol.to_string(), b"topics".to_vec())];
        Join { group: "g", who: dynamic(member), client: ("c", "h"), kind, session: 200, rebalance: 1_000, protocols }
    }

    fn joined(groups: &Groups, join: Join<'_>) -> Result<Joined, ErrorCode> {
        groups.join(join, || false).unwrap_or(Err(ErrorCode::UnknownServerError))
    }

    #[test]
    fn two_members_share_a_generation() -> Result<(), ErrorCode> {
        let groups = Groups::new(2, 2);
        let (one, other) = thread::scope(|scope| {
            let one = scope.spawn(|| joined(&groups, join("", "consumer", "range")));
            let other = scope.spawn(|| joined(&groups, join("", "consumer", "range")));
            (one.join().expect("it ends"), other.join().expect("it ends"))
        });
        let (one, other) = (one?, other?);
        assert_eq!((one.generation, &one.leader), (other.generation, &other.leader));
        assert_eq!(one.members.len() + other.members.len(), 2);
        assert_eq!(joined(&groups, join("", "consumer", "range")).err(), Some(ErrorCode::GroupMaxSizeReached));
        let (leader, follower) = if one.members.is_empty() { (other, one) } else { (one, other) };
        let given = [(leader.member.clone(), b"a".to_vec()), (follower.member.clone(), b"b".to_vec())];
        let synced = |it: &Joined, given: &[_]| groups.sync("g", it.generation, dynamic(&it.member), given, || false);
        assert_eq!(synced(&leader, &given).and_then(Result::ok).map(|it| it.0), Some(b"a".to_vec()));
        assert_eq!(synced(&follower, &[]).and_then(Result::ok).map(|it| it.0), Some(b"b".to_vec()));
        groups.leave("g", dynamic(&leader.member))?;
        assert_eq!(groups.heartbeat("g", follower.generation, dynamic(&follower.member)), Err(ErrorCode::RebalanceInProgress));
        let again = joined(&groups, join(&follower.member, "consumer", "range"))?;
        assert_eq!((again.generation, again.members.len()), (follower.generation + 1, 1));
        thread::sleep(Duration::from_millis(250));
        groups.expire();
        assert_eq!(groups.heartbeat("g", again.generation, dynamic(&again.member)), Err(ErrorCode::UnknownMemberId));
        Ok(())
    }

    #[test]
    fn what_does_not_go_is_refused() -> Result<(), ErrorCode> {
        let groups = Groups::new(1, 5);
        let first = joined(&groups, join("", "consumer", "range"))?;
        assert_eq!(joined(&groups, join("", "connect", "range")).err(), Some(ErrorCode::InconsistentGroupProtocol));
        assert_eq!(joined(&groups, join("", "consumer", "sticky")).err(), Some(ErrorCode::InconsistentGroupProtocol));
        assert_eq!(joined(&groups, join("nobody", "consumer", "range")).err(), Some(ErrorCode::UnknownMemberId));
        assert_eq!(joined(&groups, Join { group: "h", ..join("", "consumer", "range") }).err(), Some(ErrorCode::InvalidGroupId));
        assert_eq!(joined(&groups, Join { session: 0, ..join("", "consumer", "range") }).err(), Some(ErrorCode::InvalidSessionTimeout));
        assert_eq!(groups.check_commit("g", first.generation, dynamic("nobody")), Err(ErrorCode::UnknownMemberId));
        assert_eq!(groups.check_commit("g", -1, dynamic("")), Err(ErrorCode::UnknownMemberId));
        assert_eq!(groups.check_commit("g", first.generation, dynamic(&first.member)), Err(ErrorCode::RebalanceInProgress));
        assert!(Groups::new(1, 1).join(join("", "consumer", "range"), || true).is_none());
        Ok(())
    }
}
