//! Who stops leaders, has others elected, and brings the stopped ones back.

use crate::clock::{Clock, Fault};
use kpart::{Change, Cluster, Error, Pass, Refusal, Workers};
use std::sync::atomic::{AtomicU64, Ordering};

pub struct Operator<'a> {
    cluster: Cluster,
    workers: &'a Workers,
    pass: Pass,
    clock: Clock,
}

impl<'a> Operator<'a> {
    pub fn new(cluster: &Cluster, workers: &'a Workers, clock: Clock) -> Result<Operator<'a>, Fault> {
        Ok(Operator { cluster: cluster.clone(), workers, pass: cluster.pass()?, clock })
    }

    /// Stops the leader at a fifth of all payments and again at three fifths, each time until a fifth more is done. What happened, as
    /// lines.
    pub fn run(mut self, payments: u64, acknowledged: &AtomicU64) -> Result<Vec<String>, Fault> {
        let mut lines = Vec::new();
        for fifth in [1, 3] {
            self.wait(payments * fifth / 5, acknowledged)?;
            let (stopped, line) = self.fail_over()?;
            lines.push(line);
            self.wait(payments * (fifth + 1) / 5, acknowledged)?;
            lines.push(self.bring_back(stopped)?);
        }
        Ok(lines)
    }

    /// Has each node that isn't in sync join, as a run before this one may have ended while one was stopped.
    pub fn join_all(&mut self) -> Result<(), Fault> {
        let record = self.pass.leadership()?;
        let (leader, _) = record.leader.ok_or("nobody leads")?;
        let outside = (0..self.cluster.nodes()).filter(|it| !record.has_in_sync(*it));
        outside.into_iter().try_for_each(|it| self.change(leader, Change::Join(it), |in_sync| in_sync))
    }

    fn wait(&self, number: u64, acknowledged: &AtomicU64) -> Result<(), Fault> {
        while acknowledged.load(Ordering::Relaxed) < number {
            self.clock.pause()?;
        }
        Ok(())
    }

    /// Stops the leader, and has the next node in sync elected, which then takes it out of the in-sync replicas.
    fn fail_over(&mut self) -> Result<(u8, String), Fault> {
        let record = self.pass.leadership()?;
        let (old, _) = record.leader.ok_or("nobody leads")?;
        self.cluster.node(old)?.stop()?;
        let others = (1..self.cluster.nodes()).map(|step| (old + step) % self.cluster.nodes());
        let next = others.into_iter().find(|node| record.has_in_sync(*node)).ok_or("nobody else is in sync")?;
        while let Err(error) = self.pass.elect(next) {
            if error != Error::Refused(Refusal::StaleRecord) {
                return Err(error.into());
            }
        }
        self.change(next, Change::Leave(old), |in_sync| !in_sync)?;
        let epoch = self.pass.leadership()?.leader.map_or(0, |leader| leader.1);
        Ok((old, format!("node {old} was stopped, node {next} leads in epoch {epoch}")))
    }

    /// Starts the node again; it fetches what it lacks, and joins the in-sync replicas.
    fn bring_back(&mut self, stopped: u8) -> Result<String, Fault> {
        self.cluster.node(stopped)?.restart()?;
        let (leader, _) = self.pass.leadership()?.leader.ok_or("nobody leads")?;
        self.change(leader, Change::Join(stopped), |in_sync| in_sync)?;
        Ok(format!("node {stopped} is back, and in sync"))
    }

    /// Has the leader propose the change until the record shows it.
    fn change(&mut self, leader: u8, change: Change, is_done: impl Fn(bool) -> bool) -> Result<(), Fault> {
        let (Change::Join(node) | Change::Leave(node)) = change;
        while !is_done(self.pass.leadership()?.has_in_sync(node)) {
            self.workers.propose(leader, change);
            self.clock.pause()?;
        }
        Ok(())
    }
}
