#!/usr/bin/env python3
"""Prints a script, for bench/run/run and bench/keeping/keeping. The same words give the same script.

    bench/shared/scripts.py KIND EVENTS
    bench/shared/scripts.py diverge TAIL EVENTS
    bench/shared/scripts.py rounds EACH EVENTS

Of one node, with exactly so many events, KIND is `plain` (appends of one record of ten bytes, a raise every ten, a read of the last
hundred offsets every hundred), `producers` (the same with 1,000 idempotent producers, one retry every fifty appends and no reads)
or `transactions` (ten producers with transactions of four to twelve batches, one in four aborted, plain batches between them, a
raise every ten, a committed read of the last 200 offsets every hundred).

Of several nodes, with plain appends, KIND is
- `replicate`, three nodes: node 0 leads, and a round is an append, an ask of one follower, the delivery of its request, the delivery
  of the answer, and a raise. The followers take turns, so each answer has two batches. Exactly so many events.
- `diverge TAIL`, two nodes, elected in turn: the leader appends TAIL batches that nobody fetches. The other one is elected and
  appends TAIL others; the old one adopts, asks, takes its own tail back, and fetches. It asks once more, so that both high watermarks
  rise. In every other round both are elected twice and append TAIL batches each time before the old one learns of it, so that
  it takes two tails back, by two answers. Exactly so many events.
- `rounds EACH`, three nodes: node 0 appends EACH batches of one record of 100 bytes, then each other node asks, its request comes,
  then the answer; then a raise. Exactly so many events.
- `catchup`, two nodes: node 0 appends nine tenths as many batches as events, of one record of one byte; then node 1 asks until it
  has them all.
"""
import itertools
import random
import sys
from bisect import bisect_right

LETTERS = "abcdefghijklmnopqrstuvwxyz0123456789"
NODES = {"plain": 1, "producers": 1, "transactions": 1, "replicate": 3, "diverge": 2, "catchup": 2, "rounds": 3}
# Which kinds have a number of their own.
NUMBERED = ("diverge", "rounds")
# What a batch has besides its one short value, and what an answer has room for.
FRAME, ANSWER = 68, 1_048_576


class Script:
    """Yields the lines of a script of one kind, most without an end."""

    def __init__(self, kind, size=10):
        self.random = random.Random(kind)
        self.time, self.end = 1000, 0
        self.values = ["".join(self.random.choices(LETTERS, k=size)) for _ in range(997)]

    def append(self, sender="-1 -1 -1 d", node=0):
        self.time += self.random.randrange(3)
        self.end += 1
        return f"append {node} {self.time} {sender} {self.random.choice(self.values)}"

    def plain(self):
        yield from ("elect 0", "adopt 0")
        for i in itertools.count(1):
            yield self.append()
            if i % 10 == 0:
                yield "raise 0"
            if i % 100 == 0:
                yield f"read 0 {self.end - 100}"

    def producers(self):
        yield from ("elect 0", "adopt 0")
        sequences = [0] * 1000
        for i in itertools.count(1):
            pid = self.random.randrange(1000)
            yield self.append(f"{pid} 0 {sequences[pid]} d")
            sequences[pid] += 1
            if i % 50 == 0:
                yield f"append 0 {self.time} {pid} 0 {sequences[pid] - 1} d retried"
            if i % 10 == 0:
                yield "raise 0"

    def transactions(self):
        yield from ("elect 0", "adopt 0")
        sequences, left = [0] * 10, [0] * 10
        for i in itertools.count(1):
            pid = self.random.randrange(11)
            if pid == 10:
                yield self.append()
            elif left[pid] == 1:
                self.end += 1
                yield f"mark 0 {self.time} {pid} 0 1 {'abort' if self.random.randrange(4) == 0 else 'commit'}"
                left[pid] = 0
            else:
                left[pid] = left[pid] - 1 if left[pid] else self.random.randrange(5, 14)
                yield self.append(f"{pid} 0 {sequences[pid]} t")
                sequences[pid] += 1
            if i % 10 == 0:
                yield "raise 0"
            if i % 100 == 0:
                yield f"committed 0 {max(0, self.end - 200)}"


class Log:
    """Where a node's log ends, and each leader epoch in it with its first offset."""

    def __init__(self):
        self.end, self.epochs, self.starts = 0, [], []

    def append(self, epoch, count):
        if not self.epochs or self.epochs[-1] < epoch:
            self.epochs.append(epoch)
            self.starts.append(self.end)
        self.end += count

    def end_for(self, epoch):
        """The greatest epoch at most this one, and where the next one begins."""
        place = bisect_right(self.epochs, epoch)
        end = self.starts[place] if place < len(self.starts) else self.end
        return (self.epochs[place - 1], end) if place else None

    def truncate(self, end):
        self.end = end
        while self.starts and self.starts[-1] >= end:
            self.epochs.pop()
            self.starts.pop()

    def fetch(self, leader, most):
        """Takes so many offsets of the leader's log, if there are as many; this one is a beginning of that."""
        until = min(leader.end, self.end + most)
        for place in range(max(0, bisect_right(leader.starts, self.end) - 1), len(leader.starts)):
            end = leader.starts[place + 1] if place + 1 < len(leader.starts) else leader.end
            if self.end < min(end, until):
                self.append(leader.epochs[place], min(end, until) - self.end)


class Cluster(Script):
    """The scripts of several nodes. It knows each log's end and epochs, and how many messages were sent."""

    def __init__(self, kind, size=10):
        super().__init__(kind, size)
        self.most = ANSWER // (FRAME + size)
        self.logs = [Log() for _ in range(NODES[kind])]
        self.epoch, self.sent = -1, 0

    def elect(self, node):
        self.epoch += 1
        yield from (f"elect {node}", f"adopt {node}")

    def appends(self, node, count):
        for _ in range(count):
            self.logs[node].append(self.epoch, 1)
            yield self.append(node=node)

    def ask(self, node):
        """A follower asks, and its request comes, then the answer."""
        yield from (f"ask {node}", f"deliver {self.sent}", f"deliver {self.sent + 1}")
        self.sent += 2

    def fetch(self, node, leader):
        yield from self.ask(node)
        self.logs[node].fetch(self.logs[leader], self.most)

    def reconcile(self, node, leader):
        """The node takes back what its leader lacks, until the leader has all of its log. Each has batches of the epoch in which
        they last agreed."""
        own = self.logs[node]
        while True:
            epoch, end = self.logs[leader].end_for(own.epochs[-1])
            if epoch == own.epochs[-1] and own.end <= end:
                return
            yield from self.ask(node)
            own_epoch, own_end = own.end_for(epoch)
            own.truncate(min(end, own_end) if own_epoch == epoch else own_end)

    def catch_up(self, node, leader):
        while self.logs[node].end < self.logs[leader].end:
            yield from self.fetch(node, leader)

    def replicate(self):
        yield from self.elect(0)
        yield from ("adopt 1", "adopt 2")
        for follower in itertools.cycle((1, 2)):
            yield from self.appends(0, 1)
            yield from self.fetch(follower, 0)
            yield "raise 0"

    def rounds(self, each):
        yield from self.elect(0)
        yield from ("adopt 1", "adopt 2")
        while True:
            yield from self.appends(0, each)
            yield from self.fetch(1, 0)
            yield from self.fetch(2, 0)
            yield "raise 0"

    def diverge(self, tail):
        yield from self.elect(0)
        yield from self.appends(0, tail)
        yield "adopt 1"
        yield from self.catch_up(1, 0)
        leader = 0
        for reigns in itertools.cycle((1, 3)):
            yield from self.appends(leader, tail)
            for _ in range(reigns):
                leader = 1 - leader
                yield from self.elect(leader)
                yield from self.appends(leader, tail)
            yield from self.follow(1 - leader, leader)

    def follow(self, node, leader):
        """Deposed, it reconciles and fetches what it lacks; its next fetch tells the leader so, and another one brings the mark."""
        yield f"adopt {node}"
        yield from self.reconcile(node, leader)
        yield from self.catch_up(node, leader)
        yield from self.fetch(node, leader)
        yield f"raise {leader}"
        yield from self.fetch(node, leader)

    def catchup(self, batches):
        yield from self.elect(0)
        yield "adopt 1"
        yield from self.appends(0, batches)
        yield from self.catch_up(1, 0)


def lines(kind, tail, events):
    if kind == "catchup":
        return Cluster(kind, 1).catchup(events * 9 // 10)
    if kind == "diverge":
        return itertools.islice(Cluster(kind).diverge(tail), events)
    if kind == "rounds":
        return itertools.islice(Cluster(kind, 100).rounds(tail), events)
    return itertools.islice(getattr((Cluster if NODES[kind] > 1 else Script)(kind), kind)(), events)


def main(words):
    kind, *numbers = words
    if kind not in NODES or len(numbers) != (2 if kind in NUMBERED else 1):
        sys.exit(__doc__)
    tail, events = map(int, [0, *numbers][-2:])
    print(f"nodes {NODES[kind]} segment 1048576 interval 4096")
    sys.stdout.writelines(f"{line}\n" for line in lines(kind, tail, events))


if __name__ == "__main__":
    main(sys.argv[1:] or [""])
