"""Makes logs of record batches by chance, whose dumps are known by the definitions.

The batches are those of tools/lib/encoder.py. Their lines are written from what the batches were made of: nothing is decoded.
tools/rows takes the logs and their dumps into the rows of kp_rows.
"""
import struct

from .batch import GREATEST_EPOCH, PLAIN, TOP, Batch, end_of, total
from .definitions import dump, entered_places, segments, since_entered, table_lines, transaction_lines
from .encoder import batch, end, record

# The seed is one whose log meets the limits below to the byte (`meets_limits`).
COUNT, SEED, FIRST_EPOCH = 210, 145, 3

# Limits of the dumps: bytes of a segment, and the interval between two entries of an index.
PAIRS = [(1024, 400), (1500, 0), (4096, 1), (6144, 100), (16384, 1048576), (65536, 4096)]

# Beginnings of the log, of so many batches, that have a dump of their own, by the last limits.
FRONTS = [15, 45, 90]


class Numbers:
    """Numbers from a seed: a linear congruence modulo 2^64, of which the upper half is used."""

    def __init__(self, seed):
        self.state = seed

    def below(self, bound):
        self.state = (self.state * 6364136223846793005 + 1442695040888963407) % 2 ** 64
        return (self.state >> 32) % bound

    def once_in(self, count):
        return self.below(count) == 0

    def one_of(self, things):
        return things[self.below(len(things))]


class Producer:
    """What a producer's next batch or marker has to say."""

    def __init__(self, pid):
        self.pid, self.epoch, self.sequence = pid, 0, 0
        self.is_open, self.coordinator = False, 0


NAMES = [b"", b"h", b"trace", "é€😀".encode()]


class Maker:
    """Makes a log, batch by batch. No producer breaks a rule of admission."""

    def __init__(self, seed):
        self.numbers = Numbers(seed)
        self.log, self.epoch, self.clock = [], FIRST_EPOCH, 1000
        self.idempotent = [Producer(pid) for pid in (0, 7, 2 ** 63 - 1)]
        self.transactional = [Producer(pid) for pid in (5, 12, 40)]

    def text(self, greatest):
        """Null now and then, else up to so many bytes, and fewer of them more often."""
        n = self.numbers
        if n.once_in(9):
            return None
        count = min(n.below(greatest + 1), n.below(greatest + 1))
        return bytes(n.below(256) for _ in range(count))

    def headers(self):
        n = self.numbers
        count = n.below(3) if n.once_in(6) else 0
        return [(n.one_of(NAMES), self.text(6)) for _ in range(count)]

    def add(self, records, time, attributes=0, kind="data", producer=PLAIN):
        """Puts a batch at the log's end, whose records have this greatest timestamp."""
        base = end_of(self.log)
        data = batch(*records, base=base, epoch=self.epoch, attributes=attributes,
                     time=self.clock, most=time, producer=producer)
        last = base + len(records) - 1
        self.log.append(Batch(data, base, last, self.epoch, time, producer, kind))

    def plain(self, attributes=0, kind="data", producer=None):
        """One to four records. Their times go in tens, so that some are the same."""
        n = self.numbers
        deltas = [10 * (n.below(12) - 5) for _ in range(1 + min(n.below(4), n.below(4)))]
        records = [record(self.text(60), self.text(9) if n.once_in(3) else None, delta, place,
                          self.headers()) for place, delta in enumerate(deltas)]
        fields = PLAIN
        if producer:
            fields = (producer.pid, producer.epoch, producer.sequence)
            producer.sequence += len(records)
        self.add(records, self.clock + max(deltas), attributes, kind, fields)

    def idempotent_data(self):
        """Of a producer whose epoch rises now and then; its sequence begins anew with it."""
        producer = self.numbers.one_of(self.idempotent)
        if self.numbers.once_in(8) and producer.epoch < 32767:
            producer.epoch, producer.sequence = producer.epoch + 4681, 0
        self.plain(producer=producer)

    def transactional_data(self):
        producer = self.numbers.one_of(self.transactional)
        producer.is_open = True
        self.plain(0x10, "txn", producer)

    def transaction_end(self):
        """A marker, where it can be for an open transaction. Its epoch may be a new one."""
        n = self.numbers
        producer = n.one_of([p for p in self.transactional if p.is_open] or self.transactional)
        if n.once_in(4):
            producer.epoch, producer.sequence = producer.epoch + 1, 0
        producer.coordinator += n.below(3)
        producer.is_open = False
        way = n.below(2)
        said = end(bytes([0, 0, 0, way]), struct.pack(">hi", 0, producer.coordinator))
        kind = f"{('abort', 'commit')[way]} {producer.coordinator}"
        self.add([said], self.clock, 0x30, kind, (producer.pid, producer.epoch, -1))

    def step(self):
        """The next batch. The clock goes back and forth, the leader epoch only up."""
        n = self.numbers
        self.clock += 10 * (n.below(9) - 3)
        if len(self.log) > 1 and n.once_in(20):
            self.epoch += 1 + n.below(3)
        n.one_of([self.plain] * 5 + [self.idempotent_data] * 3 + [self.transactional_data] * 4
                 + [self.transaction_end] * 3)()

    def last_steps(self):
        """The greatest timestamp, and then the greatest leader epoch."""
        self.clock = TOP
        self.add([record(b"last but one")], TOP)
        self.clock, self.epoch = 2000, GREATEST_EPOCH
        self.plain()


def made(seed=SEED):
    """The log of this seed."""
    maker = Maker(seed)
    while len(maker.log) < COUNT - 2:
        maker.step()
    maker.last_steps()
    return maker.log


# What is known of docs/FORMATS.md and docs/RULES.md

def sized(*pairs):
    """A log of batches of one record each, of these times and sizes of values."""
    log = []
    for base, (time, size) in enumerate(pairs):
        data = batch(record(b"a" * size), base=base, epoch=0, time=time, most=time)
        log.append(Batch(data, base, base, 0, time))
    return log


def transacted(*rows):
    """A log of batches of one record each, of these producers and kinds."""
    return [Batch(b"", base, base, 0, 0, (pid, 0, 0 if kind in ("data", "txn") else -1), kind)
            for base, (pid, kind) in enumerate(rows)]


NAME = "segment 00000000000000000000.log"
assert dump(1024, 0, []) == ["end 0"]
assert dump(1024, 0, sized((10, 442), (20, 442))) == [
    "batch 0 size 512 base 0 last 0 epoch 0 time 10 producer -1 -1 -1 data",
    "batch 512 size 512 base 1 last 1 epoch 0 time 20 producer -1 -1 -1 data",
    f"{NAME} 1024", "offset 1 512", "time 20 1", "epoch 0 0", "end 2"]
assert table_lines(1024, 0, sized((10, 442), (20, 443))) == [
    f"{NAME} 512", "time 10 0", "segment 00000000000000000001.log 513", "epoch 0 0", "end 2"]
assert table_lines(1024, 100, sized((10, 1), (30, 1), (20, 10))) == [
    f"{NAME} 216", "offset 2 138", "time 30 1", "epoch 0 0", "end 3"]
assert transaction_lines(transacted((5, "txn"), (-1, "data"))) == ["open 5 0"]
assert transaction_lines(transacted((5, "txn"), (-1, "data"), (5, "abort 7"))) == ["aborted 5 0 2 3"]
assert transaction_lines(transacted((5, "txn"), (6, "txn"), (6, "abort 1"))) == [
    "open 5 0", "aborted 6 1 2 0"]
assert transaction_lines(transacted((5, "txn"), (6, "txn"), (6, "abort 1"), (5, "commit 1"))) == [
    "aborted 6 1 2 0"]
assert transaction_lines(transacted((5, "data"), (5, "abort 1"))) == []


def meets_limits(log):
    """Whether a run is exactly full, one byte too many opens one, and intervals are met exactly."""
    fronts, met = set(), set()
    for limit, interval in PAIRS:
        runs = segments(limit, log)
        for run, after in zip(runs, runs[1:]):
            fronts |= {total(run) - limit, total(run) + after[0].size - limit}
        for run in runs:
            places = entered_places(interval, run)
            if any(since_entered(run, places, k) == interval for k in range(1, len(run))):
                met.add(interval)
    return {0, 1} <= fronts and {100, 400} <= met
