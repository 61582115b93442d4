"""Makes scripts and logs of kinds of pieces, for `search`. A piece is a line or a few, or a batch.

`SCRIPT` and `LOG` have the kinds by name. A maker knows as much of the run as it takes to make most of its lines count: who leads,
how many messages there are, and each producer's next sequence. What a line is answered it doesn't know.
"""
import itertools
import random
import struct

from lib.encoder import batch, end, record

NEVER = 2 ** 31 - 1  # a message that is never sent
LONG = 2 ** 62 + 1  # the producer of the one long transaction
JUNK = ["#", "elect", "append 0 1 -1 -1 -1 d a,,b", "raw 0 0A", "deliver 01", "read 0 " + "9" * 40, "nodes 1 segment 1024 interval 0"]


def ids(scheme, colliding, seed):
    """Producers without an end."""
    chance = random.Random(seed)
    return {
        "one": lambda: itertools.repeat(9),
        "few": lambda: itertools.cycle(range(10)),
        "hundreds": lambda: itertools.cycle(range(1000)),
        "rising": lambda: itertools.count(),
        "falling": lambda: itertools.count(2 ** 62, -1),
        "strided": lambda: itertools.count(0, 2 ** 20),
        "colliding": lambda: itertools.cycle(colliding),
        "random": lambda: iter(lambda: chance.randrange(2 ** 63), None),
    }[scheme]()


IDS = ("one", "few", "hundreds", "rising", "falling", "strided", "colliding", "random")


def fitting_values(recipe):
    """As many values as the recipe says, or as leave room for eight such batches, spelled in hexadecimal too."""
    return max(1, min(recipe.values, recipe.kib * 64 // (recipe.length + 10)))


class Senders:
    """Producers in turn, each with its epoch and its next sequence."""

    def __init__(self, recipe, colliding):
        self.ids, self.enders = ids(recipe.ids, colliding, recipe.seed), ids(recipe.ids, colliding, recipe.seed)
        self.next = {}

    def send(self, count, epoch_more=0):
        """The next producer's id, epoch and sequence, for so many records."""
        producer = next(self.ids)
        epoch, sequence = self.next.get(producer, (0, 0))
        if epoch_more and producer in self.next:
            epoch, sequence = (epoch + epoch_more) % 32768, 0
        self.next[producer] = (epoch, sequence + count)
        return producer, epoch, sequence

    def ended(self):
        """The producer whose transaction is to end, and its epoch."""
        producer = next(self.enders)
        return producer, self.next.get(producer, (0, 0))[0]


class Script:
    """Makes the lines of a script by a recipe. A piece is a list of lines."""

    def __init__(self, recipe, colliding):
        self.recipe, self.senders, self.random = recipe, Senders(recipe, colliding), random.Random(recipe.seed)
        self.nodes, self.values = recipe.nodes, fitting_values(recipe)
        self.value = ",".join(["a" * recipe.length] * self.values)
        self.said = "append 0 1 -1 -1 -1 d a"  # the last append
        self.end, self.place, self.turns = 0, 0, itertools.count(1)
        self.leader, self.epoch, self.led, self.followed = None, -1, {}, {}
        self.requests, self.sent, self.is_across = {}, 0, False

    # What the controller and the nodes do, as far as messages count

    def elect(self, node):
        self.leader, self.epoch = node, self.epoch + 1
        return f"elect {node}"

    def adopt(self, node):
        """Leading or following in the record's leader epoch."""
        (self.led if node == self.leader else self.followed)[node] = (self.leader, self.epoch)
        (self.followed if node == self.leader else self.led).pop(node, None)
        return f"adopt {node}"

    def ask(self, node):
        if node in self.followed:
            self.requests[self.sent] = self.followed[node]
            self.sent += 1
        return f"ask {node}"

    def deliver(self, number):
        leader, epoch = self.requests.get(number, (None, None))
        self.sent += leader is not None and self.led.get(leader) == (leader, epoch)
        return f"deliver {number}"

    def stop(self, node):
        self.led.pop(node, None)
        self.followed.pop(node, None)
        return f"stop {node}"

    def at(self):
        return 0 if self.leader is None else self.leader

    def other(self):
        """Each node but the leader in turn; the leader where it is alone."""
        found = next(self.turns) % self.nodes
        return (found + 1) % self.nodes if found == self.at() else found

    def any_node(self):
        return next(self.turns) % self.nodes

    def front(self):
        return [f"nodes {self.nodes} segment {self.recipe.segment} interval {self.recipe.interval}", self.elect(0),
                *(self.adopt(node) for node in range(self.nodes))]

    def middle(self):
        """Between two halves: nothing, the watermark raised, each follower up to the end, or transactions ended first."""
        if self.recipe.middle == "none":
            return []
        ends = [f"mark {self.at()} 1 {LONG} 0 0 abort"] if self.is_across else []
        if self.recipe.middle == "ended":
            ends += [line for _ in range(len(self.senders.next)) for line in self.abort()]
        fetches = [line for _ in range(2) for node in range(self.nodes) if node != self.at() for line in self.fetch_by(node)]
        return [*ends, *fetches, f"raise {self.at()}"]

    # Appends

    def append(self, sender, kind):
        self.end += self.values
        self.said = f"append {self.at()} 1 {' '.join(map(str, sender))} {kind} {self.value}"
        return [self.said]

    def plain(self):
        return self.append((-1, -1, -1), "d")

    def idempotent(self):
        return self.append(self.senders.send(self.values), "d")

    def transactional(self):
        return self.append(self.senders.send(self.values), "t")

    def new_epoch(self):
        return self.append(self.senders.send(self.values, 1), "d")

    def again(self):
        return [self.said]

    def ahead(self):
        producer, epoch, sequence = self.senders.send(0)
        return [f"append {self.at()} 1 {producer} {epoch} {sequence + 7} d {self.value}"]

    def late(self):
        """At a node that doesn't lead."""
        return [f"append {self.other()} 1 -1 -1 -1 d {self.value}"]

    def raw_of(self, data):
        self.end += 1
        return [f"raw {self.at()} {data.hex()}"]

    def raw(self):
        return self.raw_of(batch(record(b"a" * self.recipe.length), producer=self.senders.send(1)))

    def raw_many(self):
        """Many records without a byte."""
        return self.raw_of(batch(*(record(b"", place=place) for place in range(self.values))))

    def raw_headers(self):
        return self.raw_of(batch(record(headers=[(b"", None)] * self.values)))

    def raw_faulty(self):
        """The last record is faulty."""
        data = batch(*(record(b"", place=place) for place in range(self.values)), record(b"", place=-1))
        return self.raw_of(data)

    def raw_sum(self):
        """A wrong checksum."""
        return self.raw_of(batch(record(b"a" * self.recipe.length), crc=0))

    # Markers

    def mark(self, end):
        producer, epoch = self.senders.ended()
        self.end += 1
        return [f"mark {self.at()} 1 {producer} {epoch} 0 {end}"]

    def abort(self):
        return self.mark("abort")

    def commit(self):
        return self.mark("commit")

    def aborted(self):
        return self.transactional() + self.abort()

    def ended(self):
        return self.transactional() + self.commit()

    def across(self):
        """An aborted transaction, while another one is open, from the first such piece to the middle."""
        first = [] if self.is_across else self.append((LONG, 0, 0), "t")
        self.is_across = True
        return first + self.aborted()

    # The controller's record, messages, in-sync changes

    def elect_any(self):
        return [self.elect(self.any_node())]

    def adopt_any(self):
        return [self.adopt(self.any_node())]

    def reign(self):
        node = self.any_node()
        return [self.elect(node), self.adopt(node), *self.plain()]

    def swing(self):
        """Two leaders by turns, with one follower that takes what the one has and cuts by the other."""
        node = self.place = min(self.nodes - 1, self.place % max(1, self.nodes - 2) + 1)
        return [line for leader in (0, self.nodes - 1) for line in
                (self.elect(leader), self.adopt(leader), self.adopt(node), *self.fetch_by(node))]

    def raise_mark(self):
        return [f"raise {self.at()}"]

    def ask_any(self):
        return [self.ask(self.other())]

    def fetch_by(self, node):
        sent = self.sent
        return [self.ask(node), self.deliver(sent), self.deliver(sent + 1)]

    def fetch(self):
        return self.fetch_by(self.other())

    def deliver_first(self):
        return [self.deliver(0)]

    def deliver_second(self):
        """The first two messages by turns."""
        self.place = 1 - min(self.place, 1)
        return [self.deliver(self.place)]

    def deliver_last(self):
        return [self.deliver(max(0, self.sent - 1))]

    def deliver_next(self):
        self.place += 1
        return [self.deliver(self.place % max(1, self.sent))]

    def deliver_any(self):
        return [self.deliver(self.random.randrange(max(1, self.sent)))]

    def deliver_none(self):
        return [self.deliver(NEVER)]

    def change(self, verb):
        """A proposal, which comes to the controller, and its decision."""
        number, self.sent = self.sent, self.sent + 2
        return [f"{verb} {self.at()} {self.other()}", f"deliver {number}", f"deliver {number + 1}"]

    def leave(self):
        return self.change("leave")

    def join(self):
        return self.change("join")

    def propose(self):
        """The same proposal, which nobody decides on."""
        self.sent += 1
        return [f"leave {self.at()} {(self.at() + 1) % self.nodes}"]

    # Lives, reads, lines that are no event

    def bounce(self):
        node = self.other()
        return [self.stop(node), f"restart {node}", self.adopt(node)]

    def bounce_leader(self):
        node = self.at()
        return [self.stop(node), f"restart {node}", self.elect(node), self.adopt(node)]

    def restart(self):
        """Without taking the record up."""
        return [self.stop(self.at()), f"restart {self.at()}"]

    def stop_any(self):
        return [self.stop(self.any_node())]

    def checkpoint(self):
        return [f"checkpoint {self.at()}"]

    def show(self):
        return [f"show {self.at()}"]

    def start(self):
        return {"0": 0, "5": 5, "middle": self.end // 2, "end": self.end, "beyond": self.end + 1,
                "any": self.random.randrange(self.end + 1)}[self.recipe.start]

    def read(self):
        return [f"read {self.at()} {self.start()}"]

    def committed(self):
        return [f"committed {self.at()} {self.start()}"]

    def raised_read(self):
        return self.raise_mark() + self.read()

    def raised_committed(self):
        return self.raise_mark() + self.committed()

    def comment(self):
        return ["#" + "a" * (self.recipe.length - 1)]

    def empty(self):
        return [""]

    def junk(self):
        """No event. A run ends by the first one, a pipe goes on."""
        return [JUNK[next(self.turns) % len(JUNK)]]


STARTS, MIDDLES = ("0", "5", "middle", "end", "beyond", "any"), ("none", "raised", "ended")
SCRIPT = {name: getattr(Script, name) for name in (
    "plain idempotent transactional new_epoch again ahead late raw raw_many raw_headers raw_faulty raw_sum abort commit aborted ended "
    "across elect_any adopt_any reign swing raise_mark ask_any fetch deliver_first deliver_second deliver_last deliver_next deliver_any "
    "deliver_none leave join propose bounce bounce_leader restart stop_any checkpoint show read committed raised_read raised_committed "
    "comment empty junk").split()}


class Log:
    """Makes the batches of a log by a recipe. A piece is a list of one or two."""

    def __init__(self, recipe, colliding):
        self.recipe, self.senders, self.values = recipe, Senders(recipe, colliding), fitting_values(recipe)
        self.base, self.epoch = 0, 0

    def front(self):
        return []

    def middle(self):
        """Between two halves all that is open is ended, or nothing."""
        return [data for _ in range(len(self.senders.next)) for data in self.abort()] if self.recipe.middle == "ended" else []

    def add(self, *records, **fields):
        found = batch(*records, base=self.base, epoch=self.epoch, **fields)
        self.base += len(records)
        return [found]

    def records(self, **fields):
        return [record(b"a" * self.recipe.length, place=place, **fields) for place in range(self.values)]

    def plain(self):
        return self.add(*self.records())

    def idempotent(self):
        return self.add(*self.records(), producer=self.senders.send(self.values))

    def transactional(self):
        return self.add(*self.records(), producer=self.senders.send(self.values), attributes=0x10)

    def new_epoch(self):
        return self.add(*self.records(), producer=self.senders.send(self.values, 1))

    def mark(self, way):
        said = end(bytes([0, 0, 0, way]), struct.pack(">hi", 0, 0))
        return self.add(said, attributes=0x30, producer=(*self.senders.ended(), -1))

    def abort(self):
        return self.mark(0)

    def commit(self):
        return self.mark(1)

    def aborted(self):
        return self.transactional() + self.abort()

    def ended(self):
        return self.transactional() + self.commit()

    def leader_epoch(self):
        self.epoch += 1
        return self.plain()

    def later(self):
        """A greater timestamp each time, so an entry more of a time index."""
        return self.add(*self.records(), time=self.base)

    def headers(self):
        return self.add(record(headers=[(b"", None)] * self.values))

    def empties(self):
        """Many records without a byte."""
        return self.add(*(record(b"", place=place) for place in range(self.values)))


LOG = {name: getattr(Log, name) for name in (
    "plain idempotent transactional new_epoch abort commit aborted ended leader_epoch later headers empties").split()}
