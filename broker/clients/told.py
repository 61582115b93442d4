"""confluent_kafka: clients that stay while brokers end and start again, and what they are told: it is held to what is there.

A client runs until `ends` is set, and ends once all is told that is under way. At any time `note` has what it was told so far. Of two notes,
one from before and one from after a reader has read all, `hold` finds what can't be: it raises `Wrong`. A record is `NAME NUMBER PART` with some
padding, of its client's name, so that each byte that is read is known.
"""
import contextlib
import functools
import json
import random
import threading
import time
from typing import NamedTuple

from confluent_kafka import Consumer, KafkaError, KafkaException, Producer, TopicPartition
from host import LONG, QUICK, Ended
from reading import records

SECONDS = 60  # in which a client has ended that is to end
UNDER_WAY = 200  # records of a producer, at most
STATISTICS = 50  # milliseconds, after which librdkafka says how often it has raised an epoch
LONGER = {17: 20_000, 40: 3_000}  # how long paddings are, by the number's rest
REST = 89
NONE = -1001  # librdkafka's offset where nothing was committed
OPEN, ASKED, COMMITTED, ABORTED = "open", "asked to commit", "committed", "aborted"


class Wrong(Exception):
    """What was told isn't what is there."""


class There(NamedTuple):
    """What a reader finds: of each partition all records, and those that a read-committed one is shown, which comes as far as `ends`. Each is an
    offset with a text. And of each group the offsets by partition."""
    all: list
    shown: list
    ends: list
    offsets: dict


@functools.lru_cache(1 << 16)
def text_of(name, number, part=0):
    padding = "x" * (number * 7919 % LONGER.get(number % REST, 40))
    return f"{name} {number} {part} {padding}"


def named(text):
    """The name, the number and the part of a record; it has to be whole."""
    words = text.split(" ")
    if len(words) == 4 and words[1].isdecimal() and words[2].isdecimal():
        name, number, part = words[0], int(words[1]), int(words[2])
        if text == text_of(name, number, part):
            return name, number, part
    raise Wrong(f"nobody has sent {text[:80]!r}")


def own(rows, name):
    """Of the records those of this name: offsets, numbers and parts."""
    start = f"{name} "
    return [(offset, *named(text)[1:]) for offset, text in rows if text.startswith(start)]


def is_fatal(fault):
    """Whether librdkafka doesn't go on."""
    return fault.args[0].fatal() or fault.args[0].code() == KafkaError._FATAL


def flushed(made):
    """How many records aren't told of in a long time. That librdkafka doesn't go on any call may say, and this one goes on then."""
    try:
        return made.flush(LONG)
    except KafkaException as fault:
        if not is_fatal(fault):
            raise
        made.purge()
        return made.flush(LONG)


class Client(threading.Thread):
    """A client, which goes by a name, and draws by a chance of its own. Where it `may_give_up`, a producer may meet an error from which librdkafka
    doesn't go on, and a new one does: as where a batch is refused whose answer was lost before, and the next one is out of order by that."""

    def __init__(self, name, servers, topic, partitions, chance):
        super().__init__(name=name, daemon=True)
        self.servers, self.topic, self.partitions, self.chance = servers, topic, partitions, chance
        self.fault, self.ends, self.may_give_up, self.given_up = None, threading.Event(), False, 0

    def run(self):
        try:
            self.work()
        except Exception as fault:  # whatever it is: the test says it
            self.fault = f"{type(fault).__name__}: {fault}"

    def give_up(self, why):
        if not self.may_give_up:
            raise Wrong(f"a producer has given up: {why}")
        self.given_up += 1

    def end(self):
        """Waits until it has ended by itself."""
        self.ends.set()
        self.join(SECONDS)
        if self.is_alive():
            raise Wrong(f"{self.name} hasn't ended within {SECONDS} s")
        self.hold_fault()

    def hold_fault(self):
        if self.fault:
            raise Wrong(f"{self.name} has failed: {self.fault}")


class Sent(NamedTuple):
    """To which partition a producer has sent each record; of which ones it was told, with the offset or None; of which ones it never will be; and
    how often it has raised its epoch."""
    placed: list
    told: dict
    lost: dict
    raised: int

    def numbers(self, partition):
        return [number for number, it in enumerate(self.placed) if it == partition]

    def __str__(self):
        return f"{len(self.placed)} sent, {len(self.told)} told, the last ones with offsets {dict(sorted(self.told.items())[-4:])}"


class Producing(Client):
    """A producer with acks=all: records 0, 1, 2. It is idempotent, or isn't; then some may come twice. After so many bursts all is acknowledged, and
    a new one goes on.

    It sends to one partition; without such a one to each by turns, but an idempotent one takes turns just as a new one goes on. For where a batch is
    out of order while an earlier one is under way, as at a new leader, librdkafka (2.0.2) raises its epoch, and sends again all of which it wasn't
    told, also what is stored."""

    def __init__(self, *words, partition=None, is_idempotent=True, bursts=10 ** 9):
        super().__init__(*words)
        self.partition, self.is_idempotent, self.bursts, self.lives = partition, is_idempotent, bursts, 0
        self.placed, self.told, self.lost, self.raised_before, self.epochs = [], {}, {}, 0, 1

    def heard_statistics(self, text):
        """librdkafka counts how often it was given an id or an epoch."""
        self.epochs = max(self.epochs, json.loads(text)["eos"]["epoch_cnt"])

    def raised(self):
        return self.raised_before + self.epochs - 1

    def heard(self, number, error, message):
        if error:
            self.lost[number] = str(error)
            return
        # librdkafka itself tells no offset where it takes a refusal for the sign that an earlier try was stored.
        offset = message.offset()
        self.told[number] = None if offset is None or offset < 0 else offset

    def place(self, number):
        if self.partition is not None:
            return self.partition
        return (self.lives if self.is_idempotent else number) % self.partitions

    def burst(self, made):
        for _ in range(self.chance.randrange(1, 10)):
            number = len(self.placed)
            self.placed.append(self.place(number))
            try:
                made.produce(self.topic, value=text_of(self.name, number).encode(), partition=self.placed[number],
                             on_delivery=functools.partial(self.heard, number))
            except KafkaException as fault:
                self.lost[number] = str(fault)
                raise
            time.sleep(0.002)
        made.poll(0)

    def under_way(self):
        return len(self.placed) - len(self.told) - len(self.lost)

    def send(self, made, before):
        for _ in range(self.bursts):
            if self.ends.is_set() or len(self.lost) > before:
                break
            self.burst(made)
            while self.under_way() > UNDER_WAY and not self.ends.is_set():
                made.poll(0.05)

    def life(self):
        made = Producer({"bootstrap.servers": self.servers, "enable.idempotence": self.is_idempotent, "acks": "all", "linger.ms": 1,
                         **({"stats_cb": self.heard_statistics, "statistics.interval.ms": STATISTICS} if self.is_idempotent else {}), **QUICK})
        before = len(self.lost)
        try:
            self.send(made, before)
        except KafkaException as fault:
            if not is_fatal(fault):
                raise
            made.purge()
        left = flushed(made)
        if left:
            raise Wrong(f"{left} records aren't acknowledged within {LONG} s")
        if len(self.lost) > before:
            self.give_up([*self.lost.items()][before])
        if self.is_idempotent:
            made.poll(2 * STATISTICS / 1000)
        self.raised_before, self.epochs = self.raised(), 1
        self.lives += 1

    def work(self):
        while not self.ends.is_set():
            self.life()

    def note(self):
        told = dict(self.told)  # first: it has been sent by then
        return Sent(list(self.placed), told, dict(self.lost), self.raised())

    def hold(self, before, after, there):
        for partition in range(self.partitions):
            found, sent = own(there.all[partition], self.name), after.numbers(partition)
            numbers, where = [number for _, number, _ in found], f"{self.name} of partition {partition}"
            told = {number: offset for number, offset in before.told.items() if before.placed[number] == partition}
            lost = sorted(told.keys() - set(numbers))
            if lost:
                raise Wrong(f"{where}: {len(told)} were acknowledged, of which {len(lost)} aren't there: {lost[:5]}, told at {told[lost[0]]}")
            unsent = sorted(set(numbers) - set(sent))
            if unsent:
                raise Wrong(f"{where}: {unsent[:5]} are there, and were never sent to it")
            if self.is_idempotent:
                self.hold_once(where, numbers, sent, after)
                self.hold_untold(where, found, told)
            at = {(number, offset) for offset, number, _ in found}
            moved = [(number, offset) for number, offset in told.items() if offset is not None and (number, offset) not in at]
            if moved:
                raise Wrong(f"{where}: {moved[0][0]} was told to be at {moved[0][1]}, and is at {[it[0] for it in found if it[1] == moved[0][0]]}")

    @staticmethod
    def hold_once(where, numbers, sent, after):
        """Each is there once, and in order; of those of which it never will be told, any. Where it raises its epoch it begins anew once, with
        what wasn't told."""
        again = sorted({number for number in numbers if number in after.lost and numbers.count(number) > 1})
        known, wanted = [it for it in numbers if it not in after.lost], [it for it in sent if it not in after.lost]
        place_of, next_place, left = {number: place for place, number in enumerate(wanted)}, 0, after.raised
        for place, number in enumerate(known):
            is_anew = place_of[number] < next_place
            left -= is_anew
            if left < 0 or not is_anew and place_of[number] != next_place or again:
                raise Wrong(f"{where}: not each once and in order, with {after.raised} raised epochs: {again or known[max(0, place - 3):place + 4]}")
            next_place = place_of[number] + 1


    @staticmethod
    def hold_untold(where, found, told):
        """What comes again it wasn't told of before: an offset that it was told is that of the last one."""
        last = {number: offset for offset, number, _ in found}
        again = [number for number, offset in told.items() if offset is not None and offset < last[number]]
        if again:
            raise Wrong(f"{where}: {again[0]} was told to be at {told[again[0]]}, and comes again at {last[again[0]]}")


class Ran(NamedTuple):
    """What became of transactions, by their numbers."""
    became: dict

    def numbers(self, *states):
        return [number for number, state in self.became.items() if state in states]

    def __str__(self):
        last = dict(sorted(self.became.items())[-4:])
        return f"{len(self.numbers(COMMITTED))} committed, {len(self.numbers(ABORTED))} aborted, the last ones {last}"


class Transactional(Client):
    """Transaction N has 1 to 3 records of number N in each partition, and offset N of the group of the client's name. Some are aborted on purpose,
    and some are left open: a new producer of the same id begins then."""

    def __init__(self, *words):
        super().__init__(*words)
        self.became, self.retries = {}, 0

    @staticmethod
    def parts(number):
        return 1 + number % 3

    def again(self, call):
        """Tries until it is done: False where the transaction is to be aborted."""
        while True:
            try:
                call()
                return True
            except KafkaException as fault:
                error = fault.args[0]
                if error.txn_requires_abort():
                    return False
                if not error.retriable():
                    raise
                self.retries += 1

    def producer(self):
        made = Producer({"bootstrap.servers": self.servers, "transactional.id": self.name, "linger.ms": 0, **QUICK})
        self.again(lambda: made.init_transactions(LONG))
        return made

    def produce(self, made, number):
        made.begin_transaction()
        for part in range(self.parts(number)):
            for partition in range(self.partitions):
                made.produce(self.topic, value=text_of(self.name, number, part).encode(), partition=partition)
        made.flush(LONG)

    def hold_own(self, reader, number):
        """The offset of the transaction that has just committed is there."""
        try:
            offset = reader.committed([TopicPartition(self.topic, 0)], 2)[0].offset
        except KafkaException:
            return  # nobody says so now
        if offset != number:
            raise Wrong(f"offset {number} was committed, and {offset} is there")

    def one(self, made, reader, number):
        """Whether it was ended, and not left open."""
        pauses, end = [self.chance.random() ** 4 * 0.2 for _ in range(2)], self.chance.random()
        self.became[number] = OPEN
        self.produce(made, number)
        time.sleep(pauses[0])
        at, group = [TopicPartition(self.topic, 0, number)], reader.consumer_group_metadata()
        sent = self.again(lambda: made.send_offsets_to_transaction(at, group, LONG))
        time.sleep(pauses[1])
        if end > 0.95:
            self.became[number] = ABORTED
            return False
        if sent and end < 0.65:
            self.became[number] = ASKED
            if self.again(lambda: made.commit_transaction(LONG)):
                self.became[number] = COMMITTED
                self.hold_own(reader, number)
                return True
        self.again(lambda: made.abort_transaction(LONG))
        self.became[number] = ABORTED
        return True

    def work(self):
        made = self.producer()
        reader, number = Consumer({"bootstrap.servers": self.servers, "group.id": self.name, **QUICK}), 0
        while not self.ends.is_set():
            try:
                is_ended = self.one(made, reader, number)
            except KafkaException as fault:
                if not is_fatal(fault):
                    raise
                self.give_up(fault)
                is_ended = False
                if self.became[number] == OPEN:
                    self.became[number] = ABORTED
            if not is_ended:
                made = self.producer()
            number += 1
            time.sleep(0.002)

    def note(self):
        return Ran(dict(self.became))

    def hold(self, before, after, there):
        for partition in range(self.partitions):
            self.hold_all(f"{self.name} of partition {partition}", before, own(there.all[partition], self.name))
        shown = [self.shown(partition, after, there) for partition in range(self.partitions)]
        for numbers, partition in zip(shown, range(self.partitions)):
            self.hold_shown(f"{self.name} of partition {partition}", before, after, numbers, there, partition)
        self.hold_fates(shown, there)
        self.hold_offset(before, after, there.offsets[self.name].get(0, NONE))

    def hold_all(self, where, before, found):
        """In the log each record is at most once, in order; of those that were committed all are there."""
        rows = [(number, part) for _, number, part in found]
        if rows != sorted(set(rows)):
            odd = next(place for place, (one, other) in enumerate(zip(rows, rows[1:])) if one >= other)
            raise Wrong(f"{where}: not each once and in order: {rows[max(0, odd - 2):odd + 4]}")
        wanted = {(number, part) for number in before.numbers(COMMITTED) for part in range(self.parts(number))}
        if not wanted <= set(rows):
            raise Wrong(f"{where}: {sorted(wanted - set(rows))[:5]} were committed, and aren't there")

    def shown(self, partition, after, there):
        """The numbers that are shown, each of which is whole."""
        rows = [(number, part) for _, number, part in own(there.shown[partition], self.name)]
        numbers = sorted({number for number, _ in rows})
        if rows != [(number, part) for number in numbers for part in range(self.parts(number))]:
            raise Wrong(f"{self.name} of partition {partition}: not each is shown whole, once and in order: {rows[-9:]}")
        return numbers

    def hold_shown(self, where, before, after, numbers, there, partition):
        strange = set(numbers) - set(after.numbers(ASKED, COMMITTED))
        if strange:
            states = {number: after.became.get(number) for number in sorted(strange)[:5]}
            raise Wrong(f"{where}: a read-committed consumer is shown {states}")
        first = {number: offset for offset, number, _ in reversed(own(there.all[partition], self.name))}
        hidden = [it for it in before.numbers(COMMITTED) if it not in numbers and first[it] < there.ends[partition]]
        if hidden:
            raise Wrong(f"{where}: {hidden[:5]} were committed, and aren't shown")

    def hold_fates(self, shown, there):
        """What is decided in two partitions is decided the same way."""
        fates = {}
        for partition, numbers in enumerate(shown):
            for offset, number, _ in own(there.all[partition], self.name):
                if offset < there.ends[partition]:
                    fates.setdefault(number, set()).add(number in numbers)
        torn = [number for number, found in fates.items() if len(found) > 1]
        if torn:
            raise Wrong(f"{self.name}: {torn[:5]} are shown of one partition, and not of another")

    def hold_offset(self, before, after, offset):
        last = max(before.numbers(COMMITTED), default=NONE)
        if offset < last or offset != NONE and offset not in after.numbers(ASKED, COMMITTED):
            raise Wrong(f"{self.name}: offset {last} was committed, and {offset} is there, of a transaction {after.became.get(offset)}")


class Heard(NamedTuple):
    """What a consumer was shown of each partition, texts by offsets, and which offsets it was told to be committed."""
    seen: list
    told: list

    def __str__(self):
        return f"{[len(it) for it in self.seen]} shown up to {[max(it, default=-1) for it in self.seen]}, offsets {self.told} told"


class Group(Client):
    """A group's read-committed consumer, which commits where it stands: what it was told never goes back."""

    def __init__(self, *words):
        super().__init__(*words)
        self.seen, self.told = [{} for _ in range(self.partitions)], [0] * self.partitions

    def commit(self, consumer, last):
        wanted = [TopicPartition(self.topic, partition, offset) for partition, offset in last.items()]
        try:
            done = consumer.commit(offsets=wanted, asynchronous=False)
        except KafkaException:
            return  # it has to join anew
        for it in done:
            if it.error is None and it.offset < self.told[it.partition]:
                raise Wrong(f"it goes back in partition {it.partition}, to {it.offset} from {self.told[it.partition]}")
            if it.error is None:
                self.told[it.partition] = it.offset

    def take(self, consumer):
        last = {}
        for message in consumer.consume(100, 0.1):
            if message.error():
                continue
            partition, offset, text = message.partition(), message.offset(), message.value().decode()
            if self.seen[partition].setdefault(offset, text) != text:
                raise Wrong(f"offset {offset} of partition {partition} was {self.seen[partition][offset][:80]!r}, and is {text[:80]!r}")
            last[partition] = offset + 1
        if last:
            self.commit(consumer, last)

    def work(self):
        consumer = Consumer({"bootstrap.servers": self.servers, "group.id": self.name, "auto.offset.reset": "earliest",
                             "enable.auto.commit": False, "isolation.level": "read_committed", **QUICK})
        consumer.subscribe([self.topic])
        while not self.ends.is_set():
            self.take(consumer)
        consumer.close()

    def note(self):
        told = list(self.told)
        return Heard([dict(it) for it in self.seen], told)

    def hold(self, before, after, there):
        for partition in range(self.partitions):
            seen, where = before.seen[partition], f"{self.name} of partition {partition}"
            last = max(seen, default=-1)
            again = {offset: text for offset, text in there.shown[partition] if offset <= last}
            if seen != again:
                odd = min(offset for offset in seen.keys() | again if seen.get(offset) != again.get(offset))
                raise Wrong(f"{where}: at {odd} it was shown {seen.get(odd)!r:.80}, and a later reader {again.get(odd)!r:.80}; "
                            f"it came to {last}, the reader to {there.ends[partition]}")
            offset = there.offsets[self.name].get(partition, NONE)
            if not before.told[partition] <= max(offset, 0) <= there.ends[partition]:
                raise Wrong(f"{where}: offset {before.told[partition]} was committed, and {offset} is there, of {there.ends[partition]}")


def clients_of(servers, topic, partitions, seed):
    """Idempotent producers, one of each partition that stays, and fresh ones; one that isn't idempotent; two with transactions; and a group's
    consumer. They draw by this seed."""
    def one(kind, name, **words):
        return kind(name, servers, topic, partitions, random.Random(f"{seed} {name}"), **words)

    return [*(one(Producing, f"idempotent-{it}", partition=it) for it in range(partitions)), one(Producing, "fresh", bursts=60),
            one(Producing, "plain", is_idempotent=False), one(Transactional, "one"), one(Transactional, "two"), one(Group, "readers")]


# What is there

def offsets(client, group, is_off):
    """The group's offsets by partition."""
    consumer = Consumer({"bootstrap.servers": client.servers, "group.id": group, "isolation.level": "read_uncommitted", **QUICK})
    end = time.time() + LONG
    try:
        while time.time() < end and not is_off():
            with contextlib.suppress(KafkaException):
                wanted = [TopicPartition(client.topic, it) for it in range(client.partitions)]
                return {it.partition: it.offset for it in consumer.committed(wanted, 2)}
    finally:
        consumer.close()
    if is_off():
        raise Ended("the broker has ended")
    raise Wrong(f"the offsets of {group} aren't told within {LONG} s")


def floors(notes, partitions):
    """Of each partition, up to where producers were told that it is committed, and up to where consumers were shown it."""
    told_ends, shown = [0] * partitions, [0] * partitions
    for note in notes:
        if isinstance(note, Sent):
            for number, offset in note.told.items():
                told_ends[note.placed[number]] = max(told_ends[note.placed[number]], 0 if offset is None else offset + 1)
        elif isinstance(note, Heard):
            shown = [max(seen, default=-1) + 1 for seen in note.seen]
    return [*zip(told_ends, shown)]


def look(clients, least, host):
    """What is there. Offsets come first, and then what is committed: so what comes later has all that came before. Clients go on meanwhile, so it is
    read up to where the broker says that logs are committed by then."""
    one, is_off = clients[0], host.has_ended
    found = {it.name: offsets(one, it.name, is_off) for it in clients if not isinstance(it, Producing)}
    nodes = [it[2] for it in host.states()]
    ends = [max(end, *(it.stable for it in states)) for (_, end), states in zip(least, nodes)]
    shown = [records(one.servers, one.topic, "read_committed", it, end, is_off) for it, end in enumerate(ends)]
    ends = [max(end, it[1], *(it.watermark for it in states)) for (end, _), it, states in zip(least, shown, nodes)]
    everything = [records(one.servers, one.topic, "read_uncommitted", it, end, is_off)[0] for it, end in enumerate(ends)]
    return There(everything, [it[0] for it in shown], [it[1] for it in shown], found)


def check(clients, host):
    """Reads all, and holds what the clients were told so far to it; they go on meanwhile."""
    before = {it.name: it.note() for it in clients}
    there = look(clients, floors(before.values(), clients[0].partitions), host)
    time.sleep(2 * STATISTICS / 1000)  # so that raised epochs are known, of which the reader has seen what came of it
    hold(clients, before, {it.name: it.note() for it in clients}, there)
    return there


def hold_shown(there):
    """What is shown is a part of what is there, without that of transactions; offsets rise, and each record is somebody's."""
    for partition, (everything, shown) in enumerate(zip(there.all, there.shown)):
        for rows in (everything, shown):
            odd = next((it for it, other in zip(rows, rows[1:]) if it[0] >= other[0]), None)
            if odd:
                raise Wrong(f"partition {partition}: offsets don't rise at {odd[0]}")
        if not set(shown) <= set(everything):
            raise Wrong(f"partition {partition}: {min(set(shown) - set(everything))!r:.80} is shown to one that reads what is committed, alone")


def hold(clients, before, after, there):
    """Holds all that the clients were told to what is there."""
    hold_shown(there)
    names = {client.name for client in clients}
    transactional = {client.name for client in clients if isinstance(client, Transactional)}
    for partition, everything in enumerate(there.all):
        shown = set(there.shown[partition])
        for offset, text in everything:
            name = named(text)[0]
            if name not in names:
                raise Wrong(f"partition {partition}: nobody here has sent {text[:80]!r}")
            if name not in transactional and offset < there.ends[partition] and (offset, text) not in shown:
                raise Wrong(f"partition {partition}: {text[:80]!r} at {offset} isn't shown to one that reads what is committed")
    for client in clients:
        client.hold_fault()
        client.hold(before[client.name], after[client.name], there)
