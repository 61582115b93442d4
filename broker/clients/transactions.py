"""confluent_kafka: random transactions of several producers, with failovers between their steps; then fencing and a group's offsets.

    transactions.py STEPS [SEED]

What a consumer with isolation.level=read_committed is shown has to be just what was committed.
"""
import random
import sys
import time

from confluent_kafka import Consumer, KafkaException, Producer, TopicPartition
from host import LONG, QUICK, Host, check
from reading import read

STEPS, CHANCE = int(sys.argv[1]), random.Random(int(sys.argv[2]) if len(sys.argv) > 2 else 1)
HOST = Host()
WANTED, ALL = [], []


def producer(name, **more):
    made = Producer({"bootstrap.servers": HOST.bootstrap, "transactional.id": name, "linger.ms": 0, **QUICK, **more})
    made.init_transactions(LONG)
    return made


def all_shown(isolation):
    """The values that a consumer is shown; fetches are small, so that lists of aborted transactions come in pieces."""
    return read(HOST.bootstrap, HOST.topic, isolation, **{"message.max.bytes": 2000, "fetch.message.max.bytes": 2000,
                                                          "fetch.max.bytes": 2000})


def produce(made, value):
    made.produce(HOST.topic, value=value.encode(), partition=0)
    made.poll(0)


def flush(made):
    left = made.flush(LONG)
    if left:
        check("all that is on its way is acknowledged", False, left)


def move_leader():
    leader = HOST.leader()
    if CHANCE.random() < 0.5:
        HOST.ask(f"stop {leader}")
        time.sleep(CHANCE.random() * 0.1)
        HOST.ask(f"restart {leader}")
    else:
        HOST.ask(f"elect {CHANCE.randrange(HOST.nodes)}", may_fail=True)


def step(made, part, number):
    """One more record, or the end of the transaction: what the transaction has then."""
    if not part or CHANCE.random() < 0.7:
        if not part:
            made.begin_transaction()
        produce(made, f"value {number}")
        ALL.append(f"value {number}")
        if CHANCE.random() < 0.5:
            flush(made)
        return part + [f"value {number}"]
    if CHANCE.random() < 0.5:
        made.commit_transaction(LONG)
        WANTED.extend(part)
    else:
        flush(made)  # an abort throws away what is on its way
        made.abort_transaction(LONG)
    return []


def random_transactions():
    made = [[producer(f"producer {number}"), []] for number in range(4)]
    plain = Producer({"bootstrap.servers": HOST.bootstrap, "enable.idempotence": True, "linger.ms": 0, **QUICK})
    for number in range(STEPS):
        if CHANCE.random() < 0.1:
            produce(plain, f"plain {number}")
            WANTED.append(f"plain {number}")
            ALL.append(f"plain {number}")
        else:
            one = CHANCE.choice(made)
            one[1] = step(one[0], one[1], number)
        if CHANCE.random() < 0.015:
            move_leader()
    check("the plain producer's are acknowledged", plain.flush(LONG) == 0)
    shown = all_shown("read_committed")
    check("while some are open, nothing else is shown", set(shown) <= set(WANTED) and len(set(shown)) == len(shown))
    for one, part in made:
        if part:
            flush(one)
            one.abort_transaction(LONG)
    shown = all_shown("read_committed")
    check("all that was committed is shown, and nothing else", sorted(shown) == sorted(WANTED), (len(shown), len(WANTED)))
    everything = all_shown("read_uncommitted")
    print(f"{STEPS} steps: {len(everything)} records, of which {len(shown)} are committed")
    check("read uncommitted shows each once", len(everything) == len(set(everything)) and set(everything) <= set(ALL))


def fencing():
    old = producer("one of two")
    old.begin_transaction()
    produce(old, "fenced")
    flush(old)
    new = producer("one of two")
    try:
        old.commit_transaction(LONG)
        name = "nothing"
    except KafkaException as fault:
        name = fault.args[0].name()
    check("the old producer of the same id is fenced", name in ("_FENCED", "INVALID_PRODUCER_EPOCH", "PRODUCER_FENCED"), name)
    new.begin_transaction()
    produce(new, "not fenced")
    new.commit_transaction(LONG)
    shown = all_shown("read_committed")
    check("what it wrote isn't shown, and what the new one wrote is", "fenced" not in shown and "not fenced" in shown)


def consume_and_produce():
    """A group's offsets in a transaction: they count where it commits."""
    consumer = Consumer({"bootstrap.servers": HOST.bootstrap, "group.id": "transform", "auto.offset.reset": "earliest",
                         "enable.auto.commit": False, "isolation.level": "read_committed", **QUICK})
    consumer.subscribe([HOST.topic])
    end, count = time.time() + LONG, 0
    while count < 5 and time.time() < end:
        message = consumer.poll(1.0)
        count += message is not None and not message.error()
    check("the group reads", count == 5)
    at = TopicPartition(HOST.topic, 0)
    made = producer("transform")
    for commits in (False, True):
        made.begin_transaction()
        produce(made, f"transformed {commits}")
        made.send_offsets_to_transaction(consumer.position([at]), consumer.consumer_group_metadata(), LONG)
        flush(made)
        (made.commit_transaction if commits else made.abort_transaction)(LONG)
        offset = consumer.committed([at], LONG)[0].offset
        check(f"offsets of a transaction that {'commits' if commits else 'aborts'}", (offset > 0) == commits, offset)
    consumer.close()
    shown = all_shown("read_committed")
    check("with its records", "transformed True" in shown and "transformed False" not in shown)


random_transactions()
fencing()
consume_and_produce()
