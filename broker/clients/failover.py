"""confluent_kafka: an idempotent producer under load while leaders stop, or are moved; then all is read back.

    failover.py stop|elect|cut|plain SECONDS [MOVES]

Each record that was acknowledged has to be there once, at the offset that was told, and all in order. `plain` is a producer that isn't
idempotent, of which nothing may be lost, but some may come twice. Leaders have to move so many times; 2 where no number is given.
"""
import collections
import sys
import threading
import time

from confluent_kafka import Consumer, Producer, TopicPartition
from host import LONG, QUICK, Host, check

HOW, SECONDS = sys.argv[1], float(sys.argv[2])
LEAST = int(sys.argv[3]) if len(sys.argv) > 3 else 2
HOST = Host()
ACKNOWLEDGED, FAILED, TIMES, SENT = {}, collections.Counter(), [], {}
ENDS, MOVES = threading.Event(), []


def told(error, message):
    number = int(message.key())
    if error:
        FAILED[str(error)] += 1
    else:
        ACKNOWLEDGED[number] = message.offset()
        TIMES.append(time.time() - SENT[number])


def cut_off(leader):
    """The leader is alone, and another one is elected; it goes on for a while with what it has."""
    for other in range(HOST.nodes):
        if other != leader:
            HOST.ask(f"cut {leader} {other}")
            HOST.ask(f"cut {other} {leader}")
    time.sleep(0.1)
    HOST.ask(f"elect {(leader + 1) % HOST.nodes}", may_fail=True)
    time.sleep(0.2)
    HOST.ask("heal")


def move_leaders():
    while not ENDS.wait(0.5):
        leader = HOST.leader()
        if HOW == "elect":
            HOST.ask(f"elect {(leader + 1) % HOST.nodes}", may_fail=True)
        elif HOW == "cut":
            cut_off(leader)
        else:
            HOST.ask(f"stop {leader}")
            time.sleep(0.2)
            HOST.ask(f"restart {leader}")
        MOVES.append(leader)


def produce_all():
    producer = Producer({"bootstrap.servers": HOST.bootstrap, "enable.idempotence": HOW != "plain", "acks": "all", "linger.ms": 2,
                         "message.timeout.ms": 1000 * LONG, **QUICK})
    end, number = time.time() + SECONDS, 0
    while time.time() < end:
        SENT[number] = time.time()
        try:
            producer.produce(HOST.topic, key=str(number).encode(), value=b"payment %d" % number, partition=0, on_delivery=told)
            number += 1
        except BufferError:
            producer.poll(0.01)
        producer.poll(0)
        if number % 5 == 0:
            time.sleep(0.001)
    ENDS.set()
    return producer.flush(LONG)


def read_all():
    """Each record's number and offset, in the order of the log."""
    consumer = Consumer({"bootstrap.servers": HOST.bootstrap, "group.id": "check", "enable.partition.eof": True, **QUICK})
    consumer.assign([TopicPartition(HOST.topic, 0, 0)])
    found, end = [], time.time() + LONG
    while time.time() < end:
        message = consumer.poll(1.0)
        if message is None:
            continue
        if message.error():
            if message.error().name() == "_PARTITION_EOF":
                break
            continue
        found.append((int(message.key()), message.offset()))
    consumer.close()
    return found


MOVER = threading.Thread(target=move_leaders, daemon=True)
MOVER.start()
LEFT = produce_all()
MOVER.join(LONG)
FOUND = read_all()
COUNT, AT = collections.Counter(number for number, _ in FOUND), dict(FOUND)
TIMES.sort()
print(f"{HOW}: {len(ACKNOWLEDGED)} acknowledged, {len(MOVES)} moves, failed {dict(FAILED)}; "
      f"ms until acknowledged: half {1e3 * TIMES[len(TIMES) // 2]:.1f}, of 100 the 99th {1e3 * TIMES[len(TIMES) * 99 // 100]:.1f}, "
      f"longest {1e3 * TIMES[-1]:.0f}")
check("leaders moved", len(MOVES) >= LEAST, len(MOVES))
check("all were acknowledged", not LEFT and not FAILED and len(ACKNOWLEDGED) == len(SENT), (LEFT, dict(FAILED)))
check("none is lost", all(number in COUNT for number in ACKNOWLEDGED))
if HOW != "plain":
    check("none is there twice", max(COUNT.values()) == 1)
    check("all are in order", [number for number, _ in FOUND] == sorted(COUNT))
    # librdkafka itself tells no offset where it takes a refusal for the sign that an earlier try was stored.
    TOLD = {number: offset for number, offset in ACKNOWLEDGED.items() if offset is not None and offset >= 0}
    print(f"{len(ACKNOWLEDGED) - len(TOLD)} were acknowledged without an offset")
    WRONG = [(number, offset, AT[number]) for number, offset in TOLD.items() if AT[number] != offset]
    check("each is where it was told to be", not WRONG, (len(WRONG), WRONG[:5]))
