"""kafka-python: produce over a failover, read back, offsets by time, and a group of two."""
import threading
import time

from host import LONG, Host, check, until
from kafka import KafkaConsumer, KafkaProducer, TopicPartition

HOST = Host("--topic", "orders:2")
SERVERS = HOST.bootstrap.split(",")
COUNT = 500


def produce():
    producer = KafkaProducer(bootstrap_servers=SERVERS, acks="all", retries=10, linger_ms=2, max_in_flight_requests_per_connection=1)
    start = int(time.time() * 1000)
    sent = []
    for number in range(COUNT):
        value = b"value %d" % number
        sent.append(producer.send(HOST.topic, value=value, headers=[("name", b"x")], timestamp_ms=start + number, partition=0))
        if number == COUNT // 2:
            producer.flush(LONG)
            HOST.ask(f"stop {HOST.leader()}")
    for number in range(20):
        producer.send("orders", value=b"order %d" % number, partition=number % 2)
    producer.flush(LONG)
    check("all are acknowledged", all(it.succeeded() for it in sent))
    producer.close(LONG)
    return start


def read(start):
    consumer = KafkaConsumer(bootstrap_servers=SERVERS, consumer_timeout_ms=2000, enable_auto_commit=False)
    at = TopicPartition(HOST.topic, 0)
    consumer.assign([at])
    consumer.seek(at, 0)
    found = [next(consumer) for _ in range(COUNT)]
    check("the same come back, in order", [it.value for it in found] == [b"value %d" % number for number in range(COUNT)])
    check("with their headers", found[0].headers == [("name", b"x")])
    by_time = consumer.offsets_for_times({at: start + 77})[at]
    check("the offset of a time", (by_time.offset, by_time.timestamp) == (77, start + 77), by_time)
    check("the ends", (consumer.beginning_offsets([at])[at], consumer.end_offsets([at])[at]) == (0, COUNT))
    consumer.close()


def member(name, assigned, ends):
    consumer = KafkaConsumer("orders", bootstrap_servers=SERVERS, group_id="group", auto_offset_reset="earliest",
                             session_timeout_ms=6000, heartbeat_interval_ms=200)
    while not ends.is_set():
        consumer.poll(100)
        assigned[name] = {it.partition for it in consumer.assignment()}
    consumer.close()


def group():
    assigned, ends = {}, [threading.Event(), threading.Event()]
    threads = [threading.Thread(target=member, args=(name, assigned, ends[name]), daemon=True) for name in (0, 1)]
    threads[0].start()
    until("the first member has both partitions", lambda: assigned.get(0) == {0, 1})
    threads[1].start()
    until("two members have one each", lambda: sorted(map(tuple, assigned.values())) == [(0,), (1,)])
    ends[0].set()
    until("the one that stays has both", lambda: assigned.get(1) == {0, 1})
    ends[1].set()
    for thread in threads:
        thread.join(LONG)
    check("a group of two", True)


read(produce())
group()
