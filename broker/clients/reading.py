"""Reads a partition with confluent_kafka."""
import sys
import time

from confluent_kafka import Consumer, TopicPartition
from host import LONG, QUICK, Ended


def read_to_end(consumer, partition, end, is_off):
    """The records up to this end or the next one behind, or, with none, up to where nothing else comes: offsets with values; and the offset up to
    which all were shown."""
    found, until = [], time.time() + LONG
    while time.time() < until:
        if is_off():
            raise Ended("the broker has ended")
        for message in consumer.consume(1000, 0.03):
            is_last = message.error() and message.error().name() == "_PARTITION_EOF"
            if (is_last or not message.error()) and message.offset() >= end if end is not None else is_last:
                return found, message.offset()
            if not message.error():
                found.append((message.offset(), message.value().decode()))
    sys.exit(f"partition {partition} isn't read to its end {end} within {LONG} s: {len(found)} records")


def records(servers, topic, isolation, partition=0, end=None, is_off=lambda: False, **more):
    """What a consumer is shown of a partition, from its begin on."""
    consumer = Consumer({"bootstrap.servers": servers, "group.id": isolation, "enable.partition.eof": True, "enable.auto.commit": False,
                         "isolation.level": isolation, "fetch.wait.max.ms": 10, **QUICK, **more})
    consumer.assign([TopicPartition(topic, partition, 0)])
    try:
        return read_to_end(consumer, partition, end, is_off)
    finally:
        consumer.close()


def read(servers, topic, isolation, partition=0, **more):
    """The values of these."""
    return [value for _, value in records(servers, topic, isolation, partition, **more)[0]]
