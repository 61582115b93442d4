"""The same client beside this broker and librdkafka's mock cluster: what each stores, and what each shows.

    beside_mock.py

It needs python3-confluent-kafka, python3-kafka, librdkafka-dev and a C compiler. It ends with status 1 where this broker does other than
Kafka would; what the mock does is only printed.
"""
import os
import subprocess
import sys
import tempfile
import time

from confluent_kafka import Consumer, Producer, TopicPartition
from host import LONG, QUICK, Host, check
from kafka.conn import BrokerConnection
from kafka.protocol.produce import ProduceRequest
from kafka.record.default_records import DefaultRecordBatchBuilder
from reading import read

TOPIC = "payments"
CODES = {2: "CORRUPT_MESSAGE", 45: "OUT_OF_ORDER_SEQUENCE_NUMBER"}
MANY = 80_000  # messages of 100 bytes, 8 MB


class Mock:
    """librdkafka's mock cluster of three brokers."""

    def __init__(self, room):
        program = f"{room}/mock"
        source = f"{os.path.dirname(os.path.abspath(__file__))}/mock.c"
        subprocess.run(["cc", "-O1", source, "-o", program, "-lrdkafka"], check=True)
        self.process = subprocess.Popen([program, "3", TOPIC], stdin=subprocess.PIPE, stdout=subprocess.PIPE, text=True)
        self.bootstrap = self.process.stdout.readline().strip()


def aborted(servers):
    """The values that a read-committed consumer is shown of three transactions, of which the second one is aborted."""
    made = Producer({"bootstrap.servers": servers, "transactional.id": "x", **QUICK})
    made.init_transactions(LONG)
    for value in (b"first", b"aborted", b"third"):
        made.begin_transaction()
        made.produce(TOPIC, value=value, partition=0)
        made.flush(LONG)
        (made.abort_transaction if value == b"aborted" else made.commit_transaction)(LONG)
    return read(servers, TOPIC, "read_committed")


def oldest(servers):
    """The offset of the oldest message that is still there after many."""
    made = Producer({"bootstrap.servers": servers, "linger.ms": 5, **QUICK})
    for _ in range(MANY):
        made.produce(TOPIC, value=bytes(100), partition=0)
    made.flush(2 * LONG)
    consumer = Consumer({"bootstrap.servers": servers, "group.id": "g", **QUICK})
    low, high = consumer.get_watermark_offsets(TopicPartition(TOPIC, 0), LONG)
    consumer.close()
    check("all are stored", high >= MANY, high)
    return low


def batch(sequence, spoil=False):
    """A batch of one record of an idempotent producer; spoilt, its last bit is another one than its checksum says."""
    builder = DefaultRecordBatchBuilder(magic=2, compression_type=0, is_transactional=0, producer_id=4_000_000, producer_epoch=0,
                                        base_sequence=sequence, batch_size=1000)
    builder.append(0, int(time.time() * 1000), None, b"payment %d" % sequence, [])
    made = bytearray(builder.build())
    made[-1] ^= spoil
    return bytes(made)


class Raw:
    """Connections to all brokers, over which batches go as they are."""

    def __init__(self, servers):
        self.connections = []
        for server in servers.split(","):
            host, port = server.split(":")
            made = BrokerConnection(host, int(port), 0, api_version=(2, 0))
            check(f"connected to {server}", made.connect_blocking(LONG))
            self.connections.append(made)

    def produce(self, made):
        """What the leader answers: an error's code, and the offset."""
        request = ProduceRequest[3](transactional_id=None, required_acks=-1, timeout=5000, topics=[(TOPIC, [(0, made)])])
        for connection in self.connections:
            code, offset = self.answer(connection, request)
            if code != 6:  # NOT_LEADER_OR_FOLLOWER
                return code, offset
        sys.exit("no broker leads")

    @staticmethod
    def answer(connection, request):
        answered = connection.send(request)
        while not answered.is_done:
            for reply, future in connection.recv():
                future.success(reply)
            time.sleep(0.001)
        return answered.value.topics[0][1][0][1:3]


def told(answer):
    code, offset = answer
    return f"stored at {offset}" if code == 0 else CODES.get(code, f"error {code}")


def differences(servers):
    """What there is to be seen, and what was."""
    values = aborted(servers)
    raw = Raw(servers)
    first = raw.produce(batch(0))
    again = raw.produce(batch(0))
    same = "once" if first == again else "twice"
    return {"shown of first, aborted, third": ", ".join(values), "the same batch again": f"stored {same}",
            "a gap in the sequence": told(raw.produce(batch(9))), "a wrong checksum": told(raw.produce(batch(1, spoil=True))),
            "oldest offset after 8 MB": str(oldest(servers))}


def main():
    with tempfile.TemporaryDirectory() as room:
        here = differences(Host(topic=TOPIC).bootstrap)
        mock = differences(Mock(room).bootstrap)
    for what in here:
        print(f"{what:32} kpart-broker: {here[what]:30} mock: {mock[what]}")
    wanted = ["first, third", "stored once", CODES[45], CODES[2], "0"]
    check("kpart-broker does as Kafka does", list(here.values()) == wanted, here)


main()
