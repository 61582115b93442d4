"""A payment service: it orders payments through the topic `payments`, and a worker books them into a ledger.

    payments.py order BOOTSTRAP [NAME=VALUE..]          orders a payment for each line of standard input, as `11 anna ben 250`, and says
                                                        `acknowledged 11` once it stands
    payments.py book BOOTSTRAP LEDGER [NAME=VALUE..]    books each payment that was ordered into the SQLite file LEDGER, in a group

NAME=VALUE is a property of librdkafka, over those below. `commit=before` is the worker's own: it commits its offset before its work.
"""
import sqlite3
import sys
from dataclasses import dataclass
from urllib.parse import parse_qsl, urlencode

from confluent_kafka import Consumer, KafkaException, Producer

TOPIC, GROUP = "payments", "ledger"
# An idempotent producer waits for all replicas in sync, too (acks=all).
ORDERING = {"enable.idempotence": "true", "acks": "all", "message.timeout.ms": "30000"}
BOOKING = {"group.id": GROUP, "auto.offset.reset": "earliest", "enable.auto.commit": "false"}
TABLE = """CREATE TABLE IF NOT EXISTS booked (partition INTEGER, place INTEGER, id INTEGER, payer TEXT, payee TEXT, amount INTEGER,
           PRIMARY KEY (partition, place))"""


@dataclass(frozen=True)
class Payment:
    """An amount in cents that goes from one account to another one. The id is the customer's order."""
    id: int
    payer: str
    payee: str
    amount: int

    @staticmethod
    def of_words(line):
        number, payer, payee, amount = line.split()
        return Payment(int(number), payer, payee, int(amount))

    @staticmethod
    def of_record(value):
        fields = dict(parse_qsl(value.decode(), strict_parsing=True))
        return Payment(int(fields["id"]), fields["from"], fields["to"], int(fields["amount"]))

    def record(self):
        """The value of its record."""
        return urlencode({"id": self.id, "from": self.payer, "to": self.payee, "amount": self.amount})


class Ledger:
    """The bookings, in a file that other processes may read and write, too."""

    def __init__(self, path):
        self.file = sqlite3.connect(path, timeout=60)
        with self.file:
            self.file.execute(TABLE)

    def book(self, payment, partition, place):
        """Books what stands at that place of the topic, once: what comes again is there."""
        with self.file:
            self.file.execute("INSERT OR IGNORE INTO booked VALUES (?, ?, ?, ?, ?, ?)",
                              (partition, place, payment.id, payment.payer, payment.payee, payment.amount))

    def all(self):
        """Each booked payment, in the order of the topic."""
        return [Payment(*row) for row in self.file.execute("SELECT id, payer, payee, amount FROM booked ORDER BY partition, place")]

    def end(self):
        """The place behind the last booked one."""
        return self.file.execute("SELECT coalesce(max(place) + 1, 0) FROM booked").fetchone()[0]


def say(line):
    print(line, flush=True)


def answer(payment, error):
    say(f"failed {payment.id}: {error}" if error else f"acknowledged {payment.id}")


def order(bootstrap, properties):
    """Takes orders one by one; a customer is told Yes once the payment stands."""
    producer = Producer({"bootstrap.servers": bootstrap, **ORDERING, **properties})
    for payment in map(Payment.of_words, sys.stdin):
        producer.produce(TOPIC, payment.record(), key=payment.payer, on_delivery=lambda error, _: answer(payment, error))
        producer.flush()


def commit(consumer, message):
    """Where it fails, as in a rebalance, the next one makes up for it."""
    try:
        consumer.commit(message, asynchronous=False)
    except KafkaException as why:
        print(f"not committed: {why}", file=sys.stderr)


def book(bootstrap, path, properties, commits_before):
    """Books payment after payment. Of a worker that dies the next one has to find again what it had in hand."""
    consumer = Consumer({"bootstrap.servers": bootstrap, **BOOKING, **properties})
    ledger = Ledger(path)
    consumer.subscribe([TOPIC])
    while True:
        message = consumer.poll(1.0)
        if message is None or message.error():
            continue
        payment = Payment.of_record(message.value())
        if commits_before:
            commit(consumer, message)
        say(f"books {payment.id}")
        ledger.book(payment, message.partition(), message.offset())
        if not commits_before:
            commit(consumer, message)


def main(words):
    properties = dict(word.split("=", 1) for word in words if "=" in word)
    commits_before = properties.pop("commit", "after") == "before"
    what, *others = [word for word in words if "=" not in word] or ["help"]
    if what == "order" and len(others) == 1:
        order(*others, properties)
    elif what == "book" and len(others) == 2:
        book(*others, properties, commits_before)
    else:
        sys.exit(__doc__)


if __name__ == "__main__":
    main(sys.argv[1:])
