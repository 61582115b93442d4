"""Reads record batches and whole logs, by the format alone (docs/FORMATS.md, 'Reading bytes').

The tests stand in the order of the format, and the first that fails is the answer. tools/rows holds this decoder to
the table of tools/lib/batches.py, whose outcomes were worked out by hand.
"""
import struct
from typing import NamedTuple

from .batch import GREATEST_EPOCH, PLAIN, TOP, Batch, crc32c, end_of
from .definitions import batch_lines, dump

MAX_BATCH = 1_048_576


class Refused(Exception):
    """A refusal, as the trace has it."""


class Value(NamedTuple):
    """A record as it was read: its timestamp's difference, key and value."""
    delta: int
    key: bytes
    value: bytes


class Reader:
    """Reads a record's fields; whatever can't be read is one fault."""

    def __init__(self, data, place):
        self.data, self.place = data, place

    def take(self, count):
        if count < 0 or self.place + count > len(self.data):
            raise ValueError
        self.place += count
        return self.data[self.place - count:self.place]

    def number(self, bits=32):
        """A number in its shortest spelling, of at most so many bits."""
        groups = []
        while not groups or groups[-1] > 127:
            groups += self.take(1)
        raw = sum((group % 128) << 7 * k for k, group in enumerate(groups))
        if raw >= 2 ** bits or len(groups) > 1 and groups[-1] == 0:
            raise ValueError
        return raw // 2 if raw % 2 == 0 else -(raw + 1) // 2

    def text(self, least=-1):
        """Bytes behind their length; null is -1, where that may be."""
        length = self.number()
        if length < least:
            raise ValueError
        return None if length == -1 else self.take(length)

    def headers(self):
        count = self.number()
        if count < 0:
            raise ValueError
        for _ in range(count):
            self.text(least=0).decode("utf-8")
            self.text()
        return count


def record_at(data, place, index, time):
    """The record that begins at this place, where the next one begins, and how many headers it has."""
    outer = Reader(data, place)
    inner = Reader(outer.take(outer.number()), 0)
    if inner.take(1) != b"\0":
        raise ValueError
    delta = inner.number(64)
    if inner.number() != index or not 0 <= time + delta <= TOP:
        raise ValueError
    found = Value(delta, inner.text(), inner.text())
    headers = inner.headers()
    if inner.place != len(inner.data):
        raise ValueError
    return found, outer.place, headers


def records_in(data, count, time):
    """All records, and the sum of their headers. A refusal names the first byte of the faulty one."""
    place, found, headers = 61, [], 0
    for index in range(count):
        try:
            one, behind, more = record_at(data, place, index, time)
        except ValueError:
            raise Refused(f"F8 BadRecord {place}") from None
        found, place, headers = found + [one], behind, headers + more
    if place != len(data):
        raise Refused(f"F8 BadRecord {place}")
    return found, headers


def marker_kind(records, headers):
    """What a control batch says."""
    one = records[0]
    is_marker = (len(records) == 1 and headers == 0 and one.delta == 0
                 and one.key is not None and len(one.key) == 4 and one.key[:3] == bytes(3) and one.key[3] < 2
                 and one.value is not None and len(one.value) == 6 and one.value[:2] == bytes(2)
                 and one.value[2] < 128)
    if not is_marker:
        raise Refused("F8 BadRecord 61")
    return f"{('abort', 'commit')[one.key[3]]} {struct.unpack('>i', one.value[2:])[0]}"


def frame(data):
    """The size that the front of the bytes says, by the tests of the length."""
    if len(data) < 61:
        raise Refused("F1 Truncated")
    length = struct.unpack(">i", data[8:12])[0]
    if length < 49:
        raise Refused("F3 BadLength")
    if 12 + length > MAX_BATCH:
        raise Refused("F9 TooLarge")
    if len(data) < 12 + length:
        raise Refused("F1 Truncated")
    return 12 + length


def producer_is_lawful(attributes, pid, epoch, sequence):
    """Whether producer id, producer epoch and base sequence go together with the attributes."""
    if attributes & 0x20:
        return pid >= 0 and epoch >= 0 and sequence == -1
    if attributes & 0x10 or (pid, epoch, sequence) != PLAIN:
        return pid >= 0 and epoch >= 0 and sequence >= 0
    return True


class Read(NamedTuple):
    """A batch as it was read, and the values of its records."""
    batch: Batch
    values: list


def read(data):
    """The batch that the bytes are; else the first test that fails."""
    if frame(data) != len(data):
        raise Refused("F3 BadLength")
    base, _, epoch, magic, crc, attributes, last, time, most, pid, pepoch, sequence, count = struct.unpack(
        ">qiibIHiqqqhii", data[:61])
    if magic != 2:
        raise Refused("F2 BadMagic")
    if crc != crc32c(data[21:]):
        raise Refused("F4 BadCrc")
    if attributes & 7:
        raise Refused("F5 Compressed")
    if attributes & ~0x30 or attributes == 0x20:
        raise Refused("F6 BadAttributes")
    if not (0 <= base and base + last <= TOP and -1 <= epoch <= GREATEST_EPOCH and count >= 1
            and last == count - 1 and 0 <= time <= TOP and 0 <= most <= TOP):
        raise Refused("F7 BadCount")
    if not producer_is_lawful(attributes, pid, pepoch, sequence):
        raise Refused("F10 BadProducerFields")
    records, headers = records_in(data, count, time)
    kind = {0: "data", 0x10: "txn"}.get(attributes) or marker_kind(records, headers)
    if most != time + max(one.delta for one in records):
        raise Refused("F7 BadCount")
    return Read(Batch(data, base, base + last, epoch, most, (pid, pepoch, sequence), kind),
                [one.value for one in records])


# Logs

def next_batch(data, log):
    """The batch in front of the bytes, where the log takes it."""
    found = read(data[:frame(data)]).batch
    if found.base != end_of(log):
        raise Refused("F26 NotNext")
    if found.epoch < (log[-1].epoch if log else 0):
        raise Refused("F27 EpochBack")
    return found


def inspect(data, limit, interval):
    """The lines of the dump of these bytes, and the exit status."""
    log, place = [], 0
    while place < len(data):
        try:
            log.append(next_batch(data[place:], log))
        except Refused as refusal:
            return batch_lines(log) + [f"fault {refusal} at {place}"], 1
        place += log[-1].size
    return dump(limit, interval, log), 0
