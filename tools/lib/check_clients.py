"""Has the other library write the batches of client_batches.py anew, and compares; and hands them to the program.

What no batch of the library has of what a client sends is patched into one, and the checksum is mended by the library's own sum. A
compressed batch holds the time at which it was compressed, which is 0 here.
"""
import struct
import time
from collections import Counter
from unittest import mock

from .batch import PLAIN
from .client_batches import LARGE, SENT, large_front, large_trace, script, trace
from .compare import Check, called, compare_all, same, same_lines
from .other_library import DefaultRecordBatchBuilder, LegacyRecordBatchBuilder, calc_crc32c, version

NOW, GZIP, ROOM = 1_700_000_000_000, 1, 2 ** 21
HEADERS = [("trace", b"\x00\xff"), ("empty", b""), ("null", None), ("trace", b"again"), ("é", b"1")]


# As the library writes them

def finished(builder):
    with mock.patch.object(time, "time", lambda: 0):
        return bytes(builder.build())


def of_format_2(*records, compression=0, producer=PLAIN, is_transactional=False):
    """A batch of timestamps, keys, values and headers."""
    builder = DefaultRecordBatchBuilder(2, compression, is_transactional, *producer, ROOM)
    for place, record in enumerate(records):
        assert builder.append(place, *record), "there is room for each record"
    return finished(builder)


def one(value=b"a", producer=PLAIN, **others):
    return of_format_2((NOW, None, value, []), producer=producer, **others)


def of_format(magic, *values, compression=0):
    """Messages of format 0 or 1 with these values, one behind the other."""
    builder = LegacyRecordBatchBuilder(magic, compression, ROOM)
    for place, value in enumerate(values):
        assert builder.append(place, NOW, None, value), "there is room for each message"
    return finished(builder)


# What is patched into them: a field each, and the checksum

def patched(data, *changes):
    data = bytearray(data)
    for place, code, number in changes:
        struct.pack_into(code, data, place, number)
    struct.pack_into(">I", data, 17, calc_crc32c(data[21:]))
    return bytes(data)


def greatest_time(time):
    return 35, ">q", time


def base_sequence(sequence):
    return 53, ">i", sequence


def in_latin_1():
    """A header key of one byte, for which é stands as Latin-1 has it."""
    data = of_format_2((NOW, None, b"a", [("e", b"1")]))
    return patched(data, (data.index(b"\x02e\x021") + 1, ">B", "é".encode("latin-1")[0]))


def written():
    """The bytes by the names of client_batches.py."""
    second, first = one(b"second", (9, 0, 1)), one(b"first", (9, 0, 0))
    return {
        "one record": one(),
        "three records": of_format_2((NOW, b"k", b"v", []), (NOW + 1, None, None, []), (NOW - 1, b"", b"", [])),
        "headers": of_format_2((NOW, None, b"a", HEADERS)),
        "second batch first": second, "first batch": first, "second batch": second, "first batch again": first,
        "transactional": one(b"t", (12, 0, 0), is_transactional=True),
        "gzip": one(b"a" * 100, compression=GZIP),
        "format 0, small": of_format(0, b"a"),
        "format 0, large": of_format(0, b"a" * 100),
        "format 0, two small ones": of_format(0, b"a" * 9, b"b" * 9),
        "format 1, small": of_format(1, b"a"),
        "format 1, large": of_format(1, b"a" * 100),
        "format 1, two large ones": of_format(1, b"a" * 40, b"b" * 40),
        "format 1, gzip": of_format(1, b"a" * 100, b"b" * 100, compression=GZIP),
        "two batches": one() + one(b"b"),
        "header key in Latin-1": in_latin_1(),
        "sarama, no producer": patched(one(), greatest_time(-1), base_sequence(0)),
        "sarama, a producer": patched(one(b"a", (40, 0, 0)), greatest_time(-1)),
        "base sequence 0 alone": patched(one(), base_sequence(0)),
        "time before 1970": of_format_2((-1, None, b"a", [])),
        "a later time before 1970": of_format_2((1000, None, b"a", []), (-1, None, b"b", [])),
        "maxTimestamp of the last record": patched(of_format_2((NOW + 5, None, b"a", []), (NOW, None, b"b", [])),
                                                   greatest_time(NOW)),
    }


def show():
    """Prints the bytes of each, as the library writes them now."""
    for name, data in written().items():
        print(f"{name}: {data.hex()}")
    for large in LARGE:
        print(f"{large.size:,} bytes: {one(bytes(large.zeros - 1))[:-large.zeros].hex()}, and {large.zeros} zeros")


# Checks

def check_bytes(program, room, subject):
    """Compares stored bytes with those that the library writes."""
    stored, found = subject
    same("what the library writes", found.hex(), stored.hex())
    return Counter(batches=1)


def check_large(program, room, large):
    """Compares such a batch with what the library writes, and hands it in."""
    found = one(bytes(large.zeros - 1))
    same("size", len(found), large.size)
    same("what the library writes", found == large.front + bytes(large.zeros), True)
    return Counter(batches=1) + check_script(program, room, (large_front(large) + b"00" * large.zeros, large_trace(large)))


def check_script(program, room, subject):
    """Runs a script whose trace is known."""
    text, wanted = subject
    path = f"{room}/script"
    with open(path, "wb") as file:
        file.write(text)
    out, complaint, status = called(program, "run", path)
    same_lines("trace", out, wanted)
    same("complaint and status", (complaint, status), ("", 1 if " F" in wanted else 0))
    return Counter(scripts=1)


def check(program):
    """How many checks differ: one for each batch, and one for the script that hands them in."""
    found = written()
    assert [it.name for it in SENT] == list(found), "each batch is written anew"
    checks = [Check(it.name, check_bytes, (it.data, found[it.name])) for it in SENT]
    checks += [Check(f"{it.size:,} bytes", check_large, it) for it in LARGE]
    checks.append(Check("all in one script", check_script, (script(), trace())))
    tally, differ = compare_all(program, checks)
    print(f"{tally['batches']} batches as python3-kafka {version} writes them, {tally['scripts']} scripts that hand them in; "
          f"{differ} differ")
    return differ
