"""Batches that claim more than they hold, and what the program asks for where it reads one (tools/refuse claims).

A claim is a length or a count, of up to the greatest number that its field can say, with the checksum right; the bytes can't hold what
it says. `pairs` has each beside a lawful batch of as many bytes. The program has to answer both as the rules say, and where it
reads the claim no growth of memory may ask for more than the greatest where it reads the other, nor all of them together for more.
"""
from functools import lru_cache
from typing import NamedTuple

from .chances import lines
from .encoder import batch, record, varint
from .refused_rows import Dump, Run

GREATEST = 2 ** 31 - 1
LENGTHS = (GREATEST, 2 ** 30, 1_048_576, 65_536, -2 ** 31, varint(2 ** 31), varint(2 ** 62), varint(-2 ** 63))
FRONT = ("nodes 1 segment 1024 interval 0", "elect 0", "adopt 0")


class Pair(NamedTuple):
    """A claim and a lawful batch of as many bytes, or a few more, each as a row of calls."""
    name: str
    claim: object
    lawful: object


def one(place=0, filled=0, **fields):
    """A record that has all fields."""
    given = {"value": b"v" * filled, "key": b"k", "headers": [(b"h", b"1")], **fields}
    return record(place=place, **given)


# Each field of a record that says a length or a count, where it says this one

FIELDS = {
    "record length": lambda said: {"length": said},
    "key length": lambda said: {"key": (b"k", said)},
    "value length": lambda said: {"value": (b"v", said)},
    "header count": lambda said: {"count": said},
    "header key length": lambda said: {"headers": [((b"h", said), b"1")]},
    "header value length": lambda said: {"headers": [(b"h", (b"1", said))]},
}


def shown(said):
    return f"of {len(said)} bytes" if isinstance(said, bytes) else f"{said:,}"


def claims():
    """Each claim by its name, with how many records stand there."""
    for said in (GREATEST, 2 ** 30, 1_048_565, 1_048_564, -1, -2 ** 31):
        yield f"batch length {said:,}", 1, batch(one(), epoch=0, length=said)
    for said in (GREATEST, GREATEST - 1, 2 ** 24, 1_048_576, 65_536, -1, -2 ** 31):
        yield f"records count {said:,}", 1, batch(one(), epoch=0, count=said, last=max(said - 1, 0))
    for name, fields in FIELDS.items():
        for said in LENGTHS:
            yield f"{name} {shown(said)}", 1, batch(one(**fields(said)), epoch=0)
            yield f"second {name} {shown(said)}", 2, batch(one(), one(1, **fields(said)), epoch=0)


def lawful(count, size):
    """The least lawful batch of this kind of so many records that has at least so many bytes."""
    filled = 0
    while True:
        found = batch(*(one(place) for place in range(count - 1)), one(count - 1, filled), epoch=0)
        if len(found) >= size:
            return found
        filled += 1


def handed(data):
    """The script that hands in these bytes."""
    return lines([*FRONT, f"raw 0 {data.hex()}"]).encode()


def made():
    for number, (name, count, data) in enumerate(claims()):
        other = lawful(count, len(data))
        assert len(other) <= len(data) + 2, name
        yield Pair(f"inspect: {name}", Dump(f"claim-{number}", "a.log", data), Dump(f"lawful-{number}", "a.log", other))
        yield Pair(f"run: {name}", Run(f"claim-{number}", "a.script", handed(data)), Run(f"lawful-{number}", "a.script", handed(other)))


@lru_cache(None)
def pairs():
    return [*made()]


def asked(caller, row):
    """How many bytes the call's growths ask for, the most by one, and all; and what is wrong with its answer."""
    counts, got = caller.called(row)
    return counts["most"], counts["all"], None if row.is_whole(got) else f"another answer: {got.out!r:.200}"


def compared(caller, pair):
    """What the pair's calls ask for, and what is wrong."""
    most, whole, why = asked(caller, pair.claim)
    lawful_most, lawful_whole, other = asked(caller, pair.lawful)
    told = f"asks for {most:,} bytes at once and {whole:,} in all, a lawful one for {lawful_most:,} and {lawful_whole:,}"
    if not (lawful_most and lawful_whole):
        return told, "no growth of memory was met: is the program linked statically?"
    if most > lawful_most or whole > lawful_whole:
        return told, told
    return told, why or other
