"""An encoder of record batches, of its own. It reads nothing, and also spells what no batch may have: each field can be given.

It was written from the format (Kafka protocol guide, 'Record Batch'; docs/FORMATS.md).
"""
import struct

from .batch import crc32c

# Numbers

def varint(number):
    """The shortest spelling; bytes stand for a spelling that is given."""
    if isinstance(number, bytes):
        return number
    rest = 2 * number if number >= 0 else -2 * number - 1
    groups = []
    while rest > 127:
        groups.append(rest % 128 + 128)
        rest //= 128
    return bytes(groups + [rest])


def hexed(text):
    return bytes.fromhex(text)


# Records and batches

def text(value, length=None):
    """A length, -1 for null, and the bytes. Another length may be given."""
    if isinstance(value, tuple):
        value, length = value
    if length is None:
        length = -1 if value is None else len(value)
    return varint(length) + (value or b"")


def record(value=b"a", key=None, delta=0, place=0, headers=(), attributes=0, count=None,
           length=None, more=b""):
    inner = bytes([attributes]) + varint(delta) + varint(place) + text(key) + text(value)
    inner += varint(len(headers) if count is None else count)
    for name, said in headers:
        inner += text(name) + text(said)
    inner += more
    return varint(len(inner) if length is None else length) + inner


def batch(*records, base=0, length=None, epoch=-1, magic=2, crc=None, attributes=0, last=None,
          time=1000, most=None, producer=(-1, -1, -1), count=None):
    count = len(records) if count is None else count
    covered = struct.pack(
        ">Hiqqqhii", attributes, count - 1 if last is None else last, time,
        time if most is None else most, *producer, count,
    ) + b"".join(records)
    length = 9 + len(covered) if length is None else length
    crc = crc32c(covered) if crc is None else crc
    return struct.pack(">qiibI", base, length, epoch, magic, crc) + covered


KEY, VALUE = hexed("00000001"), hexed("000000000007")


def end(key=KEY, value=VALUE, **fields):
    return record(value, key, **fields)


def marker(*records, attributes=0x30, producer=(5, 0, -1), time=20, **fields):
    return batch(*(records or (end(),)), attributes=attributes, producer=producer, time=time,
                 **fields)


# What is known of docs/FORMATS.md
assert batch(record())[61:] == record() == hexed("0e00000001026100") and len(batch(record())) == 69
assert marker()[61:] == end() == hexed("2000000008000000010c00000000000700")
assert len(marker()) == 78 and marker()[8:12] == hexed("00000042")
