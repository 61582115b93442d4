"""What the encoder and the readers of record batches share: the greatest numbers, the checksum, and a batch of a log."""
from typing import NamedTuple

# The greatest offset and timestamp, the greatest leader epoch, and the producer fields of a batch that has no producer.
TOP, GREATEST_EPOCH = 2 ** 62 - 1, 2 ** 24 - 2
PLAIN = (-1, -1, -1)


class Batch(NamedTuple):
    """A batch of a log: its bytes, and what its line says of it."""
    data: bytes
    base: int
    last: int
    epoch: int
    time: int
    producer: tuple = PLAIN
    kind: str = "data"

    @property
    def size(self):
        return len(self.data)


def end_of(log):
    """The offset after the last record."""
    return log[-1].last + 1 if log else 0


def total(batches):
    """The bytes of these batches."""
    return sum(b.size for b in batches)


def eight_bits(register):
    for _ in range(8):
        register = register >> 1 ^ (0x82F63B78 if register & 1 else 0)
    return register


OF_BYTE = [eight_bits(byte) for byte in range(256)]


def crc32c(data):
    register = 0xFFFFFFFF
    for byte in data:
        register = register >> 8 ^ OF_BYTE[(register ^ byte) & 255]
    return register ^ 0xFFFFFFFF


assert crc32c(b"123456789") == 0xE3069283
