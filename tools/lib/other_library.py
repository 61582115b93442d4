"""Debian's python3-kafka, another reader and writer of record batches, and the batches that it is asked to build.

Where this python3 hasn't got it, Debian's own is called instead; where that hasn't either, nothing is checked: a line says so, and
the exit status is 0.
"""
import os
import sys

from .batch import PLAIN, TOP

DEBIAN = "/usr/bin/python3"  # the one that has Debian's packages
try:
    from kafka import __version__ as version
    from kafka.errors import CorruptRecordException
    from kafka.record.default_records import DefaultRecordBatch, DefaultRecordBatchBuilder
    from kafka.record.legacy_records import LegacyRecordBatchBuilder
    from kafka.record.memory_records import MemoryRecords
    from kafka.record.util import calc_crc32c
except ImportError:
    if sys.executable != DEBIAN and os.access(DEBIAN, os.X_OK):
        os.execv(DEBIAN, [DEBIAN, *sys.argv])
    print("tools/chance: SKIPPED, nothing was checked: python3-kafka isn't installed")
    sys.exit(0)


class MarkerBuilder(DefaultRecordBatchBuilder):
    """Builds a control batch, which the library leaves to brokers."""

    def _get_attributes(self, *words):
        return super()._get_attributes(*words) | self.CONTROL_MASK


def built(records, kind, producer):
    """A batch of timestamps, keys, values and headers."""
    form = DefaultRecordBatchBuilder if kind in ("data", "txn") else MarkerBuilder
    builder = form(magic=2, compression_type=0, is_transactional=kind != "data", producer_id=producer[0],
                   producer_epoch=producer[1], base_sequence=producer[2], batch_size=2 ** 20)
    for place, record in enumerate(records):
        assert builder.append(place, *record), "there is room for each record"
    return bytes(builder.build())


ABORT, COMMIT, COORDINATED = bytes(4), bytes([0, 0, 0, 1]), bytes([0, 0, 0, 0, 0, 7])
HEADERS = [("h", b"1"), ("h", b"1"), ("", None), ("é€😀", b""), ("trace", bytes(range(256)))]

# Records, kind and producer of each batch of the listed log. The transaction of producer 12 stays open.
LISTED = [
    ([(1000, None, b"a", [])], "data", PLAIN),
    ([(0, b"k", b"v", []), (TOP, None, None, []), (1, b"", b"", HEADERS), (TOP - 1, b"k" * 300, None, [])], "data", PLAIN),
    ([(TOP, None, b"\xff\x00", HEADERS), (0, b"\xc0\x80", None, []), (2 ** 31, None, b"", [])], "data", PLAIN),
    ([(place * 10 ** 15, b"%d" % place, b"v" * place, []) for place in range(300)], "data", (7, 3, 0)),
    ([(5, None, b"x" * 1_000_000, [])], "data", (7, 3, 300)),
    ([(5, None, b"x", [])] * 3, "data", (9, 0, 2 ** 31 - 2)),
    ([(2000, b"k", b"v", HEADERS), (1990, None, b"w", [])], "txn", (2 ** 63 - 1, 32767, 0)),
    ([(2000, None, b"v", [])], "txn", (12, 0, 0)),
    ([(1980, None, b"x", [])], "txn", (2 ** 63 - 1, 32767, 2)),
    ([(2000, b"k", b"v", [])], "txn", (5, 1, 0)),
    ([(2010, ABORT, COORDINATED, [])], "abort 7", (2 ** 63 - 1, 32767, -1)),
    ([(2011, COMMIT, COORDINATED, [])], "commit 7", (5, 1, -1)),
    ([(2020, None, None, [])], "txn", (5, 1, 1)),
    ([(2021, ABORT, COORDINATED, [])], "abort 7", (5, 1, -1)),
    ([(0, None, b"last", [])], "data", (0, 0, 0)),
]
