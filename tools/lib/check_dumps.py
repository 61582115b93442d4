"""Has the other library build the batches of some logs, listed ones and ones by chance, and compares the dumps of these logs.

They get base offsets and leader epochs as a broker stamps them, and the dump of each log is compared with what was put in.
"""
from collections import Counter

from .batch import PLAIN, Batch, end_of
from .compare import Check, called, compare_all, same, same_lines
from .definitions import dump
from .kept_files import records_of, stamped
from .logs import PAIRS, Maker
from .other_library import LISTED, built, version

BATCHES = 60


def check_dump(where, program, room, data, limit, interval, log):
    """Compares the dump of a log's bytes with that of its batches."""
    path = f"{room}/joined.log"
    with open(path, "wb") as file:
        file.write(data)
    out, complaint, status = called(program, "inspect", path, "--segment", str(limit), "--interval", str(interval))
    same_lines(f"{where}: dump", out, "".join(f"{line}\n" for line in dump(limit, interval, log)))
    same(f"{where}: complaint and status of the inspection", (complaint, status), ("", 0))


class Writer(Maker):
    """Makes a log by chance, as the log of kp_rows is made, but of batches that the library builds."""

    def add(self, records, time, attributes=0, kind="data", producer=PLAIN):
        """Has the library build what was encoded."""
        super().add(records, time, attributes, kind, producer)
        _, found = records_of(self.log.pop())
        self.write([(it.timestamp, it.key, it.value, it.headers) for it in found], kind, producer)

    def write(self, records, kind, producer):
        """Puts a batch at the log's end, as a broker does. Its line is said of what is put in."""
        base = end_of(self.log)
        data = stamped(built(records, kind, producer), base, self.epoch)
        greatest = max(time for time, *_ in records)
        self.log.append(Batch(data, base, base + len(records) - 1, self.epoch, greatest, producer, kind))


def written(seed):
    """The listed log, whose leader epoch rises with every third batch, for seed 0; for others one by chance."""
    writer = Writer(seed)
    if seed:
        while len(writer.log) < BATCHES:
            writer.step()
        writer.last_steps()
        return writer.log
    for place, batch in enumerate(LISTED):
        writer.epoch = place // 3 * 1000
        writer.write(*batch)
    return writer.log


def check_written(program, room, seed):
    """Compares the dumps of a log that the library writes with what was put in."""
    log = written(seed)
    for pair in PAIRS:
        check_dump(f"by {pair}", program, room, b"".join(b.data for b in log), *pair, log)
    return Counter(logs=1, inspected=len(log), dumps=len(PAIRS))


def check(program, first=1, count=23):
    """How many logs differ: the listed one, and those of so many seeds from the first one on."""
    tally, differ = compare_all(program, [Check(f"log {seed} of the library", check_written, seed)
                                          for seed in [0, *range(first, first + count)]])
    print(f"{tally['logs']} logs of {tally['inspected']} batches written by python3-kafka {version} and inspected; "
          f"{differ} differ")
    return differ
