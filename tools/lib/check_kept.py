"""Has the other library read the files that `kpart run SCRIPT --keep FOLDER` leaves, and compares what it reads.

The scripts are those of examples/, one of segments that are just full, one that hands in batches which the library
built, and one by chance for each seed. For each run tools/lib/kept_files.py says by the rules alone what it leaves.
"""
import glob
import os
import struct
from collections import Counter

from .chances import lines
from .check_dumps import check_dump
from .compare import TOP, Check, Differs, called, compare_all, same, same_lines
from .kept_files import Head, Marker, Record, by_chance, files, marker_said, of_sizes, play, record_text, said, state_text
from .other_library import LISTED, CorruptRecordException, DefaultRecordBatch, MemoryRecords, built, version


# What the library reads

def head_read(batch, data):
    """The library names most fields of a head. The others stand where its layout has them."""
    _, length, leader_epoch, *_, pid, producer_epoch, sequence, count = batch.HEADER_STRUCT.unpack_from(data)
    return Head(batch.magic, 12 + length, batch.validate_crc(), batch.base_offset,
                batch.base_offset + batch.last_offset_delta, leader_epoch, batch.compression_type,
                batch.timestamp_type, batch.first_timestamp, batch.max_timestamp, pid, producer_epoch, sequence,
                batch.is_transactional, batch.is_control_batch, batch.attributes, count)


def record_read(record):
    return Record(record.offset, record.timestamp, record.timestamp_type, record.key, record.value, record.headers)


def check_batch(where, batch, data, wanted):
    """Compares field by field. Records are read once the head is right."""
    same(f"{where}: class", type(batch).__name__, DefaultRecordBatch.__name__)
    head, records = said(wanted)
    for name, *pair in zip(Head._fields, head_read(batch, data), head):
        same(f"{where}: {name}", *pair)
    for place, (read, record) in enumerate(zip(map(record_read, batch), records)):  # the library comes to the end first
        for name, *pair in zip(Record._fields, read, record):
            same(f"{where}, record {place}: {name}", *pair)
    marker = marker_said(wanted)
    if marker:
        told = struct.unpack(">hh", read.key) + struct.unpack(">hi", read.value)
        for name, *pair in zip(Marker._fields, told, marker):
            same(f"{where}: marker's {name}", *pair)
    same(f"{where}: bytes", data, wanted.data)


def check_file(where, data, run):
    """Compares a file with the batches that it has to have, and counts them and their records."""
    library, place = MemoryRecords(data), 0
    for index, wanted in enumerate(run):
        here = f"{where}, batch {index}"
        same(f"{here}: being there", library.has_next(), True)
        try:
            check_batch(here, library.next_batch(), data[place:place + wanted.size], wanted)
        except (CorruptRecordException, struct.error) as why:
            raise Differs(f"{here}: the library says {why!r}") from why
        place += wanted.size
    same(f"{where}: bytes of all its batches", len(data), place)
    return Counter(files=1, batches=len(run), records=sum(b.last - b.base + 1 for b in run))


# Runs

def bytes_of(path):
    with open(path, "rb") as file:
        return file.read()


def check_node(where, program, room, folder, run, node):
    """Compares a node's folder with its log and its state."""
    wanted = files(run.limit, node.log)
    same(f"{where}: files", sorted(os.listdir(folder)), [*wanted, "state"])
    same(f"{where}: state", bytes_of(f"{folder}/state"), state_text(node))
    tally, joined = Counter(nodes=1), b""
    for name, batches in wanted.items():
        data = bytes_of(f"{folder}/{name}")
        tally += check_file(f"{where}, {name}", data, batches)
        joined += data
    check_dump(where, program, room, joined, run.limit, run.interval, node.log)
    return tally


def check_run(program, room, script):
    """Plays a script in the program, and compares all that it leaves. Half of the folders are there before."""
    run, path, folder = play(script), f"{room}/script", f"{room}/kept"
    with open(path, "wb") as file:
        file.write(script)
    if len(script) % 2:
        os.mkdir(folder)
    out, complaint, status = called(program, "run", path, "--keep", folder)
    same("complaint and status of the run", (complaint, status), ("", run.status))
    same_lines("trace", out, run.trace)
    nodes = {f"node-{node.number}": node for node in run.world.nodes}
    same("folders", sorted(os.listdir(folder)), [*nodes, "record"])
    same("record", bytes_of(f"{folder}/record"), record_text(run.world))
    found = [check_node(name, program, room, f"{folder}/{name}", run, node) for name, node in nodes.items()]
    return sum(found, Counter(runs=1))


def check_script(program, room, path):
    with open(path, "rb") as file:
        return check_run(program, room, file.read())


def check_sizes(program, room, _):
    return check_run(program, room, of_sizes())


def check_seed(program, room, seed):
    return check_run(program, room, by_chance(seed))


def check_listed(program, room, _):
    """Hands the listed batches to a leader, which refuses what no client may send. A follower fetches the others."""
    handed = [f"raw 0 {built(*batch).hex()}" for batch in LISTED]
    script = lines(["nodes 2 segment 2048 interval 300", "elect 0", "adopt 0", "adopt 1", *handed,
                    "ask 1", "deliver 0", "deliver 1", "ask 1", "deliver 2", "deliver 3", "show 0", "show 1"])
    return check_run(program, room, script.encode())


def checks(first, count):
    examples = sorted(glob.glob(f"{TOP}/examples/*.script"))
    assert examples, "there are examples"
    return [*(Check(os.path.relpath(path, TOP), check_script, path) for path in examples), Check("sizes", check_sizes),
            Check("listed batches", check_listed),
            *(Check(f"seed {seed}", check_seed, seed) for seed in range(first, first + count))]


def check(program, first=1, count=100):
    """How many runs differ: the listed ones, and those of so many seeds from the first one on."""
    tally, differ = compare_all(program, checks(first, count))
    print(f"{tally['runs']} runs of {tally['nodes']} nodes: {tally['files']} files with {tally['batches']} batches of "
          f"{tally['records']} records read by python3-kafka {version}; {differ} differ")
    return differ
