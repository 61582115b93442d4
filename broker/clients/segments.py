"""confluent_kafka: the segments that a broker with a folder leaves are logs of Kafka's batches.

Read by python3-kafka where it is installed, by this repository's decoder in Python (tools/lib/decoder.py), and by `kpart inspect` where the program
is built or KPART names it. Each has to find just what the consumers are shown.
"""
import glob
import os
import shutil
import subprocess
import sys
import tempfile

from confluent_kafka import Producer
from host import LONG, QUICK, Host, check
from reading import read

TOP = os.path.dirname(os.path.dirname(os.path.dirname(os.path.abspath(__file__))))
sys.path.insert(0, f"{TOP}/tools")
from lib.decoder import inspect

PROGRAM = os.environ.get("KPART", f"{TOP}/crates/kpart/out/kpart")
SEGMENT, INTERVAL = 1 << 30, 4096
FOLDER = tempfile.mkdtemp(prefix="kpart-segments-")


def write(host):
    """A plain producer's records, then a transaction that commits, and one that is aborted."""
    plain = Producer({"bootstrap.servers": host.bootstrap, "enable.idempotence": True, **QUICK})
    for number in range(50):
        plain.produce(host.topic, value=f"plain {number}".encode(), key=str(number).encode(), partition=0)
    left = plain.flush(LONG)
    made = Producer({"bootstrap.servers": host.bootstrap, "transactional.id": "one", **QUICK})
    made.init_transactions(LONG)
    for commits in (True, False):
        made.begin_transaction()
        made.produce(host.topic, value=f"txn {commits}".encode(), partition=0)
        made.flush(LONG)
        (made.commit_transaction if commits else made.abort_transaction)(LONG)
    check("all is acknowledged", left == 0)


def by_kafka_python(data, wanted):
    try:
        from kafka.record import MemoryRecords
    except ImportError:
        print("by python3-kafka: SKIPPED, it isn't installed")
        return
    records, found = MemoryRecords(data), []
    while records.has_next():
        batch = records.next_batch()
        if batch.validate_crc() and not batch.is_control_batch:
            found += [record.value.decode() for record in batch]
    check("python3-kafka reads them", found == wanted, len(found))


def by_inspect(path, lines, status):
    if not os.access(PROGRAM, os.X_OK):
        print("by kpart inspect: SKIPPED, the program isn't built")
        return
    ran = subprocess.run([PROGRAM, "inspect", path], stdout=subprocess.PIPE, check=False, text=True)
    check("kpart inspect prints the same", (ran.stdout.splitlines(), ran.returncode) == (lines, status), ran.stdout[-300:])


try:
    HOST = Host("--data", FOLDER)
    write(HOST)
    WANTED = read(HOST.bootstrap, HOST.topic, "read_uncommitted")
    HOST.end()
    FILES = sorted(glob.glob(f"{FOLDER}/payments-0/node-*/*.log"))
    check("each node has a segment", [os.path.basename(it) for it in FILES] == ["0" * 20 + ".log"] * HOST.nodes, FILES)
    LOGS = [open(it, "rb").read() for it in FILES]
    check("with the same bytes", LOGS[0] and LOGS.count(LOGS[0]) == HOST.nodes)
    LINES, STATUS = inspect(LOGS[0], SEGMENT, INTERVAL)
    check("they have no fault, two markers, and all records", STATUS == 0 and LINES[-1] == f"end {len(WANTED) + 2}", LINES[-1])
    check("the aborted transaction is named", sum(it.startswith("aborted ") for it in LINES) == 1)
    by_kafka_python(LOGS[0], WANTED)
    by_inspect(FILES[0], LINES, STATUS)
    print("by Kafka's own dump tool: SKIPPED, it isn't here")
finally:
    shutil.rmtree(FOLDER, ignore_errors=True)
