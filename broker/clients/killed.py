"""confluent_kafka: a broker with a folder is killed (kill -9) and started again at the same ports, while its clients go on.

    killed.py KILLS [SEED]

Producers that are idempotent, aren't, and have transactions over two partitions and a group's offsets, and a group's consumer that commits: what they
were told has to be there in the end, once and in order, and what was aborted isn't shown (told.py).
"""
import random
import shutil
import sys
import tempfile
import time

import told
from host import Host, check, free_ports, own_address
from told import COMMITTED

KILLS, SEED = int(sys.argv[1]), int(sys.argv[2]) if len(sys.argv) > 2 else 1
CHANCE, NODES, PARTITIONS, TOPIC = random.Random(SEED), 3, 2, "payments"
FOLDER = tempfile.mkdtemp(prefix="kpart-killed-")
ADDRESS = own_address()
BASE = free_ports(ADDRESS, NODES, CHANCE)


def start():
    return Host("--data", FOLDER, "--listen", ADDRESS, "--port", str(BASE), nodes=NODES, topic=f"{TOPIC}:{PARTITIONS}")


def holds(what, call, *words):
    """What the call finds; it has to find nothing wrong."""
    try:
        found = call(*words)
    except told.Wrong as why:
        check(what, False, why)
    check(what, True)
    return found


try:
    HOST = start()
    CLIENTS = told.clients_of(HOST.bootstrap, TOPIC, PARTITIONS, SEED)
    for client in CLIENTS:
        client.start()
    for _ in range(KILLS):
        time.sleep(0.3 + CHANCE.random())
        HOST.end()
        HOST = start()
    time.sleep(1.0)
    for client in CLIENTS:
        holds(f"{client.name} has ended, and nothing has failed", client.end)
    THERE = holds("all that they were told is there, and nothing else is shown", told.check, CLIENTS, HOST)
    check("nothing is open", all(records[-1][0] < end for records, end in zip(THERE.all, THERE.ends)), THERE.ends)
    *PRODUCING, ONE, TWO, GROUP = [client.note() for client in CLIENTS]
    check("producers were told of each record", all(len(it.told) == len(it.placed) for it in PRODUCING), list(map(str, PRODUCING)))
    COUNT = sum(len(it.numbers(COMMITTED)) for it in (ONE, TWO))
    print(f"{KILLS} kills: {sum(len(it.told) for it in PRODUCING)} records, {COUNT} transactions, offsets {GROUP.told}")
    check("much was told", all(len(it.told) > KILLS for it in PRODUCING) and COUNT > KILLS and sum(GROUP.told) > 0)
finally:
    shutil.rmtree(FOLDER, ignore_errors=True)
