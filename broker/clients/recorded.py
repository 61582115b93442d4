"""Loads with failovers whose brokers record them: each record, played again, is answered as it was then.

    recorded.py LOADS [FIRST]    so many loads, of kinds by turns, the first one by this number

A load is one of the other programs here, with a broker that has `--record`. What plays a record stands in tools/lib/check_recorded.py.
"""
import os
import subprocess
import sys
import tempfile

from host import check

TOP = os.path.dirname(os.path.dirname(os.path.dirname(os.path.abspath(__file__))))
sys.path.insert(0, f"{TOP}/tools")
from lib import check_recorded

LOADS, FIRST = int(sys.argv[1]), int(sys.argv[2]) if len(sys.argv) > 2 else 0
KINDS = [["failover.py", "stop", "1.5", "1"], ["failover.py", "elect", "1.5", "1"], ["transactions.py", "50", "{}"],
         ["failover.py", "cut", "1.5", "1"], ["failover.py", "plain", "1.5", "1"]]
SECONDS = 120


def scripts_in(folder):
    return sorted(f"{path}/{name}" for path, _, names in os.walk(folder) for name in names if name.endswith(".script"))


def load(number, room):
    """What a load's records have: how many events, and what differs."""
    words = [word.format(number) for word in KINDS[number % len(KINDS)]]
    folder = f"{room}/{number}"
    os.mkdir(folder)
    ran = subprocess.run([sys.executable, *words], env=dict(os.environ, KPART_RECORD=folder), stdout=subprocess.PIPE,
                         stderr=subprocess.STDOUT, text=True, timeout=SECONDS, check=False)
    check(f"load {number}, {' '.join(words)}", ran.returncode == 0, ran.stdout)
    found = [check_recorded.check(path) for path in scripts_in(folder)]
    check("  is recorded, and answered so again", found and not any(why for _, why in found), [why for _, why in found])
    return sum(count for count, _ in found)


with tempfile.TemporaryDirectory() as ROOM:
    EVENTS = sum(load(FIRST + number, ROOM) for number in range(LOADS))
print(f"{LOADS} loads, {EVENTS} events, played again by {' and '.join(check_recorded.players())}, 0 differ")
