"""Tests the payment service of payments.py through a failover: each payment that was acknowledged has to be booked, once.

    failover.py cut-off FOLDER [NAME=VALUE..]        a payment comes to a leader that is cut off, before another one is elected
    failover.py unanswered FOLDER [NAME=VALUE..]     the leader goes down after a payment was committed, before anybody is told
    failover.py machine-down FOLDER [NAME=VALUE..]   the leader's machine goes down, and with it a worker that has a payment in hand

FOLDER, which is made, gets the broker's record and the ledger. NAME=VALUE is handed to the service. KPART_BROKER names the broker's program.
It prints what is wrong; the exit status is 1 where anything is.
"""
import contextlib
import os
import sqlite3
import subprocess
import sys
import threading
import time
from collections import Counter

sys.dont_write_bytecode = True  # no folder beside the modules
HERE = os.path.dirname(os.path.abspath(__file__))
sys.path.insert(0, f"{HERE}/../../../broker/clients")
from host import LONG, QUICK, Host, end_with_parent
from payments import Ledger, Payment

ACCOUNTS = ["anna", "ben", "carl", "dora"]
BEFORE, DURING, AFTER = range(1, 11), 11, range(12, 21)  # the payments' ids
QUICKLY = [f"{name}={value}" for name, value in QUICK.items()]
WORKERS = ["session.timeout.ms=1000", "heartbeat.interval.ms=100"]  # else a dead worker's part is free after 45 s


def payment_of(number):
    payer, payee = ACCOUNTS[number % 4], ACCOUNTS[(number + 1 + number % 3) % 4]
    return Payment(number, payer, payee, 100 + 25 * number)


def wait(what, holds):
    """Waits until it holds."""
    end = time.monotonic() + LONG
    while not holds():
        if time.monotonic() > end:
            sys.exit(f"not within {LONG} s: {what}")
        time.sleep(0.01)


class Process:
    """A process of the service, which ends with the test."""

    def __init__(self, *words):
        self.process = subprocess.Popen([sys.executable, f"{HERE}/payments.py", *words], text=True, stdin=subprocess.PIPE,
                                        stdout=subprocess.PIPE, preexec_fn=end_with_parent)
        self.said = []
        threading.Thread(target=self.listen, daemon=True).start()

    def listen(self):
        for line in self.process.stdout:
            self.said.append(line.rstrip("\n"))

    def wait_for(self, line):
        wait(line, lambda: line in self.said)

    def kill(self):
        self.process.kill()
        self.process.wait()


class Test:
    """A broker of three nodes, the service that orders, and a worker that books."""

    def __init__(self, folder, properties):
        self.properties, self.path = [*QUICKLY, *properties], f"{folder}/ledger"
        os.makedirs(folder, exist_ok=True)
        # Nobody leaves the in-sync replicas in so short a test: so it is the tester who elects, and no clock.
        self.broker = Host("--record", folder, "--lag", "60000")
        self.orders = Process("order", self.broker.bootstrap, *self.properties)
        self.worker = self.start_worker()
        self.ledger = Ledger(self.path)

    def start_worker(self):
        return Process("book", self.broker.bootstrap, self.path, *WORKERS, *self.properties)

    def order(self, number):
        """Orders the payment of this number, and doesn't wait."""
        it = payment_of(number)
        self.orders.process.stdin.write(f"{it.id} {it.payer} {it.payee} {it.amount}\n")
        self.orders.process.stdin.flush()

    def pay(self, number):
        """Orders the payment, and waits until it is acknowledged."""
        self.order(number)
        self.orders.wait_for(f"acknowledged {number}")

    def node(self, number):
        """What the broker shows of a node: its log's end, high watermark and so on, by name."""
        line = next(it for it in self.broker.ask("show").splitlines() if it.startswith(f"  node {number} "))
        words = line.split()
        return dict(zip(words[::2], words[1::2]))

    @contextlib.contextmanager
    def busy_ledger(self):
        """Another process writes in the ledger meanwhile, so the worker has to wait with its booking."""
        other = sqlite3.connect(self.path, isolation_level=None, timeout=LONG)
        other.execute("BEGIN IMMEDIATE")
        yield
        other.execute("ROLLBACK")


def cut_off(test):
    wait("all have the first ones", lambda: {test.node(number)["end"] for number in range(3)} == {str(BEFORE[-1])})
    for line in ("cut 0 1", "cut 0 2", "cut 1 0", "cut 2 0"):
        test.broker.ask(line)
    test.order(DURING)
    wait("the leader has it", lambda: test.node(0)["end"] == str(DURING))
    test.broker.ask("elect 1")
    test.broker.ask("heal")


def unanswered(test):
    test.broker.ask("hold 0")
    test.order(DURING)
    wait("it is committed", lambda: test.node(0)["watermark"] == str(DURING))
    test.broker.ask("stop 0")
    test.broker.ask("release 0")


def machine_down(test):
    wait("the worker has nothing to do", lambda: test.ledger.end() == BEFORE[-1])
    with test.busy_ledger():
        test.pay(DURING)
        test.worker.wait_for(f"books {DURING}")
        test.broker.ask("stop 0")
        test.worker.kill()
    test.worker = test.start_worker()


FAILOVERS = {"cut-off": cut_off, "unanswered": unanswered, "machine-down": machine_down}


def balances(payments):
    found = Counter()
    for it in payments:
        found.update({it.payer: -it.amount, it.payee: it.amount})
    return found


def faults(paid, booked):
    """What is wrong with the ledger, in lines: by the payments that were acknowledged, and those that are booked."""
    counts = Counter(it.id for it in booked)
    for it in paid:
        if counts[it.id] != 1:
            yield f"payment {it.id} was acknowledged, and {'is booked twice' if counts[it.id] else 'is not booked'}"
    wanted, found = balances(paid), balances(booked)
    yield from (f"{name} has {found[name]}, and not {wanted[name]}" for name in ACCOUNTS if found[name] != wanted[name])


def main(failover, folder, *properties):
    test = Test(folder, properties)
    for number in BEFORE:
        test.pay(number)
    failover(test)
    for number in AFTER:
        test.pay(number)
    test.orders.wait_for(f"acknowledged {DURING}")
    wait("all is booked", lambda: test.ledger.end() == int(test.node(test.broker.leader())["end"]))
    test.broker.ask("quit")
    test.broker.process.wait(LONG)  # its record is whole then
    paid = [payment_of(int(line.split()[1])) for line in test.orders.said if line.startswith("acknowledged ")]
    found = list(faults(paid, test.ledger.all()))
    print("\n".join(found) or f"{len(paid)} payments were acknowledged, and each is booked once")
    return 1 if found else 0


if __name__ == "__main__":
    if len(sys.argv) < 3 or sys.argv[1] not in FAILOVERS:
        sys.exit(__doc__)
    sys.exit(main(FAILOVERS[sys.argv[1]], *sys.argv[2:]))
