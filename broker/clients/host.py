"""Starts a broker for a client program, and talks to its admin port."""
import atexit
import contextlib
import ctypes
import os
import re
import signal
import socket
import subprocess
import sys
import tempfile
import time
from typing import NamedTuple

PROGRAM = os.environ.get("KPART_BROKER", "kpart-broker")
RECORD = os.environ.get("KPART_RECORD")  # a folder: each broker's records have one of their own in it
LONG = 30  # seconds that anything may take

# What a test wants of librdkafka: quick second tries, and no lines about each of them.
QUICK = {"retry.backoff.ms": 20, "reconnect.backoff.ms": 20, "reconnect.backoff.max.ms": 200, "log_level": 2,
         "topic.metadata.refresh.fast.interval.ms": 20, "topic.metadata.refresh.interval.ms": 1000}


class Ended(SystemExit):
    """The broker has ended, or never began. A program that doesn't expect it ends by it."""


def end_with_parent():
    """Linux ends the broker with the program that started it, also where that is killed (PR_SET_PDEATHSIG)."""
    ctypes.CDLL(None).prctl(1, signal.SIGKILL)


def own_address():
    """An address of the loopback that no other process has by this rule: its ports stay free for this one, also while no broker has them."""
    number = os.getpid()
    return f"127.{64 + (number >> 16)}.{number >> 8 & 255}.{number & 255}"


def free_ports(address, count, chance):
    """The first of so many ports that are free, one behind another, and that the system gives to nobody by itself."""
    for base in range(20000 + chance.randrange(10000), 32700, 7):
        with contextlib.ExitStack() as stack:
            try:
                for number in range(count):
                    stack.enter_context(socket.create_server((address, base + number)))
                return base
            except OSError:
                continue
    sys.exit("no ports are free")


class State(NamedTuple):
    """A node's state of a partition, as the admin's port shows it."""
    end: int
    watermark: int
    stable: int


class Host:
    """A broker of its own, at free ports of 127.0.0.1, which ends with the program. `others` go to its process."""

    def __init__(self, *words, nodes=3, topic="payments", waits=True, **others):
        self.topic, self.nodes, self.socket = topic, nodes, None
        record = ["--record", tempfile.mkdtemp(dir=RECORD)] if RECORD else []
        self.process = subprocess.Popen([PROGRAM, "--nodes", str(nodes), "--port", "0", "--admin", "0", "--topic", topic, *words, *record],
                                        stdin=subprocess.DEVNULL, stdout=subprocess.PIPE, text=True,
                                        **{"preexec_fn": end_with_parent, **others})
        atexit.register(self.end)
        if waits:
            self.wait_ready()

    def wait_ready(self):
        """Waits until the broker is ready, and calls its admin port."""
        said = self.process.stdout.readline().split()
        if said[:2] != ["ready:", "bootstrap"]:
            raise Ended(f"the broker says: {said}")
        self.bootstrap = said[2].rstrip(";")
        host, port = said[4].split(":")
        try:
            self.socket = socket.create_connection((host, int(port)), LONG)
        except ConnectionError:
            raise Ended("the broker has ended") from None
        self.lines = self.socket.makefile("rw")

    def ask(self, line, may_fail=False):
        """What the line is answered; where it may fail, None if it does."""
        said = []
        try:
            self.lines.write(line + "\n")
            self.lines.flush()
            for answer in self.lines:
                if answer.startswith("error"):
                    return None if may_fail else sys.exit(f"{line}: {answer}")
                if answer == "ok\n":
                    return "".join(said)
                said.append(answer)
        except ConnectionError:
            pass
        raise Ended(f"{line}: the broker has ended")

    def leader(self, partition=0):
        """The node that leads the partition."""
        return next(int(line.split()[4]) for line in self.ask("show").splitlines()
                    if line.startswith(f"partition {self.topic.split(':')[0]} {partition} "))

    def states(self):
        """Of each partition its leader (-1 for none), the leader's epoch, and the states of all nodes."""
        found = []
        for line in self.ask("show").splitlines():
            leads = re.match(r"partition \S+ \d+ leader (-?\d+) epoch (-?\d+) ", line)
            state = re.match(r"  node \d leads \S+ end (\d+) watermark (\d+) stable (\d+) ", line)
            if leads:
                found.append((int(leads[1]), int(leads[2]), []))
            elif state:
                found[-1][2].append(State(*map(int, state.groups())))
        return found

    def asked(self):
        """How often each request came, by its name."""
        words = re.search(r"^asked ?(.*)$", self.ask("show"), re.MULTILINE)[1].split()
        return dict(zip(words[::2], map(int, words[1::2])))

    def owed(self):
        """For how many seconds the answer is due that has been so for longest."""
        return max((int(time) / 1000 for time in re.findall(r"^waiting .* (\d+) ms$", self.ask("show"), re.MULTILINE)), default=0)

    def has_ended(self):
        return self.process.poll() is not None

    def quit(self):
        """Has it end by itself; its exit status. Its records are whole then."""
        with contextlib.suppress(Ended):
            self.ask("quit")
        return self.process.wait(LONG)

    def end(self):
        if RECORD and self.socket and not self.has_ended():
            self.quit()
        self.process.kill()
        self.process.wait()
        self.process.stdout.close()
        if self.socket:
            self.socket.close()
        atexit.unregister(self.end)


def check(what, fact, why=""):
    """Says what holds; ends the program where it doesn't."""
    print(f"{what}: {'yes' if fact else 'NO ' + str(why)}", flush=True)
    if not fact:
        sys.exit(1)


def holds_soon(holds, seconds=LONG):
    """Waits until it holds; whether it does within that time."""
    end = time.time() + seconds
    while not holds():
        if time.time() > end:
            return False
        time.sleep(0.02)
    return True


def until(what, holds, seconds=LONG):
    """Waits until it holds."""
    check(what, holds_soon(holds, seconds), f"not within {seconds} s")
