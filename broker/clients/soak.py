"""confluent_kafka: brokers under real clients for minutes, with elections, stops, cut links, kills, refused memory and full disks.

    soak.py MINUTES [SEED [AGE]]    from that age on; tools/soak says more

Time goes by in ages. Of two ages one has a folder: there the broker ends in some way in each round, and the next one goes on at the same ports,
under the same clients (told.py). The other one is recorded; that broker stays, and at the end each partition's script is played again. What
befalls a broker is drawn before (acts.py).
"""
import collections
import contextlib
import faulthandler
import glob
import json
import mmap
import os
import random
import re
import resource
import shutil
import signal
import struct
import subprocess
import sys
import tempfile
import threading
import time

import acts
import told
from acts import NODES, PARTITIONS, TOPIC
from host import LONG, PROGRAM, Ended, Host, end_with_parent, free_ports, holds_soon, own_address
from told import Producing, Transactional, Wrong

TOP = os.path.dirname(os.path.dirname(os.path.dirname(os.path.abspath(__file__))))
sys.path.insert(0, f"{TOP}/tools")
from lib import check_recorded

ROUNDS, RECORDED_ROUNDS = 8, 4
MOST_CALLS = 3_000  # of the system, before the one at which a broker is killed
MOST_WRONG = 3  # ages; the soak ends then
AGE, PASSED, FAILED, CRASHED, HUNG = "age", "passed", "failed", "crashed", "hung"
STATUS_HUNG = 3
ONE_IN = 50  # ages, of which librdkafka may hang in one, and in one more
# What a producer asks that goes on, and how long it may ask nothing, or wait for an answer, in seconds.
ASKS, NO_REQUEST, NO_ANSWER = ("Produce", "InitProducerId", "FindCoordinator", "AddPartitionsToTxn", "AddOffsetsToTxn", "TxnOffsetCommit", "EndTxn"), 5, 10
LONGEST = 600  # seconds of an age; a longer one hangs, and ends all, with where each thread stands
SHADOW = 3  # rounds, up to which a producer may give up for what was refused in the first of them
FAST = "/dev/shm"  # a sync costs nothing there
KILLED, ABORTED = -signal.SIGKILL, -signal.SIGABRT
# How a round ends, with how often.
ENDS = {"kill": 40, "call": 25, "starve": 10, "quit": 25}
# What a broker may say on stderr: always, where it ends as any memory is refused, where its disk was full, and where the library's is.
MAY_SAY, MAY_SAY_DYING, MAY_SAY_FULL = r"they are cut off$", r"", r"node \d has stopped: .*File too large"
MAY_SAY_STARVED = r"\.script: "  # no line of a script says that a node fell
COUNTS, ACTS = collections.Counter(), collections.Counter()


class Hung(Exception):
    """A client doesn't go on, though it is owed no answer, and asks nothing."""


def built(room, name):
    """A part of tools/lib that a process loads (LD_PRELOAD); None where there is no C compiler."""
    path = f"{room}/{name}.so"
    if os.path.exists(path):
        return path
    words = ["cc", "-O2", "-shared", "-fPIC", "-pthread", "-o", path, f"{TOP}/tools/lib/{name}.c"]
    return path if shutil.which("cc") and not subprocess.run(words, check=False).returncode else None


def heap_of(program):
    """Where the library's heap stands in the program; nowhere where that isn't known."""
    said = subprocess.run(["nm", "-S", program], stdout=subprocess.PIPE, stderr=subprocess.DEVNULL, text=True, check=False).stdout
    found = [(int(at, 16), int(size, 16)) for at, size in re.findall(r"^(\w+) (\w+) \w rattle_(?:re)?alloc$", said, re.MULTILINE)]
    return (min(at for at, _ in found), max(at + size for at, size in found)) if found else (0, 0)


class Memory:
    """How many growths of a process's memory are refused (tools/lib/starve.c)."""

    NUMBERS = struct.Struct("=4Q")

    def __init__(self, room, library):
        self.library, (self.begin, self.end) = library, heap_of(PROGRAM)
        with open(f"{room}/starved", "wb+") as file:
            file.write(bytes(self.NUMBERS.size))
            file.flush()
            self.path, self.numbers = file.name, mmap.mmap(file.fileno(), self.NUMBERS.size)

    def set(self, library=0, of_any=0, every=1):
        self.numbers[:24] = struct.pack("=3Q", library, of_any, every)

    def refused(self):
        """How many were, since it was asked last."""
        found = self.NUMBERS.unpack(self.numbers[:])[3]
        self.numbers[24:] = bytes(8)
        return found

    def environment(self):
        return {"LD_PRELOAD": self.library, "STARVE_FILE": self.path, "STARVE_FROM": f"{self.begin:x}", "STARVE_TO": f"{self.end:x}"}


class Tools:
    """What all ages use."""

    def __init__(self, room):
        starve = built(room, "starve")
        self.killer, self.memory = built(room, "kill"), Memory(room, starve) if starve else None


class Round:
    """A broker from its start to its end, and what befalls it meanwhile."""

    def __init__(self, age, end, seconds, steps, way=()):
        self.age, self.end, self.seconds, self.steps, self.way = age, end, seconds, steps, way
        self.log, self.host, self.number = [], None, len(age.rounds)
        self.said = f"{age.folder}/said-{self.number}"
        age.rounds.append(self)

    def __str__(self):
        acts_done = "".join(f"\n    {at:6.3f} {line}: {answer}" for at, line, answer in self.log)
        return f"round {self.number}: {self.end} {' '.join(map(str, self.way))} after {self.seconds:.3f} s{acts_done}"

    def note(self, line, answer):
        self.log.append((time.time() - self.age.begin, line, answer))

    # ---- the process

    def environment(self):
        found, memory = dict(os.environ), self.age.tools.memory
        if self.end == "call" and self.age.tools.killer:
            place, where = self.way
            found.update(LD_PRELOAD=self.age.tools.killer, KILL_FOLDER=self.age.data, KILL_PLACE=str(place), KILL_WHERE=where)
        elif memory and self.is_starved():
            found.update(memory.environment())
        return found

    def is_starved(self):
        return self.end == "starve" or any(step.line.startswith("starve") for step in self.steps)

    def refuses(self):
        return self.end == "starve" or acts.refuses(self.steps)

    def is_filled(self):
        return any(step.line.startswith("full") for step in self.steps)

    def spawn(self):
        """Starts the process; it isn't ready yet."""
        def prepare():
            end_with_parent()
            signal.signal(signal.SIGXFSZ, signal.SIG_IGN)  # a file that may not grow refuses its writes then, as a full disk does

        with open(self.said, "ab") as said:
            self.host = Host(*self.age.words(), nodes=NODES, topic=f"{TOPIC}:{PARTITIONS}", waits=False, env=self.environment(),
                             stderr=said, preexec_fn=prepare)
        COUNTS["starts"] += 1
        for client in self.age.clients:
            client.may_give_up = any(one.refuses() for one in self.age.rounds[-SHADOW:])

    def start(self):
        if self.age.tools.memory:
            self.age.tools.memory.set()
        floors = told.floors([client.note() for client in self.age.clients], PARTITIONS)
        self.spawn()
        self.host.wait_ready()
        self.age.hold_floors(floors, self.host.states())
        self.note("start", "ok")

    def kill(self):
        """`kill -9`, and nothing else: whoever waits for an answer sees it."""
        self.host.process.kill()

    def hold_end(self, *statuses):
        """The process has ended in one of these ways, and has said nothing that it may not say."""
        status = self.host.process.wait(LONG)
        self.host.end()
        self.note("end", status)
        if self.age.tools.memory:
            COUNTS["growths refused"] += self.age.tools.memory.refused()
        if status not in statuses:
            raise Wrong(f"the broker has ended by {status}, in place of {statuses}")
        self.hold_said(status)

    def hold_said(self, status):
        """A line that isn't whole may be anything: the process was killed meanwhile."""
        may_say = [MAY_SAY] + [MAY_SAY_DYING] * (self.end == "starve") + [MAY_SAY_FULL] * self.is_filled() + [MAY_SAY_STARVED] * self.is_starved()
        with open(self.said, encoding="utf-8", errors="replace") as file:
            for line in file:
                is_whole = line.endswith("\n") or status != KILLED
                if is_whole and not any(re.search(it, line) for it in may_say):
                    raise Wrong(f"the broker says: {line.rstrip()}")

    # ---- what befalls it

    def largest(self):
        """The size of its greatest file."""
        return max((os.path.getsize(path) for path in glob.glob(f"{self.age.data}/**", recursive=True) if os.path.isfile(path)), default=0)

    def limit(self, size):
        """How long a file of the process may get."""
        with contextlib.suppress(ProcessLookupError):
            resource.prlimit(self.host.process.pid, resource.RLIMIT_FSIZE, (size, resource.RLIM_INFINITY))

    def done(self, line):
        """Does a step; what came of it."""
        verb, *words = line.split()
        memory = self.age.tools.memory
        if verb == "starve":
            if memory:
                memory.set(library=int(words[0]), every=int(words[1]))
            return "done"
        if verb in ("full", "room"):
            ACTS[verb] += 1
            self.limit(self.largest() + int(words[0]) if words else resource.RLIM_INFINITY)
            return "done"
        said = self.host.ask(line, may_fail=True)
        ACTS[verb] += said is not None
        return "refused" if said is None else "ok"

    def act(self, steps):
        """Does all steps, or as many as there are before the process ends."""
        for step in steps:
            time.sleep(step.pause)
            try:
                self.note(step.line, self.done(step.line))
            except Ended:
                self.note(step.line, "it has ended")
                return

    # ---- its end

    def run(self):
        """From the start to the end. A broker that is killed at a call may end before anything else has happened."""
        timer = None
        try:
            self.start()
            timer = threading.Timer(self.seconds, self.kill) if self.end == "kill" else None
            self.age.check(self)
            if timer:
                timer.start()
            self.act(self.steps)
        except Ended as why:
            self.note("ended", why)
            if self.end != "call" or self.host.process.wait(LONG) != KILLED:
                raise Wrong(f"{why}, by {self.host.process.wait(LONG)}") from None
        if timer:
            timer.join()
        self.finish()

    def quit(self):
        self.host.quit()
        COUNTS["quits"] += 1
        self.hold_end(0)

    def finish(self):
        if self.end == "quit":
            return self.quit()
        if self.end == "starve" and self.age.tools.memory:
            self.age.tools.memory.set(of_any=self.way[0], every=self.way[1])
            holds_soon(self.host.has_ended, 0.3)
        COUNTS["killed at a call"] += self.end == "call" and self.host.has_ended()
        self.kill()
        status = self.host.process.wait(LONG)
        COUNTS["kills" if status == KILLED else "ends without memory"] += 1
        return self.hold_end(KILLED, *[ABORTED] * (self.end == "starve"))


class Age:
    """Clients from their first record to their last one, with all brokers that they had."""

    def __init__(self, tools, seed, number):
        self.tools, self.seed, self.number, self.begin, self.rounds = tools, seed, number, time.time(), []
        self.chance = random.Random(f"{seed} {number}")
        self.is_recorded = number % 2 == 1
        fast = FAST if os.path.isdir(FAST) and self.chance.random() < 0.5 else None
        self.folder = tempfile.mkdtemp(prefix=f"kpart-soak-{seed}-{number}-", dir=fast)
        self.data, self.lag = f"{self.folder}/data", self.chance.choice((200, 500, 1000))
        self.address = own_address()
        self.port = free_ports(self.address, NODES, self.chance)
        servers = ",".join(f"{self.address}:{self.port + it}" for it in range(NODES))
        self.clients = told.clients_of(servers, TOPIC, PARTITIONS, f"{seed} {number}")

    def words(self):
        where = "--record" if self.is_recorded else "--data"
        return [where, self.data, "--listen", self.address, "--port", str(self.port), "--lag", str(self.lag)]

    def __str__(self):
        kind = "recorded" if self.is_recorded else "kept"
        lines = [f"age {self.number} of seed {self.seed}, {kind} in {self.folder}, lag {self.lag}"]
        lines += [f"{it.name}: {it.note()}{', has failed: ' + it.fault if it.fault else ''}" for it in self.clients]
        return "\n  ".join([*lines, *map(str, self.rounds)])

    # ---- its rounds

    def hold_floors(self, floors, found):
        """From the start on all of that is so again."""
        for (told_end, shown), (leader, _, nodes) in zip(floors, found):
            if nodes[leader].watermark < told_end or nodes[leader].stable < shown:
                raise Wrong(f"{told_end} was told to be committed, {shown} was shown, and at the start {nodes[leader]} is")

    def check(self, one):
        there = told.check(self.clients, one.host)
        COUNTS["checks"] += 1
        COUNTS["records read"] += sum(map(len, there.all + there.shown))
        one.note("check", f"{sum(map(len, there.all))} records")
        return there

    def draw_round(self, weights):
        end = self.chance.choices([*ENDS], ENDS.values())[0]
        ways = {"call": (int(MOST_CALLS ** self.chance.random()), self.chance.choice(("before", "behind", "half"))),
                "starve": (self.chance.choice((1, 3, 10)), self.chance.choice((1, 5, 50)))}
        seconds = 0.3 + 2 * self.chance.random()
        return Round(self, end, seconds, acts.drawn(self.chance, seconds, weights), ways.get(end, ()))

    def killed_start(self):
        """A broker that is killed as it starts."""
        one, seconds = Round(self, "killed as it starts", 0, []), self.chance.random() * 0.06
        one.spawn()
        time.sleep(seconds)
        one.kill()
        COUNTS["kills"] += 1
        one.hold_end(KILLED)

    def run(self):
        for client in self.clients:
            client.start()
        if self.is_recorded:
            self.run_recorded()
        else:
            self.run_kept()

    def run_kept(self):
        for _ in range(ROUNDS):
            weights = {**acts.COMMON, **acts.FILLING, **acts.STARVING} if self.chance.random() < 0.5 else acts.COMMON
            one, is_killed = self.draw_round(weights), self.chance.random() < 1 / 6
            if is_killed:
                self.killed_start()
            one.run()
        last = Round(self, "quit", 0, [])
        last.start()
        self.check(last)
        self.end_clients(last)
        last.quit()
        self.hold_files()
        again = Round(self, "quit", 0, [])
        again.start()
        self.check(again)
        self.agreed_end(again)
        again.quit()

    def run_recorded(self):
        is_starved = self.chance.random() < 1 / 4
        weights = {**acts.COMMON, **(acts.STARVING if is_starved else {})}
        steps = [acts.drawn(self.chance, 2.5, weights) for _ in range(RECORDED_ROUNDS)]
        one = Round(self, "quit", 0, sum(steps, []))
        one.start()
        for part in steps:
            one.act(part)
            self.check(one)
        self.end_clients(one)
        said = one.host.ask("recorded", may_fail=is_starved)
        one.note("recorded", said)
        one.quit()
        self.play()

    # ---- its end

    def mend(self, one):
        """All nodes are up, with all links."""
        for line in ("heal", "rtt 0", *(f"{verb} {it}" for it in range(NODES) for verb in ("release", "restart"))):
            one.note(line, one.done(line))

    def agreed_end(self, one):
        """The end of each partition, once all nodes have all of it."""
        def looked():
            return [set(sum(nodes, ())) for _, _, nodes in one.host.states()]

        if not holds_soon(lambda: all(len(it) == 1 for it in looked())):
            raise Wrong(f"the nodes don't agree within {LONG} s:\n{one.host.ask('show')}")
        return [end for end, in looked()]

    def end_client(self, client, one):
        """Ends it; where it doesn't end, what the broker is at is told."""
        try:
            client.end()
        except Wrong as why:
            before = one.host.asked()
            time.sleep(NO_REQUEST)
            goes_on = not client.is_alive() or any(one.host.asked().get(it) != before.get(it) for it in ASKS)
            kind = Wrong if goes_on or one.host.owed() > NO_ANSWER else Hung
            raise kind(f"{why}\n{one.host.ask('show')}") from None

    def end_clients(self, one):
        """Ends the clients; then all is decided, the consumer has come to the end, and each node has all."""
        self.mend(one)
        *producers, group = self.clients
        for client in producers:
            client.ends.set()
        for client in producers:
            self.end_client(client, one)
        ends = self.agreed_end(one)
        COUNTS["elections"] += sum(epoch + 1 for _, epoch, _ in one.host.states())
        there = self.check(one)
        if there.ends != ends:
            raise Wrong(f"a consumer comes to {there.ends}, and logs end at {ends}")
        last = [max((it[0] for it in shown), default=-1) for shown in there.shown]
        if not holds_soon(lambda: [max(it, default=-1) for it in group.note().seen] == last):
            raise Wrong(f"the group's consumer hasn't come to {last} within {LONG} s: {group.note()}")
        group.end()
        self.check(one)
        self.count()

    def count(self):
        for client in self.clients:
            note = client.note()
            COUNTS["producers given up"] += client.given_up
            if isinstance(client, Producing):
                COUNTS["records acknowledged"] += len(note.told)
                COUNTS["epochs raised by librdkafka"] += note.raised
            elif isinstance(client, Transactional):
                COUNTS["transactions committed"] += len(note.numbers(told.COMMITTED))
                COUNTS["aborted"] += len(note.numbers(told.ABORTED))
            else:
                COUNTS["records consumed"] += sum(map(len, note.seen))

    def hold_files(self):
        """Each node has the same bytes, in which `kpart inspect` finds no fault."""
        for partition in range(PARTITIONS):
            logs = []
            for number in range(NODES):
                paths = sorted(glob.glob(f"{self.data}/{TOPIC}-{partition}/node-{number}/*.log"))
                logs.append(b"".join(check_recorded.bytes_of(path) for path in paths))
            if len(set(logs)) != 1:
                raise Wrong(f"the nodes' files of partition {partition} differ: {[len(it) for it in logs]} bytes")
            program = check_recorded.program()
            if program:
                ran = subprocess.run([program, "inspect", paths[0]], stdout=subprocess.PIPE, text=True, check=False)
                if ran.returncode:
                    raise Wrong(f"kpart inspect {paths[0]}: {ran.stdout[-300:]}")

    def play(self):
        """Each script is answered again as it was."""
        if not check_recorded.program():
            return print("scripts: SKIPPED, kpart isn't built")
        paths = sorted(glob.glob(f"{self.data}/*.script"))
        if len(paths) != PARTITIONS:
            raise Wrong(f"there are {len(paths)} scripts")
        for path in paths:
            count, why = check_recorded.check(path)
            if why or not count:
                raise Wrong(why or f"{path} has no events")
            COUNTS["scripts played"] += 1
            COUNTS["events played"] += count


# An age has a process of its own, as librdkafka may crash (2.0.2 does at a look at its own threads, about once an hour). It may hang, too: a producer
# was seen that neither asked anything nor waited for an answer, in the middle of send_offsets_to_transaction.

def run_age(room, seed, number):
    """The exit status: 1 where something is wrong with it, which is told then, and its folder stays."""
    age = Age(Tools(room), seed, number)
    faulthandler.dump_traceback_later(LONGEST, exit=True)
    try:
        age.run()
    except Hung as why:
        print(f"{age}\nlibrdkafka hangs: {why}", flush=True)
        faulthandler.dump_traceback()
        age.rounds[-1].host.end()
        os._exit(STATUS_HUNG)
    except (Exception, SystemExit) as why:
        for one in age.rounds[-1:]:
            one.host.end()
        print(f"{age}\nWRONG: {type(why).__name__}: {why}\n  tools/soak 1 {seed} {number} draws the same", flush=True)
        faulthandler.dump_traceback()  # where clients wait
        os._exit(1)  # clients may wait for something
    shutil.rmtree(age.folder)
    with open(f"{room}/counts", "w", encoding="ascii") as file:
        json.dump([COUNTS, ACTS], file)
    return 0


def became_of_age(room, seed, number):
    """PASSED, FAILED, CRASHED or HUNG."""
    words = [sys.executable, os.path.abspath(__file__), AGE, room, str(seed), str(number)]
    ran = subprocess.run(words, stderr=subprocess.PIPE, text=True, preexec_fn=end_with_parent, check=False)
    print(ran.stderr, end="", file=sys.stderr, flush=True)
    is_crashed = ran.returncode == -signal.SIGSEGV or ran.returncode == ABORTED and "rdkafka" in ran.stderr
    if is_crashed or ran.returncode == STATUS_HUNG:
        for folder in (tempfile.gettempdir(), FAST):
            for path in glob.glob(f"{folder}/kpart-soak-{seed}-{number}-*"):
                shutil.rmtree(path)
        return CRASHED if is_crashed else HUNG
    if ran.returncode:
        return FAILED
    with open(f"{room}/counts", encoding="ascii") as file:
        for sums, found in zip((COUNTS, ACTS), json.load(file)):
            sums.update(found)
    return PASSED


def main(words):
    minutes, seed, first = float(words[0]), *(int(it) for it in (words[1:] + ["1", "0"][len(words) - 1:]))
    begin, became, number = time.time(), collections.Counter(), first
    with tempfile.TemporaryDirectory() as room, contextlib.suppress(KeyboardInterrupt):
        while time.time() - begin < minutes * 60 and became[FAILED] < MOST_WRONG:
            became[became_of_age(room, seed, number)] += 1
            number += 1
    print(f"seed {seed}, {(time.time() - begin) / 60:.1f} minutes, ages {first} to {number - 1}; librdkafka has crashed in {became[CRASHED]}, "
          f"hung in {became[HUNG]}")
    for sums in (COUNTS, ACTS):
        print("  " + ", ".join(f"{name} {count:,}" for name, count in sums.items()))
    print(f"{became[PASSED]} passed, {became[FAILED]} failed")
    return 1 if became[FAILED] or not became[PASSED] or became[HUNG] > 1 + (number - first) // ONE_IN else 0


if __name__ == "__main__":
    WORDS = sys.argv[1:]
    sys.exit(run_age(WORDS[1], int(WORDS[2]), int(WORDS[3])) if WORDS[0] == AGE else main(WORDS))
