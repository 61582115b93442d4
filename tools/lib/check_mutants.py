"""Makes broken logs and scripts by chance, and compares what the program leaves of each with what the rules say.

A lawful log or script is made (logs.py, chances.py) and broken in one to three places (mutations.py). The evaluator of the rules
(decoder.py, scripts.py) says what `kpart inspect`, or `kpart run` and `kpart pipe`, have to leave, and each byte of it has to be so.
"""
import hashlib
import itertools
import os
import re
import tempfile
from collections import Counter
from concurrent.futures import ProcessPoolExecutor
from typing import NamedTuple

from . import scripts
from .chances import Chance, Replicas
from .compare import TOLD, Differs, called
from .decoder import inspect
from .logs import Maker, Numbers
from .mutations import Wide, broken_log, broken_script

AT_A_TIME = 25  # files that a worker gets at once
LIMIT, INTERVAL = 1_073_741_824, 4096  # where they aren't said


class Mutant(NamedTuple):
    """A broken file: `inspect` with its limits, or `run`, what was done to the lawful file, and the bytes."""
    verb: str
    limits: dict
    names: list
    data: bytes

    def words(self, path):
        """The words of the command line."""
        return [self.verb, path, *(word for name, number in self.limits.items() for word in (f"--{name}", str(number)))]

    def __str__(self):
        return f"kpart {' '.join(self.words('FILE'))}: {len(self.data)} bytes, {'; '.join(self.names)}"


def lawful_log(n):
    """One to six batches."""
    maker = n.one_of([Maker, Wide])(n.below(2 ** 32))
    maker.epoch = n.one_of([0, 1, 3, 2 ** 24 - 4])
    count = 1 + n.below(6)
    while len(maker.log) < count:
        n.one_of([maker.step] * 5 + [maker.transaction_end])()
    return [batch.data for batch in maker.log]


def lawful_script(n):
    """Some events on one node, or on one to seven."""
    seed = n.below(2 ** 32)
    if n.below(3):
        return Chance(seed).script(1 + n.below(28)).encode()
    return Replicas(seed).script(12 + n.below(26)).encode()


def limits(n):
    """Limits by which a small log has several segments and entries; often but one is said, or none."""
    said = {"segment": n.one_of([1024, 1024, 1100 + n.below(400), LIMIT]),
            "interval": n.one_of([0, 1, 70 + n.below(300), 1_048_576])}
    return {name: said[name] for name in said if n.below(4)}


def mutant(seed):
    """The broken file of a seed."""
    n = Numbers(int.from_bytes(hashlib.sha256(str(seed).encode()).digest()[:8], "big"))
    if n.below(2):
        return Mutant("inspect", limits(n), *broken_log(n, lawful_log(n)))
    return Mutant("run", {}, *broken_script(n, lawful_script(n)))


def wanted(found):
    """Output, complaint and exit status by the rules."""
    if found.verb == "run":
        return scripts.run(found.data)
    lines, status = inspect(found.data, found.limits.get("segment", LIMIT), found.limits.get("interval", INTERVAL))
    return "".join(f"{line}\n" for line in lines), "", status


def wanted_of_pipe(data):
    """The same of a pipe that gets the file."""
    answers, status = scripts.piped(data)
    return "".join(answers), "", status


# What comes of files

def outcomes(found):
    """What is counted of a file: its outcome, and for a run each refusal in its trace once; and each thing done to it."""
    out, complaint, status = wanted(found)
    refusals = {*re.findall("F[0-9]+ [A-Za-z]+", out + complaint)}
    if found.verb == "inspect" or status == 2:
        told = [f"{found.verb}: {' '.join(refusals) or 'lawful'}"]
    else:
        told = [f"run: {'refused events' if status else 'lawful'}", *(f"run, an event's answer: {name}" for name in refusals)]
    return Counter(told) + Counter(f"{found.verb}, done: {name}" for name in found.names)


def counted(seed):
    return outcomes(mutant(seed))


def difference(got, rules):
    """What differs first: a line of the output, the complaint or the status."""
    lines = itertools.zip_longest(got[0].split("\n"), rules[0].split("\n"))
    pairs = [(f"line {place}", *pair) for place, pair in enumerate(lines, 1) if pair[0] != pair[1]][:1]
    pairs += [(name, *pair) for name, *pair in zip(("complaint", "status"), got[1:], rules[1:]) if pair[0] != pair[1]]
    return "; ".join(f"{name} is {one!r:.200}, and not {other!r:.200}" for name, one, other in pairs)


def calls(program, path, found):
    """What each call over the file leaves, and what it has to: of a script there are two, as it may also come line by line."""
    yield "", called(program, *found.words(path)), wanted(found)
    if found.verb == "run":
        yield "kpart pipe <FILE: ", called(program, "pipe", given=path), wanted_of_pipe(found.data)


def compared(program, path, seed):
    """What differs in the file of a seed, None for nothing. Whatever fails here is told with its seed."""
    found = "no file"
    try:
        found = mutant(seed)
        with open(path, "wb") as file:
            file.write(found.data)
        differ = [f"{call}{difference(got, rules)}" for call, got, rules in calls(program, path, found) if got != rules]
    except Differs as why:
        return f"{found}: {why}"
    except Exception as why:  # the evaluator asserts that runs are safe
        return f"{found}: the maker or the evaluator fails, {why!r:.200}"
    return f"{found}: {'; '.join(differ)}" if differ else None


# In each process of the pool

TRIED_BY = None


def begin(program, folder):
    """Each worker has one file, which it writes again and again."""
    global TRIED_BY
    TRIED_BY = program, f"{folder}/{os.getpid()}"


def tried(seed):
    return compared(*TRIED_BY, seed)


def jobs():
    """How many workers there are: as many as processors, and at most as many as MUTATE_JOBS says."""
    said = os.environ.get("MUTATE_JOBS", "")
    count = len(os.sched_getaffinity(0))
    return max(1, min(count, int(said))) if re.fullmatch("[0-9]{1,9}", said) else count


def count(first, files):
    """What is counted in the files of so many seeds."""
    found = Counter()
    with ProcessPoolExecutor(jobs()) as pool:
        for one in pool.map(counted, range(first, first + files), chunksize=AT_A_TIME):
            found.update(one)
    return found


def check(program, first=1, files=1000):
    """How many of so many seeds differ, from the first one on, of which the first few are printed."""
    differ = 0
    with tempfile.TemporaryDirectory(prefix="kpart-mutate-") as folder, \
            ProcessPoolExecutor(jobs(), None, begin, (program, folder)) as pool:
        seeds = range(first, first + files)
        for seed, why in zip(seeds, pool.map(tried, seeds, chunksize=AT_A_TIME)):
            differ += why is not None
            if why and differ <= TOLD:
                print(f"{why}\n  tools/mutate show {seed}", flush=True)
    print(f"{files} files, {differ} differ")
    return differ
