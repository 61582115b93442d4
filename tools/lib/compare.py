"""What the checks of tools/chance share: calls of the program, comparisons, and many of them side by side."""
import itertools
import os
import shutil
import subprocess
import sys
import tempfile
from collections import Counter
from collections.abc import Callable
from concurrent.futures import ProcessPoolExecutor
from functools import partial
from typing import NamedTuple

TOP = os.path.dirname(os.path.dirname(os.path.dirname(os.path.abspath(__file__))))
TOLD, SECONDS = 5, 60


class Differs(Exception):
    """What differs, and where."""


class Check(NamedTuple):
    """A comparison of its own: its name, and what is called with the program, a folder and this subject. It counts what it
    compared."""
    name: str
    compare: Callable
    subject: object = None


def same(where, got, wanted):
    if got != wanted:
        raise Differs(f"{where} is {got!r:.200}, and not {wanted!r:.200}")


def same_lines(where, got, wanted):
    """Compares two texts line by line."""
    pairs = itertools.zip_longest(got.split("\n"), wanted.split("\n"))
    for place, (one, other) in enumerate(pairs, 1):
        same(f"{where}, line {place}", one, other)


def called(program, *words, given=os.devnull):
    """What the program leaves, with this file as its standard input: output, complaint, exit status."""
    try:
        with open(given, "rb") as file:
            done = subprocess.run([program, *words], stdin=file, capture_output=True, timeout=SECONDS)
    except subprocess.TimeoutExpired:
        raise Differs(f"no end within {SECONDS} seconds") from None
    return done.stdout.decode("latin-1"), done.stderr.decode("latin-1"), done.returncode


def program_called():
    """The program that KPART names, or the repository's, which is built where it isn't there; None for no program."""
    program = os.environ.get("KPART", f"{TOP}/crates/kpart/out/kpart")
    if "KPART" not in os.environ and not os.path.exists(program):
        subprocess.run([f"{TOP}/tools/build"], check=True)
    if shutil.which(program):
        return program
    print(f"tools/chance: {program} is no program", file=sys.stderr)
    return None


def outcome(program, check):
    """What is counted in a check, and what differs in it."""
    with tempfile.TemporaryDirectory() as room:
        try:
            return check.compare(program, room, check.subject), None
        except (Differs, OSError) as why:
            return Counter(), f"{check.name}: {why}"


def compare_all(program, checks):
    """What is counted in all checks, and how many differ, of which the first few are printed."""
    tally, differ = Counter(), 0
    with ProcessPoolExecutor(len(os.sched_getaffinity(0))) as pool:
        for found, why in pool.map(partial(outcome, program), checks):
            tally, differ = tally + found, differ + (why is not None)
            if why and differ <= TOLD:
                print(why, flush=True)
    return tally, differ
