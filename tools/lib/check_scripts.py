"""Compares what a run of a script leaves with what the rules say: the trace, the complaint and the exit status."""
import itertools
import re
from collections import Counter

from . import scripts
from .chances import Replicas
from .compare import Check, Differs, called, compare_all


def difference(script, wanted, got):
    """The first line of the trace that differs, else what else does; nothing where all is the same."""
    lines = script.decode().split("\n")
    for one, other in itertools.zip_longest(*(text.split("\n") for text in (wanted[0], got[0])), fillvalue=""):
        if one != other:
            place = re.match("[0-9]+", one or other)
            said = lines[int(place[0]) - 1][:60] if place and int(place[0]) <= len(lines) else ""
            return (f"`{said}` is answered `{other[:200]}`, and not `{one[:200]}`; "
                    f"{got[1].strip() or 'no complaint'}, status {got[2]}")
    if wanted[1:] != got[1:]:
        return f"complaint and status {got[1:]}, and not {wanted[1:]}"
    return None


def check_seed(program, room, subject):
    """The script of a seed, of so many events, that this class makes."""
    maker, seed, events = subject
    script, path = maker(seed).script(events).encode(), f"{room}/script"
    with open(path, "wb") as file:
        file.write(script)
    why = difference(script, scripts.run(script), called(program, "run", path))
    if why:
        raise Differs(why)
    return Counter(seeds=1)


def check(program, first=1, count=1000, events=1000, maker=Replicas):
    """How many of so many seeds differ, from the first one on."""
    _, differ = compare_all(program, [Check(f"seed {seed}", check_seed, (maker, seed, events)) for seed in range(first, first + count)])
    print(f"{count} seeds, {differ} differ")
    return differ
