"""Holds runs that go on from a folder to the rules: a script in two halves, with `--keep` behind the first and `--from` before the second.

The examples are cut at each of their lines, scripts by chance (tools/lib/kept_files.py) at one. The second half restarts nodes, at once or
some lines later, and mostly leaves deliveries out of messages that went with the first. What it leaves is told by
tools/lib/left_folders.py; besides, the whole script, with the pauses between its halves, has to leave the same folder in one run.
"""
import glob
import os
from collections import Counter

from .chances import lines
from .cluster import Down
from .compare import TOP, Check, called, compare_all, same, same_lines
from .kept_files import by_chance, entries_of, limits, play, tree
from .left_folders import told
from .logs import Numbers


def parts_of(script):
    """The header of a script, and its events' lines."""
    header, *events = [line for line in script.decode().split("\n") if line and not line.startswith("#")]
    return header, events


def pauses(world):
    """The lines that stop each node that is up, begin its next life, and stop it there."""
    for number, node in enumerate(world.nodes):
        if not isinstance(node.mode, Down):
            yield f"stop {number}"
        yield from (f"restart {number}", f"stop {number}")


def is_lost(line, sent):
    return line.startswith("deliver ") and int(line.split(" ")[1]) < sent


def restarting(count, n):
    """The lines that restart nodes, each but for some of the first ones, in some order."""
    numbers = [number for number in range(count) if not n.once_in(8)]
    return sorted((f"restart {number}" for number in numbers), key=lambda _: n.below(1000))


def second_half(events, world, n):
    """The lines of a second half: now and then nodes are restarted late, and lost messages delivered, which is a fault."""
    restarts, sent = restarting(len(world.nodes), n), len(world.messages)
    if not n.once_in(16):
        events = [line for line in events if not is_lost(line, sent)]
    late = n.below(6) if n.once_in(3) else 0
    return events[:late] + restarts + events[late:]


def put(path, text):
    with open(path, "w", encoding="utf-8") as file:
        file.write(text)
    return path


def kept(room, name):
    """What stands in a folder, in order of names; nothing where it isn't there."""
    return sorted(tree(f"{room}/{name}").items())


def check_cut(program, room, script, at, seed):
    """Cuts a script behind so many events, runs both halves, and the whole, and compares what they leave."""
    header, events = parts_of(script)
    first = lines([header, *events[:at]])
    left = play(first.encode())
    second_lines = second_half(events[at:], left.world, Numbers(seed))
    second = lines([header, *second_lines])
    whole = lines([header, *events[:at], *pauses(left.world), *second_lines])
    place = f"{room}/{at}"
    os.mkdir(place)
    called(program, "run", put(f"{place}/first", first), "--keep", f"{place}/left")
    out, complaint, status = called(program, "run", put(f"{place}/second", second), "--from", f"{place}/left", "--keep", f"{place}/kept")
    wanted_out, wanted_complaint, wanted_status, world = told(second.encode(), first.encode())
    same(f"complaint and status behind {at} events", (complaint, status), (wanted_complaint, wanted_status))
    same_lines(f"trace behind {at} events", out, wanted_out)
    if world is None:
        return Counter(runs=1, refused=1)
    same(f"folder behind {at} events", kept(place, "kept"), sorted(dict(entries_of(world, limits(second.encode())[0])).items()))
    called(program, "run", put(f"{place}/whole", whole), "--keep", f"{place}/at_once")
    same(f"folder of the whole, cut behind {at} events", kept(place, "at_once"), kept(place, "kept"))
    return Counter(runs=1, events=len(second_lines))


def check_example(program, room, path):
    """Cuts an example at each of its lines."""
    with open(path, "rb") as file:
        script = file.read()
    _, events = parts_of(script)
    return sum((check_cut(program, room, script, at, at + 1) for at in range(len(events) + 1)), Counter())


def check_seed(program, room, seed):
    script = by_chance(seed)
    _, events = parts_of(script)
    return check_cut(program, room, script, Numbers(seed).below(len(events) + 1), seed)


def check(program, first=1, count=1000):
    """How many differ: the examples, and the scripts of so many seeds from the first one on."""
    examples = sorted(glob.glob(f"{TOP}/examples/*.script"))
    assert examples, "there are examples"
    checks = [*(Check(os.path.relpath(path, TOP), check_example, path) for path in examples),
              *(Check(f"seed {seed}", check_seed, seed) for seed in range(first, first + count))]
    tally, differ = compare_all(program, checks)
    print(f"{tally['runs']} runs went on, {tally['refused']} of them refused, {tally['events']} events; {differ} differ")
    return differ
