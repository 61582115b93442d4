"""Holds `kpart run --from` to the rules over folders that are broken by chance: torn, changed, put together from others, or whole.

A folder is one that a script by chance leaves, with up to three changes. What is told of it, or which trace a script has on what stands there,
is by tools/lib/left_reader.py. A folder that no run has left, but that has no fault, is run all the same; where it breaks the laws of runs, so that
the evaluator's own assertions don't hold, no more is wanted than an end with a trace.
"""
import os
import re
from collections import Counter

from . import kept_files, scripts
from .chances import lines
from .check_halves import parts_of, second_half
from .compare import Check, called, compare_all, same, same_lines
from .kept_files import by_chance, play, sealed
from .left_folders import lost_line
from .left_reader import Fault, world_in
from .logs import Numbers

EDGES = (0, 1, 2 ** 16, 2 ** 24 - 2, 2 ** 24 - 1, 2 ** 28 - 1, 2 ** 28, 2 ** 31 - 1, 2 ** 31, 2 ** 62, 2 ** 62 + 1, 2 ** 64 - 2, 2 ** 64 - 1, 2 ** 64)


def pick(n, found):
    return found[n.below(len(found))]


def files_in(tree, end=""):
    return sorted(name for name, data in tree.items() if data is not None and name.endswith(end))


# Changes of a folder. Each takes numbers by chance and the files, and gives the files anew.

def flipped(n, tree):
    name = pick(n, files_in(tree))
    data = bytearray(tree[name])
    if data:
        data[n.below(len(data))] ^= 1 << n.below(8)
    return {**tree, name: bytes(data)}


def torn(n, tree):
    name = pick(n, files_in(tree))
    return {**tree, name: tree[name][:n.below(len(tree[name]) + 1)]}


def longer(n, tree):
    name = pick(n, files_in(tree))
    return {**tree, name: tree[name] + bytes(n.below(70))}


def missing(n, tree):
    name = pick(n, files_in(tree))
    return {other: data for other, data in tree.items() if other != name}


def exchanged(n, tree):
    """Two files have changed their places, of one kind or not."""
    one, other = pick(n, files_in(tree)), pick(n, files_in(tree))
    return {**tree, one: tree[other], other: tree[one]}


def renamed(n, tree):
    """A segment has another offset in its name."""
    segments = files_in(tree, ".log")
    if not segments:
        return tree
    name = pick(n, segments)
    found = {other: data for other, data in tree.items() if other != name}
    return {**found, f"{name[:name.index('/')]}/{pick(n, [0, 1, 2, 5, 10 ** 19]):020}.log": tree[name]}


def renumbered(n, tree):
    """A number of a text is another one, and the checksum is right."""
    texts = ["record", *files_in(tree, "state")]
    name = pick(n, [it for it in texts if it in tree] or files_in(tree))
    text = tree[name].decode("latin-1")
    at = text.rfind("crc ")
    numbers = [*re.finditer("[0-9]+", text[:at])] if at >= 0 else []
    if not numbers:
        return tree
    found = pick(n, numbers)
    old = int(found[0])
    new = pick(n, [old + 1, max(old - 1, 0), pick(n, EDGES), pick(n, EDGES)])
    return {**tree, name: sealed(text[:found.start()] + str(new) + text[found.end():at])}


def worded(n, tree):
    """A word of a text is another one, or none, and the checksum is right."""
    name = pick(n, [it for it in ["record", *files_in(tree, "state")] if it in tree] or files_in(tree))
    text = tree[name].decode("latin-1")
    at = text.rfind("crc ")
    words = [*re.finditer("[^ \n]+", text[:at])] if at >= 0 else []
    if not words:
        return tree
    found = pick(n, words)
    new = pick(n, ["none", "", "00", "+1", "-1", "0,0", "1,0", "0:0,0:0", "0x1", "\u00e9"])
    return {**tree, name: sealed(text[:found.start()] + new + text[found.end():at])}


CHANGES = (flipped, torn, longer, missing, exchanged, renamed, renumbered, renumbered, worded)


def broken(n, tree):
    found = {name: data for name, data in tree.items() if data is not None}
    for _ in range(n.below(4)):
        if files_in(found):
            found = pick(n, CHANGES)(n, found)
    return found


def put(folder, tree):
    os.mkdir(folder)
    for name, data in tree.items():
        os.makedirs(os.path.dirname(f"{folder}/{name}"), exist_ok=True)
        with open(f"{folder}/{name}", "wb") as file:
            file.write(data)


def wanted(script, tree, folder):
    """What the run leaves: trace, complaint, status; no trace where the folder breaks the laws of runs."""
    count, events = scripts.parse(script)
    try:
        world = world_in(tree, count)
    except Fault as fault:
        return "", fault.told(folder), 1
    lost = lost_line(script, len(world.messages))
    if lost:
        return "", f"kpart: F31 BadScript {lost}\n", 2
    try:
        trace, status = scripts.played(world, events)
    except (AssertionError, IndexError, KeyError):
        return None, "", None
    return trace, "", status


def check_seed(program, room, seed):
    n, script = Numbers(seed), by_chance(seed)
    header, events = parts_of(script)
    at = n.below(len(events) + 1)
    left = play(lines([header, *events[:at]]).encode())
    tree = broken(n, dict(kept_files.entries_of(left.world, left.limit)))
    if n.once_in(20):
        header = re.sub("nodes [0-9]", f"nodes {1 + n.below(7)}", header)
    second = lines([header, *(line for line in second_half(events[at:], left.world, n))])
    with open(f"{room}/script", "w", encoding="utf-8") as file:
        file.write(second)
    put(f"{room}/left", tree)
    try:
        scripts.parse(second.encode())
    except scripts.Fault:
        return Counter()
    out, complaint, status = called(program, "run", f"{room}/script", "--from", f"{room}/left")
    wanted_out, wanted_complaint, wanted_status = wanted(second.encode(), tree, f"{room}/left")
    same("complaint", complaint, wanted_complaint)
    if wanted_out is None:
        same("an end with a trace", status in (0, 1), True)
        return Counter(runs=1, lawless=1)
    same_lines("trace", out, wanted_out)
    same("status", status, wanted_status)
    return Counter(runs=1, refused=bool(wanted_complaint))


def check(program, first=1, count=3000):
    """How many differ, of so many seeds from the first one on."""
    tally, differ = compare_all(program, [Check(f"seed {seed}", check_seed, seed) for seed in range(first, first + count)])
    print(f"{tally['runs']} folders, {tally['refused']} refused, {tally['lawless']} that break the laws of runs; {differ} differ")
    return differ
