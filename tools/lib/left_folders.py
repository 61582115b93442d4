"""Says what `kpart run SCRIPT --from FOLDER` leaves, by the rules alone.

The folder is one that a run of another script has left (tools/lib/kept_files.py), or one with a fault. A run goes on from it as
from that script's own run in which each node that is up is stopped, restarted, and stopped again: what a new process has of a
node is its next life, with the watermark at the checkpoint. Messages before these are gone, but their numbers aren't given again.
"""
import re

from . import kept_files, scripts
from .cluster import Down
from .compare import TOP
from .decoder import Refused, read

FAILOVER = f"{TOP}/examples/failover.script"
NONE_SUCH = "it isn't there, or isn't what a run leaves"


def pause(world):
    """Each node is stopped, begins its next life, and is stopped there."""
    for number, node in enumerate(world.nodes):
        if not isinstance(node.mode, Down):
            node.stop()
        world.restart(number)
        node.stop()


def lost_line(script, sent):
    """The number of the first line that delivers a message which was sent before; none where there is no such line."""
    found = (re.fullmatch(rb"deliver ([0-9]+)", line) for line in script.split(b"\n"))
    return next((place for place, match in enumerate(found, 1) if match and int(match[1]) < sent), None)


def told(script, left):
    """What a run leaves that goes on from where the left script's run has come to: trace, complaint, exit status, and the world, if it is
    run. The folder is read behind the script."""
    try:
        count, events = scripts.parse(script)
    except scripts.Fault as fault:
        return "", f"kpart: F31 BadScript {fault}\n", 2, None
    world = kept_files.play(left).world
    if count != len(world.nodes):
        return "", fault_of("record"), 1, None
    sent = len(world.messages)
    pause(world)
    lost = lost_line(script, sent)
    if lost:
        return "", f"kpart: F31 BadScript {lost}\n", 2, None
    trace, status = scripts.played(world, events)
    return trace, "", status, world


def fault_of(place, why=NONE_SUCH, refusal="F35 BadFolder", folder="{folder}"):
    """Both lines of a folder that no run has left."""
    return f"kpart: {refusal}\nkpart: {folder}/{place}: {why}\n"


# Folders with a fault. What is told of each was worked out by hand, but for which refusal a batch with a changed byte is.

def resealed(text, old, new):
    """A text with other words in its lines, and the checksum of these."""
    lines = text.decode().replace(old, new)
    return kept_files.sealed(lines[:lines.rindex("crc ")])


def changed(data, place):
    """The bytes with another one at this place."""
    return data[:place] + bytes([data[place] ^ 1]) + data[place + 1:]


def refusal_at(data):
    """What reading a batch with a changed byte is refused for."""
    try:
        read(data)
    except Refused as refusal:
        return str(refusal)
    raise AssertionError("the batch has a fault")


def faulty(left):
    """Folders made of that which a script's run leaves, each with one fault, and what is told of it."""
    tree = kept_files.kept_tree(left)
    log = "node-0/00000000000000000000.log"
    at = len(tree[log]) // 2  # of two batches of one size
    bad = changed(tree[log], at + 60)
    return {
        "no_record": ({name: data for name, data in tree.items() if name != "record"}, fault_of("record")),
        "no_number": ({**tree, "record": resealed(tree["record"], "messages 12\n", "")}, fault_of("record")),
        "torn_record": ({**tree, "record": tree["record"][:-1]}, fault_of("record")),
        "changed_state": ({**tree, "node-1/state": tree["node-1/state"].replace(b"life 0", b"life 1")}, fault_of("node-1/state")),
        "other_epochs": ({**tree, "node-1/state": resealed(tree["node-1/state"], "1:1", "2:1")}, fault_of("node-1/state")),
        "no_segment": ({name: data for name, data in tree.items() if name != log}, fault_of("node-0, the segment at offset 0")),
        "changed_batch": ({**tree, log: bad}, fault_of(
            f"node-0, the segment at offset 0, byte {at}", "no batch begins there", refusal_at(bad[at:]))),
        "no_boundary": ({**tree, "node-0/state": resealed(tree["node-0/state"], "checkpoint 0", "checkpoint 3")}, fault_of(
            "node-0", "its log and its state are of no node", "F19 NotBoundary")),
        "last_life": ({**tree, "node-1/state": resealed(tree["node-1/state"], "life 0", f"life {2 ** 64 - 1}")}, fault_of(
            "node-1", "its log and its state are of no node", "F24 RecordFull")),
    }


def folders():
    """The folders that rows go on from: of each the files by their names, and what is told where it has a fault, else the script."""
    with open(FAILOVER, "rb") as file:
        left = file.read()
    found = {"made_left_failover": (kept_files.kept_tree(left), left)}
    found.update({f"made_left_{name}": it for name, it in faulty(left).items()})
    return found
