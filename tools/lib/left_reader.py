"""Reads a folder that a run may have left, by the format alone (docs/DURABLE.md, 'What is kept where'; docs/FORMATS.md).

The tests stand in their order, and the first that fails is the fault: the record; of each node its state, its life, its segments by their
offsets, the row of its batches with the checkpoint, its leader epochs; last, that the record says how many messages were sent.
"""
import re
from typing import NamedTuple

from .batch import GREATEST_EPOCH, TOP
from .cluster import GREATEST_LIFE, GREATEST_VERSION, Down, Record, is_boundary
from .decoder import MAX_BATCH, Refused, frame, read
from .kept_files import KeepingNode, KeepingWorld, Whole, epochs_text, sealed, or_none

NONE_SUCH = "it isn't there, or isn't what a run leaves"
NUMBER = "(0|[1-9][0-9]*)"
RECORD = re.compile(f"kpart record 1\nnodes {NUMBER}\nleader (none|{NUMBER}) epoch (none|{NUMBER}) isr (none|[0-9,]+) version {NUMBER}\n"
                    f"(messages {NUMBER}\n)?")
STATE = re.compile(f"kpart node 1\ncheckpoint {NUMBER} life {NUMBER} epoch (none|{NUMBER})\nend {NUMBER}\nepochs (none|[0-9:,]+)\n")


class Fault(Exception):
    """What no run has left: the refusal, the place in the folder, and why."""

    def __init__(self, place, why=NONE_SUCH, refusal="F35 BadFolder"):
        super().__init__()
        self.refusal, self.place, self.why = refusal, place, why

    def told(self, folder):
        """Both lines."""
        return f"kpart: {self.refusal}\nkpart: {folder}/{self.place}: {self.why}\n"


def place_of(name):
    """How a fault names the file of this name."""
    found = re.fullmatch(r"(node-\d)/(\d{20})\.log", name)
    return f"{found[1]}, the segment at offset {int(found[2])}" if found else name


class State(NamedTuple):
    checkpoint: int
    life: int
    kept: int
    end: int
    epochs: str


def lines_of(data, form, place):
    """What the form finds in a text whose last line is the checksum of the others."""
    try:
        text = data.decode("ascii")
    except (AttributeError, UnicodeDecodeError):
        raise Fault(place) from None
    lines = text[:text.rfind("crc ")] if "crc " in text else text
    found = form.fullmatch(lines)
    if not found or sealed(lines) != data:
        raise Fault(place)
    return found


def listed(word):
    """Numbers with a comma between each two, which rise."""
    if word == "none":
        return ()
    found = word.split(",")
    if not all(re.fullmatch(NUMBER, it) for it in found):
        raise ValueError
    return tuple(map(int, found))


def record_in(tree, count):
    """The controller's record, and how many messages were sent."""
    found = lines_of(tree.get("record"), RECORD, "record")
    nodes, leader, epoch, isr, version = (found[at] for at in (1, 2, 4, 6, 7))
    try:
        members = listed(isr)
    except ValueError:
        raise Fault("record") from None
    number = lambda word: None if word == "none" else int(word)
    record = Record(number(leader), -1 if epoch == "none" else int(epoch), members, int(version))
    is_right = (int(nodes) == count and (leader == "none") == (epoch == "none")
                and (record.leader is None or record.leader < count and record.epoch <= GREATEST_EPOCH)
                and list(members) == sorted({*members}) and all(it < count for it in members)
                and record.version <= GREATEST_VERSION and (found[8] is None or int(found[9]) < 2 ** 31))
    if not is_right:
        raise Fault("record")
    return record, None if found[8] is None else int(found[9])


def state_in(tree, node):
    place = f"node-{node}/state"
    found = lines_of(tree.get(place), STATE, place)
    epoch = found[3]
    try:
        starts = [] if found[6] == "none" else [tuple(listed(it.replace(":", ","))) for it in found[6].split(",")]
    except ValueError:
        raise Fault(place) from None
    spelled = ",".join(f"{it[0]}:{it[1]}" for it in starts if len(it) == 2) or "none"
    state = State(int(found[1]), int(found[2]), -1 if epoch == "none" else int(epoch), int(found[5]), found[6])
    is_right = (spelled == found[6] and state.checkpoint <= TOP + 1 and state.life < 2 ** 64 and state.end <= TOP + 1
                and state.kept <= GREATEST_EPOCH and all(e <= GREATEST_EPOCH and s <= TOP + 1 for e, s in starts)
                and (not starts or starts[0][1] == 0) and all(a[0] < b[0] and a[1] < b[1] for a, b in zip(starts, starts[1:])))
    if not is_right:
        raise Fault(place)
    return state


def batches_in(data, node, base):
    """The batches that the bytes are, one behind another."""
    place, found = 0, []
    while place < len(data):
        try:
            one = read(data[place:place + frame(data[place:])])
        except Refused as refusal:
            raise Fault(f"node-{node}, the segment at offset {base}, byte {place}", "no batch begins there", str(refusal)) from None
        b = one.batch
        found.append(Whole(b.base, b.last, b.epoch, b.producer, b.kind, b.size, tuple(one.values), b.time, b.data))
        place += b.size
    return found


def log_in(tree, node, end):
    """The batches of a node's segments, up to the end that its state tells."""
    found, base = [], 0
    while base < end:
        place = f"node-{node}, the segment at offset {base}"
        data = tree.get(f"node-{node}/{base:020}.log")
        if data is None:
            raise Fault(place)
        more = batches_in(data, node, base)
        behind = more[-1].last + 1 if more else base
        if not base < behind <= end:
            raise Fault(place)
        found, base = found + more, behind
    return found


def row_fault(log, checkpoint):
    """Why the batches are no log of this checkpoint; None where they are."""
    end, epoch = 0, 0
    for b in log:
        if b.base != end:
            return "F26 NotNext"
        if b.epoch < epoch:
            return "F27 EpochBack"
        end, epoch = b.last + 1, b.epoch
    return None if is_boundary(log, checkpoint) else "F19 NotBoundary"


def node_in(tree, number):
    """The node, down in its next life."""
    state = state_in(tree, number)
    if state.life == GREATEST_LIFE:
        raise Fault(f"node-{number}", "its log and its state are of no node", "F24 RecordFull")
    log = log_in(tree, number, state.end)
    fault = row_fault(log, state.checkpoint)
    if fault:
        raise Fault(f"node-{number}", "its log and its state are of no node", fault)
    if epochs_text(log) != state.epochs:
        raise Fault(f"node-{number}/state")
    node = KeepingNode(number)
    node.log, node.mark, node.checkpoint = log, state.checkpoint, state.checkpoint
    node.life, node.kept, node.mode = state.life + 1, state.kept, Down()
    return node


class LeftWorld(KeepingWorld):
    """A world of nodes that were read. A folder may have what no run has left, though it has no fault: then it is held to no law."""

    def keeps(self, node, before):
        pass


def world_in(tree, count):
    """The world with which a run of so many nodes begins; messages that were sent before are gone."""
    world = LeftWorld(count)
    world.record, sent = record_in(tree, count)
    world.nodes = [node_in(tree, number) for number in range(count)]
    if sent is None:
        raise Fault("record")
    world.messages = Gone(sent)
    return world


class Gone(list):
    """Messages of which the first ones are gone. No line names one of those."""

    def __init__(self, sent):
        super().__init__()
        self.sent = sent

    def __len__(self):
        return self.sent + super().__len__()

    def __getitem__(self, number):
        return super().__getitem__(number - self.sent)
