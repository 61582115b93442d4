"""Reads scripts and says what their runs print, by the rules alone (docs/RULES.md, docs/FORMATS.md).

Here is the grammar of scripts, and the trace; tools/lib/cluster.py has the nodes, whose logs are plain lists, the controller's
record and the messages. tools/lib/encoder.py spells what an `append` or a `mark` hands in, and tools/lib/decoder.py judges the
bytes, so that the two also check one another.
"""
import itertools
import re

from .batch import TOP
from .cluster import Node, World
from .decoder import Refused

MAX_LINE, MAX_EVENTS, MAX_NODES = 2_100_000, 1_000_000, 7


class Fault(Exception):
    """A script's faulty line."""


# Words of a line. Each reader takes a word and the count of nodes, and has a ValueError for what it can't be.

def number(word, greatest, least=0):
    """A number from 0, or from -1, to the greatest one; a ValueError for anything else."""
    if not re.fullmatch(rb"0|[1-9][0-9]*" + (rb"|-1" if least < 0 else b""), word) or int(word) > greatest:
        raise ValueError
    return int(word)


def up_to(greatest, least=0):
    return lambda word, count: number(word, greatest, least)


def one_of(*words):
    def reader(word, count):
        if word not in words:
            raise ValueError
        return word.decode()
    return reader


def node_of(word, count):
    return number(word, count - 1)


def values_of(word, count):
    found = word.split(b",")
    if not all(re.fullmatch(rb"[\x21-\x7e]+", value) for value in found):
        raise ValueError
    return found


def bytes_of(word, count):
    if not re.fullmatch(rb"([0-9a-f][0-9a-f])+", word):
        raise ValueError
    return bytes.fromhex(word.decode())


PID, PEPOCH, INT = 2 ** 63 - 1, 2 ** 15 - 1, 2 ** 31 - 1
OFFSET = TIME = up_to(TOP)
SENDER = (up_to(PID, -1), up_to(PEPOCH, -1), up_to(INT, -1))
COORDINATED = (up_to(PID), up_to(PEPOCH), up_to(INT))


def at_node(call):
    """A call of a node that is up, which needs nothing but the node."""
    return lambda world, n, *words: call(world.node(n), *words)


# Behind each first word: what the words behind it are, and what they ask of the world.
EVENTS = {
    b"elect": ((node_of,), World.elect),
    b"adopt": ((node_of,), World.adopt),
    b"append": ((node_of, TIME, *SENDER, one_of(b"d", b"t"), values_of), at_node(Node.append)),
    b"raw": ((node_of, bytes_of), at_node(Node.produce)),
    b"mark": ((node_of, TIME, *COORDINATED, one_of(b"commit", b"abort")), at_node(Node.mark_end)),
    b"ask": ((node_of,), World.ask),
    b"deliver": ((up_to(INT),), World.deliver),
    b"raise": ((node_of,), World.raise_mark),
    b"join": ((node_of, node_of), World.join),
    b"leave": ((node_of, node_of), World.leave),
    b"checkpoint": ((node_of,), at_node(Node.note_mark)),
    b"stop": ((node_of,), at_node(Node.stop)),
    b"restart": ((node_of,), World.restart),
    b"show": ((node_of,), at_node(Node.show)),
    b"read": ((node_of, OFFSET), at_node(Node.read)),
    b"committed": ((node_of, OFFSET), at_node(Node.committed)),
}


def event_of(line, count):
    """What the line asks of a world of so many nodes; a ValueError where it is no event."""
    first, *words = line.split(b" ")
    readers, call = EVENTS.get(first, ((), None))
    if call is None or len(words) != len(readers):
        raise ValueError
    found = [reader(word, count) for reader, word in zip(readers, words)]
    return lambda world: call(world, *found)


def read_header(line):
    """The count of nodes."""
    words = line.split(b" ")
    if len(words) != 6 or (words[0], words[2], words[4]) != (b"nodes", b"segment", b"interval"):
        raise ValueError
    number(words[5], 1_048_576)
    if number(words[1], MAX_NODES) < 1 or number(words[3], 2 ** 30) < 1024:
        raise ValueError
    return int(words[1])


def read_line(line, count):
    """The count of nodes, 0 before the header, which tells it, and the event if the line is one; a ValueError where it can't stand
    here."""
    if len(line) > MAX_LINE or not line.isascii():
        raise ValueError
    if line == b"" or line.startswith(b"#"):
        return count, None
    if count == 0:
        return read_header(line), None
    return count, event_of(line, count)


def parse(script):
    """The count of nodes, and the events with their lines. The first line that can't stand where it stands is the fault."""
    lines = script.split(b"\n")
    if lines[-1] == b"":
        lines.pop()
    count, events = 0, []
    for place, line in enumerate(lines, 1):
        try:
            count, event = read_line(line, count)
            if event:
                events.append((place, event))
            if len(events) > MAX_EVENTS:
                raise ValueError
        except ValueError:
            raise Fault(place) from None
    if count == 0:
        raise Fault(len(lines) + 1)
    return count, events


def answered(world, event):
    """What the event answers, and 1 where that is a refusal, else 0."""
    try:
        return str(event(world)), 0
    except Refused as refusal:
        return str(refusal), 1


def played(world, events):
    """The trace of the events, and the exit status."""
    trace, status = [], 0
    for place, event in events:
        answer, refused = answered(world, event)
        trace.append(f"{place} {answer}\n")
        status |= refused
    return "".join(trace), status


# Runs in which some events are refused for want of memory

WANT = "F33 Memory"


def lacking(world, event):
    """The worlds that the event may leave where it is refused so; none where it takes no memory, or another cause holds. Of a
    fetch answer's batches each beginning may have found room."""
    for room in itertools.count():
        found = world.with_room(room)
        if answered(found, event)[0] != WANT:
            return
        yield found.with_room(None)


def ends(world, events, lines):
    """The worlds in which the events may end where these lines are their trace, with F33 where it stands there; none where the
    rules have another one."""
    for at, ((place, event), line) in enumerate(zip(events, lines)):
        if line == f"{place} {WANT}":
            for found in lacking(world, event):
                yield from ends(found, events[at + 1:], lines[at + 1:])
            return
        if line != f"{place} {answered(world, event)[0]}":
            return
    yield world


def lawful(lines):
    """A script of these lines, which come one by one: a comment stands for each that can't stand where it stands, and for a last one
    that has no line feed. And the numbers of those; no script where no line is a header."""
    *lines, last = lines.split(b"\n")
    count, faulty = 0, []
    for place, line in enumerate(lines, 1):
        try:
            count, _ = read_line(line, count)
        except ValueError:
            faulty.append(place)
    if last:
        lines.append(last)
        faulty.append(len(lines))
    for place in faulty:
        lines[place - 1] = b"#"
    return b"".join(line + b"\n" for line in lines) if count else None, faulty


def up_to(lines, number):
    """Of these lines the first ones, up to the one of this number, with its line feed where it has one."""
    found = lines.split(b"\n")
    return b"\n".join(found[:number]) + b"\n" * (number < len(found))


def up_to_answer(lines, answer):
    """Of these lines the first ones, up to the one that has this answer."""
    return up_to(lines, int(answer.split(" ")[0]))


def piped(lines):
    """What a pipe answers to these lines, an answer for each that has one, and its exit status."""
    script, faulty = lawful(lines)
    trace, _, status = run(script) if script else ("", "", 0)
    answers = {place: f"{place} F31 BadScript {place}\n" for place in faulty}
    answers.update({int(line.split(" ")[0]): f"{line}\n" for line in trace.splitlines()})
    return [answers[place] for place in sorted(answers)], 1 if faulty else status


def run(script):
    """What a run leaves: its trace, its complaint, its exit status."""
    try:
        count, events = parse(script)
    except Fault as fault:
        return "", f"kpart: F31 BadScript {fault}\n", 2
    trace, status = played(World(count), events)
    return trace, "", status
