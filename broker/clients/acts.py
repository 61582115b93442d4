"""What befalls a broker while clients are at work, drawn by chance before it begins: so the same draws can be tried again.

A step is a pause in seconds and a line, which the admin's port takes. `starve`, `full` and `room` are done to the process from outside.
"""
from typing import NamedTuple

NODES, TOPIC, PARTITIONS = 3, "payments", 2
LEAST_PAUSE, MOST_PAUSE = 0.02, 0.3

# Requests that may fail by a code that clients try again on, and such codes. Those that say that a batch may be there wouldn't be true.
FAILING = {"Produce": (6, 19), "Fetch": (6,), "OffsetCommit": (14, 16), "AddPartitionsToTxn": (14, 16, 51), "EndTxn": (14, 16, 51),
           "TxnOffsetCommit": (14, 16), "FindCoordinator": (15,), "Heartbeat": (27,), "ListOffsets": (6,)}


class Step(NamedTuple):
    pause: float
    line: str


def node(chance):
    return chance.randrange(NODES)


def link(chance):
    return "{} {}".format(*chance.sample(range(NODES), 2))


def elect(chance):
    where = f" {TOPIC} {chance.randrange(PARTITIONS)}" if chance.random() < 0.7 else ""
    return [Step(0, f"elect {node(chance)}{where}")]


def stop(chance):
    it = node(chance)
    return [Step(0, f"stop {it}"), Step(chance.random() * 0.5, f"restart {it}")]


def stop_all(chance):
    nodes = chance.sample(range(NODES), NODES)
    return [Step(chance.random() * 0.1, f"{verb} {it}") for verb in ("stop", "restart") for it in nodes]


def cut(chance):
    return [*(Step(0, f"cut {link(chance)}") for _ in range(chance.randrange(1, 4))), Step(chance.random() * 0.8, "heal")]


def cut_off(chance):
    """A node is alone, and another one may be elected meanwhile."""
    it = node(chance)
    others = [other for other in range(NODES) if other != it]
    cuts = [Step(0, f"cut {ends}") for other in others for ends in (f"{it} {other}", f"{other} {it}")]
    return [*cuts, Step(chance.random() * 0.3, f"elect {chance.choice(others)}"), Step(chance.random() * 0.3, "heal")]


def slow(chance):
    return [Step(0, f"delay {link(chance)} {chance.randrange(1, 60)}"), Step(chance.random() * 0.5, "heal")]


def lose(chance):
    return [Step(0, f"lossy {link(chance)} {chance.randrange(2, 6)}"), Step(chance.random() * 0.5, "heal")]


def double(chance):
    return [Step(0, f"doubling {link(chance)} {chance.randrange(2, 4)}"), Step(chance.random() * 0.5, "heal")]


def hold(chance):
    """Acknowledgements are held back; where the node stops meanwhile, they are lost."""
    it, pause = node(chance), chance.random() * 0.3
    if chance.random() < 0.5:
        return [Step(0, f"hold {it}"), Step(pause, f"release {it}")]
    return [Step(0, f"hold {it}"), Step(pause, f"stop {it}"), Step(0, f"release {it}"), Step(chance.random() * 0.1, f"restart {it}")]


def fail(chance):
    api = chance.choice([*FAILING])
    return [Step(0, f"fail {chance.randrange(1, 4)} {chance.choice(FAILING[api])} {api}")]


def late(chance):
    return [Step(0, f"rtt {chance.randrange(1, 20)}"), Step(chance.random() * 0.3, "rtt 0")]


def starve(chance):
    """So many growths of the library are refused, one in so many."""
    return [Step(0, f"starve {chance.choice((1, 1, 3, 10, 40))} {chance.choice((1, 1, 2, 7))}")]


def fill(chance):
    """No file may grow by more than so many bytes, until there is room; what has stopped by that is started again."""
    begin, rest = Step(0, f"full {chance.randrange(30_000)}"), Step(0.1 + chance.random() * 0.3, "room")
    return [begin, rest, *(Step(0, f"restart {it}") for it in range(NODES))]


# What may befall any broker, with how often it is drawn; what one whose memory is refused, and one that has files.
COMMON = {elect: 6, stop: 4, stop_all: 1, cut: 3, cut_off: 2, slow: 2, lose: 2, double: 2, hold: 2, fail: 2, late: 1}
STARVING, FILLING = {starve: 3}, {fill: 2}


def refuses(steps):
    """Whether batches are refused by them that Kafka's broker would take."""
    return any(step.line.startswith(("starve", "full")) or step.line.endswith(" Produce") for step in steps)


def drawn(chance, seconds, weights):
    """Steps that take about so long."""
    acts, steps, left = [*weights], [], seconds
    while left > 0:
        one = chance.choices(acts, weights.values())[0](chance)
        pause = LEAST_PAUSE + chance.random() * (MOST_PAUSE - LEAST_PAUSE)
        steps += [one[0]._replace(pause=pause), *one[1:]]
        left -= pause + sum(step.pause for step in one[1:])
    return steps
