"""Holds races to what is the same of them in any schedule: the program's `race`, with all processors and with one of them."""
import os
from collections import Counter

from .compare import Check, Differs, called, compare_all
from .known_calls import RACES

NAMES = ("nodes", "receipts", "acknowledged", "committed", "agree")
MOST_ROUNDS = 200


def race(nodes, producers, batches, moves):
    return ("race", "--nodes", str(nodes), "--producers", str(producers), "--batches", str(batches), "--moves", str(moves))


def bounds(nodes, producers, batches, told):
    """What is wrong with the five lines of a race: they have their names, all nodes agree, no more is acknowledged than was handed in
    or stands, and something is, where something was to be handed in."""
    lines = [line.split(" ") for line in told.split("\n")]
    if [line[0] for line in lines] != [*NAMES, ""] or any(len(line) != 2 for line in lines[:-1]):
        return "other lines"
    values = {line[0]: line[1] for line in lines[:-1]}
    if values["agree"] != "yes" or values["nodes"] != str(nodes):
        return f"agree {values['agree']}, nodes {values['nodes']}"
    receipts, acknowledged, committed = (int(values[name]) for name in NAMES[1:4])
    if not acknowledged <= receipts <= producers * batches or acknowledged > committed:
        return f"{acknowledged} acknowledged of {receipts}, {committed} committed"
    if batches and not acknowledged:
        return "nothing acknowledged"
    return ""


def words_of(processors, words):
    """The command line that runs a program on all processors, or on the first one."""
    return list(words) if processors == "all" else ["taskset", "-c", str(min(os.sched_getaffinity(0))), *words]


def known(program, _, subject):
    """A race whose lines are the same in any schedule."""
    processors, words, wanted = subject
    first, *rest = words_of(processors, [program, *words.split(" ")[1:]])
    told = called(first, *rest)
    if told != (wanted, "", 0):
        raise Differs(f"{told!r:.300}")
    return Counter(races=1)


def bounded(program, _, subject):
    """A race whose lines have bounds."""
    processors, numbers = subject
    first, *rest = words_of(processors, [program, *race(*numbers)])
    out, complaint, status = called(first, *rest)
    wrong = bounds(*numbers[:3], out) if (complaint, status) == ("", 0) else f"{complaint!r}, status {status}"
    if wrong:
        raise Differs(wrong)
    return Counter(races=1)


def checks(rounds):
    """So many rounds of each race, on all processors and on one."""
    for number in range(rounds):
        for processors in ("all", "one"):
            for words, wanted in RACES.items():
                yield Check(f"{words}, {processors}, round {number}", known, (processors, words, wanted))
            for numbers in ((3, 4, 200, 50), (2, 1, 20, 5), (7, 8, 10, 20)):
                yield Check(f"race {numbers}, {processors}, round {number}", bounded, (processors, numbers))


def check(program, rounds=MOST_ROUNDS):
    """How many races differ in so many rounds."""
    all_checks = list(checks(rounds))
    _, differ = compare_all(program, all_checks)
    print(f"{len(all_checks)} races, {differ} differ")
    return differ
