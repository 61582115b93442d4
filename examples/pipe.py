#!/usr/bin/env python3
"""Asks kpart a line at a time, as any program can: appends a record, commits it on two nodes, and reads it back.

    examples/pipe.py [PROGRAM]      PROGRAM is ./kpart where it isn't said
"""
import itertools
import os
import re
import subprocess
import sys

PROGRAM = sys.argv[1] if len(sys.argv) > 1 else f"{os.path.dirname(os.path.abspath(__file__))}/../kpart"
FETCH = ["ask 1", "deliver 0", "deliver 1", "ask 1", "deliver 2"]  # node 1 takes what node 0 has, and tells that it has it
kpart = subprocess.Popen([PROGRAM, "pipe"], stdin=subprocess.PIPE, stdout=subprocess.PIPE, text=True, bufsize=1)
numbers = itertools.count(1)  # of the lines


class Refused(Exception):
    """An answer that is a refusal, as F15 NotLeader."""


def tell(line):
    """Writes the line, and gives its number."""
    kpart.stdin.write(f"{line}\n")
    return next(numbers)


def ask(line):
    """The answer to the line, without the line's number; Refused, where it is a refusal."""
    number = tell(line)
    told, _, answer = kpart.stdout.readline().rstrip("\n").partition(" ")
    if told != str(number):
        raise RuntimeError(f"line {number} is answered {told!r}, {answer!r}")
    if answer.startswith("F"):
        raise Refused(answer)
    return answer


def value(text):
    """The text, if it can be a value: with a comma, a space or a line feed in it the line would say something else."""
    if not re.fullmatch(r"[!-+\--~]+", text):
        raise ValueError(f"{text!r} can't be a value")
    return text


tell("nodes 2 segment 1024 interval 0")  # the first line that counts has no answer
for line in ["elect 0", "adopt 0", "adopt 1"]:
    ask(line)
receipt = ask(f"append 0 1000 -1 -1 -1 d {value('hello')}")
before = ask("read 0 0")
for line in FETCH:
    ask(line)
mark, after = ask("raise 0"), ask("read 0 0")
print(f"{receipt}; {before}; {mark}; {after}")
kpart.stdin.close()
acknowledged = (receipt, mark, after) == ("at 0", "mark 1", f"read 1 0={b'hello'.hex()}")
sys.exit(0 if acknowledged and before == "read 0" and kpart.wait() == 0 else 1)
