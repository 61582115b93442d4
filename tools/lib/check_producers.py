"""Compares what runs of scripts with many producers, whose numbers have much in common, leave with what the rules say."""
from . import check_scripts
from .chances import Colliding


def check(program, first=1, count=1000, events=300):
    """How many of so many seeds differ, from the first one on."""
    return check_scripts.check(program, first, count, events, Colliding)
