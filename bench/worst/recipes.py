"""What an input of `search` is made from: two kinds of pieces, how they take turns, and some numbers.

A recipe has a key, from which the input can be made again: the command, the kinds, the shape, and each choice that isn't the usual one,
as in `run/plain+read/halves/kib=128/middle=raised`.
"""
from typing import NamedTuple

from kinds import IDS, LOG, MIDDLES, SCRIPT, STARTS, Log, Script

COMMANDS = {"run": (Script, SCRIPT), "pipe": (Script, SCRIPT), "inspect": (Log, LOG)}
SHAPES = ("alone", "halves", "turns")  # one kind; the one up to a share of the size, then the other; some of the one, then one of the other
LAST = ("none", "fault")  # what stands at the end: a faulty line, or a byte that is missing

# Of each choice the usual value first, and then what else it may be.
CHOICES = {
    "kib": (64, 128, 256),
    "nodes": (1, 2, 3, 7),
    "segment": (1024, 65536, 2 ** 30),
    "interval": (0, 1, 4096, 1_048_576),
    "ids": IDS,
    "length": (1, 10, 100, 4000, 30_000),
    "values": (1, 2, 20, 1000, 20_000),
    "share": (50, 5, 20, 80, 95),
    "many": (1, 3, 10, 100, 1000),
    "start": STARTS,
    "middle": ("raised", *(name for name in MIDDLES if name != "raised")),
    "last": LAST,
    "seed": (1, 2, 3),
}


class Recipe(NamedTuple):
    """The choices of an input."""
    command: str
    first: str
    second: str
    shape: str
    kib: int = 64
    nodes: int = 1
    segment: int = 1024
    interval: int = 0
    ids: str = "one"
    length: int = 1
    values: int = 1
    share: int = 50
    many: int = 1
    start: str = "0"
    middle: str = "raised"
    last: str = "none"
    seed: int = 1

    def key(self):
        kinds = self.first if self.shape == "alone" else f"{self.first}+{self.second}"
        odd = [f"{name}={getattr(self, name)}" for name, values in CHOICES.items() if getattr(self, name) != values[0]]
        return "/".join([self.command, kinds, self.shape, *odd])

    def words(self, path):
        """The words of the command line over the input; a pipe reads it from its standard input."""
        limits = ["--segment", str(self.segment), "--interval", str(self.interval)]
        return {"run": ["run", path], "pipe": ["pipe"], "inspect": ["inspect", path, *limits]}[self.command]


def recipe_of(key):
    """The recipe of a key."""
    command, kinds, shape, *odd = key.split("/")
    said = dict(word.split("=") for word in odd)
    first, _, second = kinds.partition("+")
    return Recipe(command, first, second or first, shape,
                  **{name: type(CHOICES[name][0])(value) for name, value in said.items()})


class Pieces:
    """Pieces one behind another, of so many bytes at most."""

    def __init__(self, recipe, colliding):
        maker, self.kinds = COMMANDS[recipe.command]
        self.maker, self.found, self.left = maker(recipe, colliding), [], recipe.kib * 1024
        self.add(self.maker.front())

    def add(self, pieces):
        """Adds lines or batches; tells whether there was room."""
        data = b"".join(piece if isinstance(piece, bytes) else f"{piece}\n".encode() for piece in pieces)
        if len(data) > self.left:
            return False
        self.found.append(data)
        self.left -= len(data)
        return True

    def repeat(self, kinds, least=0):
        """Pieces of these kinds, over and over, until no more than so many bytes are left."""
        while self.left > least:
            for kind in kinds:
                if not self.add(self.kinds[kind](self.maker)):
                    return


def data_of(recipe, colliding):
    """The bytes of a recipe's input."""
    found = Pieces(recipe, colliding)
    if recipe.shape == "halves":
        found.repeat([recipe.first], found.left * (100 - recipe.share) // 100)
        found.add(found.maker.middle())
        found.repeat([recipe.second])
    else:
        found.repeat([recipe.first] if recipe.shape == "alone" else [recipe.first] * recipe.many + [recipe.second])
    data = b"".join(found.found)
    return data if recipe.last == "none" else data[:-1] if recipe.command == "inspect" else data + b"elect\n"
