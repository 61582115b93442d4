"""Makes sessions of `kpart pipe` by chance, and says what each leaves, by the rules alone.

What comes in is a script by chance (chances.py) with lines between its own that are no event, or that have no answer; half of them
are broken besides as files are (mutations.py). Often its last line has no line feed. It is cut into pieces of any size, which come one
by one, and which may wait for the answers. Standard streams may be closed, and the logs may be kept.
"""
import hashlib
import re
from typing import NamedTuple

from . import scripts
from .chances import Chance, Colliding, Replicas
from .kept_files import kept_tree
from .logs import Numbers
from .mutations import broken_script

FAILED = "kpart: F32 Device\n"
PIECES = 200  # the most of a session; what is left then comes as one
STREAMS = ("", "0", "1", "2", "01", "02", "12", "012")  # by their numbers
JUNK = [b"", b"", b"#", b"# 1 at 0", b"#\xff", b"\r", b" ", b"\t", b"\0", b"\xff\xfe", b"elect", b"elect 00", b"elect 0 ", b" elect 0",
        b"elect 7", b"elect 0\r", b"nodes 1 segment 1024 interval 0", b"nodes 8 segment 1024 interval 0", b"append 0 5 -1 -1 -1 d a,,b",
        b"append 0 5 -1 -1 -1 d a b", b"append 0 5 9 0 00 d a", b"raw 0 0A", b"raw 0 0", b"mark 0 1 9 0 0 end", b"deliver 2147483648",
        b"read 0 -1", b"2 at 0", b"F31 BadScript 1", b"1 F31 BadScript 1", b"show 0 show 0", b"stop", b"a" * 70_000]
LONG = [b"#" * scripts.MAX_LINE, b"#" * (scripts.MAX_LINE + 1), b"raw 0 " + b"0" * (scripts.MAX_LINE - 5), b"0" * (3 * scripts.MAX_LINE)]


class Session(NamedTuple):
    """What comes in, the sizes of its pieces, whether the next one waits for the answers to the lines that have come, whether logs are
    kept, and which standard streams are closed."""
    data: bytes
    sizes: tuple
    is_in_turn: bool
    keeps: bool
    closed: str

    def pieces(self):
        """The pieces, and behind each how many lines have come whole."""
        place = 0
        for size in (*self.sizes, len(self.data)):
            piece = self.data[place:place + size]
            place += len(piece)
            if piece:
                yield piece, self.data.count(b"\n", 0, place)

    def __str__(self):
        torn = not self.data.endswith(b"\n") and self.data != b""
        said = [f"{len(self.data)} bytes", f"{len([*self.pieces()])} pieces", *["in turn"] * self.is_in_turn,
                *["a torn last line"] * torn, *["--keep"] * self.keeps, *[f"closed {self.closed}"] * bool(self.closed)]
        return f"kpart pipe: {', '.join(said)}"


class Left(NamedTuple):
    """What a session leaves: answers, complaint, exit status, and kept files by name."""
    answers: list
    complaint: str
    status: int
    kept: dict


def junk(n):
    """A line that is no event or has no answer: a listed one, or any bytes."""
    if n.once_in(150):
        return n.one_of(LONG)
    if n.once_in(6):
        return bytes(n.below(256) for _ in range(n.below(40))).replace(b"\n", b"")
    return n.one_of(JUNK)


def lines_of(n):
    """The lines of a script, with others between them, none of them, a few or many."""
    maker = n.one_of([Chance, Replicas, Colliding, Colliding])(n.below(2 ** 32))
    script = maker.script(n.one_of([4, 20, 60, 120])).encode()
    if n.once_in(2):
        script = broken_script(n, script)[1]
    often, found = n.one_of([0, 3, 10, 60]), []
    for line in script.split(b"\n"):
        while n.below(100) < often:
            found.append(junk(n))
        found.append(line)
    return b"\n".join(found)


def torn(n, data):
    """Ends in a line of the later half that lacks its line feed, or some bytes more, so that it often is an event still; or the same."""
    ends = [found.start() for found in re.finditer(b"\n", data)]
    if n.once_in(2) or not ends:
        return data
    return data[:max(0, n.one_of(ends[len(ends) // 2:]) - n.below(n.one_of([1, 1, 3, 12])))]


def sizes(n, data):
    """One piece, single bytes at the front, small ones, lines, or large ones."""
    most = n.one_of([0, 1, 4, 30, 300, 70_000])
    if n.once_in(4):
        ends = [found.end() for found in re.finditer(b"\n", data)][:PIECES]
        return tuple(end - before for before, end in zip([0, *ends], ends))
    return tuple(1 + n.below(most) for _ in range(PIECES)) if most else ()


def session(seed):
    """The session of a seed."""
    n = Numbers(int.from_bytes(hashlib.sha256(f"pipe {seed}".encode()).digest()[:8], "big"))
    data = torn(n, lines_of(n))
    return Session(data, sizes(n, data), n.below(2) == 0, n.below(2) == 0, n.one_of(STREAMS) if n.once_in(4) else "")


def wanted(found):
    """What the session leaves. Where standard output fails the event of the first answer has happened."""
    data, (answers, status), complaint = found.data, scripts.piped(found.data), ""
    if "0" in found.closed:
        data, answers, complaint, status = b"", [], FAILED, 1
    elif "1" in found.closed and answers:
        data, answers, complaint, status = scripts.up_to_answer(data, answers[0]), [], FAILED, 1
    script = scripts.lawful(data)[0]
    kept = kept_tree(script) if found.keeps and script else {}
    return Left(answers, "" if "2" in found.closed else complaint, status, kept)
