"""Calls the program with a growth of memory, or a call of the system, refused to it (tools/refuse).

What refuses is tools/lib/refuse.c, which is compiled here and loaded into the program. It also counts the calls that the program
makes, and the bytes that its growths ask for, in a file which it shares with this module.
"""
import errno
import os
import resource
import shutil
import struct
import subprocess
from typing import NamedTuple

from .compare import TOP, Differs

CALLS = ("growth", "read", "write", "open", "mkdir", "list")  # as in refuse.c
BYTES = ("most", "all")  # that one growth, and all of them, ask for
COUNTS = struct.Struct(f"={len(CALLS) + len(BYTES)}Q")
SECONDS, ENDLESS = 60, 2 ** 63


class Kind(NamedTuple):
    """What is refused: which call, by which error (0 where half of its bytes are done), and whether it and all later ones."""
    call: str
    error: int
    lasting: bool


def kinds():
    """All kinds by their names: `read` is one read that fails, and `reads` that one and all later ones."""
    errors = {"growth": errno.ENOMEM, "write": errno.ENOSPC}
    plain = [(call, call, errors.get(call, errno.EIO)) for call in CALLS]
    short = [(f"short-{call}", call, 0) for call in ("read", "write")]
    found = {f"{name}{'s' * lasting}": Kind(call, error, lasting)
             for name, call, error in plain + short for lasting in (False, True)}
    found.update({f"interrupted-{call}": Kind(call, errno.EINTR, False) for call in ("read", "write")})
    found.update({f"{call}-memory": Kind(call, errno.ENOMEM, False) for call in ("open", "mkdir", "list")})
    return found


KINDS = kinds()


class Outcome(NamedTuple):
    """What a call of the program leaves: both outputs, its exit status, and what stands in its folder that wasn't put there, files
    with their bytes, by their names."""
    out: str
    err: str
    status: int
    left: tuple


def bytes_of(path):
    with open(path, "rb") as file:
        return file.read()


def put(path, data):
    with open(path, "wb") as file:
        file.write(data)


def tree(folder):
    """The folders and files below it, by their names, with the files' bytes."""
    found = {}
    for at, folders, files in os.walk(folder):
        inside = os.path.relpath(at, folder)
        found.update({os.path.normpath(f"{inside}/{name}"): None for name in folders})
        found.update({os.path.normpath(f"{inside}/{name}"): bytes_of(f"{at}/{name}") for name in files})
    return found


def compiled(folder):
    """Compiles what refuses; its path, or None."""
    path = f"{folder}/refuse.so"
    try:
        subprocess.run(["cc", "-O1", "-shared", "-fPIC", "-o", path, f"{TOP}/tools/lib/refuse.c"], check=True)
    except (OSError, subprocess.CalledProcessError) as why:
        print(f"tools/refuse: {why}")
        return None
    return path


class Caller:
    """Calls the program in folders of its own, with this object loaded into it."""

    def __init__(self, program, loaded, folder):
        self.program, self.loaded, self.folder = program, loaded, folder
        self.counts = f"{folder}/counts"
        os.makedirs(folder, exist_ok=True)

    def room(self, row):
        """The row's folder, with nothing in it but what the row puts there."""
        room = f"{self.folder}/{row.name}"
        shutil.rmtree(room, ignore_errors=True)
        os.mkdir(room)
        for name, data in row.files.items():
            if data is None:
                os.mkdir(f"{room}/{name}")
            else:
                put(f"{room}/{name}", data)
        return room

    def surroundings(self, kind, first):
        """The variables by which the call of this number is refused; none is where that is None."""
        found = {**os.environ, "LD_PRELOAD": self.loaded, "REFUSE_COUNTS": self.counts}
        if first is not None:
            found.update(REFUSE_CALL=str(CALLS.index(kind.call)), REFUSE_FIRST=str(first), REFUSE_ERRNO=str(kind.error),
                         REFUSE_LAST=str(ENDLESS if kind.lasting else first))
        return found

    def outcome(self, row, **others):
        """What the program leaves, called with these words for its process."""
        room = self.room(row)
        try:
            done = subprocess.run(["kpart", *row.words], executable=self.program, cwd=room, stdin=subprocess.DEVNULL,
                                  capture_output=True, timeout=SECONDS, **others)
        except subprocess.TimeoutExpired:
            raise Differs(f"no end within {SECONDS} seconds") from None
        left = {name: data for name, data in tree(room).items() if name not in row.files}
        return Outcome(done.stdout.decode("latin-1"), done.stderr.decode("latin-1"), done.returncode, tuple(sorted(left.items())))

    def called(self, row, kind=None, first=None):
        """How many of each call the program made, how many bytes its growths asked for, and what it left."""
        put(self.counts, bytes(COUNTS.size))
        left = self.outcome(row, env=self.surroundings(kind, first))
        return dict(zip(CALLS + BYTES, COUNTS.unpack(bytes_of(self.counts)))), left

    def called_within(self, row, kib):
        """What the program leaves that has so many KiB of address space."""
        def limited():
            resource.setrlimit(resource.RLIMIT_AS, (kib * 1024, kib * 1024))

        return self.outcome(row, preexec_fn=limited)
