"""Compares what sessions of `kpart pipe` by chance leave with what the rules say: each answer, in turn with what comes in, the complaint,
the exit status, the kept files, and the dump of one of them by `kpart inspect`."""
import fcntl
import os
import queue
import subprocess
import sys
import termios
import threading
import time
from collections import Counter

from . import sessions
from .compare import SECONDS, Check, Differs, called, compare_all, same, same_lines
from .decoder import inspect
from .kept_files import limits, tree
from .scripts import lawful

CLOSED = {"0": "<&-", "1": ">&-", "2": "2>&-"}
PAUSE = 0.0002


def command(program, session, folder):
    """The words of the call: a shell closes streams, and becomes the program."""
    shell = ["sh", "-c", " ".join(['exec "$0" "$@"', *(CLOSED[number] for number in session.closed)])] if session.closed else []
    return [*shell, program, "pipe", *(["--keep", folder] if session.keeps else [])]


class Talk:
    """A session that is going on: what it answers is read by a thread, line by line."""

    def __init__(self, program, session, folder):
        self.kpart = subprocess.Popen(command(program, session, folder), stdin=subprocess.PIPE, stdout=subprocess.PIPE,
                                      stderr=subprocess.PIPE, bufsize=0)
        self.end, self.answers, self.come = time.monotonic() + SECONDS, [], queue.SimpleQueue()
        self.reader = threading.Thread(target=self.read)
        self.reader.start()

    def read(self):
        with open(self.kpart.stdout.fileno(), "rb", closefd=False) as out:
            for line in out:
                self.come.put(line.decode("latin-1"))
        self.come.put(None)

    def unread(self):
        """How many bytes of what was written the program has yet to read."""
        return int.from_bytes(fcntl.ioctl(self.kpart.stdin, termios.FIONREAD, bytes(4)), sys.byteorder)

    def write(self, piece):
        """Writes the piece, and waits until it is read, so that the next one comes by itself; tells whether the program still reads."""
        try:
            while piece:
                piece = piece[self.kpart.stdin.write(piece):]
            while self.unread() and self.kpart.poll() is None and time.monotonic() < self.end:
                time.sleep(PAUSE)
        except BrokenPipeError:
            return False
        return True

    def wait_for(self, count):
        """Waits for so many answers, or the end of all."""
        while len(self.answers) < count:
            try:
                answer = self.come.get(timeout=max(0, self.end - time.monotonic()))
            except queue.Empty:
                raise Differs(f"no answer within {SECONDS} seconds, after {self.answers[-1:]}") from None
            if answer is None:
                return
            self.answers.append(answer)

    def closed(self):
        """Ends the input, and tells the complaint and the exit status once all answers have come."""
        self.kpart.stdin.close()
        self.wait_for(sys.maxsize)
        complaint = self.kpart.stderr.read().decode("latin-1")
        return complaint, self.kpart.wait()

    def over(self):
        """Ends the program, whatever it does."""
        self.kpart.kill()
        self.kpart.wait()
        self.reader.join()
        for stream in (self.kpart.stdin, self.kpart.stdout, self.kpart.stderr):
            stream.close()


def left(program, session, wanted, folder):
    """What the session leaves, the files aside."""
    talk = Talk(program, session, folder)
    numbers = [int(answer.split(" ")[0]) for answer in wanted.answers]
    try:
        for piece, lines in session.pieces():
            if not talk.write(piece):
                break
            if session.is_in_turn:
                talk.wait_for(sum(number <= lines for number in numbers))
        return talk.closed(), talk.answers
    finally:
        talk.over()


def check_dump(program, room, session, kept):
    """Has the first node's files dumped, joined."""
    limit, interval = limits(lawful(session.data)[0])
    joined = b"".join(kept[name] for name in sorted(kept) if name.startswith("node-0/") and name.endswith(".log"))
    with open(f"{room}/log", "wb") as file:
        file.write(joined)
    lines, status = inspect(joined, limit, interval)
    found = called(program, "inspect", f"{room}/log", "--segment", str(limit), "--interval", str(interval))
    same_lines("the dump of node 0", found[0], "".join(f"{line}\n" for line in lines))
    same("its complaint and status", found[1:], ("", status))


def check_seed(program, room, seed):
    """The session of a seed. Half of the folders are there before."""
    session, folder = sessions.session(seed), f"{room}/kept"
    wanted = sessions.wanted(session)
    if session.keeps and seed % 2:
        os.mkdir(folder)
    try:
        (complaint, status), answers = left(program, session, wanted, folder)
        same_lines("answers", "".join(answers), "".join(wanted.answers))
        same("complaint and status", (complaint, status), (wanted.complaint, wanted.status))
        if session.keeps:
            same("kept files", tree(folder), wanted.kept)
            if wanted.kept:
                check_dump(program, room, session, wanted.kept)
    except Differs as why:
        raise Differs(f"{session}: {why}\n  tools/chance show pipes {seed}") from None
    return Counter(sessions=1)


def check(program, first=1, count=1000):
    """How many of so many seeds differ, from the first one on."""
    _, differ = compare_all(program, [Check(f"seed {seed}", check_seed, seed) for seed in range(first, first + count)])
    print(f"{count} sessions, {differ} differ")
    return differ
