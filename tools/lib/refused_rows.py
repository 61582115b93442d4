"""The calls of the program that tools/refuse makes, and what may come of each where something is refused to it.

A row knows the whole answer, by the rules (scripts.py, decoder.py, kept_files.py, known_calls.py). From it follows what else
may come (docs/FORMATS.md, 'The program'; docs/RULES.md, what stands after F32 and F33):

- where a growth is refused, F33 with a beginning of the answer; in the trace of a script also events that are refused with F33, of
  those that take memory, and then what the rules say after them;
- where a call of the system fails, F32 with a beginning of the answer, and a second line where FILE or FOLDER failed;
- where a call is short or interrupted, the whole answer.
"""
import errno
import re

from . import kept_files, left_folders, left_reader, scripts
from .chances import lines
from .compare import TOP
from .decoder import inspect
from .known_calls import NO_CALL
from .pictures import titles_in
from .refusals import KINDS, bytes_of

EVENTS_AT_ONCE = 512  # so many lines of a trace are written at a time
MEMORY, DEVICE = "kpart: F33 Memory\n", "kpart: F32 Device\n"
REASONS = {errno.EIO: "its device failed", errno.ENOSPC: "the disk is full",
           errno.ENOMEM: "out of memory"}
SOUND = (0, errno.EINTR)  # of calls that are short or interrupted


def refusal(error):
    return MEMORY if error == errno.ENOMEM else DEVICE


def complaint(error, path):
    """What is said where FILE or FOLDER failed."""
    return f"{refusal(error)}kpart: {path}: {REASONS[error]}\n"


def begins(found, wanted):
    """Whether the found files and folders are a beginning of the wanted ones, which stand in the order in which they are made:
    whole ones, and a beginning of the last."""
    found = dict(found)
    for name, data in wanted.items():
        if name not in found:
            break
        got = found.pop(name)
        if got != data:
            return None not in (got, data) and data.startswith(got) and not found
    return not found


class Row:
    """A call: its words, the files that stand there, and FILE and FOLDER among its words. Its answer is a text, or a complaint.
    `kinds` may be refused to it, and it `grows` in memory."""
    kinds, grows = tuple(KINDS), True

    def __init__(self, name, words, out, err, status, files=(), path=None, folder=None):
        self.name, self.words, self.files, self.path, self.folder = name, words, dict(files), path, folder
        self.out, self.err, self.status = out, err, status
        self.taken = {folder: None} if folder and folder not in self.files else {}  # what is left once FOLDER is taken
        self.kept = self.taken if folder else {}  # and in the end, in the order in which it is made

    def is_whole(self, got):
        """Whether it is the answer where nothing is refused."""
        return got[:3] == (self.out, self.err, self.status) and dict(got.left) == self.kept

    def is_begun(self, out):
        """Whether it is a beginning of the answer."""
        return self.out.startswith(out)

    def judged(self, kind, got):
        """What came of a refusal, in a word; None where that may not be."""
        if self.is_whole(got):
            return "whole" if kind.call in ("growth", "open") or kind.error in SOUND else None
        if kind.error in SOUND:
            return None
        if kind.call == "growth":
            return self.without_memory(got)
        if kind.call == "write":
            return self.without_output(kind, got)
        return refusal(kind.error).split()[1] if self.without_device(kind, got) else None

    # Where a growth is refused

    def without_memory(self, got):
        """A refused growth may end the call before anything is written, or once a beginning is."""
        left = dict(got.left)
        if got.status != 1 or left not in ({}, self.taken):
            return None
        said = [complaint(errno.ENOMEM, path) for path in (self.path, self.folder) if path]
        if got.out == "" and got.err in said and left == {}:
            return "F33"
        return "F33" if got.err == MEMORY and self.may_begin(got.out) else None

    def may_begin(self, out):
        """Whether this may be out where memory is refused; help and complaints are made whole before."""
        return out == ""

    # Where a call of the system fails

    def without_device(self, kind, got):
        """Whether it may have been FILE that failed, or FOLDER when it was taken, or later."""
        at_start = got.out == "" and got.status == 1
        if self.path and kind.call in ("read", "open") and got.err == complaint(kind.error, self.path):
            return at_start and dict(got.left) == (self.taken if kind.call == "read" else {})
        if kind.call == "read" or not self.folder:
            return False
        if at_start and got.left == () and got.err == complaint(kind.error, self.folder):
            return True
        return kind.call != "list" and self.without_folder(kind, got)

    def without_folder(self, kind, got):
        """Whether the whole text is out, and a beginning of the files there."""
        said = MEMORY if kind.error == errno.ENOMEM else complaint(kind.error, self.folder)
        if kind.call == "write" and kind.lasting:
            said = ""  # standard error fails then, too
        is_right = got.out != "" and (got.out, got.err, got.status) == (self.out, said, 1)
        return is_right and begins(got.left, self.kept) and dict(got.left).items() >= self.taken.items()

    def without_output(self, kind, got):
        """A file of FOLDER, the output, or standard error, which may fail after them, and by itself leaves the status."""
        if self.folder and self.without_folder(kind, got):
            return "F32"
        if self.err:
            is_right = (got.out, got.err, got.status) == (self.out, "", self.status_untold()) and dict(got.left) == self.kept
            return "untold" if is_right else None
        is_right = got.status == 1 and got.err == ("" if kind.lasting else DEVICE) and dict(got.left) == self.taken
        return "F32" if is_right and got.out != self.out and self.is_begun(got.out) else None

    def status_untold(self):
        """The status where standard error fails, which is 1 for clap's texts."""
        return self.status if self.err.startswith("kpart: ") else 1


class Dump(Row):
    """`kpart inspect`."""

    def __init__(self, name, log, data, *limits):
        text, status = inspect(data, *(limits or (2 ** 30, 4096)))
        options = ["--segment", str(limits[0]), "--interval", str(limits[1])] if limits else []
        super().__init__(name, ["inspect", log, *options], lines(text), "", status, {log: data}, log)

    def may_begin(self, out):
        return self.is_begun(out) and out != self.out


class Run(Row):
    """`kpart run`, which may keep logs."""

    def __init__(self, name, script, data, folder=None, stands=False):
        words, files = ["run", script, *(["--keep", folder] if folder else [])], {script: data}
        if stands:
            files[folder] = None
        super().__init__(name, words, *scripts.run(data), files, script, folder)
        self.events = None
        if not self.err:
            count, self.events = scripts.parse(data)
            self.world, self.limit = kept_files.KeepingWorld(count), kept_files.limits(data)[0]
            self.kept = self.kept_by(next(scripts.ends(self.world.with_room(None), self.events, self.out.splitlines())))

    def kept_by(self, world):
        """What is left once this world is kept, in the order in which it is made."""
        if not self.folder:
            return {}
        kept = kept_files.entries_of(world, self.limit)
        return self.taken | {f"{self.folder}/{name}": data for name, data in kept}

    def worlds(self, out):
        """The worlds of the rules that this beginning of a trace may leave."""
        *found, rest = out.split("\n")
        if rest or len(found) > len(self.events):
            return iter(())
        return scripts.ends(self.world.with_room(None), self.events[:len(found)], found)

    def without_memory(self, got):
        """The whole trace, with events that are refused, or lines that were written before memory ran out for the run itself;
        or the whole trace, and a beginning of the files."""
        length = got.out.count("\n")
        if self.events is None or length < len(self.events) or not length:
            return super().without_memory(got)
        left, kept = dict(got.left), map(self.kept_by, self.worlds(got.out))
        if got.err == "" and got.status == 1:
            return "events" if any(left == wanted for wanted in kept) else None
        if self.folder and got.err == MEMORY and got.status == 1:
            return "F33" if any(begins(left, wanted) for wanted in kept) else None
        return None

    def may_begin(self, out):
        if self.events is None:
            return out == ""
        return out.count("\n") % EVENTS_AT_ONCE == 0 and any(True for _ in self.worlds(out))

    def why(self, out):
        """The first line that the rules don't have."""
        if self.events is None:
            return ""
        found = out.splitlines(True)
        for count in range(1, len(found) + 1):
            if not any(True for _ in self.worlds("".join(found[:count]))):
                return f"the rules have another line than {found[count - 1]!r}"
        return ""


class GoneOn(Run):
    """`kpart run --from`, of the folder that another script's run has left."""

    LEFT = "left"

    def __init__(self, name, script, data, left, folder=None):
        words = ["run", script, "--from", self.LEFT, *(["--keep", folder] if folder else [])]
        files = {script: data, self.LEFT: None, **{f"{self.LEFT}/{at}": of for at, of in kept_files.kept_tree(left).items()}}
        out, err, status, world = left_folders.told(data, left)
        Row.__init__(self, name, words, out, err, status, files, script, folder)
        self.events = None
        if world:
            self.events, self.limit = scripts.parse(data)[1], kept_files.limits(data)[0]
            self.world = kept_files.play(left).world
            left_folders.pause(self.world)
            self.kept = self.kept_by(world)

    def places(self):
        """What may fail, as a complaint names it: the folder, and each file in it."""
        names = (at.removeprefix(f"{self.LEFT}/") for at in self.files if at.startswith(f"{self.LEFT}/"))
        return [self.LEFT, *(f"{self.LEFT}/{left_reader.place_of(it)}" for it in names)]

    def is_refused_at_start(self, got, error):
        """Whether the folder that is read failed, or a file in it; of memory that is wanted there no place is told."""
        said = (*(complaint(error, it) for it in self.places()), *[MEMORY] * (error == errno.ENOMEM))
        return (got.out, got.status) == ("", 1) and got.err in said and dict(got.left) == self.taken

    def without_memory(self, got):
        return "F33" if self.is_refused_at_start(got, errno.ENOMEM) else super().without_memory(got)

    def without_device(self, kind, got):
        return kind.call in ("read", "open", "list") and self.is_refused_at_start(got, kind.error) or super().without_device(kind, got)


class Draw(Row):
    """`kpart draw`, of a script whose picture stands in the pages."""

    def __init__(self, name, path, data, picture):
        super().__init__(name, ["draw", path], picture, "", 0, {path: data}, path)
        count, self.events = scripts.parse(data)
        self.world = kept_files.KeepingWorld(count)

    def without_memory(self, got):
        """An event that is refused for want of memory has that in its title."""
        if got.err or got.status:
            return super().without_memory(got)
        told = [title.split("\n")[-1] for title in titles_in(got.out)]
        ends = scripts.ends(self.world.with_room(None), self.events, told)
        return "events" if len(told) == len(self.events) and any(True for _ in ends) else None


class Race(Row):
    """`kpart race`, whose numbers depend on the schedule."""

    NAMES = ("nodes", "receipts", "acknowledged", "committed", "agree")

    def __init__(self, name, nodes, producers, batches, moves):
        words = ["race", "--nodes", nodes, "--producers", producers, "--batches", batches, "--moves", moves]
        super().__init__(name, [str(word) for word in words], "", "", 0)
        self.nodes, self.most = nodes, producers * batches

    def is_whole(self, got):
        found = re.fullmatch("".join(f"{name} (.*)\n" for name in self.NAMES), got.out)
        if not found or got[1:] != ("", 0, ()) or not all(re.fullmatch("0|[1-9][0-9]*", word) for word in found.groups()[:4]):
            return False
        nodes, receipts, acknowledged, committed = map(int, found.groups()[:4])
        return (nodes == self.nodes and acknowledged <= receipts <= self.most and acknowledged <= committed
                and found[5] == "yes")

    def is_begun(self, out):
        return all(line.startswith(f"{name} ") for line, name in zip(out.split("\n")[:-1], self.NAMES))

    def without_output(self, kind, got):
        is_right = got.status == 1 and got.err == ("" if kind.lasting else DEVICE) and got.left == ()
        return "F32" if is_right and got.out.count("\n") < len(self.NAMES) and self.is_begun(got.out) else None


# The rows

DATA = f"{TOP}/crates/kp_rows/data"
EXAMPLES = ("first", "batches", "producers", "transactions", "replicate", "failover", "insync")
SCRIPTS = ("refused_events", "several_records", "producers_by_the_table", "transactions_survive_a_restart", "markers_by_the_table",
           "restart_from_a_checkpoint", "stopped_node", "fetch_answer_of_an_earlier_life", "cut_twice",
           "two_rounds_of_reconciliation", "in_sync_changes", "one_change_at_a_time", "late_messages", "made_cluster_7")
WORDS = {"help": "--help", "version": "--version", "help_of_run": "run --help", "no_words": "", "no_command": "walk x.script",
         "not_in_range": "inspect x --segment 1023"}
FAULTY = b"nodes 1 segment 1024 interval 0\nelect 7\n"
# A batch comes twice, and a follower takes three at once; where it has no room for all of them it is down, and its restart tells
# how many it has.
TAKES = lines((
    "nodes 2 segment 1024 interval 0", "elect 0", "adopt 0", "adopt 1", "append 0 10 -1 -1 -1 d a", "append 0 20 7 0 0 d b",
    "append 0 30 -1 -1 -1 d c,d", "append 0 20 7 0 0 d b", "ask 1", "deliver 0", "deliver 1", "show 1", "restart 1", "show 1", "adopt 1",
    "ask 1", "deliver 2", "deliver 3", "ask 1", "deliver 4", "deliver 5", "show 1")).encode()
LONG = b"nodes 1 segment 1024 interval 0\nelect 0\nadopt 0\nappend 0 10 -1 -1 -1 d a\nraise 0\n" + b"show 0\nread 0 0\n" * 300


def called_row(name, words):
    """Words that are no call, and what clap says of them."""
    kind, text = NO_CALL[f"kpart{' ' if words else ''}{words}"]
    is_asked = kind.startswith("Display")
    return Row(name, words.split(), text if is_asked else "", "" if is_asked else text, 0 if is_asked else 2)


def runs():
    for name in EXAMPLES:
        yield Run(name, f"{name}.script", bytes_of(f"{TOP}/examples/{name}.script"))
    for name in SCRIPTS:
        yield Run(name, f"{name}.script", bytes_of(f"{DATA}/{name}.script"))
    yield Run("takes", "takes.script", TAKES)
    yield Run("long", "long.script", LONG)
    yield Run("faulty", "faulty.script", FAULTY)
    segments, replicate = bytes_of(f"{DATA}/two_segments.script"), bytes_of(f"{TOP}/examples/replicate.script")
    yield Run("keep", "two.script", segments, "logs")
    yield Run("keep_in_a_folder", "two.script", segments, "logs", stands=True)
    yield Run("keep_of_three", "replicate.script", replicate, "logs")
    yield Run("keep_takes", "takes.script", TAKES, "logs")
    yield Run("keep_faulty", "faulty.script", FAULTY, "logs")
    failover, goes_on = bytes_of(left_folders.FAILOVER), bytes_of(f"{DATA}/goes_on.script")
    yield GoneOn("from", "goes_on.script", goes_on, failover)
    yield GoneOn("from_and_keep", "goes_on.script", goes_on, failover, "logs")
    yield GoneOn("from_lost", "goes_on.script", bytes_of(f"{DATA}/goes_on_lost.script"), failover)


def rows():
    """All rows. A program may not know the races yet."""
    yield from runs()
    yield Dump("dump", "a.log", bytes_of(f"{TOP}/examples/transaction.log"), 1024, 100)
    yield Dump("dump_of_15", "a.log", bytes_of(f"{DATA}/made_first_15.log"))
    yield Dump("dump_of_a_fault", "a.log", bytes_of(f"{DATA}/made_odd_record.log"))
    yield Draw("draw", "a.script", bytes_of(f"{TOP}/examples/failover.script"), bytes_of(f"{TOP}/docs/failover.svg").decode())
    missing = f"{DEVICE}kpart: no.script: no such file\n"
    yield Row("no_file", ["run", "no.script"], "", missing, 1, path="no.script")
    for name, words in WORDS.items():
        yield called_row(name, words)
    yield Race("race", 3, 2, 5, 3)
    yield Race("race_of_one", 1, 2, 5, 0)
