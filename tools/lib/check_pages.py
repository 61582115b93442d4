"""Holds the runs that the pages show to what the built program prints: scripts with their traces, pipes, dumps.

A block of a page shows a run if its lines have a line of a script and, behind two spaces or more, its answer. What stands in front of
the block says what it lacks: `the first N lines as above`, those of the last block that began with a header; `examples/NAME.script`, of which
the block shows some lines, in order. README's first run and FORMATS' dump are told by their command and their file.
"""
import re

PAGES = ("docs/FORMATS.md", "docs/RULES.md")
NUMBERS = {"three": 3, "five": 5}
BLOCK = re.compile(r"^```\n(.*?)^```$", re.DOTALL | re.MULTILINE)
TORN = " (no line feed)"


def blocks(text):
    """Each plain block of a page, with the paragraph in front of it."""
    return [(text[:it.start()].rstrip().rpartition("\n\n")[2].replace("\n", " "), it.group(1)) for it in BLOCK.finditer(text)]


def parted(block):
    """The lines on the left, and the answers on the right."""
    pairs = [re.fullmatch(r"(.*?\S)(?:\s{2,}(\S.*))?", line).groups() for line in block.splitlines()]
    return [left for left, _ in pairs], [right for _, right in pairs if right]


def shows_run(block):
    return re.match(r"(nodes|append|leave|elect)\b", block) and "   " in block


def whole(said, lines, header):
    """The block's script, with the lines that it takes from the one above."""
    above = re.search(r"the first (\w+) lines as above(?:, with interval (\d+))?", said)
    if not above:
        return lines
    front = header[:NUMBERS[above[1]]]
    return [re.sub(r"interval \d+", f"interval {above[2]}", it) if above[2] else it for it in front] + lines


def script_runs(room, text, bytes_of, top):
    """The runs of one page: what each block shows, and what the program prints."""
    header = []
    for said, block in blocks(text):
        if not shows_run(block):
            continue
        lines, answers = parted(block)
        example = re.search(r"examples/\w+\.script", said)
        if lines[-1].endswith(TORN):
            yield said, answers, piped(room, lines)
        elif example:
            yield said, in_order(lines, answers, bytes_of(f"{top}/{example[0]}").decode(), room), []
        else:
            lines = whole(said, lines, header)
            header = lines if block.startswith("nodes") else header
            yield said, answers, run(room, "\n".join(lines) + "\n")[-len(answers):]


def run(room, script):
    room.put("shown.script", script.encode())
    return room.called("run", "shown.script")[0].splitlines()


def piped(room, lines):
    sent = "\n".join([*lines[:-1], lines[-1].removesuffix(TORN)])
    room.put("shown.lines", sent.encode())
    with open(room.at("shown.lines"), "rb") as file:
        return room.called("pipe", stdin=file)[0].splitlines()


def in_order(lines, answers, script, room):
    """The lines of the block that aren't, in this order and with these answers, lines of the script."""
    events = script.splitlines()
    told = dict(line.split(" ", 1) for line in run(room, script))
    pairs = iter([(event, told.get(str(number))) for number, event in enumerate(events, 1)])
    return [pair for pair in zip(lines, answers) if not any(pair == it for it in pairs)]


def first_run(room, text, top):
    """README's first command, and what it says that it prints."""
    part = text.partition("## Run it")[2]
    command, printed = (block for _, block in blocks(part)[:2])
    words = command.split()
    yield command, printed, room.called(*words[1:-1], f"{top}/{words[-1]}")[0]


def dump(room, text, top):
    """FORMATS' dump of a file, by the options that are named."""
    for said, block in blocks(text):
        named = re.search(r"`(examples/\w+\.log)`, with `([^`]*)`", said)
        if named:
            yield said, block, room.called("inspect", f"{top}/{named[1]}", *named[2].split())[0]


def check(room, bytes_of, top):
    """Holds what each page shows to what the program prints."""
    texts = {page: bytes_of(f"{top}/{page}").decode() for page in ("README.md", *PAGES)}
    shown = [*first_run(room, texts["README.md"], top), *dump(room, texts["docs/FORMATS.md"], top)]
    for page in PAGES:
        shown += script_runs(room, texts[page], bytes_of, top)
    room.holds("runs that the pages show", len(shown) >= 8, True)
    for said, wanted, found in shown:
        room.holds(f"a page's run: ..{said[-60:].strip()}", found, wanted)
