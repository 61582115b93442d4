"""Holds records (`kpart-broker --record`) to what their scripts' runs print: each line has to be answered as it was then.

    python3 tools/lib/check_recorded.py FILE..    the scripts; beside each stands FILE.answers

By the program that KPART names, or the repository's where it is built; and by the rules (`scripts.py`) where there is none, or where RULES
is set. A record of a process that was killed may lack the answers of its last lines: it is held up to there.
"""
import os
import subprocess
import sys
import tempfile

sys.dont_write_bytecode = True  # no folder beside the modules
TOP = os.path.dirname(os.path.dirname(os.path.dirname(os.path.abspath(__file__))))
sys.path.insert(0, f"{TOP}/tools")
from lib import scripts

SECONDS = 600


def bytes_of(path):
    with open(path, "rb") as file:
        return file.read()


def program():
    """The program, if there is one."""
    path = os.environ.get("KPART", f"{TOP}/crates/kpart/out/kpart")
    return path if os.access(path, os.X_OK) else None


def front(script, answers):
    """The whole lines of the answers, and the script up to the line of the last one."""
    told = answers[:answers.rfind(b"\n") + 1]
    last = int(told.splitlines()[-1].split(b" ")[0]) if told else 1
    return b"".join(script.splitlines(True)[:last]), told


def by_program(path, script):
    """What the program prints: a run where that takes so many events, else a pipe."""
    with tempfile.NamedTemporaryFile() as file:
        file.write(script)
        file.seek(0)
        words = [path, "pipe"] if script.count(b"\n") > scripts.MAX_EVENTS else [path, "run", file.name]
        ran = subprocess.run(words, stdin=file, stdout=subprocess.PIPE, stderr=subprocess.PIPE, timeout=SECONDS, check=False)
    return ran.stdout if ran.returncode in (0, 1) and not ran.stderr else ran.stdout + ran.stderr


def by_rules(script):
    trace, said, _ = scripts.run(script)
    return (trace + said).encode()


def players():
    """Who plays scripts here, by what they are called."""
    path, found = program(), {}
    if path:
        found["kpart run"] = lambda script: by_program(path, script)
    if not path or "RULES" in os.environ:
        found["the rules"] = by_rules
    return found


def difference(script, played, told):
    """The first line that is answered otherwise, if there is one."""
    now, then = played.splitlines(), told.splitlines()
    for one, other in zip(now, then):
        if one != other:
            line = script.splitlines()[int(other.split(b" ")[0]) - 1][:80].decode()
            return f"`{line}` was answered `{other.decode()}`, and now `{one.decode()}`"
    return None if len(now) == len(then) else f"{len(then)} lines were answered, and now {len(now)}"


def check(path):
    """How many events the record has, and what differs in it."""
    answers = bytes_of(f"{path}.answers")  # first: its lines are in the script by then
    script, told = front(bytes_of(path), answers)
    for name, play in players().items():
        why = difference(script, play(script), told)
        if why:
            return told.count(b"\n"), f"{path}, by {name}: {why}"
    return told.count(b"\n"), None


def main(paths):
    found = [check(path) for path in paths]
    differ = [why for _, why in found if why]
    print("\n".join([*differ, f"{len(found)} records, {sum(count for count, _ in found)} events, {len(differ)} differ"]))
    return 1 if differ else 0


if __name__ == "__main__":
    sys.exit(main(sys.argv[1:]))
