"""What the benchmarks of the whole program share: which program is timed, and what one run of a program takes.

    python3 bench/shared/programs.py PROGRAM WORD..

runs the program with its output in the file `out`, and prints its processor time, its wall time (both in seconds) and its greatest
resident memory in KiB, by a finer clock than that of time(1).
"""
import os
import subprocess
import sys
import time

SHARED = os.path.dirname(os.path.abspath(__file__))
TOP = os.path.dirname(os.path.dirname(SHARED))
SCRIPTS = f"{SHARED}/scripts.py"


def kpart():
    """The program that KPART names, else the repository's, built where it isn't as the sources are."""
    named = os.environ.get("KPART")
    if not named:
        subprocess.run([f"{TOP}/tools/build"], check=True)
        named = f"{TOP}/crates/kpart/out/kpart"
    return named


def measured(words, out, statuses=(0,)):
    """Processor seconds, seconds of the clock and resident KiB of one run, whose output goes to this file."""
    target = os.open(out, os.O_WRONLY | os.O_CREAT | os.O_TRUNC)
    began = time.monotonic()
    child = os.posix_spawnp(words[0], words, os.environ, file_actions=[(os.POSIX_SPAWN_DUP2, target, 1)])
    _, status, used = os.wait4(child, 0)
    wall = time.monotonic() - began
    os.close(target)
    if os.waitstatus_to_exitcode(status) not in statuses:
        sys.exit(f"{words[0]}: status {os.waitstatus_to_exitcode(status)}")
    return used.ru_utime + used.ru_stime, wall, used.ru_maxrss


if __name__ == "__main__":
    print(*measured(sys.argv[1:], "out"))
