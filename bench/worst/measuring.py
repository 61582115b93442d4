"""What `worst` and `search` share: one measured call of the program, and producer ids that collide in a hash map."""
import os
import signal
import subprocess
import sys
import tempfile

HERE = os.path.dirname(os.path.abspath(__file__))
BENCH = os.path.dirname(HERE)
sys.path[:0] = [f"{BENCH}/shared", os.path.dirname(BENCH) + "/tools"]
from programs import measured

ROOM = os.environ.get("KPART_BENCH", os.path.join(tempfile.gettempdir(), "kpart-bench")) + "/worst"
GIVEN_UP = (-signal.SIGKILL, 128 + signal.SIGKILL)


def put(data):
    """Writes the bytes to the file over which the program is called, and answers its path."""
    os.makedirs(ROOM, exist_ok=True)
    with open(f"{ROOM}/input", "wb") as file:
        file.write(data)
    return f"{ROOM}/input"


def timed(program, words, seconds):
    """Seconds of the processor, MiB, and MiB of output; None where it was given up after so many seconds."""
    call = ["timeout", "-s", "KILL", str(seconds), program, *words]
    processor, wall, memory = measured(call, f"{ROOM}/out", (0, 1, 2, *GIVEN_UP))
    return None if wall >= seconds else (processor, memory / 1024, os.path.getsize(f"{ROOM}/out") / 2 ** 20)


class Apart:
    """Calls that are measured by a process of its own, which is smaller, so that less memory shows than this one has."""

    def __init__(self, program, seconds):
        os.makedirs(ROOM, exist_ok=True)
        self.program = program
        self.limits = f'ulimit -v 4194304; ulimit -t {seconds}; "$0" "$@" <input 2>/dev/null; exit 0'
        self.process = subprocess.Popen([sys.executable, "-I", "-S", f"{HERE}/apart.py"], cwd=ROOM, text=True, bufsize=1,
                                        stdin=subprocess.PIPE, stdout=subprocess.PIPE, stderr=subprocess.DEVNULL)

    def timed(self, words):
        """Seconds of the processor, which are limited, MiB, and MiB of output, in 4 GiB of address space and with the input as standard
        input."""
        self.process.stdin.write("\t".join(["sh", "-c", self.limits, self.program, *words]) + "\n")
        processor, _, memory = map(float, self.process.stdout.readline().split())
        return processor, memory / 1024, os.path.getsize(f"{ROOM}/out") / 2 ** 20


def forgotten():
    """Removes the files of the calls."""
    for name in ("input", "out"):
        if os.path.exists(f"{ROOM}/{name}"):
            os.remove(f"{ROOM}/{name}")


def colliding(count):
    """So many producer ids that collide (colliding.rs)."""
    os.makedirs(ROOM, exist_ok=True)
    flags = ["-O", "-C", "target-cpu=x86-64-v2", "--edition", "2024"]
    subprocess.run(["rustc", *flags, f"{HERE}/colliding.rs", "-o", f"{ROOM}/colliding"], check=True)
    found = subprocess.run([f"{ROOM}/colliding", str(count)], stdout=subprocess.PIPE, check=True)
    return [int(line) for line in found.stdout.split()]
