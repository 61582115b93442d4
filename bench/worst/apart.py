"""Measures calls one by one, for `search`: a small process, so that less memory shows than a larger one's own.

A line of standard input has the words of a call with tabs between them; the answer is processor seconds, seconds of the clock and resident
KiB. The output goes to the file `out`.
"""
import os
import sys

sys.dont_write_bytecode = True  # no folder beside the modules
sys.path.insert(0, os.path.dirname(os.path.dirname(os.path.abspath(__file__))) + "/shared")
from programs import measured

for line in sys.stdin:
    print(*measured(line.rstrip("\n").split("\t"), "out"), flush=True)
