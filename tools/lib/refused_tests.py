"""The tests of kp_tests, and what may come of each where a growth of memory is refused to it (tools/refuse tests).

The test program lists its tests by `--list`, and runs the one that its first word names. A test that ends as it should says so, and its
status is 0. Else its words stand on standard error, the place of what failed on standard output, and it ends by SIGABRT: of
crates/kp_tests/src/shown.rt `is` says `F33 Memory in place of ..`, and `unrefused` `F33 Memory`; an assertion of two values says what
was found and what is wanted.
"""
import re
import signal
import subprocess

from .refused_rows import Row

PASSED = "\ntest result: ok\n"
# All that one which doesn't has on standard output: where its assertion stands.
STOPPED = r"\ntest stopped at src/\w+\.rt:\d+:\d+\n"
# What names want of memory: the text of a refusal, or a found value that has one.
NAMED = r"F33 Memory( in place of .*)?\n|assertion `left == right` failed.*\n  left: .*F33 Memory.*\n right: .*\n"

# Those that hold also where one growth is refused. Where all later ones are, too, they may say a text that has F33 in it.
ALWAYS = (
    "replica_tests::a_request_without_memory_reports_nothing",
    "replica_tests::a_take_without_memory_keeps_a_beginning",
    "replica_restart_tests::a_restart_without_memory_keeps_the_node",
)


def found(left):
    """An assertion of two values of which this one was found."""
    return r"assertion `left == right` failed(: [^`]*)?\n  left: " + left + r"\n right: .*\n"


# What else a test may say, in words that a wrong answer could have, too: a worker tells nobody that its step was refused. The steps
# behind it then don't come, nor the sends that are counted. An event of a picture that is refused has that in its title, so the title that
# is looked for isn't there.
OWN = {
    "draw_tests::each_event_is_drawn_once": found("0"),
    "cluster_tests::gate_two_nodes": found(r"Ok\(false\)"),
    "race_tests::refused_threads_and_sends_leave_what_stops": found(r"Ok\(Ended \{ .* \}\)"),
}
# Tests of workers end once these are told so, for which there has to be memory again; so of them one growth at a time is refused. Nor
# could words then tell nodes that disagree from nodes that do nothing.
WORKERS = ("cluster_tests::", "race_tests::")


class Test(Row):
    """A run of one test."""
    grows = False

    def __init__(self, name):
        super().__init__(name, [name], "", "", 0)
        self.kinds = ("growth",) if name.startswith(WORKERS) else ("growth", "growths")

    def is_whole(self, got):
        return got.status == 0 and got.err == "" and got.out.endswith(PASSED)

    def judged(self, kind, got):
        """What came of a refusal, in a word; None where that may not be."""
        if self.is_whole(got):
            return "whole"
        if got.status != -signal.SIGABRT or not re.fullmatch(STOPPED, got.out):
            return None
        if self.name in ALWAYS:
            return "F33" if kind.lasting and "F33 Memory\n" in got.err else None
        if re.fullmatch(NAMED, got.err, re.DOTALL):
            return "F33"
        return "unnamed" if re.fullmatch(OWN.get(self.name, "(?!)"), got.err) else None


def tests(program):
    """The tests of the program by their names, each as a row."""
    said = subprocess.run([program, "--list"], stdin=subprocess.DEVNULL, capture_output=True, text=True, check=True).stdout
    *names, count = said.splitlines()
    assert count == f"tests: {len(names)}" and all(name.endswith(": test") for name in names), said
    known = {name: Test(name) for name in (it.removesuffix(": test") for it in names)}
    strange = {*ALWAYS, *OWN} - {*known}
    assert not strange, f"there is no test {', '.join(sorted(strange))}"
    return known
