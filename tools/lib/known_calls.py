"""What the documents say of other calls: dumps that were worked out by hand, and what is told of words that are no call.

tools/rows holds its own evaluator to the first. It takes clap's refusals for the wanted text, as it has no command line.
"""

# Command line, and what it leaves.
DUMPS = {
    "inspect made_nothing.log": "end 0\nstatus 0\n",
    "inspect made_zeros.log": "fault F1 Truncated at 0\nstatus 1\n",
    "inspect made_zeros_behind.log": """batch 0 size 69 base 0 last 0 epoch 0 time 1000 producer -1 -1 -1 data
fault F1 Truncated at 69
status 1
""",
    "inspect made_odd_record.log": """batch 0 size 69 base 0 last 0 epoch 0 time 1000 producer -1 -1 -1 data
fault F8 BadRecord 69 at 69
status 1
""",
    "inspect made_one_segment.log --segment 1024 --interval 0": """\
batch 0 size 512 base 0 last 0 epoch 0 time 10 producer -1 -1 -1 data
batch 512 size 512 base 1 last 1 epoch 0 time 20 producer -1 -1 -1 data
segment 00000000000000000000.log 1024
offset 1 512
time 20 1
epoch 0 0
end 2
status 0
""",
    "inspect made_two_segments.log --segment 1024 --interval 0": """\
batch 0 size 512 base 0 last 0 epoch 0 time 10 producer -1 -1 -1 data
batch 512 size 513 base 1 last 1 epoch 0 time 20 producer -1 -1 -1 data
segment 00000000000000000000.log 512
time 10 0
segment 00000000000000000001.log 513
epoch 0 0
end 2
status 0
""",
    "inspect made_aborted.log --segment 1024 --interval 100": """\
batch 0 size 69 base 0 last 0 epoch 0 time 10 producer 5 0 0 txn
batch 69 size 69 base 1 last 1 epoch 0 time 30 producer -1 -1 -1 data
batch 138 size 78 base 2 last 2 epoch 0 time 20 producer 5 0 -1 abort 7
segment 00000000000000000000.log 216
offset 2 138
time 30 1
epoch 0 0
producer 5 0 7 0-0@0
aborted 5 0 2 3
end 3
status 0
""",
}
DUMPS["inspect made_example.log --segment 1024 --interval 100"] = \
    DUMPS["inspect made_aborted.log --segment 1024 --interval 100"]

VALUE, UNKNOWN, MISSING = "ValueValidation", "UnknownArgument", "MissingRequiredArgument"

RUN, INSPECT = "run [OPTIONS] <FILE>", "inspect [OPTIONS] <FILE>"
RACE = "race --nodes <N> --producers <P> --batches <B> --moves <M>"
NUMBER, TOO_LARGE, EMPTY = ("invalid digit found in string", "number too large to fit in target type",
                            "cannot parse integer from empty string")

HELP = """\
A replicated partition log with Kafka's replication rules

Usage: kpart <COMMAND>

Commands:
  run      Runs a script and prints its trace
  inspect  Reads a log and prints its batches, segments and tables
  race     Runs nodes, producers and elections in threads, and prints whether all nodes agree
  pipe     Plays a script's lines from standard input, and answers each before it reads the next one
  draw     Runs a script and prints a picture of its run, an SVG
  help     Print this message or the help of the given subcommand(s)

Options:
  -h, --help     Print help
  -V, --version  Print version
"""
HELP_RUN = """\
Runs a script and prints its trace

Usage: kpart run [OPTIONS] <FILE>

Arguments:
  <FILE>  the script to run

Options:
      --from <FOLDER>  the folder that another run has left, to go on with its nodes
      --keep <FOLDER>  an empty folder, or a new one, to keep what the nodes leave in
  -h, --help           Print help
"""
HELP_INSPECT = """\
Reads a log and prints its batches, segments and tables

Usage: kpart inspect [OPTIONS] <FILE>

Arguments:
  <FILE>  the log to read

Options:
      --segment <S>   the most bytes of a segment [default: 1073741824]
      --interval <I>  the bytes between two entries of an index [default: 4096]
  -h, --help          Print help
"""
HELP_RACE = """\
Runs nodes, producers and elections in threads, and prints whether all nodes agree

Usage: kpart race --nodes <N> --producers <P> --batches <B> --moves <M>

Options:
      --nodes <N>      how many nodes, from 1 to 7
      --producers <P>  how many producers, from 1 to 8
      --batches <B>    how many batches of one record by each producer, from 0 to 10000
      --moves <M>      how many elections meanwhile, from 0 to 1000
  -h, --help           Print help
"""
HELP_PIPE = """\
Plays a script's lines from standard input, and answers each before it reads the next one

Usage: kpart pipe [OPTIONS]

Options:
      --keep <FOLDER>  an empty folder, or a new one, to keep what the nodes leave in
  -h, --help           Print help
"""
HELP_DRAW = """\
Runs a script and prints a picture of its run, an SVG

Usage: kpart draw [OPTIONS] <FILE>

Arguments:
  <FILE>  the script to draw

Options:
      --from <L>  the first line to draw [default: 1]
      --to <L>    the last line to draw [default: 4294967295]
  -h, --help      Print help
"""
VERSION = "kpart 0.1.0\n"


def mistake(message, usage="", tip=""):
    """clap's text of a mistake in the words."""
    parts = [f"error: {message}", f"  tip: {tip}" if tip else "", f"Usage: kpart {usage}" if usage else "",
             "For more information, try '--help'."]
    return "\n\n".join(part for part in parts if part) + "\n"


def unexpected(word, usage, tip=""):
    """An argument that the command doesn't have; where it could be a value, clap says how."""
    tip = tip or (f"to pass '{word}' as a value, use '-- {word}'" if word.startswith("-") else "")
    return mistake(f"unexpected argument '{word}' found", usage, tip)


def invalid(word, option, why):
    """A value that isn't one of the option's."""
    return mistake(f"invalid value '{word}' for '--{option}': {why}")


def not_provided(*options):
    """A race without these options."""
    return mistake("the following required arguments were not provided:" + "".join(f"\n  {it}" for it in options), RACE)


# Words that are no call, the kind that clap gives their refusal, and its text as it is shown.
NO_CALL = {f"kpart{' ' if words else ''}{words}": (kind, text) for words, kind, text in (
    ("", "MissingSubcommand", mistake("'kpart' requires a subcommand but one was not provided\n  [subcommands: run, inspect, race, pipe, draw, help]", "<COMMAND>")),
    ("walk x.script", "InvalidSubcommand", mistake("unrecognized subcommand 'walk'", "<COMMAND>")),
    ("run", MISSING, mistake("the following required arguments were not provided:\n  <FILE>", "run <FILE>")),
    ("run a b", UNKNOWN, unexpected("b", RUN)),
    ("--loud", UNKNOWN, mistake("unexpected argument '--loud' found", "<COMMAND>")),
    ("run a b\x1b]0;owned\x07\u009b", UNKNOWN, unexpected("b\\x1b]0;owned\\x07\\xc2\\x9b", RUN)),
    ("ru\x1bn\\x a", "InvalidSubcommand", mistake("unrecognized subcommand 'ru\\x1bn\\x5cx'", "<COMMAND>", "a similar subcommand exists: 'run'")),
    ("inspect x --segment \x1b[31m1", VALUE, invalid("\\x1b[31m1", "segment <S>", NUMBER)),
    ("--help", "DisplayHelp", HELP),
    ("--version", "DisplayVersion", VERSION),
    ("-V", "DisplayVersion", VERSION),
    ("run --version", UNKNOWN, unexpected("--version", RUN)),
    ("run --help", "DisplayHelp", HELP_RUN),
    ("help run", "DisplayHelp", HELP_RUN),
    ("inspect --help", "DisplayHelp", HELP_INSPECT),
    ("inspect x -h", "DisplayHelp", HELP_INSPECT),
    ("help inspect", "DisplayHelp", HELP_INSPECT),
    ("inspect x --segment 1023", VALUE, invalid("1023", "segment <S>", "1023 is not in 1024..=1073741824")),
    ("inspect x --segment 1073741825", VALUE, invalid("1073741825", "segment <S>", "1073741825 is not in 1024..=1073741824")),
    ("inspect x --segment 4294968320", VALUE, invalid("4294968320", "segment <S>", "4294968320 is not in 1024..=1073741824")),
    ("inspect x --segment 18446744073709552640", VALUE, invalid("18446744073709552640", "segment <S>", TOO_LARGE)),
    ("inspect x --segment=-1024", VALUE, invalid("-1024", "segment <S>", NUMBER)),
    ("inspect x --segment 1kB", VALUE, invalid("1kB", "segment <S>", NUMBER)),
    ("inspect x --segment=", VALUE, invalid("", "segment <S>", EMPTY)),
    ("inspect x --segment", "InvalidValue", mistake("a value is required for '--segment <S>' but none was supplied")),
    ("inspect x --segment 1024 --segment 1024", "ArgumentConflict", mistake("the argument '--segment <S>' cannot be used multiple times", INSPECT)),
    ("inspect x --interval 1048577", VALUE, invalid("1048577", "interval <I>", "1048577 is not in 0..=1048576")),
    ("run made_1.script --keep", "InvalidValue", mistake("a value is required for '--keep <FOLDER>' but none was supplied")),
    ("run made_1.script --from", "InvalidValue", mistake("a value is required for '--from <FOLDER>' but none was supplied")),
    ("run made_1.script --keep a --keep b", "ArgumentConflict", mistake("the argument '--keep <FOLDER>' cannot be used multiple times", RUN)),
    ("inspect made_example.log --keep kept", UNKNOWN, unexpected("--keep", "inspect <FILE>")),
    ("inspect x --interval=-0", VALUE, invalid("-0", "interval <I>", NUMBER)),
    ("inspect x --interval 0x10", VALUE, invalid("0x10", "interval <I>", NUMBER)),
    ("inspect x --interval -1", UNKNOWN, unexpected("-1", INSPECT)),
    ("inspect x --intervals 1", UNKNOWN, unexpected("--intervals", "inspect --interval <I> <FILE>", "a similar argument exists: '--interval'")),
    ("inspect x -s 1024", UNKNOWN, unexpected("-s", INSPECT)),
    ("inspect x y", UNKNOWN, unexpected("y", INSPECT)),
    ("inspect", MISSING, mistake("the following required arguments were not provided:\n  <FILE>", "inspect <FILE>")),
    ("inspect --segment 1024", MISSING, mistake("the following required arguments were not provided:\n  <FILE>", "inspect --segment <S> <FILE>")),
    ("run x --segment 1024", UNKNOWN, unexpected("--segment", "run <FILE>")),
    ("--segment 1024 inspect x", UNKNOWN, unexpected("--segment", "<COMMAND>", "'inspect --segment' exists")),
    ("race", MISSING, not_provided("--nodes <N>", "--producers <P>", "--batches <B>", "--moves <M>")),
    ("race --nodes 3 --producers 2 --batches 1", MISSING, not_provided("--moves <M>")),
    ("race --producers 2 --batches 1 --moves 0", MISSING, not_provided("--nodes <N>")),
    ("race --help", "DisplayHelp", HELP_RACE),
    ("help race", "DisplayHelp", HELP_RACE),
    ("pipe --help", "DisplayHelp", HELP_PIPE),
    ("help pipe", "DisplayHelp", HELP_PIPE),
    ("pipe x", UNKNOWN, unexpected("x", "pipe [OPTIONS]")),
    ("draw --help", "DisplayHelp", HELP_DRAW),
    ("help draw", "DisplayHelp", HELP_DRAW),
    ("draw", MISSING, mistake("the following required arguments were not provided:\n  <FILE>", "draw <FILE>")),
    ("draw x --from 0", VALUE, invalid("0", "from <L>", "0 is not in 1..=4294967295")),
    ("draw x --to 4294967296", VALUE, invalid("4294967296", "to <L>", "4294967296 is not in 1..=4294967295")),
    ("draw x --keep kept", UNKNOWN, unexpected("--keep", "draw <FILE>")),
    ("race --nodes 0 --producers 1 --batches 0 --moves 0", VALUE, invalid("0", "nodes <N>", "0 is not in 1..=7")),
    ("race --nodes 8 --producers 1 --batches 0 --moves 0", VALUE, invalid("8", "nodes <N>", "8 is not in 1..=7")),
    ("race --nodes 257 --producers 1 --batches 0 --moves 0", VALUE, invalid("257", "nodes <N>", "257 is not in 1..=7")),
    ("race --nodes 1 --producers 0 --batches 0 --moves 0", VALUE, invalid("0", "producers <P>", "0 is not in 1..=8")),
    ("race --nodes 1 --producers 9 --batches 0 --moves 0", VALUE, invalid("9", "producers <P>", "9 is not in 1..=8")),
    ("race --nodes 1 --producers 1 --batches 10001 --moves 0", VALUE, invalid("10001", "batches <B>", "10001 is not in 0..=10000")),
    ("race --nodes 1 --producers 1 --batches 0 --moves 1001", VALUE, invalid("1001", "moves <M>", "1001 is not in 0..=1000")),
    ("race --nodes one --producers 1 --batches 0 --moves 0", VALUE, invalid("one", "nodes <N>", NUMBER)),
    ("race x --nodes 1 --producers 1 --batches 0 --moves 0", UNKNOWN, unexpected("x", RACE)),
)}

# Calls whose file isn't there, and its path.
NO_FILE = {f"kpart {words}": path for words, path in (
    ("run no.script", "no.script"),
    ("run no/such.script", "no/such.script"),
    ("run no.script --keep full", "no.script"),
    ("run no.script --from nowhere", "no.script"),
    ("inspect no.log --segment 1024", "no.log"),
    ("draw no.script --from 2", "no.script"),
)}

# Rows whose folder isn't empty
NO_FOLDER = {f"kpart {words}": path for words, path in (
    ("run made_example_first.script --keep full", "full"),
    ("pipe --keep full < two_segments.script", "full"),
)}


def outcome(nodes, receipts, acknowledged, committed, agree):
    """The five lines of a race."""
    return (f"nodes {nodes}\nreceipts {receipts}\nacknowledged {acknowledged}\ncommitted {committed}\n"
            f"agree {agree}\n")


# Races whose lines are the same in any schedule: of one node, and without a batch.
RACES = {f"kpart race {words}": lines for words, lines in (
    ("--nodes 1 --producers 1 --batches 3 --moves 0", outcome(1, 3, 3, 3, "yes")),
    ("--nodes 1 --producers 2 --batches 5 --moves 4", outcome(1, 10, 10, 10, "yes")),
    ("--moves=0 --batches=0 --producers=2 --nodes=3", outcome(3, 0, 0, 0, "yes")),
    ("--nodes +7 --producers 8 --batches 00 --moves 1", outcome(7, 0, 0, 0, "yes")),
)}
