"""Batches as clients' libraries write them, and what a leader has to answer to each, which was worked out by hand.

The bytes were written by Debian's python3-kafka 2.0.2 (kafka-python), or are a batch of that library in which some fields were changed
and its checksum mended; `by` says which. `tools/chance show clients` has the library write them anew, and `tools/chance clients` compares
them. They are handed in one after another, as in `script`: so each answer holds behind those before it.
"""
from typing import NamedTuple

from .chances import lines

LIBRARY = "python3-kafka 2.0.2"
SENT = []


class Sent(NamedTuple):
    """What a client sends, who wrote it or what was changed in it, what is answered, and why."""
    name: str
    by: str
    answer: str
    why: str
    data: bytes


def sent(name, by, answer, why, *digits):
    SENT.append(Sent(name, by, answer, why, bytes.fromhex("".join(digits))))


# Taken
sent("one record", LIBRARY, "at 0", "",
     "0000000000000000000000390000000002965a94b10000000000000000018bcfe568000000018bcfe56800ffffffffffffffffffffffffffff00000001"
     "0e00000001026100")
sent("three records", LIBRARY, "at 1", "keys, null keys, null values, a time that goes back; maxTimestamp is the greatest",
     "0000000000000000000000480000000002e4ee455f0000000000020000018bcfe568000000018bcfe56801ffffffffffffffffffffffffffff00000003"
     "10000000026b0276000c0002020101000c000104000000")
sent("headers", LIBRARY, "at 4", "one key twice, a null value, an empty one, a key that isn't ASCII",
     "0000000000000000000000600000000002bf9ce4b20000000000000000018bcfe568000000018bcfe56800ffffffffffffffffffffffffffff00000001"
     "5c0000000102610a0a74726163650400ff0a656d70747900086e756c6c010a74726163650a616761696e04c3a90231")

# Idempotent and transactional producers
sent("second batch first", LIBRARY, "F12 OutOfOrderSequence", "the producer is unknown and the base sequence isn't 0",
     "00000000000000000000003e00000000027eb13d9d0000000000000000018bcfe568000000018bcfe56800000000000000000900000000000100000001"
     "18000000010c7365636f6e6400")
sent("first batch", LIBRARY, "at 5", "",
     "00000000000000000000003d0000000002335932a80000000000000000018bcfe568000000018bcfe56800000000000000000900000000000000000001"
     "16000000010a666972737400")
sent("second batch", LIBRARY, "at 6", "",
     "00000000000000000000003e00000000027eb13d9d0000000000000000018bcfe568000000018bcfe56800000000000000000900000000000100000001"
     "18000000010c7365636f6e6400")
sent("first batch again", LIBRARY, "duplicate 5", "its sequence is one of the producer's kept five",
     "00000000000000000000003d0000000002335932a80000000000000000018bcfe568000000018bcfe56800000000000000000900000000000000000001"
     "16000000010a666972737400")
sent("transactional", LIBRARY, "at 7", "the transaction stays open, so the last stable offset stays 7",
     "0000000000000000000000390000000002d0253b560010000000000000018bcfe568000000018bcfe56800000000000000000c00000000000000000001"
     "0e00000001027400")

# Compressed, and of older formats: in all three formats the length stands at place 8 and the magic at place 16
sent("gzip", LIBRARY, "F5 Compressed", "bits 0 to 2 of the attributes are 1",
     "0000000000000000000000510000000002ef1f76eb0001000000000000018bcfe568000000018bcfe56800ffffffffffffffffffffffffffff00000001"
     "1f8b08000000000002ffbbc6c8c0c0c0788231910e8001005e5478516d000000")
sent("format 0, small", LIBRARY, "F1 Truncated", "27 bytes, fewer than 61",
     "00000000000000000000000f51df3a320000ffffffff0000000161")
sent("format 0, large", LIBRARY, "F2 BadMagic", "the length, 114, is that of all behind it; the magic is 0",
     "0000000000000000000000729e5fbecd0000ffffffff0000006461616161616161616161616161616161616161616161616161616161616161616161"
     "616161616161616161616161616161616161616161616161616161616161616161616161616161616161616161616161616161616161616161616161"
     "616161616161")
sent("format 0, two small ones", LIBRARY, "F3 BadLength", "70 bytes; the first one's length is 23, below 49",
     "00000000000000000000001781b3262f0000ffffffff0000000961616161616161616100000000000000010000001764ba1c240000ffffffff000000"
     "09626262626262626262")
sent("format 1, small", LIBRARY, "F1 Truncated", "35 bytes, fewer than 61",
     "00000000000000000000001742b4af0201000000018bcfe56800ffffffff0000000161")
sent("format 1, large", LIBRARY, "F2 BadMagic", "the length, 122, is that of all behind it; the magic is 1",
     "00000000000000000000007aa724124d01000000018bcfe56800ffffffff000000646161616161616161616161616161616161616161616161616161"
     "616161616161616161616161616161616161616161616161616161616161616161616161616161616161616161616161616161616161616161616161"
     "6161616161616161616161616161")
sent("format 1, two large ones", LIBRARY, "F3 BadLength", "the first one's length is 62, and bytes stand behind it",
     "00000000000000000000003ea4d2a7fe01000000018bcfe56800ffffffff000000286161616161616161616161616161616161616161616161616161"
     "616161616161616161616161616100000000000000010000003e1e926d8101000000018bcfe56800ffffffff00000028626262626262626262626262"
     "62626262626262626262626262626262626262626262626262626262")
sent("format 1, gzip", LIBRARY, "F2 BadMagic", "one message of 95 bytes, which holds the two; the magic is 1",
     "000000000000000000000053db129e4001010000000000000000ffffffff0000003d1f8b08000000000002ff63608083aae52a42be8c400663f7f9a7"
     "190cff8100c84949a40380ba006479956e28d7274c5724d10100003ee1feca0c010000")

# Others
sent("two batches", LIBRARY, "F3 BadLength", "bytes stand behind the first one",
     "0000000000000000000000390000000002965a94b10000000000000000018bcfe568000000018bcfe56800ffffffffffffffffffffffffffff00000001"
     "0e000000010261000000000000000000000000390000000002a2bd3c280000000000000000018bcfe568000000018bcfe56800ffffffffffffffffffffff"
     "ffffff000000010e00000001026200")
sent("header key in Latin-1", "the header key's byte 65 as e9",
     "F8 BadRecord 61", "a header key that isn't UTF-8, in the first record",
     "00000000000000000000003d0000000002dfc755db0000000000000000018bcfe568000000018bcfe56800ffffffffffffffffffffffffffff00000001"
     "160000000102610202e90231")
sent("sarama, no producer", "maxTimestamp -1 and base sequence 0",
     "F7 BadCount", "maxTimestamp is below 0, which is tested before the producer fields",
     "00000000000000000000003900000000027ae6ac5f0000000000000000018bcfe56800ffffffffffffffffffffffffffffffffffff0000000000000001"
     "0e00000001026100")
sent("sarama, a producer", "maxTimestamp -1", "F7 BadCount", "maxTimestamp is below 0",
     "00000000000000000000003900000000028bd4adda0000000000000000018bcfe56800ffffffffffffffff000000000000002800000000000000000001"
     "0e00000001026100")
sent("base sequence 0 alone", "base sequence 0", "F10 BadProducerFields", "producer id and epoch are -1, and the base sequence isn't",
     "00000000000000000000003900000000022bd5f1a40000000000000000018bcfe568000000018bcfe56800ffffffffffffffffffff0000000000000001"
     "0e00000001026100")
sent("time before 1970", LIBRARY, "F7 BadCount", "the base timestamp is below 0",
     "00000000000000000000003900000000026d651bac000000000000ffffffffffffffffffffffffffffffffffffffffffffffffffffffffffff00000001"
     "0e00000001026100")
sent("a later time before 1970", LIBRARY, "F8 BadRecord 69", "the second record's time is below 0; the first one has 8 bytes",
     "00000000000000000000004200000000022098205900000000000100000000000003e800000000000003e8ffffffffffffffffffffffffffff00000002"
     "0e000000010261001000d10f0201026200")
sent("maxTimestamp of the last record", "maxTimestamp of the last record, 5 ms less",
     "F7 BadCount", "maxTimestamp isn't the greatest timestamp, which is tested last",
     "0000000000000000000000410000000002828009a30000000000010000018bcfe568050000018bcfe56800ffffffffffffffffffffffffffff00000002"
     "0e000000010261000e00090201026200")


# What the script's last lines print: eight records were taken, the last of them in a transaction that is open.
LAST = {
    "raise 0": "mark 8",
    "show 0": "node 0 life 0 end 8 mark 8 stable 7",
    "read 0 0": "read 8 0=61 1=76 2=- 3= 4=61 5=6669727374 6=7365636f6e64 7=74",
    "committed 0 0": "read 7 0=61 1=76 2=- 3= 4=61 5=6669727374 6=7365636f6e64",
}
FIRST = {
    "nodes 1 segment 1024 interval 0": None,
    "elect 0": "record leader 0 epoch 0 isr 0 version 1",
    "adopt 0": "leads epoch 0 from 0",
}


def handed():
    """The lines of the script that hands them all in, each with its answer; None where a line has none."""
    yield from FIRST.items()
    for one in SENT:
        changed = "" if one.by == LIBRARY else f", changed: {one.by}"
        why = f"; {one.why}" if one.why else ""
        yield f"# {one.name}, by {LIBRARY}{changed}{why}", None
        yield f"raw 0 {one.data.hex()}", one.answer
    yield from LAST.items()


def script():
    return lines(line for line, _ in handed()).encode()


def trace():
    return lines(f"{number} {answer}" for number, (_, answer) in enumerate(handed(), 1) if answer)


# Batches of one record whose value is zeros: a front, and so many zeros behind it, of which the last one is the count of headers. They
# aren't stored whole.

class Large(NamedTuple):
    """A batch of this size, which the library wrote."""
    size: int
    answer: str
    front: bytes
    zeros: int


LARGE = [
    Large(1_048_576, "at 0", bytes.fromhex(
        "0000000000000000000ffff40000000002ec3c0a2c0000000000000000018bcfe568000000018bcfe56800ffffffffffffffffffffffffffff00000001"
        "80ff7f00000001f0fe7f"), 1_048_505),
    Large(1_048_577, "F9 TooLarge", bytes.fromhex(
        "0000000000000000000ffff5000000000287c7c7950000000000000000018bcfe568000000018bcfe56800ffffffffffffffffffffffffffff00000001"
        "82ff7f00000001f2fe7f"), 1_048_506),
]


def large_front(one):
    """The script that hands it in, but for the zeros."""
    return lines(line for line in FIRST).encode() + f"raw 0 {one.front.hex()}".encode()


def large_trace(one):
    answers = [*(answer for answer in FIRST.values() if answer), one.answer]
    return lines(f"{number} {answer}" for number, answer in enumerate(answers, 2))
