"""Breaks record batches, logs and scripts, each function in one way that its name says.

Each takes numbers by chance and what it breaks, and answers the broken one; the same again where there is nothing to break so.
`BATCH` has those of the bytes of one batch, `ROW` those of a list of batches, and `SCRIPT` those of a script's bytes. They know the
format of batches (docs/FORMATS.md) only so far as to find its fields; what the program has to say of what they leave is for
others to tell.
"""
import re
import struct
from typing import NamedTuple

from . import scripts
from .batch import GREATEST_EPOCH, TOP, crc32c
from .decoder import Reader
from .encoder import end, varint
from .logs import NAMES, Maker

HEAD = 61  # the bytes of a batch before its records


# Numbers and bytes

def wrapped(number, bits):
    """The signed number of so many bits that has the same low bits."""
    return (number + 2 ** (bits - 1)) % 2 ** bits - 2 ** (bits - 1)


def odd(n, number, bits, more=()):
    """Another number: near this one, small, huge, negative, at an end of its type, or one of these."""
    if more and n.once_in(3):
        return n.one_of(more)
    top = 2 ** (bits - 1)
    near = [number + 1, number - 1, number + 2 + n.below(300), number - 2 - n.below(300), 2 * number, -number]
    ends = [0, 1, 2, -1, -2, 127, 128, top - 1, top - 2, -top, top // 2, top // 2 - 1, n.below(top)]
    return wrapped(n.one_of(near + ends + [number ^ 1 << n.below(bits)]), bits)


def replaced(data, place, size, others):
    return data[:place] + others + data[place + size:]


def some_bytes(n):
    """Up to twelve bytes: zeros, all bits set, or any."""
    count = 1 + n.below(n.one_of([1, 4, 12]))
    return n.one_of([bytes(count), b"\xff" * count, bytes(n.below(256) for _ in range(count))])


# Bytes of anything

def one_bit(n, data):
    place = n.below(len(data))
    return replaced(data, place, 1, bytes([data[place] ^ 1 << n.below(8)]))


def byte_zero(n, data):
    return replaced(data, n.below(len(data)), 1, b"\0")


def byte_full(n, data):
    return replaced(data, n.below(len(data)), 1, b"\xff")


def byte_other(n, data):
    return replaced(data, n.below(len(data)), 1, bytes([n.below(256)]))


def end_cut(n, data):
    """Bytes less at the end, a few more often than many."""
    return data[:len(data) - 1 - n.below(n.one_of([1, 9, len(data)]))]


def front_cut(n, data):
    return data[1 + n.below(n.one_of([1, 9, len(data)])):]


def bytes_dropped(n, data):
    return replaced(data, n.below(len(data)), 1 + n.below(n.one_of([1, 9])), b"")


def bytes_doubled(n, data):
    place, size = n.below(len(data)), 1 + n.below(n.one_of([1, 9, 70]))
    return replaced(data, place, 0, data[place:place + size])


def bytes_inserted(n, data):
    return replaced(data, n.below(len(data) + 1), 0, some_bytes(n))


def bytes_behind(n, data):
    return data + some_bytes(n)


# The head of a batch: where each field is, how it is packed, and which of its values are at the ends of what is lawful

FIELDS = {
    "base_offset": (0, ">q", (TOP, TOP + 1)),
    "batch_length": (8, ">i", (48, 49, 50, 1_048_564, 1_048_565)),
    "leader_epoch": (12, ">i", (GREATEST_EPOCH, GREATEST_EPOCH + 1, 0, -1, -2)),
    "magic": (16, ">b", (0, 1, 3)),
    "checksum": (17, ">i", ()),
    "attributes": (21, ">h", (0, 0x10, 0x20, 0x30, 0x40, 0x50, 1, 2, 4, 8, 9, 0x11)),
    "last_offset_delta": (23, ">i", ()),
    "base_timestamp": (27, ">q", (TOP, TOP + 1)),
    "greatest_timestamp": (35, ">q", (TOP, TOP + 1)),
    "producer_id": (43, ">q", (5, 7, 12, 40)),
    "producer_epoch": (51, ">h", ()),
    "base_sequence": (53, ">i", ()),
    "records_count": (57, ">i", ()),
}


def field(data, name):
    place, code, _ = FIELDS[name]
    return struct.unpack_from(code, data, place)[0]


def with_field(data, name, number):
    place, code, _ = FIELDS[name]
    return replaced(data, place, struct.calcsize(code), struct.pack(code, number))


def head_field(name):
    """A mutation of this field alone."""
    _, code, more = FIELDS[name]

    def change(n, data):
        if len(data) < HEAD:
            return data
        return with_field(data, name, odd(n, field(data, name), 8 * struct.calcsize(code), more))
    return change


def producer_fields(n, data):
    """All three at once, lawful together more often than not."""
    if len(data) < HEAD:
        return data
    numbers = n.one_of([(-1, -1, -1), (5, 0, -1), (5, 0, 0), (7, 4681, 2 ** 31 - 1), (2 ** 63 - 1, 32767, 0), (-1, 0, 0),
                        (5, 1, 1)])
    return replaced(data, 43, 14, struct.pack(">qhi", *numbers))


def counts(n, data):
    """Last offset delta and records count together, so that they agree."""
    if len(data) < HEAD:
        return data
    count = odd(n, field(data, "records_count"), 32)
    return with_field(with_field(data, "records_count", count), "last_offset_delta", wrapped(count - 1, 32))


def timestamps(n, data):
    """Both by the same number, so that they agree."""
    if len(data) < HEAD:
        return data
    more = n.one_of([1, -1, 500, -500, 2 ** 61, TOP - field(data, "greatest_timestamp"), -field(data, "base_timestamp")])
    names = ("base_timestamp", "greatest_timestamp")
    return with_field(with_field(data, names[0], wrapped(field(data, names[0]) + more, 64)), names[1],
                      wrapped(field(data, names[1]) + more, 64))


# Records

class Spot(NamedTuple):
    """A number or a text in a record: what it is, where it stands, what it says, and the spot of its record's length."""
    name: str
    place: int
    size: int
    number: int
    length: "Spot" = None


class Walk(Reader):
    """Finds all spots from the first record on, up to what can't be read."""

    def __init__(self, data):
        super().__init__(data, HEAD)
        self.spots, self.length = [], None

    def note(self, name, bits=32):
        place = self.place
        number = self.number(bits)
        self.spots.append(Spot(name, place, self.place - place, number, self.length))
        return number

    def note_text(self, name):
        count = max(0, self.note(f"{name}_length"))
        self.spots.append(Spot(name, self.place, len(self.take(count)), 0, self.length))

    def walk_record(self):
        self.length = None
        self.note("record_length")
        self.length = self.spots[-1]
        self.take(1)
        self.note("timestamp_delta", 64)
        self.note("offset_delta")
        self.note_text("key")
        self.note_text("value")
        for _ in range(self.note("header_count")):
            self.note_text("header_key")
            self.note_text("header_value")


def spots(data):
    walk = Walk(data)
    try:
        while walk.place < len(data):
            walk.walk_record()
    except ValueError:
        pass
    return walk.spots


def records(data):
    """Where each record begins, and the end behind them; nothing where they don't go up to the batch's end."""
    found = [one for one in spots(data) if one.name == "record_length"]
    ends = [one.place + one.size + one.number for one in found]
    places = [HEAD, *ends]
    return places if found and ends[-1] == len(data) and places[:-1] == [one.place for one in found] else []


def respelled(n, data, spot, others):
    """The bytes with these at the spot; now and then the record's length is mended, so that what is wrong lies deeper."""
    found = replaced(data, spot.place, spot.size, others)
    if spot.length and n.below(3):
        length = spot.length
        found = replaced(found, length.place, length.size, varint(length.number + len(others) - spot.size))
    return found


def spot_of(n, data, *names):
    """One of these spots, if there is one."""
    found = [one for one in spots(data) if one.name in names]
    return n.one_of(found) if found else None


NUMBERS = ("record_length", "timestamp_delta", "offset_delta", "key_length", "value_length", "header_count", "header_key_length",
           "header_value_length")


def record_number(name):
    """A mutation of the numbers of this name."""
    def change(n, data):
        spot = spot_of(n, data, name)
        if not spot:
            return data
        bits = n.one_of([8, 16, 32, 32, 33, 64, 65])
        return respelled(n, data, spot, varint(odd(n, spot.number, bits)))
    return change


def number_longer(n, data):
    """A spelling with groups of zeros behind it: one more, up to ten bytes, or eleven."""
    spot = spot_of(n, data, *NUMBERS)
    if not spot:
        return data
    said = data[spot.place:spot.place + spot.size]
    size = n.one_of([len(said) + 1, len(said) + 1, 5, 10, 11])
    longer = said[:-1] + bytes([said[-1] | 128]) + b"\x80" * (size - len(said) - 1) + b"\0"
    return respelled(n, data, spot, longer if size > len(said) else said + b"\0")


def number_wide(n, data):
    """A spelling of more bits than its type has, whose low bits say the number, or one of five or ten bytes that says any."""
    spot = spot_of(n, data, *NUMBERS)
    if not spot:
        return data
    raw = 2 * spot.number if spot.number >= 0 else -2 * spot.number - 1
    more = raw + (1 + n.below(3)) * 2 ** (64 if spot.name == "timestamp_delta" else 32)
    any_bits = bytes(128 + n.below(128) for _ in range(n.one_of([4, 9]))) + bytes([1 + n.below(127)])
    spelled = varint(more // 2 if more % 2 == 0 else -(more + 1) // 2)
    return respelled(n, data, spot, n.one_of([spelled, any_bits]))


def number_without_end(n, data):
    """A number whose last group says that another one follows."""
    spot = spot_of(n, data, *NUMBERS)
    if not spot:
        return data
    last = spot.place + spot.size - 1
    return replaced(data, last, 1, bytes([data[last] | 128]))


def text_byte(n, data):
    """A byte of a text, be it one that begins, goes on with or can't be in a character."""
    found = [one for one in spots(data) if one.name in ("key", "value", "header_key", "header_value") and one.size]
    if not found:
        return data
    names = [one for one in found if one.name == "header_key"]
    spot = n.one_of(names if names and n.below(3) else found)
    byte = n.one_of([0, 1, 0x61, 0x80, 0xBF, 0xC0, 0xC3, 0xE0, 0xED, 0xF0, 0xF4, 0xFF])
    return replaced(data, spot.place + n.below(spot.size), 1, bytes([byte]))


def text_resized(n, data):
    """A text that is longer or shorter than its length says."""
    spot = spot_of(n, data, "key", "value", "header_key", "header_value")
    if not spot:
        return data
    said = data[spot.place:spot.place + spot.size]
    return respelled(n, data, spot, n.one_of([said + b"a", said[:-1], said + some_bytes(n), b""]))


def record_attributes(n, data):
    spot = spot_of(n, data, "record_length")
    if not spot or spot.place + spot.size >= len(data):
        return data
    return replaced(data, spot.place + spot.size, 1, bytes([n.one_of([1, 2, 16, 128, 255])]))


def header_more(n, data):
    """A header more, counted or not, behind those of a record."""
    spot = spot_of(n, data, "header_count")
    if not spot:
        return data
    said = n.one_of([b"\0\x01", b"\x02h\x02v", b"\x02\xff\x01", b"\x01\x01", b"\x04\xc3\xa9\0"])
    return respelled(n, data, spot, varint(spot.number + n.below(2)) + said)


def counted(n, data, more):
    """With so many more records counted, now and then."""
    found = with_field(data, "records_count", wrapped(field(data, "records_count") + more, 32))
    return n.one_of([data, with_field(found, "last_offset_delta", wrapped(field(data, "last_offset_delta") + more, 32))])


def record_doubled(n, data):
    places = records(data)
    if not places:
        return data
    at = n.below(len(places) - 1)
    return counted(n, replaced(data, places[at], 0, data[places[at]:places[at + 1]]), 1)


def record_dropped(n, data):
    places = records(data)
    if not places:
        return data
    at = n.one_of([n.below(len(places) - 1), len(places) - 2])
    return counted(n, replaced(data, places[at], places[at + 1] - places[at], b""), -1)


def records_swapped(n, data):
    places = records(data)
    if len(places) < 3:
        return data
    at = n.below(len(places) - 2)
    first, second, behind = places[at:at + 3]
    return data[:first] + data[second:behind] + data[first:second] + data[behind:]


def marker_broken(n, data):
    """A control batch whose record is no marker, by its sizes, versions, type, coordinator epoch, headers or count, or another one."""
    if len(data) < HEAD or not field(data, "attributes") & 0x20:
        return data
    key, value = struct.pack(">hh", 0, n.below(2)), struct.pack(">hi", 0, n.one_of([0, n.below(9), 2 ** 31 - 1]))
    keys = [key[:3], key + b"\0", b"\0\0\0\x02", b"\0\0\x01\0", b"\0\x01" + key[2:], b"\xff" + key[1:], None]
    values = [value[:5], value + b"\0", b"\0\0\xff\xff\xff\xff", b"\0\0\x80\0\0\0", b"\0\x01" + value[2:], b"\xff" + value[1:], None]
    parts = n.one_of([[end(key, value)], [end(n.one_of(keys), value)], [end(n.one_of(keys), value)], [end(key, n.one_of(values))],
                      [end(key, n.one_of(values))], [end(key, value, delta=1)], [end(key, value, headers=[(b"h", b"v")])],
                      [end(key, value), end(key, value, place=1)], [end(key, value), end(key, value)]])
    head = with_field(with_field(data[:HEAD], "records_count", len(parts)), "last_offset_delta", len(parts) - 1)
    return length_mended(head + b"".join(parts))


def named(*functions):
    return {function.__name__: function for function in functions}


BYTES = named(one_bit, byte_zero, byte_full, byte_other, end_cut, front_cut, bytes_dropped, bytes_doubled, bytes_inserted,
              bytes_behind)
BATCH = {
    **BYTES,
    **{name: head_field(name) for name in FIELDS},
    **named(producer_fields, counts, timestamps),
    **{name: record_number(name) for name in NUMBERS},
    **named(number_longer, number_wide, number_without_end, text_byte, text_resized, record_attributes, header_more,
            record_doubled, record_dropped, records_swapped),
}
DEEP = named(number_longer, number_wide, text_byte, header_more, marker_broken)
BATCHES = [*BATCH.items(), *[*DEEP.items()] * 4, *[(name, BATCH[name]) for name in NUMBERS]]  # the deepest ones more often


# Mending

def checksum_mended(data):
    if len(data) < HEAD:
        return data
    return replaced(data, 17, 4, struct.pack(">I", crc32c(data[21:])))


def length_mended(data):
    """And the checksum behind it."""
    if len(data) < HEAD:
        return data
    return checksum_mended(with_field(data, "batch_length", len(data) - 12))


MENDS = {"": lambda data: data, ", checksum mended": checksum_mended, ", length and checksum mended": length_mended}
MENDED = [*MENDS] + [*MENDS][1:] + [*MENDS][2:]  # mended more often, as almost all are F4 where nothing is


def offsets_mended(batches):
    """The batches with base offsets that follow one another, as far as they have some."""
    found, base = [], 0
    for data in batches:
        if len(data) >= HEAD:
            data = with_field(data, "base_offset", base)
            base += max(1, field(data, "records_count"))
        found.append(data)
    return found


# Lists of batches

def batch_doubled(n, batches):
    at = n.below(len(batches))
    return batches[:at] + [batches[at]] + batches[at:]


def batch_dropped(n, batches):
    at = n.below(len(batches))
    return batches[:at] + batches[at + 1:]


def batches_swapped(n, batches):
    if len(batches) < 2:
        return batches
    at = n.below(len(batches) - 1)
    return batches[:at] + [batches[at + 1], batches[at]] + batches[at + 2:]


def batches_joined(n, batches):
    """One batch, whose length says the bytes of two; now and then without the second one's head."""
    if len(batches) < 2:
        return batches
    at = n.below(len(batches) - 1)
    one, other = batches[at:at + 2]
    return batches[:at] + [n.one_of([checksum_mended, length_mended])(one + n.one_of([other, other[HEAD:]]))] + batches[at + 2:]


def other_end(n, batches):
    """The end of a batch is that of another one, of as many bytes or from the head on."""
    at, other = n.below(len(batches)), n.one_of(batches)
    size = n.one_of([n.below(20), n.below(len(other)), max(0, len(other) - HEAD)])
    one = batches[at]
    kept = n.one_of([one[:max(0, len(one) - size)], one[:HEAD]])
    return batches[:at] + [n.one_of([*MENDS.values()])(kept + other[len(other) - size:])] + batches[at + 1:]


def bytes_between(n, batches):
    at = n.below(len(batches) + 1)
    return batches[:at] + [some_bytes(n)] + batches[at:]


def last_cut(n, batches):
    """The log ends within its last batch, more often about the end of its head."""
    return batches[:-1] + [batches[-1][:n.one_of([n.below(len(batches[-1])), 59 + n.below(4)])]]


def epochs_changed(n, batches):
    """The leader epochs of all batches up to one of them, which are no part of their checksums: raised, or taken away."""
    end_place, more = 1 + n.below(len(batches)), n.one_of([1, 2, 1000, None])

    def change(data):
        number = -1 if more is None else wrapped(field(data, "leader_epoch") + more, 32)
        return with_field(data, "leader_epoch", number)
    return [change(data) if at < end_place and len(data) >= HEAD else data for at, data in enumerate(batches)]


ROW = named(batch_doubled, batch_dropped, batches_swapped, batches_joined, other_end, bytes_between, last_cut, epochs_changed)


# Scripts

def on_match(n, script, pattern, change):
    """Changes one of the places where the pattern is met."""
    found = [*re.finditer(pattern, script)]
    if not found:
        return script
    one = n.one_of(found)
    return script[:one.start()] + change(one[0]) + script[one.end():]


LINE, NUMBER, VERB = rb"(?m)^[^\n]+$", rb"(?m)(?<= )-?[0-9]+(?= |$)", rb"(?m)^[a-z]+"
NODE = rb"(?m)^(?:%b) [0-9]+" % b"|".join(verb for verb in scripts.EVENTS if verb != b"deliver")
OTHER_NODE = rb"(?m)^(?:join|leave) [0-9]+ [0-9]+"
RAW, HEADER, VALUES = rb"(?m)^raw [0-9]+ [0-9a-f]+$", rb"\A[^\n]*\n?", rb"(?m)(?<= [dt] )[^ \n]+$"
VERBS = [*scripts.EVENTS, b"nodes", b"Elect", b"shows", b"rea", b"", b"#"]


def low_digits(word):
    """What the last nine digits say, or all of a number that has fewer."""
    return int(word[-9:])


def byte_printed(n, script):
    return replaced(script, n.below(len(script)), 1, bytes([0x20 + n.below(0x5F)]))


def byte_not_ascii(n, script):
    others = n.one_of([b"\x80", b"\xff", b"\xc3\xa9", b"\xef\xbb\xbf", b"\xc2\x85"])
    return replaced(script, n.below(len(script)), n.below(2), others)


def byte_nul(n, script):
    return replaced(script, n.below(len(script)), n.below(2), b"\0")


def byte_order_mark(n, script):
    return n.one_of([b"\xef\xbb\xbf", b"\xff\xfe", b"\xfe\xff"]) + script


def line_doubled(n, script):
    return on_match(n, script, LINE, lambda line: line + b"\n" + line)


def line_dropped(n, script):
    return on_match(n, script, rb"[^\n]+\n", lambda line: b"")


def line_cut(n, script):
    return on_match(n, script, LINE, lambda line: line[:n.below(len(line))])


def lines_joined(n, script):
    return on_match(n, script, rb"\n", lambda _: n.one_of([b"", b" ", b"\r", b"\0", b"\\n"]))


def lines_swapped(n, script):
    return on_match(n, script, rb"[^\n]*\n[^\n]*\n", lambda two: b"".join(two.splitlines(True)[::-1]))


def line_moved(n, script):
    """A line to anywhere else."""
    lines = script.split(b"\n")
    line = lines.pop(n.below(len(lines)))
    lines.insert(n.below(len(lines) + 1), line)
    return b"\n".join(lines)


def line_empty(n, script):
    return on_match(n, script, LINE, lambda line: n.one_of([b"", b"\n", b" ", b"\t", b"\r"]) + b"\n" + line)


def line_noted(n, script):
    """A line that begins with #, before the header too."""
    note = n.one_of([b"#", b"# note", b"#\t\r\0", b" # note", b"# \xc3\xa9", b"#\x80", b"# \xff", b"# \x7f"])
    return on_match(n, script, LINE, lambda line: n.one_of([note + b"\n" + line, b"#" + line, line + b" " + note]))


def only_notes(n, script):
    """No line counts, so that there is no header."""
    return re.sub(LINE, n.one_of([b"", b"#", b"# note"]), script)


def number_zeros(n, script):
    return on_match(n, script, NUMBER, lambda word: n.one_of([b"0" + word, b"00" + word, word.replace(b"-", b"-0")]))


def number_signed(n, script):
    return on_match(n, script, NUMBER, lambda word: n.one_of([b"-", b"+", b"--", b"- "]) + word)


def number_huge(n, script):
    """At an end of a range or of a type, just behind it, or beyond all."""
    power = 2 ** n.one_of([15, 16, 20, 31, 32, 62, 62, 63, 63, 64, 128, 4096])
    return on_match(n, script, NUMBER, lambda word: b"%d" % n.one_of(
        [power - 1, power, power + low_digits(word), 10 ** 19 + n.below(10), 10 * power]))


def number_other(n, script):
    def change(word):
        number = low_digits(word)
        return b"%d" % n.one_of([number + 1, number - 1, 0, -1, 1, 2, n.below(99)])
    return on_match(n, script, NUMBER, change)


def number_spelled(n, script):
    return on_match(n, script, NUMBER, lambda word: n.one_of([b"", b"0x" + word, word + b".0", word + b"e0", word + b"_0", b"-",
                                                              word + b"a", b"1" + word]))


def verb_other(n, script):
    return on_match(n, script, VERB, lambda _: n.one_of(VERBS))


def verb_respelled(n, script):
    return on_match(n, script, VERB, lambda verb: n.one_of([verb.upper(), verb.title(), verb[:-1], verb + b"s", verb + b":"]))


def word_more(n, script):
    return on_match(n, script, rb"[^ \n]+", lambda word: word + b" " + n.one_of([b"0", b"1", b"-1", b"d", word]))


def word_less(n, script):
    return on_match(n, script, rb" [^ \n]+", lambda _: b"")


def words_swapped(n, script):
    return on_match(n, script, rb"[^ \n]+ [^ \n]+", lambda two: b" ".join(two.split(b" ")[::-1]))


def spaced(n, script):
    """Two spaces, a tab and the like for a space."""
    return on_match(n, script, rb" ", lambda _: n.one_of([b"  ", b"\t", b" \t", b"", b"\x0b", b"\xa0", b"\0", b",", b"\r"]))


def line_framed(n, script):
    """A space or the like before or behind a line."""
    more = n.one_of([b" ", b"\t", b"\r", b"\0", b"\x0c", b";"])
    return on_match(n, script, LINE, lambda line: n.one_of([more + line, line + more]))


def all_returns(n, script):
    """Lines that end as on other systems."""
    return script.replace(b"\n", n.one_of([b"\r\n", b"\r", b"\n\n", b"\n\r"]))


def last_feed(n, script):
    return script[:-1] if n.below(3) else script + n.one_of([b"\n", b"\r\n", b" ", b"\0"])


def header_changed(n, script):
    count, limit, interval = (n.one_of(numbers) for numbers in (
        (b"0", b"1", b"3", b"7", b"8", b"8", b"07", b"-1"), (b"1023", b"1024", b"1073741824", b"1073741825", b"0"),
        (b"0", b"1048576", b"1048577", b"00")))
    said = n.one_of([[b"nodes", count], [b"segment", limit], [b"interval", interval]])
    return on_match(n, script, HEADER, lambda line: re.sub(b"%b [^ \n]+" % said[0], b" ".join(said), line, 1))


def header_doubled(n, script):
    header = re.match(HEADER, script)[0]
    return on_match(n, script, LINE, lambda line: header + line)


def header_missing(n, script):
    return re.sub(HEADER, b"", script, 1)


def header_reordered(n, script):
    def change(line):
        words = line.rstrip(b"\n").split(b" ")
        return b" ".join(n.one_of([words[2:] + words[:2], words[:2], words[:4], words[::-1], words + words[-2:]])) + b"\n"
    return on_match(n, script, HEADER, change)


def node_other(n, script):
    """A node that there may not be, and numbers whose low bits are of one that there is."""
    def change(front):
        *words, node = front.split(b" ")
        number = low_digits(node)
        return b" ".join([*words, b"%d" % n.one_of([number + 1, n.below(8), 7, 8, 10, 255, 256 + number, 2 ** 32 + number,
                                                   2 ** 64 + number, -1])])
    return on_match(n, script, n.one_of([NODE, NODE, OTHER_NODE]), change)


def message_other(n, script):
    """Another message, or one that was never sent."""
    number = n.one_of([n.below(9), n.below(40), 1000, 2 ** 31 - 1, 2 ** 31, 2 ** 32, 2 ** 32 + n.below(9), 2 ** 64 + n.below(9)])
    said = b"deliver %d" % number
    if b"\ndeliver " in script and n.below(3):
        return on_match(n, script, rb"(?m)^deliver [0-9]+$", lambda _: said)
    return on_match(n, script, rb"\n", lambda _: b"\n" + said + b"\n")


def values_broken(n, script):
    return on_match(n, script, VALUES, lambda said: n.one_of([
        b"," + said, said + b",", said.replace(b",", b",,", 1), b"", said + b"\x7f", said + b"!,~", said + b",\x1f",
        said.replace(b",", b" ")]))


def digits_broken(n, script):
    """Digits of a batch: an odd number, none, one of them upper case or what is no digit."""
    def change(line):
        verb, node, digits = line.split(b" ")
        at = n.below(len(digits))
        found = n.one_of([digits[:-1], b"", digits + b"0", b"0x" + digits, replaced(digits, at, 1, b"g"),
                          replaced(digits, at, 0, b" "), replaced(digits, at, 1, digits[at:at + 1].upper()),
                          replaced(digits, at, 1, b"")])
        return b" ".join([verb, node, found])
    return on_match(n, with_raw(n, script), RAW, change)


class Wide(Maker):
    """Makes batches with more headers, and with texts that may be longer, so that lengths take two bytes and a few batches fill a
    segment."""

    def text(self, greatest):
        return super().text(8 * greatest if self.numbers.once_in(3) else greatest)

    def headers(self):
        n = self.numbers
        return [(n.one_of(NAMES), self.text(6)) for _ in range(n.below(4))]


def with_raw(n, script):
    """The script with a lawful batch handed in somewhere, if there is none, or now and then."""
    if re.search(RAW, script) and n.below(3):
        return script
    maker = n.one_of([Maker, Wide])(n.below(2 ** 32))
    n.one_of([maker.step] * 3 + [maker.transaction_end])()
    return on_match(n, script, rb"\n", lambda _: b"\nraw 0 %b\n" % maker.log[0].data.hex().encode())


def digits_upper(n, script):
    return on_match(n, with_raw(n, script), RAW, lambda line: b"raw" + line[3:].upper())


def batch_broken(n, script):
    """The bytes that are handed in are broken as those of a log are, and mended as deep."""
    def change(line):
        verb, node, digits = line.split(b" ")
        data = bytes.fromhex(digits[:len(digits) // 2 * 2].decode())
        for _ in range(n.one_of([1, 1, 2])):
            data = broken_batch(n, data)[1] or data
        return b" ".join([verb, node, data.hex().encode()])
    return on_match(n, with_raw(n, script), RAW, change)


# Those that leave most scripts lawful come more often, so that much is seen behind the grammar, and some others that say much.
TEXT = named(byte_printed, byte_not_ascii, byte_nul, byte_order_mark, only_notes, line_cut, lines_joined, line_empty, line_noted,
             number_zeros, number_signed, number_huge, number_other, number_spelled, verb_other, verb_respelled, word_more,
             word_less, words_swapped, spaced, line_framed, all_returns, last_feed, header_changed, header_doubled,
             header_missing, header_reordered, node_other, values_broken, digits_broken)
EVENTS = named(line_doubled, line_dropped, lines_swapped, line_moved, number_other, message_other)
MORE = named(header_changed, digits_broken, digits_upper, number_zeros, number_signed, number_huge, spaced, line_framed, line_noted)
SCRIPT = [*BYTES.items(), *TEXT.items(), *[*MORE.items()] * 2, *[*EVENTS.items()] * 5, *[("batch_broken", batch_broken)] * 12]


# What is broken, and how

def changed(n, mutations, subject):
    """What one of the mutations leaves, and its name; the first one that changes anything."""
    for _ in range(100):
        name, mutation = n.one_of(mutations)
        found = mutation(n, subject)
        if found != subject:
            return name, found
    return "nothing", subject


def broken_batch(n, data):
    """What was done to a batch, and its bytes."""
    if not data:
        return "nothing", data
    name, found = changed(n, BATCHES, data)
    mend = n.one_of(MENDED)
    return name + mend, MENDS[mend](found)


def broken_log(n, batches):
    """What was done to a list of batches, in one to three places, and their bytes."""
    names = []
    for _ in range(n.one_of([1, 1, 1, 2, 2, 3])):
        batches = [data for data in batches if data]
        if not batches:
            break
        if n.once_in(4):
            name, batches = changed(n, [*ROW.items()], batches)
        else:
            at = n.below(len(batches))
            name, data = broken_batch(n, batches[at])
            batches = batches[:at] + [data] + batches[at + 1:]
        names.append(name)
    if n.once_in(3):
        names, batches = names + ["offsets mended"], offsets_mended(batches)
    return names, b"".join(batches)


def broken_script(n, script):
    """What was done to a script, in one to three places, and its bytes."""
    names = []
    for _ in range(n.one_of([1, 1, 1, 2, 2, 3])):
        if script:
            name, script = changed(n, SCRIPT, script)
            names.append(name)
    return names, script
