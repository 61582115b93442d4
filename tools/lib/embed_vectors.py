"""Batches that clients' libraries wrote, as lines for the tests of `embed/rust`: what is handed in, the answer, and the bytes.

Words are parted by tabs; a marker's line has the fields that a coordinator hands in, and the bytes are those that the leader has to
spell, but for base offset and leader epoch.
"""


def of_clients():
    from . import client_batches
    return [f"produce\t{one.answer}\t{one.data.hex()}" for one in client_batches.SENT]


def marker(kind, producer, time):
    """The fields that a coordinator hands in, from a kind such as 'abort 7'."""
    how, coordinator = kind.split()
    return f"{producer[0]} {producer[1]} {coordinator} {time} {how}"


def of_library():
    """The other library's listed batches; the program ends where it isn't installed (`other_library.py`). A producer that is unknown
    has to begin with sequence 0.
    """
    from .other_library import LISTED, built
    known, end, found = set(), 0, []
    for records, kind, producer in LISTED:
        data = built(records, kind, producer)
        handed = "produce" if kind in ("data", "txn") else f"mark {marker(kind, producer, records[0][0])}"
        if producer[2] > 0 and producer[0] not in known:
            found.append(f"{handed}\tF12 OutOfOrderSequence\t{data.hex()}")
            continue
        known.add(producer[0])
        found.append(f"{handed}\tat {end}\t{data.hex()}")
        end += len(records)
    return found
