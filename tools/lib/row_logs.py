"""The logs that rows of kp_rows inspect: ones by chance, one of them with changed bytes or cut off, and small ones."""
from .batch import total
from .batches import A
from .decoder import inspect
from .definitions import dump
from .encoder import batch, end, record
from .logs import FIRST_EPOCH, FRONTS, PAIRS, made, meets_limits

LOG_SEEDS = (3, 8)


def patched(log, place, others):
    """The log's bytes with others from this place on."""
    data = bytearray(b"".join(b.data for b in log))
    data[place:place + len(others)] = bytes(others)
    return bytes(data)


def faulty_logs(log):
    """The log with changed bytes. Base offset and leader epoch stand outside of the checksum."""
    later = next(k for k, b in enumerate(log) if k >= 150 and b.kind == "data")
    behind, second, first = total(log[:later + 1]), log[0].size, log[1]
    lower, higher = first.base - 1, first.base + 1
    epoch = FIRST_EPOCH - 1
    assert log[0].epoch == FIRST_EPOCH == first.epoch
    return {
        "changed_record": patched(log, behind - 1, [log[later].data[-1] ^ 1]),
        "base_offset_too_low": patched(log, second + 7, [lower]),
        "base_offset_too_high": patched(log, second + 7, [higher]),
        "lower_epoch": patched(log, second + 15, [epoch]),
        "lower_epoch_and_base_offset": patched(log, second + 7, [higher, *first.data[8:15], epoch]),
        "no_epoch": patched(log, 12, [255] * 4),
        "too_large": patched(log, second + 8, [0, 16, 0, 0]),
        "largest_and_cut_off": patched(log, second + 8, [0, 15, 255, 244]),
    }


def cut_logs(log):
    """The log cut off in and behind its last batch's head, and behind its first """
    data, last = b"".join(b.data for b in log), total(log[:-1])
    cuts = {f"cut_{cut}": data[:cut] for cut in (last, last + 1, last + 60, last + 61, len(data) - 1)}
    fronts = {f"first_{count}": data[:total(log[:count])] for count in FRONTS}
    return {**cuts, **fronts}


def of(pid, epoch, sequence, count=1, kind="data", time=10, leader_epoch=0):
    """A batch of so many records `a`, and what its line says, but for its offsets."""
    records = [record(place=place) for place in range(count)]
    attributes = 0x10 if kind == "txn" else 0
    return dict(records=records, attributes=attributes, time=time, producer=(pid, epoch, sequence), epoch=leader_epoch)


def ending(pid, epoch, said, commits, time=20, leader_epoch=0):
    """A marker."""
    one = end(bytes([0, 0, 0, commits]), bytes([0, 0, 0, 0, 0, said]))
    return dict(records=[one], attributes=0x30, time=time, producer=(pid, epoch, -1), epoch=leader_epoch)


def sized(time, size):
    return dict(records=[record(b"a" * size)], time=time, epoch=0)


def log_of(*parts):
    """The bytes of these batches, each stamped with the next offset."""
    data, base = b"", 0
    for part in parts:
        records = part.pop("records")
        data += batch(*records, base=base, **part)
        base += len(records)
    return data


def small_logs():
    """Logs of a few batches. A value of 442 bytes makes a batch of 512."""
    plain = (-1, -1, -1)
    one = log_of(of(*plain, time=1000))
    return {
        "nothing": b"",
        "zeros": bytes(60),
        "one_segment": log_of(sized(10, 442), sized(20, 442)),
        "two_segments": log_of(sized(10, 442), sized(20, 443)),
        "zeros_behind": one + bytes(12),
        "odd_record": one + batch(A, b"\0", base=1, epoch=0, count=1),
        "two_at_zero": one + one,
        "markers": log_of(of(5, 0, 0, kind="txn"), of(*plain, time=30), ending(5, 0, 7, False),
                          ending(5, 0, 8, True, 25, 1), of(5, 2, 7, leader_epoch=1)),
        "aborted": log_of(of(5, 0, 0, kind="txn"), of(*plain, time=30), ending(5, 0, 7, False)),
        "open": log_of(of(5, 0, 0, kind="txn"), of(*plain, time=30)),
        "crossing": log_of(of(5, 0, 0, kind="txn"), of(6, 0, 0, kind="txn"), ending(6, 0, 1, False),
                           ending(5, 0, 1, True)),
        "six_of_a_producer": log_of(*(of(9, 0, sequence) for sequence in range(6))),
        "higher_epoch": log_of(of(9, 0, 0, 2), of(9, 1, 0)),
        "sequences_wrap": log_of(of(9, 0, 2 ** 31 - 2, 3)),
    }


def row_logs():
    """All logs, by their names."""
    log = made()
    assert meets_limits(log)
    whole = b"".join(b.data for b in log)
    assert all(inspect(whole, *pair)[0] == dump(*pair, log) for pair in PAIRS), "the decoder reads what was made"
    others = {f"seed_{seed}": b"".join(b.data for b in made(seed)) for seed in LOG_SEEDS}
    return {"whole": whole, **others, **faulty_logs(log), **cut_logs(log), **small_logs()}
