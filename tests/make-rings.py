#!/usr/bin/env python3
"""make-rings.py [--check | --large FOLDER]: writes the rings that programs are run on, what record has to write of each, and what listing has to write of
those with a bad event; or says which stored file differs; or writes into FOLDER rings that are too large to be stored.

They are put together from the tables of the papers alone (RULES 2.1, 3.1, 3.3 and 10.1), byte by byte: nothing here is taken from the project's code.
A recording, or what is wrong, is made of the events that a ring is made of, and not of the ring.
"""
import struct
import sys
from pathlib import Path

ROOT = Path(__file__).resolve().parent.parent


def pages(capacity, write_pos, tail_pos, cpu_id=3, generation=1):
    """The 8,192 bytes of a ring's pages, futex_counter and need_wake 0."""
    page = bytearray(8192)
    page[0:8] = bytes.fromhex("4B4D4553 52494E47")
    struct.pack_into("<IH", page, 8, 1, cpu_id)
    struct.pack_into("<QQQ", page, 16, capacity, 8192, generation)
    struct.pack_into("<QQ", page, 64, write_pos, tail_pos)
    return page


def event(sequence, timestamp, event_type, payload, cpu_id=3, origin_class=0, header_size=32):
    size = 32 + len(payload)
    return struct.pack("<IHHQQIB3x", size, header_size, cpu_id, sequence, timestamp, event_type, origin_class) + payload


def ring(capacity, tail_pos, events, **page):
    """A ring whose events follow one another from tail_pos on; position p lies at data offset p mod capacity."""
    data, position = bytearray(capacity), tail_pos
    for byte in b"".join(events):
        data[position % capacity] = byte
        position += 1
    return bytes(pages(capacity, position, tail_pos, **page) + data)


def recording(events, cpu_id=3):
    """RULES 10.1, 10.2: the opening, the events as they stand, eight zero bytes, handed and missed."""
    last = struct.unpack_from("<Q", events[-1], 8)[0] if events else 0
    return b"SPL" + struct.pack("<HHx", 1, cpu_id) + b"".join(events) + struct.pack("<QQQ", 0, len(events), last - len(events))


def changed(base, at, new):
    return base[:at] + new + base[at + len(new):]


def reason(rest, cpu_id, last):
    """RULES 3.6: why the event at the front of these bytes, which go up to write_pos, doesn't pass behind the sequence `last`; 0 if it does."""
    if len(rest) < 32:
        return 1
    size, header_size, cpu, sequence = struct.unpack_from("<IHHQ", rest)
    faults = [header_size != 32, size < 32, size > len(rest), cpu != cpu_id, rest[29:32] != bytes(3), sequence <= last]
    return 2 + faults.index(True) if True in faults else 0


def refused(tail_pos, events, cpu_id=3):
    """RULES 6.9, 8.7: the line on the first of the events, which begin at tail_pos, that doesn't pass."""
    rest, place, last = b"".join(events), tail_pos, 0
    while not (why := reason(rest, cpu_id, last)):
        size, last = struct.unpack_from("<I4xQ", rest)
        rest, place = rest[size:], place + size
    return f"refused 10 at {place} why {why}\n".encode()


PAYLOAD = bytes(range(96))
SIX, SEVEN = event(6, 1000, 2, PAYLOAD), event(7, 2000, 3, PAYLOAD)
# RULES 9.1, line 13: event 7 has 96 bytes at data offset 160 and 32 at 0
START = ring(256, 288, [SIX, SEVEN])
# the widest numbers that a listing can show, and as many events as it can meet
WIDEST = [event(2**64 - 1024 + i, 2**64 - 1, 2**32 - 1, b"", 65535) for i in range(1024)]

# tail_pos and the events of rings that have a bad one, and the reason (RULES 3.6); in the last its header goes over the data's end
DAMAGED = {
    "tests/listing/left": (288, [SIX, SEVEN[:31]]),  # 1
    "examples/damaged": (288, [SIX, event(7, 2000, 3, PAYLOAD, header_size=33)]),  # 2
    "tests/listing/event-size": (288, [SIX, changed(SEVEN, 0, struct.pack("<I", 31))]),  # 3
    "tests/listing/write-pos": (288, [SIX, changed(SEVEN, 0, struct.pack("<I", 129))]),  # 4
    "tests/listing/first": (288, [event(6, 1000, 2, PAYLOAD, cpu_id=4), SEVEN]),  # 5
    "tests/listing/spare": (288, [SIX, changed(SEVEN, 31, b"\1")]),  # 6
    "tests/listing/falling": (288, [SEVEN, SIX]),  # 7
    "tests/listing/several": (368, [SIX, changed(event(6, 2000, 3, PAYLOAD, cpu_id=4), 0, struct.pack("<I", 129))]),  # 4, and also 5 and 7
}

RINGS = {
    "examples/start.ring": START,
    "examples/empty.ring": ring(256, 0, []),
    "crates/listing/stdin": START,
    "crates/record/stdin": START,
    "tests/listing/nothing.ring": b"",
    "tests/listing/short.ring": START[:8447],
    "tests/listing/magic.ring": changed(START, 7, b"\0"),
    "tests/listing/version.ring": changed(START, 8, b"\2"),
    "tests/listing/layout.ring": changed(START, 191, b"\1"),
    "tests/listing/length.ring": START + b"\0",
    "tests/listing/position.ring": changed(START, 72, struct.pack("<Q", 545)),
    "tests/listing/widest.ring": ring(32768, 2**62 - 32768, WIDEST, cpu_id=65535, generation=2**64 - 1),
    "tests/listing/long.ring": ring(32768, 0, [SIX]) + b"\0",
    **{f"{name}.ring": ring(256, *made) for name, made in DAMAGED.items()},
}

# what record writes: of a ring that passes its recording, of any other the refusal (RULES 5.3)
RECORDS = {
    "crates/record/stdout": recording([SIX, SEVEN]),
    "tests/record/start.spl": recording([SIX, SEVEN]),
    "tests/record/empty.spl": recording([]),
    "tests/record/widest.spl": recording(WIDEST, cpu_id=65535),
    "tests/record/nothing.txt": b"refused 1\n",
    "tests/record/short.txt": b"refused 1\n",
    "tests/record/magic.txt": b"refused 2\n",
    "tests/record/version.txt": b"refused 3\n",
    "tests/record/layout.txt": b"refused 4\n",
    "tests/record/length.txt": b"refused 5\n",
    "tests/record/position.txt": b"refused 6\n",
    "tests/record/long.txt": b"refused 5\n",
}

# what both programs write of a bad event
LINES = {f"tests/{program}/{Path(name).name}.txt": refused(*made) for program in ("listing", "record") for name, made in DAMAGED.items()}


def filled(capacity):
    """Events of growing sizes, their sequences two apart, that fill a ring of this capacity to the last byte."""
    events, left, sequence = [], capacity, 1000
    while left:
        size = min(32 + 7 * len(events), capacity // 2)
        if left - size < 32:
            size = left
        events.append(event(sequence, sequence * 10**9, len(events), bytes((sequence + i) % 256 for i in range(size - 32))))
        left -= size
        sequence += 2
    return events


def large():
    """Each allowed capacity (RULES 1.2) full, the events going round the end; then the largest with damage in its last event, and inputs too long."""
    files = {}
    for exponent in range(8, 21):
        events = filled(2**exponent)
        files[f"{2**exponent}.ring"] = ring(2**exponent, 3 * 2**exponent - 100, events)
        files[f"{2**exponent}.spl"] = recording(events)
    tail, damaged = 3 * 2**20 - 100, events[:-1] + [changed(events[-1], 4, b"\0")]
    files["damaged.ring"] = ring(2**20, tail, damaged)
    files["damaged.txt"] = refused(tail, damaged)
    files["one-more.ring"] = files["1048576.ring"] + b"\0"
    files["twice.ring"] = files["1048576.ring"] * 2
    files["one-more.txt"] = files["twice.txt"] = b"too long\n"
    return files


def main(arguments):
    if len(arguments) == 2 and arguments[0] == "--large":
        folder, stored = Path(arguments[1]), large()
    elif arguments in ([], ["--check"]):
        folder, stored = ROOT, {**RINGS, **RECORDS, **LINES}
    else:
        print(__doc__, file=sys.stderr)
        return 2
    check = arguments == ["--check"]
    differ = [name for name, content in stored.items() if check and (folder / name).read_bytes() != content]
    for name, content in stored.items():
        if not check:
            (folder / name).write_bytes(content)
    for name in differ:
        print("differs:", name)
    print(f"make-rings: {len(stored) - len(differ)} files {'as stored' if check else 'written'}")
    return 1 if differ else 0


sys.exit(main(sys.argv[1:]))
