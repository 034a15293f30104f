#!/usr/bin/env python3
"""make-recordings.py [--check | --more FOLDER]: writes the recordings, sound and at fault, that events is run on and what it has to show of each, or says
which stored file differs; or writes into FOLDER those that are too many or too large to be stored.

Both are put together from the rules alone (RULES 3.1, 3.3, 10.1 and section 11), byte by byte: nothing here is taken from the project's code.
"""
import struct
import sys
from pathlib import Path

ROOT = Path(__file__).resolve().parent.parent

NAMES = ["mark", "version", "spare byte", "event header", "sequence", "closing counts", "bytes after the closing", "ended early"]


# ---- what is shown of a file


def fault(number, place):
    return [f"fault {number} at {place} {NAMES[number - 1]}"]


def is_ill(head, cpu_id):
    """RULES 3.3, apart from room."""
    size, header_size, cpu = struct.unpack_from("<IHH", head)
    return header_size != 32 or size < 32 or cpu != cpu_id or head[29:32] != bytes(3)


def items(file, cpu_id):
    """The lines from the first event on. An event's line comes once its payload is whole."""
    lines, at, events, last = [], 8, 0, 0
    while True:
        part = file[at:at + 32]
        if len(part) < 4:
            return lines + fault(8, len(file))
        size = struct.unpack_from("<I", part)[0]
        if size == 0:
            return lines + closing(file, at, events, last)
        if len(part) < 32:
            return lines + fault(8, len(file))
        sequence, timestamp, event_type = struct.unpack_from("<QQI", part, 8)
        if is_ill(part, cpu_id):
            return lines + fault(4, at)
        if sequence <= last:
            return lines + fault(5, at)
        if len(file) < at + size:
            return lines + fault(8, len(file))
        lines.append(f"{sequence} {size} {event_type} {timestamp}")
        at, events, last = at + size, events + 1, sequence


def closing(file, at, events, last):
    part = file[at:]
    if len(part) < 24:
        return fault(8, len(file))
    spare, handed, missed = struct.unpack_from("<QQQ", part)
    if spare:
        return fault(3, at)
    if handed != events or missed != last - events:
        return fault(6, at)
    return [f"handed {handed} missed {missed}"] + (fault(7, at + 24) if len(part) > 24 else [])


def shown(file):
    """All that events writes of a file."""
    if len(file) < 8:
        lines = fault(8, len(file))
    elif file[:3] != b"SPL":
        lines = fault(1, 0)
    else:
        version, cpu_id, spare = struct.unpack_from("<HHB", file, 3)
        if version != 1:
            lines = fault(2, 0)
        elif spare:
            lines = fault(3, 0)
        else:
            lines = [f"recording cpu {cpu_id}"] + items(file, cpu_id)
    return "".join(line + "\n" for line in lines).encode()


# ---- the files


def event(sequence, timestamp, event_type, payload, cpu_id=3):
    return struct.pack("<IHHQQIB3x", 32 + len(payload), 32, cpu_id, sequence, timestamp, event_type, 0) + payload


def recording(events, cpu_id=3):
    """RULES 10.1, 10.2: the opening, the events as they stand, eight zero bytes, handed and missed."""
    last = struct.unpack_from("<Q", events[-1], 8)[0] if events else 0
    return b"SPL" + struct.pack("<HHx", 1, cpu_id) + b"".join(events) + struct.pack("<QQQ", 0, len(events), last - len(events))


def changed(base, *changes):
    """base with other bytes at some places: at, new, at, new, .."""
    for at, new in zip(changes[::2], changes[1::2]):
        base = base[:at] + new + base[at + len(new):]
    return base


PAYLOAD = bytes(range(96))
# the recording of examples/start.ring: event 6 at 8, event 7 at 136, the closing at 264
START = recording([event(6, 1000, 2, PAYLOAD), event(7, 2000, 3, PAYLOAD)])
EMPTY = recording([])

# each fault alone, and several at once, of which the first is told
FAULTY = {
    "mark": changed(START, 2, b"M"),
    "version": changed(START, 3, b"\2"),
    "version-high": changed(START, 4, b"\1"),
    "spare-opening": changed(START, 7, b"\1"),
    "spare-closing": changed(START, 268, b"\1"),
    "header-size": changed(START, 140, b"\41"),
    "header-short": changed(START, 136, b"\37"),
    "header-one": changed(START, 136, b"\1"),
    "header-cpu": changed(START, 142, b"\4"),
    "header-spare": changed(START, 167, b"\1"),
    "header-in-place-of-closing": changed(START, 264, b"\1"),
    "sequence-again": changed(START, 144, b"\6"),
    "sequence-falling": changed(START, 144, b"\5"),
    "sequence-zero": changed(START, 16, b"\0"),
    "counts-handed": changed(START, 272, b"\3"),
    "counts-missed": changed(START, 280, b"\4"),
    "counts-of-none": changed(EMPTY, 16, b"\1"),
    "after-one-byte": START + b"\0",
    "after-another": START + START,
    "early-nothing": b"",
    "early-opening": START[:7],
    "early-header": START[:39],
    "early-payload": START[:135],
    "early-between": START[:136],
    "early-closing": START[:287],
    "both-mark-version": changed(START, 0, b"X", 3, b"\2"),
    "both-version-spare": changed(START, 3, b"\2", 7, b"\1"),
    "both-header-sequence": changed(START, 140, b"\41", 144, b"\5"),
    "both-spare-counts": changed(START, 268, b"\1", 272, b"\3"),
    "both-counts-after": changed(START, 272, b"\3") + b"\0",
    "both-header-early": changed(START, 136, b"\37")[:170],
}
# the sound ones are those that record writes
SOUND = {name: (ROOT / f"tests/record/{name}.spl").read_bytes() for name in ("empty", "start", "widest")}


def stored():
    files = {"crates/events/stdin": START, "crates/events/stdout": shown(START)}
    for name, file in FAULTY.items():
        files[f"tests/events/{name}.spl"] = file
        files[f"tests/events/{name}.txt"] = shown(file)
    for name, file in SOUND.items():
        files[f"tests/events/{name}.txt"] = shown(file)
    return files


def more():
    """A small recording cut off at each length, and with each byte altered; then a large one: a full ring of 1,048,576 bytes, and that with a fault."""
    small = recording([event(2, 5, 1, b"\1\2\3"), event(9, 6, 7, b"")])
    files = {f"cut-{length}": small[:length] for length in range(len(small))}
    files.update({f"altered-{at}": changed(small, at, bytes([small[at] ^ 1 << at % 8])) for at in range(len(small))})
    events, left, sequence = [], 2**20, 1000
    while left:
        size = min(32 + 7 * len(events), 2**19)
        if left - size < 32:
            size = left
        events.append(event(sequence, sequence * 10**9, len(events), bytes((sequence + i) % 256 for i in range(size - 32))))
        left -= size
        sequence += 2
    files["large"] = recording(events)
    files["large-counts"] = changed(files["large"], 8 + 2**20 + 8, b"\0")
    # a line for every 32 bytes, so that one piece gives more lines than a buffer holds
    files["dense"] = recording([event(2**64 - 40000 + i, 2**64 - 1, 2**32 - 1, b"", 65535) for i in range(20000)], 65535)
    return {f"{name}.spl": file for name, file in files.items()} | {f"{name}.txt": shown(file) for name, file in files.items()}


def main(arguments):
    if len(arguments) == 2 and arguments[0] == "--more":
        folder, files = Path(arguments[1]), more()
    elif arguments in ([], ["--check"]):
        folder, files = ROOT, stored()
    else:
        print(__doc__, file=sys.stderr)
        return 2
    check = arguments == ["--check"]
    differ = [name for name, content in files.items() if check and (folder / name).read_bytes() != content]
    for name, content in files.items():
        if not check:
            (folder / name).write_bytes(content)
    for name in differ:
        print("differs:", name)
    print(f"make-recordings: {len(files) - len(differ)} files {'as stored' if check else 'written'}")
    return 1 if differ else 0


sys.exit(main(sys.argv[1:]))
