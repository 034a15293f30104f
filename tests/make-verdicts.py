#!/usr/bin/env python3
"""make-verdicts.py [--check]: writes tests/verdicts.txt, what verify has to answer to stored rings and stored recordings, or says that it is another.

A line holds the ring, the recording and the answer. Of a ring that has a recording stored for it (tests/record/NAME.spl, put together from the rules by
make-rings.py) the answer is told by comparing bytes; of any other it is the line that make-rings.py stored (NAME.txt).
"""
import sys
from pathlib import Path

ROOT = Path(__file__).resolve().parent.parent
VERDICTS = ROOT / "tests" / "verdicts.txt"


def answer(own, file):
    """RULES 10.9"""
    for place, (a, b) in enumerate(zip(own, file)):
        if a != b:
            return f"differs at {place}"
    if len(own) != len(file):
        return f"differs at {min(len(own), len(file))}"
    return f"same {len(file)} bytes"


def named(*patterns):
    return [path.relative_to(ROOT) for pattern in patterns for path in sorted(ROOT.glob(pattern))]


def verdicts():
    recordings = named("tests/record/*.spl", "tests/events/*.spl")
    for ring in named("examples/*.ring", "tests/listing/*.ring"):
        own = ROOT / "tests" / "record" / f"{ring.stem}.spl"
        if not own.exists():
            # whatever it is held against
            line = own.with_suffix(".txt").read_text().strip()
            others = [Path("tests/record/start.spl"), Path("tests/events/early-nothing.spl")]
        else:
            line = None
            # one ring meets them all, every other one its own and a few
            others = recordings if ring.stem == "start" else [own.relative_to(ROOT)] + recordings[:3]
        for file in dict.fromkeys(others):
            yield f"{ring} {file} {line or answer(own.read_bytes(), (ROOT / file).read_bytes())}\n"


text = "".join(verdicts())
if sys.argv[1:] == ["--check"]:
    if text != VERDICTS.read_text():
        sys.exit("make-verdicts.py: tests/verdicts.txt is another")
else:
    VERDICTS.write_text(text)
