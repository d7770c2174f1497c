#!/usr/bin/env python3
"""Writes the cases of the listing programs.

    make.py PEER      writes NAME.part, 180/NAME.out and 240/NAME.out; PEER is the second implementation's listing program
    make.py --check   says whether the stored parts, and the listings written by hand, are those of cases.py
"""

import subprocess
import sys
from pathlib import Path

from cases import cases

HERE = Path(__file__).resolve().parent
REAL = HERE.parent / "real"
READ = 8193  # bytes that a listing program reads
INCREMENTS = (180, 240)


def listed(peer: str, increment: int, part: bytes) -> str:
    """What the second implementation prints for a part."""
    run = subprocess.run([peer, str(increment)], input=part, stdout=subprocess.PIPE, check=True)
    return run.stdout.decode("ascii")


def by_hand(case, increment: int):
    """The listing written by hand, with its PART line; None for a case that has none."""
    hand = case.at(increment)
    return None if hand is None else f"PART {min(len(case.part), READ)}\n{hand}"


def write_at(increment: int, peer: str) -> int:
    """Writes the listings at an increment; gives how many of the peer's differ from those written by hand."""
    differing, folder = 0, HERE / str(increment)
    (folder / "real").mkdir(parents=True, exist_ok=True)
    for case in cases():
        out, hand = listed(peer, increment, case.part), by_hand(case, increment)
        if hand is not None and out != hand:
            print(f"{case.name} at {increment}: the peer says\n{out}by hand\n{hand}")
            differing += 1
        (folder / f"{case.name}.out").write_text(out)
    for part in REAL.glob("*.part"):
        (folder / f"real/{part.stem}.out").write_text(listed(peer, increment, part.read_bytes()))
    return differing


def write(peer: str) -> int:
    """Writes all cases; gives how many listings of the peer differ from those written by hand."""
    for case in cases():
        (HERE / f"{case.name}.part").write_bytes(case.part)
    return sum(write_at(increment, peer) for increment in INCREMENTS)


def is_stored(case) -> bool:
    """Whether the part, and what is written by hand, is stored as it is said."""
    hands = [(HERE / f"{increment}/{case.name}.out", by_hand(case, increment)) for increment in INCREMENTS]
    return (HERE / f"{case.name}.part").read_bytes() == case.part and all(hand is None or path.read_text() == hand for path, hand in hands)


def check() -> int:
    """Compares the stored parts, and the stored listings of those written by hand; gives how many differ."""
    made = {case.name: case for case in cases()}
    stored = {path.stem for path in HERE.glob("*.part")}
    wrong = sorted(stored.symmetric_difference(made)) + [name for name in sorted(stored & made.keys()) if not is_stored(made[name])]
    for name in wrong:
        print(f"{name}: not what cases.py says")
    return len(wrong)


def main() -> int:
    if len(sys.argv) != 2:
        print(__doc__)
        return 2
    differing = check() if sys.argv[1] == "--check" else write(sys.argv[1])
    return 1 if differing else 0


if __name__ == "__main__":
    sys.exit(main())
