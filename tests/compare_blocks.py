#!/usr/bin/env python3
"""Compares awdlist with a reader of AWD documents in Python that shares no code with it.

The reader (reader.py) is by the same authors and from the same rules, so it catches mistakes of the program and not a
rule that was misread. Both are given lawful documents of every kind and width, documents aimed at each refusal, and
damaged ones (documents.py); each must write the same. Each outcome must be met. A few listings, of the shortest inputs and of the longest ones,
are worked out by hand.

Usage: tests/compare_blocks.py crates/awdlist/out/awdlist
"""

import collections
import random
import sys

from agreement import compare
from documents import inputs
from reader import listing

SEED = 2

# An input over the limit, an end, and each cause of opening and reading but two: no document that awdlist reads is
# too long for being opened (3), and awdlist never asks for a block before it has opened one (8).
OUTCOMES = ["input over 65536", "end"] + [f"fault {cause}" for cause in (2, 4, 5, 6, 7, *range(9, 18))]

# a header with the streaming bit, and one carried block whose body fills the rest of as many bytes as are read: 65,513, that is 233 + 255 * 256
LONGEST = b"AWD\2\1\1\0\0\0\0\0\0" + bytes((1, 0, 0, 0, 0, 200, 0, 233, 255, 0, 0)) + bytes(65_513)

# inputs and their listings, worked out by hand
WORKED = {
    b"": "fault 2 0 0\n",
    b"AWE4567890ab": "fault 4 2 0\n",
    b"AWD\2\0\xfe\xff\0\0\0\0\0": "AWD 2.0 flags 65534 length 12\nend 0\n",
    LONGEST: "AWD 2.1 flags 1 length 65536\n0 1 0 200 12 65513 -\nend 1\n",
    LONGEST + b"\0": "input over 65536\n",
}


def outcome(written):
    """How a listing ends, without its numbers: an end, the cause of a fault, or an input over the limit."""
    last = written.splitlines()[-1]
    words = {"end": 1, "fault": 2}.get(last.split()[0])
    return " ".join(last.split()[:words])


class Tally:
    """Counts the outcomes of listings."""

    def __init__(self):
        self.counts = collections.Counter()

    def count(self, written):
        self.counts[outcome(written)] += 1

    def missing(self):
        """The outcomes that were not met."""
        return [name for name in OUTCOMES if not self.counts[name]]

    def show(self):
        for name in OUTCOMES:
            print(f"{self.counts[name]:6} {name}")


def main(program):
    """The exit status: 0 where the program writes what was worked out, both agree on all inputs and each outcome was met."""
    tally = Tally()
    if compare(program, "awdlist", WORKED, WORKED.get, "what was worked out by hand") != 0:
        return 1
    status = compare(program, "awdlist", inputs(random.Random(SEED)), listing, met=tally.count)
    if status != 0:
        return status
    tally.show()
    if tally.missing():
        print(f"no input ended in: {', '.join(tally.missing())}")
        return 1
    return 0


if __name__ == "__main__":
    sys.exit(main(sys.argv[1]))
