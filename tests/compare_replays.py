#!/usr/bin/env python3
"""Compares awdreplay with a replayer of calls in Python that shares no code with it.

The replayer (replayer.py) is by the same authors and from the same rules, so it catches mistakes of the program and not
a rule that was misread. Both are given documents of every kind and width, sound and damaged, with lists of calls made
for them (calls.py); each must write the same lines. Each answer of each call must be met.

The lists are made from a fixed seed and from one that is another each time; it is printed, and may be given to be had
again.

Usage: tests/compare_replays.py crates/awdreplay/out/awdreplay [SEED]
"""

import collections
import concurrent.futures
import functools
import itertools
import pathlib
import random
import secrets
import subprocess
import sys
import tempfile

from calls import runs
from replayer import answered_lines, replay

SEED = 4

# the most bytes of a document
MOST_BYTES = 16_777_216

# the bytes of 65,535 pages
LONGEST = 33_553_920

# the answers that must be met of each call; only 3 is not among them, for which a document has to be over 16 MiB (see `longest_opened`)
EDITS = {
    "reparent": ("ok", *(f"fault {cause}" for cause in (8, 14, 18, 19, 20))),
    "dress": ("ok", *(f"fault {cause}" for cause in (8, 14, 18, 19, 20, 21))),
    **{nudge: ("ok", *(f"fault {cause}" for cause in (8, 18, 19, 20, 22, 23, 24))) for nudge in ("nudge s", "nudge d")},
}
ANSWERS = {
    "open": ("ok", *(f"fault {cause}" for cause in (1, 2, 4, 5, 6, 7))),
    "next": ("some", "none", *(f"fault {cause}" for cause in range(8, 18))),
    **EDITS,
    "undo": ("ok", "fault 8", "fault 25"),
    **{question: ("some", "none") for question in ("record", "number", "material", "cell", "path", "byte")},
    **{question: ("a number",) for question in ("count", "edits", "length")},
}
OUTCOMES = [f"{word}: {answer}" for word, answers in ANSWERS.items() for answer in answers] + ["no call"]


def outcome(line, answer):
    """The word of a call, for a nudge with its float's letter, and its answer without numbers but a fault's cause."""
    words = answer.split()
    if words[0] == "?":
        return "no call"
    said = "a number" if words[0].isdecimal() else " ".join(words[: 2 if words[0] == "fault" else 1])
    call = line.split(" ")
    return f"{' '.join(call[0:4:3])}: {said}" if call[0] == "nudge" else f"{call[0]}: {said}"


class Tally:
    """Counts the outcomes."""

    def __init__(self):
        self.counts = collections.Counter()

    def count(self, calls, lines):
        for (_, line), answer in zip(answered_lines(calls), lines):
            self.counts[outcome(line, answer)] += 1

    def missing(self):
        """The outcomes that were not met."""
        return [name for name in OUTCOMES if not self.counts[name]]

    def show(self):
        """One line for each call, and one for what is no call."""
        for word in ANSWERS:
            print(f"{word:9}", ", ".join(f"{self.counts[f'{word}: {each}']} {each}" for each in ANSWERS[word]))
        print(f"{'no call':9} {self.counts['no call']}")


def difference(written, expected):
    """Where two lists of lines differ first."""
    for number, (one, other) in enumerate(itertools.zip_longest(written, expected), 1):
        if one != other:
            return f"answer {number}: wrote {one!r}, expected {other!r}"
    return None


def lay(folder, document, calls):
    """Writes a document and its calls into a folder, and gives their paths."""
    paths = folder / "document.awd", folder / "calls"
    paths[0].write_bytes(document)
    paths[1].write_bytes(calls.encode("latin-1"))
    return paths


def run(program, folder, document, calls):
    """The lines that the program writes, its exit status and what it writes as an error."""
    path, lines = lay(folder, document, calls)
    with lines.open("rb") as given:
        done = subprocess.run([program, path], stdin=given, capture_output=True)
    return done.stdout.decode("latin-1"), done.returncode, done.stderr


def judge(program, folder, document, calls, expected):
    """What is wrong with what the program writes, None where nothing is."""
    written, status, errors = run(program, folder, document, calls)
    if status != 0 or errors:
        return f"exit status {status}, errors {errors!r}"
    if not written.endswith("\n"):
        return "the last line has no line feed"
    return difference(written[:-1].split("\n"), expected)


def tried(program, case):
    """What the answers of a case have to be, and what is wrong with what the program writes, None where nothing is."""
    document, calls = case
    expected = replay(document, calls)
    with tempfile.TemporaryDirectory(prefix="replays-") as folder:
        return expected, judge(program, pathlib.Path(folder), document, calls, expected)


def compare(program, seed, tally):
    """How many lists both agree on for a seed; None where there is one on which they do not, which is then kept.

    The lists are dealt out to as many workers as there are cores, from the last: the longest are there.
    """
    cases = list(runs(random.Random(seed)))
    with concurrent.futures.ProcessPoolExecutor() as workers:
        tries = workers.map(functools.partial(tried, program), reversed(cases))
        for number, (expected, wrong) in zip(reversed(range(len(cases))), tries):
            document, calls = cases[number]
            if wrong:
                workers.shutdown(cancel_futures=True)
                folder = pathlib.Path(tempfile.mkdtemp(prefix="replays-"))
                lay(folder, document, calls)
                print(f"seed {seed}, list {number}: {wrong}; the document and the calls are in {folder}")
                return None
            tally.count(calls, expected)
    return len(cases)


def ends_otherwise(program):
    """Without a document's name, and without the document, the program writes no line and its status is 1."""
    ends = (subprocess.run([program, *name], input=b"open\n", capture_output=True) for name in ((), ("no such file",)))
    return all(end.returncode == 1 and end.stderr and not end.stdout for end in ends)


def longest_opened(program):
    """A document of as many bytes as may be is opened by all three sessions, and one of a byte more is not. So is the longest one that fits 65,535
    pages, which is read; a longer one ends the program."""
    folder = pathlib.Path(tempfile.mkdtemp(prefix="longest-"))
    calls = f"length\nbyte 0\nbyte {LONGEST - 1}\nbyte {LONGEST}\nopen\n"
    expected = f"{LONGEST}\nsome 7\nsome 9\nnone\nfault 3 16777216 0 0 -\nreplicas agree\n"
    document = bytes([7]) + bytes(LONGEST - 2) + bytes([9])
    ends = [run(program, folder, document, calls) == (expected, 0, b"")]
    # streaming, so that the body length is not looked at
    streaming = b"AWD\2\1\1" + bytes(MOST_BYTES - 6)
    ends.append(run(program, folder, streaming, "open\n") == ("ok\nreplicas agree\n", 0, b""))
    ends.append(run(program, folder, streaming + bytes(1), "open\n") == (f"fault 3 {MOST_BYTES} 0 0 -\nreplicas agree\n", 0, b""))
    written, status, errors = run(program, folder, document + bytes(1), calls)
    ends.append(not written and status == 1 and bool(errors))
    for path in folder.iterdir():
        path.unlink()
    folder.rmdir()
    return all(ends)


def main(program, changing_seed):
    """The exit status: 0 where both agree on all lists and each outcome was met, and the program ends otherwise where it should."""
    if not ends_otherwise(program):
        print("awdreplay does not end as it should without a document")
        return 1
    if not longest_opened(program):
        print("awdreplay does not open or read the longest document, or does so with a longer one")
        return 1
    tally = Tally()
    for seed in (SEED, changing_seed):
        count = compare(program, seed, tally)
        if count is None:
            return 1
        print(f"awdreplay and the replayer in Python agree on {count} lists of calls of seed {seed}", flush=True)
    tally.show()
    if tally.missing():
        print(f"not met: {', '.join(tally.missing())}")
        return 1
    return 0


if __name__ == "__main__":
    sys.exit(main(sys.argv[1], int(sys.argv[2]) if len(sys.argv) > 2 else secrets.randbelow(2**32)))
