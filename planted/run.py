#!/usr/bin/env python3
"""Tries planted bugs: wrong bodies, each as a programmer might write it, that no contract should let through.

planted/CRATE/LABEL.edit is a must-fail edit (lines `file: `, `old: ` and `new: `), and may have a line `says: ` with what would go wrong for whom.
The planted edits are put in the place of the must-fail edits of a copy of the repository, and one `rt must-fail` tries them all: it checks each crate
once, over what `rt check` kept of it on this machine, and then its edits over that, as many at a time as there are cores and memory allows; what it
tried of the same text before it tells again. So all results come together, at the end. This says of each edit that it is refused, that it SURVIVES,
that it is bad (it does not fit its text, does not compile, or only takes a name away that a proof has), or that it was not tried. The first open
obligation comes from the prover.

An edit may have a line `above: ` with a crate that stands on its own: where it survives in its own, what a check there comes to counts. One with a line
`survives: ` is refused by no contract, and the line says why, or what stands for it. The exit status is 0 where each edit went as it says.

Usage: planted/run.py [CRATE | CRATE/LABEL ..] [--jobs N]      --jobs: on so many cores, where not on all
"""

import argparse
import concurrent.futures
import os
import pathlib
import re
import resource
import shutil
import subprocess
import sys
import tempfile
import time

ROOT = pathlib.Path(__file__).resolve().parent.parent
PLANTED = ROOT / "planted"
LINE = re.compile(r"(?:rt: )?must-fail (\w+)/([\w.-]+)\.edit: (refused|[A-Z ]+)(?:, as it must be)?(?: \((.*?)\))?:? ?(.*)")
RESULTS = {"refused": "refused", "NOT REFUSED": "SURVIVES", "BAD EDIT": "bad", "NOT TRIED": "not tried"}
# what is refused for another reason than that a fact no longer holds
NAMES = "only because a proof file names"


def chosen(names):
    """The edits of these names, each of a crate or of an edit; all where there is no name."""
    every = sorted(PLANTED.glob("*/*.edit"))
    called = {edit: {edit.parent.name, f"{edit.parent.name}/{edit.stem}"} for edit in every}
    unknown = set(names).difference(*called.values())
    if unknown:
        sys.exit(f"no such planted edit or crate: {' '.join(sorted(unknown))}")
    return [edit for edit in every if not names or not called[edit].isdisjoint(names)]


def field(edit, name):
    """What a line of an edit says, None where it has no such line."""
    lines = edit.read_text(encoding="utf-8").split("\n")
    return next((line[len(name) + 2 :] for line in lines if line.startswith(f"{name}: ")), None)


def copied(to):
    """A copy of the repository without its must-fail edits and without what was built: rt begins with what was kept of the same text, wherever that is."""
    shutil.copytree(ROOT, to, symlinks=True, ignore=shutil.ignore_patterns(".git", "must-fail", "out", "target"))
    return to


def tried(copy, edits):
    """What each edit comes to in its own crate, and the first open obligation, in the edits' order."""
    for edit in edits:
        folder = copy / "crates" / edit.parent.name / "must-fail"
        folder.mkdir(exist_ok=True)
        shutil.copy(edit, folder)
    crates = sorted({edit.parent.name for edit in edits})
    found = {}
    with subprocess.Popen(["rt", "must-fail", *crates], cwd=copy, stdout=subprocess.PIPE, stderr=subprocess.STDOUT, text=True, errors="replace") as run:
        for line in run.stdout:
            told = LINE.match(line.rstrip("\n"))
            if told:
                found[told[1], told[2]] = told
            else:
                # how far it is, or what keeps it from trying
                print(line, end="", file=sys.stderr, flush=True)
    return [result(found.get((edit.parent.name, edit.stem))) for edit in edits]


def result(line):
    """The result that a line tells, and the obligation that it names."""
    if not line:
        return "not tried", ""
    if NAMES in (line[4] or ""):
        return "bad", line[4]
    return RESULTS.get(line[3], "bad"), line[5]


def open_above(copy, edit):
    """What a check of the crate above leaves open with the edit, None where it leaves nothing open; in a copy for this edit alone."""
    above = field(edit, "above")
    change(copied(copy) / "crates" / edit.parent.name, edit)
    done = subprocess.run(["rt", "check"], cwd=copy / "crates" / above, capture_output=True, text=True, errors="replace")
    open_there = [line for line in (done.stdout + done.stderr).split("\n") if "it is not proved that" in line or ": error" in line]
    return f"at or below {above}: {open_there[0]}" if done.returncode == 1 and open_there else None


def change(folder, edit):
    """Applies an edit, which is known to fit, to the crate in a folder."""
    path, old = None, ""
    for line in edit.read_text(encoding="utf-8").split("\n"):
        if line.startswith("file: "):
            path = folder / line[6:]
        elif line.startswith("old: "):
            old = line[5:]
        elif line.startswith("new:"):
            path.write_text(path.read_text(encoding="utf-8").replace(old, line[4:].removeprefix(" ")), encoding="utf-8")


def all_tried(edits):
    """A row for each edit: the edit, what it comes to, and the first open obligation."""
    with tempfile.TemporaryDirectory(prefix="planted-") as room, concurrent.futures.ThreadPoolExecutor(len(os.sched_getaffinity(0))) as threads:
        room = pathlib.Path(room)
        # these take longest, so they begin at once
        above = {edit: threads.submit(open_above, room / f"above{at}", edit) for at, edit in enumerate(edits) if field(edit, "above")}
        rows = []
        for edit, (came, obligation) in zip(edits, tried(copied(room / "own"), edits)):
            found = above[edit].result() if came == "SURVIVES" and edit in above else None
            rows.append((edit, "refused", found) if found else (edit, came, obligation))
        return rows


def goes_as_it_says(row):
    """Whether an edit is refused, or survives and says so."""
    return row[1] == ("SURVIVES" if field(row[0], "survives") else "refused")


def main():
    given = argparse.ArgumentParser()
    given.add_argument("names", nargs="*", metavar="CRATE[/LABEL]")
    given.add_argument("--jobs", type=int, help="the number of cores to use, where not all")
    words = given.parse_args()
    if words.jobs:
        # rt, like every program that this starts, then sees no other cores
        os.sched_setaffinity(0, sorted(os.sched_getaffinity(0))[: words.jobs])
    begun = time.monotonic()
    rows = all_tried(chosen(words.names))
    for edit, came, obligation in rows:
        print(f"{edit.parent.name:16} {edit.stem:28} {came:9} {obligation[:140]}")
    wrong = [row for row in rows if not goes_as_it_says(row)]
    counts = {word: sum(row[1] == word for row in rows) for word in RESULTS.values()}
    print(", ".join(f"{count} {word}" for word, count in counts.items()), f"of {len(rows)};", f"{len(wrong)} not as they say")
    used = resource.getrusage(resource.RUSAGE_CHILDREN)
    print(f"{time.monotonic() - begun:.0f} s, of processor time {used.ru_utime + used.ru_stime:.0f} s")
    return 1 if wrong else 0


if __name__ == "__main__":
    sys.exit(main())
