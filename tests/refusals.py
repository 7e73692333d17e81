#!/usr/bin/env python3
"""Tries the edits in crates/*/refused/, each of which the compiler must refuse.

The prover's own must-fail edits are for facts that no longer hold. These are for programs that must not compile at
all: memory written while a part of it is in use, a session reached from outside while it is another's source. An
edit has the lines 'file:', 'old:' (standing once in that file), 'new:' and 'code:', the name of the error that the
compiler must give. Each edit is made in a copy of the repository, so that nothing here changes, and as many are tried
at a time as there are cores.

Usage: tests/refusals.py, after what has built the libraries below the crates that have such edits, as `rt lib` in awd_c does
"""

import concurrent.futures
import os
import pathlib
import shutil
import subprocess
import sys
import tempfile

ROOT = pathlib.Path(__file__).resolve().parent.parent


def read_edit(path):
    """The lines of an edit, by key."""
    lines = (line.partition(": ") for line in path.read_text().splitlines())
    return {key: text for key, _, text in lines}


def link(one, other):
    """Gives a file a second name, or copies it where that cannot be."""
    try:
        os.link(one, other)
    except OSError:
        shutil.copy2(one, other)


def refused(crate, edit):
    """Whether the compiler refuses the crate, so edited, with the error that the edit names."""
    text = (ROOT / "crates" / crate / edit["file"]).read_text()
    if text.count(edit["old"]) != 1:
        return False
    with tempfile.TemporaryDirectory() as place:
        copy = pathlib.Path(place) / "copy"
        shutil.copytree(ROOT, copy, copy_function=link, ignore=shutil.ignore_patterns(".git", "incremental", "target", "__pycache__"))
        source = copy / "crates" / crate / edit["file"]
        source.unlink()
        source.write_text(text.replace(edit["old"], edit["new"]))
        run = subprocess.run(["rt", "check"], cwd=copy / "crates" / crate, capture_output=True, text=True, errors="replace")
    return run.returncode != 0 and f"error[{edit['code']}]" in run.stdout + run.stderr


def main():
    edits = [(path.parent.parent.name, path.stem, read_edit(path)) for path in sorted(ROOT.glob("crates/*/refused/*.edit"))]
    with concurrent.futures.ThreadPoolExecutor(os.cpu_count()) as threads:
        found = list(threads.map(lambda it: refused(it[0], it[2]), edits))
    for (crate, label, edit), is_refused in zip(edits, found):
        print(f"{crate}/{label}: {'refused' if is_refused else 'NOT REFUSED'} with {edit['code']}")
    print(f"compile refusals: {sum(found)} of {len(edits)}")
    return 0 if edits and all(found) else 1


if __name__ == "__main__":
    sys.exit(main())
