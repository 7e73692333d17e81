#!/usr/bin/env python3
"""Runs commands side by side, and says of each how long it took and whether it passed.

Usage: side_by_side.py < PARTS

A line of PARTS is `NAME: COMMAND`, in bash, or `NAME, after OTHER: COMMAND` with the name of a part above that is to pass first. What a part writes
is shown once it has ended: whole where it failed, and else its last lines. The exit status is 0 where all passed.
"""

import concurrent.futures
import subprocess
import sys
import time

# the lines that are shown of what a part that passed wrote
SHOWN = 40


def run(name, command, first, begun):
    """Runs a part once the one that is to pass first has, and gives whether it passed too."""
    if first and not first.result():
        print(f"== {name}: not run\n", end="", flush=True)
        return False
    start = time.monotonic()
    done = subprocess.run(["bash", "-euo", "pipefail", "-c", command], stdin=subprocess.DEVNULL, stdout=subprocess.PIPE, stderr=subprocess.STDOUT)
    end = time.monotonic()
    passed = done.returncode == 0
    lines = done.stdout.decode(errors="replace").splitlines()
    head = f"== {name}: {'passed' if passed else 'FAILED'} in {end - start:.0f} s, from {start - begun:.0f} s to {end - begun:.0f} s"
    # in one piece, so that no other part's lines come between
    print("\n".join([head, *(lines[-SHOWN:] if passed else lines)]) + "\n", end="", flush=True)
    return passed


def main():
    parts = [line.strip().partition(": ") for line in sys.stdin if line.strip()]
    begun = time.monotonic()
    found = {}
    with concurrent.futures.ThreadPoolExecutor(len(parts)) as threads:
        for head, _, command in parts:
            name, _, first = head.partition(", after ")
            found[name] = threads.submit(run, name, command, found[first] if first else None, begun)
    passed = sum(part.result() for part in found.values())
    print(f"{passed} of {len(found)} parts passed in {time.monotonic() - begun:.0f} s")
    return 0 if passed == len(found) else 1


if __name__ == "__main__":
    sys.exit(main())
