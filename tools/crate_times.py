#!/usr/bin/env python3
"""Processor time by crate: runs a command and sums what rattle's processes under it use, by the crate that they work on.

Usage: crate_times.py COMMAND [ARGUMENT..]      for example: crate_times.py rt ci --anew
       crate_times.py --session SID             watches what runs in a session of the system already, until it ends

Read from /proc twice a second, so up to half a second of each process is missed. In a line stand the crate, the seconds of its proof and
builds, those of its must-fail edits, and how many edits were seen.
"""
import os
import subprocess
import sys
import time

TICK = os.sysconf("SC_CLK_TCK")


def stat_of(pid):
    """The session of a process and its processor time in seconds, or none where it has ended."""
    try:
        with open(f"/proc/{pid}/stat", encoding="utf-8") as it:
            fields = it.read().rpartition(")")[2].split()
    except OSError:
        return None
    return int(fields[3]), (int(fields[11]) + int(fields[12])) / TICK


def work_of(pid):
    """The crate that a process of rattle works on, and whether it is an edit of it; none of any other process."""
    try:
        with open(f"/proc/{pid}/cmdline", "rb") as it:
            words = it.read().decode(errors="replace").split("\0")
        folder = os.readlink(f"/proc/{pid}/cwd")
    except OSError:
        return None
    if not words[0].endswith("rattle") or "--crate-name" not in words:
        return None
    return words[words.index("--crate-name") + 1], "rt-edit" in folder


def sample(session, seen):
    """Notes what each process of a session has used so far. Whether the session has any process."""
    alive = False
    for pid in filter(str.isdigit, os.listdir("/proc")):
        stat = stat_of(pid)
        if stat is None or stat[0] != session:
            continue
        alive = True
        work = work_of(pid)
        if work is not None:
            seen[pid, work] = stat[1]
    return alive


def table(seen):
    """A line for each crate, the longest first."""
    sums = {}
    for (_, (crate, is_edit)), seconds in seen.items():
        proof, edits, count = sums.get(crate, (0.0, 0.0, 0))
        sums[crate] = (proof, edits + seconds, count + 1) if is_edit else (proof + seconds, edits, count)
    for crate, (proof, edits, count) in sorted(sums.items(), key=lambda it: -it[1][0] - it[1][1]):
        print(f"| {crate} | {proof:.0f} | {edits:.0f} | {count} |")
    print(f"in all {sum(proof + edits for proof, edits, _ in sums.values()) / 60:.1f} minutes of processor time")


def main(words):
    if not words:
        sys.exit(__doc__)
    seen = {}
    command = None
    if words[0] == "--session":
        session = int(words[1])
    else:
        command = subprocess.Popen(words, start_new_session=True)
        session = command.pid
    while sample(session, seen) and (command is None or command.poll() is None):
        time.sleep(0.5)
    table(seen)
    return command.wait() if command else 0


if __name__ == "__main__":
    sys.exit(main(sys.argv[1:]))
