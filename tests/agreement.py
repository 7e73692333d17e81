"""Runs a program on many inputs and compares what it writes with what another reader says that it has to write."""

import concurrent.futures
import functools
import subprocess

# how many inputs a worker is given at a time
LOT = 50


def tried(program, expected, data):
    """What has to be written for an input, and what is wrong with what the program does, None where nothing is."""
    run = subprocess.run([program], input=data, capture_output=True)
    written, wanted = run.stdout.decode("ascii", "replace"), expected(data)
    if run.returncode != 0 or run.stderr or written != wanted:
        return wanted, f"input {data[:64].hex()} of {len(data)} bytes: wrote {written!r}, expected {wanted!r}"
    return wanted, None


def compare(program, name, inputs, expected, other="the reader in Python", met=lambda wanted: None):
    """The exit status: 0 where the program writes what is expected for each input, with status 0 and no error output.

    The inputs are dealt out to as many workers as there are cores; `met` is told what was expected of each, in their order.
    """
    count = 0
    with concurrent.futures.ProcessPoolExecutor() as workers:
        for wanted, wrong in workers.map(functools.partial(tried, program, expected), inputs, chunksize=LOT):
            if wrong:
                print(wrong)
                workers.shutdown(cancel_futures=True)
                return 1
            met(wanted)
            count += 1
    print(f"{name} and {other} agree on {count} inputs")
    return 0
