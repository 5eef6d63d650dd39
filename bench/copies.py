#!/usr/bin/env python3
"""Measures copies and UNMAPs beside a copy in memory. bench/README.md says what the columns are.

    copies.py PROGRAM COPY ROUNDS FOLDER

COPY is the program of copy.c, and the traces are written to FOLDER. Each trace is first played once, and fails unless
all its replies are GOOD.
"""

import os
import subprocess
import sys
import time

import copy_traces
import replies

COUNTS = {"token": 2, "extents": 8, "segments": 2, "unmap": 128}


def make(folder, name, count):
    """The path of a trace, and its number of replies."""
    path = os.path.join(folder, f"{name}-{count}")
    parts, wanted = copy_traces.trace(name, count)
    with open(path, "wb") as file:
        file.writelines(parts)
    return path, wanted


def check(program, path, wanted):
    with open(path, "rb") as given:
        run = subprocess.run([program, "replay"], stdin=given, capture_output=True, check=False)
    if run.returncode != 0 or len(replies.ends_of(run.stdout)) != wanted:
        sys.exit(f"{path}: {wanted} replies are wanted; the program ended with {run.returncode}: {run.stderr!r}")


def played(program, path):
    """Seconds."""
    with open(path, "rb") as given:
        start = time.perf_counter()
        subprocess.run([program, "replay"], stdin=given, stdout=subprocess.DEVNULL, check=True)
        return time.perf_counter() - start


def copied(copy, size, count):
    """Seconds of so many copies in memory."""
    run = subprocess.run([copy, str(size), str(count)], capture_output=True, check=True)
    return int(run.stdout) / 1e6


def measure(program, copy, rounds, folder, name):
    count, size = COUNTS[name], copy_traces.KINDS[name].blocks * copy_traces.BLOCK
    paths = []
    for number in (0, count):
        path, wanted = make(folder, name, number)
        check(program, path, wanted)
        paths.append(path)
    times = [(played(program, paths[0]), played(program, paths[1]), copied(copy, size, count)) for _ in range(rounds)]
    fill, whole, memory = (min(column) for column in zip(*times))
    for path in paths:
        os.remove(path)
    taken = max(whole - fill, 1e-6)
    total = size * count / 1e6
    ours, theirs = total / taken, total / memory
    print(f"{name:<9}{count:>6}{total:>9.1f}{fill:>9.3f}{taken:>9.3f}{ours:>9.0f}{theirs:>9.0f}{ours / theirs:>8.3f}")


def main():
    if len(sys.argv) != 5 or not sys.argv[3].isdigit():
        sys.exit(__doc__)
    program, copy, rounds, folder = sys.argv[1:]
    print(f"{'kind':<9}{'count':>6}{'MB':>9}{'fill s':>9}{'s':>9}{'MB/s':>9}{'memory':>9}{'ratio':>8}", flush=True)
    for name in COUNTS:
        measure(program, copy, int(rounds), folder, name)
        sys.stdout.flush()


if __name__ == "__main__":
    main()
