#!/usr/bin/env python3
"""Plays a trace, and tells when the replies came.

    replies.py ROUNDS COUNT TRACE PROGRAM

The program gets the trace as its standard input, and its replies are read from a pipe, each piece
with the moment at which it came. It fails unless there are COUNT replies, all of them GOOD. It prints
the shortest time of ROUNDS runs, in seconds, of the first and of the last tenth of the replies.
"""

import subprocess
import sys
import time


def pieces_of(program, trace):
    """What the program wrote, in pieces: how many bytes there were at the end of each, and when."""
    marks, pieces, total = [], [], 0
    with open(trace, "rb") as given:
        start = time.perf_counter()
        with subprocess.Popen([program, "replay"], stdin=given, stdout=subprocess.PIPE) as run:
            while piece := run.stdout.read1(1 << 20):
                total += len(piece)
                marks.append((total, time.perf_counter() - start))
                pieces.append(piece)
    if run.returncode != 0:
        sys.exit(f"the program ended with {run.returncode}")
    return marks, b"".join(pieces)


def ends_of(output):
    """Where each reply ends."""
    ends, at = [], 0
    while at < len(output):
        if output[at + 4] != 0:
            sys.exit(f"reply {len(ends)} has the status {output[at + 4]:02x}h")
        at += 10 + int.from_bytes(output[at + 6 : at + 10], "big")
        ends.append(at)
    return ends


def came(marks, end):
    """When so many bytes had come."""
    return next(moment for total, moment in marks if total >= end)


def main():
    if len(sys.argv) != 5:
        sys.exit(__doc__)
    rounds, count, trace, program = int(sys.argv[1]), int(sys.argv[2]), sys.argv[3], sys.argv[4]
    firsts, lasts = [], []
    ends = None
    for _ in range(rounds):
        marks, output = pieces_of(program, trace)
        if ends is None:
            ends = ends_of(output)
            if len(ends) != count:
                sys.exit(f"there are {len(ends)} replies, and {count} are wanted")
        tenth = count // 10
        firsts.append(came(marks, ends[tenth - 1]))
        lasts.append(came(marks, ends[-1]) - came(marks, ends[-1 - tenth]))
    print(f"{min(firsts):.4f} {min(lasts):.4f}")


if __name__ == "__main__":
    main()
