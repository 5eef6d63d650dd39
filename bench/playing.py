"""Runs of the program over traces that are files in memory."""

import collections
import os
import subprocess
import sys
import tempfile
import time

import house  # pylint: disable=unused-import


import replies
from loading import memory

MEMORY = "/dev/shm"
PATIENCE = 300

# seconds of a run, and those of a processor that is not the system's
Played = collections.namedtuple("Played", "seconds user")


def file_of(folder, name, trace):
    """A file of this name that holds the trace."""
    path = os.path.join(folder, name.replace(" ", "-"))
    with open(path, "wb") as file:
        file.write(trace)
    return path


def played(program, path):
    """One run of the program over a trace, whose replies go to a new file beside it."""
    output = path + ".replies"
    if os.path.exists(output):
        os.remove(output)
    with open(path, "rb") as given, open(output, "wb") as told:
        start = time.perf_counter()
        with subprocess.Popen([program, "replay"], stdin=given, stdout=told) as child:
            _, status, used = os.wait4(child.pid, 0)
            seconds = time.perf_counter() - start
            child.returncode = os.waitstatus_to_exitcode(status)
    if status:
        sys.exit(f"{program} ended with {status}")
    return Played(seconds, used.ru_utime)


def checked(program, path, wanted):
    """Plays the trace once, and fails unless each of so many replies is GOOD."""
    played(program, path)
    with open(path + ".replies", "rb") as told:
        if len(replies.ends_of(told.read())) != wanted:
            sys.exit(f"{program} replied otherwise than is right to {os.path.basename(path)}")


def resident(program, parts, wanted):
    """The bytes of memory of a program that has replied so many bytes to a trace of these parts, and waits for more."""
    with tempfile.TemporaryFile() as output, subprocess.Popen([program, "replay"], stdin=subprocess.PIPE, stdout=output) as child:
        child.stdin.writelines(parts)
        child.stdin.flush()
        end = time.monotonic() + PATIENCE
        while os.fstat(output.fileno()).st_size < wanted and child.poll() is None and time.monotonic() < end:
            time.sleep(0.01)
        held = memory.resident(child.pid)
        child.stdin.close()
        if child.wait() or os.fstat(output.fileno()).st_size != wanted:
            sys.exit(f"{program} replied otherwise than is right")
    return held
