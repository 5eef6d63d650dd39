"""Which writes to a file were not synced, and what a power cut may leave of it.

Between two syncs each range that was written may hold any bytes, and so may the part behind the old end; the end lies
between the old one and the new. All else stays.
"""

import collections
import os
import struct
import subprocess

HERE = os.path.dirname(os.path.abspath(__file__))
NUMBERS = struct.Struct("=4Q")
SECTOR = 512

# a write that was not synced: `old` are the bytes that it went over, `size` is how long the file was
Write = collections.namedtuple("Write", "at size old new")


def library(folder):
    """The path of lose_unsynced.c, compiled."""
    path = os.path.join(folder, "lose.so")
    words = [os.environ.get("CC", "cc"), "-O1", "-fPIC", "-shared", "-o", path]
    subprocess.run([*words, os.path.join(HERE, "../campaigns/lose_unsynced.c")], check=True)
    return path


def writes_in(notes):
    """The writes that are noted; what is noted in part was not begun."""
    found, at = [], 0
    while at + NUMBERS.size <= len(notes):
        place, length, size, over = NUMBERS.unpack_from(notes, at)
        middle = at + NUMBERS.size + over
        at = middle + length
        if at <= len(notes):
            found.append(Write(place, size, notes[middle - over : middle], notes[middle:at]))
    return found


def synced(data, writes):
    """What the file held at its last sync."""
    data = bytearray(data)
    for write in reversed(writes):
        data[write.at : write.at + len(write.old)] = write.old
        del data[write.size :]
    return bytes(data)


def torn(rng, old, new):
    """What may stand in a range that was written: all of it, nothing, its beginning, some sectors, or any bytes."""
    how = rng.choice(["new", "old", "beginning", "sectors", "any"])
    if how == "beginning":
        end = rng.randint(0, len(new))
        return new[:end] + old[end:]
    if how == "sectors":
        parts = range(0, len(new), SECTOR)
        return b"".join(rng.choice([old, new])[at : at + SECTOR] for at in parts)
    return {"new": new, "old": old, "any": rng.randbytes(len(new))}[how]


def left(rng, data, writes):
    """What a power cut leaves of a file, of which these writes were not synced."""
    before = synced(data, writes)
    ends = [len(before)] + [write.at + len(write.new) for write in writes]
    longest = max(ends)
    found = bytearray(before + rng.choice([bytes, rng.randbytes])(longest - len(before)))
    for write in writes:
        place = slice(write.at, write.at + len(write.new))
        found[place] = torn(rng, bytes(found[place]), write.new)
    return bytes(found[: rng.choice([len(before), longest, longest, rng.randint(len(before), longest)])])
