"""The texts of entries as files of units have them, read as far as a trace of them needs."""

import collections
import heapq
import os
import struct

from .entries import FIELDS
from .player import PUMP

# `text` is all of the entry
Written = collections.namedtuple("Written", "stamp unit actor seq moment act text")

FRONT = 32
NEXUS, PUMP_OF_UNIT = 0, 1
NAMES = {code: name for name, (code, _) in FIELDS.items()}


class NoEntry(Exception):
    """What stands in a file of entries is none."""


def ranges(data, at):
    return at + 1 + 12 * data[at]


def blocks(data, at):
    block_length, groups = struct.unpack_from(">II", data, at)
    at += 8
    for _ in range(groups):
        count, is_held = struct.unpack_from(">IB", data, at)
        at += 5 + (count * block_length if is_held else 0)
    return at


# the fields of each act: how many bytes they have, or what finds their end
PARTS = {
    "Read": [12], "Write": [8, blocks], "Unmap": [ranges], "MapStatus": [8], "Populate": [8, ranges], "Redeem": [514],
    "Delete": [8], "Start": [5, ranges, blocks], "Advance": [4], "Pump": [], "End": [4], "Abort": [4], "Report": [4],
    "Capture": [12], "Put": [8, blocks], "Open": [1], "Close": [8], "Recall": [1], "PrOut": [19],
    "PrKeys": [], "PrHolder": [],
}


def entry_at(data, at):
    """The entry whose text begins at a place."""
    stamp, unit, kind, number, seq, moment, code = struct.unpack_from(">QHBIQQB", data, at)
    if kind not in (NEXUS, PUMP_OF_UNIT) or code not in NAMES:
        raise ValueError
    end = at + FRONT
    for part in PARTS[NAMES[code]]:
        end = end + part if isinstance(part, int) else part(data, end)
    if end > len(data):
        raise ValueError
    return Written(stamp, unit, PUMP if kind == PUMP_OF_UNIT else number, seq, moment, NAMES[code], data[at:end])


def entries_of(data):
    """The entries whose texts stand in some bytes, one behind the other."""
    found, at = [], 0
    while at < len(data):
        try:
            found.append(entry_at(data, at))
        except (struct.error, IndexError, ValueError):
            raise NoEntry(f"no entry stands at byte {at} of {len(data)}") from None
        at += len(found[-1].text)
    return found


def read_folder(folder, units):
    """The entries of each unit, as the files of a folder have them; of a unit without entries there may be no file."""
    found = []
    for number in range(units):
        path = os.path.join(folder, f"unit-{number}")
        data = b""
        if os.path.exists(path):
            with open(path, "rb") as file:
                data = file.read()
        try:
            found.append(entries_of(data))
        except NoEntry as fault:
            raise NoEntry(f"unit-{number}: {fault}") from None
        if any(entry.unit != number for entry in found[-1]):
            raise NoEntry(f"unit-{number} has an entry of another unit")
    return found


def merged(of_units):
    """The entries of all units by stamp, and at one stamp by unit."""
    return list(heapq.merge(*of_units, key=lambda entry: (entry.stamp, entry.unit)))
