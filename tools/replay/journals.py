"""Journals: the entries of a unit in one file, read and written from docs/formats.md."""

import collections
import fcntl
import os
import struct

from copymgr_formats import frames

from .readback import BadText, entry_of

OPEN, SHUT = 0xA5, 0x00
TEXT = b"CMJOURN1"
LENGTH = struct.Struct(">Q")

# an entry with its text, the place of its length, and that of its gate
Record = collections.namedtuple("Record", "entry text place gate")


class BadJournal(Exception):
    """A file is no journal of this unit of this machine."""

    def __init__(self, unit, place):
        super().__init__(f"bad journal of unit {unit} at byte {place}")
        self.unit, self.place = unit, place


def path_of(folder, unit):
    return os.path.join(folder, f"journal-{unit}")


def front_of(machine, unit):
    """What stands before the second gate."""
    return bytes([OPEN]) + TEXT + struct.pack(">H", unit) + frames.header_bytes(machine)


def new(machine, unit):
    """A journal without records, whose last byte is its last gate."""
    return front_of(machine, unit) + bytes([SHUT])


def framed(text):
    """What is written behind the last gate: a record, and its gate, which is closed."""
    return LENGTH.pack(len(text)) + text + bytes([SHUT])


def with_records(data, texts):
    """A journal with these texts recorded behind its own."""
    for text in texts:
        data = data[:-1] + bytes([OPEN]) + framed(text)
    return data


def is_unmade(data, front):
    """Whether it is made new when it is opened."""
    return len(data) <= len(front) or (len(data) == len(front) + 1 and data[0] != OPEN)


def gate_behind(data, at):
    """The gate of the record whose length stands at a place; None where the file ends before it."""
    if len(data) < at + LENGTH.size:
        return None
    gate = at + LENGTH.size + LENGTH.unpack_from(data, at)[0]
    return gate if gate < len(data) else None


def record_at(data, at, machine, unit, last):
    """The good record behind an open gate."""
    gate = gate_behind(data, at)
    if gate is None:
        raise BadJournal(unit, at)
    text = bytes(data[at + LENGTH.size : gate])
    try:
        return Record(entry_of(text, machine, unit, last), text, at, gate)
    except BadText:
        raise BadJournal(unit, at) from None


def texts_in(data, machine):
    """The texts of the records in a journal that is not bad."""
    found, gate = [], len(front_of(machine, 0))
    while data[gate] == OPEN:
        at, gate = gate + 1 + LENGTH.size, gate_behind(data, gate + 1)
        found.append(data[at:gate])
    return found


def records_from(data, gate, machine, unit, last=0):
    """The records behind a gate, up to the first that is not open; `last` is the stamp of the one before."""
    found = []
    while data[gate] == OPEN:
        found.append(record_at(data, gate + 1, machine, unit, last))
        gate, last = found[-1].gate, found[-1].entry.stamp
    return found


def opened(data, machine, unit):
    """The records of a file; it has none where it is made new. Or BadJournal."""
    front = front_of(machine, unit)
    if is_unmade(data, front):
        return []
    if data[0] != OPEN:
        raise BadJournal(unit, 0)
    if data[: len(front)] != front:
        raise BadJournal(unit, 1)
    return records_from(data, len(front), machine, unit)


def last_gate(machine, unit, records):
    return records[-1].gate if records else len(front_of(machine, unit))


def read_file(path):
    """The bytes of a file; none where it is absent."""
    try:
        with open(path, "rb") as file:
            return file.read()
    except FileNotFoundError:
        return b""


class Journal:
    """A journal's file, opened and locked, to which entries are added."""

    def __init__(self, path, machine, unit):
        self.file = os.open(path, os.O_RDWR | os.O_CREAT, 0o644)
        fcntl.flock(self.file, fcntl.LOCK_EX | fcntl.LOCK_NB)
        os.fsync(self.file)
        data = read_file(path)
        self.records = opened(data, machine, unit)
        front = front_of(machine, unit)
        if is_unmade(data, front):
            self.make(front, not data or data[0] == OPEN)
        self.gate = last_gate(machine, unit, self.records)
        # whether the opening of the last gate was begun and did not end well
        self.is_begun = False

    def write(self, data, at):
        """Writes and syncs."""
        while data:
            count = os.pwrite(self.file, data[: 1 << 20], at)
            data, at = data[count:], at + count
        os.fsync(self.file)

    def make(self, front, closes):
        if closes:
            self.write(bytes([SHUT]), 0)
        self.write(front[1:] + bytes([SHUT]), 1)
        self.write(bytes([OPEN]), 0)

    def add(self, text):
        """Records a text; where it fails, the same or another may be tried next."""
        record = framed(text)
        if self.is_begun:
            self.write(bytes([SHUT]), self.gate)
            self.is_begun = False
        self.write(record, self.gate + 1)
        self.is_begun = True
        self.write(bytes([OPEN]), self.gate)
        self.gate += len(record)
        self.is_begun = False

    def close(self):
        os.close(self.file)
