"""The entries of units' records, and their texts, written from docs/formats.md."""

import collections
import itertools
import struct

from copymgr_formats.senses import Conflict, Refused

from . import told
from .player import PUMP
from .unit import Unit

Entry = collections.namedtuple("Entry", "stamp unit block_length actor seq moment act")

STATES = [told.BACKGROUND, told.DONE, told.FAILED, told.TERMINATED]


def numbers(form):
    """An act whose fields are numbers."""
    return lambda act, _: struct.pack(form, *act)


def ranges_text(ranges):
    return bytes([len(ranges)]) + b"".join(struct.pack(">QI", *one) for one in ranges)


def blocks_text(blocks, block_length):
    groups = []
    for is_held, group in itertools.groupby(blocks, lambda data: data is not None):
        held = list(group)
        groups.append(struct.pack(">IB", len(held), is_held) + (b"".join(held) if is_held else b""))
    return struct.pack(">II", block_length, len(groups)) + b"".join(groups)


def list_text(act, block_length):
    return struct.pack(">Q", act.lba) + blocks_text(act.blocks, block_length)


def populate_text(act, _):
    return struct.pack(">II", act.id, act.timeout) + ranges_text(act.ranges)


def start_text(act, block_length):
    front = struct.pack(">IB", act.id, bool(act.background))
    return front + ranges_text(act.ranges) + blocks_text(act.rod, block_length)


def close_text(act, _):
    return struct.pack(">BBHI", act.id, STATES.index(act.result.state), act.result.segments, act.result.bytes)


FIELDS = {
    "Read": (0x01, numbers(">QI")),
    "Write": (0x02, list_text),
    "Unmap": (0x03, lambda act, _: ranges_text(act.ranges)),
    "MapStatus": (0x04, numbers(">Q")),
    "Populate": (0x05, populate_text),
    "Redeem": (0x06, lambda act, _: act.text + struct.pack(">H", act.target)),
    "Delete": (0x07, numbers(">Q")),
    "Start": (0x08, start_text),
    "Advance": (0x09, numbers(">I")),
    "Pump": (0x0A, numbers("")),
    "End": (0x0B, numbers(">I")),
    "Abort": (0x0C, numbers(">I")),
    "Report": (0x0D, numbers(">I")),
    "Capture": (0x0E, numbers(">QI")),
    "Put": (0x0F, list_text),
    "Open": (0x10, numbers(">B")),
    "Close": (0x11, close_text),
    "Recall": (0x12, numbers(">B")),
    "PrOut": (0x13, numbers(">BBBQQ")),
    "PrKeys": (0x14, numbers("")),
    "PrHolder": (0x15, numbers("")),
}


def text(entry):
    kind, number = (1, entry.unit) if entry.actor == PUMP else (0, entry.actor)
    code, fields = FIELDS[type(entry.act).__name__]
    front = struct.pack(">QHBIQQB", entry.stamp, entry.unit, kind, number, entry.seq, entry.moment, code)
    return front + fields(entry.act, entry.block_length)


class Actors:
    """What is known of actors beyond one unit: how many entries each has, and the stamp of its last one."""

    def __init__(self):
        self.asked = collections.Counter()
        self.stamps = collections.Counter()

    def next(self, actor, stamp):
        """The stamp of an actor's next entry, on a unit whose last one has this stamp, and its number."""
        seq = self.asked[actor]
        self.asked[actor] += 1
        self.stamps[actor] = 1 + max(stamp, self.stamps[actor])
        return self.stamps[actor], seq


class NotedUnit(Unit):
    """A unit that keeps its record. An act for which the record is full is no entry."""

    def __init__(self, machine, number, actors=None):
        super().__init__(machine, number)
        self.record = []
        self.actors = actors or Actors()
        self.stamp = 0

    def act(self, actor, moment, act):
        try:
            answer = super().act(actor, moment, act)
        except (Refused, Conflict):
            self.note(actor, moment, act)
            raise
        self.note(actor, moment, act)
        return answer

    def note(self, actor, moment, act):
        # the pump of each unit is an actor of its own
        self.stamp, seq = self.actors.next((actor, self.number) if actor == PUMP else actor, self.stamp)
        self.record.append(Entry(self.stamp, self.number, self.shape.block_length, actor, seq, moment, act))
