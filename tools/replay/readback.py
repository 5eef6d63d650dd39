"""Entries read back from their texts, with their acts, as docs/formats.md says; and whether they may stand in a unit's
history."""

import struct

from copymgr_formats import lists
from copymgr_formats.cdbs import BLOCKS_LIMIT as READ_LIMIT
from copymgr_formats.reservations import ACTIONS
from copymgr_formats.senses import Refused

from . import acts, commands
from .entries import Entry, STATES
from .player import PUMP
from .told import BACKGROUND
from .written import NAMES, NEXUS, PUMP_OF_UNIT

FRONT = struct.Struct(">QHBIQQB")
RANGES = lists.RANGES_LIMIT
CAPTURE_LIMIT = 65_535


class BadText(Exception):
    """The bytes are no entry, or none that may stand there."""


def judge(holds):
    if not holds:
        raise BadText


class Cursor:
    """Takes one field after the other out of some bytes."""

    def __init__(self, data, at):
        self.data, self.at = data, at

    def bytes(self, size):
        end = self.at + size
        judge(end <= len(self.data))
        found, self.at = bytes(self.data[self.at : end]), end
        return found

    def numbers(self, form):
        return struct.unpack(form, self.bytes(struct.calcsize(form)))

    def ranges(self):
        count = self.numbers(">B")[0]
        judge(count <= RANGES)
        return [self.numbers(">QI") for _ in range(count)]

    def blocks(self):
        """The bytes of a block, and the blocks."""
        block_length, groups = self.numbers(">II")
        found, last = [], None
        for _ in range(groups):
            count, kind = self.numbers(">IB")
            judge(count > 0 and kind in (0, 1) and kind != last and len(found) + count <= lists.BLOCKS_LIMIT)
            held = self.bytes(count * block_length) if kind else b""
            found += [held[at * block_length : (at + 1) * block_length] if kind else None for at in range(count)]
            last = kind
        return block_length, found


# ---- the fields of each act; what is wrong in this unit is judged at once


def fields_of(make, form):
    return lambda cursor, *_: make(*cursor.numbers(form))


def read_blocks(cursor, machine, unit, most, are_held):
    """Of the unit's length, and no more than may be asked."""
    block_length, blocks = cursor.blocks()
    judge(block_length == machine.shapes[unit].block_length and len(blocks) <= most)
    judge(not are_held or None not in blocks)
    return blocks


def read(cursor, *_):
    act = acts.Read(*cursor.numbers(">QI"))
    judge(act.count <= READ_LIMIT)
    return act


def capture(cursor, *_):
    act = acts.Capture(*cursor.numbers(">QI"))
    judge(act.count <= CAPTURE_LIMIT)
    return act


def write(cursor, machine, unit):
    return acts.Write(cursor.numbers(">Q")[0], read_blocks(cursor, machine, unit, READ_LIMIT, True))


def put(cursor, machine, unit):
    return acts.Put(cursor.numbers(">Q")[0], read_blocks(cursor, machine, unit, acts.PIECE, False))


def judge_ranges(ranges):
    judge(not lists.share_a_block(ranges) and lists.total(ranges) <= lists.BLOCKS_LIMIT)


def populate(cursor, *_):
    found, timeout = cursor.numbers(">II")
    ranges = cursor.ranges()
    judge_ranges(ranges)
    judge(1 <= timeout <= lists.TIMEOUT_LIMIT)
    return acts.Populate(found, timeout, ranges)


def redeem(cursor, machine, unit):
    text, target = cursor.bytes(512), cursor.numbers(">H")[0]
    try:
        creator = commands.creator_of(machine, text)
    except Refused:
        creator = None
    judge(creator is not None and creator[0] == unit and target < len(machine.shapes))
    return acts.Redeem(text, creator[1], target)


def start(cursor, machine, unit):
    found, background = cursor.numbers(">IB")
    judge(background <= 1)
    ranges = cursor.ranges()
    judge_ranges(ranges)
    rod = read_blocks(cursor, machine, unit, lists.BLOCKS_LIMIT, False)
    judge(lists.total(ranges) == len(rod))
    return acts.Start(found, background, ranges, rod)


def close(cursor, *_):
    found, state, segments, count = cursor.numbers(">BBHI")
    judge(state < len(STATES) and STATES[state] != BACKGROUND)
    return acts.Close(found, acts.Result(STATES[state], segments, count))


def reserve(cursor, *_):
    act = acts.PrOut(*cursor.numbers(">BBBQQ"))
    judge(act.action in ACTIONS and act.scope < 16 and act.kind < 16)
    return act


READERS = {
    "Read": read, "Write": write, "Unmap": lambda cursor, *_: acts.Unmap(cursor.ranges()),
    "MapStatus": fields_of(acts.MapStatus, ">Q"), "Populate": populate, "Redeem": redeem,
    "Delete": fields_of(acts.Delete, ">Q"), "Start": start, "Advance": fields_of(acts.Advance, ">I"),
    "Pump": fields_of(acts.Pump, ">"), "End": fields_of(acts.End, ">I"), "Abort": fields_of(acts.Abort, ">I"),
    "Report": fields_of(acts.Report, ">I"), "Capture": capture, "Put": put, "Open": fields_of(acts.Open, ">B"),
    "Close": close, "Recall": fields_of(acts.Recall, ">B"), "PrOut": reserve,
    "PrKeys": fields_of(acts.PrKeys, ">"), "PrHolder": fields_of(acts.PrHolder, ">"),
}


def entry_of(text, machine, unit, last):
    """The entry that all of a text spells, which may stand in a unit's history behind one of a stamp; or BadText."""
    cursor = Cursor(text, 0)
    stamp, of_unit, kind, number, seq, moment, code = FRONT.unpack(cursor.bytes(FRONT.size))
    judge(kind in (NEXUS, PUMP_OF_UNIT) and code in NAMES and of_unit == unit and stamp > last)
    name = NAMES[code]
    # a pump does nothing but a Pump, and no nexus does one
    judge((kind == PUMP_OF_UNIT) == (name == "Pump") and (kind == NEXUS or number == unit))
    act = READERS[name](cursor, machine, unit)
    judge(cursor.at == len(text))
    actor = PUMP if kind == PUMP_OF_UNIT else number
    return Entry(stamp, unit, machine.shapes[unit].block_length, actor, seq, moment, act)
