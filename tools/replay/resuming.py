"""Units that go on with the entries of their journals."""

import functools

from copymgr_formats.senses import Conflict, RecordFull, Refused

from . import acts, told
from .entries import Entry
from .unit import Unit

NEXUS_LIMIT = 4_294_967_038


class BadHistory(Exception):
    """An entry of a history could not have been made."""

    def __init__(self, unit, entry):
        super().__init__(f"bad history of unit {unit} at entry {entry}")


def done_again(unit, entry):
    """Has the act of an entry done without noting it; RecordFull where there is no room for it."""
    try:
        Unit.act(unit, entry.actor, entry.moment, entry.act)
    except (Refused, Conflict):
        pass  # an entry all the same
    forgotten(unit)


def forgotten(unit):
    """All entries of the unit were written elsewhere."""
    unit.folded, unit.payload = unit.entries, 0


def is_late(entry):
    return isinstance(entry.actor, int) and entry.actor > NEXUS_LIMIT


def go_on(unit, history):
    """Has a new unit do all entries of a history again; or BadHistory."""
    for place, entry in enumerate(history):
        if is_late(entry):
            raise BadHistory(unit.number, place)
        try:
            done_again(unit, entry)
        except RecordFull:
            raise BadHistory(unit.number, place) from None


def next_nexus(histories):
    """The number of the next nexus: above the greatest of all units' entries."""
    return 1 + max((e.actor for entries in histories for e in entries if isinstance(e.actor, int)), default=-1)


def endings(unit, stamp):
    """The entries that end what still runs of initiators that are gone, behind one of a stamp."""
    running = [o for o in unit.operations if o.state == told.BACKGROUND and not o.background]
    make = functools.partial(Entry, unit=unit.number, block_length=unit.shape.block_length, seq=0, moment=unit.moment)
    return [make(stamp=stamp + 1 + at, actor=o.key[0], act=ending(o)) for at, o in enumerate(running)]


def ending(operation):
    _, form, found = operation.key
    if form == "token":
        return acts.End(found)
    return acts.Close(found, acts.Result(told.TERMINATED, 0, 0))
