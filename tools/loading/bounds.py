"""How many acts a command does at each unit, at least and at most, as far as its reply tells."""

import collections

from copymgr_formats import cdbs, frames, lists, rod_token, senses
from replay import acts, commands
from replay.player import Pending

GOOD, CHECK, BUSY, FULL = 0x00, 0x02, 0x08, 0x28
# refusals of a Start and of an Open; all others of a WRITE USING TOKEN, but for the quota's, are of its Redeem
AT_START = {senses.IN_USE, senses.OUT_OF_RANGE, senses.TOO_MANY}


def reply_without_acts(machine, request):
    """The reply to a command that asks for no act; None where it asks for one."""
    return Pending(machine, request).reply


class Bounds:
    """Units with the fewest and the most acts of each."""

    def __init__(self):
        self.low, self.high = collections.Counter(), collections.Counter()

    def add(self, unit, low, high):
        self.low[unit] += low
        self.high[unit] += high


def bounds_of(machine, request, status=None, sense=None):
    """Of a command that was replied with a status, and with a sense where it was refused; or of one without a reply.

    On a unit whose quota is all of its blocks no write in the background is stopped, and none may be aborted.
    """
    found = Bounds()
    if reply_without_acts(machine, request) is not None:
        return found
    name = cdbs.decode(request.cdb).name
    if name == "write using token":
        of_token_write(found, machine, request, status, sense)
    elif name == "extended copy":
        of_copy(found, machine, request, status, sense)
    else:
        found.add(request.unit, int(status in (GOOD, CHECK)), int(status != FULL))
    return found


def of_token_write(found, machine, request, status, sense):
    """Redeem, Start, Advances and Delete; and the Pumps that a write in the background brings."""
    unit, wanted = request.unit, lists.read_write(request.out)
    is_zero = lists.number(wanted.token, 0, 4) == rod_token.ZERO_TYPE
    creator = None if is_zero else lists.number(wanted.token, 8, 2)
    is_told, is_good = status in (GOOD, CHECK), status == GOOD
    if not is_zero:
        found.add(creator, int(is_told), 1)
    if status == CHECK and not is_zero and sense not in AT_START | {senses.OVER_QUOTA}:
        return
    found.add(unit, int(is_told), 1)
    if status == CHECK and sense in AT_START:
        return
    pieces, shape = acts.pieces(lists.total(wanted.ranges)), machine.shapes[unit]
    if wanted.immed:
        # the Pump that finds no work comes once for some writes
        found.add(unit, pieces if is_good and shape.quota == shape.blocks else 0, pieces + 1)
    else:
        # one that gives up has an End in the place of what is left
        found.add(unit, pieces if is_good else 0, pieces)
    if wanted.delete and not is_zero:
        found.add(creator, int(is_good), int(status != CHECK))


def of_copy(found, machine, request, status, sense):
    """Open, Captures, Puts and Close."""
    wanted = lists.read_copy(request.out)
    is_told, is_good = status in (GOOD, CHECK), status == GOOD
    if wanted.usage != lists.WITHOUT_ID:
        found.add(request.unit, int(is_told), 1)
        if status == CHECK and sense in AT_START:
            return
        # one that gives up may ask for Close twice
        found.add(request.unit, int(is_told), 1 if is_told else 2)
    for segment in commands.segments_of(machine, wanted):
        pieces = acts.pieces(segment.count)
        if pieces:
            found.add(segment.source, int(is_good), 1)
            found.add(segment.destination, pieces if is_good else 0, pieces)


def units_of(machine, request):
    """The units at which a command may change blocks or ask for them."""
    if reply_without_acts(machine, request) is not None:
        return set()
    units = {request.unit}
    if cdbs.decode(request.cdb).name == "extended copy":
        for segment in commands.segments_of(machine, lists.read_copy(request.out)):
            units |= {segment.source, segment.destination}
    return units


def is_plausible(machine, request, reply):
    """Whether a reply may be right as far as its form tells."""
    if reply.status == CHECK:
        key, *rest = frames.sense_of(reply.sense)
        return key in senses.KEYS and tuple(rest) in senses.NAMES and not reply.data
    if reply.status in (BUSY, FULL):
        return not reply.sense and not reply.data
    cdb = cdbs.decode(request.cdb)
    if cdb.name == "read":
        return len(reply.data) == cdb.count * machine.shapes[request.unit].block_length
    asks = cdb.name.startswith("receive") or cdb.name == "get lba status"
    return reply.status == GOOD and len(reply.data) <= (cdb.length if asks else 0)
