"""Traces that have many changed requests, and end with changed items."""

import itertools
import random

from copymgr_formats import cdbs, frames
from copymgr_formats.frames import Begin, Pump, Request
from copymgr_formats.senses import BadInput, Refused
from replay.acts import pieces
from replay.player import Player, items_from
from replay.told import BACKGROUND

from . import changes
from .bases import BASES, Base, INITIATOR, MACHINE, SHAPES, begun, runs

# of the commands before and behind the changed ones
LOOKER = 4
# how many inputs a trace has; and at most behind one that ended the token which the others would use
INPUTS, SPENT_INPUTS = 300, 10
# of a base with more changes, as one with long lists, so many are tried
MOST_OF_BASE = 9_000
assert pieces(SHAPES[0].blocks) == 1


class Trace:
    """A trace with changed requests: its bytes, its player, and for each input which reply is the first behind it."""

    def __init__(self, rng):
        self.rng = rng
        self.player = Player(MACHINE)
        self.parts = [frames.header_bytes(MACHINE)]
        self.inputs, self.end = [], None
        self.status, self.place = frames.DONE, None
        for unit, shape in enumerate(SHAPES):
            count = min(8, shape.quota)
            self.ask(self.written(unit, 0, count, shape.block_length))
        self.base = Base(rng, self.player, self.ask)

    def written(self, unit, lba, count, block_length):
        return Request(unit, cdbs.encode(0x8A, lba=lba, count=count), self.rng.randbytes(count * block_length))

    # ---- items

    def add(self, item):
        self.parts.append(frames.item_bytes(item))
        self.player.play(item)

    def ask(self, request):
        """A whole command. What it leaves in the background goes on by one piece."""
        self.add(begun(request))
        for run in runs(self.player, INITIATOR):
            self.add(run)
        for unit in self.player.units:
            if any(operation.background and operation.state == BACKGROUND for operation in unit.operations):
                self.add(Pump(unit.number, 0))

    def try_request(self, what, request):
        self.inputs.append((what, len(self.player.replies)))
        self.ask(request)

    def look(self):
        """What stands in the units in the end, and the operations."""
        for unit, shape in enumerate(SHAPES):
            self.ask(Request(unit, cdbs.encode(0x88, lba=0, count=min(shape.blocks, 2048)), b""))
            self.ask(Request(unit, cdbs.encode(0x9E, 0x12, lba=0, length=2000), b""))
            for list_id in range(4):
                self.ask(Request(unit, cdbs.encode(0x84, 0x07, id=list_id, length=1000), b""))
                self.ask(Request(unit, cdbs.encode(0x84, 0x00, id=list_id, length=1000), b""))

    def try_end(self, what, data):
        """Bytes behind the last item, which may be items or not."""
        self.inputs.append((what, len(self.player.replies)))
        at = sum(map(len, self.parts))
        self.parts.append(data)
        try:
            place = 0
            for place in items_from(self.player, data, 0):
                pass
        except BadInput as bad:
            self.status, self.place = bad.status, at + bad.place

    @property
    def bytes(self):
        return b"".join(self.parts)

    def input_of(self, reply):
        """Which input brought a reply."""
        return next((what for what, first in reversed(self.inputs) if first <= reply), "what stands before all inputs")


class Endings:
    """Changed items behind a trace, one after the other."""

    def __init__(self, seed):
        self.seed, self.found, self.round = seed, iter(()), 0

    def following(self, base):
        """Some items of commands, of which one is changed."""
        for what, data in self.found:
            return what, data
        rng = random.Random(f"endings {self.seed} {self.round}")
        self.round += 1
        one = Base(rng, base.player, base.command)
        items = []
        names = rng.sample(["unmap", "populate", "use zero", "read of 88h", "write of 8ah"], 2)
        for initiator, name in zip((1, 2), names):
            items += [Begin(initiator, 0, BASES[name](one)), frames.Run(initiator, 0)]
        items.insert(rng.randrange(len(items) + 1), Pump(0, 0))
        self.found = changes.of_items([(item, frames.item_bytes(item)) for item in items])
        return next(self.found)


def traces(seed):
    """Traces without end. First each change of each base, and then bases made anew, and some requests changed twice."""
    endings = Endings(seed)
    for number in itertools.count():
        for name in BASES:
            yield from of_base(f"{seed} {number} {name}", name, number > 0, endings)


def of_base(seed, name, is_twice, endings):
    """Traces that have all changes of a base, each with some of them; all begin alike, and so have the same base. Where
    some requests are changed twice, or the changes are too many, they come in a random order."""
    found, begin = None, 0
    while found is None or begin < len(found):
        trace = Trace(random.Random(seed))
        request = BASES[name](trace.base)
        if found is None:
            found = list(changes.of_request(request))
            if is_twice or len(found) > MOST_OF_BASE:
                found = trace.rng.sample(found, min(len(found), MOST_OF_BASE))
        rng = random.Random(f"{seed} {begin}")
        left = INPUTS
        while left and begin < len(found):
            what, changed = found[begin]
            if is_twice and rng.random() < 0.5:
                more, changed = changes.again(rng, changed)
                what = f"{what}, {more}"
            trace.try_request(f"{name}: {what}", changed)
            begin += 1
            left = min(left - 1, SPENT_INPUTS) if trace.base.is_spent() else left - 1
        trace.look()
        trace.try_end(*endings.following(trace.base))
        yield trace
