"""Random traces, in styles that make the interesting cases frequent."""

import collections
import struct

from copymgr_formats import cdbs, frames
from copymgr_formats.frames import Begin, ENTRIES_LIMIT, Machine, PAYLOAD_LIMIT, Pump, Request, Run, Shape
from copymgr_formats.senses import BadInput

from .acts import Redeem
from .player import Player
from .requests import Requests
from .told import BACKGROUND

INITIATORS = [1, 2, 3, 0xFFFFFFFF]
# of the commands before and after the random ones
LOOKER = 4

# weights: of the requests of requests.py; ids: list identifiers; long: how often a move has some pieces;
# write: most blocks of a READ or WRITE; zero: how often the zero token; immed: how often a write in the background;
# pump: how often a Pump; items: fewest and most; spoil: how often a request is not as it should be;
# units: how many there may be; first: requests before all others
Style = collections.namedtuple(
    "Style",
    "weights ids long write zero immed pump items spoil timeouts shape units first",
    defaults=[[1, 5, 0, 10, 3600], None, [1, 2, 2, 3], ()],
)

LONGER = [0, 0, 300, 3600]
ALL = dict(read=6, write=6, unmap=2, status=2, fixed=2, populate=5, use=7, abort=2, report=4, recall=1, copy=3)


def small(rng):
    """A few blocks."""
    blocks = rng.randint(1, 40)
    block_length, group = rng.choice([512, 512, 512, 4096]), rng.choice([0, 0, 0, 7])
    quota = rng.choice([blocks, rng.randint(0, blocks), min(blocks, rng.randint(0, 4))])
    return Shape(blocks, block_length, ENTRIES_LIMIT, quota, PAYLOAD_LIMIT, group)


def wide(rng):
    """Some pieces, or as many blocks as a unit may have."""
    blocks = rng.choice([rng.randint(1500, 6000), 2**32])
    quota = min(blocks, rng.choice([rng.randint(0, 60), rng.randint(60, 600), rng.randint(100, 1500), blocks]))
    return Shape(blocks, 512, ENTRIES_LIMIT, quota, PAYLOAD_LIMIT, rng.choice([0, 0, 0, 0, 7]))


def roomy(rng):
    """Few blocks and no quota."""
    return small(rng)._replace(blocks=60, block_length=512, quota=60, group=0)


def dotted(rng):
    """More runs of blocks than are told."""
    return small(rng)._replace(blocks=300, quota=rng.choice([100, 300]), block_length=512, group=0)


def tight(rng):
    """A record that is soon full in entries."""
    return wide(rng)._replace(entries=rng.randint(6, 30))


def light(rng):
    """A record that is soon full in bytes."""
    return small(rng)._replace(payload=rng.choice([1, 512, 4096, 10_000, 30_000]))


MIXED = Style(ALL, 4, 0.1, 5, 0.15, 0.5, 0.08, (0, 250), 0.08, shape=small)
STYLES = {
    "mixed": MIXED,
    "pieces": MIXED._replace(
        weights=dict(ALL, use=25, populate=10, unmap=1), long=0.6, write=300, zero=0.08, pump=0.15, items=(100, 500),
        spoil=0.02, timeouts=LONGER, shape=wide,
    ),
    "copies": MIXED._replace(
        weights=dict(ALL, copy=16, recall=6), long=0.4, write=300, items=(50, 300), spoil=0.05, timeouts=LONGER,
        shape=wide,
    ),
    "long": MIXED._replace(
        weights=dict(ALL, read=20, write=20), long=0.3, write=2048, items=(10, 60), spoil=0.02, shape=wide
    ),
    "lists": MIXED._replace(
        weights=dict(unmap=3, populate=4, use=4, copy=6, fixed=1, write=1), items=(50, 250), spoil=0.6
    ),
    "full": MIXED._replace(
        weights=dict(ALL, use=12), long=0.6, write=20, zero=0.4, immed=0.6, pump=0.03, items=(20, 100), spoil=0.01,
        timeouts=LONGER, shape=tight,
    ),
    "reserved": MIXED._replace(
        weights=dict(ALL, reserve=14), long=0.3, write=20, pump=0.1, items=(100, 400), spoil=0.03, shape=wide
    ),
    "bytes": MIXED._replace(weights=dict(ALL, write=20), write=8, items=(20, 200), shape=light),
    "runs": MIXED._replace(
        weights=dict(ALL, write=60, status=8, unmap=1), write=2, items=(200, 900), spoil=0.01, shape=dotted
    ),
    "crowded": MIXED._replace(
        weights=dict(use=40, copy=4, abort=2, report=4, populate=2), ids=70, zero=0.9, immed=0.97, pump=0.005,
        items=(600, 1200), spoil=0.01, shape=roomy,
    ),
    "tokens": MIXED._replace(
        weights=dict(populate=20, use=12, write=4, read=1, report=2), ids=1000, zero=0.02, immed=0.2, items=(600, 1200),
        spoil=0.01, timeouts=[3600], shape=roomy, units=[1, 1, 2],
    ),
    "records": MIXED._replace(
        weights=dict(populate=20, use=4, copy=5, report=4, recall=1), ids=300, zero=0.8, immed=0.9, pump=0.001,
        items=(1400, 2200), spoil=0.005, shape=roomy, units=[1, 1, 2], first=["use"] * 8,
    ),
}


class Clock:
    """Moments that rise by little, sometimes by much or to the end of a token's time, and sometimes fall."""

    def __init__(self, rng, player, calm):
        self.rng = rng
        self.player = player
        self.calm = calm
        self.now = rng.choice([0, 1000])

    def end_of_a_token(self):
        live = [token for unit in self.player.units for token in unit.live()]
        return self.end_of(self.rng.choice(live)) if live else self.now

    def end_of(self, token):
        """The last moment at which it may be used, or one more."""
        return max(self.now, min(10**9, token.last_use + token.timeout + self.rng.choice([0, 1])))

    def moment_of(self, unit, act):
        """Of an act that is run; now and then the end of the token that is redeemed."""
        tokens = self.player.units[unit].tokens
        if isinstance(act, Redeem) and act.serial < len(tokens) and self.rng.random() < (0.01 if self.calm else 0.08):
            self.now = self.end_of(tokens[act.serial])
            return self.now
        return self.moment()

    def moment(self):
        chance = self.rng.random()
        if chance < 0.0005:
            return 2**64 - 1
        if chance < 0.05:
            return self.rng.randint(0, self.now)
        if chance > (0.999 if self.calm else 0.985):
            self.now = self.end_of_a_token()
        self.now += self.rng.choice([0, 0, 0, 0, 1] if self.calm else [0, 0, 1, 2, 5])
        return self.now


class Trace:
    """The bytes of a trace, the replies to it, and the wanted exit status with its place."""

    def __init__(self, rng, style_name=None):
        self.rng = rng
        self.style_name = style_name or rng.choice(list(STYLES) + ["full", "full"])
        style = STYLES[self.style_name]
        shapes = [style.shape(rng) for _ in range(rng.choice(style.units))]
        machine = Machine(rng.randbytes(32), shapes)
        self.bytes = bytearray(frames.header_bytes(machine))
        self.status, self.place = frames.DONE, None
        self.player = Player(machine)
        if rng.random() < 0.02:
            self.spoil_header()
            return
        self.requests = Requests(self.rng, self.player, style)
        self.clock = Clock(self.rng, self.player, style.shape is roomy)
        self.pump = style.pump
        if style.shape is wide:
            self.fill()
        for name in style.first:
            initiator = self.rng.choice(INITIATORS)
            self.command(initiator, getattr(self.requests, name)(initiator))
        for _ in range(self.rng.randint(*style.items)):
            self.add(self.item())
        self.look()
        self.end()

    # ---- items

    def add(self, item):
        self.player.play(item)
        self.bytes += frames.item_bytes(item)

    def command(self, initiator, request):
        """A whole command, with as many Runs as it wants."""
        self.add(Begin(initiator, self.clock.moment(), request))
        while initiator in self.player.pending:
            self.add(Run(initiator, self.clock.moment()))

    def fill(self):
        """One WRITE to each unit."""
        for number, shape in enumerate(self.player.machine.shapes):
            count = min(shape.quota, self.rng.randint(1, 400))
            cdb = cdbs.encode(0x8A, lba=self.rng.choice([0, 0, 1]), count=count)
            self.command(LOOKER, Request(number, cdb, self.rng.randbytes(count * shape.block_length)))

    def look(self):
        """What stands at the end: reservations, blocks, and operations that were asked for."""
        for unit in self.player.units:
            for action in (cdbs.READ_KEYS, cdbs.READ_RESERVATION):
                cdb = cdbs.encode(cdbs.RESERVE_IN, action, length=1024)
                self.command(LOOKER, Request(unit.number, cdb, b""))
            self.command(LOOKER, Request(unit.number, cdbs.encode(0x9E, 0x12, lba=0, length=2000), b""))
            for lba in self.rng.sample(sorted(unit.held), min(8, len(unit.held))):
                count = min(unit.shape.blocks - lba, 60)
                self.command(LOOKER, Request(unit.number, cdbs.encode(0x88, lba=lba, count=count), b""))
        asked = self.requests.asked
        for initiator, *key in self.rng.sample(asked, min(300, len(asked))):
            if initiator not in self.player.pending:
                self.command(initiator, self.requests.status_of(*key, 1024))

    def item(self):
        """An item that may stand here."""
        if self.rng.random() < self.pump:
            return Pump(self.unit_to_pump(), self.clock.moment())
        initiator = self.rng.choice(INITIATORS)
        if initiator in self.player.pending:
            return Run(initiator, self.clock.moment_of(*self.player.pending[initiator].asked))
        return Begin(initiator, self.clock.moment(), self.requests.request(initiator))

    def unit_to_pump(self):
        """Mostly one with work in the background."""
        units = self.player.units
        busy = [unit for unit in units if any(o.background and o.state == BACKGROUND for o in unit.operations)]
        return self.rng.choice(busy if busy and self.rng.random() < 0.8 else units).number

    # ---- ends

    def end(self):
        """Sometimes an item that may not stand here, or the beginning of one."""
        chance = self.rng.random()
        if chance < 0.1:
            self.status, self.place = frames.BAD_RECORD, len(self.bytes)
            self.bytes += self.unfit_item()
        elif chance < 0.25:
            self.status, self.place = frames.TORN, len(self.bytes)
            whole = frames.item_bytes(self.item())
            self.bytes += whole[: self.rng.randint(1, len(whole) - 1)]

    def unfit_item(self):
        unfit = [
            b"\x04",
            b"\x00",
            struct.pack(">BIQI", 1, 9, 0, frames.DATA_LIMIT + 1),
            frames.item_bytes(Run(9, 0)),
            frames.item_bytes(Pump(len(self.player.units), 0)),
        ]
        if self.player.pending:
            initiator = self.rng.choice(sorted(self.player.pending))
            unfit.append(frames.item_bytes(Begin(initiator, 0, self.requests.request(initiator))))
        return self.rng.choice(unfit)

    def spoil_header(self):
        """A header that is cut, or has one field changed."""
        if self.rng.random() < 0.3:
            del self.bytes[self.rng.randrange(len(self.bytes)) :]
        else:
            at = self.rng.choice([*range(8), *range(40, len(self.bytes))])
            self.bytes[at] = self.rng.choice([0, 0xFF])
        try:
            frames.read_header(self.bytes)
        except BadInput as bad:
            self.status, self.place = bad.status, bad.place
