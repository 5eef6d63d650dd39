"""Requests as they should be, of each command, for the units of a player.

Each function takes a `Base` and gives a request; before it is built, what it needs is played.
"""

from copymgr_formats import cdbs, lists, rod_token
from copymgr_formats.frames import Begin, Machine, Request, Run, Shape
from copymgr_formats.reservations import KINDS, REGISTER_AND_IGNORE

INITIATOR = 7
ENTRIES, PAYLOAD = 1_048_576, 268_435_456
# few blocks of each length, a quota that stops writes, and more blocks than a READ may have
SHAPES = [
    Shape(60, 512, ENTRIES, 60, PAYLOAD, 0),
    Shape(3000, 512, ENTRIES, 900, PAYLOAD, 0),
    Shape(20, 4096, ENTRIES, 9, PAYLOAD, 0),
    Shape(30, 512, ENTRIES, 30, PAYLOAD, 5),
]
MACHINE = Machine(bytes(range(32)), SHAPES)


class Base:
    """What the requests are made from: random numbers, and a player with `command`, which plays a request whole."""

    def __init__(self, rng, player, command):
        self.rng, self.player, self.command = rng, player, command
        self.used = None

    def is_spent(self):
        """Whether the token of the request has ended, so that it is refused from now on."""
        return self.used is not None and self.used.fate is not None

    def request(self, unit, code, action=None, out=b"", **fields):
        return Request(unit, cdbs.encode(code, action, **fields), out)

    def with_list(self, unit, code, action, out, **fields):
        return self.request(unit, code, action, out, length=len(out), **fields)

    def unit(self):
        return self.rng.randrange(3)

    def list_id(self):
        return self.rng.randrange(4)

    def ranges(self, unit, most=5):
        """Ranges that share no block, and few blocks in each."""
        blocks = min(60, SHAPES[unit].blocks)
        count = self.rng.choice([1, 1, 2, 3, most])
        step = blocks // count
        return [(at * step, self.rng.randint(0 if count > 1 else 1, min(4, step))) for at in range(count)]

    def token(self, unit, ranges):
        """The text of a token that is made now."""
        out = lists.populate_bytes(0, ranges)
        self.command(self.with_list(unit, 0x83, 0x10, out, id=9))
        serial = len(self.player.units[unit].tokens) - 1
        self.used = self.player.units[unit].tokens[serial]
        return rod_token.text(MACHINE, unit, serial, lists.total(ranges))

    # ---- commands

    def blocks_command(self, code):
        unit = self.unit()
        count = self.rng.choice([0, 1, 2, 3])
        out = self.rng.randbytes(count * SHAPES[unit].block_length) if code in (0x2A, 0x8A) else b""
        return self.request(unit, code, None, out, lba=self.rng.randint(0, SHAPES[unit].blocks - count), count=count)

    def many(self):
        """As many ranges as there may be, of unit 1."""
        return [(at * 40, self.rng.randint(0, 3)) for at in self.rng.sample(range(75), lists.RANGES_LIMIT)]

    def unmap(self):
        unit = self.unit()
        return self.with_list(unit, 0x42, None, lists.unmap_bytes(self.ranges(unit)))

    def unmap_many(self):
        return self.with_list(1, 0x42, None, lists.unmap_bytes(self.many()))

    def populate_many(self):
        return self.with_list(1, 0x83, 0x10, lists.populate_bytes(0, self.many()), id=self.list_id())

    def use_many(self):
        out = lists.write_bytes(rod_token.ZERO, self.many(), 0, self.rng.randrange(2))
        return self.with_list(1, 0x83, 0x11, out, id=self.list_id())

    def copy_many(self):
        """As many descriptors of both kinds as there may be."""
        cscds = [lists.cscd_bytes(rod_token.unit_name(unit % 2), 512) for unit in range(16)]
        segments = [lists.segment_bytes(*self.rng.sample(range(16), 2), 1, at % 50, 7) for at in range(64)]
        out = lists.copy_bytes(self.list_id(), cscds, segments, self.rng.choice([0, 2, 3]))
        return self.with_list(0, 0x83, 0x00, out)

    def populate(self):
        unit = self.unit()
        out = lists.populate_bytes(self.rng.choice([0, 60]), self.ranges(unit), self.rng.choice([0, 2, 3]))
        return self.with_list(unit, 0x83, 0x10, out, id=self.list_id())

    def use(self):
        source = self.rng.choice([0, 1])
        ranges = self.ranges(source)
        token, blocks = self.token(source, ranges), lists.total(ranges)
        target = self.rng.choice([0, 1])
        first = self.rng.randint(0, blocks)
        places = [(5, first), (20, blocks - first)] if self.rng.random() < 0.7 else [(9, blocks)]
        out = lists.write_bytes(token, places, 0, self.rng.randrange(2), int(self.rng.random() < 0.2))
        return self.with_list(target, 0x83, 0x11, out, id=self.list_id())

    def use_zero(self):
        unit = self.unit()
        out = lists.write_bytes(rod_token.ZERO, self.ranges(unit), 0, self.rng.randrange(2))
        return self.with_list(unit, 0x83, 0x11, out, id=self.list_id())

    def copy(self):
        units = self.rng.sample(range(2), 2) if self.rng.random() < 0.8 else [2, 2]
        cscds = [lists.cscd_bytes(rod_token.unit_name(unit), SHAPES[unit].block_length) for unit in units]
        segments = []
        for _ in range(self.rng.choice([1, 1, 2, 3])):
            most = (1, 1, 4, 9, 9)
            segments.append(lists.segment_bytes(*(self.rng.randint(0, number) for number in most)))
        out = lists.copy_bytes(self.list_id(), cscds, segments, self.rng.choice([0, 2, 3]))
        return self.with_list(self.unit(), 0x83, 0x00, out)

    def reserve(self, action):
        """A service action of an initiator that is registered and may hold the unit."""
        unit = self.unit()
        register = lists.reserve_bytes(0, 7)
        self.command(self.with_list(unit, cdbs.RESERVE_OUT, REGISTER_AND_IGNORE, register))
        out = lists.reserve_bytes(7, self.rng.choice([7, 8]))
        return self.with_list(unit, cdbs.RESERVE_OUT, action, out, kind=self.rng.choice(KINDS))

    def plain(self, code, action=None):
        """A command whose sole field may be a length, a page, an LBA or a list identifier."""
        names = cdbs.FORMS[code, action].fields
        fields = {name: 0 for name in names}
        if "length" in names:
            fields["length"] = 200
        if "id" in names:
            fields["id"] = self.list_id()
        if "page" in names:
            evpd = self.rng.randrange(2)
            fields |= {"page": self.rng.choice([0, 0x83, 0x8F, 0xB0, 0xB2]) * evpd, "first": evpd}
        return self.request(self.unit(), code, action, **fields)


def runs(player, initiator):
    """The Runs that a command needs."""
    while initiator in player.pending:
        yield Run(initiator, 0)


def begun(request):
    return Begin(INITIATOR, 0, request)


LISTS = {
    "unmap": Base.unmap, "populate": Base.populate, "use": Base.use, "use zero": Base.use_zero, "copy": Base.copy,
    "unmap of 64": Base.unmap_many, "populate of 64": Base.populate_many, "use zero of 64": Base.use_many,
    "copy of 64": Base.copy_many,
}
BLOCKS = {f"{name} of {code:02x}h": lambda base, code=code: base.blocks_command(code)
          for code, name in ((0x28, "read"), (0x2A, "write"), (0x88, "read"), (0x8A, "write"))}
RESERVATIONS = {form.name: lambda base, action=action: base.reserve(action)
                for (code, action), form in cdbs.FORMS.items() if code == cdbs.RESERVE_OUT}
PLAIN = {form.name: lambda base, key=key: base.plain(*key) for key, form in cdbs.FORMS.items()
         if form.name not in ("read", "write", "unmap", "populate token", "write using token", "extended copy")
         and form.name not in RESERVATIONS}
BASES = {**LISTS, **BLOCKS, **RESERVATIONS, **PLAIN}
