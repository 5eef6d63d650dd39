"""Random requests, for what stands in the units: tokens and operations that are there are asked for often."""

import struct

from copymgr_formats import cdbs, lists, rod_token
from copymgr_formats.frames import Request
from copymgr_formats.reservations import ACTIONS, KINDS

from .acts import PIECE
from .told import BACKGROUND, PAGES

# where lengths and other small numbers stand in the lists
FIELDS = {
    (0x42, 0x00): [0, 2],
    (0x83, 0x00): [0, 2, 8, 10, 12, 14, 18, 46, 48],
    (0x83, 0x10): [0, 4, 6, 8, 14],
    (0x83, 0x11): [0, 8, 16, 22, 24, 534],
    **{(cdbs.RESERVE_OUT, action): [0, 6, 8, 14] for action in ACTIONS},
}
LENGTHS = [0, 1, 15, 16, 17, 27, 28, 31, 32, 33, 512, 544, 1008, 1024, 1040, 1792, 1820, 0xFFFF]
FIXED_CODES = [(0x00, None), (0x03, None), (0x12, None), (0x25, None), (0x84, 0x03), (0x9E, 0x10), (0xA0, None)]


def split(rng, amount, parts):
    """An amount as a sum of so many numbers."""
    cuts = sorted(rng.randint(0, amount) for _ in range(parts - 1))
    return [b - a for a, b in zip([0] + cuts, cuts + [amount])]


def is_running(operation):
    return operation.state == BACKGROUND


class Requests:
    """Requests to the units of a player, in a style (see traces.py)."""

    def __init__(self, rng, player, style):
        self.rng = rng
        self.player = player
        self.shapes = player.machine.shapes
        self.style = style
        self.asked = []

    def chance(self, probability):
        return self.rng.random() < probability

    def request(self, initiator):
        name = self.rng.choices(list(self.style.weights), self.style.weights.values())[0]
        request = getattr(self, name)(initiator)
        self.note(name, initiator, request)
        return self.spoiled(request) if self.chance(self.style.spoil) else request

    def note(self, name, initiator, request):
        """The keys of operations that were asked for, which may be dropped by now."""
        if name in ("populate", "use"):
            self.asked.append((initiator, "token", request.unit, lists.number(request.cdb, 6, 4)))
        elif name == "copy" and request.out:
            self.asked.append((initiator, "copy", request.unit, request.out[0]))

    # ---- parts

    def unit(self):
        return self.rng.randrange(len(self.shapes))

    def list_id(self):
        return self.rng.randrange(self.style.ids)

    def allocation(self):
        return self.rng.choice([0, 4, 11, 33, 100, 1024, 1024, 1024, 65_535])

    def amount(self, shape):
        """How many blocks to move: few, or some pieces where the unit is wide."""
        if shape.blocks > PIECE and self.chance(self.style.long):
            return min(shape.blocks, self.rng.choice([PIECE, PIECE + 1, 2 * PIECE, self.rng.randint(1, 3 * PIECE)]))
        return self.rng.randint(0, min(5, shape.blocks))

    def place(self, shape, count):
        """An LBA for so many blocks, which is rarely too great."""
        if self.chance(0.02):
            return self.rng.choice([shape.blocks, shape.blocks + 1, 2**64 - 1, 2**32, max(0, shape.blocks - count + 1)])
        room = max(0, shape.blocks - count)
        return self.rng.choice([self.rng.randint(0, room), self.rng.randint(0, min(room, 9)), 0, room])

    def ranges(self, shape, amount):
        """Ranges of so many blocks that share none, in any order; some reach past the end, and some overlap."""
        if amount > shape.blocks or self.chance(0.02):
            return [(self.place(shape, 0), part) for part in split(self.rng, amount, 2)]
        parts = split(self.rng, amount, self.rng.choice([1, 1, 2, 3, 6]))
        free = min(shape.blocks - amount, self.rng.choice([8, 8, shape.blocks]))
        ranges, at = [], 0
        for part, gap in zip(parts, split(self.rng, free, len(parts) + 1)):
            ranges.append((at + gap, part))
            at += gap + part
        self.rng.shuffle(ranges)
        if self.chance(0.03):
            ranges += [(self.rng.choice([0, shape.blocks, shape.blocks + 1]), 0)] * self.rng.choice([1, 2, 62, 70])
        return ranges

    def cdb(self, code, action=None, **fields):
        tail = self.rng.choice([b"", b"\xff" * 10])
        return cdbs.encode(code, action, tail, **fields)

    def with_list(self, unit, code, action, out, **fields):
        return Request(unit, self.cdb(code, action, length=len(out), **fields), out)

    # ---- blocks

    def few(self, shape):
        return self.rng.choice([0, 1, 1, 2, 3, min(shape.blocks, self.rng.randint(1, self.style.write))])

    def read_or_write(self, codes, out_of):
        unit = self.unit()
        shape = self.shapes[unit]
        count = self.few(shape)
        lba = self.place(shape, count)
        code = self.rng.choice(codes) if lba < 2**32 else codes[1]
        return Request(unit, self.cdb(code, lba=lba, count=count), out_of(count * shape.block_length))

    def read(self, _):
        return self.read_or_write((0x28, 0x88), lambda length: b"")

    def write(self, _):
        return self.read_or_write((0x2A, 0x8A), self.data)

    def data(self, length):
        """Of a WRITE; now and then the bytes of an unmapped block."""
        return bytes(length) if self.chance(0.03) else self.rng.randbytes(length)

    def unmap(self, _):
        unit = self.unit()
        shape = self.shapes[unit]
        ranges = self.ranges(shape, self.amount(shape))
        if self.chance(0.1):
            ranges = (ranges * self.rng.choice([0, 2, 60]))[:70]
        out = b"" if self.chance(0.05) else lists.unmap_bytes(ranges)
        return self.with_list(unit, 0x42, None, out)

    def status(self, _):
        unit = self.unit()
        lba = self.place(self.shapes[unit], 1)
        return Request(unit, self.cdb(0x9E, 0x12, lba=lba, length=self.allocation()), b"")

    def fixed(self, _):
        code, action = self.rng.choice(FIXED_CODES)
        fields = {}
        if "length" in cdbs.FORMS[code, action].fields:
            fields["length"] = min(self.allocation(), 255) if code == 0x03 else self.allocation()
        if code == 0x12:
            evpd = self.rng.randrange(2)
            page = self.rng.choice(PAGES + (0x80,)) if evpd else self.rng.choice([0, 0, 0x83])
            fields.update(first=evpd, page=page)
        return Request(self.unit(), self.cdb(code, action, **fields), b"")

    # ---- tokens

    def populate(self, initiator):
        unit = self.unit() if self.chance(0.5) else 0
        shape = self.shapes[unit]
        ranges = self.ranges(shape, self.amount(shape))
        if shape.blocks == 2**32 and self.chance(0.03):
            ranges = [(9, lists.BLOCKS_LIMIT + self.rng.choice([0, 1, 1, 1]))]
        timeout = 3601 if self.chance(0.01) else self.rng.choice(self.style.timeouts)
        flags = self.rng.choice([0, 1, 2, 2, 2, 3])
        kind = self.rng.choice([0x00800000, 0x00800000, 0x0080FFFF, 1]) if self.chance(0.1) else 0x00800000
        out = lists.populate_bytes(timeout, ranges, flags, kind)
        if self.chance(0.2):
            unit, found = self.operation(initiator, "token", is_running)
            return self.with_list(unit, 0x83, 0x10, out, id=found)
        return self.with_list(unit, 0x83, 0x10, out, id=self.list_id())

    def token(self):
        """A token's unit, text and number of blocks; nothing where there is none."""
        made = [unit for unit in self.player.units if unit.tokens]
        if not made:
            return None
        unit = self.rng.choice(made)
        serial = self.serial(unit.tokens)
        blocks = len(unit.tokens[serial].rod)
        return unit.number, rod_token.text(self.player.machine, unit.number, serial, blocks), blocks

    def serial(self, tokens):
        """Mostly of a live token; else of a late one, or of one that may just have been evicted."""
        live = [serial for serial, token in enumerate(tokens) if token.fate is None]
        if live and self.chance(0.6):
            return self.rng.choice(live)
        back = self.rng.choice([0, 0, 1, 2, self.rng.randrange(len(tokens)), self.rng.randint(58, 70)])
        return max(0, len(tokens) - 1 - back)

    def target_of(self, creator):
        """A unit, mostly one where tokens of the creator may be used."""
        of_creator = self.shapes[creator]
        alike = [
            number for number, shape in enumerate(self.shapes)
            if (shape.group, shape.block_length) == (of_creator.group, of_creator.block_length)
        ]
        return self.rng.choice(alike) if self.chance(0.85) else self.unit()

    def altered(self, text):
        """A text with one field changed."""
        field, at = self.rng.choice([(">B", self.rng.randrange(512)), (">H", 6), (">I", 0), (">H", 8), (">B", 15)])
        value = self.rng.choice([0, 1, 2, 9, self.rng.getrandbits(8)])
        changed = bytearray(text)
        struct.pack_into(field, changed, at, value)
        return bytes(changed)

    def use(self, _):
        found = None if self.chance(self.style.zero) else self.token()
        creator, text, blocks = found or (self.unit(), rod_token.ZERO, None)
        target = self.target_of(creator)
        if blocks is None:
            blocks = self.amount(self.shapes[target])
        offset = self.rng.choice([0, 0, self.rng.randint(0, blocks), blocks])
        amount = blocks - offset if self.chance(0.8) else self.rng.randint(0, blocks)
        if self.chance(0.04):
            offset = self.rng.choice([offset + 1, blocks + 1, 2**64 - 1])
        if self.chance(0.06):
            text = self.altered(text)
        immed, delete = int(self.chance(self.style.immed)), int(self.chance(0.15))
        out = lists.write_bytes(text, self.ranges(self.shapes[target], amount), offset, immed, delete)
        return self.with_list(target, 0x83, 0x11, out, id=self.list_id())

    # ---- operations

    def operation(self, initiator, form, test=lambda operation: True):
        """The unit and identifier of an operation that is kept, or was asked for; sometimes of any."""
        known = [
            (unit.number, operation.key[2])
            for unit in self.player.units
            for operation in unit.operations
            if operation.key[:2] == (initiator, form) and test(operation)
        ]
        asked = [key[2:] for key in self.asked if key[:2] == (initiator, form)]
        if known and self.chance(0.7):
            return self.rng.choice([known[0], known[-1], self.rng.choice(known)])
        if asked and self.chance(0.8):
            return self.rng.choice(asked)
        return self.unit(), self.list_id()

    def abort(self, initiator):
        unit, found = self.operation(initiator, "token", is_running)
        return Request(unit, self.cdb(0x83, 0x1C, id=found), b"")

    def report(self, initiator):
        unit, found = self.operation(initiator, "token")
        return self.status_of("token", unit, found, self.allocation())

    def recall(self, initiator):
        unit, found = self.operation(initiator, "copy")
        return self.status_of("copy", unit, found & 0xFF, self.allocation())

    def status_of(self, form, unit, found, length):
        action = 0 if form == "copy" else self.rng.choice([5, 7, 7])
        return Request(unit, self.cdb(0x84, action, id=found, length=length), b"")

    # ---- reservations

    def reserve(self, initiator):
        """A service action, mostly by the key under which the initiator is registered; or a look at what is reserved."""
        unit = self.unit()
        if self.chance(0.15):
            action = self.rng.choice([cdbs.READ_KEYS, cdbs.READ_RESERVATION])
            return Request(unit, self.cdb(cdbs.RESERVE_IN, action, length=self.allocation()), b"")
        keys = self.player.units[unit].reservations.keys
        key = keys.get(initiator, 0) if self.chance(0.9) else self.rng.randrange(4)
        action_key = self.rng.choice([0, 1, 2, 3, *keys.values()])
        kind = self.rng.choice(KINDS) if self.chance(0.95) else self.rng.randrange(16)
        scope = int(self.chance(0.03))
        out = lists.reserve_bytes(key, action_key)
        return self.with_list(unit, cdbs.RESERVE_OUT, self.rng.choice(ACTIONS), out, scope=scope, kind=kind)

    # ---- extended copies

    def cscd(self, unit):
        wrong = self.chance(0.01)
        name = rod_token.unit_name(unit) if not wrong else self.rng.choice([bytes(8), rod_token.unit_name(77)])
        length = self.shapes[unit].block_length if not self.chance(0.01) else 520
        return lists.cscd_bytes(name, length, int(self.chance(0.01)))

    def segment(self, units):
        """Often within one unit, where it may copy blocks onto themselves."""
        source = self.rng.randrange(len(units))
        destination = source if self.chance(0.4) else self.rng.randrange(len(units))
        first, second = self.shapes[units[source]], self.shapes[units[destination]]
        count = min(self.amount(first), second.blocks)
        if self.chance(0.03):
            return lists.segment_bytes(source, destination, 0, self.place(first, 0), self.place(second, 0))
        from_lba = self.place(first, count)
        near = from_lba + self.rng.choice([self.rng.randint(-3, 3), self.rng.randint(-count, count)])
        to_lba = near if source == destination and 0 <= near <= first.blocks - count else self.place(second, count)
        return lists.segment_bytes(source, destination, count, from_lba, to_lba)

    def copy(self, _):
        unit = self.unit()
        if self.chance(0.03):
            return self.with_list(unit, 0x83, 0, b"")
        units = [self.unit() for _ in range(self.rng.choice([1, 1, 2, 2, 3]))]
        cscds = [self.cscd(unit) for unit in units] * (17 if self.chance(0.01) else 1)
        segments = [self.segment(units) for _ in range(self.rng.choice([0, 1, 1, 2, 3]))]
        segments *= 65 if self.chance(0.01) else 1
        if self.chance(0.01):
            segments = [lists.segment_bytes(0, 0, 65_535, 0, 65_535)] * 17
        usage = self.rng.choice([0, 0, 2, 3, 3, 1 if self.chance(0.1) else 0])
        out = lists.copy_bytes(self.list_id() & 0xFF, cscds, segments, usage, int(self.chance(0.01)))
        return self.with_list(unit, 0x83, 0, out)

    # ---- requests that are not as they should be

    def spoiled(self, request):
        unit, cdb, out = request
        ways = [self.other_unit, self.longer, self.flipped_cdb, self.other_control, self.unknown]
        if out and cdb[0] in (0x42, cdbs.RESERVE_OUT, 0x83):
            ways = [self.cut, self.flipped_list, self.flipped_front, self.other_fields, self.other_fields] * 3 + ways
        return self.rng.choice(ways)(unit, cdb, out)

    def other_unit(self, _, cdb, out):
        return Request(self.rng.choice([len(self.shapes), 0xFFFF]), cdb, out)

    def longer(self, unit, cdb, out):
        return Request(unit, cdb, self.rng.choice([out + b"\0", out[:-1]]))

    def flipped(self, data, limit):
        at = self.rng.randrange(min(limit, len(data)))
        return data[:at] + bytes([data[at] ^ 1 << self.rng.randrange(8)]) + data[at + 1 :]

    def flipped_cdb(self, unit, cdb, out):
        return Request(unit, self.flipped(cdb, 16), out)

    def flipped_list(self, unit, cdb, out):
        return Request(unit, cdb, self.flipped(out, len(out)))

    def flipped_front(self, unit, cdb, out):
        return Request(unit, cdb, self.flipped(out, 20))

    def other_fields(self, unit, cdb, out):
        """One or two of the fields that tell lengths have another value."""
        changed = bytearray(out)
        for _ in range(self.rng.choice([1, 2, 3])):
            at = self.rng.choice(FIELDS[cdb[0], cdb[1] & 0x1F])
            value = self.rng.choice([*LENGTHS, lists.number(out, at, 2) + self.rng.choice([-2, -1, 1, 2, 16, 28, 32])])
            changed[at : at + 2] = struct.pack(">H", max(0, min(0xFFFF, value)))[: max(0, len(out) - at)]
        return Request(unit, cdb, bytes(changed[: len(out)]))

    def cut(self, unit, cdb, out):
        """A list that ends early, or goes on, as its CDB says."""
        out = out[: self.rng.randint(0, len(out))] if self.chance(0.8) else out + bytes(self.rng.randint(1, 40))
        at, size = {0x42: (7, 2), cdbs.RESERVE_OUT: (5, 4)}.get(cdb[0], (10, 4))
        return Request(unit, cdb[:at] + len(out).to_bytes(size, "big") + cdb[at + size :], out)

    def other_control(self, unit, cdb, out):
        """NACA, or a protect field."""
        code = cdb[0], cdb[1] & 0x1F if cdb[0] in cdbs.WITH_ACTION else None
        at, bit = self.rng.choice([(cdbs.FORMS[code].size - 1, 4), (1, 0x20), (1, 1)])
        return Request(unit, cdb[:at] + bytes([cdb[at] | bit]) + cdb[at + 1 :], out)

    def unknown(self, unit, cdb, out):
        return Request(unit, self.rng.choice([b"\xff", b"\x5c", bytes([self.rng.getrandbits(8)])]) + cdb[1:], out)
