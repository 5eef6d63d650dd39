"""A client: on its own blocks of two units it knows what each reply has to be; at two others it asks for anything."""

import collections
import random
import socket
import struct
import time

from copymgr import Connection, Ended, Shape
from copymgr_formats import cdbs, frames, lists, rod_token, senses
from replay.player import Player
from replay.requests import Requests
from replay.traces import ALL, MIXED

from . import bounds

SECONDS = 120
# blocks of each client in each of the units that are known; the most of one command
REGION, MOST = 256, 16
WILD, KNOWN = (0, 1), (2, 3)
LENGTH = 512
# what a client may meet though it did nothing wrong: others make tokens and operations too
OF_OTHERS = {senses.TOKEN_EVICTED, senses.TOO_MANY}
LONG = [65_535, 65_536, 1_000_003, frames.DATA_LIMIT]
STYLE = MIXED._replace(weights=dict(ALL, fixed=4), spoil=0.4)


def shapes_of(clients):
    """Two units of few blocks, whose quotas stop writes, and two with blocks for each client."""
    return [
        Shape(40, quota=25), Shape(33, 4096, quota=20, payload=64 << 20),
        Shape(REGION * clients), Shape(REGION * clients),
    ]


class Differs(Exception):
    """A reply is not the one that is right."""


class Region:
    """What the blocks of a client in one unit hold: eight bytes that each repeats, or None where it is unmapped."""

    def __init__(self, unit, first):
        self.unit, self.first = unit, first
        self.held = [None] * REGION

    def data(self, at, count):
        return b"".join((held or bytes(8)) * (LENGTH // 8) for held in self.held[at : at + count])

    def mapped(self):
        return REGION - self.held.count(None)

    def changed(self, pieces):
        """What it would hold with other blocks at some places."""
        held = list(self.held)
        for at, blocks in pieces:
            held[at : at + len(blocks)] = blocks
        return held


class Client:
    """One connection. `row` counts (tallies.py)."""

    def __init__(self, address, number, machine, row, seed, pause):
        self.rng = random.Random(f"{seed} {number}")
        self.machine, self.row, self.pause = machine, row, pause
        self.host = Connection(address, SECONDS)
        self.regions = [Region(unit, number * REGION) for unit in KNOWN]
        self.written = 0
        self.number = number
        self.wild = Requests(self.rng, Player(frames.Machine(machine.secret, machine.shapes[: len(WILD)])), STYLE)

    # ---- one command

    def ask(self, request):
        """The reply to a command, with its sense; Differs where it can't be right."""
        time.sleep(self.rng.random() * 2 * self.pause)
        self.row.begin(self.machine, request)
        reply = self.host.ask(*request)
        sense = frames.sense_of(reply.sense) if reply.sense else None
        self.row.end(self.machine, request, reply, sense)
        at_once = bounds.reply_without_acts(self.machine, request)
        got = struct.pack(">BBI", reply.status, len(reply.sense), len(reply.data)) + reply.sense + reply.data
        if at_once is not None and got != at_once:
            raise Differs(f"{request} is replied {got[:40].hex()} and not {at_once[:40].hex()}")
        if at_once is None and not bounds.is_plausible(self.machine, request, reply):
            raise Differs(f"{request} is replied {got[:40].hex()}")
        return reply, sense

    def known(self, unit, code, action=None, out=b"", **fields):
        """The data of a command on blocks of its own; None where others, or a full record, stand in its way."""
        request = frames.Request(unit, cdbs.encode(code, action, **fields), out)
        reply, sense = self.ask(request)
        if reply.status == bounds.GOOD:
            return reply.data
        if reply.status == bounds.FULL or sense in OF_OTHERS:
            return None
        raise Differs(f"{request} is replied {reply.status:02x}h {sense}")

    def known_list(self, unit, code, action, out, **fields):
        return self.known(unit, code, action, out, length=len(out), **fields)

    def changes(self, region, pieces, command):
        """Does a command that changes blocks of a region, if it is not refused."""
        held = region.changed(pieces)
        few, many = sorted([region.mapped(), REGION - held.count(None)])
        self.row.maps(region.unit, few, many)
        if command() is not None:
            region.held = held
        self.row.maps(region.unit, region.mapped(), region.mapped())

    # ---- commands on its own blocks

    def some(self, most=MOST):
        """A place and a number of blocks."""
        count = self.rng.randint(1, most)
        return self.rng.randint(0, REGION - count), count

    def write(self):
        region, (at, count) = self.rng.choice(self.regions), self.some()
        blocks = []
        for _ in range(count):
            self.written += 1
            blocks.append(struct.pack(">II", self.number + 1, self.written))
        out = b"".join(block * (LENGTH // 8) for block in blocks)
        lba = region.first + at
        self.changes(region, [(at, blocks)], lambda: self.known(region.unit, 0x8A, out=out, lba=lba, count=count))

    def read(self):
        region, (at, count) = self.rng.choice(self.regions), self.some(REGION)
        data = self.known(region.unit, 0x88, lba=region.first + at, count=count)
        if data is not None and data != region.data(at, count):
            raise Differs(f"{count} blocks of unit {region.unit} at {region.first + at} are not as they were written")

    def unmap(self):
        region = self.rng.choice(self.regions)
        places = [self.some() for _ in range(self.rng.randint(1, 5))]
        out = lists.unmap_bytes([(region.first + at, count) for at, count in places])
        pieces = [(at, [None] * count) for at, count in places]
        self.changes(region, pieces, lambda: self.known_list(region.unit, 0x42, None, out))

    def status(self):
        """The first run, as far as it lies in the region."""
        region, (at, _) = self.rng.choice(self.regions), self.some()
        data = self.known(region.unit, 0x9E, 0x12, lba=region.first + at, length=24)
        if data is None:
            return
        lba, count, kind = struct.unpack(">QIB", data[8:21])
        is_mapped = [held is not None for held in region.held[at:]]
        end = is_mapped.index(not is_mapped[0]) if (not is_mapped[0]) in is_mapped else len(is_mapped)
        is_right = lba == region.first + at and kind == (0 if is_mapped[0] else 1) and min(count, len(is_mapped)) == end
        if not is_right:
            raise Differs(f"unit {region.unit} at {region.first + at} tells a run of {count}, {kind}, and not of {end}")

    def clone(self):
        """By a token, in the foreground or in the background."""
        source, target = self.rng.choice(self.regions), self.rng.choice(self.regions)
        (at, count), list_id = self.some(REGION), self.rng.randrange(5)
        out = lists.populate_bytes(0, [(source.first + at, count)])
        if self.known_list(source.unit, 0x83, 0x10, out, id=list_id) is None:
            return
        told = self.known(source.unit, 0x84, 0x07, id=list_id, length=1024)
        if told is None:
            return
        to, immed, delete = self.rng.randint(0, REGION - count), self.rng.randrange(2), self.rng.randrange(2)
        out = lists.write_bytes(told[-rod_token.LENGTH :], [(target.first + to, count)], 0, immed, delete)

        def use():
            if self.known_list(target.unit, 0x83, 0x11, out, id=list_id) is None:
                return None
            return self.ended(target.unit, list_id) if immed else b""

        self.changes(target, [(to, source.held[at : at + count])], use)

    def ended(self, unit, list_id):
        """Waits for a write in the background."""
        state = 0x12
        while state == 0x12:
            told = self.known(unit, 0x84, 0x05, id=list_id, length=64)
            if told is None:
                raise Differs(f"the write {list_id} of unit {unit} can't be looked at any more")
            state = told[5]
        if state != 0x01:
            raise Differs(f"the write {list_id} of unit {unit} ended as {state:02x}h")
        return b""

    def copy(self):
        source, target = self.rng.choice(self.regions), self.rng.choice(self.regions)
        at, count = self.some(REGION)
        to = self.rng.randint(0, REGION - count)
        cscds = [lists.cscd_bytes(rod_token.unit_name(region.unit), LENGTH) for region in (source, target)]
        segment = lists.segment_bytes(0, 1, count, source.first + at, target.first + to)
        out = lists.copy_bytes(self.rng.randrange(5), cscds, [segment], self.rng.choice([0, 2, 3]))
        pieces = [(to, source.held[at : at + count])]
        self.changes(target, pieces, lambda: self.known_list(source.unit, 0x83, 0x00, out))

    # ---- commands of all kinds

    def anything(self):
        """A request that may be as it should be or not; not one that changes blocks which are known."""
        request = self.wild.request(1)
        if not bounds.units_of(self.machine, request) & set(KNOWN):
            self.ask(request)

    def noise(self):
        """Bytes that nobody meant."""
        out = self.rng.randbytes(self.rng.choice([0, 0, 16, 600]))
        request = frames.Request(self.rng.choice([*WILD, 4, 0xFFFF]), self.rng.randbytes(16), out)
        if not bounds.units_of(self.machine, request) & set(KNOWN):
            self.ask(request)

    def long(self):
        """Up to 8 MiB for a command that wants no data."""
        self.ask(frames.Request(0, self.rng.choice([bytes(16), b"\x88" + bytes(15)]), bytes(self.rng.choice(LONG))))

    WEIGHTS = collections.OrderedDict(
        write=8, read=8, unmap=2, status=3, clone=6, copy=3, anything=12, noise=4, long=0.1
    )

    def go_on(self, until):
        """Commands at random until some time, and in the end a look at all of its blocks."""
        names, weights = list(self.WEIGHTS), list(self.WEIGHTS.values())
        while time.monotonic() < until:
            getattr(self, self.rng.choices(names, weights)[0])()
        for region in self.regions:
            data = self.known(region.unit, 0x88, lba=region.first, count=REGION)
            if data is not None and data != region.data(0, REGION):
                raise Differs(f"blocks of unit {region.unit} from {region.first} on are not as they were written")

    # ---- ends

    def end(self, how):
        """Ends the connection, as some clients would: `how` is one of ENDS."""
        link = self.host.link
        if how == "half":
            link.sendall(frames.request_bytes(frames.Request(0, bytes(16), bytes(600)))[: self.rng.randint(1, 621)])
        elif how == "too long":
            link.sendall(struct.pack(">I", self.rng.randint(frames.DATA_LIMIT + 1, 2**32 - 1)))
        elif how == "reset":
            link.setsockopt(socket.SOL_SOCKET, socket.SO_LINGER, struct.pack("ii", 1, 0))
        elif how == "shut":
            link.shutdown(socket.SHUT_WR)
        self.host.close()


# how a connection ends, and the fewest and the most faults that the server then counts
ENDS = {"closed": (0, 0), "shut": (0, 0), "half": (1, 1), "too long": (1, 1), "reset": (0, 1), "killed": (0, 1)}


def run(address, number, machine, row, options, until, how):
    """A client from its begin to its end. It gives what was wrong, if something was."""
    try:
        client = Client(address, number, machine, row, options.seed, options.pause)
        row.connected()
        client.go_on(until)
        client.end(how)
    except (Differs, Ended, OSError) as error:
        return f"client {number}: {type(error).__name__}: {error}"
    return None
