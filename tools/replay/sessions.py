"""Random sessions: the commands of one connection, in the styles of traces.py, and the trace that has them alone."""

import itertools
import struct

from copymgr_formats import frames
from copymgr_formats.frames import Begin, DATA_LIMIT, Machine, Request, Run

from .player import Player
from .requests import Requests
from .traces import INITIATORS, STYLES

LAST_MOMENT = 2**64 - 1
# data that no command of so few blocks has
LONG = [65_535, 65_536, 1_000_003, DATA_LIMIT]


class Session:
    """The bytes of a connection, the replies to them and the wanted exit status; and the trace of the same commands.

    The acts come at moments that rise by as many seconds each time.
    """

    def __init__(self, rng, style_name=None):
        self.rng = rng
        self.style_name = style_name or rng.choice(list(STYLES))
        style = STYLES[self.style_name]
        self.machine = Machine(rng.randbytes(32), [style.shape(rng) for _ in range(rng.choice(style.units))])
        self.nexus = rng.choice(INITIATORS)
        self.moment = rng.choice([0, 1000, 10**9, LAST_MOMENT - 100])
        self.seconds = rng.choice([0, 0, 1, 5, 60, 1000])
        self.moments = (min(LAST_MOMENT, self.moment + self.seconds * act) for act in itertools.count())
        self.player = Player(self.machine)
        self.requests = []
        self.trace = bytearray(frames.header_bytes(self.machine))
        wanted = Requests(rng, self.player, style)
        for name in style.first:
            self.ask(getattr(wanted, name)(self.nexus))
        # a Begin and its Runs are some items of a trace
        for _ in range(rng.randint(*style.items) // 3):
            self.ask(self.long_request() if rng.random() < 0.005 else wanted.request(self.nexus))
        self.look(wanted)
        self.status, self.rest = self.end(wanted)

    @property
    def replies(self):
        """The replies as the connection has them: without an initiator."""
        return [reply.bytes[4:] for reply in self.player.replies]

    @property
    def bytes(self):
        return b"".join(map(frames.request_bytes, self.requests)) + self.rest

    def play(self, item):
        self.player.play(item)
        self.trace += frames.item_bytes(item)

    def ask(self, request):
        self.requests.append(request)
        self.play(Begin(self.nexus, self.moment, request))
        while self.nexus in self.player.pending:
            self.play(Run(self.nexus, next(self.moments)))

    def long_request(self):
        """Data-out for a command that has none."""
        return Request(0, self.rng.choice([bytes(16), b"\x88" + bytes(15)]), bytes(self.rng.choice(LONG)))

    def look(self, wanted):
        """What became of the operations that were asked for, and what stands in the units."""
        for _, *key in self.rng.sample(wanted.asked, min(20, len(wanted.asked))):
            self.ask(wanted.status_of(*key, 1024))
        for unit in self.player.units:
            for lba in self.rng.sample(sorted(unit.held), min(8, len(unit.held))):
                count = min(unit.shape.blocks - lba, 60)
                self.ask(Request(unit.number, b"\x88\0" + struct.pack(">QI", lba, count) + bytes(2), b""))

    def end(self, wanted):
        """How the session ends, and the bytes behind the last request: none, a cut request, or too long a data-out."""
        chance = self.rng.random()
        if chance < 0.2:
            whole = frames.request_bytes(wanted.request(self.nexus))
            return frames.TORN, whole[: self.rng.randint(1, len(whole) - 1)]
        if chance < 0.4:
            length = self.rng.choice([DATA_LIMIT + 1, 2**32 - 1, self.rng.randint(DATA_LIMIT + 1, 2**32 - 1)])
            return frames.BAD_RECORD, struct.pack(">I", length) + bytes(self.rng.randint(0, 100))
        return frames.DONE, b""
