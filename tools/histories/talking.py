"""Connections that ask for anything at the same time, and keep what they asked and what they were replied."""

import random
import struct
import threading

from copymgr import Connection, Ended
from copymgr.hosts import reply_from
from copymgr_formats import cdbs, frames, lists, rod_token
from copymgr_formats.senses import Refused
from fuzzing import changes
from replay import acts
from replay.player import Player
from replay.requests import Requests
from replay.traces import ALL, MIXED

SECONDS = 120
# how many requests are sent at once; no more, so that none waits for replies that nobody reads
BURSTS = [1, 1, 2, 4]
# so that blocks are mapped more often than not: few moves have some pieces, and few of them are of unmapped blocks
STYLE = MIXED._replace(
    weights=dict(ALL, write=10, unmap=0.5, populate=8, use=14, copy=4, abort=3), long=0.1, write=16, zero=0.03,
    immed=0.4, timeouts=[1, 2, 10, 3600],
)
# of the first WRITE of each
FIRST_BYTES = 16_384
# of the longest write by a token
PIECES = 5


def reply_bytes(reply):
    return struct.pack(">BBI", reply.status, len(reply.sense), len(reply.data)) + reply.sense + reply.data


def token_in(request, reply):
    """The text of the token that a reply tells, if it tells one and is not cut."""
    if request.cdb[:2] != b"\x84\x07" or len(reply.data) < rod_token.LENGTH:
        return None
    is_whole = lists.number(reply.data, 0, 4) + 4 == len(reply.data)
    return reply.data[-rod_token.LENGTH :] if is_whole else None


def is_long(request):
    """Whether it is a write by a token of more blocks than records have room for. A Start is judged by the room that it
    wants before its blocks are found to be out of range."""
    if request.cdb[:2] != b"\x83\x11":
        return False
    try:
        return lists.total(lists.read_write(request.out).ranges) > PIECES * acts.PIECE
    except Refused:
        return False


class SharedRequests(Requests):
    """Random requests that use the tokens which any connection was told, and for which a record is never full. A share of
    them is changed in a place or two."""

    def __init__(self, rng, machine, texts, share=0):
        super().__init__(rng, Player(machine), STYLE)
        self.texts, self.share = texts, share

    def request(self, initiator):
        while is_long(request := self.changed(super().request(initiator))):
            pass
        return request

    def changed(self, request):
        if self.rng.random() < self.share:
            for _ in range(self.rng.choice([1, 1, 2])):
                _, request = changes.again(self.rng, request)
        return request

    def token(self):
        if not self.texts:
            return None
        latest = self.rng.choice([3, 30, len(self.texts)])
        text = self.rng.choice(self.texts[-latest:])
        unit = lists.number(text, 8, 2)
        return unit, text, lists.number(text, 48, 16) // self.shapes[unit].block_length


class Asking:
    """What a connection asks for: anything, and mostly the text of the token that was made last, so that it comes to be
    known."""

    def __init__(self, rng, wanted, texts):
        self.rng, self.wanted, self.texts, self.made = rng, wanted, texts, []

    def note(self, request, reply):
        """What others, or a later request, may be for."""
        if text := token_in(request, reply):
            self.texts.append(text)
        elif request.cdb[:2] == b"\x83\x10" and reply.status == frames.GOOD:
            self.made.append((request.unit, lists.number(request.cdb, 6, 4)))

    def request(self, initiator):
        if self.made and self.rng.random() < 0.7:
            unit, found = self.made.pop()
            return frames.Request(unit, cdbs.encode(0x84, 0x07, id=found, length=1024), b"")
        return self.wanted.request(initiator)


class Talker:
    """One connection: its requests, and the bytes of the replies to them."""

    def __init__(self, address, nexus, machine, options, texts):
        self.nexus = nexus
        self.rng = random.Random(f"{options.seed} {nexus}")
        self.wanted = SharedRequests(self.rng, machine, texts, options.changed)
        self.asking = Asking(self.rng, self.wanted, texts)
        self.requests, self.replies = [], []
        self.fault = None
        self.host = Connection(address, SECONDS)

    def ask(self, *requests):
        """Sends requests at once, all but the first before the one before them was replied to."""
        self.requests += requests
        self.host.link.sendall(b"".join(map(frames.request_bytes, requests)))
        for request in requests:
            reply = reply_from(self.host.source)
            self.replies.append(reply_bytes(reply))
            self.asking.note(request, reply)

    def request(self):
        return self.asking.request(self.nexus)

    def first(self):
        """A WRITE, each to other blocks where there are so many."""
        shapes = self.wanted.shapes
        unit = self.nexus % len(shapes)
        shape = shapes[unit]
        count = FIRST_BYTES // shape.block_length
        lba = self.nexus // len(shapes) * count % (shape.blocks - count)
        return frames.Request(unit, cdbs.encode(0x8A, lba=lba, count=count), self.rng.randbytes(FIRST_BYTES))

    def go_on(self, commands):
        while commands > 0:
            burst = [self.request() for _ in range(min(commands, self.rng.choice(BURSTS)))]
            self.ask(*burst)
            commands -= len(burst)

    def talk(self, start, commands):
        try:
            start.wait()
            self.go_on(commands)
        except (Ended, OSError, threading.BrokenBarrierError) as error:
            self.fault = f"connection {self.nexus}: {type(error).__name__}: {error}"
        finally:
            self.host.close()


def connected(address, machine, options):
    """Connections, each of which was replied to before the next one was made: so its nexus has its number."""
    talkers, texts = [], []
    for nexus in range(options.connections):
        talkers.append(Talker(address, nexus, machine, options, texts))
        talkers[-1].ask(talkers[-1].first())
    return talkers


def talk(talkers, commands):
    """All of them ask at the same time, and end."""
    start = threading.Barrier(len(talkers))
    threads = [threading.Thread(target=talker.talk, args=(start, commands)) for talker in talkers]
    for thread in threads:
        thread.start()
    for thread in threads:
        thread.join()
