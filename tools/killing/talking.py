"""Connections that ask for anything until they end, and keep each byte that came."""

import socket
import struct
import threading

from copymgr.hosts import Reply
from copymgr_formats import cdbs, frames, lists
from copymgr_formats.reservations import ACTIONS, CLEAR, KINDS, REGISTER, REGISTER_AND_IGNORE
from histories import talking

SECONDS = 120
# what others reserved is now and then in the way
STYLE = talking.STYLE._replace(weights=dict(talking.STYLE.weights, write=14, read=10, reserve=2), spoil=0.04)
FRONT = 6
WRITES = (0x2A, 0x8A)


class Requests(talking.SharedRequests):
    """Random requests of all kinds, of an initiator that knows under which key it is registered at each unit."""

    def __init__(self, rng, machine, texts):
        super().__init__(rng, machine, texts)
        self.style = STYLE
        self.keys = {}

    def reserve(self, initiator):
        """Mostly what is done, so that no reservation stands for long."""
        if self.chance(0.2):
            return super().reserve(initiator)
        unit = self.unit()
        key = self.keys.get(unit, 0)
        action = self.rng.choice([*ACTIONS, CLEAR]) if key else REGISTER_AND_IGNORE
        out = lists.reserve_bytes(key, self.rng.randint(0, 3))
        kind = self.rng.choice(KINDS)
        return self.with_list(unit, cdbs.RESERVE_OUT, action, out, kind=kind)

    def note_reply(self, request, reply):
        """A registration that was done."""
        is_out = request.cdb[0] == cdbs.RESERVE_OUT and reply.status == frames.GOOD
        if is_out and request.cdb[1] & 0x1F in (REGISTER, REGISTER_AND_IGNORE):
            self.keys[request.unit] = lists.number(request.out, 8, 8)
        elif is_out and request.cdb[1] & 0x1F == CLEAR:
            self.keys.pop(request.unit, None)


class Source:
    """What comes of a connection; all of it is kept."""

    def __init__(self, link):
        self.link = link
        self.bytes = bytearray()
        self.at = 0

    def taken(self, size):
        while len(self.bytes) < self.at + size:
            more = self.link.recv(1 << 16)
            if not more:
                raise EOFError
            self.bytes += more
        self.at += size
        return bytes(self.bytes[self.at - size : self.at])

    def reply(self):
        status, sensed, length = struct.unpack(">BBI", self.taken(FRONT))
        return Reply(status, self.taken(sensed), self.taken(length))


class Talker:
    """One connection: its requests, and the bytes of the replies that came."""

    def __init__(self, address, machine, rng, texts):
        self.rng = rng
        self.wanted = Requests(rng, machine, texts)
        self.asking = talking.Asking(rng, self.wanted, texts)
        # the bytes of each reply that came whole
        self.requests, self.replies = [], []
        self.is_cut = False
        self.link = socket.create_connection(address, SECONDS)
        self.link.setsockopt(socket.IPPROTO_TCP, socket.TCP_NODELAY, 1)
        self.source = Source(self.link)

    @property
    def statuses(self):
        return [reply[0] for reply in self.replies]

    def rest(self):
        """What came behind the last whole reply."""
        return bytes(self.source.bytes[sum(map(len, self.replies)) :])

    def ask(self, *requests):
        """Sends requests at once, and takes the replies."""
        self.requests += requests
        self.link.sendall(b"".join(map(frames.request_bytes, requests)))
        for request in requests:
            begin = self.source.at
            reply = self.source.reply()
            self.replies.append(bytes(self.source.bytes[begin : self.source.at]))
            self.note(request, reply)

    def note(self, request, reply):
        self.wanted.note_reply(request, reply)
        self.asking.note(request, reply)

    def request(self):
        return self.asking.request(0)

    def acknowledged(self):
        """The WRITEs that were replied to as done."""
        replied = zip(self.requests, self.statuses)
        return [request for request, status in replied if request.cdb[0] in WRITES and status == frames.GOOD]

    def talk(self, commands=None):
        """Asks until so many commands were asked, or the connection ends."""
        try:
            while commands is None or len(self.requests) < commands:
                self.ask(*(self.request() for _ in range(self.rng.choice(talking.BURSTS))))
        except (EOFError, OSError):
            self.is_cut = True

    def close(self):
        self.link.close()


def connected(address, machine, rngs, texts):
    """Connections, each of which was replied to before the next one was made, up to one that is cut."""
    talkers = []
    for rng in rngs:
        try:
            talkers.append(Talker(address, machine, rng, texts))
        except OSError:
            break
        talkers[-1].talk(1)
        if talkers[-1].is_cut:
            break
    return talkers


def talk(talkers, commands=None):
    """All of them ask at the same time; the threads are given back."""
    threads = [threading.Thread(target=talker.talk, args=(commands,)) for talker in talkers if not talker.is_cut]
    for thread in threads:
        thread.start()
    return threads
