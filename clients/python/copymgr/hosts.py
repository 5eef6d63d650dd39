"""What executes commands: a program that replays a trace, fed command by command, and a connection."""

import collections
import os
import socket
import struct
import subprocess
import threading
import time

from .errors import Busy, CheckCondition, Ended, ReservationConflict, TaskSetFull
from .wire import PLAIN_REPLAY, PROGRAM, frames

ENTRIES_LIMIT, PAYLOAD_LIMIT = frames.ENTRIES_LIMIT, frames.PAYLOAD_LIMIT

BUSY = 0x08
ERRORS = {BUSY: Busy, frames.CONFLICT: ReservationConflict, frames.FULL: TaskSetFull}
Reply = collections.namedtuple("Reply", "status sense data")


class Shape(frames.Shape):
    """A unit: its blocks, the bytes of each, how many may be mapped, what its record has room for, and its group."""

    def __new__(cls, blocks, block_length=512, quota=None, entries=ENTRIES_LIMIT, payload=PAYLOAD_LIMIT, group=0):
        return super().__new__(cls, blocks, block_length, entries, blocks if quota is None else quota, payload, group)


def exactly(source, size):
    data = source.read(size)
    if len(data) < size:
        raise Ended("the reply was cut off" if data else "there is no reply")
    return data


def reply_from(source):
    status, sensed, length = struct.unpack(">BBI", exactly(source, 6))
    return Reply(status, exactly(source, sensed), exactly(source, length))


def data_of(reply):
    """The data of a reply that is GOOD; each other status is an error."""
    if reply.status == frames.CHECK:
        raise CheckCondition(frames.sense_of(reply.sense))
    if reply.status in ERRORS:
        raise ERRORS[reply.status]()
    return reply.data


class Host:
    """Executes commands of one initiator, one at a time."""

    def __init__(self):
        self.last_id = 0

    def new_id(self):
        """A list identifier that was not given yet."""
        self.last_id += 1
        return self.last_id

    def execute(self, lun, cdb, out=b""):
        """The data of a command's reply."""
        raise NotImplementedError

    def let_work(self, lun):
        """Gives the background work of a unit some time."""
        raise NotImplementedError

    def close(self):
        raise NotImplementedError

    def __enter__(self):
        return self

    def __exit__(self, *_):
        self.close()


class Connection(Host):
    """A connection to a program that serves, as docs/formats.md says."""

    PAUSE = 0.1

    def __init__(self, address, timeout=None):
        """To a host and a port. No reply within so many seconds is a TimeoutError, after which it is to be closed."""
        super().__init__()
        self.link = socket.create_connection(address, timeout)
        self.link.setsockopt(socket.IPPROTO_TCP, socket.TCP_NODELAY, 1)
        self.source = self.link.makefile("rb")

    def ask(self, lun, cdb, out=b""):
        """The reply to a command, whatever its status."""
        try:
            self.link.sendall(frames.request_bytes(frames.Request(lun, cdb, out)))
            return reply_from(self.source)
        except ConnectionError as error:
            raise Ended(f"the connection ended: {error.strerror}") from None

    def execute(self, lun, cdb, out=b""):
        return data_of(self.ask(lun, cdb, out))

    def let_work(self, lun):
        time.sleep(self.PAUSE)

    def close(self):
        self.source.close()
        self.link.close()


def default_program():
    """The proved program where it was built, else the plain replay."""
    return [str(PROGRAM if os.access(PROGRAM, os.X_OK) else PLAIN_REPLAY)]


class Replay(Host):
    """A program that replays what it is fed: `PROGRAM replay`.

    It pushes each reply before it pulls more, but a command that waits for a Run says nothing. So behind each item goes
    a TEST UNIT READY of a spare initiator, which is replied to at once: where its reply comes first, the command waits.
    `moment` is that of the items to come, in seconds. `items` has what was played behind the trace that it began with.
    """

    SPARE = 0xFFFFFFFF

    def __init__(self, shapes=(), program=None, trace=None, initiator=1):
        """Begins with new units of these shapes, or as a trace leaves its units."""
        super().__init__()
        self.header = frames.header_bytes(frames.Machine(frames.SECRET, list(shapes))) if trace is None else trace
        self.initiator = initiator
        self.moment = 0
        self.items = []
        words = [*(program or default_program()), "replay"]
        pipe = subprocess.PIPE
        self.program = subprocess.Popen(words, stdin=pipe, stdout=pipe, stderr=pipe)
        self.begin_with(self.header)

    def begin_with(self, trace):
        """Its replies come while it is written, so another thread writes it."""
        writer = threading.Thread(target=self.write, args=(trace + self.begin(self.SPARE, 0, bytes(16)),))
        writer.start()
        try:
            self.reply_before_spare()
        finally:
            writer.join()

    def trace(self):
        """All that was played, as a trace."""
        return self.header + b"".join(self.items)

    def begin(self, initiator, lun, cdb, out=b""):
        return frames.item_bytes(frames.Begin(initiator, self.moment, frames.Request(lun, cdb, out)))

    def write(self, data):
        try:
            self.program.stdin.write(data)
            self.program.stdin.flush()
        except BrokenPipeError:
            pass  # why it ended is told where its reply is missed

    def reply_before_spare(self):
        """The last reply before that to the spare command, if there is one."""
        found = None
        try:
            while int.from_bytes(exactly(self.program.stdout, 4), "big") != self.SPARE:
                found = reply_from(self.program.stdout)
            reply_from(self.program.stdout)
        except Ended as ended:
            said = self.program.stderr.read().decode(errors="replace").strip()
            raise Ended(f"the program ended with status {self.program.wait()}: {said or ended}") from None
        return found

    def play(self, item):
        """Plays an item, and gives the reply that it brought."""
        self.write(item + self.begin(self.SPARE, 0, bytes(16)))
        reply = self.reply_before_spare()
        self.items.append(item)
        return reply

    def execute(self, lun, cdb, out=b""):
        reply = self.play(self.begin(self.initiator, lun, cdb, out))
        while reply is None:
            reply = self.play(frames.item_bytes(frames.Run(self.initiator, self.moment)))
        return data_of(reply)

    def let_work(self, lun):
        """A Pump: the next 1024 blocks of the operation that was begun first."""
        self.play(frames.item_bytes(frames.Pump(lun, self.moment)))

    def close(self):
        """Ends the program."""
        try:
            self.program.stdin.close()
        except BrokenPipeError:
            pass  # it has ended already
        self.program.stdout.close()
        self.program.stderr.close()
        self.program.wait()
