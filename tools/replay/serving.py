"""A plain server of units: a thread for each connection, which is a nexus, and one for each unit's pump.

It takes the words, the configuration and the frames that `copymgr serve` takes, and reports as it does.
"""

import re
import socket
import struct
import threading
import time

from copymgr_formats import frames
from copymgr_formats.addresses import address_of
from copymgr_formats.senses import BadInput, RecordFull

from . import acts
from .player import PUMP, Pending
from .recording import recorded_units
from .unit import Unit

SESSIONS_LIMIT = 256
FIELDS_OF_HEADER, FIELDS_OF_UNIT = (0, 8, 40), (0, 8, 12, 16, 24, 28, 29, 32)


# ---- configuration, words and connections


def read_configuration(data):
    """The machine of one header with nothing behind it; where it ends early, BadInput has the field that is not
    whole."""
    try:
        machine, end = frames.read_header(data)
    except BadInput as bad:
        if bad.status == frames.TORN:
            raise BadInput(frames.BAD_HEADER, field_at(len(data))) from None
        raise
    if len(data) > end:
        raise BadInput(frames.BAD_HEADER, end)
    return machine


def field_at(place):
    """Where the field of a header begins in which a place lies."""
    if place < 42:
        return max(field for field in FIELDS_OF_HEADER if field <= place)
    unit = (place - 42) // 32 * 32 + 42
    return max(unit + field for field in FIELDS_OF_UNIT if unit + field <= place)


def sessions_of(text):
    """How many connections a word asks for: decimal digits, without a sign or a leading zero."""
    if not re.fullmatch("[1-9][0-9]{0,2}", text) or int(text) > SESSIONS_LIMIT:
        raise ValueError(f"the number of sessions is 1 to {SESSIONS_LIMIT}")
    return int(text)


def listening(address):
    """A socket that listens at HOST:PORT."""
    host, port = address_of(address)
    return socket.create_server((host, port), family=socket.AF_INET6 if ":" in host else socket.AF_INET)


def tell_address(listener, address, say):
    """Says where a socket listens, where the system picked the port."""
    host, port = address_of(address)
    if port == 0:
        shown = f"[{host}]" if ":" in host else host
        say(f"serving at {shown}:{listener.getsockname()[1]}")


class Broken(Exception):
    """The bytes of a connection end inside a request, or spell one that is too long."""


def exactly(source, size):
    data = source.read(size)
    if len(data) < size:
        raise Broken
    return data


def requests_from(source):
    """The requests that a connection brings, to the end of its bytes."""
    while first := source.read(1):
        length = struct.unpack(">I", first + exactly(source, 3))[0]
        if length > frames.DATA_LIMIT:
            raise Broken
        unit, cdb = struct.unpack(">H16s", exactly(source, 18))
        yield frames.Request(unit, cdb, exactly(source, length))


# ---- the server


class Bell:
    """What the pump of a unit waits for. Rings that come before it listens are one."""

    def __init__(self):
        self.changed = threading.Condition()
        self.is_rung = self.is_ended = False

    def ring(self):
        with self.changed:
            self.is_rung = True
            self.changed.notify()

    def end(self):
        with self.changed:
            self.is_ended = True
            self.changed.notify()

    def wait(self):
        """Whether it was rung; it was not where it was ended, and no ring is left."""
        with self.changed:
            self.changed.wait_for(lambda: self.is_rung or self.is_ended)
            was_rung, self.is_rung = self.is_rung, False
            return was_rung


class Server:
    """Units that are served. One act at a time is done, whoever asks. Their records may go to a folder; or these units
    are served, which keep them, to nexuses whose numbers begin with the first."""

    def __init__(self, machine, folder=None, units=None, first=0):
        self.machine = machine
        self.is_recorded = folder is not None or units is not None
        plain = [] if self.is_recorded else [Unit(machine, number) for number in range(len(machine.shapes))]
        self.units = units or plain or recorded_units(machine, folder)
        self.first = first
        self.turn = threading.Lock()
        self.bells = [Bell() for _ in self.units]
        self.sessions = self.faults = self.commands = 0

    def serve(self, listener, sessions):
        """Serves so many connections to their ends, and then ends the pumps. Links are given back in their order."""
        pumps = [threading.Thread(target=self.pump_when_rung, args=(unit,)) for unit in self.units]
        for pump in pumps:
            pump.start()
        served = []
        for number in range(sessions):
            link, _ = listener.accept()
            link.setsockopt(socket.IPPROTO_TCP, socket.TCP_NODELAY, 1)
            session = threading.Thread(target=self.session, args=(self.first + number, link))
            session.start()
            served.append((session, link))
        for session, link in served:
            session.join()
            link.close()
        for bell, pump in zip(self.bells, pumps):
            bell.end()
            pump.join()
        for unit in self.units:
            self.pump(unit)
            if self.is_recorded:
                unit.fold()

    def session(self, nexus, link):
        """Serves one connection: each request is run when the reply to the one before it was sent."""
        commands, fault = 0, 0
        try:
            with link.makefile("rb") as source:
                for request in requests_from(source):
                    link.sendall(self.reply(nexus, request))
                    commands += 1
        except (Broken, OSError):
            fault = 1
        with self.turn:
            self.sessions += 1
            self.faults += fault
            self.commands += commands

    def reply(self, nexus, request):
        command = Pending(self.machine, request)
        while command.reply is None:
            unit, act = command.asked
            with self.turn:
                command.run(self.units, nexus, self.moment())
            answered = command.reply is None or command.reply[0] == frames.GOOD
            if isinstance(act, acts.Start) and act.background and answered:
                self.bells[unit].ring()
        return command.reply

    @staticmethod
    def moment():
        return int(time.time())

    def pump_when_rung(self, unit):
        while self.bells[unit.number].wait():
            self.pump(unit)

    def pump(self, unit):
        """Does the work in the background until there is none, or the record is full."""
        try:
            served = unit
            while served:
                with self.turn:
                    served = unit.act(PUMP, self.moment(), acts.Pump())
        except RecordFull:
            pass

    def unit_lines(self):
        """What is counted of each unit."""
        counts = [f"steps {unit.entries} live {len(unit.live())} mapped {len(unit.held)}" for unit in self.units]
        return [f"unit {number} {count}" for number, count in enumerate(counts)]

    def report_lines(self):
        """What was served so far."""
        sessions = [f"sessions {self.sessions}", f"faults {self.faults}", "memory 0", f"commands {self.commands}"]
        return [*sessions, *self.unit_lines(), f"total {sum(unit.entries for unit in self.units)}"]

    def report(self):
        """What was served, once it ended."""
        lines = self.report_lines()
        if self.is_recorded:
            lines.append(f"kept {sum(len(unit.record) for unit in self.units)}")
        return "".join(line + "\n" for line in lines)
