"""What the clients counted. Each has a row in memory that all processes share, so that what it counted stays when it is
killed: before it sends a command its row tells the least and the most that may come of it."""

import mmap
import struct

from .bounds import BUSY, CHECK, FULL, bounds_of

NAMES = ["connected", "sent", "replies", "check", "busy", "full", "largest", "written"]


class Row:
    """The numbers of one client."""

    def __init__(self, tallies, number):
        self.tallies = tallies
        self.place = number * tallies.form.size
        self.numbers = dict(zip(tallies.names, tallies.form.unpack_from(tallies.memory, self.place)))

    def connected(self):
        self.numbers["connected"] = 1
        self.publish()

    def publish(self):
        self.tallies.form.pack_into(self.tallies.memory, self.place, *self.numbers.values())

    def begin(self, machine, request):
        """Before a command is sent."""
        self.numbers["sent"] += 1
        self.saw(len(request.out))
        if request.cdb[0] in (0x2A, 0x8A):
            self.numbers["written"] += len(request.out)
        for unit, most in bounds_of(machine, request).high.items():
            if unit < len(machine.shapes):
                self.numbers[f"high {unit}"] += most
        self.publish()

    def end(self, machine, request, reply, sense):
        """When its reply is there."""
        before, after = bounds_of(machine, request), bounds_of(machine, request, reply.status, sense)
        for unit, most in before.high.items():
            if unit < len(machine.shapes):
                self.numbers[f"high {unit}"] += after.high[unit] - most
                self.numbers[f"low {unit}"] += after.low[unit]
        self.numbers["replies"] += 1
        for name, status in (("check", CHECK), ("busy", BUSY), ("full", FULL)):
            self.numbers[name] += reply.status == status
        self.saw(len(reply.data))
        self.publish()

    def saw(self, length):
        self.numbers["largest"] = max(self.numbers["largest"], length)

    def maps(self, unit, low, high):
        """How many blocks of a unit this client has mapped."""
        self.numbers[f"fewest {unit}"], self.numbers[f"most {unit}"] = low, high
        self.publish()


class Tallies:
    """The rows of all clients."""

    def __init__(self, clients, units):
        self.clients = clients
        self.names = NAMES + [f"{name} {unit}" for unit in range(units) for name in ("low", "high", "fewest", "most")]
        self.form = struct.Struct(f"{len(self.names)}Q")
        self.memory = mmap.mmap(-1, self.form.size * clients)

    def rows(self):
        return [Row(self, number).numbers for number in range(self.clients)]

    def sum(self, name):
        return sum(row[name] for row in self.rows())
