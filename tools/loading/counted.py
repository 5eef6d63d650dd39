"""What the processes of many connections counted, at least and at most. Each has a row in memory that all share, so that
what it counted stays when it is killed."""

import mmap
import struct

NAMES = ["sessions", "most_sessions", "faults", "most_faults", "commands", "most_commands"]
FORM = struct.Struct(f"{len(NAMES)}q")


class Row:
    """The numbers of one process."""

    def __init__(self, memory, place):
        self.memory, self.place = memory, place
        self.numbers = dict.fromkeys(NAMES, 0)

    def more(self, **numbers):
        for name, number in numbers.items():
            self.numbers[name] += number
        FORM.pack_into(self.memory, self.place, *self.numbers.values())


class Counted:
    """The rows of all processes."""

    def __init__(self, processes):
        self.processes = processes
        self.memory = mmap.mmap(-1, FORM.size * processes)

    def row(self, number):
        return Row(self.memory, number * FORM.size)

    def of(self, name, number):
        return FORM.unpack_from(self.memory, number * FORM.size)[NAMES.index(name)]

    def sum(self, name):
        return sum(self.of(name, number) for number in range(self.processes))
