"""Units whose records are written to files, as a program that serves into a folder does it."""

import os

from .entries import Actors, NotedUnit, text


class FoldedUnit(NotedUnit):
    """A unit whose kept entries are written out by its `fold`, at the latest where its record is full. Each is then
    dropped."""

    def is_full(self, act, served):
        if not super().is_full(act, served):
            return False
        self.fold()
        return super().is_full(act, served)

    def fold(self):
        raise NotImplementedError


class RecordedUnit(FoldedUnit):
    """A unit whose entries are written out where its record is full, and in the end."""

    def __init__(self, machine, number, actors, path):
        super().__init__(machine, number, actors)
        self.path = path

    def fold(self):
        """Writes the kept entries behind those that were written; where the file can't be opened they stay."""
        try:
            with open(self.path, "ab" if self.folded else "wb") as file:
                file.write(b"".join(map(text, self.record)))
        except OSError:
            return
        self.folded += len(self.record)
        self.record.clear()
        self.payload = 0


def recorded_units(machine, folder):
    """The units of a machine, recorded to the files `unit-0` and so on of a folder."""
    actors = Actors()
    numbers = range(len(machine.shapes))
    return [RecordedUnit(machine, number, actors, os.path.join(folder, f"unit-{number}")) for number in numbers]
