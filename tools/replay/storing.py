"""A plain server whose units go on with the journals of a folder, and record each entry before it is replied to."""

from .entries import Actors, text
from .journals import Journal, path_of
from .recording import FoldedUnit
from .resuming import done_again, endings, go_on, next_nexus
from .serving import Server


class StoredUnit(FoldedUnit):
    """A unit whose entries go to its journal one by one. Those that end what ran before go there before the first.
    Those that could not be recorded are tried again at the next act, also at one that finds the record full."""

    def __init__(self, machine, number, journal):
        super().__init__(machine, number)
        self.journal = journal

    def note(self, actor, moment, act):
        super().note(actor, moment, act)
        self.fold()

    def fold(self):
        try:
            while self.record:
                self.journal.add(text(self.record[0]))
                self.folded += 1
                self.payload -= self.length_of(self.record.pop(0).act)
        except OSError:
            pass  # they are kept

    def begin(self, history, actors):
        """Goes on with a history, all of which the journal has."""
        go_on(self, history)
        self.stamp = history[-1].stamp if history else 0
        self.actors = actors
        for entry in endings(self, self.stamp):
            done_again(self, entry)
            self.record.append(entry)
            self.stamp = entry.stamp
        # the ends have no bytes of a WRITE
        self.folded = len(history)


class StoreServer(Server):
    """Serves the units of a machine, whose journals stand in a folder."""

    def __init__(self, machine, folder):
        numbers = range(len(machine.shapes))
        journals = [Journal(path_of(folder, number), machine, number) for number in numbers]
        histories = [[record.entry for record in journal.records] for journal in journals]
        units, actors = [StoredUnit(machine, number, journals[number]) for number in numbers], Actors()
        for unit, history in zip(units, histories):
            unit.begin(history, actors)
        super().__init__(machine, units=units, first=next_nexus(histories))

    def serve(self, listener, sessions):
        """Operations that ran in the background go on at once."""
        for bell in self.bells:
            bell.ring()
        super().serve(listener, sessions)
