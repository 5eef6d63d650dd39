"""The trace that fixes how served commands came between each other: a Run for each entry of a nexus, a Pump for each
entry of a pump, and each Begin before the first act of its command."""

import collections

from copymgr_formats import frames
from replay import compared, entries, player
from replay.entries import Actors, NotedUnit


class Differs(Exception):
    """The entries are not those of the requests."""


def told(entry):
    """An entry in words."""
    of_nexus = "" if entry.actor == player.PUMP else f" of nexus {entry.actor}"
    return f"the {entry.act}{of_nexus} on unit {entry.unit}, stamp {entry.stamp}"


def unfolded(machine):
    """The same units, whose records have room for all that comes."""
    return machine._replace(
        shapes=[s._replace(entries=frames.ENTRIES_LIMIT, payload=frames.PAYLOAD_LIMIT) for s in machine.shapes]
    )


def noted_units(machine):
    """New units, which keep their entries."""
    actors = Actors()
    return [NotedUnit(machine, number, actors) for number in range(len(machine.shapes))]


def judge_text(entry, made):
    """Whether an entry is the one that was made."""
    if made != entry.text:
        first = compared.first_difference(entry.text, made)
        found, wanted = (text[first : first + 40].hex() for text in (entry.text, made))
        raise Differs(f"{told(entry)} differs from its byte {first} on: {found} and not {wanted}")


class Following:
    """A trace that is made by following entries. Each item is played by the plain replay as it is found, which tells
    whether a command waits for an act."""

    def __init__(self, machine, requests, units=None, first=0):
        """Of requests of each nexus, from the first on; to new units, or to these."""
        machine = unfolded(machine)
        self.player = player.Player(machine, units or noted_units(machine))
        self.bytes = bytearray(frames.header_bytes(machine))
        # behind each item how many bytes and how many replies there are
        self.ends = []
        self.moment = 0
        # how often another actor came between two acts of a command
        self.between = 0
        self.last = None
        self.waiting = {first + at: collections.deque(of_nexus) for at, of_nexus in enumerate(requests)}

    def play(self, item):
        self.player.play(item)
        self.bytes += frames.item_bytes(item)
        self.ends.append((len(self.bytes), len(self.player.replies)))

    def beginning(self, items):
        """Of at most so many items the bytes of the trace, and the replies."""
        length, count = self.ends[min(items, len(self.ends)) - 1]
        return bytes(self.bytes[:length]), self.player.replies[:count]

    def begin(self, nexus):
        """Begins what the nexus asks next, up to a command that waits for an act."""
        left = self.waiting[nexus]
        while left and nexus not in self.player.pending:
            self.play(frames.Begin(nexus, self.moment, left.popleft()))

    def follow(self, entry):
        """Plays an entry, which has to be the one that the replay makes."""
        self.moment = entry.moment
        if entry.actor == player.PUMP:
            self.play(frames.Pump(entry.unit, entry.moment))
        elif entry.actor not in self.waiting:
            raise Differs(f"{told(entry)}: there is no such nexus")
        else:
            self.run(entry)
        self.last = entry.actor
        record = self.player.units[entry.unit].record
        judge_text(entry, entries.text(record[-1]) if record else b"")

    def run(self, entry):
        self.between += entry.actor in self.player.pending and self.last != entry.actor
        self.begin(entry.actor)
        if entry.actor not in self.player.pending:
            raise Differs(f"{told(entry)}: no request of the nexus asks for it")
        self.play(frames.Run(entry.actor, entry.moment))

    def end(self):
        """Begins what is left, which asks for no act."""
        for nexus in self.waiting:
            self.begin(nexus)
            if nexus in self.player.pending:
                raise Differs(f"a {self.player.pending[nexus].name} of nexus {nexus} waits for an act without an entry")


def followed(machine, requests, written):
    """The trace of these entries, with what the replay made of it."""
    following = Following(machine, requests)
    for entry in written:
        following.follow(entry)
    following.end()
    return following
