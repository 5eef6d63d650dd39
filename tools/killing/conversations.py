"""Lives in which a record was full: each conversation beside the entries of its nexus.

An act that finds a record full leaves no entry, and TASK SET FULL does not tell which act of its command that was. So
the units do what stands in the journals, whoever asked for it, and each entry keeps what it was answered. Then each
conversation is judged by itself: its commands have to ask for the entries of its nexus one after the other, all of
them, and to come to the replies by their answers. Of a command that was replied to by TASK SET FULL one act was
refused: any that has no entry by that, and at which the record of its unit may have been full.

No file tells how many entries a record held. They were no more than this life had, and no more than calls failed: each
act whose entry stayed met one that failed, and so did each that was refused, since what runs at once has room. Those
that end what ran before stayed together.
"""

import collections
import copy

from copymgr_formats import frames
from copymgr_formats.senses import Conflict, RecordFull, Refused
from histories.following import Differs, told
from replay import compared, entries
from replay.player import Pending
from replay.unit import RUNNING

from .following import LifeFollowing, entries_of_life

# an entry of a nexus, what its act was answered, and how many entries of this life its unit had before
Done = collections.namedtuple("Done", "entry outcome place")


def standing(unit):
    """A unit as it stands, as far as the room in its record depends on that."""
    found = copy.copy(unit)
    found.operations = [copy.copy(operation) for operation in unit.operations if operation.state == RUNNING]
    return found


def answered(unit, entry):
    """What the act of an entry is answered as the unit stands: an answer, or the refusal."""
    try:
        return copy.copy(unit.act(entry.actor, entry.moment, entry.whole.act))
    except (Refused, Conflict) as refusal:
        return refusal


class Room:
    """The room in the record of a unit, before the first entry of a life and behind each."""

    def __init__(self, shape, unit, endings):
        """Of a life that begins with so many entries which end what ran before."""
        self.shape, self.endings = shape, endings
        self.stands = [standing(unit)]

    def note(self, unit):
        self.stands.append(standing(unit))

    def places(self, done, place):
        """Behind how many entries of the unit an act may have come, of a nexus with these entries, behind so many."""
        before = [own.place for own in done[:place] if own.entry.unit == self.stands[0].number]
        behind = [own.place for own in done[place:] if own.entry.unit == self.stands[0].number]
        return range(before[-1] + 1 if before else 0, behind[0] + 1 if behind else len(self.stands))

    def may_lack(self, actor, act, place, unrecorded):
        """Whether there may have been none for an act behind so many entries, if so many met a call that failed."""
        unit, oldest = copy.copy(self.stands[place]), self.stands[max(0, place - unrecorded - self.endings)]
        unit.shape, unit.folded = self.shape, oldest.entries
        unit.payload -= oldest.payload
        return unit.is_full(act, unit.served_by(actor, act))


class LifeAnswered(LifeFollowing):
    """The entries of one life, which the units do as they stand there. What they were answered is kept by nexus."""

    def __init__(self, machine, requests, units, first):
        super().__init__(machine, requests, units, first)
        self.requests = requests
        self.done = {nexus: [] for nexus in self.waiting}
        self.rooms = [Room(*of_unit) for of_unit in zip(machine.shapes, units, map(len, self.endings))]

    def follow(self, entry):
        super().follow(entry)
        self.rooms[entry.unit].note(self.player.units[entry.unit])

    def run(self, entry):
        place = len(self.rooms[entry.unit].stands) - 1
        outcome = answered(self.player.units[entry.unit], entry)
        self.done[entry.actor].append(Done(entry, outcome, place))

    def replied(self):
        """In a life that ended well each command was replied to."""
        return sum(map(len, self.requests))


class Conversation:
    """What one nexus asked and was replied, beside its entries."""

    def __init__(self, life, nexus, talker, unrecorded):
        self.life, self.nexus, self.talker, self.unrecorded = life, nexus, talker, unrecorded
        self.done = life.done[nexus]

    def judge(self):
        """Whether some choice of what was refused explains all replies; or Differs."""
        places = {0}
        for number, (request, reply) in enumerate(zip(self.talker.requests, self.talker.replies)):
            ends = {end for place in places for end in self.ends(request, reply, place)}
            if not ends:
                raise Differs(f"nexus {self.nexus}: reply {number}, to {self.why(request, reply, max(places))}")
            places = ends
        if len(self.done) not in places:
            raise Differs(f"{told(self.done[max(places)].entry)}: no command asked for it that was not refused")
        if self.talker.rest():
            raise Differs(f"nexus {self.nexus}: {len(self.talker.rest())} bytes behind the last reply")

    def ends(self, request, reply, place):
        """Behind how many entries the command may end that begins behind so many, and is replied to so."""
        if reply[0] != frames.FULL:
            command, end = self.run(request, place)
            return {end} if command.reply == reply else set()
        found = set()
        for refused in range(place, len(self.done) + 1):
            command, end = self.run(request, place, refused)
            if command.reply == reply:
                found.add(end)
            if end < refused:
                break
        return found

    def run(self, request, place, refused=None):
        """How far the command comes that begins behind so many entries, by what the next ones were answered, and behind
        how many. What it asks for behind `refused` of them finds the record full, where that may be."""
        command = Pending(self.life.player.machine, request)
        while command.reply is None:
            if place == refused:
                if not self.may_be_refused(command.asked, place):
                    break
                command.go_on(command.program.throw, RecordFull())
                refused = None
            elif self.is_next(command.asked, place):
                outcome = self.done[place].outcome
                is_refusal = isinstance(outcome, Exception)
                command.go_on(command.program.throw if is_refusal else command.program.send, outcome)
                place += 1
            else:
                break
        return command, place

    def is_next(self, asked, place):
        """Whether what is asked for is the entry behind so many."""
        if place == len(self.done):
            return False
        (unit, act), entry = asked, self.done[place].entry
        return entry.unit == unit and entries.text(entry.whole._replace(act=act)) == entry.text

    def may_be_refused(self, asked, place):
        """Whether what is asked for behind so many entries may have found its unit's record full."""
        unit, act = asked
        room = self.life.rooms[unit]
        return any(room.may_lack(self.nexus, act, at, self.unrecorded) for at in room.places(self.done, place))

    def why(self, request, reply, place):
        """Why a reply is not explained by the entries behind so many."""
        command, end = self.run(request, place)
        if reply[0] == frames.FULL:
            return f"{command.name}, is TASK SET FULL, and no act without an entry can have found a record full"
        if command.reply is None:
            unit, act = command.asked
            there = told(self.done[end].entry) if end < len(self.done) else "no entry of the nexus"
            return f"{command.name}, wants the {type(act).__name__} on unit {unit}, and there is {there}"
        first = compared.first_difference(reply, command.reply)
        found, wanted = (data[:60].hex() for data in (reply, command.reply))
        return f"{command.name}, differs from its byte {first} on: {found} and not {wanted}"


def judged(machine, talkers, units, first, records, failing):
    """The entries of a life that ended well, in which so many calls failed at most, and by which each conversation was
    judged; or Differs."""
    life = LifeAnswered(machine, [talker.requests for talker in talkers], units, first)
    for entry in entries_of_life(records):
        life.follow(entry)
    refused = sum(talker.statuses.count(frames.FULL) for talker in talkers)
    for nexus, talker in enumerate(talkers, first):
        Conversation(life, nexus, talker, max(0, failing - refused)).judge()
    return life
