"""Lives in which a record was full: what units in memory leave is judged by all replies, and what is wrong is found."""

import collections
import random
import types
import unittest

from copymgr import Shape
from copymgr_formats import cdbs, frames, lists, rod_token
from copymgr_formats.senses import RecordFull
from histories import talking
from histories.following import Differs, noted_units, unfolded
from killing import conversations
from replay import acts, journals, player, readback, storing
from replay.entries import Actors, NotedUnit
from replay.requests import Requests

from . import support

SHAPES = [Shape(3000, entries=16), Shape(60, entries=14), Shape(40, payload=9000)]
MACHINE = frames.Machine(frames.SECRET, SHAPES)
# the same units, whose records have room
ROOMY = frames.Machine(frames.SECRET, [Shape(shape.blocks) for shape in SHAPES])
NEXUSES = 3
# the one that fills a record
OTHER = 2
MOMENT = 7
NOT_FULL = "no act without an entry can have found a record full"
ALL, NONE = range(10**9), ()


def with_list(unit, code, action, out, **fields):
    return frames.Request(unit, cdbs.encode(code, action, length=len(out), **fields), out)


def read(unit):
    return frames.Request(unit, cdbs.encode(0x88, lba=1, count=1), b"")


def write(unit, count):
    return frames.Request(unit, cdbs.encode(0x8A, lba=1, count=count), b"\x11" * 512 * count)


def use(**fields):
    """A WRITE USING TOKEN on unit 1 by the first token of unit 0."""
    return with_list(1, 0x83, 0x11, lists.write_bytes(rod_token.text(MACHINE, 0, 0, 1), [(7, 1)], **fields), id=2)


READY = frames.Request(0, bytes(16), b"")
POPULATE = with_list(0, 0x83, 0x10, lists.populate_bytes(600, [(1, 1)]), id=1)
CSCDS = [lists.cscd_bytes(rod_token.unit_name(unit), 512) for unit in (0, 1)]
COPY = with_list(0, 0x83, 0x00, lists.copy_bytes(5, CSCDS, [lists.segment_bytes(0, 1, 1, 1, 9)]))


class Journal:
    """The texts of a unit's entries. Each is a call, and some calls fail, which are counted over all journals."""

    def __init__(self, calls):
        self.calls, self.texts = calls, []

    def add(self, text):
        self.calls.made += 1
        if self.calls.made in self.calls.failing:
            self.calls.failed += 1
            raise OSError
        self.texts.append(text)


class Unit(storing.StoredUnit):
    """A unit that counts the acts which found its record full."""

    def __init__(self, machine, number, calls, actors):
        super().__init__(machine, number, Journal(calls))
        self.actors = actors
        self.refused = collections.Counter()

    def act(self, actor, moment, act):
        try:
            return super().act(actor, moment, act)
        except RecordFull:
            self.refused[type(act).__name__] += 1
            raise


class Life:
    """Units in a life in which calls fail."""

    def __init__(self, machine=MACHINE, failing=NONE):
        self.calls, actors = types.SimpleNamespace(made=0, failed=0, failing=failing), Actors()
        self.units = [Unit(machine, number, self.calls, actors) for number in range(len(machine.shapes))]
        self.player = player.Player(machine, self.units)
        self.requests = [[] for _ in range(NEXUSES)]

    def begin(self, nexus, request):
        self.requests[nexus].append(request)
        self.player.play(frames.Begin(nexus, MOMENT, request))

    def act(self, nexus):
        self.player.play(frames.Run(nexus, MOMENT))

    def do(self, nexus, request):
        self.begin(nexus, request)
        self.go_on(nexus)

    def go_on(self, nexus):
        """To the end of its command, whose status is told."""
        while nexus in self.player.pending:
            self.act(nexus)
        return self.replies(nexus)[-1][0]

    def pump(self, unit):
        self.player.play(frames.Pump(unit, MOMENT))

    def fill(self, unit):
        """From now on calls fail; reads what fills a record."""
        self.calls.failing = ALL
        self.begin(OTHER, read(unit))
        while self.go_on(OTHER) != frames.FULL:
            self.begin(OTHER, read(unit))

    def end(self):
        """The calls go well, each command comes to its end, and all is recorded."""
        self.calls.failing = NONE
        for nexus in list(self.player.pending):
            self.go_on(nexus)
        for unit in self.units:
            unit.fold()
        return self

    def refused(self):
        return sum((unit.refused for unit in self.units), collections.Counter())

    # ---- what it left

    def replies(self, nexus):
        every = [reply.bytes for reply in self.player.replies]
        return [data[4:] for data in every if data[:4] == nexus.to_bytes(4, "big")]

    def talkers(self):
        """What each connection asked and got."""
        return [Talker(self.requests[nexus], self.replies(nexus)) for nexus in range(NEXUSES)]

    def records(self):
        found = []
        for unit in self.units:
            read_back = [readback.entry_of(text, MACHINE, unit.number, 0) for text in unit.journal.texts]
            found.append([journals.Record(entry, text, 0, 0) for entry, text in zip(read_back, unit.journal.texts)])
        return found

    def judged(self, talkers=None, machine=MACHINE, failing=None):
        """That life as it was, or with what other talkers have; or Differs."""
        units, failing = noted_units(unfolded(machine)), self.calls.failed if failing is None else failing
        return conversations.judged(machine, talkers or self.talkers(), units, 0, self.records(), failing)


class Talker:
    def __init__(self, requests, replies):
        self.requests, self.replies = list(requests), replies
        self.behind = b""

    @property
    def statuses(self):
        return [reply[0] for reply in self.replies]

    def rest(self):
        return self.behind


def random_life(seed, machine=MACHINE, commands=60):
    """Commands of all kinds, act by act in any order; calls fail for a while."""
    rng = random.Random(seed)
    first = rng.randint(10, 100)
    life = Life(machine, range(first, first + rng.randint(20, 200)))
    wanted = Requests(rng, life.player, talking.STYLE._replace(write=8))
    left = [nexus for nexus in range(NEXUSES) for _ in range(commands)]
    while left:
        if rng.random() < 0.1:
            life.pump(rng.randrange(len(SHAPES)))
        nexus = rng.randrange(NEXUSES)
        if nexus in life.player.pending:
            life.act(nexus)
        elif nexus in left:
            left.remove(nexus)
            life.begin(nexus, wanted.request(nexus))
    return life.end()


def changed(rng, reply):
    """Another reply: TASK SET FULL, or GOOD in place of it, or one with another byte."""
    if rng.random() < 0.7:
        return frames.good(b"") if reply[0] == frames.FULL else frames.full()
    at = rng.randrange(len(reply))
    return reply[:at] + bytes([reply[at] ^ 1 << rng.randrange(8)]) + reply[at + 1 :]


class RandomLives(unittest.TestCase):
    def test_all_that_was_refused_is_placed(self):
        refused = collections.Counter()
        for seed in range(30):
            with self.subTest(seed):
                life = random_life(seed)
                found = life.judged()
                self.assertEqual(found.replied(), sum(map(len, life.requests)))
                self.assertEqual([unit.held for unit in found.player.units], [unit.held for unit in life.units])
                refused += life.refused()
        # all acts of commands of several acts that serve no operation, and some others
        acts_of_several = {"Redeem", "Start", "Delete", "Open", "Capture", "Put"}
        self.assertLessEqual(acts_of_several | {"Read", "Write", "Pump"}, set(refused))

    def test_each_other_reply_is_found(self):
        for seed in range(30):
            rng, life = random.Random(seed), random_life(seed)
            for _ in range(4):
                talkers = life.talkers()
                replies = rng.choice(talkers).replies
                at = rng.randrange(len(replies))
                replies[at] = changed(rng, replies[at])
                with self.subTest((seed, at)), self.assertRaises(Differs):
                    life.judged(talkers)

    def test_records_that_had_room_are_found(self):
        """The units are full earlier than those are by whose shapes the life is judged."""
        for seed in range(30):
            life = random_life(seed)
            if any(frames.FULL in talker.statuses for talker in life.talkers()):
                with self.subTest(seed), self.assertRaisesRegex(Differs, NOT_FULL):
                    life.judged(machine=ROOMY)


class Worked(unittest.TestCase):
    """Lives that begin with a token of three blocks."""

    def setUp(self):
        self.life = Life()
        self.life.do(0, write(0, 3))
        self.life.do(0, POPULATE)

    def found(self, why, talkers=None, **how):
        with self.assertRaisesRegex(Differs, why):
            self.life.judged(talkers, **how)


class Placing(Worked):
    """A command is refused at some act, and the same command is done a little later."""

    def placed(self, request, act):
        """The command that is begun is replied to by TASK SET FULL, since that act is refused."""
        life = self.life
        self.assertEqual(life.go_on(0), frames.FULL)
        life.calls.failing = NONE
        life.do(0, request)
        life.end()
        self.assertEqual([reply[0] for reply in life.replies(0)], [frames.GOOD, frames.GOOD, frames.FULL, frames.GOOD])
        self.assertEqual(life.refused(), collections.Counter(["Read", act]))
        life.judged()
        self.found(NOT_FULL, failing=5)
        talkers = life.talkers()
        talkers[0].replies.reverse()
        self.found("nexus 0: reply ", talkers)

    def test_read(self):
        self.life.fill(0)
        self.life.begin(0, read(0))
        self.placed(read(0), "Read")

    def test_redeem(self):
        self.life.fill(0)
        self.life.begin(0, use())
        self.placed(use(), "Redeem")

    def test_start(self):
        self.life.fill(1)
        self.life.begin(0, use())
        self.placed(use(), "Start")

    def test_delete(self):
        self.life.begin(0, use(delete=1))
        self.life.act(0)
        self.life.fill(0)
        self.placed(use(), "Delete")

    def test_open(self):
        self.life.fill(0)
        self.life.begin(0, COPY)
        self.placed(COPY, "Open")

    def test_capture(self):
        self.life.begin(0, COPY)
        self.life.act(0)
        self.life.fill(0)
        self.placed(COPY, "Capture")

    def test_put(self):
        self.life.begin(0, COPY)
        self.life.fill(1)
        self.placed(COPY, "Put")


class Wrong(Worked):
    def filled(self):
        """A record was full, and could have refused one act more than it did."""
        self.life.fill(0)
        self.life.pump(0)
        self.life.calls.failing = NONE

    def test_full_with_an_entry(self):
        self.filled()
        self.life.do(0, read(0))
        self.life.do(0, read(1))
        self.life.end().judged()
        talkers = self.life.talkers()
        talkers[0].replies[2] = frames.full()
        self.found("reply 3, to read, wants the Read on unit 1, and there is the Read of nexus 0 on unit 0", talkers)
        talkers = self.life.talkers()
        talkers[0].replies[3] = frames.full()
        self.found(NOT_FULL, talkers)

    def test_full_with_the_last_entry(self):
        self.filled()
        self.life.do(0, read(0))
        self.life.end()
        talkers = self.life.talkers()
        talkers[0].replies[2] = frames.full()
        self.found("the Read of nexus 0 on unit 0, stamp .*: no command asked for it that was not refused", talkers)

    def test_full_without_an_act(self):
        self.filled()
        self.life.do(0, READY)
        self.life.end()
        talkers = self.life.talkers()
        talkers[0].replies[2] = frames.full()
        self.found(NOT_FULL, talkers)

    def test_full_while_there_was_room(self):
        """Between two entries of the nexus; behind them the record may have been full."""
        self.life.do(0, read(0))
        self.filled()
        self.life.end()
        for place in (2, 3):
            talkers = self.life.talkers()
            talkers[0].requests.insert(place, read(0))
            talkers[0].replies.insert(place, frames.full())
            if place == 3:
                self.life.judged(talkers)
            else:
                self.found(NOT_FULL, talkers)

    def test_what_comes_behind_full(self):
        self.life.fill(0)
        self.life.do(0, read(0))
        self.life.calls.failing = NONE
        self.life.do(0, read(0))
        self.life.end().judged()
        talkers = self.life.talkers()
        reply = talkers[0].replies[3]
        talkers[0].replies[3] = reply[:-1] + b"\x12"
        self.found("reply 3, to read, differs from its byte 517 on", talkers)
        talkers[0].replies[3], talkers[0].behind = reply, b"\0"
        self.found("1 bytes behind the last reply", talkers)

    def test_bytes_of_writes(self):
        """A WRITE may lack bytes where each other act has room."""
        self.life.calls.failing = ALL
        self.life.do(0, write(2, 16))
        self.life.do(0, write(2, 2))
        self.life.do(0, read(2))
        self.life.end().judged()
        talkers = self.life.talkers()
        talkers[0].replies[4] = frames.full()
        self.found(NOT_FULL, talkers)

    def test_entries_that_end_what_ran_before(self):
        """They are unrecorded at first, though no call failed."""
        unit = NotedUnit(unfolded(MACHINE), 0)
        for endings, is_full in ((1, False), (2, True)):
            room = conversations.Room(Shape(3000, entries=3), unit, endings)
            for _ in range(3):
                unit.act(0, MOMENT, acts.Read(0, 1))
                room.note(unit)
            self.assertEqual(room.may_lack(0, acts.Read(0, 1), 3, 1), is_full)


if __name__ == "__main__":
    unittest.main()
