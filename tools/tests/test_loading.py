"""What tools/campaigns/serving-load counts of a command holds: the acts of each unit lie within the bounds; and a run of it."""

import collections
import random
import socket
import unittest

from copymgr.server import can_manage, can_serve
from copymgr_formats import frames
from loading import bounds, clients
from loading.tallies import Row, Tallies
from replay.player import Player
from replay.requests import Requests
from replay.traces import STYLES

from . import support

NO_PROGRAM = None if can_serve(support.PROGRAM) else f"no program that serves at {support.PROGRAM}"
STATUS_OF = {0x00: "good", 0x02: "check", 0x28: "full"}
Told = collections.namedtuple("Told", "status data")


class Bounds(unittest.TestCase):
    def played(self, player, request):
        """The reply to a command that is played whole, with the Pumps that it brings, and the acts of each unit."""
        before = [unit.entries for unit in player.units]
        player.play(frames.Begin(1, 0, request))
        while 1 in player.pending:
            player.play(frames.Run(1, 0))
        reply = player.replies.pop().bytes[4:]
        for unit in player.units:
            while any(operation.background and operation.reserved() for operation in unit.operations):
                player.play(frames.Pump(unit.number, 0))
        return reply, [unit.entries - count for unit, count in zip(player.units, before)]

    def test_acts_lie_within_the_bounds(self):
        seen = collections.Counter()
        for number, name in enumerate(["mixed", "pieces", "copies", "full", "lists"] * 4):
            rng = random.Random(f"bounds {number}")
            style = STYLES[name]
            machine = frames.Machine(frames.SECRET, [style.shape(rng)._replace(quota=0) for _ in range(2)])
            machine.shapes[0] = machine.shapes[0]._replace(quota=machine.shapes[0].blocks)
            player = Player(machine)
            requests = Requests(rng, player, style)
            for _ in range(120):
                request = requests.request(1)
                if request.cdb[:2] == b"\x83\x1c":
                    continue
                reply, acts = self.played(player, request)
                sense = frames.sense_of(reply[6:]) if reply[0] == bounds.CHECK else None
                before, after = bounds.bounds_of(machine, request), bounds.bounds_of(machine, request, reply[0], sense)
                for unit, count in enumerate(acts):
                    told = (name, unit, request, reply[:30].hex(), count)
                    self.assertLessEqual(after.low[unit], count, told)
                    self.assertLessEqual(count, after.high[unit], told)
                    self.assertLessEqual(after.high[unit], before.high[unit], told)
                seen[STATUS_OF[reply[0]]] += sum(acts) > 0
        self.assertGreater(min(seen["good"], seen["check"]), 100, seen)

    def test_most_commands_are_known_exactly(self):
        machine = frames.Machine(frames.SECRET, clients.shapes_of(2))
        rng = random.Random(1)
        requests = Requests(rng, Player(machine), STYLES["mixed"])
        found = [bounds.bounds_of(machine, requests.write(1), bounds.GOOD) for _ in range(20)]
        self.assertTrue(all(one.low == one.high for one in found))


class Rows(unittest.TestCase):
    def test_a_row_is_seen_by_all(self):
        machine = frames.Machine(frames.SECRET, clients.shapes_of(2))
        tallies = Tallies(3, 4)
        row = Row(tallies, 1)
        request = frames.Request(2, b"\x8a\0" + bytes(11) + b"\x01\0\0", bytes(512))
        row.begin(machine, request)
        row.maps(2, 0, 1)
        seen = Row(tallies, 1).numbers
        self.assertEqual((seen["sent"], seen["replies"], seen["written"], seen["largest"]), (1, 0, 512, 512))
        self.assertEqual((seen["low 2"], seen["high 2"], seen["fewest 2"], seen["most 2"]), (0, 1, 0, 1))
        row.end(machine, request, Told(bounds.GOOD, b""), None)
        row.maps(2, 1, 1)
        self.assertEqual((tallies.sum("low 2"), tallies.sum("high 2"), tallies.sum("fewest 2")), (1, 1, 1))
        self.assertEqual((tallies.sum("replies"), tallies.sum("check")), (1, 0))


class Tool(unittest.TestCase):
    def setUp(self):
        try:
            socket.create_server(("127.0.0.1", 0)).close()
        except OSError as error:
            self.skipTest(f"no sockets here: {error}")

    def is_served(self, program):
        """Both parts, of few connections; what bounds it stands in the lines that are looked for."""
        said, why, status = support.run("serving-load", program, "--connections", "6", "--seconds", "2")
        lines = said.decode().splitlines()
        self.assertEqual((lines[-1].split()[1:], why, status), (["passed,", "0", "failed"], "", 0), lines)
        self.assertEqual(len([line for line in lines if line.startswith(("most threads: ", "most files "))]), 4, lines)

    def is_managed(self, program):
        said, why, status = support.run("managing-load", program, "--connections", "300", "--places", "64")
        lines = said.decode().splitlines()
        self.assertEqual((lines[-1].split()[1:], why, status), (["passed,", "0", "failed"], "", 0), lines)
        self.assertTrue(any(line.startswith("sessions: 300, and the clients counted 300") for line in lines), lines)

    def test_the_plain_manager(self):
        self.is_managed("-")

    @unittest.skipUnless(can_manage(support.PROGRAM), f"no program that manages at {support.PROGRAM}")
    def test_the_manager(self):
        self.is_managed(support.PROGRAM)

    def test_the_plain_server(self):
        self.is_served("-")

    @unittest.skipIf(NO_PROGRAM, NO_PROGRAM)
    def test_the_program(self):
        self.is_served(support.PROGRAM)
