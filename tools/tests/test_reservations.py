"""Persistent reservations, and the rows that a test of the program has of them."""

import subprocess
import unittest

from copymgr_formats import cdbs, frames, lists
from copymgr_formats.reservations import (
    CLEAR, EXCLUSIVE_ACCESS, EXCLUSIVE_ACCESS_REGISTRANTS, PREEMPT, REGISTER, RELEASE, RESERVE, WRITE_EXCLUSIVE,
    WRITE_EXCLUSIVE_REGISTRANTS,
)
from replay.player import Player

from . import support

SHAPE = frames.Shape(100, 512, 1000, 100, 65_536, 0)
MACHINE = frames.Machine(frames.SECRET, [SHAPE])
GOOD, CONFLICT = frames.good(b""), frames.conflict()
BAD_CDB, BAD_LIST, BAD_LENGTH = (frames.check((5, *code)) for code in ((0x24, 0), (0x26, 0), (0x1A, 0)))
READ = frames.Request(0, cdbs.encode(0x88, lba=0, count=1), b"")
WRITE = frames.Request(0, cdbs.encode(0x8A, lba=0, count=1), bytes(512))


class Rows(unittest.TestCase):
    def test_the_rows_of_the_crate_are_those_of_the_plain_model(self):
        rows = subprocess.run([support.TOOLS / "proofs/reservation-rows"], capture_output=True, check=True).stdout
        self.assertEqual(rows, (support.TOOLS.parent / "crates/pr_keys/src/rows.rt").read_bytes())


class Reservations(unittest.TestCase):
    def setUp(self):
        self.player = Player(MACHINE)

    def reply(self, initiator, request):
        self.player.play(frames.Begin(initiator, 0, request))
        while initiator in self.player.pending:
            self.player.play(frames.Run(initiator, 0))
        return self.player.replies[-1].bytes[4:]

    def out(self, initiator, action, key=0, action_key=0, kind=0, scope=0):
        data = lists.reserve_bytes(key, action_key)
        cdb = cdbs.encode(cdbs.RESERVE_OUT, action, length=len(data), kind=kind, scope=scope)
        return self.reply(initiator, frames.Request(0, cdb, data))

    def register(self, *initiators):
        for initiator in initiators:
            self.assertEqual(self.out(initiator, REGISTER, 0, initiator), GOOD)

    def is_let(self, initiator):
        """Whether it may read, and whether it may write."""
        return tuple(self.reply(initiator, request)[0] == frames.GOOD for request in (READ, WRITE))

    def test_whom_each_type_bars(self):
        self.register(1, 2)
        wanted = {
            WRITE_EXCLUSIVE: [(True, False), (True, False)],
            EXCLUSIVE_ACCESS: [(False, False), (False, False)],
            WRITE_EXCLUSIVE_REGISTRANTS: [(True, True), (True, False)],
            EXCLUSIVE_ACCESS_REGISTRANTS: [(True, True), (False, False)],
        }
        for kind, others in wanted.items():
            with self.subTest(kind):
                self.assertEqual(self.out(1, RESERVE, 1, kind=kind), GOOD)
                self.assertEqual([self.is_let(initiator) for initiator in (1, 2, 3)], [(True, True)] + others)
                self.assertEqual(self.out(1, RELEASE, 1, kind=kind), GOOD)

    def test_refusals(self):
        self.register(1, 2)
        self.assertEqual(self.out(1, REGISTER, 2, 3), CONFLICT)
        self.assertEqual(self.out(3, CLEAR), CONFLICT)
        self.assertEqual(self.out(1, RESERVE, 1, kind=2), BAD_CDB)
        self.assertEqual(self.out(1, RESERVE, 1, kind=1, scope=1), BAD_CDB)
        self.assertEqual(self.out(1, RESERVE, 1, kind=1), GOOD)
        self.assertEqual(self.out(2, RESERVE, 2, kind=1), CONFLICT)
        self.assertEqual(self.out(1, RESERVE, 1, kind=3), CONFLICT)
        self.assertEqual(self.out(1, RELEASE, 1, kind=3), BAD_CDB)
        self.assertEqual(self.out(2, PREEMPT, 2, 0, kind=1), BAD_LIST)
        self.assertEqual(self.out(2, PREEMPT, 2, 7, kind=1), CONFLICT)
        short = frames.Request(0, cdbs.encode(cdbs.RESERVE_OUT, CLEAR, length=23), bytes(23))
        self.assertEqual(self.reply(1, short), BAD_LENGTH)

    def test_a_copy_ends_at_a_reservation(self):
        """The record says that it failed, and the reply is RESERVATION CONFLICT."""
        self.register(1)
        self.assertEqual(self.out(1, RESERVE, 1, kind=WRITE_EXCLUSIVE), GOOD)
        name = bytes([0x30]) + bytes(7)
        out = lists.copy_bytes(7, [lists.cscd_bytes(name, 512)], [lists.segment_bytes(0, 0, 1, 0, 5)])
        copy = frames.Request(0, cdbs.encode(0x83, 0x00, length=len(out)), out)
        self.assertEqual(self.reply(2, copy), CONFLICT)
        status = frames.Request(0, cdbs.encode(0x84, 0x00, id=7, length=12), b"")
        self.assertEqual(self.reply(2, status), frames.good(bytes.fromhex("000000080200000000000000")))
        unrecorded = lists.copy_bytes(7, [lists.cscd_bytes(name, 512)], [lists.segment_bytes(0, 0, 1, 0, 5)], 3)
        self.assertEqual(self.reply(2, copy._replace(out=unrecorded)), CONFLICT)
