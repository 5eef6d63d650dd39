"""A plain replay to which memory is refused: a command gives up as docs/commands.md says."""

import re
import struct
import unittest

from copymgr_formats import cdbs, frames, lists, rod_token
from replay import told
from replay.acts import Advance, End
from replay.player import ACT, BEGIN, Player, STEP, play

from . import support

TABLES = support.TOP / "crates/refusing_runs/src/tests.rt"
BUSY, GOOD = frames.busy(), frames.good(b"")
SHAPE = frames.Shape(9000, 512, 1000, 9000, 10_000_000, 0)
MACHINE = frames.Machine(frames.SECRET, [SHAPE, SHAPE])
WRITE = frames.Request(0, cdbs.encode(0x8A, lba=0, count=3), b"\x11" * 1536)
READ = frames.Request(0, cdbs.encode(0x88, lba=0, count=2), b"")
DATA = frames.good(b"\x11" * 1024)
WRITE_OUT = lists.write_bytes(rod_token.ZERO, [(0, 3000)])
ZERO_WRITE = frames.Request(0, cdbs.encode(0x83, 0x11, id=1, length=len(WRITE_OUT)), WRITE_OUT)
STATUS = frames.Request(0, cdbs.encode(0x84, 0x05, id=1, length=100), b"")


def table(name):
    """The bytes of pieces of hex text; `33*512` is the byte 33h 512 times."""
    pieces = re.search(rf"const {name}: \[&str; [0-9]+\] = \[(.*?)\];", TABLES.read_text(encoding="utf-8"), re.S)[1]
    pairs = (text.partition("*") for text in re.findall(r'"([^"]*)"', pieces))
    return b"".join(bytes.fromhex(digits) * int(count or 1) for digits, _, count in pairs)


def requests_of(data):
    while data:
        length, unit, cdb = struct.unpack_from(">IH16s", data)
        yield frames.Request(unit, cdb, data[22 : 22 + length])
        data = data[22 + length :]


class Nexus:
    """One nexus, which is refused memory at one of its acts; the acts are counted from 1."""

    def __init__(self, machine, number=0, shortage=None):
        self.player, self.number, self.shortage, self.acts = Player(machine), number, shortage, 0

    def ask(self, request):
        """Its reply."""
        self.player.play(frames.Begin(0, 0, request))
        while 0 in self.player.pending:
            self.acts += 1
            self.player.play(frames.Run(0, 0), self.shortage if self.acts == self.number else None)
        return self.player.replies[-1].bytes[4:]


class Worked(unittest.TestCase):
    """The sessions that the tests of refusing_runs work out."""

    def test_a_token_write_and_an_extended_copy(self):
        machine, _ = frames.read_header(table("UNITS"))
        for name, number in [("TOKEN_WRITE", 6), ("EXTENDED_COPY", 5)]:
            with self.subTest(name):
                nexus = Nexus(machine, number, ACT)
                replies = b"".join(nexus.ask(request) for request in requests_of(table(name)))
                self.assertEqual(replies, table(name + "_REPLIES"))


class Shortages(unittest.TestCase):
    def asked(self, number, shortage, *requests):
        nexus = Nexus(MACHINE, number, shortage)
        return [nexus.ask(request) for request in requests], nexus

    def test_an_act_is_not_done_or_its_reply_fails(self):
        """A Write that is refused memory does nothing; one whose reply fails is done."""
        self.assertEqual(self.asked(1, ACT, WRITE, READ)[0], [BUSY, frames.good(bytes(1024))])
        self.assertEqual(self.asked(1, STEP, WRITE, READ)[0], [BUSY, DATA])

    def test_a_beginning(self):
        player = Player(MACHINE)
        player.play(frames.Begin(7, 0, WRITE), BEGIN)
        self.assertEqual([reply.bytes for reply in player.replies], [b"\0\0\0\7" + BUSY])
        self.assertEqual((player.pending, player.units[0].entries), ({}, 0))

    def test_a_token_write_asks_for_its_end(self):
        """Start, Advances, and End where one of them is refused or the step to it fails."""
        for number, shortage, count in [(2, ACT, 0), (1, STEP, 0), (2, STEP, 1024), (3, ACT, 1024), (3, STEP, 2048)]:
            with self.subTest(number=number, shortage=shortage):
                (reply, status), nexus = self.asked(number, shortage, ZERO_WRITE, STATUS)
                self.assertEqual(reply, BUSY)
                self.assertEqual((status[11], int.from_bytes(status[22:30], "big")), (told.TERMINATED, count))
                self.assertFalse(any(operation.reserved() for operation in nexus.player.units[0].operations))
        (reply, status), _ = self.asked(4, STEP, ZERO_WRITE, STATUS)
        self.assertEqual((reply, status[11]), (BUSY, told.DONE))
        (reply, status), _ = self.asked(1, ACT, ZERO_WRITE, STATUS)
        self.assertEqual((reply, status), (BUSY, frames.check((5, 0x24, 0))))

    def test_an_end_ends_what_runs_in_the_foreground(self):
        player = Player(MACHINE)
        player.play(frames.Begin(0, 0, ZERO_WRITE))
        player.play(frames.Run(0, 0))
        unit = player.units[0]
        self.assertEqual(unit.act(0, 0, Advance(1)).count, 1024)
        self.assertEqual(unit.act(0, 0, End(1)).state, told.TERMINATED)
        self.assertEqual(unit.reserved(), 0)

    def test_a_copy_is_closed_as_terminated(self):
        cscd = lists.cscd_bytes(rod_token.unit_name(0), 512)
        segments = [lists.segment_bytes(0, 0, 2, 0, 10), lists.segment_bytes(0, 0, 1, 0, 20)]
        status = frames.Request(0, cdbs.encode(0x84, 0x00, id=1, length=100), b"")
        # Write; then Open, Capture, Put, Capture, Put, Close
        for usage, number, shortage, wanted in [
            (0, 2, ACT, None), (0, 2, STEP, (2, 0, 0)), (0, 3, STEP, (2, 0, 0)), (0, 4, STEP, (2, 1, 1024)),
            (0, 5, ACT, (2, 1, 1024)), (0, 6, STEP, (2, 2, 1536)), (0, 7, STEP, (1, 2, 1536)), (3, 2, ACT, None),
        ]:
            with self.subTest(usage=usage, number=number, shortage=shortage):
                out = lists.copy_bytes(1, [cscd], segments, usage)
                copy = frames.Request(0, cdbs.encode(0x83, 0x00, length=len(out)), out)
                (_, reply, data), nexus = self.asked(number, shortage, WRITE, copy, status)
                self.assertEqual((reply, nexus.player.units[0].reserved()), (BUSY, 0))
                if wanted is None:
                    self.assertEqual(data, frames.check((5, 0x24, 0)))
                else:
                    self.assertEqual(struct.unpack(">4xBHBI", data[6:]), (*wanted[:2], 0, wanted[2]))


class Traces(unittest.TestCase):
    TRACE = frames.header_bytes(MACHINE) + b"".join(
        map(frames.item_bytes, [frames.Begin(1, 0, WRITE), frames.Run(1, 0), frames.Begin(1, 0, READ), frames.Run(1, 0)])
    )

    def test_what_has_nothing_to_run_is_a_bad_record(self):
        replies, status, line = play(self.TRACE, {1: BEGIN})
        place = 42 + 64 + 35 + 1536
        self.assertEqual([reply.bytes[4:] for reply in replies], [BUSY])
        self.assertEqual((status, line), (7, f"copymgr: bad record at byte {place}\n"))

    def test_the_words_of_the_plain_replay(self):
        for words, wanted in [
            ([], GOOD + DATA), (["2:act"], BUSY + frames.good(bytes(1024))), (["2:step"], BUSY + DATA),
            (["2:act", "4:step"], BUSY + BUSY),
        ]:
            with self.subTest(words=words):
                asked = [word for shortage in words for word in ("--no-memory", shortage)]
                output, said, status = support.run("plain-replay", "replay", *asked, data=self.TRACE)
                replies = [output[at : at + size] for at, size in self.places(output)]
                self.assertEqual((b"".join(replies), said, status), (wanted, "", 0))
        for word in ["2", "2:never", "0:act", "x:act"]:
            _, said, status = support.run("plain-replay", "replay", "--no-memory", word, data=self.TRACE)
            self.assertEqual((status, said.count("\n")), (2, 1), said)

    @staticmethod
    def places(output):
        """Where each reply begins behind its initiator, and how long it is."""
        at = 0
        while at < len(output):
            size = 6 + sum(struct.unpack_from(">BI", output, at + 5))
            yield at + 4, size
            at += 4 + size


if __name__ == "__main__":
    unittest.main()
