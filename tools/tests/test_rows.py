"""The worked traces as bytes, rows/bytes, and as text: rows/NAME.txt, whose first line is the name that the tables have,
and beside it the replies as text."""

import random
import struct
import subprocess
import unittest

from copymgr_formats import cdbs, frames, lists, rod_token

from . import support
from replay import player
from replay.traces import STYLES, Trace
from tracetext import playing, traces

ROWS = sorted((support.TOOLS / "tests/rows").glob("*.txt"))
TABLES = support.tool("row")


def text_of(path):
    with path.open(encoding="utf-8") as file:
        return traces.read_text(file)


def tables():
    """The bytes of each row of the program's tests, and of its replies."""
    return {
        name: (TABLES.bytes_of(trace, named), TABLES.bytes_of(replies, named))
        for name, trace, replies, named in TABLES.rows()
    }


def outs_of(path):
    """The replies that stand beside a text."""
    return path.with_suffix(".out").read_text(encoding="utf-8").splitlines()


class Played:
    """The worked traces of the tables beside this file, by a program: their replies, and `yes` of a check of both."""

    PROGRAM = None

    def ran(self, word, data):
        run = subprocess.run([self.PROGRAM, word], input=data, capture_output=True, check=False)
        return run.returncode, run.stdout, run.stderr

    def test_each_row(self):
        rows = [row for table in sorted(TABLES.TABLES.glob("*.rows")) for row in TABLES.table_rows(table)]
        self.assertGreaterEqual(len(rows), 24)
        for name, _, _ in rows:
            trace, replies = tables()[name]
            with self.subTest(name):
                self.assertEqual(self.ran("replay", trace), (0, replies, b""))
                check = struct.pack(">Q", len(trace)) + trace
                self.assertEqual(self.ran("check", check + replies), (0, b"yes\n", b""))
                place = len(replies) - 1
                changed = replies[:place] + bytes([replies[place] ^ 1])
                said = f"copymgr: replies differ at byte {place}\n".encode()
                self.assertEqual(self.ran("check", check + changed), (10, b"", said))


    def test_the_257th_record_drops_the_first(self):
        """Nothing is told of the first of 257 populates, and of the second its token is."""
        machine = frames.Machine(frames.SECRET, [frames.Shape(100, 512, 1_048_576, 100, 268_435_456, 0)])
        out = lists.populate_bytes(300, [(0, 1)])
        made = [frames.Request(0, cdbs.encode(0x83, 0x10, id=number, length=len(out)), out) for number in range(257)]
        asked = [frames.Request(0, cdbs.encode(0x84, 0x07, id=number, length=1024), b"") for number in (0, 1)]
        items = [[frames.Begin(1, 0, request), frames.Run(1, 0)] for request in made + asked]
        trace = frames.header_bytes(machine) + b"".join(frames.item_bytes(item) for pair in items for item in pair)
        status, replies, _ = self.ran("replay", trace)
        told = replies[257 * 10:]
        self.assertEqual((status, replies[: 257 * 10]), (0, (b"\0\0\0\1" + frames.good(b"")) * 257))
        self.assertEqual(told[4:28], frames.check((0x05, 0x24, 0x00)))
        self.assertEqual(told[32:38], bytes.fromhex("000000000226"))
        self.assertEqual(told[76:], rod_token.text(machine, 0, 1, 1))


class PlainPlayed(Played, unittest.TestCase):
    PROGRAM = str(support.TOOLS / "people/plain-replay")


@unittest.skipIf(support.NO_PROGRAM, support.NO_PROGRAM)
class ProgramPlayed(Played, unittest.TestCase):
    PROGRAM = support.PROGRAM

    def test_random_traces(self):
        """Of each style, beside the plain replay."""
        fault_of = support.tool("random-traces").fault_of
        for style in STYLES:
            for number in range(3):
                with self.subTest(style=style, number=number):
                    self.assertIsNone(fault_of(Trace(random.Random(f"program {style} {number}"), style), self.PROGRAM))


class Rows(unittest.TestCase):
    def test_the_text_is_the_row_of_the_programs_tests(self):
        self.assertGreaterEqual(len(ROWS), 30)
        rows = tables()
        for path in ROWS:
            with self.subTest(path.name):
                name = path.read_text(encoding="utf-8").splitlines()[0].removeprefix("# ")
                trace, replies = rows[name]
                data = traces.bytes_of(text_of(path))
                self.assertEqual(data, trace)
                self.assertEqual(b"".join(reply.bytes for reply in player.play(data)[0]), replies)

    def test_every_row_of_the_tables_comes_back_from_text(self):
        for name, (trace, _) in tables().items():
            with self.subTest(name):
                self.assertEqual(traces.bytes_of(traces.read_text(traces.text_of(trace))), trace)

    def test_the_replies_as_text(self):
        for path in ROWS:
            with self.subTest(path.name):
                self.assertEqual(playing.session(text_of(path))[0], outs_of(path))

    @unittest.skipIf(support.NO_PROGRAM, support.NO_PROGRAM)
    def test_the_program_replies_so(self):
        for path in ROWS:
            with self.subTest(path.name):
                self.assertEqual(playing.session(text_of(path), [support.PROGRAM])[0], outs_of(path))
