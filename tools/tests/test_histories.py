"""Histories that are played again: what a run of the tool says, and that what is not as it was is found."""

import contextlib
import io
import pathlib
import random
import re
import shutil
import struct
import sys
import tempfile
import unittest
from unittest import mock

from copymgr.hosts import Reply
from copymgr.server import can_serve, report_of
from copymgr_formats import cdbs, frames, lists, rod_token
from histories import judging, talking
from histories.following import Differs, followed, told
from loading.results import Results
from replay import entries, player, written
from replay.recording import recorded_units
from replay.traces import STYLES, Trace

from . import support

PLAIN = [str(support.TOOLS / "people/plain-replay")]
NO_PROGRAM = None if can_serve(support.PROGRAM) else f"no program that serves at {support.PROGRAM}"

# it serves as the plain server does, but for what it tells of an operation
ANOTHER = """#!{python}
import runpy, sys
sys.path.insert(0, "{tools}")
import house
from replay import told
right = told.operation_bytes
is_serving = sys.argv[1] == "serve"
if is_serving:
    told.operation_bytes = lambda report, behind: bytes([1]) + right(report, behind)[1:]
    sys.argv.pop(1)
runpy.run_path("{tools}/people/plain-" + ("serve" if is_serving else "replay"), run_name="__main__")
"""

# the record of the first has room for one WRITE
SHAPES = [frames.Shape(100, 512, 9, 100, 1000, 0), frames.Shape(100, 512, 9, 100, 9000, 0)]
MACHINE = frames.Machine(frames.SECRET, SHAPES)
LOOK = frames.Request(0, bytes(16), b"")
READ = frames.Request(0, cdbs.encode(0x88, lba=5, count=1), b"")
WRITE = frames.Request(0, cdbs.encode(0x8A, lba=5, count=1), b"\x11" * 512)
POPULATE_OUT = lists.populate_bytes(0, [(5, 1)])
POPULATE = frames.Request(0, cdbs.encode(0x83, 0x10, id=1, length=len(POPULATE_OUT)), POPULATE_OUT)
USE_OUT = lists.write_bytes(rod_token.text(MACHINE, 0, 0, 1), [(7, 1)])
USE = frames.Request(1, cdbs.encode(0x83, 0x11, id=1, length=len(USE_OUT)), USE_OUT)
# of two nexus; the last command of the first, and a pump, come in the midst of one of the second
REQUESTS = [[WRITE, LOOK, POPULATE, WRITE], [READ, USE, LOOK]]
ORDER = [0, 1, 0, 1, 0, "pump 0", 1, 1]


# in traces of these styles is each act but an End
STYLES_OF_ALL_ACTS = [*list(STYLES)[:4], "reserved"]


class Recorded:
    """What units and connections leave that did these requests in this order."""

    def __init__(self, folder):
        units = recorded_units(MACHINE, folder)
        self.player = player.Player(MACHINE, units)
        self.left = [list(requests) for requests in REQUESTS]
        for actor in ORDER:
            self.act(actor)
        for nexus in range(len(REQUESTS)):
            self.begin(nexus)
        for unit in units:
            unit.fold()
        self.history = written.merged(written.read_folder(folder, len(units)))
        self.replies = [
            [reply.bytes[4:] for reply in self.player.replies if judging.nexus_of(reply) == nexus]
            for nexus in range(len(REQUESTS))
        ]

    def begin(self, nexus):
        while self.left[nexus] and nexus not in self.player.pending:
            self.player.play(frames.Begin(nexus, 0, self.left[nexus].pop(0)))

    def act(self, actor):
        if actor == "pump 0":
            self.player.play(frames.Pump(0, 3))
            return
        self.begin(actor)
        self.player.play(frames.Run(actor, 2))


class Following(unittest.TestCase):
    def setUp(self):
        folder = tempfile.TemporaryDirectory()
        self.addCleanup(folder.cleanup)
        self.folder = folder.name
        self.recorded = Recorded(folder.name)
        self.history, self.replies = self.recorded.history, self.recorded.replies

    def differs(self, history, why):
        with self.assertRaisesRegex(Differs, why):
            followed(MACHINE, REQUESTS, history)

    def judged(self, following, replies):
        """What is said of replies, in lines, and how many judgements they passed and failed."""
        results = Results()
        with contextlib.redirect_stdout(io.StringIO()) as said:
            judging.judge_replies(results, following, replies)
            judging.judge_replay(results, following, replies, PLAIN)
            judging.judge_check(results, following, replies, PLAIN, 100)
        return said.getvalue().splitlines(), results.passed, results.failed

    def test_a_history_gives_its_trace(self):
        following = followed(MACHINE, REQUESTS, self.history)
        order = [entry.actor if entry.actor != player.PUMP else "pump 0" for entry in self.history]
        # by stamp, and at one stamp by unit
        self.assertEqual([(entry.stamp, entry.unit) for entry in self.history], [
            (1, 0), (2, 0), (3, 0), (4, 0), (5, 0), (5, 1), (6, 0), (6, 1),
        ])
        self.assertEqual((sorted(map(str, order)), following.between), (sorted(map(str, ORDER)), 2))
        self.assertEqual(self.judged(following, self.replies)[1:], (3, 0))
        self.assertEqual(len(following.player.replies), 7)
        trace, wanted = following.beginning(4)
        self.assertEqual(([reply.name for reply in wanted], player.play(trace)[0]), (["write", "read"], wanted))

    def test_a_reply_with_another_byte_is_found(self):
        following = followed(MACHINE, REQUESTS, self.history)
        self.replies[1][0] = self.replies[1][0][:-1] + b"\x10"
        said, passed, failed = self.judged(following, self.replies)
        self.assertEqual((passed, failed), (0, 3))
        self.assertIn("FAILED: connection 1: reply 0, to read, at byte 0, differs from its byte 517 on", said[0])
        self.assertIn("reply 1, to read, at byte 10, differs from its byte 521 on", said[1])
        self.assertRegex(said[2], r"FAILED: check \(.*\): reply 1, to read, differs at its byte 521, byte 531 of")

    def test_a_missing_reply_is_found(self):
        following = followed(MACHINE, REQUESTS, self.history)
        self.replies[0].pop()
        self.assertEqual(self.judged(following, self.replies)[1:], (0, 3))

    def test_entries_in_another_order_are_found(self):
        """The Write and the Read of its block do not commute."""
        write, read, *rest = self.history
        self.differs([read, write, *rest], "the Read of nexus 1 on unit 0, stamp 2 differs from its byte 7 on: 02")
        # also where they have each other's stamps, as if they had come so
        first = read._replace(stamp=1, text=write.text[:8] + read.text[8:])
        second = write._replace(stamp=2, text=read.text[:8] + write.text[8:])
        found = list(judging.differences(followed(MACHINE, REQUESTS, [first, second, *rest]), self.replies))
        self.assertEqual(len(found), 1)
        self.assertIn("connection 1: reply 0, to read, at byte 0, differs from its byte 6 on", found[0])

    def test_other_entries_are_found(self):
        last = self.history[-1]
        self.differs(self.history[:-1], "a write using token of nexus 1 waits for an act without an entry")
        self.differs([*self.history, last], "the Advance of nexus 1 .*: no request of the nexus asks for it")
        self.differs([self.history[0]._replace(actor=9)], "the Write of nexus 9 .*: there is no such nexus")
        pump = next(entry for entry in self.history if entry.actor == player.PUMP)
        self.assertEqual(told(pump), "the Pump on unit 0, stamp 6")
        self.differs([self.history[0], *self.history[2:]], "stamp 3 differs from its byte 7 on: 03")

    def test_a_report_is_judged(self):
        following = followed(MACHINE, REQUESTS, self.history)
        lines = "sessions 2\nfaults 0\nmemory 0\ncommands 7\n{}unit 1 steps 2 live 0 mapped 1\ntotal 8\nkept 0\n"
        for unit, passed in (("unit 0 steps 6 live 1 mapped 1\n", 2), ("unit 0 steps 6 live 0 mapped 1\n", 1)):
            results = Results()
            with contextlib.redirect_stdout(io.StringIO()):
                judging.judge_report(results, following, report_of(lines.format(unit)), 7)
            self.assertEqual((results.passed, results.failed), (passed, 2 - passed))

    def test_other_statuses_are_told(self):
        results = Results()
        with contextlib.redirect_stdout(io.StringIO()) as said:
            judging.judge_statuses(results, [[frames.good(b""), frames.full()], [frames.check((5, 0x24, 0))]])
        self.assertEqual(results.failed, 1)
        self.assertEqual(said.getvalue().splitlines()[0], "replies: 05/24/00: 1, GOOD: 1, TASK SET FULL: 1")


class Files(unittest.TestCase):
    def test_entries_are_read(self):
        """Of random traces, each with its text and what stands in front."""
        seen = set()
        for number in range(12):
            with mock.patch.object(player, "Unit", entries.NotedUnit):
                trace = Trace(random.Random(f"histories {number}"), STYLES_OF_ALL_ACTS[number % 5])
            for unit in trace.player.units:
                data = b"".join(map(entries.text, unit.record))
                found = written.entries_of(data)
                self.assertEqual([entry.text for entry in found], [entries.text(entry) for entry in unit.record])
                for read, entry in zip(found, unit.record):
                    self.assertEqual(read[:5], (entry.stamp, entry.unit, entry.actor, entry.seq, entry.moment))
                    self.assertEqual(read.act, type(entry.act).__name__)
                seen |= {entry.act for entry in found}
        # an End is asked for want of memory alone
        self.assertEqual(seen | {"End"}, set(written.NAMES.values()))

    def test_what_is_no_entry(self):
        with tempfile.TemporaryDirectory() as folder:
            recorded = Recorded(folder)
            file = pathlib.Path(folder, "unit-0")
            data = file.read_bytes()
            size = len(recorded.history[0].text)
            for changed, why in [
                (data[:-1], r"unit-0: no entry stands at byte \d+ of \d+"),
                (data[:size] + b"\0" * 31 + b"\x13", f"unit-0: no entry stands at byte {size} of"),
                (data[:10] + b"\2" + data[11:], "unit-0: no entry stands at byte 0 of"),
                (data[:9] + b"\1" + data[10:], "unit-0 has an entry of another unit"),
            ]:
                file.write_bytes(changed)
                with self.assertRaisesRegex(written.NoEntry, why):
                    written.read_folder(folder, 2)


class Requests(unittest.TestCase):
    def test_no_start_wants_more_room_than_there_is(self):
        self.assertEqual([talking.is_long(request) for request in (*REQUESTS[0], *REQUESTS[1])], [False] * 7)
        for blocks, long in ((5 * 1024, False), (5 * 1024 + 1, True)):
            out = lists.write_bytes(rod_token.ZERO, [(0, 1), (9, blocks - 1)])
            cdb = cdbs.encode(0x83, 0x11, id=1, length=len(out))
            self.assertEqual(talking.is_long(frames.Request(0, cdb, out)), long)
            self.assertFalse(talking.is_long(frames.Request(0, cdb, out[:-1])))

    def test_a_token_that_was_told_is_used(self):
        told_text = rod_token.text(MACHINE, 0, 0, 1)
        look = frames.Request(0, cdbs.encode(0x84, 0x07, id=1, length=1024), b"")
        data = struct.pack(">I5x", 5 + 512) + told_text
        self.assertEqual(talking.token_in(look, Reply(frames.GOOD, b"", data)), told_text)
        self.assertIsNone(talking.token_in(READ, Reply(frames.GOOD, b"", data)))
        for cut in (data[:-1], data[:511], b""):
            self.assertIsNone(talking.token_in(look, Reply(frames.GOOD, b"", cut)))
        requests = talking.SharedRequests(random.Random(1), MACHINE, [])
        self.assertIsNone(requests.token())
        requests.texts.append(told_text)
        self.assertEqual(requests.token(), (0, told_text, 1))


class Tool(unittest.TestCase):
    def is_played_again(self, program, *words):
        said, why, status = support.run("served-history", program, *words)
        lines = said.decode().splitlines()
        if status and "it is not served" in lines[0]:
            self.skipTest(f"no sockets here: {lines[0]}")
        self.assertEqual((lines[-1], why, status), ("7 passed, 0 failed", "", 0), lines)

    def test_the_plain_server(self):
        self.is_played_again("-", "--connections", "8", "--commands", "20", "--seed", "3")

    def test_changed_requests(self):
        self.is_played_again("-", "--connections", "4", "--commands", "60", "--seed", "3", "--changed", "0.8", "--check", "200")

    def test_a_program_that_replies_otherwise(self):
        with tempfile.TemporaryDirectory() as folder:
            program = pathlib.Path(folder, "another")
            program.write_text(ANOTHER.format(python=sys.executable, tools=support.TOOLS), encoding="utf-8")
            program.chmod(0o755)
            said, why, status = support.run("served-history", str(program), "--connections", "3", "--commands", "30")
        *_, kept, counted = said.decode().splitlines()
        if counted == "0 passed, 1 failed":
            self.skipTest("no sockets here")
        kept = pathlib.Path(re.search(" are kept in (.*)", kept)[1])
        names = {path.name for path in kept.iterdir()}
        trace = (kept / "trace").read_bytes()
        shutil.rmtree(kept)
        self.assertEqual((counted, why, status), ("4 passed, 3 failed", "", 1), said)
        self.assertEqual(said.count(b"FAILED: "), 3)
        self.assertLessEqual({"requests-2", "replies-2", "unit-3", "trace"}, names)
        self.assertEqual(player.play(trace)[1], frames.DONE)

    @unittest.skipIf(NO_PROGRAM, NO_PROGRAM)
    def test_the_program(self):
        self.is_played_again(support.PROGRAM, "--connections", "8", "--commands", "20", "--seed", "3", "--check", "150")


if __name__ == "__main__":
    unittest.main()
