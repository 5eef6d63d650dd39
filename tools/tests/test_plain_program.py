"""The plain program of bench/plain replies as the plain replay does to the commands that are measured."""

import os
import pathlib
import random
import shutil
import subprocess
import tempfile
import unittest

from copymgr_formats import cdbs, frames, senses
from replay import generated, player
from replay.traces import STYLES, Trace

from . import support

# by operation code and service action
MEASURED = {
    (0x88, None): "read",
    (0x8A, None): "write",
    (0x83, 0x00): "extended copy",
    (0x83, 0x10): "populate token",
    (0x83, 0x11): "write using token",
    (0x84, 0x07): "receive rod token information",
}
COMPILER = os.environ.get("CXX", "c++")
NO_COMPILER = None if shutil.which(COMPILER) else f"there is no {COMPILER} for the plain program of bench/plain"


def is_measured(item):
    """Whether it is no command, or one that is measured."""
    if not isinstance(item, frames.Begin):
        return True
    code, second = item.request.cdb[:2]
    return (code, None) in MEASURED or (code, second & 0x1F) in MEASURED


def measured_part(trace):
    """The trace without the commands that are not measured and without their Runs, and the replies to it."""
    machine, at = frames.read_header(trace)
    part, playing = bytearray(trace[:at]), player.Player(machine)
    while at < len(trace):
        item, end = frames.read_item(trace, at)
        if is_measured(item) and playing.fits(item):
            playing.play(item)
            part += trace[at:end]
        at = end
    return bytes(part), b"".join(reply.bytes for reply in playing.replies)


@unittest.skipIf(NO_COMPILER, NO_COMPILER)
class PlainProgram(unittest.TestCase):
    @classmethod
    def setUpClass(cls):
        folder = tempfile.TemporaryDirectory()  # pylint: disable=consider-using-with
        cls.addClassCleanup(folder.cleanup)
        cls.program = str(pathlib.Path(folder.name, "plain"))
        sources = sorted(support.TOP.glob("bench/plain/*.cpp"))
        subprocess.run([COMPILER, "-std=c++17", "-O1", "-Wall", "-Wextra", "-o", cls.program, *sources], check=True)

    def played(self, trace):
        """What it wrote, and how it ended."""
        run = subprocess.run([self.program, "replay"], input=trace, capture_output=True, check=False)
        return run.stdout, run.returncode, run.stderr.decode()

    def test_a_generated_trace(self):
        trace = generated.trace(300)
        wanted = b"".join(reply.bytes for reply in player.play(trace)[0])
        self.assertEqual(self.played(trace), (wanted, 0, ""))

    def test_the_measured_commands_of_random_traces(self):
        kinds = set()
        for style in STYLES:
            with self.subTest(style):
                number, trace = 0, Trace(random.Random(f"plain {style}"), style)
                while trace.status != frames.DONE:
                    number += 1
                    trace = Trace(random.Random(f"plain {style} {number}"), style)
                part, replies = measured_part(bytes(trace.bytes))
                self.assertEqual(self.played(part), (replies, 0, ""))
                kinds |= {reply.name for reply in player.play(part)[0]}
        self.assertLessEqual(set(MEASURED.values()), kinds)

    def test_bad_traces(self):
        trace = generated.trace(2)
        for bad in (trace[:30], trace[:-1], b"X" + trace[1:], trace + b"\x04"):
            replies, status, line = player.play(bad)
            self.assertEqual(self.played(bad), (b"".join(reply.bytes for reply in replies), status, line))

    def test_other_commands_are_not_there(self):
        request = frames.Request(0, cdbs.encode(0x12, length=36), b"")
        trace = frames.header_bytes(generated.MACHINE) + frames.item_bytes(frames.Begin(1, 0, request))
        wanted = (1).to_bytes(4, "big") + frames.check(senses.UNKNOWN_OPERATION)
        self.assertEqual(self.played(trace), (wanted, 0, ""))

    def test_wrong_words(self):
        for words in ([], ["check"], ["replay", "replay"]):
            run = subprocess.run([self.program, *words], input=b"", capture_output=True, check=False)
            self.assertEqual((run.returncode, run.stdout, run.stderr), (6, b"", b"plain: use plain replay < TRACE > REPLIES\n"))
