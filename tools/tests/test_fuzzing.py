"""Changed inputs: that they are changed, and that a difference is found and named."""

import pathlib
import random
import sys
import tempfile
import unittest

from copymgr_formats import cdbs, frames
from fuzzing import changes, fields, traces
from fuzzing.bases import BASES, MACHINE
from replay import player

from . import support

SAYS_ANOTHER_SENSE = """#!{python}
import subprocess, sys
done = subprocess.run(["{plain}", "replay"], stdin=sys.stdin, capture_output=True)
sys.stdout.buffer.write(done.stdout.replace(bytes([10, 0, 0, 0, 0, 0x26]), bytes([10, 0, 0, 0, 0, 0x27])))
sys.stderr.buffer.write(done.stderr)
sys.exit(done.returncode)
"""


class Changes(unittest.TestCase):
    def test_values(self):
        found = fields.values(300, 2)
        self.assertTrue({0, 1, 299, 301, 332, 0x7FFF, 0x8000, 0xFFFF, 2048, 2049} <= set(found))
        self.assertNotIn(300, found)
        self.assertEqual((min(found), max(found)), (0, 0xFFFF))
        self.assertEqual(fields.changed(b"abcd", 1, 2, 0x3132), b"a12d")
        self.assertEqual(fields.changed(b"abcd", 3, 4, 0x31323334), b"abc1")
        self.assertEqual(fields.changed(b"abcd", 4, 2, 0x3132), b"abcd")

    def test_each_command_has_changes_of_each_kind(self):
        names = {form.name for form in cdbs.FORMS.values()}
        for name, made in BASES.items():
            trace = traces.Trace(random.Random(1))
            request = made(trace.base)
            trace.ask(request)
            # but for what is told of operations that were never begun
            good = trace.player.replies[-1].bytes[4] == frames.GOOD
            self.assertTrue(good or "status" in name or "abort" in name or "rod token" in name, name)
            names.discard(cdbs.decode(request.cdb).name)
            for way in changes.WAYS:
                found = list(way(request))
                self.assertTrue(found or way is changes.of_list, (name, way))
                self.assertGreaterEqual(len(found), 9 * sum(changed == request for _, changed in found), (name, way))
            if request.out and "write" not in name:
                cuts = {len(changed.out) for _, changed in changes.of_length(request)}
                self.assertLessEqual(set(range(len(request.out))), cuts)
        self.assertEqual(names, set())

    def test_headers(self):
        header = frames.header_bytes(MACHINE)
        statuses = [player.play(data)[1] for _, data in changes.of_header(header)]
        # where there are fewer units, what stands behind them is an item of no kind
        self.assertEqual(set(statuses), {frames.DONE, frames.TORN, frames.BAD_HEADER, frames.BAD_RECORD})
        self.assertGreater(min(map(statuses.count, (frames.DONE, frames.TORN, frames.BAD_HEADER))), 100)


class Fuzz(unittest.TestCase):
    def last(self, *words):
        output, said, status = support.run("fuzz", *words)
        self.assertEqual(said, "")
        return output.decode().splitlines(), status

    def test_the_plain_replay_differs_from_itself_nowhere(self):
        lines, status = self.last("tools/people/plain-replay", "2000", "3", "--part", "requests")
        self.assertEqual(status, 0)
        self.assertRegex(lines[0], "requests and items: 2[0-9]{3} inputs, no difference")
        self.assertRegex(lines[-1], "^2[0-9]{3} passed, 0 failed$")

    def test_a_difference_is_found(self):
        with tempfile.TemporaryDirectory() as folder:
            program = pathlib.Path(folder) / "program"
            program.write_text(SAYS_ANOTHER_SENSE.format(python=sys.executable, plain=support.TOOLS / "people/plain-replay"))
            program.chmod(0o755)
            lines, status = self.last(str(program), "4000", "--part", "requests")
        for line in lines:
            if line.startswith("/"):
                pathlib.Path(line.split(":")[0]).unlink()
        self.assertEqual(status, 1)
        self.assertRegex(lines[0], "populate: list field at [0-9]+ is .*: reply [0-9]+, to populate token")
        self.assertRegex(lines[-1], "[1-9][0-9]* failed")

    @unittest.skipIf(support.NO_PROGRAM, support.NO_PROGRAM)
    def test_the_program(self):
        for part, inputs in (("requests", "6000"), ("headers", "600")):
            lines, status = self.last(support.PROGRAM, inputs, "--part", part)
            self.assertEqual((status, lines[-1].endswith(" 0 failed")), (0, True), lines)
