"""Runs in which one allocation is refused: how they may end, and which allocations count."""

import os
import shutil
import subprocess
import tempfile
import unittest

from copymgr_formats import frames
from refusing.preloaded import Refusal
from refusing.replaying import Ended, Generated, Replay
from refusing.serving import Served, Serving, Session, report_of
from replay import generated

from . import support

TRACE = support.run("row", "trace", "write then read")[0]
REPLIES = support.run("row", "replies", "write then read")[0]
NEXUS, GOOD, BUSY = b"\0\0\0\1", frames.good(b""), frames.busy()
WRITTEN, ZEROS = frames.good(b"\x11" * 512 + b"\x22" * 512 + bytes(512)), frames.good(bytes(1536))
OUT_OF_MEMORY = "copymgr: out of memory\n"

# it asks for memory itself, and has the C library do so
ASKS = "#include <stdlib.h>\n#include <string.h>\nint main() { char *a = malloc(1), *b = strdup(\"\"); return !a + 2 * !b; }\n"


class Replayed(unittest.TestCase):
    """Of the ends of a replay only those pass that one refusal brings about."""

    def setUp(self):
        self.run_of = Replay("none", TRACE)

    def kind(self, replies, status=0, said=""):
        return self.run_of.kind_of(Ended(replies, status, said))

    def test_ample_memory(self):
        self.assertEqual(self.kind(REPLIES), "status 0, all replies")
        self.assertTrue(self.run_of.is_ample(Ended(REPLIES, 0, "")))

    def test_out_of_memory(self):
        for size in range(len(REPLIES) + 1):
            self.assertEqual(self.kind(REPLIES[:size], 3, OUT_OF_MEMORY), "status 3, a beginning")
        for output, said in [(REPLIES + b"\0", OUT_OF_MEMORY), (NEXUS + BUSY, OUT_OF_MEMORY), (REPLIES, "")]:
            self.assertIsNone(self.kind(output, 3, said))

    def test_busy(self):
        """The Write was not done, or it was; then the READ is BUSY."""
        for replies in [(BUSY, ZEROS), (BUSY, WRITTEN), (GOOD, BUSY)]:
            self.assertEqual(self.kind(b"".join(NEXUS + reply for reply in replies)), "status 0, BUSY")
        place = len(TRACE) - 13
        line = f"copymgr: bad record at byte {place}\n"
        self.assertEqual(self.kind(NEXUS + GOOD + NEXUS + BUSY, 7, line), "status 7, BUSY")

    def test_what_no_refusal_brings_about(self):
        for replies in [(BUSY, BUSY), (GOOD, ZEROS), (BUSY, GOOD), (BUSY,), (GOOD,), ()]:
            self.assertIsNone(self.kind(b"".join(NEXUS + reply for reply in replies)), replies)
        self.assertIsNone(self.kind(REPLIES, 9))
        self.assertIsNone(self.kind(REPLIES, -11))


class OneLink(unittest.TestCase):
    """The same of a connection and its report."""

    def setUp(self):
        self.run_of = Serving("none", TRACE)

    def kind(self, replies, units, memory=0, commands=2):
        report = report_of([units], memory, commands)
        return self.run_of.kind_of(Served(b"".join(replies), report, 0, ""))

    def test_ample_memory(self):
        self.assertEqual(self.kind((GOOD, WRITTEN), (2, 0, 2)), "status 0, all replies")
        self.assertEqual(
            self.run_of.served(self.run_of.commands.ample).report,
            "sessions 1\nfaults 0\nmemory 0\ncommands 2\nunit 0 steps 3 live 0 mapped 2\ntotal 3\n",
        )

    def test_busy(self):
        for replies, units in [((BUSY, ZEROS), (1, 0, 0)), ((BUSY, WRITTEN), (2, 0, 2)), ((GOOD, BUSY), (1, 0, 2))]:
            self.assertEqual(self.kind(replies, units), "status 0, BUSY")
            self.assertIsNone(self.kind(replies, (5, 0, 2)))
            self.assertIsNone(self.kind(replies, units, memory=1))

    def test_a_session_that_ends(self):
        """Behind the replies that came, the next command was done or not."""
        kind = "status 0, a session out of memory"
        for commands, units in [(0, (0, 0, 0)), (0, (1, 0, 2)), (1, (1, 0, 2)), (1, (2, 0, 2)), (2, (2, 0, 2))]:
            self.assertEqual(self.kind((GOOD, WRITTEN)[:commands], units, 1, commands), kind)
        self.assertEqual(self.kind((GOOD, WRITTEN[:100]), (2, 0, 2), 1, 1), kind)
        for replies, units, commands in [((), (2, 0, 2), 0), ((GOOD,), (1, 0, 2), 2), ((BUSY,), (0, 0, 0), 1)]:
            self.assertIsNone(self.kind(replies, units, 1, commands))

    def test_out_of_memory(self):
        for replies in [b"", GOOD, GOOD + WRITTEN[:9]]:
            self.assertEqual(self.run_of.kind_of(Served(replies, "", 3, OUT_OF_MEMORY)), "status 3, a beginning")
        for served in [Served(ZEROS, "", 3, OUT_OF_MEMORY), Served(GOOD, "sessions 1\n", 3, OUT_OF_MEMORY), Served(GOOD, "", 3, "")]:
            self.assertIsNone(self.run_of.kind_of(served))


class OneSession(unittest.TestCase):
    """The same of a session over the standard streams."""

    def test_kinds(self):
        run_of = Session("none", TRACE)
        for ended, kind in [
            (Ended(GOOD + WRITTEN, 0, ""), "status 0, all replies"), (Ended(BUSY + ZEROS, 0, ""), "status 0, BUSY"),
            (Ended(BUSY + WRITTEN, 0, ""), "status 0, BUSY"), (Ended(GOOD + WRITTEN[:5], 3, ""), "status 3, a beginning"),
            (Ended(b"", 6, "session_bench: out of memory\n"), "status 6, no session"), (Ended(GOOD + ZEROS, 0, ""), None),
            (Ended(ZEROS, 3, ""), None), (Ended(GOOD, 6, "session_bench: out of memory\n"), None), (Ended(GOOD, 0, ""), None),
        ]:
            self.assertEqual(run_of.kind_of(ended), kind)


class Counts(unittest.TestCase):
    """Of the generated trace the counts are written, or nothing."""

    def test_kinds(self):
        run_of, counts = Generated("none"), generated.summary(generated.trace(8))
        self.assertEqual(run_of.kind_of(Ended(counts.encode(), 0, "")), "status 0, all replies")
        self.assertEqual(run_of.kind_of(Ended(b"", 3, OUT_OF_MEMORY)), "status 3, a beginning")
        self.assertIsNone(run_of.kind_of(Ended(b"records", 3, OUT_OF_MEMORY)))
        self.assertIsNone(run_of.kind_of(Ended(counts.replace("busy 0", "busy 1").encode(), 0, "")))
        # the reply to the first WRITE is BUSY, but the block is written
        short = generated.summary(generated.trace(8), {2: "step"})
        self.assertIn("good 39\ncheck 0\nbusy 1\n", short)
        self.assertEqual(run_of.kind_of(Ended(short.encode(), 0, "")), "status 0, BUSY")


@unittest.skipUnless(shutil.which(os.environ.get("CC", "cc")), "there is no C compiler")
class Refused(unittest.TestCase):
    def setUp(self):
        folder = tempfile.TemporaryDirectory()
        self.addCleanup(folder.cleanup)
        self.folder = folder.name
        self.refusal = Refusal(folder.name)

    def test_which_allocations_count(self):
        program = os.path.join(self.folder, "asks")
        words = [os.environ.get("CC", "cc"), "-O0", "-x", "c", "-o", program, "-"]
        subprocess.run(words, input=ASKS, text=True, check=True)
        for number, of_program, wanted in [
            (1, False, (1, True)), (2, False, (2, True)), (3, False, (0, False)), (1, True, (1, True)), (2, True, (0, False)),
        ]:
            with self.subTest(number=number, of_program=of_program):
                environment = self.refusal.environment(number, of_program)
                status = subprocess.run([program], env=environment, check=False).returncode
                self.assertEqual((status, self.refusal.was_made()), wanted)

    @unittest.skipIf(support.NO_PROGRAM, support.NO_PROGRAM)
    def test_the_program(self):
        said, _, status = support.run("fail-allocations", support.PROGRAM)
        self.assertEqual((said.decode().splitlines()[-1], status), (f"{len(support.tool('fail-allocations').names())} passed, 0 failed", 0), said.decode())


if __name__ == "__main__":
    unittest.main()
