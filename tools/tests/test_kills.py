"""Kills of what stores: a power cut over a journal at each call, and servers that do it wrongly are found out."""

import os
import pathlib
import random
import re
import shutil
import subprocess
import sys
import tempfile
import unittest
from unittest import mock

from copymgr_formats import frames
from histories.following import Differs
from killing import lives, losing
from replay import journals

from . import support
from .test_journals import ENTRIES, NO_PROGRAM, opened

HAS_COMPILER = shutil.which(os.environ.get("CC", "cc"))
LOST = [losing.Write(0, 4, b"abcd", b"ABCD"), losing.Write(6, 4, b"", b"XY")]

# Makes a journal and adds entries, noting of each that it is there. Child N is killed at call N, and its files stand in
# the folder N, up to the child that has fewer calls.
ADDING = """
import itertools, os, pathlib, sys
sys.path.insert(0, "{tools}")
import house
from replay import entries, journals
from tests.test_journals import ENTRIES, MACHINE
{patch}
def add_all(folder):
    journal = journals.Journal(folder / "journal-0", MACHINE, 0)
    for number, entry in enumerate(ENTRIES, 1):
        journal.add(entries.text(entry))
        (folder / "there").write_text(str(number))

for call in itertools.count(1):
    folder = pathlib.Path(sys.argv[1], str(call))
    (folder / "notes").mkdir(parents=True)
    child = os.fork()
    if child == 0:
        os.environ.update(LOSE_NOTES=str(folder / "notes"), LOSE_KILL=str(call))
        add_all(folder)
        os._exit(0)
    status = os.waitstatus_to_exitcode(os.waitpid(child, 0)[1])
    if status != -9:
        sys.exit(status)
"""
# the gate is opened before the record is synced
ONE_SYNC = """
import os
def add(self, text):
    record = journals.framed(text)
    os.pwrite(self.file, record, self.gate + 1)
    self.write(bytes([journals.OPEN]), self.gate)
    self.gate += len(record)
journals.Journal.add = add
"""
NO_SYNC = """
import os
os.fsync = lambda file: None
"""

# it stores as the plain server does, but for this
ANOTHER = """#!{python}
import runpy, sys
sys.path.insert(0, "{tools}")
import house
{patch}
runpy.run_path("{tools}/people/plain-store", run_name="__main__")
"""
IS_STORE = """
if sys.argv[1] != "store":
    sys.exit(6)
del sys.argv[1]
"""
# an entry is recorded when the next one is made
LATE = IS_STORE + """
from replay import storing
from replay.entries import NotedUnit, text
def note(self, *deed):
    self.fold()
    NotedUnit.note(self, *deed)
storing.StoredUnit.note = note
"""
# what ran before is not ended
NO_ENDINGS = IS_STORE + """
from replay import storing
storing.endings = lambda unit, stamp: []
"""
# numbers of nexuses begin at 0 again
SAME_NEXUS = IS_STORE + """
from replay import storing
storing.next_nexus = lambda histories: 0
"""

# as each reply is, or `other` than it is
REPLIES = """
from copymgr_formats import frames
from replay import serving
right = serving.Server.reply
def reply(self, nexus, request):
    return other(self, request, right(self, nexus, request))
serving.Server.reply = reply
"""
# a READ that was done is TASK SET FULL where it left little room
FULL_AND_DONE = REPLIES + """
def other(server, request, found):
    kept = sum(len(unit.record) for unit in server.units if unit.number == request.unit)
    return frames.full() if kept >= 11 and request.cdb[0] in (0x28, 0x88) else found
"""
# since a record was full a READ has another last byte
WRONG_BEHIND_FULL = REPLIES + """
were_full = []
def other(server, request, found):
    if found[0] == frames.FULL:
        were_full.append(request)
    elif were_full and request.cdb[0] in (0x28, 0x88) and len(found) > 6:
        return found[:-1] + bytes([found[-1] ^ 1])
    return found
"""
# a record is full as soon as it has an entry
FULL_TOO_EARLY = """
from replay import storing
right = storing.StoredUnit.is_full
def is_full(self, act, served):
    if self.record:
        self.fold()
    return right(self, act, served) or (served is None and len(self.record) > 0)
storing.StoredUnit.is_full = is_full
"""


def another(folder, patch):
    """The path of that server."""
    path = pathlib.Path(folder, "another")
    path.write_text(ANOTHER.format(python=sys.executable, tools=support.TOOLS, patch=patch), encoding="utf-8")
    path.chmod(0o755)
    return str(path)


def unsynced(folder):
    """The path of the program, of which each sync says that it is done and does nothing."""
    source, library, path = (pathlib.Path(folder, name) for name in ("unsynced.c", "unsynced.so", "unsynced"))
    source.write_text("int fsync(int file) { (void)file; return 0; }\n", encoding="utf-8")
    subprocess.run([os.environ.get("CC", "cc"), "-shared", "-fPIC", "-o", library, source], check=True)
    path.write_text(f'#!/bin/sh\nLD_PRELOAD="{library} $LD_PRELOAD" exec "{support.PROGRAM}" "$@"\n', encoding="utf-8")
    path.chmod(0o755)
    return str(path)


class Losing(unittest.TestCase):
    def notes(self, writes):
        numbers = [losing.NUMBERS.pack(w.at, len(w.new), w.size, len(w.old)) for w in writes]
        return b"".join(number + w.old + w.new for number, w in zip(numbers, writes))

    def test_notes_are_read(self):
        notes = self.notes(LOST)
        self.assertEqual(losing.writes_in(notes), LOST)
        for end in range(len(notes)):
            self.assertEqual(losing.writes_in(notes[:end]), LOST[: int(end >= len(self.notes(LOST[:1])))])

    def test_what_was_synced_stands(self):
        self.assertEqual(losing.synced(b"ABCD\0\0XY", LOST), b"abcd")
        self.assertEqual(losing.synced(b"ABCD", LOST), b"abcd")
        self.assertEqual(losing.synced(b"ABcd", LOST[:1]), b"abcd")
        self.assertEqual(losing.synced(b"kept", []), b"kept")

    def test_what_is_left(self):
        """All else than what was written stays; each way in which it may be left comes."""
        rng, seen = random.Random(1), set()
        for _ in range(3000):
            found = losing.left(rng, b"-ABCD-", [losing.Write(1, 6, b"abcd", b"ABCD"), losing.Write(6, 6, b"", b"!")])
            self.assertEqual((found[:1], found[5:6]), (b"-", b"-"))
            seen.add(found)
        for wanted in (b"-abcd-", b"-ABCD-", b"-abcd-!", b"-ABCD-!", b"-ABcd-", b"-ABCD-\0"):
            self.assertIn(wanted, seen)
        self.assertEqual({len(found) for found in seen}, {6, 7})


@unittest.skipUnless(HAS_COMPILER, "there is no C compiler")
class PowerCuts(unittest.TestCase):
    """A journal that is made and has entries added, where power is cut at each call in turn."""

    def setUp(self):
        folder = tempfile.TemporaryDirectory()
        self.addCleanup(folder.cleanup)
        self.folder = pathlib.Path(folder.name)
        self.library = losing.library(folder.name)

    def runs(self, patch):
        """A folder for each call at which a run was killed."""
        script = self.folder / "adding.py"
        script.write_text(ADDING.format(tools=support.TOOLS, patch=patch), encoding="utf-8")
        more = {"LD_PRELOAD": self.library, "LOSE_SYNCS": "none"}
        subprocess.run([sys.executable, script, self.folder / "runs"], env=os.environ | more, check=True)
        *killed, last = sorted((self.folder / "runs").iterdir(), key=lambda folder: int(folder.name))
        self.assertEqual((last / "there").read_text(), str(len(ENTRIES)))
        return killed

    def lost(self, patch=""):
        """How many calls there were, and how many power cuts left another file than they may."""
        killed, lost = self.runs(patch), 0
        for folder in killed:
            there = int((folder / "there").read_text()) if (folder / "there").exists() else 0
            data, notes = (journals.read_file(folder / name) for name in ("journal-0", "notes/journal-0"))
            for seed in range(60):
                found = opened(losing.left(random.Random(seed), data, losing.writes_in(notes)))
                lost += found not in (ENTRIES[:there], ENTRIES[: there + 1])
        return len(killed), lost

    def test_no_entry_is_lost(self):
        # a sync, three writes with theirs, and four calls for each entry
        self.assertEqual(self.lost(), (1 + 6 + 4 * len(ENTRIES), 0))

    def test_a_gate_that_is_opened_too_early_is_found(self):
        calls, lost = self.lost(ONE_SYNC)
        self.assertEqual(calls, 1 + 6 + 3 * len(ENTRIES))
        self.assertGreater(lost, 0)

    def test_no_sync_is_found(self):
        calls, lost = self.lost(NO_SYNC)
        self.assertEqual(calls, 3 + 2 * len(ENTRIES))
        self.assertGreater(lost, 0)


@unittest.skipUnless(HAS_COMPILER, "there is no C compiler")
class FullRecords(unittest.TestCase):
    """Lives of units with little room in their records, in which calls fail."""

    def setUp(self):
        folder = tempfile.TemporaryDirectory()
        self.addCleanup(folder.cleanup)
        self.folder = folder.name
        shapes = [shape._replace(entries=14) for shape in lives.SHAPES]
        for name, value in (("SHAPES", shapes), ("MACHINE", frames.Machine(frames.SECRET, shapes))):
            patch = mock.patch.object(lives, name, value)
            patch.start()
            self.addCleanup(patch.stop)

    def lived(self, words, count):
        """What was counted over so many lives."""
        found = lives.Lives(words, self.folder, "1", losing.library(self.folder))
        for _ in range(count):
            try:
                found.live(lives.Kill("fail", "41:90"))
            except Differs as differs:
                if "Operation not permitted" in str(differs):
                    self.skipTest(f"no sockets here: {differs}")
                raise
        return found.counts

    def found(self, patch, why):
        with self.assertRaisesRegex(Differs, why):
            self.lived([another(self.folder, patch)], 20)

    def test_the_plain_server(self):
        counts = self.lived([support.TOOLS / "people/plain-store"], 4)
        self.assertEqual(counts["failing"], 4)
        self.assertGreater(counts["full"], 0)

    @unittest.skipIf(NO_PROGRAM, NO_PROGRAM)
    def test_the_program(self):
        counts = self.lived([support.PROGRAM, "store"], 4)
        self.assertGreater(counts["full"], 0)

    def test_full_with_an_entry_is_found(self):
        self.found(FULL_AND_DONE, "wants the|no command asked for it|no act without an entry")

    def test_a_wrong_reply_behind_full_is_found(self):
        self.found(WRONG_BEHIND_FULL, "differs from its byte")

    def test_full_while_there_is_room_is_found(self):
        self.found(FULL_TOO_EARLY, "no act without an entry can have found a record full")


class Tool(unittest.TestCase):
    def setUp(self):
        folder = tempfile.TemporaryDirectory()
        self.addCleanup(folder.cleanup)
        self.folder = folder.name

    def killed(self, program, *words):
        """The lines of a run, without the folders that it kept."""
        said, why, _ = support.run("kill-store", program, *words)
        lines = said.decode().splitlines()
        for line in lines:
            if kept := re.search("its files are kept in (.*)", line):
                shutil.rmtree(kept[1])
            if "Operation not permitted" in line:
                self.skipTest(f"no sockets here: {line}")
        self.assertEqual(why, "")
        return lines

    def test_the_plain_server(self):
        lines = self.killed("-", "--kills", "4", "--lives", "4")
        self.assertEqual(lines[-1], "4 passed, 0 failed", lines)
        self.assertRegex(lines[0], r"^4 kills in \d+ s; entries: \d+, replies: [1-9]\d*, acknowledged: \d+, ended: ")

    @unittest.skipUnless(HAS_COMPILER, "there is no C compiler")
    def test_power_cuts_of_the_plain_server(self):
        self.assertEqual(self.killed("-", "--kills", "4", "--lives", "2", "--power")[-1], "4 passed, 0 failed")

    def test_replies_before_records_are_found(self):
        lines = self.killed(another(self.folder, LATE), "--kills", "400", "--failures", "1")
        # what the history is then depends on which entries are missing
        self.assertRegex("\n".join(lines), "FAILED: .* (was replied to|differs from its byte)")

    def test_operations_that_run_on_are_found(self):
        lines = self.killed(another(self.folder, NO_ENDINGS), "--kills", "400", "--failures", "1")
        self.assertRegex("\n".join(lines), "FAILED: .* differs from its byte")

    def test_numbers_that_are_given_twice_are_found(self):
        lines = self.killed(another(self.folder, SAME_NEXUS), "--kills", "400", "--failures", "1")
        self.assertRegex("\n".join(lines), "FAILED: .* there is no such nexus")

    @unittest.skipIf(NO_PROGRAM, NO_PROGRAM)
    def test_the_program(self):
        self.assertEqual(self.killed(support.PROGRAM, "--kills", "12", "--lives", "6")[-1], "12 passed, 0 failed")

    @unittest.skipIf(NO_PROGRAM, NO_PROGRAM)
    @unittest.skipUnless(HAS_COMPILER, "there is no C compiler")
    def test_power_cuts_of_the_program(self):
        lines = self.killed(support.PROGRAM, "--kills", "12", "--lives", "6", "--power")
        self.assertEqual(lines[-1], "12 passed, 0 failed")

    @unittest.skipIf(NO_PROGRAM, NO_PROGRAM)
    @unittest.skipUnless(HAS_COMPILER, "there is no C compiler")
    def test_a_program_that_does_not_sync_is_found(self):
        lines = self.killed(unsynced(self.folder), "--kills", "200", "--failures", "1", "--power")
        self.assertRegex("\n".join(lines), "FAILED: ")


if __name__ == "__main__":
    unittest.main()
