"""Journals: the reader of their files, and what a program that stores does with files that are cut or changed."""

import os
import pathlib
import random
import socket
import subprocess
import tempfile
import unittest
from unittest import mock

from copymgr import Connection, Disk, Server
from copymgr.server import can_store, report_of
from copymgr_formats import frames
from copymgr_formats.senses import RecordFull
from replay import acts, entries, journals, player, readback, resuming, storing, told
from replay.entries import Entry, NotedUnit
from replay.traces import STYLES, Trace

from . import support

NO_PROGRAM = None if can_store(support.PROGRAM) else f"no program that stores at {support.PROGRAM}"
SECONDS = 60
BAD_JOURNAL, DISK_FAULT, BAD_HISTORY = 11, 12, 19

SHAPE = frames.Shape(100, 512, 40, 100, 40_000, 0)
MACHINE = frames.Machine(frames.SECRET, [SHAPE])
FRONT = journals.front_of(MACHINE, 0)
SMALL = frames.Machine(frames.SECRET, [SHAPE._replace(entries=2)])
LATE = resuming.NEXUS_LIMIT
# in traces of these styles is each act but an End
STYLES_OF_ALL_ACTS = [*list(STYLES)[:4], "reserved"]


def entry(stamp, act, actor=0, seq=0, moment=7):
    return Entry(stamp, 0, 512, actor, seq, moment, act)


READ = entry(1, acts.Read(3, 2))
PUMP = entry(2, acts.Pump(), player.PUMP)
WRITE = entry(5, acts.Write(3, [b"\x11" * 512]), 1)
STATUS = entry(9, acts.MapStatus(3), 0, 1)
ENTRIES = [READ, STATUS._replace(stamp=2), WRITE]


def file_of(found, machine=MACHINE):
    """A journal's file with these entries."""
    return journals.with_records(journals.new(machine, 0), map(entries.text, found))


def opened(data, machine=MACHINE):
    """The entries of a file, or the place at which it is bad."""
    try:
        return [record.entry for record in journals.opened(data, machine, 0)]
    except journals.BadJournal as bad:
        return bad.place


def going_on(data, machine):
    """The entries with which unit 0 goes on, or what a program says that does not."""
    try:
        found = [record.entry for record in journals.opened(data, machine, 0)]
        resuming.go_on(NotedUnit(machine, 0), found)
        return found
    except (journals.BadJournal, resuming.BadHistory) as bad:
        return str(bad)


def random_journal(number):
    """A journal with the entries of a random trace, and its machine."""
    with mock.patch.object(player, "Unit", NotedUnit):
        trace = Trace(random.Random(f"changed {number}"), STYLES_OF_ALL_ACTS[number % 5])
    machine, record = trace.player.machine, trace.player.units[0].record[:60]
    # the greatest number is too great for a history
    found = [one._replace(actor=9) if one.actor == 0xFFFFFFFF else one for one in record]
    return file_of(found, machine), machine


def by_cut(data, end):
    """What a whole journal is, of which so many bytes are left: told by where its records stand."""
    records = journals.opened(data, MACHINE, 0)
    gates = [len(FRONT), *(record.gate for record in records)]
    if end <= len(FRONT):
        return []
    whole = [gate for gate in gates if gate < end]
    # behind the last gate that is left, which is open, nothing whole stands; the last of all is not open
    return [record.entry for record in records] if len(whole) == len(gates) else whole[-1] + 1


class Reader(unittest.TestCase):
    def test_entries_are_read_back(self):
        """Of random traces: what was written may stand in a journal, and is read as it was."""
        seen = set()
        for number in range(12):
            with mock.patch.object(player, "Unit", NotedUnit):
                trace = Trace(random.Random(f"journals {number}"), STYLES_OF_ALL_ACTS[number % 5])
            for unit in trace.player.units:
                last = 0
                for one in unit.record:
                    text = entries.text(one)
                    found = readback.entry_of(text, trace.player.machine, unit.number, last)
                    self.assertEqual(entries.text(found), text)
                    self.assertEqual(type(found.act), type(one.act))
                    last = one.stamp
                    seen.add(type(found.act).__name__)
        self.assertEqual(seen | {"End"}, set(readback.READERS))

    def refused(self, one, machine=MACHINE, last=0):
        with self.assertRaises(readback.BadText, msg=one):
            readback.entry_of(entries.text(one), machine, 0, last)

    def test_what_may_not_stand_in_a_journal(self):
        data = b"\x11" * 512
        overlap = [(0, 2), (1, 1)]
        for act in (
            acts.Read(0, 2049), acts.Write(0, [data, None]), acts.Write(0, [data] * 2049), acts.Capture(0, 65_536),
            acts.Put(0, [None] * 1025), acts.Populate(1, 0, [(0, 1)]), acts.Populate(1, 3601, [(0, 1)]),
            acts.Populate(1, 5, overlap), acts.Redeem(bytes(512), 0, 0), acts.Start(1, 0, [(0, 2)], [data]),
            acts.Start(1, 0, overlap, [data] * 3), acts.Close(1, acts.Result(told.BACKGROUND, 0, 0)),
            acts.PrOut(5, 0, 1, 0, 0), acts.PrOut(0, 16, 1, 0, 0), acts.PrOut(0, 0, 16, 0, 0),
        ):
            self.refused(entry(1, act))
        self.refused(entry(1, acts.Write(0, [data]))._replace(block_length=256))
        self.refused(READ._replace(unit=1))
        self.refused(READ._replace(stamp=0))
        self.refused(READ, last=1)
        self.refused(READ._replace(actor=player.PUMP))
        self.refused(PUMP._replace(actor=0))
        self.assertEqual(opened(file_of([READ, PUMP._replace(unit=0)])), [READ, PUMP])

    def test_texts_that_are_cut_or_longer(self):
        for one in ENTRIES:
            text = entries.text(one)
            for wrong in (text + b"\0", *(text[:end] for end in range(len(text)))):
                with self.assertRaises(readback.BadText):
                    readback.entry_of(wrong, MACHINE, 0, 0)

    def test_files(self):
        self.assertEqual((len(FRONT), len(journals.new(MACHINE, 0))), (53 + 32, 54 + 32))
        whole = file_of(ENTRIES)
        for data, wanted in [
            (b"", []), (FRONT, []), (b"\0" * len(FRONT) + b"\0", []), (journals.new(MACHINE, 0), []),
            (whole, ENTRIES), (b"\0" + whole[1:], 0), (whole[:9] + b"\0\1" + whole[11:], 1), (whole + b"rest", ENTRIES),
            (whole[:-1] + b"\x17", ENTRIES), (whole[:-1] + b"\xa5", len(whole)),
            (file_of([WRITE, READ]), len(file_of([WRITE]))),
        ]:
            self.assertEqual(opened(data), wanted)
        self.assertEqual(journals.texts_in(whole, MACHINE), [entries.text(one) for one in ENTRIES])

    def test_cuts(self):
        whole = file_of(ENTRIES)
        for end in range(len(whole) + 1):
            self.assertEqual(opened(whole[:end]), by_cut(whole, end), end)

    def test_a_read_has_the_bytes_of_the_document(self):
        """The example of docs/formats.md, as a record."""
        data = file_of([entry(2, acts.Read(0, 3), 1, 1, 0)])
        self.assertEqual((len(data), data[85], data[86:94], data[-1]), (139, 0xA5, b"\0" * 7 + b"\x2c", 0))


class GoingOn(unittest.TestCase):
    """Units of the plain server go on with what a journal has."""

    def setUp(self):
        folder = tempfile.TemporaryDirectory()
        self.addCleanup(folder.cleanup)
        self.folder = folder.name

    def stored(self, found, machine=MACHINE):
        self.folder = tempfile.mkdtemp(dir=self.folder)
        pathlib.Path(self.folder, "journal-0").write_bytes(file_of(found, machine))
        return storing.StoreServer(machine, self.folder)

    def test_entries_are_kept(self):
        server = self.stored([])
        server.units[0].act(3, 9, acts.Write(1, [b"\x22" * 512]))
        server.units[0].act(4, 8, acts.Read(1, 1))
        server.units[0].journal.close()
        server = storing.StoreServer(MACHINE, self.folder)
        unit = server.units[0]
        self.assertEqual((server.first, unit.held, unit.stamp), (5, {1: b"\x22" * 512}, 2))
        self.assertEqual((unit.moment, unit.entries, unit.folded), (9, 2, 2))

    def test_what_ran_is_ended(self):
        start = acts.Start(1, 0, [(0, 1)], [b"\x11" * 512])
        begun = [entry(1, start, 5), entry(2, acts.Open(3), 6), entry(3, start._replace(id=2, background=1), 6, 1)]
        server = self.stored(begun)
        server.units[0].act(7, 9, acts.Read(0, 1))
        ends = [entry(4, acts.End(1), 5), entry(5, acts.Close(3, acts.Result(told.TERMINATED, 0, 0)), 6)]
        data = pathlib.Path(self.folder, "journal-0").read_bytes()
        self.assertEqual(opened(data), [*begun, *ends, entry(6, acts.Read(0, 1), 7, 0, 9)])
        self.assertEqual(server.first, 7)

    def test_calls_that_fail(self):
        """What could not be recorded is kept, and recorded before the next entry, whichever call fails."""
        for call in range(1, 5):
            unit = self.stored([READ]).units[0]
            unit.act(1, 7, acts.Read(0, 1))
            failing = iter([None] * (call - 1) + [OSError()] + [None] * 20)

            def some(real):
                def done(*words):
                    if fault := next(failing):
                        raise fault
                    return real(*words)
                return done

            with mock.patch.object(os, "pwrite", some(os.pwrite)), mock.patch.object(os, "fsync", some(os.fsync)):
                unit.act(2, 7, acts.Write(0, [b"\x11" * 512]))
                self.assertEqual((len(unit.record), unit.folded, unit.payload), (1, 2, 512))
                self.assertEqual(unit.act(3, 7, acts.Read(0, 1)), [b"\x11" * 512])
            self.assertEqual((unit.record, unit.folded, unit.payload), ([], 4, 0))
            data = pathlib.Path(self.folder, "journal-0").read_bytes()
            self.assertEqual([one.actor for one in opened(data)], [0, 1, 2, 3])

    def test_a_full_record_is_recorded(self):
        """An act that finds it full is refused only where that fails again."""
        unit = self.stored([], SMALL).units[0]
        with mock.patch.object(os, "fsync", side_effect=OSError()):
            unit.act(1, 7, acts.Read(0, 1))
            unit.act(1, 7, acts.Read(0, 1))
            with self.assertRaises(RecordFull):
                unit.act(2, 7, acts.Read(0, 1))
        self.assertEqual((len(unit.record), unit.folded), (2, 0))
        unit.act(3, 7, acts.Read(0, 1))
        self.assertEqual((unit.record, unit.folded), ([], 3))

    def test_bad_histories(self):
        start = entry(1, acts.Start(1, 0, [(0, 1)], [b"\x11" * 512]))
        for found, machine, place in [
            ([start], SMALL, 0), ([READ, start._replace(stamp=2)], SMALL, 1),
            ([READ._replace(actor=LATE + 1)], MACHINE, 0),
        ]:
            with self.assertRaisesRegex(resuming.BadHistory, f"bad history of unit 0 at entry {place}"):
                self.stored(found, machine)
        self.assertEqual(self.stored([READ._replace(actor=LATE)]).first, LATE + 1)


class Files:
    """What a program that stores does with files. `words` are those behind which the address comes."""

    words, step, changes = [], 1, 40

    def setUp(self):
        folder = tempfile.TemporaryDirectory()
        self.addCleanup(folder.cleanup)
        self.folder = folder.name
        self.path = pathlib.Path(folder.name, "journal-0")

    def ending(self, data, machine=MACHINE, folder=None):
        """What it says on standard error but for what a second line says of the cause, the status, and the report, of a program that is served a connection which
        asks for nothing, over a journal of unit 0 of these bytes and no other, or over those that are there."""
        if data is not None:
            for path in pathlib.Path(self.folder).iterdir():
                path.unlink()
            self.path.write_bytes(data)
        words, pipe = [*self.words, "127.0.0.1:0", "1", folder or self.folder], subprocess.PIPE
        with subprocess.Popen(words, bufsize=0, stdin=pipe, stdout=pipe, stderr=pipe) as program:
            program.stdin.write(frames.header_bytes(machine))
            program.stdin.close()
            program.stdin = None
            first = program.stderr.readline().decode()
            try:
                socket.create_connection(("127.0.0.1", int(first.rsplit(":", 1)[1])), SECONDS).close()
            except (OSError, ValueError, IndexError):
                pass  # it has ended
            report, said = program.communicate(timeout=SECONDS)
        said = (first if "serving at" not in first else "") + said.decode()
        return "".join(said.splitlines(True)[:1]), program.returncode, report.decode()

    def judge(self, data, machine=MACHINE):
        """It opens a file, or refuses it, as docs/formats.md says."""
        wanted = going_on(data, machine)
        said, status, report = self.ending(data, machine)
        after = self.path.read_bytes()
        if isinstance(wanted, str):
            code = BAD_JOURNAL if wanted.startswith("bad journal") else BAD_HISTORY
            self.assertEqual((said, status), (f"copymgr: {wanted}\n", code))
            self.assertEqual((report, after), ("", data))
            return
        self.assertEqual((said, status), ("", 0))
        found = opened(after, machine)
        self.assertEqual(found[: len(wanted)], wanted)
        # what was added are Pumps, and before them the ends of what ran
        kinds = {type(one.act).__name__ for one in found[len(wanted) :]}
        self.assertLessEqual(kinds, {"Pump", "End", "Close"})
        units = report_of(report).units
        self.assertEqual(units[0].steps, len(found))

    def test_cuts(self):
        whole = file_of(ENTRIES[:2])
        for end in range(0, len(whole) + 1, self.step):
            with self.subTest(end=end):
                self.judge(whole[:end])

    def test_changed_bytes(self):
        """Each byte of the first two records, and some of the others."""
        whole = file_of(ENTRIES[:2])
        for at in [*range(0, len(FRONT), 7 * self.step), *range(len(FRONT), len(whole), self.step)]:
            with self.subTest(at=at):
                self.judge(whole[:at] + bytes([whole[at] ^ random.Random(at).randint(1, 255)]) + whole[at + 1 :])

    def test_random_changes(self):
        """Journals with all kinds of acts, in which one byte is another, or which are cut."""
        for number in range(self.changes):
            with self.subTest(number=number):
                rng = random.Random(number)
                data, machine = random_journal(number % 10)
                at = rng.randrange(len(data))
                changed = data[:at] + bytes([rng.randrange(256)]) + data[at + 1 :]
                self.judge(rng.choice([changed, changed, data[:at], data]), machine)

    def test_another_text_or_configuration(self):
        whole = file_of(ENTRIES)
        line = "copymgr: bad journal of unit 0 at byte 1\n"
        self.assertEqual(self.ending(whole[:1] + b"X" + whole[2:])[:2], (line, BAD_JOURNAL))
        for shape in (SHAPE._replace(quota=99), SHAPE._replace(entries=41), SHAPE._replace(blocks=101)):
            self.assertEqual(self.ending(whole, frames.Machine(frames.SECRET, [shape]))[:2], (line, BAD_JOURNAL))
        self.assertEqual(self.ending(whole, frames.Machine(bytes(32), [SHAPE]))[:2], (line, BAD_JOURNAL))
        two = frames.Machine(frames.SECRET, [SHAPE] * 2)
        self.assertEqual(self.ending(journals.new(two, 1), two)[:2], (line, BAD_JOURNAL))

    def test_bad_histories(self):
        start = entry(1, acts.Start(1, 0, [(0, 1)], [b"\x11" * 512]))
        over = entry(1, acts.Write(0, [b"\x11" * 512]))
        for found, machine, said, status in [
            ([start], SMALL, "copymgr: bad history of unit 0 at entry 0\n", BAD_HISTORY),
            ([READ, start._replace(stamp=2)], SMALL, "copymgr: bad history of unit 0 at entry 1\n", BAD_HISTORY),
            ([READ._replace(actor=LATE + 1)], MACHINE, "copymgr: bad history of unit 0 at entry 0\n", BAD_HISTORY),
            ([READ._replace(actor=LATE)], MACHINE, "", 0),
            # what is refused is an entry all the same
            ([over], frames.Machine(frames.SECRET, [SHAPE._replace(quota=0)]), "", 0),
        ]:
            self.assertEqual(self.ending(file_of(found, machine), machine)[:2], (said, status))

    def test_a_folder_that_is_not_there(self):
        said, status, report = self.ending(b"", folder=os.path.join(self.folder, "none"))
        self.assertEqual((said, status, report), ("copymgr: disk failed\n", DISK_FAULT, ""))

    def test_a_folder_that_is_in_use(self):
        """A second program on the same folder is refused, and does no harm."""
        with Server([SHAPE], 1, self.words, folder=self.folder) as server:
            with Connection(server.address, SECONDS) as host:
                Disk(host, 0).write(5, bytes(512))
                before = opened(self.path.read_bytes())
                said, status, _ = self.ending(None)
                self.assertEqual((said, status), ("copymgr: disk failed\n", DISK_FAULT))
                self.assertEqual(Disk(host, 0).read(5, 1), bytes(512))
            server.report(SECONDS)
        # a look of the pump may be recorded while the file is read
        self.assertIn("Write", [type(one.act).__name__ for one in before])
        self.assertEqual(opened(self.path.read_bytes())[: len(before)], before)

    def test_blocks_outlive_the_program(self):
        """Written, and read by the next one; its nexus has the next number."""
        data = random.Random(1).randbytes(1024)
        with Server([SHAPE], 1, self.words, folder=self.folder) as server:
            with Connection(server.address, SECONDS) as host:
                Disk(host, 0).write(5, data)
            self.assertEqual(server.report(SECONDS).kept, 0)
        with Server([SHAPE], 1, self.words, folder=self.folder) as server:
            with Connection(server.address, SECONDS) as host:
                self.assertEqual(Disk(host, 0).read(4, 4), bytes(512) + data + bytes(512))
            self.assertEqual(server.report(SECONDS).units[0].mapped, 2)
        found = [one for one in opened(self.path.read_bytes()) if one.actor != player.PUMP]
        kinds = [(type(one.act).__name__, one.actor) for one in found]
        self.assertEqual([kind for kind in kinds if kind[0] in ("Read", "Write")], [("Write", 0), ("Read", 1)])

    def test_what_ran_is_ended(self):
        start = acts.Start(1, 0, [(0, 1)], [b"\x11" * 512])
        begun = [entry(1, start, 5), entry(2, acts.Open(3), 6), entry(3, start._replace(id=2, background=1), 6, 1)]
        self.path.write_bytes(file_of(begun))
        with Server([SHAPE], 1, self.words, folder=self.folder) as server:
            with Connection(server.address, SECONDS) as host:
                Disk(host, 0).read(0, 1)
            server.report(SECONDS)
        found = opened(self.path.read_bytes())
        ends = [entry(4, acts.End(1), 5), entry(5, acts.Close(3, acts.Result(told.TERMINATED, 0, 0)), 6)]
        self.assertEqual(found[:5], [*begun, *ends])
        self.assertEqual({one.actor for one in found[5:]}, {player.PUMP, 7})


class PlainFiles(Files, unittest.TestCase):
    words, step, changes = [str(support.TOOLS / "people/plain-store")], 37, 5

    def setUp(self):
        super().setUp()
        try:
            socket.create_server(("127.0.0.1", 0)).close()
        except OSError as error:
            self.skipTest(f"no sockets here: {error}")


@unittest.skipIf(NO_PROGRAM, NO_PROGRAM)
class ProgramFiles(Files, unittest.TestCase):
    words, step = [support.PROGRAM, "store"], 3


if __name__ == "__main__":
    unittest.main()
