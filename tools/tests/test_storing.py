"""A program that serves units with journals: what goes on after its end, and files that were cut or changed."""

import pathlib
import re
import socket
import subprocess
import tempfile
import unittest

from copymgr import Connection, Disk, Ended, Report, Server, Shape
from copymgr.server import can_store
from copymgr_formats import frames
from replay import acts, entries, journals, written
from replay.player import PUMP

from . import support, test_serving

PROGRAM = [support.PROGRAM, "store"] if can_store(support.PROGRAM) else None
SECONDS = test_serving.SECONDS
SHAPES = [Shape(100)]
MACHINE = frames.Machine(frames.SECRET, SHAPES)
# a new file, and one with two records of 53 bytes each
NEW = 86
READS = [entries.text(entries.Entry(stamp, 0, 512, 1, 1, 0, acts.Read(0, 3))) for stamp in (2, 3)]
TWO = journals.with_records(journals.new(MACHINE, 0), READS)


def cut(size):
    """How the first bytes of that file are opened: as so many entries, or bad at a place."""
    if size < NEW:
        return 0
    if size < NEW + 53:
        return "bad journal of unit 0 at byte 86"
    if size < NEW + 106:
        return "bad journal of unit 0 at byte 139"
    return 2


def changed(place):
    """How it is opened where all bits of a byte are changed."""
    for ranges, what in [
        # the first gate, what stands between the gates, the second one
        ([(0, 0)], "bad journal of unit 0 at byte 0"),
        ([(1, 84)], "bad journal of unit 0 at byte 1"),
        ([(85, 85)], 0),
        # of the first record its length, its unit, the kind of its actor, its act, its number of blocks
        ([(86, 93), (102, 104), (125, 125), (134, 136)], "bad journal of unit 0 at byte 86"),
        # its stamp, which is then above the second one's
        ([(94, 101)], "bad journal of unit 0 at byte 139"),
        # the gate between them
        ([(138, 138)], 1),
        ([(139, 146), (155, 157), (178, 178), (187, 189)], "bad journal of unit 0 at byte 139"),
    ]:
        if any(first <= place <= last for first, last in ranges):
            return what
    return 2


@unittest.skipUnless(PROGRAM, f"no program with the word store at {support.PROGRAM}")
class Storing(unittest.TestCase):
    def setUp(self):
        folder = tempfile.TemporaryDirectory()
        self.addCleanup(folder.cleanup)
        self.folder = pathlib.Path(folder.name)

    def start(self, sessions=1, shapes=None, folder=None):
        server = Server(shapes or SHAPES, sessions, PROGRAM, folder=str(folder or self.folder))
        self.addCleanup(server.close)
        return server

    def ended(self, **named):
        """Starts it, connects once, and gives the report; or its status, what it says of its end, and the lines behind."""
        try:
            server = self.start(**named)
            socket.create_connection(server.address, SECONDS).close()
            return server.report(SECONDS)
        except Ended as ended:
            said = re.fullmatch(r"the server ended with status (\d+): copymgr: (.*?)(?:\n(.*))?", str(ended), re.S)
            return said[1], said[2], said[3] or ""

    def end_of(self, **named):
        """Without the lines behind."""
        ended = self.ended(**named)
        return ended if isinstance(ended, Report) else ended[:2]

    def journal(self, machine=MACHINE, unit=0):
        data = (self.folder / f"journal-{unit}").read_bytes()
        return [written.entry_at(text, 0) for text in journals.texts_in(data, machine)]

    def asked(self, server, *asks):
        """Asks a disk over a connection of its own, and gives what it told."""
        with Connection(server.address, SECONDS) as link:
            disk = Disk(link)
            return [ask(disk) for ask in asks]

    def test_units_go_on(self):
        data = b"\x11" * 512 + b"\x22" * 512
        server = self.start()
        self.asked(server, lambda disk: disk.write(7, data))
        report = server.report(SECONDS)
        self.assertEqual((report.sessions, report.kept, report.units[0].mapped), (1, 0, 2))
        server = self.start()
        self.assertEqual(self.asked(server, lambda disk: disk.read(7, 3)), [data + bytes(512)])
        report = server.report(SECONDS)
        found = self.journal()
        self.assertEqual((report.sessions, report.kept, report.units[0].mapped), (1, 0, 2))
        self.assertEqual((report.total, report.units[0].steps), (len(found), len(found)))
        # each connection is a nexus of its own, and each start pumps at its begin and at its end
        acted = [(entry.act, entry.actor) for entry in found if entry.actor != PUMP]
        self.assertEqual(acted, [("Write", 0), ("Read", 1)])
        self.assertEqual(len(found) - len(acted), 4)
        self.assertEqual([entry.stamp for entry in found], sorted({entry.stamp for entry in found}))

    def test_the_bytes_of_a_file(self):
        self.end_of(shapes=[Shape(100), Shape(50)])
        machine = frames.Machine(frames.SECRET, [Shape(100), Shape(50)])
        self.assertEqual(sorted(path.name for path in self.folder.iterdir()), ["journal-0", "journal-1"])
        for unit in (0, 1):
            data = (self.folder / f"journal-{unit}").read_bytes()
            texts = journals.texts_in(data, machine)
            self.assertEqual([entry.act for entry in self.journal(machine, unit)], ["Pump", "Pump"])
            self.assertEqual(data, journals.with_records(journals.new(machine, unit), texts))

    def test_a_token_outlives_the_program(self):
        def take(disk):
            disk.write(0, b"\x33" * 1024)
            token = disk.populate([(0, 2)], 3600)
            disk.write(0, bytes(1024))
            return token

        server = self.start()
        token = self.asked(server, take)[0]
        server.report(SECONDS)
        server = self.start()
        told = self.asked(server, lambda disk: disk.write_using_token(token, [(50, 2)]), lambda disk: disk.read(50, 2))
        self.assertEqual(told[1], b"\x33" * 1024)
        server.report(SECONDS)

    def test_a_program_that_is_killed(self):
        """What was replied is there afterwards."""
        server = self.start(256)
        with Connection(server.address, SECONDS) as link:
            disk = Disk(link)
            for lba in range(50):
                disk.write(lba, bytes([lba + 1]) * 512)
            server.close()
        server = self.start()
        data = b"".join(bytes([lba + 1]) * 512 for lba in range(50))
        self.assertEqual(self.asked(server, lambda disk: disk.read(0, 50)), [data])
        server.report(SECONDS)

    def test_work_in_the_background_goes_on(self):
        shapes = [Shape(100_000)]

        def begin(disk):
            disk.write(0, b"\x44" * 512 * 2048)
            token = disk.populate([(0, 2048)])
            disk.write_using_token(token, [(4096, 2048)], background=True)

        server = self.start(256, shapes)
        self.asked(server, begin)
        server.close()
        report = self.end_of(shapes=shapes)
        self.assertEqual((report.kept, report.units[0].mapped), (0, 4096))

    def test_work_in_the_foreground_is_ended(self):
        start = entries.Entry(5, 0, 512, 8, 3, 77, acts.Start(1, False, [(0, 1)], [None]))
        data = journals.with_records(journals.new(MACHINE, 0), [entries.text(start)])
        (self.folder / "journal-0").write_bytes(data)
        self.end_of()
        end = entries.Entry(6, 0, 512, 8, 0, 77, acts.End(1))
        found = self.journal()
        self.assertEqual([entry.text for entry in found[:2]], [entries.text(start), entries.text(end)])
        self.assertEqual([entry.act for entry in found[2:]], ["Pump", "Pump"])

    def test_an_entry_without_room(self):
        shapes = [Shape(100, entries=2)]
        start = entries.Entry(1, 0, 512, 0, 0, 0, acts.Start(1, True, [(0, 1)], [None]))
        data = journals.with_records(journals.new(frames.Machine(frames.SECRET, shapes), 0), [entries.text(start)])
        (self.folder / "journal-0").write_bytes(data)
        self.assertEqual(self.end_of(shapes=shapes), ("19", "bad history of unit 0 at entry 0"))

    def test_journals_of_others(self):
        """Which file it is, and how its configuration differs, stands in a second line."""
        self.end_of()
        path, said = f"copymgr: {self.folder}/journal-0: ", ("11", "bad journal of unit 0 at byte 1")
        for shapes, why in [
            ([Shape(101)], "its unit 0 has 100 blocks, and this one 101"),
            ([Shape(100, 4096)], "its unit 0 has 512 bytes a block, and this one 4096"),
            ([Shape(100, quota=5)], "its unit 0 has 100 blocks of its quota, and this one 5"),
            ([Shape(100, group=1)], "its unit 0 has 0 as its group, and this one 1"),
            (SHAPES * 2, "its configuration has 1 units, and this one 2"),
        ]:
            self.assertEqual(self.ended(shapes=shapes), (*said, path + why))
        (self.folder / "journal-0").rename(self.folder / "journal-1")
        why = f"copymgr: {self.folder}/journal-1: it is the journal of unit 0"
        self.assertEqual(self.ended(shapes=SHAPES * 2), ("11", "bad journal of unit 1 at byte 1", why))
        (self.folder / "journal-0").write_bytes(b"\xa5" + b"x" * 200)
        self.assertEqual(self.ended(), (*said, path + "it is no journal"))

    def test_files_that_fail(self):
        """Why stands in a second line."""
        for folder, why in [
            (self.folder / "missing", "not found|No such file"),
            (self.folder / "file", "not a directory|Not a directory"),
        ]:
            (self.folder / "file").write_bytes(b"")
            status, said, cause = self.ended(folder=folder)
            self.assertEqual((status, said), ("12", "disk failed"))
            self.assertRegex(cause, f"^copymgr: {folder}.*: ({why})")
        (self.folder / "journal-0").mkdir()
        self.assertEqual(self.end_of(), ("12", "disk failed"))

    def test_a_folder_that_another_program_has(self):
        first = self.start()
        link = socket.create_connection(first.address, SECONDS)
        self.addCleanup(link.close)
        link.sendall(frames.request_bytes(test_serving.READ))
        self.assertEqual(link.recv(1), b"\0")
        self.assertEqual(self.end_of(), ("12", "disk failed"))
        link.close()
        first.report(SECONDS)

    def opened(self, data):
        """How many entries a file has, or what the program says."""
        (self.folder / "journal-0").write_bytes(data)
        end = self.end_of()
        if not isinstance(end, Report):
            self.assertEqual((end[0], (self.folder / "journal-0").read_bytes()), ("11", data))
            return end[1]
        self.assertEqual((end.kept, end.total), (0, len(self.journal())))
        # the pump was asked at the begin and at the end
        return end.total - 2

    def test_every_cut(self):
        for size in range(len(TWO) + 1):
            with self.subTest(size):
                self.assertEqual(self.opened(TWO[:size]), cut(size))

    def test_every_changed_byte(self):
        for place in range(len(TWO)):
            with self.subTest(place):
                data = TWO[:place] + bytes([TWO[place] ^ 0xFF]) + TWO[place + 1 :]
                self.assertEqual(self.opened(data), changed(place))

    def test_other_words(self):
        for words in (["1"], ["0", "."], ["257", "."], ["1", "-f"], ["1", ""], ["1", ".", "."]):
            with self.subTest(words):
                words = [*PROGRAM, "127.0.0.1:0", *words]
                done = subprocess.run(words, input=frames.header_bytes(MACHINE), capture_output=True, check=False)
                said = done.stderr.decode().splitlines()[-1]
                self.assertEqual((done.stdout, done.returncode), (b"", 6))
                self.assertRegex(said, "store ADDRESS SESSIONS FOLDER")


if __name__ == "__main__":
    unittest.main()
