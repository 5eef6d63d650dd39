"""Programs that serve: what connections are replied, how they end, and the report."""

import os
import pathlib
import shutil
import signal
import socket
import struct
import subprocess
import tempfile
import unittest

from copymgr import Ended, Server, Shape
from copymgr.server import UnitReport, can_serve
from copymgr_formats import addresses, cdbs, frames, lists, rod_token
from replay import acts, entries, player

from . import support

PLAIN = [str(support.TOOLS / "people/plain-serve")]
PROGRAM = [support.PROGRAM, "serve"] if can_serve(support.PROGRAM) else None
NO_PROGRAM = f"no program that serves at {support.PROGRAM}: the plain server alone was asked"
SECONDS = 60

SHAPES = [Shape(100)]
READ = frames.Request(0, cdbs.encode(0x88, lba=0, count=3), b"")
WRITE = frames.Request(0, cdbs.encode(0x8A, lba=0, count=2), b"\x11" * 512 + b"\x22" * 512)
OUT = lists.write_bytes(rod_token.ZERO, [(0, 1)], immed=1)
ZERO_WRITE = frames.Request(0, cdbs.encode(0x83, 0x11, id=1, length=len(OUT)), OUT)
GOOD = frames.good(b"")
DATA = frames.good(WRITE.out + bytes(512))


class Links:
    """Connections to a program that serves."""

    WORDS = None

    def setUp(self):
        if not self.WORDS:
            self.skipTest(NO_PROGRAM)

    def start(self, sessions, shapes=(), folder=None):
        try:
            server = Server(shapes or SHAPES, sessions, self.WORDS, folder=folder)
        except Ended as error:
            self.skipTest(f"no sockets here: {error}")
        self.addCleanup(server.close)
        return server

    def link(self, server):
        link = socket.create_connection(server.address, SECONDS)
        self.addCleanup(link.close)
        return link

    def got(self, link, size):
        data = b""
        while len(data) < size and (more := link.recv(size - len(data))):
            data += more
        return data

    def asked(self, link, *requests):
        """The bytes of the replies to requests, each sent when the reply to the one before it was there."""
        replies = b""
        for request in requests:
            link.sendall(frames.request_bytes(request))
            front = self.got(link, 6)
            _, sensed, length = struct.unpack(">BBI", front)
            replies += front + self.got(link, sensed + length)
        return replies


class Serving(Links):
    """The same of each program."""

    def reported(self, server, unit, **wanted):
        """The report has these numbers, and of the sole unit these."""
        report = server.report(SECONDS)
        numbers = {"faults": 0, "memory": 0, "total": unit.steps, **wanted}
        self.assertEqual({name: getattr(report, name) for name in numbers}, numbers)
        self.assertEqual(report.units, [unit])

    def test_the_worked_reports(self):
        server = self.start(1)
        link = self.link(server)
        self.assertEqual(self.asked(link, WRITE, READ), GOOD + DATA)
        link.close()
        self.reported(server, UnitReport(3, 0, 2), sessions=1, commands=2)
        server = self.start(1)
        link = self.link(server)
        self.assertEqual(self.asked(link, ZERO_WRITE), GOOD)
        link.close()
        self.reported(server, UnitReport(4, 0, 0), sessions=1, commands=1)

    def test_requests_in_pieces_and_ahead(self):
        server = self.start(2)
        link = self.link(server)
        for byte in frames.request_bytes(WRITE) + frames.request_bytes(READ):
            link.sendall(bytes([byte]))
        self.assertEqual(self.got(link, len(GOOD + DATA)), GOOD + DATA)
        other = self.link(server)
        other.sendall(frames.request_bytes(READ) * 20)
        other.shutdown(socket.SHUT_WR)
        self.assertEqual(self.got(other, 20 * len(DATA)), 20 * DATA)
        link.close()
        self.reported(server, UnitReport(23, 0, 2), sessions=2, commands=22)

    def test_broken_connections_are_faults_and_others_go_on(self):
        server = self.start(6)
        first = self.link(server)
        self.assertEqual(self.asked(first, WRITE), GOOD)
        for data in [
            frames.request_bytes(READ)[:-1],
            frames.request_bytes(WRITE)[:-1],
            struct.pack(">I", frames.DATA_LIMIT + 1),
            b"\xff" * 4,
        ]:
            link = self.link(server)
            self.assertEqual(self.asked(link, READ), DATA)
            link.sendall(data)
            link.shutdown(socket.SHUT_WR)
        self.link(server).close()
        self.assertEqual(self.asked(first, READ), DATA)
        first.close()
        self.reported(server, UnitReport(7, 0, 2), sessions=6, commands=6, faults=4)

    def test_the_longest_frame(self):
        """A command that does not want its data is refused, and the next one is served."""
        server = self.start(1)
        link = self.link(server)
        replies = self.asked(link, READ._replace(out=bytes(frames.DATA_LIMIT)), READ)
        self.assertEqual(replies, frames.check((5, 0x24, 0)) + frames.good(bytes(1536)))
        link.close()
        self.reported(server, UnitReport(2, 0, 0), sessions=1, commands=2)

    def test_work_in_the_background_is_done(self):
        server = self.start(1, [Shape(10_000)])
        link = self.link(server)
        out = lists.write_bytes(rod_token.ZERO, [(0, 5000)], immed=1)
        zero = frames.Request(0, cdbs.encode(0x83, 0x11, id=1, length=len(out)), out)
        status = frames.Request(0, cdbs.encode(0x84, 0x05, id=1, length=100), b"")
        self.assertEqual(self.asked(link, zero), GOOD)
        looks = 1
        while self.asked(link, status)[11] == 0x12:
            looks += 1
        link.close()
        # Start, five pieces and the Pump that finds none, the looks, and the last Pump
        self.reported(server, UnitReport(1 + 5 + 1 + looks + 1, 0, 0), sessions=1, commands=1 + looks)

    def test_entries_go_to_a_folder(self):
        """Where the record is full it is written out; the rest is written in the end."""
        shapes = [Shape(100, entries=4), Shape(100)]
        folder = tempfile.TemporaryDirectory()
        self.addCleanup(folder.cleanup)
        server = self.start(1, shapes, folder.name)
        link = self.link(server)
        writes = [WRITE._replace(cdb=cdbs.encode(0x8A, lba=lba, count=2)) for lba in range(10)]
        self.assertEqual(self.asked(link, *writes), GOOD * 10)
        link.close()
        report = server.report(SECONDS)
        self.assertEqual((report.kept, report.units[0], report.total), (0, UnitReport(11, 0, 11), 12))
        acted = [acts.Write(lba, [WRITE.out[:512], WRITE.out[512:]]) for lba in range(10)]
        wanted = [entries.Entry(at + 1, 0, 512, 0, at, 0, act) for at, act in enumerate(acted)]
        wanted.append(entries.Entry(11, 0, 512, player.PUMP, 0, 0, acts.Pump()))
        # the moments are the clock's
        found = pathlib.Path(folder.name, "unit-0").read_bytes()
        for text in map(entries.text, wanted):
            self.assertEqual((found[:23], found[31 : len(text)]), (text[:23], text[31:]))
            found = found[len(text) :]
        self.assertEqual(found, b"")

    def test_a_folder_that_is_not_there(self):
        """No entry is written, and a record without room is full."""
        server = self.start(1, [Shape(100, entries=4)], "/nowhere/at/all")
        link = self.link(server)
        self.assertEqual(self.asked(link, *[WRITE] * 5), GOOD * 4 + frames.full())
        link.close()
        report = server.report(SECONDS)
        self.assertEqual((report.kept, report.total), (4, 4))

    def test_words_and_configurations(self):
        header = frames.header_bytes(frames.Machine(frames.SECRET, SHAPES))
        for words, data, status, said in [
            (["127.0.0.1:0", "1"], b"", 5, "copymgr: bad header at byte 0\n"),
            (["127.0.0.1:0", "1"], header[:10], 5, "copymgr: bad header at byte 8\n"),
            (["127.0.0.1:0", "1"], header[:41], 5, "copymgr: bad header at byte 40\n"),
            (["127.0.0.1:0", "1"], header[:55], 5, "copymgr: bad header at byte 54\n"),
            (["127.0.0.1:0", "1"], header[:73], 5, "copymgr: bad header at byte 71\n"),
            (["127.0.0.1:0", "1"], b"X" + header[1:], 5, "copymgr: bad header at byte 0\n"),
            (["127.0.0.1:0", "1"], header[:40] + b"\0\0", 5, "copymgr: bad header at byte 40\n"),
            (["127.0.0.1:0", "1"], header[:40] + b"\0\2", 5, "copymgr: bad header at byte 42\n"),
            (["127.0.0.1:0", "1"], header[:40] + b"\0\2" + bytes(50), 5, "copymgr: bad header at byte 90\n"),
            (["127.0.0.1:0", "0"], b"\0", 6, ""),
            (["127.0.0.1:0", "+1"], header, 6, ""),
            (["127.0.0.1:0", "1x"], header, 6, ""),
            (["127.0.0.1:0", ""], header, 6, ""),
            (["127.0.0.1:0", "4294967297"], header, 6, ""),
            (["127.0.0.1:0", "1"], header + b"\0", 5, "copymgr: bad header at byte 74\n"),
            (["127.0.0.1:0", "0"], header, 6, ""),
            (["127.0.0.1:0", "257"], header, 6, ""),
            (["127.0.0.1:0", "01"], header, 6, ""),
            (["127.0.0.1:0"], header, 6, ""),
            (["nowhere", "1"], header, 9, "copymgr: accept failed\n"),
            (["127.0.0.1:70000", "1"], header, 9, "copymgr: accept failed\n"),
            (["192.0.2.1:1", "1"], header, 9, "copymgr: accept failed\n"),
        ]:
            with self.subTest(words=words, length=len(data)):
                words = [*self.WORDS, *words]
                done = subprocess.run(words, input=data, capture_output=True, timeout=SECONDS, check=False)
                lines = done.stderr.decode().splitlines(True)
                self.assertEqual((done.stdout, done.returncode), (b"", status))
                # a second line names the address that can't be bound; nothing is served, so no address is told
                self.assertEqual(len(lines), 2 if status == 9 else 1)
                self.assertTrue(lines[0].startswith(said), lines)
                self.assertTrue(all(words[-2] in line for line in lines[1:]), lines)

    def test_every_cut_of_a_configuration(self):
        """It is refused at the field that is not whole."""
        header = frames.header_bytes(frames.Machine(frames.SECRET, SHAPES))
        fields = [0, 8, 40, 42, 50, 54, 58, 66, 70, 71]
        for cut in range(len(header)):
            words = [*self.WORDS, "127.0.0.1:0", "1"]
            done = subprocess.run(words, input=header[:cut], capture_output=True, timeout=SECONDS, check=False)
            place = max(field for field in fields if field <= cut)
            wanted = (5, b"", f"copymgr: bad header at byte {place}\n".encode())
            self.assertEqual((done.returncode, done.stdout, done.stderr), wanted, cut)

    def test_connections_go_their_ways(self):
        """One asks for more than it reads, one says nothing, and one breaks inside a request. Another is served to its end
        meanwhile."""
        server = self.start(4, [Shape(1_048_576)])
        greedy, silent, torn, whole = [self.link(server) for _ in range(4)]
        long_read = frames.Request(0, cdbs.encode(0x88, lba=0, count=2048), b"")
        greedy.sendall(frames.request_bytes(long_read) * 40)
        torn.sendall(frames.request_bytes(WRITE)[:-1])
        torn.close()
        self.assertEqual(self.asked(whole, WRITE, READ), GOOD + DATA)
        for link in (whole, silent, greedy):
            link.close()
        report = server.report(SECONDS)
        self.assertEqual((report.sessions, report.faults, report.memory), (4, 2, 0))

    def test_a_port_that_is_in_use(self):
        with socket.create_server(("127.0.0.1", 0)) as other:
            address = f"127.0.0.1:{other.getsockname()[1]}"
            header = frames.header_bytes(frames.Machine(frames.SECRET, SHAPES))
            words = [*self.WORDS, address, "1"]
            done = subprocess.run(words, input=header, capture_output=True, timeout=SECONDS, check=False)
            self.assertEqual((done.returncode, done.stdout), (9, b""))
            first, why = done.stderr.decode().splitlines()
            self.assertEqual(first, "copymgr: accept failed")
            self.assertIn(address, why)
            self.assertIn("in use", why)


class Plain(Serving, unittest.TestCase):
    WORDS = PLAIN

    def ended(self, sessions=1, **streams):
        """The program after its one connection, with other streams."""
        pipe = subprocess.PIPE
        with subprocess.Popen([*PLAIN, "127.0.0.1:0", "1"], bufsize=0, stdin=pipe, stderr=pipe, **streams) as program:
            program.stdin.write(frames.header_bytes(frames.Machine(frames.SECRET, SHAPES)))
            program.stdin.close()
            place = program.stderr.readline().decode().rsplit(":", 1)
            if sessions:
                socket.create_connection(("127.0.0.1", int(place[1])), SECONDS).close()
            else:
                program.send_signal(signal.SIGINT)
            said = program.stderr.read().decode()
            return program.wait(SECONDS), said

    def test_ends_quietly(self):
        """A full device and a closed output are a write that failed; an interrupt ends it without a word."""
        with open("/dev/full", "wb") as full:
            self.assertEqual(self.ended(stdout=full), (2, "copymgr: write failed\n"))
        self.assertEqual(self.ended(preexec_fn=lambda: os.close(1)), (2, "copymgr: write failed\n"))
        self.assertEqual(self.ended(sessions=0, stdout=subprocess.DEVNULL), (-signal.SIGINT, ""))

    def test_a_closed_input(self):
        done = subprocess.run(
            [*PLAIN, "127.0.0.1:0", "1"], capture_output=True, preexec_fn=lambda: os.close(0), check=False, timeout=SECONDS,
        )
        self.assertEqual((done.returncode, done.stdout, done.stderr), (1, b"", b"copymgr: read failed\n"))


class Program(Serving, unittest.TestCase):
    WORDS = PROGRAM

    def said_with_folder(self, folder, shapes=SHAPES):
        """What it says, line by line, of a folder, where one connection writes ten times; and its report."""
        pipe = subprocess.PIPE
        words = [*self.WORDS, "127.0.0.1:0", "1", str(folder)]
        with subprocess.Popen(words, bufsize=0, stdin=pipe, stdout=pipe, stderr=pipe) as program:
            program.stdin.write(frames.header_bytes(frames.Machine(frames.SECRET, shapes)))
            program.stdin.close()
            lines = []
            while "serving at" not in "".join(lines[-1:]):
                lines.append(program.stderr.readline().decode())
                self.assertTrue(lines[-1])
            link = socket.create_connection(("127.0.0.1", int(lines.pop().rsplit(":", 1)[1])), SECONDS)
            self.asked(link, *[WRITE] * 10)
            link.close()
            report, said = program.stdout.read().decode(), program.stderr.read().decode()
            return lines, said.splitlines(), report

    def test_what_is_said_of_a_folder(self):
        folder = tempfile.TemporaryDirectory()
        self.addCleanup(folder.cleanup)
        self.assertEqual(self.said_with_folder(folder.name)[:2], ([], []))
        size = pathlib.Path(folder.name, "unit-0").stat().st_size
        before, after, report = self.said_with_folder(folder.name)
        said = f"copymgr: {folder.name}/unit-0 has {size} bytes of an earlier run, and is emptied when entries are written\n"
        self.assertEqual((before, after), ([said], []))
        self.assertIn("kept 0\n", report)
        before, after, report = self.said_with_folder("/nowhere/at/all")
        self.assertEqual(len(before), 1)
        self.assertRegex(before[0], "^copymgr: /nowhere/at/all: .*, so no entry is written\n$")
        # the file begins to fail once, and what was kept is told at the end
        self.assertEqual(len(after), 2, after)
        self.assertRegex(after[0], "^copymgr: /nowhere/at/all/unit-0: .*, so entries are kept in memory$")
        self.assertEqual(after[1], "copymgr: 11 entries are in no file, and are lost with the program")
        self.assertIn("kept 11\n", report)


class Floor(Links, unittest.TestCase):
    """What bench/run-serving measures beside."""

    WORDS = [str(support.TOP / "bench/floor.py")]

    def test_blocks(self):
        server = self.start(2)
        first, second = self.link(server), self.link(server)
        past = frames.Request(0, cdbs.encode(0x28, lba=99, count=2), b"")
        replies = self.asked(first, WRITE, READ, past, WRITE._replace(out=b""), ZERO_WRITE, READ._replace(unit=1))
        refusals = [(5, 0x21, 0), (5, 0x24, 0), (5, 0x20, 0), (5, 0x25, 0)]
        self.assertEqual(replies, GOOD + DATA + b"".join(map(frames.check, refusals)))
        capacity = frames.Request(0, cdbs.encode(0x25), b"")
        replies = self.asked(second, READ, capacity)
        self.assertEqual(replies, DATA + frames.good(struct.pack(">II", 99, 512)))
        first.close()
        second.close()
        report = server.report(SECONDS)
        self.assertEqual((report.sessions, report.commands), (2, 8))


class Load(Links, unittest.TestCase):
    """The clients of bench/run-serving."""

    WORDS = PLAIN

    @classmethod
    def setUpClass(cls):
        compiler = shutil.which(os.environ.get("CC", "cc"))
        if not compiler:
            raise unittest.SkipTest("no C compiler")
        folder = tempfile.TemporaryDirectory()
        cls.addClassCleanup(folder.cleanup)
        cls.load = os.path.join(folder.name, "load")
        words = [compiler, "-O2", "-Wall", "-Wextra", "-Werror", "-pthread", "-o", cls.load, support.TOP / "bench/load.c"]
        subprocess.run(words, check=True)

    def loaded(self, server, *words):
        """What it prints and says, and its status."""
        words = [self.load, server.address[0], *map(str, [server.address[1], *words])]
        done = subprocess.run(words, capture_output=True, text=True, timeout=SECONDS, check=False)
        return done.stdout.split(), done.stderr, done.returncode

    def test_it_counts_what_was_done(self):
        shapes = [Shape(4096), Shape(4096)]
        for connections, units, blocks, ahead in [(1, 1, 1, 1), (2, 2, 3, 2), (3, 1, 1, 8), (2, 2, 0, 7), (2, 1, 200, 3)]:
            with self.subTest(connections=connections, units=units, blocks=blocks, ahead=ahead):
                server = self.start(connections, shapes)
                told, said, status = self.loaded(server, connections, units, 512, blocks, 60, ahead)
                self.assertEqual((said, status), ("", 0))
                size = 60 * (22 + 6) + 60 * 512 * blocks
                self.assertEqual(told[1:], ["60", str(size)])
                report = server.report(SECONDS)
                self.assertEqual((report.commands, report.faults, report.sessions), (60, 0, connections))
                self.assertEqual([unit.mapped for unit in report.units], self.mapped(connections, units, blocks))

    @staticmethod
    def mapped(connections, units, blocks):
        """How many blocks of each of two units are mapped."""
        return [blocks * sum(number % units == unit for number in range(connections)) for unit in (0, 1)]

    def test_it_finds_a_wrong_reply(self):
        """The second connection asks for a unit that is not there, and a WRITE without room is refused."""
        told, said, status = self.loaded(self.start(2, [Shape(4096)]), 2, 2, 512, 1, 60, 4)
        self.assertEqual((told, said, status), ([], "connection 1: a reply is not the right one\n", 1))
        told, said, status = self.loaded(self.start(1, [Shape(4096, entries=7)]), 1, 1, 512, 1, 60, 4)
        self.assertEqual((told, said, status), ([], "connection 0: a reply is not the right one\n", 1))


class Addresses(unittest.TestCase):
    def test_addresses(self):
        self.assertEqual(addresses.address_of("127.0.0.1:3260"), ("127.0.0.1", 3260))
        self.assertEqual(addresses.address_of("[::1]:0"), ("::1", 0))
        for text in ["", ":1", "host", "host:", "host:x", "host:65536", "host:-1"]:
            with self.assertRaisesRegex(ValueError, "no HOST:PORT"):
                addresses.address_of(text)

    def test_a_port_that_is_taken(self):
        with socket.create_server(("127.0.0.1", 0)) as taken:
            words = [*PLAIN, f"127.0.0.1:{taken.getsockname()[1]}", "1"]
            header = frames.header_bytes(frames.Machine(frames.SECRET, SHAPES))
            done = subprocess.run(words, input=header, capture_output=True, timeout=SECONDS, check=False)
        self.assertEqual((done.stdout, done.returncode), (b"", 9))
