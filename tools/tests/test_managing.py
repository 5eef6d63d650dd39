"""A manager: connections come and go, and a request ends it."""

import pathlib
import re
import socket
import subprocess
import tempfile
import time
import unittest

from copymgr import Shape
from copymgr.server import UnitReport, can_manage, report_of
from copymgr_formats import cdbs, frames

from . import support

PROGRAM = support.PROGRAM if can_manage(support.PROGRAM) else None
SECONDS = 60
PLACES = 256
READ = frames.request_bytes(frames.Request(0, cdbs.encode(0x88, lba=0, count=1), b""))
ZEROS = 6 + 512  # bytes of the reply


class Managing:
    """What a manager does that is started by these words."""

    WORDS = []

    def folder(self):
        folder = tempfile.TemporaryDirectory()
        self.addCleanup(folder.cleanup)
        return pathlib.Path(folder.name)

    def start(self, stdin=subprocess.PIPE, file=None, handles=None):
        if file is None:
            file = self.folder() / "units"
            file.write_bytes(frames.header_bytes(frames.Machine(frames.SECRET, [Shape(100)])))
        words = [*self.WORDS, "127.0.0.1:0", str(file)]
        if handles:
            words = ["prlimit", f"--nofile={handles}", *words]
        self.program = subprocess.Popen(words, bufsize=0, stdin=stdin, stdout=subprocess.PIPE, stderr=subprocess.PIPE)
        self.addCleanup(self.end)
        said = self.program.stderr.readline().decode()
        found = re.fullmatch(r"copymgr: serving at (.*):([0-9]+)\n", said)
        self.assertTrue(found, said)
        self.address = found[1], int(found[2])

    def end(self):
        self.program.kill()
        self.program.wait()
        for stream in self.program.stdin, self.program.stdout, self.program.stderr:
            if stream:
                stream.close()

    def links(self, count):
        """So many connections, each of which has asked for a block."""
        found = []
        for _ in range(count):
            link = socket.create_connection(self.address, SECONDS)
            self.addCleanup(link.close)
            link.sendall(READ)
            found.append(link)
        return found

    def is_answered(self, link, seconds):
        link.settimeout(seconds)
        got = b""
        try:
            while len(got) < ZEROS and (more := link.recv(ZEROS - len(got))):
                got += more
        except TimeoutError:
            return False
        return len(got) == ZEROS

    def asked_to_end(self, *before):
        """What is written when it was asked so: answers, and then the report."""
        output, said = self.program.communicate(b"".join(line + b"\n" for line in [*before, b"end"]), timeout=SECONDS)
        self.assertEqual((self.program.returncode, said), (0, b""))
        return output.decode()

    def ask(self, line):
        """The lines of the answer to a request, without the empty one behind them."""
        self.program.stdin.write(line + b"\n")
        lines = []
        while (line := self.program.stdout.readline()) != b"\n":
            self.assertTrue(line, lines)
            lines.append(line.decode().rstrip("\n"))
        return lines

    def reported(self, text, sessions):
        self.assertTrue(text.startswith("ended\n"), text)
        report = report_of(text.removeprefix("ended\n"))
        unit = UnitReport(steps=sessions + 1, live=0, mapped=0)
        self.assertEqual((report.sessions, report.faults, report.commands, report.units), (sessions, 0, sessions, [unit]))

    def test_more_connections_than_places(self):
        self.start()
        links = self.links(PLACES + 44)
        first, later = links[:PLACES], links[PLACES:]
        self.assertTrue(all(self.is_answered(link, SECONDS) for link in first))
        self.assertFalse(self.is_answered(later[0], 0.5))
        for link in first[100:150]:
            link.close()
        self.assertTrue(all(self.is_answered(link, SECONDS) for link in later))
        for link in links:
            link.close()
        self.reported(self.asked_to_end(), PLACES + 44)

    def test_one_after_the_other(self):
        self.start()
        for _ in range(2 * PLACES):
            (link,) = self.links(1)
            self.assertTrue(self.is_answered(link, SECONDS))
            link.close()
        self.reported(self.asked_to_end(), 2 * PLACES)

    def test_an_end_is_seen_where_no_place_is_free(self):
        self.start()
        links = self.links(PLACES + 1)
        self.assertTrue(all(self.is_answered(link, SECONDS) for link in links[:PLACES]))
        self.program.stdin.write(b"end\n")
        self.assertFalse(self.is_answered(links[PLACES], 0.5))
        for link in links[:PLACES]:
            link.close()
        output, _ = self.program.communicate(timeout=SECONDS)
        self.assertEqual(self.program.returncode, 0)
        self.reported(output.decode(), PLACES)

    def test_other_lines_are_answered(self):
        self.start()
        text = self.asked_to_end(b"", b"end ", b"close", b"close -1", b"close 4294967296", b"x" * 1000)
        self.assertTrue(text.startswith("unknown\n\n" * 6), text)
        self.reported(text.removeprefix("unknown\n\n" * 6), 0)

    def test_connections_are_told_and_closed(self):
        self.start()
        self.assertEqual(self.ask(b"connections"), ["connections"])
        links = self.links(3)
        self.assertTrue(all(self.is_answered(link, SECONDS) for link in links))
        told = self.ask(b"connections")
        self.assertEqual([line.split()[0] for line in told], ["connections", "0", "1", "2"])
        self.assertTrue(all(0 <= int(line.split()[1]) < SECONDS for line in told[1:]))
        self.assertEqual(self.ask(b"close 1"), ["close 1", "closed"])
        links[1].settimeout(SECONDS)
        self.assertEqual(links[1].recv(1), b"")
        self.assertEqual(self.ask(b"close 3"), ["close 3", "none"])
        links[0].sendall(READ)
        self.assertTrue(self.is_answered(links[0], SECONDS))
        for _ in range(100):
            numbers = [line.split()[0] for line in self.ask(b"connections")]
            if numbers == ["connections", "0", "2"]:
                break
            time.sleep(0.1)
        self.assertEqual(numbers, ["connections", "0", "2"])

    def test_units_are_told_and_a_report_as_it_stands(self):
        self.start()
        self.assertEqual(self.ask(b"units"), ["units", "unit 0 steps 0 live 0 mapped 0"])
        links = self.links(3)
        self.assertTrue(all(self.is_answered(link, SECONDS) for link in links))
        unit = "unit 0 steps 3 live 0 mapped 0"
        self.assertEqual(self.ask(b"units"), ["units", unit])
        links[0].close()
        for _ in range(100):
            told = self.ask(b"report")
            if told[-1] == "open 2" and told[1] == "sessions 1":
                break
            time.sleep(0.1)
        self.assertEqual(told, ["report", "sessions 1", "faults 0", "memory 0", "commands 1", unit, "total 3", "open 2"])
        for link in links:
            link.close()
        self.reported(self.asked_to_end(), 3)

    def test_a_stop_closes_what_is_open(self):
        self.start()
        links = self.links(PLACES + 1)
        self.assertTrue(all(self.is_answered(link, SECONDS) for link in links[:PLACES]))
        output, said = self.program.communicate(b"stop\n", timeout=SECONDS)
        self.assertEqual((self.program.returncode, said), (0, b""))
        self.reported(output.decode(), PLACES)

    def test_the_end_of_the_input_is_no_request(self):
        self.start(stdin=subprocess.DEVNULL)
        for link in self.links(2):
            self.assertTrue(self.is_answered(link, SECONDS))
        self.assertIsNone(self.program.poll())

    def test_a_file_that_is_not_there(self):
        words = [*self.WORDS, "127.0.0.1:0", "/no-such-file"]
        done = subprocess.run(words, stdin=subprocess.DEVNULL, capture_output=True, check=False)
        self.assertEqual((done.returncode, done.stdout), (1, b""))
        self.assertIn(b"copymgr: read failed\ncopymgr: /no-such-file: ", done.stderr)


class PlainManaging(Managing, unittest.TestCase):
    WORDS = [str(support.TOOLS / "people/plain-manage")]


@unittest.skipUnless(PROGRAM, f"no program that manages at {support.PROGRAM}")
class ProvedManaging(Managing, unittest.TestCase):
    WORDS = [str(PROGRAM), "manage"]

    def test_an_accept_that_fails_waits_for_a_session_to_end(self):
        self.start(handles=24)
        links = self.links(30)
        waits = b"copymgr: no connection can be accepted until one that is open has ended\n"
        self.assertEqual(self.program.stderr.readline(), waits)
        answered = [link for link in links if self.is_answered(link, 1)]
        self.assertTrue(4 < len(answered) < 24, len(answered))
        for link in links:
            self.assertTrue(link in answered or self.is_answered(link, SECONDS))
            link.close()
        for _ in range(8):
            (link,) = self.links(1)
            self.assertTrue(self.is_answered(link, SECONDS))
            link.close()
        output, said = self.program.communicate(b"end\n", timeout=SECONDS)
        self.assertEqual((self.program.returncode, said.replace(waits, b"")), (0, b""))
        self.reported(output.decode(), len(links) + 8)

    def test_a_connection_that_ends_with_a_fault_is_a_line(self):
        self.start()
        link = socket.create_connection(self.address, SECONDS)
        link.sendall(READ[:7])
        link.close()
        for _ in range(100):
            told = self.ask(b"report")
            if told[1] == "sessions 1":
                break
            time.sleep(0.1)
        self.assertEqual(told[1:4], ["sessions 1", "faults 1", "memory 0"])
        output, said = self.program.communicate(b"end\n", timeout=SECONDS)
        line = b"copymgr: connection 0 has ended: its input ends inside a request\n"
        self.assertEqual((self.program.returncode, said), (0, line), output)

    def test_a_configuration_is_a_text(self):
        folder = self.folder()
        (folder / "units.secret").write_bytes(bytes(range(32)))
        text = 'secret_file = "units.secret"\n\n[[unit]]\nblocks = 100\n'
        (folder / "units").write_text(text)
        self.start(file=folder / "units")
        (link,) = self.links(1)
        self.assertTrue(self.is_answered(link, SECONDS))
        link.close()
        self.reported(self.asked_to_end(), 1)

    def refused(self, file):
        words = [*self.WORDS, "127.0.0.1:0", str(file)]
        done = subprocess.run(words, stdin=subprocess.DEVNULL, capture_output=True, check=False, timeout=SECONDS)
        self.assertEqual(done.stdout, b"")
        return done.returncode, done.stderr.decode()

    def test_a_text_with_a_fault_is_told_by_its_line(self):
        folder = self.folder()
        file = folder / "units"
        file.write_text('secret_file = "units.secret"\n[[unit]]\nblocks = 100\ncolour = 3\n')
        fault = "line 4: unit 0: a unit has no such key; it has blocks, block_length, entries, quota, payload and group"
        self.assertEqual(self.refused(file), (5, f"copymgr: bad header at byte 51\ncopymgr: {file}: {fault}\n"))
        file.write_text('secret_file = "units.secret"\n[[unit]]\nblocks = 100\n')
        secret = folder / "units.secret"
        status, said = self.refused(file)
        self.assertEqual((status, said.splitlines()[0]), (1, "copymgr: read failed"))
        self.assertTrue(said.splitlines()[1].startswith(f"copymgr: {secret}: "), said)
        for size in (31, 33):
            secret.write_bytes(bytes(size))
            why = "a secret has 32 bytes, and no more"
            self.assertEqual(self.refused(file), (5, f"copymgr: bad header at byte 0\ncopymgr: {secret}: {why}\n"))


if __name__ == "__main__":
    unittest.main()
