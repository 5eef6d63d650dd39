"""The command cmgr."""

import os
import pathlib
import pty
import struct
import subprocess
import tempfile
import tomllib
import unittest

from copymgr.wire import PLAIN_REPLAY, PLAIN_SERVE, TOP, frames

from .support import NO_PROGRAM, PROGRAM, PROGRAM_SERVER, server_for

CMGR = TOP / "clients/python/cmgr"


class Traces(unittest.TestCase):
    PROGRAM = str(PLAIN_REPLAY)

    def setUp(self):
        folder = tempfile.TemporaryDirectory()
        self.addCleanup(folder.cleanup)
        self.folder = pathlib.Path(folder.name)
        self.trace = str(self.folder / "disk.trace")
        self.good("new", self.trace, "--unit", "10000", "--unit", "0x2710", "--unit", "50/4096")

    def run_words(self, *words, data=b""):
        if words[0] not in ("new", "job"):
            words += ("--program", self.PROGRAM)
        return subprocess.run([CMGR, *words], input=data, capture_output=True, check=False)

    def good(self, *words, data=b""):
        done = self.run_words(*words, data=data)
        self.assertEqual((done.returncode, done.stderr), (0, b""), words)
        return done.stdout

    def bad(self, status, why, *words, data=b""):
        """It ends with the status and one line, writes nothing, and leaves the trace as it was or longer."""
        done = self.run_words(*words, data=data)
        self.assertEqual((done.returncode, done.stdout, done.stderr.count(b"\n")), (status, b"", 1), done.stderr)
        self.assertIn(why, done.stderr.decode())

    def test_blocks(self):
        self.good("write", self.trace, "--lba", "5", data=b"a" * 512 + b"b" * 512)
        self.assertEqual(self.good("read", self.trace, "--lba", "6", "--count", "2"), b"b" * 512 + bytes(512))
        self.assertIn(b"00000200\n", self.good("read", self.trace, "--lba", "5", "--count", "1", "--hex"))
        self.good("read", self.trace, "--lba", "5", "--count", "1", "--out", str(self.folder / "out"))
        self.assertEqual((self.folder / "out").read_bytes(), b"a" * 512)
        self.good("unmap", self.trace, "--ranges", "5+1")
        self.assertEqual(self.good("map", self.trace), b"0+6 deallocated\n6+1 mapped\n7+9993 deallocated\n")

    def test_copies(self):
        self.good("write", self.trace, data=b"c" * 512 * 2000)
        self.good("copy", self.trace, "--from", "0:0", "--to", "1:100", "--count", "2000")
        self.assertEqual(self.good("map", self.trace, "--lun", "1").splitlines()[1], b"100+2000 mapped")
        self.assertEqual(self.good("status", self.trace, "--lun", "1"), b"done, 2000 blocks\n")
        self.good("copy", self.trace, "--from", "0:0", "--to", "1:0", "--count", "2", "--segments")
        self.assertEqual(self.good("status", self.trace, "--segments"), b"done, 1 segment, 1024 bytes\n")
        self.good("copy", self.trace, "--from", "0:0", "--to", "1:5000", "--count", "2000", "--immed", "--id", "9")
        status = ["status", self.trace, "--lun", "1", "--id", "9"]
        self.assertEqual(self.good(*status), b"in background, 0 blocks\n")
        self.assertEqual(self.good(*status, "--pump", "1"), b"in background, 1024 blocks\n")
        self.good("abort", self.trace, "--lun", "1", "--id", "9")
        self.assertEqual(self.good(*status, "--pump", "1"), b"terminated, 1024 blocks\n")

    def test_copies_of_extents(self):
        self.good("write", self.trace, data=b"".join(bytes([1 + at]) * 512 for at in range(200)))
        self.good("copy", self.trace, "--from", "0:0+2,100+3", "--to", "1:7")
        blocks = self.good("read", self.trace, "--lun", "1", "--lba", "7", "--count", "5")
        self.assertEqual(blocks[::512], bytes([1, 2, 101, 102, 103]))
        self.good("copy", self.trace, "--from", "0:20", "--to", "1:50+1,40+2", "--segments")
        blocks = self.good("read", self.trace, "--lun", "1", "--lba", "40", "--count", "11")
        self.assertEqual(blocks[::512], bytes([22, 23, 0, 0, 0, 0, 0, 0, 0, 0, 21]))
        self.good("copy", self.trace, "--from", "0:30+1,40+1", "--to", "1:60", "--immed")
        self.assertEqual(self.good("status", self.trace, "--lun", "1", "--pump", "1"), b"done, 2 blocks\n")
        self.bad(2, "2 POPULATE TOKENs and 2 WRITE USING TOKENs", "copy", self.trace, *self.many(), "--immed")

    def many(self):
        """65 blocks of extents of their own, and where to."""
        return "--from", "0:" + ",".join(f"{2 * at}+1" for at in range(65)), "--to", "1:5000"

    def test_plans(self):
        """No device is asked for a plan, and none is wanted."""
        apart = ",".join(f"{2 * at}+1" for at in range(64))
        for words, plan in [
            (["--from", "0:0+8,100+8", "--to", "1:50"], [
                "16 blocks: 1 POPULATE TOKEN and 1 WRITE USING TOKEN",
                "token 1: 16 blocks of 2 extents, lun=0 0+8,100+8",
                "  16 blocks to lun=1 50+16",
            ]),
            (self.many(), [
                "65 blocks: 2 POPULATE TOKENs and 2 WRITE USING TOKENs",
                f"token 1: 64 blocks of 64 extents, lun=0 {apart}",
                "  64 blocks to lun=1 5000+64",
                "token 2: 1 block of 1 extent, lun=0 128+1",
                "  1 block to lun=1 5064+1",
            ]),
            (["--from", "3:5", "--to", f"2:{apart},128+1"], [
                "65 blocks: 1 POPULATE TOKEN and 2 WRITE USING TOKENs",
                "token 1: 65 blocks of 1 extent, lun=3 5+65",
                f"  64 blocks to lun=2 {apart}",
                "  1 block to lun=2 128+1",
            ]),
            (["--from", "0:7", "--to", "1:0", "--count", "1048577"], [
                "1048577 blocks: 2 POPULATE TOKENs and 2 WRITE USING TOKENs",
                "token 1: 1048576 blocks of 1 extent, lun=0 7+1048576",
                "  1048576 blocks to lun=1 0+1048576",
                "token 2: 1 block of 1 extent, lun=0 1048583+1",
                "  1 block to lun=1 1048576+1",
            ]),
            (["--from", "0:7", "--to", "1:0", "--count", "0"], ["0 blocks: 0 POPULATE TOKENs and 0 WRITE USING TOKENs"]),
        ]:
            for device in [], [self.trace], ["nowhere"]:
                with self.subTest(words=words, device=device):
                    self.assertEqual(self.good("copy", *device, *words, "--plan").decode().splitlines(), plan)

    def test_what_a_unit_is(self):
        self.assertEqual(self.good("readcap", self.trace, "--lun", "2"), b"50 blocks of 4096 bytes: 204800 bytes\n")
        self.assertEqual(self.good("inq", self.trace), b"COPYMGR ROD TOKEN UNIT 0001\n")
        self.assertIn(b"00 83 00 0c", self.good("inq", self.trace, "--page", "83h"))

    def test_moments(self):
        self.good("readcap", self.trace, "--moment", "100")
        self.good("copy", self.trace, "--from", "0:0", "--to", "1:0", "--count", "1")
        trace = pathlib.Path(self.trace).read_bytes()
        text = subprocess.run([TOP / "tools/people/trace", "text"], input=trace, capture_output=True, check=True)
        self.assertEqual(text.stdout.count(b"@"), 1)
        self.assertIn(b"\n@100 i1 lun=0 read-capacity-16 length=32\n", text.stdout)

    def test_reservations(self):
        other = ["--initiator", "2"]
        self.good("register", self.trace, "--new-key", "0x11")
        self.good("reserve", self.trace, "--key", "0x11", "--type", "write-exclusive")
        said = b"generation 1\nkey 0x11\nreserved by key 0x11: write exclusive\n"
        self.assertEqual(self.good("keys", self.trace), said)
        self.bad(24, "RESERVATION CONFLICT", "write", self.trace, *other, data=bytes(512))
        self.assertEqual(self.good("read", self.trace, "--count", "1", *other), bytes(512))
        self.bad(24, "RESERVATION CONFLICT", "register", self.trace, "--key", "0x33", "--new-key", "0x22", *other)
        self.good("register", self.trace, "--key", "0x33", "--new-key", "0x22", "--ignore", *other)
        self.bad(5, "(05/24/00)", "release", self.trace, "--key", "0x11", "--type", "exclusive-access")
        self.good("release", self.trace, "--key", "0x11", "--type", "write-exclusive")
        self.good("write", self.trace, *other, data=bytes(512))
        self.good("reserve", self.trace, "--key", "0x11", "--type", "exclusive-access-registrants")
        preempt = ["preempt", self.trace, "--key", "0x22", "--other-key", "0x11", "--type", "exclusive-access"]
        self.good(*preempt, *other)
        self.bad(24, "RESERVATION CONFLICT", "read", self.trace, "--count", "1")
        said = b"generation 3\nkey 0x22\nreserved by key 0x22: exclusive access\n"
        self.assertEqual(self.good("keys", self.trace), said)
        self.good("clear", self.trace, "--key", "0x22", *other)
        self.assertEqual(self.good("keys", self.trace), b"generation 4\nno reservation\n")

    def test_numbers_and_sizes(self):
        self.good("write", self.trace, "--lba", "ah", data=b"a" * 512)
        self.assertEqual(self.good("map", self.trace), b"0+10 deallocated\n10+1 mapped\n11+9989 deallocated\n")
        for words in [["--lba", "0x270f"], ["--lba", "270fh"], ["--lba", "9999", "--count", "1c"]]:
            self.assertEqual(self.good("read", self.trace, *words), bytes(512))
        # to the end of the unit, and nothing behind it
        self.assertEqual(len(self.good("read", self.trace)), 10_000 * 512)
        self.assertEqual(self.good("read", self.trace, "--lba", "10000"), b"")
        sizes = str(self.folder / "sizes")
        self.good("new", sizes, *"--unit 1G --unit 64M/4096 --unit 512b".split())
        for lun, said in enumerate([b"2097152 blocks of 512", b"16384 blocks of 4096", b"512 blocks of 512"]):
            self.assertEqual(self.good("readcap", sizes, "--lun", str(lun)).split(b" bytes:")[0], said)

    def test_secrets(self):
        """Nobody can forge the tokens of units that were made without a word on their secret."""
        found = [pathlib.Path(self.trace).read_bytes()[8:40]]
        for name, words in [("a", []), ("b", []), ("c", ["--secret", "5a" * 32])]:
            self.good("new", str(self.folder / name), "--unit", "1", *words)
            found.append((self.folder / name).read_bytes()[8:40])
        self.assertEqual(found[3], b"Z" * 32)
        self.assertEqual(len(set(found)), 4)

    def test_units_as_a_text(self):
        words = ["--unit", "64M/4096", "--unit", "5", "--secret", "5a" * 32]
        for name, more in [("trace", []), ("text", ["--text"])]:
            self.good("new", str(self.folder / name), *words, *more)
        told = tomllib.loads((self.folder / "text").read_text())
        machine, _ = frames.read_header((self.folder / "trace").read_bytes())
        self.assertEqual(told, {"secret": "5a" * 32, "unit": [shape._asdict() for shape in machine.shapes]})
        self.bad(15, "no whole trace, at byte 0", "readcap", str(self.folder / "text"))

    def test_what_was_written(self):
        data = bytes(512) * 3000
        why = "out of range (05/21/00); 2048 blocks written"
        self.bad(22, why, "write", self.trace, "--lba", "7500", data=data)
        done = self.run_words("write", self.trace, "-v", data=data)
        commands = [f"cmgr: unit 0 write lba={lba} count={count}: GOOD" for lba, count in [(0, 2048), (2048, 952)]]
        said = done.stderr.decode().splitlines()
        self.assertEqual(said[1:], [*commands, "3000+0 records in", "3000+0 records out"])
        self.assertEqual((done.returncode, said[0]), (0, "cmgr: unit 0 read capacity 16: GOOD"))

    def test_a_full_device(self):
        for words in [["read", "--count", "1"], ["map"], ["readcap"]]:
            with open("/dev/full", "wb") as full:
                words = [CMGR, words[0], self.trace, *words[1:], "--program", self.PROGRAM]
                done = subprocess.run(words, stdout=full, stderr=subprocess.PIPE, check=False)
            self.assertEqual((done.returncode, done.stderr), (15, b"cmgr: standard output: No space left on device\n"))

    def test_a_job(self):
        job = self.good("job", "--from", "0:5+2,9+3", "--to", "1:100", "--polls", "7")
        extents = [(5, 2), (9, 3), (100, 5)]
        self.assertEqual(job, struct.pack(">HHIII", 0, 1, 7, 2, 1) + b"".join(struct.pack(">QI", *each) for each in extents))

    def test_exit_statuses(self):
        self.bad(22, "out of range (05/21/00)", "read", self.trace, "--lba", "9999", "--count", "2")
        self.bad(5, "not supported (05/25/00)", "read", self.trace, "--lun", "7", "--count", "1")
        past = ["--from", "0:9999", "--to", "1:0", "--count", "2"]
        self.bad(22, "out of range (05/21/00)", "copy", self.trace, *past)
        self.bad(10, "COPY ABORTED", "copy", self.trace, *past, "--segments")
        self.bad(15, "No such file", "readcap", self.trace + "x")
        self.bad(15, "File exists", "new", self.trace, "--unit", "1")
        self.bad(15, "no whole trace, at byte 0", "readcap", str(CMGR))
        self.bad(15, "127.0.0.1:1: ", "readcap", "--connect", "127.0.0.1:1")

    def test_wrong_use(self):
        for words in [
            ["foo"],
            ["read"],
            ["read", self.trace, "--count", "x"],
            ["read", self.trace, "--count", "2q"],
            ["job", "--from", "0:0", "--to", "1:0"],
            ["copy", self.trace, "--from", "0", "--to", "1:0", "--count", "1"],
            ["copy", self.trace, "--from", "0:0", "--to", "1:0", "--count", "1", "--segments", "--id", "256"],
            ["copy", self.trace, "--from", "0:0", "--to", "1:0"],
            ["copy", self.trace, "--from", "0:0+1", "--to", "1:0", "--count", "1"],
            ["copy", self.trace, "--from", "0:0+2", "--to", "1:0+1"],
            ["copy", self.trace, "--from", "0:0+2,1+1", "--to", "1:0"],
            ["copy", self.trace, "--from", "0:0+0", "--to", "1:0"],
            ["copy", self.trace, "--from", "0:none", "--to", "1:0", "--plan"],
            ["copy", "--from", "0:0", "--to", "1:0", "--plan"],
            ["copy", "--from", "0:0", "--to", "1:0", "--count", "1"],
            ["unmap", self.trace, "--ranges", "5"],
            ["readcap", "--connect", "nowhere"],
            ["readcap", "--connect", "127.0.0.1:1", self.trace],
            ["readcap"],
            ["new", self.trace + "2", "--unit", "5/100"],
            ["new", self.trace + "2", "--unit", "1X"],
            ["new", self.trace + "2", "--unit", "1k/4096"],
            ["new", self.trace + "2", "--unit", "5", "--secret", "00"],
            ["register", self.trace, "--key", "1"],
            ["reserve", self.trace, "--key", "1", "--type", "shared"],
        ]:
            with self.subTest(words):
                self.bad(2, "cmgr", *words)
        before = pathlib.Path(self.trace).read_bytes()
        self.bad(2, "no whole blocks", "write", self.trace, data=b"abc")
        self.assertEqual(pathlib.Path(self.trace).read_bytes()[: len(before)], before)
        self.assertFalse(os.path.exists(self.trace + "2"))

    def said_on_a_terminal(self, *words):
        """The status, and the lines that were written over one another."""
        outside, inside = pty.openpty()
        done = subprocess.run([CMGR, *words, "--program", self.PROGRAM], stderr=inside, check=False)
        os.close(inside)
        said = os.read(outside, 1000).decode()
        os.close(outside)
        return done.returncode, said.split("\r")[1:]

    def test_progress_on_a_terminal(self):
        status, said = self.said_on_a_terminal("copy", self.trace, "--from", "0:0", "--to", "1:0", "--count", "2000")
        self.assertEqual((status, said), (0, ["0 of 2000 blocks", "1024 of 2000 blocks", "2000 of 2000 blocks", "\n"]))
        status, said = self.said_on_a_terminal("copy", self.trace, *self.many())
        ends = ["0 of 65 blocks, part 1 of 2", "64 of 65 blocks, part 1 of 2", "65 of 65 blocks, part 2 of 2", "\n"]
        self.assertEqual((status, [line for at, line in enumerate(said) if line not in said[:at]]), (0, ends))

    def test_an_error_on_a_terminal_has_a_line_of_its_own(self):
        past_the_end = [*self.many()[:3], "1:9936"]
        status, said = self.said_on_a_terminal("copy", self.trace, *past_the_end)
        self.assertEqual((status, said[-3]), (22, "64 of 65 blocks, part 1 of 2"))
        self.assertEqual(said[-2], "\ncmgr: ILLEGAL REQUEST, logical block address out of range (05/21/00)")

    def test_help_has_an_example(self):
        done = subprocess.run([CMGR, "--help"], capture_output=True, check=True)
        self.assertIn(b"example:\n", done.stdout)


@unittest.skipIf(NO_PROGRAM, NO_PROGRAM)
class ProgramTraces(Traces):
    PROGRAM = PROGRAM


class PlainServed(unittest.TestCase):
    """Words with --connect."""

    SERVER = [str(PLAIN_SERVE)]

    def start(self, sessions):
        """A server of so many connections; a file of 3000 blocks, of which the last 1000 hold zeros."""
        self.server = server_for(self, self.SERVER, sessions)
        self.where = ["--connect", "{}:{}".format(*self.server.address)]
        folder = tempfile.TemporaryDirectory()
        self.addCleanup(folder.cleanup)
        self.folder = pathlib.Path(folder.name)
        self.data = b"".join(bytes([1 + at % 255]) * 512 for at in range(2000)) + bytes(512 * 1000)
        (self.folder / "in").write_bytes(self.data)

    def run_words(self, word, *words):
        return subprocess.run([CMGR, word, *self.where, *words], capture_output=True, check=False)

    def good(self, *words):
        done = self.run_words(*words)
        self.assertEqual((done.returncode, done.stderr), (0, b""), words)
        return done.stdout

    def test_a_file_is_written_cloned_and_read_back(self):
        self.start(5)
        self.good("write", "--lba", "5", "--in", str(self.folder / "in"))
        self.good("copy", "--from", "0:5", "--to", "1:100", "--count", "3000")
        self.good("read", "--lun", "1", "--lba", "100", "--count", "3000", "--out", str(self.folder / "out"))
        self.assertEqual((self.folder / "out").read_bytes(), self.data)
        self.assertEqual(self.good("map", "--lun", "1").splitlines()[1], b"100+3000 mapped")
        self.assertEqual(self.good("readcap", "--lun", "2"), b"500 blocks of 4096 bytes: 2048000 bytes\n")
        report = self.server.report(60)
        self.assertEqual((report.sessions, report.faults, report.memory), (5, 0, 0))
        # READ CAPACITY and two WRITEs; POPULATE TOKEN, RECEIVE ROD TOKEN INFORMATION, WRITE USING TOKEN and at least
        # one look at it; two READs; READ CAPACITY and a GET LBA STATUS; READ CAPACITY
        self.assertGreaterEqual(report.commands, 3 + 4 + 2 + 2 + 1)
        self.assertEqual([unit.mapped for unit in report.units], [3000, 3000, 0, 0, 0])
        self.assertEqual([unit.live for unit in report.units], [0, 0, 0, 0, 0])
        self.assertEqual(sum(unit.steps for unit in report.units), report.total)

    def test_a_copy_of_segments_and_what_was_unmapped(self):
        self.start(4)
        self.good("write", "--in", str(self.folder / "in"))
        self.good("unmap", "--ranges", "7+2,9+1")
        self.good("copy", "--from", "0:0", "--to", "3:0", "--count", "20", "--segments")
        runs = self.good("map", "--lun", "3").splitlines()
        self.assertEqual(runs, [b"0+7 mapped", b"7+3 deallocated", b"10+10 mapped", b"20+9980 deallocated"])

    def test_refusals_and_what_is_not_there(self):
        self.start(2)
        for words, status, why in [
            (["read", "--lba", "9999", "--count", "2"], 22, "out of range (05/21/00)"),
            (["status", "--id", "9"], 5, "invalid field in CDB (05/24/00)"),
        ]:
            done = self.run_words(*words)
            self.assertEqual((done.returncode, done.stdout), (status, b""))
            self.assertIn(why, done.stderr.decode())
        self.server.report(60)
        done = self.run_words("readcap")
        self.assertEqual((done.returncode, done.stdout, done.stderr.count(b"\n")), (15, b"", 1), done.stderr)


class ProgramServed(PlainServed):
    SERVER = PROGRAM_SERVER
