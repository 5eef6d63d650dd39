"""The tools by their words: what they write, and how wrong use ends."""

import pathlib
import re
import subprocess
import tempfile
import unittest

from copymgr_formats import senses

from . import support

STDIN, _, _ = support.run("row", "trace", "write then read")
STDOUT, _, _ = support.run("row", "replies", "write then read")
TEXT = b"unit 0 blocks=100\ni1 lun=0 write-16 lba=0 data=11*512,22*512 go\ni1 lun=0 read-16 lba=0 count=3 go\n"
TOOLS = [
    "tools/people/trace", "tools/people/plain-replay", "tools/people/row", "tools/campaigns/random-traces", "tools/proofs/run-tests",
    "tools/campaigns/fail-allocations", "tools/proofs/check-repository", "tools/campaigns/random-sessions", "tools/people/plain-serve",
    "tools/people/plain-manage", "tools/campaigns/serving-load", "tools/campaigns/managing-load", "tools/campaigns/fuzz",
    "tools/campaigns/iscsi-clients", "clients/iscsi/iscsi-target", "bench/run", "bench/run-sessions", "bench/generate.py", "bench/run-serving", "bench/floor.py", "tools/campaigns/served-history",
    "bench/run-kept", "bench/run-commands", "bench/run-tokens",
]


class Trace(unittest.TestCase):
    def test_a_trace_as_text_and_back(self):
        self.assertEqual(support.run("trace", "text", data=STDIN), (TEXT, "", 0))
        self.assertEqual(support.run("trace", "bytes", data=TEXT), (STDIN, "", 0))

    def test_play_and_replies_tell_the_same(self):
        text, _, status = support.run("trace", "play", data=TEXT)
        self.assertEqual(status, 0)
        with tempfile.TemporaryDirectory() as folder:
            trace = pathlib.Path(folder) / "stdin"
            trace.write_bytes(STDIN)
            replies = support.run("trace", "replies", str(trace), data=STDOUT)
        told = [line.removeprefix("    ") for line in text.decode().splitlines() if line.startswith("    ")]
        self.assertEqual((replies[0].decode().splitlines(), replies[1:]), (told, ("", 0)))

    def test_play_by_a_program(self):
        plain = support.run("trace", "play", data=TEXT)
        self.assertEqual(support.run("trace", "play", "tools/people/plain-replay", data=TEXT), plain)

    def test_play_tells_of_other_replies(self):
        output, _, status = support.run("trace", "play", "true", data=TEXT)
        self.assertEqual(output.decode().splitlines()[-1], "these are not the replies of the plain replay")
        self.assertEqual(status, 1)

    def test_output_that_nobody_reads(self):
        words = "set -o pipefail; tools/people/trace play < examples/token.txt | true"
        done = subprocess.run(["bash", "-c", words], cwd=support.TOP, capture_output=True, check=False)
        self.assertEqual((done.returncode, done.stderr), (1, b""))

    def test_play_of_an_early_end(self):
        output, _, status = support.run("trace", "play", data=b"raw 00")
        self.assertEqual(output, b"raw 00\nended with status 4: copymgr: input ends inside the part at byte 0\n")
        self.assertEqual(status, 1)

    def test_acts(self):
        output, said, status = support.run("trace", "acts", data=TEXT)
        self.assertEqual((len(output.splitlines()), said, status), (4, "", 0))

    def test_wrong_input_is_one_line_and_nothing_is_written(self):
        for words, data, why in [
            (["bytes"], TEXT + b"i1 foo", "line 4, column 4: there is no command foo"),
            (["play"], b"\xff\xfe\0", "no text"),
            (["play", "/nowhere/at/all"], TEXT, "No such file"),
            (["replies", "/nowhere/at/all"], b"", "No such file"),
            (["replies", "README.md"], b"", "bad header at byte 0"),
        ]:
            with self.subTest(words=words):
                output, said, status = support.run("trace", *words, data=data)
                self.assertEqual((output, status, said.count("\n")), (b"", 2, 1), said)
                self.assertIn(why, said)

    def test_replies_that_are_cut(self):
        with tempfile.TemporaryDirectory() as folder:
            trace = pathlib.Path(folder) / "trace"
            trace.write_bytes(STDIN)
            output, said, status = support.run("trace", "replies", str(trace), data=STDOUT[:-1])
        self.assertEqual((output, status, said.count("\n")), (b"", 2, 1), said)
        self.assertIn("end inside the reply at byte 10", said)


class PlainReplay(unittest.TestCase):
    def test_a_trace(self):
        self.assertEqual(support.run("plain-replay", "replay", data=STDIN), (STDOUT, "", 0))

    def test_endings(self):
        place = len(STDIN)
        for data, said, status in [
            (b"", "input ends inside the part at byte 0", 4),
            (STDIN[:60], "input ends inside the part at byte 0", 4),
            (b"X" + STDIN[1:], "bad header at byte 0", 5),
            (STDIN[:40] + b"\0\x11" + STDIN[42:], "bad header at byte 40", 5),
            (STDIN + b"\1\0", f"input ends inside the part at byte {place}", 4),
            (STDIN + b"\4", f"bad record at byte {place}", 7),
            (STDIN + b"\2" + bytes(12), f"bad record at byte {place}", 7),
        ]:
            with self.subTest(said):
                output = STDOUT if len(data) > place else b""
                wanted = (output, f"copymgr: {said}\n", status)
                self.assertEqual(support.run("plain-replay", "replay", data=data), wanted)


class Words(unittest.TestCase):
    def test_help_has_an_example(self):
        for tool in TOOLS:
            with self.subTest(tool):
                output, said, status = support.run(support.TOP / tool, "--help")
                self.assertEqual((said, status), ("", 0))
                self.assertIn("example:\n", output.decode())
                self.assertIn(f"  $ {tool}", output.decode())

    def test_wrong_use_is_one_line_and_a_status(self):
        """The plain servers have the status of the program that they are beside."""
        nonesuch = [[support.TOP / tool, "--nonesuch"] for tool in TOOLS]
        for words in nonesuch + [["trace"], ["trace", "foo"], ["row", "trace", "none"]]:
            with self.subTest(words=words):
                output, said, status = support.run(*words)
                wanted = 6 if pathlib.Path(words[0]).name in ("plain-serve", "plain-store", "plain-manage") else 2
                self.assertEqual((output, status, said.count("\n")), (b"", wanted, 1), said)


class Senses(unittest.TestCase):
    def test_the_document_has_every_sense_and_its_name(self):
        document = (support.TOP / "docs/formats.md").read_text(encoding="utf-8")
        table = document.split("| Sense | Name")[1].split("\n\n")[0]
        told = dict(re.findall(r"^\| ([0-9A-F]{2}/[0-9A-F]{2}/[0-9A-F]{2}) \| ([^|]+) \|", table, re.M))
        known = {value for value in vars(senses).values() if isinstance(value, tuple) and len(value) == 3}
        # a copy has the key 0Ah also where a Put is refused
        known.add((0x0A, *senses.OVER_QUOTA[1:]))
        wanted = {f"{k:02X}/{c:02X}/{q:02X}": senses.NAMES[c, q].upper() for k, c, q in known}
        self.assertEqual(told, wanted)
