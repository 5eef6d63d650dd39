"""The generated trace: its bytes, what a replay of it counts, and the words that ask for it."""

import subprocess
import unittest

from . import support
from replay import generated

ROW = support.TOP / "crates/copymgr/src/rows/generated.rt"
STORED = support.TOP / "crates/copymgr"
COUNTS = dict(records=12, replies=5, good=5, check=0, busy=0, full=0, steps=7, bytes=4182)
MISSPELT = [
    ["gen"], ["gen", ""], ["gen", "0"], ["gen", "01"], ["gen", "+1"], ["gen", "-1"], ["gen", "4097"], ["gen", "1 "],
    ["gen", "4294967297"], ["gen", "1e3"], ["gen", "1", "2"], ["Gen", "1"], ["1", "gen"], ["replay", "1"],
]
USAGE = (
    b"copymgr: use replay, check, copy [ADDRESS], gen N, store ADDRESS SESSIONS FOLDER, "
    b"or serve ADDRESS SESSIONS [FOLDER]\n"
)


def wanted(rounds):
    """The lines that so many rounds are worth."""
    return "".join(f"{name} {rounds * count}\n" for name, count in COUNTS.items())


def row():
    """The trace of 20 rounds that the tests of the program have."""
    tables = support.tool("row")
    return tables.bytes_of(tables.constants(ROW.read_text(encoding="utf-8"))["TRACE"], {})


class Generated(unittest.TestCase):
    def test_the_bytes_of_20_rounds(self):
        self.assertEqual(generated.trace(20), row())

    def test_what_is_counted(self):
        for rounds in (1, 20):
            with self.subTest(rounds):
                self.assertEqual(generated.summary(generated.trace(rounds)), wanted(rounds))

    def test_the_stored_run(self):
        word, rounds = (STORED / "args").read_text(encoding="utf-8").split()
        self.assertEqual(((STORED / "stdout").read_text(encoding="utf-8"), word), (wanted(int(rounds)), "gen"))

    def test_words_of_the_plain_replay(self):
        self.assertEqual(support.run("plain-replay", "gen", "3"), (wanted(3).encode(), "", 0))
        for words in MISSPELT:
            with self.subTest(words):
                output, _, status = support.run("plain-replay", *words)
                self.assertEqual((output, status), (b"", 2))

    @unittest.skipIf(support.NO_PROGRAM, support.NO_PROGRAM)
    def test_words_of_the_program(self):
        for rounds in (1, 20, 4096):
            with self.subTest(rounds):
                done = subprocess.run([support.PROGRAM, "gen", str(rounds)], capture_output=True, check=False)
                self.assertEqual((done.stdout.decode(), done.stderr, done.returncode), (wanted(rounds), b"", 0))
        for words in MISSPELT:
            with self.subTest(words):
                done = subprocess.run([support.PROGRAM, *words], capture_output=True, check=False)
                self.assertEqual((done.stdout, done.stderr, done.returncode), (b"", USAGE, 6))
