"""Written entries: the plain replay's texts, and, where it is built, the program that reads and writes them."""

import os
import re
import subprocess
import unittest

from . import support
from replay import acts, entries, told
from replay.entries import Entry

PROGRAM = str(support.TOP / "crates/entry_texts/out/entry_texts")
NO_PROGRAM = None if os.access(PROGRAM, os.X_OK) else f"no program at {PROGRAM}"

READ = Entry(2, 0, 512, 1, 1, 0, acts.Read(0, 3))


def worked():
    """The bytes of the Read that docs/formats.md works out."""
    document = (support.TOP / "docs/formats.md").read_text(encoding="utf-8")
    block = re.search(r"44 bytes:\n\n((?: {4}.*\n)+)", document)
    return bytes.fromhex(block[1].replace("\n", " "))


class Entries(unittest.TestCase):
    def test_the_worked_read(self):
        self.assertEqual(entries.text(READ), worked())
        self.assertEqual((support.TOP / "crates/entry_texts/stdin").read_bytes(), worked())

    def test_groups(self):
        blocks = [b"AB", b"CD", None, None, None, b"EF"]
        entry = READ._replace(actor="pump", unit=1, act=acts.Put(7, blocks))
        groups = "00000002 01 41424344 00000003 00 00000001 01 4546"
        want = f"01 00000001 {1:016x} {0:016x} 0f {7:016x} 00000002 00000003 {groups}"
        self.assertEqual(entries.text(entry._replace(block_length=2))[10:], bytes.fromhex(want))

    def test_a_close(self):
        entry = READ._replace(act=acts.Close(9, acts.Result(told.FAILED, 1, 512)))
        self.assertEqual(entries.text(entry)[31:].hex(), "1109020001" + "00000200")

    @unittest.skipIf(NO_PROGRAM, NO_PROGRAM)
    def test_random_traces(self):
        said, _, status = support.run("written-entries", PROGRAM, "10", "3")
        self.assertEqual(status, 0, said)

    @unittest.skipIf(NO_PROGRAM, NO_PROGRAM)
    def test_what_is_no_entry(self):
        for data, left in ((worked()[:-1], 43), (worked() + b"\0", 1), (worked() + bytes(10) + b"\2", 11)):
            done = subprocess.run([PROGRAM, "copy"], input=data, capture_output=True, check=False)
            said = f"entry_texts: no entry stands {left} bytes before the end\n"
            self.assertEqual((done.returncode, done.stderr.decode()), (1, said))


if __name__ == "__main__":
    unittest.main()
