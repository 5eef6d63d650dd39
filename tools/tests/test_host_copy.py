"""Copies as a host: what a run of the tool says, and that blocks are found which were not copied by their token."""

import random
import struct
import subprocess
import sys
import tempfile
import unittest

from copymgr import Server, Shape, plans
from copymgr_formats import lists

from . import support

NO_PROGRAM = support.NO_PROGRAM
host_copy = support.tool("host-copy")

# it copies by tokens, or by READ and WRITE
ANOTHER = """#!{python}
import struct, sys
sys.path.insert(0, "{tools}")
import house
from copymgr import Connection, Disk, plans
from copymgr_formats.addresses import address_of
job = sys.stdin.buffer.read()
source, target, _, n, m = struct.unpack_from(">HHIII", job)
extents = [struct.unpack_from(">QI", job, 16 + 12 * at) for at in range(n + m)]
with Connection(address_of(sys.argv[2])) as host:
    first, second = Disk(host, source), Disk(host, target)
    if {by_tokens}:
        first.copy_extents(second, extents[:n], extents[n:])
    for lba, at, count in [] if {by_tokens} else plans.moves(extents[:n], extents[n:]):
        first.populate([(lba, count)])
        second.write(at, first.read(lba, count))
"""


class HostCopy(unittest.TestCase):
    def run_on(self, program):
        words = [str(program), "--served-by", "-", "--blocks", "3000", "--extents", "150"]
        return support.run("host-copy", *words)

    def another(self, by_tokens):
        text = ANOTHER.format(python=sys.executable, tools=support.TOOLS, by_tokens=by_tokens)
        with tempfile.TemporaryDirectory() as folder:
            path = f"{folder}/copier"
            with open(path, "w", encoding="utf-8") as file:
                file.write(text)
            subprocess.run(["chmod", "+x", path], check=True)
            return self.run_on(path)

    def test_a_copy_by_tokens_is_right(self):
        output, said, status = self.another(True)
        self.assertEqual((said, status), ("", 0), output.decode())
        self.assertRegex(output.decode(), r"\n8 passed, 0 failed\n$")

    def test_a_copy_of_what_was_overwritten_is_found(self):
        output, _, status = self.another(False)
        self.assertEqual(status, 1)
        self.assertRegex(output.decode(), r"FAILED: 3000 of 3000 blocks of the destination differ")
        self.assertRegex(output.decode(), r"FAILED: WRITE USING TOKEN: 0, and the plan has [0-9]+")

    def test_extents_are_scattered(self):
        rng = random.Random("extents")
        for blocks, extents in [(1, 1), (50, 50), (1000, 7)]:
            found = host_copy.scattered(rng, blocks, extents, 2 * blocks)
            self.assertEqual((lists.total(found), len(found)), (blocks, extents))
            self.assertLessEqual(max(lba + count for lba, count in found), 2 * blocks)
            plans.judge(found, found)

    def test_a_job_is_spelled(self):
        job = host_copy.job_bytes([(5, 2)], [(9, 1), (7, 1)])
        self.assertEqual(job[:16], struct.pack(">HHIII", 0, 1, 2**32 - 1, 1, 2))
        self.assertEqual(job[16:], struct.pack(">QIQIQI", 5, 2, 9, 1, 7, 1))

    @unittest.skipIf(NO_PROGRAM, NO_PROGRAM)
    def test_the_program_copies(self):
        output, said, status = self.run_on(support.PROGRAM)
        self.assertEqual((said, status), ("", 0), output.decode())

    def copied(self, job, address="127.0.0.1:1"):
        """The status of `copy ADDRESS`, and its lines."""
        words = [support.PROGRAM, "copy", address]
        done = subprocess.run(words, input=job, capture_output=True, check=False, timeout=60)
        return done.returncode, done.stderr.decode().splitlines()

    @unittest.skipIf(NO_PROGRAM, NO_PROGRAM)
    def test_a_job_is_judged_before_anybody_is_asked(self):
        job = host_copy.job_bytes([(5, 2)], [(9, 1), (7, 1)])
        status, said = self.copied(job)
        self.assertEqual((status, said[0], len(said)), (1, "copymgr: read failed", 2))
        self.assertIn("127.0.0.1:1", said[1])
        for data, said in [
            (b"", (4, ["copymgr: input ends inside the part at byte 0"])),
            (job[:-1], (4, ["copymgr: input ends inside the part at byte 0"])),
            (job + b"x", (5, [f"copymgr: bad header at byte {len(job)}"])),
            (job[:4] + bytes(4) + job[8:], (5, ["copymgr: bad header at byte 4"])),
        ]:
            self.assertEqual(self.copied(data), said)

    @unittest.skipIf(NO_PROGRAM, NO_PROGRAM)
    def test_a_refusal_is_told(self):
        """By the step, and by the status and the sense of its reply."""
        with Server([Shape(100), Shape(100)], 1, [support.PROGRAM, "serve"]) as server:
            status, said = self.copied(host_copy.job_bytes([(99, 2)], [(0, 2)]), "{}:{}".format(*server.address))
        wanted = ["copymgr: refused at step 1", "copymgr: the reply: CHECK CONDITION, sense 05/21/00"]
        self.assertEqual((status, said), (13, wanted))


if __name__ == "__main__":
    unittest.main()
