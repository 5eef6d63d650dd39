"""Replies beside their trace, by the plain replay and by the program."""

import pathlib
import struct
import subprocess
import tempfile
import unittest

from . import support
from tracetext import checking, traces

UNITS = ["unit 0 blocks=100"]
WRITE_THEN_READ = UNITS + ["i1 lun=0 write-16 lba=0 data=11*512,22*512 go", "i1 lun=0 read-16 lba=0 count=3 go"]
PLAIN = [str(support.TOOLS / "people/plain-replay")]
PROGRAMS = [PLAIN] + ([] if support.NO_PROGRAM else [[support.PROGRAM]])


def replies_of(trace):
    return subprocess.run(PLAIN + ["replay"], input=trace, capture_output=True, check=True).stdout


def differs(place):
    """What a program says of replies that differ at a place."""
    return 10, b"", f"copymgr: replies differ at byte {place}\n".encode()


def told(trace, records, program):
    lines, fine = checking.told(trace, records, program)
    return list(lines), fine


class Checks(unittest.TestCase):
    def setUp(self):
        self.trace = traces.bytes_of(traces.read_text(WRITE_THEN_READ))
        self.replies = replies_of(self.trace)

    def asked(self, data):
        """What each program says of an input; all say the same."""
        runs = [subprocess.run(p + ["check"], input=data, capture_output=True, check=False) for p in PROGRAMS]
        answers = {(run.returncode, run.stdout, run.stderr) for run in runs}
        self.assertEqual(len(answers), 1)
        return answers.pop()

    def test_right_replies(self):
        for program in PROGRAMS:
            self.assertEqual(told(self.trace, self.replies, program), (["these are the replies of the trace"], True))

    def test_each_kind_of_difference(self):
        for place in (0, 3, 4, 5, 6, 9, 13, 14, 15, 19, 20, 1555):
            records = bytearray(self.replies)
            records[place] ^= 0x08
            self.assertEqual(self.asked(checking.input_of(self.trace, bytes(records))), differs(place))

    def test_a_byte_of_a_sense(self):
        trace = traces.bytes_of(traces.read_text(UNITS + ["i1 lun=0 read-16 lba=100 count=1 go"]))
        records = bytearray(replies_of(trace))
        self.assertEqual(records[12], 0x05)
        records[12] = 0x06
        self.assertEqual(self.asked(checking.input_of(trace, bytes(records))), differs(12))

    def test_replies_of_another_length(self):
        for records, place in ((self.replies + b"\0", 1556), (self.replies[:-1], 1555), (b"", 0)):
            self.assertEqual(self.asked(checking.input_of(self.trace, records)), differs(place))

    def test_the_reply_that_differs_is_named(self):
        busy = bytearray(self.replies)
        busy[4] = 0x08
        for program in PROGRAMS:
            lines, fine = told(self.trace, bytes(busy), program)
            self.assertFalse(fine)
            self.assertEqual(lines[0], "reply 0, to write, differs at its byte 4, byte 4 of the replies:")
            self.assertEqual(lines[1:], ["  it is    i1 write: GOOD", "  recorded i1 write: BUSY"])

    def test_replies_that_end_early_or_late(self):
        for program in PROGRAMS:
            self.assertEqual(told(self.trace, self.replies + b"0", program)[0], ["1 byte behind the last reply, from byte 1556 on"])
            lines, _ = told(self.trace, self.replies[:-1], program)
            self.assertEqual(lines[-1], "  recorded 1545 bytes, which are no whole reply")

    def test_inputs_that_are_no_trace(self):
        for data, status, line in (
            (b"", 4, "input ends inside the part at byte 0"),
            (bytes(7), 4, "input ends inside the part at byte 0"),
            (struct.pack(">Q", 1 << 30), 4, "input ends inside the part at byte 8"),
            (struct.pack(">Q", (1 << 30) + 1), 5, "bad header at byte 0"),
            (struct.pack(">Q", 42) + b"D" + bytes(41), 5, "bad header at byte 8"),
            (checking.input_of(self.trace[:-1], b""), 4, f"input ends inside the part at byte {len(self.trace) - 5}"),
        ):
            self.assertEqual(self.asked(data), (status, b"", f"copymgr: {line}\n".encode()))

    def test_told_lengths_of_a_trace_that_ends_at_a_run(self):
        trace = traces.bytes_of(traces.read_text(UNITS)) + bytes.fromhex("02000000010000000000000000")
        for length, status, line in (
            (len(trace) + 1, 4, "input ends inside the part at byte 8"),
            (len(trace), 7, "bad record at byte 82"),
            (len(trace) - 13, 10, "replies differ at byte 0"),
        ):
            said = (status, b"", f"copymgr: {line}\n".encode())
            self.assertEqual(self.asked(struct.pack(">Q", length) + trace), said)

    def test_the_command(self):
        with tempfile.TemporaryDirectory() as folder:
            trace, records = pathlib.Path(folder, "trace"), pathlib.Path(folder, "replies")
            trace.write_bytes(self.trace)
            records.write_bytes(self.replies)
            said = support.run("trace", "check", str(trace), str(records), *PLAIN)
            self.assertEqual(said, (b"these are the replies of the trace\n", "", 0))
            records.write_bytes(self.replies[:10])
            self.assertEqual(support.run("trace", "check", str(trace), str(records), *PLAIN)[2], 1)
