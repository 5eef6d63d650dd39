"""Every byte string that begins as a trace is text and comes back; every other input is told, never by a traceback."""

import random
import struct
import unittest

from copymgr_formats import frames, lists, replies
from copymgr_formats.frames import Begin, Request
from fuzzing import texts
from fuzzing.bases import MACHINE
from tracetext import traces

from . import support

SEEDS = range(600)


def cut_list(code, action, data):
    """A trace with a command whose data-out is this."""
    request = Request(0, texts.cdbs.encode(code, action), data)
    return frames.header_bytes(MACHINE) + frames.item_bytes(Begin(1, 0, request))


def some_replies(rng):
    """Replies of all lengths, some of whose data tell their own length."""
    data = b""
    for _ in range(rng.randrange(5)):
        count = rng.choice([0, 8, 12, 16, 18, 24, 32, 33, 556, rng.randrange(700)])
        told = bytearray(rng.choice([bytes(count), rng.randbytes(count)]))
        told[: min(count, 4)] = struct.pack(">I", max(count - 4, 0))[: min(count, 4)]
        data += struct.pack(">IBBI", rng.randrange(9), 0, 0, count) + told
    return data if rng.randrange(3) else texts.cut_or_changed(rng, data)


class Fuzzed(unittest.TestCase):
    def test_random_traces_come_back(self):
        self.assertEqual([fault for fault in map(texts.fault_of, SEEDS) if fault], [])

    def test_a_list_cut_anywhere_comes_back(self):
        whole = {
            (0x83, 0x10): lists.populate_bytes(5, [(1, 2), (9, 4)]),
            (0x83, 0x11): lists.write_bytes(bytes(512), [(1, 2)], 3, 1),
            (0x83, 0x00): texts.some_copy(random.Random(4)),
            (0x42, None): lists.unmap_bytes([(1, 2)]),
            (0x5F, 0x00): lists.reserve_bytes(1, 2),
        }
        for (code, action), data in whole.items():
            for end in range(len(data) + 1):
                trace = cut_list(code, action, data[:end])
                self.assertEqual(traces.bytes_of(traces.read_text(traces.text_of(trace))), trace, (code, action, end))

    def test_two_bytes_of_a_populate_token_by_the_tool(self):
        trace = cut_list(0x83, 0x10, b"\0\1")
        text, said, status = support.run("trace", "text", data=trace)
        self.assertEqual((said, status), ("", 0))
        self.assertEqual(support.run("trace", "bytes", data=text), (trace, "", 0))

    def test_replies_that_nobody_gives_are_told(self):
        for seed in SEEDS:
            rng = random.Random(seed)
            try:
                records = replies.records_of(some_replies(rng))
            except ValueError as fault:
                self.assertRegex(str(fault), "at byte")
                continue
            for record in records:
                self.assertTrue(replies.reply_lines(record, rng.choice(list(replies.FIELDS)), MACHINE))


if __name__ == "__main__":
    unittest.main()
