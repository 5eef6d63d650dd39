"""Replies and acts as text."""

import struct
import unittest

from copymgr_formats import frames, replies, senses
from replay import told
from replay.acts import Result, Told
from tracetext import playing, traces

from . import support

UNITS = "unit 0 blocks=100\n"


def record(status=0, sense=b"", data=b""):
    return struct.pack(">IBBI", 7, status, len(sense), len(data)) + sense + data


def lines(data, name=None):
    return [line for one in replies.records_of(data) for line in replies.reply_lines(one, name)]


def played(text):
    return playing.session(traces.read_text((UNITS + text).splitlines()))[0]


class Statuses(unittest.TestCase):
    def test_each_status(self):
        expired = frames.sense_bytes(senses.TOKEN_EXPIRED)
        self.assertEqual(
            lines(record(2, expired) + record(8) + record(0x28) + record(), "write using token"),
            [
                "i7 write using token: CHECK CONDITION, ILLEGAL REQUEST, token expired (05/23/07)",
                "i7 write using token: BUSY",
                "i7 write using token: TASK SET FULL",
                "i7 write using token: GOOD",
            ],
        )

    def test_what_is_no_reply(self):
        with self.assertRaisesRegex(ValueError, "end inside the reply at byte 10"):
            replies.records_of(record() + record(data=b"12")[:-1])
        with self.assertRaisesRegex(ValueError, "no reply begins at byte 10"):
            replies.records_of(record() + record(status=3))


class Data(unittest.TestCase):
    def test_equal_lines_are_cut(self):
        self.assertEqual(
            replies.hex_lines(b"A" * 48 + b"\0\xff"),
            [
                "00000000  41 41 41 41 41 41 41 41  41 41 41 41 41 41 41 41  |AAAAAAAAAAAAAAAA|",
                "*",
                "00000030  00 ff                                             |..|",
            ],
        )
        self.assertEqual(replies.hex_lines(bytes(32))[1:], ["*", "00000020"])

    def test_an_operation_that_failed(self):
        data = told.operation_bytes(Told(False, told.FAILED, senses.OVER_QUOTA, 1024, None), b"")
        self.assertEqual(
            replies.data_lines("receive copy status 4", data),
            [
                "response to service action: WRITE USING TOKEN (11h)",
                "copy operation status: completed with errors (02h)",
                "transfer count: 1024 blocks",
                "sense: DATA PROTECT, space allocation failed write protect (07/27/07)",
            ],
        )

    def test_an_operation_that_runs(self):
        data = told.operation_bytes(Told(False, told.BACKGROUND, None, 1, None), b"")
        self.assertIn("estimated status update delay: 100 ms", replies.data_lines("receive copy status 4", data))

    def test_data_that_was_cut_is_hex(self):
        data = told.operation_bytes(Told(False, told.DONE, None, 1, None), bytes(4))[:33]
        self.assertEqual(replies.data_lines("receive rod token information", data), replies.hex_lines(data))

    def test_a_copy_by_segments(self):
        data = told.copy_status_1(Result(told.FAILED, 2, 512))
        code, segments, size = replies.data_lines("receive copy status 1", data)
        self.assertEqual(code, "copy manager status: failed or terminated (02h)")
        self.assertEqual((segments, size), ("segments processed: 2", "transfer count: 512 bytes"))

    def test_each_field_of_short_data(self):
        for name, data, wanted in [
            ("get lba status", told.lba_status([(0, 5, True), (5, 7, False)]), ["0+5 mapped", "5+7 deallocated"]),
            ("report luns", told.luns(3), ["LUNs: 0, 1, 2"]),
            ("request sense", frames.sense_bytes(senses.NO_SENSE), [senses.sense_text(senses.NO_SENSE)]),
        ]:
            self.assertEqual(replies.data_lines(name, data), wanted)


class Sessions(unittest.TestCase):
    def test_a_token_is_named(self):
        text = played("i1 lun=0 populate-token id=1 ranges=5+2 go\ni1 lun=0 receive-rod-token-information id=1 go")
        self.assertIn("        token: u0/0/2", text)

    def test_replies_stand_at_the_line_that_brought_them(self):
        text = played("i1 lun=0 read-16 lba=0 count=0\ni2 lun=0 read-16 lba=99 count=2\ni2 run\ni1 run")
        self.assertEqual(
            text[2:],
            [
                "i2 run",
                "    i2 read: CHECK CONDITION, ILLEGAL REQUEST, logical block address out of range (05/21/00)",
                "i1 run",
                "    i1 read: GOOD",
            ],
        )

    def test_an_ending(self):
        self.assertEqual(played("i1 run")[-1], "ended with status 7: copymgr: bad record at byte 74")


class Acts(unittest.TestCase):
    def test_each_act_with_its_answer_the_room_and_the_tokens(self):
        text = """unit 0 blocks=100 entries=5
@9 i1 lun=0 populate-token id=1 timeout=60 ranges=5+2 go
@20 i1 lun=0 write-using-token id=2 ranges=0+2 token=u0/0/2 go
pump lun=0
i1 lun=0 read-16 lba=99 count=2 go"""
        acts = [
            "@9 i1 lun=0 populate-token id=1 timeout=60 ranges=5+2 go",
            "9: Populate id=1 timeout=60 ranges=5+2: done; room 4 entries, 268435456 bytes; tokens u0/0/2 up to 69",
            "@20 i1 lun=0 write-using-token id=2 ranges=0+2 token=u0/0/2 go",
            "20: Redeem serial=0 target=0: 2 blocks, 0 of them mapped; room 3 entries, 268435456 bytes",
            "20: Start id=2 background=0 ranges=0+2 rod=2: state 12h, 0 blocks; room 0 entries, 268435456 bytes",
            "20: Advance id=2: state 01h, 2 blocks; room 1 entries, 268435456 bytes",
            "pump lun=0",
            "20: Pump: nothing to do; room 0 entries, 268435456 bytes",
            "i1 lun=0 read-16 lba=99 count=2 go",
            "20: Read lba=99 count=2: the record is full; room 0 entries, 268435456 bytes",
        ]
        lines_of_acts = playing.act_lines(traces.read_text(text.splitlines()))
        for line, wanted in zip(lines_of_acts, acts, strict=True):
            self.assertEqual(line.removeprefix("    unit 0 at ").removesuffix("; tokens u0/0/2 up to 80"), wanted)
