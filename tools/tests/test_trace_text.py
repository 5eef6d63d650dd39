"""Traces as text and back."""

import random
import unittest

from copymgr_formats import cdbs, frames, rod_token
from copymgr_formats.words import Fault
from replay.traces import Trace
from tracetext import traces

from . import support

HEADER = "unit 0 blocks=100\nunit 1 blocks=50 block_length=4096 quota=40 entries=9 payload=8 group=3\n"
MACHINE = frames.Machine(
    bytes(range(32)), [frames.Shape(100, 512, 1_048_576, 100, 268_435_456, 0), frames.Shape(50, 4096, 9, 40, 8, 3)]
)


def read(text):
    return traces.read_text(text.splitlines())


def items_of(text):
    """The items of a text behind the header."""
    data, items = traces.bytes_of(read(HEADER + text)), []
    _, at = frames.read_header(data)
    while at < len(data):
        item, at = frames.read_item(data, at)
        items.append(item)
    return items


def request_of(text):
    return items_of(text)[0].request


class Headers(unittest.TestCase):
    def test_units_have_defaults(self):
        self.assertEqual(read(HEADER).header, frames.header_bytes(MACHINE))

    def test_secret(self):
        text = read("secret 07*32\nunit 0 blocks=1")
        self.assertEqual(text.header[8:40], b"\x07" * 32)

    def test_an_empty_text_has_no_bytes(self):
        self.assertEqual(traces.bytes_of(read("# nothing\n\n")), b"")
        self.assertEqual(traces.text_of(b""), [])


class Items(unittest.TestCase):
    def test_run_and_pump_with_moments_that_stay(self):
        self.assertEqual(
            items_of("@5 i1 run\ni2 run 2\n@3 pump lun=1\npump lun=0 2"),
            [frames.Run(1, 5)] + [frames.Run(2, 5)] * 2 + [frames.Pump(1, 3)] + [frames.Pump(0, 3)] * 2,
        )

    def test_go_adds_the_runs_that_the_command_needs(self):
        populate = "i1 lun=0 populate-token id=1 ranges=0+3 go\n"
        items = items_of(populate + "@7 i2 lun=0 write-using-token id=1 ranges=5+3 token=u0/0/3 go")
        self.assertEqual(items[1], frames.Run(1, 0))
        self.assertEqual(items[3:], [frames.Run(2, 7)] * 3)

    def test_go_of_a_command_without_acts_adds_none(self):
        self.assertEqual(len(items_of("i1 lun=0 test-unit-ready go")), 1)

    def test_equal_numbers_of_a_pump_and_a_run_are_told_apart(self):
        lines = ["unit 0 blocks=9", "unit 1 blocks=9", "i1 lun=0 read-16 lba=0 count=1", "pump lun=1", "i1 run"]
        self.assertEqual(traces.text_of(traces.bytes_of(traces.read_text(lines))), lines)

    def test_raw_bytes_stand_as_they_are(self):
        self.assertEqual(traces.bytes_of(read("raw 0102,03*3")), b"\1\2\3\3\3")


class Requests(unittest.TestCase):
    def test_numbers_in_decimal_and_hexadecimal(self):
        wanted = cdbs.encode(0x88, lba=255, count=16)
        for text in ("lba=255 count=16", "lba=0xff count=10h", "count=0x10 lba=0ffh"):
            self.assertEqual(request_of(f"i1 lun=0 read-16 {text}").cdb, wanted)

    def test_a_write_knows_its_blocks(self):
        request = request_of("i1 lun=1 write-10 lba=2 data=11*4096,22*4096")
        self.assertEqual(request.cdb, cdbs.encode(0x2A, lba=2, count=2))
        self.assertEqual(request.out, b"\x11" * 4096 + b"\x22" * 4096)

    def test_an_allocation_length_has_a_default(self):
        self.assertEqual(request_of("i1 lun=0 inquiry page=83h evpd=1").cdb[:5], bytes([0x12, 1, 0x83, 0x10, 0]))
        self.assertEqual(request_of("i1 lun=0 request-sense").cdb[4], 255)

    def test_a_parameter_list_may_be_shorter_than_told(self):
        request = request_of("i1 lun=0 unmap ranges=5+1 length=16")
        self.assertEqual((request.cdb[8], len(request.out)), (16, 24))

    def test_a_cdb_as_it_is(self):
        request = request_of("i1 lun=9 cdb=ff01 data=00*3")
        self.assertEqual((request.unit, request.cdb[:3], request.out), (9, b"\xff\1\0", bytes(3)))

    def test_tokens(self):
        front = "i1 lun=0 write-using-token id=1 ranges=0+1 token="
        self.assertEqual(request_of(front + "zero").out[16:528], rod_token.ZERO)
        made = rod_token.text(MACHINE, 1, 7, 8)
        self.assertEqual(request_of(front + "u1/7/8").out[16:528], made)
        self.assertEqual(request_of(front + "u1/7/8@64=ff").out[16:528], made[:64] + b"\xff" + made[65:])
        self.assertEqual(request_of(front + "ab*512").out[16:528], b"\xab" * 512)

    def test_copies_know_the_units(self):
        request = request_of("i1 lun=0 extended-copy id=7 segments=0:5+10>1:9")
        again = request_of("i1 lun=0 extended-copy id=7 cscds=u0/512,u1/4096 segments=0:5+10>1:9")
        self.assertEqual(request, again)
        self.assertEqual(request.out[2:4], bytes([0, 64]))


class Faults(unittest.TestCase):
    """Each fault says where it stands."""

    def fault(self, text, line, column, why):
        with self.assertRaises(Fault) as caught:
            read(text)
        self.assertEqual((caught.exception.line, caught.exception.column), (line, column), caught.exception)
        self.assertIn(why, str(caught.exception))

    def test_headers(self):
        self.fault("unit 1 blocks=4", 1, 6, "the next unit is 0")
        self.fault("unit 0", 1, 1, "wants blocks=")
        self.fault("unit 0 blocks=0", 1, 15, "does not lie in 1 to")
        self.fault("unit 0 blocks=4 block_length=1024", 1, 30, "512 or 4096")
        self.fault("unit 0 blocks=4 quota=5", 1, 1, "quota")
        self.fault("unit 0 blocks=4 size=5", 1, 17, "no field size")
        self.fault("secret 00*31\nunit 0 blocks=4", 1, 8, "32 bytes")
        self.fault("secret 01*32", 1, 1, "a trace wants a unit")
        self.fault("i1 run", 1, 1, "begins with its units")
        self.fault(HEADER + "i1 run\nunit 2 blocks=1", 4, 1, "before all items")

    def test_items(self):
        self.fault(HEADER + "x1 run", 3, 1, "no initiator")
        self.fault(HEADER + "i1", 3, 1, "what does it do")
        self.fault(HEADER + "@ i1 run", 3, 2, "no number")
        self.fault(HEADER + "i4294967296 run", 3, 2, "does not lie in 0 to 4294967295")
        self.fault(HEADER + "i1 run 0", 3, 8, "does not lie in 1 to")
        self.fault(HEADER + "pump unit=0", 3, 6, "no field unit")

    def test_commands(self):
        self.fault(HEADER + "  i1 lun=0 raed-16", 3, 12, "no command raed-16")
        self.fault(HEADER + "i1 lun=0 read-16 write-16", 3, 18, "one command")
        self.fault(HEADER + "i1 lun=0 read-16 lba=x", 3, 22, "no number")
        self.fault(HEADER + "i1 lun=0 read-16 lba=1 lba=2", 3, 24, "a second lba=")
        self.fault(HEADER + "i1 lun=0 read-10 lba=4294967296", 3, 22, "does not lie")
        self.fault(HEADER + "i1 lun=0 read-16 ranges=1+1", 3, 18, "no field ranges")
        self.fault(HEADER + "i1 lun=0 write-16 data=1", 3, 24, "no hex")
        self.fault(HEADER + "i1 lun=0 write-16 data=00*8388609", 3, 24, "does not lie in 0 to 8388608")
        self.fault(HEADER + "i1 lun=0 write-16 data=00*8388608,00", 3, 24, "8388609 bytes are more than 8388608")
        self.fault(HEADER + "i1 lun=0 write-16 data=file:/nowhere/at/all", 3, 24, "No such file")
        self.fault(HEADER + "i1 lun=0 unmap ranges=1", 3, 23, "no range")
        self.fault(HEADER + "i1 lun=0 write-using-token token=u7/0/1", 3, 34, "no unit 7")
        self.fault(HEADER + "i1 lun=0 write-using-token token=00", 3, 34, "512 bytes")
        self.fault(HEADER + "i1 lun=0 extended-copy segments=1", 3, 33, "no segment")
        self.fault(HEADER + "i1 lun=0 cdb=00*17", 3, 14, "at most 16 bytes")

    def test_go_where_the_replay_has_ended(self):
        self.fault(HEADER + "i1 run\ni1 lun=0 read-16 lba=0 count=1 go", 4, 32, "the Runs are not known")


class RoundTrip(unittest.TestCase):
    def test_random_traces_come_back(self):
        for number in range(25):
            data = bytes(Trace(random.Random(f"text {number}")).bytes)
            self.assertEqual(traces.bytes_of(traces.read_text(traces.text_of(data))), data, f"trace {number}")

    def test_every_beginning_of_a_trace_comes_back(self):
        data = traces.bytes_of(read(HEADER + "i1 lun=0 unmap ranges=1+2,5+1 go\n@9 pump lun=1"))
        for end in range(len(data)):
            self.assertEqual(traces.bytes_of(traces.read_text(traces.text_of(data[:end]))), data[:end], f"cut at {end}")


if __name__ == "__main__":
    unittest.main()
