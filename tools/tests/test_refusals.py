"""Which refusal comes first where several hold, as docs/formats.md says of each act."""

import unittest

from . import support  # has the path of the tools
from tracetext import playing, traces

UNITS = """
unit 0 blocks=5000
unit 1 blocks=5000 group=1
unit 2 blocks=5000 quota=1
unit 3 blocks=5000 entries=1
@0 i1 lun=0 populate-token id=1 timeout=10 ranges=0+2 go
"""
RUNNING = "i1 lun=0 write-using-token id=2 ranges=0+2 token=zero immed=1 go\n"
CROWDED = "".join(f"i1 lun=0 write-using-token id={at} ranges=0+2 token=zero immed=1 go\n" for at in range(2, 66))

FULL = "TASK SET FULL"
CASES = [
    # the record has no room, before all else
    ("i1 lun=3 read-16 lba=0 count=1 go", "i1 lun=3 read-16 lba=5000 count=1 go", FULL),
    # Read, Write, Unmap, MapStatus
    ("", "i1 lun=0 read-16 lba=4999 count=2 go", "05/21/00"),
    ("", "i1 lun=2 write-16 lba=4999 data=00*1024 go", "05/21/00"),
    ("", "i1 lun=2 write-16 lba=4998 data=00*1024 go", "07/27/07"),
    ("", "i1 lun=0 unmap ranges=0+1,4999+2 go", "05/21/00"),
    ("", "i1 lun=0 get-lba-status lba=5000 go", "05/21/00"),
    # Populate
    (RUNNING, "i1 lun=0 populate-token id=2 ranges=4999+2 go", "05/00/16"),
    (RUNNING, "i2 lun=0 populate-token id=2 ranges=4999+2 go", "05/21/00"),
    # Redeem
    ("", "i1 lun=1 write-using-token id=2 ranges=0+1 token=u0/1/1 go", "05/23/04"),
    ("", "i1 lun=1 write-using-token id=2 ranges=0+1 token=u0/0/2@64=00 go", "05/23/02"),
    ("@99", "i1 lun=0 write-using-token id=2 ranges=0+1 token=u0/0/2@64=00 go", "05/23/05"),
    ("@11", "i1 lun=0 write-using-token id=2 ranges=0+1 token=u0/0/2 delete=1 go", "05/23/07"),
    # Start
    (RUNNING, "i1 lun=0 write-using-token id=2 ranges=4999+2 token=zero go", "05/00/16"),
    (CROWDED, "i1 lun=0 write-using-token id=99 ranges=4999+2 token=zero go", "05/21/00"),
    (CROWDED, "i1 lun=0 write-using-token id=99 ranges=0+2 token=zero go", "05/55/03"),
    # Abort, Report, Recall
    ("", "i1 lun=0 copy-operation-abort id=1 go", "05/24/00"),
    ("", "i1 lun=0 receive-copy-status-4 id=9 go", "05/24/00"),
    ("", "i1 lun=0 receive-copy-status-1 id=1 go", "05/24/00"),
    # Open
    (CROWDED, "i1 lun=0 extended-copy id=7 segments=0:0+1>1:0 go", "05/55/03"),
    # Put: the key is that of a copy
    ("i1 lun=0 write-16 lba=0 data=00*1024 go", "i1 lun=0 extended-copy id=7 segments=0:0+2>2:0 go", "0A/27/07"),
]


class Refusals(unittest.TestCase):
    def test_the_first_that_holds(self):
        for before, command, wanted in CASES:
            with self.subTest(command):
                lines, _ = playing.session(traces.read_text((UNITS + before + "\n" + command).splitlines()))
                self.assertIn(wanted, lines[-1])
