"""How many Runs each command needs, as docs/formats.md says."""

import unittest

from copymgr_formats import frames
from tracetext import traces

from . import support

FIRST = ["unit 0 blocks=9000", "unit 1 blocks=9000", "i9 lun=0 populate-token id=1 ranges=0+3000 go"]


def runs_of(command):
    text = traces.read_text(FIRST + [f"i1 lun=0 {command} go"])
    data, at, runs = text.lines[-1].bytes, 0, 0
    while at < len(data):
        item, at = frames.read_item(data, at)
        runs += isinstance(item, frames.Run)
    return runs


class Runs(unittest.TestCase):
    def test_each_command(self):
        token = "write-using-token id=2 token=u0/0/3000 ranges="
        zero = "write-using-token id=2 token=zero delete=1 ranges="
        for command, runs in {
            "test-unit-ready": 0,
            "request-sense": 0,
            "inquiry": 0,
            "read-capacity-10": 0,
            "read-capacity-16": 0,
            "report-luns": 0,
            "receive-copy-operating-parameters": 0,
            "read-10 lba=0 count=1": 1,
            "read-16 lba=0 count=0": 1,
            "read-16 lba=9000 count=1": 1,
            "read-16 lba=0 count=2049": 0,
            "write-10 lba=0 data=00*512": 1,
            "write-16 lba=0 data=00*512": 1,
            "unmap": 1,
            "get-lba-status lba=0": 1,
            "populate-token id=2 ranges=0+1": 1,
            "populate-token id=2 ranges=0+2,1+1": 0,
            "copy-operation-abort id=2": 1,
            "receive-rod-token-information id=2": 1,
            "receive-copy-status-1 id=2": 1,
            "receive-copy-status-4 id=2": 1,
            token + "0+3000 immed=1": 2,
            token + "0+3000 immed=1 delete=1": 3,
            token + "0+3000": 5,
            token + "0+3000 delete=1": 6,
            token + "0+1024": 3,
            token + "none": 2,
            token + "0+3000 offset=1": 1,
            zero + "0+1025": 3,
            zero + "0+1025 immed=1": 1,
            "extended-copy": 0,
            "extended-copy id=1 segments=none": 2,
            "extended-copy id=1 segments=0:0+1024>1:0,0:0+0>1:0,0:0+1025>1:2000": 7,
            "extended-copy id=1 usage=3 segments=0:0+1024>1:0": 2,
            "extended-copy id=1 segments=0:0+1>1:9000": 0,
        }.items():
            with self.subTest(command):
                self.assertEqual(runs_of(command), runs)
