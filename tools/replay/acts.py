"""What is asked of a unit, and what it tells. A held block is its bytes, or None where it is unmapped."""

import collections

Read = collections.namedtuple("Read", "lba count")
Write = collections.namedtuple("Write", "lba blocks")
Unmap = collections.namedtuple("Unmap", "ranges")
MapStatus = collections.namedtuple("MapStatus", "lba")
Populate = collections.namedtuple("Populate", "id timeout ranges")
Redeem = collections.namedtuple("Redeem", "text serial target")
Delete = collections.namedtuple("Delete", "serial")
Start = collections.namedtuple("Start", "id background ranges rod")
Advance = collections.namedtuple("Advance", "id")
Pump = collections.namedtuple("Pump", "")
End = collections.namedtuple("End", "id")
Abort = collections.namedtuple("Abort", "id")
Report = collections.namedtuple("Report", "id")
Capture = collections.namedtuple("Capture", "lba count")
Put = collections.namedtuple("Put", "lba blocks")
Open = collections.namedtuple("Open", "id")
Close = collections.namedtuple("Close", "id result")
Recall = collections.namedtuple("Recall", "id")
PrOut = collections.namedtuple("PrOut", "action scope kind key action_key")
PrKeys = collections.namedtuple("PrKeys", "")
PrHolder = collections.namedtuple("PrHolder", "")

# the answer to Report; `serial` is that of a token which a POPULATE TOKEN made
Told = collections.namedtuple("Told", "populate state sense count serial")
# the answer to Recall
Result = collections.namedtuple("Result", "state segments bytes")

PIECE = 1024


def pieces(blocks):
    return -(-blocks // PIECE)
