"""Commands whose data comes in parts: behind the command itself, and behind each R2T."""

import struct

from . import pdus
from .wire import frames

WRITE = 0x20
# the data did not come as it should; there is less of it than the blocks of a WRITE
DATA_LOST, TOO_SHORT = (0x0B, 0x47, 0x05), (0x05, 0x0E, 0x03)


class Task:
    """A command that was received, as far as its data is there."""

    def __init__(self, request, unit, wanted):
        self.unit, self.lun, self.tag = unit, request.lun, request.tag
        self.cdb = request.header[32:48]
        self.expected = request.number(20)
        self.brings_data = bool(request.flags & WRITE)
        # what its CDB wants, and of that what comes
        self.wanted = wanted
        self.needed = min(wanted, self.expected, frames.DATA_LIMIT) if self.brings_data else 0
        self.data = bytearray(request.data[: self.needed])
        self.sequences = self.next_number = self.sequence_end = 0
        # no part of the blocks is written
        self.refusal = TOO_SHORT if wanted > self.needed and self.cdb[0] in (0x2A, 0x8A) else None

    @property
    def is_whole(self):
        return self.refusal is not None or len(self.data) >= self.needed

    def ready(self, counters, burst):
        """The R2T for the next part of its data."""
        offset = len(self.data)
        length = min(burst, self.needed - offset)
        self.next_number, self.sequence_end = 0, offset + length
        numbers = counters.told(counts=False) + struct.pack(">III", self.sequences, offset, length)
        self.sequences += 1
        return pdus.pdu_bytes(pdus.READY, pdus.FINAL, self.tag, struct.pack(">I", self.tag) + numbers, self.lun)

    def take(self, part):
        """A Data-Out; whether a sequence ends with it. Where it is not the next part, the task is refused."""
        end = len(self.data) + len(part.data)
        if part.number(36) != self.next_number or part.number(40) != len(self.data) or end > self.sequence_end:
            self.refusal = DATA_LOST
            return True
        self.next_number += 1
        self.data += part.data
        is_last = bool(part.flags & pdus.FINAL)
        if is_last and end < self.sequence_end:
            self.refusal = DATA_LOST
        return is_last


def residual(expected, had):
    """Flags and number of the bytes by which what was expected and what there was differ."""
    if had > expected:
        return 0x04, had - expected
    return (0x02, expected - had) if had < expected else (0, 0)
