"""The plan of a copy by tokens: which blocks each token has, and where they are written.

The blocks of some extents, a first block and a number of blocks each, lie one behind the other. A part is read by one
POPULATE TOKEN, and its blocks are written by as many WRITE USING TOKEN as they want; each of these commands has as many
blocks as 64 extents allow, and a part at most 1,048,576. No other plan has fewer parts."""

import collections
import struct

from .wire import lists

BLOCKS_OF_TOKEN = 1_048_576
RANGES = 64
EXTENTS_LIMIT = 65_536
BLOCKS_LIMIT = 2**32

# blocks before the part; the ranges of its token; the writes
Part = collections.namedtuple("Part", "first ranges writes")

# blocks of the part before those that are written; the ranges that are written
PartWrite = collections.namedtuple("PartWrite", "offset ranges")


def extent(lba, count):
    """The extents that are some blocks in a row."""
    return [(lba, count)] if count else []


class Cursor:
    """A place in the blocks of some extents."""

    def __init__(self, extents):
        self.extents = extents
        self.index = 0
        self.passed = 0

    def left(self):
        """The blocks of the next extent that were not passed."""
        return self.extents[self.index][1] - self.passed

    def next_ranges(self, most):
        """The ranges of the next blocks, as many as `most` and 64 extents allow."""
        ranges = []
        while most and len(ranges) < RANGES and self.index < len(self.extents):
            count = min(self.left(), most)
            ranges.append((self.extents[self.index][0] + self.passed, count))
            most -= count
            self.passed += count
            if not self.left():
                self.index, self.passed = self.index + 1, 0
        return ranges


def writes_of(cursor, blocks):
    """The writes of a part of so many blocks."""
    offset = 0
    while offset < blocks:
        ranges = cursor.next_ranges(blocks - offset)
        yield PartWrite(offset, ranges)
        offset += lists.total(ranges)


def parts(extents, to_extents):
    """The parts of a copy of extents to others with as many blocks."""
    judge(extents, to_extents)
    source, target = Cursor(extents), Cursor(to_extents)
    first, found = 0, []
    while ranges := source.next_ranges(BLOCKS_OF_TOKEN):
        blocks = lists.total(ranges)
        found.append(Part(first, ranges, list(writes_of(target, blocks))))
        first += blocks
    return found


def moves(extents, to_extents):
    """The same blocks in pieces that lie in one extent on either side: (from, to, blocks)."""
    judge(extents, to_extents)
    source, target = Cursor(extents), Cursor(to_extents)
    found = []
    while source.index < len(extents):
        count = min(source.left(), target.left())
        [(lba, _)], [(to_lba, _)] = source.next_ranges(count), target.next_ranges(count)
        found.append((lba, to_lba, count))
    return found


def job_bytes(source, target, extents, to_extents, polls):
    """The job by which `copymgr copy` copies blocks of a unit to those of another one (docs/formats.md)."""
    judge(extents, to_extents)
    front = struct.pack(">HHIII", source, target, polls, len(extents), len(to_extents))
    return front + b"".join(struct.pack(">QI", lba, count) for lba, count in [*extents, *to_extents])


def judge(extents, to_extents):
    """A ValueError where there is no such copy."""
    for some in (extents, to_extents):
        if len(some) > EXTENTS_LIMIT:
            raise ValueError(f"there are {len(some)} extents, and {EXTENTS_LIMIT} are allowed")
        ordered = sorted(some)
        for lba, count in ordered:
            if not count or lba + count > 2**64:
                raise ValueError(f"{lba}+{count} is no extent")
        for (lba, count), (later, _) in zip(ordered, ordered[1:]):
            if lba + count > later:
                raise ValueError(f"block {later} stands twice")
    blocks, to_blocks = lists.total(extents), lists.total(to_extents)
    if blocks != to_blocks:
        raise ValueError(f"{blocks} blocks are to be read, and {to_blocks} to be written")
    if blocks > BLOCKS_LIMIT:
        raise ValueError(f"{blocks} blocks are too many")
