"""Traces of copies and of UNMAPs: a fill, and then so many of them.

The fill is the same for each number of copies, so the copies alone take the difference of the times of two traces.
Blocks have 512 bytes. Unit 0 is written, in WRITEs of at most 2048 blocks, up to the 256 MiB that its record may
keep; where there is more, EXTENDED COPY fills the rest of it. Copies go to unit 1, each to blocks that hold nothing.
"""

import collections
import struct
import sys

import house  # pylint: disable=unused-import

from copymgr_formats import cdbs, frames, lists, rod_token
from replay.acts import pieces

BLOCK = 512
MACHINE = frames.Machine(bytes(range(32)), [frames.Shape(2**32, BLOCK, 1_048_576, 2**32, 268_435_456, 0)] * 2)
WRITE = 2048
RANGES = 64
# the blocks of a token, and those that WRITEs may fill
LARGEST, WRITTEN = 1_048_576, 524_288

# fill: makes the items of the fill; one: those of the copy or UNMAP with a number; blocks: the mapped blocks that one
# moves or unmaps; replies: how many one has; most: how many there may be
Kind = collections.namedtuple("Kind", "fill one blocks replies most")


def command(unit, cdb, out, runs):
    """A Begin, and as many Runs as the command has acts."""
    begin = frames.item_bytes(frames.Begin(1, 0, frames.Request(unit, cdb, out)))
    return begin + frames.item_bytes(frames.Run(1, 0)) * runs


def with_list(unit, code, action, out, runs, **fields):
    return command(unit, cdbs.encode(code, action, length=len(out), **fields), out, runs)


def write(lba, count):
    """Data that differs from block to block."""
    data = b"".join(struct.pack(">Q", lba + at) * (BLOCK // 8) for at in range(count))
    return command(0, cdbs.encode(0x8A, lba=lba, count=count), data, 1)


def spread(index, of):
    """Another order of so many things, a power of two: to and fro over half of them."""
    return index * (of // 2 + 1) % of


# ---- what is asked for


def extended_copy(to_unit, from_lba, to_lba, count, blocks):
    """Of so many segments in a row, of so many blocks each."""
    cscds = [lists.cscd_bytes(rod_token.unit_name(unit), BLOCK) for unit in (0, 1)]
    starts = range(0, count * blocks, blocks)
    made = [lists.segment_bytes(0, to_unit, blocks, from_lba + at, to_lba + at) for at in starts]
    return with_list(0, 0x83, 0x00, lists.copy_bytes(1, cscds, made), 2 + count * (1 + pieces(blocks)))


def token_copy(index, count, blocks):
    """POPULATE TOKEN and WRITE USING TOKEN of ranges in another order than that of their blocks."""
    total = count * blocks
    source = [(spread(at, count) * blocks, blocks) for at in range(count)]
    target = [(index * total + at * blocks, blocks) for at in range(count)]
    populate = with_list(0, 0x83, 0x10, lists.populate_bytes(0, source), 1, id=1)
    text = rod_token.text(MACHINE, 0, index, total)
    return populate + with_list(1, 0x83, 0x11, lists.write_bytes(text, target), 2 + pieces(total), id=1)


def unmap(index):
    """64 ranges of 64 blocks, all over what is written."""
    ranges = [(at * WRITTEN // RANGES + index * 64, 64) for at in range(RANGES)]
    return with_list(0, 0x42, None, lists.unmap_bytes(ranges), 1)


# ---- fills: one reply to each of the parts


def fill_written():
    return [write(lba, WRITE) for lba in range(0, WRITTEN, WRITE)]


def fill_largest():
    return fill_written() + [extended_copy(0, 0, WRITTEN, 32, WRITTEN // 32)]


def fill_dotted():
    """16,384 runs of 8 blocks, with 8 unmapped blocks behind each."""
    return [write(lba, 8) for lba in range(0, 262_144, 16)]


def token_of_few(index):
    return token_copy(index, 4, LARGEST // 4)


def token_of_many(index):
    return token_copy(index, RANGES, 4096)


def segments(index):
    return extended_copy(1, 0, index * LARGEST, RANGES, LARGEST // RANGES)


KINDS = {
    "token": Kind(fill_largest, token_of_few, LARGEST, 2, 64),
    "extents": Kind(fill_dotted, token_of_many, 131_072, 2, 64),
    "segments": Kind(fill_largest, segments, LARGEST, 1, 64),
    "unmap": Kind(fill_written, unmap, RANGES * 64, 1, 128),
}


def trace(name, count):
    """The parts of a trace, and how many replies there are."""
    kind = KINDS[name]
    if count > kind.most:
        sys.exit(f"there may be {kind.most} of {name} at most")
    fill = kind.fill()
    parts = [frames.header_bytes(MACHINE), *fill, *(kind.one(index) for index in range(count))]
    return parts, len(fill) + count * kind.replies
