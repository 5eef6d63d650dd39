"""Parameter lists, read and written. A range is (LBA, number of blocks)."""

import collections
import struct

from .senses import (
    BAD_LIST, BAD_LIST_LENGTH, CSCD_TYPE, INLINE_DATA, SEGMENT_TYPE, TOO_MANY_CSCDS, TOO_MANY_SEGMENTS, refuse_if,
)

RANGES_LIMIT = 64
BLOCKS_LIMIT = 1_048_576
TIMEOUT_LIMIT, TIMEOUT_DEFAULT = 3600, 300
ROD_TYPES = (0x00800000, 0x0080FFFF)
UNIQUE_IDS = 1
WITHOUT_ID = 3

Populate = collections.namedtuple("Populate", "timeout ranges")
Write = collections.namedtuple("Write", "immed delete offset token ranges")
Cscd = collections.namedtuple("Cscd", "device name block_length")
Segment = collections.namedtuple("Segment", "source destination count from_lba to_lba")
Copy = collections.namedtuple("Copy", "id usage cscds segments")


def number(data, at, size):
    return int.from_bytes(data[at : at + size], "big")


def ranges_in(data, at, count):
    return [struct.unpack_from(">QI", data, at + 16 * index) for index in range(count)]


def range_bytes(ranges):
    return b"".join(struct.pack(">QI4x", lba, count) for lba, count in ranges)


def share_a_block(ranges):
    some = [(lba, lba + count) for lba, count in ranges if count]
    return any(
        first[0] < second[1] and second[0] < first[1] for at, first in enumerate(some) for second in some[at + 1 :]
    )


def total(ranges):
    return sum(count for _, count in ranges)


# ---- UNMAP


def read_unmap(data):
    refuse_if(1 <= len(data) <= 7, BAD_LIST_LENGTH)
    if not data:
        return []
    count = min(number(data, 2, 2), len(data) - 8) // 16
    refuse_if(count > RANGES_LIMIT, BAD_LIST)
    return ranges_in(data, 8, count)


def unmap_bytes(ranges):
    return struct.pack(">HH4x", 16 * len(ranges) + 6, 16 * len(ranges)) + range_bytes(ranges)


# ---- POPULATE TOKEN and WRITE USING TOKEN


def judge_ranges(data, front):
    """The length fields of a list whose range descriptors stand behind so many bytes."""
    refuse_if(len(data) < front, BAD_LIST_LENGTH)
    refuse_if(number(data, 0, 2) + 2 > len(data), BAD_LIST_LENGTH)
    length = number(data, front - 2, 2)
    refuse_if(length % 16, BAD_LIST)
    refuse_if(front + length > len(data), BAD_LIST_LENGTH)
    refuse_if(length > 16 * RANGES_LIMIT, BAD_LIST)
    return ranges_in(data, front, length // 16)


def judge_blocks(ranges):
    refuse_if(share_a_block(ranges), BAD_LIST)
    refuse_if(total(ranges) > BLOCKS_LIMIT, BAD_LIST)


def read_populate(data):
    ranges = judge_ranges(data, 16)
    timeout = number(data, 4, 4)
    refuse_if(timeout > TIMEOUT_LIMIT, BAD_LIST)
    refuse_if(data[2] & 2 and number(data, 8, 4) not in ROD_TYPES, BAD_LIST)
    judge_blocks(ranges)
    return Populate(timeout or TIMEOUT_DEFAULT, ranges)


def populate_bytes(timeout, ranges, flags=2, rod_type=ROD_TYPES[0]):
    descriptors = range_bytes(ranges)
    front = struct.pack(">HBxII2xH", len(descriptors) + 14, flags, timeout, rod_type, len(descriptors))
    return front + descriptors


def read_write(data):
    ranges = judge_ranges(data, 536)
    judge_blocks(ranges)
    return Write(data[2] & 1, data[2] >> 1 & 1, number(data, 8, 8), data[16:528], ranges)


def write_bytes(token, ranges, offset=0, immed=0, delete=0):
    descriptors = range_bytes(ranges)
    front = struct.pack(">HB5xQ", len(descriptors) + 534, immed | delete << 1, offset)
    return front + token + struct.pack(">6xH", len(descriptors)) + descriptors


# ---- PERSISTENT RESERVE OUT


def read_reserve(data):
    """The reservation key, and the service action reservation key."""
    refuse_if(len(data) != 24, BAD_LIST_LENGTH)
    return struct.unpack_from(">QQ", data)


def reserve_bytes(key, action_key):
    return struct.pack(">QQ8x", key, action_key)


# ---- EXTENDED COPY (LID1)


def read_cscd(data, at):
    refuse_if(data[at] != 0xE4, CSCD_TYPE)
    named = data[at + 4] & 0x0F == 1 and data[at + 5] & 0x3F == 0x03 and data[at + 7] == 8
    name = bytes(data[at + 8 : at + 16]) if named else None
    return Cscd(data[at + 1] & 0x1F, name, number(data, at + 29, 3))


def read_segment(data, at, end, cscds):
    refuse_if(data[at] != 0x02, SEGMENT_TYPE)
    refuse_if(end - at < 28, BAD_LIST_LENGTH)
    length, source, destination, count, from_lba, to_lba = struct.unpack_from(">2xHHH2xHQQ", data, at)
    refuse_if(length != 0x18 or source >= cscds or destination >= cscds, BAD_LIST)
    return Segment(source, destination, count, from_lba, to_lba)


def read_copy(data):
    refuse_if(len(data) < 16, BAD_LIST_LENGTH)
    usage, cscds, segments, inline = data[1] >> 3 & 3, number(data, 2, 2), number(data, 8, 4), number(data, 12, 4)
    refuse_if(usage == UNIQUE_IDS, BAD_LIST)
    refuse_if(inline, INLINE_DATA)
    refuse_if(cscds % 32, BAD_LIST)
    refuse_if(cscds > 16 * 32, TOO_MANY_CSCDS)
    refuse_if(segments > 64 * 28, TOO_MANY_SEGMENTS)
    middle, end = 16 + cscds, 16 + cscds + segments
    refuse_if(end > len(data), BAD_LIST_LENGTH)
    units = [read_cscd(data, at) for at in range(16, middle, 32)]
    return Copy(data[0], usage, units, [read_segment(data, at, end, len(units)) for at in range(middle, end, 28)])


def cscd_bytes(name, block_length, device=0):
    return struct.pack(">BB2xBBxB8s12xI", 0xE4, device, 1, 3, 8, name, block_length)


def segment_bytes(source, destination, count, from_lba, to_lba):
    return struct.pack(">BxHHH2xHQQ", 2, 0x18, source, destination, count, from_lba, to_lba)


def copy_bytes(list_id, cscds, segments, usage=0, inline=0):
    """Of descriptors in bytes."""
    first, second = b"".join(cscds), b"".join(segments)
    return struct.pack(">BBH4xII", list_id, usage << 3, len(first), len(second), inline) + first + second
