"""The data that commands return."""

import struct

from copymgr_formats.frames import sense_bytes
from copymgr_formats.rod_token import unit_name

PAGES = (0x00, 0x83, 0x8F, 0xB0, 0xB2)
DONE, FAILED, BACKGROUND, TERMINATED = 0x01, 0x02, 0x12, 0x60
BLOCKS_UNIT = 0xF1


# ---- fixed data


def inquiry():
    return struct.pack(">BxBBBB2x8s16s4s", 0, 6, 2, 0x1F, 8, b"COPYMGR ", b"ROD TOKEN UNIT  ", b"0001")


def page(unit, code):
    """A vital product data page, or nothing where there is no such page."""
    bodies = {
        0x00: bytes(PAGES),
        0x83: bytes([1, 3, 0, 8]) + unit_name(unit),
        0x8F: struct.pack(">HH6xHIIQQ", 0, 0x20, 64, 3600, 300, 1_048_576, 1_048_576),
        0xB0: struct.pack(">4xI8xII36x", 2048, 0xFFFFFFFF, 64),
        0xB2: bytes([0, 0x84, 2, 0]),
    }
    body = bodies.get(code)
    return None if body is None else struct.pack(">BBH", 0, code, len(body)) + body


def capacity_10(shape):
    return struct.pack(">II", shape.blocks - 1, shape.block_length)


def capacity_16(shape):
    return struct.pack(">QI2xB17x", shape.blocks - 1, shape.block_length, 0xC0)


def luns(count):
    return struct.pack(">I4x", 8 * count) + b"".join(struct.pack(">xB6x", unit) for unit in range(count))


def operating_parameters():
    front = struct.pack(">IB3xHHIIIII2xHB", 42, 1, 16, 64, 2304, 268_431_360, 0, 0, 0, 64, 64)
    return front + struct.pack(">BBB3xBBB", 9, 0, 0, 2, 0x02, 0xE4)


# ---- data of acts


def lba_status(runs):
    descriptors = b"".join(struct.pack(">QIB3x", lba, count, 0 if mapped else 1) for lba, count, mapped in runs)
    return struct.pack(">I4x", 4 + len(descriptors)) + descriptors


def keys(generation, found):
    return struct.pack(f">II{len(found)}Q", generation, 8 * len(found), *found)


def reservation(generation, held):
    """The key of the holder and the kind of its reservation, or none."""
    return struct.pack(">II", generation, 0) if held is None else struct.pack(">IIQ5xB2x", generation, 16, *held)


def operation_bytes(report, behind):
    """What is told of a token operation, with what stands behind its sense."""
    running = report.state == BACKGROUND
    sense = sense_bytes(report.sense) if report.state == FAILED else b""
    completion = 2 if report.state == FAILED else 0
    action = 0x10 if report.populate else 0x11
    front = struct.pack(">BBHIBBB", action, report.state, 0, 100 if running else 0, completion, len(sense), len(sense))
    rest = front + struct.pack(">BQ8x", BLOCKS_UNIT, report.count) + sense + behind
    return struct.pack(">I", len(rest)) + rest


def token_part(token):
    return bytes(4) if token is None else struct.pack(">I2x", 2 + len(token)) + token


def copy_status_1(result):
    code = {BACKGROUND: 0, DONE: 1}.get(result.state, 2)
    return struct.pack(">IBHBI", 8, code, result.segments, 0, result.bytes)
