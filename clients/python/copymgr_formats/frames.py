"""Bytes of headers, items, requests and replies."""

import collections
import struct

from .senses import BadInput

GOOD, CHECK, BUSY, CONFLICT, FULL = 0x00, 0x02, 0x08, 0x18, 0x28
DONE, TORN, BAD_HEADER, BAD_RECORD = 0, 4, 5, 7
BEGIN, RUN, PUMP = 1, 2, 3
DATA_LIMIT = 8_388_608
UNITS_LIMIT, BLOCKS_LIMIT, ENTRIES_LIMIT, PAYLOAD_LIMIT, GROUP_LIMIT = 16, 2**32, 1_048_576, 268_435_456, 15
# the secret where nobody names one
SECRET = bytes(range(32))

Shape = collections.namedtuple("Shape", "blocks block_length entries quota payload group")
Machine = collections.namedtuple("Machine", "secret shapes")
Request = collections.namedtuple("Request", "unit cdb out")
Begin = collections.namedtuple("Begin", "initiator moment request")
Run = collections.namedtuple("Run", "initiator moment")
Pump = collections.namedtuple("Pump", "unit moment")


# ---- headers


def header_bytes(machine):
    units = [struct.pack(">QIIQIB3x", *shape) for shape in machine.shapes]
    return b"CMTRACE1" + machine.secret + struct.pack(">H", len(units)) + b"".join(units)


def header_text(machine):
    """The text for people that means the same header."""
    lines = [f'secret = "{machine.secret.hex()}"']
    for shape in machine.shapes:
        lines += ["", "[[unit]]", *(f"{key} = {number}" for key, number in shape._asdict().items())]
    return "".join(f"{line}\n" for line in lines).encode()


def bad_field(shape, spare):
    """The place in a unit's part of the first field that breaks its limit, if one does."""
    fields = [
        (0, 1 <= shape.blocks <= BLOCKS_LIMIT),
        (8, shape.block_length in (512, 4096)),
        (12, 1 <= shape.entries <= ENTRIES_LIMIT),
        (16, shape.quota <= shape.blocks),
        (24, 1 <= shape.payload <= PAYLOAD_LIMIT),
        (28, shape.group <= GROUP_LIMIT),
        (29, spare == bytes(3)),
    ]
    return next((place for place, fine in fields if not fine), None)


def read_header(data):
    """The machine, and how many bytes its header has."""
    if len(data) < 42:
        raise BadInput(TORN, 0)
    if data[:8] != b"CMTRACE1":
        raise BadInput(BAD_HEADER, 0)
    count = struct.unpack_from(">H", data, 40)[0]
    if not 1 <= count <= UNITS_LIMIT:
        raise BadInput(BAD_HEADER, 40)
    end = 42 + 32 * count
    if len(data) < end:
        raise BadInput(TORN, 0)
    shapes = []
    for at in range(42, end, 32):
        *fields, spare = struct.unpack_from(">QIIQIB3s", data, at)
        shapes.append(Shape(*fields))
        place = bad_field(shapes[-1], spare)
        if place is not None:
            raise BadInput(BAD_HEADER, at + place)
    return Machine(bytes(data[8:40]), shapes), end


# ---- requests and items


def request_bytes(request):
    """What a connection brings for one command."""
    unit, cdb, out = request
    return struct.pack(">IH16s", len(out), unit, cdb) + out


def item_bytes(item):
    if isinstance(item, Begin):
        return struct.pack(">BIQ", BEGIN, item.initiator, item.moment) + request_bytes(item.request)
    if isinstance(item, Run):
        return struct.pack(">BIQ", RUN, *item)
    return struct.pack(">BHQ", PUMP, *item)


def length_of_item(data, at):
    """How many bytes the item has, as far as its first bytes tell; a fault is judged as soon as it is there."""
    kind = data[at]
    if kind not in (BEGIN, RUN, PUMP):
        raise BadInput(BAD_RECORD, at)
    if kind != BEGIN:
        return 13 if kind == RUN else 11
    if len(data) < at + 17:
        return 17
    length = struct.unpack_from(">I", data, at + 13)[0]
    if length > DATA_LIMIT:
        raise BadInput(BAD_RECORD, at)
    return 35 + length


def read_item(data, at):
    """The item that begins at a place, and where it ends."""
    end = at + length_of_item(data, at)
    if len(data) < end:
        raise BadInput(TORN, at)
    if data[at] == RUN:
        return Run(*struct.unpack_from(">IQ", data, at + 1)), end
    if data[at] == PUMP:
        return Pump(*struct.unpack_from(">HQ", data, at + 1)), end
    initiator, moment, _, unit, cdb = struct.unpack_from(">IQIH16s", data, at + 1)
    return Begin(initiator, moment, Request(unit, cdb, bytes(data[at + 35 : end]))), end


# ---- replies


def sense_bytes(sense):
    return struct.pack(">BxB4xB4xBB4x", 0x70, sense[0], 10, sense[1], sense[2])


def sense_of(data):
    """The sense that 18 bytes spell."""
    return data[2] & 0x0F, data[12], data[13]


def good(data):
    return struct.pack(">BBI", GOOD, 0, len(data)) + data


def check(sense):
    return struct.pack(">BBI", CHECK, 18, 0) + sense_bytes(sense)


def busy():
    return struct.pack(">BBI", BUSY, 0, 0)


def conflict():
    return struct.pack(">BBI", CONFLICT, 0, 0)


def full():
    return struct.pack(">BBI", FULL, 0, 0)
