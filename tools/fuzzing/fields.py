"""Where fields stand, (first byte, how many bytes), and what values to try in one of so many bytes."""

from copymgr_formats import cdbs
from replay.commands import ACTIONS

# numbers that are limits, or one beside
LIMITS = [
    0, 1, 2, 3, 5, 7, 8, 9, 14, 15, 16, 17, 18, 24, 27, 28, 29, 31, 32, 33, 36, 56, 63, 64, 65, 127, 128, 254, 255, 256,
    257, 504, 512, 513, 530, 535, 536, 544, 552, 1008, 1023, 1024, 1025, 1040, 1792, 1820, 2047, 2048, 2049, 3600, 3601,
    4096, 0x00800000, 0x0080FFFF, 0xFFFF0001, 65_534, 65_535, 65_536, 1_048_575, 1_048_576, 1_048_577, 8_388_607,
    8_388_608, 8_388_609, 268_435_456, 268_435_457, 2**31 - 1, 2**31, 2**32 - 2, 2**32 - 1, 2**32, 2**32 + 1, 2**48,
    2**63, 2**64 - 1,
]
STEPS = [-33, -32, -28, -16, -2, -1, 1, 2, 15, 16, 17, 28, 32]

# of each list the fields in front, where its descriptors begin, and their fields and size
RANGE = ([(0, 8), (8, 4), (12, 4)], 16)
CSCD_FIELDS = [
    (0, 1), (1, 1), (2, 2), (4, 1), (5, 1), (6, 1), (7, 1), (8, 1), (9, 5), (14, 2), (16, 12), (28, 1), (29, 3),
]
CSCD = (CSCD_FIELDS, 32)
SEGMENT = ([(0, 1), (1, 1), (2, 2), (4, 2), (6, 2), (8, 2), (10, 2), (12, 8), (20, 8)], 28)
TOKEN = [
    (0, 4), (4, 2), (6, 2), (8, 2), (10, 6), (16, 1), (20, 1), (21, 1), (23, 1), (24, 8), (44, 4), (48, 8), (56, 8),
    (64, 8), (88, 8), (96, 8), (504, 8),
]
UNMAP_FRONT = [(0, 2), (2, 2), (4, 4)]
POPULATE_FRONT = [(0, 2), (2, 1), (3, 1), (4, 4), (8, 4), (12, 2), (14, 2)]
WRITE_FRONT = [(0, 2), (2, 1), (3, 5), (8, 8)] + [(16 + at, size) for at, size in TOKEN] + [(528, 6), (534, 2)]
RESERVE = [(0, 8), (8, 8), (16, 4), (20, 1), (21, 3)]
COPY_FRONT = [(0, 1), (1, 1), (2, 2), (4, 4), (8, 4), (12, 4)]

HEADER_FRONT = [(0, 8), (8, 32), (40, 2)]
UNIT = ([(0, 8), (8, 4), (12, 4), (16, 8), (24, 4), (28, 1), (29, 1), (30, 1), (31, 1)], 32)
BEGIN, RUN, PUMP = [(0, 1), (1, 4), (5, 8), (13, 4), (17, 2)], [(0, 1), (1, 4), (5, 8)], [(0, 1), (1, 2), (3, 8)]


def repeated(fields, size, begin, end):
    """The fields of descriptors that follow each other, as far as they begin before the end."""
    return [(at + place, width) for at in range(begin, end, size) for place, width in fields]


def of_list(name, data):
    """The fields of a command's parameter list."""
    if name == "unmap":
        return UNMAP_FRONT + repeated(*RANGE, 8, len(data))
    if name == "populate token":
        return POPULATE_FRONT + repeated(*RANGE, 16, len(data))
    if name == "write using token":
        return WRITE_FRONT + repeated(*RANGE, 536, len(data))
    if name == "extended copy":
        middle = 16 + int.from_bytes(data[2:4], "big")
        return COPY_FRONT + repeated(*CSCD, 16, middle) + repeated(*SEGMENT, middle, len(data))
    return RESERVE if name in ACTIONS else []


def of_cdb(code, action):
    """The fields of a CDB, and each of its bytes."""
    form = cdbs.FORMS[code, action]
    return sorted(set(form.fields.values()) | {(at, 1) for at in range(form.size)})


def of_header(data):
    return HEADER_FRONT + repeated(*UNIT, 42, len(data))


def values(old, size):
    """What to try where an old value stands in so many bytes; the old one is not among them."""
    top = (1 << 8 * size) - 1
    near = [old + step for step in STEPS] + [old ^ 1, old << 8, old >> 8]
    tried = {*LIMITS, *near, top, top - 1, top >> 1, (top >> 1) + 1}
    return sorted(value for value in tried if 0 <= value <= top and value != old)


def changed(data, at, size, value):
    """The bytes with another value in a field, as far as the field lies in them."""
    room = max(0, len(data) - at)
    return data[:at] + value.to_bytes(size, "big")[:room] + data[at + size :]
