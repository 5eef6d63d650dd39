"""CDBs, read and written."""

import collections

from .reservations import CLEAR, PREEMPT, REGISTER, REGISTER_AND_IGNORE, RELEASE, RESERVE
from .senses import BAD_CDB, UNKNOWN_OPERATION, Refused, refuse_if

# `length` is the allocation length, or the length of the parameter list; `action` that of a PERSISTENT RESERVE OUT
Cdb = collections.namedtuple("Cdb", "name lba count id length page evpd action scope kind", defaults=[0] * 9)
# where a field stands: its first byte, and how many bytes it has
Form = collections.namedtuple("Form", "name size fields")

BLOCKS_LIMIT = 2048
RESERVE_IN, RESERVE_OUT = 0x5E, 0x5F
READ_KEYS, READ_RESERVATION = 0x00, 0x01

ALLOCATION_16 = {"length": (10, 4)}
ACTION_LIST = {"length": (5, 4)}
FORMS = {
    (0x00, None): Form("test unit ready", 6, {}),
    (0x03, None): Form("request sense", 6, {"length": (4, 1)}),
    (0x12, None): Form("inquiry", 6, {"page": (2, 1), "length": (3, 2)}),
    (0x25, None): Form("read capacity 10", 10, {}),
    (0x28, None): Form("read", 10, {"lba": (2, 4), "count": (7, 2)}),
    (0x2A, None): Form("write", 10, {"lba": (2, 4), "count": (7, 2)}),
    (0x42, None): Form("unmap", 10, {"length": (7, 2)}),
    (RESERVE_IN, READ_KEYS): Form("read keys", 10, {"length": (7, 2)}),
    (RESERVE_IN, READ_RESERVATION): Form("read reservation", 10, {"length": (7, 2)}),
    (RESERVE_OUT, REGISTER): Form("register", 10, ACTION_LIST),
    (RESERVE_OUT, RESERVE): Form("reserve", 10, ACTION_LIST),
    (RESERVE_OUT, RELEASE): Form("release", 10, ACTION_LIST),
    (RESERVE_OUT, CLEAR): Form("clear", 10, ACTION_LIST),
    (RESERVE_OUT, PREEMPT): Form("preempt", 10, ACTION_LIST),
    (RESERVE_OUT, REGISTER_AND_IGNORE): Form("register and ignore", 10, ACTION_LIST),
    (0x88, None): Form("read", 16, {"lba": (2, 8), "count": (10, 4)}),
    (0x8A, None): Form("write", 16, {"lba": (2, 8), "count": (10, 4)}),
    (0x83, 0x00): Form("extended copy", 16, ALLOCATION_16),
    (0x83, 0x10): Form("populate token", 16, {"id": (6, 4), "length": (10, 4)}),
    (0x83, 0x11): Form("write using token", 16, {"id": (6, 4), "length": (10, 4)}),
    (0x83, 0x1C): Form("copy operation abort", 16, {"id": (2, 4)}),
    (0x84, 0x00): Form("receive copy status 1", 16, {"id": (2, 1), "length": (10, 4)}),
    (0x84, 0x03): Form("receive copy operating parameters", 16, ALLOCATION_16),
    (0x84, 0x05): Form("receive copy status 4", 16, {"id": (2, 4), "length": (10, 4)}),
    (0x84, 0x07): Form("receive rod token information", 16, {"id": (2, 4), "length": (10, 4)}),
    (0x9E, 0x10): Form("read capacity 16", 16, ALLOCATION_16),
    (0x9E, 0x12): Form("get lba status", 16, {"lba": (2, 8), "length": (10, 4)}),
    (0xA0, None): Form("report luns", 12, {"length": (6, 4)}),
}
WITH_ACTION = {code for code, action in FORMS if action is not None}


def decode(cdb):
    action = cdb[1] & 0x1F if cdb[0] in WITH_ACTION else None
    form = FORMS.get((cdb[0], action))
    if form is None:
        raise Refused(UNKNOWN_OPERATION)
    fields = {name: int.from_bytes(cdb[at : at + size], "big") for name, (at, size) in form.fields.items()}
    refuse_if(cdb[form.size - 1] & 0x04, BAD_CDB)
    if form.name in ("read", "write"):
        refuse_if(cdb[1] >> 5 or fields["count"] > BLOCKS_LIMIT, BAD_CDB)
    refuse_if(form.name in ("unmap", "request sense") and cdb[1] & 0x01, BAD_CDB)
    if form.name == "inquiry":
        fields["evpd"] = cdb[1] & 0x01
    if cdb[0] == RESERVE_OUT:
        fields.update(action=action, scope=cdb[2] >> 4, kind=cdb[2] & 0x0F)
    return Cdb(form.name, **fields)


def encode(code, action=None, tail=b"", first=0, control=0, scope=0, kind=0, **fields):
    """16 bytes: a CDB, whose byte 1 has other bits than the action in `first`, and then what follows a shorter one."""
    form = FORMS[code, action]
    cdb = bytearray(form.size)
    cdb[0], cdb[1], cdb[-1] = code, (action or 0) | first, control
    if scope or kind:
        cdb[2] = scope << 4 | kind
    for name, value in fields.items():
        at, size = form.fields[name]
        cdb[at : at + size] = value.to_bytes(size, "big")
    return bytes(cdb) + (tail + bytes(16))[: 16 - form.size]
