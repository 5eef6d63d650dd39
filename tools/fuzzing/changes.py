"""The changes of a request, of a header, and of the last items of a trace. Each is a pair: what it is, and what
comes."""

import struct

from copymgr_formats import cdbs, frames
from copymgr_formats.frames import Request
from copymgr_formats.senses import Refused

from . import fields

# of the data of a WRITE, whose bytes are no fields
WRITE_ENDS = [0, 1, 2, 22, 511, 512, 513, 1023, 1024, 4095, 4096, 4097]
LONGER = [1, 2, 4, 7, 8, 15, 16, 17, 28, 32, 33, 64, 512, 600]
CODES = [(code, None) for code in range(256)]
CODES += [(code, action) for code in sorted(cdbs.WITH_ACTION) for action in range(32)]


def form_of(request):
    """Code and action of a CDB, its name, and where its length stands, if it has one."""
    name = cdbs.decode(request.cdb).name
    key = request.cdb[0], request.cdb[1] & 0x1F if request.cdb[0] in cdbs.WITH_ACTION else None
    return key, name, cdbs.FORMS[key].fields.get("length")


def of_list(request):
    """One field of a parameter list has another value; or one bit of the list is another."""
    _, name, _ = form_of(request)
    for at, size in fields.of_list(name, request.out):
        old = int.from_bytes(request.out[at : at + size], "big")
        for value in fields.values(old, size):
            out = fields.changed(request.out, at, size, value)
            yield f"list field at {at} is {value:x}h", request._replace(out=out)
    for at in range(len(request.out) if name != "write" else 0):
        for bit in range(8):
            out = fields.changed(request.out, at, 1, request.out[at] ^ 1 << bit)
            yield f"list bit {bit} of byte {at}", request._replace(out=out)


def of_length(request):
    """The list is cut or longer, and its CDB says so; or the list or the CDB alone."""
    _, name, place = form_of(request)
    longer = [request.out + bytes([fill]) * more for more in LONGER for fill in (0, 0xFF)]
    ends = range(len(request.out)) if name != "write" else [end for end in WRITE_ENDS if end < len(request.out)]
    for out in [request.out[:end] for end in ends] + longer:
        if place:
            cdb = fields.changed(request.cdb, *place, len(out) & (1 << 8 * place[1]) - 1)
            yield f"list of {len(out)} bytes, and the CDB says so", Request(request.unit, cdb, out)
        yield f"list of {len(out)} bytes", request._replace(out=out)


def of_cdb(request):
    """One field of a CDB, one of its bits, its code or its action is another."""
    key, _, _ = form_of(request)
    for at, size in fields.of_cdb(*key):
        old = int.from_bytes(request.cdb[at : at + size], "big")
        for value in fields.values(old, size):
            yield f"CDB field at {at} is {value:x}h", request._replace(cdb=fields.changed(request.cdb, at, size, value))
    for bit in range(128):
        at = bit // 8
        yield f"CDB bit {bit}", request._replace(cdb=fields.changed(request.cdb, at, 1, request.cdb[at] ^ 1 << bit % 8))
    for code, action in CODES:
        front = bytes([code, request.cdb[1] if action is None else request.cdb[1] & 0xE0 | action])
        yield f"code {code:02x}h {action}", request._replace(cdb=front + request.cdb[2:])


def of_frame(request):
    """The unit is another, or there is data that the command does not have."""
    for unit in fields.values(request.unit, 2):
        yield f"unit {unit}", request._replace(unit=unit)
    for length in (1, 15, 16, 511, 512, 4096, 65_535, 65_536):
        yield f"data-out of {length} bytes", request._replace(out=bytes(length))


WAYS = [of_list, of_length, of_cdb, of_frame]


def of_request(request):
    for way in WAYS:
        yield from way(request)


def again(rng, request):
    """One change more of a request that was changed; none where it is no command any more."""
    try:
        key, name, place = form_of(request)
    except Refused:
        return "no more", request
    where = rng.randrange(4)
    if where == 0 or not request.out:
        at, size = rng.choice(fields.of_cdb(*key))
        value = value_for(rng, request.cdb, at, size)
        return f"CDB field at {at} is {value:x}h", request._replace(cdb=fields.changed(request.cdb, at, size, value))
    if where == 1 and place:
        out = (request.out + bytes(600))[: rng.randint(0, len(request.out) + rng.choice(LONGER))]
        cdb = fields.changed(request.cdb, *place, len(out) & (1 << 8 * place[1]) - 1)
        return f"list of {len(out)} bytes, and the CDB says so", Request(request.unit, cdb, out)
    at, size = rng.choice(fields.of_list(name, request.out) or [(rng.randrange(len(request.out)), 1)])
    value = value_for(rng, request.out, at, size)
    return f"list field at {at} is {value:x}h", request._replace(out=fields.changed(request.out, at, size, value))


def value_for(rng, data, at, size):
    return rng.choice(fields.values(int.from_bytes(data[at : at + size], "big"), size))


def of_header(data):
    """A header is cut or longer, or one field or bit of it is another."""
    for end in range(len(data)):
        yield f"header of {end} bytes", data[:end]
    for at, size in fields.of_header(data):
        old = int.from_bytes(data[at : at + size], "big")
        for value in fields.values(old, size):
            yield f"header field at {at} is {value:x}h", fields.changed(data, at, size, value)
    for at in range(len(data)):
        for bit in range(8):
            yield f"header bit {bit} of byte {at}", fields.changed(data, at, 1, data[at] ^ 1 << bit)


def of_items(items):
    """Some items, in bytes, of which one is cut, left out, twice there, or has one field changed, also the length of
    its data while the data stays."""
    for number, (item, data) in enumerate(items):
        before, behind = (b"".join(other for _, other in part) for part in (items[:number], items[number + 1 :]))
        for end in range(min(len(data), 60)):
            yield f"item {number} cut at {end}", before + data[:end]
            yield f"item {number} without its bytes from {end} on", before + data[:end] + behind
        yield f"item {number} twice", before + data + data + behind
        for what, changed in of_item(item, data):
            yield f"item {number}, {what}", before + changed + behind


def of_item(item, data):
    kinds = {frames.Begin: fields.BEGIN, frames.Run: fields.RUN, frames.Pump: fields.PUMP}
    for at, size in kinds[type(item)]:
        old = int.from_bytes(data[at : at + size], "big")
        for value in fields.values(old, size):
            yield f"field at {at} is {value:x}h", fields.changed(data, at, size, value)
    if isinstance(item, frames.Begin):
        for length in (frames.DATA_LIMIT + 1, 2**32 - 1):
            yield f"a data-out of {length} bytes begins", data[:13] + struct.pack(">I", length)
