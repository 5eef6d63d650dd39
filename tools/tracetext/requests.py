"""Requests as words."""

import collections
import struct

from copymgr_formats import cdbs, lists, values
from copymgr_formats.frames import DATA_LIMIT, Request
from copymgr_formats.senses import Refused
from copymgr_formats.words import Fault, Fields, Word

ALLOCATION = 4096
# fields that are written even where they are what is read in their absence
ALWAYS = ("lba", "count", "id", "ranges", "segments", "key")
# a field that only a parameter list has
OF_LISTS = ("ranges", "token", "segments", "key", "action_key")


def word_of(form):
    """The name of a command; READ and WRITE are told apart by their size."""
    name = f"{form.name} {form.size}" if form.name in ("read", "write") else form.name
    return name.replace(" ", "-")


COMMANDS = {word_of(form): key for key, form in cdbs.FORMS.items()}
# a field of some bits: its name, what it is to the encoder, its byte, its lowest bit, and its most
Bits = collections.namedtuple("Bits", "name field at shift most")
EVPD = [Bits("evpd", "first", 1, 0, 1)]
SCOPE_AND_TYPE = [Bits("scope", "scope", 2, 4, 15), Bits("type", "kind", 2, 0, 15)]


def bits_of(command):
    """The fields of some bits that the command has."""
    if command == "inquiry":
        return EVPD
    return SCOPE_AND_TYPE if COMMANDS[command][0] == cdbs.RESERVE_OUT else []


# ---- parameter lists: a reader of fields to bytes, and a writer of bytes to fields


def unmap_of(fields, _):
    return lists.unmap_bytes(fields.take("ranges", values.ranges_of, []))


def unmap_fields(data, _):
    return {"ranges": values.ranges_text(lists.read_unmap(data))}


def rod_type(rtv):
    """The ROD type where none is written: it is ignored where RTV is 0."""
    return lists.ROD_TYPES[0] if rtv else 0


def populate_of(fields, _):
    timeout, rtv = fields.number("timeout", 0, values.U32), fields.number("rtv", 1, 1)
    kind = fields.number("type", rod_type(rtv), values.U32)
    return lists.populate_bytes(timeout, fields.take("ranges", values.ranges_of, []), 2 * rtv, kind)


def populate_fields(data, _):
    rtv, kind = data[2] >> 1 & 1, lists.number(data, 8, 4)
    return {
        "timeout": lists.number(data, 4, 4),
        "rtv": "" if rtv else "0",
        "type": "" if kind == rod_type(rtv) else f"0x{kind:08x}",
        "ranges": values.ranges_text(lists.judge_ranges(data, 16)),
    }


def write_of(fields, machine):
    ranges = fields.take("ranges", values.ranges_of, [])
    token = fields.take("token", values.token_of, bytes(512), machine)
    offset = fields.number("offset", 0, values.U64)
    return lists.write_bytes(token, ranges, offset, fields.number("immed", 0, 1), fields.number("delete", 0, 1))


def write_fields(data, machine):
    ranges = lists.judge_ranges(data, 536)
    return {
        "ranges": values.ranges_text(ranges),
        "token": values.token_text(data[16:528], machine),
        "offset": lists.number(data, 8, 8),
        "immed": data[2] & 1,
        "delete": data[2] >> 1 & 1,
    }


def copy_of(fields, machine):
    list_id, usage = fields.number("id", 0, 255), fields.number("usage", 0, 3)
    cscds = fields.take("cscds", values.cscds_of, values.configured(machine))
    segments = fields.take("segments", values.segments_of, [])
    return lists.copy_bytes(
        list_id,
        [lists.cscd_bytes(cscd.name, cscd.block_length, cscd.device) for cscd in cscds],
        [lists.segment_bytes(s.source, s.destination, s.count, s.from_lba, s.to_lba) for s in segments],
        usage,
    )


def copy_fields(data, machine):
    copy = lists.read_copy(data)
    cscds = {} if copy.cscds == values.configured(machine) else {"cscds": values.cscds_text(copy.cscds)}
    return {"id": copy.id, "usage": copy.usage, **cscds, "segments": values.segments_text(copy.segments)}


def reserve_of(fields, _):
    return lists.reserve_bytes(fields.number("key", 0, values.U64), fields.number("action_key", 0, values.U64))


def reserve_fields(data, _):
    key, action_key = lists.read_reserve(data)
    return {"key": f"0x{key:x}", "action_key": f"0x{action_key:x}" if action_key else ""}


LISTS = {
    "unmap": (unmap_of, unmap_fields),
    "populate-token": (populate_of, populate_fields),
    "write-using-token": (write_of, write_fields),
    "extended-copy": (copy_of, copy_fields),
    **{word_of(form): (reserve_of, reserve_fields) for (code, _), form in cdbs.FORMS.items() if code == cdbs.RESERVE_OUT},
}


def fields_of_list(command, data, machine):
    """The fields that give these bytes again, or None where none do."""
    reader, writer = LISTS[command]
    try:
        texts = {name: str(value) for name, value in writer(data, machine).items() if name in ALWAYS or value}
        again = reader(Fields([Word(f"{name}={text}", 0, 0) for name, text in texts.items()]), machine)
    except (Refused, Fault, struct.error, TypeError, IndexError):
        # the list is cut, or says what no field says
        return None
    return texts if again == data else None


# ---- requests


def defaults(command, out, unit, machine):
    """The fields of a CDB that need not be written: a length or number of blocks that the data-out tells, or 4096."""
    form = cdbs.FORMS[COMMANDS[command]]
    found = {}
    if "length" in form.fields:
        most = 256 ** form.fields["length"][1] - 1
        found["length"] = min(most, len(out) if command in LISTS else ALLOCATION)
    if form.name == "write" and unit < len(machine.shapes):
        found["count"] = min(len(out) // machine.shapes[unit].block_length, 256 ** form.fields["count"][1] - 1)
    return found


def cdb_of(text):
    cdb = values.data_of(text)
    if len(cdb) > 16:
        raise ValueError(f"a CDB has at most 16 bytes and not {len(cdb)}")
    return cdb.ljust(16, b"\0")


def request_of(command, fields, machine):
    """The request that a command's word and its fields say; without a word the CDB is a field."""
    unit = fields.number("lun", 0, values.U16)
    if command is None:
        return Request(unit, fields.take("cdb", cdb_of, bytes(16)), fields.take("data", values.data_of, b"", DATA_LIMIT))
    if command in LISTS and "data" not in fields and any(name in fields for name in OF_LISTS):
        out = LISTS[command][0](fields, machine)
    else:
        out = fields.take("data", values.data_of, b"", DATA_LIMIT)
    known = defaults(command, out, unit, machine)
    numbers = {
        name: fields.number(name, known.get(name, 0), 256**size - 1)
        for name, (_, size) in cdbs.FORMS[COMMANDS[command]].fields.items()
    }
    bits = {bit.field: fields.number(bit.name, 0, bit.most) for bit in bits_of(command)}
    return Request(unit, cdbs.encode(*COMMANDS[command], **bits, **numbers), out)


def named_words(request, machine):
    """The command's word and its fields, or None where they would not give the same CDB."""
    action = request.cdb[1] & 0x1F if request.cdb[0] in cdbs.WITH_ACTION else None
    form = cdbs.FORMS.get((request.cdb[0], action))
    if form is None:
        return None
    command = word_of(form)
    numbers = {n: lists.number(request.cdb, at, size) for n, (at, size) in form.fields.items()}
    bits = {bit: request.cdb[bit.at] >> bit.shift & bit.most for bit in bits_of(command)}
    if cdbs.encode(*COMMANDS[command], **{bit.field: value for bit, value in bits.items()}, **numbers) != request.cdb:
        return None
    known = defaults(command, request.out, request.unit, machine)
    words = {n: value for n, value in numbers.items() if (value != known[n] if n in known else n in ALWAYS or value)}
    if "page" in words:
        words["page"] = f"0x{words['page']:02x}"
    words |= {bit.name: value for bit, value in bits.items() if value}
    of_list = fields_of_list(command, request.out, machine) if command in LISTS and request.out else None
    if of_list is not None:
        words |= of_list
    elif request.out:
        words["data"] = values.data_text(request.out)
    return [command] + [f"{name}={value}" for name, value in words.items()]


def request_text(request, machine):
    words = named_words(request, machine)
    if words is None:
        words = [f"cdb={request.cdb.hex()}"]
        if request.out:
            words.append(f"data={values.data_text(request.out)}")
    return " ".join([f"lun={request.unit}"] + words)
