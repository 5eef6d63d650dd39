"""Replies as text."""

import collections
import struct

from . import frames
from .frames import sense_of
from .senses import sense_text

from .returned import State, capacity_of, copy_status_of, keys_of, operation_of, reservation_of, runs_of
from .values import token_text

STATUSES = {
    0x00: "GOOD", 0x02: "CHECK CONDITION", 0x08: "BUSY", 0x18: "RESERVATION CONFLICT", 0x28: "TASK SET FULL",
}
OPERATIONS = {0x10: "POPULATE TOKEN", 0x11: "WRITE USING TOKEN"}
STATES = {
    State.DONE: "completed without errors",
    State.FAILED: "completed with errors",
    State.IN_FOREGROUND: "in progress in foreground",
    State.IN_BACKGROUND: "in progress in background",
    State.TERMINATED: "terminated",
}
RESERVATIONS = {
    1: "write exclusive",
    3: "exclusive access",
    5: "write exclusive, registrants only",
    6: "exclusive access, registrants only",
}
COPY_STATUSES = {0x00: "in progress", 0x01: "done", 0x02: "failed or terminated"}
TITLES = {
    "read capacity 10": "read capacity (10)",
    "read capacity 16": "read capacity (16)",
    "receive copy status 1": "receive copy status (LID1)",
    "receive copy status 4": "receive copy status (LID4)",
    "receive rod token information": "receive ROD token information",
    "get lba status": "get LBA status",
    "report luns": "report LUNs",
}
INDENT = "    "

# a reply of a trace; the sense is a key, code and qualifier, or None
Record = collections.namedtuple("Record", "initiator status sense data")


def records_of(data):
    """The replies of a trace; a ValueError where they end inside one, or one breaks the grammar."""
    records, at = [], 0
    while at < len(data):
        if len(data) < at + 10:
            raise ValueError(f"the replies end inside the reply at byte {at}")
        initiator, status, sensed, length = struct.unpack_from(">IBBI", data, at)
        if status not in STATUSES or sensed != (18 if status == frames.CHECK else 0):
            raise ValueError(f"no reply begins at byte {at}")
        middle, end = at + 10 + sensed, at + 10 + sensed + length
        if len(data) < end:
            raise ValueError(f"the replies end inside the reply at byte {at}")
        sense = sense_of(data[at + 10 : middle]) if sensed else None
        records.append(Record(initiator, status, sense, data[middle:end]))
        at = end
    return records


def title(name):
    return TITLES.get(name, name)


def counted(number, what):
    return f"{number} {what}" + ("" if number == 1 else "s")


def reply_lines(record, name, machine=None):
    """A line, and lines with a margin for the data; the name is that of the command, if it is known."""
    front = f"i{record.initiator} {title(name)}: " if name else f"i{record.initiator}: "
    first = front + STATUSES[record.status]
    if record.sense:
        return [f"{first}, {sense_text(record.sense)}"]
    if not record.data:
        return [first]
    lines = data_lines(name, record.data, machine)
    return [f"{first}, {counted(len(record.data), 'byte')}"] + [INDENT + line for line in lines]


def hex_lines(data):
    """Lines of 16 bytes behind the place of the first; a star stands for lines that are like the one above."""
    lines, last = [], None
    for at in range(0, len(data), 16):
        row = data[at : at + 16]
        if row == last:
            if lines[-1] != "*":
                lines.append("*")
            continue
        last = row
        signs = "".join(chr(byte) if 0x20 <= byte < 0x7F else "." for byte in row)
        lines.append(f"{at:08x}  {row[:8].hex(' '):23}  {row[8:].hex(' '):23}  |{signs}|")
    return lines + ([f"{len(data):08x}"] if lines and lines[-1] == "*" else [])


# ---- data by field; each gives no lines where the data was cut before its end


def operation_lines(data, machine):
    if len(data) < 32 or len(data) < 4 + int.from_bytes(data[:4], "big"):
        return None
    operation = operation_of(data)
    lines = [
        f"response to service action: {OPERATIONS.get(operation.action, 'another')} ({operation.action:02X}h)",
        f"copy operation status: {STATES[operation.state]} ({operation.state:02X}h)",
        f"transfer count: {counted(operation.count, 'block')}",
    ]
    if operation.delay:
        lines.append(f"estimated status update delay: {operation.delay} ms")
    if operation.sense:
        lines.append(f"sense: {sense_text(operation.sense)}")
    if operation.token:
        lines.append(f"token: {token_text(operation.token, machine)}" if machine else "token:")
        lines += [INDENT + line for line in hex_lines(operation.token)]
    return lines


def copy_lines(data, _):
    if len(data) < 12:
        return None
    copy = copy_status_of(data)
    return [
        f"copy manager status: {COPY_STATUSES.get(copy.code, 'another')} ({copy.code:02X}h)",
        f"segments processed: {copy.segments}",
        f"transfer count: {counted(copy.bytes, 'byte')}",
    ]


def run_text(run):
    return f"{run.lba}+{run.count} {'mapped' if run.mapped else 'deallocated'}"


def run_lines(data, _):
    return [run_text(run) for run in runs_of(data)] if len(data) >= 8 else None


def capacity_lines(data, _):
    if len(data) not in (8, 32):
        return None
    blocks, length = capacity_of(data)
    return [f"last block {blocks - 1}, {length} bytes in a block: {blocks * length} bytes"]


def lun_lines(data, _):
    if len(data) < 8:
        return None
    return ["LUNs: " + ", ".join(str(data[at + 1]) for at in range(8, len(data) - 7, 8))]


def sense_lines(data, _):
    return [sense_text(sense_of(data))] if len(data) == 18 else None


def key_lines(data, _):
    if len(data) < 8 or len(data) != 8 + int.from_bytes(data[4:8], "big"):
        return None
    generation, keys = keys_of(data)
    return [f"generation: {generation}", "keys: " + (", ".join(f"{key:x}h" for key in keys) or "none")]


def reservation_lines(data, _):
    if len(data) not in (8, 24) or len(data) != 8 + int.from_bytes(data[4:8], "big"):
        return None
    generation, held = reservation_of(data)
    told = f"key {held.key:x}h, {RESERVATIONS.get(held.type, 'another type')} ({held.type:x}h)" if held else "no reservation"
    return [f"generation: {generation}", told]


FIELDS = {
    "receive rod token information": operation_lines,
    "receive copy status 4": operation_lines,
    "receive copy status 1": copy_lines,
    "get lba status": run_lines,
    "read capacity 10": capacity_lines,
    "read capacity 16": capacity_lines,
    "report luns": lun_lines,
    "request sense": sense_lines,
    "read keys": key_lines,
    "read reservation": reservation_lines,
}


def data_lines(name, data, machine=None):
    """Data by field where it has any, else in hex; so also data that no copy manager returns."""
    try:
        lines = FIELDS[name](data, machine) if name in FIELDS else None
    except (ValueError, IndexError, struct.error):
        lines = None
    return hex_lines(data) if lines is None else lines
