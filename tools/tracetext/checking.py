"""Recorded replies beside those of their trace, as `copymgr check` tells it, in words."""

import os
import struct
import subprocess

from copymgr_formats import frames, replies
from replay import player

PROGRAM = os.path.join(os.path.dirname(os.path.abspath(__file__)), "../../crates/copymgr/out/copymgr")
DIFFERS = 10


def input_of(trace, records):
    """The input of a check: the length of the trace in 8 bytes, the trace, and the records."""
    return struct.pack(">Q", len(trace)) + trace + records


def asked(trace, records, program, seconds=None):
    """The exit status of a check, what it wrote, and the line that says why. It may be given so many seconds."""
    data = input_of(trace, records)
    run = subprocess.run(program + ["check"], input=data, capture_output=True, check=False, timeout=seconds)
    return run.returncode, run.stdout, run.stderr.decode(errors="replace").strip()


def lines_of(reply, machine):
    record = replies.records_of(reply.bytes)[0]
    return replies.reply_lines(record, reply.name, machine)


def recorded_lines(records, at, name, machine):
    """The recorded reply that begins at a byte, if one does."""
    try:
        record = replies.records_of(records[at:])[0]
    except (ValueError, IndexError):
        first = whole_record(records[at:])
        if first is None:
            rest = len(records) - at
            return [f"{replies.counted(rest, 'byte')}, which are no whole reply" if rest else "nothing"]
        record = replies.records_of(first)[0]
    return replies.reply_lines(record, name, machine)


def whole_record(data):
    """The bytes of the first reply, where it is whole and keeps the grammar."""
    if len(data) < 10:
        return None
    sensed, length = struct.unpack_from(">BI", data, 5)
    first = data[: 10 + sensed + length]
    try:
        return first if len(replies.records_of(first)) == 1 else None
    except ValueError:
        return None


def difference_lines(trace, records, place):
    """Which command's reply differs at this place of the records, and how."""
    machine, _ = frames.read_header(trace)
    played, _, _ = player.play(trace)
    at = 0
    for number, reply in enumerate(played):
        if place < at + len(reply.bytes):
            where = f"at its byte {place - at}, byte {place} of the replies"
            yield f"reply {number}, to {replies.title(reply.name)}, differs {where}:"
            yield from ("  it is    " + line for line in lines_of(reply, machine))
            yield from ("  recorded " + line for line in recorded_lines(records, at, reply.name, machine))
            return
        at += len(reply.bytes)
    yield f"{replies.counted(len(records) - at, 'byte')} behind the last reply, from byte {at} on"


def told(trace, records, program):
    """Lines that say what the program said of the replies, and whether they are those of the trace."""
    status, wrote, line = asked(trace, records, program)
    if status == 0 and wrote == b"yes\n":
        return ["these are the replies of the trace"], True
    if status == DIFFERS:
        return difference_lines(trace, records, int(line.rsplit(" ", 1)[1])), False
    return [line or f"the program ended with status {status}"], False
