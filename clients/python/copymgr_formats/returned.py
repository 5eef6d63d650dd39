"""The data that commands return, read as values; each reader wants all of its data."""

import collections
import enum
import struct

from . import frames, rod_token

Capacity = collections.namedtuple("Capacity", "blocks block_length")
# blocks in a row that are all mapped or all unmapped
Run = collections.namedtuple("Run", "lba count mapped")
# of an operation with tokens: the service action that began it, its blocks so far, its sense where it failed, and the
# token that it made
Operation = collections.namedtuple("Operation", "action state delay count sense token")
# of EXTENDED COPY: its code, the segments that were done whole, and the bytes that were moved
CopyStatus = collections.namedtuple("CopyStatus", "code segments bytes")


# the key of the holder, and the type
Reservation = collections.namedtuple("Reservation", "key type")


class State(enum.IntEnum):
    """COPY OPERATION STATUS (SPC-4)."""

    DONE = 0x01
    FAILED = 0x02
    IN_FOREGROUND = 0x11
    IN_BACKGROUND = 0x12
    TERMINATED = 0x60


def capacity_of(data):
    """Of READ CAPACITY (10) or (16)."""
    last, length = struct.unpack_from(">QI" if len(data) > 8 else ">II", data)
    return Capacity(last + 1, length)


def runs_of(data):
    """Of GET LBA STATUS: the runs that are there whole."""
    runs = [struct.unpack_from(">QIB", data, at) for at in range(8, len(data) - 15, 16)]
    return [Run(lba, count, kind == 0) for lba, count, kind in runs]


def operation_of(data):
    """Of RECEIVE ROD TOKEN INFORMATION, or of RECEIVE COPY STATUS (LID4)."""
    action, state, delay, sensed, count = struct.unpack_from(">BB2xIxBxxQ", data, 4)
    sense = frames.sense_of(data[32:]) if sensed else None
    token = data[32 + sensed + 6 :]
    return Operation(action, State(state), delay, count, sense, token if len(token) == rod_token.LENGTH else None)


def copy_status_of(data):
    """Of RECEIVE COPY STATUS (LID1)."""
    return CopyStatus(*struct.unpack_from(">BHxI", data, 4))


def keys_of(data):
    """Of READ KEYS: the generation, and the keys that are there whole."""
    return struct.unpack_from(">I", data)[0], [struct.unpack_from(">Q", data, at)[0] for at in range(8, len(data) - 7, 8)]


def reservation_of(data):
    """Of READ RESERVATION: the generation, and the reservation or None."""
    generation, length = struct.unpack_from(">II", data)
    return generation, Reservation(*struct.unpack_from(">Q5xB", data, 8)) if length else None
