"""The units of an iSCSI connection (RFC 7143, iSCSI PDU Formats): a header of 48 bytes, and data."""

import collections
import struct

NOP_OUT, COMMAND, TASK, LOGIN, TEXT, DATA_OUT, LOGOUT, SNACK = 0x00, 0x01, 0x02, 0x03, 0x04, 0x05, 0x06, 0x10
NOP_IN, RESPONSE, TASK_DONE, LOGGED_IN, TEXT_DONE, DATA_IN, LOGGED_OUT = 0x20, 0x21, 0x22, 0x23, 0x24, 0x25, 0x26
READY, REJECT = 0x31, 0x3F

HEADER = 48
IMMEDIATE, FINAL = 0x40, 0x80
NO_TAG = 0xFFFFFFFF
# the longest data of one PDU that is taken
DATA_LIMIT = 262_144
# why a PDU is rejected
PROTOCOL_ERROR, NOT_SUPPORTED = 0x04, 0x05


class Broken(Exception):
    """The other end does not speak iSCSI, or ended in the middle."""


class Pdu(collections.namedtuple("Pdu", "header data")):
    """What was received."""

    @property
    def code(self):
        return self.header[0] & 0x3F

    @property
    def is_immediate(self):
        return bool(self.header[0] & IMMEDIATE)

    @property
    def flags(self):
        return self.header[1]

    @property
    def lun(self):
        return self.header[8:16]

    def number(self, at, size=4):
        return int.from_bytes(self.header[at : at + size], "big")

    @property
    def tag(self):
        return self.number(16)


def exactly(source, size):
    data = source.read(size)
    if len(data) < size:
        raise Broken("the connection was cut")
    return data


def read_pdu(source):
    """The next PDU, or None where the connection ends before one."""
    header = source.read(HEADER)
    if not header:
        return None
    header += exactly(source, HEADER - len(header))
    length = int.from_bytes(header[5:8], "big")
    if length > DATA_LIMIT:
        raise Broken(f"a PDU has {length} bytes of data, and may have {DATA_LIMIT}")
    exactly(source, 4 * header[4])
    return Pdu(header, exactly(source, length + -length % 4)[:length])


def pdu_bytes(code, flags, tag, rest=b"", lun=bytes(8), second=0, third=0, data=b""):
    """A PDU to be sent. `rest` is its header from byte 20 on, `second` and `third` are its bytes 2 and 3."""
    front = struct.pack(">BBBBI8sI", code, flags, second, third, len(data), lun, tag)
    return front + rest.ljust(HEADER - 20, b"\0") + data + bytes(-len(data) % 4)


def read_text(data):
    """The keys of a text and their values, in their order."""
    pairs = []
    for part in data.decode("utf-8", "replace").split("\0"):
        if part:
            key, found, value = part.partition("=")
            if not found:
                raise Broken(f"a text without =: {part!r}")
            pairs.append((key, value))
    return pairs


def text_bytes(pairs):
    return b"".join(f"{key}={value}\0".encode() for key, value in pairs)


class Counters:
    """The numbers of a session's only connection, with which what is sent tells the other end how far it may go.

    `expected` is the number of the next command; so many more than it are taken at once.
    """

    WINDOW = 32

    def __init__(self, status, expected):
        self.status, self.expected = status, expected

    def told(self, counts=True):
        """StatSN, ExpCmdSN and MaxCmdSN of what is sent now, which counts as a status or not."""
        found = struct.pack(">III", self.status, self.expected, self.expected + self.WINDOW - 1 & 0xFFFFFFFF)
        if counts:
            self.status = self.status + 1 & 0xFFFFFFFF
        return found

    def takes(self, number):
        """Whether the command of a number is the next one; then it counts."""
        if number != self.expected:
            return False
        self.expected = self.expected + 1 & 0xFFFFFFFF
        return True
