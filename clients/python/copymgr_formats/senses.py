"""The refusals, and the other ends of an act or a command."""

NO_SENSE = (0x00, 0x00, 0x00)
IN_USE = (0x05, 0x00, 0x16)
BAD_LIST_LENGTH = (0x05, 0x1A, 0x00)
UNKNOWN_OPERATION = (0x05, 0x20, 0x00)
OUT_OF_RANGE = (0x05, 0x21, 0x00)
TOKEN_TYPE = (0x05, 0x23, 0x01)
TOKEN_REMOTE = (0x05, 0x23, 0x02)
TOKEN_UNKNOWN = (0x05, 0x23, 0x04)
TOKEN_CORRUPT = (0x05, 0x23, 0x05)
TOKEN_EXPIRED = (0x05, 0x23, 0x07)
TOKEN_EVICTED = (0x05, 0x23, 0x08)
TOKEN_DELETED = (0x05, 0x23, 0x09)
TOKEN_LENGTH = (0x05, 0x23, 0x0A)
BAD_CDB = (0x05, 0x24, 0x00)
NO_SUCH_UNIT = (0x05, 0x25, 0x00)
BAD_LIST = (0x05, 0x26, 0x00)
TOO_MANY_CSCDS = (0x05, 0x26, 0x06)
CSCD_TYPE = (0x05, 0x26, 0x07)
TOO_MANY_SEGMENTS = (0x05, 0x26, 0x08)
SEGMENT_TYPE = (0x05, 0x26, 0x09)
INLINE_DATA = (0x05, 0x26, 0x0B)
TOO_MANY = (0x05, 0x55, 0x03)
OVER_QUOTA = (0x07, 0x27, 0x07)
COPY_ABORTED = (0x0A, 0x00, 0x00)
NOT_REACHABLE = (0x0A, 0x0D, 0x02)
DEVICE_TYPE = (0x0A, 0x0D, 0x03)
COPY_OUT_OF_RANGE = (0x0A, 0x21, 0x00)

KEYS = {0x00: "NO SENSE", 0x05: "ILLEGAL REQUEST", 0x07: "DATA PROTECT", 0x0A: "COPY ABORTED"}
# the names of additional sense codes with their qualifiers, as SPC-4 has them but for their capitals
NAMES = {
    (0x00, 0x00): "no additional sense information",
    (0x00, 0x16): "operation in progress",
    (0x0D, 0x02): "copy target device not reachable",
    (0x0D, 0x03): "incorrect copy target device type",
    (0x1A, 0x00): "parameter list length error",
    (0x20, 0x00): "invalid command operation code",
    (0x21, 0x00): "logical block address out of range",
    (0x23, 0x01): "unsupported token type",
    (0x23, 0x02): "remote token usage not supported",
    (0x23, 0x04): "token unknown",
    (0x23, 0x05): "token corrupt",
    (0x23, 0x07): "token expired",
    (0x23, 0x08): "token cancelled",
    (0x23, 0x09): "token deleted",
    (0x23, 0x0A): "invalid token length",
    (0x24, 0x00): "invalid field in CDB",
    (0x25, 0x00): "logical unit not supported",
    (0x26, 0x00): "invalid field in parameter list",
    (0x26, 0x06): "too many target descriptors",
    (0x26, 0x07): "unsupported target descriptor type code",
    (0x26, 0x08): "too many segment descriptors",
    (0x26, 0x09): "unsupported segment descriptor type code",
    (0x26, 0x0B): "inline data length exceeded",
    (0x27, 0x07): "space allocation failed write protect",
    (0x55, 0x03): "insufficient resources",
}


def sense_text(sense):
    """As in `ILLEGAL REQUEST, token expired (05/23/07)`."""
    key, code, qualifier = sense
    named = f"{KEYS.get(key, 'another key')}, {NAMES.get((code, qualifier), 'another code')}"
    return f"{named} ({key:02X}/{code:02X}/{qualifier:02X})"


class Refused(Exception):
    """An act or a command is refused with a sense."""

    def __init__(self, sense):
        super().__init__(sense)
        self.sense = sense


class Conflict(Exception):
    """A registration or a reservation stands against an act: RESERVATION CONFLICT."""


class RecordFull(Exception):
    """The unit's record has no room for an act."""


class NoMemory(Exception):
    """Memory is refused for an act, or for a command's next step."""


class BadInput(Exception):
    """The input can't be read further: what is wrong, and at which byte."""

    def __init__(self, status, place):
        super().__init__(status, place)
        self.status = status
        self.place = place


def refuse_if(wrong, sense):
    if wrong:
        raise Refused(sense)
