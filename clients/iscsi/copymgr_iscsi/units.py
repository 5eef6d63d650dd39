"""Commands to units. Most go on to the program that serves; some are answered here, since hosts ask them and its
profile leaves them out: MODE SENSE, SYNCHRONIZE CACHE, and INQUIRY of a unit that is not there."""

import struct

from .wire import BUSY, Reply, cdbs, frames, returned, senses

INQUIRY, MODE_SENSE_6, MODE_SENSE_10, SYNCHRONIZE_10, SYNCHRONIZE_16 = 0x12, 0x1A, 0x5A, 0x35, 0x91
READ_CAPACITY_16 = cdbs.encode(0x9E, 0x10, length=32)
NAMES = {
    MODE_SENSE_6: "mode sense 6", MODE_SENSE_10: "mode sense 10", SYNCHRONIZE_10: "synchronize cache 10",
    SYNCHRONIZE_16: "synchronize cache 16",
}
STATUSES = {
    frames.GOOD: "good", BUSY: "busy", frames.CONFLICT: "reservation conflict", frames.FULL: "task set full",
}
NOT_SAVED = (0x05, 0x39, 0x00)
# more than any unit that is configured
NOWHERE = 0xFFFF

# The caching page (SBC-3): no write is cached. The control page (SPC-4): sense comes in fixed format, and nothing is
# write protected.
CACHING, CONTROL, ALL_PAGES, ALL_SUBPAGES = 0x08, 0x0A, 0x3F, 0xFF
PAGES = {CACHING: bytes([CACHING, 18]) + bytes(18), CONTROL: bytes([CONTROL, 10]) + bytes(10)}
# PAGE CONTROL
SAVED = 3


def good(data=b""):
    return Reply(frames.GOOD, b"", data)


def check(sense):
    return Reply(frames.CHECK, frames.sense_bytes(sense), b"")


def unit_of(lun):
    """The number of a unit of eight bytes (SAM-5): by peripheral or by flat space addressing."""
    method, first = lun[0] >> 6, int.from_bytes(lun[:2], "big")
    if any(lun[2:]) or method > 1 or (method == 0 and lun[0]):
        return NOWHERE
    return first & 0x3FFF


def name_of(cdb):
    """The name of a command, or its code."""
    key = cdb[0], cdb[1] & 0x1F if cdb[0] in cdbs.WITH_ACTION else None
    return cdbs.FORMS[key].name if key in cdbs.FORMS else NAMES.get(cdb[0], f"{cdb[0]:02x}h")


def place_of(cdb):
    """The first block and the number of blocks, or the bytes of a list, of a command that has them."""
    try:
        read = cdbs.decode(cdb)
    except senses.Refused:
        return ""
    fields = cdbs.FORMS[cdb[0], cdb[1] & 0x1F if cdb[0] in cdbs.WITH_ACTION else None].fields
    return "".join(f" {name}={getattr(read, name)}" for name in ("lba", "count", "length") if name in fields)


class Units:
    """The units of a connection to the program. `tells` is called with a line for each command, if there is one."""

    def __init__(self, host, tells=None):
        self.host, self.tells = host, tells
        self.known = {}

    def capacity(self, unit):
        """None where there is no such unit."""
        if unit not in self.known:
            reply = self.host.ask(unit, READ_CAPACITY_16)
            self.known[unit] = returned.capacity_of(reply.data) if reply.status == frames.GOOD else None
        return self.known[unit]

    def data_out(self, unit, cdb):
        """How many bytes a command brings."""
        try:
            read = cdbs.decode(cdb)
        except senses.Refused:
            return 0
        if read.name == "write":
            return read.count * self.capacity(unit).block_length if self.capacity(unit) else 0
        lists = ("unmap", "populate token", "write using token", "extended copy")
        is_list = read.name in lists or cdb[0] == cdbs.RESERVE_OUT
        return read.length if is_list else 0

    def answer(self, unit, cdb, out):
        """The reply to a command."""
        reply = self.reply(unit, cdb, out)
        if self.tells:
            sense = "/".join(f"{part:02x}" for part in frames.sense_of(reply.sense)) if reply.sense else ""
            self.tells(f"unit {unit} {name_of(cdb)}{place_of(cdb)}: {sense or STATUSES.get(reply.status)}")
        return reply

    def reply(self, unit, cdb, out):
        if self.capacity(unit) is None and cdb[0] == INQUIRY:
            return absent(cdb)
        if self.capacity(unit) is not None and cdb[0] in ANSWERS:
            try:
                return good(ANSWERS[cdb[0]](cdb, self.capacity(unit)))
            except senses.Refused as refused:
                return check(refused.sense)
        return self.host.ask(unit, cdb, out)


def absent(cdb):
    """INQUIRY of a unit that is not there: the standard data with the qualifier 011b, and no pages."""
    if cdb[1] & 1 or cdb[2]:
        return check(senses.BAD_CDB)
    data = bytes([0x7F, 0, 6, 2, 31]) + bytes(31)
    return good(data[: int.from_bytes(cdb[3:5], "big")])


def mode_pages(cdb):
    """The pages that are asked for, by PAGE CONTROL, PAGE CODE and SUBPAGE CODE."""
    control, page, subpage = cdb[2] >> 6, cdb[2] & 0x3F, cdb[3]
    senses.refuse_if(control == SAVED, NOT_SAVED)
    wanted = list(PAGES) if page == ALL_PAGES and subpage in (0, ALL_SUBPAGES) else [page] if subpage == 0 else []
    senses.refuse_if(not set(wanted) & set(PAGES), senses.BAD_CDB)
    # all that is told is zero, so of the values that may be changed, which are none, the same is told
    return b"".join(PAGES[page] for page in wanted)


def mode_sense_6(cdb, _):
    """Neither write protected nor with DPO and FUA, and without block descriptors."""
    pages = mode_pages(cdb)
    return (bytes([3 + len(pages), 0, 0, 0]) + pages)[: cdb[4]]


def mode_sense_10(cdb, _):
    pages = mode_pages(cdb)
    return (struct.pack(">H6x", 6 + len(pages)) + pages)[: int.from_bytes(cdb[7:9], "big")]


def synchronize(lba, count, capacity):
    """All is where it should be already, since a reply comes after its write."""
    senses.refuse_if(lba + count > capacity.blocks, senses.OUT_OF_RANGE)
    return b""


ANSWERS = {
    MODE_SENSE_6: mode_sense_6,
    MODE_SENSE_10: mode_sense_10,
    SYNCHRONIZE_10: lambda cdb, capacity: synchronize(*struct.unpack_from(">2xIxH", cdb), capacity),
    SYNCHRONIZE_16: lambda cdb, capacity: synchronize(*struct.unpack_from(">2xQI", cdb), capacity),
}
