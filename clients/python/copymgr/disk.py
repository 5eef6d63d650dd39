"""A disk: a logical unit of a host."""

from . import plans, status
from .wire import cdbs, lists, reservations, returned, rod_token

BLOCKS_OF_COMMAND = 2048
RANGES = 64
ALLOCATION = 4096


class Disk:
    """A logical unit. Places and amounts are in blocks, and a range is (first block, number of blocks)."""

    def __init__(self, host, lun=0):
        self.host = host
        self.lun = lun
        self.known_capacity = None

    def command(self, code, action=None, out=b"", **fields):
        return self.host.execute(self.lun, cdbs.encode(code, action, **fields), out)

    # ---- what it is

    def capacity(self):
        if self.known_capacity is None:
            self.known_capacity = returned.capacity_of(self.command(0x9E, 0x10, length=32))
        return self.known_capacity

    def inquiry(self, page=None):
        """Vendor, product and revision, or the bytes of a vital product data page."""
        if page is None:
            return status.inquiry_of(self.command(0x12, length=36))
        return self.command(0x12, first=1, page=page, length=ALLOCATION)

    # ---- blocks

    def read(self, lba, count):
        """The bytes of some blocks; an unmapped one has zeros."""
        parts = range(lba, lba + count, BLOCKS_OF_COMMAND) or [lba]
        return b"".join(self.command(0x88, lba=at, count=min(BLOCKS_OF_COMMAND, lba + count - at)) for at in parts)

    def write(self, lba, data, progress=None):
        """Writes whole blocks, 2048 at a time: those before a refusal stay. `progress` is called with the blocks so far."""
        length = self.capacity().block_length
        if len(data) % length:
            raise ValueError(f"{len(data)} bytes are no whole blocks of {length}")
        size = length * BLOCKS_OF_COMMAND
        for at in range(0, len(data), size):
            part = data[at : at + size]
            self.command(0x8A, out=part, lba=lba + at // length, count=len(part) // length)
            if progress:
                progress((at + len(part)) // length)

    def unmap(self, ranges):
        """Unmaps ranges, 64 at a time."""
        for at in range(0, len(ranges), RANGES):
            out = lists.unmap_bytes(ranges[at : at + RANGES])
            self.command(0x42, out=out, length=len(out))

    def lba_status(self, lba=0):
        """The runs of mapped and of unmapped blocks from a block on, at most 64."""
        return returned.runs_of(self.command(0x9E, 0x12, lba=lba, length=ALLOCATION))

    def map(self):
        """All runs of the disk."""
        lba, runs = 0, []
        while lba < self.capacity().blocks:
            runs += self.lba_status(lba)
            lba = runs[-1].lba + runs[-1].count
        return runs

    # ---- tokens

    def populate(self, ranges, timeout=0, list_id=None):
        """A token of some ranges as they stand now: 512 bytes. A timeout of 0 asks for 300 seconds."""
        list_id = self.host.new_id() if list_id is None else list_id
        out = lists.populate_bytes(timeout, ranges)
        self.command(0x83, 0x10, out, id=list_id, length=len(out))
        return self.token_information(list_id).token

    def token_information(self, list_id):
        """An operation, with the token where it made one."""
        return status.operation_of(self.command(0x84, 0x07, id=list_id, length=ALLOCATION))

    def status(self, list_id):
        """An operation, without its token."""
        return status.operation_of(self.command(0x84, 0x05, id=list_id, length=ALLOCATION))

    def write_using_token(self, token, ranges, offset=0, background=False, delete=False, list_id=None):
        """Writes blocks of a token from an offset on, and gives the list identifier by which its status is asked for.
        In the background it ends as soon as the write is begun; `delete` ends the token behind it."""
        list_id = self.host.new_id() if list_id is None else list_id
        out = lists.write_bytes(token, ranges, offset, int(background), int(delete))
        self.command(0x83, 0x11, out, id=list_id, length=len(out))
        return list_id

    def abort(self, list_id):
        """Ends an operation in the background: what was written stays."""
        self.command(0x83, 0x1C, id=list_id)

    def wait(self, list_id, progress=None):
        """Waits for an operation; `progress` is called with its blocks so far. An error where it was not done."""
        operation = self.status(list_id)
        while operation.is_running:
            if progress:
                progress(operation.count)
            self.host.let_work(self.lun)
            operation = self.status(list_id)
        operation.check()
        if progress:
            progress(operation.count)
        return operation

    # ---- copies

    def copy_to(self, other, lba, to_lba, count, progress=None, list_id=None):
        """Copies blocks to a disk of the same host, as `copy_extents` does."""
        self.copy_extents(other, plans.extent(lba, count), plans.extent(to_lba, count), progress, list_id)

    def copy_extents(self, other, extents, to_extents, progress=None, list_id=None):
        """Copies the blocks of extents to those of others, on a disk of the same host, by tokens, in the background, and
        waits. `progress` is called with the blocks so far; the list identifier is that of the tokens and of the writes."""
        self.judge_host(other)
        list_id = self.host.new_id() if list_id is None else list_id
        for part in plans.parts(extents, to_extents):
            token = self.populate(part.ranges, list_id=list_id)
            for offset, ranges in part.writes:
                last = offset == part.writes[-1].offset
                other.write_using_token(token, ranges, offset, background=True, delete=last, list_id=list_id)
                before = part.first + offset
                other.wait(list_id, progress and (lambda blocks, before=before: progress(before + blocks)))

    def extended_copy(self, other, moves, list_id=None):
        """EXTENDED COPY (LID1) of segments (from, to, blocks) to a disk of the same host; gives the list identifier."""
        self.judge_host(other)
        list_id = self.host.new_id() % 256 if list_id is None else list_id
        cscds = [lists.cscd_bytes(rod_token.unit_name(d.lun), d.capacity().block_length) for d in (self, other)]
        if list_id > 0xFF or any(count > 0xFFFF for _, _, count in moves):
            raise ValueError("the list identifier is at most 255, and a segment has at most 65535 blocks")
        out = lists.copy_bytes(list_id, cscds, [lists.segment_bytes(0, 1, n, a, b) for a, b, n in moves])
        self.command(0x83, 0x00, out, length=len(out))
        return list_id

    def copy_status(self, list_id):
        """How an EXTENDED COPY to which this disk was addressed ended."""
        return status.copy_status_of(self.command(0x84, 0x00, id=list_id, length=12))

    # ---- reservations; a nexus that is not registered has the key 0

    def reserve_out(self, action, key, action_key=0, kind=0):
        """PERSISTENT RESERVE OUT by a service action and a type of `replay.reservations`."""
        out = lists.reserve_bytes(key, action_key)
        self.command(cdbs.RESERVE_OUT, action, out, length=len(out), kind=kind)

    def register(self, key, new_key, ignore=False):
        """Has a new key, under which the unit knows this nexus; 0 ends its registration and its reservation. `ignore`
        is REGISTER AND IGNORE EXISTING KEY, by which the key so far may be any."""
        self.reserve_out(reservations.REGISTER_AND_IGNORE if ignore else reservations.REGISTER, key, new_key)

    def reserve(self, key, kind):
        self.reserve_out(reservations.RESERVE, key, 0, kind)

    def release(self, key, kind):
        self.reserve_out(reservations.RELEASE, key, 0, kind)

    def clear(self, key):
        """Ends all registrations, and the reservation."""
        self.reserve_out(reservations.CLEAR, key)

    def preempt(self, key, other_key, kind):
        """Ends the registrations of others by a key, and takes over the reservation that one of them holds."""
        self.reserve_out(reservations.PREEMPT, key, other_key, kind)

    def keys(self):
        """The generation, and the keys in the order of registering."""
        return returned.keys_of(self.command(cdbs.RESERVE_IN, cdbs.READ_KEYS, length=ALLOCATION))

    def reservation(self):
        """The generation, and the reservation or None."""
        return returned.reservation_of(self.command(cdbs.RESERVE_IN, cdbs.READ_RESERVATION, length=ALLOCATION))

    def judge_host(self, other):
        if other.host is not self.host:
            raise ValueError("the disks are not of one host")
