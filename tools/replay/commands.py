"""Each command as a program: a generator that yields (unit, act), is sent the answers, and returns its data.

A refused act is raised at its yield as Refused, one for which the record has no room as RecordFull, and one for which
memory is refused as NoMemory. A reservation that stands against an act is raised as Conflict. A command that is refused
raises Refused or Conflict itself; one that gives up raises what it gave up for, behind its last question where it has
one.
"""

import collections

from copymgr_formats import cdbs, lists, rod_token
from copymgr_formats.frames import sense_bytes
from copymgr_formats.senses import (
    BAD_CDB, BAD_LIST, BAD_LIST_LENGTH, COPY_ABORTED, COPY_OUT_OF_RANGE, Conflict, DEVICE_TYPE, NOT_REACHABLE, NO_SENSE,
    NO_SUCH_UNIT, NoMemory, RecordFull, Refused, TOKEN_LENGTH, TOKEN_TYPE, TOKEN_UNKNOWN, refuse_if,
)

from . import acts, told

COPY_BYTES_LIMIT = 536_870_912
ACTIONS = ("register", "register and ignore", "reserve", "release", "clear", "preempt")
LISTS = ("unmap", "extended copy", "populate token", "write using token") + ACTIONS

# a request that was not refused before its list is read, and the shape of its unit
Asked = collections.namedtuple("Asked", "machine unit shape cdb out")


def judged(machine, request):
    refuse_if(request.unit >= len(machine.shapes), NO_SUCH_UNIT)
    shape = machine.shapes[request.unit]
    cdb = cdbs.decode(request.cdb)
    if cdb.name == "write":
        refuse_if(len(request.out) != cdb.count * shape.block_length, BAD_CDB)
    elif cdb.name in LISTS:
        refuse_if(len(request.out) != cdb.length, BAD_LIST_LENGTH)
    else:
        refuse_if(request.out, BAD_CDB)
    return Asked(machine, request.unit, shape, cdb, request.out)


def command(machine, request):
    asked = judged(machine, request)
    if asked.cdb.name in FIXED:
        return FIXED[asked.cdb.name](asked)
    return (yield from PROGRAMS[asked.cdb.name](asked))


def last_question(unit, act):
    """What a command asks where it gives up. Whatever comes of it, the command gave up."""
    try:
        yield unit, act
    except (Refused, RecordFull, NoMemory):
        pass


# ---- commands without acts


def inquiry(asked):
    cdb = asked.cdb
    data = told.page(asked.unit, cdb.page) if cdb.evpd else told.inquiry() if cdb.page == 0 else None
    refuse_if(data is None, BAD_CDB)
    return data[: cdb.length]


FIXED = {
    "test unit ready": lambda asked: b"",
    "request sense": lambda asked: sense_bytes(NO_SENSE)[: asked.cdb.length],
    "inquiry": inquiry,
    "read capacity 10": lambda asked: told.capacity_10(asked.shape),
    "read capacity 16": lambda asked: told.capacity_16(asked.shape)[: asked.cdb.length],
    "report luns": lambda asked: told.luns(len(asked.machine.shapes))[: asked.cdb.length],
    "receive copy operating parameters": lambda asked: told.operating_parameters()[: asked.cdb.length],
}


# ---- commands of one act


def read(asked):
    blocks = yield asked.unit, acts.Read(asked.cdb.lba, asked.cdb.count)
    return b"".join(data or bytes(asked.shape.block_length) for data in blocks)


def write(asked):
    length = asked.shape.block_length
    blocks = [asked.out[at * length : (at + 1) * length] for at in range(asked.cdb.count)]
    yield asked.unit, acts.Write(asked.cdb.lba, blocks)
    return b""


def unmap(asked):
    yield asked.unit, acts.Unmap(lists.read_unmap(asked.out))
    return b""


def get_lba_status(asked):
    runs = yield asked.unit, acts.MapStatus(asked.cdb.lba)
    return told.lba_status(runs)[: asked.cdb.length]


def populate_token(asked):
    timeout, ranges = lists.read_populate(asked.out)
    yield asked.unit, acts.Populate(asked.cdb.id, timeout, ranges)
    return b""


def copy_operation_abort(asked):
    yield asked.unit, acts.Abort(asked.cdb.id)
    return b""


def receive_copy_status_1(asked):
    result = yield asked.unit, acts.Recall(asked.cdb.id)
    return told.copy_status_1(result)[: asked.cdb.length]


def receive_copy_status_4(asked):
    report = yield asked.unit, acts.Report(asked.cdb.id)
    return told.operation_bytes(report, b"")[: asked.cdb.length]


def receive_rod_token_information(asked):
    report = yield asked.unit, acts.Report(asked.cdb.id)
    token = rod_token.text(asked.machine, asked.unit, report.serial, report.count) if report.populate else None
    return told.operation_bytes(report, told.token_part(token))[: asked.cdb.length]


# ---- reservations


def read_keys(asked):
    generation, keys = yield asked.unit, acts.PrKeys()
    return told.keys(generation, keys)[: asked.cdb.length]


def read_reservation(asked):
    generation, held = yield asked.unit, acts.PrHolder()
    return told.reservation(generation, held)[: asked.cdb.length]


def persistent_reserve_out(asked):
    cdb = asked.cdb
    key, action_key = lists.read_reserve(asked.out)
    yield asked.unit, acts.PrOut(cdb.action, cdb.scope, cdb.kind, key, action_key)
    return b""


# ---- WRITE USING TOKEN


def creator_of(machine, text):
    """Unit and serial that a token names; nothing for the zero token."""
    refuse_if(lists.number(text, 6, 2) != rod_token.LENGTH_FIELD, TOKEN_LENGTH)
    kind = lists.number(text, 0, 4)
    if kind == rod_token.ZERO_TYPE:
        return None
    refuse_if(kind != rod_token.ROD_TYPE, TOKEN_TYPE)
    unit = lists.number(text, 8, 2)
    refuse_if(unit >= len(machine.shapes), TOKEN_UNKNOWN)
    return unit, lists.number(text, 10, 6)


def write_using_token(asked):
    wanted = lists.read_write(asked.out)
    creator = creator_of(asked.machine, wanted.token)
    blocks = lists.total(wanted.ranges)
    rod = [None] * blocks
    if creator:
        rod = yield creator[0], acts.Redeem(wanted.token, creator[1], asked.unit)
        refuse_if(wanted.offset + blocks > len(rod), BAD_LIST)
        rod = rod[wanted.offset : wanted.offset + blocks]
    operation = yield asked.unit, acts.Start(asked.cdb.id, wanted.immed, wanted.ranges, rod)
    if not wanted.immed:
        yield from foreground(asked.unit, asked.cdb.id, operation, acts.pieces(blocks))
    if wanted.delete and creator:
        yield creator[0], acts.Delete(creator[1])
    return b""


def foreground(unit, list_id, operation, pieces):
    """The pieces one after the other, as long as the operation runs."""
    try:
        for _ in range(pieces):
            if operation.state == told.BACKGROUND:
                operation = yield unit, acts.Advance(list_id)
    except (RecordFull, NoMemory):
        yield from last_question(unit, acts.End(list_id))
        raise
    refuse_if(operation.state == told.FAILED, operation.sense)
    refuse_if(operation.state != told.DONE, COPY_ABORTED)


# ---- EXTENDED COPY (LID1)


def unit_of_cscd(machine, cscd):
    refuse_if(cscd.device != 0, DEVICE_TYPE)
    names = [rod_token.unit_name(unit) for unit in range(len(machine.shapes))]
    refuse_if(cscd.name not in names, NOT_REACHABLE)
    unit = names.index(cscd.name)
    refuse_if(cscd.block_length != machine.shapes[unit].block_length, BAD_LIST)
    return unit


def judge_segment(shapes, segment):
    source, destination = shapes[segment.source], shapes[segment.destination]
    refuse_if(source.block_length != destination.block_length, BAD_LIST)
    refuse_if(segment.from_lba + segment.count > source.blocks, COPY_OUT_OF_RANGE)
    refuse_if(segment.to_lba + segment.count > destination.blocks, COPY_OUT_OF_RANGE)


def segments_of(machine, wanted):
    """The segments, with the numbers of their units."""
    units = [unit_of_cscd(machine, cscd) for cscd in wanted.cscds]
    segments = [s._replace(source=units[s.source], destination=units[s.destination]) for s in wanted.segments]
    for segment in segments:
        judge_segment(machine.shapes, segment)
    size = sum(segment.count * machine.shapes[segment.source].block_length for segment in segments)
    refuse_if(size > COPY_BYTES_LIMIT, BAD_LIST)
    return segments


class Copying:
    """How far an EXTENDED COPY has come."""

    def __init__(self, machine, segments):
        self.machine = machine
        self.segments = segments
        self.done = 0
        self.bytes = 0

    def program(self):
        """The segments in order, up to one that is refused; it returns the refusal, if one is."""
        try:
            for segment in self.segments:
                if segment.count:
                    yield from self.copy(segment)
                self.done += 1
        except (Refused, Conflict) as refusal:
            return refusal
        return None

    def copy(self, segment):
        blocks = yield segment.source, acts.Capture(segment.from_lba, segment.count)
        for at in range(0, segment.count, acts.PIECE):
            piece = blocks[at : at + acts.PIECE]
            yield segment.destination, acts.Put(segment.to_lba + at, piece)
            self.bytes += len(piece) * self.machine.shapes[segment.destination].block_length

    def close(self, list_id, state):
        return acts.Close(list_id, acts.Result(state, self.done, self.bytes))


def extended_copy(asked):
    if asked.cdb.length == 0:
        return b""
    wanted = lists.read_copy(asked.out)
    copying = Copying(asked.machine, segments_of(asked.machine, wanted))
    keeps = wanted.usage != lists.WITHOUT_ID
    if keeps:
        yield asked.unit, acts.Open(wanted.id)
    try:
        refusal = yield from copying.program()
        if keeps:
            yield asked.unit, copying.close(wanted.id, told.FAILED if refusal else told.DONE)
    except (RecordFull, NoMemory):
        if keeps:
            yield from last_question(asked.unit, copying.close(wanted.id, told.TERMINATED))
        raise
    if isinstance(refusal, Refused):
        raise Refused((COPY_ABORTED[0],) + refusal.sense[1:])
    if refusal:
        raise refusal
    return b""


PROGRAMS = {
    "read": read,
    "write": write,
    "unmap": unmap,
    "get lba status": get_lba_status,
    "populate token": populate_token,
    "write using token": write_using_token,
    "extended copy": extended_copy,
    "copy operation abort": copy_operation_abort,
    "receive copy status 1": receive_copy_status_1,
    "receive copy status 4": receive_copy_status_4,
    "receive rod token information": receive_rod_token_information,
    "read keys": read_keys,
    "read reservation": read_reservation,
    **dict.fromkeys(ACTIONS, persistent_reserve_out),
}
