"""The command cmgr.

example:
  $ PATH=$PATH:$PWD/clients/python
  $ cmgr new disk.trace --unit 1000000 --unit 1000000
  $ echo hello | dd bs=512 conv=sync | cmgr write disk.trace --lba 5
  $ cmgr copy disk.trace --from 0:5 --to 1:9 --count 1
  $ cmgr read disk.trace --lun 1 --lba 9 --count 1 --hex
  $ cmgr map disk.trace --lun 1
  $ cmgr status disk.trace --lun 1

DEVICE is a trace, which is replayed and to which the new commands are added (tools/people/trace text < disk.trace shows it).
With --connect HOST:PORT in its place the commands go to a program that serves, by a connection of their own; operations
are known to the connection that began them. A program that does not listen yet is waited for, for three seconds. Numbers
are decimal, with a multiplier as in 4k, 2m or 1g, or hexadecimal as in 0x1f or 1fh. With -v each command and its
status is told on standard error, and at the end of a read, a write or a copy how many records went in and out.

The exit status is that of sg3_utils: 0 all was done, 5 illegal request, 7 data protect, 9 unknown operation code,
10 copy aborted, 15 a file or the program failed, 20 no sense, 22 LBA out of range, 24 reservation conflict,
26 busy, 27 task set full, 98 another sense. Wrong words are 2, which no disk of copymgr answers as it is always ready.
"""

import argparse
import bisect
import fcntl
import os
import pathlib
import secrets
import shlex
import sys
import time

from copymgr_formats.addresses import address_of
from copymgr_formats.command_line import Parser, end_quietly, fail, quiet_output
from copymgr_formats.replies import RESERVATIONS, counted, hex_lines, run_text
from copymgr_formats.values import U16, U32, U64, ranges_of, ranges_text
from copymgr_formats.words import number_of

from . import plans
from .disk import Disk
from .errors import Busy, CheckCondition, CommandError, Ended, OperationEnded, ReservationConflict, TaskSetFull
from .hosts import Connection, Replay, Shape
from .wire import cdbs, frames, lists, reservations, senses

PROGRAM = "cmgr"
# seconds for which a program that does not listen yet is waited for, and between two tries
PATIENCE, PAUSE = 3, 0.05
POLLS = 1_000_000
FILE_ERROR = 15
STATUS_OF_KEY = {0x00: 20, 0x05: 5, 0x07: 7, 0x0A: 10}
STATUS_OF_SENSE = {senses.UNKNOWN_OPERATION: 9, senses.OUT_OF_RANGE: 22}
TYPES = {
    "write-exclusive": reservations.WRITE_EXCLUSIVE,
    "exclusive-access": reservations.EXCLUSIVE_ACCESS,
    "write-exclusive-registrants": reservations.WRITE_EXCLUSIVE_REGISTRANTS,
    "exclusive-access-registrants": reservations.EXCLUSIVE_ACCESS_REGISTRANTS,
}


def exit_status(error):
    if isinstance(error, CheckCondition):
        return STATUS_OF_SENSE.get(error.sense, STATUS_OF_KEY.get(error.key, 98))
    return {Busy: 26, ReservationConflict: 24, TaskSetFull: 27, OperationEnded: 10}.get(type(error), FILE_ERROR)


# ---- words


def number(most):
    """A reader of numbers for the parser, which names the type where it is wrong."""

    def read(text):
        return number_of(text, most)

    read.__name__ = "number"
    return read


def ranges(text):
    return ranges_of(text)


def place(text):
    """A unit, and a block of it, as in 0:5, or extents, as in 0:5+2,9+3."""
    lun, blocks = text.split(":")
    return number_of(lun, U16), ranges_of(blocks) if "+" in blocks else number_of(blocks, U64)


def address(text):
    return address_of(text)


def unit(text):
    """A number of blocks, or a size as in 64M or 1G, and behind / the bytes of a block, as in 100/4096."""
    size, _, length = text.partition("/")
    if length not in ("", "512", "4096"):
        raise argparse.ArgumentTypeError(f"{text}: a block has 512 or 4096 bytes")
    length = int(length or 512)
    try:
        amount = number_of(size, 2**64)
    except ValueError:
        raise argparse.ArgumentTypeError(f"{text} is neither BLOCKS nor a size as 64M or 1G, with /512 or /4096 behind it") from None
    blocks, rest = (amount, 0) if size[-1].isdigit() or size[-1] in "hH" else divmod(amount, length)
    if rest or not 1 <= blocks <= frames.BLOCKS_LIMIT:
        raise argparse.ArgumentTypeError(f"{text}: a unit has 1 to {frames.BLOCKS_LIMIT} whole blocks")
    return Shape(blocks, length)


def secret(text):
    """The 32 bytes from which the texts of tokens come, in hex."""
    try:
        found = bytes.fromhex(text)
    except ValueError:
        found = b""
    if len(found) != 32:
        raise argparse.ArgumentTypeError("a secret has 64 hexadecimal digits")
    return found


LUN = ("--lun", {"type": number(U16), "default": 0, "help": "0 if left out"})
LBA = ("--lba", {"type": number(U64), "default": 0, "help": "the first block; 0 if left out"})
COUNT = ("--count", {"type": number(2**32), "help": "how many blocks; to the end of the unit if left out"})
RANGES = ("--ranges", {"type": ranges, "required": True, "help": "as in 5+1,9+3"})
PAGE = ("--page", {"type": number(255), "help": "a page of vital product data"})
KEY = ("--key", {"type": number(U64), "required": True, "help": "under which the initiator is registered"})
TYPE = ("--type", {"choices": TYPES, "required": True, "help": "whom the reservation keeps out of what"})
LIST_ID = ("--id", {"type": number(U32), "default": 1, "help": "the list identifier; 1 if left out"})
HOST = [
    ("--connect", {"type": address, "metavar": "HOST:PORT", "help": "a program that serves, in the place of DEVICE"}),
    ("--program", {"help": "what replays the trace; else copymgr where it was built, or the plain replay"}),
    ("--moment", {"type": number(U64), "help": "of a trace: the moment in seconds; else that of its last item"}),
    ("--initiator", {"type": number(U32), "default": 1, "help": "of a trace: by whom; 1 if left out"}),
    ("-v", {"dest": "verbose", "action": "store_true", "help": "tells each command and its status on standard error"}),
]


def place_option(name, dest, what):
    return name, {"dest": dest, "type": place, "required": True, "metavar": "LUN:BLOCKS", "help": what}


def unit_option():
    what = "a unit, by its blocks or its size (64M, 1G); a block has 512 bytes if left out"
    return "--unit", {"type": unit, "action": "append", "required": True, "metavar": "BLOCKS[/BYTES]", "help": what}


SECRET = ("--secret", {"type": secret, "help": "64 hexadecimal digits from which the texts of tokens come; random if left out"})
TEXT = ("--text", {"action": "store_true", "help": "the units alone, as a text for people, which is no trace"})


def kinds():
    """Each word with what does it, what it is for, and its options."""
    return {
        "new": (new, "begins a trace of new units", [unit_option(), SECRET, TEXT]),
        "read": (read, "reads blocks, to standard output", [
            LUN, LBA, COUNT,
            ("--out", {"help": "to a file, which is there only when all was read"}),
            ("--hex", {"action": "store_true", "help": "as text, as on a terminal"}),
        ]),
        "write": (write, "writes blocks, from standard input", [
            LUN, LBA,
            ("--in", {"dest": "file", "help": "from a file"}),
        ]),
        "unmap": (unmap, "unmaps ranges", [LUN, RANGES]),
        "map": (show_map, "tells which blocks are mapped", [LUN]),
        "copy": (copy, "copies blocks by tokens", [
            ("--count", {"type": number(2**32), "help": "how many blocks, where neither option names extents"}),
            LIST_ID,
            place_option("--from", "source", "the first block to copy, as in 0:5, or extents, as in 0:5+2,9+3"),
            place_option("--to", "target", "where to, in the same way"),
            ("--plan", {"action": "store_true", "help": "tells which tokens and writes it takes, and copies nothing"}),
            ("--immed", {"action": "store_true", "help": "ends when the copy is begun; one write alone"}),
            ("--segments", {"action": "store_true", "help": "by EXTENDED COPY, in pieces of at most 65535 blocks"}),
        ]),
        "job": (write_job, "writes the job of a copy by tokens, which `copymgr copy` reads, to standard output", [
            ("--count", {"type": number(2**32), "help": "how many blocks, where neither option names extents"}),
            place_option("--from", "source", "as of copy"),
            place_option("--to", "target", "as of copy"),
            ("--polls", {"type": number(U32), "default": POLLS, "help": f"how often a write may still run; {POLLS} if left out"}),
        ]),
        "inq": (inq, "tells what the unit is", [LUN, PAGE]),
        "readcap": (readcap, "tells how large the unit is", [LUN]),
        "status": (tell_status, "tells how an operation stands", [
            LUN, LIST_ID,
            ("--pump", {"type": number(U32), "default": 0, "help": "of a trace: so many Pumps of the unit before"}),
            ("--segments", {"action": "store_true", "help": "of an EXTENDED COPY"}),
        ]),
        "abort": (abort, "ends an operation in the background", [LUN, LIST_ID]),
        "register": (register, "has a new key, or ends the registration with 0", [
            LUN,
            ("--key", {"type": number(U64), "default": 0, "help": "the key so far; 0, none, if left out"}),
            ("--new-key", {"type": number(U64), "required": True, "help": "the key from now on; 0 is none"}),
            ("--ignore", {"action": "store_true", "help": "whatever the key so far is"}),
        ]),
        "reserve": (reserve, "reserves the unit", [LUN, KEY, TYPE]),
        "release": (release, "ends the initiator's reservation", [LUN, KEY, TYPE]),
        "clear": (clear, "ends all registrations and the reservation", [LUN, KEY]),
        "preempt": (preempt, "ends the registrations of others by a key, and takes over their reservation", [
            LUN, KEY, TYPE,
            ("--other-key", {"type": number(U64), "required": True, "help": "the key of the others"}),
        ]),
        "keys": (show_keys, "tells which keys are registered, and the reservation", [LUN]),
    }


def parser():
    top = Parser(prog=PROGRAM, description=__doc__)
    words = top.add_subparsers(metavar="|".join(kinds()), required=True)
    for name, (do, description, options) in kinds().items():
        one = words.add_parser(name, help=description, description=description)
        one.set_defaults(do=do, parser=one)
        if do is not write_job:
            one.add_argument("device", metavar="DEVICE", nargs=None if do is new else "?", help="a trace")
        for option, named in options + (HOST if do not in (new, write_job) else []):
            one.add_argument(option, **named)
    return top


# ---- the trace or the connection


class TraceFile:
    """A trace in a file, to which what was played is added when all went well so far."""

    def __init__(self, words):
        self.file = open(words.device, "r+b")  # pylint: disable=consider-using-with
        fcntl.flock(self.file, fcntl.LOCK_EX)
        trace = self.file.read()
        _, at = frames.read_header(trace)
        moment = 0
        while at < len(trace):
            item, at = frames.read_item(trace, at)
            moment = item.moment
        program = shlex.split(words.program) if words.program else None
        self.host = Replay(program=program, trace=trace, initiator=words.initiator)
        self.host.moment = moment if words.moment is None else words.moment

    def close(self):
        end = self.file.seek(0, os.SEEK_END)
        try:
            self.file.write(b"".join(self.host.items))
            self.file.flush()
        except OSError:
            self.file.truncate(end)
            raise
        finally:
            self.host.close()
            self.file.close()


def connected(where):
    """A connection to a program, which may have been started a moment ago."""
    end = time.monotonic() + PATIENCE
    while True:
        try:
            return Connection(where)
        except ConnectionRefusedError:
            if time.monotonic() > end:
                raise
            time.sleep(PAUSE)


class Served:
    """A connection."""

    def __init__(self, where):
        self.host = connected(where)

    def close(self):
        self.host.close()


def opened(words):
    if (words.device is None) == (words.connect is None):
        words.parser.error("the words name DEVICE or --connect HOST:PORT")
    device = TraceFile(words) if words.connect is None else Served(words.connect)
    if words.verbose:
        device.host = Telling(device.host)
    return device


class Telling:
    """A host, of which each command and its status is told on standard error."""

    def __init__(self, host):
        self.host = host

    def __getattr__(self, name):
        return getattr(self.host, name)

    def execute(self, lun, cdb, out=b""):
        said = "GOOD"
        try:
            return self.host.execute(lun, cdb, out)
        except CommandError as error:
            said = str(error)
            raise
        finally:
            print(f"{PROGRAM}: unit {lun} {name_of(cdb)}: {said}", file=sys.stderr)


def name_of(cdb):
    """The name of a command, and where it goes."""
    read = cdbs.decode(cdb)
    form = cdbs.FORMS[cdb[0], cdb[1] & 0x1F if cdb[0] in cdbs.WITH_ACTION else None]
    fields = [f"{name}={getattr(read, name)}" for name in ("lba", "count", "id") if name in form.fields]
    return " ".join([read.name, *fields])


def tell_records(words, blocks):
    """How many blocks went in and out, as dd says it."""
    if words.verbose:
        print(f"{blocks}+0 records in\n{blocks}+0 records out", file=sys.stderr)


# ---- commands


def new(words):
    if len(words.unit) > frames.UNITS_LIMIT:
        raise ValueError(f"a trace has at most {frames.UNITS_LIMIT} units")
    machine = frames.Machine(words.secret or secrets.token_bytes(32), words.unit)
    with open(words.device, "xb") as file:
        file.write(frames.header_text(machine) if words.text else frames.header_bytes(machine))


class OutputFailed(Exception):
    """Standard output can't be written."""


def put(data):
    """Writes bytes to standard output."""
    try:
        sys.stdout.flush()
        sys.stdout.buffer.write(data)
        sys.stdout.buffer.flush()
    except BrokenPipeError:
        raise
    except OSError as error:
        raise OutputFailed(f"standard output: {error.strerror}") from None


def show(*lines):
    """Writes lines to standard output."""
    put("".join(f"{line}\n" for line in lines).encode())


def read(words, host):
    disk = Disk(host, words.lun)
    count = words.count if words.count is not None else max(0, disk.capacity().blocks - words.lba)
    data = disk.read(words.lba, count)
    if words.out:
        part = pathlib.Path(words.out + ".part")
        part.write_bytes(data)
        part.replace(words.out)
    elif words.hex or sys.stdout.isatty():
        show(*hex_lines(data))
    else:
        put(data)
    tell_records(words, count)


def write(words, host):
    data = pathlib.Path(words.file).read_bytes() if words.file else sys.stdin.buffer.read()
    written = 0

    def progress(blocks):
        nonlocal written
        written = blocks

    try:
        Disk(host, words.lun).write(words.lba, data, progress)
    except CommandError as error:
        error.add_note(f"{counted(written, 'block')} written")
        raise
    tell_records(words, written)


def unmap(words, host):
    Disk(host, words.lun).unmap(words.ranges)


def show_map(words, host):
    show(*map(run_text, Disk(host, words.lun).map()))


class Progress:
    """Tells on a terminal, in one line, how far a copy is; on anything else nothing."""

    def __init__(self, parts):
        self.ends = [part.first + lists.total(part.ranges) for part in parts]
        self.shown = False

    def __call__(self, blocks):
        if not sys.stderr.isatty():
            return
        part = f", part {1 + bisect.bisect_left(self.ends, blocks)} of {len(self.ends)}" if len(self.ends) > 1 else ""
        print(f"\r{blocks} of {self.ends[-1]} blocks{part}", end="", file=sys.stderr, flush=True)
        self.shown = True

    def end(self):
        """What comes next stands in a line of its own."""
        if self.shown:
            print(file=sys.stderr)


def extents(words):
    """The extents to copy, and where to. A block alone begins as many blocks as --count or the other option says."""
    places = [blocks for _, blocks in (words.source, words.target)]
    named = [blocks for blocks in places if isinstance(blocks, list)]
    if bool(named) == (words.count is not None):
        raise ValueError("either --count says how many blocks, or --from or --to names extents, as in 0:5+2,9+3")
    count = lists.total(named[0]) if named else words.count
    return [blocks if isinstance(blocks, list) else plans.extent(blocks, count) for blocks in places]


def copy(words, host):
    source, target = Disk(host, words.source[0]), Disk(host, words.target[0])
    if words.segments:
        source.extended_copy(target, plans.moves(*extents(words)), words.id)
        return
    parts = plans.parts(*extents(words))
    if words.immed:
        if len(parts) != 1 or len(parts[0].writes) != 1:
            raise ValueError(f"it takes {plan_text(parts)}: without --immed it waits for each")
        token = source.populate(parts[0].ranges, list_id=words.id)
        target.write_using_token(token, parts[0].writes[0].ranges, background=True, delete=True, list_id=words.id)
        return
    progress = Progress(parts)
    try:
        source.copy_extents(target, *extents(words), progress, words.id)
    finally:
        progress.end()
    tell_records(words, sum(lists.total(part.ranges) for part in parts))


def plan_text(parts):
    writes = sum(len(part.writes) for part in parts)
    return f"{counted(len(parts), 'POPULATE TOKEN')} and {counted(writes, 'WRITE USING TOKEN')}"


def blocks_text(ranges):
    return counted(lists.total(ranges), "block")


def show_plan(words):
    """Tells the plan of a copy by tokens."""
    parts = plans.parts(*extents(words))
    show(f"{blocks_text([each for part in parts for each in part.ranges])}: {plan_text(parts)}")
    for at, part in enumerate(parts, 1):
        of = counted(len(part.ranges), "extent")
        show(f"token {at}: {blocks_text(part.ranges)} of {of}, lun={words.source[0]} {ranges_text(part.ranges)}")
        for _, ranges in part.writes:
            show(f"  {blocks_text(ranges)} to lun={words.target[0]} {ranges_text(ranges)}")


def write_job(words):
    put(plans.job_bytes(words.source[0], words.target[0], *extents(words), words.polls))


def inq(words, host):
    found = Disk(host, words.lun).inquiry(words.page)
    show(*(hex_lines(found) if words.page is not None else [" ".join(found)]))


def readcap(words, host):
    blocks, length = Disk(host, words.lun).capacity()
    show(f"{blocks} blocks of {length} bytes: {blocks * length} bytes")


def tell_status(words, host):
    for _ in range(words.pump):
        host.let_work(words.lun)
    disk = Disk(host, words.lun)
    if words.segments:
        copied = disk.copy_status(words.id)
        show(f"{copied.state.name.lower()}, {counted(copied.segments, 'segment')}, {counted(copied.bytes, 'byte')}")
        return
    operation = disk.status(words.id)
    said = [operation.state.name.lower().replace("_", " "), counted(operation.count, "block")]
    show(", ".join(said + ([senses.sense_text(operation.sense)] if operation.sense else [])))


def abort(words, host):
    Disk(host, words.lun).abort(words.id)


def register(words, host):
    Disk(host, words.lun).register(words.key, words.new_key, words.ignore)


def reserve(words, host):
    Disk(host, words.lun).reserve(words.key, TYPES[words.type])


def release(words, host):
    Disk(host, words.lun).release(words.key, TYPES[words.type])


def clear(words, host):
    Disk(host, words.lun).clear(words.key)


def preempt(words, host):
    Disk(host, words.lun).preempt(words.key, words.other_key, TYPES[words.type])


def show_keys(words, host):
    disk = Disk(host, words.lun)
    generation, keys = disk.keys()
    held = disk.reservation()[1]
    reserved = f"reserved by key {held.key:#x}: {RESERVATIONS[held.type]}" if held else "no reservation"
    show(f"generation {generation}", *(f"key {key:#x}" for key in keys), reserved)


def do(words):
    """Does what the words say."""
    if words.do in (new, write_job):
        words.do(words)
        return
    if words.do is copy and words.plan:
        show_plan(words)
        return
    device = opened(words)
    try:
        words.do(words, device.host)
    finally:
        device.close()


def main(arguments=None):
    words = parser().parse_args(arguments)
    try:
        do(words)
    except (CommandError, Ended, OperationEnded) as error:
        fail(PROGRAM, "; ".join([str(error), *getattr(error, "__notes__", [])]), exit_status(error))
    except BrokenPipeError:
        end_quietly()
    except OutputFailed as failed:
        quiet_output()
        fail(PROGRAM, failed, FILE_ERROR)
    except senses.BadInput as bad:
        fail(PROGRAM, f"{words.device}: no whole trace, at byte {bad.place}", FILE_ERROR)
    except OSError as error:
        where = words.device or "{}:{}".format(*words.connect)
        fail(PROGRAM, f"{error.filename or where}: {error.strerror}", FILE_ERROR)
    except ValueError as error:
        fail(PROGRAM, error)
