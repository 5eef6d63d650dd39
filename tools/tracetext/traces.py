"""Whole traces as text, and back."""

import collections

from copymgr_formats import frames, values
from copymgr_formats.frames import (
    BLOCKS_LIMIT, Begin, ENTRIES_LIMIT, GROUP_LIMIT, PAYLOAD_LIMIT, Pump, Run, SECRET, UNITS_LIMIT,
)
from copymgr_formats.senses import BadInput
from copymgr_formats.words import Fault, Fields, number_of, words_of
from replay.player import Player

from .requests import COMMANDS, request_of, request_text

# what a unit has where its line does not say it; the quota is then all blocks
UNIT = {
    "blocks": None,
    "block_length": 512,
    "quota": None,
    "entries": ENTRIES_LIMIT,
    "payload": PAYLOAD_LIMIT,
    "group": 0,
}
LIMITS = {
    "blocks": (1, BLOCKS_LIMIT),
    "quota": (0, BLOCKS_LIMIT),
    "entries": (1, ENTRIES_LIMIT),
    "payload": (1, PAYLOAD_LIMIT),
    "group": (0, GROUP_LIMIT),
}
COUNT_LIMIT = 1_048_576

# a line of a text that says bytes of the items: where it stands, what it is, and those bytes
Line = collections.namedtuple("Line", "number text bytes")
# a text that was read: the bytes of its header, and its lines
Text = collections.namedtuple("Text", "header lines")


def bytes_of(text):
    return text.header + b"".join(line.bytes for line in text.lines)


class Walk:
    """The plain replay beside a trace that is read or written, as far as its items may stand where they do.

    In the place of bytes as they are, which it does not look into, stands the item None.
    """

    def __init__(self, machine):
        self.player = Player(machine)
        self.is_lost = False

    def play(self, item):
        self.is_lost = self.is_lost or item is None or not self.player.fits(item)
        if not self.is_lost:
            self.player.play(item)

    def waits(self, initiator):
        return not self.is_lost and initiator in self.player.pending


# ---- text to bytes


class Reader:
    """Reads a text line by line."""

    def __init__(self):
        self.secret = SECRET
        self.shapes = []
        self.machine = None
        self.header = b""
        self.lines = []
        self.items = []
        self.walk = None
        self.to_walk = []
        self.moment = 0

    def line(self, number, text):
        words = words_of(number, text)
        if not words:
            return
        kind = words[0].text
        if kind in ("secret", "unit"):
            if self.machine or self.lines:
                raise words[0].fault(f"{kind} stands before all items")
            (self.read_secret if kind == "secret" else self.read_unit)(words)
            return
        if kind == "raw":
            data = self.raw_bytes(words)
        else:
            self.begin_items(words[0])
            self.items = []
            self.read_items(words)
            data = b"".join(map(frames.item_bytes, self.items))
        self.lines.append(Line(number, " ".join(word.text for word in words), data))

    # ---- the header

    def read_secret(self, words):
        if len(words) != 2:
            raise words[0].fault("secret wants 32 bytes in hex behind it")
        self.secret = words[1].read(values.data_of)
        if len(self.secret) != 32:
            raise words[1].fault(f"a secret has 32 bytes and not {len(self.secret)}")

    def read_unit(self, words):
        number = words[1].read(number_of, UNITS_LIMIT - 1) if len(words) > 1 else None
        if number != len(self.shapes):
            raise words[min(1, len(words) - 1)].fault(f"the next unit is {len(self.shapes)}")
        fields = Fields(words[2:])
        given = {name: fields.take(name, shape_number, default, name) for name, default in UNIT.items()}
        fields.finish("unit")
        if given["blocks"] is None:
            raise words[0].fault("a unit wants blocks=")
        if given["quota"] is None:
            given["quota"] = given["blocks"]
        if given["quota"] > given["blocks"]:
            raise words[0].fault("the quota is more than the blocks")
        self.shapes.append(frames.Shape(**given))

    def begin_items(self, word):
        """The header, before the first item; there is none where bytes as they are stand first."""
        if self.machine is None:
            if not self.shapes:
                raise word.fault("a trace begins with its units, as in 'unit 0 blocks=100'")
            self.machine = frames.Machine(self.secret, self.shapes)
            self.header = frames.header_bytes(self.machine)
            self.walk = Walk(self.machine)

    # ---- items

    def raw_bytes(self, words):
        """Bytes as they are: behind them the plain replay is lost."""
        if len(words) != 2:
            raise words[0].fault("raw wants bytes behind it")
        if self.shapes:
            self.begin_items(words[0])
            self.to_walk.append(None)
        return words[1].read(values.data_of)

    def add(self, items):
        self.items += items
        self.to_walk += items

    def read_items(self, words):
        if moment := words[0].behind("@"):
            self.moment = moment.read(number_of, values.U64)
            words = words[1:]
        if not words:
            return
        if words[0].text == "pump":
            self.read_pumps(words)
            return
        initiator = words[0].behind("i")
        if not initiator:
            raise words[0].fault(f"{words[0].text} is no initiator as i1, no moment as @5, nor unit, secret, pump, raw")
        initiator = initiator.read(number_of, values.U32)
        if len(words) == 1:
            raise words[0].fault("what does it do? A command, or run")
        if words[1].text == "run":
            self.add([Run(initiator, self.moment)] * self.count(words[2:]))
        else:
            self.read_command(initiator, words[1:])

    def count(self, words):
        if len(words) > 1:
            raise words[1].fault("one number is enough")
        return words[0].read(number_of, COUNT_LIMIT, 1) if words else 1

    def read_pumps(self, words):
        fields = Fields([word for word in words[1:] if "=" in word.text])
        unit = fields.number("lun", 0, values.U16)
        fields.finish("pump")
        count = self.count([word for word in words[1:] if "=" not in word.text])
        self.add([Pump(unit, self.moment)] * count)

    def read_command(self, initiator, words):
        plain = [word for word in words if "=" not in word.text]
        go = plain.pop() if plain and plain[-1].text == "go" else None
        fields = Fields([word for word in words if "=" in word.text])
        if len(plain) != (0 if "cdb" in fields else 1):
            raise (plain or words)[-1].fault("a line has one command, or cdb=")
        command = plain[0].text if plain else None
        if command and command not in COMMANDS:
            raise plain[0].fault(f"there is no command {command}; the commands are {', '.join(sorted(COMMANDS))}")
        request = request_of(command, fields, self.machine)
        fields.finish(command or "cdb=")
        if len(request.out) > frames.DATA_LIMIT:
            raise words[0].fault(f"a data-out has at most {frames.DATA_LIMIT} bytes and not {len(request.out)}")
        self.add([Begin(initiator, self.moment, request)])
        if go:
            self.add_runs(initiator, go)

    def add_runs(self, initiator, go):
        """The Runs that a command needs, by the plain replay."""
        for item in self.to_walk:
            self.walk.play(item)
        self.to_walk = []
        if self.walk.is_lost:
            raise go.fault("the Runs are not known, since the replay ends before this, or here")
        run = Run(initiator, self.moment)
        while self.walk.waits(initiator):
            self.walk.play(run)
            self.items.append(run)


def shape_number(text, name):
    if name == "block_length" and text not in ("512", "4096"):
        raise ValueError("a block has 512 or 4096 bytes")
    least, most = LIMITS.get(name, (0, values.U32))
    return number_of(text, most, least)


def read_text(lines):
    """A text that was read, or a Fault."""
    reader = Reader()
    number = 0
    for number, line in enumerate(lines, 1):
        reader.line(number, line)
    if reader.shapes and reader.machine is None:
        reader.begin_items(None)
    elif reader.secret != SECRET and not reader.shapes:
        raise Fault(number, 1, "a trace wants a unit, as in 'unit 0 blocks=100'")
    return Text(reader.header, reader.lines)


# ---- bytes to text


def unit_line(number, shape):
    words = [f"unit {number} blocks={shape.blocks}"]
    known = UNIT | {"blocks": shape.blocks, "quota": shape.blocks}
    words += [f"{name}={getattr(shape, name)}" for name in UNIT if getattr(shape, name) != known[name]]
    return " ".join(words)


def repeated(items, at, item):
    """How many times an item stands from a place on. A Run and a Pump of the same numbers are equal as tuples."""
    end = at
    while end < len(items) and items[end] == item and type(items[end]) is type(item):
        end += 1
    return end - at


class Writer:
    """The lines of the items of a trace."""

    def __init__(self, machine):
        self.machine = machine
        self.walk = Walk(machine)
        self.moment = 0

    def lines(self, items):
        at = 0
        while at < len(items):
            item = items[at]
            moment = f"@{item.moment} " if item.moment != self.moment else ""
            self.moment = item.moment
            if isinstance(item, Begin):
                runs, go = self.runs(items, at)
                at += 1 + (runs if go else 0)
                yield f"{moment}i{item.initiator} {request_text(item.request, self.machine)}" + (" go" if go else "")
                if runs and not go:
                    at += runs
                    yield f"i{item.initiator} run" + (f" {runs}" if runs > 1 else "")
                continue
            count = min(repeated(items, at, item), COUNT_LIMIT)
            for _ in range(count):
                self.walk.play(item)
            at += count
            front = f"pump lun={item.unit}" if isinstance(item, Pump) else f"i{item.initiator} run"
            yield moment + front + (f" {count}" if count > 1 else "")

    def runs(self, items, at):
        """How many Runs of the same moment follow a Begin until it has its reply, and whether it then has it."""
        begin = items[at]
        self.walk.play(begin)
        run, count = Run(begin.initiator, begin.moment), 0
        most = repeated(items, at + 1, run)
        while count < most and self.walk.waits(begin.initiator):
            self.walk.play(run)
            count += 1
        return count, count > 0 and not self.walk.waits(begin.initiator)


def text_of(data):
    """The lines of a trace; what breaks the grammar is a line of bytes as they are."""
    try:
        machine, at = frames.read_header(data)
    except BadInput:
        return [f"raw {values.data_text(data)}"] if data else []
    lines = [] if machine.secret == SECRET else [f"secret {values.data_text(machine.secret)}"]
    lines += [unit_line(number, shape) for number, shape in enumerate(machine.shapes)]
    items, rest = [], []
    while at < len(data):
        try:
            item, at = frames.read_item(data, at)
        except BadInput:
            rest = [f"raw {values.data_text(data[at:])}"]
            break
        items.append(item)
    return lines + list(Writer(machine).lines(items)) + rest
