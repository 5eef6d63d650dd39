"""A whole trace: its items one after the other, and the replies.

At a Begin or a Run memory may be refused, which is a shortage: to a Begin its command is then BUSY at once; at a Run the
act may not be done (ACT), or it is done and the step behind it fails (STEP). The command then gives up.
"""

import collections
import struct

from copymgr_formats import cdbs, frames
from copymgr_formats.senses import BadInput, Conflict, NoMemory, RecordFull, Refused

from . import acts, commands
from .unit import Unit

TEXTS = {
    frames.TORN: "input ends inside the part at byte",
    frames.BAD_HEADER: "bad header at byte",
    frames.BAD_RECORD: "bad record at byte",
}
PUMP = "pump"
# where memory is refused at an item
BEGIN, ACT, STEP = "begin", "act", "step"

# the name of the command, and the bytes of the record
Reply = collections.namedtuple("Reply", "name bytes")


def name_of(request):
    try:
        return cdbs.decode(request.cdb).name
    except Refused:
        return "a CDB that is refused"


class Pending:
    """A command that waits for its next Run."""

    def __init__(self, machine, request, shortage=None):
        self.name = name_of(request)
        self.program = commands.command(machine, request)
        self.asked = None
        self.reply = frames.busy() if shortage else None
        if not shortage:
            self.go_on(self.program.send, None)

    def go_on(self, how, outcome):
        """By an answer that is sent, or by what is thrown: a refusal, or want of room or memory."""
        try:
            self.asked = how(outcome)
        except StopIteration as end:
            self.reply = frames.good(end.value)
        except Refused as refused:
            self.reply = frames.check(refused.sense)
        except Conflict:
            self.reply = frames.conflict()
        except RecordFull:
            self.reply = frames.full()
        except NoMemory:
            self.reply = frames.busy()

    def run(self, units, initiator, moment, shortage=None):
        if shortage != ACT:
            self.act(units, initiator, moment)
        if shortage:
            self.give_up()

    def act(self, units, initiator, moment):
        number, act = self.asked
        try:
            answer = units[number].act(initiator, moment, act)
        except (Refused, Conflict, RecordFull) as outcome:
            self.go_on(self.program.throw, outcome)
        else:
            self.go_on(self.program.send, answer)

    def give_up(self):
        """Memory is refused for what it asks, or for its reply."""
        if self.reply is None:
            self.go_on(self.program.throw, NoMemory())
        else:
            self.reply = frames.busy()


class Player:
    """How things stand between two items."""

    def __init__(self, machine, units=None):
        """With new units, or with these."""
        self.machine = machine
        self.units = units or [Unit(machine, number) for number in range(len(machine.shapes))]
        self.pending = {}
        self.replies = []

    def reply_if_done(self, initiator):
        command = self.pending[initiator]
        if command.reply is not None:
            del self.pending[initiator]
            self.replies.append(Reply(command.name, struct.pack(">I", initiator) + command.reply))

    def fits(self, item):
        """Whether the item may stand here."""
        if isinstance(item, frames.Begin):
            return item.initiator not in self.pending
        if isinstance(item, frames.Run):
            return item.initiator in self.pending
        return item.unit < len(self.units)

    def play(self, item, shortage=None):
        if isinstance(item, frames.Begin):
            self.pending[item.initiator] = Pending(self.machine, item.request, shortage)
            self.reply_if_done(item.initiator)
        elif isinstance(item, frames.Run):
            self.pending[item.initiator].run(self.units, item.initiator, item.moment, shortage)
            self.reply_if_done(item.initiator)
        else:
            self.pump(item)

    def pump(self, item):
        try:
            self.units[item.unit].act(PUMP, item.moment, acts.Pump())
        except RecordFull:
            pass


def played_items(data, shortages=None):
    """Plays a trace: its player and where the header ends, and then after each item the player and where it ends.
    Shortages are by the numbers of their items, the first of which is 1."""
    machine, at = frames.read_header(data)
    player = Player(machine)
    yield player, at
    for at in items_from(player, data, at, shortages):
        yield player, at


def items_from(player, data, at, shortages=None):
    """Plays the items from a place on, and gives after each where it ends."""
    shortages, number = shortages or {}, 0
    while at < len(data):
        item, end = frames.read_item(data, at)
        number += 1
        if not player.fits(item):
            raise BadInput(frames.BAD_RECORD, at)
        player.play(item, shortages.get(number))
        at = end
        yield at


def line_of(bad):
    """What the program says on standard error."""
    return f"copymgr: {TEXTS[bad.status]} {bad.place}\n"


def play(data, shortages=None):
    """The replies, the exit status, and the line on standard error."""
    player = None
    try:
        for player, _ in played_items(data, shortages):
            pass
    except BadInput as bad:
        return player.replies if player else [], bad.status, line_of(bad)
    return player.replies, frames.DONE, ""
