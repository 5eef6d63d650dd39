"""What may go wrong."""

from .wire import senses


class CommandError(Exception):
    """A command had another status than GOOD."""


class CheckCondition(CommandError):
    """A command was refused, and the sense says why: a key, an additional sense code and its qualifier."""

    def __init__(self, sense):
        super().__init__(senses.sense_text(sense))
        self.sense = sense

    @property
    def key(self):
        return self.sense[0]

    @property
    def code(self):
        return self.sense[1:]


class Busy(CommandError):
    """Memory was wanted for the command. What it had done stays; it may be sent again."""

    def __init__(self):
        super().__init__("BUSY")


class ReservationConflict(CommandError):
    """A registration or a reservation of the unit stands against the command."""

    def __init__(self):
        super().__init__("RESERVATION CONFLICT")


class TaskSetFull(CommandError):
    """The unit's record has no room for the command."""

    def __init__(self):
        super().__init__("TASK SET FULL")


class OperationEnded(Exception):
    """An operation that was waited for was terminated before it was done."""

    def __init__(self, operation):
        super().__init__(f"terminated after {operation.count} blocks")
        self.operation = operation


class Ended(Exception):
    """The program or the connection ended before a reply."""
