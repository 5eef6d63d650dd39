"""What is told of a disk and of an operation."""

import collections

from .errors import CheckCondition, OperationEnded
from .wire import State, returned

Inquiry = collections.namedtuple("Inquiry", "vendor product revision")


class Operation(collections.namedtuple("Operation", "state count sense token")):
    """An operation with tokens: its state, its blocks so far, its sense where it failed, and the token that it made."""

    @property
    def is_running(self):
        return self.state in (State.IN_FOREGROUND, State.IN_BACKGROUND)

    def check(self):
        """Raises an error where it ended otherwise than done."""
        if self.state == State.FAILED:
            raise CheckCondition(self.sense)
        if self.state == State.TERMINATED:
            raise OperationEnded(self)


class CopyStatus(collections.namedtuple("CopyStatus", "state segments bytes")):
    """An EXTENDED COPY: its state, where one that was terminated is told as failed; whole segments; bytes moved."""

    STATES = {0x00: State.IN_FOREGROUND, 0x01: State.DONE, 0x02: State.FAILED}


def inquiry_of(data):
    texts = [data[first:end].decode("ascii").strip() for first, end in ((8, 16), (16, 32), (32, 36))]
    return Inquiry(*texts)


def operation_of(data):
    told = returned.operation_of(data)
    return Operation(told.state, told.count, told.sense, told.token)


def copy_status_of(data):
    told = returned.copy_status_of(data)
    return CopyStatus(CopyStatus.STATES[told.code], told.segments, told.bytes)
