"""A client of copymgr: disks whose blocks are read, written, unmapped and copied, by tokens and by segments.

    >>> from copymgr import Disk, Replay, Shape
    >>> with Replay([Shape(blocks=1000), Shape(blocks=1000)]) as host:
    ...     source, target = Disk(host, 0), Disk(host, 1)
    ...     source.write(5, b"copymgr!" * 64)
    ...     source.copy_to(target, 5, 9, 1)
    ...     target.read(9, 1)[:8]
    b'copymgr!'

A host executes commands: `Replay` starts a program that replays a trace and feeds it command by command, `Connection`
speaks to one that serves, and `Server` starts such a one. A command that is refused raises `CheckCondition` with its
sense. It wants Python alone; the formats are those of tools/replay beside it. The files, from the bottom up:

    wire.py      where the formats come from
    errors.py    what may go wrong
    hosts.py     the program that replays, and the connection
    server.py    the program that serves
    status.py    what is told of a disk and of an operation
    plans.py     the plan of a copy
    disk.py      a disk
    command.py   the command cmgr
"""

from .disk import Disk
from .errors import Busy, CheckCondition, CommandError, Ended, OperationEnded, ReservationConflict, TaskSetFull
from .hosts import Connection, Replay, Shape
from .server import Report, Server
from .status import CopyStatus, Inquiry, Operation
from .wire import Capacity, Reservation, Run, State

__all__ = [
    "Busy", "Capacity", "CheckCondition", "CommandError", "Connection", "CopyStatus", "Disk", "Ended", "Inquiry",
    "Operation", "OperationEnded", "Replay", "Report", "Reservation", "ReservationConflict", "Run", "Server", "Shape",
    "State", "TaskSetFull",
]
