"""What the tests of the client have in common: hosts of each kind."""

import os

from copymgr import Connection, Ended, Replay, Server, Shape
from copymgr.server import can_serve
from copymgr.wire import PLAIN_REPLAY, PLAIN_SERVE, PROGRAM

PROGRAM = os.environ.get("COPYMGR", str(PROGRAM))
NO_PROGRAM = None if os.access(PROGRAM, os.X_OK) else f"no program at {PROGRAM}: the plain replay alone was asked"
PROGRAM_SERVER = [PROGRAM, "serve"] if can_serve(PROGRAM) else None
NO_SERVER = f"no program that serves at {PROGRAM}: the plain server alone was asked"
SHAPES = [Shape(10_000), Shape(10_000), Shape(500, 4096), Shape(10_000, quota=1500), Shape(100, entries=4)]


def server_for(test, words, sessions):
    """A server of the shapes that ends with the test, which is skipped where there are no sockets."""
    if not words:
        test.skipTest(NO_SERVER)
    try:
        server = Server(SHAPES, sessions, words)
    except Ended as error:
        test.skipTest(f"no sockets here: {error}")
    test.addCleanup(server.close)
    return server


class PlainHost:
    """A host of the plain replay."""

    def host(self):
        host = Replay(SHAPES, [str(PLAIN_REPLAY)])
        self.addCleanup(host.close)
        return host


class ProgramHost:
    """A host of the proved program."""

    def host(self):
        if NO_PROGRAM:
            self.skipTest(NO_PROGRAM)
        host = Replay(SHAPES, [PROGRAM])
        self.addCleanup(host.close)
        return host


class PlainServedHost:
    """A connection to the plain server."""

    SERVER = [str(PLAIN_SERVE)]

    def host(self):
        host = Connection(server_for(self, self.SERVER, 1).address, timeout=60)
        host.PAUSE = 0.001
        self.addCleanup(host.close)
        return host


class ProgramServedHost(PlainServedHost):
    """A connection to the proved program."""

    SERVER = PROGRAM_SERVER
