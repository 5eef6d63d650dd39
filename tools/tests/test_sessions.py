"""Sessions of one connection: the worked ones that the program's tests have, and random ones."""

import os
import random
import re
import unittest

from copymgr_formats import frames
from replay import player
from replay.sessions import Session
from replay.traces import STYLES

from . import support

SESSIONS = support.tool("random-sessions")
ROWS = support.tool("row")
TABLE = support.TOP / "crates/copymgr/src/rows/sessions.rt"

# the proved program: another one may be named in the environment
PROGRAM = os.environ.get("SESSION_BENCH", str(support.TOP / "crates/session_bench/out/session_bench"))
NO_PROGRAM = None if os.access(PROGRAM, os.X_OK) else f"no program at {PROGRAM}: the plain replay alone was asked"
COMMANDS = {
    "test unit ready", "request sense", "inquiry", "read", "write", "read capacity 10", "read capacity 16", "unmap",
    "get lba status", "report luns", "receive copy operating parameters", "populate token", "write using token",
    "copy operation abort", "receive rod token information", "receive copy status 4", "extended copy",
    "receive copy status 1",
}


def read_requests(data):
    """The requests that the bytes of a connection spell, and the bytes behind the last whole one."""
    requests = []
    while len(data) >= 4 and len(data) >= (end := 22 + int.from_bytes(data[:4], "big")):
        requests.append(frames.Request(int.from_bytes(data[4:6], "big"), data[6:22], data[22:end]))
        data = data[end:]
    return requests, data


def served(machine, requests):
    """The replies to the requests of a nexus at moment 0, as a connection has them, with the commands' names."""
    play = player.Player(machine)
    for request in requests:
        play.play(frames.Begin(1, 0, request))
        while 1 in play.pending:
            play.play(frames.Run(1, 0))
    return [(reply.name, reply.bytes[4:]) for reply in play.replies]


def worked():
    """The header of the worked sessions, and of each its name, its requests and its replies."""
    source = TABLE.read_text(encoding="utf-8")
    header = bytes.fromhex(ROWS.constants(source)["TWO_UNITS"])
    found = re.findall(rf"name: {ROWS.TEXT},\s*requests: {ROWS.TEXT},\s*replies: {ROWS.TEXT},", source)
    return header, [(name, ROWS.bytes_of(requests, {}), ROWS.bytes_of(replies, {})) for name, requests, replies in found]


class Worked(unittest.TestCase):
    def test_the_plain_replay_replies_so(self):
        header, sessions = worked()
        self.assertEqual(len(sessions), 5)
        good = set()
        for name, data, replies in sessions:
            with self.subTest(name):
                requests, rest = read_requests(data)
                told = served(frames.read_header(header)[0], requests)
                self.assertEqual((b"".join(reply for _, reply in told), rest), (replies, b""))
                good |= {name for name, reply in told if reply[0] == frames.GOOD}
        self.assertEqual(good, COMMANDS)


class Random(unittest.TestCase):
    def sessions(self, count):
        for number in range(count):
            rng = random.Random(f"tests {number}")
            yield number, rng, Session(rng, list(STYLES)[number % 3])

    def test_the_trace_of_a_session_has_its_replies(self):
        for number, _, session in self.sessions(6):
            with self.subTest(number):
                replies, status, _ = player.play(bytes(session.trace))
                self.assertEqual(([reply.bytes[4:] for reply in replies], status), (session.replies, frames.DONE))
                requests, rest = read_requests(session.bytes)
                self.assertEqual((requests, rest), (session.requests, session.rest))

    @unittest.skipIf(NO_PROGRAM, NO_PROGRAM)
    def test_the_program_replies_so(self):
        for number, rng, session in self.sessions(30):
            for way in SESSIONS.WAYS:
                with self.subTest(number=number, way=way):
                    self.assertIsNone(SESSIONS.fault_of(session, PROGRAM, rng, way))

    @unittest.skipIf(NO_PROGRAM, NO_PROGRAM)
    def test_a_difference_is_told(self):
        _, rng, session = next(self.sessions(1))
        session.player.replies[-1] = session.player.replies[-1]._replace(bytes=b"other bytes")
        self.assertIn("differs from its byte", SESSIONS.fault_of(session, PROGRAM, rng, "from a file"))
