"""One connection that is served the commands of a worked trace, while memory is refused once; and a session of the same
commands over the standard streams.

The program ends with a report, or tells that it is out of memory and reports nothing. By its report the session may have
ended because memory was wanted outside a command. Either way the connection got a beginning of the replies. Else memory
was refused nowhere that shows, or at one command, at its beginning, at an act, or at the step behind one. The plain
replay does the commands with memory refused at each such place in turn, and the connection has to have got the replies
of one of these conversations, those behind a BUSY too, and the report to count what it did.
"""

import collections
import re
import socket
import struct
import subprocess

from copymgr_formats import frames
from replay.player import Player

from .replaying import Ended, OUT_OF_MEMORY, SECONDS, items_of, places_of

# what the connection got, the report, the exit status, and what was said on standard error
Served = collections.namedtuple("Served", "replies report status said")
# the replies, and for each command how many acts each unit had done before it, with its live tokens and mapped blocks
Conversation = collections.namedtuple("Conversation", "replies units")


class Nexus:
    """The connection, in the plain replay. It may be refused memory at one of the items that its commands are as a trace,
    which are counted from 1."""

    def __init__(self, machine, number=None, shortage=None):
        self.player, self.number, self.shortage, self.played = Player(machine), number, shortage, 0

    def play(self, item):
        self.played += 1
        self.player.play(item, self.shortage if self.played == self.number else None)

    def ask(self, request):
        self.play(frames.Begin(0, 0, request))
        while 0 in self.player.pending:
            self.play(frames.Run(0, 0))
        return self.player.replies[-1].bytes[4:]

    def state(self):
        return [(unit.entries, len(unit.live()), len(unit.held)) for unit in self.player.units]

    def conversation(self, requests):
        replies, units = [], [self.state()]
        for request in requests:
            replies.append(self.ask(request))
            units.append(self.state())
        return Conversation(replies, units)


def report_of(units, memory, commands):
    """The report on one session, where each unit was pumped once more in the end."""
    lines = ["sessions 1", "faults 0", f"memory {memory}", f"commands {commands}"]
    lines += [f"unit {at} steps {steps + 1} live {live} mapped {mapped}" for at, (steps, live, mapped) in enumerate(units)]
    return "".join(line + "\n" for line in [*lines, f"total {sum(unit[0] + 1 for unit in units)}"])


def got(link, size):
    data = b""
    while len(data) < size and (more := link.recv(size - len(data))):
        data += more
    return data


def reply_from(link):
    front = got(link, 6)
    return front + got(link, sum(struct.unpack(">BI", front[1:]))) if len(front) == 6 else front


def talked(address, requests):
    """What a connection gets that asks one request after the other, until it ends."""
    replies = b""
    try:
        with socket.create_connection(address, SECONDS) as link:
            for request in requests:
                link.sendall(frames.request_bytes(request))
                replies += reply_from(link)
    except ConnectionError:
        pass  # what was replied before is judged
    return replies


class Commands:
    """The commands of a trace, as one connection asks them, and the conversations that may come of them."""

    def __init__(self, trace):
        machine, end = frames.read_header(trace)
        self.header, items = trace[:end], items_of(trace)
        self.requests = [item.request for item in items if isinstance(item, frames.Begin)]
        self.ample = Nexus(machine).conversation(self.requests)
        self.short = [Nexus(machine, *place).conversation(self.requests) for place in places_of(items)]
        self.replies = b"".join(self.ample.replies)

    def kinds(self, told):
        """What kind of conversation each is, by what is told of it."""
        return {told(one): "BUSY" for one in self.short} | {told(self.ample): "all replies"}


class Serving:
    """`serve 127.0.0.1:0 1`, and a connection that asks the commands of a trace."""

    OF_PROGRAM = True

    def __init__(self, program, trace):
        self.program, self.commands = program, Commands(trace)
        self.kinds = self.commands.kinds(self.served)

    @staticmethod
    def served(conversation):
        report = report_of(conversation.units[-1], 0, len(conversation.replies))
        return Served(b"".join(conversation.replies), report, 0, "")

    def configure(self, program):
        try:
            program.stdin.write(self.commands.header)
            program.stdin.close()
        except BrokenPipeError:
            pass  # how it ended is judged
        program.stdin = None

    def run(self, environment):
        words, pipe = [self.program, "serve", "127.0.0.1:0", "1"], subprocess.PIPE
        # nothing is read ahead of what is asked for: behind the first line there may be another
        with subprocess.Popen(words, bufsize=0, stdin=pipe, stdout=pipe, stderr=pipe, env=environment) as program:
            try:
                self.configure(program)
                first = program.stderr.readline().decode()
                found = re.fullmatch("copymgr: serving at (.*):([0-9]+)\n", first)
                replies = talked((found[1], int(found[2])), self.commands.requests) if found else b""
                report, said = program.communicate(timeout=SECONDS)
            finally:
                program.kill()
        said = ("" if found else first) + said.decode(errors="replace")
        return Served(replies, report.decode(), program.returncode, said)

    def kind_of(self, served):
        """What kind of end it is; None where no single refusal brings it about."""
        is_beginning = self.commands.replies.startswith(served.replies)
        if served.status == OUT_OF_MEMORY and served.said == "copymgr: out of memory\n":
            return "status 3, a beginning" if is_beginning and not served.report else None
        if is_beginning and served in self.short_sessions(served.replies):
            return "status 0, a session out of memory"
        return f"status 0, {self.kinds[served]}" if served in self.kinds else None

    def short_sessions(self, replies):
        """How a session that ends for want of memory may be told of: the command behind the replies was done or not."""
        whole, left = 0, replies
        for reply in self.commands.ample.replies:
            if not left.startswith(reply):
                break
            whole, left = whole + 1, left[len(reply) :]
        units = self.commands.ample.units[whole : whole + 2]
        return [Served(replies, report_of(state, 1, whole), 0, "") for state in units]

    def is_ample(self, served):
        return served == self.served(self.commands.ample)

    @staticmethod
    def told(served):
        return f"status {served.status}, {served.said.strip()!r}, {len(served.replies)} bytes, report {served.report!r}"


class Session:
    """A session of session_bench over the standard streams: the same commands, and no report."""

    OF_PROGRAM = False

    def __init__(self, program, trace):
        self.commands = Commands(trace)
        self.words = [program, "serve", self.commands.header.hex(), "0", "0", "0"]
        self.kinds = self.commands.kinds(self.ended)

    @staticmethod
    def ended(conversation):
        return Ended(b"".join(conversation.replies), 0, "")

    def run(self, environment):
        data = b"".join(map(frames.request_bytes, self.commands.requests))
        how = {"capture_output": True, "env": environment, "timeout": SECONDS}
        done = subprocess.run(self.words, input=data, check=False, **how)
        return Ended(done.stdout, done.returncode, done.stderr.decode(errors="replace"))

    def kind_of(self, ended):
        """What kind of end it is; None where no single refusal brings it about."""
        if ended.status == 6 and ended.said.startswith("session_bench: "):
            return None if ended.output else "status 6, no session"
        if ended.status == OUT_OF_MEMORY and not ended.said:
            return "status 3, a beginning" if self.commands.replies.startswith(ended.output) else None
        return f"status 0, {self.kinds[ended]}" if ended in self.kinds else None

    def is_ample(self, ended):
        return ended == self.ended(self.commands.ample)

    @staticmethod
    def told(ended):
        return f"status {ended.status}, {ended.said.strip()!r}, {len(ended.output)} bytes"
