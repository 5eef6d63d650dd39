"""A program that serves, started here."""

import collections
import os
import re
import subprocess
import tempfile
import threading

from .errors import Ended
from .wire import PLAIN_MANAGE, PLAIN_SERVE, PROGRAM, frames

# `kept` are the entries that were not written to a folder, where there was one
Report = collections.namedtuple("Report", "sessions faults memory commands units total kept")
UnitReport = collections.namedtuple("UnitReport", "steps live mapped")

USAGE = 6


def knows(program, *words):
    """Whether a program knows words of serving: it then looks at the configuration, of which there is none."""
    try:
        done = subprocess.run([str(program), *words], stdin=subprocess.DEVNULL, capture_output=True, check=False)
    except OSError:
        return False
    return done.returncode != USAGE


def can_serve(program):
    return knows(program, "serve", "127.0.0.1:0", "1")


def can_store(program):
    return knows(program, "store", "127.0.0.1:0", "1", ".")


def can_manage(program):
    return knows(program, "manage", "127.0.0.1:0", "/no-such-file")


def default_manager():
    """The words by which the proved program manages, where it was built and can, or else the plain manager."""
    return [str(PROGRAM), "manage"] if can_manage(PROGRAM) else [str(PLAIN_MANAGE)]


def default_server():
    """The words by which the proved program serves, where it was built and can, or else the plain server."""
    return [str(PROGRAM), "serve"] if can_serve(PROGRAM) else [str(PLAIN_SERVE)]


class Server:
    """A program that serves units of these shapes, from new ones on, to so many connections: `WORDS ADDRESS SESSIONS`,
    and behind them a folder for the records of the units, where there is one.

    Its `address` is where it serves. It ends when all connections have ended, and then gives its report.
    """

    def __init__(self, shapes, sessions, words=None, host="127.0.0.1", folder=None):
        pipe = subprocess.PIPE
        words = [*(words or default_server()), f"{host}:0", str(sessions), *([folder] if folder else [])]
        # without buffers, so that behind the line with the address nothing of standard error is read ahead
        self.program = subprocess.Popen(words, bufsize=0, stdin=pipe, stdout=pipe, stderr=pipe)
        try:
            self.program.stdin.write(frames.header_bytes(frames.Machine(frames.SECRET, list(shapes))))
            self.program.stdin.close()
        except BrokenPipeError:
            pass  # why it ended is told below
        self.program.stdin = None
        self.address = self.told_address()

    def told_address(self):
        """Where it serves. Lines before that one say what is to be known of its folder."""
        said = ""
        while line := self.program.stderr.readline().decode(errors="replace"):
            if found := re.fullmatch(r"copymgr: serving at (.*):([0-9]+)\n", line):
                return found[1].strip("[]"), int(found[2])
            said += line
        raise Ended(f"the server ended with status {self.program.wait()}: {said.strip()}")

    def report(self, seconds=None):
        """Waits for its end, at most so long, and gives what it reports."""
        output, said = self.program.communicate(timeout=seconds)
        if self.program.returncode:
            why = said.decode(errors="replace").strip()
            raise Ended(f"the server ended with status {self.program.returncode}: {why}")
        return report_of(output.decode())

    def close(self):
        """Ends the program, also where connections are left."""
        self.program.kill()
        self.program.wait()
        self.program.stdout.close()
        self.program.stderr.close()

    def __enter__(self):
        return self

    def __exit__(self, *_):
        self.close()


class Manager(Server):
    """A program that serves units of these shapes, which forget, until it is asked to end: `WORDS ADDRESS FILE`.

    Its `address` is where it serves. What it says on standard error is read all the time, since a full pipe would stop it;
    the last lines are kept.
    """

    def __init__(self, shapes, words=None, host="127.0.0.1"):
        pipe = subprocess.PIPE
        with tempfile.NamedTemporaryFile(prefix="units-", delete=False) as file:
            file.write(frames.header_bytes(frames.Machine(frames.SECRET, list(shapes))))
        try:
            words = [*(words or default_manager()), f"{host}:0", file.name]
            self.program = subprocess.Popen(words, bufsize=0, stdin=pipe, stdout=pipe, stderr=pipe)
            self.address = self.told_address()
        finally:
            os.unlink(file.name)
        self.errors, self.program.stderr = self.program.stderr, None
        self.said = collections.deque(maxlen=100)
        self.reader = threading.Thread(target=self.read_errors, daemon=True)
        self.reader.start()

    def read_errors(self):
        while line := self.errors.readline():
            self.said.append(line.decode(errors="replace"))

    def ask(self, request):
        """The lines of the answer to a request that does not end it, but for the first, which repeats the request, and
        the empty one at the end."""
        self.program.stdin.write(request.encode() + b"\n")
        lines = []
        while (line := self.program.stdout.readline()) != b"\n":
            if not line:
                raise Ended("the manager ended: " + "".join(self.said).strip())
            lines.append(line.decode().rstrip("\n"))
        return lines[1:]

    def report(self, seconds=None):
        """Asks for its end, waits for it, at most so long, and gives what it reports."""
        output, _ = self.program.communicate(b"end\n", timeout=seconds)
        if self.program.returncode:
            self.reader.join(seconds)
            why = "".join(self.said).strip()
            raise Ended(f"the manager ended with status {self.program.returncode}: {why}")
        return report_of(output.decode().rpartition("ended\n")[2])

    def close(self):
        """Ends the program at once."""
        self.program.kill()
        self.program.wait()
        self.reader.join()
        for stream in self.program.stdin, self.program.stdout, self.errors:
            stream.close()


def report_of(text):
    """The numbers of a report."""
    counts, units = {}, []
    for line in text.splitlines():
        if line.startswith("unit "):
            units.append(UnitReport(*map(int, line.split()[3::2])))
        else:
            name, number = line.split()
            counts[name] = int(number)
    names = ("sessions", "faults", "memory", "commands", "total")
    return Report(units=units, kept=counts.get("kept"), **{name: counts[name] for name in names})
