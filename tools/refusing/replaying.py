"""A worked trace that is replayed, and the generated trace, while memory is refused once.

Where the program tells that it is out of memory, it wrote a beginning of the replies. Else memory was refused nowhere
that shows, or at one place: at the beginning of a command, at an act, or at the step behind one. The plain replay plays
the trace with memory refused at each such place in turn, and the program has to have ended as one of these ends, with
the same replies, those behind a BUSY too.
"""

import collections
import subprocess

from copymgr_formats import frames
from copymgr_formats.senses import BadInput
from replay import generated
from replay.player import ACT, BEGIN, STEP, line_of, play, played_items

SECONDS = 60
OUT_OF_MEMORY = 3
# what a run wrote, its exit status, and what it said on standard error
Ended = collections.namedtuple("Ended", "output status said")


def items_of(trace):
    """The items that are played where memory is never refused."""
    items, before = [], None
    try:
        for _, at in played_items(trace):
            if before is not None:
                items.append(frames.read_item(trace, before)[0])
            before = at
    except BadInput:
        pass
    return items


def places_of(items):
    """Where memory may be refused: the number of each Begin and Run, counted from 1, and how."""
    for number, item in enumerate(items, 1):
        if isinstance(item, frames.Begin):
            yield number, BEGIN
        elif isinstance(item, frames.Run):
            yield number, ACT
            yield number, STEP


def has_busy(replies):
    return any(reply.bytes[4] == frames.BUSY for reply in replies)


class Replay:
    """A worked trace."""

    OF_PROGRAM = False

    def __init__(self, program, trace):
        self.words, self.input, self.trace = [program, "replay"], trace, trace
        self.ample, kind = self.plain({})
        self.ends = {self.ample: kind}
        for number, shortage in places_of(items_of(trace)):
            end, kind = self.plain({number: shortage})
            self.ends.setdefault(end, kind)

    def plain(self, shortages):
        """How the plain replay ends, and what kind of end that is."""
        replies, status, said = play(self.trace, shortages)
        kind = "BUSY" if has_busy(replies) else "gave up" if shortages else "all replies"
        return Ended(b"".join(reply.bytes for reply in replies), status, said), f"status {status}, {kind}"

    def run(self, environment):
        how = {"capture_output": True, "env": environment, "timeout": SECONDS}
        done = subprocess.run(self.words, input=self.input, check=False, **how)
        return Ended(done.stdout, done.returncode, done.stderr.decode(errors="replace"))

    def kind_of(self, ended):
        """What kind of end it is; None where no single refusal brings it about."""
        if ended.status == OUT_OF_MEMORY and ended.said == "copymgr: out of memory\n":
            return "status 3, a beginning" if self.is_beginning(ended.output) else None
        return self.ends.get(ended)

    def is_beginning(self, output):
        return self.ample.output.startswith(output)

    def is_ample(self, ended):
        return ended == self.ample

    @staticmethod
    def told(ended):
        return f"status {ended.status}, {ended.said.strip()!r}, {len(ended.output)} bytes"


class Generated(Replay):
    """The generated trace of 8 rounds, whose counts are written where it was played to its end, and nothing else is."""

    def __init__(self, program):
        super().__init__(program, generated.trace(8))
        self.words, self.input = [program, "gen", "8"], b""

    def plain(self, shortages):
        try:
            counts = generated.summary(self.trace, shortages)
        except BadInput as bad:
            return Ended(b"", bad.status, line_of(bad)), f"status {bad.status}, gave up"
        kind = "all replies" if "busy 0\n" in counts else "BUSY"
        return Ended(counts.encode(), frames.DONE, ""), f"status 0, {kind}"

    def is_beginning(self, output):
        return not output
