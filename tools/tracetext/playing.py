"""A trace that is played: replies beside the lines that brought them, and acts."""

import collections
import itertools
import subprocess

from copymgr_formats import frames
from copymgr_formats.replies import INDENT, counted, records_of, reply_lines
from copymgr_formats.senses import BadInput, Conflict, RecordFull, Refused, sense_text
from replay import acts
from replay.player import line_of, played_items

from .traces import bytes_of

# how a replay ended: the bytes of its replies, its exit status, and what it said on standard error
Ending = collections.namedtuple("Ending", "output status said")
LINE_LIMIT = 160


class Played:
    """A text that the plain replay played: its replies and acts, and how many of each there were after each line."""

    def __init__(self, text):
        self.machine = None
        self.replies, self.acts = [], []
        self.after = [(0, 0)] * len(text.lines)
        self.status, self.said = frames.DONE, ""
        try:
            self.play(text)
        except BadInput as bad:
            self.status, self.said = bad.status, line_of(bad)
        self.after = list(itertools.accumulate(self.after, max))

    def play(self, text):
        ends = list(itertools.accumulate((len(line.bytes) for line in text.lines), initial=len(text.header)))[1:]
        steps = played_items(bytes_of(text))
        player, _ = next(steps)
        self.machine, self.replies = player.machine, player.replies
        player.units = [Watched(unit, self.acts) for unit in player.units]
        at = 0
        for _, end in steps:
            while ends[at] < end:
                at += 1
            self.after[at] = (len(self.replies), len(self.acts))

    def by_line(self, text, values, kind):
        """Each line of the text with those of the values that it brought: of replies at kind 0, of acts at kind 1."""
        begin = 0
        for line, after in zip(text.lines, self.after):
            yield line, values[begin : after[kind]]
            begin = after[kind]

    def ending(self):
        return Ending(b"".join(reply.bytes for reply in self.replies), self.status, self.said)


def run(program, data):
    """The ending of a program that replays a trace."""
    done = subprocess.run([*program, "replay"], input=data, capture_output=True, check=False)
    return Ending(done.stdout, done.returncode, done.stderr.decode(errors="replace"))


def shortened(line):
    return line if len(line) <= LINE_LIMIT else line[: LINE_LIMIT - 4] + " .."


def session(text, program=None):
    """The lines of a text with the replies to each, and whether all was played as the plain replay plays it."""
    played = Played(text)
    plain = played.ending()
    ending = run(program, bytes_of(text)) if program else plain
    records = records_of(ending.output)
    names = [reply.name for reply in played.replies[: len(records)]]
    named = list(zip(records, names + [None] * (len(records) - len(names))))
    lines = []
    for line, replies in played.by_line(text, named, 0):
        lines.append(shortened(line.text))
        for record, name in replies:
            lines += [INDENT + reply for reply in reply_lines(record, name, played.machine)]
    for record, name in named[len(played.replies) :]:
        lines += reply_lines(record, name)
    lines += ending_lines(ending)
    if (ending.output, ending.status) != (plain.output, plain.status):
        return lines + ["these are not the replies of the plain replay"], False
    return lines, ending.status == frames.DONE


def ending_lines(ending):
    return [] if ending.status == frames.DONE else [f"ended with status {ending.status}: {ending.said.strip()}"]


# ---- acts


class Watched:
    """A unit whose acts are noted, each as a line."""

    def __init__(self, unit, acts_so_far):
        self.unit = unit
        self.acts = acts_so_far

    def __getattr__(self, name):
        return getattr(self.unit, name)

    def act(self, actor, moment, act):
        try:
            answer = self.unit.act(actor, moment, act)
            self.note(act, answer_text(act, answer))
            return answer
        except Refused as refused:
            self.note(act, sense_text(refused.sense))
            raise
        except Conflict:
            self.note(act, "RESERVATION CONFLICT")
            raise
        except RecordFull:
            self.note(act, "the record is full")
            raise

    def note(self, act, answer):
        front = f"unit {self.unit.number} at {self.unit.moment}: {act_text(act)}"
        self.acts.append(f"{front}: {answer}; {room_text(self.unit)}")


def act_text(act):
    """The act, with the lengths of its blocks and texts in the place of their bytes."""
    words = [type(act).__name__]
    for name, value in act._asdict().items():
        if name in ("blocks", "rod"):
            words.append(f"{name}={len(value)}")
        elif name == "ranges":
            words.append("ranges=" + (",".join(f"{lba}+{count}" for lba, count in value) or "none"))
        elif name == "result":
            words.append(f"state={value.state:02X}h segments={value.segments} bytes={value.bytes}")
        elif name != "text":
            words.append(f"{name}={int(value)}")
    return " ".join(words)


def answer_text(act, answer):
    if isinstance(act, (acts.Read, acts.Capture, acts.Redeem)):
        held = sum(1 for data in answer if data is not None)
        return f"{counted(len(answer), 'block')}, {held} of them mapped"
    if isinstance(act, acts.MapStatus):
        return ", ".join(f"{lba}+{count} {'mapped' if kind else 'deallocated'}" for lba, count, kind in answer)
    if isinstance(act, acts.Recall):
        return f"state {answer.state:02X}h, {counted(answer.segments, 'segment')}, {counted(answer.bytes, 'byte')}"
    if isinstance(act, acts.Pump) and answer is None:
        return "nothing to do"
    if isinstance(act, acts.PrKeys):
        return f"generation {answer[0]}, {counted(len(answer[1]), 'key')}"
    if isinstance(act, acts.PrHolder):
        held = f"key {answer[1][0]:x}h, type {answer[1][1]}h" if answer[1] else "no reservation"
        return f"generation {answer[0]}, {held}"
    if isinstance(act, (acts.Start, acts.Advance, acts.Pump, acts.Report)):
        return f"state {answer.state:02X}h, {counted(answer.count, 'block')}"
    return "done"


def room_text(unit):
    """What the record has room for, and the live tokens with the last moment at which each may be used."""
    entries, payload = unit.shape.entries - unit.entries - unit.reserved(), unit.shape.payload - unit.payload
    live = [
        f"u{unit.number}/{serial}/{len(token.rod)} up to {token.last_use + token.timeout}"
        for serial, token in enumerate(unit.tokens)
        if token.fate is None
    ]
    return f"room {entries} entries, {payload} bytes; tokens {', '.join(live) or 'none'}"


def act_lines(text):
    """Each line, and behind it the acts that it brought, what each was answered, and what its unit then has."""
    played = Played(text)
    lines = []
    for line, noted in played.by_line(text, played.acts, 1):
        lines += [shortened(line.text)] + [INDENT + note for note in noted]
    return lines + ending_lines(played)
