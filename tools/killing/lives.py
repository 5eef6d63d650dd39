"""Units that live on through kills: each life is served, loaded, killed and judged."""

import collections
import os
import random
import signal
import subprocess
import threading
import time

from copymgr import Ended, Server, Shape
from copymgr_formats import frames
from histories.following import Differs, noted_units, unfolded
from replay import journals
from replay.resuming import done_again, next_nexus

from . import conversations, following, losing, talking

# Moves of some pieces, and few blocks. What may run at once has room in each record.
SHAPES = [
    Shape(5000, quota=2500, entries=400, payload=20_000), Shape(3000, entries=400, payload=100_000),
    Shape(40, 4096, quota=25, entries=400, payload=80_000), Shape(60, entries=400, payload=20_000),
]
MACHINE = frames.Machine(frames.SECRET, SHAPES)
CONNECTIONS = 4
PATIENCE = 120
# of a kill: seconds from the start of the program or of the load, or the number of a call; or calls that fail in place
# of a kill
Kill = collections.namedtuple("Kill", "how at")
# the first call that may fail: before it journals are opened
OPENED = 40
# what is counted over all lives
COUNTS = ("entries", "replies", "acknowledged", "ended", "open", "more", "unsynced", "failing", "full")


def some_kill(rng, is_power):
    """Mostly in the midst of the load; sometimes while journals are made or read, or none, but a disk that fails."""
    how = rng.choice(["load"] * 6 + ["start"] + (["call"] * 5 + ["fail"]) * is_power)
    if how == "start":
        return Kill(how, rng.uniform(0, 0.1))
    if how == "call":
        return Kill(how, int(10 ** rng.uniform(0, 2.7)))
    if how == "fail":
        first = rng.randint(OPENED, OPENED + 100)
        return Kill(how, f"{first}:{first + rng.choice([0, 1, 2, rng.randint(3, 40)])}")
    return Kill(how, rng.choice([rng.uniform(0, 0.05), rng.uniform(0, 0.6)]))


def failing_calls(kill):
    """How many calls fail at most."""
    first, last = map(int, kill.at.split(":"))
    return last - first + 1


class Store(Server):
    """A program that stores. Some seconds from its start on, or some calls, it may be killed."""

    def __init__(self, words, folder, kill=None, environment=()):
        self.kill_at_start = kill.at if kill and kill.how == "start" else None
        words = ["env", *(f"{name}={value}" for name, value in environment), *words]
        super().__init__(SHAPES, CONNECTIONS, words, folder=folder)

    def told_address(self):
        if self.kill_at_start is not None:
            threading.Timer(self.kill_at_start, self.program.kill).start()
        return super().told_address()

    def end(self):
        """Its exit status, and what it said, when it was killed; or it is killed now."""
        self.program.kill()
        said = self.program.stderr.read().decode(errors="replace").strip()
        return self.program.wait(), said


class Lives:
    """The units of one folder."""

    def __init__(self, words, folder, seed, library=None):
        """Where there is a library, what was not synced may be lost when the program is killed."""
        self.words, self.folder, self.library = words, os.path.join(folder, "journals"), library
        self.notes = os.path.join(folder, "notes")
        os.mkdir(self.folder)
        os.mkdir(self.notes)
        self.rng = random.Random(seed)
        self.units = noted_units(unfolded(MACHINE))
        self.records = [[] for _ in SHAPES]
        self.data = [b""] * len(SHAPES)
        self.texts = []
        self.counts = collections.Counter()

    # ---- one life

    def environment(self, kill):
        if self.library is None:
            return []
        names = {"call": "LOSE_KILL", "fail": "LOSE_FAIL"}
        more = [(names[kill.how], kill.at)] if kill and kill.how in names else []
        return [("LD_PRELOAD", self.library), ("LOSE_NOTES", self.notes), ("LOSE_SYNCS", "none"), *more]

    def live(self, kill):
        """One life, up to its kill; or Differs."""
        if kill.how == "fail":
            self.end_well(kill)
            self.counts["failing"] += 1
            return
        talkers = []
        try:
            with Store(self.words, self.folder, kill, self.environment(kill)) as server:
                talkers = self.load(server, kill)
                status, said = server.end()
        except Ended as ended:
            status, said = (-signal.SIGKILL, "") if f"status {-signal.SIGKILL}:" in str(ended) else (None, str(ended))
        if status != -signal.SIGKILL:
            raise Differs(f"the program ended with status {status}: {said}")
        if self.library:
            self.cut_power()
        self.judge(talkers)

    def load(self, server, kill):
        """The connections, when all of them are cut."""
        rngs = [random.Random(self.rng.random()) for _ in range(CONNECTIONS)]
        begin = time.monotonic()
        talkers = talking.connected(server.address, MACHINE, rngs, self.texts)
        threads = talking.talk(talkers)
        if kill.how == "load":
            time.sleep(max(0, begin + kill.at - time.monotonic()))
            server.program.kill()
        for thread in threads:
            thread.join(PATIENCE)
            if thread.is_alive():
                server.program.kill()
        for talker in talkers:
            talker.close()
        return talkers

    def cut_power(self):
        """Each file holds what a power cut may have left."""
        for unit in range(len(SHAPES)):
            path = journals.path_of(self.folder, unit)
            notes = journals.path_of(self.notes, unit)
            writes = losing.writes_in(journals.read_file(notes))
            self.counts["unsynced"] += len(writes)
            if writes:
                data = losing.left(self.rng, journals.read_file(path), writes)
                with open(path, "wb") as file:
                    file.write(data)
            if os.path.exists(notes):
                os.remove(notes)

    # ---- what it left

    def judge(self, talkers, kill=None):
        try:
            return self.judged(talkers, kill)
        except Differs:
            self.keep(talkers)
            raise

    def keep(self, talkers):
        """What each connection asked and what came, beside the journals, so that a failure can be looked into."""
        for place, talker in enumerate(talkers):
            asked = b"".join(map(frames.request_bytes, talker.requests))
            for name, data in ((f"requests-{place}", asked), (f"replies-{place}", bytes(talker.source.bytes))):
                with open(os.path.join(os.path.dirname(self.folder), name), "wb") as file:
                    file.write(data)

    def judged(self, talkers, kill):
        first = next_nexus([[record.entry for record in of_unit] for of_unit in self.records])
        added = self.read()
        found = self.followed(talkers, first, added, kill)
        acknowledged = following.judge_acknowledged(talkers, first, added)
        replies = sum(len(talker.replies) for talker in talkers)
        self.counts.update(
            entries=sum(map(len, added)), replies=replies, acknowledged=acknowledged, ended=found.ended,
            open=len(found.player.pending), more=found.replied() - replies,
        )
        found.forget()
        return found

    def followed(self, talkers, first, added, kill):
        """The entries of a life, by which its replies are judged. Only while calls fail a record may be full."""
        if kill and any(frames.FULL in talker.statuses for talker in talkers):
            self.counts["full"] += 1
            return conversations.judged(MACHINE, talkers, self.units, first, added, failing_calls(kill))
        found = following.followed(MACHINE, talkers, self.units, first, added)
        following.judge_replies(found, talkers, first)
        return found

    def read(self):
        """What the journals have more than before; all else has to stand there as it did."""
        added = []
        for unit in range(len(SHAPES)):
            data = journals.read_file(journals.path_of(self.folder, unit))
            try:
                added.append(self.read_one(unit, data))
            except journals.BadJournal as bad:
                raise Differs(str(bad)) from None
            self.records[unit] += added[-1]
            self.data[unit] = data
        return added

    def read_one(self, unit, data):
        known = self.records[unit]
        if not known:
            return journals.opened(data, MACHINE, unit)
        gate = known[-1].gate
        if data[:gate] != self.data[unit][:gate] or len(data) <= gate:
            raise Differs(f"the journal of unit {unit} has not all that it had before this life")
        return journals.records_from(data, gate, MACHINE, unit, known[-1].entry.stamp)

    # ---- the last life, which is not killed

    def end_well(self, kill=None, commands=20):
        """Serves once more, to the end; the report has to be that of the journals, which have all entries. So they have
        where some calls failed, but not the last ones."""
        rngs = [random.Random(self.rng.random()) for _ in range(CONNECTIONS)]
        try:
            with Store(self.words, self.folder, None, self.environment(kill)) as server:
                talkers = talking.connected(server.address, MACHINE, rngs, self.texts)
                for thread in talking.talk(talkers, commands):
                    thread.join()
                for talker in talkers:
                    talker.close()
                if len(talkers) < CONNECTIONS or any(talker.is_cut for talker in talkers):
                    raise Differs("a connection was cut in a life that is not killed")
                report = server.report(PATIENCE)
        except (Ended, subprocess.TimeoutExpired) as error:
            raise Differs(str(error)) from None
        if self.judge(talkers, kill).player.pending:
            raise Differs("not all commands of a life that is not killed have all of their entries in the journals")
        self.judge_report(report, talkers)
        self.judge_anew()

    def done_anew(self, number):
        """A new unit that did all entries of its journal."""
        anew = noted_units(unfolded(MACHINE))[number]
        for record in self.records[number]:
            done_again(anew, record.entry)
            anew.stamp = record.entry.stamp
        return anew

    def judge_report(self, report, talkers):
        wanted = (CONNECTIONS, 0, 0, sum(len(talker.requests) for talker in talkers), 0)
        got = (report.sessions, report.faults, report.memory, report.commands, report.kept)
        units = [(len(self.records[unit.number]), len(unit.live()), len(unit.held)) for unit in self.units]
        if got != wanted or [tuple(unit) for unit in report.units] != units:
            raise Differs(f"the report has {got} and {report.units}, and not {wanted} and {units}")

    def judge_anew(self):
        """New units that do all entries of the journals again stand as those do that were followed."""
        for followed in self.units:
            if state_of(self.done_anew(followed.number)) != state_of(followed):
                raise Differs(f"unit {followed.number} stands otherwise than by the entries of its journal")


def state_of(unit):
    """All that a unit answers by."""
    tokens = [(token.timeout, token.rod, token.last_use, token.fate) for token in unit.tokens]
    operations = [tuple(vars(operation).values()) for operation in unit.operations]
    return unit.held, unit.moment, tokens, operations, vars(unit.reservations)
