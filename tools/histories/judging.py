"""Whether what was replied, written and reported is what the trace of the entries gives."""

import collections
import subprocess
import time

from copymgr.hosts import BUSY
from copymgr_formats import frames
from replay import compared
from tracetext import checking

def nexus_of(reply):
    return int.from_bytes(reply.bytes[:4], "big")


def recorded(wanted, replies):
    """For each of some replies of a trace the one that came in its place, of those that came to each nexus."""
    left = [iter(of_nexus) for of_nexus in replies]
    return [reply.bytes[:4] + next(left[nexus_of(reply)], b"") for reply in wanted]


def differences(following, replies):
    """Of each nexus how what it was replied differs from the replay, if it does."""
    wanted = collections.defaultdict(list)
    for reply in following.player.replies:
        wanted[nexus_of(reply)].append(reply)
    for nexus, got in enumerate(replies):
        names = [reply.name for reply in wanted[nexus]]
        found = compared.difference(b"".join(got), names, [reply.bytes[4:] for reply in wanted[nexus]])
        if found:
            yield f"connection {nexus}: {found}"


def judge_replies(results, following, replies):
    found = list(differences(following, replies))
    count = sum(map(len, replies))
    results.tell(not found, found[0] if found else f"{count} replies are those of the plain replay")


def judge_replay(results, following, replies, words):
    """Has a program replay the trace: it has to write what came."""
    run = subprocess.run([*words, "replay"], input=bytes(following.bytes), capture_output=True, check=False)
    wanted = following.player.replies
    found = compared.difference(run.stdout, [reply.name for reply in wanted], recorded(wanted, replies))
    why = f"{found or ''} {run.stderr.decode(errors='replace').strip()}".strip()
    size = f"{len(following.ends)} items, {len(following.bytes)} bytes"
    results.tell(not why and run.returncode == 0, f"replay ({size}): {why or 'these are its replies'}")


def judge_check(results, following, replies, words, items):
    """Asks a program whether these are the replies of the trace, as far as so many items."""
    begin = time.monotonic()
    trace, wanted = following.beginning(items)
    lines, holds = checking.told(trace, b"".join(recorded(wanted, replies)), words)
    size = f"{min(items, len(following.ends))} items, {time.monotonic() - begin:.1f} s"
    results.tell(holds, f"check ({size}): " + "\n".join(lines))


def judge_report(results, following, report, commands):
    """Of a program whose connections all ended well."""
    sessions = len(following.waiting)
    wanted = (sessions, 0, 0, commands, 0)
    got = (report.sessions, report.faults, report.memory, report.commands, report.kept)
    results.tell(got == wanted, f"sessions, faults, memory, commands and kept: {got}, and the connections say {wanted}")
    units = [tuple(unit) for unit in report.units]
    made = [(unit.entries, len(unit.live()), len(unit.held)) for unit in following.player.units]
    results.tell(units == made, f"steps, live and mapped: {units}, and the replay has {made}")


def kind_of(reply):
    """Its status, and of a refusal the sense."""
    if reply[0] == frames.CHECK:
        return "/".join(f"{part:02x}" for part in frames.sense_of(reply[6:]))
    return {
        frames.GOOD: "GOOD", frames.CONFLICT: "RESERVATION CONFLICT", frames.FULL: "TASK SET FULL", BUSY: "BUSY",
    }.get(reply[0], f"{reply[0]:02x}h")


def judge_statuses(results, replies):
    """No status that a trace can't fix: of a record that is full, or of memory that is wanted."""
    every = [reply for of_nexus in replies for reply in of_nexus]
    print("replies:", compared.counted(collections.Counter(map(kind_of, every))))
    others = sum(reply[0] not in (frames.GOOD, frames.CHECK) for reply in every)
    results.tell(others == 0, f"replies that are neither GOOD nor CHECK CONDITION: {others}")
