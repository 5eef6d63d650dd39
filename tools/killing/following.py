"""The entries that a life added to the journals, beside the plain replay and the replies that had come."""

import collections

from copymgr_formats import cdbs
from histories.following import Differs, Following, judge_text
from histories.judging import nexus_of
from replay import compared, entries, written
from replay.entries import Actors
from replay.resuming import done_again, endings, forgotten


# as an entry is followed, with all of it as it was read from a journal
LifeEntry = collections.namedtuple("LifeEntry", [*written.Written._fields, "whole"])


def life_entry(record):
    """A record of a journal as an entry that is followed."""
    entry = record.entry
    return LifeEntry(*entry[:2], *entry[3:6], type(entry.act).__name__, record.text, entry)


def entries_of_life(records):
    """The entries of all units in the order of their stamps."""
    return written.merged([map(life_entry, of_unit) for of_unit in records])


class LifeFollowing(Following):
    """Follows the entries of one life of units. Before the first of a unit come those that end what ran before."""

    def __init__(self, machine, requests, units, first):
        super().__init__(machine, requests, units, first)
        actors = Actors()
        for unit in units:
            unit.actors = actors
        self.endings = [collections.deque(endings(unit, unit.stamp)) for unit in units]
        self.ended = 0

    def follow(self, entry):
        if not self.endings[entry.unit]:
            super().follow(entry)
            return
        ending, unit = self.endings[entry.unit].popleft(), self.player.units[entry.unit]
        judge_text(entry, entries.text(ending))
        done_again(unit, ending)
        unit.stamp = ending.stamp
        self.ended += 1

    def begin_all(self):
        """Begins what each connection asked behind its last entry, up to a command that waits for an act."""
        for nexus in self.waiting:
            self.begin(nexus)

    def forget(self):
        """The entries of this life are history for the next one."""
        for unit in self.player.units:
            unit.record.clear()
            forgotten(unit)

    def replied(self):
        """How many replies the entries give."""
        return len(self.player.replies)

    def replies_of(self, nexus):
        return [reply for reply in self.player.replies if nexus_of(reply) == nexus]


def followed(machine, talkers, units, first, records):
    """The entries of a life, followed; or Differs."""
    following = LifeFollowing(machine, [talker.requests for talker in talkers], units, first)
    for entry in entries_of_life(records):
        following.follow(entry)
    following.begin_all()
    return following


def judge_replies(following, talkers, first):
    """What came has to be a beginning of what the history gives; or Differs."""
    for nexus, talker in enumerate(talkers, first):
        wanted = following.replies_of(nexus)
        replies = [reply.bytes[4:] for reply in wanted]
        got = bytes(talker.source.bytes)
        if b"".join(replies).startswith(got):
            continue
        if len(talker.replies) > len(replies):
            command = following.player.pending[nexus].name if nexus in following.player.pending else "another command"
            raise Differs(f"nexus {nexus}: {command} was replied to, and not all of its entries are in the journals")
        raise Differs(f"nexus {nexus}: {compared.difference(got, [reply.name for reply in wanted], replies)}")


def judge_acknowledged(talkers, first, records):
    """How many WRITEs were replied to as done, each of which has to have its entry; or Differs."""
    made = collections.defaultdict(list)
    for record in (record for of_unit in records for record in of_unit):
        if type(record.entry.act).__name__ == "Write":
            made[record.entry.actor].append(record.entry)
    for nexus, talker in enumerate(talkers, first):
        left = sorted(made[nexus], key=lambda entry: entry.seq)
        for request in talker.acknowledged():
            while left and not is_of(left[0], request):
                left.pop(0)
            if not left:
                raise Differs(f"nexus {nexus}: a WRITE of unit {request.unit} was done, and is in no journal")
            left.pop(0)
    return sum(len(talker.acknowledged()) for talker in talkers)


def is_of(entry, request):
    """Whether an entry is that of a WRITE."""
    cdb = cdbs.decode(request.cdb)
    return (entry.unit, entry.act.lba, b"".join(entry.act.blocks)) == (request.unit, cdb.lba, request.out)
