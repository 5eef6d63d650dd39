"""What a program wrote, beside the replies of a player."""

import tempfile

from copymgr_formats import frames


def first_difference(got, wanted):
    """The first place at which they differ, or one of them ends."""
    return next((i for i, (a, b) in enumerate(zip(got, wanted)) if a != b), min(len(got), len(wanted)))


def difference(wrote, names, replies):
    """At which reply the bytes that were written differ, and from which of its bytes on; None where they are all."""
    at = 0
    for number, (name, reply) in enumerate(zip(names, replies)):
        got = wrote[at : at + len(reply)]
        if got != reply:
            first = first_difference(got, reply)
            place = f"reply {number}, to {name}, at byte {at}, differs from its byte {first} on"
            return f"{place}: {got[:60].hex()} and not {reply[:60].hex()}"
        at += len(reply)
    return f"{len(wrote) - at} bytes behind the last reply" if at != len(wrote) else None


def kind_of(name, reply):
    """What kind of reply it is: its status, the sense that there may be, and how an operation stands."""
    if reply[0] == frames.CHECK:
        return f"{reply[8]:02x}/{reply[18]:02x}/{reply[19]:02x}"
    if reply[0] == frames.FULL:
        return "full"
    if reply[0] == frames.CONFLICT:
        return "conflict"
    if name.startswith("receive") and "parameters" not in name and len(reply) > 11:
        return f"good with {reply[10 if name.endswith('1') else 11]:02x}h"
    return "good"


def kept(prefix, data):
    """The name of a new file with these bytes."""
    with tempfile.NamedTemporaryFile(prefix=prefix, delete=False) as file:
        file.write(data)
    return file.name


def counted(counter):
    return ", ".join(f"{kind}: {count}" for kind, count in sorted(counter.items()))
