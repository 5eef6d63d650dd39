"""Traces of random and hostile items, and texts with a changed place, for the writer and the reader of texts."""

import random

from copymgr_formats import cdbs, frames, lists, rod_token
from copymgr_formats.frames import Begin, Pump, Request, Run
from copymgr_formats.senses import BadInput
from copymgr_formats.words import Fault
from tracetext import traces

from .bases import MACHINE

ITEMS, DATA = 12, 700
MARKS = "=@#,*+/:>x-0129 \taf\u00e9"


def cut_or_changed(rng, data):
    """A list as it is, cut, longer, or with some bytes changed."""
    kind = rng.randrange(4)
    if kind == 1:
        return data[: rng.randint(0, len(data))]
    if kind == 2:
        return data + rng.randbytes(rng.randint(1, 40))
    changed = bytearray(data)
    for _ in range(rng.randint(1, 4) if kind and changed else 0):
        changed[rng.randrange(len(changed))] = rng.choice([0, 1, 2, 0x7F, 0x80, 0xFF, rng.randrange(256)])
    return bytes(changed)


def some_ranges(rng):
    return [(rng.choice([0, 5, 2**64 - 1, rng.randrange(2**64)]), rng.randrange(2**32)) for _ in range(rng.randrange(5))]


def some_token(rng):
    unit, serial = rng.randrange(len(MACHINE.shapes)), rng.randrange(9)
    return rng.choice([rod_token.ZERO, rod_token.text(MACHINE, unit, serial, rng.randrange(99)), rng.randbytes(512), bytes(512)])


def some_copy(rng):
    cscds = [lists.cscd_bytes(rng.choice([rod_token.unit_name(rng.randrange(9)), rng.randbytes(8)]), 512, rng.randrange(32)) for _ in range(rng.randrange(4))]
    segments = [lists.segment_bytes(*(rng.randrange(5) for _ in range(5))) for _ in range(rng.randrange(4))]
    return lists.copy_bytes(rng.randrange(256), cscds, segments, rng.randrange(4))


def some_list(rng):
    """A parameter list of some command, as it should be."""
    return rng.choice([
        lambda: b"",
        lambda: lists.unmap_bytes(some_ranges(rng)),
        lambda: lists.populate_bytes(rng.randrange(9999), some_ranges(rng), rng.randrange(4), rng.randrange(2**32)),
        lambda: lists.write_bytes(some_token(rng), some_ranges(rng), rng.randrange(99), rng.randrange(2), rng.randrange(2)),
        lambda: lists.reserve_bytes(rng.randrange(2**64), rng.randrange(2**64)),
        lambda: some_copy(rng),
        lambda: rng.randbytes(rng.randrange(DATA)),
    ])()


def some_request(rng):
    """Any CDB, or one of a command, with any data-out."""
    if rng.randrange(3):
        code, action = rng.choice(list(cdbs.FORMS))
        fields = {name: rng.randrange(256**rng.randint(1, size)) for name, (_, size) in cdbs.FORMS[code, action].fields.items()}
        cdb = cut_or_changed(rng, cdbs.encode(code, action, **fields)).ljust(16, b"\0")[:16]
    else:
        cdb = rng.randbytes(16)
    return Request(rng.choice([0, 1, rng.randrange(65536)]), cdb, cut_or_changed(rng, some_list(rng)))


def some_item(rng):
    initiator, moment = rng.choice([1, 2, rng.randrange(2**32)]), rng.choice([0, 9, rng.randrange(2**64)])
    return rng.choice([
        lambda: Begin(initiator, moment, some_request(rng)),
        lambda: Begin(1, 0, some_request(rng)),
        lambda: Run(initiator, moment),
        lambda: Pump(rng.randrange(65536), moment),
    ])()


def some_trace(rng):
    """Bytes that begin as a trace; one of four is cut or changed somewhere."""
    items = [some_item(rng) for _ in range(rng.randrange(ITEMS))]
    data = frames.header_bytes(MACHINE) + b"".join(map(frames.item_bytes, items))
    return data if rng.randrange(4) else cut_or_changed(rng, data)


def changed_text(rng, text):
    """A text with some marks put in, taken out, or in another's place."""
    text = list(text)
    for _ in range(rng.randint(1, 3)):
        at = rng.randrange(len(text) + 1)
        text[at : at + rng.randrange(3)] = rng.choice(MARKS)
    return "".join(text)


def fault_of(seed):
    """What is wrong with a trace of this seed or with its text changed, and None where nothing is.

    Bytes have a text that gives them back; a text is read, or told with its line; nothing else comes of either.
    """
    rng = random.Random(seed)
    data = rng.randbytes(rng.randrange(90)) if seed % 20 == 0 else some_trace(rng)
    text = "\n".join(traces.text_of(data))
    if traces.bytes_of(traces.read_text(text.splitlines())) != data:
        return f"seed {seed}: the text gives other bytes"
    try:
        traces.bytes_of(traces.read_text(changed_text(rng, text).splitlines()))
    except (Fault, BadInput):
        pass
    return None
