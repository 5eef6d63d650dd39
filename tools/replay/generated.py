"""The generated trace of some rounds, and what a replay of it counts."""

from copymgr_formats import cdbs, frames, lists, rod_token

from . import player

ROUNDS_LIMIT = 4096
BLOCKS = 8
SHAPE = frames.Shape(1_048_576, 512, 1_048_576, 1_048_576, 268_435_456, 0)
MACHINE = frames.Machine(frames.SECRET, [SHAPE] * 2)


def round_items(number):
    """The items of a round: a WRITE, a token of its blocks, a write with the token, and two looks at what became of it."""
    initiator = number % 8
    source, target = 37 * number % 65_536, 8 * number
    run = frames.Run(initiator, number)

    def command(unit, code, action=None, out=b"", **fields):
        cdb = cdbs.encode(code, action, **fields)
        return [frames.Begin(initiator, number, frames.Request(unit, cdb, out)), run]

    def with_list(unit, action, out):
        return command(unit, 0x83, action, out, id=number, length=len(out))

    token = rod_token.text(MACHINE, 0, number, BLOCKS)
    data = bytes([number % 251 + 1]) * (BLOCKS * SHAPE.block_length)
    return [
        *command(0, 0x8A, out=data, lba=source, count=BLOCKS),
        *with_list(0, 0x10, lists.populate_bytes(0, [(source, BLOCKS)])),
        *with_list(1, 0x11, lists.write_bytes(token, [(target, BLOCKS)], immed=1)),
        run,
        frames.Pump(1, number),
        *command(1, 0x84, 0x07, id=number, length=1024),
        *command(1, 0x88, lba=target, count=BLOCKS),
    ]


def trace(rounds):
    """The bytes of the trace of so many rounds."""
    items = (frames.item_bytes(item) for number in range(rounds) for item in round_items(number))
    return frames.header_bytes(MACHINE) + b"".join(items)


def summary(data, shortages=None):
    """What a replay of a trace counts, in eight lines."""
    played = [one for one, _ in player.played_items(data, shortages)]
    last = played[-1]
    statuses = [reply.bytes[4] for reply in last.replies]
    counts = {
        "records": len(played) - 1,
        "replies": len(statuses),
        "good": statuses.count(frames.GOOD),
        "check": statuses.count(frames.CHECK),
        "busy": statuses.count(frames.BUSY),
        "full": statuses.count(frames.FULL),
        "steps": sum(unit.entries for unit in last.units),
        "bytes": sum(len(reply.bytes) for reply in last.replies),
    }
    return "".join(f"{name} {count}\n" for name, count in counts.items())
