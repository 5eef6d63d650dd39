#!/usr/bin/env python3
"""Writes a trace of COUNT commands of one KIND to standard output.

    generate.py large COUNT     WRITE (16) and READ (16) of 256 blocks of 4096 bytes, 1 MiB each
    generate.py page COUNT      WRITE (16) and READ (16) of one block of 4096 bytes
    generate.py small COUNT     WRITE (16) and READ (16) of one block of 512 bytes, at scattered places
    generate.py empty COUNT     READ (16) of no blocks
    generate.py token COUNT     copies of 512 MiB by POPULATE TOKEN and WRITE USING TOKEN, in four ranges
    generate.py extents COUNT   copies of 64 MiB by tokens, which lie in 16,384 runs of 8 blocks of 512 bytes
    generate.py segments COUNT  copies of 512 MiB by EXTENDED COPY (LID1), in 64 segments
    generate.py unmap COUNT     UNMAPs of 2 MiB, in 64 ranges

example:
  $ bench/generate.py small 1000 | tools/people/plain-replay replay | wc -c

The last four are made by copy_traces.py: a fill, and then COUNT copies or UNMAPs.

Of the others every second command reads what the command before it wrote. A command is two items: a
Begin and a Run. The header gives each unit the largest limits that docs/formats.md allows, and there
are as many units as the bytes of the WRITEs and the entries want, at most 16.
"""

import struct
import sys

import copy_traces

BLOCKS = 4_294_967_296
ENTRIES = 1_048_576
PAYLOAD = 268_435_456
UNITS = 16

# bytes of a block, blocks of a command, whether there are WRITEs, whether places are scattered
KINDS = {
    "large": (4096, 256, True, False),
    "page": (4096, 1, True, False),
    "small": (512, 1, True, True),
    "empty": (512, 0, False, False),
}

READ_16, WRITE_16 = 0x88, 0x8A
INITIATOR = 1


def header(units, block_length):
    """The header: a text, a secret, and each unit."""
    unit = struct.pack(">QIIQIB3x", BLOCKS, block_length, ENTRIES, BLOCKS, PAYLOAD, 0)
    return b"CMTRACE1" + bytes(range(32)) + struct.pack(">H", units) + unit * units


def command(moment, unit, code, lba, blocks, out):
    """A Begin and a Run of one command."""
    cdb = struct.pack(">BBQIBB", code, 0, lba, blocks, 0, 0)
    begin = struct.pack(">BIQIH", 1, INITIATOR, moment, len(out), unit) + cdb + out
    return begin + struct.pack(">BIQ", 2, INITIATOR, moment)


def data_of(index, length):
    """Data that differs from one WRITE to the next."""
    return struct.pack(">Q", index) * (length // 8)


def pairs_of_unit(kind):
    """How many pairs of commands a unit's record has room for."""
    block_length, blocks, writes, _ = KINDS[kind]
    if writes:
        return min(ENTRIES // 2, PAYLOAD // (block_length * blocks))
    return ENTRIES // 2


def commands(kind, count):
    """The items of the commands. Each unit is addressed until its record is nearly full."""
    block_length, blocks, writes, scattered = KINDS[kind]
    length = block_length * blocks
    per_unit = pairs_of_unit(kind)
    for index in range(count):
        pair = index // 2
        unit = pair // per_unit
        lba = pair * 2_654_435_761 % (BLOCKS - 1) if scattered else pair % per_unit * blocks
        if writes and index % 2 == 0:
            yield command(index, unit, WRITE_16, lba, blocks, data_of(pair, length))
        else:
            yield command(index, unit, READ_16, lba, blocks, b"")


def main():
    if sys.argv[1:] == ["--help"]:
        print(__doc__)
        return
    if len(sys.argv) != 3 or sys.argv[1] not in [*KINDS, *copy_traces.KINDS] or not sys.argv[2].isdigit():
        print("bench/generate.py: the words are KIND COUNT (see bench/generate.py --help)", file=sys.stderr)
        sys.exit(2)
    kind, count = sys.argv[1], int(sys.argv[2])
    if kind in copy_traces.KINDS:
        sys.stdout.buffer.writelines(copy_traces.trace(kind, count)[0])
        return
    pairs = (count + 1) // 2
    units = max(1, -(-pairs // pairs_of_unit(kind)))
    if units > UNITS:
        sys.exit(f"{count} commands want {units} units, and there are {UNITS} at most")
    out = sys.stdout.buffer
    out.write(header(units, KINDS[kind][0]))
    for items in commands(kind, count):
        out.write(items)


if __name__ == "__main__":
    main()
