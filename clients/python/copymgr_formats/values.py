"""Numbers, data, ranges, tokens and descriptors as text: each X_of reads what X_text writes."""

import re
import struct

from . import lists, rod_token

from .words import number_of

U16, U24, U32, U48, U64 = (2**bits - 1 for bits in (16, 24, 32, 48, 64))
# the most bytes that a piece of text may stand for
SIZE_LIMIT = 2**32


# ---- bytes


def data_text(data):
    """Runs of at least 8 equal bytes as in `11*512`, all else in hex, with a comma between."""
    pieces, at = [], 0
    for run in re.finditer(rb"(.)\1{7,}", data, re.S):
        if run.start() > at:
            pieces.append(data[at : run.start()].hex())
        pieces.append(f"{run[1].hex()}*{len(run[0])}")
        at = run.end()
    if at < len(data):
        pieces.append(data[at:].hex())
    return ",".join(pieces)


def piece_of(text, most):
    if text.startswith("file:"):
        return file_bytes(text.removeprefix("file:"))
    digits, star, count = text.partition("*")
    if not re.fullmatch(r"([0-9a-fA-F]{2})+", digits):
        raise ValueError(f"{text[:20] or 'nothing'} is no hex of whole bytes, no fill as 11*512 and no file:PATH")
    unit = bytes.fromhex(digits)
    return unit * number_of(count, most // len(unit)) if star else unit


def file_bytes(path):
    try:
        with open(path, "rb") as file:
            return file.read()
    except OSError as error:
        raise ValueError(f"{path}: {error.strerror}") from None


def data_of(text, most=SIZE_LIMIT):
    data = b"".join(piece_of(piece, most) for piece in text.split(",")) if text else b""
    if len(data) > most:
        raise ValueError(f"{len(data)} bytes are more than {most}")
    return data


# ---- ranges


def ranges_text(ranges):
    return ",".join(f"{lba}+{count}" for lba, count in ranges) or "none"


def range_of(text):
    lba, plus, count = text.partition("+")
    if not plus:
        raise ValueError(f"{text or 'nothing'} is no range as 9+1: its first block, and how many")
    return number_of(lba, U64), number_of(count, U32)


def ranges_of(text):
    return [] if text == "none" else [range_of(part) for part in text.split(",")]


# ---- tokens


def named_token(machine, unit, serial, blocks):
    """The token that a unit made, by its serial and its blocks."""
    if unit >= len(machine.shapes):
        raise ValueError(f"there is no unit {unit}")
    return rod_token.text(machine, unit, serial, blocks)


def token_text(token, machine):
    """`zero`, or as in `u0/3/8` the token of unit 0 with serial 3 and 8 blocks, or bytes."""
    if token == rod_token.ZERO:
        return "zero"
    unit, high, low = struct.unpack_from(">HHI", token, 8)
    if unit < len(machine.shapes):
        blocks = int.from_bytes(token[48:64], "big") // machine.shapes[unit].block_length
        made = named_token(machine, unit, high << 32 | low, blocks)
        changed = [at for at in range(rod_token.LENGTH) if made[at] != token[at]]
        if len(changed) <= 1:
            return f"u{unit}/{high << 32 | low}/{blocks}" + "".join(f"@{at}={token[at]:02x}" for at in changed)
    return data_text(token)


def token_of(text, machine):
    if text == "zero":
        return rod_token.ZERO
    made = re.fullmatch(r"u([^/]*)/([^/]*)/([^/@]*)(?:@([0-9]+)=([0-9a-fA-F]{2}))?", text)
    if made:
        names = number_of(made[1], U16), number_of(made[2], U48), number_of(made[3], U32)
        token = bytearray(named_token(machine, *names))
        if made[4]:
            token[number_of(made[4], rod_token.LENGTH - 1)] = int(made[5], 16)
        return bytes(token)
    token = data_of(text)
    if len(token) != rod_token.LENGTH:
        raise ValueError(f"a token has 512 bytes and not {len(token)}; or name it as zero, or as u0/3/8")
    return token


# ---- descriptors of EXTENDED COPY


def configured(machine):
    """A CSCD descriptor for each unit."""
    return [lists.Cscd(0, rod_token.unit_name(unit), shape.block_length) for unit, shape in enumerate(machine.shapes)]


def cscds_text(cscds):
    """Each as in `u1/512`: the unit that it names and the length of a block, and behind them another type than 0."""
    units = [int.from_bytes(cscd.name[6:], "big") for cscd in cscds]
    return ",".join(
        f"u{unit}/{cscd.block_length}" + (f"/{cscd.device}" if cscd.device else "") for unit, cscd in zip(units, cscds)
    ) or "none"


def cscd_of(text):
    found = re.fullmatch(r"u([^/]+)/([^/]+)(?:/([^/]+))?", text)
    if not found:
        raise ValueError(f"{text or 'nothing'} is no CSCD as u1/512: its unit, and the length of a block")
    device = number_of(found[3], 31) if found[3] else 0
    return lists.Cscd(device, rod_token.unit_name(number_of(found[1], U16)), number_of(found[2], U24))


def cscds_of(text):
    return [] if text == "none" else [cscd_of(part) for part in text.split(",")]


def segments_text(segments):
    """Each as in `0:5+10>1:9`: from the CSCD at place 0, 10 blocks from block 5 on, to that at place 1, at block 9."""
    return ",".join(f"{s.source}:{s.from_lba}+{s.count}>{s.destination}:{s.to_lba}" for s in segments) or "none"


def segment_of(text):
    found = re.fullmatch(r"([^:]+):([^+]+)\+([^>]+)>([^:]+):(.+)", text)
    if not found:
        raise ValueError(f"{text or 'nothing'} is no segment as 0:5+10>1:9")
    source, from_lba, count, destination, to_lba = found.groups()
    places = [number_of(place, U16) for place in (source, destination)]
    return lists.Segment(*places, number_of(count, U16), number_of(from_lba, U64), number_of(to_lba, U64))


def segments_of(text):
    return [] if text == "none" else [segment_of(part) for part in text.split(",")]
