"""The text of a token: who made it, how many bytes it stands for, and a nonce of the ChaCha20 generator."""

import functools
import struct

ROD_TYPE = 0x00800000
ZERO_TYPE = 0xFFFF0001
LENGTH = 512
LENGTH_FIELD = 0x01F8
ZERO = struct.pack(">IHH", ZERO_TYPE, 0, LENGTH_FIELD) + bytes(504)


def unit_name(unit):
    return struct.pack(">B5xH", 0x30, unit)


def turned(word, by):
    return (word << by | word >> 32 - by) & 0xFFFFFFFF


def quarter_round(s, a, b, c, d):
    for x, y, z, by in ((a, b, d, 16), (c, d, b, 12), (a, b, d, 8), (c, d, b, 7)):
        s[x] = (s[x] + s[y]) & 0xFFFFFFFF
        s[z] = turned(s[z] ^ s[x], by)


COLUMNS = [(0, 4, 8, 12), (1, 5, 9, 13), (2, 6, 10, 14), (3, 7, 11, 15)]
DIAGONALS = [(0, 5, 10, 15), (1, 6, 11, 12), (2, 7, 8, 13), (3, 4, 9, 14)]


def chacha20_block(key, stream, counter):
    """Sixteen words: the block of that number in a stream, both numbers of 64 bits."""
    start = list(struct.unpack("<16I", b"expand 32-byte k" + key + struct.pack("<QQ", counter, stream)))
    words = list(start)
    for _ in range(10):
        for places in COLUMNS + DIAGONALS:
            quarter_round(words, *places)
    return [(a + b) & 0xFFFFFFFF for a, b in zip(words, start)]


@functools.lru_cache(4096)
def nonce(secret, unit, serial):
    """Eight words of the generator whose key is the secret and whose stream is the unit's number."""
    half = serial % 2 * 8
    return struct.pack(">8I", *chacha20_block(secret, unit, serial // 2)[half : half + 8])


def text(machine, unit, serial, blocks):
    block_length = machine.shapes[unit].block_length
    front = struct.pack(">I2xHHHI", ROD_TYPE, LENGTH_FIELD, unit, serial >> 32, serial & 0xFFFFFFFF)
    descriptor = struct.pack(">B3xBBxB8s12xI", 0xE4, 1, 3, 8, unit_name(unit), block_length)
    size = (blocks * block_length).to_bytes(16, "big")
    return front + descriptor + size + nonce(machine.secret, unit, serial) + bytes(416)
