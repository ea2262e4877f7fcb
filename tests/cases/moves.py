"""Reads, writes and appends of many lengths, as requests of the C program c/calls.c: each length up to 200, and those around 4,096,
16,384 and 65,536.

A compiled loop that moves bytes may go another way where they come from near where they go to. So most of what is moved stands at an
end of the volume, and each length comes in several turns: where ranges are lent near each other, 32 requests in a row have the 32 gaps
between them.
"""

from functools import lru_cache, partial
from random import Random

from calls import ANSWER, request
from cases.service import ALL, ONES, STICKY, given
from cases.streams import RAW
from model.loader import pack

SMALL = range(201)
NEAREST = 64            # lengths up to this one come with every gap
LARGE = [size + more for size in (4096, 16384, 65536) for more in (-1, 0, 1)]
OLD, NEW = (Random("moves %d" % i).randbytes(LARGE[-1] + 512) for i in range(2))

# What a write does, with the attributes of its turns.
WRITES = {"plain": (ALL | ONES, ALL), "sticky, erases to ones": (ALL | ONES | STICKY,), "sticky, erases to zeros": (ALL | STICKY,)}
# Where the bytes start of so many in a block of a length.
PLACES = {"at the end": lambda length, count, turn: length - count, "at the start": lambda length, count, turn: 0,
          "inside": lambda length, count, turn: 1 + (5 * count + turn) % 64}


@lru_cache(None)
def one_block(length, attributes):
    """The packed state of a volume of one block."""
    return pack(given([1, length], length, attributes))


def turns(place):
    """(bytes, turn) of each request"""
    for count in SMALL:
        for turn in range(2 if place == "inside" else 32 if count <= NEAREST else 4):
            yield count, turn
    for count in LARGE:
        for turn in range(3):
            yield count, turn


def block_moves(place):
    """(name, bytes, block length, offset, turn); the offset has each residue, and so has the distance to the block's end"""
    for count, turn in turns(place):
        length = count + 72 + (7 * count + turn) % 64
        yield "%d bytes %s of %d" % (count, place, length), count, length, PLACES[place](length, count, turn), turn


def read_cases(place):
    for name, count, length, offset, _ in block_moves(place):
        yield request(name, "read", one_block(length, ALL | ONES), OLD[:length], 0, offset, NEW[:count], ANSWER)


def write_cases(kind, place):
    for name, count, length, offset, turn in block_moves(place):
        state = one_block(length, WRITES[kind][turn % len(WRITES[kind])])
        yield request("%s, %s" % (name, kind), "write", state, OLD[:length], 0, offset, NEW[:count], ANSWER)


def append_cases():
    """Buffers that the new section fills, most of them from their first byte on."""
    for count, turn in turns("at the end"):
        used = (0, 0, 0, 5)[(turn + count) % 4]
        room = -(-used // 4) * 4 + 4 + count
        yield request("%d bytes after %d" % (count, used), "append", turn % 2, OLD[:room], used, RAW, NEW[:count], ANSWER)


GROUPS = ([partial(read_cases, place) for place in PLACES] + [partial(write_cases, kind, place) for kind in WRITES for place in PLACES]
          + [append_cases])
