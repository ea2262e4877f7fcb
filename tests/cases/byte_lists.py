"""Erase lists as bytes, eight to a word, as requests of the C program c/calls.c: part words at the end, lists cut anywhere, long lists."""

from itertools import product

from calls import filled, request
from cases.headers import MIXED_MAP
from cases.loader import words
from cases.service import ALL, ONES, given
from model.loader import pack
from model.volume import END_OF_LIST as END

STATE = pack(given(MIXED_MAP, 1536, ALL | ONES))      # 8 blocks
PROTECTED = pack(given(MIXED_MAP, 1536, ALL, mark=6))
VOLUME = filled(1540)

LISTS = {"no word": (), "the terminator": (END,), "a pair": (0, 1), "a first block": (3,), "a pair and the terminator": (0, 1, END),
         "the last block": (7, 1, END), "every block": (0, 8, END), "a good pair, then a bad one": (0, 1, 7, 2, END), "count 0": (1, 0, END),
         "a sum that wraps to 1": (END - 1, 3, END), "a sum that wraps to 8": (END - 7, 16, END), "count 2^64 - 1": (1, END, END),
         "words behind the terminator": (2, 2, END, 9, 0), "two blocks": (1, 1, 6, 1, END), "the terminator twice": (4, 1, END, END)}


def erase(name, data):
    """An erase, at once and in two operations."""
    for state in (STATE, PROTECTED):
        yield request("list, " + name, "erase", state, VOLUME, data)
        yield request("list, " + name, "accept erase", state, VOLUME, data, filled(8))
        yield request("list, " + name, "carry erase", state, VOLUME, data, bytes(8), 2**64 - 1)


def part_word_cases():
    """One to seven bytes behind each list; FF and 0 are what would go on to a terminator or a number."""
    for (name, list_words), tail, size in product(LISTS.items(), (b"\xff", b"\x00", b"\x01"), range(8)):
        if size or tail == b"\x00":
            yield from erase("%s, and %d bytes of %s" % (name, size, tail.hex()), words(*list_words) + tail * size)


def cut_cases():
    """The first bytes of a list."""
    for name in ("two blocks", "words behind the terminator", "the terminator twice", "every block"):
        whole = words(*LISTS[name])
        for size in range(len(whole)):
            yield from erase("%s, %d bytes of it" % (name, size), whole[:size])


def long_cases():
    for count in (1, 2, 47, 48, 49, 100, 500, 4000):
        pairs = words(*(word for i in range(count) for word in (i * 5 % 6, 1 + i % 2)))
        yield from erase("%d pairs" % count, pairs + words(END))
        yield from erase("%d pairs, no terminator" % count, pairs)
        yield from erase("%d pairs, then a bad one" % count, pairs + words(8, 1, END))
        yield from erase("%d pairs and a part word" % count, pairs + words(END) + b"\xff" * (count % 8))


GROUPS = (part_word_cases, cut_cases, long_cases)
