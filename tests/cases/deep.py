"""Calls that may take the most stack, as requests of the C program c/calls.c: all that opening looks at, searches down to the eighth
level, erases through every map entry, at once and in two operations. Moves of all lengths are in moves.py.
"""

from itertools import product

from calls import ANSWER, ROOM, filled, request
from cases.editions import entry, extended, image
from cases.headers import FULL_MAP, total
from cases.long_headers import by_turns, long_compression, long_guided
from cases.loader import SMALL_MAP, cut_or_more, packed, words
from cases.streams import RAW, VERSION, compression, guided, section, stream
from model.volume import END_OF_LIST as END

ENTRIES = 40
EXTENDED = 320          # where the extended header starts, right behind a header of 32 entries
ABSENT = 0x20


def opening_cases():
    """32 map entries and an extended header, whose last entry is good or not."""
    for last, name in ((20, "good"), (3, "a last entry of 3 bytes")):
        ext = extended(*[entry(20, 7)] * (ENTRIES - 1), entry(last, body=bytes(16)))
        volume = cut_or_more(image(ext, EXTENDED, FULL_MAP), 2112)
        yield request("32 map entries, extended header, %s" % name, "open", ROOM, volume, 8)
        for n in (0, ENTRIES - 1, ENTRIES):
            yield request("32 map entries, extended header, %s, entry %d" % (name, n), "ext entry", volume, n, ANSWER)


def search_cases():
    """Nests of seven holders, in the first or the last of which the section wanted is the leaf; one of eight behind them is a fault."""
    for mode, holders in ((0, (compression, guided)), (1, (compression, guided)), (1, (long_compression, long_guided))):
        nests = [by_turns(7, section(kind), holders) for kind in (VERSION, RAW, RAW, RAW, VERSION)]
        streams = {"first": stream(*nests[:4]), "last": stream(*nests[1:]), "not there": stream(*nests[1:4]),
                   "a level too many": stream(*nests[1:4], by_turns(8, section(VERSION), holders))}
        for name, data in streams.items():
            yield request("eight levels, %s" % name, "search", mode, data, VERSION, 0, ANSWER)
            yield request("eight levels, %s" % name, "search first", mode, data, VERSION, ANSWER)
            yield request("eight levels, %s, a type that is not there" % name, "search", mode, data, ABSENT, 2**64 - 1, ANSWER)


def erase_cases():
    """One pair and many, on one map entry and on 32; the last pair good, protected or bad."""
    for map_words, pairs in product((SMALL_MAP, FULL_MAP), (1, 2, 1000)):
        blocks = sum(map_words[::2])
        good = words(*(word for i in range(pairs - 1) for word in (i * 7 % (blocks - 1), 1)))
        for last, name in (((blocks - 2, 1), "good"), ((0, blocks), "protected"), ((1, blocks), "bad")):
            name = "%d pairs, the last %s, %d map entries" % (pairs, name, len(map_words) // 2)
            lent = packed(map_words, mark=blocks - 1), filled(total(map_words)), good + words(*last, END)
            yield request(name, "erase", *lent)
            yield request(name, "accept erase", *lent, ANSWER)
            yield request(name, "carry erase", *lent, bytes(8), 2**64 - 1)
            yield request(name, "carry erase", *lent, words(5), 9)


GROUPS = (opening_cases, search_cases, erase_cases)
