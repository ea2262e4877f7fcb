"""What the loader's calls add to the calls within, as requests of the C program c/calls.c: the lengths of the state and of the
answer, which refusal comes first, the packed state with each field changed, and section modes. Erase lists as bytes are in
byte_lists.py.
"""

from itertools import product

from calls import ANSWER, Chain, filled, request
from cases.editions import PI_LAWFUL, entry, extended, image
from cases.headers import FULL_MAP, GUID, MIXED_MAP, header, total
from cases.long_headers import long_section
from cases.service import ALL, MAPPED, ONES, STICKY, given
from cases.streams import BODY, COMPRESSION, FREE_FORM, RAW, VERSION, compression, section, stream
from model.loader import FIELDS, MAP, MAP_WORDS, STATE_BYTES, pack, place_of
from model.volume import END_OF_LIST as END

STATE_LENGTHS = (0, 303, 304, 305, 400)
ANSWER_LENGTHS = (0, 15, 16, 17, 100)
EDGES = (0, 1, 2, 3, 63, 64, 65, 255, 256, 2**16, 2**31, 2**32 - 1, 2**32, 2**63, 2**64 - 2, 2**64 - 1)
SMALL_MAP = [4, 64]


def words(*numbers):
    return b"".join(n.to_bytes(8, "little") for n in numbers)


def cut_or_more(data, length):
    """The first bytes, or all and some more."""
    return data[:length] + filled(length - len(data), 0x5E) if length > len(data) else data[:length]


def packed(map_words=SMALL_MAP, **fields):
    return pack(given(map_words, total(map_words), **fields))


def named(what, *conditions):
    return ", ".join((what,) + tuple(str(c) for c in conditions if c != ""))


# Which refusal comes first.

def service_order_cases():
    """Every mixture of state and answer lengths, 111, 5 of the volume, 15, 2, and 15 of a protected block."""
    mixtures = product(("", "edition 3"), ("", "a byte short"), ("", "disabled"), ("", "bad", "protected"))
    for unlawful, short, disabled, argument in mixtures:
        state = packed(attributes=ONES if disabled else ALL | ONES, edition=3 if unlawful else 2, mark=3 if argument == "protected" else 4)
        data = filled(255 if short else 256)
        name = named("order", unlawful, short, disabled, argument)
        block = 4 if argument == "bad" else 3
        for length in STATE_LENGTHS:
            lent = cut_or_more(state, length)
            yield request(name, "erase", lent, data, words(0, 1, block, 1, END))
            for answer in ANSWER_LENGTHS:
                yield request(name, "read", lent, data, block, 60, filled(5), filled(answer))
                yield request(name, "write", lent, data, block, 60, b"\x12\x34\x56", filled(answer))
    disabled = packed(attributes=ONES, mark=0)
    yield request("order, disabled, bad and protected", "write", disabled, filled(256), 4, 0, b"", ANSWER)
    for list_words, name in (((3, 1, 9, 1, END), "a protected block, then a bad pair"), ((9, 1, 3, 1, END), "a bad pair, then a protected block"),
                             ((0, 1, 3, 1, 0, 1, END), "a protected block between others"), ((2, 2, END), "half a pair protected")):
        yield request("order, " + name, "erase", packed(mark=3), filled(256), words(*list_words))


def open_order_cases():
    volumes = {"good": header(SMALL_MAP), "edition 2": header(SMALL_MAP, edition=2, attributes=PI_LAWFUL), "a wrong sum": header(SMALL_MAP, summed=False, patches=[(50, b"\1\2")]),
               "a wrong signature": bytes(256), "mapped": header(SMALL_MAP, attributes=ALL | MAPPED)}
    for name, own in volumes.items():
        for length in STATE_LENGTHS + (5000,):
            for lent, base in product((0, 71, 72, 255, 256, 300), (8, 12)):
                yield request("open, %s, base %d" % (name, base), "open", filled(length, 0x3B), cut_or_more(own, lent), base)


def section_order_cases():
    good = stream(section(RAW, BODY), compression(section(VERSION)))
    streams = {"good": good, "a fault behind": good + bytes(5), "a fault at once": bytes(4), "empty": b""}
    for (name, data), answer, mode in product(streams.items(), ANSWER_LENGTHS, (0, 1)):
        for kind in (RAW, VERSION, COMPRESSION, FREE_FORM):
            yield request("sections, " + name, "search", mode, data, kind, 0, filled(answer))
            yield request("sections, " + name, "search first", mode, data, kind, filled(answer))
    for answer, mode, room, used, kind, size in product(ANSWER_LENGTHS, (0, 1), (8, 40), (0, 5, 41), (RAW, FREE_FORM, COMPRESSION), (3, 15, 16)):
        yield request("append, order", "append", mode, filled(room), used, kind, filled(size, 7), filled(answer))


def entry_order_cases():
    good = image(extended(entry(4, 0xFFFE), entry(9, 3)), 72, [1, 128])
    for answer, n, lent in product(ANSWER_LENGTHS, (0, 1, 2, 2**32, 2**32 + 1, 2**64 - 1), (0, 71, 127, 128, 200)):
        yield request("entry, order", "ext entry", cut_or_more(good, lent), n, filled(answer))
    mapped = image(extended(entry(5)), 72, [1, 128], attributes=MAPPED)
    yield request("entry of a mapped volume, base 0", "ext entry", cut_or_more(mapped, 128), 0, ANSWER)


# The packed state.

def five_calls(name, state, data, block):
    """A read, a write and an erase of a block, and an erase in two operations."""
    yield request(name, "read", state, data, block, 1, filled(3), ANSWER)
    yield request(name, "write", state, data, block, 1, b"\x0f\xa5", ANSWER)
    yield request(name, "erase", state, data, words(block, 1, END))
    yield request(name, "accept erase", state, data, words(block, 1, END), filled(8))
    yield request(name, "carry erase", state, data, words(block, 1, END), bytes(8), 3)


def two_of(calls, turn):
    """Two of the five, by turns."""
    five = list(calls)
    return five[turn % 5], five[(turn + 2) % 5]


def states():
    """(name, state, its last block that is not protected)"""
    yield "one entry", given(SMALL_MAP, 256, ALL | ONES), 3
    yield "mixed", given(MIXED_MAP, 1536, ALL | STICKY, base=5), 7
    yield "32 entries", given(FULL_MAP, 2112, ALL | STICKY | ONES, edition=2), 31
    yield "mapped", given(MIXED_MAP, 1536, ALL | MAPPED | ONES, base=2**64 - 8, mark=7), 6
    yield "edition 2", given(MIXED_MAP, 1536, PI_LAWFUL, base=16, edition=2, mark=3), 2


def near(value, width):
    """Values to put in place of a number of so many bytes."""
    top = 256**width
    chosen = (0, 1, 2, 3, 31, 32, 33, value - 1, value + 1, value ^ 0x100, value ^ 0x10000, value + 4, 65536, 65537, 16777216, 16777217,
              top // 2, top - 8, top - 1, value ^ top // 2, value ^ top // 256)
    return sorted({v % top for v in chosen} - {value})


def field_cases():
    """Each number of a state replaced."""
    for name, state, block in states():
        good, data = pack(state), filled(state.length)
        yield from five_calls("state, %s, as it is" % name, good, data, block)
        for field, width in FIELDS[1:]:
            place = place_of(field)
            for value in near(getattr(state, field), width):
                changed = good[:place] + value.to_bytes(width, "little") + good[place + width:]
                yield from five_calls("state, %s, %s %d" % (name, field, value), changed, data, block)


def attribute_cases():
    """Each attribute bit changed, in both editions."""
    for edition, bit in product((1, 2), range(32)):
        state = packed(attributes=(ALL | ONES) ^ 1 << bit, edition=edition, base=8)
        yield from five_calls("state of edition %d, attribute bit %d" % (edition, bit), state, filled(256), 3)


def map_cases():
    """Each word of the map replaced, those beyond the entries too."""
    for name, state, block in states():
        good, data = pack(state), filled(state.length)
        for i in range(MAP_WORDS):
            place, old = MAP + 4 * i, state.map[i]
            for turn, value in enumerate(sorted({0, old + 1, old ^ 1 << 16, 2**31, 2**32 - 1} - {old})):
                changed = good[:place] + value.to_bytes(4, "little") + good[place + 4:]
                yield from two_of(five_calls("state, %s, map word %d is %d" % (name, i, value), changed, data, block), i + turn)


def other_map_cases():
    """Other maps of as many bytes, the pairs of one exchanged among them: lawful too."""
    for map_words in ([64, 4], [2, 64, 2, 64], [1, 192, 1, 64], [1, 64, 1, 192], [3, 64, 64, 1], [1, 256], [256, 1], [1, 8] * 31 + [1, 8]):
        blocks = sum(map_words[::2])
        for block in sorted({0, 1, 2, blocks - 1, blocks}):
            name = "state with the map %s, block %d" % (map_words[:6], block)
            yield from five_calls(name, packed(map_words), filled(256), block)


def bit_cases():
    """Each bit of the packed state changed."""
    _, state, block = list(states())[3]
    good, data = pack(state), filled(state.length)
    for bit in range(8 * STATE_BYTES):
        changed = bytearray(good)
        changed[bit // 8] ^= 1 << bit % 8
        yield from two_of(five_calls("state, bit %d of byte %d" % (bit % 8, bit // 8), bytes(changed), data, block), bit)


def mark_cases():
    """A mark of more than 16 bits, and blocks around each mark."""
    wide, data = [65536, 1], filled(65536)
    for mark in (0, 1, 255, 256, 257, 32768, 65535, 65536, 65537, 65536 + 256):
        state = pack(given(wide, 65536, ALL | ONES, mark=mark))
        for block in sorted({0, max(mark - 1, 0), mark, 65535, 65536}):
            yield from five_calls("65,536 blocks, mark %d, block %d" % (mark, block), state, data, block)


# Chains, edges of the numbers, modes.

def chain_cases():
    """The state that opening stored goes on to the other calls; then with its mark lowered."""
    kinds = product((1, 2), (0, STICKY), (0, ONES), (SMALL_MAP, MIXED_MAP, FULL_MAP), (0, 9))
    for edition, sticky, ones, map_words, more in kinds:
        chain = Chain(named("chain", "edition %d" % edition, "sticky" if sticky else "", "ones" if ones else "", "%d entries" % (len(map_words) // 2)))
        own = header(map_words, attributes=ALL | sticky | ones, edition=edition, guid=GUID)
        yield chain.request("open", filled(STATE_BYTES + more, 0x3B), own + filled(total(map_words) + more - len(own)), 24)
        state, last = chain.left["s"], sum(map_words[::2]) - 1
        for mark in (None, last):
            if mark is not None:
                state = state[:40] + mark.to_bytes(4, "little") + state[44:]
            for block in (0, last - 1, last, last + 1):
                yield chain.request("write", state, chain.left["v"], block, 2, b"\x0f\xf0\x55", ANSWER)
                yield chain.request("read", state, chain.left["v"], block, 0, filled(12), ANSWER)
            yield chain.request("erase", state, chain.left["v"], words(last - 1, 1, END))
            yield chain.request("erase", state, chain.left["v"], words(0, 1, last, 1, END))
            yield chain.request("read", state, chain.left["v"], last, 0, filled(12), ANSWER)


def edge_cases():
    """Blocks, offsets, instances and used counts up to 2^64 - 1."""
    state, data = packed(), filled(256)
    for block, offset in product((3, 4, 2**32 + 3, 2**64 - 1), EDGES):
        for size in (0, 1, 64, 65):
            name = "block %d, offset %d" % (block, offset)
            yield request(name, "read", state, data, block, offset, filled(size), ANSWER)
            yield request(name, "write", state, data, block, offset, filled(size, 9), ANSWER)
    two = stream(section(RAW, BODY), section(RAW))
    for n in EDGES:
        yield request("instance %d" % n, "search", 0, two, RAW, n, ANSWER)
        yield request("used %d" % n, "append", 0, filled(70), n, RAW, BODY, ANSWER)


def mode_cases():
    """Mode 0, and any other."""
    data = stream(long_section(RAW, BODY), section(VERSION))
    for mode in (0, 1, 2, 3, 255, 256, 65536, 2**24, 2**31, 2**32 - 1):
        for kind in (RAW, VERSION, 0x20):
            yield request("mode %d" % mode, "search", mode, data, kind, 0, ANSWER)
            yield request("mode %d" % mode, "search first", mode, data, kind, ANSWER)
        yield request("mode %d" % mode, "append", mode, filled(64), 17, RAW, BODY, ANSWER)


GROUPS = (service_order_cases, open_order_cases, section_order_cases, entry_order_cases, field_cases, attribute_cases, map_cases, other_map_cases, bit_cases,
          mark_cases, chain_cases, edge_cases, mode_cases)
