"""Request e from C: many writes in one call, as requests of the C program c/calls.c. A volume of 16 MiB is in large_service.py.

Most cases say what is answered: the number, how many writes succeeded, and the count of the last one. The model is held to it. A name's
end says which refusals the requests of that name get.
"""

from collections import namedtuple
from functools import partial
from itertools import product

from calls import ANSWER, ROOM, Chain, filled, made
from cases.erase_jobs import DISABLED, refused
from cases.headers import FULL_MAP, GUID, MIXED_MAP, header, total
from cases.loader import ANSWER_LENGTHS, EDGES, STATE_LENGTHS, cut_or_more, named, packed, states, words
from cases.moves import NEW, OLD, one_block
from cases.service import ALL, KINDS, ONES, STICKY, given
from model.loader import ANSWER_BYTES, FIELDS, STATE_BYTES, number, pack, place_of
from model.volume import END_OF_LIST as END

Order = namedtuple("Order", "block offset first length")

MOST = 64
MAP, LENGTHS = [1, 88, 2, 16, 1, 40, 3, 8], (88, 16, 16, 40, 8, 8, 8)      # 7 blocks, 184 bytes
BLOCKS, LENGTH = len(LENGTHS), sum(LENGTHS)
STATE = packed(MAP)
VOLUME = filled(LENGTH + 5)
DATA = filled(100, 0x33)
EDITIONS = (1, 2)


def listed(orders):
    """The bytes of a list."""
    return words(*(n for order in orders for n in order))


def good(i, lengths=LENGTHS, size=len(DATA)):
    """One of an endless row of orders that succeed, in all blocks; some are empty."""
    block = i % len(lengths)
    length = min(i % 9, lengths[block], size)
    return Order(block, 3 * i % (lengths[block] - length + 1), 7 * i % (size - length + 1), length)


def some_good(count, start=0):
    return [good(start + i) for i in range(count)]


def answered(done, answer):
    return done.number, number(answer, 0, 8), number(answer, 8, 8)


def write_list(name, expected, orders, state=STATE, volume=VOLUME, data=DATA, tail=b"", answer=ANSWER):
    """A list with bytes behind it, and what must be answered; None where no byte of the answer changes, and the number is 5."""
    no = 5 if expected is None else expected[0]
    done, after = made(refused(name, 0 if no == 4 else no), "write list", (state, volume, listed(orders) + tail, data, answer), {})
    got = None if done.number == 5 and after["a"] == answer else answered(done, after["a"])
    assert got == expected, (name, got, expected)
    return done


def placed(orders, at, order):
    """The orders with this one at a place among them."""
    return orders[:at] + [order] + orders[at:]


# How many orders there are.

TAILS = (b"", b"\0", b"\xff" * 8, bytes(16), listed([good(3)])[:24], bytes(31), b"\xff" * 31, listed([good(3)])[:31])


def count_cases():
    """0 orders to far too many, with the bytes of a part order behind them."""
    for count, (turn, tail) in product((0, 1, 2, 3, 31, 63, 64, 65, 66, 128, 1000), enumerate(TAILS)):
        expected = (2, 0, 0) if count > MOST else (0, count, good(count - 1).length if count else 0)
        yield write_list("%d orders and %d bytes, %d" % (count, len(tail), turn), expected, some_good(count), tail=tail)
    for start in range(20):
        yield write_list("64 orders, from %d on" % start, (0, 64, good(start + 63).length), some_good(64, start))
        yield write_list("65 orders, from %d on" % start, (2, 0, 0), some_good(65, start))


FAULTY = {"a stretch that leaves the data": Order(0, 0, 100, 1), "no such block": Order(7, 0, 0, 1), "a short write": Order(4, 7, 0, 2)}


def too_many_cases():
    """65 orders, one of which would end the list before the last: 2 all the same, and nothing written. Numbers that 8 or 16 bits would cut to few."""
    for count in (256, 257, 320, 65536, 65537, 65600):
        yield write_list("%d orders" % count, (2, 0, 0), [good(8)] * count)
    for (name, order), at in product(FAULTY.items(), (0, 1, 63, 64)):
        yield write_list("65 orders, %s at %d" % (name, at), (2, 0, 0), placed(some_good(64), at, order))
        yield write_list("65 orders and 31 bytes, %s at %d" % (name, at), (2, 0, 0), placed(some_good(64), at, order), tail=b"\1" * 31)


# What refuses every order: state, volume, number.
UNFIT = {"edition 3": (packed(MAP, edition=3), VOLUME, 111), "a mark past the blocks": (packed(MAP, mark=8), VOLUME, 111),
         "no map": (bytes(STATE_BYTES), VOLUME, 111), "ones all over": (b"\xff" * STATE_BYTES, VOLUME, 111),
         "a volume a byte short": (STATE, VOLUME[:LENGTH - 1], 5), "no volume": (STATE, b"", 5),
         "disabled": (packed(MAP, attributes=DISABLED), VOLUME, 15), "every block protected": (packed(MAP, mark=0), VOLUME, 15)}


def unfit_cases():
    """An empty list, also one of part bytes, and one too long, on what refuses every order; and lists that are refused at once."""
    for name, (state, volume, no) in UNFIT.items():
        for tail, data in product((b"", b"\xff" * 31), (b"", DATA)):
            name_of = "%s, %d bytes of data, %%s and %d bytes" % (name, len(data), len(tail))
            yield write_list(name_of % "no order", (0, 0, 0), [], state, volume, data, tail)
            yield write_list(name_of % "65 orders", (2, 0, 0), some_good(65), state, volume, data, tail)
        for orders in (1, 3, 64):
            yield write_list("%s, %d orders" % (name, orders), (no, 0, 0), some_good(orders), state, volume)


# A refusal or a short write at each place of a list.

REFUSALS = {"stretch one past": (Order(0, 0, 91, 10), 2), "empty stretch one past": (Order(0, 0, 101, 0), 2),
            "stretch far past": (Order(0, 0, 2**64 - 1, 2), 2), "block 7": (Order(7, 0, 0, 1), 2), "block 7, nothing": (Order(7, 0, 0, 0), 2),
            "block 2^64 - 1": (Order(2**64 - 1, 0, 0, 1), 2), "protected": (Order(5, 0, 0, 8), 15), "protected, nothing": (Order(6, 9, 100, 0), 15)}
SHORTS = {"cut at the block's end": (Order(4, 5, 90, 10), 3), "at the block's end": (Order(1, 16, 0, 1), 0), "behind the block's end": (Order(1, 17, 0, 1), 0),
          "far behind": (Order(1, 2**64 - 1, 0, 2), 0), "all the data": (Order(0, 0, 0, 100), 88), "all but a byte": (Order(4, 0, 3, 9), 8)}
PLACES = ((1, 0), (2, 0), (2, 1), (3, 1), (5, 0), (5, 2), (5, 4), (64, 0), (64, 31), (64, 62), (64, 63))     # (orders, place)


def unprotected(count):
    """Orders that succeed in blocks 0 to 4."""
    return [good(i, LENGTHS[:5]) for i in range(count)]


def place_cases(edition):
    """In lists of 1 to 64 orders, with each write rule; from block 5 on all is protected."""
    for (kind, attributes), (count, at) in product(KINDS, PLACES):
        state = packed(MAP, attributes=attributes, edition=edition, mark=5)
        others = unprotected(count - 1)
        for name, (order, no) in REFUSALS.items():
            yield write_list("%s at %d of %d, %s" % (name, at, count, kind), (no, at, 0), placed(others, at, order), state)
        for name, (order, stored) in SHORTS.items():
            yield write_list("%s at %d of %d, %s" % (name, at, count, kind), (4, at, stored), placed(others, at, order), state)


def then_cases():
    """What comes behind the one that ends the list is not looked at: another refusal, a short write, a good order."""
    ends = {**{name: (order, no, 0) for name, (order, no) in REFUSALS.items()}, **{name: (order, 4, stored) for name, (order, stored) in SHORTS.items()}}
    state = packed(MAP, mark=5)
    for (name, (order, no, stored)), (behind, (other, _, _)) in product(ends.items(), ends.items()):
        yield write_list("%s, then %s" % (name, behind), (no, 1, stored), [good(3), order, other, good(4)], state)


def empty_order_cases():
    """A write of no bytes succeeds at any offset; its count is 0, whatever the one before had."""
    for offset, first in product((0, 7, 8, 9, 2**32, 2**64 - 1), (0, 50, 99, 100)):
        nothing = Order(4, offset, first, 0)
        yield write_list("nothing at offset %d from byte %d" % (offset, first), (0, 1, 0), [nothing])
        yield write_list("nothing at offset %d from byte %d, last" % (offset, first), (0, 3, 0), [good(7), good(8), nothing])
        yield write_list("nothing at offset %d from byte %d, first" % (offset, first), (0, 2, 8), [nothing, good(8)])
    yield write_list("64 orders of nothing", (0, 64, 0), [Order(6, 2**64 - 1, 100, 0)] * 64)


# Which refusal comes first.

MIXTURES = tuple(product(("", "edition 3"), ("", "a byte short"), ("", "disabled"), ("", "bad stretch"), ("", "no block", "protected")))


def mixed_order(stretch, block):
    target = {"no block": 7, "protected": 6}.get(block, 3)
    return Order(target, 1, 99, 2) if stretch else Order(target, 1, 98, 2)


def first_number(unlawful, short, disabled, stretch, block):
    """The number of the first refusal at an order's turn, or 0"""
    for is_there, no in ((unlawful, 111), (short, 5), (disabled, 15), (stretch or block == "no block", 2), (block == "protected", 15)):
        if is_there:
            return no
    return 0


def mixed_state(unlawful, short, disabled):
    """The state and the volume with these faults, the last block protected."""
    attributes = DISABLED if disabled else ALL | ONES
    return packed(MAP, attributes=attributes, edition=3 if unlawful else 2, mark=6), VOLUME[:LENGTH - 1 if short else None]


def order_cases():
    """Every mixture of faults in the first order of one and of three, the last of three, and lists of no order and of 65."""
    for faults in MIXTURES:
        state, volume = mixed_state(*faults[:3])
        bad, no, by_state = mixed_order(*faults[3:]), first_number(*faults), first_number(*faults[:3], "", "")
        others = [good(0), good(1)]
        lists = {"one": ([bad], 0), "first": ([bad, *others], 0), "last": ([*others, bad], 0 if by_state else 2)}
        for name, (orders, at) in lists.items():
            expected = (no, at, 0) if no else (0, len(orders), orders[-1].length)
            yield write_list(named("order, " + name, *faults), expected, orders, state, volume)
        yield write_list(named("order, none", *faults), (0, 0, 0), [], state, volume)
        yield write_list(named("order, 65", *faults), (2, 0, 0), [bad] * 65, state, volume)


def length_cases():
    """Too few bytes of state or answer come before all else, and change nothing; more are not looked at, and stay."""
    lists = {"good": (some_good(5), 0), "empty": ([], 0), "65": (some_good(65), 2), "refused": ([good(5), Order(7, 0, 0, 1)], 2),
             "short": ([good(8), Order(4, 7, 0, 2)], 4), "unlawful": (some_good(3), 111), "disabled": (some_good(3), 15), "no volume": (some_good(3), 5)}
    lent_to = {"unlawful": UNFIT["edition 3"], "disabled": UNFIT["disabled"], "no volume": UNFIT["no volume"]}
    answers = {"good": (0, 5, 4), "short": (4, 1, 1), "refused": (2, 1, 0)}
    for (name, (orders, no)), length, room in product(lists.items(), STATE_LENGTHS, ANSWER_LENGTHS):
        state, volume, _ = lent_to.get(name, (STATE, VOLUME, 0))
        expected = None if length < STATE_BYTES or room < ANSWER_BYTES else answers.get(name, (no, 0, 0))
        lent = dict(state=cut_or_more(state, length), volume=volume, answer=filled(room))
        yield write_list("%s, %d of state, %d of answer" % (name, length, room), expected, orders, **lent)


def lent_cases():
    """Volumes shorter than the state's length, as long, and longer; what lies past it stays."""
    for (kind, attributes), more, count in product(KINDS, (-LENGTH, -1, 0, 1, 64), (1, 7, 64)):
        orders = [Order(BLOCKS - 1, 0, 0, 8)] * count
        expected = (5, 0, 0) if more < 0 else (0, count, 8)
        name = "%d orders at the end of 184 bytes, %d lent, %s" % (count, LENGTH + more, kind)
        yield write_list(name, expected, orders, packed(MAP, attributes=attributes), filled(LENGTH + more))


# The stretch and the data.

def stretch(size, first, length):
    """A stretch by itself, and behind another order, into a block that takes it whole; also into a protected and a missing block."""
    inside = first + length <= size
    data, name = filled(size, 0x33), "bytes %d and %d more of %d" % (first, length, size)
    nothing, order = Order(1, 0, size, 0), Order(0, 0, first, length)
    yield write_list(name, (0, 1, length) if inside else (2, 0, 0), [order], data=data)
    yield write_list("one before, " + name, (0, 2, length) if inside else (2, 1, 0), [nothing, order], data=data)
    no = 15 if inside else 2
    yield write_list("protected, " + name, (no, 1, 0), [nothing, order._replace(block=5)], packed(MAP, mark=5), data=data)
    yield write_list("no such block, " + name, (2, 1, 0), [nothing, order._replace(block=9)], data=data)


def stretch_end_cases():
    """Stretches around the end of the data, down to no data."""
    for size in (0, 1, 2, 31, 88):
        near = sorted({n for n in (0, 1, size - 1, size, size + 1, size + 2) if n >= 0})
        for first, length in product(near, near):
            yield from stretch(size, first, length)


FAR = (2**31, 2**32 - 1, 2**32, 2**32 + 1, 2**63 - 1, 2**63, 2**63 + 1, 2**64 - 2, 2**64 - 1)


def stretch_sum_cases():
    """Sums that pass 2^64 or 2^32, and would come out in the data if they wrapped."""
    for size in (0, 1, 40):
        for first in FAR:
            wrapped = {0, 1, 2, 2**63, 2**64 - first, 2**64 - first + size, 2**64 - first + 1, 2**32 - first % 2**32, 2**64 - 1, first}
            for length in sorted(n for n in wrapped if n < 2**64):
                yield from stretch(size, first, length)
        for first, length in product((0, 1, size), FAR):
            yield from stretch(size, first, length)


def before_stretch_cases():
    """111, 5 and 15 of disabled writes come before a stretch that leaves the data."""
    for first, length in ((101, 0), (100, 1), (2**64 - 1, 1), (2**63, 2**63), (1, 2**64 - 1)):
        for name, block in product(("edition 3", "a volume a byte short", "disabled"), (0, 6, 7, 2**64 - 1)):
            state, volume, no = UNFIT[name]
            title = "%s, bytes %d and %d more, block %d" % (name, first, length, block)
            yield write_list(title, (no, 0, 0), [Order(block, 0, first, length)], state, volume)


def shared_cases():
    """The whole data stored by every order; every byte of it by one order each; stretches that overlap."""
    for kind, attributes in KINDS:
        state = packed(MIXED_MAP, attributes=attributes)
        lent = dict(state=state, volume=OLD[:1540], data=NEW[:64])
        blocks = sum(MIXED_MAP[::2])
        yield write_list("all the data into each block, %s" % kind, (0, blocks, 64), [Order(block, 0, 0, 64) for block in range(blocks)], **lent)
        yield write_list("all the data 64 times, %s" % kind, (0, 64, 64), [Order(5, i, 0, 64) for i in range(64)], **lent)
        yield write_list("each byte of the data, %s" % kind, (0, 64, 1), [Order(5, 511 - 7 * i, i, 1) for i in range(64)], **lent)
        yield write_list("stretches that overlap, %s" % kind, (0, 33, 32), [Order(5, 9 * i, i, 32) for i in range(33)], **lent)


# Orders on the same bytes.

def by_rule(attributes, old, *news):
    """What a byte holds after these were written one after the other."""
    if attributes & STICKY:
        for new in news:
            old = old & new if attributes & ONES else old | new
        return old
    return news[-1] if news else old


def overlap_cases():
    """Two and three orders on one byte, in either order; on parts of each other; the same one 64 times."""
    data = bytes((0x0F, 0xF0, 0x55, 0x33, 0xFF, 0x00))
    for (kind, attributes), old in product(KINDS, (0xFF, 0x00, 0xA5)):
        state, volume = packed(MAP, attributes=attributes), bytes([old]) * LENGTH
        for bytes_of in ((0, 1), (1, 0), (2, 3), (4, 5), (5, 4), (0, 1, 2), (2, 1, 0), (3, 3, 3)):
            orders = [Order(3, 5, i, 1) for i in bytes_of]
            done, after = made("bytes %s on %02x, %s" % (list(bytes_of), old, kind), "write list", (state, volume, listed(orders), data, ANSWER), {})
            assert after["v"][125] == by_rule(attributes, old, *(data[i] for i in bytes_of)) and after["v"].count(old) >= LENGTH - 1, done.name
            yield done
        for offsets in ((5, 7), (7, 5), (5, 5, 6), (0, 34, 17), (3, 2, 1, 0)):
            orders = [Order(3, offset, i % 2, 5) for i, offset in enumerate(offsets)]
            yield write_list("5 bytes at each of %s on %02x, %s" % (list(offsets), old, kind), (0, len(offsets), 5), orders, state, volume, data)
        yield write_list("the same order 64 times on %02x, %s" % (old, kind), (0, 64, 6), [Order(3, 34, 0, 6)] * 64, state, volume, data)


def cut_overlap_cases():
    """Good orders on some bytes, then a short write or a refusal on the same bytes: these keep what was stored."""
    for kind, attributes in KINDS:
        state = packed(MAP, attributes=attributes, mark=6)
        before = [Order(4, 0, 10, 8), Order(4, 4, 60, 4)]
        yield write_list("short over them, %s" % kind, (4, 2, 5), [*before, Order(4, 3, 0, 100), Order(4, 0, 30, 8)], state)
        yield write_list("refused over them, %s" % kind, (2, 2, 0), [*before, Order(4, 3, 96, 5), Order(4, 0, 30, 8)], state)
        yield write_list("protected behind them, %s" % kind, (15, 2, 0), [*before, Order(6, 0, 0, 8), Order(4, 0, 30, 8)], state)


# Maps, blocks and offsets.

def lengths_of(map_words):
    return [length for count, length in zip(map_words[::2], map_words[1::2]) for _ in range(count)]


def block_end_cases():
    """In each block: to its end, over it by one byte, at it, behind it; other orders before and after."""
    for map_words, name in ((MAP, "4 entries"), (MIXED_MAP, "mixed"), (FULL_MAP, "32 entries")):
        lengths, volume = lengths_of(map_words), filled(total(map_words) + 3)
        for block, length in enumerate(lengths):
            lent = packed(map_words, attributes=KINDS[block % 4][1]), volume, NEW[:600]
            around = [good(block + i, lengths, 600) for i in range(3)]
            size = min(length, 7)
            for what, order, no, stored in (("all of it", Order(block, 0, 1, length), 0, length), ("to its end", Order(block, length - size, 2, size), 0, size),
                                            ("over its end", Order(block, length - size, 3, size + 1), 4, size), ("at its end", Order(block, length, 4, 1), 4, 0),
                                            ("behind its end", Order(block, length + 1, 5, 3), 4, 0), ("more than it", Order(block, 0, 0, length + 1), 4, length)):
                expected = (0, 4, around[2].length) if no == 0 else (4, 2, stored)
                yield write_list("%s, block %d, %s" % (name, block, what), expected, [*around[:2], order, around[2]], *lent)
        past = len(lengths)
        yield write_list("%s, block %d" % (name, past), (2, 1, 0), [good(1, lengths), Order(past, 0, 0, 1), good(2, lengths)], packed(map_words), volume)


def each_block_cases():
    """An order in every block, upwards and downwards, on many maps; the whole block by each."""
    for map_words in (MAP, MIXED_MAP, FULL_MAP, [64, 4], [1, 72], [1, 64, 62, 3, 1, 5], [1, 10] * 32, [2, 40] * 32):
        lengths = lengths_of(map_words)
        orders = [Order(block, 0, block, length) for block, length in enumerate(lengths)]
        for (kind, attributes), (way, step) in product(KINDS, (("upwards", 1), ("downwards", -1))):
            name = "each block of the map %s, %s, %s" % (map_words[:6], way, kind)
            lent = packed(map_words, attributes=attributes), OLD[:total(map_words) + 9], NEW[:1000]
            yield write_list(name, (0, len(orders), orders[::step][-1].length), orders[::step], *lent)


def wide_cases():
    """65,536 blocks of one byte, with marks among them."""
    volume = OLD[:65536]
    for mark in (0, 1, 256, 65535, 65536):
        state = pack(given([65536, 1], 65536, ALL | ONES, mark=mark))
        for block in sorted({0, 255, 256, max(mark - 1, 0), mark, 65535, 65536, 65537, 2**32, 2**32 + 1}):
            no = 2 if block >= 65536 else 15 if block >= mark else 0
            before = [Order(0, 0, 1, 1)] * (mark > 0)
            expected = (no, len(before), 0) if no else (0, len(before) + 1, 1)
            yield write_list("65,536 blocks, mark %d, block %d" % (mark, block), expected, [*before, Order(block, 0, 7, 1)], state, volume)


def edge_cases():
    """Blocks and offsets up to 2^64 - 1, as the second of three orders."""
    for block, offset, length in product((0, 3, 6, 7, 2**32 + 3, 2**64 - 1), EDGES, (0, 1, 8, 9)):
        room = max(LENGTHS[block] - offset, 0) if block < BLOCKS else 0
        stored = min(room, length)
        expected = (2, 1, 0) if block >= BLOCKS else (4, 1, stored) if stored < length else (0, 3, 2)
        yield write_list("block %d, offset %d, %d bytes" % (block, offset, length), expected, [good(0), Order(block, offset, 3, length), Order(6, 1, 0, 2)])
    for block in EDGES:
        yield write_list("block %d" % block, (0, 1, 1) if block < BLOCKS else (2, 0, 0), [Order(block, 0, 99, 1)])


def mark_cases():
    """Each mark, with an order in every block from the first on, and from the last on."""
    for edition, mark in product(EDITIONS, range(BLOCKS + 1)):
        state = packed(MAP, edition=edition, mark=mark)
        upwards = [Order(block, 1, block, 3) for block in range(BLOCKS)]
        name = "edition %d, mark %d, blocks " % (edition, mark)
        yield write_list(name + "upwards", (15, mark, 0) if mark < BLOCKS else (0, BLOCKS, 3), upwards, state)
        yield write_list(name + "downwards", (15, 0, 0) if mark < BLOCKS else (0, BLOCKS, 3), upwards[::-1], state)
        yield write_list(name + "and one that is not there", (15, mark, 0) if mark < BLOCKS else (2, BLOCKS, 0), [*upwards, Order(7, 0, 0, 0)], state)


# The packed state.

def two_orders(name, state, volume, block):
    """A list of two orders on any state; what is answered is the model's matter."""
    done, _ = made(name, "write list", (state, volume, listed([Order(block, 1, 3, 2), Order(0, 0, 0, 5)]), DATA, ANSWER), {})
    return done._replace(name=refused(name, 0 if done.number == 4 else done.number))


def field_cases():
    """Each number of a packed state changed in several ways, and each bit of one."""
    for name, state, block in states():
        whole, volume = pack(state), filled(state.length)
        yield two_orders("state, %s, as it is" % name, whole, volume, block)
        for field, width in FIELDS[1:]:
            place, value = place_of(field), getattr(state, field)
            for other in sorted({n % 256**width for n in (0, 1, 2, 3, 33, value - 1, value + 1, value ^ 0x20, 65537, 256**width - 1)} - {value}):
                changed = whole[:place] + other.to_bytes(width, "little") + whole[place + width:]
                yield two_orders("state, %s, %s %d" % (name, field, other), changed, volume, block)
    _, state, block = list(states())[3]
    for byte in range(STATE_BYTES):
        changed = bytearray(pack(state))
        changed[byte] ^= 1 << byte * 5 % 8
        yield two_orders("state, byte %d" % byte, bytes(changed), filled(state.length), block)


# A list beside its single writes.

def single_writes(chain, state, volume, orders, data):
    """(requests, what the list must answer): the writes of the orders, up to the first that does not succeed"""
    requests, stored = [], 0
    for done, order in enumerate(orders):
        stretch_of = data[order.first:order.first + order.length]
        requests.append(chain.request("write", state, chain.left.get("v", volume), order.block, order.offset, stretch_of, ANSWER))
        no = requests[-1].number
        stored = number(chain.left["a"], 0, 8) if no in (0, 4) else 0
        if no:
            return requests, (no, done, stored)
    return requests, (0, len(orders), stored)


BESIDE = {"good ones": (Order(0, 80, 3, 8), 0), "a short one": (Order(4, 5, 90, 10), 0), "no such block": (Order(7, 0, 0, 1), 2),
          "a protected block": (Order(5, 0, 0, 1), 15)}


def beside_cases():
    """Single writes, and the list from the same bytes on: the same answer, and the same volume."""
    for (name, (order, no)), (kind, attributes), count in product(BESIDE.items(), KINDS, (0, 1, 4, 20)):
        state, volume = packed(MAP, attributes=attributes, mark=5), OLD[count:count + LENGTH + 3]
        orders = [*unprotected(count), order, good(0)]
        chain = Chain(refused("beside %d single writes, %s, %s" % (count, name, kind), no))
        singles, expected = single_writes(chain, state, volume, orders, DATA)
        after = chain.left["v"]
        yield from singles
        done = chain.request("write list", state, volume, listed(orders), DATA, ANSWER)
        assert answered(done, chain.left["a"]) == expected and chain.left["v"] == after, chain.name
        yield done


def chain_cases():
    """The state that opening stored: a list, the first order of which goes over the header, an erase, and the list again; then with the last block protected."""
    for edition, (kind, attributes), map_words in product(EDITIONS, KINDS, (MIXED_MAP, FULL_MAP)):
        own, lengths = header(map_words, attributes=attributes, edition=edition, guid=GUID), lengths_of(map_words)
        blocks = len(lengths)
        chain = Chain("chain, edition %d, %s, %d entries: 15" % (edition, kind, len(map_words) // 2))
        yield chain.request("open", ROOM, own + filled(total(map_words) + 4 - len(own)), 24)
        state = chain.left["s"]
        lowered = state[:40] + (blocks - 1).to_bytes(4, "little") + state[44:]
        orders = listed([Order(0, 0, 0, lengths[0] // 4)] + [good(i, lengths) for i in range(40)])
        yield chain.request("write list", state, chain.left["v"], orders, NEW[:200], ANSWER)
        yield chain.request("erase", state, chain.left["v"], words(1, blocks - 1, END))
        yield chain.request("write list", state, chain.left["v"], orders, NEW[:200], ANSWER)
        yield chain.request("read", state, chain.left["v"], blocks - 1, 0, filled(64), ANSWER)
        yield chain.request("write list", lowered, chain.left["v"], orders, NEW[200:400], ANSWER)


# Moves of many lengths; each list 32 times, with the 32 gaps where ranges are lent near each other.

BLOCK, SIZE = 320, 300      # bytes of the only block, and of the data


def move(i, length):
    """An order of so many bytes: mostly at the end of the data, or of the block, or of both."""
    return Order(0, BLOCK - length if i % 3 else 5 * i % (BLOCK - length + 1), SIZE - length if i % 2 else i, length)


def move_cases(kind, attributes):
    """64 lengths to a list, the longest first, so that all of them are seen afterwards."""
    for most, turn in product((63, 127, 191, 255), range(32)):
        orders = [move(i + turn, length) for i, length in enumerate(range(most, most - 64, -1))]
        name = "%d to %d bytes, %s, turn %d" % (most, most - 63, kind, turn)
        yield write_list(name, (0, 64, most - 63), orders, one_block(BLOCK, attributes), OLD[:BLOCK], NEW[:SIZE])


GROUPS = (count_cases, too_many_cases, unfit_cases, *(partial(place_cases, edition) for edition in EDITIONS), then_cases, empty_order_cases, order_cases,
          length_cases, lent_cases, stretch_end_cases, stretch_sum_cases, before_stretch_cases, shared_cases, overlap_cases, cut_overlap_cases,
          block_end_cases, each_block_cases, wide_cases, edge_cases, mark_cases, field_cases, beside_cases, chain_cases,
          *(partial(move_cases, *kind) for kind in KINDS))
