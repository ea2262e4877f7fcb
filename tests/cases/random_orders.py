"""Random lists of writes, as requests of the C program c/calls.c: mostly lawful ones on small volumes, one after the other, with some orders
that end a list; and lists on the packed states of random_calls.py, half of which are not lawful.
"""

from random import Random

from calls import ANSWER, Chain, filled
from cases.at_random import EDGES, some_map
from cases.headers import total
from cases.loader import cut_or_more, words
from cases.orders import lengths_of
from cases.random_calls import some_answer, some_length, some_packed
from cases.service import given
from model.loader import STATE_BYTES, pack

COUNTS = (0, 1, 1, 2, 2, 3, 4, 5, 6, 8, 12, 16, 24, 32, 48, 63, 64, 64, 65, 66, 100)
RATES = (0, 0, 0.01, 0.02, 0.05, 0.1, 0.3)      # of orders that mostly end the list
CHANGED = (0, 1, 1, 1, 2, 2, 3, 3)              # which of an order's numbers is changed


def some_order(r, lengths, size, rate):
    """An order that succeeds, at this rate with one of its numbers changed."""
    block = r.randrange(len(lengths))
    length = min(r.choice((0, 1, 2, r.randrange(9), r.randrange(40), size)), lengths[block], size)
    numbers = [block, r.randint(0, lengths[block] - length), r.choice((0, size - length, r.randint(0, size - length))), length]
    if r.random() < rate:
        at = r.choice(CHANGED)
        near, other = (len(lengths), lengths[block] - length + r.randrange(4), size - length + 1, size - numbers[2] + 1)[at], numbers[at ^ 1]
        numbers[at] = r.choice((near, near, near, r.choice(EDGES), 2**32 + numbers[at], (r.randrange(4) - other) % 2**64))
    return numbers


def some_list(r, lengths, size):
    """The bytes of a list; some have a part order behind them, a few are cut anywhere."""
    rate = r.choice(RATES)
    numbers = [n for _ in range(r.choice(COUNTS)) for n in some_order(r, lengths, size, rate)]
    data = words(*numbers) + r.randbytes(r.choice((0, 0, 0, 0, 31, r.randrange(32))))
    return data if r.random() < 0.95 else data[:r.randint(0, len(data))]


def some_lawful(r, map_words):
    """A lawful state; some protect blocks, a few have writes disabled."""
    blocks = sum(map_words[::2])
    attributes = r.choice((0x3F,) * 12 + (0x1F,)) | r.choice((0, 0x200)) | r.choice((0, 0x800))
    mark = r.choice((blocks, blocks, blocks, blocks - 1, r.randint(0, blocks)))
    return pack(given(map_words, total(map_words), attributes, 8 * r.randrange(4), edition=r.choice((1, 2)), mark=mark))


def some_lists(r, name):
    """One list, or some one after the other on one volume."""
    map_words = r.choice(([1, 100] + some_map(r), [1, 100] + some_map(r), [1, 72], [r.randint(1, 3), 40] * 32))
    lengths, length, chain = lengths_of(map_words), total(map_words), Chain(name)
    lent = length + r.choice((0,) * 12 + (1, r.randrange(99), -1, -r.randrange(72)))
    volume = r.choice((filled(lent, r.randrange(256)), r.randbytes(lent)))
    for _ in range(r.choice((1, 1, 1, 2, 4))):
        state = r.choice((some_packed(r, map_words), *(some_lawful(r, map_words) for _ in range(4))))
        data = r.randbytes(r.choice((0, 1, r.randrange(20), r.randrange(200), r.randrange(200))))
        state, answer = (state, ANSWER) if r.random() < 0.8 else (cut_or_more(state, some_length(r, STATE_BYTES)), some_answer(r))
        yield chain.request("write list", state, chain.left.get("v", volume), some_list(r, lengths, len(data)), data, answer)


def requests(seed, part, count):
    """At least so many requests, from the seed and the part's number."""
    r, made, i = Random("orders %d %d" % (seed, part)), 0, 0
    while made < count:
        for request_made in some_lists(r, "random list %d.%d.%d" % (seed, part, i)):
            made += 1
            yield request_made
        i += 1
