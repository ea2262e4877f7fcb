"""Request g on volumes of 16,777,216 bytes and 65,536 blocks, as requests of the C program c/calls.c: lists of thousands of pairs, erased,
and accepted and carried on in a few portions. A name's end says which refusals the requests of that name get.
"""

from functools import partial
from random import Random

from calls import filled
from cases.large_service import BLOCKS, LIMIT, MIXED, ONES, PLAIN, Opened, words
from model.volume import END_OF_LIST as END

EVEN = [BLOCKS, 256]
TO_THE_END = 2**64 - 1


class Accepted(Opened):
    """Requests on a volume and one list."""

    def __init__(self, name, map_words, pairs, attributes=PLAIN | ONES):
        super().__init__(name, map_words, attributes, 9)
        self.start = self.left["v"]
        self.list = words(*(word for pair in pairs for word in pair), END)

    def accept(self):
        return self.request("accept erase", self.state, self.left["v"], self.list, filled(8))

    def carry(self, job, stores):
        return self.request("carry erase", self.state, self.left["v"], self.list, job.to_bytes(8, "little"), stores)

    def erase_at_first(self):
        """An erase of the volume as it was opened."""
        return self.request("erase", self.state, self.start, self.list)

    def job(self):
        return int.from_bytes(self.left["a"], "little")


def shuffled(count):
    """Pairs of one block each, no two the same."""
    return [(block, 1) for block in Random("shuffled").sample(range(BLOCKS), count)]


def nested(count):
    """Pairs [i, 65536 - i): the outer ones first."""
    return [(i, BLOCKS - 2 * i) for i in range(count)]


def overlapping(count):
    """Pairs of 20 blocks up to the last block, each over the last 7 of the one before."""
    return [(BLOCKS - 20 - 13 * i, 20) for i in reversed(range(count))]


def mixed_pairs(count):
    """Pairs of 1 to 40 blocks anywhere."""
    r = Random("mixed")
    firsts = [r.randrange(BLOCKS) for _ in range(count)]
    return [(first, min(r.randint(1, 40), BLOCKS - first)) for first in firsts]


def list_cases(name, map_words, pairs, size, portions):
    """The portions, of the job as it stands; then jobs around the end, whose bytes are so many; then the erase, which leaves the same."""
    chain = Accepted(name + ": 2", map_words, pairs)
    yield chain.first
    yield chain.accept()
    for stores in portions:
        yield chain.carry(chain.job(), stores)
    for job in (size - 1, size, size + 2**32 - 1):
        yield chain.carry(job, 1)
    after = chain.left["v"]
    yield chain.erase_at_first()
    assert chain.left["v"] == after, name


def refused_cases():
    """Ten thousand pairs and a bad one, or a protected block behind them; the same job goes on without."""
    chain = Accepted("10,000 pairs and one more: 2, 15", EVEN, shuffled(10000), PLAIN)
    good, opened = chain.list, chain.state
    yield chain.first
    yield chain.carry(0, 1000001)
    for more in ((BLOCKS, 1), (5, 0), (2**64 - 2, 3)):
        chain.list = good[:-8] + words(*more, END)
        yield chain.accept()
        yield chain.carry(1000001, 1000)
    chain.list = good
    chain.protect(max(first for first, _ in shuffled(10000)))
    yield chain.accept()
    yield chain.carry(1000001, 1000)
    chain.protect(BLOCKS)
    assert chain.state == opened
    yield chain.carry(1000001, 1000)


# (name, map, pairs, bytes of the order, portions)
LISTS = (("10,000 shuffled pairs", EVEN, shuffled(10000), 2560000, (1, 300, 0, 1000000, 1000001, TO_THE_END)),
         ("10,000 shuffled pairs, and again backward", EVEN, shuffled(10000) + shuffled(10000)[::-1], 2560000, (2559999, 0, 1)),
         ("65,536 shuffled pairs", EVEN, shuffled(BLOCKS), LIMIT, (5000000, 5000000, 5000000, 5000000)),
         ("10,000 pairs in each other, the outer first", EVEN, nested(10000), LIMIT, (255, 8000001, TO_THE_END)),
         ("10,000 pairs in each other, the inner first", EVEN, nested(10000)[::-1], LIMIT, (45536 * 256 - 1, 3, 2000000, TO_THE_END)),
         ("5,000 pairs of 20 blocks, each over 7 of the one before", EVEN, overlapping(5000), 65007 * 256, (4096, 13 * 256, 9999999, TO_THE_END)))


def mixed_cases():
    """Lists through 32 map entries, in portions and then erased."""
    for name, pairs in (("mixed pairs", mixed_pairs(10000)), ("pairs in each other", nested(10000)[::-1])):
        chain = Accepted("32 map entries, 10,000 %s" % name, MIXED, pairs)
        yield chain.first
        yield chain.accept()
        for stores in (1, 70000, 0, 900000, TO_THE_END):
            yield chain.carry(chain.job(), stores)
        after = chain.left["v"]
        yield chain.erase_at_first()
        assert chain.left["v"] == after, name


GROUPS = (*(partial(list_cases, *case) for case in LISTS), mixed_cases, refused_cases)
