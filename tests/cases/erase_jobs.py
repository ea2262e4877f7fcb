"""Request g from C: an erase accepted as a job and carried on, as requests of the C program c/calls.c. Those at 16 MiB are in large_jobs.py.

A name's end says which refusals the requests of that name get, those of a chain together.
"""

from functools import partial
from itertools import product

from calls import Chain, filled, request
from cases.byte_lists import LISTS as BYTE_LISTS
from cases.headers import FULL_MAP, MIXED_MAP, total
from cases.loader import STATE_LENGTHS, cut_or_more, named, packed, words
from cases.service import ALL, ONES
from model.volume import END_OF_LIST as END

TO_THE_END = 2**64 - 1      # stores
KINDS = (("to ones", ALL | ONES), ("to zeros", ALL))
DISABLED = ALL & ~0x20 | ONES       # attributes: writes alone are disabled

# Two maps of 7 blocks and 107 bytes, with the lengths of their blocks, and lists with the blocks in the order in which each first names them.
MAP, LENGTHS = [1, 90, 2, 3, 1, 5, 3, 2], (90, 3, 3, 5, 2, 2, 2)
OTHER_MAP, OTHER_LENGTHS = [1, 88, 2, 2, 1, 3, 3, 4], (88, 2, 2, 3, 4, 4, 4)
LISTS = {"one block": ((3, 1), (3,)), "the last block": ((6, 1), (6,)), "two neighbours": ((1, 2), (1, 2)),
         "across map entries": ((2, 3), (2, 3, 4)), "a block named twice": ((2, 1, 4, 1, 2, 1), (2, 4)),
         "nested, the outer first": ((2, 4, 3, 2), (2, 3, 4, 5)), "nested, the inner first": ((3, 1, 2, 3, 1, 6), (3, 2, 4, 1, 5, 6)),
         "in reverse": ((6, 1, 5, 1, 4, 1, 3, 1, 2, 1, 1, 1), (6, 5, 4, 3, 2, 1)), "pairs that overlap": ((4, 2, 3, 2, 5, 2), (4, 5, 3, 6))}
VOLUME = filled(total(MAP) + 5)
STATE = packed(MAP)


def size_of(name, lengths=LENGTHS):
    """Bytes of a list's order."""
    return sum(lengths[block] for block in LISTS[name][1])


def list_of(name):
    return words(*LISTS[name][0], END)


def job_bytes(job):
    return job.to_bytes(8, "little")


def refused(name, number):
    """The name of a request that gets this refusal, or none."""
    return "%s: %d" % (name, number) if number else name


class Jobs(Chain):
    """Requests on one volume, at first the one given."""

    def __init__(self, name, state=STATE, volume=VOLUME):
        super().__init__(name)
        self.state, self.volume = state, volume

    def request(self, call, *arguments):
        done = super().request(call, *arguments)
        self.volume = self.left["v"]
        return done

    def accept(self, blocks, state=None):
        return self.request("accept erase", state or self.state, self.volume, blocks, filled(8))

    def carry(self, blocks, job, stores, state=None):
        return self.request("carry erase", state or self.state, self.volume, blocks, job_bytes(job), stores)

    def erase(self, blocks):
        return self.request("erase", self.state, self.volume, blocks)

    def write(self, block, offset, data):
        return self.request("write", self.state, self.volume, block, offset, data, filled(16))

    def read(self, block, length):
        return self.request("read", self.state, self.volume, block, 0, filled(length), filled(16))

    def job(self):
        """What the last request left in the job's bytes."""
        return int.from_bytes(self.left["a"][:8], "little")


# Power cuts.

def after_stores(name, stores, attributes):
    """The volume whose first so many bytes of a list's order hold the erase value, and all else is as it was."""
    places = [sum(LENGTHS[:block]) + i for block in LISTS[name][1] for i in range(LENGTHS[block])]
    volume = bytearray(VOLUME)
    for place in places[:stores]:
        volume[place] = 0xFF if attributes & ONES else 0
    return volume


def cut_cases(kind, attributes):
    """A cut at each store of a job, carried on from the job answered there and from each earlier one."""
    for name in LISTS:
        blocks, size = list_of(name), size_of(name)
        for cut in range(size + 1):
            for job in range(min(cut, size - 1) + 1):
                chain = Jobs("%s %s, cut after %d stores, carried on from %d" % (name, kind, cut, job), packed(MAP, attributes=attributes))
                yield chain.accept(blocks)
                yield chain.carry(blocks, 0, cut)
                assert chain.volume == after_stores(name, cut, attributes), chain.name
                yield chain.carry(blocks, job, TO_THE_END)
                assert chain.volume == after_stores(name, size, attributes), chain.name


def portion_cases(kind, attributes):
    """Carried on by the same number over and over, to the end; then the last job once more. Calls between them that store nothing."""
    for name in LISTS:
        blocks = list_of(name)
        for stores in range(1, size_of(name) + 1):
            chain = Jobs("%s %s, by %d" % (name, kind, stores), packed(MAP, attributes=attributes))
            yield chain.accept(blocks)
            job, finished = chain.job(), False
            while not finished:
                yield chain.carry(blocks, job, 0)
                yield chain.read(0, 3)
                done = chain.carry(blocks, job, stores)
                yield done
                job, finished = chain.job(), done.number == 0
            yield chain.carry(blocks, job, stores)


def again_cases():
    """The last job offered again after finished: it stores the same bytes again, and no others."""
    for name in LISTS:
        blocks, size = list_of(name), size_of(name)
        chain = Jobs("%s, the last job again after writes" % name)
        yield chain.accept(blocks)
        yield chain.carry(blocks, 0, size - 1)
        last = chain.job()
        yield chain.carry(blocks, last, 1)
        for block in LISTS[name][1]:
            yield chain.write(block, 0, bytes(LENGTHS[block]))
        yield chain.carry(blocks, last, 0)
        yield chain.carry(blocks, last, TO_THE_END)
        yield chain.carry(blocks, 0, TO_THE_END)


# Jobs and numbers of stores.

FAR = (2**16, 2**31, 2**32, 2**32 + 1, 2**63, 2**64 - 2, 2**64 - 1)


def job_cases():
    """Each job up to the end of the order, at the end, past it and far from it, on two maps."""
    for name, (map_words, lengths) in product(LISTS, ((MAP, LENGTHS), (OTHER_MAP, OTHER_LENGTHS))):
        size = size_of(name, lengths)
        for job, stores in product((*range(size + 2), *FAR, 2**32 + size - 1, 2**64 - size), (0, 1, TO_THE_END)):
            title = refused("%s, job %d of %d, %d stores" % (name, job, size, stores), 2 if job >= size else 0)
            yield request(title, "carry erase", packed(map_words), VOLUME, list_of(name), job_bytes(job), stores)


def foreign_cases():
    """A job offered to another list, which takes it where it gives such a one; then to its own again."""
    for own, other in product(LISTS, LISTS):
        job = size_of(own) - 1
        chain = Jobs(refused("%s, job %d to the list %s" % (own, job, other), 2 if job >= size_of(other) else 0))
        yield chain.accept(list_of(own))
        yield chain.carry(list_of(own), 0, job)
        yield chain.carry(list_of(other), job, 1)
        yield chain.carry(list_of(own), job, 1)


def other_map_cases():
    """A job offered to the same list on another map; then on its own again."""
    for name in LISTS:
        job = size_of(name) - 1
        chain = Jobs(refused("%s, job %d to another map" % (name, job), 2 if job >= size_of(name, OTHER_LENGTHS) else 0))
        yield chain.accept(list_of(name))
        yield chain.carry(list_of(name), 0, job)
        yield chain.carry(list_of(name), job, TO_THE_END, packed(OTHER_MAP))
        yield chain.carry(list_of(name), job, TO_THE_END)


def store_cases():
    """Numbers of stores around what is left, far above it, and such that their sum with the job passes 2^64."""
    for name in LISTS:
        size = size_of(name)
        for job in sorted({0, 1, size // 2, size - 1}):
            left, wrapped = size - job, 2**64 - job
            near = {0, 1, left - 1, left, left + 1, wrapped - 1, wrapped, wrapped + 1, wrapped + size - 1}
            for stores in sorted(n for n in near | {2**32 - 1, *FAR} if n < 2**64):
                yield request("%s, job %d, %d stores" % (name, job, stores), "carry erase", STATE, VOLUME, list_of(name), job_bytes(job), stores)


def empty_list_cases():
    """The terminator alone, on a volume of which all blocks are protected too: 0 is its only job, and nothing is left of it."""
    for blocks, mark in product((words(END), words(END) + b"\xff" * 7, words(END, 0, 9)), (0, 7)):
        chain = Jobs("the empty list, %d bytes, mark %d" % (len(blocks), mark), packed(MAP, mark=mark))
        yield chain.accept(blocks)
        for stores in (0, 1, TO_THE_END):
            yield chain.carry(blocks, 0, stores)
        for job in (1, 2, 107, *FAR):
            yield request("the empty list, job %d: 2" % job, "carry erase", chain.state, VOLUME, blocks, job_bytes(job), 1)
        disabled = packed(MAP, attributes=DISABLED, mark=mark)
        yield request("the empty list, disabled: 15", "accept erase", disabled, VOLUME, blocks, filled(8))
        yield request("the empty list, disabled: 15", "carry erase", disabled, VOLUME, blocks, job_bytes(0), 0)


# Which refusal comes first.

JOB_LENGTHS = (0, 7, 8, 9, 16)
FAULTS = (("edition 3", 111), ("a byte short", 5), ("disabled", 15), ("a bad list", 2), ("no such job", 2), ("protected", 15))
ORDERED = (1, 1, 5, 1)      # 5 bytes


def faulty(faults):
    """The state, the volume, the list and the job that have these faults, and no others."""
    attributes = DISABLED if "disabled" in faults else ALL | ONES
    state = packed(MAP, attributes=attributes, edition=3 if "edition 3" in faults else 2, mark=5 if "protected" in faults else 6)
    blocks = words(*ORDERED, *((7, 1) if "a bad list" in faults else ()), END)
    return state, VOLUME[:total(MAP) - ("a byte short" in faults)], blocks, 5 if "no such job" in faults else 4


def order_cases(call):
    """Every mixture of faults, with every length of state and job. Acceptance does not look at the job's bytes."""
    for turn, chosen in enumerate(product((False, True), repeat=len(FAULTS))):
        faults = [fault for fault, is_there in zip(FAULTS, chosen) if is_there]
        state, volume, blocks, job = faulty([name for name, _ in faults])
        if call == "accept erase":
            faults = [fault for fault in faults if fault[0] != "no such job"]
        for length, room in product(STATE_LENGTHS, JOB_LENGTHS):
            number = 5 if length < 304 or room < 8 else faults[0][1] if faults else 0
            name = refused(named("order, %s, %d of state, %d of job" % (call, length, room), *(name for name, _ in faults)), number)
            lent = cut_or_more(state, length), volume, blocks, cut_or_more(job_bytes(job), room)
            yield request(name, call, *lent, *([] if call == "accept erase" else [(1, 0, TO_THE_END)[turn % 3]]))


def lent_cases():
    """Volumes a byte short, just long enough and longer; what lies past the volume's length stays."""
    for name, more in product(LISTS, (-107, -1, 0, 1, 64)):
        chain = Jobs(refused("%s, volume of 107 bytes, %d lent" % (name, 107 + more), 5 if more < 0 else 0), volume=filled(107 + more))
        yield chain.accept(list_of(name))
        yield chain.carry(list_of(name), 0, 1)
        yield chain.carry(list_of(name), 1, TO_THE_END)


# The state changed between two steps.

def disabled_cases():
    """Writes disabled in between: both operations refuse, and the job goes on when they are enabled again."""
    off = packed(MAP, attributes=DISABLED)
    for name in LISTS:
        blocks, job = list_of(name), size_of(name) // 2
        chain = Jobs("%s, disabled in between: 15" % name)
        yield chain.accept(blocks)
        yield chain.carry(blocks, 0, job)
        for stores in (0, 1, TO_THE_END):
            yield chain.carry(blocks, job, stores, off)
        yield chain.accept(blocks, off)
        yield chain.carry(blocks, job, 1)
        yield chain.carry(blocks, job + 1 if job + 1 < size_of(name) else job, TO_THE_END)


def protected_cases():
    """Blocks protected in between, from each on, also one whose bytes are stored already; then none again."""
    for name, mark in product(LISTS, range(8)):
        blocks, job = list_of(name), size_of(name) - 1
        chain = Jobs(refused("%s, protected from block %d on in between" % (name, mark), 15 if mark <= max(LISTS[name][1]) else 0))
        yield chain.accept(blocks)
        yield chain.carry(blocks, 0, job)
        for stores in (0, 1):
            yield chain.carry(blocks, job, stores, packed(MAP, mark=mark))
        yield chain.accept(blocks, packed(MAP, mark=mark))
        yield chain.carry(blocks, job, 1)


def other_state_cases():
    """Another erase value, edition, base or write rule in between: the job goes on by the state that it is given."""
    others = {"to zeros": packed(MAP, attributes=ALL), "edition 2": packed(MAP, edition=2), "base 5": packed(MAP, base=5),
              "sticky": packed(MAP, attributes=ALL | ONES | 0x200), "reads disabled": packed(MAP, attributes=(ALL | ONES) & ~4)}
    for name, (what, state) in product(LISTS, others.items()):
        chain = Jobs("%s, then %s" % (name, what))
        yield chain.accept(list_of(name))
        yield chain.carry(list_of(name), 0, 1)
        yield chain.carry(list_of(name), 1, TO_THE_END, state)


# An erase beside its two operations; longer orders.

def both_ways(name, map_words, attributes, blocks, volume):
    """An erase, and on the same bytes acceptance and carrying on to the end: the same number, or the same bytes."""
    chain = Jobs(name, packed(map_words, attributes=attributes), volume)
    erased = chain.erase(blocks)
    after, chain.volume = chain.volume, volume
    accepted = chain.accept(blocks)
    carried = chain.carry(blocks, 0, TO_THE_END)
    assert erased.number == accepted.number == carried.number and chain.volume == after, name
    return erased, accepted, carried


def beside_cases():
    volume = filled(1540)
    bad = ("no word", "a pair", "a first block", "a good pair, then a bad one", "count 0", "a sum that wraps to 1", "a sum that wraps to 8",
           "count 2^64 - 1")
    for kind, attributes in KINDS:
        for name, list_words in BYTE_LISTS.items():
            title = refused("both ways %s, %s" % (kind, name), 2 if name in bad else 0)
            yield from both_ways(title, MIXED_MAP, attributes, words(*list_words), volume)
        for name in LISTS:
            yield from both_ways("both ways %s, %s" % (kind, name), MAP, attributes, list_of(name), VOLUME)


def long_lists(blocks):
    """(name, pairs) on so many blocks"""
    yield "in reverse", [(block, 1) for block in reversed(range(blocks))]
    yield "every third, every second, all", [(block, 1) for step in (3, 2, 1) for block in range(0, blocks, step)]
    yield "nested, the outer first", [(i, blocks - 2 * i) for i in range(blocks // 2)]
    yield "nested, the inner first", [(i, blocks - 2 * i) for i in reversed(range(blocks // 2))]
    yield "each over half of the one before", [(i, min(8, blocks - i)) for i in range(0, blocks, 4)]
    yield "the same pair again and again", [(1, blocks - 2)] * 300


def named_bytes(map_words, pairs):
    """How many bytes the blocks have that the pairs name."""
    lengths = [length for count, length in zip(map_words[::2], map_words[1::2]) for _ in range(count)]
    return sum(lengths[block] for block in set().union(*(range(first, first + count) for first, count in pairs)))


def long_cases(map_words, most, portions):
    """Lists of up to so many pairs, both ways and in a few portions; and jobs around the end."""
    state, volume = packed(map_words), filled(total(map_words) + 3)
    for name, pairs in long_lists(sum(map_words[::2])):
        name, pairs = "%d blocks, %s" % (sum(map_words[::2]), name), pairs[-most:]
        blocks, size = words(*(word for pair in pairs for word in pair), END), named_bytes(map_words, pairs)
        yield from both_ways(name, map_words, ALL | ONES, blocks, volume)
        chain = Jobs(name + ", in portions: 2", state, volume)
        yield chain.accept(blocks)
        for stores in portions:
            yield chain.carry(blocks, chain.job(), stores)
        for job, stores in ((size - 1, 0), (size - 1, 1), (size, 1), (size // 2, size - size // 2 - 1), (size // 2, size - size // 2)):
            yield chain.carry(blocks, job, stores)


GROUPS = (*(partial(group, *kind) for group in (cut_cases, portion_cases) for kind in KINDS), again_cases, job_cases, foreign_cases,
          other_map_cases, store_cases, empty_list_cases, partial(order_cases, "accept erase"), partial(order_cases, "carry erase"),
          lent_cases, disabled_cases, protected_cases, other_state_cases, beside_cases,
          partial(long_cases, FULL_MAP, 100, (1, 700, 0, 55, 700, 2**64 - 1)),
          partial(long_cases, [65536, 1], 2000, (1, 777, 0, 1200, 2**64 - 1)))
