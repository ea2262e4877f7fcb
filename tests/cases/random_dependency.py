"""Random dependency expressions, as requests of the C program c/calls.c: each tested and evaluated, some opcodes read and written.

An expression is well formed as it is made, but for a stack that may grow too high; most then have one change.
"""

from random import Random

from calls import ANSWER, filled, request
from cases.dependency import ABSENT, GUIDS, guid, text, version, versions_of
from cases.random_calls import some_answer, some_length
from model.dependency import AND, END, EQ, FALSE, GT, GTE, LT, LTE, NOT, OR, ROWS, TRUE
from model.loader import GUIDS_BYTES, VERSIONS_BYTES

# Few of each, so that rows, GUIDs and versions are often the same. The last but one differs from the one before in a byte.
POOL = (*GUIDS[:3], GUIDS[2][:-1] + b"\x7e", ABSENT)
NUMBERS = (0, 1, 2, 255, 256, 2**31 - 1, 2**31, 2**32 - 1)


def some_version(r, pool):
    return guid(r.choice(pool)) if r.random() < 0.6 else version(r.choice(NUMBERS))


def some_text(r):
    return text(bytes(r.randint(1, 255) for _ in range(r.choice((0, 1, 3, r.randrange(20)))))) if r.random() < 0.05 else b""


def some_truth(r, size, pool):
    """An expression of about so many opcodes that puts a truth. Where the second of two is the longer, the stack grows."""
    if size <= 1:
        return some_text(r) + bytes([r.choice((TRUE, FALSE))])
    if size <= 3 or r.random() < 0.1:
        return some_version(r, pool) + some_version(r, pool) + some_text(r) + bytes([r.choice((EQ, GT, GTE, LT, LTE))])
    if r.random() < 0.2:
        return some_truth(r, size - 1, pool) + bytes([NOT])
    first = r.choice((1, 1, 1, 3, size // 2, size - 2))
    return some_truth(r, first, pool) + some_truth(r, size - 1 - first, pool) + some_text(r) + bytes([r.choice((AND, OR))])


def some_byte(r):
    return r.choice((r.randrange(END + 1), r.randrange(END + 1), END, END + 1, 0, r.randrange(256)))


def changed(r, data):
    """One byte replaced, left out or put in, or the bytes cut."""
    which, at = r.randrange(4), r.randrange(len(data))
    if which == 0:
        return data[:at] + bytes([some_byte(r)]) + data[at + 1:]
    if which == 1:
        return data[:at] + data[at + 1:]
    if which == 2:
        return data[:at] + bytes([some_byte(r)]) + data[at:]
    return data[:at]


def some_expression(r, pool):
    """Now and then on a stack that is almost full."""
    below = r.choice((0,) * 9 + (r.randint(26, 32),))
    data = bytes(r.choice((TRUE, FALSE)) for _ in range(below)) + some_truth(r, r.choice((1, 3, 4, 5, 8, 13, 20, r.randrange(60))), pool)
    data += bytes(r.choice((AND, OR)) for _ in range(below)) + bytes([END]) + r.randbytes(r.choice((0, 0, 0, 1, 20)))
    return changed(r, data) if r.random() < 0.65 else data


def some_table(r):
    """GUIDs, versions and the used number; more bytes than needed, or fewer, now and then."""
    guids = b"".join(r.choice(POOL[:4]) for _ in range(ROWS))
    versions = versions_of(r.choice(NUMBERS) for _ in range(ROWS))
    if r.random() < 0.03:
        guids = (guids + filled(100))[:some_length(r, GUIDS_BYTES)]
        versions = (versions + filled(100))[:some_length(r, VERSIONS_BYTES)]
    return guids, versions, r.choice((ROWS, ROWS, r.randrange(ROWS + 3)))


def some_requests(r, name):
    """An expression tested and evaluated; now and then what stands at one of its bytes read, or written."""
    pool = r.choice((POOL[:1], POOL[:2], POOL[:4], POOL[:4], POOL))
    data = some_expression(r, pool)
    yield request(name, "validate dependency", data)
    yield request(name, "evaluate dependency", data, *some_table(r), ANSWER if r.random() < 0.9 else some_answer(r))
    part = data[r.randint(0, len(data)):]
    if r.random() < 0.1:
        yield request(name, "read opcode", part, some_answer(r))
    elif r.random() < 0.1:
        yield request(name, "write opcode", some_byte(r), part, filled(r.choice((0, 1, 5, 17, r.randrange(40)))), some_answer(r))


def requests(seed, part, count):
    """The requests of so many expressions, from the seed and the part's number."""
    r = Random("dependency %d %d" % (seed, part))
    for i in range(count):
        yield from some_requests(r, "random expression %d.%d.%d" % (seed, part, i))
