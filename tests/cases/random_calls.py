"""Random requests of the C program c/calls.c: the parts of at_random.py, packed states with random damage, chains of erase jobs."""

from random import Random

from calls import filled, request
from cases import again
from cases.at_random import (EDGES, TYPES, some_attributes, some_good_entry, some_lent_image, some_longs, some_map, some_run,
                             some_state, some_stream, searched_stream)
from cases.erase_jobs import Jobs
from cases.headers import total
from cases.loader import cut_or_more, words
from cases.service import given
from model.loader import ANSWER_BYTES, FIELDS, JOB_BYTES, STATE_BYTES, pack, place_of
from model.volume import END_OF_LIST

MODES = (0, 0, 0, 1, 1, 2, 256, 65536, 2**31, 2**32 - 1)


def some_length(r, least):
    """A length that is mostly the least."""
    return r.choice((least,) * 12 + (least + 1, least + r.randrange(100), least + 8, least - 1, r.randrange(least), 0))


def some_answer(r):
    return filled(some_length(r, ANSWER_BYTES), r.randrange(256))


def some_lent(r):
    own, lent = some_lent_image(r)
    return cut_or_more(own, lent)


def some_open(r, name):
    yield request(name, "open", filled(some_length(r, STATE_BYTES), r.randrange(256)), some_lent(r), r.choice((0, 0, 4, 8, r.choice(EDGES))))


def some_entry(r, name):
    if r.random() < 0.5:
        yield from again.requests([("ext entry", some_good_entry(r, name))])
    else:
        yield request(name, "ext entry", some_lent(r), r.choice((0, 0, 1, 2, r.choice(EDGES))), some_answer(r))


# The packed state.

def changed_bit(r, packed):
    packed[r.randrange(STATE_BYTES)] ^= 1 << r.randrange(8)


def changed_byte(r, packed):
    packed[r.choice((r.randrange(STATE_BYTES), r.randrange(72)))] = r.choice((0, 1, 255, r.randrange(256)))


def changed_field(r, packed):
    field, width = r.choice(FIELDS[1:])
    place = place_of(field)
    packed[place:place + width] = (r.choice(EDGES) % 256**width).to_bytes(width, "little")


def exchanged(r, packed):
    """Two 32-bit words of the numbers or of the first map pairs."""
    a, b = (4 * r.randrange(4, 24) for _ in range(2))
    packed[a:a + 4], packed[b:b + 4] = packed[b:b + 4], packed[a:a + 4]


def some_packed(r, map_words):
    """A packed state, about half of them lawful."""
    edition = r.choice((1, 2))
    attributes = some_attributes(r, edition) | r.choice((0, 0x24))
    state = given(map_words, total(map_words), attributes, 8 * r.randrange(4), edition=edition)
    if r.random() < 0.2:
        state = some_state(r, map_words, attributes, edition)
    mark = r.choice((state.first_protected, state.first_protected, r.randint(0, sum(map_words[::2]))))
    state = state._replace(first_protected=mark % 2**32, entries=state.entries % 2**32)
    packed = bytearray(pack(state))
    if r.random() < 0.25:
        r.choice((changed_bit, changed_byte, changed_field, exchanged))(r, packed)
    return bytes(packed)


def some_list(r, blocks):
    """An erase list: pairs, mostly good ones, the terminator or none, then up to seven bytes or a cut anywhere."""
    numbers = []
    for _ in range(r.choice((0, 1, 1, 2, 3, 9))):
        first = r.randrange(blocks)
        numbers += [first, r.randint(1, blocks - first)] if r.random() < 0.85 else [r.choice((first, blocks, r.choice(EDGES))), r.choice((0, 1, 2, r.choice(EDGES)))]
    numbers += [END_OF_LIST] * r.choice((1, 1, 1, 1, 0)) + [r.choice(EDGES) for _ in range(r.choice((0, 0, 0, 1, 2)))]
    data = words(*numbers) + r.choice((b"\xff", b"\x00", b"\x07")) * r.choice((0, 0, 0, r.randrange(8)))
    return data if r.random() < 0.9 else data[:r.randint(0, len(data))]


def some_service(r, name):
    map_words = r.choice(([1, 100] + some_map(r), [1, 100] + some_map(r), [1, 72], [r.randint(1, 3), 40] * 32))
    length, blocks = total(map_words), sum(map_words[::2])
    state = cut_or_more(some_packed(r, map_words), some_length(r, STATE_BYTES))
    lent = length + r.choice((0, 0, 0, 0, 0, 0, 1, r.randrange(99), -1, -r.randrange(72)))
    data = r.choice((filled(lent, r.randrange(256)), r.randbytes(lent)))
    block = r.choice((r.randrange(blocks), r.randrange(blocks), blocks - 1, blocks, r.choice(EDGES)))
    offset = r.choice((0, 0, 1, 15, r.randrange(100), r.choice(EDGES)))
    call = r.choice(("read", "write", "erase", "accept erase", "carry erase"))
    if call == "erase":
        yield request(name, call, state, data, some_list(r, blocks))
    elif call == "accept erase":
        yield request(name, call, state, data, some_list(r, blocks), filled(some_length(r, JOB_BYTES)))
    elif call == "carry erase":
        job = cut_or_more(words(some_place(r, length)), some_length(r, JOB_BYTES))
        yield request(name, call, state, data, some_list(r, blocks), job, some_place(r, length))
    else:
        yield request(name, call, state, data, block, offset, r.randbytes(r.choice((0, 1, r.randrange(20), r.randrange(120)))), some_answer(r))


def some_chain(r, name):
    yield from again.requests([("service", some_run(r, name))])


# Erase jobs.

def some_place(r, length):
    """A job, or a number of stores, of a volume of so many bytes."""
    return r.choice((0, 0, 1, r.randrange(9), r.randrange(length), r.randrange(length), length, r.choice(EDGES)))


def some_good_list(r, blocks):
    """A lawful list, in most of which blocks are named again."""
    firsts = [r.randrange(blocks) for _ in range(r.choice((1, 2, 3, 5, 12)))]
    return words(*(word for first in firsts for word in (first, r.randint(1, min(blocks - first, r.choice((1, 3, blocks)))))), END_OF_LIST)


def some_state_between(r, map_words, attributes):
    """The state that a chain goes on with: mostly the same, else writes disabled, blocks protected, another erase value."""
    off, other = attributes & ~0x20, attributes ^ 0x800
    blocks = sum(map_words[::2])
    chosen = r.choice((attributes,) * 12 + (off, other))
    return pack(given(map_words, total(map_words), chosen, mark=r.choice((blocks,) * 12 + (r.randint(0, blocks),))))


def some_step(r, chain, lists, job, length):
    """A call of a chain: mostly the job last answered is carried on with its own list, which comes first."""
    which = r.random()
    own, other = lists[0], r.choice(lists)
    if which < 0.55:
        return chain.carry(own, job, r.choice((0, 1, 2, r.randrange(30), r.randrange(length), some_place(r, length))))
    if which < 0.7:
        return chain.carry(other, r.choice((0, job, job, max(job - r.randrange(20), 0), some_place(r, length))), some_place(r, length))
    if which < 0.8:
        return chain.write(r.randrange(9), r.randrange(20), r.randbytes(r.randrange(30)))
    if which < 0.85:
        return chain.read(r.randrange(9), r.randrange(40))
    if which < 0.9:
        return chain.erase(other)
    return chain.accept(own)


def some_job_chain(r, name):
    """A list accepted and carried on, with other calls, lists and jobs between, on a small volume of mixed block lengths."""
    map_words = [1, r.choice((100, 140))] + some_map(r)
    length, blocks = total(map_words), sum(map_words[::2])
    attributes = 0x3F | r.choice((0, 0x200)) | r.choice((0, 0x800))
    lists = [some_good_list(r, blocks), some_good_list(r, blocks), some_list(r, blocks)]
    chain, job = Jobs(name, volume=r.randbytes(length + r.choice((0, 0, 7)))), 0
    yield chain.accept(lists[0], pack(given(map_words, length, attributes)))
    for _ in range(r.randint(3, 12)):
        chain.state = some_state_between(r, map_words, attributes)
        done = some_step(r, chain, lists, job, length)
        job = chain.job() if done.call == "carry erase" and done.number == 4 else job
        yield done


# Sections.

def some_search(r, name):
    mode = r.choice(MODES)
    data = searched_stream(r, mode)
    kind = r.choice(TYPES + tuple(data[3:4]) * 2)
    if r.random() < 0.5:
        yield request(name, "search", mode, data, kind, r.choice((0, 0, 1, 2, r.choice(EDGES))), some_answer(r))
    else:
        yield request(name, "search first", mode, data, kind, some_answer(r))


def some_append(r, name):
    mode = r.choice(MODES)
    old = some_stream(r, 2, some_longs(r, mode))[:300]
    room = r.choice((r.randrange(64), len(old) + r.randrange(50), 512))
    used = r.choice((0, len(old), len(old), r.randrange(64), room, room + 1, r.choice(EDGES)))
    kind = r.choice((1, 2, 0, 0x18, 0x19, 0x19, 0x19, r.randrange(256)))
    yield request(name, "append", mode, cut_or_more(old, room), used, kind, r.randbytes(r.randrange(40)), some_answer(r))


KINDS = (some_open, some_entry, some_service, some_service, some_service, some_service, some_chain, some_job_chain, some_search, some_search,
         some_append)


def requests(seed, part, count):
    """At least so many requests, from the seed and the part's number."""
    r, made, i = Random("%d %d" % (seed, part)), 0, 0
    while made < count:
        for request_made in r.choice(KINDS)(r, "random %d.%d.%d" % (seed, part, i)):
            made += 1
            yield request_made
        i += 1
