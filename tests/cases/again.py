"""The cases of the program `trial` once more, as requests of the C program c/calls.c.

An opening, an entry, a search or an append is a request; a run of service calls is a chain of them, from opening or from the
state given, packed. What a run does to its state between these, by the calls that have no entry point, the model does. The lengths of
the state and of the answer vary.
"""

from functools import lru_cache

from calls import Chain, filled, request
from model import volume
from model.loader import ANSWER_BYTES, STATE_BYTES, pack
from trial import BLOCK, ROOM, WORKING, prepared, split

OPEN, RUN, SEARCH, APPEND, EXT_ENTRY, SEARCH_FIRST = 0, 3, 4, 5, 8, 9       # what a case calls
LARGEST_32 = 2**32 - 1


def number(item):
    return int.from_bytes(item, "little")


@lru_cache(None)
def pattern_bytes(pattern, size):
    return bytes(prepared(b"", (number(pattern[:2]), number(pattern[2:])), size))


def lent_bytes(own, pattern, size):
    assert size <= BLOCK
    return own[:size] + pattern_bytes(pattern, size)[len(own):]


def some_more(n):
    """Lengths behind the least, by turns."""
    return (0, 0, 1, 0, 84, 7)[n % 6]


def answer(n):
    return filled(ANSWER_BYTES + some_more(n))


def mode_of(items):
    """The mode of a case, in 32 bits: not 0 where the case's is not."""
    return min(number(items[0]), LARGEST_32) if items else 0


def opening(name, n, lent, base, own, pattern):
    data = lent_bytes(own, pattern, WORKING)[:number(lent)]
    yield request(name, "open", filled(STATE_BYTES + some_more(n), 0x3B), data, number(base))


def searching(name, n, data, kind, instance, *mode):
    yield request(name, "search", mode_of(mode), data, kind[0], number(instance), answer(n))


def first_searching(name, n, data, kind, *mode):
    yield request(name, "search first", mode_of(mode), data, kind[0], answer(n))


def appending(name, n, room, used, kind, body, data, pattern, instance, *mode):
    buffer = lent_bytes(data, pattern, ROOM)[:number(room)]
    yield request(name, "append", mode_of(mode), buffer, number(used), kind[0], body, answer(n))


def ext_entry(name, n, lent, wanted, own, pattern):
    yield request(name, "ext entry", lent_bytes(own, pattern, WORKING)[:number(lent)], number(wanted), answer(n))


def given_state(item):
    """A run's state; a number that does not fit its field becomes the largest that does."""
    guid, length, attributes, base, edition, mark, entries, words = split(item)
    table = [number(words[i:i + 4]) for i in range(0, len(words), 4)]
    return volume.State(guid, number(length), number(attributes), number(base), number(edition),
                        min(number(mark), LARGEST_32), min(number(entries), LARGEST_32), table)


def state_after(state, which, arguments):
    """The state that a call without an entry point leaves."""
    if which == 1:
        return volume.set_attributes(state, number(arguments[0]))[2]
    if which == 7:
        return volume.protect_blocks(state, number(arguments[0]))[1]
    return state


def service_call(chain, n, packed, lent, which, arguments):
    if which == 4:
        block, offset, old = arguments
        return chain.request("read", packed, lent, number(block), number(offset), old, answer(n))
    if which == 5:
        block, offset, data = arguments
        return chain.request("write", packed, lent, number(block), number(offset), data, answer(n))
    return chain.request("erase", packed, lent, *arguments)


def run(name, n, lent, base, own, pattern, given, calls):
    chain, whole, more = Chain(name), bytearray(lent_bytes(own, pattern, WORKING)), filled(some_more(n))
    if given:
        state = given_state(given)
    else:
        data = bytes(whole[:number(lent)])
        yield chain.request("open", filled(STATE_BYTES, 0x3B) + more, data, number(base))
        state = volume.open_volume(data, number(base))[1]
    for i, call in enumerate(split(calls)[1:]):
        which, *arguments = split(call)
        if number(which) not in (4, 5, 6):
            state = state_after(state, number(which), arguments)
            continue
        size = number(arguments[0])
        yield service_call(chain, n + i, pack(state) + more, bytes(whole[:size]), number(which), arguments[1:])
        whole[:size] = chain.left["v"]


MAKERS = {OPEN: opening, RUN: run, SEARCH: searching, APPEND: appending, EXT_ENTRY: ext_entry, SEARCH_FIRST: first_searching}


def requests(cases):
    """The requests of the (subject, case) given; a case of another call has none."""
    for n, (_, case) in enumerate(cases):
        name, what, *items = split(case.script)
        if number(what) in MAKERS:
            yield from MAKERS[number(what)](name.decode(), n, *items)
