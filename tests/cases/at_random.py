"""Random cases of the program `trial`, and their parts: each function makes one from a `Random`."""

import trial
from cases.editions import PI_LAWFUL, entry, extended, image
from cases.headers import header, total
from cases.long_headers import LONG, by_turns, long_compression, long_guided, long_section
from cases.service import given
from cases.streams import compression, guided, section, stream
from model.sections import FRAMEWORK, PI
from model.volume import END_OF_LIST, open_volume

EDGES = (0, 1, 2, 3, 7, 8, 63, 64, 65, 127, 128, 2**16, 2**31, 2**32 - 1, 2**32, 2**63, 2**64 - 2, 2**64 - 1)
TYPES = (1, 2, 0x10, 0x18, 0x19, 0x19)      # to be searched for


def some_map(r):
    lengths = r.choice(((1, 16, 31, 64, 80, 100), (16, 17), (80,)))
    return [word for _ in range(r.choice((1, 1, 2, 3, 5, 9))) for word in (r.randint(1, 4), r.choice(lengths))]


def some_attributes(r, edition):
    lawful = 0xEFF if edition == 1 else 0xFEFF
    attributes = r.getrandbits(16) & lawful | r.choice((0, 0x24, 0x3F))
    aligned = r.choice((0, 0, 0x8000, 0xFFFF8000)) if edition == 1 else r.getrandbits(32) & r.choice((0, 0, 0x801F0000))
    return attributes | aligned | r.choice((0, 0, 0, 0, 0, 0, 1 << r.randrange(32)))


def some_entry(r):
    size = r.choice((4, 4, 5, 8, 13))
    return entry(size, r.getrandbits(16), r.randbytes(size - 4))


def some_extended(r):
    """An extended header, in most cases a good one."""
    ext = bytearray(extended(*[some_entry(r) for _ in range(r.randrange(4))]))
    if r.random() < 0.3:
        place = r.choice((16, 16, 16, 17, 19, 20, 20, 21, r.randrange(len(ext))))
        if place < len(ext):
            ext[place] = r.choice((0, 3, 4, 19, 20, ext[place] ^ 1, ext[place] - 1 & 255, ext[place] + 1 & 255))
    return bytes(ext)


def some_image(r, map_words, edition):
    """A header, and in edition 2 mostly an extended one behind it; in edition 1 sometimes bytes 52 and 53 all the same."""
    size, length, ext = 64 + 4 * len(map_words), total(map_words), some_extended(r)
    odd = r.choice((size - 1, length - len(ext) + 1, r.getrandbits(16)))
    offset = r.choice((0, size, size, size + r.randrange(9), length - len(ext), length - len(ext), odd))
    offset = max(offset, 0) if edition == 2 or r.random() < 0.3 else 0
    own = header(map_words, attributes=some_attributes(r, edition), edition=edition, offset=offset)
    return own + b"\xff" * (offset - size) + ext if size <= offset <= 2000 else own


def some_opening(r, name):
    return trial.opening(name, *some_lent_image(r), r.choice((0, 0, 4, 8, 2**64 - 8)))


def some_good_entry(r, name):
    """An entry that is there, of an extended header anywhere behind the header."""
    map_words = [1, 250] + some_map(r)
    entries = [some_entry(r) for _ in range(r.randint(1, 5))]
    ext, size, length = extended(*entries), 64 + 4 * len(map_words), total(map_words)
    offset = r.choice((size, r.randint(size, length - len(ext)), length - len(ext)))
    own = image(ext, offset, map_words, attributes=r.getrandbits(32) & PI_LAWFUL)
    return trial.ext_entry(name, own, r.choice((length, 4096)), r.randrange(len(entries)))


def some_ext_entry(r, name):
    if r.random() < 0.5:
        return some_good_entry(r, name)
    return trial.ext_entry(name, *some_lent_image(r), r.choice((0, 0, 0, 1, 1, 2, 3, r.choice(EDGES))))


def some_lent_image(r):
    """The first bytes of a volume, some of them changed, and how many bytes are lent."""
    map_words = [1, r.choice((64, 72, 96, 140, 140, 140))] + some_map(r)[:r.choice((0, 4, 6))]
    own = bytearray(some_image(r, map_words, r.choice((1, 2, 2))))
    for _ in range(r.choice((0, 0, 0, 1, 1, 2))):
        own[r.choice((r.randrange(len(own)), r.choice((32, 40, 45, 48, 49, 52, 55, 56, 60, 64))))] ^= 1 << r.randrange(8)
    if r.random() < 0.9:
        own = header_sum(own)
    length = int.from_bytes(own[32:40], "little")
    return bytes(own), r.choice((length % 4096, length % 4096, 4096, 4096, 4096, r.choice((71, 72, len(own) - 1, len(own)))))


def header_sum(own):
    size = min(int.from_bytes(own[48:50], "little") & ~1, len(own))
    own[50:52] = bytes(2)
    total = sum(int.from_bytes(own[i:i + 2], "little") for i in range(0, size, 2))
    own[50:52] = (-total % 65536).to_bytes(2, "little")
    return own


CHANGES = (0, 4, 0x20, 0x80, 0x24, 0x2000, 0x8000, 0x2004, 0x8020, 0xA000, 0x2080)


def some_call(r, lent, blocks, settings):
    block = r.choice((r.randrange(blocks + 1), r.choice(EDGES)))
    offset = r.choice((0, 0, 1, 15, 16, r.choice(EDGES)))
    lent = r.choice((lent, lent, lent, lent - 1, 4096))
    words = [r.choice((r.randrange(blocks + 1), r.randrange(blocks), r.choice(EDGES))) for _ in range(2 * r.randint(0, 3))]
    words[1::2] = [r.choice((1, 1, 2, r.choice(EDGES))) for _ in words[1::2]]
    mark = r.choice((blocks, blocks - 1, r.randrange(blocks + 1), r.randrange(blocks + 1), r.choice(EDGES)))
    return r.choice((("settings",), ("address",), ("size", block), ("set", settings ^ r.choice(CHANGES + (1 << r.randrange(32),))),
                     ("read", lent, block, offset, r.randrange(80)), ("write", lent, block, offset, r.randbytes(r.randrange(80))),
                     ("erase", lent, words + [END_OF_LIST] * r.choice((0, 1, 1, 1))), ("protect", mark)))


def some_mark(r, blocks):
    """A mark of so many blocks, mostly a lawful one."""
    odd = r.choice((0, blocks + 1, 2**32, 2**64 - 1, r.choice(EDGES)))
    return r.choice((blocks, r.randint(0, blocks), r.randint(0, blocks), r.randint(0, blocks), odd))


def some_state(r, map_words, attributes, edition):
    """A given state: half of them have no fault but in the attributes or the mark."""
    length, mark, table = total(map_words), some_mark(r, sum(map_words[::2])), list(map_words)
    if r.random() < 0.5:
        return given(table, length, attributes, 8, edition=edition, mark=mark)
    if r.random() < 0.5:
        table[r.randrange(len(table))] = r.choice(EDGES) % 2**32
    beyond = [(r.randrange(64), 1)] if r.random() < 0.2 else []
    edition = r.choice((edition, edition, edition, edition, r.choice(EDGES) % 2**32))
    return given(table, length, attributes, r.choice((0, 4, 8)), r.choice((None, None, 0, 33, len(table))), beyond, edition, mark)


def some_run(r, name):
    map_words = [1, 100] + some_map(r)
    length, edition = total(map_words), r.choice((1, 2))
    given_state = r.random() < 0.3
    own = b"" if given_state else some_image(r, map_words, edition)
    attributes = some_attributes(r, edition) if given_state else int.from_bytes(own[44:48], "little")
    calls = [some_call(r, length, sum(map_words[::2]), attributes) for _ in range(6)]
    if not given_state:
        base = r.choice((0, 8))
        good = open_volume(trial.prepared(own, trial.PATTERN, trial.WORKING), base)[0] == 0
        return trial.run(name, own, calls, base=base) if good else some_run(r, name)
    return trial.run(name, b"", calls, state=some_state(r, map_words, attributes, edition))


def some_mode(r):
    return r.choice((FRAMEWORK, FRAMEWORK, PI, PI, PI, r.choice(EDGES[1:])))


def some_stream(r, levels, longs):
    """Sections, of which so many in the average have a long header."""
    parts = []
    for _ in range(r.choice((0, 1, 1, 2, 3))):
        which, long = r.random(), r.random() < longs
        if which < 0.3 and levels:
            parts.append((long_compression if long else compression)(some_stream(r, levels - 1, longs), r.choice((0, 0, 0, 1))))
        elif which < 0.6 and levels:
            more = bytes(r.choice((0, 0, 1, 4)))
            contents, attributes = some_stream(r, levels - 1, longs), r.choice((0, 0, 2, 1))
            parts.append(long_guided(contents, attributes, 28 + len(more), more) if long else guided(contents, attributes, 24 + len(more), more))
        else:
            kind = r.choice((0x10, 0x18, 0x19, 0x19))
            body = bytes(r.choice((16, 16, 17, 15) if kind == 0x18 else (0, 1, 3, 16, 17)))
            parts.append((long_section if long else section)(kind, body))
    return stream(*parts)


def some_longs(r, mode):
    return r.choice((0, 0, 0, 0.3)) if mode == FRAMEWORK else r.choice((0, 0.3, 0.5, 1))


def near_long(r, data):
    """A byte changed in a long header or in the fields behind it, where there is one."""
    places = [at for at in range(len(data)) if data[at:at + 3] == LONG]
    if places:
        at = r.choice(places) + r.choice((0, 2, 3, 4, 4, 4, 5, 7, 8, 8, 9, 12, 12, 24, 24, 25, 26))
        if at < len(data):
            data[at] = r.choice((0, 1, 255, data[at] + 1 & 255, data[at] - 1 & 255, data[at] + 4 & 255, data[at] - 4 & 255))


def with_fault(r, data):
    """A bit changed, FF FF FF set somewhere, a long header changed, or the end cut off."""
    which = r.random()
    if data and which < 0.3:
        data[r.randrange(len(data))] ^= 1 << r.randrange(8)
    elif data and which < 0.5:
        at = r.randrange(len(data)) & r.choice((~3, ~3, ~0))
        data[at:at + 3] = LONG[:len(data) - at]
    elif which < 0.9:
        near_long(r, data)
    else:
        del data[max(0, len(data) - r.randrange(12)):]


def searched_stream(r, mode):
    """A stream, in about half the cases with a fault."""
    data = bytearray(some_stream(r, r.choice((0, 1, 3, 9)), some_longs(r, mode)))[:2000]
    if r.random() < 0.5:
        with_fault(r, data)
    if r.random() < 0.3:
        data += r.choice((bytes(1), bytes(3), LONG, (LONG + b"\x19\x08\x00\x00\x00")[:r.randint(4, 8)]))
    return bytes(data)


def some_search(r, name):
    mode = some_mode(r)
    data = searched_stream(r, mode)
    instance = r.choice((0, 0, 1, 2, r.choice(EDGES)))
    return trial.searching(name, data, r.choice(TYPES), instance, mode)


def some_first_search(r, name):
    mode = some_mode(r)
    return trial.first_searching(name, searched_stream(r, mode), r.choice(TYPES), mode)


def some_total(r, size):
    """A total that is announced, mostly that of the bytes that come or one near to it."""
    near = max(0, size + r.choice((-9, -4, -3, -2, -1, 1, 2, 3, 4, 9)))
    odd = r.choice((0, 2**24, 2**24 + 1, 2**26, 2**26 + 1, r.choice(EDGES)))
    return r.choice((size, size, size, size, size, size, near, near, r.randint(0, 2 * size + 4), odd))


def some_file(r, mode):
    """A stream, sometimes inside five to eight holders."""
    data = searched_stream(r, mode)[:200]
    holders = (compression, guided) if mode == FRAMEWORK else (compression, guided, long_compression, long_guided)
    return data if r.random() < 0.8 else by_turns(r.randint(5, 8), data, r.sample(holders, 2))


def some_receive(r, name):
    mode = some_mode(r)
    data = some_file(r, mode)
    total = some_total(r, len(data))
    came = r.choice((data, data, data, data[:r.randint(0, len(data))], data + r.randbytes(r.choice((1, 2, 20)))))
    lengths = [r.choice((0, 1, 2, 3, r.randrange(9), r.randrange(40), r.choice(EDGES))) for _ in range(r.choice((0, 1, 2, 4, 9)))]
    kind = r.choice(TYPES + tuple(data[3:4]) * 9)       # mostly that of the first section
    return trial.receiving(name, came, total, kind, r.choice((0, 0, 0, 1, 2, r.choice(EDGES))), lengths, mode)


def some_append(r, name):
    mode = some_mode(r)
    old = some_stream(r, 2, some_longs(r, mode))[:300]
    room = r.choice((r.randrange(64), len(old) + r.randrange(50), 512))
    used = r.choice((0, len(old), len(old), r.randrange(64), room, room + 1))
    return trial.appending(name, room, used, r.choice((1, 2, 0, 0x18, 0x18, 0x19, 0x19)), bytes(r.randrange(40)), old, r.randrange(3), mode=mode)


def some_writing(r, name):
    map_words = r.choice(([1, 80] + some_map(r), some_map(r), some_map(r)[:-1]))
    length = sum(map_words[i] * map_words[i + 1] for i in range(0, len(map_words) - 1, 2)) + r.choice((0, 0, 0, 1))
    room, guid, edition = r.choice((512, r.randrange(120))), r.randbytes(16), r.choice((1, 2))
    attributes = some_attributes(r, r.choice((1, 2, edition, edition)))
    if edition == 1:
        return trial.header_writing(name, room, guid, length, attributes, map_words)
    return trial.pi_header_writing(name, room, guid, length, attributes, r.getrandbits(16), map_words)


def some_sums(r, name):
    data = r.choice((r.randbytes(r.randrange(80)), b"\xff" * r.randrange(80), header([1, 80] + some_map(r))))
    return trial.word_sums(name, bytes(data))


KINDS = (some_opening, some_opening, some_ext_entry, some_run, some_run, some_search, some_search, some_first_search, some_first_search,
         some_receive, some_receive, some_receive, some_append, some_writing, some_sums)
