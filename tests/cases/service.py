"""The calls of the block service, alone and in runs. Setting the mark, and what the mark refuses, is in protection.py.

A line of a case for each call: the case's name, the call, and
  get attributes        number, settings
  set attributes        number, settings, the state afterwards
  get physical address  number, base
  get block size        block, number, block length, consecutive blocks of that length from it on
  read                  block, offset, buffer length, number, count, the buffer's change
  write                 block, offset, data length, number, count
  erase blocks          words of the list, number
  protect blocks        the first protected block wanted, number, the state afterwards
and then the volume's change. Values stand beside 0 and 4 alone. README.md has the fields of a change.
A name's end says which refusals the case gets.
"""

from cases.editions import PI_LAWFUL, entry, extended, image
from cases.headers import A, A_MAP, FULL_MAP, GUID, MIXED_MAP, header
from model.volume import END_OF_LIST as END
from model.volume import State
from trial import ERASED, WORKING, run

ALL = 0x003F            # read and write enabled, each with both capabilities
STICKY, MAPPED, ONES = 0x200, 0x400, 0x800
MIXED = header(MIXED_MAP, attributes=ALL | ONES, guid=GUID)
KINDS = (("plain, erases to ones", ALL | ONES), ("plain, erases to zeros", ALL),
         ("sticky, erases to ones", ALL | ONES | STICKY), ("sticky, erases to zeros", ALL | STICKY))
PAST = (2**16, 2**31, 2**32, 2**63, 2**64 - 1)


def erase(*words, lent=WORKING):
    return ("erase", lent, list(words))


def read(block, offset, size, lent=WORKING):
    return ("read", lent, block, offset, size)


def write(block, offset, data, lent=WORKING):
    return ("write", lent, block, offset, bytes(data))


def sample_cases():
    """P3 to P12 of the scope document, each on sample A as it is opened."""
    a = dict(own=A, lent=2048, pattern=ERASED)
    yield run("A: 12 bytes at block 1 offset 500", calls=[read(1, 500, 12)], **a)
    yield run("A: 13 bytes at block 1 offset 500 are short", calls=[read(1, 500, 13)], **a)
    yield run("A: one byte at offset 512 is short", calls=[read(1, 512, 1)], **a)
    yield run("A: block 4 is not there: 2", calls=[read(4, 0, 1)], **a)
    yield run("A: 0F then F0 leave 00", calls=[write(2, 0, [0x0F]), write(2, 0, [0xF0]), read(2, 0, 2)], **a)
    yield run("A: erase 3, 1, end", calls=[write(3, 0, [0]), erase(3, 1, END)], **a)
    yield run("A: erase 3, 2, end: 2", calls=[write(3, 0, [0]), erase(3, 2, END)], **a)
    yield run("A: erase 2^64 - 2, 3, end: 2", calls=[write(0, 0, bytes(8)), erase(2**64 - 2, 3, END)], **a)
    yield run("A: settings 0x0E3B, reads then refused: 15", calls=[("set", 0x0E3B), read(0, 0, 1), ("settings",)], **a)
    yield run("A: settings 0x0EBF: 2", calls=[("set", 0x0EBF), read(0, 0, 1), ("settings",)], **a)


def erase_page_cases():
    """The example of document 001: the list 5, 3, 10, 2."""
    for kind, attributes in KINDS:
        for blocks, name in ((12, "5, 3, 10, 2 on 12 blocks, %s"), (11, "5, 3, 10, 2 on 11 blocks, %s: 2")):
            own = header([blocks, 256], attributes=attributes)
            yield run(name % kind, own, [erase(5, 3, 10, 2, END)])


def run_maps():
    """(name, map, blocks asked for): runs of equal blocks through neighbouring map entries"""
    yield "two equal neighbours are one run: 2", [2, 512, 2, 512], range(5)
    yield "three entries, the middle one different: 2", [2, 256, 1, 512, 3, 256], range(7)
    yield "a run behind another length and before one: 2", [1, 512, 2, 256, 3, 256, 2, 64], range(9)
    yield "neighbours that differ by one byte: 2", [2, 256, 1, 255, 2, 256, 1, 257, 1, 256], range(8)
    yield "32 equal entries, the first, a middle and the last block: 2", [2, 32] * 32, (0, 1, 31, 32, 33, 62, 63, 64) + PAST
    yield "31 equal entries and a last one of another length: 2", [2, 32] * 31 + [2, 64], (0, 30, 61, 62, 63, 64)
    yield "a first entry of another length and 31 equal ones: 2", [2, 64] + [2, 32] * 31, (0, 1, 2, 3, 33, 63, 64)


def size_cases():
    for block in range(8):
        yield run("size of block %d of a mixed map" % block, MIXED, [("size", block)])
    yield run("size of blocks past a mixed map: 2", MIXED, [("size", block) for block in (8,) + PAST])
    for name, map_words, blocks in run_maps():
        yield run(name, header(map_words), [("size", block) for block in blocks])
    longest = given([32767, 1, 1, 1, 32768, 1], 65536)
    yield run("a run of 65,536 blocks in three entries: 2", b"", [("size", block) for block in (0, 32767, 32768, 65535, 65536)], state=longest)
    high = given([2, 0x100, 1, 0x10100, 2, 0x100, 1, 0x100100], 0x110600)
    yield run("lengths that differ above their low 16 bits: 2", b"", [("size", block) for block in range(7)], state=high)
    full = header(FULL_MAP, attributes=ALL)
    yield run("sizes of the first and the last block of 32 entries, and past it: 2", full, [("size", 0), ("size", 31), ("size", 32)])
    yield run("erases up to the last of 32 entries, and past it: 2", full, [erase(31, 2, END), erase(30, 2, END), erase(0, 32, END)])
    own = header([1, 100, 1, 200], attributes=0)
    yield run("block size asks for no setting", own, [("size", 0), ("size", 1)])
    yield run("block size of a disabled volume, no such block: 2", own, [("size", 2)])


def address_cases():
    for base in (0, 8, 2**64 - 8):
        yield run("address of a mapped volume at %d" % base, A, [("address",)], base=base)
    own = header(attributes=ALL | ONES)
    yield run("address of a volume not mapped: 3", own, [("address",)])
    yield run("address of a volume not mapped, odd base: 3", own, [("address",)], base=5)
    yield run("address with reads and writes disabled", header(attributes=MAPPED), [("address",)], base=16)


def moving_cases():
    """Reads and writes at every edge of a block, for two blocks of a mixed map."""
    for block, length in ((2, 128), (7, 64)):
        for offset in (0, 1, length - 1, length, length + 1) + PAST:
            sizes = (0, 1, 2, length - 1, length, length + 1) if offset < 2 else (0, 1, 2)
            name = "block %d of %d bytes, offset %d" % (block, length, offset)
            yield run("read " + name, MIXED, [read(block, offset, size) for size in sizes])
            yield run("write " + name, MIXED, [write(block, offset, range(1, size + 1)) for size in sizes])
    for block in range(8):
        calls = [read(block, 3, 8), write(block, 3, b"\x00\x55\xaa\xff"), read(block, 0, 8)]
        yield run("read, write, read in block %d of a mixed map" % block, MIXED, calls)
    yield run("reads of blocks past the map: 2", MIXED, [read(block, 0, 1) for block in (8,) + PAST])
    yield run("writes of blocks past the map: 2", MIXED, [write(block, 0, b"\x00") for block in (8,) + PAST])
    yield run("no bytes into a block past the map: 2", MIXED, [read(8, 0, 0), write(8, 0, b"")])
    yield run("the last byte of the volume", MIXED, [read(7, 63, 1), write(7, 63, b"\x00"), write(7, 63, b"\x00\x00")])


def write_rule_cases():
    data = bytes([0x00, 0x0F, 0xF0, 0xFF, 0x55, 0xAA, 0x33, 0xCC])
    for kind, attributes in KINDS:
        own = header(attributes=attributes)
        calls = [write(2, 5, data), write(2, 5, data[::-1]), read(2, 0, 16), erase(2, 1, END), read(2, 0, 16)]
        yield run("write, write again, erase: " + kind, own, calls)
        calls = [erase(2, 1, END), write(2, 0, data), read(2, 0, 8), write(2, 0, b"\x00\xff" * 4), read(2, 0, 8)]
        yield run("erase, write, write over it: " + kind, own, calls)
        yield run("a write past the block's end stays in the block: " + kind, own, [write(1, 508, data), read(2, 0, 4)])
        own = header(MIXED_MAP, attributes=attributes)
        calls = [write(1, 252, data), write(1, 252, data[::-1]), write(4, 0, data), write(5, 504, data), erase(4, 2, END), write(4, 120, data), read(5, 504, 8)]
        yield run("over blocks of three lengths: " + kind, own, calls)


def erase_cases():
    good = {"the empty list": [END], "words after the terminator": [END, 0, 1],
            "a bad pair after the terminator": [1, 1, END, 9, 9, END], "one block": [0, 1, END],
            "the last block": [7, 1, END], "every block": [0, 8, END], "every block, one by one":
            [w for b in range(8) for w in (b, 1)] + [END], "a block named twice": [3, 1, 3, 1, END],
            "overlapping pairs": [1, 3, 2, 4, END], "pairs in falling order": [6, 2, 0, 1, END],
            "across map entries": [1, 5, END]}
    bad = {"no words": [], "no terminator": [0, 1], "a first block alone": [3], "a pair and a first block alone": [0, 1, 3],
           "count 0": [0, 0, END], "count 0 after a good pair": [0, 1, 2, 0, END], "one past the last block": [8, 1, END],
           "a sum one too large": [7, 2, END], "a sum one too large from block 0": [0, 9, END],
           "a good pair, then a bad one": [0, 1, 7, 2, END], "the sum wraps to 1": [2**64 - 2, 3, END],
           "the sum wraps to 0": [2**64 - 2, 2, END], "the sum wraps to the number of blocks": [2**64 - 8, 16, END],
           "count 2^64 - 1": [1, END, END], "count 2^64 - 1 at block 0": [0, END, END], "the terminator as a count only": [0, END],
           "a first block of 2^32": [2**32, 1, END], "a count of 2^32": [0, 2**32, END],
           "count 0 at the number of blocks": [8, 0, END]}
    for name, words in good.items():
        yield run("erase %s" % name, MIXED, [erase(*words)])
    for name, words in bad.items():
        yield run("erase %s: 2" % name, MIXED, [erase(*words)])
    zeros = header(MIXED_MAP, attributes=ALL)
    yield run("every block erased to zeros", zeros, [erase(0, 8, END)])
    yield run("erasing again changes nothing", zeros, [erase(0, 8, END), erase(0, 8, END)])


def set_case(name, old, *wanted, edition=1):
    own = header(attributes=old, edition=edition)
    prefix = "edition 2, " if edition == 2 else ""
    return run("%ssettings 0x%X: %s" % (prefix, old, name), own, [("settings",)] + [("set", new) for new in wanted])


def foreign(old, settable):
    """The settings with one bit changed, for each bit that no call may change."""
    return [old ^ 1 << bit for bit in range(32) if not settable >> bit & 1]


def settings_cases():
    full = 0x7F | ONES
    yield set_case("as they are", full, full)
    for bit in range(32):
        if bit not in (2, 5, 7):
            yield set_case("bit %d changed: 2" % bit, full, full ^ 1 << bit)
    yield set_case("clear and raise each status", full, full & ~4, full, full & ~0x20, full, full & ~0x24, full)
    yield set_case("lock, as they are, unlock, clear read: 15", full, full | 0x80, full | 0x80, full, (full | 0x80) & ~4)
    for name, old, new in (("clear read without 1: 2", 0x0E, 0x0A), ("clear read with 1", 0x05, 0x01),
                           ("raise read without 2: 2", 0x09, 0x0D), ("raise read with 2", 0x02, 0x06),
                           ("clear write without 8: 2", 0x37, 0x17), ("clear write with 8", 0x28, 0x08),
                           ("raise write without 0x10: 2", 0x0F, 0x2F), ("raise write with 0x10", 0x10, 0x30),
                           ("lock without 0x40: 2", 0x3F, 0xBF), ("lock with 0x40", 0x7F, 0xFF),
                           ("two changes, the second lacks its capability: 2", 0x27, 0x03),
                           ("two changes, the first lacks its capability: 2", 0x3E, 0x1A),
                           ("lock and clear read in one call", 0x7F, 0xFB),
                           ("lock without 0x40 and clear read: 2", 0x3F, 0xBB),
                           ("locked, as they are", 0xFF, 0xFF), ("locked, unlock: 15", 0xFF, 0x7F),
                           ("locked, clear read: 15", 0xFF, 0xFB), ("locked, raise write: 15", 0xDF, 0xFF),
                           ("locked, a foreign bit: 2", 0xFF, 0x1FF), ("locked, a foreign bit and read: 2", 0xFF, 0x2FB),
                           ("locked without 0x40, unlock: 15", 0xBF, 0x3F),
                           ("locked, a change without its capability: 15", 0xC4, 0xC0),
                           ("a foreign bit and a missing capability: 2", 0x0E, 0x20A)):
        yield set_case(name, old, new)
    aligned = full | 0x8000
    yield set_case("aligned, each status changes", aligned, aligned & ~0x20, aligned & ~0x24, aligned & ~4, aligned)
    yield set_case("aligned, no lock bits of edition 2: 2", aligned, full, aligned | 0x2000, aligned ^ 0xA000, aligned | 0x1000)


READ_LOCK, WRITE_LOCK = 0x2000, 0x8000
FREE = 0x587F           # both statuses on, every capability of edition 2, erases to ones, no lock


def lock_cases():
    """The settings of edition 2. A refused call leaves the settings, so that the next one starts from the same."""
    def case(name, old, *wanted):
        return set_case(name, old, *wanted, edition=2)
    both = READ_LOCK | WRITE_LOCK
    yield case("each foreign bit changed: 2", FREE, *foreign(FREE, 0xA0A4))
    yield case("as they are, clear and raise each status", FREE, FREE, FREE & ~4, FREE, FREE & ~0x20, FREE, FREE & ~0x24, FREE)
    none = 0x800
    yield case("no capability, raise each: 2", none, *[none | bit for bit in (4, 0x20, 0x80, READ_LOCK, WRITE_LOCK)], none)
    yield case("no capability, clear each: 2", none | 0x24, none | 4, none | 0x20, none, none | 0x24)
    for name, lock, possible in (("read", READ_LOCK, 0x1000), ("write", WRITE_LOCK, 0x4000)):
        status = 4 if name == "read" else 0x20
        other = status ^ 0x24
        yield case("raise the %s lock without its capability: 2" % name, FREE & ~possible, FREE & ~possible | lock, FREE & ~possible | both)
        held = FREE | lock
        off = held & ~status
        yield case("raise the %s lock; its status stays, the other is free: 15" % name, FREE, held, held, FREE,
                   off, held & ~other, held, held & ~0x24, held | both, held & ~other | both)
        yield case("clear %s and lock it in one call; it stays: 15" % name, FREE, off, held, FREE, off & ~other, off, held & ~other)
        yield case("raise %s and lock it in one call; it stays: 15" % name, FREE & ~status, held, off, FREE & ~status, held)
        yield case("%s locked without its capability, lower it: 15" % name, held & ~possible, FREE & ~possible, held & ~possible)
    yield case("one lock lowered and the other raised, both, one lowered, both: 15", FREE | READ_LOCK,
               FREE | WRITE_LOCK, FREE | both, FREE | READ_LOCK, FREE | WRITE_LOCK, FREE)
    shut = FREE | 0x80
    yield case("locked in general, each change: 15", shut, shut & ~4, shut & ~0x20, FREE, shut | READ_LOCK, shut | WRITE_LOCK, shut | both, shut)
    every = FREE | both | 0x80
    yield case("every lock in one call, each change: 15", FREE, every, *[every & ~bit for bit in (4, 0x20, 0x80, READ_LOCK, WRITE_LOCK)], every)
    yield case("foreign bits before the locks: 2", every,
               *[every ^ 4 ^ bit for bit in (0x200, 0x1000, 0x4000, 0x10000, 0x80000000)], every ^ READ_LOCK ^ 0x200, FREE ^ 0x800)
    held = (FREE | READ_LOCK) & ~9
    yield case("the locks before a capability, in read: 15", held, held & ~0x24, held & ~4, held & ~0x20 & ~READ_LOCK)
    held = (FREE | WRITE_LOCK) & ~9
    yield case("the locks before a capability, in write: 15", held, held & ~0x24, held & ~0x20, held & ~4 & ~WRITE_LOCK)
    held = FREE & ~0x49 | READ_LOCK
    yield case("read locked, changes without their capability: 2", held, held & ~0x20, held | 0x80, held & ~0x20 | WRITE_LOCK)
    yield case("clear read without its capability and lock it: 2", FREE & ~1, FREE & ~1 & ~4 | READ_LOCK)


def enabled_cases():
    calls = [read(0, 0, 4), write(0, 0, b"\x00"), erase(1, 1, END), ("size", 0)]
    for name, attributes in (("reads disabled", ALL & ~4), ("writes disabled", ALL & ~0x20), ("both disabled", ALL & ~0x24)):
        own = header(attributes=attributes | ONES)
        yield run("%s at opening: 15" % name, own, calls)
        yield run("%s by the settings and raised again: 15" % name, header(attributes=ALL | ONES),
                  [("set", attributes | ONES)] + calls + [("set", ALL | ONES)] + calls)
    own = header(attributes=ONES)
    yield run("disabled, no bytes and the empty list: 15", own, [read(0, 0, 0), write(0, 0, b""), erase(END)])
    yield run("disabled before no such block: 15", own, [read(4, 0, 1), write(4, 0, b"\x00"), erase(4, 1, END)])
    yield run("disabled before a bad list: 15", own, [erase(), erase(0, 0, END), erase(3, 2, END)])
    yield run("settings locked, reads and writes still work: 15", header(attributes=ALL | 0xC0), [("set", 0xFF & ~4)] + calls)
    own = header(attributes=FREE, edition=2)
    yield run("edition 2, locked and on, reads and writes still work: 15", own, [("set", FREE | READ_LOCK | WRITE_LOCK), ("set", FREE)] + calls[:3])
    yield run("edition 2, locked and off: 15", own, [("set", FREE & ~0x24 | READ_LOCK | WRITE_LOCK), ("set", FREE)] + calls[:3])


def lent_cases():
    own = header(attributes=ALL | ONES)
    for lent in (0, 72, 2047):
        calls = [read(0, 0, 1, lent), write(0, 0, b"\x00", lent), erase(0, 1, END, lent=lent)]
        yield run("%d bytes lent of 2048: 5" % lent, own, calls)
    calls = [read(3, 511, 1, 2048), write(3, 511, b"\x00", 2048), erase(3, 1, END, lent=2048)]
    yield run("2048 bytes lent of 2048", own, calls)
    calls = [write(3, 508, bytes(8)), erase(0, 4, END), write(4, 0, b"\x00")]
    yield run("bytes past the volume stay, also where they are lent: 2", own, calls)
    none = header(attributes=ONES)
    calls = [read(9, 0, 1, 2047), write(9, 0, b"\x00", 2047), erase(lent=2047), read(9, 0, 1), write(9, 0, b"\x00"), erase()]
    yield run("5 before 15 before 2: 5, 15", none, calls)
    calls = [read(4, 0, 1, 2047), write(4, 0, b"\x00", 2047), erase(4, 1, END, lent=2047)]
    yield run("5 before 2: 5", own, calls)


def header_gone_cases():
    after = [("settings",), ("address",), ("size", 0), read(0, 0, 16), write(3, 0, b"\x12\x34"), read(3, 0, 2), erase(3, 1, END)]
    for kind, attributes in KINDS:
        own = header(attributes=attributes | MAPPED)
        yield run("the header overwritten, the state stays: " + kind, own, [write(0, 0, b"\x5a" * 72)] + after, base=64)
        yield run("the header erased, the state stays: " + kind, own, [erase(0, 1, END)] + after, base=64)
    own = header(attributes=ALL | ONES)
    fake = header([1, 2048], attributes=0)
    yield run("another header written over, the first one's blocks stay", own, [write(0, 0, fake), ("size", 0), ("size", 3), read(3, 0, 4)])


def given(map_words=A_MAP, length=2048, attributes=ALL | ONES, base=0, entries=None, beyond=(), edition=1, mark=None):
    """A state; no block is protected unless told otherwise."""
    table = list(map_words) + [0] * (64 - len(map_words))
    for place, word in beyond:
        table[place] = word
    entries = len(map_words) // 2 if entries is None else entries
    mark = sum(table[:2 * entries:2]) if mark is None else mark
    return State(GUID, length, attributes, base, edition, mark, entries, table)


EVERY_CALL = [("settings",), ("set", ALL | ONES), ("set", 0), ("address",), ("size", 0), ("size", 9), read(0, 0, 4),
              write(0, 0, b"\x00"), erase(0, 1, END), erase(), ("protect", 0)]
REFUSED_CALLS = [read(9, 0, 1, 0), write(9, 0, b"", 0), erase(lent=0), ("address",), ("size", 9), ("set", 1), ("protect", END)]    # by 5, 15, 2 or 3


def seven_calls(settings):
    """Each of the seven calls, as a mapped volume with both statuses on carries it out."""
    return [("settings",), ("set", settings), ("address",), ("size", 0), read(0, 0, 4), write(0, 0, b"\x00"), erase(0, 1, END)]


def unlawful_cases():
    ones = [1, 64] * 32
    ways = {"no entry": given([], 0), "entries 0, a map beyond": given(entries=0),
            "33 entries": given(ones, entries=33), "2^64 - 1 entries": given(entries=2**64 - 1),
            "2^63 entries": given(entries=2**63), "one entry too many": given(entries=2),
            "a count of 0": given([0, 512]), "a length of 0": given([4, 0]), "a second count of 0": given([4, 512, 0, 1]),
            "a second length of 0": given([4, 512, 1, 0]), "length one more": given(length=2049),
            "length one less": given(length=2047), "length 0": given(length=0), "length 2^64 - 1": given(length=2**64 - 1),
            "65,537 blocks": given([65537, 1], 65537), "65,537 blocks over two entries": given([65535, 1, 2, 1], 65537),
            "length 16,777,217": given([1, 16777217], 16777217), "a volume of 71 bytes": given([1, 71], 71),
            "totals that wrap": given([2**32 - 1] * 4, 2 * (2**32 - 1)**2 - 2**64),
            "two entries and 79 bytes": given([1, 15, 1, 64], 79), "attribute 0x100": given(attributes=ALL | 0x100),
            "attribute 0x4000": given(attributes=ALL | 0x4000), "an alignment without 0x8000": given(attributes=ALL | 0x10000),
            "mapped at 4": given(attributes=ALL | MAPPED, base=4),
            "a count beyond the entries": given(beyond=[(2, 1)]), "a length beyond the entries": given(beyond=[(3, 1)]),
            "the last word set": given(beyond=[(63, 1)])}
    for name, state in ways.items():
        yield run("state with %s: 111" % name, b"", EVERY_CALL, state=state)
    state = given(length=2049, attributes=ONES)
    yield run("111 before 5, 15, 2 and 3: 111", b"", REFUSED_CALLS, state=state)


def edition_cases():
    """111 by edition, for each of the calls; and 108 by edition."""
    mapped = ALL | ONES | MAPPED
    for edition in (0, 3, 0x102, 2**32 - 1):
        yield run("state of edition 0x%X: 111" % edition, b"", EVERY_CALL, state=given(edition=edition))
        yield run("state of edition 0x%X, mapped: 111" % edition, b"", seven_calls(mapped), state=given(attributes=mapped, edition=edition))
    for edition, settings in ((1, mapped), (1, 0xFFFF8EFF), (2, mapped), (2, PI_LAWFUL)):
        for base in (0, 8):
            state = given(attributes=settings, base=base, edition=edition)
            yield run("state of edition %d with 0x%X at %d, the seven calls" % (edition, settings, base), b"", seven_calls(settings), state=state)
    yield run("111 for the edition before 5, 15, 2 and 3: 111", b"", REFUSED_CALLS, state=given(attributes=ONES, edition=0x102))
    for edition, attributes, lawful in ((1, 0x1000, False), (2, 0x1000, True), (1, 0x208000, True), (2, 0x208000, False)):
        name = "state of edition %d with 0x%X%s" % (edition, attributes, "" if lawful else ": 111")
        yield run(name, b"", [("settings",), ("set", attributes), ("size", 0)], state=given(attributes=attributes, edition=edition))


def lawful_cases():
    ways = {"as opened": given(), "a volume of 72 bytes": given([1, 72], 72), "two entries and 80 bytes": given([1, 16, 1, 64], 80),
            "32 entries": given([1, 64] * 32, 2048), "mapped at 8": given(attributes=ALL | MAPPED, base=8),
            "not mapped at 4": given(base=4), "every alignment with 0x8000": given(attributes=0xFFFF8000 | ALL)}
    calls = [("settings",), ("size", 0), read(0, 0, 4), write(0, 0, b"\x00"), erase(0, 1, END)]
    for name, state in ways.items():
        own = [("address",), ("set", state.attributes)] if state.attributes & MAPPED else [("set", state.attributes)]
        yield run("state with %s is lawful" % name, b"", calls + own, state=state)
    state = given([65536, 1], 65536)
    yield run("65,536 blocks are lawful: 2, 5", b"", [("size", 0), ("size", 65535), ("size", 65536), read(0, 0, 1)], state=state)
    state = given([1, 16777216], 16777216)
    yield run("length 16,777,216 is lawful: 2, 5", b"", [("size", 0), ("size", 1), write(0, 0, b"\x00")], state=state)


def run_cases():
    calls = [write(1, 10, b"\x0f\x0f"), ("set", 0x0E1F), write(1, 10, b"\x00"), read(1, 9, 4), ("set", 0x0E3F),
             write(1, 10, b"\xf0"), erase(1, 1, 9, 1, END), read(1, 9, 4), erase(1, 1, END), read(1, 9, 4)]
    yield run("a run on sample A: 2, 15", A, calls)
    calls = [erase(2, 3, END), write(4, 120, range(16)), write(5, 0, range(16)), read(4, 120, 16), read(5, 0, 16),
             erase(4, 1, END), read(4, 120, 8), read(5, 0, 16)]
    yield run("a run over a mixed map", MIXED, calls)
    locked = FREE & ~4 | READ_LOCK
    calls = [read(1, 0, 4), ("set", locked), read(1, 0, 4), ("set", FREE | READ_LOCK), write(1, 8, b"\x0f"), ("set", locked & ~0x20),
             write(1, 8, b"\xf0"), ("set", locked), erase(1, 1, END), ("set", FREE), ("set", locked | WRITE_LOCK),
             ("set", (locked | WRITE_LOCK) & ~0x20), erase(2, 1, END), write(2, 0, b"\x33"), read(2, 0, 4), ("set", locked | WRITE_LOCK | 0x80),
             ("set", locked), ("settings",), ("size", 0), read(0, 0, 0), ("set", locked | WRITE_LOCK | 0x80)]
    yield run("a run of edition 2, locks raised one by one: 15", header(attributes=FREE, edition=2), calls)
    calls = seven_calls(FREE | MAPPED | READ_LOCK | WRITE_LOCK)
    yield run("edition 2, opened, the seven calls", header(attributes=FREE | MAPPED, edition=2), calls, base=64)
    own = image(extended(entry(4), entry(5)), 96, MIXED_MAP, attributes=FREE | MAPPED)
    yield run("edition 2, opened with an extended header, the seven calls", own, calls, base=64)
    own = image(extended(entry(4, 1)), attributes=FREE)
    calls = [write(0, 72, bytes(24)), ("settings",), ("size", 0), read(0, 72, 4), erase(0, 1, END), ("set", FREE)]
    yield run("the extended header overwritten, the state stays", own, calls)


def cases():
    for group in (sample_cases, erase_page_cases, size_cases, address_cases, moving_cases, write_rule_cases, erase_cases,
                  settings_cases, lock_cases, enabled_cases, lent_cases, header_gone_cases, unlawful_cases, edition_cases,
                  lawful_cases, run_cases):
        for case in group():
            yield "service", case
