"""The mark of request j of 02: setting it, what it refuses, and what it leaves free.

A line of a case is one of service.py. A name's end says which refusals the case gets.
A mark inside a map entry and one at an entry's start are tried apart: MIXED_MAP's entries start at blocks 0, 2, 5 and 6.
"""

from cases.editions import entry, extended, image
from cases.headers import A_MAP, FULL_MAP, GUID, MIXED_MAP, header, total
from cases.service import ALL, FREE, KINDS, MAPPED, ONES, PAST, READ_LOCK, STICKY, WRITE_LOCK
from cases.service import EVERY_CALL, REFUSED_CALLS, erase, given, read, write
from model.volume import END_OF_LIST as END
from trial import run

BLOCKS = 8                                              # of MIXED_MAP
LENGTHS = [256, 256, 128, 128, 128, 512, 64, 64]        # of its blocks
SHUT = ALL & ~0x24 | ONES                               # reads and writes disabled
EVERY_LOCK = FREE | READ_LOCK | WRITE_LOCK | 0x80
DATA = bytes([0x00, 0x0F, 0xF0, 0xFF, 0x55, 0xAA, 0x33, 0xCC])


def protect(first):
    return ("protect", first)


def mixed(attributes=ALL | ONES, edition=1):
    return header(MIXED_MAP, attributes=attributes, edition=edition, guid=GUID)


def volumes():
    """(name, attributes, edition, mark): each way of writing, both editions, marks at an entry's start and inside one"""
    for (kind, attributes), edition, mark in zip(KINDS, (2, 1, 1, 2), (5, 4, 2, 7)):
        yield "edition %d, mark %d, %s" % (edition, mark, kind), attributes, edition, mark


def setting_cases():
    """Setting the mark: 111, then 2 for raising it, nothing else."""
    ways = {"to what it is": [8, 8], "lower by one": [7], "lower by one, block by block": range(7, -1, -1), "to 0, and again": [0, 0],
            "to 1, and again": [1, 1], "lower, lower again, and again": [6, 3, 2, 2]}
    for name, marks in ways.items():
        yield run("mark " + name, mixed(), [protect(mark) for mark in marks])
    raised = {"past the number of blocks": [9], "far past the number of blocks": PAST, "lower, then raise by one": [5, 6],
              "lower, then back to the number of blocks": [5, 8], "lower, then past the number of blocks": [5, 9],
              "0, then raise by one and more": [0, 1, 2, 8, END], "1, then raise by one": [1, 2, 1],
              "lower twice, then raise to what it was": [6, 3, 6, 4, 3, 8, 2, 3],
              "5, then with low 16, 31, 32 and 63 bits below it": [5, 2**16 + 1, 2**31 + 1, 2**32 + 1, 2**63 + 1, 5],
              "5, then with low 16, 31, 32 and 63 bits as it is": [5, 2**16 + 5, 2**31 + 5, 2**32 + 5, 2**63 + 5, 4],
              "5, then powers of two": [5, 8, 2**8, 2**15, 2**16, 2**31, 2**32, 2**63, 5],
              "5, then 2^32 - 1 and 2^64 - 1": [5, 2**32 - 1, END, 0]}
    for name, marks in raised.items():
        yield run("mark %s: 2" % name, mixed(), [protect(mark) for mark in marks])
    free = [protect(8), protect(5), protect(5), protect(6), protect(0), protect(END), ("settings",)]
    ways = {"locked": (ALL | ONES | 0xC0, 1), "disabled": (SHUT, 1), "no attribute at all": (0, 1), "locked and disabled": (SHUT | 0xC0, 1),
            "mapped and sticky": (ALL | MAPPED | STICKY, 1), "edition 2": (FREE, 2), "edition 2, every lock": (EVERY_LOCK, 2),
            "edition 2, disabled, every lock": (EVERY_LOCK & ~0x24, 2), "edition 2, no attribute at all": (0, 2)}
    for name, (attributes, edition) in ways.items():
        yield run("mark set, %s: 2" % name, mixed(attributes, edition), free, base=64)
    long = given([1, 16777216], 16777216)
    yield run("mark set, no volume is lent to it: 2", b"", [protect(1), protect(2), protect(0), protect(1)], lent=0, state=long)
    many = given([32767, 1, 1, 1, 32768, 1], 65536)
    marks = (65537, 65536, 65535, 65536, 32768, 32767, 0, 65536)
    yield run("mark over 65,536 blocks: 2", b"", [protect(mark) for mark in marks], state=many)
    yield run("mark over 32 entries: 2", header(FULL_MAP, attributes=ALL), [protect(mark) for mark in (33, 32, 31, 32, 30, 0)])


def opened_cases():
    """The mark at opening is the number of blocks: nothing is protected."""
    for name, map_words, edition in (("one block", [1, 2048], 1), ("one block, edition 2", [1, 2048], 2), ("sample A's map", A_MAP, 1),
                                     ("a mixed map, edition 2", MIXED_MAP, 2), ("64 blocks in 32 entries", [2, 32] * 32, 1),
                                     ("2,048 blocks of a byte, edition 2", [2048, 1], 2), ("4,096 blocks of a byte", [4096, 1], 1)):
        last = sum(map_words[::2]) - 1
        calls = [protect(last + 2), write(last, 0, b"\x00"), erase(last, 1, END), protect(last + 1), write(last, 0, b"\x0f")]
        calls += [protect(last), write(last, 0, b"\x00"), erase(last, 1, END), ("size", last)]
        yield run("opened, %s: 2, 15" % name, header(map_words, attributes=ALL | ONES, edition=edition), calls)
    own = image(extended(entry(4), entry(5)), 96, MIXED_MAP, attributes=FREE)
    calls = [protect(0), write(0, 96, b"\x00"), erase(0, 1, END), read(0, 96, 16)]
    yield run("opened with an extended header, block 0 protected: 15", own, calls)


def given_cases():
    """Marks of given states. 111 comes for one past the number of blocks, at every call."""
    for mark in range(5):
        calls = [protect(mark + 1), write(0, 0, b"\x00"), write(3, 0, b"\x00"), erase(3, 1, END), read(3, 0, 4), protect(mark)]
        own = given(mark=mark, attributes=ALL | ONES | MAPPED, edition=1 + mark % 2, base=8)
        yield run("state with mark %d of 4: %s" % (mark, "2" if mark == 4 else "2, 15"), b"", calls, state=own)
    for mark in (5, 2**32 + 4, 2**64 - 1):
        yield run("state with mark %d of 4: 111" % mark, b"", EVERY_CALL + [protect(mark), erase(END), write(0, 0, b"")], state=given(mark=mark))
    for mark in (5, 260, 2**16 + 4, 2**31, 2**32, 2**32 + 1, 2**63, 2**63 + 4):
        own = given(mark=mark, attributes=ALL | ONES | MAPPED, edition=2)
        yield run("state of edition 2 with mark %d of 4: 111" % mark, b"", [("settings",), ("address",), ("size", 3), protect(0)], state=own)
    yield run("a mark past the blocks before 5, 15, 2 and 3: 111", b"", REFUSED_CALLS, state=given(attributes=ONES, mark=5))
    for map_words in (MIXED_MAP, [2, 32] * 32, [65535, 1, 1, 1]):
        blocks = sum(map_words[::2])
        calls = [("settings",), ("size", blocks - 1), protect(blocks)]
        yield run("state with mark %d, all there are" % blocks, b"", calls, state=given(map_words, total(map_words), mark=blocks))
        yield run("state with mark %d, one more: 111" % (blocks + 1), b"", calls, state=given(map_words, total(map_words), mark=blocks + 1))


def unlawful_cases():
    """111 before 2 at setting the mark, and before every other number at writes and erases with a mark."""
    ways = {"edition 3": given(edition=3, mark=2), "length one more": given(length=2049, mark=2), "a count of 0": given([4, 512, 0, 1], mark=2),
            "entries 0": given(entries=0, mark=0), "attribute 0x100": given(attributes=0x100, mark=2),
            "a word beyond the entries": given(beyond=[(2, 1)], mark=2), "a mark past the blocks": given(mark=5)}
    moves = [write(3, 0, b"\x00"), write(9, 0, b"", 0), erase(3, 1, END), erase(3, lent=0)]
    for name, bad in ways.items():
        calls = [protect(mark) for mark in (0, bad.first_protected, bad.first_protected + 1, END)]
        yield run("mark of a state with %s: 111" % name, b"", calls + moves, state=bad)


def writing_cases():
    for mark in (0, 1, 4, 6, 8):
        calls = [call for block in range(BLOCKS - 1, -1, -1) for call in (write(block, 1, b"\x12\x34"), erase(block, 1, END))]
        yield run("mark %d, each block written and erased%s" % (mark, "" if mark == BLOCKS else ": 15"), mixed(), [protect(mark)] + calls)
    for name, attributes, edition, mark in volumes():
        own = mixed(attributes, edition)
        for block in sorted({mark - 1, mark, BLOCKS - 1}):
            length = LENGTHS[block]
            places = [(0, 0), (0, 1), (0, 8), (length - 1, 1), (length - 1, 2), (length, 0), (length, 1), (length + 1, 0), (END, 0), (END, 1)]
            calls = [write(block, offset, DATA[:size]) for offset, size in (places if block <= mark else places[:3])]
            refused = "" if block < mark else ": 15"
            yield run("writes at the edges of block %d, %s%s" % (block, name, refused), own, [protect(mark)] + calls)
        length = LENGTHS[mark - 1]
        calls = [write(mark - 1, length - 4, DATA), write(mark - 1, length, DATA), write(mark - 1, length + 2, DATA), read(mark, 0, 16)]
        yield run("writes run up to the protected block, " + name, own, [protect(mark)] + calls)
    calls = [protect(3), write(2, 0, DATA * 17), write(3, 0, DATA * 16), write(3, 0, DATA * 17), write(7, 0, DATA * 8), read(3, 0, 8)]
    yield run("writes of whole blocks and more, mark 3: 15", mixed(), calls)


def order_cases():
    """Writes and erases: 111, 5, 15 for disabled writes, 2, 15 for a protected block. 111 is in unlawful_cases."""
    for mark in (0, 8):
        past = [write(block, 0, b"\x00") for block in (BLOCKS,) + PAST] + [write(8, 2**64 - 1, b"")]
        yield run("2 before a protected block, mark %d: 2" % mark, mixed(), [protect(mark)] + past)
    bad = [erase(), erase(0), erase(0, 1), erase(0, 0, END), erase(0, 9, END), erase(8, 1, END), erase(7, 2, END), erase(8, 0, END),
           erase(0, END, END), erase(0, END), erase(2**64 - 2, 3, END), erase(2**32, 1, END)]
    yield run("every block protected, bad lists: 2", mixed(), [protect(0)] + bad)
    calls = [write(3, 0, b"\x00"), write(8, 0, b"\x00"), write(3, 0, b""), erase(3, 1, END), erase(3, 0, END), erase(), erase(8, 1, END)]
    yield run("writes disabled and a mark: 15", mixed(SHUT), [protect(3)] + calls)
    short = [call[:1] + (1535,) + call[2:] for call in calls]
    yield run("writes disabled, a mark, a byte too few lent: 5", mixed(SHUT), [protect(0)] + short)
    yield run("a mark, a byte too few lent: 5", mixed(), [protect(3)] + short)
    yield run("a mark, as many bytes lent as there are: 2, 15", mixed(), [protect(3)] + [call[:1] + (1536,) + call[2:] for call in calls])


def lists(mark):
    """(name, words, answer): erase lists around a mark of 2 to 7, over 8 blocks"""
    over = [0, 1, 1, 1, mark - 1, 2]        # its last pair reaches one block into the protected part
    yield "no pair", [END], 0
    yield "just below the mark", [mark - 1, 1, END], 0
    yield "all below the mark", [0, mark, END], 0
    yield "all below the mark, one by one downward", [w for block in range(mark - 1, -1, -1) for w in (block, 1)] + [END], 0
    yield "overlapping below the mark", [0, mark, mark - 1, 1, 0, 1, END], 0
    yield "protected behind the terminator", [0, 1, END, mark, 1, END], 0
    yield "protected behind the terminator alone", [END, mark, 1, 0, 8, END], 0
    yield "a first block alone behind the terminator", [mark - 1, 1, END, mark], 0
    yield "the mark itself", [mark, 1, END], 15
    yield "the last block", [7, 1, END], 15
    yield "all above", [mark, 8 - mark, END], 15
    yield "from below into the mark", [mark - 1, 2, END], 15
    yield "from below to the last block", [mark - 1, 9 - mark, END], 15
    yield "every block", [0, 8, END], 15
    yield "up to the mark, itself included", [0, mark + 1, END], 15
    yield "the last pair reaches one block in", over + [END], 15
    yield "the last pair is the last block", [0, mark, 7, 1, END], 15
    yield "the first pair reaches in, then good ones", [mark - 1, 2, 0, 1, 0, mark, END], 15
    yield "the first pair protected, then good ones", [mark, 1, 0, 1, mark - 1, 1, END], 15
    yield "one protected between good ones", [0, 1, 7, 1, 1, 1, END], 15
    yield "protected, then the terminator, then a bad pair", [mark, 1, END, 0, 0, END], 15
    yield "every block, then good ones", [0, 8, mark - 1, 1, END], 15
    yield "good ones, then every block", [mark - 1, 1, 0, 8, END], 15
    yield "up to the mark, itself included, between good ones", [mark - 1, 1, 0, mark + 1, 1, 1, END], 15
    yield "every block, a good one, then count 0", [0, 8, mark - 1, 1, 0, 0, END], 2
    yield "named twice", [mark, 1, mark, 1, END], 15
    yield "named twice, apart", [7, 1, 0, 1, 7, 1, END], 15
    yield "protected, then count 0", over + [0, 0, END], 2
    yield "protected, then past the last block", over + [7, 2, END], 2
    yield "protected, then the number of blocks", over + [8, 1, END], 2
    yield "protected, then a sum that wraps", over + [2**64 - 2, 3, END], 2
    yield "protected, then no terminator", over, 2
    yield "protected, then a first block alone", over + [0], 2
    yield "protected, good, then count 0", [mark, 1, 0, 1, 1, 0, END], 2
    yield "protected, then no terminator, one pair", [mark, 1], 2
    yield "the mark alone", [mark], 2
    yield "from the mark one past the last block", [mark, 9 - mark, END], 2
    yield "from the mark, count 0", [mark, 0, END], 2
    yield "from the mark, count 2^64 - 1", [mark, END, END], 2
    yield "from the mark, the terminator as a count only", [mark, END], 2
    yield "a bad pair, then protected", [0, 0, mark, 1, END], 2
    yield "past the last block, then protected", [7, 2, mark, 1, END], 2


def erasing_cases():
    for name, words, no in lists(3):
        yield run("mark 3, erase %s%s" % (name, ": %d" % no if no else ""), mixed(), [protect(3), erase(*words)])
    for name, attributes, edition, mark in volumes():
        refused_first = sorted(lists(mark), key=lambda listed: -listed[2])      # on blocks not erased yet a wrong erase shows
        calls = [erase(*words) for _, words, _ in refused_first]
        case = run("the same lists, %s: 2, 15" % name, mixed(attributes, edition), [protect(mark)] + calls)
        assert case.numbers[1:] == [no for _, _, no in refused_first], case
        yield case
    yield run("every block protected, empty lists", mixed(), [protect(0), erase(END), erase(END, 0, 1, END), erase(END, 0), erase(END, END)])
    yield run("every block protected, a pair: 15", mixed(), [protect(0)] + [erase(0, count, END) for count in (1, 2, 8)])
    yield run("no block protected, every block erased", mixed(), [protect(8), erase(0, 8, END), erase(7, 1, 0, 1, END)])
    calls = [protect(1), erase(0, 2, END), erase(1, 1, END), erase(0, 1, 1, 7, END), erase(0, 1, 0, 1, END)]
    yield run("one block free: 15", mixed(), calls)


LONG_MAP = [20, 32, 25, 48, 5, 16]      # 50 blocks, 1,920 bytes


def long_list(place=0, pair=(0, 1)):
    """40 pairs below block 45, each of another block, with the pair given in the place given."""
    pairs = [(17 * k % 45, 1) for k in range(40)]
    pairs[place] = pair
    return [word for first_and_count in pairs for word in first_and_count]


def long_cases():
    """Lists of 40 pairs: the protected one in the first, a middle and the last place, with a bad pair behind it and without."""
    places = ((0, "first"), (20, "middle"), (39, "last"))
    own = header(LONG_MAP, attributes=ALL | ONES)
    yield run("40 pairs below the mark", own, [protect(45), erase(*long_list(), END)])
    for place, which in places:
        yield run("40 pairs, the %s one protected: 15" % which, own, [protect(45), erase(*long_list(place, (44, 2)), END)])
        yield run("40 pairs, the %s one protected, and a bad pair: 2" % which, own, [protect(45), erase(*long_list(place, (45, 1)), 0, 0, END)])
    calls = [erase(*long_list(place, (49, 1)), END) for place, _ in places]
    own = header(LONG_MAP, attributes=ALL | STICKY, edition=2)
    yield run("40 pairs, edition 2, one protected, then none: 15", own, [protect(45)] + calls + [erase(*long_list(39, (0, 45)), END)])


def free_cases():
    """Reads, block sizes, the address and the settings are free, and setting attributes keeps the mark."""
    for mark in (0, 5):
        calls = [protect(mark)] + [call for block in range(BLOCKS) for call in (read(block, 2, 4), ("size", block))]
        yield run("mark %d, each block read" % mark, mixed(ALL | ONES | MAPPED), calls + [("settings",), ("address",)], base=64)
    own = header([2, 32] * 32, attributes=ALL)
    yield run("sizes of one run of blocks with a mark in it: 2", own, [protect(31)] + [("size", block) for block in (0, 30, 31, 32, 63, 64)])
    calls = [protect(0), read(3, 0, 0), read(3, 128, 0), read(3, 127, 2), read(3, 2**64 - 1, 1), read(8, 0, 1), read(7, 0, 80)]
    yield run("every block protected, reads at the edges: 2", mixed(), calls)
    for edition, settings in ((1, 0x7F | ONES), (2, FREE)):
        own = mixed(settings, edition)
        calls = [("set", settings), protect(3), ("set", settings & ~4), read(7, 0, 4), ("set", settings), read(7, 0, 4), ("set", settings & ~0x20),
                 write(0, 0, b"\x00"), write(7, 0, b"\x00"), ("set", settings), write(0, 0, b"\x00"), write(3, 0, b"\x00"), ("set", settings ^ 0x200),
                 ("set", settings | 0x80), ("set", settings), protect(2), ("set", settings | 0x80), protect(3), write(1, 0, b"\x0f"),
                 write(2, 0, b"\x00")]
        yield run("edition %d, attributes set after the mark: 2, 15" % edition, own, calls)
        calls = [protect(0), ("set", settings & ~0x24), ("set", settings), ("set", settings | 0x80), protect(0)]
        yield run("edition %d, attributes set with every block protected" % edition, own, calls)


def below_cases():
    """Below the mark everything works as before, above it nothing moves."""
    for name, attributes, edition, mark in volumes():
        calls = [protect(mark), erase(mark - 1, 1, END), write(mark - 1, 3, DATA), write(mark - 1, 3, DATA[::-1]), read(mark - 1, 0, 16),
                 write(mark, 3, DATA), erase(mark, 1, END), read(mark, 0, 16), erase(0, mark, END), write(0, 0, DATA), read(7, 0, 8)]
        yield run("below the mark and above it, %s: 15" % name, mixed(attributes, edition), calls)


def run_cases():
    boot = bytes(range(64))
    attack = [write(6, 0, b"\x00"), write(7, 63, b"\x00\xff"), write(6, 64, b"\x00"), write(7, 0, b""), erase(6, 2, END), erase(7, 1, END),
              erase(5, 2, END), erase(0, 8, END), erase(0, 1, 7, 1, END), erase(7, 1, 0, 1, END), erase(6, 3, END), erase(6, 1), write(5, 508, DATA),
              protect(7), protect(END)]
    calls = [erase(6, 2, END), write(6, 0, boot), write(7, 0, boot[::-1]), protect(6)] + attack + [read(6, 0, 64), read(7, 0, 64)]
    yield run("boot blocks at the top: 2, 15", mixed(), calls)
    yield run("boot blocks at the top, edition 2, sticky, erases to zeros: 2, 15", mixed(ALL | STICKY, 2), calls)
    calls = []
    for mark in range(BLOCKS - 1, -1, -1):
        calls += [write(mark, 0, DATA), protect(mark), write(mark, 0, DATA[::-1]), erase(mark, 1, END), erase(0, mark or 1, END), protect(mark + 1)]
    yield run("the mark lowered block by block, edition 2, sticky: 2, 15", mixed(ALL | STICKY, 2), calls)
    calls = [protect(5), ("set", FREE | WRITE_LOCK), write(4, 0, DATA), write(5, 0, DATA), erase(4, 1, END), erase(5, 1, END), protect(4),
             write(4, 0, DATA), ("set", FREE & ~0x20 | WRITE_LOCK), ("set", EVERY_LOCK), erase(3, 1, END), protect(5), protect(3), erase(3, 1, END),
             erase(2, 1, END), read(5, 0, 8), ("set", FREE), ("settings",), protect(0), erase(0, 1, END), erase(END), write(0, 0, b"")]
    yield run("edition 2, locks and the mark: 2, 15", mixed(FREE, 2), calls)
    calls = [protect(5), ("set", FREE & ~0x24 | READ_LOCK | WRITE_LOCK), protect(4), write(4, 0, DATA), write(0, 0, DATA), write(8, 0, DATA), erase(),
             read(7, 0, 4), protect(5)]
    yield run("edition 2, locked and off, and the mark: 2, 15", mixed(FREE, 2), calls)
    calls = [protect(1), write(0, 0, bytes(72)), erase(0, 1, END), write(1, 0, b"\x00"), protect(0), write(0, 0, b"\x00"), read(0, 0, 8), ("size", 7)]
    yield run("the header gone, the mark stays: 15", mixed(), calls)
    calls = [protect(16), write(15, 0, DATA), write(16, 0, DATA), erase(15, 1, END), erase(15, 2, END), erase(16, 16, END), protect(1),
             write(0, 0, DATA), write(1, 0, b""), erase(0, 1, END), erase(0, 32, END), erase(31, 1, END), erase(31, 2, END), read(31, 0, 8)]
    yield run("32 entries, the mark between them: 2, 15", header(FULL_MAP, attributes=ALL), calls)
    for edition, mark in ((1, 5), (2, 2)):
        below, settings = mark - 1, ALL | ONES | STICKY
        calls = [write(below, 0, DATA), write(mark, 0, DATA), erase(below, 2, END), erase(below, 1, END), protect(mark + 1), ("set", settings & ~4),
                 protect(below), erase(below, 1, END), write(below - 1, LENGTHS[below - 1] - 4, DATA), read(mark, 0, 8), ("set", settings),
                 read(mark, 0, 8)]
        own = given(MIXED_MAP, total(MIXED_MAP), settings, 8, edition=edition, mark=mark)
        yield run("a state of edition %d with a mark, and a lower one: 2, 15" % edition, b"", calls, state=own)


def cases():
    for group in (setting_cases, opened_cases, given_cases, unlawful_cases, writing_cases, order_cases, erasing_cases, long_cases, free_cases,
                  below_cases, run_cases):
        for case in group():
            yield "protection", case
