"""Request k from C: dependency expressions tested and evaluated, as requests of the C program c/calls.c. Single opcodes are in opcodes.py,
random expressions in random_dependency.py.

A name's end says which refusals the requests of that name get.
"""

from functools import partial
from itertools import product
from operator import eq, ge, gt, le, lt

from calls import ANSWER, filled, made, request
from cases.erase_jobs import refused
from cases.loader import cut_or_more
from model.dependency import (AND, END, EQ, FALSE, GT, GTE, LT, LTE, NOT, OPCODES, OR, PUSH_GUID, PUSH_VERSION, ROWS, STACK_LIMIT, TRUE,
                              VERSION_STR)

AND_, OR_, NOT_, T, F, EQ_, END_ = (bytes([opcode]) for opcode in (AND, OR, NOT, TRUE, FALSE, EQ, END))
COMPARISONS = {GT: gt, GTE: ge, LT: lt, LTE: le, EQ: eq}


def guid(data):
    return bytes([PUSH_GUID]) + data


def version(n):
    return bytes([PUSH_VERSION]) + n.to_bytes(4, "little")


def text(data):
    """A text and its zero."""
    return bytes([VERSION_STR]) + data + b"\0"


def is_version(data, n):
    """The expression that asks whether the version of this GUID is n."""
    return guid(data) + version(n) + EQ_ + END_


# The installed firmware: sixteen GUIDs, of which no byte stands in another at the same place, and their versions.
GUIDS = [bytes((17 * row + 29 * i + 5) % 256 for i in range(16)) for row in range(ROWS)]
VERSIONS = [0x01020304 * (row + 1) % 2**32 for row in range(ROWS)]
ABSENT = bytes(range(200, 216))
V, G = version(7), guid(GUIDS[3])
LENGTHS = (0, 255, 256, 257), (0, 63, 64, 65), (0, 15, 16, 17)      # lent of GUIDs, versions and answer


def versions_of(numbers):
    return b"".join(n.to_bytes(4, "little") for n in numbers)


def evaluated(name, expression, truth=None, guids=GUIDS, versions=VERSIONS, used=ROWS):
    """An evaluation, whose truth is this where it is given."""
    arguments = expression, b"".join(guids), versions_of(versions), used, ANSWER
    done, after = made(name, "evaluate dependency", arguments, {})
    if truth is not None:
        assert done.number == 0 and after["a"] == bytes([truth]) + bytes(15), name
    return done


def both(name, expression, number=0, truth=None):
    """An expression tested and evaluated, with this refusal or none."""
    name = refused(name, number)
    yield request(name, "validate dependency", expression)
    yield evaluated(name, expression, truth)


# The kinds of values as letters, t a truth and v a version: what each opcode takes, the top last, and what it leaves.
TAKES = {AND: "tt", OR: "tt", NOT: "t", **{opcode: "vv" for opcode in COMPARISONS}}
LEAVES = {VERSION_STR: "", PUSH_GUID: "v", PUSH_VERSION: "v"}
OPERANDS = {PUSH_GUID: GUIDS[3], PUSH_VERSION: b"\x07\0\0\0", VERSION_STR: b"1.0\0"}
PUSHES = {"t": TRUE, "v": PUSH_VERSION}


def whole(opcode):
    """An opcode with a good operand."""
    return bytes([opcode]) + OPERANDS.get(opcode, b"")


def fault_of(opcodes):
    """The refusal of opcodes with good operands, and their end if there is one: by the table above alone."""
    stack = ""
    for opcode in opcodes:
        if opcode not in OPCODES:
            return 301
        if opcode == END:
            return 0 if stack == "t" else 305
        takes, leaves = TAKES.get(opcode, ""), LEAVES.get(opcode, "t")
        left = len(stack) - len(takes)
        if left < 0 or left + len(leaves) > STACK_LIMIT:
            return 303
        if not stack.endswith(takes):
            return 304
        stack = stack[:left] + leaves
    return 305


def tried(name, opcodes):
    yield from both(name, b"".join(map(whole, opcodes)), fault_of(opcodes))


# Opcodes in every place.

def stacks():
    """Values on the stack, by their kinds: up to three of every mixture, and 30 to 32."""
    for count in range(4):
        yield from map("".join, product("tv", repeat=count))
    for count in (30, 31, 32):
        yield from ("t" * count, "v" * count, "tv" * (count // 2) + "t" * (count % 2), "t" * (count - 2) + "vv", "v" * (count - 2) + "tt",
                    "t" * (count - 2) + "tv", "t" * (count - 2) + "vt")


def place_cases():
    """Each opcode on each of these stacks; then the end."""
    for kinds in stacks():
        for opcode in (*OPCODES, 14, 255):
            yield from tried("opcode %d on %d values %s" % (opcode, len(kinds), kinds), [*map(PUSHES.get, kinds), opcode, END])


def unknown_cases():
    """Each byte as an opcode by itself, with its operand, and with one, two or 32 values before it."""
    for opcode in range(256):
        alone = 301 if opcode > END else 302 if opcode in OPERANDS else 305 if opcode in (END, TRUE, FALSE) else 303
        yield from both("byte %d alone" % opcode, bytes([opcode]), alone)
        yield from tried("byte %d with its operand" % opcode, [opcode])
        if opcode > END:
            before = ((TRUE,), (PUSH_GUID, PUSH_VERSION), (FALSE,) * 32, (PUSH_VERSION,) * 32, (VERSION_STR,))[opcode % 5]
            yield from tried("byte %d after %d opcodes %d" % (opcode, len(before), before[0]), [*before, opcode, END])


def short_cases(opcodes, most):
    """Every row of up to so many opcodes that starts with these; a row goes on while it has neither a fault nor an end."""
    ended = fault_of([*opcodes, END])
    yield from tried("opcodes %s, then the end" % (opcodes,), [*opcodes, END])
    if ended in (0, 305) and END not in opcodes:
        yield from tried("opcodes %s" % (opcodes,), opcodes)
        for opcode in OPCODES if len(opcodes) < most else ():
            yield from short_cases((*opcodes, opcode), most)


# Operands.

def cut_cases():
    """Operands of every length, as the last bytes: at the start, after a value, on a full stack, where a whole one is 303 at a push."""
    befores = (("at first", b""), ("after a truth", T), ("after a text", text(b"x")), ("on a full stack", T * 32), ("on 32 versions", V * 32))
    for (where, before), operand in product(befores, (b"\x0d" * 20, bytes(range(1, 21)), b"\xff" * 20)):
        for count in range(20):
            for opcode, size in ((PUSH_GUID, 16), (PUSH_VERSION, 4), (VERSION_STR, 20)):
                if count < size:
                    cut = bytes([opcode]) + operand[:count]
                    yield from both("%d bytes of an operand of %d, %s" % (count, opcode, where), before + cut, 302)
    long = text(b"a") + G + V + bytes([GTE]) + text(b"bc") + G + V + bytes([LT]) + AND_ + END_
    starts = {0, 3, 20, 25, 26, 30, 47, 52, 53, 54}
    assert len(long) == 55
    for count in range(len(long)):
        yield from both("the first %d bytes" % count, long[:count], 305 if count in starts else 302)
    yield from both("all the bytes", long, truth=0)


TEXTS = (*(bytes(i % 255 + 1 for i in range(n)) for n in (*range(20), 31, 32, 33, 63, 64, 65, 255, 256, 257, 4095, 4096, 4097)),
         b"\x0d", b"\x0d" * 9, b"\x06\x0d", b"\xff" * 16, b"\x80\x81")


def text_cases():
    """Texts in every place, with and without their zero; bytes behind the zero are opcodes."""
    for n, data in enumerate(TEXTS):
        name, one = "text %d of %d bytes" % (n, len(data)), text(data)
        yield from both(name + " first", one + T + END_, truth=1)
        yield from both(name + " last", F + one + END_, truth=0)
        yield from both(name + " between", T + one + F + one + one + OR_ + END_, truth=1)
        yield from both(name + " on a full stack", T * 32 + one + AND_ * 31 + END_, truth=1)
        yield from both(name + " alone", one, 305)
        yield from both(name + ", no end", T + one, 305)
        yield from both(name + " without its zero", T + one[:-1], 302)
        yield from both(name + " behind the end without its zero", T + END_ + one[:-1])
        yield from both(name + ", then no opcode", T + one + b"\x0e", 301)
    yield from both("two zeros", b"\x02\0\0" + T + END_, 302)
    yield from both("two zeros, a GUID of what follows, and no truth", b"\x02\0\0" + GUIDS[0] + END_, 305)


# The stack's limit.

def depth_cases():
    """29 to 34 values, and all of them taken again."""
    for count in range(29, 35):
        number = 303 if count > 32 else 0
        for put, joined in product((T, F), (AND_, OR_)):
            yield from both("%d truths %s, joined by %s" % (count, put.hex(), joined.hex()), put * count + joined * (count - 1) + END_, number)
        for two in (V + V, V + G, G + V, G + G):
            name = "%d values, the last two versions %s" % (count, two[:1].hex())
            yield from both(name, T * (count - 2) + two + EQ_ + AND_ * (count - 2) + END_, number)
        for more in (V, G, T, F, guid(ABSENT)):
            yield from both("%d values, then one more %s" % (count, more[:1].hex()), T * count + more + END_, 303 if count > 31 else 305)
            yield from both("%d versions, then one more %s" % (count, more[:1].hex()), V * count + more + END_, 303 if count > 31 else 305)
    for put in (T, V, G):
        yield from both("32 values %d, the end" % put[0], put * 32 + END_, 305)
        yield from both("33 values %d, no end" % put[0], put * 33, 303)
    yield from both("up and down at the limit", T * 32 + (AND_ + F) * 40 + (OR_ + T) * 40 + NOT_ * 3 + AND_ * 31 + END_)
    yield from both("up and down at the limit, one too many", T * 32 + (AND_ + F) * 40 + NOT_ + T + END_, 303)


def among_cases():
    """Among 32 values one that is not like the others, at each place, and all of them joined: its kind and its truth come to the top."""
    for place in range(32):
        for odd, other, joined, number, truth in ((V, T, AND_, 304, None), (G, F, OR_, 304, None), (F, T, AND_, 0, 0), (T, F, OR_, 0, 1)):
            name = "32 values, %s at place %d among %s" % (odd[:1].hex(), place, other.hex())
            yield from both(name, other * place + odd + other * (31 - place) + joined * 31 + END_, number, truth)


# The end.

def end_cases():
    yield from both("no bytes", b"", 305)
    for name, before in (("nothing", b""), ("a version", V), ("the version of a GUID", G), ("two truths", T + T), ("a truth and a version", T + V),
                         ("a version and a truth", V + T), ("two versions", V + V), ("a text", text(b"x")), ("three truths", T + F + T)):
        yield from both("the end with " + name, before + END_, 305)
        yield from both("no end, " + name, before, 305)
        yield from both("the end with %s, then a truth and the end" % name, before + END_ + T + END_, 305)
    for name, one in (("true", T), ("false", F), ("a comparison", V + G + EQ_)):
        yield from both("the end with " + name, one + END_)
        yield from both("no end after " + name, one, 305)


def behind_cases():
    """What follows the end: each byte, by itself and with the end; faults of every kind; many bytes."""
    for byte in range(256):
        for behind in (bytes([byte]), bytes([byte]) + END_, bytes([byte]) * 40):
            yield from both("%d bytes %d behind the end" % (len(behind), byte), T + END_ + behind, truth=1)
    for name, behind in (("an absent GUID", guid(ABSENT)), ("a cut GUID", guid(ABSENT[:15])), ("33 truths", T * 33), ("AND", AND_),
                         ("another expression", F + END_), ("4,096 bytes", filled(4096))):
        yield from both("%s behind the end" % name, F + END_ + behind, truth=0)


# Which fault counts.

# (number, opcodes that come to it where one truth is on the stack)
FAULTS = ((301, b"\x0e"), (301, b"\xff"), (303, AND_), (303, OR_), (303, EQ_), (303, bytes([GT])), (303, T * 32), (303, V * 32), (303, G * 32),
          (304, V + AND_), (304, V + OR_), (304, V + NOT_), (304, V + EQ_), (304, V + T + bytes([LTE])), (304, T + bytes([GTE])),
          (304, T + bytes([LT])), (305, T + END_), (305, V + END_), (305, NOT_ + F + END_), (302, b"\x02" + b"\xff" * 3),
          (302, b"\x00" + b"\x0d" * 5), (302, b"\x01\x07"))


def pair_cases():
    """Every two faults in both orders, with good opcodes before and between or without. Of those that are cut, only a text takes any byte."""
    for (first, one), (_, other) in product(FAULTS, FAULTS):
        name = "%s, then %s" % (one[:8].hex(), other[:8].hex())
        if first != 302:
            yield from both(name, T + one + other, first)
            yield from both(name + ", with others", T + G + V + EQ_ + AND_ + one + text(b"x") + NOT_ + other, first)
        elif one[0] == VERSION_STR and 0 not in other:
            yield from both(name, T + one + other, first)


def absent_cases():
    """14 comes after the test's refusals wherever they stand, and whether or not the answer hangs on the GUID."""
    unknown = guid(ABSENT) + V + EQ_
    for number, fault in FAULTS:
        yield from both("an absent GUID, then %s" % fault[:8].hex(), unknown + fault, number)
        if number != 302:
            yield from both("%s, then an absent GUID" % fault[:8].hex(), T + fault + unknown + END_, number)
    for name, expression in (("alone", unknown), ("or true", unknown + T + OR_), ("true or it", T + unknown + OR_),
                             ("and false", unknown + F + AND_), ("false and it", F + unknown + AND_), ("twice", guid(ABSENT) * 2 + EQ_),
                             ("first of two", guid(ABSENT) + G + EQ_), ("second of two", G + guid(ABSENT) + EQ_)):
        yield from both("an absent GUID, " + name, expression + END_, 14)
    yield from both("an absent GUID as the 32nd value", T * 30 + V + guid(ABSENT) + EQ_ + AND_ * 30 + END_, 14)
    yield from both("an absent GUID as the 33rd value", T * 31 + V + guid(ABSENT) + EQ_ + AND_ * 31 + END_, 303)
    yield from both("an absent GUID at the end", T + guid(ABSENT) + END_, 305)


def order_cases():
    """Every length of GUIDs, versions and answer with 2, a fault, 14 and none."""
    expressions = [(0, is_version(GUIDS[3], 7)), (14, is_version(ABSENT, 7)), (305, b""), (301, b"\x0e"), (302, b"\0"), (303, NOT_), (304, V + NOT_)]
    for guids, versions, answer in product(*LENGTHS):
        lent = cut_or_more(b"".join(GUIDS), guids), cut_or_more(versions_of(VERSIONS), versions)
        for (number, expression), used in product(expressions, (16, 17, 2**64 - 1)):
            number = 5 if guids < 256 or versions < 64 or answer < 16 else 2 if used > 16 else number
            name = refused("%d, %d and %d bytes lent, used %d" % (guids, versions, answer, used), number)
            yield request(name, "evaluate dependency", expression, *lent, used, filled(answer))


# Truths and comparisons.

def truth_cases():
    for a, b in product((0, 1), (0, 1)):
        two = (T if a else F) + (T if b else F)
        yield from both("%d and %d" % (a, b), two + AND_ + END_, truth=a & b)
        yield from both("%d or %d" % (a, b), two + OR_ + END_, truth=a | b)
        yield from both("not, %d and %d" % (a, b), two + AND_ + NOT_ + END_, truth=1 - (a & b))
        yield from both("%d and not %d" % (a, b), two + NOT_ + AND_ + END_, truth=a & (1 - b))
        for c in (0, 1):
            three = two + (T if c else F)
            yield from both("%d, %d or %d, and" % (a, b, c), three + OR_ + AND_ + END_, truth=a & (b | c))
            yield from both("%d, %d and %d, or" % (a, b, c), three + AND_ + OR_ + END_, truth=a | (b & c))
            yield from both("not %d, %d or %d, and not" % (a, b, c), three[:1] + NOT_ + three[1:] + OR_ + NOT_ + AND_ + END_, truth=1 - (a | b | c))
    for nots in range(9):
        yield from both("%d times not" % nots, T + NOT_ * nots + END_, truth=1 - nots % 2)


EDGES = (0, 1, 2, 255, 256, 65535, 65536, 0x00FFFFFF, 0x01000000, 0x01020304, 0x04030201, 0x7F000000, 2**31 - 1, 2**31, 2**31 + 1, 0x80000100,
         2**32 - 2, 2**32 - 1)


def comparison_cases(opcode):
    """Each two of these versions: the one put last stands on the left. Either may be the version of a GUID."""
    for right, left in product(EDGES, EDGES):
        truth = int(COMPARISONS[opcode](left, right))
        versions = [left, right] + VERSIONS[2:]
        puts = {"two versions": version(right) + version(left), "a version, a GUID": version(right) + guid(GUIDS[0]),
                "a GUID, a version": guid(GUIDS[1]) + version(left), "two GUIDs": guid(GUIDS[1]) + guid(GUIDS[0])}
        for name, put in puts.items():
            name = "opcode %d, %s, %d on the left of %d" % (opcode, name, left, right)
            yield evaluated(name, put + bytes([opcode]) + END_, truth, versions=versions)


def version_byte_cases():
    """Versions that differ in one byte or bit."""
    for bit in range(32):
        other = 0x5AC3963C ^ 1 << bit
        less = int(0x5AC3963C < other)
        two = version(other) + version(0x5AC3963C)
        yield from both("versions apart in bit %d" % bit, two + EQ_ + END_, truth=0)
        yield from both("versions apart in bit %d, less" % bit, two + bytes([LT]) + END_, truth=less)
        yield evaluated("installed version apart in bit %d" % bit, guid(GUIDS[15]) + version(0x5AC3963C) + bytes([GTE]) + END_, 1 - less,
                        versions=VERSIONS[:15] + [other])


# The table.

FAR = (17, 18, 31, 32, 255, 256, 257, 2**16, 2**31, 2**32, 2**32 + 1, 2**32 + 16, 2**63, 2**64 - 1)


def row_cases():
    """A GUID in each row, with each used number."""
    for row, used in product(range(ROWS), (*range(ROWS + 1), *FAR)):
        number = 2 if used > ROWS else 14 if row >= used else 0
        for change in (0, 1):
            name = refused("the GUID in row %d of %d, its version changed by %d" % (row, used, change), number)
            yield evaluated(name, is_version(GUIDS[row], VERSIONS[row] ^ change), None if number else 1 - change, used=used)
    for used in (*range(ROWS + 1), *FAR):
        yield evaluated(refused("no GUID asked for, used %d" % used, 2 if used > ROWS else 0), T + END_, None if used > ROWS else 1, used=used)
        yield evaluated(refused("a fault, used %d" % used, 2 if used > ROWS else 303), NOT_ + END_, used=used)
        yield evaluated(refused("no bytes, used %d" % used, 2 if used > ROWS else 305), b"", used=used)
    yield evaluated("every row", b"".join(is_version(*row)[:-1] for row in zip(GUIDS, VERSIONS)) + AND_ * 15 + END_, 1)


def twice_cases():
    """A GUID in two rows or in all: the first counts, with each used number that has one of them."""
    for first, second in ((i, j) for j in range(ROWS) for i in range(j)):
        guids = GUIDS[:second] + [GUIDS[first]] + GUIDS[second + 1:]
        for used in sorted({first, first + 1, second, second + 1, ROWS}):
            number = 14 if used <= first else 0
            name = refused("a GUID in rows %d and %d of %d" % (first, second, used), number)
            yield evaluated(name, is_version(GUIDS[first], VERSIONS[first]), None if number else 1, guids=guids, used=used)
    for used in range(1, ROWS + 1):
        yield evaluated("one GUID in all %d rows" % used, is_version(GUIDS[9], VERSIONS[0]), 1, guids=[GUIDS[9]] * ROWS, used=used)


def near_cases():
    """GUIDs that differ in one bit or byte are not the same: in the only row, and in the row before the one that counts."""
    for place, change in product(range(16), (1, 2, 4, 8, 16, 32, 64, 128, 255)):
        other = bytearray(GUIDS[5])
        other[place] ^= change
        name = "a GUID apart by %02x in byte %d" % (change, place)
        yield evaluated(refused(name, 14), is_version(bytes(other), VERSIONS[5]))
        yield evaluated(name + ", its own in the next row", is_version(bytes(other), VERSIONS[6]), 1, guids=GUIDS[:6] + [bytes(other)] + GUIDS[7:])
    own = GUIDS[5]
    for name, other in (("its halves exchanged", own[8:] + own[:8]), ("backward", own[::-1]), ("one byte on", own[1:] + GUIDS[6][:1])):
        yield evaluated(refused("a GUID, " + name, 14), is_version(other, VERSIONS[5]))


def everyday_cases():
    """An expression as updates carry it, with every outcome of its two comparisons."""
    expression = version(5) + guid(GUIDS[0]) + bytes([GTE]) + version(9) + guid(GUIDS[1]) + bytes([LT]) + AND_ + text(b"5 to 9") + END_
    for a, b in product((4, 5, 6), (8, 9, 10)):
        name = "at least 5 and below 9, with %d and %d installed" % (a, b)
        yield evaluated(name, expression, int(a >= 5 and b < 9), versions=[a, b] + VERSIONS[2:])


GROUPS = (place_cases, unknown_cases, *(partial(short_cases, (opcode,), 4) for opcode in OPCODES), cut_cases, text_cases, depth_cases,
          among_cases, end_cases, behind_cases, pair_cases, absent_cases, order_cases, truth_cases,
          *(partial(comparison_cases, opcode) for opcode in COMPARISONS), version_byte_cases, row_cases, twice_cases, near_cases, everyday_cases)


# One mebibyte.

MIB = 2**20


def repeated(start, unit, end, length=MIB):
    """So many bytes: the start, the unit as often as there is room, the end, and unknown opcodes behind it."""
    parts = start + unit * ((length - len(start) - len(end)) // len(unit)) + end
    return parts + b"\xff" * (length - len(parts))


LONG = (("TRUE, many times NOT", 0, repeated(T, NOT_, END_)),
        ("many times TRUE AND", 0, repeated(T, T + AND_, END_, MIB + 77)),
        ("many times FALSE OR, then AND", 303, repeated(T, F + OR_, AND_ + END_)),
        ("a text", 0, repeated(T + b"\x02", b"x", b"\0" + END_)),
        ("a text without its zero", 302, repeated(T + b"\x02", b"x", END_)),
        ("a text, its zero the last byte", 305, repeated(T + b"\x02", b"x", b"\0")),
        ("many empty texts, no end", 305, repeated(T, b"\x02\0", b"\x02\0", MIB + 1)),
        ("many GUIDs", 0, repeated(T, is_version(GUIDS[15], VERSIONS[15])[:-1] + AND_, END_)),
        ("many GUIDs, the last absent", 14, repeated(T, is_version(GUIDS[0], VERSIONS[0])[:-1] + AND_, is_version(ABSENT, 7)[:-1] + AND_ + END_)))


def large_cases(name, number, expression):
    yield from both("1 MiB, " + name, expression, number)


LARGE = tuple(partial(large_cases, *case) for case in LONG)
