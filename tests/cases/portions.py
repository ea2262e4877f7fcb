"""Section files that come in portions.

A line of a case: its name, the call, and
  receive  type, instance, total announced, bytes that came, the announcement's number, the finish's number (beside 0 the sections
           on the walk, first byte and end), after how many bytes the fault was found and its number (a dash and 0 for none), and
           how many of the receptions in single bytes and in any two portions came to the same
In PI mode the call is `receive pi`. A name's end says which refusal the case gets. Where it starts with `long`, the header at
fault, or every one, is long. The streams of the search cases come first, each as a file. The other cases ask when a fault is found, what is answered where
more bytes come than were announced or fewer, and what the portions' cuts could spoil.
"""

import re

from cases import first_match, long_headers, streams
from cases.first_match import PE32, PI_LONG, PI_SHORT, SHORT, holders, packed
from cases.long_headers import GUID, LONG
from cases.streams import BODY, COMPRESSION, FREE_FORM, GUID_DEFINED, RAW, VERSION, compression, nested, stream
from model import portions, sections
from model.sections import FRAMEWORK, LIMIT, PI, PI_LIMIT
from trial import in_mode, receiving, split

CLASSES = ((RAW, 0, "raw"), (COMPRESSION, 5, "compression"), (GUID_DEFINED, 20, "GUID-defined"), (FREE_FORM, 16, "free-form"))
CUTS = ((), (1,), (3,), (2, 4))     # portions, by turns


def receive(form, name, came, total=None, lengths=None, kind=RAW, instance=0):
    """A file of as many bytes as come, where no other total is given."""
    total = len(came) if total is None else total
    lengths = CUTS[len(came) % len(CUTS)] if lengths is None else lengths
    return in_mode("receive", form.mode)[0], receiving(form.lead + name, came, total, kind, instance, lengths, form.mode)


# The streams of the search cases.

def searches(part):
    """(name without its refusal, stream, type, instance, mode) of each search of a case file."""
    for subject, case in part.cases():
        if subject.startswith("search"):
            _, _, data, kind, *more = split(case.script)
            instance = 0 if "first" in subject else int.from_bytes(more.pop(0), "little")
            yield re.sub(r": \d+$", "", case.name), data, kind[0], instance, int.from_bytes(b"".join(more), "little")


def whole(name, data, kind, instance, mode):
    """A whole file, which gets what the search for the same section gets."""
    no, first, end = sections.search(data, kind, instance, mode)
    answer = portions.finish(data, len(data), kind, instance, mode)
    assert answer[:1] + answer[2:] == (no, first, end), name
    return receive(SHORT._replace(mode=mode), name + (": %d" % no if no else ""), data, None, (), kind, instance)


def searched_cases():
    """Each stream once in each mode, whichever it is searched in."""
    seen = set()
    for part, lead in ((streams, ""), (long_headers, ""), (first_match, "first match, ")):
        for name, data, kind, instance, searched in searches(part):
            for mode in (searched, PI if searched == FRAMEWORK else FRAMEWORK):
                if (mode == FRAMEWORK, data) not in seen:
                    seen.add((mode == FRAMEWORK, data))
                    yield whole(lead + name, data, kind, instance, mode)


# When a fault is found.

def faults(form):
    """(name, number, bytes up to the end of the stream that has the fault, how many of them must have come)"""
    h, leaf, one = form.header, form.section(RAW, BODY), form.section(RAW, b"\xaa")
    yield "2 bytes left", 201, leaf[:2], 0
    for left in range(4, h, 3):
        yield "%d bytes left of a long header" % left, 201, leaf[:left], 3
    yield "raw one byte under its least size", 202, form.section(RAW, b"", h - 1), h
    yield "compression one byte past the end", 203, form.section(COMPRESSION, bytes(5), h + 6), h
    yield "unpacked length one too large", 204, form.compression(leaf, unpacked=len(leaf) + 1), h + 5
    yield "data offset one too small", 204, form.guided(leaf, 0, h + 19), h + 18
    yield "byte 2 of the padding", 207, one + b"\x00\x01\x00" + leaf, h + 3
    yield "byte 1 of a cut padding", 207, one + b"\x80", h + 2


def more_faults(form):
    """The same for other sizes, types and places."""
    h, leaf, one = form.header, form.section(RAW, BODY), form.section(RAW, b"\xaa")
    for left in range(5, h - 1):
        yield "%d bytes left of a long header" % left, 201, leaf[:left], 3
    for kind, fields, name in CLASSES[1:]:
        yield "%s one byte under its least size" % name, 202, form.section(kind, bytes(fields), h + fields - 1), h
    yield "a size of 0", 202, form.section(RAW, size=0), h
    yield "raw one byte past the end", 203, form.section(RAW, b"\xaa", h + 2), h
    yield "unpacked length right in 24 bits", 204, form.compression(leaf, unpacked=len(leaf) + 2**24), h + 5
    yield "data offset one too large, packed", 204, form.guided(leaf, 1, h + 20 + len(leaf) + 1), h + 18
    for k in (1, 3):
        yield "byte %d of the padding" % k, 207, one + bytes(k - 1) + b"\x01" + bytes(3 - k) + leaf, h + 1 + k
    yield "byte 2 of a cut padding", 207, one + b"\x00\x80", h + 3


def found(form, name, no, data, place):
    """The last byte that the fault's test reads as the last that comes, and one byte fewer."""
    yield receive(form, "%s: %d" % (name, no), data[:place], len(data))
    yield receive(form, "%s, one byte fewer: 208" % name, data[:place - 1], len(data))


def inside(form, outer, inner):
    """The stream inside the holders given, the outermost last, with a section behind them; and where it starts."""
    data = inner
    for holder in outer:
        data = holder(data)
    return stream(data, form.section(RAW, BODY)), sum(len(holder(b"")) for holder in outer)


def found_cases(form, some=faults):
    """Each fault behind a section of the file, and inside a holder behind a section."""
    lead = form.section(PE32, b"\x01") + bytes(3)
    for name, no, bad, place in some(form):
        yield from found(form, "%s, behind a section" % name, no, lead + bad, len(lead) + place)
        data, start = inside(form, (form.compression,), lead + bad)
        yield from found(form, "%s, inside a holder" % name, no, data, start + len(lead) + place)


def more_found_cases(form):
    yield from found_cases(form, more_faults)


def deep_fault_cases(form):
    seven = (form.compression, form.guided, form.guided, form.compression, form.guided, form.compression, form.compression)
    for name, no, bad, place in faults(form):
        data, start = inside(form, seven, bad)
        yield from found(form, "%s, on level 8" % name, no, data, start + place)


def level_cases(form):
    """A holder to be searched on level 8."""
    h, leaf = form.header, form.section(RAW, BODY)
    for inner, place, name in ((form.compression, h + 5, "compression"), (form.guided, h + 20, "GUID-defined")):
        for contents, held in ((leaf, "a section"), (b"", "nothing"), (b"\x01", "one byte")):
            data, start = inside(form, (form.compression,) * 7, inner(contents))
            yield from found(form, "%s with %s inside, on level 8" % (name, held), 205, data, start + place)
        data, start = inside(form, (form.guided,) * 7, inner(leaf))
        yield from found(form, "%s inside seven of GUID-defined" % name, 205, data, start + place)
    data, start = inside(form, (form.compression,) * 7, form.guided(leaf, 0, h + 24, b"more"))
    yield from found(form, "GUID-defined with bytes before the contents, on level 8", 205, data, start + h + 20)
    data, start = inside(form, (form.guided,) * 7, form.compression(b"", unpacked=1))
    yield from found(form, "204 before 205 at the kind byte", 204, data, start + h + 5)
    data, start = inside(form, (form.compression,) * 7, form.guided(b"", 0, h + 21))
    yield from found(form, "204 before 205 at the data offset", 204, data, start + h + 18)
    data, _ = inside(form, (form.compression,) * 7, stream(form.compression(b"\x01", 1), form.guided(b"\x01", 1), leaf))
    yield receive(form, "packed holders on level 8", data)


def start_cases(form):
    """201 at a start waits for every byte before it, and for no other."""
    h, leaf = form.header, form.section(RAW)
    for left in (1, 2, 3):
        yield from found(form, "%d bytes left behind a body" % left, 201, form.section(RAW, b"body") + leaf[:left], h + 4)
        yield from found(form, "%d bytes left behind no body" % left, 201, leaf + leaf[:left], h)
        for holder, _, where in holders(form):
            data, start = inside(form, (holder,), leaf[:left])
            yield from found(form, "%d bytes in %s" % (left, where), 201, data, start)
        data, start = inside(form, (form.compression, form.guided, form.compression), leaf[:left])
        yield from found(form, "%d bytes in three holders" % left, 201, data, start)
    for more in (1, 4, 7):
        data = stream(form.guided(leaf[:2], offset=h + 20 + more, more=b"\xee" * more), leaf)
        yield from found(form, "2 bytes of contents behind %d others" % more, 201, data, h + 20 + more)
    for pack, _, where in packed(form):
        held = pack(b"\x05" * 3)
        padded = held + bytes(-len(held) % 4)
        yield from found(form, "3 bytes left behind a packed %s" % where, 201, padded + b"\x04\x00\x00", len(padded))
    one = form.section(RAW, b"\x01")
    yield from found(form, "one byte left behind padding", 201, one + b"\x00\x00\x00\x04", h + 4)
    yield from found(form, "207 and one byte left behind it", 207, one + b"\x00\x00\x01\x04", h + 4)


def mode_cases():
    """The same bytes in both modes: FF FF FF is a size in Framework mode."""
    for left in (4, 5, 7, 8):
        data = (LONG + b"\x19" + b"\x09\x00\x00\x00")[:left]
        held = stream(compression(data), compression(b""))
        no, place = (201, 3) if left < 8 else (203, 8)
        yield from found(SHORT, "FF FF FF with %d bytes left" % left, 203, data, 4)
        yield from found(SHORT, "FF FF FF with %d bytes left in a holder" % left, 203, held, 13)
        yield from found(PI_SHORT, "FF FF FF with %d bytes left" % left, no, data, place)
        yield from found(PI_SHORT, "FF FF FF with %d bytes left in a holder" % left, no, held, 9 + place)
    for mode in (2, 2**32, 2**64 - 1):
        yield receive(PI_SHORT._replace(mode=mode), "7 bytes of a long header, mode %d is PI: 201" % mode, LONG + b"\x19\x08\x00\x00")


# More bytes than announced, or fewer.

def total_cases(form):
    h, four, one = form.header, form.section(RAW, b"body"), form.section(RAW, b"\x0a")
    good = stream(one, form.compression(four), four)
    for more, name in ((b"\x00", "one byte"), (b"\xff", "one byte of FF"), (b"\xff" * 40, "40 bytes of FF"), (good, "the file again,")):
        yield receive(form, "%s too many: 208" % name, good + more, len(good))
    for fewer in (1, 2, 4, 8, len(good) - 1, len(good)):
        yield receive(form, "%d of %d bytes too few: 208" % (fewer, len(good)), good[:-fewer], len(good))
    yield receive(form, "the match and no more: 208", good[:len(one)], len(good))
    yield receive(form, "no match and one byte too few: 208", good[:-1], len(good), kind=VERSION)
    yield receive(form, "no match and one byte too many: 208", good + bytes(1), len(good), kind=VERSION)
    for more in range(1, 9):
        yield receive(form, "%d bytes announced behind whole words: %d" % (more, 201 if more < 4 else 208), four, len(four) + more)
    for more in range(1, 8):
        yield receive(form, "%d bytes announced, padding first: 208" % more, one, len(one) + more)
    for more in range(1, 5):
        yield receive(form, "%d bytes announced behind padding: %d" % (more, 201 if more < 4 else 208), one + bytes(3), len(one) + 3 + more)
    for fewer in (1, 4):
        yield receive(form, "total %d too small: 203" % fewer, four, len(four) - fewer)
    yield receive(form, "total one too small for a holder: 203", form.compression(four), len(form.compression(four)) - 1)
    for fewer in (1, 2, 3):
        total = len(one) + 3 - fewer
        yield receive(form, "total %d too small, padding: 208" % fewer, one + bytes(3), total)
        yield receive(form, "total %d too small, no zero behind it: 208" % fewer, one + bytes(3 - fewer) + b"\x01" * fewer, total)
    yield receive(form, "total too small by a section: 208", four + one, len(four))
    yield receive(form, "total too small by what is no section: 208", four + bytes(8), len(four))


def fault_and_total_cases(form):
    """A fault stands before 208."""
    h, four = form.header, form.section(RAW, b"body")
    # The fault, its section, its last byte; and the number where the total ends there, and one byte before.
    for no, bad, place, there, before in ((202, form.section(RAW, size=h - 1), h, 202, 201), (203, form.section(RAW, size=99), h, 203, 201),
                                          (204, form.compression(four, unpacked=1), h + 5, 203, 203),
                                          (207, form.section(RAW, b"\x01") + b"\x01", h + 2, 207, 208)):
        data = stream(four, bad, four)
        yield receive(form, "%d and one byte too few: %d" % (no, no), data[:-1], len(data))
        yield receive(form, "%d and one byte too many: %d" % (no, no), data + bytes(1), len(data))
        yield receive(form, "%d and 30 bytes too many: %d" % (no, no), data + b"\xff" * 30, len(data))
        yield receive(form, "%d, its last byte the total's, and more: %d" % (no, there), data, len(four) + place)
        yield receive(form, "%d, its last byte past the total: %d" % (no, before), data, len(four) + place - 1)
    yield receive(form, "201 and bytes too many: 201", four + b"\x04\x00\x00\x19", len(four) + 3)
    yield receive(form, "201 and bytes too few: 201", four + b"\x04", len(four) + 3)


def empty_cases(form):
    """No bytes, and empty portions."""
    yield receive(form, "no bytes of 0: 14", b"", 0)
    yield receive(form, "empty portions of 0 bytes: 14", b"", 0, (0, 0, 0))
    for n in (1, 3, 4, 40):
        yield receive(form, "%d bytes of 0: 208" % n, bytes(n), 0)
    for total in (1, 2, 3):
        yield receive(form, "%d bytes of %d: 201" % (total, total), bytes(total), total)
        yield receive(form, "9 bytes of %d: 201" % total, bytes(9), total)
    for total in (1, 2, 3, 4, 5, 7, 8, 9):
        no = 201 if total < 4 else 208
        yield receive(form, "no bytes of %d: %d" % (total, no), b"", total)
        yield receive(form, "empty portions of %d bytes: %d" % (total, no), b"", total, (0, 0))
    held = form.compression(form.section(RAW, b"\x01"))
    good = stream(held, form.section(VERSION))
    for lengths, name in (((0,), "first"), ((0, 0, 0), "three at first"), ((2, 0), "in a size"), ((form.header, 0), "behind a header"),
                          ((form.header + 2, 0, 0), "in the fields"), ((form.header + 5, 0), "at the contents' start"),
                          ((len(held) - 1, 0), "before a body"), ((len(held), 0), "at two ends"), ((len(held) + 1, 0), "in the padding"),
                          ((len(good), 0), "last"), ((len(good), 0, 0, 0), "three at last"), ((0, 1, 0, 0, 3, 0, 9, 0, len(good), 0), "everywhere")):
        yield receive(form, "empty portions, %s" % name, good, None, lengths)
    yield receive(form, "empty portions behind a fault: 202", bytes(8), None, (4, 0, 0, 4, 0))
    yield receive(form, "an empty portion at a start with 2 bytes left: 201", form.section(RAW), form.header + 2, (form.header, 0))
    yield receive(form, "empty portions at the total's end, and a byte more: 208", good + b"\x00", len(good), (len(good), 0, 0))


def limit_cases():
    """The longest file, and longer ones: 206 at the announcement and at the finish."""
    leaf = SHORT.section(RAW, b"body")
    for form, limit in ((SHORT, LIMIT), (PI_SHORT, PI_LIMIT)):
        for total in (limit + 1, limit + 2, 2**32, 2**32 + 4, 2**63, 2**64 - 1):
            yield receive(form, "no bytes of %d: 206" % total, b"", total)
            yield receive(form, "8 bytes of %d: 206" % total, leaf, total)
        yield receive(form, "206 before a fault: 206", bytes(9), limit + 1)
        yield receive(form, "206 and empty portions: 206", b"", limit + 1, (0, 0))
        for total in (limit, limit - 1):
            yield receive(form, "no bytes of %d: 208" % total, b"", total)
            yield receive(form, "8 bytes of %d: 208" % total, leaf, total)
            yield receive(form, "4 zero bytes of %d: 202" % total, bytes(4), total)
    for total in (LIMIT + 1, 4 * LIMIT - 1):
        yield receive(PI_SHORT, "8 bytes of %d, past the limit of Framework mode: 208" % total, leaf, total)


def large_cases():
    """Sections that end near the end of the longest file."""
    lead = SHORT.section(PE32, b"body")
    for size, total, no in ((LIMIT - 1, LIMIT, 208), (LIMIT - 1, LIMIT - 1, 208), (LIMIT - 1, LIMIT - 2, 203), (LIMIT - 2, LIMIT - 1, 208)):
        yield receive(SHORT, "size %d of %d bytes: %d" % (size, total, no), SHORT.section(RAW, bytes(8), size), total)
    for size, no in ((LIMIT - 8, 208), (LIMIT - 7, 203), (LIMIT - 1, 203)):
        yield receive(SHORT, "size %d behind 8 bytes: %d" % (size, no), lead + SHORT.section(RAW, b"", size), LIMIT)
    for size, no in ((PI_LIMIT - 8, 208), (PI_LIMIT - 7, 203), (2**31, 203), (2**32 - 8, 203), (2**32 - 1, 203)):
        yield receive(PI_LONG, "size %d behind 8 bytes: %d" % (size, no), lead + PI_LONG.section(RAW, b"", size), PI_LIMIT)
    for form, limit, most in ((SHORT, LIMIT, LIMIT - 1), (PI_LONG, PI_LIMIT, PI_LIMIT)):
        fields = form.header + 5
        for size in (most, most - 3):
            held = form.section(COMPRESSION, (size - fields).to_bytes(4, "little") + b"\x00", size)
            yield receive(form, "raw inside a compression of %d: 208" % size, held + form.section(RAW, b"", size - fields), limit)
            yield receive(form, "raw past the end of a compression of %d: 203" % size, held + form.section(RAW, b"", size - fields + 1), limit)
            wrong = form.section(COMPRESSION, (size - fields + 4).to_bytes(4, "little") + b"\x00", size)
            yield receive(form, "unpacked length 4 too large in a compression of %d: 204" % size, wrong, limit)
        for size, no in ((65534, 204), (65535, 208), (65536, 208)):
            held = form.section(GUID_DEFINED, GUID + b"\xff\xff\x00\x00", size)
            yield receive(form, "data offset 65535 in a section of %d: %d" % (size, no), held, limit)


# What is found, whatever the cuts.

def tree(form):
    """14 sections on three levels, seven of them raw; one raw section more is packed."""
    inner = stream(form.section(RAW, b"\x01"), form.guided(stream(form.section(RAW), form.section(VERSION, b"\x02"))), form.section(RAW, b"\x03\x03"))
    return stream(form.section(RAW, b"\x00"), form.compression(inner), form.compression(form.section(RAW), 1, 9), form.section(FREE_FORM, bytes(17)),
                  form.guided(form.compression(stream(form.section(RAW, BODY), form.section(RAW)))), form.guided(b"\x05", 1))


def wanted_cases(form):
    data = tree(form)
    for kind, n in ((RAW, 6), (COMPRESSION, 3), (GUID_DEFINED, 3), (FREE_FORM, 1), (VERSION, 1)):
        for instance in range(n):
            yield receive(form, "type 0x%02X, instance %d" % (kind, instance), data, kind=kind, instance=instance)
        for instance in (n, 2**32, 2**64 - 1) if kind == RAW else (n,):
            yield receive(form, "type 0x%02X, instance %d: 14" % (kind, instance), data, kind=kind, instance=instance)
    yield receive(form, "type 0x99 among others: 14", data, kind=0x99)
    for kind in (0, 3, 255):
        yield receive(form, "type %d among others: 14" % kind, data, kind=kind)
        yield receive(form, "type %d with no body" % kind, form.section(kind), kind=kind)
        yield receive(form, "type %d inside two holders" % kind, nested(2, form.section(kind, b"\x07"), form.guided), kind=kind)
    for kind in (0, 1, 2, 255):
        yield receive(form, "type %d in an empty file: 14" % kind, b"", kind=kind)
    yield receive(form, "no such instance and a fault: 202", stream(data, form.section(RAW, size=0)), instance=2**64 - 1)
    yield receive(form, "no such instance and a byte too few: 208", data[:-1], len(data), instance=2**64 - 1)


def deep_cases(form):
    """On level 8."""
    leaf = form.section(RAW, b"\x0a")
    for holder, kind, where in holders(form):
        data = stream(nested(7, stream(leaf, leaf), holder), leaf)
        for instance in (0, 1, 2):
            yield receive(form, "raw %d, seven of %s" % (instance, where), data, instance=instance)
        yield receive(form, "raw 3, seven of %s: 14" % where, data, instance=3)
        yield receive(form, "the last of seven of %s" % where, data, kind=kind, instance=6)
        yield receive(form, "no eighth of %s: 14" % where, data, kind=kind, instance=7)
    data = stream(nested(7, b"", form.compression), nested(7, leaf, form.guided), nested(7, leaf, form.compression))
    yield receive(form, "three branches to level 8", data, instance=1)


def empty_holder_cases(form):
    leaf = form.section(RAW, BODY)
    for holder, kind, where in holders(form):
        data = stream(holder(b""), holder(b""), holder(holder(b"")), leaf)
        yield receive(form, "behind four empty ones of %s" % where, data)
        yield receive(form, "the last of four empty ones of %s" % where, data, kind=kind, instance=3)
        yield receive(form, "an empty %s alone" % where, holder(b""), kind=kind)
        yield receive(form, "nothing in an empty %s: 14" % where, holder(b""))
    for more in range(1, 5):
        held = form.guided(b"", offset=form.header + 20 + more, more=b"\xee" * more)
        yield receive(form, "no contents behind %d bytes of a holder" % more, stream(held, leaf))
    for levels in (1, 2, 7):
        held = nested(levels, b"", form.compression)
        zeros = -len(held) % 4
        for k in range(1, zeros + 1):
            wrong = held + bytes(k - 1) + b"\x01"
            yield from found(form, "byte %d of the padding behind %d empty holders" % (k, levels), 207, wrong + bytes(zeros - k) + leaf, len(wrong))


def ends(form, size, tails):
    """A leaf inside as many holders as there are tails, which stand behind them, the innermost first."""
    data = form.section(RAW, b"\x0a" * size)
    for holder, tail in zip((form.compression, form.guided, form.compression), tails):
        data = holder(data)
        data += bytes(-len(data) % 4) + tail if tail else b""
    return data


def end_cases(form):
    """Ends of holders that meet in one place, with and without padding and a section behind each."""
    behind = form.section(VERSION, b"\x05")
    for size in range(4):
        for bits in range(8):
            tails = [behind if bits >> i & 1 else b"" for i in range(3)]
            there = [str(i + 1) for i in range(3) if tails[i]]
            name = "body of %d in three holders, a section behind %s" % (size, ", ".join(there) or "none")
            kind, instance = (VERSION, len(there) - 1) if there else (RAW, 0)
            yield receive(form, name, ends(form, size, tails), kind=kind, instance=instance)
    for level in range(3):
        tails = [b"\x04" if i == level else b"" for i in range(3)]
        data = ends(form, 1, tails)
        start = data.rindex(b"\x0a") + 1
        zeros = data[start:].index(b"\x04")
        for k in range(1, zeros + 1):
            wrong = bytearray(data)
            wrong[start + k - 1] = 1
            yield from found(form, "byte %d of the padding behind holder %d" % (k, level + 1), 207, bytes(wrong), start + k)
        yield from found(form, "one byte left behind holder %d" % (level + 1), 201, data, start + zeros)


def align_cases(form):
    """Starts on multiples of 4 from the inner stream's start."""
    h, one, leaf = form.header, form.section(RAW, b"\x0a"), form.section(RAW)
    for more in range(4):
        for lead in (b"", form.section(PE32, b"body")):
            start = len(lead) + h + 20 + more
            held = form.guided(stream(one, one, leaf), offset=h + 20 + more, more=b"\xee" * more)
            behind = " behind a section" if lead else ""
            yield receive(form, "contents from byte %d%s" % (start, behind), lead + held, instance=2)
        for zeros in range(3):      # as many as another start would ask for
            start = h + 20 + more
            held = form.guided(one + bytes(zeros) + leaf, offset=start, more=b"\xee" * more)
            yield from found(form, "contents from byte %d, padding of %d" % (start, zeros), 207, held, start + len(one) + zeros + 1)
    for size in range(1, 4):
        body = form.section(RAW, b"\x0a" * size)
        yield receive(form, "body of %d, then a section" % size, stream(body, form.section(VERSION)), kind=VERSION)
        held = form.compression(stream(body, form.section(VERSION)))
        yield receive(form, "body of %d, then a section, in compression" % size, held, kind=VERSION)


def cut_cases(form):
    data = stream(form.section(RAW, b"\x0a"), form.guided(form.compression(form.section(RAW, b"\x0b"))), form.section(VERSION))
    for n in (1, 2, 3, 4, 5, 6, 7, 8, 9, 12, 13, 16, 24, 28):
        yield receive(form, "portions of %d bytes" % n, data, None, (n,) * (len(data) // n), instance=1)
    for at in range(1, len(data) - 1, 2):
        yield receive(form, "byte %d in a portion of its own" % at, data, None, (at, 1), kind=VERSION)
    data = tree(form)
    met = list(sections.walk(data, 0, len(data), 1, form.mode))
    for places, name in (([end for _, _, end in met], "ends"), ([first for _, first, _ in met], "headers' ends"),
                         ([end + 1 for _, _, end in met], "ends and a byte"), ([first + 5 for _, first, _ in met], "bytes 5 behind the header")):
        places = [0] + sorted({place for place in places if place <= len(data)})
        yield receive(form, "cut at all sections' %s" % name, data, None, [b - a for a, b in zip(places, places[1:])], instance=4)


def cases():
    yield from searched_cases()
    for form in (SHORT, PI_SHORT, PI_LONG):
        yield from found_cases(form)
    for group in (more_found_cases, deep_fault_cases, level_cases, start_cases, total_cases, fault_and_total_cases, empty_cases,
                  wanted_cases, deep_cases, empty_holder_cases, end_cases, align_cases, cut_cases):
        for form in (SHORT, PI_LONG):
            yield from group(form)
    yield from mode_cases()
    yield from limit_cases()
    yield from large_cases()
