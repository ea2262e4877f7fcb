"""Section streams in PI mode, where a size field of FF FF FF is followed by the type and a 32-bit size: searching and appending.

Most cases of streams.py are made in PI mode too, and some streams with FF FF FF in Framework mode, where this is the size 16,777,215.
The lines are those of streams.py; in PI mode the call is `search pi` or `append pi`.
"""

from functools import partial

from cases import streams
from cases.streams import BODY, COMPRESSION, FREE_FORM, GUID_DEFINED, KNOWN, RAW, UNKNOWN, VERSION, compression, guided, nested, section, stream
from model.sections import PI
from trial import appending, searching

LONG = b"\xff\xff\xff"      # the size field of a long header
GUID = bytes(range(16))
CLASSES = ((RAW, 8, "raw", b""), (COMPRESSION, 13, "compression", b"\x00\x00\x00\x00\x01"),
           (GUID_DEFINED, 28, "GUID-defined", GUID + b"\x1c\x00\x01\x00"), (FREE_FORM, 24, "free-form", GUID))

pi = partial(searching, mode=PI)
pi_appending = partial(appending, mode=PI)


def long_section(kind, body=b"", size=None):
    size = 8 + len(body) if size is None else size
    return LONG + bytes([kind]) + size.to_bytes(4, "little") + body


def long_compression(contents, kind=0, unpacked=None):
    unpacked = len(contents) if unpacked is None else unpacked
    return long_section(COMPRESSION, unpacked.to_bytes(4, "little") + bytes([kind]) + contents)


def long_guided(contents, attributes=0, offset=28, more=b""):
    body = GUID + offset.to_bytes(2, "little") + attributes.to_bytes(2, "little") + more + contents
    return long_section(GUID_DEFINED, body)


def by_turns(levels, innermost, holders):
    """Nested in the holders given, one after the other, from the inside."""
    for i in range(levels):
        innermost = holders[i % len(holders)](innermost)
    return innermost


HOLDERS = ((compression, "compression"), (guided, "GUID-defined"), (long_compression, "long compression"), (long_guided, "long GUID-defined"))
LONG_HOLDERS = HOLDERS[2:]


def type_cases():
    every = stream(*[long_section(kind, bytes([kind]) * (kind % 5)) for kind in KNOWN + UNKNOWN],
                   long_section(FREE_FORM, bytes(17)), long_compression(b"\x01\x02", kind=1, unpacked=9), long_guided(b"\x03", attributes=1))
    for kind in sorted(KNOWN + UNKNOWN + (COMPRESSION, GUID_DEFINED, FREE_FORM)):
        yield pi("long, type 0x%02X among every type" % kind, every, kind, 0)
    yield pi("long, a type that is not there: 14", every, 0x20, 0)
    for kind in KNOWN + UNKNOWN:
        yield pi("long, type 0x%02X of 8 bytes, the least" % kind, long_section(kind), kind, 0)
        yield pi("long, type 0x%02X of 7 bytes: 202" % kind, long_section(kind, size=7), kind, 0)


def size_cases():
    for kind, least, name, fields in CLASSES:
        for size in (0, 1, 3, 4, 7, 8, 9, 12, 13, 19, 20, 23, 24, 27, 28):
            data = long_section(kind, (fields + bytes(20))[:20], size)
            good = size >= least
            yield pi("long %s of size %d%s" % (name, size, "" if good else ": 202"), data[:size] if good else data, kind, 0)
        for size in (255, 256, 257, 300):
            yield pi("long %s of size %d" % (name, size), long_section(kind, (fields + b"\xee" * 300)[:size - 8]), kind, 0)
        yield pi("long %s one byte past the end: 203" % name, long_section(kind, fields, least + 1), kind, 0)
    yield pi("long compression of size 13, kind 0, no contents", long_compression(b""), COMPRESSION, 0)
    yield pi("long GUID-defined of size 28, no contents", long_guided(b""), GUID_DEFINED, 0)
    for size in (9, 10, 256, 65536, 0xFFFFFE, 0xFFFFFF, 0x1000000, 67108864, 2**31, 2**32 - 4, 2**32 - 1):
        yield pi("long, size %d in 8 bytes: 203" % size, long_section(RAW, size=size), RAW, 0)
    for size in (9, 2**32 - 8, 2**32 - 5, 2**32 - 1):
        yield pi("long, size %d in 8 bytes behind a section of 8: 203" % size, section(RAW, b"four") + long_section(RAW, size=size), RAW, 0)
    for holder, name in HOLDERS:
        past = holder(long_section(RAW, size=9))
        yield pi("long, past the end of %s, within the stream: 203" % name, stream(past, section(RAW, bytes(8))), RAW, 0)
        yield pi("long, size 2^32 - 1 in %s: 203" % name, stream(holder(long_section(RAW, size=2**32 - 1)), section(RAW)), RAW, 0)
        yield pi("long, just at the end of %s, the stream goes on" % name, stream(holder(long_section(RAW)), section(RAW)), RAW, 1)


def left_cases():
    """So many bytes left at a start."""
    leaf, long_leaf = section(RAW), long_section(RAW)
    for left in range(1, 9):
        no = ": 201" if left < 8 else ""
        yield pi("%d of 8 bytes of a long header in all%s" % (left, no), long_leaf[:left], RAW, 0)
        yield pi("%d of 8 bytes of a long header after a section%s" % (left, no), leaf + long_leaf[:left], RAW, 0)
        yield pi("%d of 8 bytes of a long header after a long section%s" % (left, no), long_leaf + long_leaf[:left], RAW, 0)
        for holder, name in HOLDERS:
            cut = holder(leaf + long_leaf[:left])
            yield pi("%d of 8 bytes of a long header inside %s%s" % (left, name, no), cut, RAW, 0)
            more = stream(holder(long_leaf[:left]), section(RAW, bytes(8)))
            yield pi("%d of 8 bytes of a long header inside %s, the stream goes on%s" % (left, name, no), more, RAW, 0)
    for left in range(4, 8):
        yield pi("%d bytes left and size 0: 201" % left, (LONG + b"\x19" + bytes(4))[:left], RAW, 0)
        yield pi("%d bytes left, every byte FF: 201" % left, b"\xff" * left, 0xFF, 0)
        yield pi("%d bytes left, a holder: 201" % left, (LONG + b"\x01\x0d\x00\x00\x00")[:left], COMPRESSION, 0)
    yield pi("8 bytes left, every byte FF: 203", b"\xff" * 8, 0xFF, 0)
    yield pi("8 bytes left and size 0: 202", LONG + b"\x19" + bytes(4), RAW, 0)


def partly_cases():
    """Size fields that FF FF FF is near to, and FF FF FF that is no size field."""
    for field in ("feffff", "fffeff", "fffffe", "ffff7f", "ffff00", "00ffff", "ff00ff", "7fffff"):
        yield pi("size field %s is an ordinary size: 203" % field, bytes.fromhex(field) + b"\x19\x08\x00\x00\x00", RAW, 0)
        yield pi("size field %s in 4 bytes: 203" % field, bytes.fromhex(field) + b"\x19", RAW, 0)
    yield pi("type FF behind a short size", section(0xFF, b"\xff\xff\xff\xff"), 0xFF, 0)
    yield pi("type FF behind FF FF FF", long_section(0xFF, b"\xff\xff\xff\xff"), 0xFF, 0)
    yield pi("a body of FF behind a short header", stream(section(RAW, b"\xff" * 9), section(VERSION)), VERSION, 0)
    yield pi("a body of FF behind a long header", stream(long_section(RAW, b"\xff" * 9), section(VERSION)), VERSION, 0)
    yield pi("packed contents of FF", compression(b"\xff" * 9, 1, 2**32 - 1), COMPRESSION, 0)
    yield pi("packed contents of FF, long", long_compression(b"\xff" * 9, 255, 2**32 - 1), COMPRESSION, 0)
    yield pi("contents of FF: 203", compression(b"\xff" * 9), COMPRESSION, 0)
    yield pi("padding of FF: 207", section(RAW, b"\x01") + LONG + section(RAW), RAW, 0)


def part_cases():
    yield pi("a long section's part starts at byte 8", long_section(RAW, BODY), RAW, 0)
    yield pi("a short section's part starts at byte 4", section(RAW, bytes(4) + BODY), RAW, 0)
    yield pi("a long compression's part starts at byte 8", long_compression(section(RAW, BODY)), COMPRESSION, 0)
    yield pi("a long GUID-defined one's part starts at byte 8", long_guided(section(RAW, BODY)), GUID_DEFINED, 0)
    yield pi("a long free-form one's part starts at byte 8", long_section(FREE_FORM, GUID + BODY), FREE_FORM, 0)
    mixed = stream(section(RAW, b"\x00"), long_section(RAW, b"\x01\x01"), section(VERSION), long_compression(section(RAW, b"\x02")), section(RAW),
                   compression(long_section(RAW, b"\x04")), long_section(VERSION), long_section(RAW))
    for instance in range(7):
        no = ": 14" if instance == 6 else ""
        yield pi("short and long by turns, raw %d%s" % (instance, no), mixed, RAW, instance)
    for instance in range(3):
        no = ": 14" if instance == 2 else ""
        yield pi("short and long by turns, compression %d%s" % (instance, no), mixed, COMPRESSION, instance)
        yield pi("short and long by turns, version %d%s" % (instance, no), mixed, VERSION, instance)
    yield pi("long, instance 2^64 - 1: 14", mixed, RAW, 2**64 - 1)
    for mode in (2, 256, 2**32, 2**64 - 1):
        yield searching("mode %d is PI" % mode, stream(long_section(RAW, BODY), section(RAW)), RAW, 0, mode=mode)


def compression_cases():
    leaf = section(RAW, BODY)
    for inner, inner_name in ((leaf, "short"), (long_section(RAW, BODY), "long")):
        right = len(inner)
        for unpacked, name in ((right + 4, "size - 9"), (right - 1, "one less"), (right + 1, "one more"), (0, "0"), (right - 4, "size - 17"),
                               (right + 13, "the size"), (right + 2**16, "right in 16 bits"), (right + 2**24, "right in 24 bits"),
                               (2**32 - 1, "2^32 - 1")):
            yield pi("long, kind 0, unpacked length %s, %s inside: 204" % (name, inner_name), long_compression(inner, unpacked=unpacked), RAW, 0)
        yield pi("long, kind 0, unpacked length size - 13, %s inside" % inner_name, long_compression(inner), RAW, 0)
    yield pi("short, kind 0, unpacked length size - 13: 204", compression(leaf, unpacked=len(leaf) - 4), RAW, 0)
    for kind in (1, 2, 128, 255):
        yield pi("long, kind %d is not searched, any unpacked length: 14" % kind, long_compression(leaf, kind, 99), RAW, 0)
        yield pi("long, kind %d, byte 8 zero: 14" % kind, long_compression(leaf, kind, 256), RAW, 0)
        yield pi("long, kind %d with contents that are no stream" % kind, long_compression(LONG + b"\x19", kind), COMPRESSION, 0)
    yield pi("long, contents of 256 bytes", long_compression(section(RAW, bytes(252))), RAW, 0)


def guided_cases():
    leaf = section(RAW, BODY)       # the section has 28 + 7 = 35 bytes
    for offset in (0, 4, 20, 23, 24, 25, 27, 36, 65535):
        yield pi("long, data offset %d of a section of 35: 204" % offset, long_guided(leaf, offset=offset), RAW, 0)
        yield pi("long, data offset %d, packed: 204" % offset, long_guided(leaf, 1, offset), RAW, 0)
    yield pi("long, data offset 28", long_guided(leaf), RAW, 0)
    yield pi("long, data offset 28, packed: 14", long_guided(leaf, 1), RAW, 0)
    yield pi("long, data offset equal to the size, no contents: 14", long_guided(leaf, offset=35), RAW, 0)
    yield pi("long, data offset equal to the size, packed", long_guided(leaf, 1, 35), GUID_DEFINED, 0)
    yield pi("long, data offset one above the least size of 28: 204", long_guided(b"", offset=29), RAW, 0)
    yield pi("short, data offset 24 in PI mode", guided(leaf), RAW, 0)
    yield pi("short, data offset 27 in PI mode, 3 bytes between", guided(leaf, offset=27, more=b"mmm"), RAW, 0)
    for more in range(1, 6):
        data = long_guided(stream(leaf, long_section(RAW, b"\x07"), leaf), offset=28 + more, more=b"m" * more)
        yield pi("long, data offset %d, contents aligned from there" % (28 + more), data, RAW, 2)
    for attributes, name in ((1, "bit 0"), (3, "bits 0 and 1"), (0xFFFF, "every bit")):
        yield pi("long, packed by %s, not searched: 14" % name, long_guided(leaf, attributes), RAW, 0)
        yield pi("long, packed by %s, contents that are no stream" % name, long_guided(LONG + b"\x19", attributes), GUID_DEFINED, 0)
    for attributes in (2, 0x100, 0xFFFE):
        yield pi("long, attributes 0x%X are searched" % attributes, long_guided(leaf, attributes), RAW, 0)


def inner_cases():
    """Long and short in each other, and the places of what is inside."""
    for holder, name in HOLDERS:
        for inner, inner_name in ((section(RAW, BODY), "short raw"), (long_section(RAW, BODY), "long raw")):
            yield pi("%s inside %s" % (inner_name, name), holder(inner), RAW, 0)
            two = stream(section(VERSION, b"\x05"), holder(stream(inner, inner)), inner)
            for instance in range(3):
                yield pi("two of %s inside %s and one behind, raw %d" % (inner_name, name, instance), two, RAW, instance)
        for inside, inside_name in HOLDERS:
            yield pi("%s inside %s" % (inside_name, name), stream(holder(stream(inside(long_section(RAW, BODY)), section(RAW))), section(RAW, b"\x06")), RAW, 1)


def level_cases():
    leaf, long_leaf = section(RAW, BODY), long_section(RAW, BODY)
    for holder, name in LONG_HOLDERS:
        for levels in range(1, 8):
            yield pi("long raw inside %d of %s" % (levels, name), nested(levels, long_leaf, holder), RAW, 0)
        for levels in (8, 9):
            yield pi("long raw inside %d of %s: 205" % (levels, name), nested(levels, long_leaf, holder), RAW, 0)
        yield pi("eight of %s, the last with no contents: 205" % name, nested(8, b"", holder), RAW, 0)
        yield pi("seven of %s with no contents: 14" % name, nested(7, b"", holder), RAW, 0)
    for holders, name in (((compression, long_compression), "short in long compression"), ((long_compression, compression), "long in short compression"),
                          ((guided, long_guided), "short in long GUID-defined"), ((long_guided, long_compression), "both long holders"),
                          ((compression, guided, long_compression, long_guided), "all holders")):
        yield pi("seven by turns, %s" % name, by_turns(7, leaf, holders), RAW, 0)
        yield pi("eight by turns, %s: 205" % name, by_turns(8, leaf, holders), RAW, 0)
    for seven in (compression, long_compression):
        yield pi("a long holder on the eighth level of %s: 205" % seven.__name__, nested(7, long_guided(leaf), seven), RAW, 0)
    yield pi("a packed long compression on the eighth level", nested(7, long_compression(leaf, kind=1), long_compression), COMPRESSION, 7)
    yield pi("a packed long GUID-defined one on the eighth level", nested(7, long_guided(leaf, 1), long_guided), GUID_DEFINED, 7)
    yield pi("levels count along one branch, long", stream(nested(7, long_leaf, long_guided), nested(7, long_leaf, long_compression)), RAW, 1)


def padding_cases():
    leaf = section(RAW)
    for size in range(8, 13):
        one = long_section(RAW, b"\xaa" * (size - 8))
        padding = -size % 4
        yield pi("a long section of %d, then a short one" % size, stream(one, leaf), RAW, 1)
        yield pi("a long section of %d, then a long one" % size, stream(one, long_section(RAW)), RAW, 1)
        yield pi("a long section of %d, padding cut off" % size, one, RAW, 0)
        for have in range(1, padding + 1):
            wrong = one + bytes(have - 1) + b"\x01"
            yield pi("a long section of %d, %d zero bytes of padding at the end" % (size, have), one + bytes(have), RAW, 0)
            yield pi("a long section of %d, nonzero as byte %d of the padding: 207" % (size, have), wrong + bytes(padding - have) + leaf, RAW, 0)
            yield pi("a long section of %d, nonzero as byte %d of a cut padding: 207" % (size, have), wrong, RAW, 0)
    one = long_section(RAW, b"\xaa")
    for holder, name in HOLDERS:
        yield pi("a long section's padding inside %s, nonzero: 207" % name, holder(one + b"\x01"), RAW, 0)
        yield pi("a long section's padding that the end of %s cuts off" % name, stream(holder(one), section(VERSION, b"\x01")), VERSION, 0)
    yield pi("nonzero padding after a long compression: 207", long_compression(b"") + b"\x00\x00\x01" + leaf, RAW, 0)
    yield pi("nonzero padding after a long GUID-defined one: 207", long_guided(b"\x01", 1) + b"\x01\x00\x00" + leaf, RAW, 0)
    yield pi("nonzero padding inside a long packed one is not looked at", long_compression(one + b"\x01", 1), COMPRESSION, 0)


def order_cases():
    leaf, one = section(RAW), long_section(RAW, b"\xaa")
    for kind, least, name, _ in CLASSES:
        yield pi("long, 201 before 202, %s: 201" % name, LONG + bytes([kind]) + bytes(3), kind, 0)
        yield pi("long, 202 before 203, %s: 202" % name, long_section(kind, b"", least - 1), kind, 0)
    yield pi("long, 203 before 204, unpacked length: 203", long_section(COMPRESSION, b"\x63" + bytes(4), 14), RAW, 0)
    yield pi("long, 203 before 204, data offset: 203", long_section(GUID_DEFINED, bytes(20), 29), RAW, 0)
    yield pi("long, 203 before 204, past the holder: 203", stream(compression(long_section(COMPRESSION, b"\x63" + bytes(4), 14)), leaf), RAW, 0)
    yield pi("long, 204 before 205, unpacked length: 204", nested(7, long_compression(leaf, unpacked=3), long_compression), RAW, 0)
    yield pi("long, 204 before 205, data offset: 204", nested(7, long_guided(leaf, offset=27), long_guided), RAW, 0)
    yield pi("long, 205 before the children: 205", nested(8, LONG + b"\x19", long_compression), RAW, 0)
    yield pi("long, 205 before 207 of its own padding: 205", nested(7, long_compression(b"") + b"\x01", long_compression), RAW, 0)
    yield pi("long, 201 on the eighth level: 201", nested(7, LONG + b"\x01\x00", long_compression), RAW, 0)
    yield pi("long, a child's 201 before the holder's 207: 201", long_compression(LONG + b"\x19") + b"\x01\x01\x01" + leaf, RAW, 0)
    yield pi("long, a child's 202 before the holder's 207: 202", long_compression(long_section(RAW, size=7)) + b"\x01\x01\x01" + leaf, RAW, 0)
    yield pi("long, a child's 207 before the next sibling's 202: 207", stream(long_compression(one + b"\x01"), long_section(RAW, size=7)), RAW, 0)
    yield pi("long, 207 before the next sibling's 201: 207", one + b"\x00\x01\x00" + LONG + b"\x19", RAW, 0)
    yield pi("long, a sibling's 202 before a later 201: 202", stream(leaf, long_section(RAW, size=4)) + LONG + b"\x19", RAW, 0)
    yield pi("long, a sibling's 203 before a later 202: 203", stream(leaf, long_section(RAW, size=99), long_section(RAW, size=3)), RAW, 0)
    yield pi("long, a fault behind the section that matches: 202", stream(one, long_section(RAW, size=7)), RAW, 0)
    yield pi("long, a fault before 14: 201", leaf + LONG + b"\x19", VERSION, 0)


def framework_cases():
    """Framework mode: FF FF FF is a size like any other."""
    leaf, long_leaf = section(RAW), long_section(RAW)
    for left in range(1, 9):
        no = 201 if left < 4 else 203
        yield searching("Framework, %d of 8 bytes of a long header in all: %d" % (left, no), long_leaf[:left], RAW, 0)
        yield searching("Framework, %d of 8 bytes of a long header after a section: %d" % (left, no), leaf + long_leaf[:left], RAW, 0)
        yield searching("Framework, %d of 8 bytes of a long header inside compression: %d" % (left, no), stream(compression(long_leaf[:left]), leaf), RAW, 0)
    for kind, least, name, fields in CLASSES:
        yield searching("Framework, long %s of its least size: 203" % name, long_section(kind, fields), kind, 0)
        yield searching("Framework, long %s of size %d: 203" % (name, least - 1), long_section(kind, fields, least - 1), kind, 0)
    for holder, name in HOLDERS:
        yield searching("Framework, long raw inside %s: 203" % name, holder(long_leaf), RAW, 0)
    yield searching("Framework, 202 before a later FF FF FF: 202", section(RAW, size=3) + long_leaf, RAW, 0)
    yield searching("Framework, 207 before a later FF FF FF: 207", section(RAW, b"\x01") + b"\x01\x00\x00" + long_leaf, RAW, 0)
    yield searching("Framework, every byte FF: 203", b"\xff" * 8, 0xFF, 0)
    yield searching("Framework, a body of FF", stream(section(RAW, b"\xff" * 9), section(VERSION)), VERSION, 0)
    yield searching("Framework, long inside a packed holder is not looked at", compression(long_leaf, 1), COMPRESSION, 0)


def append_cases():
    for used in range(8, 13):
        yield pi_appending("after a long section of %d bytes" % used, 64, used, RAW, BODY, long_section(RAW, bytes(used - 8)), 1)
    both = stream(long_compression(section(RAW, b"\x01")), long_section(VERSION, b"\x02\x03"))
    yield pi_appending("one section more behind long ones", 64, len(both), RAW, BODY, both, 1)
    yield pi_appending("after 5 bytes of FF, not tested", 64, 5, RAW, BODY, b"\xff" * 20)
    yield pi_appending("a body of FF, type FF", 64, 0, 0xFF, b"\xff" * 8)
    yield pi_appending("a small body gets a short header", 64, 0, RAW, b"\x08\x00\x00\x00")
    yield pi_appending("a free-form body of 16 gets a short header, room just enough", 20, 0, FREE_FORM, GUID)
    for mode in (2, 2**64 - 1):
        yield appending("mode %d is PI" % mode, 64, 9, RAW, BODY, long_section(RAW, b"\x01"), 1, mode=mode)


def framework_append_cases():
    yield appending("Framework, after a long section, not tested", 64, 9, RAW, BODY, long_section(RAW, b"\x01"), 1)
    yield appending("Framework, a body of FF, type FF", 64, 0, 0xFF, b"\xff" * 8)


def cases():
    for group in (streams.instance_cases, streams.holder_cases, streams.level_cases, streams.padding_cases, streams.order_cases):
        for case in group(pi):
            yield "search pi", case
    for group in (type_cases, size_cases, left_cases, partly_cases, part_cases, compression_cases, guided_cases, inner_cases, level_cases,
                  padding_cases, order_cases):
        for case in group():
            yield "search pi", case
    for case in framework_cases():
        yield "search", case
    for case in streams.append_cases(pi_appending):
        yield "append pi", case
    for case in append_cases():
        yield "append pi", case
    for case in framework_append_cases():
        yield "append", case
