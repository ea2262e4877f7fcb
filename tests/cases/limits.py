"""At the limits: 16,777,216 bytes of a volume or a stream, 16,777,215 of a section; in PI mode 67,108,864 of a stream, and long
headers from 16,777,215 bytes of a section on. They are requests of the C program c/calls.c: calls.py has their lines. The block
service at these limits is in large_service.py.

Bodies are of one byte value with a mark at each end. After an append that succeeds, the new stream is searched for the section.
"""

from functools import partial

from calls import ANSWER, ROOM as STATE_ROOM, made, request
from cases.editions import entry, extended, image
from cases.first_match import PE32
from cases.headers import header
from cases.long_headers import long_compression, long_guided, long_section
from cases.streams import BODY, COMPRESSION, FREE_FORM, GUID_DEFINED, RAW, VERSION, compression, guided, section, stream
from model import sections
from model.sections import FRAMEWORK, PI, number

LIMIT = 16777216        # bytes of a volume, and of a stream in Framework mode
LARGEST = LIMIT - 1     # bytes of a section in Framework mode
PI_LIMIT = 67108864     # bytes of a stream in PI mode
VOLUME = LIMIT + 8      # bytes of the lent volume at most
LENT = LIMIT + 8        # bytes of the section buffer in Framework mode
ROOM = PI_LIMIT + 8     # bytes of the section buffer in PI mode, at most


def erased(own, lent):
    """As many bytes, which start with these and go on with FF."""
    return own[:lent] + b"\xff" * (lent - len(own))


def opening(name, own, lent):
    return request(name, "open", STATE_ROOM, erased(own, lent), 0)


def ext_entry(name, own, lent, n):
    return request(name, "ext entry", erased(own, lent), n, ANSWER)


def in_mode(name, mode):
    return name if mode == FRAMEWORK else "PI, " + name


def searching(name, data, kind, instance, mode=FRAMEWORK):
    return request(in_mode(name, mode), "search", mode, data, kind, instance, ANSWER)


def first_searching(name, data, kind, mode=FRAMEWORK):
    return request(in_mode(name, mode), "search first", mode, data, kind, ANSWER)


def appending(name, room, used, kind, body, data=b"", instance=0, mode=FRAMEWORK):
    """An append into so many bytes, which start with this stream; and a search of what it makes."""
    done, after = made(in_mode(name, mode), "append", (mode, erased(data, room), used, kind, body, ANSWER), {})
    yield done
    if done.number == 0:
        new = bytes(after["v"][:number(after["a"], 0, 8)])
        fault = sections.search(new, kind, instance, mode)[0]
        yield searching("%s, the new stream%s" % (name, ": %d" % fault if fault else ""), new, kind, instance, mode)


def open_cases():
    for map_words, name in (([1, LIMIT], "one block"), ([4096, 4096], "4,096 blocks"), ([65536, 256], "65,536 blocks"), ([65535, 256, 1, 256], "65,536 blocks in two entries")):
        yield opening("16,777,216 bytes, %s, open" % name, header(map_words), LIMIT)
    yield opening("16,777,216 bytes and more lent, open", header([1, LIMIT]), VOLUME)
    yield opening("16,777,216 bytes, one less lent: 109", header([1, LIMIT]), LIMIT - 1)
    yield opening("16,777,217 bytes: 107", header([1, LIMIT + 1]), VOLUME)
    yield opening("16,777,217 bytes in two blocks: 107", header([1, LIMIT, 1, 1]), VOLUME)
    yield opening("65,537 blocks, all there: 107", header([65537, 255]), VOLUME)


# 65,535 is the largest size of an entry, and 256 of them behind byte 256 end with the volume. FF all over is such an entry of type 65,535.
LARGEST_ENTRIES = 20 + 256 * 65535


def extended_cases():
    full = image(extended(size=LARGEST_ENTRIES), 236, [1, LIMIT])
    yield opening("edition 2, 256 entries of 65,535 bytes, open", full, LIMIT)
    late = image(extended(size=LARGEST_ENTRIES), 237, [1, LIMIT])
    yield opening("edition 2, 256 entries of 65,535 bytes, one byte past the volume: 112", late, VOLUME)
    for n in (0, 255):
        yield ext_entry("entry %d of 256" % n, full, LIMIT, n)
    yield ext_entry("entry 256 of 256: 14", full, LIMIT, 256)
    count = (LIMIT - 92) // 4
    many = image(extended(entry(4) * count), map_words=[1, LIMIT])
    yield ext_entry("the last of 4,194,281 entries", many, LIMIT, count - 1)
    cut = image(extended(entry(4) * (count - 1), entry(5, body=b"")), map_words=[1, LIMIT])
    yield ext_entry("the last of 4,194,281 entries one byte too long: 112", cut, LIMIT, 0)


def body(size):
    return b"\x01" + b"\x5a" * (size - 2) + b"\x02"


pi = partial(searching, mode=PI)


def search_cases():
    largest = section(RAW, body(LARGEST - 4))
    yield searching("a section of 16,777,215 bytes, padding cut off", largest, RAW, 0)
    yield searching("a section of 16,777,215 bytes, one short: 203", largest[:-1], RAW, 0)
    yield searching("a stream of 16,777,216 bytes", largest + bytes(1), RAW, 0)
    yield searching("a stream of 16,777,217 bytes, one left: 206", largest + bytes(2), RAW, 0)
    yield searching("a stream of 16,777,220 bytes, no other fault: 206", largest + bytes(1) + section(RAW), RAW, 0)
    yield searching("16,777,216 bytes, padding that is not zero: 207", largest + b"\x01", RAW, 0)
    yield searching("206 before 207: 206", largest + b"\x01\x00", RAW, 0)
    yield searching("16,777,216 bytes of zero: 202", bytes(LIMIT), RAW, 0)
    yield searching("206 before 202: 206", bytes(LIMIT + 1), RAW, 0)
    yield searching("16,777,216 bytes, a type that is not there: 14", largest + bytes(1), VERSION, 0)
    yield searching("206 before 14: 206", largest + bytes(1) + section(RAW), VERSION, 0)
    held = compression(section(RAW, body(LARGEST - 13))) + bytes(1)
    yield searching("a holder of 16,777,215 bytes", held, COMPRESSION, 0)
    yield searching("inside a holder of 16,777,215 bytes", held, RAW, 0)
    many = section(RAW, bytes(12)) * (LIMIT // 16)
    yield searching("the last of 1,048,576 sections", many, RAW, 1048575)
    yield searching("one of 1,048,576 sections too few: 14", many, RAW, 1048576)


def pi_search_cases():
    """Past the limits of Framework mode."""
    yield pi("a stream of 16,777,216 bytes", section(RAW, body(LIMIT - 12)) + section(RAW, b"four"), RAW, 1)
    yield pi("a stream of 16,777,217 bytes", section(RAW, body(LIMIT - 12)) + section(RAW, b"fives"), RAW, 1)
    yield pi("a short section of 16,777,214 bytes, then a long one", stream(section(RAW, body(LARGEST - 5)), long_section(RAW, BODY)), RAW, 1)
    for size in (LARGEST - 1, LARGEST, LIMIT, LIMIT + 1):
        yield pi("a long section of %d bytes" % size, long_section(RAW, body(size - 8)), RAW, 0)
        yield pi("a long section of %d bytes, one short: 203" % size, long_section(RAW, body(size - 9), size), RAW, 0)
    yield pi("a long section of 16,777,217 bytes, then a short one", stream(long_section(RAW, body(LIMIT - 7)), section(RAW, BODY)), RAW, 1)
    for short, long, name in ((compression, long_compression, "compression"), (guided, long_guided, "GUID-defined")):
        inner = long_section(RAW, body(LIMIT - 100))
        past = long_section(RAW, body(LIMIT - 100), len(inner) + 1)
        yield pi("16,777,124 bytes inside a short %s" % name, short(inner), RAW, 0)
        yield pi("16,777,124 bytes inside a short %s, one past its end: 203" % name, short(past) + bytes(8), RAW, 0)
        yield pi("16,777,214 bytes, short, inside a long %s" % name, long(section(RAW, body(LARGEST - 5))), RAW, 0)
        yield pi("65,537 bytes inside a long %s" % name, long(long_section(RAW, body(65529))), RAW, 0)
    yield pi("free-form of 16,777,216 bytes", long_section(FREE_FORM, body(LIMIT - 8)), FREE_FORM, 0)
    yield pi("data offset 65,535", long_guided(section(RAW, BODY), offset=65535, more=bytes(65535 - 28)), RAW, 0)
    yield pi("data offset 65,535 in a section of 65,534: 204", long_guided(b"", offset=65535, more=bytes(65534 - 28)), RAW, 0)


def field_cases():
    """A size field of FF FF FF on as many bytes, in both modes."""
    for size, end in ((LARGEST, ""), (LIMIT, ": 203"), (LARGEST - 3, ": 201"), (7, ": 202")):
        data = long_section(RAW, body(LARGEST - 8), size)
        yield searching("FF FF FF and then %d on 16,777,215 bytes" % size, data, RAW, 0)
        yield pi("FF FF FF and then %d on 16,777,215 bytes%s" % (size, end), data, RAW, 0)


def pi_limit_cases():
    """Streams of 67,108,864 bytes."""
    whole = long_section(RAW, body(PI_LIMIT - 8))
    yield pi("a long section of 67,108,864 bytes", whole, RAW, 0)
    yield pi("a long section of 67,108,864 bytes, one short: 203", whole[:-1], RAW, 0)
    yield pi("a stream of 67,108,865 bytes, one left: 206", whole + bytes(1), RAW, 0)
    yield pi("a stream of 67,108,868 bytes, no other fault: 206", whole + section(RAW), RAW, 0)
    yield pi("67,108,864 bytes, a type that is not there: 14", whole, VERSION, 0)
    padded = long_section(RAW, body(PI_LIMIT - 9))
    yield pi("67,108,864 bytes, padding that is not zero: 207", padded + b"\x01", RAW, 0)
    yield pi("67,108,865 bytes, padding that is not zero: 206", padded + b"\x01\x00", RAW, 0)
    yield pi("67,108,864 bytes of zero: 202", bytes(PI_LIMIT), RAW, 0)
    yield pi("67,108,865 bytes of zero: 206", bytes(PI_LIMIT + 1), RAW, 0)
    for held, kind, name in ((long_compression(long_section(RAW, body(PI_LIMIT - 21))), COMPRESSION, "compression"),
                             (long_guided(long_section(RAW, body(PI_LIMIT - 36))), GUID_DEFINED, "GUID-defined")):
        yield pi("a long %s of 67,108,864 bytes" % name, held, kind, 0)
        yield pi("inside a long %s of 67,108,864 bytes" % name, held, RAW, 0)
    wrong = long_compression(long_section(RAW, body(PI_LIMIT - 21)), unpacked=PI_LIMIT - 9)
    yield pi("a long compression of 67,108,864 bytes, unpacked length size - 9: 204", wrong, RAW, 0)
    many = section(RAW, bytes(60)) * (PI_LIMIT // 64)
    yield pi("the last of 1,048,576 sections of 64 bytes", many, RAW, 1048575)
    yield pi("one of 1,048,576 sections of 64 bytes too few: 14", many, RAW, 1048576)


def append_cases():
    largest = body(LARGEST - 4)
    over = body(LARGEST - 3)
    yield from appending("body of 16,777,211", LENT, 0, RAW, largest)
    yield from appending("body of 16,777,212: 206", LENT, 0, RAW, over)
    yield from appending("body of 16,777,211, room just enough", LARGEST, 0, RAW, largest)
    yield from appending("body of 16,777,211, room one byte short: 5", LARGEST - 1, 0, RAW, largest)
    yield from appending("206 before 5, by size: 206", 16, 0, RAW, over)
    yield from appending("body of 16,777,211 in 16 bytes: 5", 16, 0, RAW, largest)
    yield from appending("2 before 206, a holder: 2", LENT, 0, COMPRESSION, over)
    yield from appending("2 before 206, used above the buffer: 2", 16, 17, RAW, over)
    for used, size, no in ((LIMIT - 8, 4, 0), (LIMIT - 8, 5, 206), (LIMIT - 7, 0, 0), (LIMIT - 7, 1, 206), (LIMIT - 4, 0, 0), (LIMIT - 3, 0, 206)):
        name = "after %d bytes, body of %d%s" % (used, size, ": 206" if no else "")
        yield from appending(name, LENT, used, RAW, (BODY * 2)[:size], section(RAW, body(used - 4)), 1)
    full = section(RAW, body(LARGEST - 4)) + bytes(1)
    yield from appending("after a full stream: 206", LENT, LIMIT, RAW, b"", full)
    yield from appending("every byte of the buffer used: 206", LENT, LENT, RAW, b"", full)
    yield from appending("used one above the buffer: 2", LENT, LENT + 1, RAW, b"", full)
    yield from appending("202 before 206: 202", LENT, LIMIT, FREE_FORM, bytes(15), full)
    yield from appending("free-form body of 16 after a full stream: 206", LENT, LIMIT, FREE_FORM, bytes(16), full)
    yield from appending("206 before 5, by the stream: 206", LIMIT - 3, LIMIT - 3, RAW, b"", section(RAW, body(LIMIT - 7)))
    yield from appending("room for the used bytes alone: 5", LIMIT - 4, LIMIT - 4, RAW, b"", section(RAW, body(LIMIT - 8)))


pi_appending = partial(appending, mode=PI)
NEAR = LIMIT + 64       # bytes of the section buffer for the last short header and the first long one


def pi_append_cases():
    """A body of 16,777,210 bytes has the last short header."""
    for size, header_size in ((LARGEST - 5, 4), (LARGEST - 4, 8), (LARGEST - 3, 8)):
        name, need = "body of %d" % size, header_size + size
        for used, old, instance in ((0, b"", 0), (1, b"\x01", 0), (4, section(RAW), 1)):
            start = (used + 3) // 4 * 4
            yield from pi_appending("%s after %d bytes, room just enough" % (name, used), start + need, used, RAW, body(size), old, instance)
        yield from pi_appending("%s, room one byte short: 5" % name, need - 1, 0, RAW, body(size))
    yield from pi_appending("body of 16,777,211 after 1 byte, room one byte short: 5", 16777222, 1, RAW, body(LARGEST - 4), b"\x01")
    yield from pi_appending("body of 16,777,211, room enough with a short header: 5", 16777215, 0, RAW, body(LARGEST - 4))
    yield from pi_appending("body of 16,777,211, room to spare", NEAR, 0, RAW, body(LARGEST - 4))
    yield from pi_appending("body of 16,777,211, mode 256", NEAR, 0, RAW, body(LARGEST - 4), mode=256)
    yield from pi_appending("free-form body of 16,777,211", NEAR, 0, FREE_FORM, body(LARGEST - 4))
    old = long_section(RAW, body(LARGEST - 4))
    yield from pi_appending("after a long section of 16,777,219 bytes", NEAR, len(old), RAW, BODY, old, 1)
    yield from pi_appending("body of 16,777,211 after a long section as long", ROOM, len(old), RAW, body(LARGEST - 4), old, 1)


def pi_append_limit_cases():
    """A new stream of 67,108,864 bytes, and more."""
    largest, over = body(PI_LIMIT - 8), body(PI_LIMIT - 7)
    yield from pi_appending("body of 67,108,856, room just enough", PI_LIMIT, 0, RAW, largest)
    yield from pi_appending("body of 67,108,856, room one byte short: 5", PI_LIMIT - 1, 0, RAW, largest)
    yield from pi_appending("body of 67,108,857: 206", ROOM, 0, RAW, over)
    yield from pi_appending("206 before 5: 206", 16, 0, RAW, over)
    yield from pi_appending("body of 67,108,856 in 16 bytes: 5", 16, 0, RAW, largest)
    yield from pi_appending("2 before 206, a holder: 2", ROOM, 0, GUID_DEFINED, over)
    yield from pi_appending("2 before 206, used above the buffer: 2", 16, 17, RAW, over)
    yield from pi_appending("body of 67,108,861, over the limit with any header: 206", ROOM, 0, RAW, body(PI_LIMIT - 3))
    for used, size, no in ((PI_LIMIT - 8, 4, 0), (PI_LIMIT - 8, 5, 206), (PI_LIMIT - 7, 0, 0), (PI_LIMIT - 7, 1, 206), (PI_LIMIT - 3, 0, 206)):
        name = "after %d bytes, body of %d%s" % (used, size, ": 206" if no else "")
        yield from pi_appending(name, ROOM, used, RAW, (BODY * 2)[:size], long_section(RAW, body(used - 8)), 1)
    # 50,331,648 and 16,777,216 are the limit: with a header of 4 bytes these would fit.
    for used, no in ((50331648, 206), (50331644, 0)):
        name = "after %d bytes, body of 16,777,212%s" % (used, ": 206" if no else "")
        yield from pi_appending(name, ROOM, used, RAW, body(LARGEST - 3), long_section(RAW, body(used - 8)), 1)
    yield from pi_appending("after 50331645 bytes, body of 16,777,211, over the limit by the padding: 206", ROOM, 50331645, RAW, body(LARGEST - 4), long_section(RAW, body(50331637)), 1)
    full = long_section(RAW, body(PI_LIMIT - 8))
    yield from pi_appending("after a full stream: 206", ROOM, PI_LIMIT, RAW, b"", full)
    yield from pi_appending("202 before 206: 202", ROOM, PI_LIMIT, FREE_FORM, bytes(15), full)


pi_first = partial(first_searching, mode=PI)


def first_cases():
    one, other, past = section(RAW, bytes(range(12))), section(PE32, bytes(12)), section(PE32, bytes(12), 17)
    ahead = one + other * (LIMIT // 16 - 2) + past
    yield first_searching("the first of 1,048,576 sections, the last one past the end", ahead, RAW)
    yield searching("the first of 1,048,576 sections, the last one past the end: 203", ahead, RAW, 0)
    yield first_searching("none of 1,048,576 sections, the last one past the end: 203", ahead, VERSION)
    behind = other * (LIMIT // 16 - 1) + one
    yield first_searching("the last of 1,048,576 sections", behind, RAW)
    yield first_searching("none of 1,048,576 sections: 14", behind, VERSION)
    yield first_searching("the last of 1,048,576 sections, past the end: 203", behind[:-1], RAW)
    yield first_searching("a holder of 16,777,215 bytes with contents of zero", compression(bytes(LARGEST - 9)), COMPRESSION)
    over = one + bytes(LIMIT - 15)
    yield first_searching("a match, then zeros, 16,777,216 bytes", over[:LIMIT], RAW)
    yield first_searching("a match, then zeros, 16,777,217 bytes: 206", over, RAW)
    yield pi_first("a match, then zeros, 16,777,217 bytes", over, RAW)


def pi_first_limit_cases():
    over = long_section(RAW, BODY) + bytes(PI_LIMIT - 10)
    yield pi_first("a match, then zeros, 67,108,864 bytes", over[:PI_LIMIT], RAW)
    yield pi_first("a match, then zeros, 67,108,865 bytes: 206", over, RAW)
    last = long_section(PE32, body(PI_LIMIT - 20)) + section(RAW, BODY) + b"\x01"
    yield pi_first("a match at the end of 67,108,864 bytes, its padding not zero", last, RAW)
    yield pi("a match at the end of 67,108,864 bytes, its padding not zero: 207", last, RAW, 0)
    yield pi_first("67,108,864 bytes and no match, padding not zero: 207", last, VERSION)


def framework_cases():
    yield searching("67,108,864 bytes in Framework mode: 206", long_section(RAW, body(PI_LIMIT - 8)), RAW, 0)


GROUPS = (open_cases, extended_cases, search_cases, append_cases, field_cases, framework_cases, pi_search_cases, pi_limit_cases,
          pi_append_cases, pi_append_limit_cases, first_cases, pi_first_limit_cases)
