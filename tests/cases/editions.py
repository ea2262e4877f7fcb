"""Edition 2 of the header, request a of 02: opening, writing and listing it, and the entries of its extended header.

A line of a case is one of headers.py, or its name, the call, and
  write pi header  number, header length on success, the room's change
  ext entry        the entry's number, the answer's number, on success the entry's first byte in the volume, its size and its type
A name's end says which refusal the case gets.
"""

from cases.headers import A_ATTRIBUTES, A_MAP, FAULTS, FULL_MAP, GUID, MIXED_MAP, NO_GUID, broken, header, total
from model.volume import write_pi_header
from trial import WORKING, ext_entry, header_writing, listing, opening, pi_header_writing

PI_FORBIDDEN = 0x7FE00100
PI_LAWFUL = 0xFFFFFFFF & ~PI_FORBIDDEN
FRAMEWORK_ALONE = 0xFFFF7100        # what edition 1 does not allow by itself: an alignment asks for 0x8000
SIZED_MAP = [1, 4] * 4 + [20, 4] + [1, 4] * 26 + [1, 200]     # 32 entries, 400 bytes, and the number 20 at byte 88


def pi(map_words=A_MAP, **fields):
    return header(map_words, edition=2, **fields)


def entry(size, entry_type=0x0102, body=None):
    """An entry that says this size; its bytes after the first four are zero unless told otherwise."""
    return size.to_bytes(2, "little") + entry_type.to_bytes(2, "little") + (bytes(max(size - 4, 0)) if body is None else body)


def extended(*entries, size=None, name=GUID):
    """An extended header with these entries, and their size unless told otherwise."""
    body = b"".join(entries)
    return name + (20 + len(body) if size is None else size).to_bytes(4, "little") + body


def image(ext, offset=72, map_words=A_MAP, **fields):
    """A volume's first bytes: the header, and the extended header at the offset where the header doesn't stand."""
    own = pi(map_words, offset=offset, **fields)
    return own + b"\xff" * (offset - len(own)) + ext[max(len(own) - offset, 0):]


def of(length):
    """The map of a volume of this length."""
    return [1, length]


def revision_cases():
    yield opening("revision 2 opens", pi(), 2048)
    yield opening("edition 2, GUID and a map of four entries", pi(MIXED_MAP, guid=GUID, attributes=0x1A3F), 1536, 4096)
    yield opening("edition 2, 32 entries", pi(FULL_MAP), 2112)
    yield opening("edition 2, byte 54 is reserved", pi(patches=[(54, b"\xff")]), 2048)
    yield opening("edition 2, byte 54 is no part of the offset", image(extended(), patches=[(54, b"\x01")]), 2048)
    yield opening("edition 1, byte 54 is reserved", header(patches=[(54, b"\xff")]), 2048)
    for offset in (1, 72, 65535):
        yield opening("edition 1, bytes 52 and 53 hold %d" % offset, header(offset=offset), 2048)


def bits_alone(forbidden):
    """(attributes, the end of a case's name) for each bit by itself"""
    return [(1 << bit, ": 108" if forbidden >> bit & 1 else "") for bit in range(32)]


def attribute_cases():
    for attributes, end in bits_alone(FRAMEWORK_ALONE):
        yield opening("edition 1, attribute 0x%X alone%s" % (attributes, end), header(attributes=attributes), 2048)
    for attributes, end in bits_alone(PI_FORBIDDEN):
        yield opening("edition 2, attribute 0x%X alone%s" % (attributes, end), pi(attributes=attributes), 2048)
    yield opening("edition 2, every lawful attribute", pi(attributes=PI_LAWFUL), 2048)
    yield opening("edition 2, every alignment with 0x8000: 108", pi(attributes=0xFFFF8000), 2048)
    yield opening("edition 1, 0x200000 with 0x8000", header(attributes=0x208000), 2048)
    yield opening("edition 1, every lawful attribute of edition 2: 108", header(attributes=PI_LAWFUL), 2048)


def start_cases():
    """Where the extended header starts: not inside the main one. What is found at the offset is good by itself."""
    yield opening("offset 72 behind a header of 72", image(extended()), 2048)
    yield opening("offset 71: 112", image(extended(name=NO_GUID), 71), 2048)
    yield opening("offset 1: 112", image(b"", 1, guid=b"\x00\x14" + bytes(14)), 2048)
    yield opening("offset 320 behind a header of 320", image(extended(), 320, FULL_MAP), 2112)
    yield opening("offset 319: 112", image(extended(name=NO_GUID), 319, FULL_MAP), 2112)
    yield opening("offset 72 in a header of 320: 112", image(b"", 72, SIZED_MAP), 400)
    for offset in (73, 75, 257):
        yield opening("offset %d, no alignment is asked" % offset, image(extended(entry(5)), offset), 2048)


def room_cases():
    """Its 20 bytes and its size lie in the volume, whatever more is lent."""
    whole, one = extended(), extended(entry(4))
    for lent in (92, WORKING):
        yield opening("its 20 bytes end with the volume, %d bytes lent" % lent, image(whole, map_words=of(92)), lent)
    for lent in (96, WORKING):
        yield opening("its size ends with the volume, %d bytes lent" % lent, image(one, map_words=of(96)), lent)
    yield opening("one of its 20 bytes past the volume, 91 bytes lent: 112", image(whole, map_words=of(91)), 91)
    yield opening("one of its 20 bytes past the volume, in lent bytes: 112", image(whole, map_words=of(91)), WORKING)
    yield opening("one byte of its size past the volume, 95 bytes lent: 112", image(one, map_words=of(95)), 95)
    yield opening("one byte of its size past the volume, in lent bytes: 112", image(one, map_words=of(95)), WORKING)
    yield opening("one byte of the volume not lent: 109", image(one, map_words=of(96)), 95)
    yield opening("it starts at the volume's end, in lent bytes: 112", image(whole, 92, of(92)), WORKING)
    for offset in (2029, 2048, 65535):
        yield opening("offset %d, a volume of 2,048: 112" % offset, pi(offset=offset), WORKING)


def size_cases():
    for size in (0, 19, 0xFFFFFFFF, 0xFFFFFFB8, 0x10014, 2**31 + 20):
        yield opening("size 0x%X: 112" % size, image(extended(size=size)), 2048)
    for left in (1, 2, 3):
        yield opening("an entry cut to %d of 4 bytes: 112" % left, image(extended(entry(4), size=20 + left)), 2048)
    for left in (1, 2, 3):
        yield opening("a second entry cut to %d of 4 bytes: 112" % left, image(extended(entry(4), entry(4), size=24 + left)), 2048)


def entry_cases():
    good = {"one of 4 bytes": [entry(4)], "one of 5 bytes": [entry(5)],
            "of 4, 7, 4 and 20 bytes": [entry(4), entry(7), entry(4), entry(20)], "of type 0 and 0xFFFF": [entry(4, 0), entry(4, 0xFFFF)],
            "one that holds what no entry may": [entry(12, body=bytes(4) + b"\xff" * 4)]}
    for name, entries in good.items():
        yield opening("entries: " + name, image(extended(*entries)), 2048)
    joined = b"\x03\x00\x01" + entry(4)      # an entry of 3 bytes and, where it ends, one of 4
    bad = {"size 0": [entry(0)], "size 0, then a good one": [entry(0), entry(4)],
           "size 1": [entry(1)], "size 1, then a good one": [entry(1), entry(4)],
           "size 1, then where it ends a good one": [b"\x01" + entry(256)],
           "size 2": [entry(2), entry(4)],
           "size 3": [entry(3)], "size 3, then where it ends a good one": [joined],
           "a second of size 0": [entry(4), entry(0)], "a second of size 3": [entry(4), entry(3)],
           "a second of size 3, then where it ends a good one": [entry(4), joined],
           "size 0 between good ones": [entry(4), entry(0), entry(4)],
           "one byte past the end": [entry(9, body=bytes(4))], "a second one byte past the end": [entry(4), entry(5, body=b"")],
           "size 0xFFFF": [entry(0xFFFF, body=b"")], "size 0x104 in 4 bytes": [entry(0x104, body=b"")]}
    for name, entries in bad.items():
        yield opening("entries: %s: 112" % name, image(extended(*entries)), 2048)
    yield opening("entries: one of 260 bytes", image(extended(entry(260, body=b""), size=280)), 2048)
    yield opening("entries: all zero: 112", image(extended(size=148)), 2048, pattern=(0, 0))


def order_cases():
    """Each other fault together with one of 112's; not 103, since only revision 2 has an extended header."""
    for no in FAULTS:
        if no != 103:
            yield opening("%d and 112 at once: %d" % (no, no), *broken(no, edition=2, offset=1))
            own, lent, base = broken(no, edition=2, offset=72)
            yield opening("%d and an entry of size 0: %d" % (no, no), own + extended(entry(0)), lent, base)
    yield opening("109 and an extended header past the lent bytes: 109", pi(offset=1500), 1024)
    yield opening("mapped, base 8, and 112 alone: 112", pi(offset=1), 2048, 8)
    yield opening("not mapped, base 4, and 112 alone: 112", pi(offset=1, attributes=0x0A3F), 2048, 4)
    yield opening("edition 1, an extended header that would be 112", header(offset=72) + extended(entry(0)), 2048)


def written(offset, map_words=A_MAP, attributes=PI_LAWFUL):
    """What the writer of edition 2 stores."""
    room = bytearray(320)
    no, size = write_pi_header(room, GUID, total(map_words), attributes, offset, map_words)
    assert no == 0
    return bytes(room[:size])


def written_cases():
    yield opening("written with offset 0, opened", written(0), 2048)
    yield opening("written with offset 72, opened", written(72) + extended(entry(6)), 2048)
    yield opening("written with offset 72, no good extended header, opened: 112", written(72), 2048)
    yield opening("written with offset 65,535, opened: 112", written(65535), 2048)
    yield opening("written with 32 entries, offset 320, opened", written(320, FULL_MAP) + extended(entry(6)), 2112)


def pi_writing(name, room=512, length=None, attributes=A_ATTRIBUTES, offset=0, map_words=A_MAP, guid=NO_GUID):
    return pi_header_writing(name, room, guid, total(map_words) if length is None else length, attributes, offset, map_words)


def writing_cases():
    for offset in (0, 1, 72, 65535):
        yield pi_writing("edition 2, offset %d into 72 bytes" % offset, 72, offset=offset)
    yield pi_writing("edition 2, bytes after the header stay", offset=72)
    yield pi_writing("edition 2, GUID and a map of four entries", 96, attributes=PI_LAWFUL, offset=96, map_words=MIXED_MAP, guid=GUID)
    yield pi_writing("edition 2, 32 entries into 320 bytes", 320, map_words=FULL_MAP, guid=b"\xff" * 16, offset=320)
    yield pi_writing("edition 2, 32 entries into 319 bytes: 5", 319, map_words=FULL_MAP)
    yield pi_writing("edition 2, room of 71: 5", 71, offset=72)
    yield pi_writing("edition 2, no room: 5", 0)
    for name, words in (("second word 0", [4, 0]), ("three words", [4, 512, 1])):
        yield pi_writing("edition 2, %s: 106" % name, length=2048, map_words=words)
    for name, length, words in (("no word", 2048, []), ("33 entries", 2113, FULL_MAP + [1, 1]), ("length one more", 2049, A_MAP),
                                ("length one less", 2047, A_MAP), ("65,537 blocks", 65537, [65537, 1]),
                                ("length 16,777,217", 16777217, [1, 16777217]), ("volume of 71", 71, [1, 71])):
        yield pi_writing("edition 2, %s: 107" % name, length=length, map_words=words)
    yield pi_writing("edition 2, 65,536 blocks are written", map_words=[65536, 1])
    yield pi_writing("edition 2, length 16,777,216 is written", map_words=[65536, 256])
    yield pi_writing("edition 2, volume of 72", map_words=[1, 72])
    for attributes, end in bits_alone(PI_FORBIDDEN) + [(0, ""), (PI_LAWFUL, ""), (0x208000, ": 108"), (0x18000, ""), (PI_LAWFUL | 0x100, ": 108")]:
        yield pi_writing("edition 2, attributes 0x%X%s" % (attributes, end), attributes=attributes)
    for attributes, end in bits_alone(FRAMEWORK_ALONE) + [(0, ""), (0xFFFF8EFF, ""), (0x208000, ""), (0x18000, ""), (0xA000, ": 108")]:
        yield header_writing("edition 1, attributes 0x%X%s" % (attributes, end), 512, NO_GUID, 2048, attributes, A_MAP)
    yield pi_writing("edition 2, 106 before 107, 108 and 5: 106", 0, 1, 0x100, 1, [0, 512])
    yield pi_writing("edition 2, 107 before 108 and 5: 107", 0, 2049, 0x100)
    yield pi_writing("edition 2, 108 before 5: 108", 71, attributes=0x100)


def listing_cases():
    yield listing("edition 2", pi(MIXED_MAP, attributes=PI_LAWFUL), 1536)
    yield listing("edition 2 with an extended header", image(extended(entry(4))), 4096)
    yield listing("fault 112", pi(offset=1), 2048)


def ext_entry_cases():
    three = image(extended(entry(4, 1), entry(9, 0xFFFF), entry(6, 0x1234)))
    for n in range(3):
        yield ext_entry("entry %d of 3" % n, three, 2048, n)
    for n in (3, 2**32, 2**64 - 1):
        yield ext_entry("entry %d of 3: 14" % n, three, 2048, n)
    yield ext_entry("a volume lent longer than it is", image(extended(entry(4)), map_words=of(96)), WORKING, 0)
    yield ext_entry("entries past the volume are none: 14", image(extended(entry(4)) + entry(4), map_words=of(96)), WORKING, 1)
    yield ext_entry("offset 75, one of 260 bytes, its size", image(extended(entry(260, 0, b""), size=280), 75), 2048, 0)
    far = image(extended(entry(4), entry(9, 7)), 320, FULL_MAP)
    yield ext_entry("behind 32 map entries", far, 2112, 1)
    yield ext_entry("no entry: 14", image(extended()), 2048, 0)
    yield ext_entry("no extended header: 14", pi(), 2048, 0)
    yield ext_entry("edition 1, a good extended header: 14", header(offset=72) + extended(entry(4)), 2048, 0)
    yield ext_entry("edition 1, a bad extended header: 14", header(offset=1), 2048, 0)
    for no in list(FAULTS)[:-1]:        # all but 110: it opens the volume at 0
        yield ext_entry("fault %d: %d" % (no, no), *broken(no, edition=2, offset=72)[:2], 0)
    yield ext_entry("it starts inside the header: 112", pi(offset=1), 2048, 0)
    yield ext_entry("a good entry before a bad one: 112", image(extended(entry(4), entry(3))), 2048, 0)
    yield ext_entry("112 before 14: 112", image(extended(entry(4), entry(3))), 2048, 2**64 - 1)


def cases():
    subjects = {writing_cases: "write", listing_cases: "list", ext_entry_cases: "ext entry"}
    for group in (revision_cases, attribute_cases, start_cases, room_cases, size_cases, entry_cases, order_cases, written_cases,
                  writing_cases, listing_cases, ext_entry_cases):
        subject = subjects.get(group, "open")
        for case in group():
            yield subject, case
