"""Section streams: searching and appending.

A line of a case: its name, the call, and
  search  type, instance, number, first byte and end on success, the first bytes of the part
  append  number, used count on success, the buffer's change, then a search as above in the new stream
README.md has the fields of a change. A name's end says which refusal the case gets. Most groups can be made with another
`searching` or `appending`: long_headers.py makes them in PI mode too.
"""

from trial import appending, searching

COMPRESSION, GUID_DEFINED, VERSION, FREE_FORM, RAW = 0x01, 0x02, 0x14, 0x18, 0x19
KNOWN = (0x10, 0x11, 0x12, 0x13, 0x14, 0x15, 0x16, 0x17, 0x19, 0x1B)
UNKNOWN = (0x00, 0x03, 0x0F, 0x1A, 0x1C, 0x80, 0xFF)
BODY = b"\xaa\xbb\xcc"


def section(kind, body=b"", size=None):
    size = 4 + len(body) if size is None else size
    return size.to_bytes(3, "little") + bytes([kind]) + body


def stream(*sections):
    """Sections with zero padding between them, and none after the last."""
    out = b""
    for part in sections:
        out += bytes(-len(out) % 4) + part
    return out


def compression(contents, kind=0, unpacked=None):
    unpacked = len(contents) if unpacked is None else unpacked
    return section(COMPRESSION, unpacked.to_bytes(4, "little") + bytes([kind]) + contents)


def guided(contents, attributes=0, offset=24, more=b""):
    body = bytes(range(16)) + offset.to_bytes(2, "little") + attributes.to_bytes(2, "little") + more + contents
    return section(GUID_DEFINED, body)


def nested(levels, innermost, holder=compression):
    for _ in range(levels):
        innermost = holder(innermost)
    return innermost


def type_cases():
    every = stream(*[section(kind, bytes([kind]) * (kind % 5)) for kind in KNOWN + UNKNOWN],
                   section(FREE_FORM, bytes(17)), compression(b"\x01\x02", kind=1, unpacked=9), guided(b"\x03", attributes=1))
    for kind in sorted(KNOWN + UNKNOWN + (COMPRESSION, GUID_DEFINED, FREE_FORM)):
        yield searching("type 0x%02X among every type" % kind, every, kind, 0)
    yield searching("a type that is not there: 14", every, 0x20, 0)
    for kind in KNOWN + UNKNOWN:
        yield searching("type 0x%02X of 4 bytes, the least" % kind, section(kind), kind, 0)
        yield searching("type 0x%02X of 3 bytes: 202" % kind, section(kind, size=3), kind, 0)


def instance_cases(searching=searching):
    p13 = bytes.fromhex("05000019AA00000004000019")
    for instance in (0, 1):
        yield searching("stream of P13, raw instance %d" % instance, p13, RAW, instance)
    for instance in (2, 3, 2**32, 2**32 + 1, 2**63, 2**64 - 1):
        yield searching("instance %d: 14" % instance, p13, RAW, instance)
    yield searching("empty stream: 14", b"", RAW, 0)
    inner = stream(section(RAW, b"\x01"), section(VERSION, b"\x02"), section(RAW, b"\x03"))
    tree = stream(section(RAW, b"\x00"), compression(inner), section(RAW, b"\x04"), guided(inner), section(RAW, b"\x05"))
    for instance in range(7):
        yield searching("depth first, left to right: raw %d" % instance, tree, RAW, instance)
    yield searching("one raw section too few: 14", tree, RAW, 7)
    for instance in range(2):
        yield searching("depth first, left to right: version %d" % instance, tree, VERSION, instance)
    yield searching("one version section too few: 14", tree, VERSION, 2)
    twice = compression(stream(compression(section(RAW, BODY)), section(RAW)))
    for instance in range(2):
        yield searching("a holder counts before its children, instance %d" % instance, twice, COMPRESSION, instance)
    yield searching("two holders and no third: 14", twice, COMPRESSION, 2)
    yield searching("a holder's part starts after its first 4 bytes", guided(section(RAW, BODY)), GUID_DEFINED, 0)


def size_cases():
    for left in (1, 2, 3):
        yield searching("%d bytes in all: 201" % left, bytes(left), RAW, 0)
        yield searching("%d bytes left after a section: 201" % left, section(RAW) + b"\x04\x00\x00"[:left], RAW, 0)
        yield searching("%d bytes left inside a holder: 201" % left, compression(section(RAW) + bytes(left)), RAW, 0)
    yield searching("four zero bytes are a section of size 0: 202", section(RAW) + bytes(4), RAW, 0)
    for kind, least, name in ((COMPRESSION, 9, "compression"), (GUID_DEFINED, 24, "GUID-defined"), (FREE_FORM, 20, "free-form")):
        for size in (0, 4, least - 1):
            yield searching("%s of size %d: 202" % (name, size), section(kind, bytes(28), size), kind, 0)
    yield searching("compression of size 9", compression(b""), COMPRESSION, 0)
    yield searching("GUID-defined of size 24", guided(b""), GUID_DEFINED, 0)
    yield searching("free-form of size 20", section(FREE_FORM, bytes(16)), FREE_FORM, 0)
    for size in (9, 256, 65536, 0xFFFFFF):
        yield searching("size %d in 8 bytes: 203" % size, section(RAW, bytes(4), size), RAW, 0)
    yield searching("size that just fits", section(RAW, bytes(4), 8), RAW, 0)
    yield searching("end past the holder, within the stream: 203", stream(compression(section(RAW, b"", 5)), section(RAW)), RAW, 0)
    yield searching("a second section past the end: 203", stream(section(RAW), section(RAW, b"", 5)), RAW, 0)


def holder_cases(searching=searching):
    leaf = section(RAW, BODY)
    for unpacked, name in ((6, "one less"), (8, "one more"), (0, "0"), (7 + 2**24, "right in 24 bits"), (2**32 - 1, "2^32 - 1")):
        yield searching("kind 0, unpacked length %s: 204" % name, compression(leaf, unpacked=unpacked), RAW, 0)
    yield searching("kind 0, unpacked length right", compression(leaf), RAW, 0)
    for kind in (1, 2, 255):
        yield searching("kind %d is not searched, any unpacked length: 14" % kind, compression(leaf, kind, 99), RAW, 0)
        yield searching("kind %d with contents that are no stream" % kind, compression(b"\x01", kind, 99), COMPRESSION, 0)
    for offset in (0, 4, 23, 32, 65535):
        yield searching("data offset %d of a section of 31: 204" % offset, guided(leaf, offset=offset), RAW, 0)
        yield searching("data offset %d, packed: 204" % offset, guided(leaf, 1, offset), RAW, 0)
    yield searching("data offset 24", guided(leaf), RAW, 0)
    yield searching("data offset 28, contents after it", guided(leaf, offset=28, more=b"more"), RAW, 0)
    yield searching("data offset 300, contents after it", guided(leaf, offset=300, more=bytes(276)), RAW, 0)
    yield searching("data offset 25, contents aligned from there", guided(stream(leaf, leaf), offset=25, more=b"m"), RAW, 1)
    yield searching("data offset equal to the size, no contents: 14", guided(b"\x01\x02\x03", offset=27), RAW, 0)
    for attributes, name in ((1, "bit 0"), (3, "bits 0 and 1"), (0xFFFF, "every bit")):
        yield searching("packed by %s, not searched: 14" % name, guided(leaf, attributes), RAW, 0)
        yield searching("packed by %s, contents that are no stream" % name, guided(b"\x01", attributes), GUID_DEFINED, 0)
    for attributes in (2, 0x100, 0xFFFE):
        yield searching("attributes 0x%X are searched" % attributes, guided(leaf, attributes), RAW, 0)
    yield searching("inner sections align to their own stream", compression(stream(leaf, section(RAW, b"\x09"))), RAW, 1)
    yield searching("inner padding that the holder's end cuts off", stream(compression(leaf), section(VERSION, b"\x01")), VERSION, 0)


def level_cases(searching=searching):
    leaf = section(RAW, BODY)
    for holder, name in ((compression, "compression"), (guided, "GUID-defined")):
        for levels in range(1, 8):
            yield searching("raw inside %d of %s" % (levels, name), nested(levels, leaf, holder), RAW, 0)
        for levels in (8, 9):
            yield searching("raw inside %d of %s: 205" % (levels, name), nested(levels, leaf, holder), RAW, 0)
        yield searching("eight of %s, the last with no contents: 205" % name, nested(8, b"", holder), RAW, 0)
        yield searching("seven of %s with no contents: 14" % name, nested(7, b"", holder), RAW, 0)
    yield searching("a packed holder on the eighth level", nested(7, compression(leaf, kind=1)), COMPRESSION, 7)
    yield searching("a packed GUID-defined one on the eighth level", nested(7, guided(leaf, 1), guided), GUID_DEFINED, 7)
    mixed = guided(compression(guided(compression(guided(compression(guided(leaf)))))))
    yield searching("seven holders of both types", mixed, RAW, 0)
    yield searching("eight holders of both types: 205", compression(mixed), RAW, 0)
    yield searching("205 stands though the type was found before: 205", stream(leaf, nested(8, leaf)), RAW, 0)
    yield searching("levels count along one branch", stream(nested(7, leaf), nested(7, leaf)), RAW, 1)


def padding_cases(searching=searching):
    one = section(RAW, b"\xaa")
    yield searching("padding cut off by the end", one, RAW, 0)
    for have in (1, 2, 3):
        yield searching("%d zero bytes of padding at the end" % have, one + bytes(have), RAW, 0)
        yield searching("nonzero as byte %d of the padding: 207" % have, one + bytes(have - 1) + b"\x01" + bytes(3 - have) + one, RAW, 0)
        yield searching("nonzero as byte %d of a cut padding: 207" % have, one + bytes(have - 1) + b"\x01", RAW, 0)
    yield searching("a section of 4 has no padding", section(RAW) + one, RAW, 1)
    yield searching("nonzero padding inside a holder: 207", compression(one + b"\x01"), RAW, 0)
    yield searching("nonzero padding inside a packed holder is not looked at", compression(one + b"\x01", 1), COMPRESSION, 0)
    yield searching("nonzero padding after a holder: 207", compression(b"") + b"\x01\x00\x00" + one, RAW, 0)


def order_cases(searching=searching):
    leaf, one = section(RAW), section(RAW, b"\xaa")
    yield searching("202 before 203: 202", section(FREE_FORM, b"", 19), RAW, 0)
    yield searching("203 before 204, compression: 203", section(COMPRESSION, b"\x63" + bytes(4), 10), RAW, 0)
    yield searching("203 before 204, GUID-defined: 203", section(GUID_DEFINED, bytes(20), 25), RAW, 0)
    yield searching("204 before 205: 204", nested(7, compression(leaf, unpacked=3)), RAW, 0)
    yield searching("205 before the children: 205", nested(8, b"\x01"), RAW, 0)
    yield searching("205 before 207 of its own padding: 205", nested(7, compression(b"") + b"\x01"), RAW, 0)
    yield searching("a child's 202 before the holder's 207: 202", compression(section(RAW, b"\x00", 3)) + b"\x01\x01" + leaf, RAW, 0)
    yield searching("a child's 207 before the holder's next sibling's 202: 207", stream(compression(one + b"\x01"), bytes(4)), RAW, 0)
    yield searching("207 before the next sibling's 202: 207", one + b"\x00\x01\x00" + bytes(4), RAW, 0)
    yield searching("a sibling's 202 before a later 203: 202", stream(leaf, section(RAW, b"", 3), section(RAW, b"", 99)), RAW, 0)
    yield searching("a sibling's 203 before a later 202: 203", stream(leaf, section(RAW, b"", 99), section(RAW, b"", 3)), RAW, 0)
    yield searching("a fault behind the section that matches: 202", stream(one, section(RAW, b"", 3)), RAW, 0)
    yield searching("a fault before 14: 201", leaf + b"\x00", VERSION, 0)


def append_cases(appending=appending):
    two = stream(section(RAW, b"\x01"), section(VERSION, b"\x02\x03"))
    for kind in KNOWN + UNKNOWN:
        yield appending("type 0x%02X into an empty stream" % kind, 64, 0, kind, BODY)
    for kind in (COMPRESSION, GUID_DEFINED):
        yield appending("type 0x%02X: 2" % kind, 64, 0, kind, bytes(30))
    for size in (15, 0):
        yield appending("free-form body of %d: 202" % size, 64, 0, FREE_FORM, bytes(size))
    yield appending("free-form body of 16", 64, 0, FREE_FORM, bytes(range(16)))
    yield appending("no body", 64, 0, RAW, b"")
    for used in range(5, 9):
        yield appending("after a stream of %d bytes" % used, 64, used, RAW, BODY, section(RAW, bytes(used - 4)), 1)
    yield appending("one section more, the earlier ones stay", 64, len(two), RAW, BODY, two, 1)
    yield appending("padding that held old bytes becomes zero", 64, 5, RAW, BODY, section(RAW, b"\x01") + b"\xff" * 20, 1)
    yield appending("bytes after the body stay", 64, 0, RAW, b"\x01", b"\xee" * 32)
    yield appending("the old stream is not tested", 64, 6, RAW, b"\x01", b"\xee" * 6)
    yield appending("room that is just enough", 15, 5, RAW, BODY, section(RAW, b"\x01"), 1)
    yield appending("room one byte short: 5", 14, 5, RAW, BODY, section(RAW, b"\x01"))
    yield appending("room for the used bytes alone: 5", 5, 5, RAW, b"", section(RAW, b"\x01"))
    yield appending("room that ends in the padding: 5", 7, 5, RAW, b"", section(RAW, b"\x01"))
    yield appending("an empty buffer: 5", 0, 0, RAW, b"")
    yield appending("used equal to the buffer: 5", 8, 8, RAW, b"", section(RAW, bytes(4)))
    for used in (9, 2**32, 2**63, 2**64 - 1):
        yield appending("used %d above a buffer of 8: 2" % used, 8, used, RAW, b"")
    yield appending("2 before 202, used above the buffer: 2", 8, 9, FREE_FORM, b"")
    yield appending("2 before 5, a holder: 2", 0, 0, COMPRESSION, b"")
    yield appending("202 before 5: 202", 0, 0, FREE_FORM, b"")
    yield appending("free-form body of 16 with no room: 5", 19, 0, FREE_FORM, bytes(16))
    yield appending("a body of 300 bytes", 512, 4, RAW, bytes(i % 256 for i in range(300)), section(RAW), 1)


def cases():
    for group in (type_cases, instance_cases, size_cases, holder_cases, level_cases, padding_cases, order_cases):
        for case in group():
            yield "search", case
    for case in append_cases():
        yield "append", case
