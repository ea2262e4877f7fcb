"""Section streams, as the scope document describes them, with requests f, i and c of 02: the test of
the whole tree, the search for a type and instance, the search for a type's first section, and
appending a leaf.

Mode 0 is Framework, any other PI; there a size field of FF FF FF means that a 32-bit size stands
behind the type. Both searches answer (number, first byte, end), append (number, used count).
A fault carries the number of bytes that must have come for it to be found, which portions.py asks for.
"""

FRAMEWORK, PI = 0, 1
COMPRESSION, GUID_DEFINED, FREE_FORM = 0x01, 0x02, 0x18
FIELDS = {COMPRESSION: 5, GUID_DEFINED: 20, FREE_FORM: 16}      # bytes between header and contents
LONG = 0xFFFFFF         # the size field before a 32-bit size
SHORT_HEADER, LONG_HEADER = 4, 8
LIMIT, PI_LIMIT, LEVELS = 16777216, 67108864, 8


class Fault(Exception):
    """(number, bytes that must have come): up to the last that its test reads; for 201 at a start, up to the start."""


def number(data, place, width):
    return int.from_bytes(data[place:place + width], "little")


def stream_limit(mode):
    return LIMIT if mode == FRAMEWORK else PI_LIMIT


def size_and_header(stream, at, end, mode):
    """The size of the section that starts there and the length of its header; raises 201."""
    if end - at < SHORT_HEADER:
        raise Fault(201, at)
    size = number(stream, at, 3)
    if mode == FRAMEWORK or size != LONG:
        return size, SHORT_HEADER
    if end - at < LONG_HEADER:
        raise Fault(201, at + 3)
    return number(stream, at + 4, 4), LONG_HEADER


def contents_offset(stream, at, kind, header, size):
    """Where in the section the contents to be searched start, or None; raises 204."""
    fields = at + header
    if kind == COMPRESSION and stream[fields + 4] == 0:
        if number(stream, fields, 4) != size - (header + 5):
            raise Fault(204, fields + 5)
        return header + 5
    if kind == GUID_DEFINED:
        offset = number(stream, fields + 16, 2)
        if offset < header + 20 or offset > size:
            raise Fault(204, fields + 18)
        if not stream[fields + 18] & 1:
            return offset
    return None


def walk(stream, start, end, level, mode):
    """Yields (type, first byte, end) of each section in walk order, before anything behind its fields is looked at."""
    at = start
    while at < end:
        size, header = size_and_header(stream, at, end, mode)
        kind = stream[at + 3]
        if size < header + FIELDS.get(kind, 0):
            raise Fault(202, at + header)
        if at + size > end:
            raise Fault(203, at + header)
        inner = contents_offset(stream, at, kind, header, size)
        if inner is not None and level == LEVELS:
            raise Fault(205, at + header + FIELDS[kind])
        yield kind, at + header, at + size
        if inner is not None:
            yield from walk(stream, at + inner, at + size, level + 1, mode)
        padded = min(end, start + (at + size - start + 3) // 4 * 4)
        for place in range(at + size, padded):
            if stream[place]:
                raise Fault(207, place + 1)
        at = padded


def search(stream, kind, instance, mode=FRAMEWORK):
    """(number, first byte, end)"""
    if len(stream) > stream_limit(mode):
        return 206, 0, 0
    try:
        matches = [(first, end) for k, first, end in walk(stream, 0, len(stream), 1, mode) if k == kind]
    except Fault as fault:
        return fault.args[0], 0, 0
    if instance >= len(matches):
        return 14, 0, 0
    return (0,) + matches[instance]


def search_first(stream, kind, mode=FRAMEWORK):
    """(number, first byte, end), by the walk up to the first section of that type"""
    if len(stream) > stream_limit(mode):
        return 206, 0, 0
    try:
        for k, first, end in walk(stream, 0, len(stream), 1, mode):
            if k == kind:
                return 0, first, end
    except Fault as fault:
        return fault.args[0], 0, 0
    return 14, 0, 0


def append(buffer, used, kind, body, mode=FRAMEWORK):
    """(number, used count)"""
    if kind in (COMPRESSION, GUID_DEFINED) or used > len(buffer):
        return 2, 0
    if kind == FREE_FORM and len(body) < 16:
        return 202, 0
    long = mode != FRAMEWORK and SHORT_HEADER + len(body) >= LONG
    size = (LONG_HEADER if long else SHORT_HEADER) + len(body)
    start = (used + 3) // 4 * 4
    if mode == FRAMEWORK and size > LONG or start + size > stream_limit(mode):
        return 206, 0
    if start + size > len(buffer):
        return 5, 0
    field = LONG if long else size
    header = field.to_bytes(3, "little") + bytes([kind]) + (size.to_bytes(4, "little") if long else b"")
    buffer[used:start] = bytes(start - used)
    buffer[start:start + size] = header + body
    return 0, start + size
