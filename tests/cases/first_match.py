"""Section streams: the first section of a type, found without a walk over the rest.

A line of a case: its name, the call, and
  search first  type, number, first byte and end on success, the first bytes of the part
In PI mode the call is `search first pi`. A name's end says which refusal the case gets. Where it starts with `long`, every header is
long. A case with `the full search` in its name, a line of streams.py, refuses what the one before it shows.
"""

from collections import namedtuple

from cases.long_headers import LONG, by_turns, long_compression, long_guided, long_section
from cases.streams import BODY, COMPRESSION, FREE_FORM, GUID_DEFINED, KNOWN, RAW, UNKNOWN, VERSION, compression, guided, nested, section, stream
from model.sections import FRAMEWORK, PI
from trial import first_searching, in_mode, searching

PE32 = 0x10

Form = namedtuple("Form", "lead mode header section compression guided")     # a mode, and sections with one length of header
SHORT = Form("", FRAMEWORK, 4, section, compression, guided)
PI_SHORT = SHORT._replace(mode=PI)
PI_LONG = Form("long, ", PI, 8, long_section, long_compression, long_guided)


def first(form, name, data, kind=RAW):
    return in_mode("search first", form.mode)[0], first_searching(form.lead + name, data, kind, form.mode)


def full(form, name, no, data, kind=RAW):
    return in_mode("search", form.mode)[0], searching("%s%s, the full search: %d" % (form.lead, name, no), data, kind, 0, form.mode)


def both(form, name, no, data, kind=RAW):
    """The search for the first shows a part and the full one refuses."""
    yield first(form, name, data, kind)
    yield full(form, name, no, data, kind)


def holders(form):
    return ((form.compression, COMPRESSION, "compression"), (form.guided, GUID_DEFINED, "GUID-defined"))


def packed(form):
    return ((lambda contents: form.compression(contents, 1, 99), COMPRESSION, "compression"),
            (lambda contents: form.guided(contents, 1), GUID_DEFINED, "GUID-defined"))


def faults(form):
    """Each fault, in what is not raw."""
    return ((201, b"\x04\x00\x00"), (202, form.section(PE32, size=form.header - 1)), (203, form.section(PE32, size=999)),
            (204, form.compression(b"", unpacked=1)), (205, nested(8, b"", form.compression)), (207, form.section(PE32, b"\x01") + b"\x01"))


def type_cases(form):
    for kind in KNOWN + UNKNOWN if form is SHORT else (0x00, 0x1B, 0xFF):
        data = stream(form.section(kind ^ 0x20), form.section(kind ^ 0x80), form.section(kind, BODY), form.section(kind))
        yield first(form, "type 0x%02X" % kind, data, kind)
    leaf = form.section(RAW)
    yield first(form, "type 0x18", stream(leaf, form.section(FREE_FORM, bytes(range(17))), form.section(FREE_FORM, bytes(16))), FREE_FORM)
    for pack, kind, name in packed(form):
        yield first(form, "%s, packed" % name, stream(leaf, pack(b"\x07"), pack(b"\x08")), kind)
    for holder, kind, name in holders(form):
        yield first(form, "%s, not packed" % name, stream(leaf, holder(leaf), holder(b"")), kind)


def place_cases(form):
    one, two, other = form.section(RAW, b"\x0a"), form.section(RAW, b"\x0b\x0b"), form.section(PE32, b"\x01")
    for parts, name in (((one,), "the only section"), ((one, other, other), "the first of three"), ((other, one, other), "the second of three"),
                        ((other, other, one), "the last of three"), ((one, other, two), "the first and the last of three"),
                        ((other, two, one), "the last two of three"), ((one, two, one), "all three")):
        yield first(form, "match: %s" % name, stream(*parts))
    yield first(form, "a match with no body", stream(other, form.section(RAW), one))
    yield first(form, "an empty stream: 14", b"")
    yield first(form, "three sections, no match: 14", stream(other, other, other))


def holder_cases(form):
    one, two, other = form.section(RAW, b"\x0a"), form.section(RAW, b"\x0b\x0b"), form.section(PE32, b"\x01")
    for holder, kind, name in holders(form):
        yield first(form, "inside %s, before a sibling of it" % name, stream(other, holder(stream(other, one, two)), two))
        yield first(form, "behind %s with none inside" % name, stream(holder(other), one, holder(two)))
        yield first(form, "%s inside %s, the outer one" % (name, name), stream(other, holder(stream(other, holder(two)))), kind)
    yield first(form, "compression inside GUID-defined, before another", stream(form.guided(form.compression(one)), form.compression(two)), COMPRESSION)
    yield first(form, "contents behind more bytes", form.guided(stream(other, one), offset=form.header + 25, more=b"\x19\x00\x00\x19\x04"))
    for pack, kind, name in packed(form):
        yield first(form, "match and faults in a packed %s, match behind it" % name, stream(pack(one + b"\xff" * 9), two))
        yield first(form, "match in a packed %s alone: 14" % name, stream(pack(one), other))


def level_cases(form):
    other = form.section(PE32, b"\x01")
    inner = stream(other, form.section(RAW, b"\x0a"), form.section(RAW))
    for holder, kind, name in holders(form):
        for levels in range(1, 8):
            yield first(form, "on level %d, inside %s" % (levels + 1, name), nested(levels, inner, holder))
        outer = form.guided if kind == COMPRESSION else form.compression
        yield from both(form, "%s on level 7, its child has 205" % name, 205, nested(6, holder(outer(b"")), outer), kind)
        yield first(form, "%s on level 8: 205" % name, nested(7, stream(other, holder(inner)), outer), kind)
        yield first(form, "%s on level 8 before the match: 205" % name, nested(7, stream(holder(b""), inner), outer))
    for (pack, kind, name), outer in zip(packed(form), (form.guided, form.compression)):
        yield first(form, "a packed %s on level 8" % name, nested(7, pack(inner), outer), kind)
    yield first(form, "a packed holder on level 8 before the match", nested(7, stream(form.compression(inner, 1), inner), form.guided))
    yield first(form, "two branches, on level 8 of the second", stream(nested(7, b"", form.compression), nested(7, inner, form.compression)))


def before_cases(form):
    """A fault before the match."""
    one = form.section(RAW, b"\x0a")
    for no, bad in faults(form):
        if no != 201:       # the last bytes of a stream: no match comes behind them in it
            yield first(form, "%d before the match: %d" % (no, no), stream(bad, one))
        yield first(form, "%d in an earlier holder's children: %d" % (no, no), stream(form.compression(bad), one))
        yield first(form, "%d and no match: %d" % (no, no), stream(one, bad), VERSION)
    yield first(form, "data offset too small before the match: 204", stream(form.guided(b"", 0, form.header + 19), one))
    yield first(form, "data offset too large before the match, packed: 204", form.guided(stream(form.guided(b"", 1, form.header + 21), one)))
    for wrong in (b"\x00\x01\x00", b"\x00\x00\x01"):
        yield first(form, "padding of %s before the match: 207" % wrong.hex(), form.section(PE32, b"\x01") + wrong + one)
    yield first(form, "the padding of a holder before the match: 207", form.compression(b"") + b"\x00\x01\x00" + one)
    yield first(form, "the padding of a packed holder before the match: 207", form.guided(b"\x19", 1) + b"\x00\x00\x01" + one)
    yield first(form, "a cut padding and no match: 207", one + b"\x00\x01", VERSION)
    yield first(form, "202 before the match's own 203: 202", stream(form.section(PE32, size=3), form.section(RAW, size=999)))


def own_cases(form):
    """A fault at the match."""
    one, other = form.section(RAW, b"\x0a"), form.section(PE32, b"\x01")
    for left in range(1, form.header, 2):
        yield first(form, "%d bytes left of it: 201" % left, stream(other, form.section(RAW)[:left]))
    yield first(form, "bytes left of it inside a holder: 201", stream(form.compression(form.section(RAW)[:form.header - 1]), one))
    for kind, fields, name in ((RAW, 0, "raw"), (COMPRESSION, 5, "compression"), (GUID_DEFINED, 20, "GUID-defined"), (FREE_FORM, 16, "free-form")):
        least = form.header + fields
        yield first(form, "%s, one byte under its least size: 202" % name, stream(other, form.section(kind, bytes(20), least - 1), one), kind)
        yield first(form, "%s, one byte past the end: 203" % name, stream(other, form.section(kind, bytes(fields), least + 1)), kind)
    yield first(form, "one byte past its holder's end: 203", stream(form.compression(form.section(RAW, size=form.header + 1)), one))
    for unpacked, name in ((len(one) - 1, "one less"), (len(one) + 4, "four more")):
        yield first(form, "unpacked length %s: 204" % name, stream(other, form.compression(one, unpacked=unpacked)), COMPRESSION)
    for offset in (form.header + 19, form.header + 20 + len(one) + 1):
        for attributes in (0, 1):
            yield first(form, "data offset %d, attributes %d: 204" % (offset, attributes), form.guided(one, attributes, offset), GUID_DEFINED)
    yield first(form, "data offset equal to the size", form.guided(one, 0, form.header + 20 + len(one)), GUID_DEFINED)
    yield first(form, "GUID-defined on level 8, 204 before 205: 204", nested(7, form.guided(one, offset=4), form.compression), GUID_DEFINED)
    yield first(form, "its own 202 and a good one behind it: 202", stream(form.section(RAW, size=form.header - 1), one))
    yield first(form, "its own 204 and a good one behind it: 204", stream(form.compression(one, unpacked=1), form.compression(b"")), COMPRESSION)


def after_cases(form):
    """A fault behind the match."""
    one, other = form.section(RAW, b"\x0a"), form.section(PE32, b"\x01")
    for no, bad in faults(form):
        yield from both(form, "%d in a later sibling" % no, no, stream(one, other, bad))
        holder, kind, name = holders(form)[no % 2]
        yield first(form, "%d in its children, %s" % (no, name), stream(other, holder(bad)), kind)
        yield first(form, "%d in a later child of its holder, and behind the holder" % no, stream(form.guided(stream(one, bad)), bad))
    for wrong in (b"\x01\x00\x00", b"\x00\x01\x00", b"\x00\x00\x01"):
        yield first(form, "its padding is %s" % wrong.hex(), one + wrong + other)
    yield from both(form, "its padding, cut", 207, one + b"\x00\x01")
    yield first(form, "its padding, a holder", form.compression(b"") + b"\x00\x00\x01" + other, COMPRESSION)
    yield from both(form, "the padding of its holder", 207, form.compression(one) + b"\x00\x01" + other)
    yield first(form, "202 of the next one of its type", stream(one, form.section(RAW, size=form.header - 1)))
    yield from both(form, "204 of a child of its type", 204, form.compression(form.compression(b"", unpacked=1)), COMPRESSION)
    yield first(form, "nothing but FF behind it", one + b"\xff" * 11)


def mode_cases():
    """Long headers in Framework mode, long and short ones together in PI mode."""
    short, long, other, long_other = section(RAW, b"\x0a"), long_section(RAW, b"\x0b"), section(PE32, b"\x01"), long_section(PE32, b"\x01")
    for data, name, no in ((stream(long_other, short), "a long section before the match", ": 203"), (stream(other, long), "the match itself is long", ": 203"),
                           (stream(short, long_other), "a long section behind the match", ""), (compression(long), "a long match in a short holder", ": 203"),
                           (long_guided(short), "a short match in a long holder", ": 203")):
        yield first(SHORT, name + no, data)
        yield first(PI_SHORT, name, data)
    yield first(SHORT, "7 bytes left of a long header: 203", stream(other, long[:7]))
    for form in (SHORT, PI_SHORT):
        yield first(form, "7 bytes left of a long header behind the match", stream(short, long[:7]))
    yield first(PI_SHORT, "a long match, then a short one", stream(other, long, short))
    yield first(PI_SHORT, "a short match, then a long one", stream(long_other, short, long))
    yield first(PI_SHORT, "a long match on level 8 of all holders", by_turns(7, stream(other, long), (compression, long_guided, long_compression, guided)))
    yield first(PI_SHORT, "behind a body of FF", stream(section(PE32, b"\xff" * 9), long))
    for mode in (2, 2**32, 2**64 - 1):
        yield first(PI_SHORT._replace(mode=mode), "mode %d is PI" % mode, stream(long, other) + LONG)


def cases():
    for form in (SHORT, PI_SHORT, PI_LONG):
        yield from place_cases(form)
    for group in (type_cases, holder_cases, level_cases, before_cases, own_cases, after_cases):
        for form in (SHORT, PI_LONG):
            yield from group(form)
    yield from mode_cases()
