"""The script of the program `trial`, and the lines that it must print.

A case holds its part of the script and its expected lines. The lines come from
the model alone. README.md beside this file has both formats.
"""

from collections import namedtuple

from model import portions, sections, volume
from model.sections import FRAMEWORK

Case = namedtuple("Case", "name script lines numbers")     # numbers: the answer of each line

WORKING = 4096      # bytes of a working volume
ROOM = 512          # bytes of a header's room and of a section buffer
LISTING = 1024      # bytes of a listing's room
LIST = 96           # words of an erase list at most
BLOCK = 65536       # bytes after which a pattern repeats
PRIME = 4294967291
ERASED = (0xFF00, 0)
PATTERN = (0x1234, 1801)


# The script: lists of items, each an 8-byte length and then its bytes.

def number(n):
    return n.to_bytes(8, "little")


def items(*parts):
    return b"".join(number(len(part)) + bytes(part) for part in parts)


def split(script):
    """The items of a list."""
    parts = []
    while script:
        size = int.from_bytes(script[:8], "little")
        parts.append(script[8:8 + size])
        script = script[8 + size:]
    return parts


def words(numbers, width):
    return b"".join(n.to_bytes(width, "little") for n in numbers)


def prepared(own, pattern, size):
    start, step = pattern
    block = bytes((start + i * step) % 65536 // 256 for i in range(min(size, BLOCK)))
    lent = bytearray(block * (size // BLOCK + 1))[:size]
    lent[:len(own)] = own
    return lent


def pattern_item(pattern):
    return words(pattern, 2)


# The lines: fields parted by tabs.

def line(name, call, *fields):
    return "\t".join([name, call] + [str(f) for f in fields])


def shown(data):
    return bytes(data[:16]).hex()


def state_fields(state):
    if state is None:
        return [0, 0, 0, 0, 0, 0, "00" * 16, ""]
    map_words = "".join("%d:%d," % (i, w) for i, w in enumerate(state.map) if w)
    return [state.length, state.attributes, state.edition, state.first_protected, state.entries, state.base, state.guid.hex(), map_words]


def checksum(data):
    total = 0
    for byte in data:
        total = (total * 31 + byte) % PRIME
    return total


def change_fields(before, after):
    if before == after:
        return [0, checksum(after)]
    places = [i for i, (old, new) in enumerate(zip(before, after)) if old != new]
    first, last = places[0], places[-1]
    return [len(places), first, last, shown(after[first:last + 1]), checksum(after)]


def answer_fields(no, *values):
    """Values stand beside success and short alone."""
    return [no] + (list(values) if no in (0, 4) else [])


# The cases.

def opening(name, own, lent, base=0, pattern=ERASED):
    data = prepared(own, pattern, WORKING)[:lent]
    no, state = volume.open_volume(data, base)
    script = items(name.encode(), number(0), number(lent), number(base), own, pattern_item(pattern))
    return Case(name, script, [line(name, "open", no, *state_fields(state))], [no])


def writing(name, word, what, room, guid, length, attributes, map_words, pattern, write, more):
    """Either writer: what it does to a room, and the script items that stand after those of both."""
    before = prepared(b"", pattern, ROOM)
    after = bytearray(before)
    part = after[:room]
    no, size = write(part)
    after[:room] = part
    script = items(name.encode(), number(what), number(room), guid, number(length),
                   words([attributes], 4), words(map_words, 4), pattern_item(pattern), b"", *more)
    fields = answer_fields(no, size) + change_fields(before, after)
    return Case(name, script, [line(name, word, *fields)], [no])


def header_writing(name, room, guid, length, attributes, map_words, pattern=PATTERN):
    return writing(name, "write header", 1, room, guid, length, attributes, map_words, pattern,
                   lambda part: volume.write_header(part, guid, length, attributes, map_words), [])


def pi_header_writing(name, room, guid, length, attributes, offset, map_words, pattern=PATTERN):
    return writing(name, "write pi header", 7, room, guid, length, attributes, map_words, pattern,
                   lambda part: volume.write_pi_header(part, guid, length, attributes, offset, map_words), [words([offset], 2)])


def ext_entry(name, own, lent, n, pattern=ERASED):
    answer = volume.ext_entry(prepared(own, pattern, WORKING)[:lent], n)
    script = items(name.encode(), number(8), number(lent), number(n), own, pattern_item(pattern))
    return Case(name, script, [line(name, "ext entry", n, *answer_fields(*answer))], [answer[0]])


def word_sums(name, data):
    sums = "".join("%04x," % value for value in volume.running_sums(data))
    whole = "%04x" % volume.word_sum(data)
    return Case(name, items(name.encode(), number(6), data), [line(name, "word sum", sums, whole)], [0])


def listing(name, own, lent, room=LISTING, pattern=ERASED):
    text = volume.listing(prepared(own, pattern, WORKING)[:lent])
    before = prepared(b"", PATTERN, LISTING)
    fits = len(text) <= room
    after = prepared(text.encode() if fits else b"", PATTERN, LISTING)
    fields = [0, len(text), text.replace("\n", "|")] if fits else [5, ""]
    script = items(name.encode(), number(2), number(lent), number(room), own, pattern_item(pattern), pattern_item(PATTERN), b"")
    return Case(name, script, [line(name, "list", *fields, *change_fields(before, after))], [fields[0]])


def state_item(state):
    return items(state.guid, number(state.length), words([state.attributes], 4), number(state.base),
                 words([state.edition], 4), number(state.first_protected), number(state.entries), words(state.map, 4))


# What a call gives: its word, the arguments shown, the answer, further fields, the state, its script.
Made = namedtuple("Made", "word shown answer more state script")


def state_call(state, which, *args):
    """A call that is not lent the volume."""
    if which == "settings":
        return Made("get attributes", [], volume.get_attributes(state), [], state, items(number(0)))
    if which == "set":
        no, value, after = volume.set_attributes(state, *args)
        return Made("set attributes", [], (no, value), state_fields(after), after, items(number(1), words(args, 4)))
    if which == "protect":
        no, after = volume.protect_blocks(state, *args)
        return Made("protect blocks", args, (no,), state_fields(after), after, items(number(7), number(*args)))
    if which == "address":
        return Made("get physical address", [], volume.get_physical_address(state), [], state, items(number(2)))
    return Made("get block size", args, volume.get_block_size(state, *args), [], state, items(number(3), number(*args)))


def volume_call(state, lent_bytes, which, lent, *args):
    """A call that is lent the volume, which is changed in place."""
    part = lent_bytes[:lent]
    if which == "read":
        block, offset, size = args
        old = bytes((i * 5 + 0xA1) % 256 for i in range(size))
        buffer = bytearray(old)
        answer = volume.read(state, part, block, offset, buffer)
        script = items(number(4), number(lent), number(block), number(offset), old)
        return Made("read", args, answer, change_fields(old, buffer), state, script)
    if which == "write":
        block, offset, data = args
        answer = volume.write(state, part, block, offset, data)
        lent_bytes[:lent] = part
        script = items(number(5), number(lent), number(block), number(offset), data)
        return Made("write", [block, offset, len(data)], answer, [], state, script)
    assert len(*args) <= LIST, len(*args)
    answer = volume.erase_blocks(state, part, *args)
    lent_bytes[:lent] = part
    return Made("erase blocks", [len(*args)], answer, [], state, items(number(6), number(lent), words(*args, 8)))


def run(name, own, calls, lent=None, base=0, pattern=PATTERN, state=None):
    """A run of calls over one volume, from the state that opening answers or a given one."""
    lent_bytes = prepared(own, pattern, WORKING)
    lent = WORKING if lent is None else lent
    given = b"" if state is None else state_item(state)
    if state is None:
        no, state = volume.open_volume(lent_bytes[:lent], base)
        assert no == 0, (name, no)
    lines, scripts, numbers = [], [number(len(calls))], []
    for call in calls:
        before = bytes(lent_bytes)
        lent_call = call[0] in ("read", "write", "erase")
        made = volume_call(state, lent_bytes, *call) if lent_call else state_call(state, *call)
        state = made.state
        scripts.append(made.script)
        numbers.append(made.answer[0])
        fields = [*made.shown, *answer_fields(*made.answer), *made.more, *change_fields(before, lent_bytes)]
        lines.append(line(name, made.word, *fields))
    script = items(name.encode(), number(3), number(lent), number(base), own,
                   pattern_item(pattern), given, items(*scripts))
    return Case(name, script, lines, numbers)


def part_fields(stream, no, first, end):
    return answer_fields(no, first, end, shown(stream[first:end]))


def search_fields(stream, kind, instance, mode):
    return [kind, instance] + part_fields(stream, *sections.search(stream, kind, instance, mode))


def in_mode(word, mode):
    """The call's word, and the script items that stand after those of both modes."""
    return (word, []) if mode == FRAMEWORK else (word + " pi", [number(mode)])


def searching(name, stream, kind, instance, mode=FRAMEWORK):
    word, more = in_mode("search", mode)
    script = items(name.encode(), number(4), stream, bytes([kind]), number(instance), *more)
    fields = search_fields(stream, kind, instance, mode)
    return Case(name, script, [line(name, word, *fields)], [fields[2]])


def first_searching(name, stream, kind, mode=FRAMEWORK):
    word, more = in_mode("search first", mode)
    script = items(name.encode(), number(9), stream, bytes([kind]), *more)
    no, first, end = sections.search_first(stream, kind, mode)
    return Case(name, script, [line(name, word, kind, *part_fields(stream, no, first, end))], [no])


def appending(name, room, used, kind, body, stream=b"", instance=0, pattern=PATTERN, mode=FRAMEWORK):
    before = prepared(stream, pattern, ROOM)
    after = bytearray(before)
    part = after[:room]
    no, count = sections.append(part, used, kind, body, mode)
    after[:room] = part
    shown_stream = after[:count if no == 0 else used]
    fields = answer_fields(no, count) + change_fields(before, after)
    word, more = in_mode("append", mode)
    script = items(name.encode(), number(5), number(room), number(used), bytes([kind]), body,
                   stream, pattern_item(pattern), number(instance), *more)
    fields += search_fields(bytes(shown_stream), kind, instance, mode)
    return Case(name, script, [line(name, word, *fields)], [no])


def receiving(name, came, total, kind, instance, lengths=(), mode=FRAMEWORK):
    """A file that comes in portions of the lengths given, what is left as one portion, in single bytes, and in any two portions."""
    word, more = in_mode("receive", mode)
    script = items(name.encode(), number(10), came, bytes([kind]), number(instance), number(total), words(lengths, 8), *more)
    announced, answer = portions.announce(total, mode), portions.finish(came, total, kind, instance, mode)
    no, place = portions.fault(came, total, mode) or (0, "-")
    others = len(came) + 2
    fields = [kind, instance, total, len(came), announced, *answer_fields(*answer), place, no, "%d of %d" % (others, others)]
    return Case(name, script, [line(name, word, *fields)], [announced, answer[0]])
