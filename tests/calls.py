"""The script of the C program c/calls.c, and the lines that it must print.

A request holds its part of the script and its line, which comes from the model alone. README.md beside this file has both formats.
"""

import zlib
from collections import namedtuple

from model import loader

# A request: its case's name, the call, the arguments in words, its part of the script, its line, the number returned,
# and whether the script says of a range that it is as the request before left it.
Request = namedtuple("Request", "name call arguments script line number kept")

# The calls by their numbers, with the arguments of each in their order: n a number, else a range by its place, a small letter
# where it is lent as const. The places are state (also GUIDs), volume (also a stream, a buffer of sections, an expression, the room
# of an opcode), orders (of a list of writes), data (also a buffer that is read into, an erase list, a section's body, an operand,
# versions) and answer (also a job, which is read too).
CALLS = (("open", "Svn", loader.fv_open), ("read", "svnnDA", loader.fv_read), ("write", "sVnndA", loader.fv_write),
         ("erase", "sVd", loader.fv_erase), ("search", "nvnnA", loader.fv_search), ("search first", "nvnA", loader.fv_search_first),
         ("append", "nVnndA", loader.fv_append), ("ext entry", "vnA", loader.fv_ext_entry),
         ("accept erase", "svdA", loader.fv_accept_erase), ("carry erase", "sVdAn", loader.fv_carry_erase),
         ("read opcode", "vA", loader.fv_read_opcode), ("write opcode", "ndVA", loader.fv_write_opcode),
         ("validate dependency", "v", loader.fv_validate_dependency), ("evaluate dependency", "vsdnA", loader.fv_evaluate_dependency),
         ("write list", "sVodA", loader.fv_write_list))
NUMBERS = {name: i for i, (name, _, _) in enumerate(CALLS)}
PLACES = "svoda"
KEPT = 2**32 - 1        # in the place of a range's number of pieces
SHOWN = 4096            # bytes of a range that are shown themselves; a longer one, and one lent as const, has a checksum
PIECE = 4096


def filled(length, start=0xA1):
    """What a range holds that a call may store into."""
    unit = bytes((start + 5 * i) % 256 for i in range(min(length, 256)))
    return (unit * (length // 256 + 1))[:length]


ANSWER = filled(loader.ANSWER_BYTES)
ROOM = filled(loader.STATE_BYTES, 0x3B)      # where opening stores the state


# The script.

def number(n, width):
    return n.to_bytes(width, "little")


def pieces(data):
    """[times, bytes] that stand one after the other; equal neighbours are one piece."""
    found = []
    for at in range(0, len(data), PIECE):
        part = bytes(data[at:at + PIECE])
        if found and found[-1][1] == part:
            found[-1][0] += 1
        else:
            found.append([1, part])
    return found


def range_item(data):
    found = pieces(data)
    return number(len(found), 4) + b"".join(number(times, 4) + number(len(part), 4) + part for times, part in found)


# The lines.

def shown(data, constant):
    if constant or len(data) > SHOWN:
        return "%d:%08x" % (len(data), zlib.crc32(data))
    return data.hex()


def in_words(shape, values):
    """The arguments: a number as it is, a range by its length."""
    return ", ".join(str(value) if letter == "n" else "%d bytes" % len(value) for letter, value in zip(shape, values))


PLACE_NAMES = {"s": "state", "v": "volume", "o": "orders", "d": "data", "a": "answer"}


def field_difference(name, wanted, got):
    """What differs in a field; in bytes shown themselves, from the first that differs on."""
    first = 0
    if len(wanted) == len(got) > 64 and ":" not in wanted:
        first = next(i for i in range(0, len(wanted), 2) if wanted[i:i + 2] != got[i:i + 2])
        name = "%s from byte %d on" % (name, first // 2)
    return "%s: expected %.80s, printed %.80s" % (name, wanted[first:], got[first:])


def differences(request, printed):
    """The fields in which a printed line differs from the request's; a line without ranges says what came instead of one."""
    if "\t" not in printed:
        return [printed]
    places = {letter.lower() for letter in CALLS[NUMBERS[request.call]][1]}
    names = ["number"] + [PLACE_NAMES[place] for place in PLACES if place in places]
    fields = zip(names, request.line.split("\t"), printed.split("\t"))
    return [field_difference(name, wanted, got) for name, wanted, got in fields if wanted != got]


def made(name, call, arguments, left):
    """The request of a call, and what its ranges hold afterwards; a state or a volume that is as it was left is not spelled out."""
    which = NUMBERS[call]
    _, shape, model = CALLS[which]
    script, kept = [number(which, 1)], []
    for letter, value in zip(shape, arguments):
        if letter == "n":
            script.append(number(value, 8))
        elif letter in "sSvV" and left.get(letter.lower()) == value:
            script.append(number(KEPT, 4))
            kept.append(letter)
        else:
            script.append(range_item(value))
    values = [value if letter in "n" + PLACES else bytearray(value) for letter, value in zip(shape, arguments)]
    returned = model(*values)
    after = {letter.lower(): (value, letter in PLACES) for letter, value in zip(shape, values) if letter != "n"}
    line = "\t".join([str(returned)] + [shown(*after[place]) for place in PLACES if place in after])
    done = Request(name, call, in_words(shape, arguments), b"".join(script), line, returned, bool(kept))
    return done, {place: value for place, (value, _) in after.items()}


def request(name, call, *arguments):
    """A request by itself."""
    return made(name, call, arguments, {})[0]


class Chain:
    """Requests one after the other, the state and the volume as the one before left them where this is what is asked for."""

    def __init__(self, name):
        self.name, self.left = name, {}

    def request(self, call, *arguments):
        done, after = made(self.name, call, arguments, self.left)
        self.left = {place: bytes(value) for place, value in after.items()}
        return done
