"""Read, write, lists of writes and erase on volumes of 16,777,216 bytes, as requests of the C program c/calls.c: chains that start with opening, or
from a state whose mark is lowered.
"""

from calls import ANSWER, ROOM as STATE_ROOM, Chain, filled
from cases.headers import header, total
from cases.limits import LIMIT
from model.loader import pack, unpack
from model.volume import END_OF_LIST as END

PLAIN, STICKY, ONES = 0x3F, 0x23F, 0x800
BLOCKS = 65536
MIXED = [1, 200, 255, 252] * 15 + [61695, 128, 1, 7913356]      # 65,536 blocks in 32 entries
UNIT = filled(4096)


def image(map_words, attributes, more=0):
    own = header(map_words, attributes=attributes)
    assert total(map_words) == LIMIT
    return own + UNIT[len(own):] + UNIT * (LIMIT // 4096 - 1) + b"\xee" * more


def words(*numbers):
    return b"".join(n.to_bytes(8, "little") for n in numbers)


def pairs(blocks):
    return words(*(word for block in blocks for word in (block, 1)))


class Opened(Chain):
    """Requests on a volume, the first of which opens it."""

    def __init__(self, name, map_words, attributes, more=0):
        super().__init__(name)
        self.first = self.request("open", STATE_ROOM, image(map_words, attributes, more), 0)
        self.state = self.left["s"]

    def protect(self, mark):
        self.state = pack(unpack(self.state)._replace(first_protected=mark))

    def read(self, block, offset, length):
        return self.request("read", self.state, self.left["v"], block, offset, filled(length, 0x11), ANSWER)

    def write(self, block, offset, data):
        return self.request("write", self.state, self.left["v"], block, offset, data, ANSWER)

    def write_list(self, orders, data):
        return self.request("write list", self.state, self.left["v"], words(*(n for order in orders for n in order)), data, ANSWER)

    def erase(self, data):
        return self.request("erase", self.state, self.left["v"], data)


def pair_cases():
    """Every block by one pair, and pairs near the number of blocks."""
    opened = Opened("65,536 blocks by one pair", [BLOCKS, 256], STICKY | ONES)
    yield opened.first
    for list_words in ((BLOCKS - 1, 1, END), (0, BLOCKS + 1, END), (BLOCKS, 1, END), (BLOCKS - 1, 2, END), (1, BLOCKS, END),
                       (0, BLOCKS, BLOCKS, 1, END), (0, BLOCKS)):
        yield opened.erase(words(*list_words))
    yield opened.erase(words(0, BLOCKS, END))
    yield opened.write(BLOCKS - 1, 250, bytes(range(100)))
    yield opened.read(BLOCKS - 1, 248, 8)
    yield opened.read(BLOCKS, 0, 1)


def list_cases():
    """Lists of many thousand pairs; one bad pair at the end, one protected block at the end."""
    opened = Opened("a list of many pairs", [BLOCKS - 1, 256, 1, 256], PLAIN)
    yield opened.first
    thirds = pairs(range(0, BLOCKS - 1, 3))
    yield opened.erase(thirds + words(BLOCKS, 1, END))
    yield opened.erase(thirds + words(0, 0, END))
    yield opened.erase(thirds)
    opened.protect(BLOCKS - 1)
    yield opened.erase(thirds + words(BLOCKS - 1, 1, END))
    yield opened.erase(thirds + words(END) + bytes(5))
    yield opened.erase(pairs(range(BLOCKS - 2, -1, -1)) + words(END, 0, 0))
    yield opened.write(BLOCKS - 1, 0, b"\x00")
    yield opened.write(BLOCKS - 2, 0, bytes(range(256)))


def many_pair_cases():
    """More than 65,536 pairs, all but the last two of one block."""
    opened = Opened("65,538 pairs", [4096, 4096], PLAIN | ONES)
    yield opened.first
    many = words(5, 1) * 65536
    yield opened.erase(many + words(9, 1, 4096, 1, END))
    yield opened.erase(many + words(9, 1, 4095, 1, END))


def mixed_cases():
    opened = Opened("16,777,216 bytes in 32 entries", MIXED, STICKY, 40)
    yield opened.first
    yield opened.erase(words(BLOCKS - 1, 1, END))
    yield opened.erase(words(0, 257, 255, 4096, END))
    yield opened.write(BLOCKS - 1, 5, b"\xff" * 65536)
    yield opened.read(BLOCKS - 1, 0, 5 + 65536)
    yield opened.read(BLOCKS - 2, 255, 1)
    yield opened.erase(words(0, BLOCKS, END))


def order_cases():
    """64 orders from the last block down, from 1 MiB of data; a short write at the volume's end; a refusal behind 1 MiB; a protected block."""
    opened, data = Opened("64 orders on 16,777,216 bytes", MIXED, STICKY, 40), UNIT * 256
    last, end = BLOCKS - 1, len(data)
    spread = [(last - 1040 * i, i, end - 60 - 16001 * i, 60) for i in range(64)]
    yield opened.first
    yield opened.write_list(spread, data)
    yield opened.write_list([(last, 7913355, end - 1, 1), (last, 7913355, 0, 2), spread[0]], data)
    yield opened.write_list([(last, 5, 0, end), (BLOCKS, 0, 0, 1), spread[1]], data)
    yield opened.write_list([spread[2], (last, 6, 1, end)], data)
    opened.protect(last)
    yield opened.write_list(spread[1:] + spread[:1], data)


def block_cases(kind, attributes, written=LIMIT):
    """One block of 16,777,216 bytes: its last byte, so many bytes of it, and all of it."""
    opened = Opened("one block of 16,777,216 bytes, %s" % kind, [1, LIMIT], attributes, 8)
    yield opened.first
    yield opened.read(0, LIMIT - 1, 1)
    yield opened.write(0, LIMIT - 1, b"\x3c")
    yield opened.write(0, LIMIT - 1, b"\xc3\xff")
    yield opened.read(0, LIMIT, 1)
    yield opened.write(0, LIMIT + 1, b"\x00")
    yield opened.write(0, 0, filled(1024, 0x77) * (written // 1024))
    yield opened.read(0, 0, LIMIT)
    yield opened.read(0, 1, LIMIT)
    yield opened.erase(words(0, 1, END))
    yield opened.read(0, 0, LIMIT + 4)


def lent_cases():
    """One byte fewer than the volume has."""
    opened = Opened("16,777,216 bytes, one less lent", [4096, 4096], PLAIN | ONES)
    yield opened.first
    less = opened.left["v"][:-1]
    yield opened.request("read", opened.state, less, 0, 0, b"\x11", ANSWER)
    yield opened.request("write", opened.state, less, 0, 0, b"\x00", ANSWER)
    yield opened.request("erase", opened.state, less, words(0, 1, END))


def plain_cases():
    return block_cases("plain", PLAIN | ONES)


def sticky_ones_cases():
    return block_cases("sticky, erases to ones", STICKY | ONES)


def sticky_zeros_cases():
    return block_cases("sticky, erases to zeros", STICKY, LIMIT // 16)


GROUPS = (plain_cases, sticky_ones_cases, sticky_zeros_cases, pair_cases, list_cases, many_pair_cases, mixed_cases, order_cases, lent_cases)
