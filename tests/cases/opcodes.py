"""Request k from C: single opcodes read and written, as requests of the C program c/calls.c.

A name's end says which refusals the requests of that name get.
"""

from functools import partial
from itertools import product

from calls import ANSWER, filled, made, request
from cases.dependency import END_, G, MIB, OPERANDS, TEXTS, repeated, text
from cases.erase_jobs import refused
from cases.loader import cut_or_more
from model.dependency import AND, END, OPCODES, PUSH_GUID, PUSH_VERSION, VERSION_STR

ANSWER_LENGTHS = (0, 15, 16, 17)
FIXED = {PUSH_GUID: 16, PUSH_VERSION: 4}        # bytes of an operand


def operands_of(opcode):
    """(operand, its length or none where it is cut) of every length up to 20"""
    for count in range(21):
        operand = filled(count, 0x31)
        assert 0 not in operand
        if opcode != VERSION_STR:
            size = FIXED.get(opcode, 0)
            yield operand, size if count >= size else None
        else:
            yield operand, None
            for zero in sorted({0, count // 2, count - 1} & set(range(count))):
                yield operand[:zero] + b"\0" + operand[zero + 1:], zero + 1


def written(name, opcode, operand, room, size):
    """A write into so many bytes, of an operand of this length; what it stores is read again, and that written again."""
    stored = 1 + (size or 0)
    number = 301 if opcode > END else 302 if size is None else 5 if room < stored else 0
    done, after = made(refused(name, number), "write opcode", (opcode, operand, filled(room), ANSWER), {})
    assert number or after["v"] == bytes([opcode]) + operand[:size] + filled(room)[stored:], name
    yield done
    if number == 0 and room in (stored, 20):
        read, found = made(name + ", read", "read opcode", (bytes(after["v"]), ANSWER), {})
        assert found["a"] == bytes([opcode]) + bytes(7) + bytes([stored]) + bytes(7), name
        yield read
        again, same = made(name + ", again", "write opcode", (opcode, bytes(after["v"][1:stored]), filled(room), ANSWER), {})
        assert same["v"] == after["v"], name
        yield again


def write_cases(opcode):
    """Operands of every length up to 20, and rooms."""
    for operand, size in operands_of(opcode):
        for room in (*range(21), 64) if opcode <= AND else (0, 1, 2, 20):
            name = "write %d, operand of %d bytes with %s, room %d" % (opcode, len(operand), size, room)
            yield from written(name, opcode, operand, room, size)


def each_write_cases():
    """Each byte as an opcode, without an operand and with 20 bytes, and rooms around what it needs."""
    for opcode, count in product(range(256), (0, 20)):
        operand = cut_or_more(OPERANDS.get(opcode, b""), count)
        size = len(OPERANDS.get(opcode, b"")) if count else None if opcode in OPERANDS else 0
        for room in (0, 1, 4, 5, 16, 17, 30) if opcode <= END else (0, 30):
            yield from written("write %d, %d bytes, room %d" % (opcode, count, room), opcode, operand, room, size)


def write_order_cases():
    """5 for the answer, 301, 302, 5 for the room: every mixture."""
    rooms, opcodes, operands = (0, 1, 4, 5, 6, 16, 17, 18), (0, 1, 2, 3, 13, 14, 255), (b"", b"abc", b"abcd", b"ab\0d", filled(16))
    for answer, room, opcode, operand in product(ANSWER_LENGTHS, rooms, opcodes, operands):
        size = operand.find(0) + 1 if opcode == VERSION_STR else FIXED.get(opcode, 0)
        cut = len(operand) < size or opcode == VERSION_STR and size == 0
        number = 5 if answer < 16 else 301 if opcode > END else 302 if cut else 5 if room < 1 + size else 0
        name = refused("write %d, operand of %d, room %d, answer %d" % (opcode, len(operand), room, answer), number)
        yield request(name, "write opcode", opcode, operand, filled(room), filled(answer))


def read_cases():
    """Each byte as an opcode; operands of every length, where what is read is written again as the same bytes."""
    yield request("read no bytes: 305", "read opcode", b"", ANSWER)
    for opcode in range(256):
        unknown = 301 if opcode > END else 0
        yield request(refused("read %d alone" % opcode, unknown or (302 if opcode in OPERANDS else 0)), "read opcode", bytes([opcode]), ANSWER)
        yield request(refused("read %d and more" % opcode, unknown), "read opcode", bytes([opcode]) + filled(20) + b"\0", ANSWER)
    for opcode in (*OPCODES, 14):
        for operand, size in operands_of(opcode):
            name = "read %d, %d bytes behind, operand %s" % (opcode, len(operand), size)
            number = 301 if opcode > END else 302 if size is None else 0
            data = bytes([opcode]) + operand
            yield request(refused(name, number), "read opcode", data, ANSWER)
            if number == 0:
                again, after = made(name + ", written", "write opcode", (opcode, data[1:], filled(1 + size), ANSWER), {})
                assert after["v"] == data[:1 + size], name
                yield again
    for answer, (number, data) in product(ANSWER_LENGTHS, ((0, G), (0, text(b"")), (0, END_ + G), (301, b"\x0e"), (302, G[:-1]), (305, b""))):
        yield request(refused("read, answer of %d" % answer, 5 if answer < 16 else number), "read opcode", data, filled(answer))


def long_text_cases():
    """Texts read and written."""
    for n, data in enumerate(TEXTS):
        for behind in (b"", b"\0", b"x\0", b"\xff" * 7):
            name, lent = "text %d of %d bytes and %d" % (n, len(data), len(behind)), text(data) + behind
            yield request(name, "read opcode", lent, ANSWER)
            for room, number in ((len(data) + 1, 5), (len(data) + 2, 0), (len(data) + 9, 0)):
                yield request(refused("%s, written into %d" % (name, room), number), "write opcode", VERSION_STR, lent[1:], filled(room), ANSWER)
        yield request("text %d without its zero, read: 302" % n, "read opcode", text(data)[:-1], ANSWER)
        yield request("text %d without its zero, written: 302" % n, "write opcode", VERSION_STR, data, filled(len(data) + 9), ANSWER)


def large_cases():
    """Texts of one mebibyte."""
    for name, number, data in (("with its zero", 0, repeated(b"\x02", b"x", b"\0")), ("without its zero", 302, repeated(b"\x02", b"x", b""))):
        yield request(refused("1 MiB, read a text " + name, number), "read opcode", data, ANSWER)
        yield request(refused("1 MiB, write a text " + name, number), "write opcode", VERSION_STR, data[1:], filled(MIB + 5), ANSWER)
        short = refused("1 MiB, write a text %s, room one short" % name, number or 5)
        yield request(short, "write opcode", VERSION_STR, data[1:], filled(MIB - 1), ANSWER)


GROUPS = (*(partial(write_cases, opcode) for opcode in (*OPCODES, 14)), each_write_cases, write_order_cases, read_cases, long_text_cases)
LARGE = (large_cases,)
