"""Dependency expressions, request k of 02: the opcodes 0x00 to 0x0D of 004, their meanings from UEFI 2.10.

An expression is opcodes one after the other, each a byte and its operand. A call answers its number, 0 for success, and its values
beside it. What is taken from the stack first is its top, which stands on the left of a comparison.
"""

from collections import namedtuple
from operator import and_, eq, ge, gt, le, lt, or_

PUSH_GUID, PUSH_VERSION, VERSION_STR, AND, OR, NOT, TRUE, FALSE, EQ, GT, GTE, LT, LTE, END = OPCODES = range(14)
FIXED = {PUSH_GUID: 16, PUSH_VERSION: 4}        # bytes of an operand; a text goes up to and with its zero, the others have none
STACK_LIMIT, ROWS = 32, 16

SUCCESS, BAD_USED, SMALL_ROOM, NOT_INSTALLED = 0, 2, 5, 14
UNKNOWN_OPCODE, CUT_OPERAND, BAD_STACK, WRONG_KIND, BAD_END = 301, 302, 303, 304, 305

# The kinds that an opcode takes, and those that it leaves.
Effect = namedtuple("Effect", "takes leaves")
TRUTH, VERSION = "truth", "version"
EFFECTS = {PUSH_GUID: Effect([], [VERSION]), PUSH_VERSION: Effect([], [VERSION]), VERSION_STR: Effect([], []),
           NOT: Effect([TRUTH], [TRUTH]), TRUE: Effect([], [TRUTH]), FALSE: Effect([], [TRUTH]),
           **{opcode: Effect([TRUTH, TRUTH], [TRUTH]) for opcode in (AND, OR)},
           **{opcode: Effect([VERSION, VERSION], [TRUTH]) for opcode in (EQ, GT, GTE, LT, LTE)}}
OF_TWO = {AND: and_, OR: or_, EQ: eq, GT: gt, GTE: ge, LT: lt, LTE: le}


class Fault(Exception):
    """A refusal's number."""


def operand_end(opcode, data, place):
    """Where the operand ends that starts there, or 302."""
    if opcode == VERSION_STR:
        zero = data.find(0, place)
        if zero < 0:
            raise Fault(CUT_OPERAND)
        return zero + 1
    end = place + FIXED.get(opcode, 0)
    if end > len(data):
        raise Fault(CUT_OPERAND)
    return end


def opcode_at(data, place):
    """(opcode, the place behind its operand), or 305, 301, 302"""
    if place >= len(data):
        raise Fault(BAD_END)
    opcode = data[place]
    if opcode not in OPCODES:
        raise Fault(UNKNOWN_OPCODE)
    return opcode, operand_end(opcode, data, place + 1)


def read_opcode(data):
    """(number, opcode, the place behind its operand)"""
    try:
        return SUCCESS, *opcode_at(data, 0)
    except Fault as fault:
        return fault.args[0], 0, 0


def write_opcode(opcode, operand, room):
    """(number, bytes stored); the room is a bytearray"""
    if opcode not in OPCODES:
        return UNKNOWN_OPCODE, 0
    try:
        size = operand_end(opcode, operand, 0)
    except Fault as fault:
        return fault.args[0], 0
    if len(room) < 1 + size:
        return SMALL_ROOM, 0
    room[0], room[1:1 + size] = opcode, operand[:size]
    return SUCCESS, 1 + size


def until_end(data):
    """(opcode, operand) one after the other up to the end, which comes too; a fault of reading at its turn"""
    place, opcode = 0, None
    while opcode != END:
        opcode, end = opcode_at(data, place)
        yield opcode, bytes(data[place + 1:end])
        place = end


def step(kinds, opcode):
    """Carries an opcode out on the kinds of the stack, or 303, 304."""
    takes, leaves = EFFECTS[opcode]
    left = len(kinds) - len(takes)
    if left < 0 or left + len(leaves) > STACK_LIMIT:
        raise Fault(BAD_STACK)
    if kinds[left:] != takes:
        raise Fault(WRONG_KIND)
    kinds[left:] = leaves


def validate(data):
    """The test's number."""
    kinds = []
    try:
        for opcode, _ in until_end(data):
            if opcode != END:
                step(kinds, opcode)
    except Fault as fault:
        return fault.args[0]
    return SUCCESS if kinds == [TRUTH] else BAD_END


def installed_version(installed, guid):
    for known, version in installed:
        if known == guid:
            return version
    raise Fault(NOT_INSTALLED)


def value(data, installed):
    """What a lawful expression comes to, or 14."""
    stack = []
    for opcode, operand in until_end(data):
        if opcode == PUSH_GUID:
            stack.append(installed_version(installed, operand))
        elif opcode == PUSH_VERSION:
            stack.append(int.from_bytes(operand, "little"))
        elif opcode in (TRUE, FALSE):
            stack.append(opcode == TRUE)
        elif opcode == NOT:
            stack.append(not stack.pop())
        elif opcode in OF_TWO:
            stack.append(OF_TWO[opcode](stack.pop(), stack.pop()))
    return stack.pop()


def evaluate(data, rows, used):
    """(number, truth); the rows are sixteen (GUID, version)"""
    if used > ROWS:
        return BAD_USED, 0
    number = validate(data)
    if number:
        return number, 0
    try:
        return SUCCESS, int(value(data, rows[:used]))
    except Fault as fault:
        return fault.args[0], 0
