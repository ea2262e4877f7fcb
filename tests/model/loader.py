"""The loader's calls, request m of 02 and include/fv.h: the calls of volume.py, sections.py and dependency.py on plain numbers and
byte ranges, the state packed into 304 bytes, the installed firmware into 256 bytes of GUIDs and 64 of versions.

Each function has the arguments of its C entry point in their order, a range as one value, and answers the number that is returned.
Ranges that are not const are bytearrays and are changed in place; a range that is longer than what is stored keeps the rest.
"""

from model import dependency, sections, volume
from model.volume import State

STATE_BYTES, ANSWER_BYTES, JOB_BYTES, GUIDS_BYTES, VERSIONS_BYTES, ORDER_BYTES = 304, 16, 8, 256, 64, 32
SHORT_STATE_OR_ANSWER = 5       # or job, GUIDs, versions
SUCCESS, SHORT, NOT_FINISHED = 0, 4, 4


def number(data, place, width):
    return int.from_bytes(data[place:place + width], "little")


# The packed state: (field, bytes) in their order, and then the 64 map words.
FIELDS = (("guid", 16), ("length", 8), ("base", 8), ("attributes", 4), ("edition", 4), ("first_protected", 4), ("entries", 4))
MAP = sum(width for _, width in FIELDS)     # where the map words start
MAP_WORDS = 64


def place_of(field):
    """Where in the packed state a field starts."""
    names = [name for name, _ in FIELDS]
    return sum(width for _, width in FIELDS[:names.index(field)])


def pack(state):
    """The 304 bytes of a state whose numbers fit their fields."""
    packed = state.guid
    for field, width in FIELDS[1:]:
        packed += getattr(state, field).to_bytes(width, "little")
    return packed + b"".join(word.to_bytes(4, "little") for word in state.map)


def unpack(packed):
    values = {field: number(packed, place_of(field), width) for field, width in FIELDS}
    values["guid"] = bytes(packed[:16])
    return State(map=[number(packed, MAP + 4 * i, 4) for i in range(MAP_WORDS)], **values)


def store(answer, first, second=0):
    answer[:ANSWER_BYTES] = first.to_bytes(8, "little") + second.to_bytes(8, "little")


def answered(answer, no, *values):
    """Success and short store their values; a refusal stores nothing."""
    if no in (SUCCESS, SHORT):
        store(answer, *values)
    return no


def words_of(data):
    """The words of an erase list; a part word at the end is ignored."""
    return [number(data, i, 8) for i in range(0, len(data) - 7, 8)]


def orders_of(data):
    """The orders of a list of writes; a part order at the end is ignored."""
    return [tuple(words_of(data[i:i + ORDER_BYTES])) for i in range(0, len(data) - ORDER_BYTES + 1, ORDER_BYTES)]


# The fifteen calls.

def fv_open(state, data, base):
    if len(state) < STATE_BYTES:
        return SHORT_STATE_OR_ANSWER
    no, opened = volume.open_volume(data, base)
    if no == SUCCESS:
        state[:STATE_BYTES] = pack(opened)
    return no


def fv_read(state, data, block, offset, buffer, answer):
    if len(state) < STATE_BYTES or len(answer) < ANSWER_BYTES:
        return SHORT_STATE_OR_ANSWER
    return answered(answer, *volume.read(unpack(state), data, block, offset, buffer))


def fv_write(state, data, block, offset, stored, answer):
    if len(state) < STATE_BYTES or len(answer) < ANSWER_BYTES:
        return SHORT_STATE_OR_ANSWER
    return answered(answer, *volume.write(unpack(state), data, block, offset, stored))


def fv_write_list(state, data, orders, stored, answer):
    """Beside a refusal too it stores how many writes succeeded, and the count of the last one."""
    if len(state) < STATE_BYTES or len(answer) < ANSWER_BYTES:
        return SHORT_STATE_OR_ANSWER
    no, succeeded, count = volume.write_orders(unpack(state), data, orders_of(orders), stored)
    store(answer, succeeded, count)
    return no


def fv_erase(state, data, blocks):
    if len(state) < STATE_BYTES:
        return SHORT_STATE_OR_ANSWER
    return volume.erase_blocks(unpack(state), data, words_of(blocks))[0]


def fv_accept_erase(state, data, blocks, job):
    if len(state) < STATE_BYTES or len(job) < JOB_BYTES:
        return SHORT_STATE_OR_ANSWER
    no, accepted = volume.accept_erase(unpack(state), data, words_of(blocks))
    if no == SUCCESS:
        job[:JOB_BYTES] = accepted.to_bytes(JOB_BYTES, "little")
    return no


def fv_carry_erase(state, data, blocks, job, stores):
    if len(state) < STATE_BYTES or len(job) < JOB_BYTES:
        return SHORT_STATE_OR_ANSWER
    no, stands = volume.carry_erase(unpack(state), data, words_of(blocks), number(job, 0, JOB_BYTES), stores)
    if no == NOT_FINISHED:
        job[:JOB_BYTES] = stands.to_bytes(JOB_BYTES, "little")
    return no


def fv_search(mode, stream, kind, instance, answer):
    if len(answer) < ANSWER_BYTES:
        return SHORT_STATE_OR_ANSWER
    return answered(answer, *sections.search(stream, kind, instance, mode))


def fv_search_first(mode, stream, kind, answer):
    if len(answer) < ANSWER_BYTES:
        return SHORT_STATE_OR_ANSWER
    return answered(answer, *sections.search_first(stream, kind, mode))


def fv_append(mode, buffer, used, kind, body, answer):
    if len(answer) < ANSWER_BYTES:
        return SHORT_STATE_OR_ANSWER
    return answered(answer, *sections.append(buffer, used, kind, body, mode))


def fv_ext_entry(data, n, answer):
    if len(answer) < ANSWER_BYTES:
        return SHORT_STATE_OR_ANSWER
    no, first, size, entry_type = volume.ext_entry(data, n)
    return answered(answer, no, first, size + 65536 * entry_type)


def fv_read_opcode(data, answer):
    if len(answer) < ANSWER_BYTES:
        return SHORT_STATE_OR_ANSWER
    return answered(answer, *dependency.read_opcode(data))


def fv_write_opcode(opcode, operand, room, answer):
    if len(answer) < ANSWER_BYTES:
        return SHORT_STATE_OR_ANSWER
    return answered(answer, *dependency.write_opcode(opcode, operand, room))


def fv_validate_dependency(expression):
    return dependency.validate(expression)


def fv_evaluate_dependency(expression, guids, versions, used, answer):
    if len(guids) < GUIDS_BYTES or len(versions) < VERSIONS_BYTES or len(answer) < ANSWER_BYTES:
        return SHORT_STATE_OR_ANSWER
    rows = [(bytes(guids[16 * i:16 * i + 16]), number(versions, 4 * i, 4)) for i in range(dependency.ROWS)]
    return answered(answer, *dependency.evaluate(expression, rows, used))
