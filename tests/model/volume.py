"""Firmware volumes, as the scope document describes them, with requests a, b, d,
e, g and j of 02: opening, header writing, the calls of the block service (the
seven of the scope document, e's list of writes, g's two operations of an erase,
and j's setting of the mark) and the entries of the extended header.

Every function answers (number, values...): 0 for success, 4 for short, else
the refusal number. Lent bytes are bytearrays and are changed in place.
"""

from collections import namedtuple
from itertools import takewhile

READ_DISABLE, READ_ENABLE, READ_STATUS = 0x1, 0x2, 0x4
WRITE_DISABLE, WRITE_ENABLE, WRITE_STATUS = 0x8, 0x10, 0x20
LOCK_POSSIBLE, LOCKED = 0x40, 0x80
STICKY_WRITE, MEMORY_MAPPED, ERASE_ONE = 0x200, 0x400, 0x800
ALIGNMENT_SUPPORTED, ALIGNMENTS = 0x8000, 0xFFFF0000            # edition 1
FORBIDDEN = 0x100 | 0x1000 | 0x2000 | 0x4000                    # edition 1
READ_LOCK_POSSIBLE, READ_LOCKED = 0x1000, 0x2000                # edition 2
WRITE_LOCK_POSSIBLE, WRITE_LOCKED = 0x4000, 0x8000              # edition 2
PI_FORBIDDEN = 0x7FE00100                                       # edition 2

MAX_ENTRIES, MAX_BLOCKS, MAX_LENGTH = 32, 65536, 16777216
SIGNATURE = bytes([0x5F, 0x46, 0x56, 0x48])
END_OF_LIST = 2**64 - 1

# edition is the header's revision; first_protected is request j's mark, the
# first protected block or the number of blocks where none is; entries is the
# number of map entries that count; map holds 64 words, a count and a length for
# each entry, zero beyond the entries.
State = namedtuple("State", "guid length attributes base edition first_protected entries map")


def number(data, place, width):
    return int.from_bytes(data[place:place + width], "little")


def word_sum(header):
    return sum(number(header, i, 2) for i in range(0, len(header), 2)) % 65536


def running_sums(header):
    """Request d: one 16-bit accumulator, which wraps at each addition, after each word."""
    sums, accumulator = [], 0
    for i in range(0, len(header), 2):
        accumulator = (accumulator + number(header, i, 2)) & 0xFFFF
        sums.append(accumulator)
    return sums


def pairs_of(words):
    return [(words[i], words[i + 1]) for i in range(0, len(words) - 1, 2)]


def blocks_of(pairs):
    return sum(count for count, _ in pairs)


def has_zero_word(pairs):
    return any(count == 0 or length == 0 for count, length in pairs)


def breaks_107(pairs, length):
    return (len(pairs) < 1
            or len(pairs) > MAX_ENTRIES
            or blocks_of(pairs) > MAX_BLOCKS
            or length > MAX_LENGTH
            or sum(count * size for count, size in pairs) != length
            or 64 + 8 * len(pairs) > length)


def breaks_108(edition, attributes):
    if edition == 2:
        return attributes & PI_FORBIDDEN != 0
    if attributes & FORBIDDEN:
        return True
    return not attributes & ALIGNMENT_SUPPORTED and attributes & ALIGNMENTS != 0


def breaks_110(attributes, base):
    return attributes & MEMORY_MAPPED != 0 and base % 8 != 0


def extended_entries(data, header_length, length):
    """(first byte in the volume, size, type) of each entry of the extended header, or None where 112 is due"""
    offset = number(data, 52, 2) if data[55] == 2 else 0
    if offset == 0:
        return []
    if offset < header_length or offset + 20 > length:
        return None
    size = number(data, offset + 16, 4)
    place, end = offset + 20, offset + size
    if size < 20 or end > length:
        return None
    entries = []
    while place < end:
        entry_size = number(data, place, 2)
        if end - place < 4 or entry_size < 4 or place + entry_size > end:
            return None
        entries.append((place, entry_size, number(data, place + 2, 2)))
        place += entry_size
    return entries


def open_volume(data, base):
    """(number, state or None)"""
    if len(data) < 72:
        return 101, None
    if data[40:44] != SIGNATURE:
        return 102, None
    edition = data[55]
    if edition not in (1, 2):
        return 103, None
    header_length = number(data, 48, 2)
    if header_length % 8 or not 72 <= header_length <= 320 or header_length > len(data):
        return 104, None
    if word_sum(data[:header_length]) != 0:
        return 105, None
    words = [number(data, i, 4) for i in range(56, header_length, 4)]
    pairs = pairs_of(words)
    if has_zero_word(pairs[:-1]) or pairs[-1] != (0, 0):
        return 106, None
    length, attributes = number(data, 32, 8), number(data, 44, 4)
    if breaks_107(pairs[:-1], length):
        return 107, None
    if breaks_108(edition, attributes):
        return 108, None
    if len(data) < length:
        return 109, None
    if breaks_110(attributes, base):
        return 110, None
    if extended_entries(data, header_length, length) is None:
        return 112, None
    table = words[:-2] + [0] * (64 - len(words[:-2]))
    return 0, State(bytes(data[16:32]), length, attributes, base, edition, blocks_of(pairs[:-1]), len(pairs) - 1, table)


def header_bytes(guid, length, attributes, words, edition=1, offset=0):
    """The header with its checksum worked out; no test of the values."""
    header = bytearray(64 + 4 * len(words))
    header[16:32] = guid
    header[32:40] = length.to_bytes(8, "little")
    header[40:44] = SIGNATURE
    header[44:48] = attributes.to_bytes(4, "little")
    header[48:50] = len(header).to_bytes(2, "little")
    header[52:54] = offset.to_bytes(2, "little")
    header[55] = edition
    for i, word in enumerate(words):
        header[56 + 4 * i:60 + 4 * i] = word.to_bytes(4, "little")
    header[50:52] = ((-word_sum(header)) % 65536).to_bytes(2, "little")
    return header


def write_edition(room, guid, length, attributes, words, edition, offset):
    """(number, header length or 0)"""
    if any(word == 0 for word in words) or len(words) % 2:
        return 106, 0
    if breaks_107(pairs_of(words), length):
        return 107, 0
    if breaks_108(edition, attributes):
        return 108, 0
    size = 64 + 4 * len(words)
    if len(room) < size:
        return 5, 0
    room[:size] = header_bytes(guid, length, attributes, words, edition, offset)
    return 0, size


def write_header(room, guid, length, attributes, words):
    return write_edition(room, guid, length, attributes, words, 1, 0)


def write_pi_header(room, guid, length, attributes, offset, words):
    return write_edition(room, guid, length, attributes, words, 2, offset)


def ext_entry(data, n):
    """(number, first byte in the volume, size, type) of the extended header's entry n, counted from 0"""
    no, state = open_volume(data, 0)
    if no:
        return no, 0, 0, 0
    entries = extended_entries(data, 64 + 8 * state.entries, state.length)
    return (0, *entries[n]) if n < len(entries) else (14, 0, 0, 0)


def unlawful(state):
    """111: another edition, or the state breaks 106, 107, 108 or 110, or is not zero beyond its entries, or its mark is past the blocks."""
    pairs = pairs_of(state.map)[:state.entries]
    return (state.edition not in (1, 2)
            or state.entries > MAX_ENTRIES
            or has_zero_word(pairs)
            or breaks_107(pairs, state.length)
            or breaks_108(state.edition, state.attributes)
            or breaks_110(state.attributes, state.base)
            or any(state.map[2 * state.entries:])
            or state.first_protected > blocks_of(pairs))


def entries_of(state):
    """(first block, count, block length, first byte) of each map entry"""
    first, place = 0, 0
    for count, length in pairs_of(state.map)[:state.entries]:
        yield first, count, length, place
        first, place = first + count, place + count * length


def find_block(state, block):
    """(first byte, length) or None"""
    for first, count, length, place in entries_of(state):
        if first <= block < first + count:
            return place + (block - first) * length, length
    return None


def get_attributes(state):
    """(number, settings)"""
    return (111, 0) if unlawful(state) else (0, state.attributes)


def lock_refuses(edition, old, wanted):
    """15 of the settings: the general lock; in edition 2 also a status already locked that would change, or a lock bit lowered."""
    changed = old ^ wanted
    if old & LOCKED and changed:
        return True
    return edition == 2 and (old & READ_LOCKED != 0 and changed & (READ_STATUS | READ_LOCKED) != 0
                             or old & WRITE_LOCKED != 0 and changed & (WRITE_STATUS | WRITE_LOCKED) != 0)


# A bit that the settings may change, what raising it asks for, what clearing it asks for.
SETTINGS = {1: [(READ_STATUS, READ_ENABLE, READ_DISABLE), (WRITE_STATUS, WRITE_ENABLE, WRITE_DISABLE), (LOCKED, LOCK_POSSIBLE, 0)]}
SETTINGS[2] = SETTINGS[1] + [(READ_LOCKED, READ_LOCK_POSSIBLE, 0), (WRITE_LOCKED, WRITE_LOCK_POSSIBLE, 0)]


def set_attributes(state, wanted):
    """(number, settings, state)"""
    if unlawful(state):
        return 111, 0, state
    old = state.attributes
    changed = old ^ wanted
    if changed & ~sum(bit for bit, _, _ in SETTINGS[state.edition]):
        return 2, 0, state
    if lock_refuses(state.edition, old, wanted):
        return 15, 0, state
    for bit, raise_by, clear_by in SETTINGS[state.edition]:
        capability = raise_by if wanted & bit else clear_by
        if changed & bit and not old & capability:
            return 2, 0, state
    return 0, wanted, state._replace(attributes=wanted)


def protect_blocks(state, first):
    """(number, state): request j, the mark may be lowered and never raised"""
    if unlawful(state):
        return 111, state
    if first > state.first_protected:
        return 2, state
    return 0, state._replace(first_protected=first)


def get_physical_address(state):
    """(number, base)"""
    if unlawful(state):
        return 111, 0
    if not state.attributes & MEMORY_MAPPED:
        return 3, 0
    return 0, state.base


def get_block_size(state, block):
    """(number, block length, consecutive blocks of that length from the block on): the lengths of all blocks, one by one"""
    if unlawful(state):
        return 111, 0, 0
    lengths = [length for _, count, length, _ in entries_of(state) for _ in range(count)][block:]
    if not lengths:
        return 2, 0, 0
    return 0, lengths[0], sum(1 for _ in takewhile(lambda length: length == lengths[0], lengths))


def refused(state, volume, status):
    """111, 5 or 15, which come before any look at the arguments; else 0"""
    if unlawful(state):
        return 111
    if len(volume) < state.length:
        return 5
    return 0 if state.attributes & status else 15


def room_in_block(length, offset, size):
    return min(size, length - offset if offset <= length else 0)


def read(state, volume, block, offset, buffer):
    """(number, count)"""
    no = refused(state, volume, READ_STATUS)
    if no:
        return no, 0
    found = find_block(state, block)
    if found is None:
        return 2, 0
    count = room_in_block(found[1], offset, len(buffer))
    place = found[0] + offset
    buffer[:count] = volume[place:place + count]
    return (0 if count == len(buffer) else 4), count


def write(state, volume, block, offset, data):
    """(number, count)"""
    no = refused(state, volume, WRITE_STATUS)
    if no:
        return no, 0
    found = find_block(state, block)
    if found is None:
        return 2, 0
    if block >= state.first_protected:
        return 15, 0
    count = room_in_block(found[1], offset, len(data))
    place = found[0] + offset
    for i in range(count):
        old, new = volume[place + i], data[i]
        if state.attributes & STICKY_WRITE:
            new = old & new if state.attributes & ERASE_ONE else old | new
        volume[place + i] = new
    return (0 if count == len(data) else 4), count


# Request e. An order is (block, offset, first byte of its stretch of the data, length of the stretch).

MAX_ORDERS = 64


def write_order(state, volume, order, data):
    """(number, count): the single write of an order at its turn"""
    block, offset, first, length = order
    no = refused(state, volume, WRITE_STATUS)
    if no:
        return no, 0
    if first + length > len(data):
        return 2, 0
    return write(state, volume, block, offset, data[first:first + length])


def write_orders(state, volume, orders, data):
    """(number, writes that succeeded, count of the last write): single writes up to the first answer that is not success"""
    if len(orders) > MAX_ORDERS:
        return 2, 0, 0
    no, succeeded, count = 0, 0, 0
    for order in orders:
        no, count = write_order(state, volume, order, data)
        if no:
            break
        succeeded += 1
    return no, succeeded, count


def erase_pairs(words, blocks):
    """the pairs before the terminator, or None for a bad list"""
    pairs = []
    for i in range(0, len(words), 2):
        if words[i] == END_OF_LIST:
            return pairs
        if i + 1 == len(words):
            return None
        first, count = words[i], words[i + 1]
        if count == 0 or first + count > blocks:
            return None
        pairs.append((first, count))
    return None


def number_of_blocks(state):
    return sum(count for _, count, _, _ in entries_of(state))


def erase_stretch(state, volume, first, end):
    value = 0xFF if state.attributes & ERASE_ONE else 0
    volume[first:end] = bytes([value]) * (end - first)


def erase_blocks(state, volume, words):
    """(number,): each block that is named, in the order of the volume"""
    no = refused(state, volume, WRITE_STATUS)
    if no:
        return (no,)
    named = bytearray(number_of_blocks(state))
    pairs = erase_pairs(words, len(named))
    if pairs is None:
        return (2,)
    for first, count in pairs:
        named[first:first + count] = b"\1" * count
    if any(named[state.first_protected:]):
        return (15,)
    for block, is_named in enumerate(named):
        if is_named:
            place, length = find_block(state, block)
            erase_stretch(state, volume, place, place + length)
    return (0,)


# Request g. A job is the number of bytes of the list's order that were stored.

def first_named_runs(pairs, blocks):
    """(first block, end) of runs of blocks, in the order in which the pairs first name them; each block is in one run"""
    named = bytearray(blocks)
    for first, count in pairs:
        end = first + count
        block = named.find(0, first, end)
        while block >= 0:
            run_end = named.find(1, block, end)
            run_end = end if run_end < 0 else run_end
            named[block:run_end] = b"\1" * (run_end - block)
            yield block, run_end
            block = named.find(0, run_end, end)


def byte_order(state, pairs):
    """The order of bytes as stretches (first byte, end): blocks as the list first names them, bytes upward, each once"""
    stretches = []
    for block, run_end in first_named_runs(pairs, number_of_blocks(state)):
        last, length = find_block(state, run_end - 1)
        stretches.append((find_block(state, block)[0], last + length))
    return stretches


def order_length(order):
    return sum(end - first for first, end in order)


def erase_order(state, volume, words, job):
    """(number, order of bytes): the refusals of both operations, of which acceptance has the job 0"""
    no = refused(state, volume, WRITE_STATUS)
    if no:
        return no, []
    pairs = erase_pairs(words, number_of_blocks(state))
    if pairs is None:
        return 2, []
    order = byte_order(state, pairs)
    if job != 0 and job >= order_length(order):
        return 2, []
    if any(first + count > state.first_protected for first, count in pairs):
        return 15, []
    return 0, order


def accept_erase(state, volume, words):
    """(number, job)"""
    return erase_order(state, volume, words, 0)[0], 0


def carry_erase(state, volume, words, job, stores):
    """(number, job): 0 finished, or 4 and the job as it now stands"""
    no, order = erase_order(state, volume, words, job)
    if no:
        return no, 0
    stop = min(job + stores, order_length(order))
    before = 0      # bytes of the order before the stretch
    for first, end in order:
        start, cut = max(job - before, 0), min(stop - before, end - first)
        if start < cut:
            erase_stretch(state, volume, first + start, first + cut)
        before += end - first
    return (0, 0) if stop == before else (4, stop)


def listing(data):
    """The lister's text for this standard input."""
    no, state = open_volume(data[:65536], 0)
    if no:
        return "refused\t%d\n" % no
    text = "volume\t%d\t%d\t%d\n" % (state.length, state.attributes, state.entries)
    for first, count, length, _ in entries_of(state):
        text += "map\t%d\t%d\t%d\n" % (first, count, length)
    return text
