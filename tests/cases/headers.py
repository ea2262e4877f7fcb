"""Opening, header writing, listing and the word sum. What edition 2 has of its own is in editions.py.

A line of a case: its name, the call, and
  open          number, length, attributes, edition, first protected block, entries, base, GUID, map words (zeros on a refusal)
  write header  number, header length on success, the room's change
  list          number, length of the text on success, the text with | for a line feed
  word sum      the sum after each word, and of all the bytes, in hexadecimal
README.md has the fields of a change. A name's end says which refusal the case gets.
"""

from itertools import combinations

from model.volume import header_bytes, number, word_sum
from trial import header_writing, listing, opening, word_sums

GUID = bytes(range(0x10, 0x20))
NO_GUID = bytes(16)
A_ATTRIBUTES = 0x0E3F
A_MAP = [4, 512]
MIXED_MAP = [2, 256, 3, 128, 1, 512, 2, 64]     # 8 blocks, 1,536 bytes
FULL_MAP = [word for k in range(1, 33) for word in (1, 4 * k)]     # 32 entries, 2,112 bytes
FORBIDDEN = (0x100, 0x1000, 0x2000, 0x4000)


def total(map_words):
    return sum(map_words[i] * map_words[i + 1] for i in range(0, len(map_words), 2))


def header(map_words=A_MAP, length=None, attributes=A_ATTRIBUTES, guid=NO_GUID, patches=(), summed=True, edition=1, offset=0):
    """A header with patches (place, bytes), its word sum put right unless told otherwise."""
    length = total(map_words) if length is None else length
    data = header_bytes(guid, length, attributes, map_words, edition, offset)
    for place, patch in patches:
        data[place:place + len(patch)] = patch
    if summed:
        data[50:52] = bytes(2)
        size = int.from_bytes(data[48:50], "little")
        data[50:52] = (-word_sum(data[:size]) % 65536).to_bytes(2, "little")
    return bytes(data)


def patched(place, *values, map_words=A_MAP, summed=True):
    return header(map_words, patches=[(place, bytes(values))], summed=summed)


A = header()


def length_cases():
    yield opening("sample A opens", A, 2048)
    yield opening("no byte: 101", b"", 0)
    yield opening("71 bytes: 101", A, 71)
    yield opening("72 bytes of a longer volume pass 101: 109", A, 72)
    yield opening("a volume of 72 bytes opens", header([1, 72]), 72)
    yield opening("72 blocks of one byte open", header([72, 1]), 72)
    yield opening("71 of 72 bytes: 101", header([1, 72]), 71)
    yield opening("one byte short of the volume: 109", A, 2047)
    yield opening("bytes past the volume are allowed", A, 4096)
    yield opening("a volume of 80 bytes opens", header([1, 16, 1, 64]), 80)


def field_cases():
    for place in range(40, 44):
        yield opening("signature byte %d wrong: 102" % place, patched(place, A[place] ^ 1), 2048)
    for revision in (0, 3, 255):
        yield opening("revision %d: 103" % revision, patched(55, revision), 2048)
    for size in (0, 8, 64, 65, 71, 73, 74, 76, 79, 328, 336, 65528, 65535):
        own = header(FULL_MAP, patches=[(48, size.to_bytes(2, "little"))], summed=False)
        yield opening("header length %d: 104" % size, own, 2112)
    yield opening("header length 320, 32 entries, opens", header(FULL_MAP), 2112)
    yield opening("header length 320 past 319 lent bytes: 104", header(FULL_MAP), 319)
    yield opening("header length 320 in 320 lent bytes passes 104: 109", header(FULL_MAP), 320)
    yield opening("header length 80 past 79 lent bytes: 104", header([1, 16, 1, 64]), 79)
    yield opening("header length 80 past 72 lent bytes: 104", header([1, 16, 1, 64]), 72)


def sum_cases():
    yield opening("A with checksum C1 57: 105", patched(50, 0xC1, 0x57, summed=False), 2048)
    yield opening("A with checksum BF 57: 105", patched(50, 0xBF, 0x57, summed=False), 2048)
    yield opening("A with checksum C0 58: 105", patched(50, 0xC0, 0x58, summed=False), 2048)
    for place, field in ((0, "zero vector"), (15, "zero vector"), (16, "GUID"), (31, "GUID"), (47, "attributes"),
                         (52, "reserved"), (54, "reserved"), (56, "block count"), (71, "closing pair")):
        own = patched(place, A[place] ^ 0x80, summed=False)
        yield opening("a bit of the %s, byte %d, without a new sum: 105" % (field, place), own, 2048)
    yield opening("the byte after the header is not summed", A + b"\x01", 2048)
    yield opening("reserved bytes nonzero, sum right, open", patched(52, 1, 2, 3), 2048)
    yield opening("zero vector nonzero, sum right, opens", patched(0, *range(1, 17)), 2048)
    own = header(guid=GUID, patches=[(0, bytes(range(200, 216))), (52, b"\xff\xff\xff")])
    yield opening("every ignored byte nonzero, sum right, opens", own, 2048)


def with_sum(own, off):
    """The header with its checksum off by so many, so that its words sum to that modulo 65,536."""
    checksum = (number(own, 50, 2) + off) % 65536
    return own[:50] + checksum.to_bytes(2, "little") + own[52:]


def true_sum(own):
    return sum(number(own, i, 2) for i in range(0, len(own), 2))


def wraps(own):
    """How often the accumulator wraps."""
    return true_sum(own) // 65536


# Headers of 1 and of 32 entries whose sums wrap once, twice and more often, each to exactly 0, and the bytes lent.
SUMMED = [(header([1, 72], attributes=0), 72),
          (header(guid=b"\xff\xff" + bytes(14)), 2048),
          (header(guid=b"\xff" * 16), 2048),
          (header([1, 1] * 31 + [1, 289], attributes=0), 4096),
          (header([1, 1] * 31 + [1, 289], attributes=0, guid=b"\xff\xff" + bytes(14)), 4096),
          (header(FULL_MAP, guid=b"\xff" * 16, patches=[(0, b"\xff" * 16), (52, b"\xff\xff\xff")]), 2112)]


def summed_name(own):
    often = {0: "does not wrap", 1: "wraps once", 2: "wraps twice"}.get(wraps(own), "wraps %d times" % wraps(own))
    folded = ", 0 modulo 65,535" if true_sum(own) % 65535 == 0 else ""
    return "%d bytes whose sum %s, %04X%s" % (len(own), often, true_sum(own) % 65536, folded)


def wrap_cases():
    assert [wraps(own) for own, _ in SUMMED] == [1, 2, 9, 1, 2, 18]
    for own, lent in SUMMED:
        yield opening(summed_name(own) + ", open", own, lent)
        for off in sorted({-wraps(own), -1, 1, 0x8000}):
            wrong = with_sum(own, off)
            yield opening(summed_name(wrong) + ": 105", wrong, lent)


def running_cases():
    yield word_sums("sample A's header", A)
    for own, _ in SUMMED:
        yield word_sums(summed_name(own), own)
    yield word_sums("no byte", b"")
    yield word_sums("one byte", b"\xfe")
    yield word_sums("an odd byte is the low byte of a last word", b"\x01\xff\xff")
    yield word_sums("FFFF and 1 more wrap to 0", b"\xff\xff\x01\x00\x01\x00")
    yield word_sums("FFFF over and over", b"\xff" * 40)
    yield word_sums("8000 twice wraps to 0", b"\x00\x80" * 4)
    yield word_sums("low byte first", b"\x01\x00\x00\x01\x34\x12")


def map_cases():
    yield opening("first count 0: 106", header([0, 512], 2048), 2048)
    yield opening("first length 0: 106", header([4, 0], 2048), 2048)
    yield opening("first pair 0, 0: 106", header([0, 0, 4, 512], 2048), 2048)
    yield opening("second count 0: 106", header([4, 512, 0, 512], 2048), 2048)
    yield opening("second length 0: 106", header([4, 512, 4, 0], 2048), 2048)
    yield opening("an earlier pair 0, 0 before the closing pair: 106", header([4, 512, 0, 0], 2048), 2048)
    yield opening("closing pair 1, 0: 106", patched(64, 1), 2048)
    yield opening("closing pair 0, 1: 106", patched(68, 1), 2048)
    yield opening("closing pair's highest byte set: 106", patched(71, 0x80), 2048)
    yield opening("closing pair is another entry: 106", patched(64, 4, 0, 0, 0, 0, 2), 2048)
    own = header([1, 512, 1, 512], 1024, patches=[(72, b"\x02\x00\x00\x00\x00\x02")])
    yield opening("two entries and a third in the closing pair's place: 106", own, 2048)


def total_cases():
    yield opening("length one more than the blocks: 107", header(length=2049), 4096)
    yield opening("length one less than the blocks: 107", header(length=2047), 4096)
    yield opening("length 0: 107", header(length=0), 4096)
    yield opening("length off by 2^32: 107", header(length=2048 + 2**32), 4096)
    yield opening("length 2^64 - 1: 107", header(length=2**64 - 1), 4096)
    yield opening("65,536 blocks pass 107: 109", header([65536, 1]), 4096)
    yield opening("65,537 blocks: 107", header([65537, 1]), 4096)
    yield opening("65,536 blocks over two entries pass 107: 109", header([65535, 1, 1, 9]), 4096)
    yield opening("65,537 blocks over two entries: 107", header([65535, 1, 2, 9]), 4096)
    yield opening("length 16,777,216 passes 107: 109", header([1, 16777216]), 4096)
    yield opening("length 16,777,217: 107", header([1, 16777217]), 4096)
    yield opening("product wraps in 32 bits: 107", header([65536, 65536 + 1], 65536), 4096)
    yield opening("product wraps to the length in 32 bits: 107", header([0x80000000, 2, 4, 512], 2048), 4096)
    yield opening("counts wrap in 32 bits: 107", header([0xFFFFFFFF, 1, 5, 512], 2048), 4096)
    yield opening("largest count and length: 107", header([2**32 - 1, 2**32 - 1], 1), 4096)
    yield opening("totals wrap in 64 bits: 107", header([2**32 - 1, 2**32 - 1] * 2, 2 * (2**32 - 1)**2 - 2**64), 4096)
    yield opening("header longer than a volume of 71 bytes: 107", header([1, 71]), 4096)
    yield opening("header longer than a volume of 79 bytes: 107", header([1, 15, 1, 64]), 4096)
    yield opening("header of 320 and a volume of 319: 107", header([1, 1] * 31 + [1, 288]), 4096)
    yield opening("header of 320 and a volume of 320 open", header([1, 1] * 31 + [1, 289]), 4096)


def attribute_cases():
    for bit in FORBIDDEN:
        yield opening("attribute 0x%X: 108" % bit, header(attributes=A_ATTRIBUTES | bit), 2048)
    for bit in range(16, 32):
        yield opening("alignment bit %d alone: 108" % bit, header(attributes=A_ATTRIBUTES | 1 << bit), 2048)
    yield opening("alignment supported, no alignment, opens", header(attributes=A_ATTRIBUTES | 0x8000), 2048)
    yield opening("every alignment with 0x8000 opens", header(attributes=0xFFFF8000), 2048)
    yield opening("every lawful attribute opens", header(attributes=0xFFFF8EFF), 2048)
    yield opening("no attribute opens", header(attributes=0), 2048)
    yield opening("locked without lock possible opens", header(attributes=0x80), 2048)
    yield opening("read enabled without its capabilities opens", header(attributes=0x04), 2048)


def base_cases():
    for base in (1, 4, 7, 12, 2**64 - 1, 2**64 - 4):
        yield opening("mapped, base %d: 110" % base, A, 2048, base)
    for base in (8, 16, 2**63, 2**64 - 8):
        yield opening("mapped, base %d, opens" % base, A, 2048, base)
    for base in (1, 2**64 - 1):
        yield opening("not mapped, base %d, opens" % base, header(attributes=0x0A3F), 2048, base)


def good_cases():
    yield opening("the GUID is kept", header(guid=GUID), 2048)
    yield opening("a map of four entries", header(MIXED_MAP, guid=GUID), 1536, 4096)
    yield opening("two entries of the same length stay two", header([2, 512, 2, 512]), 2048)
    yield opening("a volume that erases to zeros", header(attributes=0x063F), 2048, pattern=(0, 0))


# How to break each rule of opening by itself: the bytes, the lent length, the base.
FAULTS = {
    101: ([], {"lent": 71}),
    102: ([(40, b"\x00")], {}),
    103: ([(55, b"\x03")], {}),
    104: ([(48, b"\x48\x01")], {}),
    105: ([], {"summed": False}),
    106: ([(64, b"\x01")], {}),
    107: ([(32, b"\x01\x08")], {}),
    108: ([(45, b"\x0f")], {}),
    109: ([], {"lent": 1024}),
    110: ([], {"base": 4}),
}


def broken(*numbers, **fields):
    """A header with these faults, how many bytes of the volume are lent, and the base."""
    patches = [patch for no in numbers for patch in FAULTS[no][0]]
    ways = {way: value for no in reversed(numbers) for way, value in FAULTS[no][1].items()}
    own = bytearray(header(patches=patches, **fields))
    own[50] ^= 0 if ways.get("summed", True) else 1
    return bytes(own), ways.get("lent", 2048), ways.get("base", 0)


def fault_pairs():
    for first, second in combinations(FAULTS, 2):
        yield opening("%d and %d at once: %d" % (first, second, first), *broken(first, second))
    everything = [patch for patches, _ in FAULTS.values() for patch in patches]
    yield opening("every fault but 101 at once: 102", header(patches=everything, summed=False), 1024, 4)


def writing_cases():
    a = (NO_GUID, 2048, A_ATTRIBUTES, A_MAP)
    yield header_writing("sample A's header into 72 bytes", 72, *a)
    yield header_writing("room of 71: 5", 71, *a)
    yield header_writing("no room: 5", 0, *a)
    yield header_writing("bytes after the header stay", 512, *a)
    yield header_writing("GUID and a map of four entries", 100, GUID, 1536, 0x8FFF8E00 | 0x3F, MIXED_MAP)
    yield header_writing("32 entries into 320 bytes", 320, GUID, 2112, 0x063F, FULL_MAP)
    yield header_writing("32 entries into 319 bytes: 5", 319, GUID, 2112, 0x063F, FULL_MAP)
    yield header_writing("words that sum to 0 get checksum 0", 72, words_to(0), 2048, A_ATTRIBUTES, A_MAP)
    yield header_writing("words that sum to FFFF get checksum 1", 72, words_to(0xFFFF), 2048, A_ATTRIBUTES, A_MAP)
    yield header_writing("words that sum to 1 get checksum FFFF", 72, words_to(1), 2048, A_ATTRIBUTES, A_MAP)
    yield header_writing("32 entries, a sum that wraps often", 320, b"\xff" * 16, 2112, 0xFFFF8E3F, FULL_MAP)
    yield header_writing("the smallest volume", 72, GUID, 72, 0, [1, 72])
    for name, words in (("first word 0", [0, 512]), ("second word 0", [4, 0]), ("both 0", [0, 0]),
                        ("a word of the second pair 0", [4, 512, 0, 1]), ("one word", [4]), ("three words", [4, 512, 1]),
                        ("65 words", FULL_MAP + [1]), ("a zero past the 64th word", FULL_MAP + [1, 0])):
        yield header_writing(name + ": 106", 512, NO_GUID, 2048, A_ATTRIBUTES, words)
    for name, length, words in (("no word", 2048, []), ("no word, length 0", 0, []),
                                ("33 entries", 2113, FULL_MAP + [1, 1]), ("length one more", 2049, A_MAP),
                                ("length one less", 2047, A_MAP), ("65,537 blocks", 65537, [65537, 1]),
                                ("length 16,777,217", 16777217, [1, 16777217]), ("volume of 71", 71, [1, 71]),
                                ("counts wrap", 2048, [0xFFFFFFFF, 1, 5, 512]),
                                ("totals wrap", 2 * (2**32 - 1)**2 - 2**64, [2**32 - 1] * 4)):
        yield header_writing(name + ": 107", 512, NO_GUID, length, A_ATTRIBUTES, words)
    yield header_writing("65,536 blocks are written", 512, NO_GUID, 65536, A_ATTRIBUTES, [65536, 1])
    yield header_writing("length 16,777,216 is written", 512, NO_GUID, 16777216, A_ATTRIBUTES, [65536, 256])
    for bit in FORBIDDEN + (0x10000, 0x80000000):
        yield header_writing("attribute 0x%X: 108" % bit, 512, NO_GUID, 2048, A_ATTRIBUTES | bit, A_MAP)
    yield header_writing("alignment with 0x8000 is written", 512, NO_GUID, 2048, 0x80018000, A_MAP)
    yield header_writing("106 before 107: 106", 512, NO_GUID, 1, A_ATTRIBUTES, [0, 512])
    yield header_writing("106 before 108 and 5: 106", 0, NO_GUID, 2048, 0x100, [4, 0])
    yield header_writing("107 before 108: 107", 512, NO_GUID, 2049, 0x100, A_MAP)
    yield header_writing("107 before 5: 107", 0, NO_GUID, 2049, A_ATTRIBUTES, A_MAP)
    yield header_writing("108 before 5: 108", 71, NO_GUID, 2048, 0x100, A_MAP)


def words_to(total):
    """A GUID with which the words but the checksum sum to this modulo 65,536."""
    rest = header_bytes(NO_GUID, 2048, A_ATTRIBUTES, A_MAP)
    return ((number(rest, 50, 2) + total) % 65536).to_bytes(2, "little") + bytes(14)


def listing_cases():
    yield listing("sample A", A, 2048)
    yield listing("empty input", b"", 0)
    yield listing("a map of four entries", header(MIXED_MAP), 1536)
    yield listing("32 entries", header(FULL_MAP), 2112)
    yield listing("every lawful attribute", header(attributes=0xFFFF8EFF), 4096)
    yield listing("blocks of one byte", header([100, 1, 1, 900]), 1000)
    text = "volume\t2048\t3647\t1\nmap\t0\t4\t512\n"
    yield listing("room that is just long enough", A, 2048, len(text))
    yield listing("room one byte short: 5", A, 2048, len(text) - 1)
    yield listing("no room: 5", A, 2048, 0)
    yield listing("room of 11 for a refusal of 12 bytes: 5", A, 71, 11)
    yield listing("room of 12 for a refusal", A, 71, 12)
    for no in list(FAULTS)[:-1]:
        yield listing("fault %d" % no, *broken(no)[:2])


def cases():
    subjects = {writing_cases: "write", listing_cases: "list", running_cases: "sum"}
    for group in (length_cases, field_cases, sum_cases, wrap_cases, map_cases, total_cases, attribute_cases, base_cases,
                  good_cases, fault_pairs, writing_cases, listing_cases, running_cases):
        subject = subjects.get(group, "open")
        for case in group():
            yield subject, case
