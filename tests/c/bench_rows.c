/* The rows of the benchmark: the volumes, erase lists, section streams and dependency expressions that each one works on. */
#include "bench.h"
#include "fv.h"
#include "plain.h"

#include <string.h>

enum { KIB = 1024, MIB = 1024 * 1024, BLOCK = 64 * KIB, LARGEST = 16 * MIB };

/* Volume or stream, and what is read, written, listed or appended: half a page apart, so that no load has the page offset of a store just before it. */
static _Alignas(4096) uint8_t bytes[LARGEST], data_pages[LARGEST + 4096];
static uint8_t *const data = data_pages + 2048;

static void put(uint8_t *to, uint64_t number, size_t width)
{
    memcpy(to, &number, width);         /* a little-endian machine */
}

/* Bytes that are neither all alike nor zero, and others for another period, at most 251. */
static void pattern(uint8_t *to, size_t count, unsigned period)
{
    for (size_t i = 0; i < count; i++)
        to[i] = (uint8_t)(i % period + 252 - period);
}

/* ---- Volumes ---- */

/* Attributes: reads and writes enabled (in the last, reads alone) and memory mapped; erased bytes are FF, or 00. */
enum { NO_STICKY = 0x0C3F, STICKY_AND = 0x0E3F, STICKY_OR = 0x063F, NO_WRITES = 0x0C1F };

/* A volume of so many map entries, each of `count` blocks of that length. */
static void make_volume(struct work *w, int attributes, int edition, int entries, int count, int length)
{
    size_t header = 64 + 8 * (size_t)entries;
    uint16_t sum = 0, word;
    memset(bytes, 0, header);
    pattern(bytes + 16, 16, 251);
    put(bytes + 32, (uint64_t)entries * (uint64_t)count * (uint64_t)length, 8);
    memcpy(bytes + 40, "_FVH", 4);
    put(bytes + 44, (uint64_t)attributes, 4);
    put(bytes + 48, header, 2);
    bytes[55] = (uint8_t)edition;
    put(bytes + 52, edition == 2 ? header : 0, 2);
    for (int i = 0; i < entries; i++) {
        put(bytes + 56 + 8 * i, (uint64_t)count, 4);
        put(bytes + 60 + 8 * i, (uint64_t)length, 4);
    }
    for (size_t i = 0; i < header; i += 2) {
        memcpy(&word, bytes + i, 2);
        sum = (uint16_t)(sum + word);
    }
    put(bytes + 50, (uint16_t)-sum, 2);
    w->bytes = bytes;
    w->bytes_len = (size_t)entries * (size_t)count * (size_t)length;
}

/* Such a volume, of edition 1, with its state. */
static void open_new(struct work *w, int attributes, int entries, int count, int length)
{
    make_volume(w, attributes, 1, entries, count, length);
    plain_open(w->state, sizeof w->state, w->bytes, w->bytes_len, 0);
}

static void prepare_open(struct work *w, int entries, int unused)
{
    (void)unused;
    make_volume(w, NO_STICKY, 1, entries, 1, BLOCK);
    w->call = OPEN;
}

/* The last of so many entries, of 16 bytes each, of an extended header. */
static void prepare_ext_entry(struct work *w, int entries, int unused)
{
    uint8_t *ext = bytes + 72;
    (void)unused;
    make_volume(w, NO_STICKY, 2, 1, 1, BLOCK);
    put(ext + 16, 20 + 16 * (uint64_t)entries, 4);
    for (int i = 0; i < entries; i++)
        put(ext + 20 + 16 * i, 16, 4);
    w->call = EXT_ENTRY;
    w->number = (uint64_t)entries - 1;
}

/* So many bytes from the start of a block, which is the last of 32 entries or one of the only entry. */
static void prepare_move(struct work *w, int attributes, int entries, int count)
{
    open_new(w, attributes, entries, entries == 1 ? 16 : 1, BLOCK);
    w->block = entries == 1 ? 5 : (uint64_t)entries - 1;
    w->place = w->block * BLOCK;
    w->data = data;
    w->data_len = (size_t)count;
    pattern(data, w->data_len, 251);
    pattern(bytes + w->place, BLOCK, 241);
}

static void prepare_read(struct work *w, int entries, int count)
{
    prepare_move(w, NO_STICKY, entries, count);
    w->call = READ;
}

static void prepare_write(struct work *w, int entries, int count)
{
    prepare_move(w, NO_STICKY, entries, count);
    w->call = WRITE;
}

static void prepare_sticky_and(struct work *w, int entries, int count)
{
    prepare_move(w, STICKY_AND, entries, count);
    w->call = WRITE;
}

static void prepare_sticky_or(struct work *w, int entries, int count)
{
    prepare_move(w, STICKY_OR, entries, count);
    w->call = WRITE;
}

/* 64 orders of so many bytes each into one block, from its end to its start; each with a stretch of its own of the data. */
static void prepare_write_list(struct work *w, int entries, int length)
{
    prepare_move(w, NO_STICKY, entries, ORDERS * length);
    for (int i = 0; i < ORDERS; i++) {
        uint64_t order[] = {w->block, BLOCK / ORDERS * (uint64_t)(ORDERS - 1 - i), (uint64_t)(i * length), (uint64_t)length};
        memcpy(w->orders + ORDER_BYTES * i, order, sizeof order);
    }
    w->call = WRITE_LIST;
}

static void prepare_single_writes(struct work *w, int entries, int length)
{
    prepare_write_list(w, entries, length);
    w->call = SINGLE_WRITES;
}

/* A list of so many pairs, each of `count` blocks, the first blocks `step` apart from 0 to the volume's end and over again; then the terminator. */
static void prepare_list(struct work *w, int pairs, int step, int count, int blocks)
{
    w->call = ERASE;
    w->data = data;
    w->data_len = 16 * (size_t)pairs + 8;
    for (int i = 0; i < pairs; i++) {
        put(data + 16 * i, (uint64_t)i * (uint64_t)step % (uint64_t)blocks, 8);
        put(data + 16 * i + 8, (uint64_t)count, 8);
    }
    put(data + 16 * pairs, UINT64_MAX, 8);
}

enum { ALL_BLOCKS = 65536, ERASED_BLOCK = 256, CACHED_BLOCKS = 1024, CACHED_BLOCK = 64 };

/* Pairs spread evenly over 65,536 blocks of 256 bytes. */
static void prepare_erase(struct work *w, int pairs, int count)
{
    memset(bytes, 0, LARGEST);
    open_new(w, NO_STICKY, 1, ALL_BLOCKS, ERASED_BLOCK);
    w->place = ERASED_BLOCK;
    prepare_list(w, pairs, ALL_BLOCKS / pairs, count, ALL_BLOCKS);
}

/* Pairs of one block of 64 bytes on a volume of 64 KiB, which stays in the cache with the list. */
static void prepare_cached_erase(struct work *w, int entries, int pairs)
{
    memset(bytes, 0, CACHED_BLOCKS * CACHED_BLOCK);
    open_new(w, NO_STICKY, entries, CACHED_BLOCKS / entries, CACHED_BLOCK);
    w->place = CACHED_BLOCK;
    prepare_list(w, pairs, 1, 1, CACHED_BLOCKS);
}

/* The pairs of a list, in an order that is always the same and has no pattern. */
static void shuffle(uint8_t *list, uint32_t pairs)
{
    uint8_t pair[16];
    uint64_t random = 1;
    for (uint32_t left = pairs; left > 1; left--) {
        random = random * 6364136223846793005u + 1442695040888963407u;
        uint8_t *last = list + 16 * (left - 1), *other = list + 16 * ((random >> 33) % left);
        memcpy(pair, last, 16);
        memcpy(last, other, 16);
        memcpy(other, pair, 16);
    }
}

static void prepare_shuffled_erase(struct work *w, int pairs, int count)
{
    prepare_erase(w, pairs, count);
    shuffle(data, (uint32_t)pairs);
}

/* Pairs of 20 blocks, each over the last 7 of the one before. */
static void prepare_overlapping_erase(struct work *w, int pairs, int unused)
{
    (void)unused;
    prepare_erase(w, pairs, 20);
    prepare_list(w, pairs, 13, 20, ALL_BLOCKS);
}

static void prepare_accept(struct work *w, int pairs, int count)
{
    prepare_erase(w, pairs, count);
    w->call = ACCEPT_ERASE;
}

/* From the middle of a job of pairs of one block. */
static void prepare_carry(struct work *w, int pairs, int stores)
{
    prepare_erase(w, pairs, 1);
    w->call = CARRY_ERASE;
    w->job = (uint64_t)pairs * ERASED_BLOCK / 2;
    w->stores = (uint64_t)stores;
    w->expected = 4;
}

/* So many pairs [i, 65536 - i), carried on to the end. */
static void prepare_nested_carry(struct work *w, int pairs, int inner_first)
{
    prepare_erase(w, pairs, 1);
    for (int i = 0; i < pairs; i++) {
        int outside = inner_first ? pairs - 1 - i : i;
        put(data + 16 * i, (uint64_t)outside, 8);
        put(data + 16 * i + 8, ALL_BLOCKS - 2 * (uint64_t)outside, 8);
    }
    w->call = CARRY_ERASE;
    w->stores = UINT64_MAX;
}

/* A lawful list on a volume whose writes are disabled. */
static void prepare_refused_erase(struct work *w, int pairs, int unused)
{
    (void)unused;
    open_new(w, NO_WRITES, 1, ALL_BLOCKS, ERASED_BLOCK);
    prepare_list(w, pairs, 1, 1, ALL_BLOCKS);
    w->expected = 15;
}

/* Good pairs and no terminator. */
static void prepare_endless_list(struct work *w, int pairs, int unused)
{
    (void)unused;
    open_new(w, NO_STICKY, 1, ALL_BLOCKS, ERASED_BLOCK);
    prepare_list(w, pairs, 1, 1, ALL_BLOCKS);
    w->data_len -= 8;
    w->expected = 2;
}

/* ---- Sections ---- */

enum { COMPRESSION = 0x01, GUID_DEFINED = 0x02, PE32 = 0x10, RAW = 0x19 };

/* Where the section wanted stands: the only one of its type, or none. */
enum { AT_FIRST, AT_LAST, NOT_THERE };

static void put_header(uint8_t *at, size_t size, uint8_t type)
{
    put(at, size | (uint64_t)type << 24, 4);
}

static void prepare_search(struct work *w, size_t stream_len, uint8_t *first_type, uint8_t *last_type, int where, int first_only)
{
    if (where != NOT_THERE)
        *(where == AT_FIRST ? first_type : last_type) = PE32;
    w->call = first_only ? SEARCH_FIRST : SEARCH;
    w->bytes = bytes;
    w->bytes_len = stream_len;
    w->type = PE32;
    w->expected = where == NOT_THERE ? 14 : 0;
}

/* 16 MiB of sections of this size, a multiple of 4. */
static void prepare_sections(struct work *w, size_t size, int where, int first_only)
{
    for (size_t at = 0; at < LARGEST; at += size)
        put_header(bytes + at, size, RAW);
    prepare_search(w, LARGEST, bytes + 3, bytes + LARGEST - size + 3, where, first_only);
}

static void prepare_small(struct work *w, int where, int first_only)
{
    prepare_sections(w, 4, where, first_only);
}

static void prepare_large(struct work *w, int where, int first_only)
{
    prepare_sections(w, BLOCK, where, first_only);
}

/* Seven holders inside each other, compression and GUID-defined by turns, and an empty leaf on the eighth level. */
enum { NEST = 4 * 9 + 3 * 24 + 4 };

static void make_nest(uint8_t *at)
{
    size_t size = NEST;
    memset(at, 0, size);
    for (int level = 1; level <= 7; level++) {
        size_t header = level % 2 ? 9 : 24;
        put_header(at, size, level % 2 ? COMPRESSION : GUID_DEFINED);
        if (level % 2)
            put(at + 4, size - header, 4);
        else
            put(at + 20, header, 2);
        at += header;
        size -= header;
    }
    put_header(at, size, RAW);
}

/* 16 MiB of such holders; the section wanted is a leaf of the eighth level. */
static void prepare_nested(struct work *w, int where, int first_only)
{
    size_t nests = LARGEST / NEST;
    for (size_t i = 0; i < nests; i++)
        make_nest(bytes + i * NEST);
    prepare_search(w, nests * NEST, bytes + NEST - 1, bytes + nests * NEST - 1, where, first_only);
}

/* After 5 bytes, so that padding is stored. */
static void prepare_append(struct work *w, int count, int unused)
{
    (void)unused;
    memset(bytes, 0xFF, LARGEST);
    put_header(bytes, 5, RAW);
    w->call = APPEND;
    w->bytes = bytes;
    w->bytes_len = LARGEST;
    w->used = 5;
    w->type = RAW;
    w->data = data;
    w->data_len = (size_t)count;
    w->place = 12;
    pattern(data, w->data_len, 251);
}

/* ---- Dependency expressions ---- */

enum { VALIDATE, EVALUATE, ROWS = 16 };

/* Every row used; row i has the version i. */
static void prepare_installed(struct work *w)
{
    pattern(w->guids, sizeof w->guids, 251);
    for (int i = 0; i < ROWS; i++)
        put(w->versions + 4 * i, (uint64_t)i, 4);
    w->used = ROWS;
}

/* These put an opcode with its operand, and answer the place behind it. */
static uint8_t *put_opcode(uint8_t *to, uint8_t opcode)
{
    *to = opcode;
    return to + 1;
}

static uint8_t *put_guid(uint8_t *to, const struct work *w, int row)
{
    memcpy(put_opcode(to, FV_DEP_PUSH_GUID), w->guids + 16 * row, 16);
    return to + 17;
}

static uint8_t *put_version(uint8_t *to, uint32_t version)
{
    put(put_opcode(to, FV_DEP_PUSH_VERSION), version, 4);
    return to + 5;
}

/* A text of so many bytes, its zero among them. */
static uint8_t *put_text(uint8_t *to, size_t length)
{
    memset(put_opcode(to, FV_DEP_VERSION_STR), 'x', length - 1);
    to[length] = 0;
    return to + 1 + length;
}

/* The end, at this place of the bytes. */
static void prepare_expression(struct work *w, int evaluate, uint8_t *end)
{
    w->call = evaluate ? EVALUATE_DEPENDENCY : VALIDATE_DEPENDENCY;
    w->bytes = bytes;
    w->bytes_len = (size_t)(put_opcode(end, FV_DEP_END) - bytes);
}

/* Whether the firmware of row 3 is at least version 2 and that of row 7 below 9. */
static void prepare_short_expression(struct work *w, int evaluate, int unused)
{
    uint8_t *to = bytes;
    (void)unused;
    prepare_installed(w);
    to = put_opcode(put_guid(put_version(to, 2), w, 3), FV_DEP_GTE);
    to = put_opcode(put_guid(put_version(to, 9), w, 7), FV_DEP_LT);
    prepare_expression(w, evaluate, put_opcode(to, FV_DEP_AND));
}

/* TRUE, and 1 MiB of TRUE AND. */
static void prepare_truths(struct work *w, int evaluate, int unused)
{
    uint8_t *to = put_opcode(bytes, FV_DEP_TRUE);
    (void)unused;
    prepare_installed(w);
    while (to - bytes < MIB)
        to = put_opcode(put_opcode(to, FV_DEP_TRUE), FV_DEP_AND);
    prepare_expression(w, evaluate, to);
}

/* TRUE, and 1 MiB of: whether the firmware of a row is at least version 0, AND. */
static void prepare_guids(struct work *w, int evaluate, int row)
{
    uint8_t *to = put_opcode(bytes, FV_DEP_TRUE);
    prepare_installed(w);
    while (to - bytes < MIB)
        to = put_opcode(put_opcode(put_guid(put_version(to, 0), w, row), FV_DEP_GTE), FV_DEP_AND);
    prepare_expression(w, evaluate, to);
}

/* TRUE, and texts of this length up to 1 MiB; or one of 64 KiB. */
static void prepare_texts(struct work *w, int evaluate, int length)
{
    uint8_t *to = put_opcode(bytes, FV_DEP_TRUE);
    prepare_installed(w);
    do
        to = put_text(to, (size_t)length);
    while (length < 64 * KIB && to - bytes < MIB);
    prepare_expression(w, evaluate, to);
}

/* The first opcode of the bytes: a GUID, or a text of so many bytes. */
static size_t one_opcode(struct work *w, int text)
{
    prepare_installed(w);
    uint8_t *end = text ? put_text(bytes, (size_t)text) : put_guid(bytes, w, 3);
    return (size_t)(end - bytes);
}

static void prepare_read_opcode(struct work *w, int text, int unused)
{
    (void)unused;
    w->bytes_len = one_opcode(w, text);
    w->call = READ_OPCODE;
    w->bytes = bytes;
}

static void prepare_write_opcode(struct work *w, int text, int unused)
{
    (void)unused;
    w->bytes_len = one_opcode(w, text);
    w->call = WRITE_OPCODE;
    w->type = bytes[0];
    w->data = data;
    w->data_len = w->bytes_len - 1;
    w->bytes = bytes;
    memcpy(data, bytes + 1, w->data_len);
    memset(bytes, 0xFF, w->bytes_len);
}

const struct row rows[] = {
    {"open, 1 map entry", "", prepare_open, 1, 0},
    {"open, 32 map entries", "", prepare_open, 32, 0},
    {"last of 1024 entries of an extended header", "", prepare_ext_entry, 1024, 0},
    {"read 1 byte, 1 map entry", "memcpy", prepare_read, 1, 1},
    {"read 1 byte, 32 map entries", "memcpy", prepare_read, 32, 1},
    {"read 4 KiB, 1 map entry", "memcpy", prepare_read, 1, 4 * KIB},
    {"read 4 KiB, 32 map entries", "memcpy", prepare_read, 32, 4 * KIB},
    {"read 64 KiB, 1 map entry", "memcpy", prepare_read, 1, 64 * KIB},
    {"write 1 byte, 1 map entry", "memcpy", prepare_write, 1, 1},
    {"write 1 byte, 32 map entries", "memcpy", prepare_write, 32, 1},
    {"write 4 KiB, 1 map entry", "memcpy", prepare_write, 1, 4 * KIB},
    {"write 4 KiB, 32 map entries", "memcpy", prepare_write, 32, 4 * KIB},
    {"write 64 KiB, 1 map entry", "memcpy", prepare_write, 1, 64 * KIB},
    {"sticky write (AND) 1 byte, 1 map entry", "", prepare_sticky_and, 1, 1},
    {"sticky write (AND) 1 byte, 32 map entries", "", prepare_sticky_and, 32, 1},
    {"sticky write (AND) 4 KiB, 1 map entry", "", prepare_sticky_and, 1, 4 * KIB},
    {"sticky write (AND) 4 KiB, 32 map entries", "", prepare_sticky_and, 32, 4 * KIB},
    {"sticky write (AND) 64 KiB, 1 map entry", "", prepare_sticky_and, 1, 64 * KIB},
    {"sticky write (OR) 1 byte, 1 map entry", "", prepare_sticky_or, 1, 1},
    {"sticky write (OR) 4 KiB, 1 map entry", "", prepare_sticky_or, 1, 4 * KIB},
    {"sticky write (OR) 64 KiB, 1 map entry", "", prepare_sticky_or, 1, 64 * KIB},
    {"write_list, 64 orders of 1 byte, 1 map entry", "memcpy", prepare_write_list, 1, 1},
    {"the same by 64 calls of write, 1 byte, 1 map entry", "memcpy", prepare_single_writes, 1, 1},
    {"write_list, 64 orders of 1 byte, 32 map entries", "memcpy", prepare_write_list, 32, 1},
    {"the same by 64 calls of write, 1 byte, 32 map entries", "memcpy", prepare_single_writes, 32, 1},
    {"write_list, 64 orders of 64 bytes, 1 map entry", "memcpy", prepare_write_list, 1, 64},
    {"the same by 64 calls of write, 64 bytes, 1 map entry", "memcpy", prepare_single_writes, 1, 64},
    {"write_list, 64 orders of 64 bytes, 32 map entries", "memcpy", prepare_write_list, 32, 64},
    {"the same by 64 calls of write, 64 bytes, 32 map entries", "memcpy", prepare_single_writes, 32, 64},
    {"erase 16 MiB in 65,536 blocks, 1 pair", "memset", prepare_erase, 1, 65536},
    {"erase 1 pair of 1 block of 256 bytes", "memset", prepare_erase, 1, 1},
    {"erase 10,000 pairs of 1 block of 256 bytes", "memset", prepare_erase, 10000, 1},
    {"erase 10,000 shuffled pairs of 1 block of 256 bytes", "memset", prepare_shuffled_erase, 10000, 1},
    {"erase 5,000 pairs of 20 blocks, each over 7 of the one before", "memset", prepare_overlapping_erase, 5000, 0},
    {"erase 1,000 pairs of 1 block of 64 bytes in cache, 1 map entry", "memset", prepare_cached_erase, 1, 1000},
    {"erase 1,000 pairs of 1 block of 64 bytes in cache, 32 map entries", "memset", prepare_cached_erase, 32, 1000},
    {"erase, writes disabled: 500,000 pairs, 15", "", prepare_refused_erase, 500000, 0},
    {"erase, no terminator: 500,000 pairs, 2", "", prepare_endless_list, 500000, 0},
    {"accept_erase 10,000 pairs", "", prepare_accept, 10000, 1},
    {"carry_erase by 1 in the middle of 10,000 pairs of 256 bytes", "", prepare_carry, 10000, 1},
    {"carry_erase by 4,096 in the middle of 10,000 pairs of 256 bytes", "", prepare_carry, 10000, 4096},
    {"carry_erase to the end, 10,000 pairs [i, 65536 - i)", "", prepare_nested_carry, 10000, 0},
    {"carry_erase to the end, 10,000 pairs [i, 65536 - i), the inner first", "", prepare_nested_carry, 10000, 1},
    {"search 16 MiB of 4-byte sections, first", "", prepare_small, AT_FIRST, 0},
    {"search 16 MiB of 4-byte sections, last", "", prepare_small, AT_LAST, 0},
    {"search 16 MiB of 4-byte sections, not there", "", prepare_small, NOT_THERE, 0},
    {"search 16 MiB of 64 KiB sections, first", "", prepare_large, AT_FIRST, 0},
    {"search 16 MiB of 64 KiB sections, last", "", prepare_large, AT_LAST, 0},
    {"search 16 MiB of 64 KiB sections, not there", "", prepare_large, NOT_THERE, 0},
    {"search 16 MiB nested eight deep, first", "", prepare_nested, AT_FIRST, 0},
    {"search 16 MiB nested eight deep, last", "", prepare_nested, AT_LAST, 0},
    {"search 16 MiB nested eight deep, not there", "", prepare_nested, NOT_THERE, 0},
    {"search_first 16 MiB of 4-byte sections, first", "", prepare_small, AT_FIRST, 1},
    {"search_first 16 MiB of 4-byte sections, last", "", prepare_small, AT_LAST, 1},
    {"search_first 16 MiB nested eight deep, first", "", prepare_nested, AT_FIRST, 1},
    {"search_first 16 MiB nested eight deep, last", "", prepare_nested, AT_LAST, 1},
    {"append 4 KiB", "memcpy", prepare_append, 4 * KIB, 0},
    {"append 16 MB", "memcpy", prepare_append, 16000000, 0},
    {"read_opcode, a GUID", "", prepare_read_opcode, 0, 0},
    {"read_opcode, a text of 20 bytes", "", prepare_read_opcode, 20, 0},
    {"write_opcode, a GUID", "", prepare_write_opcode, 0, 0},
    {"write_opcode, a text of 20 bytes", "", prepare_write_opcode, 20, 0},
    {"validate_dependency, two GUIDs compared, AND", "", prepare_short_expression, VALIDATE, 0},
    {"evaluate_dependency, two GUIDs compared, AND", "", prepare_short_expression, EVALUATE, 0},
    {"validate_dependency, 1 MiB of TRUE AND", "", prepare_truths, VALIDATE, 0},
    {"evaluate_dependency, 1 MiB of TRUE AND", "", prepare_truths, EVALUATE, 0},
    {"validate_dependency, 1 MiB of GUIDs compared, AND", "", prepare_guids, VALIDATE, 0},
    {"evaluate_dependency, 1 MiB of GUIDs compared, AND, row 0", "", prepare_guids, EVALUATE, 0},
    {"evaluate_dependency, 1 MiB of GUIDs compared, AND, row 15", "", prepare_guids, EVALUATE, 15},
    {"validate_dependency, 1 MiB of texts of 20 bytes", "", prepare_texts, VALIDATE, 20},
    {"evaluate_dependency, 1 MiB of texts of 20 bytes", "", prepare_texts, EVALUATE, 20},
    {"validate_dependency, a text of 64 KiB", "", prepare_texts, VALIDATE, 64 * KIB},
    {"evaluate_dependency, a text of 64 KiB", "", prepare_texts, EVALUATE, 64 * KIB},
};

const size_t rows_len = sizeof rows / sizeof rows[0];
