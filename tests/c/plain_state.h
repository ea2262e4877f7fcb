/* The state of plain.c, its rules, and the places of its blocks. */
#ifndef PLAIN_STATE_H
#define PLAIN_STATE_H

#include "plain_load.h"

#include <stdbool.h>
#include <stddef.h>

enum { MAX_ENTRIES = 32, MAX_BLOCKS = 65536, MAX_LENGTH = 16777216 };

#define READ_STATUS 0x4u
#define WRITE_STATUS 0x20u
#define STICKY_WRITE 0x200u
#define MEMORY_MAPPED 0x400u
#define ERASE_ONE 0x800u
#define ALIGNMENT_SUPPORTED 0x8000u      /* edition 1 */
#define ALIGNMENTS 0xFFFF0000u           /* edition 1 */
#define FORBIDDEN 0x7100u                /* edition 1 */
#define PI_FORBIDDEN 0x7FE00100u         /* edition 2 */
#define END_OF_LIST UINT64_MAX

enum { STATE_BYTES = 304, STATE_NUMBERS = 16, STATE_MAP = 48, MAP_ENTRY = 8 };

struct map_entry {
    uint32_t count, length;
};

/* The numbers of a state, laid out as in its packed bytes, where they stand after the GUID. */
struct numbers {
    uint64_t length, base;
    uint32_t attributes, edition, first_protected, entries;
};

_Static_assert(sizeof(struct numbers) == STATE_MAP - STATE_NUMBERS, "the numbers are packed without gaps");

/* A state: its numbers, and its map where it lies in the packed bytes. */
struct state {
    struct numbers n;
    const uint8_t *map;
};

static struct state unpack(const uint8_t *state)
{
    struct state s;
    memcpy(&s.n, state + STATE_NUMBERS, sizeof s.n);
    s.map = state + STATE_MAP;
    return s;
}

static struct map_entry map_entry(const uint8_t *map, uint32_t i)
{
    struct map_entry e;
    memcpy(&e, map + MAP_ENTRY * i, sizeof e);
    return e;
}

static uint16_t word_sum(const uint8_t *header, size_t length)
{
    uint16_t sum = 0;
    for (size_t i = 0; i < length; i += 2)
        sum += load16(header + i);
    return sum;
}

struct totals {
    uint64_t blocks, bytes;     /* bytes is the true total where blocks is within its limit */
    bool zero;                  /* a count or a length is zero */
};

static struct totals map_totals(const uint8_t *map, uint32_t entries)
{
    struct totals t = {0, 0, false};
    for (uint32_t i = 0; i < entries; i++) {
        struct map_entry e = map_entry(map, i);
        t.zero |= (e.count == 0) | (e.length == 0);
        t.blocks += e.count;
        t.bytes += (uint64_t)e.count * e.length;
    }
    return t;
}

/* 107, for 1 to 32 entries */
static bool breaks_107(const struct totals *t, uint64_t length, uint32_t entries)
{
    return t->blocks > MAX_BLOCKS || length > MAX_LENGTH || t->bytes != length || 64 + 8 * entries > length;
}

static bool breaks_108(uint32_t edition, uint32_t attributes)
{
    if (edition == 2)
        return attributes & PI_FORBIDDEN;
    return attributes & FORBIDDEN || (!(attributes & ALIGNMENT_SUPPORTED) && attributes & ALIGNMENTS);
}

static bool breaks_110(uint32_t attributes, uint64_t base)
{
    return attributes & MEMORY_MAPPED && base % 8 != 0;
}

/* 106 to 108, for 1 to 32 entries; 0 for none of them */
static uint32_t numbers_refusal(const struct numbers *n, const struct totals *t)
{
    if (t->zero)
        return 106;
    if (breaks_107(t, n->length, n->entries))
        return 107;
    if (breaks_108(n->edition, n->attributes))
        return 108;
    return 0;
}

/* The map's bytes beyond its entries. */
static const uint8_t none[MAP_ENTRY * MAX_ENTRIES];

static bool lawful(const struct state *s)
{
    const struct numbers *n = &s->n;
    if (n->edition < 1 || n->edition > 2 || n->entries < 1 || n->entries > MAX_ENTRIES)
        return false;
    struct totals t = map_totals(s->map, n->entries);
    size_t map_bytes = MAP_ENTRY * n->entries;
    return numbers_refusal(n, &t) == 0 && !breaks_110(n->attributes, n->base)
        && n->first_protected <= t.blocks
        && memcmp(s->map + map_bytes, none, sizeof none - map_bytes) == 0;
}

/* Whether there is such a block, with its first byte and length. */
static bool find_block(const struct state *s, uint64_t block, uint64_t *first, uint64_t *length)
{
    uint64_t place = 0;
    for (uint32_t i = 0; i < s->n.entries; i++) {
        struct map_entry e = map_entry(s->map, i);
        if (block < e.count) {
            *first = place + block * e.length;
            *length = e.length;
            return true;
        }
        block -= e.count;
        place += (uint64_t)e.count * e.length;
    }
    return false;
}

/* The bytes of a run of blocks, all of which are there: one walk of the map. */
static void find_run(const struct state *s, uint64_t block, uint64_t count, uint64_t *first, uint64_t *end)
{
    const uint8_t *map = s->map;
    struct map_entry e = map_entry(map, 0);
    uint64_t place = 0;
    for (; block >= e.count; e = map_entry(map += MAP_ENTRY, 0)) {
        block -= e.count;
        place += (uint64_t)e.count * e.length;
    }
    *first = place + block * e.length;
    for (block += count; block > e.count; e = map_entry(map += MAP_ENTRY, 0)) {
        block -= e.count;
        place += (uint64_t)e.count * e.length;
    }
    *end = place + block * e.length;
}

#endif
