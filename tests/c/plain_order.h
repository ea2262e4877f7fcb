/* The order in which an erase list first names its blocks, for plain.c. */
#ifndef PLAIN_ORDER_H
#define PLAIN_ORDER_H

#include "plain_state.h"

enum { WORD_BITS = 64 };

/* Blocks that the list has named, a bit each. */
struct named {
    uint64_t bits[MAX_BLOCKS / WORD_BITS];
};

static bool is_named(const struct named *n, uint64_t block)
{
    return n->bits[block / WORD_BITS] >> block % WORD_BITS & 1;
}

/* The first block from this one on that is named, or that is not; `end` where there is none before it. Goes over whole words of others. */
static uint64_t next_block(const struct named *n, uint64_t block, uint64_t end, bool wanted)
{
    uint64_t others = wanted ? 0 : UINT64_MAX;
    while (block < end) {
        if (block % WORD_BITS == 0 && n->bits[block / WORD_BITS] == others)
            block += WORD_BITS;
        else if (is_named(n, block) == wanted)
            return block;
        else
            block++;
    }
    return end;
}

static void name_blocks(struct named *n, uint64_t block, uint64_t end)
{
    for (; block < end; block++)
        n->bits[block / WORD_BITS] |= (uint64_t)1 << block % WORD_BITS;
}

/* A walk of the blocks that so many good pairs name, as they are first named, each once. */
struct order {
    const struct state *s;
    const uint8_t *list;
    size_t pairs, pair;
    uint64_t block, end;        /* of the pair before `pair`, those not yet walked */
    struct named named;
};

static void start_order(struct order *o, const struct state *s, const uint8_t *list, size_t pairs)
{
    memset(o, 0, sizeof *o);
    o->s = s;
    o->list = list;
    o->pairs = pairs;
}

/* The next stretch of bytes, whether there is one: neighbours that the same pair first names. */
static bool next_stretch(struct order *o, uint64_t *start, uint64_t *stop)
{
    while ((o->block = next_block(&o->named, o->block, o->end, false)) == o->end) {
        if (o->pair == o->pairs)
            return false;
        o->block = load64(o->list + 16 * o->pair);
        o->end = o->block + load64(o->list + 16 * o->pair + 8);
        o->pair++;
    }
    uint64_t run_end = next_block(&o->named, o->block, o->end, true);
    name_blocks(&o->named, o->block, run_end);
    find_run(o->s, o->block, run_end - o->block, start, stop);
    o->block = run_end;
    return true;
}

static uint64_t order_length(const struct state *s, const uint8_t *list, size_t pairs)
{
    struct order o;
    uint64_t start, stop, total = 0;
    start_order(&o, s, list, pairs);
    while (next_stretch(&o, &start, &stop))
        total += stop - start;
    return total;
}

/* Stores the erase value into the bytes from one place of the order up to another. */
static void erase_part(const struct state *s, const uint8_t *list, size_t pairs, uint8_t *volume, uint64_t from, uint64_t to)
{
    int value = s->n.attributes & ERASE_ONE ? 0xFF : 0;
    struct order o;
    uint64_t start, stop;
    start_order(&o, s, list, pairs);
    for (uint64_t walked = 0; walked < to && next_stretch(&o, &start, &stop); walked += stop - start) {
        uint64_t left = to - walked, skipped = from > walked ? from - walked : 0;
        uint64_t length = stop - start < left ? stop - start : left;
        if (skipped < length)
            memset(volume + start + skipped, value, length - skipped);
    }
}

#endif
