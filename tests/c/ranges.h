/*
 * The places of the ranges that calls.c lends: rooms of ROOM bytes, a page that cannot be touched before each and one behind.
 *
 * A range has a room of its own, at whose end or start it stands. For a call in the near layout the request's ranges are brought together
 * in one room more, and afterwards back. Another room is for the orders of a list as structs.
 */
#ifndef RANGES_H
#define RANGES_H

#include <stdint.h>
#include <stdio.h>
#include <stdlib.h>
#include <string.h>
#include <sys/mman.h>

enum { PAGE = 4096, ROOM = (64 << 20) + 16 * PAGE, AROUND = 64, GAPS = 32, MARK = 0xC5 };
enum { STATE, VOLUME, ORDERS, DATA, ANSWER, PLACES, TOGETHER = PLACES, STRUCTS, ROOMS };
static const char *const PLACE_NAMES[PLACES] = {"state", "volume", "orders", "data", "answer"};

struct range {
    uint8_t *bytes;
    size_t length;
    size_t before, behind;      /* known bytes on each side of it */
    int lent, constant;         /* of this request; and lent as const */
};

static uint8_t *rooms[ROOMS];
static struct range ranges[PLACES];
static int together;            /* whether those of this request stand in one room */

static void stop(const char *why)
{
    fprintf(stderr, "calls: %s\n", why);
    exit(2);
}

/* So many bytes, whole pages, behind so many that cannot be touched, and before a page of such. */
static uint8_t *pages(size_t untouched, size_t length)
{
    uint8_t *all = mmap(NULL, untouched + length + PAGE, PROT_NONE, MAP_PRIVATE | MAP_ANONYMOUS | MAP_NORESERVE, -1, 0);
    if (all == MAP_FAILED || mprotect(all + untouched, length, PROT_READ | PROT_WRITE))
        stop("no memory for the ranges");
    return all + untouched;
}

static void make_rooms(void)
{
    for (int room = 0; room < ROOMS; room++)
        rooms[room] = pages(PAGE, ROOM);
    for (int place = 0; place < PLACES; place++)
        ranges[place].bytes = rooms[place];
}

/* Known bytes on the side of a room where nothing stands, as many as there are. */
static size_t around(size_t free)
{
    return free < AROUND ? free : AROUND;
}

static void mark_around(const struct range *r)
{
    memset(r->bytes - r->before, MARK, r->before);
    memset(r->bytes + r->length, MARK, r->behind);
}

static int marked(const uint8_t *bytes, size_t length)
{
    for (size_t i = 0; i < length; i++)
        if (bytes[i] != MARK)
            return 0;
    return 1;
}

/* Where a range of this length has its first byte in its own room, right behind the page before it or right before the page behind it. */
static uint8_t *own_start(int place, size_t length, int at_start)
{
    return at_start ? rooms[place] : rooms[place] + ROOM - length;
}

/* Lends the bytes that stand there. */
static void lend_alone(int place, size_t length, int constant, int at_start)
{
    size_t beside = around(ROOM - length);
    ranges[place] = (struct range){own_start(place, length, at_start), length, at_start ? 0 : beside, at_start ? beside : 0, 1, constant};
    mark_around(&ranges[place]);
}

static void protect(const struct range *r, int protection)
{
    uintptr_t first = (uintptr_t)r->bytes / PAGE * PAGE;
    uintptr_t end = ((uintptr_t)r->bytes + r->length + PAGE - 1) / PAGE * PAGE;
    if (end > first && mprotect((void *)first, end - first, protection))
        stop("the protection of a range cannot be changed");
}

/* What is lent as const, where it has pages of its own. */
static void protect_constant(int protection)
{
    for (int place = 0; place < PLACES; place++)
        if (ranges[place].lent && ranges[place].constant && !together)
            protect(&ranges[place], protection);
}

/* ---- The near layout ---- */

/* The ranges lent, in the order of their places or in the reverse. */
static int lent_ranges(struct range *list[PLACES], int reversed)
{
    int count = 0;
    for (int i = 0; i < PLACES; i++) {
        struct range *r = &ranges[reversed ? PLACES - 1 - i : i];
        if (r->lent)
            list[count++] = r;
    }
    return count;
}

/* Known bytes before the first range, between neighbours, and behind the last. Each gap takes on its 32 lengths in 32 requests. */
struct gaps {
    size_t length[PLACES + 1];
};

static struct gaps some_gaps(int count, unsigned request)
{
    struct gaps gaps = {{0}};
    for (unsigned k = 1; k < (unsigned)count; k++)
        gaps.length[k] = (request + 11 * k) % GAPS;
    return gaps;
}

/*
 * One after the other, with gaps between them. The first has its first byte right behind the page before the room or, in every other 32
 * requests, the last has its last byte right before the page behind it.
 */
static void bring_together(unsigned request, int reversed)
{
    struct range *list[PLACES];
    int count = lent_ranges(list, reversed), at_start = request / GAPS % 2;
    struct gaps gaps = some_gaps(count, request);
    size_t total = 0;
    for (int k = 0; k < count; k++)
        total += gaps.length[k] + list[k]->length;
    if (total > ROOM)
        stop("the ranges are too long to stand in one room");
    gaps.length[at_start ? count : 0] = around(ROOM - total);
    uint8_t *to = at_start ? rooms[TOGETHER] : rooms[TOGETHER] + ROOM - total;
    for (int k = 0; k < count; k++) {
        struct range *r = list[k];
        *r = (struct range){memcpy(to, r->bytes, r->length), r->length, gaps.length[k], gaps.length[k + 1], 1, r->constant};
        mark_around(r);
        to += r->length + r->behind;
    }
    together = 1;
}

/* Back into their own rooms, where the next request may find them. */
static void bring_back(void)
{
    for (int place = 0; place < PLACES; place++) {
        struct range *r = &ranges[place];
        if (r->lent)
            r->bytes = memcpy(rooms[place], r->bytes, r->length);
    }
    together = 0;
}

#endif
