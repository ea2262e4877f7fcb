/* The walk of a section stream, for plain.c. */
#ifndef PLAIN_WALK_H
#define PLAIN_WALK_H

#include "plain_load.h"

#include <stdbool.h>
#include <stddef.h>

enum { COMPRESSION = 0x01, GUID_DEFINED = 0x02, FREE_FORM = 0x18 };
enum { SHORT_HEADER = 4, LONG_HEADER = 8, LONG_SIZE = 0xFFFFFF, LEVELS = 8 };
enum { COMPRESSION_FIELDS = 5, GUID_FIELDS = 20, FREE_FORM_FIELDS = 16 };

enum { STOPPED = 1 };            /* no refusal's number */

struct search {
    const uint8_t *stream;
    bool pi, stops;             /* stops: at the section wanted, without a look at what follows */
    uint8_t type;
    bool found;
    uint64_t before;            /* sections of the type to pass, still */
    size_t first, end;          /* where found */
};

static uint32_t fields_of(uint8_t type)
{
    switch (type) {
    case COMPRESSION: return COMPRESSION_FIELDS;
    case GUID_DEFINED: return GUID_FIELDS;
    case FREE_FORM: return FREE_FORM_FIELDS;
    default: return 0;
    }
}

/* Where in a holder the contents to be searched start, or 0 where they are not searched, or 204 as *fault. */
static uint32_t contents_of(const uint8_t *section, uint8_t type, uint32_t header, uint32_t size, uint32_t *fault)
{
    const uint8_t *fields = section + header;
    if (type == COMPRESSION) {
        if (fields[4] != 0)
            return 0;
        if (load32(fields) != size - (header + COMPRESSION_FIELDS))
            *fault = 204;
        return header + COMPRESSION_FIELDS;
    }
    uint32_t offset = load16(fields + 16);
    if (offset < header + GUID_FIELDS || offset > size)
        *fault = 204;
    return fields[18] & 1 ? 0 : offset;
}

/* Notes a section of the type wanted; whether the walk stops there. */
static bool matches(struct search *s, size_t first, size_t end)
{
    if (s->found)
        return false;
    if (s->before > 0) {
        s->before--;
        return false;
    }
    s->found = true;
    s->first = first;
    s->end = end;
    return s->stops;
}

/* Walks the sections from start to end: 0, the fault's number, or STOPPED. */
static uint32_t walk(struct search *s, size_t start, size_t end, unsigned level)
{
    const uint8_t *stream = s->stream;
    size_t at = start;
    while (at < end) {
        size_t left = end - at;
        if (left < SHORT_HEADER)
            return 201;
        uint32_t word = load32(stream + at), size = word & LONG_SIZE, header = SHORT_HEADER, inner = 0;
        uint8_t type = (uint8_t)(word >> 24);
        if (size == LONG_SIZE && s->pi) {
            if (left < LONG_HEADER)
                return 201;
            size = load32(stream + at + 4);
            header = LONG_HEADER;
        }
        if (size < header + fields_of(type))
            return 202;
        if (size > left)
            return 203;
        if (type == COMPRESSION || type == GUID_DEFINED) {
            uint32_t fault = 0;
            inner = contents_of(stream + at, type, header, size, &fault);
            if (fault)
                return fault;
            if (inner && level == LEVELS)
                return 205;
        }
        if (type == s->type && matches(s, at + header, at + size))
            return STOPPED;
        if (inner) {
            uint32_t ended = walk(s, at + inner, at + size, level + 1);
            if (ended)
                return ended;
        }
        at += size;
        for (; (at - start) % 4 != 0 && at < end; at++)
            if (stream[at])
                return 207;
    }
    return 0;
}

#endif
