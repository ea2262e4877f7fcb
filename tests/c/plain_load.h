/* Little-endian numbers at any place, on a little-endian machine. */
#ifndef PLAIN_LOAD_H
#define PLAIN_LOAD_H

#include <stdint.h>
#include <string.h>

static uint16_t load16(const uint8_t *from)
{
    uint16_t n;
    memcpy(&n, from, sizeof n);
    return n;
}

static uint32_t load32(const uint8_t *from)
{
    uint32_t n;
    memcpy(&n, from, sizeof n);
    return n;
}

static uint64_t load64(const uint8_t *from)
{
    uint64_t n;
    memcpy(&n, from, sizeof n);
    return n;
}

#endif
