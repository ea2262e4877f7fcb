/* Dependency expressions: single opcodes, the test of a whole expression, and the value of one that passed it. */
#ifndef PLAIN_DEPENDENCY_H
#define PLAIN_DEPENDENCY_H

#include <stdbool.h>

#include "plain_load.h"

enum { PUSH_GUID, PUSH_VERSION, VERSION_STR, OP_AND, OP_OR, OP_NOT, OP_TRUE, OP_FALSE, OP_EQ, OP_GT, OP_GTE, OP_LT, OP_LTE, OP_END };
enum { GUID_BYTES = 16, VERSION_BYTES = 4, ROWS = 16, DEEPEST = 32 };

/* 301 or 302; else 0 with the length of the operand, which starts there */
static uint32_t operand_length(uint8_t opcode, const uint8_t *operand, size_t left, size_t *length)
{
    const uint8_t *zero;
    switch (opcode) {
    case PUSH_GUID:
        *length = GUID_BYTES;
        break;
    case PUSH_VERSION:
        *length = VERSION_BYTES;
        break;
    case VERSION_STR:
        zero = memchr(operand, 0, left);
        *length = zero ? (size_t)(zero - operand) + 1 : left + 1;
        break;
    default:
        *length = 0;
    }
    if (opcode > OP_END)
        return 301;
    return *length > left ? 302 : 0;
}

/* The kinds of the values on the stack: bit 0 is the top's, 1 for a version. */
struct kinds {
    uint32_t versions;
    unsigned depth;
};

static uint32_t push_kind(struct kinds *k, bool version)
{
    if (k->depth == DEEPEST)
        return 303;
    k->versions = k->versions << 1 | version;
    k->depth++;
    return 0;
}

/* Takes so many values, of one kind, and puts a truth. */
static uint32_t take_kinds(struct kinds *k, unsigned count, bool version)
{
    uint32_t taken = (1u << count) - 1;
    if (k->depth < count)
        return 303;
    if ((k->versions & taken) != (version ? taken : 0))
        return 304;
    k->versions = k->versions >> count << 1;
    k->depth -= count - 1;
    return 0;
}

/* 303, 304, or 0; the end is not tested here */
static uint32_t step_kinds(struct kinds *k, uint8_t opcode)
{
    switch (opcode) {
    case PUSH_GUID:
    case PUSH_VERSION:
        return push_kind(k, true);
    case OP_TRUE:
    case OP_FALSE:
        return push_kind(k, false);
    case OP_NOT:
        return take_kinds(k, 1, false);
    case OP_AND:
    case OP_OR:
        return take_kinds(k, 2, false);
    case VERSION_STR:
        return 0;
    default:
        return take_kinds(k, 2, true);
    }
}

/* 301 to 305, or 0 */
static uint32_t expression_refusal(const uint8_t *expression, size_t length)
{
    struct kinds k = {0, 0};
    for (size_t at = 0; at < length;) {
        uint8_t opcode = expression[at++];
        size_t operand;
        uint32_t refusal = operand_length(opcode, expression + at, length - at, &operand);
        if (refusal)
            return refusal;
        if (opcode == OP_END)
            return k.depth == 1 && !(k.versions & 1) ? 0 : 305;
        refusal = step_kinds(&k, opcode);
        if (refusal)
            return refusal;
        at += operand;
    }
    return 305;
}

/* Whether the GUID stands in a used row; with the version of the first such */
static bool find_version(const uint8_t *guids, const uint8_t *versions, size_t used, const uint8_t *guid, uint32_t *version)
{
    for (size_t i = 0; i < used; i++) {
        if (memcmp(guids + GUID_BYTES * i, guid, GUID_BYTES) == 0) {
            *version = load32(versions + VERSION_BYTES * i);
            return true;
        }
    }
    return false;
}

static uint32_t of_two(uint8_t opcode, uint32_t left, uint32_t right)
{
    switch (opcode) {
    case OP_AND: return left & right;
    case OP_OR: return left | right;
    case OP_EQ: return left == right;
    case OP_GT: return left > right;
    case OP_GTE: return left >= right;
    case OP_LT: return left < right;
    default: return left <= right;
    }
}

/* 14, or 0 with the truth of an expression that passed the test */
static uint32_t expression_value(const uint8_t *expression, const uint8_t *guids, const uint8_t *versions, size_t used, uint32_t *truth)
{
    uint32_t stack[DEEPEST], *top = stack;      /* top: where the next value goes */
    for (;;) {
        uint8_t opcode = *expression++;
        switch (opcode) {
        case PUSH_GUID:
            if (!find_version(guids, versions, used, expression, top++))
                return 14;
            expression += GUID_BYTES;
            break;
        case PUSH_VERSION:
            *top++ = load32(expression);
            expression += VERSION_BYTES;
            break;
        case VERSION_STR:
            expression += strlen((const char *)expression) + 1;
            break;
        case OP_TRUE:
        case OP_FALSE:
            *top++ = opcode == OP_TRUE;
            break;
        case OP_NOT:
            top[-1] = !top[-1];
            break;
        case OP_END:
            *truth = stack[0];
            return 0;
        default:
            top--;
            top[-1] = of_two(opcode, top[0], top[-1]);
        }
    }
}

#endif
