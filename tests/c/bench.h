/* The benchmark's parts: the rows with what they prepare, and the calls that are measured. */
#ifndef BENCH_H
#define BENCH_H

#include <stddef.h>
#include <stdint.h>

/* Who does the work of a row: the library, plain C, or memcpy or memset alone. */
enum who { LIBRARY, PLAIN, MEMORY };

enum call { OPEN, READ, WRITE, WRITE_LIST, SINGLE_WRITES, ERASE, ACCEPT_ERASE, CARRY_ERASE, SEARCH, SEARCH_FIRST, APPEND, EXT_ENTRY,
            READ_OPCODE, WRITE_OPCODE, VALIDATE_DEPENDENCY, EVALUATE_DEPENDENCY };

enum { ORDERS = 64, ORDER_BYTES = 32 };

/* What a row lends to its call. */
struct work {
    enum call call;
    uint8_t state[304], answer[16];
    uint8_t guids[256], versions[64];
    uint8_t orders[ORDERS * ORDER_BYTES];   /* of a list of writes, which are made by single calls too */
    uint8_t *bytes;             /* the volume, the section stream, the buffer that is appended to, an expression, an opcode's room */
    size_t bytes_len;
    uint8_t *data;              /* a read's buffer, a write's data, an erase list, a section's body, an operand */
    size_t data_len;
    uint64_t block, offset;
    uint64_t job, stores;       /* the job that is carried on, and by how many stores */
    uint64_t used;              /* bytes of the buffer before an append, or rows of the installed firmware */
    uint8_t type;               /* a section's, or an opcode */
    uint64_t number;            /* an instance, or the number of an extended header's entry */
    uint64_t place;             /* where memcpy reads or stores in the bytes */
    uint32_t expected;          /* the number that the call returns */
};

struct row {
    const char *name;
    const char *memory;         /* "memcpy" or "memset" where that alone moves the row's bytes, else "" */
    void (*prepare)(struct work *, int, int);
    int first, second;          /* for prepare */
};

extern const struct row rows[];
extern const size_t rows_len;

/* Carries out a row's call so many times, at least once. Answers the number that the last one returned. */
uint32_t repeat(enum who who, struct work *w, long times);

#endif
