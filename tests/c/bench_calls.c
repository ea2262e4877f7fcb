/* The calls that are measured: each row's call by the library, by plain C, or its byte moves alone. */
#include "bench.h"
#include "fv.h"
#include "plain.h"

#include <string.h>

/* Where both stand, so that neither is called in another way than the other. */
static const struct {
    __typeof__(&fv_open) open;
    __typeof__(&fv_read) read;
    __typeof__(&fv_write) write;
    __typeof__(&fv_write_list) write_list;
    __typeof__(&fv_erase) erase;
    __typeof__(&fv_accept_erase) accept_erase;
    __typeof__(&fv_carry_erase) carry_erase;
    __typeof__(&fv_search) search;
    __typeof__(&fv_search_first) search_first;
    __typeof__(&fv_append) append;
    __typeof__(&fv_ext_entry) ext_entry;
    __typeof__(&fv_read_opcode) read_opcode;
    __typeof__(&fv_write_opcode) write_opcode;
    __typeof__(&fv_validate_dependency) validate_dependency;
    __typeof__(&fv_evaluate_dependency) evaluate_dependency;
} entry_points[] = {
    [LIBRARY] = {fv_open, fv_read, fv_write, fv_write_list, fv_erase, fv_accept_erase, fv_carry_erase, fv_search, fv_search_first,
                 fv_append, fv_ext_entry, fv_read_opcode, fv_write_opcode, fv_validate_dependency, fv_evaluate_dependency},
    [PLAIN] = {plain_open, plain_read, plain_write, plain_write_list, plain_erase, plain_accept_erase, plain_carry_erase, plain_search,
               plain_search_first, plain_append, plain_ext_entry, plain_read_opcode, plain_write_opcode,
               plain_validate_dependency, plain_evaluate_dependency},
};

/* Not known to the compiler, which would replace calls of few bytes. */
static void *(*volatile copy)(void *, const void *, size_t) = memcpy;
static void *(*volatile fill)(void *, int, size_t) = memset;

/* The bytes of each pair of an erase list, over blocks of w->place bytes. */
static void fill_pairs(const struct work *w)
{
    uint64_t pair[2];
    for (size_t i = 0; i + 16 <= w->data_len; i += 16) {
        memcpy(pair, w->data + i, 16);
        fill(w->bytes + pair[0] * w->place, 0xFF, pair[1] * w->place);
    }
}

/* The numbers of an order: block, offset, first byte of its stretch, length. */
struct order {
    uint64_t block, offset, first, length;
};

static struct order order_at(const struct work *w, size_t i)
{
    struct order o;
    memcpy(&o, w->orders + ORDER_BYTES * i, sizeof o);
    return o;
}

/* The bytes of each order, into the block that starts at w->place. */
static void copy_stretches(const struct work *w)
{
    for (size_t i = 0; i < ORDERS; i++) {
        struct order o = order_at(w, i);
        copy(w->bytes + w->place + o.offset, w->data + o.first, o.length);
    }
}

static void move_bytes(const struct work *w)
{
    switch (w->call) {
    case READ:
        copy(w->data, w->bytes + w->place, w->data_len);
        break;
    case WRITE:
    case APPEND:
        copy(w->bytes + w->place, w->data, w->data_len);
        break;
    case WRITE_LIST:
    case SINGLE_WRITES:
        copy_stretches(w);
        break;
    case ERASE:
        fill_pairs(w);
        break;
    default:
        break;
    }
}

/* The bytes of the job, which are the same at each call. */
static uint8_t *same_job(struct work *w)
{
    memcpy(w->answer, &w->job, sizeof w->job);
    return w->answer;
}

/* A list's orders by single calls, up to the first that does not succeed. */
static uint32_t single_writes(enum who who, struct work *w)
{
    uint32_t n = 0;
    for (size_t i = 0; i < ORDERS && n == 0; i++) {
        struct order o = order_at(w, i);
        n = entry_points[who].write(w->state, sizeof w->state, w->bytes, w->bytes_len, o.block, o.offset,
                                    w->data + o.first, o.length, w->answer, sizeof w->answer);
    }
    return n;
}

/* n = the call, over and over. */
#define TIMES(call) do n = (call); while (--times > 0)

uint32_t repeat(enum who who, struct work *w, long times)
{
    uint32_t n = 0;
    if (who == MEMORY) {
        do
            move_bytes(w);
        while (--times > 0);
        return w->expected;
    }
    switch (w->call) {
    case OPEN:
        TIMES(entry_points[who].open(w->state, sizeof w->state, w->bytes, w->bytes_len, 0));
        break;
    case READ:
        TIMES(entry_points[who].read(w->state, sizeof w->state, w->bytes, w->bytes_len, w->block, w->offset,
                                     w->data, w->data_len, w->answer, sizeof w->answer));
        break;
    case WRITE:
        TIMES(entry_points[who].write(w->state, sizeof w->state, w->bytes, w->bytes_len, w->block, w->offset,
                                      w->data, w->data_len, w->answer, sizeof w->answer));
        break;
    case WRITE_LIST:
        TIMES(entry_points[who].write_list(w->state, sizeof w->state, w->bytes, w->bytes_len, w->orders, sizeof w->orders,
                                           w->data, w->data_len, w->answer, sizeof w->answer));
        break;
    case SINGLE_WRITES:
        TIMES(single_writes(who, w));
        break;
    case ERASE:
        TIMES(entry_points[who].erase(w->state, sizeof w->state, w->bytes, w->bytes_len, w->data, w->data_len));
        break;
    case ACCEPT_ERASE:
        TIMES(entry_points[who].accept_erase(w->state, sizeof w->state, w->bytes, w->bytes_len, w->data, w->data_len,
                                             w->answer, sizeof w->answer));
        break;
    case CARRY_ERASE:
        TIMES(entry_points[who].carry_erase(w->state, sizeof w->state, w->bytes, w->bytes_len, w->data, w->data_len,
                                            same_job(w), sizeof w->answer, w->stores));
        break;
    case SEARCH:
        TIMES(entry_points[who].search(FV_FRAMEWORK, w->bytes, w->bytes_len, w->type, w->number,
                                       w->answer, sizeof w->answer));
        break;
    case SEARCH_FIRST:
        TIMES(entry_points[who].search_first(FV_FRAMEWORK, w->bytes, w->bytes_len, w->type,
                                             w->answer, sizeof w->answer));
        break;
    case APPEND:
        TIMES(entry_points[who].append(FV_FRAMEWORK, w->bytes, w->bytes_len, w->used, w->type,
                                       w->data, w->data_len, w->answer, sizeof w->answer));
        break;
    case EXT_ENTRY:
        TIMES(entry_points[who].ext_entry(w->bytes, w->bytes_len, w->number, w->answer, sizeof w->answer));
        break;
    case READ_OPCODE:
        TIMES(entry_points[who].read_opcode(w->bytes, w->bytes_len, w->answer, sizeof w->answer));
        break;
    case WRITE_OPCODE:
        TIMES(entry_points[who].write_opcode(w->type, w->data, w->data_len, w->bytes, w->bytes_len,
                                             w->answer, sizeof w->answer));
        break;
    case VALIDATE_DEPENDENCY:
        TIMES(entry_points[who].validate_dependency(w->bytes, w->bytes_len));
        break;
    case EVALUATE_DEPENDENCY:
        TIMES(entry_points[who].evaluate_dependency(w->bytes, w->bytes_len, w->guids, sizeof w->guids,
                                                    w->versions, sizeof w->versions, w->used,
                                                    w->answer, sizeof w->answer));
        break;
    }
    return n;
}
