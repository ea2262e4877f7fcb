/*
 * The library's C calls beside the same in plain C, on the same bytes, in one run. tests/benchmark builds and runs it.
 *
 *     bench time MS ROUNDS     for each row, at least so many milliseconds and rounds: the row's number, the median
 *                              time of a call in nanoseconds by the library, by plain C and by memcpy or memset alone
 *                              (0 where the row has none), parted by tabs
 *     bench count              each row's call once by the library and once by plain C, each inside the function
 *                              `counted`, for a counter of instructions
 *     bench names              the rows' names, each with "memcpy", "memset" or nothing after a tab
 */
#define _POSIX_C_SOURCE 199309L

#include "bench.h"

#include <stdio.h>
#include <stdlib.h>
#include <string.h>
#include <time.h>

#define SLICE 1e6               /* nanoseconds that a measurement takes at least */

static struct work prepared(const struct row *row)
{
    struct work w;
    memset(&w, 0, sizeof w);
    row->prepare(&w, row->first, row->second);
    return w;
}

/* The bytes of a range, as one number. */
static uint64_t mixed(uint64_t sum, const uint8_t *range, size_t count)
{
    for (size_t i = 0; i < count; i++)
        sum = (sum ^ range[i]) * 1099511628211u;
    return sum;
}

/* A row's call once: the bytes of all its ranges after it, as one number. Ends the program where it returns another number than expected. */
static uint64_t outcome(const struct row *row, enum who who)
{
    struct work w = prepared(row);
    uint32_t number = repeat(who, &w, 1);
    if (number != w.expected) {
        fprintf(stderr, "%s: %s returned %u, not %u\n", row->name, who == LIBRARY ? "the library" : "plain C", number, w.expected);
        exit(1);
    }
    uint64_t sum = mixed(mixed(1, w.state, sizeof w.state), w.answer, sizeof w.answer);
    return mixed(mixed(sum, w.bytes, w.bytes_len), w.data, w.data_len);
}

/* Processor time: what other programs take of the core does not count. */
static double now(void)
{
    struct timespec t;
    clock_gettime(CLOCK_PROCESS_CPUTIME_ID, &t);
    return (double)t.tv_sec * 1e9 + (double)t.tv_nsec;
}

static volatile uint32_t sink;

/* Nanoseconds of one call, over so many. */
static double measured(enum who who, struct work *w, long times)
{
    double start = now();
    sink = repeat(who, w, times);
    return (now() - start) / (double)times;
}

/* How many calls fill a slice. */
static long times_in_slice(enum who who, struct work *w)
{
    long times = 1;
    while (measured(who, w, times) * (double)times < SLICE)
        times *= 2;
    return times;
}

enum { MOST_ROUNDS = 2000 };

static int by_size(const void *a, const void *b)
{
    double x = *(const double *)a, y = *(const double *)b;
    return (x > y) - (x < y);
}

static double median(double *list, long count)
{
    qsort(list, (size_t)count, sizeof *list, by_size);
    return list[count / 2];
}

/* The middle time of each, which take turns, in another order each round. */
static void time_row(const struct row *row, double middle[3], double duration, long rounds)
{
    static double list[3][MOST_ROUNDS];
    struct work w = prepared(row);
    int kinds = *row->memory ? 3 : 2;
    long times[3], round = 0;
    for (int who = 0; who < kinds; who++)
        times[who] = times_in_slice((enum who)who, &w);
    for (double start = now(); round < MOST_ROUNDS && (round < rounds || now() - start < duration); round++) {
        for (int i = 0; i < kinds; i++) {
            enum who who = (enum who)((round + i) % kinds);
            list[who][round] = measured(who, &w, times[who]);
        }
    }
    for (int who = 0; who < kinds; who++)
        middle[who] = median(list[who], round);
}

static void time_rows(double duration, long rounds)
{
    for (size_t i = 0; i < rows_len; i++) {
        double middle[3] = {0, 0, 0};
        if (outcome(&rows[i], LIBRARY) != outcome(&rows[i], PLAIN)) {
            fprintf(stderr, "%s: the library and plain C leave other bytes\n", rows[i].name);
            exit(1);
        }
        time_row(&rows[i], middle, duration, rounds);
        printf("%zu\t%.2f\t%.2f\t%.2f\n", i, middle[LIBRARY], middle[PLAIN], middle[MEMORY]);
        fflush(stdout);
    }
}

__attribute__((noinline)) void counted(enum who who, struct work *w);

void counted(enum who who, struct work *w)
{
    sink = repeat(who, w, 1);
}

/* Each call is carried out once before it is counted, so that nothing is bound at its first use. */
static void count_rows(void)
{
    for (size_t i = 0; i < rows_len; i++) {
        struct work w = prepared(&rows[i]);
        for (enum who who = LIBRARY; who <= PLAIN; who++) {
            sink = repeat(who, &w, 1);
            counted(who, &w);
        }
    }
}

int main(int argc, char **argv)
{
    if (argc == 4 && strcmp(argv[1], "time") == 0) {
        time_rows(atof(argv[2]) * 1e6, atol(argv[3]));
    } else if (argc == 2 && strcmp(argv[1], "count") == 0) {
        count_rows();
    } else if (argc == 2 && strcmp(argv[1], "names") == 0) {
        for (size_t i = 0; i < rows_len; i++)
            printf("%s\t%s\n", rows[i].name, rows[i].memory);
    } else {
        fprintf(stderr, "usage: bench time MS ROUNDS | bench count | bench names\n");
        return 2;
    }
    return 0;
}
