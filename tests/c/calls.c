/*
 * Carries out a script of requests with the calls of include/fv.h and prints a line for each; tests/host makes the script and
 * knows the lines. tests/README.md has both formats.
 *
 *     calls LAYOUT TURN [stack] < script
 *
 * Where LAYOUT is `apart`, each lent range stands alone in pages of its own. Its last byte is right before a page that cannot be touched
 * or, in the requests whose number is odd (even where TURN is 1), its first byte right after one. A range lent as const cannot be written
 * during the call. Where LAYOUT is `near`, the ranges of a request stand one after the other, with gaps of 0 to 31 bytes, in the order
 * state, volume, orders, data, answer (the reverse where TURN is 1), and one end of them is beside such a page. The library is not compiled
 * with the sanitizers, which watch this program alone: an access of the library out of bounds is seen by those pages, and a store beside a
 * range by the bytes around it, which are known. With `stack` each call runs on a stack of its own, and its line starts with the bytes
 * that it took there.
 *
 * A list of whole orders is carried out again with the orders as structs, and the line says so where anything comes out otherwise.
 */
#define _GNU_SOURCE
#include <setjmp.h>
#include <signal.h>

#include "fv.h"
#include "ranges.h"
#include "stack.h"

_Static_assert(FV_STATE_BYTES == 304 && FV_ANSWER_BYTES == 16, "document 02's numbers");
_Static_assert(FV_JOB_BYTES == 8, "a job is one 64-bit number");
_Static_assert(FV_ORDER_BYTES == 32 && FV_MOST_ORDERS == 64 && sizeof(struct fv_order) == FV_ORDER_BYTES, "orders of four 64-bit numbers");
_Static_assert(FV_GUIDS_BYTES == 256 && FV_VERSIONS_BYTES == 64, "sixteen rows");
_Static_assert(FV_DEP_PUSH_GUID == 0 && FV_DEP_PUSH_VERSION == 1 && FV_DEP_VERSION_STR == 2 && FV_DEP_AND == 3 && FV_DEP_OR == 4
               && FV_DEP_NOT == 5 && FV_DEP_TRUE == 6 && FV_DEP_FALSE == 7 && FV_DEP_EQ == 8 && FV_DEP_GT == 9 && FV_DEP_GTE == 10
               && FV_DEP_LT == 11 && FV_DEP_LTE == 12 && FV_DEP_END == 13, "document 004's opcodes");
_Static_assert(FV_FRAMEWORK == 0 && FV_PI != 0, "document 02's modes");

/* ---- The script ---- */

static uint8_t *script;
static size_t script_length, script_at;

static void read_script(void)
{
    size_t room = 1 << 20, got;
    script = malloc(room);
    while (script && (got = fread(script + script_length, 1, room - script_length, stdin)) > 0) {
        script_length += got;
        if (script_length == room)
            script = realloc(script, room *= 2);
    }
    if (!script)
        stop("no memory for the script");
}

static const uint8_t *take(size_t length)
{
    if (script_length - script_at < length)
        stop("the script is cut");
    script_at += length;
    return script + script_at - length;
}

static uint64_t number_at(const uint8_t *from, int width)
{
    uint64_t value = 0;
    for (int i = width - 1; i >= 0; i--)
        value = value << 8 | from[i];
    return value;
}

static uint64_t take_number(int width)
{
    return number_at(take((size_t)width), width);
}

/* ---- A request ---- */

/* The length of a range of so many pieces, which stay in the script. */
static size_t pieces_length(uint32_t pieces)
{
    size_t from = script_at, length = 0;
    for (uint32_t i = 0; i < pieces; i++) {
        size_t times = take_number(4), each = take_number(4);
        take(each);
        length += times * each;
    }
    script_at = from;
    return length;
}

static void put_pieces(uint8_t *to, uint32_t pieces)
{
    for (uint32_t i = 0; i < pieces; i++) {
        size_t times = take_number(4), each = take_number(4);
        const uint8_t *from = take(each);
        for (; times > 0; times--, to += each)
            memcpy(to, from, each);
    }
}

/* Puts the next range of the script into its place; one that is kept has the bytes that the request before left there. */
static void take_range(int place, int constant, int at_start)
{
    struct range *r = &ranges[place];
    uint32_t pieces = (uint32_t)take_number(4);
    int kept = pieces == UINT32_MAX;
    size_t length = kept ? r->length : pieces_length(pieces);
    if (length > ROOM)
        stop("a range is too long");
    uint8_t *bytes = own_start(place, length, at_start);
    if (kept)
        memmove(bytes, r->bytes, length);
    else
        put_pieces(bytes, pieces);
    lend_alone(place, length, constant, at_start);
}

enum { OPEN, READ, WRITE, ERASE, SEARCH, SEARCH_FIRST, APPEND, EXT_ENTRY, ACCEPT_ERASE, CARRY_ERASE,
       READ_OPCODE, WRITE_OPCODE, VALIDATE_DEPENDENCY, EVALUATE_DEPENDENCY, WRITE_LIST, CALLS };

/* The arguments of each call in their order: n a number, else a range by its place, a small letter where it is lent as const. */
static const char *const SHAPES[CALLS] = {"Svn", "svnnDA", "sVnndA", "sVd", "nvnnA", "nvnA", "nVnndA", "vnA", "svdA", "sVdAn",
                                          "vA", "ndVA", "v", "vsdnA", "sVodA"};

static uint64_t numbers[4];
static unsigned call;
static uint32_t returned;

static void take_request(int at_start)
{
    int n = 0;
    call = (unsigned)take_number(1);
    if (call >= CALLS)
        stop("no such call");
    for (int place = 0; place < PLACES; place++)
        ranges[place].lent = 0;
    for (const char *shape = SHAPES[call]; *shape; shape++) {
        static const char capital[] = "SVODA", small[] = "svoda";
        if (*shape == 'n')
            numbers[n++] = take_number(8);
        else if (strchr(capital, *shape))
            take_range((int)(strchr(capital, *shape) - capital), 0, at_start);
        else
            take_range((int)(strchr(small, *shape) - small), 1, at_start);
    }
}

#define LENT(place) ranges[place].bytes, ranges[place].length

static uint32_t number_returned(void)
{
    uint64_t a = numbers[0], b = numbers[1], c = numbers[2];
    switch (call) {
    case OPEN: return noted_fv_open(LENT(STATE), LENT(VOLUME), a);
    case READ: return noted_fv_read(LENT(STATE), LENT(VOLUME), a, b, LENT(DATA), LENT(ANSWER));
    case WRITE: return noted_fv_write(LENT(STATE), LENT(VOLUME), a, b, LENT(DATA), LENT(ANSWER));
    case ERASE: return noted_fv_erase(LENT(STATE), LENT(VOLUME), LENT(DATA));
    case SEARCH: return noted_fv_search((uint32_t)a, LENT(VOLUME), (uint8_t)b, c, LENT(ANSWER));
    case SEARCH_FIRST: return noted_fv_search_first((uint32_t)a, LENT(VOLUME), (uint8_t)b, LENT(ANSWER));
    case APPEND: return noted_fv_append((uint32_t)a, LENT(VOLUME), b, (uint8_t)c, LENT(DATA), LENT(ANSWER));
    case EXT_ENTRY: return noted_fv_ext_entry(LENT(VOLUME), a, LENT(ANSWER));
    case ACCEPT_ERASE: return noted_fv_accept_erase(LENT(STATE), LENT(VOLUME), LENT(DATA), LENT(ANSWER));
    case CARRY_ERASE: return noted_fv_carry_erase(LENT(STATE), LENT(VOLUME), LENT(DATA), LENT(ANSWER), a);
    case READ_OPCODE: return noted_fv_read_opcode(LENT(VOLUME), LENT(ANSWER));
    case WRITE_OPCODE: return noted_fv_write_opcode((uint8_t)a, LENT(DATA), LENT(VOLUME), LENT(ANSWER));
    case VALIDATE_DEPENDENCY: return noted_fv_validate_dependency(LENT(VOLUME));
    case EVALUATE_DEPENDENCY: return noted_fv_evaluate_dependency(LENT(VOLUME), LENT(STATE), LENT(DATA), a, LENT(ANSWER));
    default: return noted_fv_write_list(LENT(STATE), LENT(VOLUME), LENT(ORDERS), LENT(DATA), LENT(ANSWER));
    }
}

static void carry_out(void)
{
    returned = number_returned();
}

/* ---- A call that touches what it may not, or ends in a trap: the signal, and the address ---- */

static sigjmp_buf back;
static uint8_t *volatile touched;

static void on_signal(int signal, siginfo_t *info, void *context)
{
    (void)context;
    touched = info->si_addr;
    siglongjmp(back, signal);
}

static void catch_signals(void)
{
    static const int signals[] = {SIGSEGV, SIGBUS, SIGILL, SIGFPE};
    struct sigaction action = {.sa_sigaction = on_signal, .sa_flags = SA_SIGINFO | SA_ONSTACK};
    for (size_t i = 0; i < sizeof signals / sizeof *signals; i++)
        sigaction(signals[i], &action, NULL);
}

/* Answers 0, or the signal that ended the call. */
static int call_protected(void (*work)(void), int on_its_own_stack)
{
    protect_constant(PROT_READ);
    int signal = sigsetjmp(back, 1);
    if (signal == 0 && on_its_own_stack)
        run_on_own_stack(work);
    else if (signal == 0)
        work();
    protect_constant(PROT_READ | PROT_WRITE);
    return signal;
}

/* ---- A list's orders as structs ---- */

/* A list that is too long is so by any count, also by one whose bytes are, modulo 2^64, those of no order, of one, or of 64. */
static const size_t TOO_MANY[] = {FV_MOST_ORDERS + 1, (size_t)1 << 32, ((size_t)1 << 32) + 1, SIZE_MAX / 32, SIZE_MAX / 32 + 1, SIZE_MAX / 32 + 2,
                                  SIZE_MAX / 32 + 65, SIZE_MAX / 16, SIZE_MAX / 16 + 2, (size_t)1 << 63, SIZE_MAX};

static struct range structs;
static size_t structs_count;    /* how many the call is told of; no more than one too many are there */

static int is_whole_list(void)
{
    return call == WRITE_LIST && ranges[ORDERS].length % FV_ORDER_BYTES == 0;
}

/* Puts them into their room, beside one of its ends. */
static void place_structs(int at_start)
{
    size_t most = FV_MOST_ORDERS + 1;
    structs_count = ranges[ORDERS].length / FV_ORDER_BYTES;
    structs.length = (structs_count < most ? structs_count : most) * sizeof(struct fv_order);
    structs.bytes = own_start(STRUCTS, structs.length, at_start);
    struct fv_order *to = (struct fv_order *)(void *)structs.bytes;
    for (const uint8_t *from = ranges[ORDERS].bytes; (uint8_t *)to < structs.bytes + structs.length; from += FV_ORDER_BYTES)
        *to++ = (struct fv_order){.block = number_at(from, 8), .offset = number_at(from + 8, 8), .first = number_at(from + 16, 8),
                                  .length = number_at(from + 24, 8)};
}

static void carry_out_structs(void)
{
    const struct fv_order *orders = (const struct fv_order *)(const void *)structs.bytes;
    returned = fv_write_orders(LENT(STATE), LENT(VOLUME), orders, structs_count, LENT(DATA), LENT(ANSWER));
}

/* The number returned, and the bytes that the call may store into: before it, or after it. */
struct outcome {
    uint32_t returned;
    uint8_t *volume, *answer;
};

static uint8_t *copy_of(int place)
{
    uint8_t *copy = malloc(ranges[place].length + 1);
    if (!copy)
        stop("no memory for a copy");
    return memcpy(copy, ranges[place].bytes, ranges[place].length);
}

static struct outcome outcome(void)
{
    return (struct outcome){returned, copy_of(VOLUME), copy_of(ANSWER)};
}

static void put_back(const struct outcome *o)
{
    returned = o->returned;
    memcpy(ranges[VOLUME].bytes, o->volume, ranges[VOLUME].length);
    memcpy(ranges[ANSWER].bytes, o->answer, ranges[ANSWER].length);
}

static void forget(const struct outcome *o)
{
    free(o->volume);
    free(o->answer);
}

/* What comes out otherwise than the outcome, or "". */
static const char *otherwise(const struct outcome *o)
{
    if (returned != o->returned)
        return " but another number with structs";
    if (memcmp(ranges[VOLUME].bytes, o->volume, ranges[VOLUME].length))
        return " but another volume with structs";
    if (memcmp(ranges[ANSWER].bytes, o->answer, ranges[ANSWER].length))
        return " but another answer with structs";
    return "";
}

/* The same list with structs, from the same bytes, told of so many. Leaves what the list left. */
static const char *with_structs(const struct outcome *before, const struct outcome *after, size_t count)
{
    structs_count = count;
    put_back(before);
    protect(&structs, PROT_READ);
    int signal = call_protected(carry_out_structs, 0);
    protect(&structs, PROT_READ | PROT_WRITE);
    const char *what = signal ? " but a signal with structs" : otherwise(after);
    put_back(after);
    return what;
}

/* With the list's own count, and where that is too much with others that are. */
static const char *with_every_count(const struct outcome *before, int at_start)
{
    struct outcome after = outcome();
    place_structs(at_start);
    size_t own = structs_count, others = own > FV_MOST_ORDERS ? sizeof TOO_MANY / sizeof *TOO_MANY : 0;
    const char *what = with_structs(before, &after, own);
    for (size_t i = 0; i < others && !*what; i++)
        what = with_structs(before, &after, TOO_MANY[i]);
    forget(&after);
    return what;
}

/* ---- What is printed ---- */

enum { SHOWN = 4096 };          /* bytes of a range that are shown themselves */

/* CRC-32, eight bytes at a time: row k of the table has the rest of a byte with k bytes of zero behind it. */
static uint32_t crc_table[8][256];

static void make_crc_table(void)
{
    for (uint32_t byte = 0; byte < 256; byte++) {
        uint32_t rest = byte;
        for (int bit = 0; bit < 8; bit++)
            rest = rest & 1 ? rest >> 1 ^ 0xEDB88320 : rest >> 1;
        crc_table[0][byte] = rest;
    }
    for (int k = 1; k < 8; k++)
        for (int byte = 0; byte < 256; byte++)
            crc_table[k][byte] = crc_table[k - 1][byte] >> 8 ^ crc_table[0][crc_table[k - 1][byte] & 255];
}

/* Without the sanitizer's test of each byte: it reads a range that this program made, up to 64 MiB of it. */
__attribute__((no_sanitize("address", "undefined")))
static uint32_t crc32(const uint8_t *bytes, size_t length)
{
    uint32_t crc = UINT32_MAX;
    for (; length >= 8; length -= 8, bytes += 8) {
        uint32_t rest = 0;
        for (int k = 0; k < 8; k++)
            rest ^= crc_table[7 - k][(k < 4 ? crc >> 8 * k & 255 : 0) ^ bytes[k]];
        crc = rest;
    }
    for (; length > 0; length--)
        crc = crc >> 8 ^ crc_table[0][(crc ^ *bytes++) & 255];
    return ~crc;
}

static void print_hex(const struct range *r)
{
    static const char digits[] = "0123456789abcdef";
    static char text[2 * SHOWN + 1];
    for (size_t i = 0; i < r->length; i++) {
        text[2 * i] = digits[r->bytes[i] >> 4];
        text[2 * i + 1] = digits[r->bytes[i] & 15];
    }
    text[2 * r->length] = 0;
    fputs(text, stdout);
}

static void print_range(int place)
{
    const struct range *r = &ranges[place];
    putchar('\t');
    if (r->constant || r->length > SHOWN)
        printf("%zu:%08x", r->length, (unsigned)crc32(r->bytes, r->length));
    else
        print_hex(r);
    if (!marked(r->bytes - r->before, r->before))
        fputs(" stored before it", stdout);
    if (!marked(r->bytes + r->length, r->behind))
        fputs(" stored behind it", stdout);
}

/* Where the address is: in or beside a range, or elsewhere. */
static void print_touched(int signal)
{
    printf("signal %d", signal);
    for (int place = 0; place < PLACES; place++) {
        const struct range *r = &ranges[place];
        const uint8_t *room = rooms[together ? TOGETHER : place];
        if (r->lent && touched >= room - PAGE && touched < room + ROOM + PAGE)
            printf(" at byte %td of the %zu of %s", touched - r->bytes, r->length, PLACE_NAMES[place]);
    }
}

static void print_line(int signal, const char *with_structs)
{
    if (signal)
        print_touched(signal);
    else
        printf("%u%s", (unsigned)returned, with_structs);
    for (int place = 0; place < PLACES; place++)
        if (ranges[place].lent)
            print_range(place);
    putchar('\n');
    fflush(stdout);
}

/* Carries out the request and prints its line. */
static void answer_request(int stack, int at_start)
{
    const char *unlike = "";
    int whole_list = is_whole_list();
    struct outcome before = {0, NULL, NULL};
    if (whole_list)
        before = outcome();
    int signal = call_protected(carry_out, stack);
    if (stack)
        printf("%zu\t", stack_taken());
    if (whole_list && !signal)
        unlike = with_every_count(&before, at_start);
    forget(&before);
    print_line(signal, unlike);
}

static int is(int count, char **words, int i, const char *wanted)
{
    return i < count && strcmp(words[i], wanted) == 0;
}

int main(int count, char **words)
{
    int near = is(count, words, 1, "near"), turn = is(count, words, 2, "1"), stack = is(count, words, 3, "stack");
    read_script();
    make_rooms();
    make_crc_table();
    catch_signals();
    if (stack)
        make_own_stack();
    for (unsigned request = 0; script_at < script_length; request++) {
        int at_start = (request + (unsigned)turn) % 2;
        take_request(at_start);
        if (near)
            bring_together(request, turn);
        answer_request(stack, at_start);
        if (near)
            bring_back();
    }
    free(script);
    return 0;
}
