/* The calls of fv.h in plain C11: plain.h says what for. */
#include "plain.h"
#include "plain_dependency.h"
#include "plain_order.h"
#include "plain_state.h"
#include "plain_walk.h"

enum { SUCCESS = 0, INVALID = 2, SHORT = 4, TOO_SMALL = 5, NOT_FOUND = 14, DENIED = 15, BAD_STATE = 111 };

enum { ANSWER_BYTES = 16, JOB_BYTES = 8 };

static uint32_t answered(uint8_t *answer, uint64_t first, uint64_t second, uint32_t number)
{
    memcpy(answer, &first, 8);
    memcpy(answer + 8, &second, 8);
    return number;
}

/* ---- Opening ---- */

#define SIGNATURE 0x4856465Fu            /* _FVH */
enum { MIN_HEADER = 72, MAX_HEADER = 320, MAP_START = 56, EXT_HEADER = 20, EXT_ENTRY = 4 };

struct ext_entry {
    uint64_t first;
    uint16_t size, type;
};

/* 112, or 0 with the entry of this number where there is one, or 14 */
static uint32_t ext_walk(const uint8_t *volume, size_t header, uint64_t length, uint64_t number, struct ext_entry *found)
{
    uint64_t offset = volume[55] == 2 ? load16(volume + 52) : 0;
    if (offset == 0)
        return NOT_FOUND;
    if (offset < header || offset + EXT_HEADER > length)
        return 112;
    uint32_t size = load32(volume + offset + 16);
    if (size < EXT_HEADER || size > length - offset)
        return 112;
    uint64_t place = offset + EXT_HEADER, end = offset + size, n = 0;
    uint32_t answer = NOT_FOUND;
    for (; place < end; n++) {
        if (end - place < EXT_ENTRY)
            return 112;
        uint16_t entry_size = load16(volume + place);
        if (entry_size < EXT_ENTRY || entry_size > end - place)
            return 112;
        if (n == number) {
            *found = (struct ext_entry){place, entry_size, load16(volume + place + 2)};
            answer = SUCCESS;
        }
        place += entry_size;
    }
    return answer;
}

/* 101 to 110, with the state's numbers; 112 is not tested */
static uint32_t open_header(struct numbers *n, const uint8_t *volume, size_t volume_len, uint64_t base)
{
    if (volume_len < MIN_HEADER)
        return 101;
    if (load32(volume + 40) != SIGNATURE)
        return 102;
    if (volume[55] != 1 && volume[55] != 2)
        return 103;
    uint32_t header = load16(volume + 48);
    if (header % 8 || header < MIN_HEADER || header > MAX_HEADER || header > volume_len)
        return 104;
    if (word_sum(volume, header) != 0)
        return 105;
    n->length = load64(volume + 32);
    n->base = base;
    n->attributes = load32(volume + 44);
    n->edition = volume[55];
    n->entries = (header - 64) / MAP_ENTRY;
    struct totals t = map_totals(volume + MAP_START, n->entries);
    if (load64(volume + header - MAP_ENTRY) != 0)
        return 106;
    uint32_t refusal = numbers_refusal(n, &t);
    if (refusal)
        return refusal;
    n->first_protected = (uint32_t)t.blocks;
    if (volume_len < n->length)
        return 109;
    return breaks_110(n->attributes, base) ? 110 : SUCCESS;
}

/* 101 to 110 and 112, with the state's numbers and the entry of this number where there is one, or 14 */
static uint32_t open_volume(struct numbers *n, const uint8_t *volume, size_t volume_len, uint64_t base,
                            uint64_t number, struct ext_entry *found)
{
    uint32_t refusal = open_header(n, volume, volume_len, base);
    return refusal ? refusal : ext_walk(volume, 64 + MAP_ENTRY * n->entries, n->length, number, found);
}

uint32_t plain_open(uint8_t *state, size_t state_len,
                    const uint8_t *volume, size_t volume_len, uint64_t base)
{
    struct numbers n;
    struct ext_entry found;
    if (state_len < STATE_BYTES)
        return TOO_SMALL;
    uint32_t number = open_volume(&n, volume, volume_len, base, UINT64_MAX, &found);
    if (number != NOT_FOUND)
        return number;
    size_t map_bytes = MAP_ENTRY * n.entries;
    memcpy(state, volume + 16, STATE_NUMBERS);
    memcpy(state + STATE_NUMBERS, &n, sizeof n);
    memcpy(state + STATE_MAP, volume + MAP_START, map_bytes);
    memcpy(state + STATE_MAP + map_bytes, none, sizeof none - map_bytes);
    return SUCCESS;
}

uint32_t plain_ext_entry(const uint8_t *volume, size_t volume_len, uint64_t number,
                         uint8_t *answer, size_t answer_len)
{
    struct numbers n;
    struct ext_entry found;
    if (answer_len < ANSWER_BYTES)
        return TOO_SMALL;
    uint32_t refusal = open_volume(&n, volume, volume_len, 0, number, &found);
    if (refusal)
        return refusal;
    return answered(answer, found.first, found.size + ((uint64_t)found.type << 16), SUCCESS);
}

/* ---- The block service ---- */

/* 111, 5 and 15, which come before a look at the arguments */
static uint32_t service_refusal(const struct state *s, size_t volume_len, uint32_t status)
{
    if (!lawful(s))
        return BAD_STATE;
    if (volume_len < s->n.length)
        return TOO_SMALL;
    return s->n.attributes & status ? SUCCESS : DENIED;
}

static size_t room_in_block(uint64_t length, uint64_t offset, size_t size)
{
    uint64_t room = offset <= length ? length - offset : 0;
    return size < room ? size : room;
}

uint32_t plain_read(const uint8_t *state, size_t state_len,
                    const uint8_t *volume, size_t volume_len, uint64_t block, uint64_t offset,
                    uint8_t *buffer, size_t buffer_len, uint8_t *answer, size_t answer_len)
{
    uint64_t first, length;
    if (state_len < STATE_BYTES || answer_len < ANSWER_BYTES)
        return TOO_SMALL;
    struct state s = unpack(state);
    uint32_t refusal = service_refusal(&s, volume_len, READ_STATUS);
    if (refusal)
        return refusal;
    if (!find_block(&s, block, &first, &length))
        return INVALID;
    size_t count = room_in_block(length, offset, buffer_len);
    if (count)
        memcpy(buffer, volume + first + offset, count);
    return answered(answer, count, 0, count == buffer_len ? SUCCESS : SHORT);
}

/* The sticky merges go by whole pieces of 64 bytes, whose loops are vector code at -O2 too. */
enum { PIECE = 64 };

static void merge_and(uint8_t *restrict to, const uint8_t *restrict from, size_t count)
{
    for (; count >= PIECE; count -= PIECE, to += PIECE, from += PIECE)
        for (size_t i = 0; i < PIECE; i++)
            to[i] &= from[i];
    for (size_t i = 0; i < count; i++)
        to[i] &= from[i];
}

static void merge_or(uint8_t *restrict to, const uint8_t *restrict from, size_t count)
{
    for (; count >= PIECE; count -= PIECE, to += PIECE, from += PIECE)
        for (size_t i = 0; i < PIECE; i++)
            to[i] |= from[i];
    for (size_t i = 0; i < count; i++)
        to[i] |= from[i];
}

static void store(uint32_t attributes, uint8_t *to, const uint8_t *from, size_t count)
{
    if (!(attributes & STICKY_WRITE))
        memcpy(to, from, count);
    else if (attributes & ERASE_ONE)
        merge_and(to, from, count);
    else
        merge_or(to, from, count);
}

/* A write on a state that was tested: 2, 15, or 0 or 4 with how many bytes were stored */
static inline uint32_t write_block(const struct state *s, uint8_t *volume, uint64_t block, uint64_t offset,
                                   const uint8_t *data, size_t data_len, uint64_t *stored)
{
    uint64_t first, length;
    if (!find_block(s, block, &first, &length))
        return INVALID;
    if (block >= s->n.first_protected)
        return DENIED;
    size_t count = room_in_block(length, offset, data_len);
    if (count)
        store(s->n.attributes, volume + first + offset, data, count);
    *stored = count;
    return count == data_len ? SUCCESS : SHORT;
}

uint32_t plain_write(const uint8_t *state, size_t state_len,
                     uint8_t *volume, size_t volume_len, uint64_t block, uint64_t offset,
                     const uint8_t *data, size_t data_len, uint8_t *answer, size_t answer_len)
{
    uint64_t count = 0;
    if (state_len < STATE_BYTES || answer_len < ANSWER_BYTES)
        return TOO_SMALL;
    struct state s = unpack(state);
    uint32_t refusal = service_refusal(&s, volume_len, WRITE_STATUS);
    if (refusal)
        return refusal;
    uint32_t number = write_block(&s, volume, block, offset, data, data_len, &count);
    return number == SUCCESS || number == SHORT ? answered(answer, count, 0, number) : number;
}

/* ---- Many writes in one call ---- */

enum { MOST_ORDERS = 64 };

/* An order as it lies in the list. */
struct write_order {
    uint64_t block, offset, first, length;
};

static bool in_data(const struct write_order *o, size_t data_len)
{
    return o->first <= data_len && o->length <= data_len - o->first;
}

uint32_t plain_write_list(const uint8_t *state, size_t state_len,
                          uint8_t *volume, size_t volume_len,
                          const uint8_t *orders, size_t orders_len,
                          const uint8_t *data, size_t data_len, uint8_t *answer, size_t answer_len)
{
    struct write_order o;
    size_t count = orders_len / sizeof o, done = 0;
    uint64_t last = 0;
    if (state_len < STATE_BYTES || answer_len < ANSWER_BYTES)
        return TOO_SMALL;
    if (count > MOST_ORDERS)
        return answered(answer, 0, 0, INVALID);
    if (count == 0)
        return answered(answer, 0, 0, SUCCESS);
    struct state s = unpack(state);
    uint32_t number = service_refusal(&s, volume_len, WRITE_STATUS);
    while (number == SUCCESS && done < count) {
        memcpy(&o, orders + done * sizeof o, sizeof o);
        last = 0;
        number = in_data(&o, data_len) ? write_block(&s, volume, o.block, o.offset, data + o.first, o.length, &last) : INVALID;
        done += number == SUCCESS;
    }
    return answered(answer, done, last, number);
}

/* 2 and 15 of an erase list; else 0 with the number of its pairs */
static uint32_t list_refusal(const struct state *s, const uint8_t *list, size_t words, size_t *pairs)
{
    uint64_t blocks = map_totals(s->map, s->n.entries).blocks;
    bool denied = false;
    for (size_t i = 0; i < words; i += 2) {
        uint64_t first = load64(list + 8 * i);
        if (first == END_OF_LIST) {
            *pairs = i / 2;
            return denied ? DENIED : SUCCESS;
        }
        if (i + 1 == words)
            return INVALID;
        uint64_t count = load64(list + 8 * i + 8);
        if (count == 0 || first > blocks || count > blocks - first)
            return INVALID;
        denied |= first + count > s->n.first_protected;
    }
    return INVALID;
}

uint32_t plain_erase(const uint8_t *state, size_t state_len,
                     uint8_t *volume, size_t volume_len, const uint8_t *list, size_t list_len)
{
    size_t pairs;
    if (state_len < STATE_BYTES)
        return TOO_SMALL;
    struct state s = unpack(state);
    uint32_t refusal = service_refusal(&s, volume_len, WRITE_STATUS);
    if (!refusal)
        refusal = list_refusal(&s, list, list_len / 8, &pairs);
    if (refusal)
        return refusal;
    for (size_t i = 0; i < pairs; i++) {
        uint64_t start, end;
        find_run(&s, load64(list + 16 * i), load64(list + 16 * i + 8), &start, &end);
        memset(volume + start, s.n.attributes & ERASE_ONE ? 0xFF : 0, end - start);
    }
    return SUCCESS;
}

/* ---- Erase in two operations: the job is how many bytes of the order were stored ---- */

enum { NOT_FINISHED = SHORT };

uint32_t plain_accept_erase(const uint8_t *state, size_t state_len,
                            const uint8_t *volume, size_t volume_len, const uint8_t *list, size_t list_len,
                            uint8_t *job, size_t job_len)
{
    size_t pairs;
    (void)volume;
    if (state_len < STATE_BYTES || job_len < JOB_BYTES)
        return TOO_SMALL;
    struct state s = unpack(state);
    uint32_t refusal = service_refusal(&s, volume_len, WRITE_STATUS);
    if (!refusal)
        refusal = list_refusal(&s, list, list_len / 8, &pairs);
    if (refusal)
        return refusal;
    memset(job, 0, JOB_BYTES);
    return SUCCESS;
}

uint32_t plain_carry_erase(const uint8_t *state, size_t state_len,
                           uint8_t *volume, size_t volume_len, const uint8_t *list, size_t list_len,
                           uint8_t *job, size_t job_len, uint64_t stores)
{
    size_t pairs;
    if (state_len < STATE_BYTES || job_len < JOB_BYTES)
        return TOO_SMALL;
    struct state s = unpack(state);
    uint32_t refusal = service_refusal(&s, volume_len, WRITE_STATUS);
    if (refusal)
        return refusal;
    refusal = list_refusal(&s, list, list_len / 8, &pairs);
    if (refusal == INVALID)
        return INVALID;
    uint64_t from = load64(job), total = order_length(&s, list, pairs);
    if (from != 0 && from >= total)
        return INVALID;
    if (refusal)
        return refusal;
    uint64_t to = stores < total - from ? from + stores : total;
    erase_part(&s, list, pairs, volume, from, to);
    if (to == total)
        return SUCCESS;
    memcpy(job, &to, JOB_BYTES);
    return NOT_FINISHED;
}

/* ---- Sections ---- */

static size_t stream_limit(uint32_t mode)
{
    return mode ? 67108864 : 16777216;
}

static uint32_t search(struct search *s, uint32_t mode, size_t stream_len, uint8_t *answer, size_t answer_len)
{
    if (answer_len < ANSWER_BYTES)
        return TOO_SMALL;
    if (stream_len > stream_limit(mode))
        return 206;
    uint32_t ended = walk(s, 0, stream_len, 1);
    if (ended != SUCCESS && ended != STOPPED)
        return ended;
    return s->found ? answered(answer, s->first, s->end, SUCCESS) : NOT_FOUND;
}

uint32_t plain_search(uint32_t mode, const uint8_t *stream, size_t stream_len,
                      uint8_t section_type, uint64_t instance, uint8_t *answer, size_t answer_len)
{
    struct search s = {.stream = stream, .pi = mode != 0, .type = section_type, .before = instance};
    return search(&s, mode, stream_len, answer, answer_len);
}

uint32_t plain_search_first(uint32_t mode, const uint8_t *stream, size_t stream_len,
                            uint8_t section_type, uint8_t *answer, size_t answer_len)
{
    struct search s = {.stream = stream, .pi = mode != 0, .type = section_type, .stops = true};
    return search(&s, mode, stream_len, answer, answer_len);
}

uint32_t plain_append(uint32_t mode, uint8_t *buffer, size_t buffer_len, uint64_t used,
                      uint8_t section_type, const uint8_t *body, size_t body_len,
                      uint8_t *answer, size_t answer_len)
{
    if (answer_len < ANSWER_BYTES)
        return TOO_SMALL;
    if (section_type == COMPRESSION || section_type == GUID_DEFINED || used > buffer_len)
        return INVALID;
    if (section_type == FREE_FORM && body_len < FREE_FORM_FIELDS)
        return 202;
    if (body_len > stream_limit(mode) || (mode == 0 && SHORT_HEADER + body_len > LONG_SIZE))
        return 206;
    bool is_long = SHORT_HEADER + body_len >= LONG_SIZE && mode != 0;
    uint32_t header = is_long ? LONG_HEADER : SHORT_HEADER, size = header + (uint32_t)body_len;
    uint64_t start = (used + 3) & ~(uint64_t)3, end = start + size;
    if (end > stream_limit(mode))
        return 206;
    if (end > buffer_len)
        return TOO_SMALL;
    uint32_t word = (is_long ? LONG_SIZE : size) | (uint32_t)section_type << 24;
    memset(buffer + used, 0, start - used);
    memcpy(buffer + start, &word, 4);
    if (is_long)
        memcpy(buffer + start + 4, &size, 4);
    memcpy(buffer + start + header, body, body_len);
    return answered(answer, end, 0, SUCCESS);
}

/* ---- Dependency expressions ---- */

uint32_t plain_read_opcode(const uint8_t *bytes, size_t bytes_len,
                           uint8_t *answer, size_t answer_len)
{
    size_t operand;
    if (answer_len < ANSWER_BYTES)
        return TOO_SMALL;
    if (bytes_len == 0)
        return 305;
    uint32_t refusal = operand_length(bytes[0], bytes + 1, bytes_len - 1, &operand);
    return refusal ? refusal : answered(answer, bytes[0], 1 + operand, SUCCESS);
}

uint32_t plain_write_opcode(uint8_t opcode, const uint8_t *operand, size_t operand_len,
                            uint8_t *room, size_t room_len, uint8_t *answer, size_t answer_len)
{
    size_t length;
    if (answer_len < ANSWER_BYTES)
        return TOO_SMALL;
    uint32_t refusal = operand_length(opcode, operand, operand_len, &length);
    if (refusal)
        return refusal;
    if (room_len < 1 + length)
        return TOO_SMALL;
    room[0] = opcode;
    memcpy(room + 1, operand, length);
    return answered(answer, 1 + length, 0, SUCCESS);
}

uint32_t plain_validate_dependency(const uint8_t *expression, size_t expression_len)
{
    return expression_refusal(expression, expression_len);
}

uint32_t plain_evaluate_dependency(const uint8_t *expression, size_t expression_len,
                                   const uint8_t *guids, size_t guids_len,
                                   const uint8_t *versions, size_t versions_len, uint64_t used,
                                   uint8_t *answer, size_t answer_len)
{
    uint32_t truth;
    if (guids_len < ROWS * GUID_BYTES || versions_len < ROWS * VERSION_BYTES || answer_len < ANSWER_BYTES)
        return TOO_SMALL;
    if (used > ROWS)
        return INVALID;
    uint32_t refusal = expression_refusal(expression, expression_len);
    if (!refusal)
        refusal = expression_value(expression, guids, versions, used, &truth);
    return refusal ? refusal : answered(answer, truth, 0, SUCCESS);
}
