/*
 * Firmware volumes, from C: opening, read, write, many writes in one call, erase, erase in two
 * operations, the entries of an extended header, the section calls, and dependency expressions.
 * Each is proved to answer, on every input, what its definition in crates/fv/specs says: 5 for too
 * few bytes, and otherwise what the library's call behind it answers (docs/API.md).
 *
 * `tests/archive` proves and builds target/staticlib/libfv.a: x86-64 code with SSE2, System V
 * calling convention and its red zone, which wants memcpy, memmove and memset of whom it is linked
 * with.
 *
 * Every call returns a number: 0 for success; 4, short, where a read or a write was cut at the
 * block's end (what was moved is moved, and the count is answered), or where fv_carry_erase has
 * bytes left to store; or a refusal's number, never 0 or 4. A refusal changes no byte of any range;
 * fv_write_list alone keeps what it wrote before one, and stores beside it how far it came.
 * README.md says what each number means. Two of them come before all others here, but in
 * fv_write_list the second, which stands behind 2 for too many orders and the empty list:
 *     5      fewer than FV_STATE_BYTES of state, FV_ANSWER_BYTES of answer, FV_JOB_BYTES of job,
 *            FV_GUIDS_BYTES of GUIDs or FV_VERSIONS_BYTES of versions
 *     111    of a call that takes a state: its bytes are no lawful one
 *
 * What the caller owes, since nothing can test it: every range, a pointer and a length, is memory
 * that may be read, and stored into where it is not const, until the call returns; its pointer is
 * not null even where the length is 0, and its length is below 2^63; a range that is not const
 * overlaps no other range of the call. Bytes that a call only stores into may hold anything.
 *
 * No range needs an alignment. No call allocates, keeps anything, or reads a global; each takes
 * less than 1 KiB of stack, but fv_erase and fv_carry_erase, which take less than 10 KiB
 * (tests/host measures it; no proof says it). Ranges that are longer than what is stored keep the
 * bytes behind it.
 */
#ifndef FV_H
#define FV_H

#include <stddef.h>
#include <stdint.h>

#ifdef __cplusplus
extern "C" {
#endif

/*
 * A state: 16 bytes of GUID, length and base (64 bits), attributes, edition, first protected block
 * and number of map entries (32 bits), then 32 pairs of block count and block length (32 bits),
 * zero beyond the entries. All little endian. Blocks from the first protected one on are neither
 * written nor erased: fv_open sets it to the number of blocks, and a caller that lowers it, bytes
 * 40 to 43, protects the blocks from there on (one past the number of blocks is 111, and nothing
 * keeps a caller from raising it again). A state is not tied to a volume: a call follows the state
 * that it is given, on the volume that it is lent.
 */
#define FV_STATE_BYTES 304

/* An answer: two 64-bit numbers, little endian. */
#define FV_ANSWER_BYTES 16

/* A job: a 64-bit number, little endian. It may be kept over a reboot. */
#define FV_JOB_BYTES 8

/* The installed firmware: 16 GUIDs of 16 bytes, and 16 versions of 32 bits, little endian. */
#define FV_GUIDS_BYTES 256
#define FV_VERSIONS_BYTES 64

/* Section modes: 0, and any other. FV_PI is for files whose sections may have a 32-bit size. */
#define FV_FRAMEWORK 0
#define FV_PI 1

/*
 * Opens a volume at a base address, of either edition, and stores its state, no block protected.
 * Refused with 5 (state), then 101 to 110 and 112. The calls that follow go by the state alone: the
 * header is not read again, even after it was written or erased.
 */
uint32_t fv_open(uint8_t *state, size_t state_len,
                 const uint8_t *volume, size_t volume_len, uint64_t base);

/*
 * Reads from an offset of a block into the start of the buffer, up to the block's end; the rest of
 * the buffer stays. Answers the number of bytes read, and 0. From an offset at or behind the
 * block's end none are: 4, or 0 for a buffer of no bytes. Refused with 5 (state or answer), 111,
 * 5 (fewer volume bytes than the state's length), 15 (reads are disabled), 2 (no such block).
 */
uint32_t fv_read(const uint8_t *state, size_t state_len,
                 const uint8_t *volume, size_t volume_len, uint64_t block, uint64_t offset,
                 uint8_t *buffer, size_t buffer_len, uint8_t *answer, size_t answer_len);

/*
 * Writes the data from an offset of a block on, up to the block's end, by the volume's write rule:
 * with sticky write, bits leave the erase value and do not come back. Every other byte of the volume
 * stays. Answers the number of bytes written, and 0. Refused with 5 (state or answer), 111,
 * 5 (volume), 15 (writes are disabled), 2 (no such block), 15 (the block is protected).
 */
uint32_t fv_write(const uint8_t *state, size_t state_len,
                  uint8_t *volume, size_t volume_len, uint64_t block, uint64_t offset,
                  const uint8_t *data, size_t data_len, uint8_t *answer, size_t answer_len);

/*
 * Many writes in one call: a list of orders, each a write of a stretch of the data, carried out one
 * after the other up to the first that does not return 0. An order is 32 bytes, four 64-bit numbers,
 * little endian: block, offset in the block, first byte of the stretch, and its length. Up to 31
 * bytes behind the last whole order are ignored.
 *
 * Returns what the last order that came to its turn returned, as fv_write would, and stores, also
 * beside a refusal, how many orders returned 0 and how many bytes the last one wrote, 0 where it was
 * refused. What the orders before it wrote stays. An order that is short ends the list and is not
 * counted; its bytes stay.
 *
 * Refused with 5 (state or answer), which alone changes no byte of any range; then 2 (more than
 * FV_MOST_ORDERS orders), with no byte of the volume written. An empty list returns 0, whatever the
 * state. These two store 0 and 0. Then at each order's turn: 111, 5 (volume), 15 (writes are
 * disabled), 2 (the stretch leaves the data, also an empty one that begins behind its end), 2 (no
 * such block), 15 (the block is protected).
 */
#define FV_ORDER_BYTES 32
#define FV_MOST_ORDERS 64
uint32_t fv_write_list(const uint8_t *state, size_t state_len,
                       uint8_t *volume, size_t volume_len,
                       const uint8_t *orders, size_t orders_len,
                       const uint8_t *data, size_t data_len, uint8_t *answer, size_t answer_len);

/*
 * The same with the orders as structs, whose layout on x86-64 is the one that fv_write_list reads.
 * `orders` is not null, also where `count` is 0.
 */
struct fv_order {
    uint64_t block, offset, first, length;
};

static inline uint32_t fv_write_orders(const uint8_t *state, size_t state_len,
                                       uint8_t *volume, size_t volume_len,
                                       const struct fv_order *orders, size_t count,
                                       const uint8_t *data, size_t data_len,
                                       uint8_t *answer, size_t answer_len)
{
    /* One order too many is as good as any number of them, and no product wraps. */
    size_t lent = count > FV_MOST_ORDERS ? FV_MOST_ORDERS + 1 : count;
    return fv_write_list(state, state_len, volume, volume_len, (const uint8_t *)orders,
                         lent * sizeof *orders, data, data_len, answer, answer_len);
}

/*
 * Erases the blocks that a list names, and no other byte. The list is bytes, eight to a 64-bit word,
 * little endian: pairs of first block and count, ended by 2^64 - 1 where a first block would stand.
 * Words behind that are ignored, and so are up to seven bytes behind the last whole word. The whole
 * list is looked at before a byte is stored. Answers nothing but its number. Refused with 5 (state),
 * 111, 5 (volume), 15 (writes are disabled), 2 (a bad list), 15 (a block of it is protected).
 */
uint32_t fv_erase(const uint8_t *state, size_t state_len,
                  uint8_t *volume, size_t volume_len, const uint8_t *list, size_t list_len);

/*
 * An erase in two operations, for a supply that may fail. fv_accept_erase looks at the whole list,
 * as fv_erase does, stores nothing in the volume, and stores a job in the first 8 bytes of `job`.
 * Refused with 5 (state or job), 111, 5 (volume), 15 (writes are disabled), 2 (a bad list), 15 (a
 * block of it is protected).
 */
uint32_t fv_accept_erase(const uint8_t *state, size_t state_len,
                         const uint8_t *volume, size_t volume_len,
                         const uint8_t *list, size_t list_len, uint8_t *job, size_t job_len);

/*
 * Carries the job on by so many byte stores, or by what is left if fewer: blocks as the list first
 * names them, bytes upward, each once. Returns 0 where nothing is left then, and 4 otherwise, with
 * the job as it now stands in the first 8 bytes of `job`; what a job holds is the library's matter.
 * On 0 these bytes stay; forget them, since a job that is carried on again erases again, also what
 * was written since. For a power cut keep three things where it leaves them: the state, the list
 * and the job last stored (README, Power cuts). After it carry on with them; an earlier job is as
 * good, and 0 always is, but store it as the job first. Refused with 5 (state or job), 111, 5
 * (volume), 15 (writes are disabled), 2 (a bad list, or a job that this map and list never give),
 * 15 (a block of the list is protected).
 */
uint32_t fv_carry_erase(const uint8_t *state, size_t state_len,
                        uint8_t *volume, size_t volume_len,
                        const uint8_t *list, size_t list_len,
                        uint8_t *job, size_t job_len, uint64_t stores);

/*
 * The section of a type that has `instance` sections of that type before it: depth first, a holder
 * before what it holds, eight levels at most. Answers, as places in the stream, the first byte of
 * what follows the section's first 4 bytes (8 where it has a 32-bit size), and the byte behind its
 * last. Refused with 5 (answer), 201 to 207 for a fault anywhere in the stream, 14 (no such section).
 */
uint32_t fv_search(uint32_t mode, const uint8_t *stream, size_t stream_len,
                   uint8_t section_type, uint64_t instance, uint8_t *answer, size_t answer_len);

/*
 * The first section of a type, without a look at what comes after its own header. Answers as
 * fv_search does for instance 0, but that a fault in what it holds, in its padding or behind it is
 * not met: use fv_search before a stream is trusted. Refused as that is; where no section has the
 * type, for a fault anywhere.
 */
uint32_t fv_search_first(uint32_t mode, const uint8_t *stream, size_t stream_len,
                         uint8_t section_type, uint8_t *answer, size_t answer_len);

/*
 * Appends a section that holds no others after the first `used` bytes of a buffer: zeros up to a
 * multiple of 4, header, body. What is there already is not tested. Answers the new number of used
 * bytes, and 0. Refused with 5 (answer), 2 (type 1 or 2, or `used` above the buffer's length),
 * 202 (a free-form GUID body under 16 bytes), 206 (in mode 0 a section over 16,777,215 bytes; a
 * stream over 16,777,216 bytes, in another mode 67,108,864), 5 (the buffer is too short).
 */
uint32_t fv_append(uint32_t mode, uint8_t *buffer, size_t buffer_len, uint64_t used,
                   uint8_t section_type, const uint8_t *body, size_t body_len,
                   uint8_t *answer, size_t answer_len);

/*
 * The entry of this number, from 0, of a volume's extended header (edition 2). Answers its first
 * byte in the volume, and its size + 65536 * its type. Refused with 5 (answer), opening's numbers
 * at base 0, 14 (no such entry, no extended header, edition 1).
 */
uint32_t fv_ext_entry(const uint8_t *volume, size_t volume_len, uint64_t number,
                      uint8_t *answer, size_t answer_len);

/*
 * Dependency expressions of UEFI's firmware management protocol: whether an image suits the firmware
 * that is installed. An expression is opcodes, each one byte and then its operand, that work on a
 * stack of versions and truths, up to FV_DEP_END. A comparison takes two versions and leaves whether
 * the one taken first, which was pushed last, is greater than the other, and so on: 3, then the
 * camera's version, then FV_DEP_GT asks whether the camera's version is over 3.
 */
#define FV_DEP_PUSH_GUID 0x00    /* a GUID, 16 bytes: pushes that firmware's version */
#define FV_DEP_PUSH_VERSION 0x01 /* a version, 4 bytes, little endian: pushes it */
#define FV_DEP_VERSION_STR 0x02  /* a text up to and with its zero: for people, pushes nothing */
#define FV_DEP_AND 0x03          /* takes two truths, pushes whether both hold */
#define FV_DEP_OR 0x04           /* takes two truths, pushes whether one holds */
#define FV_DEP_NOT 0x05          /* takes a truth, pushes whether it does not hold */
#define FV_DEP_TRUE 0x06         /* pushes a truth that holds */
#define FV_DEP_FALSE 0x07        /* pushes a truth that does not */
#define FV_DEP_EQ 0x08           /* takes two versions: equal */
#define FV_DEP_GT 0x09           /* the one taken first is greater than the other */
#define FV_DEP_GTE 0x0A          /* at least */
#define FV_DEP_LT 0x0B           /* less than */
#define FV_DEP_LTE 0x0C          /* at most */
#define FV_DEP_END 0x0D          /* ends the expression: one truth must be there, and nothing else */

/*
 * The opcode at the start of the bytes. Answers the opcode, and the place behind its operand; the
 * operand is the bytes from 1 up to there. Refused with 5 (answer), 305 (no bytes), 301 (no such
 * opcode), 302 (the operand is cut off, or a text has no zero).
 */
uint32_t fv_read_opcode(const uint8_t *opcodes, size_t opcodes_len,
                        uint8_t *answer, size_t answer_len);

/*
 * Stores an opcode and its operand at the start of a room; the rest of the room stays. Bytes behind
 * the operand are dropped. Answers the number of bytes stored, and 0. Refused with 5 (answer),
 * 301 (no such opcode), 302 (too few bytes for the operand, or a text without a zero), 5 (room).
 */
uint32_t fv_write_opcode(uint8_t opcode, const uint8_t *operand, size_t operand_len,
                         uint8_t *room, size_t room_len, uint8_t *answer, size_t answer_len);

/*
 * Tests an expression up to its end, whatever firmware is installed; bytes behind the end are
 * ignored. Answers nothing but its number. Refused with 301 and 302 as fv_read_opcode, 303 (an
 * opcode takes more values than there are, or would leave more than 32), 304 (an opcode takes a
 * version for a truth, or the reverse), 305 (no end, also where there are no bytes, or other than
 * one truth there): the first in reading order, and at one opcode the lowest.
 */
uint32_t fv_validate_dependency(const uint8_t *expression, size_t expression_len);

/*
 * Whether an expression holds of the installed firmware: the first `used` of 16 GUIDs, with the
 * versions beside them; of a GUID that stands there twice the first counts. All 256 and 64 bytes are
 * lent, also where fewer rows are used; what the others hold does not matter. Answers 1 where it
 * holds and 0 where it does not, and then 0; the number returned is 0 both times. Refused with
 * 5 (GUIDs, versions or answer), 2 (`used` above 16), 301 to 305 as fv_validate_dependency, 14 (a
 * GUID of the expression is in no used row, whether or not the answer hangs on it).
 */
uint32_t fv_evaluate_dependency(const uint8_t *expression, size_t expression_len,
                                const uint8_t *guids, size_t guids_len,
                                const uint8_t *versions, size_t versions_len, uint64_t used,
                                uint8_t *answer, size_t answer_len);

#ifdef __cplusplus
}
#endif

#endif
