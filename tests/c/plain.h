/*
 * The calls of fv.h in plain C11, without a proof: what the library is compared with, in answers and in time.
 *
 * Parameters, answers and refusals are those of fv.h, name for name. With PLAIN_AS_FV the functions
 * bear the names of fv.h and stand in for the library. For little-endian machines.
 */
#ifndef PLAIN_H
#define PLAIN_H

#include <stddef.h>
#include <stdint.h>

#ifdef PLAIN_AS_FV
#define plain_open fv_open
#define plain_read fv_read
#define plain_write fv_write
#define plain_write_list fv_write_list
#define plain_erase fv_erase
#define plain_accept_erase fv_accept_erase
#define plain_carry_erase fv_carry_erase
#define plain_search fv_search
#define plain_search_first fv_search_first
#define plain_append fv_append
#define plain_ext_entry fv_ext_entry
#define plain_read_opcode fv_read_opcode
#define plain_write_opcode fv_write_opcode
#define plain_validate_dependency fv_validate_dependency
#define plain_evaluate_dependency fv_evaluate_dependency
#endif

uint32_t plain_open(uint8_t *state, size_t state_len,
                    const uint8_t *volume, size_t volume_len, uint64_t base);

uint32_t plain_read(const uint8_t *state, size_t state_len,
                    const uint8_t *volume, size_t volume_len, uint64_t block, uint64_t offset,
                    uint8_t *buffer, size_t buffer_len, uint8_t *answer, size_t answer_len);

uint32_t plain_write(const uint8_t *state, size_t state_len,
                     uint8_t *volume, size_t volume_len, uint64_t block, uint64_t offset,
                     const uint8_t *data, size_t data_len, uint8_t *answer, size_t answer_len);

uint32_t plain_write_list(const uint8_t *state, size_t state_len,
                          uint8_t *volume, size_t volume_len,
                          const uint8_t *orders, size_t orders_len,
                          const uint8_t *data, size_t data_len, uint8_t *answer, size_t answer_len);

uint32_t plain_erase(const uint8_t *state, size_t state_len,
                     uint8_t *volume, size_t volume_len, const uint8_t *list, size_t list_len);

uint32_t plain_accept_erase(const uint8_t *state, size_t state_len,
                            const uint8_t *volume, size_t volume_len, const uint8_t *list, size_t list_len,
                            uint8_t *job, size_t job_len);

uint32_t plain_carry_erase(const uint8_t *state, size_t state_len,
                           uint8_t *volume, size_t volume_len, const uint8_t *list, size_t list_len,
                           uint8_t *job, size_t job_len, uint64_t stores);

uint32_t plain_search(uint32_t mode, const uint8_t *stream, size_t stream_len,
                      uint8_t section_type, uint64_t instance, uint8_t *answer, size_t answer_len);

uint32_t plain_search_first(uint32_t mode, const uint8_t *stream, size_t stream_len,
                            uint8_t section_type, uint8_t *answer, size_t answer_len);

uint32_t plain_append(uint32_t mode, uint8_t *buffer, size_t buffer_len, uint64_t used,
                      uint8_t section_type, const uint8_t *body, size_t body_len,
                      uint8_t *answer, size_t answer_len);

uint32_t plain_ext_entry(const uint8_t *volume, size_t volume_len, uint64_t number,
                         uint8_t *answer, size_t answer_len);

uint32_t plain_read_opcode(const uint8_t *bytes, size_t bytes_len,
                           uint8_t *answer, size_t answer_len);

uint32_t plain_write_opcode(uint8_t opcode, const uint8_t *operand, size_t operand_len,
                            uint8_t *room, size_t room_len, uint8_t *answer, size_t answer_len);

uint32_t plain_validate_dependency(const uint8_t *expression, size_t expression_len);

uint32_t plain_evaluate_dependency(const uint8_t *expression, size_t expression_len,
                                   const uint8_t *guids, size_t guids_len,
                                   const uint8_t *versions, size_t versions_len, uint64_t used,
                                   uint8_t *answer, size_t answer_len);

#endif
