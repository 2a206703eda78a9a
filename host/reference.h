/* A second, slow and plain set of the services, for tests alone: what documents 01 and 02 say, by listing and searching.
 *
 * Parameters and answers are those of the calls on a sheet or on a lembikat_plan, so that a test can put the two side by side.
 * Only the types of the plan and of the answers are shared with the library. */
#ifndef REFERENCE_H
#define REFERENCE_H

#include "lembikat.h"

lembikat_word_answer reference_nearest_word(const uint8_t *sheet, size_t sheet_bytes, uint64_t word);

lembikat_answer reference_build_table(const uint8_t *sheet, size_t sheet_bytes, uint8_t *output, size_t output_bytes);

lembikat_word_answer reference_look_up(const uint8_t *sheet, size_t sheet_bytes, uint64_t word, const uint8_t *table,
                                       size_t table_bytes);

lembikat_answer reference_locate(const lembikat_plan *plan, const uint8_t *block, size_t block_bytes);

lembikat_decode_answer reference_decode(const lembikat_plan *plan, const uint8_t *received, size_t received_bytes,
                                        const uint8_t *lost, size_t lost_bytes, uint8_t *output, size_t output_bytes,
                                        size_t limit);

lembikat_state_answer reference_load_state(const lembikat_plan *plan, const uint8_t *block, size_t block_bytes, uint8_t *state,
                                           size_t state_bytes);

lembikat_state_answer reference_sweep_state(const lembikat_plan *plan, uint8_t *state, size_t state_bytes);

lembikat_state_answer reference_set_bit(const lembikat_plan *plan, size_t bit, uint64_t value, uint8_t *state,
                                        size_t state_bytes);

lembikat_answer reference_report(const lembikat_plan *plan, const uint8_t *received, size_t received_bytes,
                                 const uint8_t *settled, size_t settled_bytes, uint8_t *list, size_t list_bytes);

lembikat_answer reference_spread(const lembikat_plan *plan);

lembikat_answer reference_margin(const lembikat_plan *plan, uint64_t flips);

lembikat_answer reference_encode(const lembikat_plan *plan, const uint8_t *message, size_t message_bytes, uint8_t *output,
                                 size_t output_bytes);

lembikat_answer reference_read(const lembikat_plan *plan, const uint8_t *block, size_t block_bytes, uint8_t *output,
                               size_t output_bytes);

/* K, the bits of a message, so that a test can make messages of the right length. 0 where the plan is refused or N is above
 * 512. */
size_t reference_message_bits(const lembikat_plan *plan);

#endif
