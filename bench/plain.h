/* The plain C that the library is measured against. Each function answers the number of the refusal, 0 where it is done. */
#ifndef PLAIN_H
#define PLAIN_H

#include <stddef.h>
#include <stdint.h>

/* The nearest word by search over the codewords, the word as it is at a tie, and the bits that it changed. */
int plain_nearest_word(const uint8_t *sheet, size_t sheet_bytes, uint64_t word, uint64_t *nearest_word, uint64_t *changed);

/* The table of a sheet: for each class the search over the codewords. */
int plain_build_table(const uint8_t *sheet, size_t sheet_bytes, uint8_t *output, size_t output_bytes);

/* The same by the library's own steps, written in C: one digit after another, all classes at once. */
int folded_build_table(const uint8_t *sheet, size_t sheet_bytes, uint8_t *output, size_t output_bytes);

/* The look-up of a word in a table: the word and the bits changed. */
int plain_look_up(const uint8_t *sheet, size_t sheet_bytes, uint64_t word, const uint8_t *table, size_t table_bytes,
                  uint64_t *nearest_word, uint64_t *changed);

/* The straightforward port of the paper: nearest word by search over the codewords, both sides tested before each sweep, with
 * lost spans both trials made to their end. From sweep 3 on the vertices are visited that a changed bit has marked. The sums
 * are what the visits of each of the first 64 sweeps changed, added up. */
int plain_decode(const uint8_t *left_sheet, size_t left_sheet_bytes, const uint8_t *right_sheet, size_t right_sheet_bytes,
                 size_t nl, size_t nr, const uint8_t *wiring, size_t wiring_bytes, const uint8_t *received,
                 size_t received_bytes, const uint8_t *lost, size_t lost_bytes, uint8_t *output, size_t output_bytes,
                 size_t limit, size_t *sweeps, uint16_t sums[64], uint64_t *visits);

/* The calls on a state, by counting all unsatisfied vertices of the block anew at the end of each call: what the count was does
 * not matter, but for 0. On a state whose count is true this is what the library does. */
int plain_load_state(const uint8_t *left_sheet, size_t left_sheet_bytes, const uint8_t *right_sheet, size_t right_sheet_bytes,
                     size_t nl, size_t nr, const uint8_t *wiring, size_t wiring_bytes, const uint8_t *block, size_t block_bytes,
                     uint8_t *state, size_t state_bytes);
int plain_sweep_state(const uint8_t *left_sheet, size_t left_sheet_bytes, const uint8_t *right_sheet, size_t right_sheet_bytes,
                      size_t nl, size_t nr, const uint8_t *wiring, size_t wiring_bytes, uint8_t *state, size_t state_bytes);
int plain_set_bit(const uint8_t *left_sheet, size_t left_sheet_bytes, const uint8_t *right_sheet, size_t right_sheet_bytes,
                  size_t nl, size_t nr, const uint8_t *wiring, size_t wiring_bytes, size_t bit, uint64_t value, uint8_t *state,
                  size_t state_bytes);

/* The first vertex that reads no inner codeword: its side (1 left, 2 right) and its number, both 0 where there is none. */
int plain_locate(const uint8_t *left_sheet, size_t left_sheet_bytes, const uint8_t *right_sheet, size_t right_sheet_bytes,
                 size_t nl, size_t nr, const uint8_t *wiring, size_t wiring_bytes, const uint8_t *block, size_t block_bytes,
                 unsigned *side, size_t *vertex);

/* The maximal runs of bits at which two blocks differ, bit by bit: their number, and offset and length of each in the list. */
int plain_report(const uint8_t *left_sheet, size_t left_sheet_bytes, const uint8_t *right_sheet, size_t right_sheet_bytes,
                 size_t nl, size_t nr, const uint8_t *wiring, size_t wiring_bytes, const uint8_t *received,
                 size_t received_bytes, const uint8_t *settled, size_t settled_bytes, uint8_t *list, size_t list_bytes,
                 size_t *pairs);

/* The spread: for each left vertex the walk over its edges, and over the edges of each right vertex met. */
int plain_spread(const uint8_t *left_sheet, size_t left_sheet_bytes, const uint8_t *right_sheet, size_t right_sheet_bytes,
                 size_t nl, size_t nr, const uint8_t *wiring, size_t wiring_bytes, uint64_t *spread);

/* The library's elimination, written in C: a set of rows for each bit, as eight words of 64. */
int plain_encode(const uint8_t *left_sheet, size_t left_sheet_bytes, const uint8_t *right_sheet, size_t right_sheet_bytes,
                 size_t nl, size_t nr, const uint8_t *wiring, size_t wiring_bytes, const uint8_t *message, size_t message_bytes,
                 uint8_t *output, size_t output_bytes);

#endif
