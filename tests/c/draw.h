/* What is drawn at random. */
#ifndef DRAW_H
#define DRAW_H

#include "plans.h"

/* Starts the draws anew for call i of a seed. Where it is not called they start from a fixed seed. */
void draw_from(uint64_t seed, uint64_t i);

/* Any number; one from 0 to below - 1; 1 in so many cases, else 0; any bytes. */
uint64_t draw64(void);
size_t draw(size_t below);
int one_in(size_t count);
void draw_bytes(uint8_t *to, size_t size);

/* Keeps the first rows of a code and draws the others, so that none is made of earlier ones. */
void draw_rows(side *s, unsigned kept);

/* Takes a plan without fault. For messages: at times as large as a plan with messages can be. Sturdy: with codes of large
 * distance and a wiring that is spread evenly, so that several flips are covered. */
void draw_plan(int for_messages, int sturdy);

/* K of the plan, and a message of as many bits. */
size_t message_bits(void);
void draw_message(uint8_t *message);

/* A codeword of the plan; any block; a block as it might be received. */
void draw_codeword(uint8_t *block);
void draw_noise(uint8_t *block);
void draw_block(uint8_t *block);

/* Loses so many bits, in runs anywhere in the block, and lists them. */
void lose_bits(size_t count, uint8_t *is_lost);

/* A list of lost spans; a state in the lent buffer, of a block in the first one; a table of so many bytes. */
void draw_spans(void);
void draw_state(void);
void draw_table(uint8_t *table, size_t size);

/* The first number of flips that the plan does not cover: no larger one is. The most sweeps are named just below it. */
size_t first_uncovered(void);

#endif
