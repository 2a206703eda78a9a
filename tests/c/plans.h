/* The plan that the tests are at, the buffers that they lend, and calls made of these. */
#ifndef PLANS_H
#define PLANS_H

#include "call.h"

/* Bytes and bits as the library lays them out: a pair is two bytes, high byte first; bit 0 has weight 128 in byte 0. */
static inline size_t get_pair(const uint8_t *from, size_t index)
{
    return from[2 * index] * 256u + from[2 * index + 1];
}

static inline void put_pair(uint8_t *to, size_t index, size_t value)
{
    to[2 * index] = (uint8_t)(value >> 8);
    to[2 * index + 1] = (uint8_t)value;
}

static inline unsigned get_bit(const uint8_t *block, size_t bit)
{
    return block[bit / 8] >> (7 - bit % 8) & 1;
}

static inline void flip(uint8_t *block, size_t bit)
{
    block[bit / 8] ^= (uint8_t)(128u >> bit % 8);
}

static inline size_t smaller(size_t a, size_t b)
{
    return a < b ? a : b;
}

static inline size_t larger(size_t a, size_t b)
{
    return a > b ? a : b;
}

size_t common_divisor(size_t a, size_t b);

/* A side of the plan: its inner code and how many vertices it has. */
typedef struct {
    unsigned d, k;
    unsigned row[11];
    size_t n;
} side;

/* Codes: two bits alike; the house code; whatever a vertex reads is a codeword; all d bits alike. */
extern const side pair_code, house_code;
side free_code(unsigned d);
side alike_code(unsigned d);

/* Whether two sides have the same sheet. */
int same_code(const side *a, const side *b);

/* Lists all codewords of a side, up to 2,048. Answers their number. */
size_t all_codewords(const side *s, unsigned *codeword);

/* D, the fewest ones in a nonzero codeword. */
unsigned distance_of(const side *s);

/* A plan without fault, and how its wiring was laid, since a codeword of it is made by that. */
enum { SHUFFLED, RECTANGLES, TWINS, RESIDUES, PLANE };

extern struct plan_under_test {
    side left, right;
    size_t edges, block; /* N, and the bytes of a block */
    int lay;
} plan;

/* What the call under way lends, `second` the decoder's list too, `lent` the state that is to be changed too. Faults are put
 * in here, and the plan above stays as it was. */
extern uint8_t left_sheet[64], right_sheet[64], wiring[ROOM], first[ROOM], second[ROOM], lent[ROOM];

/* Takes both sides as the plan, with n vertices on the left and as many on the right as fit. The wiring is still to be laid. */
void set_plan(side left, side right, size_t n);

/* Takes the code for the services that need one sheet alone. */
void set_sheet(side s);

size_t sheet_size(const side *s);

/* The bytes of a table of the left sheet, and of a state of the plan. */
size_t table_bytes(void);
size_t state_bytes(void);

/* The edges in order: right vertex v reads the bits from v * dr on. */
void lay_in_order(void);

/* Every left vertex shares as many edges with every right vertex as with any other. */
void lay_evenly(void);

/* The edges in a random order. */
void shuffle_wiring(void);

void swap_entries(size_t i, size_t j);

/* The plans whose blocks are few enough to try all. */
#define SMALL_PLANS 5
void set_small_plan(size_t i);

/* Puts a block of up to 16 bits, as a number, into the first buffer. */
void put_small_block(size_t block);

/* Puts a state into the lent buffer: a count and a sweep number, and what stands in the first block. */
void put_state(size_t count, size_t number);

/* A call of the service on the plan, or on its left sheet alone. What it takes beside that is still to be put in. */
call plan_call(unsigned service);

/* A call of the decoder on the plan and on what stands in the first block, of which no bit is lost. */
call decoder_call(uint64_t limit);

/* The plan as the reference takes it. */
lembikat_plan reference_plan(void);

/* The visits of so many sweeps, where these are no more than two or none after the first changes a bit: each side once. */
uint64_t each_side_once(size_t made);

/* The sweeps that the last call compared, of the decoder, has made. */
size_t sweeps_made(const call *c);

#endif
