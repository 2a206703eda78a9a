/* carriers.h: what the example hosts caption_link.c and panel.c share: the plan of a transmitter, the refusals in words, and
 * how bits are counted. */
#ifndef CARRIERS_H
#define CARRIERS_H

#include "lembikat.h"

/* The plan. The transmitter has 16 carriers and sends a block in 8 time slots, a bit on each carrier in each slot: bit
 * carrier * 8 + slot. The left vertices are the carriers; the 8 bits that one sends are a word of the house code, of 4 rows and
 * distance 4. The right vertices are the time slots; the 16 bits sent in one are a word of a code of 7 rows and distance 6.
 * Each carrier has one bit in each slot, so any two carriers meet equally often: the spread is 0, and no other wiring of these
 * sizes covers more flips. */
#define CARRIERS 16
#define SLOTS 8
#define EDGES (CARRIERS * SLOTS)
#define BLOCK_BYTES LEMBIKAT_BLOCK_BYTES(CARRIERS, SLOTS)

static const uint8_t carrier_sheet[] = {SLOTS, 4, 0x00, 0xff, 0x00, 0x0f, 0x00, 0x33, 0x00, 0x55};
static const uint8_t slot_sheet[] = {CARRIERS, 7,    0x03, 0xa3, 0x07, 0x45, 0x0e, 0x89,
                                     0x1d,     0x11, 0x3a, 0x21, 0x74, 0x41, 0xe8, 0x81};
static uint8_t wiring[2 * EDGES];

static inline void lay_wiring(void)
{
    for (unsigned slot = 0; slot < SLOTS; slot++)
        for (unsigned carrier = 0; carrier < CARRIERS; carrier++) {
            unsigned entry = slot * CARRIERS + carrier, edge = carrier * SLOTS + slot;
            wiring[2 * entry] = (uint8_t)(edge >> 8);
            wiring[2 * entry + 1] = (uint8_t)edge;
        }
}

/* Every call takes the plan; it is written down once. */
static const lembikat_plan plan = {
    .left_sheet = carrier_sheet,
    .left_sheet_bytes = sizeof carrier_sheet,
    .right_sheet = slot_sheet,
    .right_sheet_bytes = sizeof slot_sheet,
    .nl = CARRIERS,
    .nr = SLOTS,
    .wiring = wiring,
    .wiring_bytes = sizeof wiring,
};

/* What a technician should be told. */
static inline const char *in_words(uint32_t number)
{
    static const char *const words[] = {
        [LEMBIKAT_DONE] = "done",
        [LEMBIKAT_SHEET_SHORT] = "a sheet has fewer than 2 bytes",
        [LEMBIKAT_DEGREE_OUT_OF_RANGE] = "a sheet's d is not 2 to 16",
        [LEMBIKAT_ROWS_OUT_OF_RANGE] = "a sheet's k is not 1 to 11, or is above d",
        [LEMBIKAT_SHEET_LENGTH_WRONG] = "a sheet's length does not fit its k",
        [LEMBIKAT_ROW_TOO_LARGE] = "this row of a sheet has more than d bits",
        [LEMBIKAT_ROW_DEPENDENT] = "this row of a sheet is made of earlier rows",
        [LEMBIKAT_VERTICES_OUT_OF_RANGE] = "a side's number of vertices is not 1 to 2,048",
        [LEMBIKAT_EDGE_COUNTS_DIFFER] = "the two sides do not have equally many edges",
        [LEMBIKAT_WIRING_LENGTH_WRONG] = "the wiring's length does not fit the plan",
        [LEMBIKAT_ENTRY_TOO_LARGE] = "this entry of the wiring names an edge that is not there",
        [LEMBIKAT_ENTRY_REPEATED] = "this entry of the wiring names an edge that stood before",
        [LEMBIKAT_BLOCK_LENGTH_WRONG] = "the length of the block or the state does not fit the plan",
        [LEMBIKAT_STRAY_BIT] = "a bit after the block's last is set",
        [LEMBIKAT_OUTPUT_SHORT] = "the output buffer, or the state to be loaded, is too short",
        [LEMBIKAT_LIMIT_TOO_LARGE] = "the limit is above 4,096 sweeps",
        [LEMBIKAT_UNSETTLED] = "the block is unsettled after the sweeps allowed",
        [LEMBIKAT_LIST_SHORT] = "the list is too short for the runs",
        [LEMBIKAT_FLIPS_TOO_MANY] = "more flips than the block has bits",
        [LEMBIKAT_FLIPS_NOT_COVERED] = "so many flips are not covered",
        [LEMBIKAT_PLAN_TOO_LARGE] = "the plan is too large for messages",
        [LEMBIKAT_MESSAGE_LENGTH_WRONG] = "the message's length does not fit the plan",
        [LEMBIKAT_MESSAGE_STRAY_BIT] = "a bit after the message's last is set",
        [LEMBIKAT_NO_CODEWORD] = "the block is no codeword",
        [LEMBIKAT_SPANS_LENGTH_WRONG] = "the list of lost spans does not have four bytes a span",
        [LEMBIKAT_SPAN_OUT_OF_BLOCK] = "a lost span has no bits, or some after the block's last",
        [LEMBIKAT_SPAN_OUT_OF_ORDER] = "a lost span begins before the end of the one before it",
        [LEMBIKAT_BIT_TOO_LARGE] = "the block has no such bit",
        [LEMBIKAT_SWEEPS_SPENT] = "the state is unsettled after 4,096 sweeps",
    };
    return number < sizeof words / sizeof words[0] ? words[number] : "unknown";
}

/* Bits are counted alike in blocks, in messages and in the text: bit 0 has weight 128 in byte 0. */
static inline unsigned get_bit(const uint8_t *bytes, size_t bit)
{
    return bytes[bit / 8] >> (7 - bit % 8) & 1;
}

static inline void flip_bit(uint8_t *bytes, size_t bit)
{
    bytes[bit / 8] ^= (uint8_t)(128u >> bit % 8);
}

#endif
