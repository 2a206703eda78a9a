/* One call of one service: what it takes, what came out of it, how it is made and what it is held to. */
#ifndef CALL_H
#define CALL_H

#include "lembikat.h"
#include "services.h"

#include <stdio.h>
#include <string.h>

#define MAX_EDGES LEMBIKAT_MAX_EDGES
#define MAX_BLOCK LEMBIKAT_MAX_BLOCK_BYTES
#define HEAD LEMBIKAT_STATE_HEAD_BYTES
#define ROOM 139264 /* above every buffer of the stream (70,000) and the longest list of lost spans (131,072) */

typedef struct {
    const uint8_t *data;
    size_t size;
} bytes;

/* A call. What a service does not take is empty. */
typedef struct {
    unsigned service;
    /* LEFT_SHEET: also the one sheet of a service that takes no plan; FIRST: the block, the message or the table; SECOND: the
     * decoder's lost spans or the report's settled block; LENT: the buffer to be written, or the state to be changed */
    bytes field[FIELDS];
    uint64_t nl, nr;
    uint64_t number; /* the word, the limit, the flips or the bit */
    uint64_t value;  /* that the bit is set to */
} call;

/* What came out of it. */
typedef struct {
    lembikat_answer answer;       /* the part that all answers have */
    uint64_t changed;             /* the nearest word's and the look-up's; 0 of the other services */
    uint64_t sweeps;              /* of the calls on a state; 0 of the other services */
    uint16_t sums[LEMBIKAT_SUMS]; /* the decoder's; 0 of the other services */
    uint64_t visits;              /* the decoder's; 0 of the other services */
    uint8_t lent[ROOM];
    const char *trouble; /* what was touched that must not be, or NULL */
} outcome;

/* The outcomes of the last call that was compared. */
extern outcome by_library, by_reference;

/* How many cases there were, and how many of them failed. */
extern size_t cases, failures;

/* Counts a case. Answers whether it failed and is to be shown: after ten failures no more are. */
int failed(int bad);

/* Ends the program: it cannot go on. */
_Noreturn void give_up(const char *why);

/* Memory from the heap, or the program ends. */
void *take(size_t size);

/* Makes a call of the library alone, on the heap. */
void run_library(const call *c, outcome *o);

/* Makes a call of the library in both ways, and of the reference. */
void run_all(const call *c);

int same_outcome(const call *c, const outcome *a, const outcome *b);

/* The same, of bytes: no bytes are the same as no bytes. */
int same_bytes(const uint8_t *a, const uint8_t *b, size_t size);

#define SUMS_ROOM (6 * LEMBIKAT_SUMS) /* five digits and a comma each, a zero at the end */

/* Writes sums as one word: joined by commas, without the zeros at the end. */
void put_sums(char *to, const uint16_t *sums);

/* Prints an outcome, and whose it is. */
void show(const char *who, const call *c, const outcome *o);

/* Makes a call in all ways and compares the library with the reference. The kind and i name the call where they differ. */
void compare(const char *kind, size_t i, const call *c);

/* Say what the last call compared must have answered; a word and how many of its bits are changed; how many vertices it must
 * have visited. */
void must_answer(const char *kind, const call *c, uint32_t number, uint32_t place, uint64_t value);
void must_change(const char *kind, const call *c, uint64_t value, uint64_t changed);
void must_visit(const char *kind, const call *c, uint64_t visits);

#endif
