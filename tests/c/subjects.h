/* The subjects of the tests, each in a file of its own, and what one subject lends to others. */
#ifndef SUBJECTS_H
#define SUBJECTS_H

#include "draw.h"

/* stream.c: every record of a stream of calls, against the lines that it must give. */
void stored_stream(const char *stream_name, const char *expected_name);

/* Prints a call as a record of the stream, in hexadecimal. */
void show_record(const call *c);

/* words.c: words and tables. */
void word_calls(void);
void table_calls(void);

/* A word of the sheet looked up in the first buffer, of which so many bytes are lent. */
call look_up_call(uint64_t word, size_t size);

/* faults.c: every count with every other one, every fault alone and with every other one. */
void count_calls(void);
void fault_calls(void);

/* A fault: the refusal and its place, the services that look for it, and what to change in a whole call on the small plan. */
typedef struct {
    uint32_t number, place;
    unsigned services;
    enum { SIZE, GROWTH, BYTE, PAIR, FLIP, LEFT_COUNT, RIGHT_COUNT, CALL_NUMBER, NOTHING } change;
    int field;    /* of SIZE, GROWTH, BYTE, PAIR, FLIP */
    size_t at;    /* the byte of BYTE and PAIR, the bit of FLIP */
    size_t value; /* GROWTH by SIZE_MAX is a byte less */
} fault;

extern const fault faults[];
extern const size_t fault_count;

/* A whole call of the service on so many times the small plan, without a fault; and a fault put into a call. */
call small_call(unsigned service, size_t times);
void put_fault(call *c, const fault *f);

/* sweeps.c: chains, sums, lone vertices, sheets, ties, noise. */
void chain_calls(void);
void largest_sums(void);
void lone_vertex_calls(void);
void sheet_calls(void);
void tie_calls(void);
void noise_calls(void);

/* Lays a chain of so many vertices a side, and puts a block on it that settles only after 2n sweeps, or after 2n + 1 where the
 * chain begins at a right vertex. */
void lay_chain(size_t n, int right_first);

/* spans.c: lost spans. */
void span_calls(void);

/* The list of lost spans under way is in the second buffer: its bytes, one span more, a list of one span. */
extern size_t lost_size;
void add_span(size_t offset, size_t length);
void lose(size_t offset, size_t length);

/* A call of the decoder on the plan, on what stands in the first block and on the list. */
call lost_call(uint64_t limit);

/* How the trials of a call end, and which of them is kept. */
enum { NEITHER_SETTLES, ZEROS_ALONE, ONES_ALONE, ZEROS_CHANGE_FEWER, ONES_CHANGE_FEWER, EQUALLY_MANY, TRIAL_ENDS };

/* Holds a decoder call with a list, which was just compared, to two calls without one. Answers how these ended. */
int must_keep_a_trial(const char *kind, const call *c);

/* In how many calls that ended so the trials visited different numbers of vertices. */
extern size_t visits_apart[TRIAL_ENDS];

/* states.c: states, call by call. */
void state_calls(void);

/* Calls on what stands in the first block and on the state in the lent buffer, of which so many bytes are lent. */
call load_call(size_t size);
call sweep_call(size_t size);
call set_call(uint64_t bit, uint64_t value, size_t size);

/* How many vertices of the plan a block leaves unsatisfied, as the reference counts them. */
size_t true_count(const uint8_t *block);

/* Say what the last call compared must have shown, count and sweep number; that it left the lent buffer as it was. */
void must_show(const char *kind, const call *c, size_t count, size_t sweeps);
void must_leave(const char *kind, const call *c);

/* walks.c: states that are swept to the end, against the decoder. */
void walk_calls(void);
void random_walks(void);

/* visits.c: how many vertices the decoder visits. */
void visits_calls(void);

/* margins.c: the borders of the margin, and what it promises of codewords within it. */
void border_calls(void);
void restored_calls(void);
void bounded_calls(void);

/* spoil.c: puts a random fault into a call on the plan. */
void spoil(call *c);

/* random.c: the gate's random calls, from where the draws are. */
void random_calls(void);

/* Draws a call, now and then with faults, compares it and takes down how it ended. i names it where it differs. */
call random_call(size_t i);

/* Prints how the random calls ended. Where all are due, a way of ending that none of them took is a failure. */
void show_random_calls(size_t calls, int all_due);

#endif
