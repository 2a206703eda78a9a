/* test_stack HEADER: how much stack each call takes, on the largest plan or sheet that it accepts, the decoder also on plans
 * with unequal sides and with lost spans, the sweep of a state on either side of such plans, the building of a table also on
 * the sheet with the most rows; and each call on some hundred small plans or sheets, drawn at random.
 *
 * It is a second opinion: tests/stack.sh works out from the archive's instructions what no call can pass. Here each call runs,
 * in a thread of its own, on a stack that was painted beforehand. What is no longer painted afterwards, down to the lowest byte
 * that was touched, less what a thread that does nothing touches, is the call's and that of the function that makes it. Prints
 * one line a call, `NAME BYTES` and the plan or sheet. The exit status is 1 where a call takes more than HEADER, the library's,
 * gives it, and 1 KiB for the function that makes it; where no run of a call comes within 2 KiB of the header's figure; or where
 * one did not end as it should.
 */
#define _POSIX_C_SOURCE 200809L

#include "lembikat.h"

#include <pthread.h>
#include <stdio.h>
#include <stdlib.h>
#include <string.h>

static void nearest_word(void), build_largest_table(void), build_smallest_table(void), look_up(void);
static void locate(void), report(void), spread(void), margin(void), encode(void), read_block(void);
static void decode(void), decode_two_codes(void), decode_house_right(void), decode_house_left(void);
static void decode_lost(void), decode_lost_two_codes(void);
static void load_state(void), set_bit(void), sweep_left(void), sweep_right(void);
static void sweep_left_of_two_codes(void), sweep_right_of_two_codes(void), sweep_house_right(void), sweep_house_left(void);
static void decode_late_search(void);
static void random_nearest_word(void), random_build_table(void), random_look_up(void), random_locate(void);
static void random_decode(void), random_load_state(void), random_sweep_state(void), random_set_bit(void);
static void random_report(void), random_spread(void), random_margin(void), random_encode(void), random_read(void);

/* The calls, and the number that each must answer here. The decoder's large blocks are such that do not settle, so that it runs
 * its sweeps, of both sides by news too, and writes the received block back. */
static const struct {
    const char *name, *plan;
    uint32_t number;
    void (*run)(void);
} calls[] = {
    {"lembikat_nearest_word", "k 11", LEMBIKAT_DONE, nearest_word},
    {"lembikat_build_table", "k 1", LEMBIKAT_DONE, build_largest_table},
    {"lembikat_build_table", "k 11", LEMBIKAT_DONE, build_smallest_table},
    {"lembikat_look_up", "k 11", LEMBIKAT_DONE, look_up},
    {"lembikat_locate", "largest", LEMBIKAT_DONE, locate},
    {"lembikat_decode", "largest", LEMBIKAT_UNSETTLED, decode},
    {"lembikat_decode", "two codes of k 11", LEMBIKAT_UNSETTLED, decode_two_codes},
    {"lembikat_decode", "k 11, house code", LEMBIKAT_UNSETTLED, decode_house_right},
    {"lembikat_decode", "house code, k 11", LEMBIKAT_UNSETTLED, decode_house_left},
    {"lembikat_decode", "largest, lost spans", LEMBIKAT_UNSETTLED, decode_lost},
    {"lembikat_decode", "two codes of k 11, lost spans", LEMBIKAT_UNSETTLED, decode_lost_two_codes},
    {"lembikat_decode", "12 bits, a search in sweep 3", LEMBIKAT_DONE, decode_late_search},
    {"lembikat_load_state", "largest", LEMBIKAT_DONE, load_state},
    {"lembikat_sweep_state", "largest, left", LEMBIKAT_DONE, sweep_left},
    {"lembikat_sweep_state", "largest, right", LEMBIKAT_DONE, sweep_right},
    {"lembikat_sweep_state", "two codes of k 11, left", LEMBIKAT_DONE, sweep_left_of_two_codes},
    {"lembikat_sweep_state", "two codes of k 11, right", LEMBIKAT_DONE, sweep_right_of_two_codes},
    {"lembikat_sweep_state", "k 11, house code", LEMBIKAT_DONE, sweep_house_right},
    {"lembikat_sweep_state", "house code, k 11", LEMBIKAT_DONE, sweep_house_left},
    {"lembikat_set_bit", "largest", LEMBIKAT_DONE, set_bit},
    {"lembikat_report", "largest", LEMBIKAT_DONE, report},
    {"lembikat_spread", "largest", LEMBIKAT_DONE, spread},
    {"lembikat_margin", "largest", LEMBIKAT_FLIPS_NOT_COVERED, margin},
    {"lembikat_encode", "largest with messages", LEMBIKAT_DONE, encode},
    {"lembikat_read", "largest with messages", LEMBIKAT_DONE, read_block},
    {"lembikat_nearest_word", "random", LEMBIKAT_DONE, random_nearest_word},
    {"lembikat_build_table", "random", LEMBIKAT_DONE, random_build_table},
    {"lembikat_look_up", "random", LEMBIKAT_DONE, random_look_up},
    {"lembikat_locate", "random", LEMBIKAT_DONE, random_locate},
    {"lembikat_decode", "random", LEMBIKAT_DONE, random_decode},
    {"lembikat_load_state", "random", LEMBIKAT_DONE, random_load_state},
    {"lembikat_sweep_state", "random", LEMBIKAT_DONE, random_sweep_state},
    {"lembikat_set_bit", "random", LEMBIKAT_DONE, random_set_bit},
    {"lembikat_report", "random", LEMBIKAT_DONE, random_report},
    {"lembikat_spread", "random", LEMBIKAT_DONE, random_spread},
    {"lembikat_margin", "random", LEMBIKAT_DONE, random_margin},
    {"lembikat_encode", "random", LEMBIKAT_DONE, random_encode},
    {"lembikat_read", "random", LEMBIKAT_DONE, random_read},
};
#define CALLS (sizeof calls / sizeof calls[0])

#define STACK_BYTES (512 * 1024)
#define CALLER_BYTES 1024 /* for the frame of the function here that makes the call, which is in what is measured */
#define D 16
#define SWEEPS 5

/* The inner codes: two of 11 rows, the first of distance 4, the second with other codewords; one of one row, which has the
 * largest table; the house code. */
static const uint8_t sheet[LEMBIKAT_MAX_SHEET_BYTES] = {D,    11,   0xff, 0xff, 0x00, 0xff, 0x0f, 0x0f, 0x33, 0x33, 0x55, 0x55,
                                                        0x00, 0x0f, 0x00, 0x33, 0x00, 0x55, 0x03, 0x03, 0x05, 0x05, 0x11, 0x11};
static const uint8_t other[LEMBIKAT_MAX_SHEET_BYTES] = {D,    11,   0x80, 0x1f, 0x40, 0x2d, 0x20, 0x33, 0x10, 0x47, 0x08, 0x4b,
                                                        0x04, 0x4d, 0x02, 0x53, 0x01, 0x55, 0x00, 0x99, 0x00, 0x07, 0x00, 0x19};
static const uint8_t alike[] = {D, 1, 0xff, 0xff};
#define HOUSE_D 8
static const uint8_t house[] = {HOUSE_D, 4, 0x00, 0xff, 0x00, 0x0f, 0x00, 0x33, 0x00, 0x55};

/* The largest plan of all, the largest that has messages, and the largest with the house code on one side. */
#define LARGE LEMBIKAT_MAX_VERTICES
#define SMALL (LEMBIKAT_MAX_MESSAGE_EDGES / D)
#define HALF (LARGE * HOUSE_D / D) /* the vertices of degree D beside so many of the house code */
static uint8_t large[2 * LARGE * D], small[2 * SMALL * D], mixed[2 * HALF * D];
#define LARGE_PLAN sheet, sizeof sheet, sheet, sizeof sheet, LARGE, LARGE, large, sizeof large
#define SMALL_PLAN sheet, sizeof sheet, sheet, sizeof sheet, SMALL, SMALL, small, sizeof small
#define TWO_CODES sheet, sizeof sheet, other, sizeof other, LARGE, LARGE, large, sizeof large
#define HOUSE_RIGHT sheet, sizeof sheet, house, sizeof house, HALF, LARGE, mixed, sizeof mixed
#define HOUSE_LEFT house, sizeof house, sheet, sizeof sheet, LARGE, HALF, mixed, sizeof mixed

static uint8_t zeros[LEMBIKAT_MAX_BLOCK_BYTES], noise[LEMBIKAT_MAX_BLOCK_BYTES], output[LEMBIKAT_MAX_BLOCK_BYTES];
static const uint8_t lost[] = {LEMBIKAT_SPAN(100, 200), LEMBIKAT_SPAN(5003, 77), LEMBIKAT_SPAN(5080, 1)};
static uint8_t state[LEMBIKAT_MAX_STATE_BYTES];
static uint8_t list[LEMBIKAT_MAX_LIST_BYTES], table[LEMBIKAT_MAX_TABLE_BYTES];
static uint8_t message[LEMBIKAT_MAX_MESSAGE_BYTES], block[LEMBIKAT_MAX_MESSAGE_BYTES];
static size_t message_bytes;
static uint32_t number; /* what the last call answered */

static void nearest_word(void)
{
    number = lembikat_nearest_word(sheet, sizeof sheet, 0xbeef).number;
}

static void build_largest_table(void)
{
    number = lembikat_build_table(alike, sizeof alike, table, LEMBIKAT_TABLE_BYTES(D, 1)).number;
}

static void build_smallest_table(void)
{
    number = lembikat_build_table(sheet, sizeof sheet, table, LEMBIKAT_TABLE_BYTES(D, 11)).number;
}

static void look_up(void)
{
    number = lembikat_look_up(sheet, sizeof sheet, 0xbeef, table, LEMBIKAT_TABLE_BYTES(D, 11)).number;
}

static void locate(void)
{
    number = lembikat_locate(LARGE_PLAN, zeros, sizeof zeros).number; /* a codeword, so that both sides are looked at */
}

static void decode(void)
{
    number = lembikat_decode(LARGE_PLAN, noise, sizeof noise, NULL, 0, output, sizeof output, SWEEPS).number;
}

static void decode_two_codes(void)
{
    number = lembikat_decode(TWO_CODES, noise, sizeof noise, NULL, 0, output, sizeof output, SWEEPS).number;
}

static void decode_house_right(void)
{
    number = lembikat_decode(HOUSE_RIGHT, noise, sizeof mixed / 16, NULL, 0, output, sizeof output, SWEEPS).number;
}

static void decode_house_left(void)
{
    number = lembikat_decode(HOUSE_LEFT, noise, sizeof mixed / 16, NULL, 0, output, sizeof output, SWEEPS).number;
}

/* Two trials, neither of which settles. */
static void decode_lost(void)
{
    number = lembikat_decode(LARGE_PLAN, noise, sizeof noise, lost, sizeof lost, output, sizeof output, SWEEPS).number;
}

static void decode_lost_two_codes(void)
{
    number = lembikat_decode(TWO_CODES, noise, sizeof noise, lost, sizeof lost, output, sizeof output, SWEEPS).number;
}

/* The plan of docs/STREAM.md whose block needs four sweeps: in the third, which goes by news, a word is searched for that no
 * sweep before it met. */
static void decode_late_search(void)
{
    static const uint8_t four[] = {4, 1, 0x00, 0x0f}, six[] = {6, 1, 0x00, 0x3f}, received[] = {0x03, 0x50};
    static const uint8_t wiring[] = {0, 0, 0, 1, 0, 4, 0, 5, 0, 8, 0, 9, 0, 2, 0, 3, 0, 6, 0, 7, 0, 10, 0, 11};
    number = lembikat_decode(four, sizeof four, six, sizeof six, 3, 2, wiring, sizeof wiring, received, sizeof received, NULL,
                             0, output, sizeof output, 4)
                 .number;
}

static void load_state(void)
{
    number = lembikat_load_state(LARGE_PLAN, noise, sizeof noise, state, sizeof state).number;
}

/* A state of noise, anew for each call, since a call changes it. Its count is made up: any but 0 lets a sweep be made. */
static void put_state(uint8_t sweeps)
{
    const uint8_t head[LEMBIKAT_STATE_HEAD_BYTES] = {0, 1, 0, sweeps};
    memcpy(state, head, sizeof head);
    memcpy(state + sizeof head, noise, sizeof noise);
}

static void sweep_left(void)
{
    put_state(0);
    number = lembikat_sweep_state(LARGE_PLAN, state, sizeof state).number;
}

static void sweep_right(void)
{
    put_state(1);
    number = lembikat_sweep_state(LARGE_PLAN, state, sizeof state).number;
}

static void sweep_left_of_two_codes(void)
{
    put_state(0);
    number = lembikat_sweep_state(TWO_CODES, state, sizeof state).number;
}

static void sweep_right_of_two_codes(void)
{
    put_state(1);
    number = lembikat_sweep_state(TWO_CODES, state, sizeof state).number;
}

/* The house code's side is the one that is swept. */
static void sweep_house_right(void)
{
    put_state(1);
    number = lembikat_sweep_state(HOUSE_RIGHT, state, LEMBIKAT_STATE_BYTES(HALF * D)).number;
}

static void sweep_house_left(void)
{
    put_state(0);
    number = lembikat_sweep_state(HOUSE_LEFT, state, LEMBIKAT_STATE_BYTES(HALF * D)).number;
}

static void set_bit(void)
{
    put_state(0);
    number = lembikat_set_bit(LARGE_PLAN, LARGE * D - 1, (noise[sizeof noise - 1] & 1) == 0, state, sizeof state).number;
}

static void report(void)
{
    number = lembikat_report(LARGE_PLAN, zeros, sizeof zeros, noise, sizeof noise, list, sizeof list).number;
}

static void spread(void)
{
    number = lembikat_spread(LARGE_PLAN).number;
}

/* As many flips as half the inner distance: fewer name one sweep, and the spread is not measured for them. */
static void margin(void)
{
    number = lembikat_margin(LARGE_PLAN, 2).number;
}

static void encode(void)
{
    number = lembikat_encode(SMALL_PLAN, message, message_bytes, block, sizeof block).number;
}

static void read_block(void)
{
    number = lembikat_read(SMALL_PLAN, block, sizeof block, message, sizeof message).number;
}

static uint32_t draw(uint32_t below)
{
    static uint32_t state = 2463534242u;
    state ^= state << 13;
    state ^= state >> 17;
    state ^= state << 5;
    return state % below;
}

/* All edges in a random order. */
static void shuffle(uint8_t *wiring, uint32_t edges)
{
    for (uint32_t i = 0; i < edges; i++) {
        uint32_t j = draw(i + 1);
        memcpy(wiring + 2 * i, wiring + 2 * j, 2);
        wiring[2 * j] = (uint8_t)(i >> 8);
        wiring[2 * j + 1] = (uint8_t)i;
    }
}

/* Small plans, drawn at random, with what is asked of them. The noise is any bits, the block a codeword (zeros) with some bits
 * flipped, or noise too. A plan with messages has a message, and the codeword that carries it. */
#define PLANS 600
#define PLAN_EDGES 2048
#define PLAN_BYTES (PLAN_EDGES / 8)
static struct {
    uint8_t left[LEMBIKAT_MAX_SHEET_BYTES], right[LEMBIKAT_MAX_SHEET_BYTES], wiring[2 * PLAN_EDGES];
    lembikat_plan plan;
    size_t edges, bytes, message_bytes, lost_bytes, limit, bit;
    uint8_t block[PLAN_BYTES], noise[PLAN_BYTES], lost[3 * LEMBIKAT_SPAN_BYTES];
    uint8_t message[LEMBIKAT_MAX_MESSAGE_BYTES], carrying[LEMBIKAT_MAX_MESSAGE_BYTES];
    uint64_t word, flips;
} plans[PLANS];

/* A sheet of random independent rows; its length. */
static size_t draw_sheet(uint8_t *to, uint32_t d)
{
    uint32_t k = 1 + draw(d < 11 ? d : 11), rows = 0, reduced[11];
    to[0] = (uint8_t)d;
    to[1] = (uint8_t)k;
    while (rows < k) {
        uint32_t row = draw(1u << d), left = row;
        for (uint32_t i = 0; i < rows; i++)
            if ((left ^ reduced[i]) < left)
                left ^= reduced[i];
        if (left == 0)
            continue;
        reduced[rows] = left;
        to[2 + 2 * rows] = (uint8_t)(row >> 8);
        to[3 + 2 * rows] = (uint8_t)row;
        rows++;
    }
    return 2 + 2 * k;
}

static void draw_plan(size_t p)
{
    uint32_t dl = 2 + draw(15), dr = 2 + draw(15), divisor = dl;
    while (dl % divisor != 0 || dr % divisor != 0)
        divisor--;
    /* the fewest edges that both sides can have, then some times as many: few as often as many */
    uint32_t fewest = dl / divisor * dr, room = PLAN_EDGES >> draw(8);
    uint32_t edges = fewest * (1 + (room > fewest ? draw(room / fewest) : 0));
    plans[p].edges = edges;
    plans[p].bytes = (edges + 7) / 8;
    shuffle(plans[p].wiring, edges);
    size_t left_bytes = draw_sheet(plans[p].left, dl), right_bytes = draw_sheet(plans[p].right, dr);
    if (dl == dr && draw(2) == 0)
        memcpy(plans[p].right, plans[p].left, right_bytes = left_bytes);
    plans[p].plan = (lembikat_plan){plans[p].left, left_bytes, plans[p].right,  right_bytes,
                                    edges / dl,    edges / dr, plans[p].wiring, 2 * edges};
    for (size_t i = 0; i < plans[p].bytes; i++)
        plans[p].noise[i] = (uint8_t)draw(256);
    plans[p].noise[plans[p].bytes - 1] &= (uint8_t)(0xff << (8 * plans[p].bytes - edges));
    if (draw(4) == 0)
        memcpy(plans[p].block, plans[p].noise, plans[p].bytes);
    else
        for (uint32_t flips = draw(2 + edges / 8); flips > 0; flips--) {
            uint32_t bit = draw(edges);
            plans[p].block[bit / 8] ^= (uint8_t)(0x80 >> bit % 8);
        }
    uint32_t from = 0;
    for (uint32_t spans = draw(4); spans > 0 && from < edges; spans--) {
        uint32_t offset = from + draw(edges - from), length = 1 + draw(edges - offset < 20 ? edges - offset : 20);
        const uint8_t span[] = {LEMBIKAT_SPAN(offset, length)};
        memcpy(plans[p].lost + plans[p].lost_bytes, span, sizeof span);
        plans[p].lost_bytes += sizeof span;
        from = offset + length;
    }
    plans[p].limit = draw(65);
    plans[p].bit = draw(edges);
    plans[p].flips = draw(edges < 8 ? edges : 8);
    plans[p].word = draw(1u << dl);
    /* the only length of a message that is not refused is the plan's */
    while (lembikat_plan_encode(&plans[p].plan, plans[p].message, plans[p].message_bytes, plans[p].carrying,
                                sizeof plans[p].carrying)
               .number == LEMBIKAT_MESSAGE_LENGTH_WRONG)
        plans[p].message_bytes++;
}

/* What the random plans answered: a number that is neither of the two expected, else LEMBIKAT_DONE if one of them was done. */
static int any_done;

static void expect(uint32_t answered, uint32_t otherwise)
{
    if (answered == LEMBIKAT_DONE)
        any_done = 1;
    else if (answered != otherwise && number == LEMBIKAT_DONE)
        number = answered;
}

/* One call on every plan p. */
#define ON_EVERY_PLAN(otherwise, call)                                                                                         \
    number = LEMBIKAT_DONE;                                                                                                    \
    any_done = 0;                                                                                                              \
    for (size_t p = 0; p < PLANS; p++)                                                                                         \
        expect((call).number, otherwise);                                                                                      \
    if (!any_done)                                                                                                             \
        number = otherwise;

static void random_nearest_word(void)
{
    ON_EVERY_PLAN(LEMBIKAT_DONE, lembikat_nearest_word(plans[p].left, plans[p].plan.left_sheet_bytes, plans[p].word))
}

static void random_build_table(void)
{
    ON_EVERY_PLAN(LEMBIKAT_DONE, lembikat_build_table(plans[p].left, plans[p].plan.left_sheet_bytes, table, sizeof table))
}

/* The table is any bytes. */
static void random_look_up(void)
{
    ON_EVERY_PLAN(LEMBIKAT_DONE,
                  lembikat_look_up(plans[p].left, plans[p].plan.left_sheet_bytes, plans[p].word, table, sizeof table))
}

static void random_locate(void)
{
    ON_EVERY_PLAN(LEMBIKAT_DONE, lembikat_plan_locate(&plans[p].plan, plans[p].block, plans[p].bytes))
}

static void random_decode(void)
{
    ON_EVERY_PLAN(LEMBIKAT_UNSETTLED, lembikat_plan_decode(&plans[p].plan, plans[p].block, plans[p].bytes, plans[p].lost,
                                                           plans[p].lost_bytes, output, sizeof output, plans[p].limit))
}

static void random_load_state(void)
{
    ON_EVERY_PLAN(LEMBIKAT_DONE, lembikat_plan_load_state(&plans[p].plan, plans[p].block, plans[p].bytes, state, sizeof state))
}

/* The state of a plan's block, after some sweeps as it claims. */
static uint8_t *state_of(size_t p)
{
    put_state((uint8_t)plans[p].limit);
    memcpy(state + LEMBIKAT_STATE_HEAD_BYTES, plans[p].block, plans[p].bytes);
    return state;
}

static void random_sweep_state(void)
{
    ON_EVERY_PLAN(LEMBIKAT_DONE, lembikat_plan_sweep_state(&plans[p].plan, state_of(p), LEMBIKAT_STATE_BYTES(plans[p].edges)))
}

static void random_set_bit(void)
{
    ON_EVERY_PLAN(LEMBIKAT_DONE,
                  lembikat_plan_set_bit(&plans[p].plan, plans[p].bit, p % 2, state_of(p), LEMBIKAT_STATE_BYTES(plans[p].edges)))
}

static void random_report(void)
{
    ON_EVERY_PLAN(LEMBIKAT_DONE, lembikat_plan_report(&plans[p].plan, plans[p].block, plans[p].bytes, plans[p].noise,
                                                      plans[p].bytes, list, sizeof list))
}

static void random_spread(void)
{
    ON_EVERY_PLAN(LEMBIKAT_DONE, lembikat_plan_spread(&plans[p].plan))
}

static void random_margin(void)
{
    ON_EVERY_PLAN(LEMBIKAT_FLIPS_NOT_COVERED, lembikat_plan_margin(&plans[p].plan, plans[p].flips))
}

static void random_encode(void)
{
    ON_EVERY_PLAN(LEMBIKAT_PLAN_TOO_LARGE, lembikat_plan_encode(&plans[p].plan, plans[p].message, plans[p].message_bytes,
                                                                plans[p].carrying, sizeof plans[p].carrying))
}

static void random_read(void)
{
    ON_EVERY_PLAN(LEMBIKAT_PLAN_TOO_LARGE,
                  lembikat_plan_read(&plans[p].plan, plans[p].carrying, plans[p].bytes, message, sizeof message))
}

static void nothing(void)
{
}

/* The host's two functions that the library calls, or two that do nothing: what the former touch and the latter do not is
 * theirs, beyond the return address. */
static void *fill_nothing(void *to, int value, size_t bytes)
{
    (void)value, (void)bytes;
    return to;
}

static void *copy_nothing(void *to, const void *from, size_t bytes)
{
    (void)from, (void)bytes;
    return to;
}

static void *(*volatile fill)(void *, int, size_t) = memset;
static void *(*volatile copy)(void *, const void *, size_t) = memcpy;

static void fill_and_copy(void)
{
    for (size_t bytes = 0; bytes <= sizeof table; bytes += bytes < 1024 ? 1 : 1021) {
        fill(table, 0, bytes);
        copy(list, table, bytes);
    }
}

static void *thread_body(void *run)
{
    (*(void (**)(void))run)();
    return NULL;
}

/* The bytes from the top of the stack to the lowest that was touched, for one colour of the paint. */
static size_t touched(uint8_t *stack, int paint, void (*run)(void))
{
    pthread_attr_t attributes;
    pthread_t thread;
    memset(stack, paint, STACK_BYTES);
    if (pthread_attr_init(&attributes) != 0 || pthread_attr_setstack(&attributes, stack, STACK_BYTES) != 0 ||
        pthread_create(&thread, &attributes, thread_body, &run) != 0 || pthread_join(thread, NULL) != 0) {
        fprintf(stderr, "test_stack: no thread\n");
        exit(1);
    }
    pthread_attr_destroy(&attributes);
    size_t lowest = 0;
    while (lowest < STACK_BYTES && stack[lowest] == paint)
        lowest++;
    return STACK_BYTES - lowest;
}

/* A byte that was written with the colour of the paint would be missed; with two colours one of them shows it. */
static size_t stack_of(uint8_t *stack, void (*run)(void))
{
    size_t one = touched(stack, 0xa5, run), other = touched(stack, 0x5a, run);
    return one > other ? one : other;
}

/* The header's text. */
static char header[128 * 1024];

/* The bytes that the header gives a call: the last sentence on the stack before the call's declaration; 0 where there is none.
 */
static size_t allowed(const char *name)
{
    static const char sentence[] = "Stack: at most ";
    char declaration[64];
    snprintf(declaration, sizeof declaration, " %s(", name);
    const char *end = strstr(header, declaration);
    size_t kib = 0;
    for (const char *at = header; end != NULL && (at = strstr(at, sentence)) != NULL && at < end; at += sizeof sentence - 1)
        kib = strtoul(at + sizeof sentence - 1, NULL, 10);
    return 1024 * kib;
}

int main(int argc, char **argv)
{
    int bad = 0;
    uint8_t *stack = aligned_alloc(4096, STACK_BYTES);
    FILE *file = argc == 2 ? fopen(argv[1], "r") : NULL;
    if (stack == NULL || file == NULL || fread(header, 1, sizeof header - 1, file) == 0) {
        fprintf(stderr, "test_stack: no memory, or no header: test_stack HEADER\n");
        return 1;
    }
    fclose(file);
    shuffle(large, LARGE * D);
    shuffle(small, SMALL * D);
    shuffle(mixed, HALF * D);
    for (size_t i = 0; i < sizeof noise; i++)
        noise[i] = (uint8_t)draw(256);
    /* The only length of a message that is not refused is the plan's. */
    while (lembikat_encode(SMALL_PLAN, message, message_bytes, block, sizeof block).number == LEMBIKAT_MESSAGE_LENGTH_WRONG)
        message_bytes++;
    message[0] = 0xb7;
    for (size_t p = 0; p < PLANS; p++)
        draw_plan(p);

    /* Each call once beforehand: what the first call of a function outside takes to find it is not the library's. */
    for (size_t i = 0; i < CALLS; i++)
        calls[i].run();
    fill_and_copy();
    size_t empty = stack_of(stack, nothing), most[CALLS], of_host = stack_of(stack, fill_and_copy);
    fill = fill_nothing;
    copy = copy_nothing;
    of_host -= stack_of(stack, fill_and_copy);
    printf("memset and memcpy of the host %zu\n", of_host);
    for (size_t i = 0; i < CALLS; i++) {
        size_t used = stack_of(stack, calls[i].run);
        used = used > empty ? used - empty : 0;
        printf("%s %zu (%s)\n", calls[i].name, used, calls[i].plan);
        if (used > allowed(calls[i].name) + CALLER_BYTES + of_host) {
            printf("FAILED: %s is allowed %zu\n", calls[i].name, allowed(calls[i].name));
            bad = 1;
        }
        if (number != calls[i].number) {
            printf("FAILED: %s answered %u instead of %u\n", calls[i].name, number, calls[i].number);
            bad = 1;
        }
        most[i] = used;
    }
    /* Where no run comes near what the header gives, the runs miss a call's deepest way, or the header gives too much. */
    for (size_t i = 0; i < CALLS; i++) {
        size_t largest = 0, rows_before = 0;
        for (size_t j = 0; j < CALLS; j++)
            if (strcmp(calls[j].name, calls[i].name) == 0) {
                largest = most[j] > largest ? most[j] : largest;
                rows_before += j < i;
            }
        if (rows_before == 0 && largest + 2048 < allowed(calls[i].name)) {
            printf("FAILED: %s comes to no more than %zu of %zu\n", calls[i].name, largest, allowed(calls[i].name));
            bad = 1;
        }
    }
    free(stack);
    return bad;
}
