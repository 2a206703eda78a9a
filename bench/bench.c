/* The library beside plain C, on the same inputs in one run: medians of repeated runs, and their ratio (above 1: the library
   is faster); of a decoder call also the vertices visited. With the argument `check` every pair of answers is compared and
   nothing is timed. Compiled with EXPERT and linked with an expert's decoder (`make bench EXPERT=its file`), it shows that
   decoder too, and how many times its time the library takes. */
#define _POSIX_C_SOURCE 200809L /* for clock_gettime */

#include "lembikat.h"
#include "plain.h"

#include <stdio.h>
#include <stdlib.h>
#include <string.h>
#include <time.h>

#ifdef EXPERT
/* The expert's decoder. Its answer is laid out as the library's is. */
lembikat_decode_answer expert_decode8(const uint8_t *left_sheet, size_t left_sheet_bytes, const uint8_t *right_sheet,
                                      size_t right_sheet_bytes, size_t nl, size_t nr, const uint8_t *wiring,
                                      size_t wiring_bytes, const uint8_t *received, size_t received_bytes, const uint8_t *lost,
                                      size_t lost_bytes, uint8_t *output, size_t output_bytes, size_t limit);
#endif

#define MAX_EDGES 32768
#define RUNS 25

/* An inner code, by the rows of its sheet. */
typedef struct {
    unsigned d, k;
    unsigned row[11];
} code;

typedef struct {
    code code;
    size_t n;
    uint8_t sheet[24];
    size_t sheet_bytes;
} side;

typedef struct {
    const char *name;
    side left, right;
    uint8_t wiring[2 * MAX_EDGES];
    uint8_t sent[MAX_EDGES / 8];
} plan;

static int timing = 1;
static uint64_t seed = 0x9e3779b97f4a7c15u;

static uint32_t draw(uint32_t below)
{
    seed ^= seed << 13;
    seed ^= seed >> 7;
    seed ^= seed << 17;
    return (uint32_t)((seed >> 16) % below);
}

static void shuffle(uint16_t *list, size_t size)
{
    for (size_t i = 0; i + 1 < size; i++) {
        size_t j = i + draw((uint32_t)(size - i));
        uint16_t kept = list[i];
        list[i] = list[j];
        list[j] = kept;
    }
}

static void put_pair(uint8_t *bytes, unsigned value)
{
    bytes[0] = (uint8_t)(value >> 8);
    bytes[1] = (uint8_t)value;
}

static void flip(uint8_t *block, size_t bit)
{
    block[bit / 8] ^= (uint8_t)(128u >> (bit % 8));
}

/* The house code; the code of the example host's time slots; sixteen bits alike; Reed-Muller codes of length 16, the first k
   rows of one list. With 5 rows the all-ones word stands in the middle of the list of codewords. */
static const code house = {8, 4, {0xff, 0x0f, 0x33, 0x55}};
static const code slots = {16, 7, {0x03a3, 0x0745, 0x0e89, 0x1d11, 0x3a21, 0x7441, 0xe881}};
static const code k_1 = {16, 1, {0xffff}};
static const code k_5 = {16, 5, {0x5555, 0x3333, 0x0f0f, 0x00ff, 0xffff}};
static const code k_11 = {16, 11, {0x5555, 0x3333, 0x0f0f, 0x00ff, 0xffff, 0x1111, 0x0505, 0x0303, 0x0055, 0x0033, 0x000f}};

static void set_side(side *s, const code *c, size_t n)
{
    s->code = *c;
    s->n = n;
    s->sheet[0] = (uint8_t)c->d;
    s->sheet[1] = (uint8_t)c->k;
    for (unsigned i = 0; i < c->k; i++)
        put_pair(s->sheet + 2 + 2 * i, c->row[i]);
    s->sheet_bytes = 2 + 2 * c->k;
}

/* So many rectangles, their vertices shuffled over both sides. Each has dr lines of dl bits, the left vertices, and dl columns
   of dr bits, the right ones. A random product word is sent in each. */
static void set_rectangles(plan *p, const char *name, const code *left_code, const code *right_code, size_t rectangles)
{
    static uint16_t left[2048], right[2048];
    unsigned dl = left_code->d, dr = right_code->d;
    p->name = name;
    set_side(&p->left, left_code, rectangles * dr);
    set_side(&p->right, right_code, rectangles * dl);
    memset(p->sent, 0, sizeof p->sent);
    for (size_t u = 0; u < p->left.n; u++)
        left[u] = (uint16_t)u;
    for (size_t v = 0; v < p->right.n; v++)
        right[v] = (uint16_t)v;
    shuffle(left, p->left.n);
    shuffle(right, p->right.n);
    for (size_t r = 0; r < rectangles; r++)
        for (unsigned i = 0; i < dl; i++)
            for (unsigned j = 0; j < dr; j++)
                put_pair(p->wiring + 2 * (right[r * dl + i] * dr + j), left[r * dr + j] * dl + i);
    for (size_t r = 0; r < rectangles; r++) {
        for (unsigned terms = 0; terms < left_code->k + right_code->k; terms++) {
            unsigned line = left_code->row[draw(left_code->k)];
            unsigned column = right_code->row[draw(right_code->k)];
            for (unsigned j = 0; j < dr; j++)
                for (unsigned i = 0; i < dl; i++)
                    if ((line >> (dl - 1 - i)) & (column >> (dr - 1 - j)) & 1u)
                        flip(p->sent, left[r * dr + j] * dl + i);
        }
    }
}

/* Squares of one code, n vertices a side. */
static void set_squares(plan *p, const char *name, const code *c, size_t n)
{
    set_rectangles(p, name, c, c, n / c->d);
}

/* The 31 points and the 31 complements of hyperplanes of a projective space: 16 on each, any two share 8. All ones are sent. */
static void set_design(plan *p, const char *name)
{
    unsigned used[32] = {0};
    size_t entry = 0;
    p->name = name;
    set_side(&p->left, &k_5, 31);
    set_side(&p->right, &k_5, 31);
    for (unsigned v = 1; v < 32; v++)
        for (unsigned u = 1; u < 32; u++)
            if (__builtin_parity(u & v))
                put_pair(p->wiring + 2 * entry++, (u - 1) * 16 + used[u]++);
    memset(p->sent, 0xff, 62);
}

static double seconds(void)
{
    struct timespec t;
    clock_gettime(CLOCK_MONOTONIC, &t);
    return (double)t.tv_sec + 1e-9 * (double)t.tv_nsec;
}

static int by_value(const void *a, const void *b)
{
    double x = *(const double *)a, y = *(const double *)b;
    return x < y ? -1 : x > y;
}

/* The received block, the spans lost of it, none but in the rows that say so, and the most sweeps, 20 but in such rows. */
#define USUAL_LIMIT 20
static size_t limit = USUAL_LIMIT;
static uint8_t lost[LEMBIKAT_SPAN_BYTES];
static size_t lost_bytes;
static uint8_t received[MAX_EDGES / 8], mine[MAX_EDGES / 8], theirs[MAX_EDGES / 8];
static uint8_t message[64];
static size_t message_bytes;
static uint64_t word;

/* What the calls tell beside the value: the decoder its sums and visits, the nearest word and the look-up the bits changed as
   the first of the sums. */
static uint16_t my_sums[LEMBIKAT_SUMS], their_sums[LEMBIKAT_SUMS];
static uint64_t my_visits, their_visits;

#define PLAN                                                                                                                   \
    p->left.sheet, p->left.sheet_bytes, p->right.sheet, p->right.sheet_bytes, p->left.n, p->right.n, p->wiring, 2 * edges(p)

/* A call and its answer as one number: the refusal, and the value. */
typedef uint64_t (*work)(const plan *p);

static size_t edges(const plan *p)
{
    return p->left.n * p->left.code.d;
}

static size_t block_bytes(const plan *p)
{
    return LEMBIKAT_BLOCK_BYTES(p->left.n, p->left.code.d);
}

static uint64_t library_decodes(const plan *p)
{
    lembikat_decode_answer a = lembikat_decode(PLAN, received, block_bytes(p), lost, lost_bytes, mine, block_bytes(p), limit);
    memcpy(my_sums, a.sums, sizeof my_sums);
    my_visits = a.visits;
    return a.number * 65536u + a.value;
}

static uint64_t plain_decodes(const plan *p)
{
    size_t sweeps = 0;
    int number = plain_decode(PLAN, received, block_bytes(p), lost, lost_bytes, theirs, block_bytes(p), limit, &sweeps,
                              their_sums, &their_visits);
    return (uint64_t)number * 65536u + sweeps;
}

static uint64_t expert_decodes(const plan *p)
{
#ifdef EXPERT
    lembikat_decode_answer a = expert_decode8(PLAN, received, block_bytes(p), lost, lost_bytes, theirs, block_bytes(p), limit);
    memcpy(their_sums, a.sums, sizeof their_sums);
    their_visits = a.visits;
    return a.number * 65536u + a.value;
#else
    (void)p;
    return 0;
#endif
}

static uint64_t library_finds(const plan *p)
{
    lembikat_word_answer a = lembikat_nearest_word(p->left.sheet, p->left.sheet_bytes, word);
    my_sums[0] = (uint16_t)a.changed;
    return a.number * 65536u + a.value;
}

static uint64_t plain_finds(const plan *p)
{
    uint64_t nearest = 0, changed = 0;
    int number = plain_nearest_word(p->left.sheet, p->left.sheet_bytes, word, &nearest, &changed);
    their_sums[0] = (uint16_t)changed;
    return (uint64_t)number * 65536u + nearest;
}

/* The table that is built, the library's for the look-up too. */
static uint8_t my_table[LEMBIKAT_MAX_TABLE_BYTES], their_table[LEMBIKAT_MAX_TABLE_BYTES];

static size_t table_bytes(const plan *p)
{
    return LEMBIKAT_TABLE_BYTES(p->left.code.d, p->left.code.k);
}

static uint64_t library_builds(const plan *p)
{
    return lembikat_build_table(p->left.sheet, p->left.sheet_bytes, my_table, table_bytes(p)).number * 65536u;
}

static uint64_t plain_builds(const plan *p)
{
    return (uint64_t)plain_build_table(p->left.sheet, p->left.sheet_bytes, their_table, table_bytes(p)) * 65536u;
}

static uint64_t folded_builds(const plan *p)
{
    return (uint64_t)folded_build_table(p->left.sheet, p->left.sheet_bytes, their_table, table_bytes(p)) * 65536u;
}

static uint64_t library_looks_up(const plan *p)
{
    lembikat_word_answer a = lembikat_look_up(p->left.sheet, p->left.sheet_bytes, word, my_table, table_bytes(p));
    my_sums[0] = (uint16_t)a.changed;
    return a.number * 65536u + a.value;
}

static uint64_t plain_looks_up(const plan *p)
{
    uint64_t found = 0, changed = 0;
    int number = plain_look_up(p->left.sheet, p->left.sheet_bytes, word, my_table, table_bytes(p), &found, &changed);
    their_sums[0] = (uint16_t)changed;
    return (uint64_t)number * 65536u + found;
}

/* What the locator, the report, the spread and the calls on a state find, and the report's list. */
static uint64_t my_value, their_value;
static uint8_t my_list[LEMBIKAT_MAX_LIST_BYTES], their_list[LEMBIKAT_MAX_LIST_BYTES];

static uint64_t library_locates(const plan *p)
{
    lembikat_answer a = lembikat_locate(PLAN, received, block_bytes(p));
    my_value = a.place * 65536u + a.value;
    return a.number * 65536u;
}

static uint64_t plain_locates(const plan *p)
{
    unsigned side = 0;
    size_t vertex = 0;
    int number = plain_locate(PLAN, received, block_bytes(p), &side, &vertex);
    their_value = side * 65536u + vertex;
    return (uint64_t)number * 65536u;
}

/* A state, which each call on one gets anew, since it changes it; the bit that is set is turned. What the library's answer
   tells of the state is held to what stands in plain C's. */
static uint8_t fresh_state[LEMBIKAT_MAX_STATE_BYTES], my_state[LEMBIKAT_MAX_STATE_BYTES], their_state[LEMBIKAT_MAX_STATE_BYTES];
static size_t turned_bit;
static uint64_t turned_to;

static size_t state_bytes(const plan *p)
{
    return LEMBIKAT_STATE_BYTES(edges(p));
}

static uint64_t library_tells(lembikat_state_answer a)
{
    my_value = a.value * 65536u + a.sweeps;
    return a.number * 65536u;
}

static uint64_t plain_tells(int number)
{
    their_value = their_state[0] * 16777216u + their_state[1] * 65536u + their_state[2] * 256u + their_state[3];
    return (uint64_t)number * 65536u;
}

static uint64_t library_loads(const plan *p)
{
    return library_tells(lembikat_load_state(PLAN, received, block_bytes(p), my_state, state_bytes(p)));
}

static uint64_t plain_loads(const plan *p)
{
    return plain_tells(plain_load_state(PLAN, received, block_bytes(p), their_state, state_bytes(p)));
}

static uint64_t library_sweeps(const plan *p)
{
    memcpy(my_state, fresh_state, state_bytes(p));
    return library_tells(lembikat_sweep_state(PLAN, my_state, state_bytes(p)));
}

static uint64_t plain_sweeps(const plan *p)
{
    memcpy(their_state, fresh_state, state_bytes(p));
    return plain_tells(plain_sweep_state(PLAN, their_state, state_bytes(p)));
}

static uint64_t library_sets(const plan *p)
{
    memcpy(my_state, fresh_state, state_bytes(p));
    return library_tells(lembikat_set_bit(PLAN, turned_bit, turned_to, my_state, state_bytes(p)));
}

static uint64_t plain_sets(const plan *p)
{
    memcpy(their_state, fresh_state, state_bytes(p));
    return plain_tells(plain_set_bit(PLAN, turned_bit, turned_to, their_state, state_bytes(p)));
}

static uint64_t library_reports(const plan *p)
{
    lembikat_answer a = lembikat_report(PLAN, received, block_bytes(p), p->sent, block_bytes(p), my_list, sizeof my_list);
    my_value = a.value;
    return a.number * 65536u;
}

static uint64_t plain_reports(const plan *p)
{
    size_t pairs = 0;
    int number = plain_report(PLAN, received, block_bytes(p), p->sent, block_bytes(p), their_list, sizeof their_list, &pairs);
    their_value = pairs;
    return (uint64_t)number * 65536u;
}

static uint64_t library_spreads(const plan *p)
{
    lembikat_answer a = lembikat_spread(PLAN);
    my_value = a.value;
    return a.number * 65536u;
}

static uint64_t plain_spreads(const plan *p)
{
    int number = plain_spread(PLAN, &their_value);
    return (uint64_t)number * 65536u;
}

static uint64_t library_encodes(const plan *p)
{
    return lembikat_encode(PLAN, message, message_bytes, mine, block_bytes(p)).number * 65536u;
}

static uint64_t plain_encodes(const plan *p)
{
    return (uint64_t)plain_encode(PLAN, message, message_bytes, theirs, block_bytes(p)) * 65536u;
}

/* The mean time of one call over enough calls to fill a millisecond. */
static double timed(work call, const plan *p, unsigned *calls)
{
    for (;;) {
        double began = seconds();
        for (unsigned i = 0; i < *calls; i++)
            call(p);
        double took = seconds() - began;
        if (took >= 1e-3)
            return took / *calls;
        *calls *= 2;
    }
}

#ifdef EXPERT
static const int with_expert = 1;
#else
static const int with_expert = 0;
#endif

static int differ(const plan *p, uint64_t says, uint64_t other)
{
    return says != other || my_value != their_value || memcmp(mine, theirs, block_bytes(p)) != 0 ||
           memcmp(my_sums, their_sums, sizeof my_sums) != 0 || my_visits != their_visits ||
           memcmp(my_list, their_list, sizeof my_list) != 0 || memcmp(my_table, their_table, sizeof my_table) != 0 ||
           memcmp(my_state, their_state, sizeof my_state) != 0;
}

/* One line of the table. Answers whether the two differ. */
static int row(const plan *p, const char *input, work library, work plain)
{
    double a[RUNS], b[RUNS], c[RUNS];
    unsigned calls_a = 1, calls_b = 1, calls_c = 1;
    int expert = with_expert && library == library_decodes;
    memset(my_sums, 0, sizeof my_sums);
    memset(their_sums, 0, sizeof their_sums);
    my_value = their_value = my_visits = their_visits = 0;
    uint64_t says = library(p);
    if (differ(p, says, plain(p)) || (expert && differ(p, says, expert_decodes(p)))) {
        printf("%s, %s: the library and plain C differ\n", p->name, input);
        return 1;
    }
    if (!timing) {
        printf("%s, %s: the same\n", p->name, input);
        return 0;
    }
    for (int i = 0; i < RUNS; i++) {
        a[i] = timed(library, p, &calls_a);
        b[i] = timed(plain, p, &calls_b);
        c[i] = expert ? timed(expert_decodes, p, &calls_c) : 0;
    }
    qsort(a, RUNS, sizeof *a, by_value);
    qsort(b, RUNS, sizeof *b, by_value);
    qsort(c, RUNS, sizeof *c, by_value);
    char ends[24], visited[24] = "";
    if (library == library_decodes)
        snprintf(visited, sizeof visited, "%llu", (unsigned long long)my_visits);
    if (says >= 65536)
        snprintf(ends, sizeof ends, "refused %u", (unsigned)(says / 65536));
    else if (library == library_encodes)
        snprintf(ends, sizeof ends, "encoded");
    else if (library == library_builds)
        snprintf(ends, sizeof ends, "built");
    else if (library == library_finds || library == library_looks_up)
        snprintf(ends, sizeof ends, "%u changed", my_sums[0]);
    else if (library == library_loads || library == library_sweeps || library == library_sets)
        snprintf(ends, sizeof ends, "count %u", (unsigned)(my_value / 65536u));
    else if (library == library_locates)
        snprintf(ends, sizeof ends, "%s", my_value ? "located" : "nowhere");
    else if (library == library_reports)
        snprintf(ends, sizeof ends, "%u runs", (unsigned)my_value);
    else if (library == library_spreads)
        snprintf(ends, sizeof ends, "R %u", (unsigned)my_value);
    else
        snprintf(ends, sizeof ends, "%u sweep%s", (unsigned)says, says == 1 ? "" : "s");
    double mine_us = 1e6 * a[RUNS / 2], plain_us = 1e6 * b[RUNS / 2], expert_us = 1e6 * c[RUNS / 2];
    printf("%-22s %-22s %-11s %8s %12.2f %12.2f %8.2f", p->name, input, ends, visited, plain_us, mine_us, plain_us / mine_us);
    if (expert)
        printf(" %12.2f %8.2f", expert_us, mine_us / expert_us);
    printf("\n");
    fflush(stdout);
    return 0;
}

static void damage(const plan *p, unsigned flips)
{
    static uint16_t order[MAX_EDGES];
    memcpy(received, p->sent, block_bytes(p));
    for (size_t i = 0; i < edges(p); i++)
        order[i] = (uint16_t)i;
    shuffle(order, edges(p));
    for (unsigned i = 0; i < flips; i++)
        flip(received, order[i]);
}

/* The decoder on the codeword sent with no, few and many flips, and on random bits, which as a rule do not settle. The zero
   block stands apart, as plain C's best case: its search for a codeword ends at the first word of the list at every vertex. */
static int decoder_rows(const plan *p, unsigned few, unsigned many)
{
    unsigned flips[3] = {0, few, many};
    char input[24];
    int failed = 0;
    for (int f = 0; f < 3; f++) {
        damage(p, flips[f]);
        snprintf(input, sizeof input, "%u flips", flips[f]);
        failed |= row(p, input, library_decodes, plain_decodes);
    }
    memset(received, 0, block_bytes(p));
    failed |= row(p, "zero block", library_decodes, plain_decodes);
    for (size_t i = 0; i < edges(p); i++)
        if (draw(2))
            flip(received, i);
    return failed | row(p, "random bits", library_decodes, plain_decodes);
}

/* Most vertices damaged: where many bits are flipped a plan's time goes into finding nearest words. */
static int damaged_row(const plan *p, unsigned flips)
{
    char input[24];
    damage(p, flips);
    snprintf(input, sizeof input, "%u flips", flips);
    return row(p, input, library_decodes, plain_decodes);
}

/* The decoder with a span of 200 bits lost, which hold noise, and so many bits flipped: none, where the trial with zeros
   changes no bit outside the span and the other one cannot be kept, and some, where it may be. */
static int lost_rows(const plan *p, unsigned flips)
{
    const unsigned offset = 1000, length = 200, flipped[2] = {0, flips};
    char input[24];
    int failed = 0;
    put_pair(lost, offset);
    put_pair(lost + 2, length);
    lost_bytes = sizeof lost;
    for (int f = 0; f < 2; f++) {
        damage(p, flipped[f]);
        for (unsigned bit = offset; bit < offset + length; bit++)
            if (draw(2))
                flip(received, bit);
        if (flipped[f] == 0)
            snprintf(input, sizeof input, "%u lost", length);
        else
            snprintf(input, sizeof input, "%u lost + %u", length, flipped[f]);
        failed |= row(p, input, library_decodes, plain_decodes);
    }
    lost_bytes = 0;
    return failed;
}

/* What becomes of the received block in the long run, as plain C tells it with a limit of 64: it settles after more than ten
   sweeps; it stands still, so that no vertex is visited any more; or it swings, some bits being turned to and fro for ever. */
static uint64_t plain_with_limit(const plan *p, size_t most)
{
    limit = most;
    uint64_t says = plain_decodes(p);
    limit = USUAL_LIMIT;
    return says;
}

static int settles_late(const plan *p)
{
    uint64_t says = plain_with_limit(p, 64);
    return says > 10 && says <= 64;
}

static int still_visits(const plan *p)
{
    plain_with_limit(p, 63);
    uint64_t visits = their_visits;
    plain_with_limit(p, 64);
    return their_visits != visits;
}

static int stands_still(const plan *p)
{
    return plain_with_limit(p, 64) >= 65536 && !still_visits(p);
}

static int swings(const plan *p)
{
    return plain_with_limit(p, 64) >= 65536 && still_visits(p);
}

/* A row of the decoder with its own limit, which stands behind what becomes of the block. */
static int limited_row(const plan *p, const char *what, size_t most)
{
    char input[32];
    snprintf(input, sizeof input, "%s, %zu", what, most);
    limit = most;
    int failed = row(p, input, library_decodes, plain_decodes);
    limit = USUAL_LIMIT;
    return failed;
}

/* The codeword sent, damaged by so many flips, until it is what is wanted. */
static void damage_until(const plan *p, unsigned flips, int (*wanted)(const plan *))
{
    do
        damage(p, flips);
    while (!wanted(p));
}

/* Many sweeps with no vertex left to visit, and with few. */
static int long_rows(const plan *p, unsigned some, unsigned many)
{
    damage_until(p, some, stands_still);
    int failed = limited_row(p, "stands still", LEMBIKAT_MAX_LIMIT);
    damage_until(p, many, swings);
    failed |= limited_row(p, "swings", 64);
    return failed | limited_row(p, "swings", LEMBIKAT_MAX_LIMIT);
}

static int late_row(const plan *p, unsigned flips)
{
    damage_until(p, flips, settles_late);
    return limited_row(p, "settles late", LEMBIKAT_MAX_LIMIT);
}

/* A chain. Each vertex reads four bits that must be alike and a fifth that may be anything. Two of the four are ones, so that
   it ties; one bit comes from the vertex before it, on the other side, and one goes to the vertex after it. The first of them
   all has a 1 there, reads three ones and hands a 1 on: each sweep mends one vertex, and the block settles after 2n sweeps. */
static int chain_row(plan *p, const char *name, size_t n)
{
    static const code c = {5, 2, {0x1e, 0x01}};
    p->name = name;
    set_side(&p->left, &c, n);
    set_side(&p->right, &c, n);
    memset(received, 0, block_bytes(p));
    for (size_t v = 0; v < n; v++) {
        const size_t from = 5 * v, last = v + 1 == n;
        const size_t entries[5] = {from + 1, last ? 5 * n - 1 : from + 5, from + 2, from + 3, last ? 0 : from + 4};
        for (size_t j = 0; j < 5; j++)
            put_pair(p->wiring + 2 * (5 * v + j), (unsigned)entries[j]);
        flip(received, from + 2);
        flip(received, from + 3);
    }
    flip(received, 0);
    return limited_row(p, "a vertex a sweep", LEMBIKAT_MAX_LIMIT);
}

/* The calls whose work is mostly the check of the plan: the locator on the codeword sent, the report of so many flips, the
   spread. */
static int other_rows(const plan *p, unsigned flips)
{
    int failed;
    damage(p, 0);
    failed = row(p, "locate", library_locates, plain_locates);
    damage(p, flips);
    failed |= row(p, "report", library_reports, plain_reports);
    return failed | row(p, "spread", library_spreads, plain_spreads);
}

/* The calls on a state: loading, a sweep of either side, and a bit turned. The states are of the codeword sent with so many
   bits flipped, as loaded; for a sweep of the right side their sweep number is made 1. */
static int state_rows(const plan *p, unsigned many)
{
    const unsigned flips[3] = {1, 20, many};
    char input[24];
    int failed = 0;
    for (int f = 0; f < 3; f++) {
        damage(p, flips[f]);
        failed |= plain_load_state(PLAN, received, block_bytes(p), fresh_state, state_bytes(p));
        if (f == 1)
            failed |= row(p, "load, 20 flips", library_loads, plain_loads);
        for (unsigned sweeps = 0; sweeps < 2; sweeps++) {
            put_pair(fresh_state + 2, sweeps);
            snprintf(input, sizeof input, "sweep %u, %u flip%s", sweeps, flips[f], flips[f] == 1 ? "" : "s");
            failed |= row(p, input, library_sweeps, plain_sweeps);
        }
        if (f == 1) {
            turned_bit = draw((uint32_t)edges(p));
            turned_to = !(fresh_state[LEMBIKAT_STATE_HEAD_BYTES + turned_bit / 8] >> (7 - turned_bit % 8) & 1);
            failed |= row(p, "a bit set", library_sets, plain_sets);
        }
    }
    return failed;
}

/* The encoder, on a message of the right length with its first bits set. */
static int encoder_row(const plan *p)
{
    memset(message, 0, sizeof message);
    message_bytes = 0;
    while (lembikat_encode(PLAN, message, message_bytes, mine, block_bytes(p)).number == LEMBIKAT_MESSAGE_LENGTH_WRONG)
        message_bytes++;
    if (message_bytes > 1)
        message[0] = 0xa5;
    return row(p, "a message", library_encodes, plain_encodes);
}

/* The nearest word of one word. Of a plan it takes a sheet alone. */
static int word_row(plan *p, const char *name, const code *c)
{
    p->name = name;
    set_side(&p->left, c, 1);
    word = draw(1u << c->d);
    return row(p, "a word", library_finds, plain_finds);
}

/* The building of a table, beside the search and beside the same steps in C. */
static int table_rows(plan *p, const char *name, const code *c)
{
    int failed;
    p->name = name;
    set_side(&p->left, c, 1);
    memset(my_table, 0, sizeof my_table);
    memset(their_table, 0, sizeof their_table);
    failed = row(p, "table, search", library_builds, plain_builds);
    memset(their_table, 0, sizeof their_table);
    return failed | row(p, "table, folded", library_builds, folded_builds);
}

/* The look-up in the table just built, of the word whose nearest word was found last. */
static int look_up_row(const plan *p)
{
    return row(p, "look-up", library_looks_up, plain_looks_up);
}

int main(int count, char **words)
{
    static plan p;
    int failed = 0;
    timing = !(count > 1 && strcmp(words[1], "check") == 0);
    if (timing)
        printf("%-22s %-22s %-11s %8s %12s %12s %8s%s\n", "plan", "input", "ends", "visits", "plain C, us", "library, us",
               "ratio", with_expert ? "   expert, us  of that" : "");
    set_squares(&p, "house, n 64", &house, 64);
    failed |= decoder_rows(&p, 2, 12);
    failed |= other_rows(&p, 12);
    failed |= encoder_row(&p);
    set_squares(&p, "house, n 2048", &house, 2048);
    failed |= decoder_rows(&p, 3, 160);
    set_design(&p, "d 16 k 5, n 31");
    failed |= decoder_rows(&p, 3, 20);
    set_squares(&p, "d 16 k 5, n 2048", &k_5, 2048);
    failed |= decoder_rows(&p, 3, 640);
    failed |= lost_rows(&p, 20);
    set_squares(&p, "d 16 k 11, n 2048", &k_11, 2048);
    failed |= decoder_rows(&p, 3, 160);
    failed |= damaged_row(&p, 2000);
    failed |= lost_rows(&p, 20);
    failed |= other_rows(&p, 160);
    set_squares(&p, "d 16 k 11, n 32", &k_11, 32);
    failed |= encoder_row(&p);
    failed |= word_row(&p, "house", &house);
    failed |= word_row(&p, "d 16 k 5", &k_5);
    failed |= word_row(&p, "d 16 k 11", &k_11);
    failed |= table_rows(&p, "d 16 k 11", &k_11);
    failed |= look_up_row(&p);
    failed |= table_rows(&p, "d 16 k 5", &k_5);
    failed |= table_rows(&p, "d 16 k 1", &k_1);
    failed |= look_up_row(&p);

    /* Unequal sides: more carriers, with the house code, than time slots. The smaller plan is the example host's. */
    set_rectangles(&p, "carriers, 16 by 8", &house, &slots, 1);
    failed |= decoder_rows(&p, 2, 5);
    failed |= encoder_row(&p);
    set_rectangles(&p, "carriers, 2048 by 1024", &house, &k_11, 128);
    failed |= decoder_rows(&p, 3, 160);

    /* States, on some of the plans above. */
    set_squares(&p, "house, n 64", &house, 64);
    failed |= state_rows(&p, 60);
    set_squares(&p, "house, n 2048", &house, 2048);
    failed |= state_rows(&p, 2000);
    set_squares(&p, "d 16 k 5, n 2048", &k_5, 2048);
    failed |= state_rows(&p, 2000);
    set_squares(&p, "d 16 k 11, n 2048", &k_11, 2048);
    failed |= state_rows(&p, 2000);

    /* The decoder where it makes many sweeps. */
    set_squares(&p, "house, n 64", &house, 64);
    failed |= long_rows(&p, 44, 80);
    set_squares(&p, "house, n 2048", &house, 2048);
    failed |= long_rows(&p, 900, 1500);
    set_design(&p, "d 16 k 5, n 31");
    failed |= late_row(&p, 145);
    failed |= chain_row(&p, "chain, n 64", 64);
    failed |= chain_row(&p, "chain, n 2048", 2048);
    return failed;
}
