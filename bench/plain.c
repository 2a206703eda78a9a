/* The plain C of the benchmark: decoder, states, nearest word, locator, report, spread, encoder and tables. */
#include "plain.h"

#include <string.h>

typedef struct {
    int d, k;
    size_t count;
    uint16_t words[2048];
} code;

/* Both sides of a plan, left and right. */
typedef struct {
    code codes[2];
    size_t n[2];
    size_t edges;
} plan;

static int check_sheet(const uint8_t *sheet, size_t bytes, code *c)
{
    if (bytes < 2)
        return 1;
    c->d = sheet[0];
    c->k = sheet[1];
    if (c->d < 2 || c->d > 16)
        return 2;
    if (c->k < 1 || c->k > 11 || c->k > c->d)
        return 3;
    if (bytes != 2 + 2 * (size_t)c->k)
        return 4;
    c->words[0] = 0;
    c->count = 1;
    for (int i = 0; i < c->k; i++) {
        unsigned row = sheet[2 + 2 * i] * 256u + sheet[3 + 2 * i];
        if (row >> c->d)
            return 5;
        for (size_t m = 0; m < c->count; m++)
            if (c->words[m] == row)
                return 6;
        for (size_t m = 0; m < c->count; m++)
            c->words[c->count + m] = c->words[m] ^ (uint16_t)row;
        c->count *= 2;
    }
    return 0;
}

static unsigned edge_of(const uint8_t *wiring, size_t i)
{
    return wiring[2 * i] * 256u + wiring[2 * i + 1];
}

static int check_wiring(const plan *p, const uint8_t *wiring, size_t bytes)
{
    uint8_t seen[32768];
    if (bytes != 2 * p->edges)
        return 8;
    memset(seen, 0, p->edges);
    for (size_t i = 0; i < p->edges; i++) {
        unsigned edge = edge_of(wiring, i);
        if (edge >= p->edges)
            return 9;
        if (seen[edge])
            return 10;
        seen[edge] = 1;
    }
    return 0;
}

static int check_plan(const uint8_t *left_sheet, size_t left_sheet_bytes, const uint8_t *right_sheet, size_t right_sheet_bytes,
                      size_t nl, size_t nr, const uint8_t *wiring, size_t wiring_bytes, plan *p)
{
    int fault = check_sheet(left_sheet, left_sheet_bytes, &p->codes[0]);
    if (!fault)
        fault = check_sheet(right_sheet, right_sheet_bytes, &p->codes[1]);
    if (fault)
        return fault;
    if (nl < 1 || nl > 2048 || nr < 1 || nr > 2048)
        return 7;
    p->n[0] = nl;
    p->n[1] = nr;
    p->edges = nl * (size_t)p->codes[0].d;
    if (p->edges != nr * (size_t)p->codes[1].d)
        return 23;
    return check_wiring(p, wiring, wiring_bytes);
}

static int check_block(const plan *p, const uint8_t *block, size_t bytes)
{
    if (bytes != (p->edges + 7) / 8)
        return 11;
    if (p->edges % 8 && block[p->edges / 8] & (0xffu >> (p->edges % 8)))
        return 12;
    return 0;
}

static unsigned bit_of(const uint8_t *block, size_t i)
{
    return (block[i / 8] >> (7 - i % 8)) & 1u;
}

static size_t span_offset(const uint8_t *lost, size_t i)
{
    return lost[4 * i] * 256u + lost[4 * i + 1];
}

static size_t span_length(const uint8_t *lost, size_t i)
{
    return lost[4 * i + 2] * 256u + lost[4 * i + 3];
}

static int check_spans(const plan *p, const uint8_t *lost, size_t bytes)
{
    size_t end = 0;
    if (bytes % 4)
        return 24;
    for (size_t i = 0; i < bytes / 4; i++) {
        if (span_length(lost, i) == 0 || span_offset(lost, i) + span_length(lost, i) > p->edges)
            return 25;
        if (span_offset(lost, i) < end)
            return 26;
        end = span_offset(lost, i) + span_length(lost, i);
    }
    return 0;
}

/* Makes every lost bit of a block 0 or 1. */
static void fill_spans(const uint8_t *lost, size_t bytes, int ones, uint8_t *block)
{
    for (size_t i = 0; i < bytes / 4; i++)
        for (size_t bit = span_offset(lost, i); bit < span_offset(lost, i) + span_length(lost, i); bit++) {
            uint8_t mask = (uint8_t)(128u >> (bit % 8));
            if (ones)
                block[bit / 8] |= mask;
            else
                block[bit / 8] &= (uint8_t)~mask;
        }
}

/* In how many bits outside the spans two blocks differ. */
static size_t flips_outside(const plan *p, const uint8_t *lost, size_t bytes, const uint8_t *a, const uint8_t *b)
{
    size_t flips = 0, bit = 0;
    for (size_t i = 0; i <= bytes / 4; i++) {
        size_t to = i < bytes / 4 ? span_offset(lost, i) : p->edges;
        for (; bit < to; bit++)
            flips += bit_of(a, bit) != bit_of(b, bit);
        if (i < bytes / 4)
            bit += span_length(lost, i);
    }
    return flips;
}

static size_t place_of(int right, const uint8_t *wiring, size_t i)
{
    return right ? edge_of(wiring, i) : i;
}

static unsigned read_word(const code *c, int right, const uint8_t *wiring, const uint8_t *block, size_t v)
{
    unsigned word = 0;
    for (int j = 0; j < c->d; j++) {
        size_t i = place_of(right, wiring, v * (size_t)c->d + (size_t)j);
        word = word * 2 + ((block[i / 8] >> (7 - i % 8)) & 1u);
    }
    return word;
}

static void write_word(const code *c, int right, const uint8_t *wiring, uint8_t *block, size_t v, unsigned word)
{
    for (int j = 0; j < c->d; j++) {
        size_t i = place_of(right, wiring, v * (size_t)c->d + (size_t)j);
        uint8_t mask = (uint8_t)(128u >> (i % 8));
        if ((word >> (c->d - 1 - j)) & 1u)
            block[i / 8] |= mask;
        else
            block[i / 8] &= (uint8_t)~mask;
    }
}

static int is_word(const code *c, unsigned word)
{
    for (size_t m = 0; m < c->count; m++)
        if (c->words[m] == word)
            return 1;
    return 0;
}

/* The search: the first pattern with the fewest ones, and how many ones it has. Answers how many patterns have so few. */
static unsigned lightest(const code *c, unsigned word, unsigned *found, unsigned *ones_found)
{
    unsigned best = 0, fewest = 17, ways = 0;
    for (size_t m = 0; m < c->count; m++) {
        unsigned pattern = c->words[m] ^ word;
        unsigned ones = (unsigned)__builtin_popcount(pattern);
        if (ones < fewest) {
            fewest = ones;
            best = pattern;
            ways = 1;
        } else if (ones == fewest) {
            ways++;
        }
    }
    *found = best;
    *ones_found = fewest;
    return ways;
}

/* The word stays as it is where more than one pattern has the fewest ones. Also adds the bits changed to `changed`: the search
 * has them at hand. */
static unsigned nearest(const code *c, unsigned word, unsigned *changed)
{
    unsigned pattern, ones;
    if (lightest(c, word, &pattern, &ones) != 1)
        return word;
    *changed += ones;
    return word ^ pattern;
}

static int is_satisfied(const code *c, int right, size_t n, const uint8_t *wiring, const uint8_t *block)
{
    for (size_t v = 0; v < n; v++)
        if (!is_word(c, read_word(c, right, wiring, block, v)))
            return 0;
    return 1;
}

static int is_codeword(const plan *p, const uint8_t *wiring, const uint8_t *block)
{
    return is_satisfied(&p->codes[0], 0, p->n[0], wiring, block) && is_satisfied(&p->codes[1], 1, p->n[1], wiring, block);
}

/* Answers how many bits were changed: each stands at one vertex of the side. */
static unsigned sweep(const code *c, int right, size_t n, const uint8_t *wiring, uint8_t *block)
{
    unsigned changed = 0;
    for (size_t v = 0; v < n; v++)
        write_word(c, right, wiring, block, v, nearest(c, read_word(c, right, wiring, block, v), &changed));
    return changed;
}

/* The vertices of each side that heard news, and the right vertex of each edge. */
typedef struct {
    uint8_t heard[2][2048];
    uint16_t right_end[32768];
} news;

static void note_right_ends(const plan *p, const uint8_t *wiring, news *n)
{
    for (size_t v = 0, i = 0; v < p->n[1]; v++)
        for (int j = 0; j < p->codes[1].d; j++, i++)
            n->right_end[edge_of(wiring, i)] = (uint16_t)v;
}

/* The decoder's sweep after so many others: the first two visit their whole side, each later one the vertices that heard news.
 * Adds up the visits, and marks the vertices of the other side that have a bit which was changed. What sweep 1 changes is no
 * news, since sweep 2 visits all; so the right ends need only be there from the third sweep on. */
static unsigned sweep_by_news(const plan *p, size_t count, const uint8_t *wiring, uint8_t *block, news *n, uint64_t *visits)
{
    const int right = count % 2;
    const code *c = &p->codes[right];
    unsigned changed = 0;
    for (size_t v = 0; v < p->n[right]; v++) {
        if (count >= 2 && !n->heard[right][v])
            continue;
        n->heard[right][v] = 0;
        ++*visits;
        unsigned word = read_word(c, right, wiring, block, v), put = nearest(c, word, &changed);
        write_word(c, right, wiring, block, v, put);
        if (put == word || count == 0)
            continue;
        for (int j = 0; j < c->d; j++)
            if (((word ^ put) >> (c->d - 1 - j)) & 1u) {
                size_t edge = place_of(right, wiring, v * (size_t)c->d + (size_t)j);
                n->heard[!right][right ? edge / (size_t)p->codes[0].d : n->right_end[edge]] = 1;
            }
    }
    return changed;
}

int plain_nearest_word(const uint8_t *sheet, size_t sheet_bytes, uint64_t word, uint64_t *nearest_word, uint64_t *changed)
{
    code c;
    unsigned ones = 0;
    int fault = check_sheet(sheet, sheet_bytes, &c);
    if (fault)
        return fault;
    if (word >> c.d)
        return 12;
    *nearest_word = nearest(&c, (unsigned)word, &ones);
    *changed = ones;
    return 0;
}

/* Sweeps a block until it settles. Answers the sweeps, or one more than the limit where it does not. */
static size_t settle(const plan *p, const uint8_t *wiring, size_t limit, uint8_t *block, uint16_t sums[64], uint64_t *visits)
{
    news n;
    memset(n.heard, 0, sizeof n.heard);
    memset(sums, 0, 64 * sizeof *sums);
    *visits = 0;
    for (size_t count = 0;; count++) {
        /* both sides, also the one just swept, which may hold ties */
        if (is_codeword(p, wiring, block))
            return count;
        if (count == limit)
            return limit + 1;
        if (count == 2)
            note_right_ends(p, wiring, &n);
        unsigned changed = sweep_by_news(p, count, wiring, block, &n, visits);
        if (count < 64)
            sums[count] = (uint16_t)changed;
    }
}

int plain_decode(const uint8_t *left_sheet, size_t left_sheet_bytes, const uint8_t *right_sheet, size_t right_sheet_bytes,
                 size_t nl, size_t nr, const uint8_t *wiring, size_t wiring_bytes, const uint8_t *received,
                 size_t received_bytes, const uint8_t *lost, size_t lost_bytes, uint8_t *output, size_t output_bytes,
                 size_t limit, size_t *sweeps, uint16_t sums[64], uint64_t *visits)
{
    plan p;
    memset(sums, 0, 64 * sizeof *sums);
    *visits = 0;
    int fault = check_plan(left_sheet, left_sheet_bytes, right_sheet, right_sheet_bytes, nl, nr, wiring, wiring_bytes, &p);
    if (fault)
        return fault;
    fault = check_block(&p, received, received_bytes);
    if (!fault)
        fault = check_spans(&p, lost, lost_bytes);
    if (fault)
        return fault;
    if (output_bytes < received_bytes)
        return 13;
    if (limit > 4096)
        return 14;
    memcpy(output, received, received_bytes);
    fill_spans(lost, lost_bytes, 0, output);
    *sweeps = settle(&p, wiring, limit, output, sums, visits);
    if (lost_bytes) {
        uint8_t other[4096];
        uint16_t other_sums[64];
        uint64_t other_visits;
        memcpy(other, received, received_bytes);
        fill_spans(lost, lost_bytes, 1, other);
        size_t other_sweeps = settle(&p, wiring, limit, other, other_sums, &other_visits);
        if (other_sweeps <= limit && (*sweeps > limit || flips_outside(&p, lost, lost_bytes, received, other) <
                                                             flips_outside(&p, lost, lost_bytes, received, output))) {
            *sweeps = other_sweeps;
            memcpy(output, other, received_bytes);
            memcpy(sums, other_sums, sizeof other_sums);
            *visits = other_visits;
        }
    }
    if (*sweeps <= limit)
        return 0;
    *sweeps = 0;
    memcpy(output, received, received_bytes);
    return 15;
}

/* ---- states ---- */

#define HEAD 4 /* the bytes before the block: count and sweep number */

static void put_number(uint8_t *bytes, size_t number)
{
    bytes[0] = (uint8_t)(number >> 8);
    bytes[1] = (uint8_t)number;
}

static size_t get_number(const uint8_t *bytes)
{
    return bytes[0] * 256u + bytes[1];
}

static int check_state(const plan *p, const uint8_t *state, size_t bytes)
{
    if (bytes < HEAD)
        return 11;
    return check_block(p, state + HEAD, bytes - HEAD);
}

static size_t count_unsatisfied(const plan *p, const uint8_t *wiring, const uint8_t *block)
{
    size_t count = 0;
    for (int right = 0; right < 2; right++)
        for (size_t v = 0; v < p->n[right]; v++)
            count += !is_word(&p->codes[right], read_word(&p->codes[right], right, wiring, block, v));
    return count;
}

int plain_load_state(const uint8_t *left_sheet, size_t left_sheet_bytes, const uint8_t *right_sheet, size_t right_sheet_bytes,
                     size_t nl, size_t nr, const uint8_t *wiring, size_t wiring_bytes, const uint8_t *block, size_t block_bytes,
                     uint8_t *state, size_t state_bytes)
{
    plan p;
    int fault = check_plan(left_sheet, left_sheet_bytes, right_sheet, right_sheet_bytes, nl, nr, wiring, wiring_bytes, &p);
    if (!fault)
        fault = check_block(&p, block, block_bytes);
    if (fault)
        return fault;
    if (state_bytes < HEAD + block_bytes)
        return 13;
    put_number(state, count_unsatisfied(&p, wiring, block));
    put_number(state + 2, 0);
    memcpy(state + HEAD, block, block_bytes);
    return 0;
}

int plain_sweep_state(const uint8_t *left_sheet, size_t left_sheet_bytes, const uint8_t *right_sheet, size_t right_sheet_bytes,
                      size_t nl, size_t nr, const uint8_t *wiring, size_t wiring_bytes, uint8_t *state, size_t state_bytes)
{
    plan p;
    int fault = check_plan(left_sheet, left_sheet_bytes, right_sheet, right_sheet_bytes, nl, nr, wiring, wiring_bytes, &p);
    if (!fault)
        fault = check_state(&p, state, state_bytes);
    if (fault)
        return fault;
    if (get_number(state) == 0)
        return 0;
    size_t sweeps = get_number(state + 2);
    if (sweeps >= 4096)
        return 28;
    int right = sweeps % 2;
    sweep(&p.codes[right], right, p.n[right], wiring, state + HEAD);
    put_number(state, count_unsatisfied(&p, wiring, state + HEAD));
    put_number(state + 2, sweeps + 1);
    return 0;
}

int plain_set_bit(const uint8_t *left_sheet, size_t left_sheet_bytes, const uint8_t *right_sheet, size_t right_sheet_bytes,
                  size_t nl, size_t nr, const uint8_t *wiring, size_t wiring_bytes, size_t bit, uint64_t value, uint8_t *state,
                  size_t state_bytes)
{
    plan p;
    int fault = check_plan(left_sheet, left_sheet_bytes, right_sheet, right_sheet_bytes, nl, nr, wiring, wiring_bytes, &p);
    if (!fault)
        fault = check_state(&p, state, state_bytes);
    if (fault)
        return fault;
    if (bit >= p.edges)
        return 27;
    uint8_t *byte = state + HEAD + bit / 8, mask = (uint8_t)(128u >> (bit % 8));
    *byte = (uint8_t)(value ? *byte | mask : *byte & ~mask);
    put_number(state, count_unsatisfied(&p, wiring, state + HEAD));
    put_number(state + 2, 0);
    return 0;
}

/* ---- locator, report, spread ---- */

int plain_locate(const uint8_t *left_sheet, size_t left_sheet_bytes, const uint8_t *right_sheet, size_t right_sheet_bytes,
                 size_t nl, size_t nr, const uint8_t *wiring, size_t wiring_bytes, const uint8_t *block, size_t block_bytes,
                 unsigned *side, size_t *vertex)
{
    plan p;
    int fault = check_plan(left_sheet, left_sheet_bytes, right_sheet, right_sheet_bytes, nl, nr, wiring, wiring_bytes, &p);
    if (!fault)
        fault = check_block(&p, block, block_bytes);
    if (fault)
        return fault;
    *side = 0;
    *vertex = 0;
    for (int right = 0; right < 2; right++)
        for (size_t v = 0; v < p.n[right]; v++)
            if (!is_word(&p.codes[right], read_word(&p.codes[right], right, wiring, block, v))) {
                *side = 1u + (unsigned)right;
                *vertex = v;
                return 0;
            }
    return 0;
}

int plain_report(const uint8_t *left_sheet, size_t left_sheet_bytes, const uint8_t *right_sheet, size_t right_sheet_bytes,
                 size_t nl, size_t nr, const uint8_t *wiring, size_t wiring_bytes, const uint8_t *received,
                 size_t received_bytes, const uint8_t *settled, size_t settled_bytes, uint8_t *list, size_t list_bytes,
                 size_t *pairs)
{
    plan p;
    int fault = check_plan(left_sheet, left_sheet_bytes, right_sheet, right_sheet_bytes, nl, nr, wiring, wiring_bytes, &p);
    if (!fault)
        fault = check_block(&p, received, received_bytes);
    if (!fault)
        fault = check_block(&p, settled, settled_bytes);
    if (fault)
        return fault;
    /* nothing may be written to a list that is too short, so the runs are counted first */
    for (int writing = 0; writing < 2; writing++) {
        size_t count = 0;
        for (size_t i = 0; i < p.edges; i++) {
            if (bit_of(received, i) == bit_of(settled, i))
                continue;
            size_t from = i;
            while (i < p.edges && bit_of(received, i) != bit_of(settled, i))
                i++;
            if (writing) {
                uint8_t *pair = list + 4 * count;
                pair[0] = (uint8_t)(from >> 8);
                pair[1] = (uint8_t)from;
                pair[2] = (uint8_t)((i - from) >> 8);
                pair[3] = (uint8_t)(i - from);
            }
            count++;
        }
        if (list_bytes < 4 * count)
            return 16;
        *pairs = count;
    }
    return 0;
}

int plain_spread(const uint8_t *left_sheet, size_t left_sheet_bytes, const uint8_t *right_sheet, size_t right_sheet_bytes,
                 size_t nl, size_t nr, const uint8_t *wiring, size_t wiring_bytes, uint64_t *spread)
{
    plan p;
    static uint16_t left_end[32768], right_end[32768]; /* of each entry and of each edge */
    int fault = check_plan(left_sheet, left_sheet_bytes, right_sheet, right_sheet_bytes, nl, nr, wiring, wiring_bytes, &p);
    if (fault)
        return fault;
    size_t dl = (size_t)p.codes[0].d, dr = (size_t)p.codes[1].d;
    for (size_t i = 0; i < p.edges; i++) {
        left_end[i] = (uint16_t)(edge_of(wiring, i) / dl);
        right_end[edge_of(wiring, i)] = (uint16_t)(i / dr);
    }
    *spread = 0;
    for (size_t u = 0; u < nl; u++) {
        uint32_t meets[2048];
        uint64_t sum = 0;
        memset(meets, 0, nl * sizeof *meets);
        for (size_t j = 0; j < dl; j++)
            for (size_t i = 0; i < dr; i++)
                meets[left_end[right_end[u * dl + j] * dr + i]]++;
        for (size_t w = 0; w < nl; w++) {
            uint64_t met = nr * meets[w];
            sum += met < dl * dl ? dl * dl - met : met - dl * dl;
        }
        if (*spread < sum)
            *spread = sum;
    }
    return 0;
}

/* ---- the encoder ---- */

typedef struct {
    uint64_t word[8];
} row_set;

static int has_row(const row_set *set, size_t row)
{
    return (set->word[row / 64] >> (row % 64)) & 1;
}

static void put_on(const row_set *from, row_set *to)
{
    for (int w = 0; w < 8; w++)
        to->word[w] ^= from->word[w];
}

/* What an echelon form of the rows leaves of a word: 0 for a codeword, and of an exclusive-or the exclusive-or of what it
 * leaves. */
static unsigned left_of(const uint16_t *basis, int k, unsigned word)
{
    for (int i = 0; i < k; i++)
        if ((word ^ basis[i]) < word)
            word ^= basis[i];
    return word;
}

/* The lowest row of a set, `edges` where it has none. */
static size_t lowest_row(const row_set *set, size_t edges)
{
    for (int w = 0; w < 8; w++)
        if (set->word[w])
            return 64 * (size_t)w + (size_t)__builtin_ctzll(set->word[w]);
    return edges;
}

/* What the echelon form of a sheet's rows leaves of each bit of a vertex's word, its first bit first. */
static void left_of_bits(const code *c, const uint8_t *sheet, uint16_t left[16])
{
    uint16_t basis[11];
    for (int i = 0; i < c->k; i++)
        basis[i] = (uint16_t)left_of(basis, i, sheet[2 + 2 * i] * 256u + sheet[3 + 2 * i]);
    for (int i = 0; i < c->d; i++)
        left[i] = (uint16_t)left_of(basis, c->k, 1u << (c->d - 1 - i));
}

/* Drops a pivot for every check of the plan. The rows that are left, those with a 1 at their own place, are the message
 * positions. */
static void eliminate(const plan *p, const uint8_t *const sheets[2], const uint8_t *wiring, row_set *column)
{
    memset(column, 0, 512 * sizeof *column);
    for (size_t e = 0; e < p->edges; e++)
        column[e].word[e / 64] = (uint64_t)1 << (e % 64);
    for (int right = 0; right < 2; right++) {
        const code *c = &p->codes[right];
        uint16_t left[16];
        left_of_bits(c, sheets[right], left);
        for (size_t v = 0; v < p->n[right]; v++)
            for (int digit = 0; digit < c->d; digit++) {
                row_set hits = {{0}};
                for (int i = 0; i < c->d; i++)
                    if ((left[i] >> digit) & 1)
                        put_on(&column[place_of(right, wiring, v * (size_t)c->d + (size_t)i)], &hits);
                size_t pivot = lowest_row(&hits, p->edges);
                if (pivot == p->edges)
                    continue;
                for (size_t e = 0; e < p->edges; e++)
                    if (has_row(&column[e], pivot))
                        put_on(&hits, &column[e]);
            }
    }
}

int plain_encode(const uint8_t *left_sheet, size_t left_sheet_bytes, const uint8_t *right_sheet, size_t right_sheet_bytes,
                 size_t nl, size_t nr, const uint8_t *wiring, size_t wiring_bytes, const uint8_t *message, size_t message_bytes,
                 uint8_t *output, size_t output_bytes)
{
    plan p;
    const uint8_t *const sheets[2] = {left_sheet, right_sheet};
    row_set column[512], chosen = {{0}};
    int fault = check_plan(left_sheet, left_sheet_bytes, right_sheet, right_sheet_bytes, nl, nr, wiring, wiring_bytes, &p);
    if (fault)
        return fault;
    size_t edges = p.edges, bits = 0, rank = 0;
    if (edges > 512)
        return 19;
    eliminate(&p, sheets, wiring, column);
    for (size_t e = 0; e < edges; e++)
        bits += (size_t)has_row(&column[e], e);
    if (message_bytes != (bits + 7) / 8)
        return 20;
    if (bits % 8 && message[bits / 8] & (0xffu >> (bits % 8)))
        return 21;
    if (output_bytes < (edges + 7) / 8)
        return 13;
    for (size_t e = 0; e < edges; e++)
        if (has_row(&column[e], e)) {
            chosen.word[e / 64] |= (uint64_t)((message[rank / 8] >> (7 - rank % 8)) & 1) << (e % 64);
            rank++;
        }
    memset(output, 0, (edges + 7) / 8);
    for (size_t e = 0; e < edges; e++) {
        int ones = 0;
        for (int w = 0; w < 8; w++)
            ones += __builtin_popcountll(chosen.word[w] & column[e].word[w]);
        if (ones % 2)
            output[e / 8] |= (uint8_t)(128u >> (e % 8));
    }
    return 0;
}

/* ---- tables ---- */

/* A sheet by the echelon form of its rows, without a list of its codewords. What the form leaves of a word is the smallest word
 * of its class: the pivots, the highest digits of the form's rows, are cleared in it. */
typedef struct {
    int d, k;
    uint16_t basis[11];
    unsigned pivots;
} echelon;

static int check_echelon(const uint8_t *sheet, size_t bytes, echelon *e)
{
    if (bytes < 2)
        return 1;
    e->d = sheet[0];
    e->k = sheet[1];
    e->pivots = 0;
    if (e->d < 2 || e->d > 16)
        return 2;
    if (e->k < 1 || e->k > 11 || e->k > e->d)
        return 3;
    if (bytes != 2 + 2 * (size_t)e->k)
        return 4;
    for (int i = 0; i < e->k; i++) {
        unsigned row = sheet[2 + 2 * i] * 256u + sheet[3 + 2 * i];
        if (row >> e->d)
            return 5;
        row = left_of(e->basis, i, row);
        if (row == 0)
            return 6;
        e->basis[i] = (uint16_t)row;
        e->pivots |= 1u << (31 - __builtin_clz(row));
    }
    return 0;
}

static size_t table_bytes(const echelon *e)
{
    return (size_t)2 << (e->d - e->k);
}

/* The number of a class, of its smallest word: the pivots are squeezed out. */
static unsigned squeezed(const echelon *e, unsigned word)
{
    unsigned number = 0;
    for (int b = e->d - 1; b >= 0; b--)
        if (!((e->pivots >> b) & 1u))
            number = 2 * number + ((word >> b) & 1u);
    return number;
}

static unsigned entry_at(const uint8_t *table, size_t i)
{
    return table[2 * i] * 256u + table[2 * i + 1];
}

static void put_entry(uint8_t *table, size_t i, unsigned entry)
{
    table[2 * i] = (uint8_t)(entry >> 8);
    table[2 * i + 1] = (uint8_t)entry;
}

int plain_build_table(const uint8_t *sheet, size_t sheet_bytes, uint8_t *output, size_t output_bytes)
{
    code c;
    echelon e;
    int fault = check_sheet(sheet, sheet_bytes, &c);
    if (!fault)
        fault = check_echelon(sheet, sheet_bytes, &e);
    if (fault)
        return fault;
    if (output_bytes < table_bytes(&e))
        return 13;
    size_t number = 0;
    for (unsigned word = 0; word >> c.d == 0; word++) {
        if (word & e.pivots)
            continue; /* not the smallest of its class */
        unsigned pattern, ones, ways = lightest(&c, word, &pattern, &ones);
        put_entry(output, number++, ways == 1 ? pattern : 0xffff);
    }
    return 0;
}

/* The lighter of a class's key and of another one, with the digit that leads there put on; a tie where both have as many
 * ones. */
static uint32_t lighter(uint32_t own, uint32_t other)
{
    uint32_t key = own < other ? own : other;
    return own >> 17 == other >> 17 ? key | 1u << 16 : key;
}

/* Folds every pair of classes whose numbers are so far apart, each once: from the side without the highest digit in which the
 * two differ. */
static void fold(uint8_t *output, uint8_t *cost, size_t count, unsigned apart, uint32_t put_on)
{
    size_t top = (size_t)1 << (31 - __builtin_clz(apart));
    for (size_t from = 0; from < count; from += 2 * top)
        for (size_t i = from; i < from + top; i++) {
            size_t j = i ^ apart;
            uint32_t one = cost[i] * 65536u + entry_at(output, i), two = cost[j] * 65536u + entry_at(output, j);
            uint32_t new_one = lighter(one, two + put_on), new_two = lighter(two, one + put_on);
            cost[i] = (uint8_t)(new_one >> 16);
            cost[j] = (uint8_t)(new_two >> 16);
            put_entry(output, i, new_one & 0xffff);
            put_entry(output, j, new_two & 0xffff);
        }
}

/* The digits are let in one after another, the lowest first. A key is 65536 times the cost of a class's lightest pattern among
 * the digits let in, and the pattern; a cost is twice the ones, and one more for a tie. A free digit doubles the classes. A
 * pivot leads from each class to another, so that each may take the other's pattern with this digit put on. */
int folded_build_table(const uint8_t *sheet, size_t sheet_bytes, uint8_t *output, size_t output_bytes)
{
    echelon e;
    uint8_t cost[32768];
    int fault = check_echelon(sheet, sheet_bytes, &e);
    if (fault)
        return fault;
    if (output_bytes < table_bytes(&e))
        return 13;
    size_t count = 1;
    cost[0] = 0;
    put_entry(output, 0, 0);
    for (int b = 0; b < e.d; b++) {
        unsigned digit = 1u << b, left = left_of(e.basis, e.k, digit);
        if (left == digit) {
            for (size_t i = 0; i < count; i++) {
                cost[count + i] = (uint8_t)(cost[i] + 2);
                put_entry(output, count + i, entry_at(output, i) | digit);
            }
            count *= 2;
            continue;
        }
        if (left != 0) /* a codeword leads nowhere */
            fold(output, cost, count, squeezed(&e, left), 2 * 65536u + digit);
    }
    for (size_t i = 0; i < count; i++)
        if (cost[i] & 1)
            put_entry(output, i, 0xffff);
    return 0;
}

int plain_look_up(const uint8_t *sheet, size_t sheet_bytes, uint64_t word, const uint8_t *table, size_t bytes,
                  uint64_t *nearest_word, uint64_t *changed)
{
    echelon e;
    int fault = check_echelon(sheet, sheet_bytes, &e);
    if (fault)
        return fault;
    if (word >> e.d)
        return 12;
    if (bytes < table_bytes(&e))
        return 13;
    unsigned entry = entry_at(table, squeezed(&e, left_of(e.basis, e.k, (unsigned)word)));
    unsigned pattern = entry == 0xffff ? 0 : entry & ((1u << e.d) - 1);
    *nearest_word = word ^ pattern;
    *changed = (uint64_t)__builtin_popcount(pattern);
    return 0;
}
