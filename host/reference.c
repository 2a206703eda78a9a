/* The services as documents 01 and 02 state them, by the plainest means: codewords are listed, the nearest word and the test
 * try all of them, the patterns with the fewest ones are counted, the classes of a table are found by going through all words,
 * a block is held with one byte a bit and so are the lost bits, every sweep goes over its whole side, what it changed is
 * counted on the blocks before and after it, the vertices that it visits on the blocks before and after the sweep before, the
 * unsatisfied vertices of a state's block are all counted anew before and after each change, the spread fills a table of all
 * pairs of vertices. */
#include "reference.h"

#include <stdio.h>
#include <stdlib.h>
#include <string.h>

#define MAX_EDGES 32768
#define MAX_WORDS 2048    /* 2 to the power of 11 rows */
#define MAX_CLASSES 32768 /* of the words of 16 bits, with one row */
#define MARK 0xffff       /* a table's entry for a tie */
#define MESSAGE_EDGES 512 /* messages are for N up to this */
#define SWEEPS_TOLD 64    /* the first sweeps, whose sums the decoder tells */
#define HEAD 4            /* the bytes of a state before its block: count and sweep number */

/* What a sheet says. */
typedef struct {
    unsigned d, k;
    unsigned row[11];
    unsigned word[MAX_WORDS]; /* every inner codeword */
    size_t words;
} code;

enum { LEFT, RIGHT, SIDES };

/* What a plan says, once it is checked. */
typedef struct {
    code code[SIDES];
    size_t n[SIDES];
    size_t edges;
    unsigned wired[MAX_EDGES]; /* the wiring's entries as numbers */
} graph;

static lembikat_answer done(uint32_t place, uint64_t value)
{
    return (lembikat_answer){.number = 0, .place = place, .value = value};
}

static lembikat_answer refused(uint32_t number, size_t place)
{
    return (lembikat_answer){.number = number, .place = (uint32_t)place, .value = 0};
}

static unsigned pair_at(const uint8_t *bytes, size_t index)
{
    return bytes[2 * index] * 256u + bytes[2 * index + 1];
}

static unsigned ones(unsigned pattern)
{
    unsigned count = 0;
    for (; pattern != 0; pattern &= pattern - 1)
        count++;
    return count;
}

/* A sheet: refusals 1 to 6. The codewords are doubled with each row, so before row i they are all exclusive-ors of the earlier
 * rows, the empty one included. */
static lembikat_answer check_sheet(const uint8_t *sheet, size_t bytes, code *c)
{
    if (bytes < 2)
        return refused(1, 0);
    c->d = sheet[0];
    c->k = sheet[1];
    if (c->d < 2 || c->d > 16)
        return refused(2, 0);
    if (c->k < 1 || c->k > 11 || c->k > c->d)
        return refused(3, 0);
    if (bytes != 2 + 2 * (size_t)c->k)
        return refused(4, 0);
    c->word[0] = 0;
    c->words = 1;
    for (unsigned i = 0; i < c->k; i++) {
        unsigned row = pair_at(sheet + 2, i);
        if (row >= 1u << c->d)
            return refused(5, i);
        for (size_t j = 0; j < c->words; j++)
            if (c->word[j] == row)
                return refused(6, i);
        for (size_t j = 0; j < c->words; j++)
            c->word[c->words + j] = c->word[j] ^ row;
        c->words *= 2;
        c->row[i] = row;
    }
    return done(0, 0);
}

/* Both sheets, both counts, the wiring: refusals 1 to 7, 23, 8 to 10. */
static lembikat_answer check_plan(const lembikat_plan *plan, graph *g)
{
    static uint8_t seen[MAX_EDGES];
    lembikat_answer answer = check_sheet(plan->left_sheet, plan->left_sheet_bytes, &g->code[LEFT]);
    if (answer.number == 0)
        answer = check_sheet(plan->right_sheet, plan->right_sheet_bytes, &g->code[RIGHT]);
    if (answer.number != 0)
        return answer;
    g->n[LEFT] = plan->nl;
    g->n[RIGHT] = plan->nr;
    for (int side = LEFT; side < SIDES; side++)
        if (g->n[side] < 1 || g->n[side] > 2048)
            return refused(7, 0);
    g->edges = g->n[LEFT] * g->code[LEFT].d;
    if (g->edges != g->n[RIGHT] * g->code[RIGHT].d)
        return refused(23, 0);
    if (plan->wiring_bytes != 2 * g->edges)
        return refused(8, 0);
    memset(seen, 0, sizeof seen);
    for (size_t i = 0; i < g->edges; i++) {
        unsigned edge = pair_at(plan->wiring, i);
        if (edge >= g->edges)
            return refused(9, i);
        if (seen[edge])
            return refused(10, i);
        seen[edge] = 1;
        g->wired[i] = edge;
    }
    return done(0, 0);
}

static size_t bytes_for(size_t bits)
{
    return bits / 8 + (bits % 8 != 0);
}

static unsigned bit_at(const uint8_t *bytes, size_t i)
{
    return bytes[i / 8] >> (7 - i % 8) & 1;
}

static int stray_bits(const uint8_t *bytes, size_t size, size_t bits)
{
    for (size_t i = bits; i < 8 * size; i++)
        if (bit_at(bytes, i))
            return 1;
    return 0;
}

/* One block: refusals 11 and 12. */
static lembikat_answer check_block(const graph *g, const uint8_t *block, size_t bytes)
{
    if (bytes != bytes_for(g->edges))
        return refused(11, 0);
    if (stray_bits(block, bytes, g->edges))
        return refused(12, 0);
    return done(0, 0);
}

/* The lost spans: refusals 24 to 26. Tells of each bit whether it is lost. */
static lembikat_answer check_spans(const graph *g, const uint8_t *list, size_t bytes, uint8_t *is_lost)
{
    if (bytes % 4 != 0)
        return refused(24, 0);
    memset(is_lost, 0, g->edges);
    size_t previous_end = 0;
    for (size_t i = 0; i < bytes / 4; i++) {
        size_t offset = pair_at(list, 2 * i), length = pair_at(list, 2 * i + 1);
        if (length == 0 || offset + length > g->edges)
            return refused(25, 0);
        if (offset < previous_end)
            return refused(26, 0);
        previous_end = offset + length;
        for (size_t j = offset; j < previous_end; j++)
            is_lost[j] = 1;
    }
    return done(0, 0);
}

/* A state that is to be changed: refusals 11 and 12. */
static lembikat_answer check_state(const graph *g, const uint8_t *state, size_t bytes)
{
    if (bytes != HEAD + bytes_for(g->edges))
        return refused(11, 0);
    return check_block(g, state + HEAD, bytes - HEAD);
}

static void unpack(const uint8_t *bytes, size_t bits, uint8_t *bit)
{
    for (size_t i = 0; i < bits; i++)
        bit[i] = (uint8_t)bit_at(bytes, i);
}

static void pack(const uint8_t *bit, size_t bits, uint8_t *bytes)
{
    for (size_t i = 0; i < bits; i++) {
        if (i % 8 == 0)
            bytes[i / 8] = 0;
        bytes[i / 8] |= (uint8_t)(bit[i] << (7 - i % 8));
    }
}

static size_t edge_of(const graph *g, int side, size_t vertex, unsigned j)
{
    size_t i = vertex * g->code[side].d + j;
    return side == LEFT ? i : g->wired[i];
}

static unsigned word_of(const graph *g, int side, size_t vertex, const uint8_t *bit)
{
    unsigned word = 0;
    for (unsigned j = 0; j < g->code[side].d; j++)
        word = 2 * word + bit[edge_of(g, side, vertex, j)];
    return word;
}

static int is_inner_codeword(const code *c, unsigned word)
{
    for (size_t j = 0; j < c->words; j++)
        if (c->word[j] == word)
            return 1;
    return 0;
}

/* One pattern leads to each codeword. Those with the fewest ones are counted, and the last of them is told. */
static size_t lightest(const code *c, unsigned word, unsigned *found)
{
    unsigned fewest = c->d; /* no pattern has more ones */
    for (size_t j = 0; j < c->words; j++)
        if (ones(word ^ c->word[j]) < fewest)
            fewest = ones(word ^ c->word[j]);
    size_t ways = 0;
    for (size_t j = 0; j < c->words; j++) {
        unsigned pattern = word ^ c->word[j];
        if (ones(pattern) == fewest) {
            *found = pattern;
            ways++;
        }
    }
    return ways;
}

/* If exactly one pattern has the fewest ones, it is put on the word; if there are more, a tie, the word stays as it is. */
static unsigned nearest(const code *c, unsigned word)
{
    unsigned pattern = 0;
    return lightest(c, word, &pattern) == 1 ? word ^ pattern : word;
}

/* The classes of words that differ by a codeword. All words are gone through in rising order: one that is in no class yet is
 * the smallest of the next class, and every word that differs from it by a codeword is in it too. Answers their number. */
typedef struct {
    unsigned smallest[MAX_CLASSES];
    unsigned class_of[1 << 16]; /* of each word */
} class_list;

static size_t list_classes(const code *c, class_list *list)
{
    const unsigned none = MAX_CLASSES;
    size_t count = 0;
    for (unsigned word = 0; word < 1u << c->d; word++)
        list->class_of[word] = none;
    for (unsigned word = 0; word < 1u << c->d; word++) {
        if (list->class_of[word] != none)
            continue;
        for (size_t j = 0; j < c->words; j++)
            list->class_of[word ^ c->word[j]] = (unsigned)count;
        list->smallest[count++] = word;
    }
    return count;
}

static lembikat_answer first_unsatisfied(const graph *g, const uint8_t *bit)
{
    for (int side = LEFT; side < SIDES; side++)
        for (size_t vertex = 0; vertex < g->n[side]; vertex++)
            if (!is_inner_codeword(&g->code[side], word_of(g, side, vertex, bit)))
                return done(side == LEFT ? LEMBIKAT_LEFT : LEMBIKAT_RIGHT, vertex);
    return done(LEMBIKAT_NONE, 0);
}

static int is_codeword(const graph *g, const uint8_t *bit)
{
    return first_unsatisfied(g, bit).place == LEMBIKAT_NONE;
}

/* The true count of a block: every vertex of both sides is looked at. */
static unsigned unsatisfied(const graph *g, const uint8_t *bit)
{
    unsigned count = 0;
    for (int side = LEFT; side < SIDES; side++)
        for (size_t vertex = 0; vertex < g->n[side]; vertex++)
            count += !is_inner_codeword(&g->code[side], word_of(g, side, vertex, bit));
    return count;
}

static void sweep(const graph *g, int side, uint8_t *bit)
{
    const code *c = &g->code[side];
    for (size_t vertex = 0; vertex < g->n[side]; vertex++) {
        unsigned word = nearest(c, word_of(g, side, vertex, bit));
        for (unsigned j = 0; j < c->d; j++)
            bit[edge_of(g, side, vertex, j)] = word >> (c->d - 1 - j) & 1;
    }
}

/* At how many places two lists of bits differ. */
static unsigned differences(const uint8_t *bit, const uint8_t *other, size_t bits)
{
    unsigned count = 0;
    for (size_t i = 0; i < bits; i++)
        count += bit[i] != other[i];
    return count;
}

/* How many vertices of a side have a bit in which two blocks differ: they read another word. */
static size_t vertices_apart(const graph *g, int side, const uint8_t *bit, const uint8_t *other)
{
    size_t count = 0;
    for (size_t vertex = 0; vertex < g->n[side]; vertex++)
        count += word_of(g, side, vertex, bit) != word_of(g, side, vertex, other);
    return count;
}

/* The whole block, both sides of it, is tested at every count from 0 to the limit: the side just swept may hold ties, so that
 * its vertices need not read codewords. It is kept before each sweep, so that it can be compared with the block after it: for
 * the sum of this sweep, and for the visits of the next one, if it is made. The first two sweeps visit their whole side. */
static lembikat_answer settle(const graph *g, size_t limit, uint8_t *bit, uint16_t *sums, uint64_t *visits)
{
    static uint8_t before[MAX_EDGES];
    for (size_t count = 0;; count++) {
        if (is_codeword(g, bit))
            return done(0, count);
        if (count == limit)
            return refused(15, 0);
        int side = count % 2 == 0 ? LEFT : RIGHT;
        *visits += count < 2 ? g->n[side] : vertices_apart(g, side, before, bit);
        memcpy(before, bit, g->edges);
        sweep(g, side, bit);
        if (count < SWEEPS_TOLD)
            sums[count] = (uint16_t)differences(before, bit, g->edges);
    }
}

/* The received block decoded with every lost bit as the value given. */
typedef struct {
    lembikat_answer answer;
    uint16_t sums[SWEEPS_TOLD];
    uint64_t visits;
    uint8_t bit[MAX_EDGES]; /* after the last sweep */
    unsigned changed;       /* bits outside the spans, against the received block */
} trial;

static void try_with(const graph *g, uint8_t value, const uint8_t *received, const uint8_t *is_lost, size_t limit, trial *t)
{
    memset(t->sums, 0, sizeof t->sums);
    t->visits = 0;
    for (size_t i = 0; i < g->edges; i++)
        t->bit[i] = is_lost[i] ? value : received[i];
    t->answer = settle(g, limit, t->bit, t->sums, &t->visits);
    t->changed = 0;
    for (size_t i = 0; i < g->edges; i++)
        t->changed += !is_lost[i] && t->bit[i] != received[i];
}

/* The trial whose answer, sums and visits are told: the settled one that changes fewer bits outside the spans, that with zeros
 * if they change equally many, and if neither settles. */
static const trial *kept(const trial *by_zeros, const trial *by_ones)
{
    if (by_ones->answer.number != 0)
        return by_zeros;
    if (by_zeros->answer.number != 0)
        return by_ones;
    return by_ones->changed < by_zeros->changed ? by_ones : by_zeros;
}

/* The largest, over left u, of the sum over all left w of |nr G(u, w) - dl dl|. G(u, w) counts, at every right vertex, the
 * pairs of an edge from u and an edge from w. */
static uint64_t spread(const graph *g)
{
    size_t nl = g->n[LEFT], nr = g->n[RIGHT];
    unsigned dl = g->code[LEFT].d, dr = g->code[RIGHT].d;
    uint32_t *meetings = calloc(nl * nl, sizeof *meetings);
    if (meetings == NULL) {
        fprintf(stderr, "reference: no memory\n");
        exit(1);
    }
    for (size_t v = 0; v < nr; v++)
        for (unsigned i = 0; i < dr; i++)
            for (unsigned j = 0; j < dr; j++)
                meetings[g->wired[v * dr + i] / dl * nl + g->wired[v * dr + j] / dl]++;
    uint64_t largest = 0;
    for (size_t u = 0; u < nl; u++) {
        uint64_t sum = 0;
        for (size_t w = 0; w < nl; w++) {
            int64_t term = (int64_t)nr * meetings[u * nl + w] - (int64_t)(dl * dl);
            sum += (uint64_t)(term < 0 ? -term : term);
        }
        if (sum > largest)
            largest = sum;
    }
    free(meetings);
    return largest;
}

/* D, the fewest ones in a nonzero codeword. */
static unsigned distance(const code *c)
{
    unsigned fewest = c->d;
    for (size_t j = 0; j < c->words; j++)
        if (c->word[j] != 0 && ones(c->word[j]) < fewest)
            fewest = ones(c->word[j]);
    return fewest;
}

/* Messages. A row of bits, bit j with weight 2^(j mod 64) in word j / 64. */
typedef struct {
    uint64_t word[MESSAGE_EDGES / 64];
} row;

static unsigned row_bit(const row *r, size_t j)
{
    return r->word[j / 64] >> (j % 64) & 1;
}

static void row_set(row *r, size_t j)
{
    r->word[j / 64] |= (uint64_t)1 << (j % 64);
}

static void row_add(row *to, const row *from)
{
    for (size_t i = 0; i < MESSAGE_EDGES / 64; i++)
        to->word[i] ^= from->word[i];
}

/* Brings a 1 of this column to row `at`, from a row at or below it, and clears the column everywhere else. 0 where there is
 * none. */
static int pivot(row *rows, size_t count, size_t at, size_t column)
{
    size_t from = at;
    while (from < count && !row_bit(&rows[from], column))
        from++;
    if (from == count)
        return 0;
    row kept = rows[from];
    rows[from] = rows[at];
    rows[at] = kept;
    for (size_t i = 0; i < count; i++)
        if (i != at && row_bit(&rows[i], column))
            row_add(&rows[i], &kept);
    return 1;
}

/* A basis of all words that meet every equation in an even number of ones. Each column without a leading 1 gives one. */
static size_t null_space(row *equations, size_t count, size_t columns, row *basis)
{
    size_t lead[MESSAGE_EDGES];
    size_t rank = 0;
    for (size_t column = 0; column < columns && rank < count; column++)
        if (pivot(equations, count, rank, column))
            lead[rank++] = column;
    size_t size = 0;
    size_t next = 0;
    for (size_t column = 0; column < columns; column++) {
        if (next < rank && lead[next] == column) {
            next++;
            continue;
        }
        memset(&basis[size], 0, sizeof basis[size]);
        row_set(&basis[size], column);
        for (size_t i = 0; i < rank; i++)
            if (row_bit(&equations[i], column))
                row_set(&basis[size], lead[i]);
        size++;
    }
    return size;
}

/* The checks of an inner code: a basis of all words that meet each of its codewords in an even number of ones. Answers their
 * number. */
static size_t inner_checks(const code *c, row *check)
{
    row inner[11];
    for (unsigned i = 0; i < c->k; i++) {
        memset(&inner[i], 0, sizeof inner[i]);
        for (unsigned j = 0; j < c->d; j++)
            if (c->row[i] >> (c->d - 1 - j) & 1)
                row_set(&inner[i], j);
    }
    return null_space(inner, c->k, c->d, check);
}

/* The message positions in rising order, and for each the codeword that has a 1 there and at no other message position. Its
 * last 1 stands there, since the columns are cleared from the end. Answers K. */
static size_t message_basis(const graph *g, row *basis, size_t *position)
{
    static row equations[2 * MESSAGE_EDGES];
    row check[16];
    size_t count = 0;
    for (int side = LEFT; side < SIDES; side++) {
        const code *c = &g->code[side];
        size_t checks = inner_checks(c, check);
        for (size_t vertex = 0; vertex < g->n[side]; vertex++)
            for (size_t i = 0; i < checks; i++) {
                memset(&equations[count], 0, sizeof equations[count]);
                for (unsigned j = 0; j < c->d; j++)
                    if (row_bit(&check[i], j))
                        row_set(&equations[count], edge_of(g, side, vertex, j));
                count++;
            }
    }
    size_t size = null_space(equations, count, g->edges, basis);

    size_t found = 0;
    for (size_t column = g->edges; column-- > 0 && found < size;)
        if (pivot(basis, size, found, column))
            position[found++] = column;
    for (size_t i = 0; i < size / 2; i++) {
        size_t other = size - 1 - i;
        row kept = basis[i];
        basis[i] = basis[other];
        basis[other] = kept;
        size_t place = position[i];
        position[i] = position[other];
        position[other] = place;
    }
    return size;
}

/* The calls. Graphs and bits are static because they are large; nothing is kept in them from one call to the next. */
static graph the_graph;
static uint8_t the_bits[MAX_EDGES], other_bits[MAX_EDGES];
static row the_basis[MESSAGE_EDGES];
static size_t the_positions[MESSAGE_EDGES];

lembikat_word_answer reference_nearest_word(const uint8_t *sheet, size_t sheet_bytes, uint64_t word)
{
    static code c;
    lembikat_answer answer = check_sheet(sheet, sheet_bytes, &c);
    uint64_t changed = 0;
    if (answer.number == 0 && word >= (uint64_t)1 << c.d)
        answer = refused(12, 0);
    if (answer.number == 0) {
        answer = done(0, nearest(&c, (unsigned)word));
        for (unsigned j = 0; j < c.d; j++)
            changed += (word >> j & 1) != (answer.value >> j & 1);
    }
    return (lembikat_word_answer){.number = answer.number, .place = answer.place, .value = answer.value, .changed = changed};
}

/* The same patterns lead from every word of a class to codewords, so its smallest word stands for it. */
lembikat_answer reference_build_table(const uint8_t *sheet, size_t sheet_bytes, uint8_t *output, size_t output_bytes)
{
    static code c;
    static class_list list;
    lembikat_answer answer = check_sheet(sheet, sheet_bytes, &c);
    if (answer.number != 0)
        return answer;
    size_t classes = list_classes(&c, &list);
    if (output_bytes < 2 * classes)
        return refused(13, 0);
    for (size_t i = 0; i < classes; i++) {
        unsigned entry = 0;
        if (lightest(&c, list.smallest[i], &entry) != 1)
            entry = MARK;
        output[2 * i] = (uint8_t)(entry / 256);
        output[2 * i + 1] = (uint8_t)(entry % 256);
    }
    return done(0, 0);
}

lembikat_word_answer reference_look_up(const uint8_t *sheet, size_t sheet_bytes, uint64_t word, const uint8_t *table,
                                       size_t table_bytes)
{
    static code c;
    static class_list list;
    lembikat_answer answer = check_sheet(sheet, sheet_bytes, &c);
    uint64_t changed = 0;
    if (answer.number == 0 && word >= (uint64_t)1 << c.d)
        answer = refused(12, 0);
    if (answer.number == 0 && table_bytes < 2 * list_classes(&c, &list))
        answer = refused(13, 0);
    if (answer.number == 0) {
        unsigned entry = pair_at(table, list.class_of[word]);
        unsigned pattern = entry == MARK ? 0 : entry % (1u << c.d);
        answer = done(0, word ^ pattern);
        changed = ones(pattern);
    }
    return (lembikat_word_answer){.number = answer.number, .place = answer.place, .value = answer.value, .changed = changed};
}

lembikat_answer reference_locate(const lembikat_plan *plan, const uint8_t *block, size_t block_bytes)
{
    graph *g = &the_graph;
    lembikat_answer answer = check_plan(plan, g);
    if (answer.number == 0)
        answer = check_block(g, block, block_bytes);
    if (answer.number != 0)
        return answer;
    unpack(block, g->edges, the_bits);
    return first_unsatisfied(g, the_bits);
}

lembikat_decode_answer reference_decode(const lembikat_plan *plan, const uint8_t *received, size_t received_bytes,
                                        const uint8_t *lost, size_t lost_bytes, uint8_t *output, size_t output_bytes,
                                        size_t limit)
{
    static uint8_t is_lost[MAX_EDGES];
    static trial by_zeros, by_ones;
    graph *g = &the_graph;
    lembikat_decode_answer told = {.sums = {0}, .visits = 0};
    lembikat_answer answer = check_plan(plan, g);
    if (answer.number == 0)
        answer = check_block(g, received, received_bytes);
    if (answer.number == 0)
        answer = check_spans(g, lost, lost_bytes, is_lost);
    if (answer.number == 0 && output_bytes < received_bytes)
        answer = refused(13, 0);
    if (answer.number == 0 && limit > 4096)
        answer = refused(14, 0);
    if (answer.number == 0) {
        const trial *told_of = &by_zeros;
        unpack(received, g->edges, the_bits);
        try_with(g, 0, the_bits, is_lost, limit, &by_zeros);
        if (lost_bytes != 0) { /* else the trials are one and the same */
            try_with(g, 1, the_bits, is_lost, limit, &by_ones);
            told_of = kept(&by_zeros, &by_ones);
        }
        answer = told_of->answer;
        memcpy(told.sums, told_of->sums, sizeof told.sums);
        told.visits = told_of->visits;
        if (answer.number == 0)
            pack(told_of->bit, g->edges, output);
        else
            memcpy(output, received, received_bytes);
    }
    told.number = answer.number;
    told.place = answer.place;
    told.value = answer.value;
    return told;
}

/* Writes a state, and answers what stands in it. */
static lembikat_state_answer write_state(const graph *g, unsigned count, unsigned number, const uint8_t *bit, uint8_t *state)
{
    state[0] = (uint8_t)(count / 256);
    state[1] = (uint8_t)(count % 256);
    state[2] = (uint8_t)(number / 256);
    state[3] = (uint8_t)(number % 256);
    pack(bit, g->edges, state + HEAD);
    return (lembikat_state_answer){.number = 0, .place = 0, .value = count, .sweeps = number};
}

static lembikat_state_answer state_refused(lembikat_answer answer)
{
    return (lembikat_state_answer){.number = answer.number, .place = answer.place, .value = 0, .sweeps = 0};
}

/* The count that a state has after its block has changed: by as much another as the true one is, modulo 65,536. */
static unsigned changed_count(unsigned count, unsigned true_before, unsigned true_after)
{
    return (65536 + count + true_after - true_before) % 65536;
}

lembikat_state_answer reference_load_state(const lembikat_plan *plan, const uint8_t *block, size_t block_bytes, uint8_t *state,
                                           size_t state_bytes)
{
    graph *g = &the_graph;
    lembikat_answer answer = check_plan(plan, g);
    if (answer.number == 0)
        answer = check_block(g, block, block_bytes);
    if (answer.number == 0 && state_bytes < HEAD + block_bytes)
        answer = refused(13, 0);
    if (answer.number != 0)
        return state_refused(answer);
    unpack(block, g->edges, the_bits);
    return write_state(g, unsatisfied(g, the_bits), 0, the_bits, state);
}

/* A settled state is written back as it stands. */
lembikat_state_answer reference_sweep_state(const lembikat_plan *plan, uint8_t *state, size_t state_bytes)
{
    graph *g = &the_graph;
    lembikat_answer answer = check_plan(plan, g);
    if (answer.number == 0)
        answer = check_state(g, state, state_bytes);
    if (answer.number != 0)
        return state_refused(answer);
    unsigned count = pair_at(state, 0), number = pair_at(state, 1);
    unpack(state + HEAD, g->edges, the_bits);
    if (count == 0)
        return write_state(g, count, number, the_bits, state);
    if (number >= 4096)
        return state_refused(refused(28, 0));
    unsigned before = unsatisfied(g, the_bits);
    sweep(g, number % 2 == 0 ? LEFT : RIGHT, the_bits);
    return write_state(g, changed_count(count, before, unsatisfied(g, the_bits)), number + 1, the_bits, state);
}

lembikat_state_answer reference_set_bit(const lembikat_plan *plan, size_t bit, uint64_t value, uint8_t *state,
                                        size_t state_bytes)
{
    graph *g = &the_graph;
    lembikat_answer answer = check_plan(plan, g);
    if (answer.number == 0)
        answer = check_state(g, state, state_bytes);
    if (answer.number == 0 && bit >= g->edges)
        answer = refused(27, 0);
    if (answer.number != 0)
        return state_refused(answer);
    unpack(state + HEAD, g->edges, the_bits);
    unsigned before = unsatisfied(g, the_bits);
    the_bits[bit] = value != 0;
    return write_state(g, changed_count(pair_at(state, 0), before, unsatisfied(g, the_bits)), 0, the_bits, state);
}

lembikat_answer reference_report(const lembikat_plan *plan, const uint8_t *received, size_t received_bytes,
                                 const uint8_t *settled, size_t settled_bytes, uint8_t *list, size_t list_bytes)
{
    graph *g = &the_graph;
    lembikat_answer answer = check_plan(plan, g);
    if (answer.number == 0)
        answer = check_block(g, received, received_bytes);
    if (answer.number == 0)
        answer = check_block(g, settled, settled_bytes);
    if (answer.number != 0)
        return answer;
    unpack(received, g->edges, the_bits);
    unpack(settled, g->edges, other_bits);
    /* Twice over the block: first the runs are counted, then they are written, so that a short list stays as it was. */
    for (int writing = 0;; writing = 1) {
        size_t pairs = 0;
        for (size_t i = 0; i < g->edges;) {
            size_t length = 0;
            while (i + length < g->edges && the_bits[i + length] != other_bits[i + length])
                length++;
            if (length == 0) {
                i++;
                continue;
            }
            if (writing) {
                list[4 * pairs] = (uint8_t)(i / 256);
                list[4 * pairs + 1] = (uint8_t)(i % 256);
                list[4 * pairs + 2] = (uint8_t)(length / 256);
                list[4 * pairs + 3] = (uint8_t)(length % 256);
            }
            pairs++;
            i += length;
        }
        if (list_bytes < 4 * pairs)
            return refused(16, 0);
        if (writing)
            return done(0, pairs);
    }
}

lembikat_answer reference_spread(const lembikat_plan *plan)
{
    lembikat_answer answer = check_plan(plan, &the_graph);
    if (answer.number != 0)
        return answer;
    return done(0, spread(&the_graph));
}

/* The sides are stepped to in turn, the right one first; each step goes by the distance of the side that it leads to. */
lembikat_answer reference_margin(const lembikat_plan *plan, uint64_t flips)
{
    graph *g = &the_graph;
    lembikat_answer answer = check_plan(plan, g);
    if (answer.number != 0)
        return answer;
    if (flips > g->edges)
        return refused(17, 0);
    int64_t nr = (int64_t)g->n[RIGHT], dl = g->code[LEFT].d;
    int64_t four_nr_r = 4 * nr * (int64_t)spread(g);
    int64_t b = (int64_t)(2 * flips / distance(&g->code[LEFT]));
    uint64_t place = 1;
    for (int side = RIGHT; b != 0; side = side == RIGHT ? LEFT : RIGHT) {
        int64_t a = distance(&g->code[side]) * nr - 2 * dl * b;
        if (a <= 0 || a * a <= four_nr_r)
            return refused(18, 0);
        b = four_nr_r * b / (a * a);
        place++;
    }
    return done(0, place);
}

lembikat_answer reference_encode(const lembikat_plan *plan, const uint8_t *message, size_t message_bytes, uint8_t *output,
                                 size_t output_bytes)
{
    graph *g = &the_graph;
    lembikat_answer answer = check_plan(plan, g);
    if (answer.number != 0)
        return answer;
    if (g->edges > MESSAGE_EDGES)
        return refused(19, 0);
    size_t bits = message_basis(g, the_basis, the_positions);
    if (message_bytes != bytes_for(bits))
        return refused(20, 0);
    if (stray_bits(message, message_bytes, bits))
        return refused(21, 0);
    if (output_bytes < bytes_for(g->edges))
        return refused(13, 0);
    row sum = {{0}};
    for (size_t i = 0; i < bits; i++)
        if (bit_at(message, i))
            row_add(&sum, &the_basis[i]);
    for (size_t j = 0; j < g->edges; j++)
        the_bits[j] = (uint8_t)row_bit(&sum, j);
    pack(the_bits, g->edges, output);
    return done(0, 0);
}

lembikat_answer reference_read(const lembikat_plan *plan, const uint8_t *block, size_t block_bytes, uint8_t *output,
                               size_t output_bytes)
{
    graph *g = &the_graph;
    lembikat_answer answer = check_plan(plan, g);
    if (answer.number != 0)
        return answer;
    if (g->edges > MESSAGE_EDGES)
        return refused(19, 0);
    answer = check_block(g, block, block_bytes);
    if (answer.number != 0)
        return answer;
    unpack(block, g->edges, the_bits);
    if (!is_codeword(g, the_bits))
        return refused(22, 0);
    size_t bits = message_basis(g, the_basis, the_positions);
    if (output_bytes < bytes_for(bits))
        return refused(13, 0);
    for (size_t i = 0; i < bits; i++)
        other_bits[i] = the_bits[the_positions[i]];
    pack(other_bits, bits, output);
    return done(0, 0);
}

size_t reference_message_bits(const lembikat_plan *plan)
{
    lembikat_answer answer = check_plan(plan, &the_graph);
    if (answer.number != 0 || the_graph.edges > MESSAGE_EDGES)
        return 0;
    return message_basis(&the_graph, the_basis, the_positions);
}
