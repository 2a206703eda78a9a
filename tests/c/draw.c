/* What is drawn at random: numbers, codes and wirings, messages and codewords, blocks as they may be received, lost spans,
 * states and tables. The draws come in one order from one seed, so that a run can be repeated. */
#include "draw.h"
#include "reference.h"
#include "subjects.h"

static uint64_t drawn = 0x9e3779b97f4a7c15u;

/* The call's own start, so that it can be made again without those before it. The numbers are mixed, since starts that are near
 * one another would give draws that are alike at first. */
void draw_from(uint64_t seed, uint64_t i)
{
    uint64_t mixed = seed * 0x9e3779b97f4a7c15u + i;
    for (int round = 0; round < 2; round++) {
        mixed = (mixed ^ mixed >> 30) * 0xbf58476d1ce4e5b9u;
        mixed = (mixed ^ mixed >> 27) * 0x94d049bb133111ebu;
        mixed ^= mixed >> 31;
    }
    drawn = mixed == 0 ? 1 : mixed; /* 0 would give nothing but 0 */
}

uint64_t draw64(void)
{
    drawn ^= drawn << 13;
    drawn ^= drawn >> 7;
    drawn ^= drawn << 17;
    return drawn * 0x2545f4914f6cdd1du;
}

size_t draw(size_t below)
{
    return (size_t)((draw64() >> 16) % below);
}

int one_in(size_t count)
{
    return draw(count) == 0;
}

void draw_bytes(uint8_t *to, size_t size)
{
    for (size_t i = 0; i < size; i++)
        to[i] = (uint8_t)draw(256);
}

void draw_rows(side *s, unsigned kept)
{
    static unsigned made[2048]; /* all exclusive-ors of the rows so far */
    size_t known = 1;
    made[0] = 0;
    for (unsigned i = 0; i < s->k;) {
        unsigned row = i < kept ? s->row[i] : (unsigned)draw((size_t)1 << s->d);
        int fresh = 1;
        for (size_t j = 0; j < known; j++)
            fresh &= made[j] != row;
        if (!fresh)
            continue;
        for (size_t j = 0; j < known; j++)
            made[known + j] = made[j] ^ row;
        known *= 2;
        s->row[i++] = row;
    }
}

static unsigned draw_inner_codeword(const side *s)
{
    unsigned word = 0;
    for (unsigned i = 0; i < s->k; i++)
        if (one_in(2))
            word ^= s->row[i];
    return word;
}

/* The house code, or one that looks like it: with some of its rows, or with all of them in another order. */
static void draw_house(side *s, int exactly)
{
    static const unsigned rows[4] = {0xff, 0x0f, 0x33, 0x55}, backwards[4] = {0x55, 0x33, 0x0f, 0xff};
    s->d = 8;
    s->k = 4;
    memcpy(s->row, exactly || one_in(2) ? rows : backwards, sizeof rows);
    if (!exactly)
        draw_rows(s, (unsigned)draw(5));
}

/* A code with d bits, any number where d is 0. Sturdy: with a large distance, so that several flips are covered. */
static void draw_code(side *s, unsigned d, int sturdy)
{
    static const unsigned reed_muller[11] = {0xffff, 0x00ff, 0x0f0f, 0x3333, 0x5555, 0x000f,
                                             0x0033, 0x0055, 0x0303, 0x0505, 0x1111};
    size_t kind = draw(sturdy ? 3 : 8);
    if ((kind == 0 && d != 0 && d != 8) || (kind == 1 && d != 0 && d != 16) || (kind == 3 && d > 12))
        kind = 2;
    s->d = d != 0 ? d : 2 + (unsigned)draw(kind == 3 ? 11 : 15);
    switch (kind) {
    case 0:
        draw_house(s, sturdy || !one_in(3));
        break;
    case 1:
        s->d = 16;
        s->k = 1 + (unsigned)draw(sturdy ? 5 : 11);
        memcpy(s->row, reed_muller, sizeof reed_muller);
        break;
    case 2: /* all bits alike, or all but one or two */
        s->k = 1;
        s->row[0] = (1u << s->d) - 1;
        if (s->d > 4 && one_in(4))
            s->row[0] &= ~(1u << draw(s->d) | 1u << draw(s->d));
        break;
    case 3: /* all words with an even number of ones */
        s->k = s->d - 1;
        for (unsigned i = 0; i < s->k; i++)
            s->row[i] = 3u << i;
        break;
    default:
        s->k = 1 + (unsigned)draw(s->d < 11 ? s->d : 11);
        draw_rows(s, 0);
    }
}

/* The degrees for which the squares modulo a prime give a wiring, see lay_residues. */
static const size_t residue_degrees[] = {3, 4, 5, 6, 9, 10, 11, 12, 15, 16};
#define RESIDUE_DEGREES (sizeof residue_degrees / sizeof residue_degrees[0])

/* One of these that divides both degrees, 0 where none does. */
static size_t draw_residue_degree(size_t d, size_t other)
{
    size_t fitting[RESIDUE_DEGREES], count = 0;
    for (size_t i = 0; i < RESIDUE_DEGREES; i++)
        if (d % residue_degrees[i] == 0 && other % residue_degrees[i] == 0)
            fitting[count++] = residue_degrees[i];
    return count == 0 ? 0 : fitting[draw(count)];
}

/* Both codes: in two plans of five one sheet serves both sides, in one the sheets differ though d is equal, in two d differs
 * too, as a rule. Sturdy plans mostly have degrees for which there is a wiring that is spread evenly. */
static void draw_codes(int sturdy)
{
    side *left = &plan.left, *right = &plan.right;
    size_t kind = draw(5), shared;
    unsigned q = one_in(2) ? 11 : 13, larger_left = (unsigned)draw(2);
    int plane = sturdy && one_in(2); /* see lay_plane */
    draw_code(left, plane ? q + larger_left : 0, sturdy);
    if (kind < 2) {
        *right = *left;
    } else if (kind == 2) {
        *right = *left;
        for (int tries = 0; tries < 10 && same_code(left, right); tries++)
            draw_code(right, left->d, sturdy && tries < 8);
    } else if (plane) {
        draw_code(right, q + 1 - larger_left, sturdy);
    } else if (sturdy && (shared = draw_residue_degree(left->d, left->d)) != 0) {
        draw_code(right, (unsigned)(shared * (1 + draw(16 / shared))), sturdy);
    } else {
        draw_code(right, 0, sturdy);
    }
}

/* The wiring of n vertices on each side, n = 2d + 1 or 2d - 1 being prime, in which right vertex v meets the left vertices v +
 * s for the squares s modulo n, or for the others where d is even: any two left vertices then meet equally often, so many flips
 * are covered and several sweeps are named. With dl = d * b and dr = d * a every left vertex stands there a times and every
 * right vertex b times. */
static void lay_residues(size_t d)
{
    uint8_t square[64] = {0};
    size_t used[64] = {0};
    size_t n = d % 2 == 1 ? 2 * d + 1 : 2 * d - 1, times = plan.right.d / d, entry = 0;
    for (size_t s = 1; s < n; s++)
        square[s * s % n] = 1;
    for (size_t v = 0; v < plan.right.n; v++)
        for (size_t s = 0; s < n; s++)
            for (size_t copy = 0; copy < times && square[s] == d % 2; copy++) {
                size_t u = (v + s) % n * times + copy;
                put_pair(wiring, entry++, u * plan.left.d + used[u]++);
            }
}

/* q where both degrees are q + 1, or one of them is and the other is q, for the q taken here; else 0. */
static size_t plane_of(size_t dl, size_t dr)
{
    size_t q = larger(dl, dr) - 1;
    return (q == 11 || q == 13) && smaller(dl, dr) >= q ? q : 0;
}

/* The points of the projective plane over the numbers modulo the prime q on the left, its lines on the right: each is given by
 * three numbers, and a point is on a line where the sum of their products is 0. q + 1 points are on each, two of them share one
 * line. A side of degree q has the lines of the affine plane: line 0 is left out with its points, which are the last q + 1. Of
 * all wirings here these cover the most flips and name the most sweeps. */
static void lay_plane(size_t q)
{
    static size_t at[256][3];
    size_t used[256] = {0}, entry = 0;
    for (size_t i = 0; i <= q * q + q; i++) {
        at[i][0] = i < q * q;
        at[i][1] = i < q * q ? i / q : i < q * q + q;
        at[i][2] = i < q * q + q ? i % q : 1;
    }
    size_t skipped_left = plan.left.d == q, skipped_right = plan.right.d == q;
    for (size_t v = 0; v < plan.right.n; v++)
        for (size_t u = 0; u < plan.left.n; u++) {
            const size_t *line = at[v + skipped_right], *point = at[u + skipped_left];
            if ((line[0] * point[0] + line[1] * point[1] + line[2] * point[2]) % q == 0)
                put_pair(wiring, entry++, u * plan.left.d + used[u]++);
        }
}

/* Sturdy: wirings that are spread evenly. */
static void draw_wiring(int for_messages, int sturdy)
{
    static size_t order[MAX_EDGES];
    size_t dl = plan.left.d, dr = plan.right.d, common = common_divisor(dl, dr), residues = draw_residue_degree(dl, dr);
    size_t q = plane_of(dl, dr);
    size_t step = larger(dl, dr) / common; /* by which the larger side can grow */
    size_t kind = draw(200), most = 1 + draw(40);
    if (kind == 0)
        most = LEMBIKAT_MAX_VERTICES;
    else if (kind < 12)
        most = 41 + draw(160);
    else if (for_messages && one_in(8)) /* as large as a plan with messages can be */
        most = LEMBIKAT_MAX_MESSAGE_EDGES / smaller(dl, dr);
    size_t steps = larger(most / step, 1);
    plan.lay = sturdy ? RESIDUES : (int)draw(4);
    if (sturdy && q != 0)
        plan.lay = PLANE;
    if (plan.lay == RESIDUES && residues == 0)
        plan.lay = RECTANGLES;
    if (plan.lay == RECTANGLES)
        steps = sturdy ? common : larger(steps / common, 1) * common;
    size_t n = dr / common * steps;
    if (plan.lay == RESIDUES)
        n = (residues % 2 == 1 ? 2 * residues + 1 : 2 * residues - 1) * (dr / residues);
    if (plan.lay == PLANE)
        n = q * q + (dr > q ? q : 0) + (dl == dr);
    set_plan(plan.left, plan.right, n);
    if (plan.lay == RESIDUES) {
        lay_residues(residues);
        return;
    }
    if (plan.lay == PLANE) {
        lay_plane(q);
        return;
    }
    /* Shuffled: the edges in any order. Else the right vertices in any order, each with the edges of its place in the lay. */
    size_t count = plan.lay == SHUFFLED ? plan.edges : plan.right.n;
    for (size_t i = 0; i < count; i++)
        order[i] = i;
    for (size_t i = count; i > 1; i--) {
        size_t j = draw(i), kept = order[j];
        order[j] = order[i - 1];
        order[i - 1] = kept;
    }
    for (size_t i = 0; i < plan.edges; i++) {
        size_t edge;
        if (plan.lay == SHUFFLED) {
            edge = order[i];
        } else if (plan.lay == TWINS) {
            /* a right vertex has edges that follow one another, those of one left vertex if dl is dr */
            edge = order[i / dr] * dr + i % dr;
        } else { /* rectangles: the left vertices are the dr lines of dl bits, the right ones the dl columns of dr bits */
            size_t rectangle = order[i / dr] / dl, column = order[i / dr] % dl;
            edge = (rectangle * dr + i % dr) * dl + column;
        }
        put_pair(wiring, i, edge);
    }
}

/* K of the plan, worked out once for each plan and only where it is asked for. */
static size_t plan_bits;
static int plan_bits_known;

void draw_plan(int for_messages, int sturdy)
{
    plan_bits_known = 0;
    draw_codes(sturdy);
    draw_wiring(for_messages, sturdy);
}

static void put_word(uint8_t *block, size_t left_vertex, unsigned word)
{
    size_t d = plan.left.d;
    for (size_t j = 0; j < d; j++)
        if (word >> (d - 1 - j) & 1)
            flip(block, left_vertex * d + j);
}

size_t message_bits(void)
{
    lembikat_plan p = reference_plan();
    if (!plan_bits_known)
        plan_bits = reference_message_bits(&p);
    plan_bits_known = 1;
    return plan_bits;
}

void draw_message(uint8_t *message)
{
    size_t bits = message_bits();
    draw_bytes(message, (bits + 7) / 8);
    if (bits % 8 != 0)
        message[bits / 8] &= (uint8_t)(0xff00u >> bits % 8);
}

static int all_ones(const side *s)
{
    return s->row[0] == (1u << s->d) - 1;
}

/* A codeword of the plan, from how it was laid. Zero where nothing better is at hand. */
void draw_codeword(uint8_t *block)
{
    uint8_t message[LEMBIKAT_MAX_MESSAGE_BYTES];
    const side *left = &plan.left, *right = &plan.right;
    memset(block, 0, plan.block);
    if (plan.lay == TWINS && same_code(left, right)) {
        for (size_t u = 0; u < left->n; u++)
            put_word(block, u, draw_inner_codeword(left));
    } else if (plan.lay == RECTANGLES) {
        /* Line j is the exclusive-or of the left codewords whose right row has bit j, so the columns read codewords too. */
        for (size_t top = 0; top < left->n; top += right->d)
            for (unsigned i = 0; i < right->k; i++) {
                unsigned word = draw_inner_codeword(left);
                for (size_t j = 0; j < right->d; j++)
                    if (right->row[i] >> (right->d - 1 - j) & 1)
                        put_word(block, top + j, word);
            }
    } else if (all_ones(left) && all_ones(right) && one_in(2)) {
        for (size_t u = 0; u < left->n; u++)
            put_word(block, u, left->row[0]);
    } else if (plan.edges <= 200) {
        lembikat_plan p = reference_plan();
        draw_message(message);
        reference_encode(&p, message, (message_bits() + 7) / 8, block, plan.block);
    }
}

void draw_noise(uint8_t *block)
{
    draw_bytes(block, plan.block);
    if (plan.edges % 8 != 0)
        block[plan.block - 1] &= (uint8_t)(0xff00u >> plan.edges % 8);
}

/* A block as it might be received: now and then anything, mostly a codeword with some bits flipped. */
void draw_block(uint8_t *block)
{
    if (one_in(8)) {
        draw_noise(block);
        return;
    }
    draw_codeword(block);
    if (one_in(4))
        return;
    for (size_t flips = one_in(4) ? draw(plan.edges) : draw(6); flips > 0; flips--)
        flip(block, draw(plan.edges));
}

/* Lists lost bits as spans. Those of one run may be listed in pieces that touch. */
static void list_lost(const uint8_t *is_lost)
{
    lost_size = 0;
    for (size_t i = 0; i < plan.edges;) {
        size_t length = 0;
        while (i + length < plan.edges && is_lost[i + length] && (length == 0 || !one_in(20)))
            length++;
        if (length != 0)
            add_span(i, length);
        i += larger(length, 1);
    }
}

void lose_bits(size_t count, uint8_t *is_lost)
{
    memset(is_lost, 0, plan.edges);
    while (count > 0) {
        size_t from = draw(plan.edges), to = smaller(from + 1 + draw(count), plan.edges);
        for (size_t i = from; i < to; i++) {
            count -= !is_lost[i];
            is_lost[i] = 1;
        }
    }
    list_lost(is_lost);
}

/* A list of lost spans: none, the whole block, the end of it, or some bits. */
void draw_spans(void)
{
    static uint8_t is_lost[MAX_EDGES];
    lost_size = 0;
    if (one_in(3))
        return;
    if (one_in(12))
        lose(0, plan.edges);
    else if (one_in(8))
        lose(plan.edges - 1 - draw(smaller(plan.edges, 12)), 1);
    else
        lose_bits(1 + draw(one_in(4) ? plan.edges : smaller(plan.edges, 12)), is_lost);
}

/* A state in the lent buffer, of a block in the first one: as it comes of a few sweeps, or with a count or a sweep number that
 * is made up. */
void draw_state(void)
{
    static const size_t counts[] = {0, 0, 1, 65535},
                        numbers[] = {LEMBIKAT_MAX_LIMIT - 1, LEMBIKAT_MAX_LIMIT, LEMBIKAT_MAX_LIMIT + 1, 65535};
    lembikat_plan p = reference_plan();
    if (one_in(3))
        draw_noise(first);
    else
        draw_block(first);
    size_t count = reference_load_state(&p, first, plan.block, lent, state_bytes()).value, number = draw(4);
    if (one_in(4))
        count = one_in(4) ? draw(65536) : one_in(2) ? counts[draw(4)] : (count + 65535 + draw(3)) % 65536;
    if (one_in(4))
        number = one_in(4) ? draw(65536) : numbers[draw(4)];
    put_state(count, number);
}

/* A table: the sheet's own, or any bytes, at times with many marks. */
void draw_table(uint8_t *table, size_t size)
{
    draw_bytes(table, size);
    if (one_in(2))
        reference_build_table(left_sheet, sheet_size(&plan.left), table, size);
    else if (one_in(3))
        for (size_t marks = size / 4; marks > 0; marks--)
            put_pair(table, draw(size / 2), LEMBIKAT_TIE_MARK);
}

size_t first_uncovered(void)
{
    lembikat_plan p = reference_plan();
    size_t covered = 0, beyond = 1;
    while (reference_margin(&p, beyond).number == LEMBIKAT_DONE)
        beyond *= 2;
    while (beyond - covered > 1) {
        size_t middle = covered + (beyond - covered) / 2;
        if (reference_margin(&p, middle).number == LEMBIKAT_DONE)
            covered = middle;
        else
            beyond = middle;
    }
    return beyond;
}
