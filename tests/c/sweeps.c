/* The decoder's sweeps: chains of thousands of them, their sums, a lone vertex, sheets that differ, ties, noise. */
#include "subjects.h"

/* A chain: each vertex reads four bits that must be alike, and a fifth that may be anything. Two of the four are ones from the
 * start; one comes from the vertex before it in the chain and one goes to the vertex after it, and these are 0 but for the
 * first of them all, the head, whose other end is a fifth bit. Where two of four are ones there is a tie, and the vertex waits:
 * only when the bit from the vertex before has become 1 does it read three ones, and then it hands the 1 on. The sides take
 * turns along the chain, so that each sweep changes one bit, in one vertex, and all vertices behind it, on both sides, still
 * wait. The block settles only after 2n sweeps, or 2n + 1 where the head is at a right vertex: sweep 1 then changes nothing.
 * Beside the chain there may be vertices that never settle: one a side, which share their bits, of the four two ones, a tie; or
 * two a side, each right one with three of the four bits of one left vertex and one of the other, which are three ones and one:
 * each sweep turns two of these bits, and the next one turns them back. */
enum { ALONE, BESIDE_A_TIE, BESIDE_A_SWING, CHAINS }; /* each also the number of vertices a side that are beside it */

static void lay_chain_beside(size_t n, int right_first, int beside)
{
    const side code = {.d = 5, .k = 2, .row = {0x1e, 0x01}};
    set_plan(code, code, n + (size_t)beside);
    /* Left vertex u has its bit from the vertex before, that to the vertex after, its two ones, its fifth. Right vertex v has
     * the ones and, as a rule, the fifth of left vertex v. */
    memset(first, 0, plan.block);
    for (size_t v = 0; v < n; v++) {
        const size_t from = 5 * v, to = 5 * v + 1, last = v + 1 == n;
        if (right_first) { /* right vertex v is before left vertex v; the head is the fifth bit of the last left vertex */
            put_pair(wiring, 5 * v, v == 0 ? 5 * n - 1 : to - 5);
            put_pair(wiring, 5 * v + 1, from);
            put_pair(wiring, 5 * v + 4, last ? to : 5 * v + 4);
        } else { /* left vertex v is before right vertex v; the head, bit 0, is the fifth bit of the last right vertex */
            put_pair(wiring, 5 * v, to);
            put_pair(wiring, 5 * v + 1, last ? 5 * n - 1 : from + 5);
            put_pair(wiring, 5 * v + 4, last ? 0 : 5 * v + 4);
        }
        put_pair(wiring, 5 * v + 2, 5 * v + 2);
        put_pair(wiring, 5 * v + 3, 5 * v + 3);
        flip(first, 5 * v + 2);
        flip(first, 5 * v + 3);
    }
    flip(first, right_first ? 5 * n - 1 : 0);
    for (size_t i = 5 * n; i < plan.edges; i++)
        put_pair(wiring, i, i);
    if (beside == BESIDE_A_TIE) {
        flip(first, 5 * n);
        flip(first, 5 * n + 1);
    } else if (beside == BESIDE_A_SWING) {
        swap_entries(5 * n + 3, 5 * n + 5);
        for (size_t i = 0; i < 3; i++)
            flip(first, 5 * n + i);
        flip(first, 5 * n + 5);
    }
}

void lay_chain(size_t n, int right_first)
{
    lay_chain_beside(n, right_first, ALONE);
}

/* The decoder on such a chain. From sweep 3 on it visits the one vertex of the chain that the sweep before has handed the 1 to,
 * also after the last one, and those that swing. Where the reference would take long the library is called alone: all that it
 * must answer is known. */
static void chain_call(size_t n, int right_first, int beside, size_t limit)
{
    static size_t calls;
    const size_t last = right_first ? 2 * n + 1 : 2 * n, swinging = beside == BESIDE_A_SWING ? 2 : 0;
    const int settles = beside == ALONE && last <= limit;
    const size_t made = settles ? last : limit;
    lay_chain_beside(n, right_first, beside);
    call c = decoder_call(limit);
    if (beside != ALONE && n > 100)
        run_library(&c, &by_library);
    else
        compare("chain", calls++, &c);

    uint64_t visits = each_side_once(made);
    int right = by_library.answer.number == (settles ? LEMBIKAT_DONE : LEMBIKAT_UNSETTLED) &&
                by_library.answer.value == (settles ? last : 0);
    for (size_t i = 0; i < LEMBIKAT_SUMS; i++)
        right &= by_library.sums[i] == (i >= made ? 0 : (i >= (size_t)right_first && i < last) + swinging);
    for (size_t sweep = 3; sweep <= made; sweep++)
        visits += (sweep - 1 <= last) + swinging;
    if (failed(!right || by_library.visits != visits || by_library.trouble != NULL)) {
        printf("FAILED: chain of n %zu with limit %zu, whose last change is in sweep %zu, visits %llu %s\n", n, limit, last,
               (unsigned long long)visits, by_library.trouble == NULL ? "" : by_library.trouble);
        show("library  ", &c, &by_library);
    }
}

/* Counts and limits below, at and above the sweeps that have sums, and the largest limit of all. */
void chain_calls(void)
{
    static const size_t sizes[] = {1, 2, 3, 30, 31, 32, 33},
                        limits[] = {0,  1,  2,  3,  4,  5,  6,  7,  8,  60,  61,  62,  63,
                                    64, 65, 66, 67, 68, 69, 70, 71, 72, 128, 129, 999, LEMBIKAT_MAX_LIMIT};
    for (int beside = ALONE; beside < CHAINS; beside++)
        for (size_t i = 0; i < sizeof sizes / sizeof sizes[0]; i++)
            for (size_t j = 0; j < sizeof limits / sizeof limits[0]; j++) {
                if (beside != ALONE && sizes[i] > 3 && limits[j] > 999)
                    continue; /* the same sweeps over and over, which takes the reference long */
                chain_call(sizes[i], 0, beside, limits[j]);
                chain_call(sizes[i], 1, beside, limits[j]);
            }
    chain_call(LEMBIKAT_MAX_VERTICES, 0, ALONE, LEMBIKAT_MAX_LIMIT - 1);
    chain_call(LEMBIKAT_MAX_VERTICES, 0, ALONE, LEMBIKAT_MAX_LIMIT);
    for (size_t limit = LEMBIKAT_MAX_LIMIT - 3; limit <= LEMBIKAT_MAX_LIMIT; limit++)
        for (int beside = BESIDE_A_TIE; beside < CHAINS; beside++) {
            chain_call(LEMBIKAT_MAX_VERTICES - (size_t)beside, 0, beside, limit);
            chain_call(LEMBIKAT_MAX_VERTICES - (size_t)beside, 1, beside, limit);
        }
}

/* The largest sum: at each of 2,048 vertices the word is sixteen ones, the codewords are zero and a lone 1, and 15 bits are
 * changed. No plan has more: sixteen ones get fewer with any codeword put on them. Sweep 1 does it where the left code is that
 * one, sweep 2 where the right code is and the left one has sixteen ones too. */
static void largest_sum(int sweep, side left, side right)
{
    set_plan(left, right, LEMBIKAT_MAX_VERTICES);
    lay_in_order();
    memset(first, 0xff, MAX_BLOCK);
    call c = decoder_call(2);
    compare("largest sum", 0, &c);
    if (failed(by_library.answer.number != LEMBIKAT_DONE || by_library.answer.value != (uint64_t)sweep ||
               by_library.sums[sweep - 1] != 15 * LEMBIKAT_MAX_VERTICES || by_library.sums[2 - sweep] != 0)) {
        printf("FAILED: sweep %d changes 15 bits at every vertex\n", sweep);
        show("library  ", &c, &by_library);
    }
    must_visit("largest sum", &c, each_side_once((size_t)sweep));
}

void largest_sums(void)
{
    const side lone_one = {.d = 16, .k = 1, .row = {1}}, and_all_ones = {.d = 16, .k = 2, .row = {1, 0xffff}};
    largest_sum(1, lone_one, lone_one);
    largest_sum(2, and_all_ones, lone_one);
}

/* A lone vertex that reads no codeword, on a side with more vertices than the other has. Its bits must be alike, and whatever
 * the other side reads is a codeword. The locator must name it. Of three bits the decoder mends the one that is flipped, in the
 * side's own first sweep; with two bits there is a tie, which stays. */
static void lone_vertex_call(int right, unsigned d, size_t n, unsigned other_d, size_t vertex)
{
    if (right) {
        set_plan(free_code(other_d), alike_code(d), n * d / other_d);
        for (size_t i = 0; i < plan.edges; i++) /* from the last edge down, so that a vertex's edges are not its number's */
            put_pair(wiring, i, plan.edges - 1 - i);
    } else {
        set_plan(alike_code(d), free_code(other_d), n);
        lay_in_order();
    }
    memset(first, 0, plan.block);
    flip(first, right ? plan.edges - 1 - d * vertex : d * vertex); /* its first bit */
    call c = plan_call(LOCATE);
    c.field[FIRST] = (bytes){first, plan.block};
    compare("lone vertex", vertex, &c);
    must_answer("lone vertex", &c, LEMBIKAT_DONE, right ? LEMBIKAT_RIGHT : LEMBIKAT_LEFT, vertex);
    c = decoder_call(2);
    compare("lone vertex", vertex, &c);
    if (d == 2)
        must_answer("lone vertex", &c, LEMBIKAT_UNSETTLED, 0, 0);
    else
        must_answer("lone vertex", &c, LEMBIKAT_DONE, 0, right ? 2 : 1);
    must_visit("lone vertex", &c, each_side_once(d == 2 || right ? 2 : 1));
}

void lone_vertex_calls(void)
{
    for (int right = 0; right < 2; right++)
        for (unsigned d = 2; d <= 3; d++) {
            for (size_t vertex = 0; vertex < 33; vertex++)
                lone_vertex_call(right, d, 33, 11, vertex);
            for (size_t vertex = 255; vertex < LEMBIKAT_MAX_VERTICES; vertex = 2 * vertex + 1)
                lone_vertex_call(right, d, LEMBIKAT_MAX_VERTICES, 8, vertex);
        }
}

/* Sheets that differ though n and d are equal, and the same two swapped. Vertex 0 of each side reads 100, which is no codeword
 * where bits must be alike; the side that has this code is located, and its first sweep mends it. */
void sheet_calls(void)
{
    for (int swapped = 0; swapped < 2; swapped++) {
        if (swapped)
            set_plan(free_code(3), alike_code(3), 2);
        else
            set_plan(alike_code(3), free_code(3), 2);
        lay_in_order();
        first[0] = 0x80;
        call c = plan_call(LOCATE);
        c.field[FIRST] = (bytes){first, plan.block};
        compare("sheets", (size_t)swapped, &c);
        must_answer("sheets", &c, LEMBIKAT_DONE, swapped ? LEMBIKAT_RIGHT : LEMBIKAT_LEFT, 0);
        c = decoder_call(2);
        compare("sheets", (size_t)swapped, &c);
        must_answer("sheets", &c, LEMBIKAT_DONE, 0, swapped ? 2 : 1);
        must_visit("sheets", &c, each_side_once(swapped ? 2 : 1));
    }
}

/* A decoder call on the plan and on what stands in the first block. It must settle after so many sweeps, if the limit is not
 * below them, or never where that is 0. The sums of sweeps 1 and 2 are given, as far as the limit lets them be made; no later
 * sweep changes a bit, nor does sweep 2 where the block never settles. */
static void tie_call(uint64_t limit, uint64_t sweeps, unsigned sum_1, unsigned sum_2)
{
    static size_t calls;
    int settles = sweeps != 0 && sweeps <= limit, right = 1;
    call c = decoder_call(limit);
    compare("tie", calls++, &c);
    must_answer("tie", &c, settles ? LEMBIKAT_DONE : LEMBIKAT_UNSETTLED, 0, settles ? sweeps : 0);
    for (size_t i = 0; i < LEMBIKAT_SUMS; i++)
        right &= by_library.sums[i] == (i >= limit ? 0 : i == 0 ? sum_1 : i == 1 ? sum_2 : 0);
    if (failed(!right)) {
        printf("FAILED: tie: the sums of sweeps 1 and 2 must be %u and %u, limit %llu\n", sum_1, sum_2,
               (unsigned long long)limit);
        show("library  ", &c, &by_library);
    }
    must_visit("tie", &c, each_side_once(settles ? sweeps : limit));
}

/* Ties: the word stays, and as long as some vertex reads it the block is no codeword, whichever side was swept last. */
void tie_calls(void)
{
    static const uint64_t limits[] = {0, 1, 2, 3, 4, 5, 63, 64, 65, LEMBIKAT_MAX_LIMIT - 1, LEMBIKAT_MAX_LIMIT};
    for (size_t i = 0; i < sizeof limits / sizeof limits[0]; i++) {
        for (unsigned block = 0x40; block <= 0x80; block += 0x40) {
            /* The pair plan: both vertices tie, and nothing is ever changed. */
            set_plan(pair_code, pair_code, 1);
            lay_in_order();
            first[0] = (uint8_t)block;
            tie_call(limits[i], 0, 0, 0);
            /* Whatever the right vertex reads is a codeword: the tie is on the side that sweeps 1, 3, .. have just swept. */
            set_plan(pair_code, free_code(2), 1);
            tie_call(limits[i], 0, 0, 0);
            /* Whatever the left vertex reads is one: the tie is on the side that sweeps 2, 4, .. have just swept. */
            set_plan(free_code(2), pair_code, 1);
            tie_call(limits[i], 0, 0, 0);
        }
        /* Of two left vertices sweep 1 mends the first, 1110, and leaves the second, 1100; on the right all are codewords. */
        set_plan(alike_code(4), free_code(4), 2);
        lay_in_order();
        first[0] = 0xec;
        tie_call(limits[i], 0, 1, 0);
        /* Three left vertices of two bits, two right ones of three, one bit flipped: its left vertex waits in sweep 1, and its
         * right vertex mends it in sweep 2. */
        set_plan(pair_code, alike_code(3), 3);
        lay_evenly();
        first[0] = 0x80;
        tie_call(limits[i], 2, 0, 1);
        /* The same with the sides swapped: the left vertex mends it in sweep 1. */
        set_plan(alike_code(3), pair_code, 2);
        lay_evenly();
        tie_call(limits[i], 1, 1, 0);
    }
}

/* Noise where all bits of a vertex must be alike, on small plans with few vertices that share edges in any way: there blocks
 * take the most sweeps until they settle or come to what they do for ever. */
#define NOISY_PLANS 400

void noise_calls(void)
{
    size_t calls = 0, latest = 0, settled = 0, stalled = 0, swinging = 0;
    for (size_t i = 0; i < NOISY_PLANS; i++) {
        unsigned dl = 3 + (unsigned)draw(4), dr = 3 + (unsigned)draw(4);
        size_t step = dr / common_divisor(dl, dr);
        set_plan(alike_code(dl), alike_code(dr), step * (1 + draw(larger(60 / (step * dl), 1))));
        shuffle_wiring();
        for (int tries = 0; tries < 6; tries++) {
            draw_noise(first);
            call c = decoder_call(one_in(20) ? LEMBIKAT_MAX_LIMIT - draw(2) : draw(30));
            compare("noise", calls++, &c);
            if (by_library.answer.number == LEMBIKAT_DONE) {
                settled++;
                latest = larger(latest, by_library.answer.value);
            } else if (c.number >= 20 && c.number <= LEMBIKAT_SUMS) {
                stalled += by_library.sums[c.number - 1] == 0;
                swinging += by_library.sums[c.number - 1] != 0;
            }
        }
    }
    printf(
        "noise: %zu blocks; %zu settled, the latest after %zu sweeps; of others that had 20 sweeps or more %zu stand still and "
        "%zu swing\n",
        calls, settled, latest, stalled, swinging);
    if (failed(latest < 6 || stalled == 0 || swinging == 0))
        printf("FAILED: no noise is of one of these kinds\n");

    /* Large plans, with both sides of the house code and with one of a larger code. */
    const side larger_code = {.d = 16, .k = 5, .row = {0x5555, 0x3333, 0x0f0f, 0x00ff, 0xffff}};
    for (size_t i = 0; i < 6; i++) {
        set_plan(i % 3 == 2 ? larger_code : house_code, i % 3 == 1 ? larger_code : house_code,
                 i % 3 == 2 ? LEMBIKAT_MAX_VERTICES / 2 : LEMBIKAT_MAX_VERTICES);
        shuffle_wiring();
        memset(first, 0, plan.block);
        for (size_t flips = i < 3 ? 1500 : 3000; flips > 0; flips--)
            flip(first, draw(plan.edges));
        call c = decoder_call(i < 3 ? 40 : 9);
        compare("large noise", i, &c);
    }
}
