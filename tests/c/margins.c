/* The margin: the flips that it covers at its borders, and what it promises of codewords within it. They are restored, also
 * with bits lost, and no more vertices are visited than the header's bound. */
#include "reference.h"
#include "subjects.h"

/* The flips covered on what stands in the plan: all below `beyond`, and not `beyond` itself, nor a few after it. */
static void margin_calls(const char *kind, size_t beyond)
{
    for (size_t flips = 0; flips < beyond + 4; flips++) {
        call c = plan_call(MARGIN);
        c.number = flips;
        compare(kind, flips, &c);
        if (failed(by_library.answer.number != (flips < beyond ? LEMBIKAT_DONE : LEMBIKAT_FLIPS_NOT_COVERED)))
            printf("FAILED: %s call %zu ended in %u\n", kind, flips, by_library.answer.number);
    }
}

/* The borders of the margin. Every left vertex shares m edges with every right one, but for two edges that are swapped. R is
 * then 4 nr, and A, which is nr (D - 2 m b), has a square above 4 nr R only where D - 2 m b is above 4. */
void border_calls(void)
{
    /* Equal sides, m is 2: b is 1 from 4 flips on, and 8 - 2 * 2 is not above 4. */
    set_plan(alike_code(8), alike_code(8), 4);
    lay_evenly();
    swap_entries(0, 10);
    margin_calls("border", 4);

    /* The right D at the step to the right: b is 1 from 4 flips on, and 6 - 2 is not above 4; 7 - 2 would be. */
    set_plan(alike_code(7), (side){.d = 8, .k = 1, .row = {0x7e}}, 8);
    lay_evenly();
    swap_entries(0, 9);
    margin_calls("border to the right", 4);

    /* The left D at the step to the left: from 6 flips on b is 2, then 1, since 9 - 4 is above 4, and 6 - 2 is not; 9 - 2 would
     * be. */
    set_plan(alike_code(6), alike_code(9), 9);
    lay_evenly();
    swap_entries(0, 10);
    margin_calls("border to the left", 6);

    /* R is 0, and A has to be above 0: from 6 flips on b is 3, and 6 * 8 - 2 * 8 * 3 is not. */
    set_plan(house_code, (side){.d = 16, .k = 7, .row = {0x03a3, 0x0745, 0x0e89, 0x1d11, 0x3a21, 0x7441, 0xe881}}, 16);
    lay_evenly();
    margin_calls("border at 0", 6);
}

/* Codewords with f bits lost and e others flipped, 2e + f being at most twice what the plan covers, at a limit of the sweeps
 * that the margin names or of more: they come back, and the call is the same whatever the lost bits were received as. */
#define RESTORED_CODEWORDS 600

void restored_calls(void)
{
    static uint8_t sent[MAX_BLOCK], is_lost[MAX_EDGES], is_flipped[MAX_EDGES];
    static outcome before;
    size_t restored = 0, all_lost = 0, mixed = 0, longer = 0;
    for (size_t i = 0; restored < RESTORED_CODEWORDS; i++) {
        draw_plan(0, 1);
        size_t covered = first_uncovered() - 1;
        if (covered == 0 || plan.edges < 2 * covered)
            continue;
        lembikat_plan p = reference_plan();
        uint64_t sweeps = reference_margin(&p, covered).value;
        size_t lost = one_in(3) ? 2 * covered : 1 + draw(2 * covered), flips = (2 * covered - lost) / 2;
        if (one_in(8))
            flips = draw(flips + 1);
        draw_codeword(sent);
        lose_bits(lost, is_lost);
        memcpy(is_flipped, is_lost, plan.edges);
        memcpy(first, sent, plan.block);
        for (size_t left = flips; left > 0;) {
            size_t bit = draw(plan.edges);
            if (is_flipped[bit])
                continue;
            is_flipped[bit] = 1;
            flip(first, bit);
            left--;
        }
        call c = lost_call(one_in(2) ? sweeps : sweeps + draw(6));
        for (int received_as = 0; received_as < 4; received_as++) { /* as sent, all turned, at random, all alike */
            for (size_t bit = 0; bit < plan.edges; bit++)
                if (is_lost[bit] &&
                    (received_as == 1 || (received_as == 2 && one_in(2)) || (received_as == 3 && get_bit(first, bit) != i % 2)))
                    flip(first, bit);
            if (received_as == 0) {
                compare("restored", i, &c);
                must_keep_a_trial("restored", &c);
            } else {
                run_library(&c, &by_library);
            }
            if (failed(by_library.answer.number != LEMBIKAT_DONE || !same_bytes(by_library.lent, sent, plan.block) ||
                       (received_as > 0 && !same_outcome(&c, &by_library, &before)))) {
                printf("FAILED: restored call %zu: %zu bits lost and %zu flipped do not come back, %zu are covered\n", i, lost,
                       flips, covered);
                show("library  ", &c, &by_library);
            }
            before = by_library;
        }
        restored++;
        all_lost += flips == 0;
        mixed += flips != 0;
        longer += by_library.answer.value > sweeps;
    }
    printf(
        "lost spans: %zu codewords came back, %zu with bits lost alone and %zu with others flipped; %zu after more sweeps than "
        "the margin names\n",
        restored, all_lost, mixed, longer);
}

/* The most vertices that may be visited where so many flips, which the plan covers, name so many sweeps: the header's bound. b
 * is that of two sweeps before, the next one that of the sweep before. */
static uint64_t visits_bound(uint64_t flips, uint64_t sweeps)
{
    lembikat_plan p = reference_plan();
    const uint64_t four_nr_r = 4 * plan.right.n * reference_spread(&p).value;
    uint64_t b = 2 * flips / distance_of(&plan.left), bound = plan.left.n + plan.right.n;
    for (uint64_t sweep = 3; sweep <= sweeps; sweep++) {
        const side *before = sweep % 2 ? &plan.right : &plan.left;
        uint64_t a = distance_of(before) * plan.right.n - 2 * plan.left.d * b, next = four_nr_r * b / (a * a);
        bound += b + before->d * next;
        b = next;
    }
    return bound;
}

/* Flips so many bits of the first block, each once. Gathered: more than half of the left distance at one left vertex after
 * another, first at those that one right vertex meets, so that these go wrong and it may go wrong with them. */
static void flip_bits(size_t flips, int gathered)
{
    static uint8_t is_flipped[MAX_EDGES];
    const size_t dl = plan.left.d, a_vertex = distance_of(&plan.left) / 2 + 1, met_by = draw(plan.right.n) * plan.right.d;
    memset(is_flipped, 0, plan.edges);
    for (size_t i = 0; flips > 0; i++) {
        size_t u = i < plan.right.d ? get_pair(wiring, met_by + i) / dl : draw(plan.left.n), from = draw(dl);
        for (size_t j = 0; j < (gathered ? a_vertex : 1) && flips > 0; j++) {
            size_t bit = gathered ? u * dl + (from + j) % dl : draw(plan.edges);
            if (is_flipped[bit])
                continue;
            is_flipped[bit] = 1;
            flip(first, bit);
            flips--;
        }
    }
}

/* Codewords with as many flips as the plan covers, or fewer, and none lost: no more vertices are visited than the bound says,
 * whatever the limit is, also where the flips are gathered at few vertices. */
#define BOUNDED_PLANS 300

void bounded_calls(void)
{
    size_t calls = 0, three_named = 0, three_made = 0, at_bound = 0;
    for (size_t i = 0; i < BOUNDED_PLANS;) {
        draw_plan(0, 1);
        size_t covered = first_uncovered() - 1;
        if (covered == 0)
            continue;
        i++;
        lembikat_plan p = reference_plan();
        for (int tries = 0; tries < 6; tries++) {
            size_t flips = one_in(3) ? 1 + draw(covered) : covered;
            uint64_t sweeps = reference_margin(&p, flips).value, bound = visits_bound(flips, sweeps);
            draw_codeword(first);
            flip_bits(flips, tries % 3 != 0);
            call c = decoder_call(one_in(4) ? draw(sweeps) : sweeps + draw(3));
            compare("bound", calls++, &c);
            if (failed(by_library.visits > bound)) {
                printf("FAILED: bound: %zu flips, %llu sweeps named, more visits than %llu\n", flips,
                       (unsigned long long)sweeps, (unsigned long long)bound);
                show("library  ", &c, &by_library);
            }
            three_named += sweeps >= 3;
            three_made += sweeps_made(&c) >= 3;
            at_bound += by_library.visits == bound;
        }
    }
    printf("visits: %zu codewords within the margin; for %zu it names three sweeps or more, %zu took so many; %zu took as many "
           "visits as the bound allows\n",
           calls, three_named, three_made, at_bound);
    if (failed(three_named == 0 || three_made == 0 || at_bound == 0))
        printf("FAILED: no codeword is of one of these kinds\n");
}
