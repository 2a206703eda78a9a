/* Visits: how many vertices the decoder visits. From sweep 3 on these are the vertices with a bit that the sweep before
 * changed. */
#include "subjects.h"

/* The plans of which every block is decoded: the small ones, and some of up to 12 bits. */
#define DECODED_PLANS (SMALL_PLANS + 4)

static void set_decoded_plan(size_t i)
{
    switch (i) {
    case SMALL_PLANS: /* three edges between two vertices, or two: where a block swings each sweep turns two bits a vertex */
        set_plan(alike_code(5), alike_code(5), 2);
        lay_in_order();
        swap_entries(3, 5);
        swap_entries(4, 6);
        break;
    case SMALL_PLANS + 1: /* fewer vertices on the right, each with two bits of each left one */
        set_plan(alike_code(4), alike_code(6), 3);
        lay_evenly();
        break;
    case SMALL_PLANS + 2: /* more vertices on the right; they share three bits with a left one, or two, or one */
        set_plan(alike_code(6), alike_code(3), 2);
        lay_in_order();
        swap_entries(2, 6);
        break;
    case SMALL_PLANS + 3: /* vertices in a row: blocks settle, or come to stand still or to swing, after some sweeps */
        set_plan(alike_code(4), alike_code(4), 3);
        lay_in_order();
        swap_entries(3, 4);
        swap_entries(7, 8);
        break;
    default:
        set_small_plan(i);
    }
}

/* Every block of these plans at every small limit. With each sweep that the limit allows more, the visits grow by vertices that
 * have among them as many bits as the sweep before changed: by none if it changed none, else by one or more, and by no more
 * than these bits. Some blocks that have not settled are decoded with large limits too. */
static void every_block_calls(void)
{
    static const uint64_t late[] = {7, 8, 63, 64, 65, 66, LEMBIKAT_MAX_LIMIT - 1, LEMBIKAT_MAX_LIMIT};
    size_t calls = 0, part_of_side = 0, more_bits = 0, none_visited = 0;
    for (size_t i = 0; i < DECODED_PLANS; i++) {
        set_decoded_plan(i);
        for (size_t block = 0; block < (size_t)1 << plan.edges; block++) {
            uint64_t before = 0;
            put_small_block(block);
            for (uint64_t limit = 0; limit <= 6; limit++) {
                call c = decoder_call(limit);
                compare("every block", calls++, &c);
                uint64_t visits = by_library.visits, more = visits - before, side = limit % 2 ? plan.left.n : plan.right.n;
                if (sweeps_made(&c) < limit) {
                    must_visit("every block, settled before", &c, before);
                } else if (limit <= 2) {
                    must_visit("every block", &c, each_side_once(limit));
                } else {
                    uint64_t changed = by_library.sums[limit - 2];
                    if (failed(visits < before || more > changed || more > side || (more == 0) != (changed == 0))) {
                        printf("FAILED: every block: sweep %llu visits %llu vertices, the one before changed %llu bits\n",
                               (unsigned long long)limit, (unsigned long long)more, (unsigned long long)changed);
                        show("library  ", &c, &by_library);
                    }
                    part_of_side += more != 0 && more < side;
                    more_bits += more < changed;
                    none_visited += more == 0;
                }
                before = visits;
            }
            if (by_library.answer.number == LEMBIKAT_UNSETTLED && one_in(plan.edges < 8 ? 8 : 200))
                for (size_t j = 0; j < sizeof late / sizeof late[0]; j++) {
                    call c = decoder_call(late[j]);
                    compare("every block, late", calls++, &c);
                }
        }
    }
    if (failed(part_of_side == 0 || more_bits == 0 || none_visited == 0))
        printf("FAILED: no block of a small plan has a sweep that visits some of its vertices, or fewer than bits, or none\n");
}

/* The most visits: two vertices a side of three bits that swing, so often that there are 2,048 of them. Every sweep turns a bit
 * at each vertex of its side, and the next one visits them all. The longest are made by the library alone. */
static void most_visits_calls(void)
{
    static const uint64_t limits[] = {0, 1, 2, 3, 4, 5, 64, 65, LEMBIKAT_MAX_LIMIT - 1, LEMBIKAT_MAX_LIMIT};
    set_plan(alike_code(3), alike_code(3), LEMBIKAT_MAX_VERTICES);
    lay_in_order();
    memset(first, 0, plan.block);
    for (size_t i = 0; i < plan.edges; i += 6) {
        swap_entries(i + 2, i + 3);
        flip(first, i);
        flip(first, i + 1);
        flip(first, i + 3);
    }
    for (size_t i = 0; i < sizeof limits / sizeof limits[0]; i++) {
        call c = decoder_call(limits[i]);
        if (limits[i] <= 5)
            compare("most visits", i, &c);
        else
            run_library(&c, &by_library);
        must_answer("most visits", &c, LEMBIKAT_UNSETTLED, 0, 0);
        must_visit("most visits", &c, LEMBIKAT_MAX_VERTICES * limits[i]);
    }
}

/* A call of the decoder on the small plan that visits vertices where no fault is put into it. */
static call visiting_call(void)
{
    call c = small_call(DECODE, 1);
    put_small_block(0x9c5);
    c.number = 6;
    return c;
}

/* Every refusal of the decoder but 15 put into it: none is visited. */
static void refused_visits_calls(void)
{
    size_t calls = 0;
    call c = visiting_call();
    compare("refused visits", calls++, &c);
    if (failed(by_library.visits == 0))
        printf("FAILED: the call without a fault visits no vertex\n");
    for (const fault *f = faults; f < faults + fault_count; f++) {
        if (!(f->services & ON(DECODE)) || f->number == LEMBIKAT_UNSETTLED)
            continue;
        c = visiting_call();
        put_fault(&c, f);
        compare("refused visits", calls++, &c);
        must_answer("refused visits", &c, f->number, f->place, 0);
        must_visit("refused visits", &c, 0);
    }
}

/* Chains whose head is lost. The trial with ones settles as the chain does; in the one with zeros every vertex waits, and each
 * side is visited once. If all bits are turned it is the other way round. So the trials visit different numbers of vertices,
 * whichever of them settles, and where the limit is too small for that as well: then those of the trial with zeros are
 * answered. */
static void lost_head_call(size_t n, int right_first, int turned, size_t limit)
{
    static size_t calls;
    const size_t last = right_first ? 2 * n + 1 : 2 * n;
    const int settles = last <= limit, runs = settles || turned; /* the trial that is answered runs along the chain */
    lay_chain(n, right_first);
    for (size_t i = 0; i < plan.edges && turned; i++)
        flip(first, i);
    lose(right_first ? plan.edges - 1 : 0, 1);
    if (one_in(2))
        flip(first, right_first ? plan.edges - 1 : 0);
    call c = lost_call(limit);
    compare("lost head", calls++, &c);
    must_answer("lost head", &c, settles ? LEMBIKAT_DONE : LEMBIKAT_UNSETTLED, 0, settles ? last : 0);
    uint64_t visits = each_side_once(limit);
    for (size_t sweep = 3; sweep <= smaller(limit, last); sweep++)
        visits += runs;
    must_visit("lost head", &c, visits);
    int end = must_keep_a_trial("lost head", &c);
    if (failed(end != (!settles ? NEITHER_SETTLES : turned ? ZEROS_ALONE : ONES_ALONE)))
        printf("FAILED: lost head: the trials end in way %d\n", end);
}

static void lost_head_calls(void)
{
    static const size_t sizes[] = {1, 2, 3, 9, 33}, limits[] = {0, 1, 2, 3, 4, 5, 6, 7, 8, 17, 18, 19, 65, 66, 67, 200};
    for (size_t i = 0; i < sizeof sizes / sizeof sizes[0]; i++)
        for (size_t j = 0; j < sizeof limits / sizeof limits[0]; j++)
            for (int way = 0; way < 4; way++)
                lost_head_call(sizes[i], way % 2, way / 2, limits[j]);
}

/* Any block of twelve bits with any span lost, at small limits: in each way in which the trials can end there are some whose
 * visits differ. */
static void lost_visits_calls(void)
{
    memset(visits_apart, 0, sizeof visits_apart);
    for (size_t i = 0; i < 6000; i++) {
        set_decoded_plan(SMALL_PLANS + 1 + i % 3);
        put_small_block(draw((size_t)1 << plan.edges));
        size_t offset = draw(plan.edges);
        lose(offset, 1 + draw(plan.edges - offset));
        call c = lost_call(draw(8));
        compare("lost visits", i, &c);
        must_keep_a_trial("lost visits", &c);
    }
    for (int end = 0; end < TRIAL_ENDS; end++)
        if (failed(visits_apart[end] == 0))
            printf("FAILED: no trials that end in way %d have different visits\n", end);
}

void visits_calls(void)
{
    every_block_calls();
    most_visits_calls();
    refused_visits_calls();
    lost_head_calls();
    lost_visits_calls();
}
