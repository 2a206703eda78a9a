/* Lost spans: every one of a small block, lists of two, large ones, and each way in which the two trials of a call can end. */
#include "subjects.h"

size_t lost_size, visits_apart[TRIAL_ENDS];

void add_span(size_t offset, size_t length)
{
    put_pair(second + lost_size, 0, offset);
    put_pair(second + lost_size, 1, length);
    lost_size += LEMBIKAT_SPAN_BYTES;
}

void lose(size_t offset, size_t length)
{
    lost_size = 0;
    add_span(offset, length);
}

call lost_call(uint64_t limit)
{
    call c = decoder_call(limit);
    c.field[SECOND] = (bytes){second, lost_size};
    return c;
}

/* Says of each bit whether the list, which is whole, has it as lost. */
static const uint8_t *lost_bits(bytes list)
{
    static uint8_t is_lost[MAX_EDGES];
    memset(is_lost, 0, plan.edges);
    for (size_t i = 0; i < list.size; i += LEMBIKAT_SPAN_BYTES) {
        const uint8_t *span = list.data + i;
        memset(is_lost + span[0] * 256u + span[1], 1, span[2] * 256u + span[3]);
    }
    return is_lost;
}

/* Decodes the block of a call with all lost bits 0 or all 1, without a list, and answers how many bits outside the spans then
 * differ from the received ones. */
static size_t make_trial(const call *c, const uint8_t *is_lost, unsigned value, outcome *o)
{
    static uint8_t filled[MAX_BLOCK];
    call without = *c;
    size_t changed = 0;
    memcpy(filled, c->field[FIRST].data, plan.block);
    for (size_t i = 0; i < plan.edges; i++)
        if (is_lost[i] && get_bit(filled, i) != value)
            flip(filled, i);
    without.field[FIRST].data = filled;
    without.field[SECOND] = (bytes){NULL, 0};
    run_library(&without, o);
    for (size_t i = 0; i < plan.edges; i++)
        changed += !is_lost[i] && get_bit(o->lent, i) != get_bit(filled, i);
    return changed;
}

int must_keep_a_trial(const char *kind, const call *c)
{
    static outcome zeros, ones;
    const uint8_t *is_lost = lost_bits(c->field[SECOND]);
    size_t zeros_changed = make_trial(c, is_lost, 0, &zeros), ones_changed = make_trial(c, is_lost, 1, &ones);
    int end = EQUALLY_MANY;
    if (zeros.answer.number != LEMBIKAT_DONE)
        end = ones.answer.number != LEMBIKAT_DONE ? NEITHER_SETTLES : ONES_ALONE;
    else if (ones.answer.number != LEMBIKAT_DONE)
        end = ZEROS_ALONE;
    else if (zeros_changed != ones_changed)
        end = zeros_changed < ones_changed ? ZEROS_CHANGE_FEWER : ONES_CHANGE_FEWER;
    visits_apart[end] += zeros.visits != ones.visits;
    const outcome *kept = end == ONES_ALONE || end == ONES_CHANGE_FEWER ? &ones : &zeros;
    if (end == NEITHER_SETTLES) /* the output is the block as it was received, not as it was tried */
        memcpy(zeros.lent, c->field[FIRST].data, plan.block);
    if (failed(!same_outcome(c, &by_library, kept))) {
        printf("FAILED: %s: the call with lost spans is not the trial that must be kept\n", kind);
        show("zeros    ", c, &zeros);
        show("ones     ", c, &ones);
        show("library  ", c, &by_library);
    }
    return end;
}

/* Every span that a block can have and those that it cannot, alone, on a plan whose bits must all be alike. No sweep is made:
 * the trial whose lost bits are as the others is a codeword, and the one kept; with a bit flipped beside the span there is
 * none, and the received block comes back, whatever its lost bits hold. */
static void every_span_calls(side left, side right, size_t n)
{
    size_t calls = 0;
    set_plan(left, right, n);
    lay_evenly();
    for (size_t offset = 0; offset <= plan.edges + 1; offset++)
        for (size_t length = 0; length <= plan.edges + 1; length++) {
            int within = length != 0 && offset + length <= plan.edges;
            lose(offset, length);
            for (int value = 0; value < 2; value++) {
                memset(first, 0, plan.block);
                for (size_t i = 0; i < plan.edges; i++)
                    if (within && i >= offset && i < offset + length ? one_in(2) : value)
                        flip(first, i);
                call c = lost_call(0);
                compare("every span", calls++, &c);
                must_answer("every span", &c, within ? LEMBIKAT_DONE : LEMBIKAT_SPAN_OUT_OF_BLOCK, 0, 0);
                if (!within)
                    continue;
                uint8_t sent[MAX_BLOCK] = {0};
                for (size_t i = 0; i < plan.edges && value && length != plan.edges; i++) /* of a whole block zeros are kept */
                    flip(sent, i);
                if (failed(!same_bytes(by_library.lent, sent, plan.block)))
                    printf("FAILED: every span: offset %zu length %zu of %d\n", offset, length, value);
                if (offset != 0)
                    flip(first, offset - 1);
                else if (length != plan.edges)
                    flip(first, length);
                else
                    continue;
                compare("beside a span", calls++, &c);
                /* Where all bits but the flipped one are lost, one of the trials is like it. */
                if (length + 1 < plan.edges)
                    must_answer("beside a span", &c, LEMBIKAT_UNSETTLED, 0, 0);
            }
        }
}

/* Every list of two spans on a block of six bits, of any block: the first faulty span is answered, 25 before 26. */
static void two_span_calls(void)
{
    const size_t most = 8;
    set_plan(pair_code, alike_code(3), 3);
    lay_evenly();
    for (size_t i = 0; i < most * most * most * most; i++) {
        size_t offset = i % most, length = i / most % most, next = i / most / most % most, next_length = i / most / most / most;
        uint32_t number = LEMBIKAT_DONE;
        if (length == 0 || offset + length > plan.edges)
            number = LEMBIKAT_SPAN_OUT_OF_BLOCK;
        else if (next_length == 0 || next + next_length > plan.edges)
            number = LEMBIKAT_SPAN_OUT_OF_BLOCK;
        else if (next < offset + length)
            number = LEMBIKAT_SPAN_OUT_OF_ORDER;
        lose(offset, length);
        add_span(next, next_length);
        first[0] = (uint8_t)(draw(64) << 2);
        call c = lost_call(draw(4));
        compare("two spans", i, &c);
        if (number != LEMBIKAT_DONE)
            must_answer("two spans", &c, number, 0, 0);
        else
            must_keep_a_trial("two spans", &c);
    }
}

/* Offsets and lengths whose sum is near 65,536: nothing is cut to 16 bits, on the largest block and on a small one. */
static void large_span_calls(void)
{
    static const size_t numbers[] = {0, 1, 2, 255, 256, 32767, 32768, 32769, 65279, 65280, 65534, 65535};
    const size_t count = sizeof numbers / sizeof numbers[0];
    for (int large = 0; large < 2; large++) {
        set_plan(alike_code(16), alike_code(16), large ? LEMBIKAT_MAX_VERTICES : 16);
        lay_in_order();
        memset(first, 0, plan.block);
        for (size_t i = 0; i < count * count; i++) {
            size_t offset = numbers[i / count], length = numbers[i % count];
            int within = length != 0 && offset + length <= plan.edges;
            lose(offset, length);
            call c = lost_call(1);
            compare("large span", i, &c);
            must_answer("large span", &c, within ? LEMBIKAT_DONE : LEMBIKAT_SPAN_OUT_OF_BLOCK, 0, 0);
        }
    }
    /* The longest list: a span for each bit of the largest block, and once the last of them again. */
    lost_size = 0;
    for (size_t i = 0; i < plan.edges; i++)
        add_span(i, 1);
    memset(first, 0x5a, plan.block);
    call c = lost_call(0);
    compare("longest list", 0, &c);
    must_answer("longest list", &c, LEMBIKAT_DONE, 0, 0);
    add_span(plan.edges - 1, 1);
    c = lost_call(0);
    compare("longest list", 1, &c);
    must_answer("longest list", &c, LEMBIKAT_SPAN_OUT_OF_ORDER, 0, 0);
}

/* One vertex a side that reads d bits, which must be alike, the first of them lost. The call must settle at the byte given,
 * after one sweep that changes so many bits, or after none where that is 0. */
static void trial_call(unsigned d, size_t lost, unsigned block, unsigned settled, unsigned sum, int end)
{
    set_plan(alike_code(d), alike_code(d), 1);
    lay_in_order();
    first[0] = (uint8_t)block;
    lose(0, lost);
    call c = lost_call(3);
    compare("trial", block, &c);
    must_answer("trial", &c, LEMBIKAT_DONE, 0, sum == 0 ? 0 : 1);
    must_visit("trial", &c, sum == 0 ? 0 : 1);
    if (failed(must_keep_a_trial("trial", &c) != end || by_library.lent[0] != settled || by_library.sums[0] != sum ||
               by_library.sums[1] != 0)) {
        printf("FAILED: trial of %u bits, %zu lost, block %02x\n", d, lost, block);
        show("library  ", &c, &by_library);
    }
}

/* Each way in which the two trials can end. Half of the bits lost and the others apart: both trials change one bit. Half lost
 * and the others alike: the trial that is not like them is a tie. */
static void trial_calls(void)
{
    trial_call(4, 2, 0x10, 0x00, 1, EQUALLY_MANY);
    trial_call(4, 2, 0xd0, 0x00, 1, EQUALLY_MANY);
    trial_call(4, 4, 0xf0, 0x00, 0, EQUALLY_MANY);
    trial_call(4, 2, 0x70, 0xf0, 0, ONES_ALONE);
    trial_call(4, 2, 0x80, 0x00, 0, ZEROS_ALONE);
    trial_call(5, 2, 0x30, 0xf8, 1, ONES_CHANGE_FEWER);
    trial_call(5, 2, 0xd0, 0x00, 1, ZEROS_CHANGE_FEWER);
    trial_call(5, 1, 0x78, 0xf8, 1, EQUALLY_MANY); /* both settle there, with ones after no sweep */
    trial_call(2, 1, 0x00, 0x00, 0, ZEROS_ALONE);
    trial_call(2, 1, 0x40, 0xc0, 0, ONES_ALONE);

    /* Two vertices a side of three bits, each right one with two bits of one left vertex and one of the other: some blocks
     * swing to and fro. Every block with every span, at small limits. */
    size_t calls = 0, ends[TRIAL_ENDS] = {0};
    set_plan(alike_code(3), alike_code(3), 2);
    lay_in_order();
    swap_entries(2, 3);
    for (unsigned block = 0; block < 64; block++)
        for (size_t offset = 0; offset < 6; offset++)
            for (size_t length = 1; offset + length <= 6; length++)
                for (uint64_t limit = 0; limit < 4; limit++) {
                    first[0] = (uint8_t)(block << 2);
                    lose(offset, length);
                    call c = lost_call(limit);
                    compare("swinging", calls++, &c);
                    ends[must_keep_a_trial("swinging", &c)]++;
                }
    for (int end = 0; end < TRIAL_ENDS; end++)
        if (failed(ends[end] == 0))
            printf("FAILED: no trials on the swinging plan ended in way %d\n", end);

    /* Each sweep changes two bits of 110100, to and fro; with bit 2 lost and as 1 the first sweep would change one. The block
     * is received so, and comes back so, with the sums of the trial with zeros. */
    first[0] = 0xf0;
    lose(2, 1);
    call c = lost_call(3);
    compare("swinging", calls, &c);
    must_answer("swinging", &c, LEMBIKAT_UNSETTLED, 0, 0);
    if (failed(must_keep_a_trial("swinging", &c) != NEITHER_SETTLES || by_library.lent[0] != 0xf0 || by_library.sums[0] != 2 ||
               by_library.sums[1] != 2 || by_library.sums[2] != 2 || by_library.sums[3] != 0)) {
        printf("FAILED: swinging with bit 2 lost\n");
        show("library  ", &c, &by_library);
    }
}

void span_calls(void)
{
    every_span_calls(alike_code(5), alike_code(7), 7); /* 35 bits: the last byte has five that are no bits of the block */
    every_span_calls(alike_code(4), alike_code(6), 6); /* 24 bits: it has none */
    two_span_calls();
    large_span_calls();
    trial_calls();
}
