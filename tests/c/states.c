/* States: every block of the small plans with counts and sweep numbers that are true and made up, lengths, padding bits,
 * numbers of bits, the largest count. */
#include "reference.h"
#include "subjects.h"

call load_call(size_t size)
{
    call c = plan_call(LOAD_STATE);
    c.field[FIRST] = (bytes){first, plan.block};
    c.field[LENT] = (bytes){lent, size};
    return c;
}

call sweep_call(size_t size)
{
    call c = plan_call(SWEEP_STATE);
    c.field[LENT] = (bytes){lent, size};
    return c;
}

call set_call(uint64_t bit, uint64_t value, size_t size)
{
    call c = plan_call(SET_BIT);
    c.field[LENT] = (bytes){lent, size};
    c.number = bit;
    c.value = value;
    return c;
}

size_t true_count(const uint8_t *block)
{
    static uint8_t loaded[LEMBIKAT_MAX_STATE_BYTES];
    lembikat_plan p = reference_plan();
    return reference_load_state(&p, block, plan.block, loaded, sizeof loaded).value;
}

void must_show(const char *kind, const call *c, size_t count, size_t sweeps)
{
    must_answer(kind, c, LEMBIKAT_DONE, 0, count);
    if (failed(by_library.sweeps != sweeps))
        printf("FAILED: %s (%s): the sweep number is %llu, not %zu\n", kind, services[c->service].shown,
               (unsigned long long)by_library.sweeps, sweeps);
}

void must_leave(const char *kind, const call *c)
{
    if (failed(!same_bytes(by_library.lent, c->field[LENT].data, c->field[LENT].size))) {
        printf("FAILED: %s (%s) must leave the state as it is\n", kind, services[c->service].shown);
        show("library  ", c, &by_library);
    }
}

/* Says how the last call compared must have changed the count: as the true one changed, modulo 65,536. */
static void must_follow(const char *kind, const call *c)
{
    size_t count = get_pair(c->field[LENT].data, 0), before = true_count(c->field[LENT].data + HEAD),
           after = true_count(by_library.lent + HEAD);
    if (failed(by_library.answer.number != LEMBIKAT_DONE ||
               by_library.answer.value != (65536 + count + after - before) % 65536)) {
        printf("FAILED: %s (%s): the count was %zu, the true one went from %zu to %zu\n", kind, services[c->service].shown,
               count, before, after);
        show("library  ", c, &by_library);
    }
}

/* Every block of every small plan, with counts that are true, nearly true and made up, and all kinds of sweep numbers: swept,
 * and each of its bits set to each of some values. */
static void small_state_calls(void)
{
    static const size_t numbers[] = {
        0, 1, 2, 3, LEMBIKAT_MAX_LIMIT - 2, LEMBIKAT_MAX_LIMIT - 1, LEMBIKAT_MAX_LIMIT, LEMBIKAT_MAX_LIMIT + 1, 65535};
    static const uint64_t values[] = {0, 1, 2, (uint64_t)1 << 63};
    const size_t count_of_numbers = sizeof numbers / sizeof numbers[0];
    size_t calls = 0;
    for (size_t i = 0; i < SMALL_PLANS; i++) {
        set_small_plan(i);
        for (unsigned block = 0; block < 1u << plan.edges; block++) {
            first[0] = (uint8_t)(block << (8 - plan.edges));
            size_t right_count = true_count(first);
            const size_t counts[] = {right_count, 0, 1, right_count + 1, (right_count + 65535) % 65536, 65534, 65535};
            const size_t count_of_counts = sizeof counts / sizeof counts[0];
            call c = load_call(state_bytes());
            memset(lent, 0xee, state_bytes());
            compare("load", calls++, &c);
            must_show("load", &c, right_count, 0);
            for (size_t j = 0; j < count_of_counts * count_of_numbers; j++) {
                size_t count = counts[j / count_of_numbers], number = numbers[j % count_of_numbers];
                put_state(count, number);
                c = sweep_call(state_bytes());
                compare("sweep", calls++, &c);
                if (count == 0) {
                    must_show("sweep of a settled state", &c, 0, number);
                    must_leave("sweep of a settled state", &c);
                } else if (number >= LEMBIKAT_MAX_LIMIT) {
                    must_answer("sweep", &c, LEMBIKAT_SWEEPS_SPENT, 0, 0);
                    must_leave("sweep", &c);
                } else {
                    must_follow("sweep", &c);
                }
            }
            for (size_t j = 0; j < plan.edges * 4; j++) {
                size_t bit = j / 4;
                put_state(counts[draw(count_of_counts)], numbers[draw(count_of_numbers)]);
                c = set_call(bit, values[j % 4], state_bytes());
                compare("set", calls++, &c);
                must_follow("set", &c);
                if (failed(by_library.sweeps != 0 || get_bit(by_library.lent + HEAD, bit) != (values[j % 4] != 0)))
                    printf("FAILED: set: bit %zu of block %02x to %llu\n", bit, first[0], (unsigned long long)values[j % 4]);
            }
        }
    }
}

/* States of all lengths up to the right one, and longer ones, on blocks whose last byte is full and on others: loading takes
 * those that are long enough, the others take the one length. One of them would look right if it were cut to 16 bits. */
static void state_length_calls(void)
{
    static const size_t longer_by[] = {1, 2, 3, 4, 8, 252, 4096, 65536};
    static const side codes[] = {
        {.d = 2, .k = 1, .row = {3}}, {.d = 8, .k = 4, .row = {0xff, 0x0f, 0x33, 0x55}}, {.d = 5, .k = 2, .row = {0x1e, 0x01}}};
    size_t calls = 0;
    for (size_t i = 0; i < 3 * sizeof codes / sizeof codes[0]; i++) {
        set_plan(codes[i / 3], codes[i / 3], 1 + 3 * (i % 3));
        lay_in_order();
        memset(first, 0, plan.block);
        flip(first, 0);
        const size_t right_size = state_bytes(), right_count = true_count(first);
        for (size_t j = 0; j <= right_size + sizeof longer_by / sizeof longer_by[0]; j++) {
            size_t size = j <= right_size ? j : right_size + longer_by[j - right_size - 1];
            draw_bytes(lent, size);
            call c = load_call(size);
            compare("length of a state", calls++, &c);
            if (size < right_size) {
                must_answer("length of a state", &c, LEMBIKAT_OUTPUT_SHORT, 0, 0);
                must_leave("length of a state", &c);
            } else {
                must_show("length of a state", &c, right_count, 0);
                if (failed(!same_bytes(by_library.lent + HEAD, first, plan.block) ||
                           !same_bytes(by_library.lent + right_size, lent + right_size, size - right_size)))
                    printf("FAILED: load: the block is not in the state, or a byte beyond it was written\n");
            }
            put_state(right_count, 0);
            const call changing[] = {sweep_call(size), set_call(0, 1, size)};
            for (size_t service = 0; service < 2; service++) {
                c = changing[service];
                compare("length of a state", calls++, &c);
                if (size == right_size) {
                    must_follow("length of a state", &c);
                } else {
                    must_answer("length of a state", &c, LEMBIKAT_BLOCK_LENGTH_WRONG, 0, 0);
                    must_leave("length of a state", &c);
                }
            }
        }
    }
}

/* Each padding bit, after the last one, of a block to be loaded and of a state's: it is seen before the bit's number and before
 * the sweeps that are spent, and on a settled state too. */
static void padding_calls(void)
{
    size_t calls = 0;
    for (size_t n = 1; n <= 7; n++) {
        set_plan(alike_code(5), alike_code(5), n);
        lay_in_order();
        for (size_t bit = plan.edges; bit < 8 * plan.block; bit++)
            for (size_t count = 0; count < 2; count++) {
                memset(first, 0, plan.block);
                flip(first, bit);
                put_state(count, LEMBIKAT_MAX_LIMIT);
                const call made[] = {load_call(state_bytes()), load_call(0), sweep_call(state_bytes()),
                                     set_call(0, 1, state_bytes()), set_call(bit, 0, state_bytes())};
                for (size_t i = 0; i < sizeof made / sizeof made[0]; i++) {
                    compare("padding bit", calls++, &made[i]);
                    must_answer("padding bit", &made[i], LEMBIKAT_STRAY_BIT, 0, 0);
                    must_leave("padding bit", &made[i]);
                }
            }
    }
}

/* Numbers of bits about the block's last one and far beyond it; some would look right if they were cut to 16 or 32 bits. The
 * count is the true one, and stays true. */
static void bit_number_calls(void)
{
    size_t calls = 0;
    for (int large = 0; large < 2; large++) {
        set_plan(alike_code(16), alike_code(16), large ? LEMBIKAT_MAX_VERTICES : 3);
        lay_in_order();
        memset(first, 0, plan.block);
        const uint64_t last = plan.edges - 1, bit_32 = (uint64_t)1 << 32, bit_63 = (uint64_t)1 << 63;
        const uint64_t bits[] = {0, last - 1, last, last + 1, 65536 + last, bit_32, bit_32 + last, bit_63, UINT64_MAX};
        const uint64_t values[] = {0, 1, 2, 3, 255, 256, 65536, bit_32, bit_63, UINT64_MAX};
        for (size_t i = 0; i < sizeof bits / sizeof bits[0]; i++)
            for (size_t j = 0; j < sizeof values / sizeof values[0]; j++) {
                put_state(0, 65535);
                call c = set_call(bits[i], values[j], state_bytes());
                compare("bit", calls++, &c);
                if (bits[i] > last) {
                    must_answer("bit", &c, LEMBIKAT_BIT_TOO_LARGE, 0, 0);
                    must_leave("bit", &c);
                } else {
                    must_show("bit", &c, values[j] == 0 ? 0 : 2, 0);
                }
            }
    }
}

/* The largest count: every vertex of both sides reads one 1 where sixteen bits must be alike, and one sweep mends them all. A
 * count that is made up goes down by as many, and round by 65,536 where it is less; it goes up by two with a bit that is set
 * alone, round again where it is the largest. */
static void largest_count_calls(void)
{
    static const size_t counts[] = {1, 4095, 4096, 4097, 32768, 65535};
    const size_t all = 2 * LEMBIKAT_MAX_VERTICES;
    set_plan(alike_code(16), alike_code(16), LEMBIKAT_MAX_VERTICES);
    lay_in_order();
    memset(first, 0, plan.block);
    for (size_t u = 0; u < plan.left.n; u++)
        flip(first, 16 * u + u % 16);
    call c = load_call(state_bytes());
    compare("largest count", 0, &c);
    must_show("largest count", &c, all, 0);
    for (size_t i = 0; i < sizeof counts / sizeof counts[0]; i++) {
        put_state(counts[i], 0);
        c = sweep_call(state_bytes());
        compare("largest count", i, &c);
        must_show("largest count", &c, (65536 + counts[i] - all) % 65536, 1);
    }
    memset(first, 0, plan.block);
    for (size_t i = 0; i < sizeof counts / sizeof counts[0]; i++) {
        put_state(counts[i], 7);
        c = set_call(40, 1, state_bytes());
        compare("largest count", i, &c);
        must_show("largest count", &c, (counts[i] + 2) % 65536, 0);
    }
}

/* A made-up count of 0 on a block that is no codeword, at any sweep number: settled, and a sweep changes nothing. A bit that is
 * set to the value it has starts again at sweep 0 and changes nothing else, on a settled state and on others. */
static void made_up_calls(void)
{
    static const size_t numbers[] = {0, 1, 2, LEMBIKAT_MAX_LIMIT - 1, LEMBIKAT_MAX_LIMIT, LEMBIKAT_MAX_LIMIT + 1, 65535};
    set_plan(alike_code(3), alike_code(3), 3);
    lay_evenly();
    first[0] = 0x92;
    first[1] = 0x80;
    const size_t counts[] = {0, true_count(first)};
    for (size_t i = 0; i < sizeof numbers / sizeof numbers[0]; i++) {
        put_state(0, numbers[i]);
        call c = sweep_call(state_bytes());
        compare("made-up count", i, &c);
        must_show("made-up count", &c, 0, numbers[i]);
        must_leave("made-up count", &c);
        for (size_t j = 0; j < 2 * plan.edges; j++) {
            size_t bit = j / 2, count = counts[j % 2];
            put_state(count, numbers[i]);
            c = set_call(bit, get_bit(first, bit) ? 1 + j : 0, state_bytes());
            compare("own value", j, &c);
            must_show("own value", &c, count, 0);
            if (failed(!same_bytes(by_library.lent + HEAD, first, plan.block)))
                printf("FAILED: own value: a bit of the block was changed\n");
        }
    }
}

void state_calls(void)
{
    small_state_calls();
    state_length_calls();
    padding_calls();
    bit_number_calls();
    largest_count_calls();
    made_up_calls();
}
