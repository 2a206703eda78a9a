/* Faults that are put in one by one: counts of vertices, and every fault of every service alone and with every other one. */
#include "subjects.h"

/* Counts: each of a list on the left with each on the right, with wirings as long as either side or the plan has it. 7 stands
 * before 23, also where both products are 0, or equal if they were cut to 64 bits; 23 stands before 8. Equal sheets have equal
 * counts or 23. */
static void counts_of(side left, side right, size_t n)
{
    set_plan(left, right, n);
    const size_t nl = plan.left.n, nr = plan.right.n, bit_32 = (size_t)1 << 32, bit_62 = (size_t)1 << 62;
    const size_t counts[] = {0,          1,           nl,          nr,          nl - 1,      nl + 1,  nr + 1,
                             2 * nl,     2 * nr,      2047,        2048,        2049,        65536,   65536 + nl,
                             65536 + nr, bit_32 + nl, bit_32 + nr, bit_62 + nl, bit_62 + nr, SIZE_MAX};
    const size_t count = sizeof counts / sizeof counts[0];
    for (size_t i = 0; i < MAX_EDGES; i++) /* in order, whichever counts are taken */
        put_pair(wiring, i, i);
    memset(first, 0, MAX_BLOCK);
    for (size_t i = 0; i < count * count; i++) {
        call c = plan_call(LOCATE);
        c.nl = counts[i / count];
        c.nr = counts[i % count];
        int in_range = c.nl >= 1 && c.nl <= 2048 && c.nr >= 1 && c.nr <= 2048;
        size_t left_edges = in_range ? c.nl * left.d : 0, right_edges = in_range ? c.nr * right.d : 0;
        size_t edges = one_in(3) ? plan.edges : one_in(2) ? left_edges : right_edges;
        c.field[WIRING].size = 2 * edges;
        c.field[FIRST] = (bytes){first, (edges + 7) / 8};
        compare("counts", i, &c);
        must_answer("counts", &c,
                    !in_range                   ? LEMBIKAT_VERTICES_OUT_OF_RANGE
                    : left_edges != right_edges ? LEMBIKAT_EDGE_COUNTS_DIFFER
                    : left_edges != edges       ? LEMBIKAT_WIRING_LENGTH_WRONG
                                                : LEMBIKAT_DONE,
                    0, 0);
    }
}

void count_calls(void)
{
    counts_of(house_code, house_code, 8);
    counts_of(house_code, alike_code(16), 16);
    counts_of(alike_code(16), house_code, 8);
    counts_of(alike_code(16), free_code(2), 256);
    counts_of(free_code(3), alike_code(5), 5);
}

/* A small plan for faults: three left vertices of 4 bits by two right ones of 6, 12 bits and 6 of a message, or so many times
 * as many vertices. */
#define SMALL_EDGES 12
#define SMALL_MESSAGE_BITS 6
static const side small_left = {.d = 4, .k = 3, .row = {0x3, 0x6, 0xc}};
static const side small_right = {.d = 6, .k = 4, .row = {0x03, 0x06, 0x0c, 0x18}};

/* Every fault, in the order in which a call looks for them. Of rows, 5 stands before 6 and after it, of entries 9 and 10, of
 * lost spans 25 and 26: the first row, entry or span is answered, whichever number it has. Of one span 25 stands before 26. One
 * span would look right if the sum of offset and length were cut to 16 bits; others are wrong by one bit. */
const fault faults[] = {
    {LEMBIKAT_SHEET_SHORT, 0, ON_ALL, SIZE, LEFT_SHEET, 0, 1},
    {LEMBIKAT_DEGREE_OUT_OF_RANGE, 0, ON_ALL, BYTE, LEFT_SHEET, 0, 17},
    {LEMBIKAT_ROWS_OUT_OF_RANGE, 0, ON_ALL, BYTE, LEFT_SHEET, 1, 5},
    {LEMBIKAT_SHEET_LENGTH_WRONG, 0, ON_ALL, SIZE, LEFT_SHEET, 0, 9},
    {LEMBIKAT_ROW_TOO_LARGE, 0, ON_ALL, PAIR, LEFT_SHEET, 2, 0x10},
    {LEMBIKAT_ROW_DEPENDENT, 1, ON_ALL, PAIR, LEFT_SHEET, 4, 0x3},
    {LEMBIKAT_ROW_TOO_LARGE, 2, ON_ALL, PAIR, LEFT_SHEET, 6, 0xffff},
    {LEMBIKAT_SHEET_SHORT, 0, ON_PLANS, SIZE, RIGHT_SHEET, 0, 0},
    {LEMBIKAT_DEGREE_OUT_OF_RANGE, 0, ON_PLANS, BYTE, RIGHT_SHEET, 0, 1},
    {LEMBIKAT_ROWS_OUT_OF_RANGE, 0, ON_PLANS, BYTE, RIGHT_SHEET, 1, 0},
    {LEMBIKAT_SHEET_LENGTH_WRONG, 0, ON_PLANS, SIZE, RIGHT_SHEET, 0, 9},
    {LEMBIKAT_ROW_DEPENDENT, 0, ON_PLANS, PAIR, RIGHT_SHEET, 2, 0},
    {LEMBIKAT_ROW_TOO_LARGE, 1, ON_PLANS, PAIR, RIGHT_SHEET, 4, 0x40},
    {LEMBIKAT_ROW_DEPENDENT, 2, ON_PLANS, PAIR, RIGHT_SHEET, 6, 0x05},
    {LEMBIKAT_VERTICES_OUT_OF_RANGE, 0, ON_PLANS, LEFT_COUNT, 0, 0, 0},
    {LEMBIKAT_VERTICES_OUT_OF_RANGE, 0, ON_PLANS, RIGHT_COUNT, 0, 0, LEMBIKAT_MAX_VERTICES + 1},
    {LEMBIKAT_EDGE_COUNTS_DIFFER, 0, ON_PLANS, LEFT_COUNT, 0, 0, 4},
    {LEMBIKAT_WIRING_LENGTH_WRONG, 0, ON_PLANS, GROWTH, WIRING, 0, 1},
    {LEMBIKAT_ENTRY_TOO_LARGE, 1, ON_PLANS, PAIR, WIRING, 2, 0xffff},
    {LEMBIKAT_ENTRY_REPEATED, 3, ON_PLANS, PAIR, WIRING, 6, 0},
    {LEMBIKAT_ENTRY_TOO_LARGE, 5, ON_PLANS, PAIR, WIRING, 10, 0x1000},
    {LEMBIKAT_ENTRY_REPEATED, 8, ON_PLANS, PAIR, WIRING, 16, 7},
    {LEMBIKAT_PLAN_TOO_LARGE, 0, ON(ENCODE) | ON(READ), NOTHING, 0, 0, 0}, /* of the call on many times as many vertices */
    {LEMBIKAT_BLOCK_LENGTH_WRONG, 0, ON_BLOCKS, GROWTH, FIRST, 0, 1},
    {LEMBIKAT_BLOCK_LENGTH_WRONG, 0, CHANGING_STATES, SIZE, LENT, 0, 0},
    {LEMBIKAT_BLOCK_LENGTH_WRONG, 0, CHANGING_STATES, SIZE, LENT, 0, HEAD},
    {LEMBIKAT_BLOCK_LENGTH_WRONG, 0, CHANGING_STATES, SIZE, LENT, 0, LEMBIKAT_STATE_BYTES(SMALL_EDGES) - 1},
    {LEMBIKAT_BLOCK_LENGTH_WRONG, 0, CHANGING_STATES, GROWTH, LENT, 0, 1},
    {LEMBIKAT_STRAY_BIT, 0, ON_BLOCKS, FLIP, FIRST, SMALL_EDGES, 0},
    {LEMBIKAT_STRAY_BIT, 0, CHANGING_STATES, FLIP, LENT, 8 * HEAD + SMALL_EDGES, 0},
    {LEMBIKAT_STRAY_BIT, 0, CHANGING_STATES, FLIP, LENT, 8 * HEAD + SMALL_EDGES + 3, 0},
    {LEMBIKAT_SPANS_LENGTH_WRONG, 0, ON(DECODE), GROWTH, SECOND, 0, 1},
    {LEMBIKAT_SPANS_LENGTH_WRONG, 0, ON(DECODE), GROWTH, SECOND, 0, 2},
    {LEMBIKAT_SPAN_OUT_OF_BLOCK, 0, ON(DECODE), PAIR, SECOND, 2, 0},
    {LEMBIKAT_SPAN_OUT_OF_BLOCK, 0, ON(DECODE), PAIR, SECOND, 0, SMALL_EDGES - 1},
    {LEMBIKAT_SPAN_OUT_OF_BLOCK, 0, ON(DECODE), PAIR, SECOND, 6, 0xffff},
    {LEMBIKAT_SPAN_OUT_OF_ORDER, 0, ON(DECODE), PAIR, SECOND, 4, 2},
    {LEMBIKAT_SPAN_OUT_OF_BLOCK, 0, ON(DECODE), PAIR, SECOND, 8, 0xffff},
    {LEMBIKAT_SPAN_OUT_OF_BLOCK, 0, ON(DECODE), PAIR, SECOND, 14, 0},
    {LEMBIKAT_SPAN_OUT_OF_ORDER, 0, ON(DECODE), PAIR, SECOND, 12, 7},
    {LEMBIKAT_BIT_TOO_LARGE, 0, ON(SET_BIT), CALL_NUMBER, 0, 0, SMALL_EDGES},
    {LEMBIKAT_BIT_TOO_LARGE, 0, ON(SET_BIT), CALL_NUMBER, 0, 0, SIZE_MAX},
    {LEMBIKAT_SWEEPS_SPENT, 0, ON(SWEEP_STATE), PAIR, LENT, 2, LEMBIKAT_MAX_LIMIT},
    {LEMBIKAT_SWEEPS_SPENT, 0, ON(SWEEP_STATE), PAIR, LENT, 2, 0xffff},
    {LEMBIKAT_BLOCK_LENGTH_WRONG, 0, ON(REPORT), GROWTH, SECOND, 0, 1},
    {LEMBIKAT_STRAY_BIT, 0, ON(REPORT), FLIP, SECOND, SMALL_EDGES + 3, 0},
    {LEMBIKAT_STRAY_BIT, 0, ON(NEAREST_WORD) | ON(LOOK_UP), CALL_NUMBER, 0, 0, 0x10},
    {LEMBIKAT_NO_CODEWORD, 0, ON(READ), FLIP, FIRST, 0, 0},
    {LEMBIKAT_MESSAGE_LENGTH_WRONG, 0, ON(ENCODE), GROWTH, FIRST, 0, 1},
    {LEMBIKAT_MESSAGE_STRAY_BIT, 0, ON(ENCODE), FLIP, FIRST, SMALL_MESSAGE_BITS, 0},
    {LEMBIKAT_OUTPUT_SHORT, 0, ON(BUILD_TABLE) | ON(LOAD_STATE), SIZE, LENT, 0, 0},
    {LEMBIKAT_OUTPUT_SHORT, 0, ON(LOAD_STATE), SIZE, LENT, 0, LEMBIKAT_BLOCK_BYTES(1, SMALL_EDGES)},
    {LEMBIKAT_OUTPUT_SHORT, 0, ON(LOOK_UP), SIZE, FIRST, 0, 0},
    {LEMBIKAT_OUTPUT_SHORT, 0, ON(DECODE) | ON(ENCODE) | ON(READ) | ON(BUILD_TABLE) | ON(LOAD_STATE), GROWTH, LENT, 0,
     SIZE_MAX},
    {LEMBIKAT_OUTPUT_SHORT, 0, ON(LOOK_UP), GROWTH, FIRST, 0, SIZE_MAX},
    {LEMBIKAT_LIMIT_TOO_LARGE, 0, ON(DECODE), CALL_NUMBER, 0, 0, LEMBIKAT_MAX_LIMIT + 1},
    {LEMBIKAT_UNSETTLED, 0, ON(DECODE), FLIP, FIRST, 0, 0}, /* within no sweeps */
    {LEMBIKAT_LIST_SHORT, 0, ON(REPORT), GROWTH, LENT, 0, SIZE_MAX},
    {LEMBIKAT_FLIPS_TOO_MANY, 0, ON(MARGIN), CALL_NUMBER, 0, 0, SMALL_EDGES + 1},
    {LEMBIKAT_FLIPS_NOT_COVERED, 0, ON(MARGIN), CALL_NUMBER, 0, 0, SMALL_EDGES},
};
const size_t fault_count = sizeof faults / sizeof faults[0];

void put_fault(call *c, const fault *f)
{
    uint8_t *const lent_bytes[FIELDS] = {left_sheet, right_sheet, wiring, first, second, lent};
    uint8_t *changed = lent_bytes[f->field];
    switch (f->change) {
    case SIZE:
        c->field[f->field].size = f->value;
        break;
    case GROWTH:
        c->field[f->field].size += f->value;
        break;
    case BYTE:
        changed[f->at] = (uint8_t)f->value;
        break;
    case PAIR:
        put_pair(changed + f->at, 0, f->value);
        break;
    case FLIP:
        flip(changed, f->at);
        break;
    case LEFT_COUNT:
        c->nl = f->value;
        break;
    case RIGHT_COUNT:
        c->nr = f->value;
        break;
    case CALL_NUMBER:
        c->number = f->value;
        break;
    case NOTHING:
        break;
    }
}

/* Four lost spans of the small plan, of which two touch and the last one has the last bit. */
static const uint8_t small_spans[] = {LEMBIKAT_SPAN(1, 2), LEMBIKAT_SPAN(5, 1), LEMBIKAT_SPAN(6, 2),
                                      LEMBIKAT_SPAN(SMALL_EDGES - 2, 2)};

/* A whole call of the service on so many times the small plan. The block, the message and the table are zero, the spans above
 * are lost, two bits of the settled block differ, and limit, word, flips and bit are 0. A state that is to be changed is one
 * sweep from the last; its count is made up, since no vertex is unsatisfied. */
call small_call(unsigned service, size_t times)
{
    set_plan(small_left, small_right, 3 * times);
    lay_in_order();
    memset(first, 0, MAX_BLOCK);
    memset(second, 0, MAX_BLOCK);
    memset(lent, 0xee, MAX_BLOCK);
    second[0] = 0x44;
    if (ON(service) & CHANGING_STATES)
        put_state(1, LEMBIKAT_MAX_LIMIT - 1);
    call c = plan_call(service);
    if (service == ENCODE)
        c.field[FIRST] = (bytes){first, 1};
    else if (service == LOOK_UP)
        c.field[FIRST] = (bytes){first, table_bytes()};
    else if (ON_BLOCKS & ON(service))
        c.field[FIRST] = (bytes){first, plan.block};
    if (service == REPORT)
        c.field[SECOND] = (bytes){second, plan.block};
    if (service == DECODE) {
        memcpy(second, small_spans, sizeof small_spans);
        c.field[SECOND] = (bytes){second, sizeof small_spans};
    }
    if (service == BUILD_TABLE)
        c.field[LENT] = (bytes){lent, table_bytes()};
    else if (ON(service) & ON_STATES)
        c.field[LENT] = (bytes){lent, state_bytes()};
    else if (ON(service) & WRITING)
        c.field[LENT] = (bytes){lent, service == REPORT ? 8 : service == READ ? 1 : plan.block};
    return c;
}

/* Every fault alone and every pair, the later one put first: the one that is looked for first is answered. */
static void faults_of(unsigned service, size_t times)
{
    size_t calls = 0;
    call c = small_call(service, times);
    compare("fault", calls++, &c);
    must_answer("no fault", &c, times == 1 ? LEMBIKAT_DONE : LEMBIKAT_PLAN_TOO_LARGE, 0, by_reference.answer.value);
    for (const fault *f = faults; f < faults + fault_count; f++) {
        if (!(f->services & ON(service)) || (f->change == NOTHING && times == 1))
            continue;
        for (const fault *other = f; other < faults + fault_count; other++) {
            if (!(other->services & ON(service)))
                continue;
            c = small_call(service, times);
            put_fault(&c, other);
            if (other != f)
                put_fault(&c, f);
            compare("fault", calls++, &c);
            must_answer("fault", &c, f->number, f->place, 0);
        }
        if (f->change == NOTHING)
            return; /* what stands after it is not looked for on a plan that is too large */
    }
}

void fault_calls(void)
{
    for (unsigned service = 0; service < SERVICES; service++)
        faults_of(service, 1);
    faults_of(ENCODE, 43);
    faults_of(READ, 43);
}
