/* The plan that the tests are at: its codes, its wiring, the buffers that calls on it lend. */
#include "plans.h"
#include "draw.h"

size_t common_divisor(size_t a, size_t b)
{
    while (b != 0) {
        size_t left = a % b;
        a = b;
        b = left;
    }
    return a;
}

struct plan_under_test plan;
uint8_t left_sheet[64], right_sheet[64], wiring[ROOM], first[ROOM], second[ROOM], lent[ROOM];

static void put_sheet(uint8_t *sheet, const side *s)
{
    sheet[0] = (uint8_t)s->d;
    sheet[1] = (uint8_t)s->k;
    for (unsigned i = 0; i < s->k; i++)
        put_pair(sheet + 2, i, s->row[i]);
}

size_t sheet_size(const side *s)
{
    return 2 + 2 * (size_t)s->k;
}

void set_plan(side left, side right, size_t n)
{
    plan.left = left;
    plan.right = right;
    plan.left.n = n;
    plan.right.n = n * left.d / right.d;
    plan.edges = n * left.d;
    plan.block = LEMBIKAT_BLOCK_BYTES(n, left.d);
    put_sheet(left_sheet, &left);
    put_sheet(right_sheet, &right);
}

void set_sheet(side s)
{
    set_plan(s, s, 1);
}

int same_code(const side *a, const side *b)
{
    return a->d == b->d && a->k == b->k && memcmp(a->row, b->row, a->k * sizeof a->row[0]) == 0;
}

call plan_call(unsigned service)
{
    call c = {.service = service};
    c.field[LEFT_SHEET] = (bytes){left_sheet, sheet_size(&plan.left)};
    if (ON(service) & ON_SHEETS)
        return c;
    c.field[RIGHT_SHEET] = (bytes){right_sheet, sheet_size(&plan.right)};
    c.nl = plan.left.n;
    c.nr = plan.right.n;
    c.field[WIRING] = (bytes){wiring, 2 * plan.edges};
    return c;
}

lembikat_plan reference_plan(void)
{
    return (lembikat_plan){.left_sheet = left_sheet,
                           .left_sheet_bytes = sheet_size(&plan.left),
                           .right_sheet = right_sheet,
                           .right_sheet_bytes = sheet_size(&plan.right),
                           .nl = plan.left.n,
                           .nr = plan.right.n,
                           .wiring = wiring,
                           .wiring_bytes = 2 * plan.edges};
}

uint64_t each_side_once(size_t made)
{
    return (made >= 1 ? plan.left.n : 0) + (made >= 2 ? plan.right.n : 0);
}

const side pair_code = {.d = 2, .k = 1, .row = {3}};
const side house_code = {.d = 8, .k = 4, .row = {0xff, 0x0f, 0x33, 0x55}};

side free_code(unsigned d)
{
    side s = {.d = d, .k = d};
    for (unsigned i = 0; i < d; i++)
        s.row[i] = 1u << i;
    return s;
}

side alike_code(unsigned d)
{
    return (side){.d = d, .k = 1, .row = {(1u << d) - 1}};
}

size_t all_codewords(const side *s, unsigned *codeword)
{
    size_t known = 1;
    codeword[0] = 0;
    for (unsigned i = 0; i < s->k; i++, known *= 2)
        for (size_t j = 0; j < known; j++)
            codeword[known + j] = codeword[j] ^ s->row[i];
    return known;
}

static unsigned count_ones(unsigned word)
{
    unsigned count = 0;
    for (; word != 0; word &= word - 1)
        count++;
    return count;
}

unsigned distance_of(const side *s)
{
    static unsigned codeword[2048];
    size_t codewords = all_codewords(s, codeword);
    unsigned fewest = s->d;
    for (size_t i = 1; i < codewords; i++)
        fewest = (unsigned)smaller(fewest, count_ones(codeword[i]));
    return fewest;
}

void lay_in_order(void)
{
    for (size_t i = 0; i < plan.edges; i++)
        put_pair(wiring, i, i);
}

void lay_evenly(void)
{
    size_t dl = plan.left.d, dr = plan.right.d, shared = dl / plan.right.n;
    for (size_t i = 0; i < plan.edges; i++) {
        size_t v = i / dr, u = i % dr / shared;
        put_pair(wiring, i, u * dl + v * shared + i % shared);
    }
}

void swap_entries(size_t i, size_t j)
{
    uint8_t kept[2];
    memcpy(kept, wiring + 2 * i, 2);
    memcpy(wiring + 2 * i, wiring + 2 * j, 2);
    memcpy(wiring + 2 * j, kept, 2);
}

void shuffle_wiring(void)
{
    lay_in_order();
    for (size_t i = plan.edges; i > 1; i--)
        swap_entries(i - 1, draw(i));
}

call decoder_call(uint64_t limit)
{
    call c = plan_call(DECODE);
    c.field[FIRST] = (bytes){first, plan.block};
    c.field[LENT] = (bytes){lent, plan.block};
    c.number = limit;
    return c;
}

size_t table_bytes(void)
{
    return LEMBIKAT_TABLE_BYTES(plan.left.d, plan.left.k);
}

size_t state_bytes(void)
{
    return LEMBIKAT_STATE_BYTES(plan.edges);
}

void put_state(size_t count, size_t number)
{
    put_pair(lent, 0, count);
    put_pair(lent, 1, number);
    memcpy(lent + HEAD, first, plan.block);
}

void set_small_plan(size_t i)
{
    switch (i) {
    case 0: /* the pair plan: blocks 10 and 01 are ties and never settle */
        set_plan(pair_code, pair_code, 1);
        lay_in_order();
        break;
    case 1: /* some blocks swing to and fro */
        set_plan(alike_code(3), alike_code(3), 2);
        lay_in_order();
        swap_entries(2, 3);
        break;
    case 2: /* unequal sides */
        set_plan(pair_code, alike_code(3), 3);
        lay_evenly();
        break;
    case 3: /* whatever a right vertex reads is a codeword */
        set_plan(alike_code(4), free_code(4), 2);
        lay_in_order();
        break;
    default: /* whatever a left vertex reads is a codeword, and the wiring is in no order */
        set_plan(free_code(2), alike_code(4), 4);
        lay_evenly();
        swap_entries(1, 6);
    }
}

void put_small_block(size_t block)
{
    put_pair(first, 0, block << (16 - plan.edges));
}

size_t sweeps_made(const call *c)
{
    return by_library.answer.number == LEMBIKAT_UNSETTLED ? c->number : by_library.answer.value;
}
