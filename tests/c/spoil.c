/* Random faults. Each takes a call that is whole, or has other faults already, and spoils one thing. */
#include "subjects.h"

static void resize(call *c, int field)
{
    size_t size = c->field[field].size;
    switch (draw(4)) {
    case 0:
        size = 0;
        break;
    case 1:
        size = size == 0 ? 1 : size - 1;
        break;
    default:
        size += 1 + draw(2);
    }
    c->field[field].size = size;
}

static void spoil_sheet(call *c, int field)
{
    static const uint8_t wrong_d[] = {0, 1, 17, 255}, wrong_k[] = {0, 12, 17, 255};
    const side *s = field == LEFT_SHEET ? &plan.left : &plan.right;
    uint8_t *sheet = field == LEFT_SHEET ? left_sheet : right_sheet;
    size_t i = draw(s->k);
    unsigned sum = 0;
    switch (draw(8)) {
    case 0:
        c->field[field].size = draw(2);
        break;
    case 1:
        sheet[0] = wrong_d[draw(4)];
        break;
    case 2:
        sheet[1] = one_in(2) ? wrong_k[draw(4)] : (uint8_t)(s->d + 1);
        break;
    case 3:
        resize(c, field);
        break;
    case 4:
    case 5:
        put_pair(sheet + 2, i, s->d == 16 ? 0 : ((size_t)1 << s->d) + draw(65536 - ((size_t)1 << s->d)));
        break;
    default: /* a row of earlier ones, of none at times; a second faulty row may follow */
        for (size_t j = 0; j < i; j++)
            if (one_in(2))
                sum ^= s->row[j];
        put_pair(sheet + 2, i, sum);
        if (one_in(2))
            put_pair(sheet + 2, draw(s->k), draw(65536));
    }
}

static void spoil_counts(call *c)
{
    size_t n = one_in(2) ? plan.left.n : plan.right.n, common = common_divisor(plan.left.d, plan.right.d);
    /* Some would look right if they were cut to 16 or 32 bits. */
    const uint64_t wrong_n[] = {0, 2049, 4096 + n, SIZE_MAX / 2, SIZE_MAX, 65537, 65536 + n, ((uint64_t)1 << 32) + n};
    uint64_t *count = one_in(2) ? &c->nl : &c->nr, kept = c->nl;
    switch (draw(4)) {
    case 0:
        *count = wrong_n[draw(sizeof wrong_n / sizeof wrong_n[0])];
        break;
    case 1:
        *count = one_in(2) ? *count + 1 : *count - 1;
        break;
    case 2: /* another plan's, which would need a longer wiring */
        c->nl += plan.right.d / common;
        c->nr += plan.left.d / common;
        break;
    default:
        c->nl = c->nr;
        c->nr = kept;
    }
}

static void spoil_wiring(call *c)
{
    size_t i = draw(plan.edges);
    switch (draw(6)) {
    case 0:
    case 1:
        spoil_counts(c);
        break;
    case 2:
        resize(c, WIRING);
        break;
    case 3:
        put_pair(wiring, i, one_in(2) ? plan.edges : plan.edges + draw(65536 - plan.edges));
        break;
    case 4: /* once more, and at times a third time */
        memcpy(wiring + 2 * i, wiring + 2 * draw(plan.edges), 2);
        if (one_in(3))
            memcpy(wiring + 2 * draw(plan.edges), wiring + 2 * i, 2);
        break;
    default:
        put_pair(wiring, i, draw(65536));
    }
}

static void spoil_block(call *c, int field, uint8_t *block, size_t bits)
{
    if (one_in(2) || bits % 8 == 0) {
        resize(c, field);
        return;
    }
    flip(block, bits + draw(8 - bits % 8));
}

static void spoil_spans(call *c)
{
    bytes *list = &c->field[SECOND];
    if (list->size < LEMBIKAT_SPAN_BYTES) {
        lose(draw(plan.edges), 1);
        *list = (bytes){second, lost_size};
    }
    size_t count = list->size / LEMBIKAT_SPAN_BYTES, i = draw(count);
    uint8_t *span = second + LEMBIKAT_SPAN_BYTES * i;
    size_t offset = span[0] * 256u + span[1],
           previous_end = i == 0 ? 0 : span[-4] * 256u + span[-3] + span[-2] * 256u + span[-1];
    switch (draw(8)) {
    case 0:
    case 1:
        list->size += 1 + draw(3);
        break;
    case 2:
        put_pair(span, 1, 0);
        break;
    case 3: /* by a bit too long */
        put_pair(span, 1, plan.edges - smaller(offset, plan.edges) + 1);
        break;
    case 4: /* would look right if the sum were cut to 16 bits */
        put_pair(span, 1, 65535 - draw(smaller(offset + 1, 65536)));
        break;
    case 5: /* by a bit too early */
        put_pair(span, 0, previous_end == 0 ? draw(65536) : previous_end - 1);
        break;
    case 6: /* the last span once more */
        memcpy(second + LEMBIKAT_SPAN_BYTES * count, second + LEMBIKAT_SPAN_BYTES * (count - 1), LEMBIKAT_SPAN_BYTES);
        list->size = LEMBIKAT_SPAN_BYTES * (count + 1);
        break;
    default:
        put_pair(span, draw(2), draw(65536));
    }
}

static void spoil_table(call *c, int field)
{
    c->field[field].size = one_in(2) ? table_bytes() - 1 : draw(table_bytes());
}

static void spoil_number(call *c)
{
    uint64_t above = ON(c->service) & ON_SHEETS ? (uint64_t)1 << plan.left.d
                     : c->service == DECODE     ? LEMBIKAT_MAX_LIMIT + 1
                     : c->service == SET_BIT    ? plan.edges
                                                : plan.edges + 1;
    switch (draw(4)) {
    case 0:
        c->number = UINT64_MAX;
        break;
    case 1:
        c->number += (uint64_t)1 << 32; /* would look right if it were cut to 32 bits */
        break;
    case 2:
        c->number = above + draw(3);
        break;
    default:
        c->number = above;
    }
}

static void spoil_state(call *c)
{
    if (one_in(3)) { /* spent, where the count is not 0 */
        put_pair(lent, 1, LEMBIKAT_MAX_LIMIT + draw(65536 - LEMBIKAT_MAX_LIMIT));
        if (one_in(2))
            put_pair(lent, 0, draw(65536));
    } else {
        spoil_block(c, LENT, lent + HEAD, plan.edges);
    }
}

/* One of what the service takes beside the sheet or the plan. */
static void spoil_taken(call *c)
{
    switch (c->service) {
    case LOCATE:
        spoil_block(c, FIRST, first, plan.edges);
        break;
    case DECODE:
        if (one_in(2))
            spoil_spans(c);
        else if (one_in(3))
            spoil_block(c, FIRST, first, plan.edges);
        else if (one_in(2))
            spoil_number(c);
        else
            c->field[LENT].size = draw(plan.block);
        break;
    case REPORT:
        if (one_in(3))
            spoil_block(c, FIRST, first, plan.edges);
        else if (one_in(2))
            spoil_block(c, SECOND, second, plan.edges);
        else if (one_in(2) || c->field[LENT].size < 4)
            c->field[LENT].size = draw(c->field[LENT].size + 1);
        else
            c->field[LENT].size = c->field[LENT].size / 4 * 4 - 1;
        break;
    case SPREAD:
        spoil_wiring(c);
        break;
    case ENCODE:
        if (one_in(3))
            c->field[LENT].size = draw(plan.block);
        else
            spoil_block(c, FIRST, first, message_bits());
        break;
    case READ:
        if (one_in(3))
            c->field[LENT].size = draw((message_bits() + 7) / 8 + 1);
        else
            spoil_block(c, FIRST, first, plan.edges);
        break;
    case BUILD_TABLE:
        spoil_table(c, LENT);
        break;
    case LOOK_UP:
        if (one_in(2))
            spoil_table(c, FIRST);
        else
            spoil_number(c);
        break;
    case LOAD_STATE:
        if (one_in(3))
            c->field[LENT].size = one_in(2) ? state_bytes() - 1 : draw(state_bytes());
        else
            spoil_block(c, FIRST, first, plan.edges);
        break;
    case SWEEP_STATE:
        spoil_state(c);
        break;
    case SET_BIT:
        if (one_in(2))
            spoil_state(c);
        else
            spoil_number(c);
        break;
    case NEAREST_WORD:
    case MARGIN:
        spoil_number(c);
        break;
    default:
        give_up("a service of the list has no faults that can be drawn");
    }
}

void spoil(call *c)
{
    size_t what = draw(10);
    int on_sheet = (ON(c->service) & ON_SHEETS) != 0;
    if (what < 2 || (what < 4 && on_sheet))
        spoil_sheet(c, on_sheet || one_in(2) ? LEFT_SHEET : RIGHT_SHEET);
    else if (what < 5 && !on_sheet)
        spoil_wiring(c);
    else
        spoil_taken(c);
}
