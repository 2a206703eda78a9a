/* test_vectors STREAM EXPECTED: the library's exports against stored answers and against a second set of services.
 *
 * Part one runs every record of a stream of calls and compares the line that it gives with the expected one. Part two makes
 * calls that chance does not meet, among them every fault of every service alone and with every other one, the tables of all d
 * and k, every span that may be lost of a small block, every block of some small plans at small limits, blocks that settle only
 * after thousands of sweeps, stand still or swing, and states of every small block with counts and sweep numbers that are made
 * up, and then 32,500 calls from a fixed seed, about half of them with faults and more than half of the plans with unequal
 * sides, and compares every answer and every lent byte with reference.c. Codewords with bits lost and flipped within the margin
 * must come back, and with bits flipped alone they must not take more visits than the header's bound. States that are swept
 * call by call must come to what the decoder answers, by the sweeps, sums and visits that it tells. The last line is
 * `test_vectors: N passed, M failed`; the exit status is 1 where one failed.
 *
 * The sanitizers do not see into the library. So every call is made twice: once by the call that takes the plan's parts, with
 * buffers on the heap, what is written between canaries, and once by the header's call on a plan in one piece, with every
 * buffer ending where a page begins that may neither be read nor written. Both must answer alike and leave what they only read
 * as it was. The calls on a sheet have one form, which is made in both ways.
 */
#define _DEFAULT_SOURCE /* for MAP_ANONYMOUS */

#include "lembikat.h"
#include "reference.h"

#include <stdio.h>
#include <stdlib.h>
#include <string.h>
#include <sys/mman.h>
#include <unistd.h>

_Static_assert(sizeof(size_t) == 8, "numbers of the stream have 64 bits and are handed on as sizes");

/* The library lays its answers out field by field: where a compiler put a gap the two would not speak of the same bytes. */
_Static_assert(sizeof(lembikat_answer) == 16, "the answer has a gap");
_Static_assert(sizeof(lembikat_word_answer) == 24, "the answer of the nearest word and the look-up has a gap");
_Static_assert(sizeof(lembikat_decode_answer) == 152, "the decoder's answer has a gap");
_Static_assert(sizeof(lembikat_state_answer) == 24, "the answer of the calls on a state has a gap");

#define RANDOM_CALLS 32500
#define SHOWN_FAILURES 10
#define LAST_REFUSAL LEMBIKAT_SWEEPS_SPENT
#define LAST_SERVICE 14
#define PIECE 2 /* the service that the C host does not call */

/* Sets of services: on plans and on a sheet alone; on states, and of these the ones that change a state; with a block, a
 * message or a table to be read; with a buffer to be written. */
#define ON(service) (1u << (service))
#define ON_PLANS (ON(2) | ON(3) | ON(4) | ON(5) | ON(6) | ON(7) | ON(8) | ON(9) | ON_STATES)
#define ON_SHEETS (ON(1) | ON(10) | ON(11))
#define ON_STATES (ON(12) | ON(13) | ON(14))
#define CHANGING_STATES (ON(13) | ON(14))
#define READING (ON(3) | ON(4) | ON(5) | ON(8) | ON(9) | ON(11) | ON(12))
#define WRITING (ON(4) | ON(5) | ON(8) | ON(9) | ON(10) | ON_STATES)

#define MAX_EDGES LEMBIKAT_MAX_EDGES
#define MAX_BLOCK LEMBIKAT_MAX_BLOCK_BYTES
#define HEAD LEMBIKAT_STATE_HEAD_BYTES
#define ROOM 139264 /* above every buffer of the stream (70,000) and the longest list of lost spans (131,072) */

/* One call of one service, numbered as in the stream. What a service does not take is empty. */
enum { LEFT_SHEET, RIGHT_SHEET, WIRING, FIRST, SECOND, LENT, FIELDS };

typedef struct {
    const uint8_t *data;
    size_t size;
} bytes;

typedef struct {
    unsigned service;
    /* LEFT_SHEET: also the one sheet of a service that takes no plan; FIRST: the block, the message or the table; SECOND: the
     * decoder's lost spans or the report's settled block; LENT: the buffer to be written, or the state to be changed */
    bytes field[FIELDS];
    uint64_t nl, nr;
    uint64_t number; /* the word, the limit, the flips or the bit */
    uint64_t value;  /* that the bit is set to */
} call;

/* What came out of it. */
typedef struct {
    lembikat_answer answer;       /* the part that all answers have */
    uint64_t changed;             /* the nearest word's and the look-up's; 0 of the other services */
    uint64_t sweeps;              /* of the calls on a state; 0 of the other services */
    uint16_t sums[LEMBIKAT_SUMS]; /* the decoder's; 0 of the other services */
    uint64_t visits;              /* the decoder's; 0 of the other services */
    uint8_t lent[ROOM];
    const char *trouble; /* what was touched that must not be, or NULL */
} outcome;

/* The library, by its two kinds of call, and the reference have the same thirteen functions. */
typedef struct {
    lembikat_word_answer (*nearest_word)(const uint8_t *, size_t, uint64_t);
    lembikat_answer (*build_table)(const uint8_t *, size_t, uint8_t *, size_t);
    lembikat_word_answer (*look_up)(const uint8_t *, size_t, uint64_t, const uint8_t *, size_t);
    lembikat_answer (*locate)(const lembikat_plan *, const uint8_t *, size_t);
    lembikat_decode_answer (*decode)(const lembikat_plan *, const uint8_t *, size_t, const uint8_t *, size_t, uint8_t *, size_t,
                                     size_t);
    lembikat_state_answer (*load_state)(const lembikat_plan *, const uint8_t *, size_t, uint8_t *, size_t);
    lembikat_state_answer (*sweep_state)(const lembikat_plan *, uint8_t *, size_t);
    lembikat_state_answer (*set_bit)(const lembikat_plan *, size_t, uint64_t, uint8_t *, size_t);
    lembikat_answer (*report)(const lembikat_plan *, const uint8_t *, size_t, const uint8_t *, size_t, uint8_t *, size_t);
    lembikat_answer (*spread)(const lembikat_plan *);
    lembikat_answer (*margin)(const lembikat_plan *, uint64_t);
    lembikat_answer (*encode)(const lembikat_plan *, const uint8_t *, size_t, uint8_t *, size_t);
    lembikat_answer (*read)(const lembikat_plan *, const uint8_t *, size_t, uint8_t *, size_t);
} services;

/* The calls that take the plan's parts. */
#define PARTS p->left_sheet, p->left_sheet_bytes, p->right_sheet, p->right_sheet_bytes, p->nl, p->nr, p->wiring, p->wiring_bytes

static lembikat_answer locate_by_parts(const lembikat_plan *p, const uint8_t *block, size_t block_bytes)
{
    return lembikat_locate(PARTS, block, block_bytes);
}

static lembikat_decode_answer decode_by_parts(const lembikat_plan *p, const uint8_t *received, size_t received_bytes,
                                              const uint8_t *lost, size_t lost_bytes, uint8_t *output, size_t output_bytes,
                                              size_t limit)
{
    return lembikat_decode(PARTS, received, received_bytes, lost, lost_bytes, output, output_bytes, limit);
}

static lembikat_state_answer load_by_parts(const lembikat_plan *p, const uint8_t *block, size_t block_bytes, uint8_t *state,
                                           size_t state_bytes)
{
    return lembikat_load_state(PARTS, block, block_bytes, state, state_bytes);
}

static lembikat_state_answer sweep_by_parts(const lembikat_plan *p, uint8_t *state, size_t state_bytes)
{
    return lembikat_sweep_state(PARTS, state, state_bytes);
}

static lembikat_state_answer set_by_parts(const lembikat_plan *p, size_t bit, uint64_t value, uint8_t *state,
                                          size_t state_bytes)
{
    return lembikat_set_bit(PARTS, bit, value, state, state_bytes);
}

static lembikat_answer report_by_parts(const lembikat_plan *p, const uint8_t *received, size_t received_bytes,
                                       const uint8_t *settled, size_t settled_bytes, uint8_t *list, size_t list_bytes)
{
    return lembikat_report(PARTS, received, received_bytes, settled, settled_bytes, list, list_bytes);
}

static lembikat_answer spread_by_parts(const lembikat_plan *p)
{
    return lembikat_spread(PARTS);
}

static lembikat_answer margin_by_parts(const lembikat_plan *p, uint64_t flips)
{
    return lembikat_margin(PARTS, flips);
}

static lembikat_answer encode_by_parts(const lembikat_plan *p, const uint8_t *message, size_t message_bytes, uint8_t *output,
                                       size_t output_bytes)
{
    return lembikat_encode(PARTS, message, message_bytes, output, output_bytes);
}

static lembikat_answer read_by_parts(const lembikat_plan *p, const uint8_t *block, size_t block_bytes, uint8_t *output,
                                     size_t output_bytes)
{
    return lembikat_read(PARTS, block, block_bytes, output, output_bytes);
}

static const services by_parts = {.nearest_word = lembikat_nearest_word,
                                  .build_table = lembikat_build_table,
                                  .look_up = lembikat_look_up,
                                  .locate = locate_by_parts,
                                  .decode = decode_by_parts,
                                  .load_state = load_by_parts,
                                  .sweep_state = sweep_by_parts,
                                  .set_bit = set_by_parts,
                                  .report = report_by_parts,
                                  .spread = spread_by_parts,
                                  .margin = margin_by_parts,
                                  .encode = encode_by_parts,
                                  .read = read_by_parts};
static const services by_plan = {.nearest_word = lembikat_nearest_word,
                                 .build_table = lembikat_build_table,
                                 .look_up = lembikat_look_up,
                                 .locate = lembikat_plan_locate,
                                 .decode = lembikat_plan_decode,
                                 .load_state = lembikat_plan_load_state,
                                 .sweep_state = lembikat_plan_sweep_state,
                                 .set_bit = lembikat_plan_set_bit,
                                 .report = lembikat_plan_report,
                                 .spread = lembikat_plan_spread,
                                 .margin = lembikat_plan_margin,
                                 .encode = lembikat_plan_encode,
                                 .read = lembikat_plan_read};
static const services reference = {.nearest_word = reference_nearest_word,
                                   .build_table = reference_build_table,
                                   .look_up = reference_look_up,
                                   .locate = reference_locate,
                                   .decode = reference_decode,
                                   .load_state = reference_load_state,
                                   .sweep_state = reference_sweep_state,
                                   .set_bit = reference_set_bit,
                                   .report = reference_report,
                                   .spread = reference_spread,
                                   .margin = reference_margin,
                                   .encode = reference_encode,
                                   .read = reference_read};

static const char *const service_names[LAST_SERVICE + 1] = {"",       "nearest", "piece",  "locate", "decode",
                                                            "report", "spread",  "margin", "encode", "read",
                                                            "build",  "look up", "load",   "sweep",  "set"};

static size_t cases, failures;

static void give_up(const char *why)
{
    fprintf(stderr, "test_vectors: %s\n", why);
    exit(1);
}

static void *take(size_t size)
{
    void *memory = malloc(size);
    if (memory == NULL)
        give_up("no memory");
    return memory;
}

/* ---- one call ---- */

static void invoke(const services *s, const call *c, uint8_t *const at[FIELDS], outcome *o)
{
    const lembikat_plan plan = {.left_sheet = at[LEFT_SHEET],
                                .left_sheet_bytes = c->field[LEFT_SHEET].size,
                                .right_sheet = at[RIGHT_SHEET],
                                .right_sheet_bytes = c->field[RIGHT_SHEET].size,
                                .nl = c->nl,
                                .nr = c->nr,
                                .wiring = at[WIRING],
                                .wiring_bytes = c->field[WIRING].size};
    const uint8_t *first = at[FIRST], *second = at[SECOND];
    uint8_t *lent = at[LENT];
    size_t first_size = c->field[FIRST].size, second_size = c->field[SECOND].size, lent_size = c->field[LENT].size;
    o->changed = 0;
    o->sweeps = 0;
    o->visits = 0;
    memset(o->sums, 0, sizeof o->sums);
    switch (c->service) {
    case 1:
    case 11: {
        lembikat_word_answer word = c->service == 1
                                        ? s->nearest_word(plan.left_sheet, plan.left_sheet_bytes, c->number)
                                        : s->look_up(plan.left_sheet, plan.left_sheet_bytes, c->number, first, first_size);
        o->answer = (lembikat_answer){word.number, word.place, word.value};
        o->changed = word.changed;
        break;
    }
    case 3:
        o->answer = s->locate(&plan, first, first_size);
        break;
    case 4: {
        lembikat_decode_answer decoded = s->decode(&plan, first, first_size, second, second_size, lent, lent_size, c->number);
        o->answer = (lembikat_answer){decoded.number, decoded.place, decoded.value};
        memcpy(o->sums, decoded.sums, sizeof o->sums);
        o->visits = decoded.visits;
        break;
    }
    case 5:
        o->answer = s->report(&plan, first, first_size, second, second_size, lent, lent_size);
        break;
    case 6:
        o->answer = s->spread(&plan);
        break;
    case 7:
        o->answer = s->margin(&plan, c->number);
        break;
    case 8:
        o->answer = s->encode(&plan, first, first_size, lent, lent_size);
        break;
    case 10:
        o->answer = s->build_table(plan.left_sheet, plan.left_sheet_bytes, lent, lent_size);
        break;
    case 12:
    case 13:
    case 14: {
        lembikat_state_answer shown = c->service == 12   ? s->load_state(&plan, first, first_size, lent, lent_size)
                                      : c->service == 13 ? s->sweep_state(&plan, lent, lent_size)
                                                         : s->set_bit(&plan, c->number, c->value, lent, lent_size);
        o->answer = (lembikat_answer){shown.number, shown.place, shown.value};
        o->sweeps = shown.sweeps;
        break;
    }
    default:
        o->answer = s->read(&plan, first, first_size, lent, lent_size);
    }
}

static size_t get_pair(const uint8_t *from, size_t index)
{
    return from[2 * index] * 256u + from[2 * index + 1];
}

static int same_bytes(const uint8_t *a, const uint8_t *b, size_t size)
{
    return size == 0 || memcmp(a, b, size) == 0;
}

static int all_zero(const uint16_t *sums)
{
    for (size_t i = 0; i < LEMBIKAT_SUMS; i++)
        if (sums[i] != 0)
            return 0;
    return 1;
}

/* Looks at what the call was lent, after it: the buffers that are only read must be as they were, and a state must hold the
 * count and the sweep number that were answered. With any refusal but 15 a decoder call tells neither sums nor visits. */
static void look_after(const call *c, uint8_t *const at[FIELDS], outcome *o)
{
    o->trouble = NULL;
    for (int f = 0; f < LENT; f++)
        if (!same_bytes(at[f], c->field[f].data, c->field[f].size))
            o->trouble = "a buffer that is only read was changed";
    if (c->field[LENT].size != 0)
        memcpy(o->lent, at[LENT], c->field[LENT].size);
    if (ON(c->service) & ON_STATES && o->answer.number == LEMBIKAT_DONE &&
        (o->answer.value != get_pair(o->lent, 0) || o->sweeps != get_pair(o->lent, 1)))
        o->trouble = "the answer is not what stands in the state";
    if (o->answer.number != LEMBIKAT_DONE && o->answer.number != LEMBIKAT_UNSETTLED && (o->visits != 0 || !all_zero(o->sums)))
        o->trouble = "sums or visits are told with a refusal";
}

#define CANARIES 16

static uint8_t canary(size_t i)
{
    return (uint8_t)(0xa5 + 29 * i);
}

/* Every buffer on the heap: what is read at its exact size, what is written between canaries. No bytes are lent as NULL. */
static void run_on_heap(const services *s, const call *c, outcome *o)
{
    uint8_t *at[FIELDS] = {NULL};
    size_t lent = c->field[LENT].size;
    uint8_t *around = take(lent + 2 * CANARIES);
    for (size_t i = 0; i < CANARIES; i++)
        around[i] = around[CANARIES + lent + i] = canary(i);
    for (int f = 0; f < FIELDS; f++) {
        size_t size = c->field[f].size;
        if (size == 0)
            continue;
        at[f] = f == LENT ? around + CANARIES : take(size);
        memcpy(at[f], c->field[f].data, size);
    }
    invoke(s, c, at, o);
    look_after(c, at, o);
    for (size_t i = 0; i < CANARIES; i++)
        if (around[i] != canary(i) || around[CANARIES + lent + i] != canary(i))
            o->trouble = "a byte beside the lent buffer was written";
    for (int f = 0; f < LENT; f++)
        free(at[f]);
    free(around);
}

/* Lends one buffer for two fields that have the same bytes. */
static void share(const call *c, uint8_t *at[FIELDS], int field, int other)
{
    if (c->field[field].size == c->field[other].size && same_bytes(at[field], at[other], c->field[field].size))
        at[other] = at[field];
}

/* Every buffer ends where a page begins that may not be touched: a byte read or written behind it stops the program. No bytes
 * are lent as a pointer to that page. */
static void run_fenced(const services *s, const call *c, outcome *o)
{
    static uint8_t *fence[FIELDS];
    uint8_t *at[FIELDS] = {NULL};
    if (fence[0] == NULL) {
        size_t page = (size_t)sysconf(_SC_PAGESIZE);
        size_t room = (ROOM + page - 1) / page * page;
        for (int f = 0; f < FIELDS; f++) {
            uint8_t *area = mmap(NULL, room + page, PROT_READ | PROT_WRITE, MAP_PRIVATE | MAP_ANONYMOUS, -1, 0);
            if (area == MAP_FAILED || mprotect(area + room, page, PROT_NONE) != 0)
                give_up("no fenced memory");
            fence[f] = area + room;
        }
    }
    for (int f = 0; f < FIELDS; f++) {
        size_t size = c->field[f].size;
        at[f] = fence[f] - size;
        if (size != 0)
            memcpy(at[f], c->field[f].data, size);
    }
    /* Buffers that are only read may be one and the same. */
    share(c, at, LEFT_SHEET, RIGHT_SHEET);
    share(c, at, FIRST, SECOND);
    invoke(s, c, at, o);
    look_after(c, at, o);
}

static int same_outcome(const call *c, const outcome *a, const outcome *b)
{
    return a->answer.number == b->answer.number && a->answer.place == b->answer.place && a->answer.value == b->answer.value &&
           a->changed == b->changed && a->sweeps == b->sweeps && memcmp(a->sums, b->sums, sizeof a->sums) == 0 &&
           a->visits == b->visits && same_bytes(a->lent, b->lent, c->field[LENT].size);
}

/* Makes the call of the library in both ways, and of the reference. */
static outcome by_library, by_reference;

static void run_all(const call *c)
{
    static outcome fenced;
    run_on_heap(&by_parts, c, &by_library);
    run_fenced(&by_plan, c, &fenced);
    run_on_heap(&reference, c, &by_reference);
    if (fenced.trouble != NULL)
        by_library.trouble = fenced.trouble;
    if (!same_outcome(c, &by_library, &fenced))
        by_library.trouble = "on a plan in one piece, or with other buffers, the call answered otherwise";
}

/* Counts a case. Answers whether it is to be shown. */
static int failed(int bad)
{
    cases++;
    if (!bad)
        return 0;
    failures++;
    return failures <= SHOWN_FAILURES;
}

#define SUMS_ROOM (6 * LEMBIKAT_SUMS) /* five digits and a comma each, a zero at the end */

/* The sums as one word: joined by commas, without the zeros at the end. */
static void put_sums(char *to, const uint16_t *sums)
{
    size_t told = LEMBIKAT_SUMS;
    while (told > 0 && sums[told - 1] == 0)
        told--;
    strcpy(to, "-");
    for (size_t i = 0; i < told; i++)
        to += sprintf(to, "%s%u", i == 0 ? "" : ",", sums[i]);
}

static void show(const char *who, const call *c, const outcome *o)
{
    char sums[SUMS_ROOM];
    printf("  %s number %u place %u value %llu lent", who, o->answer.number, o->answer.place,
           (unsigned long long)o->answer.value);
    for (size_t i = 0; i < c->field[LENT].size && i < 64; i++)
        printf("%s%02x", i == 0 ? " " : "", o->lent[i]);
    put_sums(sums, o->sums);
    printf(" changed %llu sweeps %llu sums %s visits %llu\n", (unsigned long long)o->changed, (unsigned long long)o->sweeps,
           sums, (unsigned long long)o->visits);
}

/* ---- part one: the stored stream ---- */

static uint8_t *read_file(const char *name, size_t *size)
{
    FILE *file = fopen(name, "rb");
    if (file == NULL) {
        perror(name);
        exit(1);
    }
    size_t room = 1 << 16, got;
    uint8_t *data = take(room);
    *size = 0;
    while ((got = fread(data + *size, 1, room - *size, file)) > 0) {
        *size += got;
        if (*size == room) {
            room *= 2;
            data = realloc(data, room);
            if (data == NULL)
                give_up("no memory");
        }
    }
    fclose(file);
    return data;
}

/* What is still to be read of the stream. */
static bytes rest;

static uint64_t next_number(unsigned size)
{
    uint64_t value = 0;
    if (rest.size < size)
        give_up("the stream ends within a record");
    for (unsigned i = 0; i < size; i++)
        value = value << 8 | rest.data[i];
    rest.data += size;
    rest.size -= size;
    return value;
}

static bytes next_bytes(void)
{
    bytes field;
    field.size = next_number(4);
    if (rest.size < field.size || field.size > ROOM)
        give_up("a field of the stream is too long");
    field.data = rest.data;
    rest.data += field.size;
    rest.size -= field.size;
    return field;
}

static call next_record(void)
{
    call c = {.service = (unsigned)next_number(1)};
    if (c.service < 1 || c.service > LAST_SERVICE)
        give_up("the stream names no such service");
    c.field[LEFT_SHEET] = next_bytes();
    if (ON(c.service) & ON_PLANS) {
        c.field[RIGHT_SHEET] = next_bytes();
        c.nl = next_number(8);
        c.nr = next_number(8);
        c.field[WIRING] = next_bytes();
    }
    if (c.service == 11 || c.service == 14) /* those whose numbers do not stand last */
        c.number = next_number(8);
    if (c.service == 14)
        c.value = next_number(8);
    if (ON(c.service) & READING)
        c.field[FIRST] = next_bytes();
    if (c.service == 4 || c.service == 5)
        c.field[SECOND] = next_bytes();
    if (ON(c.service) & WRITING)
        c.field[LENT] = next_bytes();
    if (c.service == 1 || c.service == PIECE || c.service == 4 || c.service == 7)
        c.number = next_number(8);
    return c;
}

/* The line that a call gives: the answer, then the whole lent buffer where there is one, then the decoder's sums and visits. */
static const char *line_of(const call *c, const outcome *o)
{
    static char line[2 * ROOM + SUMS_ROOM + 100];
    char *end = line;
    lembikat_answer a = o->answer;
    if (a.number != LEMBIKAT_DONE)
        end += sprintf(end, "refused %u %u", a.number, a.place);
    else if (c->service == 1 || c->service == 11)
        end += sprintf(end, "ok %llu %llu", (unsigned long long)a.value, (unsigned long long)o->changed);
    else if (c->service >= 8)
        end += sprintf(end, "ok");
    else if (c->service != 3)
        end += sprintf(end, "ok %llu", (unsigned long long)a.value);
    else if (a.place == LEMBIKAT_NONE)
        end += sprintf(end, "ok none");
    else
        end += sprintf(end, "ok %s %llu", a.place == LEMBIKAT_LEFT ? "left" : "right", (unsigned long long)a.value);
    if (ON(c->service) & WRITING) {
        size_t size = c->field[LENT].size;
        end += sprintf(end, "%s", size == 0 ? " -" : " ");
        for (size_t i = 0; i < size; i++)
            end += sprintf(end, "%02x", o->lent[i]);
    }
    if (c->service == 4) {
        char sums[SUMS_ROOM];
        put_sums(sums, o->sums);
        sprintf(end, " %s %llu", sums, (unsigned long long)o->visits);
    }
    return line;
}

/* The next line of the expected file, without its end; NULL where there is none. */
static const char *next_line(char **text)
{
    char *line = *text;
    if (*line == '\0')
        return NULL;
    char *end = strchr(line, '\n');
    if (end == NULL) {
        *text = line + strlen(line);
    } else {
        *end = '\0';
        *text = end + 1;
    }
    return line;
}

/* What is shown of a line: 200 characters from here on, so that the place where it leaves the other line is among them. */
static const char *shown(const char *line, const char *other)
{
    size_t same = 0;
    while (line[same] != '\0' && line[same] == other[same])
        same++;
    return line + (same > 100 ? same - 100 : 0);
}

static void part_one(const char *stream_name, const char *expected_name)
{
    size_t stream_size, expected_size;
    uint8_t *stream = read_file(stream_name, &stream_size);
    char *expected = (char *)read_file(expected_name, &expected_size);
    expected[expected_size] = '\0'; /* there is room: a full buffer was doubled */
    char *text = expected;
    size_t records = 0, pieces = 0;
    rest = (bytes){stream, stream_size};
    while (rest.size != 0) {
        call c = next_record();
        const char *want = next_line(&text);
        records++;
        if (c.service == PIECE) {
            pieces++;
            continue;
        }
        run_all(&c);
        const char *line = line_of(&c, &by_library);
        if (want == NULL)
            want = "(no line)";
        if (failed(strcmp(line, want) != 0 || by_library.trouble != NULL))
            printf("FAILED: record %zu (%s)\n  expected %.200s\n  library  %.200s\n  %s\n", records, service_names[c.service],
                   shown(want, line), shown(line, want), by_library.trouble == NULL ? "" : by_library.trouble);
        /* The stored lines also vouch for the reference, which part two leans on. */
        if (failed(!same_outcome(&c, &by_library, &by_reference))) {
            printf("FAILED: record %zu (%s) beside the reference\n", records, service_names[c.service]);
            show("reference", &c, &by_reference);
            show("library  ", &c, &by_library);
        }
    }
    if (failed(next_line(&text) != NULL))
        printf("FAILED: there are more expected lines than records\n");
    printf("stream: %zu records, %zu of them run, %zu of the piece skipped\n", records, records - pieces, pieces);
    free(stream);
    free(expected);
}

/* ---- part two: calls that are made up ---- */

static uint64_t drawn = 0x9e3779b97f4a7c15u;

static uint64_t draw64(void)
{
    drawn ^= drawn << 13;
    drawn ^= drawn >> 7;
    drawn ^= drawn << 17;
    return drawn * 0x2545f4914f6cdd1du;
}

/* 0 to below - 1 */
static size_t draw(size_t below)
{
    return (size_t)((draw64() >> 16) % below);
}

static int one_in(size_t count)
{
    return draw(count) == 0;
}

static void draw_bytes(uint8_t *to, size_t size)
{
    for (size_t i = 0; i < size; i++)
        to[i] = (uint8_t)draw(256);
}

static void put_pair(uint8_t *to, size_t index, size_t value)
{
    to[2 * index] = (uint8_t)(value >> 8);
    to[2 * index + 1] = (uint8_t)value;
}

static void flip(uint8_t *block, size_t bit)
{
    block[bit / 8] ^= (uint8_t)(128u >> bit % 8);
}

static size_t smaller(size_t a, size_t b)
{
    return a < b ? a : b;
}

static size_t larger(size_t a, size_t b)
{
    return a > b ? a : b;
}

static size_t common_divisor(size_t a, size_t b)
{
    while (b != 0) {
        size_t left = a % b;
        a = b;
        b = left;
    }
    return a;
}

/* A plan without fault, and how its wiring was laid, since that tells how to make a codeword of it. */
enum { SHUFFLED, RECTANGLES, TWINS, RESIDUES, PLANE };

typedef struct {
    unsigned d, k;
    unsigned row[11];
    size_t n;
} side;

static struct {
    side left, right;
    size_t edges, block;
    int lay;
} plan;

/* What the call under way lends, `second` the decoder's list too, `lent` the state that is to be changed too. The faults are
 * put in here, the plan above stays as it was. */
static uint8_t left_sheet[64], right_sheet[64], wiring[ROOM], first[ROOM], second[ROOM], lent[ROOM];

static void put_sheet(uint8_t *sheet, const side *s)
{
    sheet[0] = (uint8_t)s->d;
    sheet[1] = (uint8_t)s->k;
    for (unsigned i = 0; i < s->k; i++)
        put_pair(sheet + 2, i, s->row[i]);
}

static size_t sheet_size(const side *s)
{
    return 2 + 2 * (size_t)s->k;
}

/* Takes both sides as the plan, with n vertices on the left and as many on the right as fit. The wiring is still to be laid. */
static void set_plan(side left, side right, size_t n)
{
    plan.left = left;
    plan.right = right;
    plan.left.n = n;
    plan.right.n = n * left.d / right.d;
    plan.edges = n * left.d;
    plan.block = LEMBIKAT_BLOCK_BYTES(n, left.d);
    put_sheet(left_sheet, &left);
    put_sheet(right_sheet, &right);
}

static int same_code(const side *a, const side *b)
{
    return a->d == b->d && a->k == b->k && memcmp(a->row, b->row, a->k * sizeof a->row[0]) == 0;
}

/* A call of the service on the plan, or on its left sheet alone. What it takes beside that is still to be put in. */
static call plan_call(unsigned service)
{
    call c = {.service = service};
    c.field[LEFT_SHEET] = (bytes){left_sheet, sheet_size(&plan.left)};
    if (ON(service) & ON_SHEETS)
        return c;
    c.field[RIGHT_SHEET] = (bytes){right_sheet, sheet_size(&plan.right)};
    c.nl = plan.left.n;
    c.nr = plan.right.n;
    c.field[WIRING] = (bytes){wiring, 2 * plan.edges};
    return c;
}

/* The plan as the reference takes it. */
static lembikat_plan reference_plan(void)
{
    return (lembikat_plan){.left_sheet = left_sheet,
                           .left_sheet_bytes = sheet_size(&plan.left),
                           .right_sheet = right_sheet,
                           .right_sheet_bytes = sheet_size(&plan.right),
                           .nl = plan.left.n,
                           .nr = plan.right.n,
                           .wiring = wiring,
                           .wiring_bytes = 2 * plan.edges};
}

/* Compares the library with the reference on one call of part two. */
static void compare(const char *kind, size_t i, const call *c)
{
    run_all(c);
    if (!failed(!same_outcome(c, &by_library, &by_reference) || by_library.trouble != NULL))
        return;
    printf("FAILED: %s call %zu (%s) on nl %llu d %u k %u, nr %llu d %u k %u %s\n", kind, i, service_names[c->service],
           (unsigned long long)c->nl, plan.left.d, plan.left.k, (unsigned long long)c->nr, plan.right.d, plan.right.k,
           by_library.trouble == NULL ? "" : by_library.trouble);
    show("reference", c, &by_reference);
    show("library  ", c, &by_library);
}

/* Says what the last call compared must have answered. */
static void must_answer(const char *kind, const call *c, uint32_t number, uint32_t place, uint64_t value)
{
    lembikat_answer a = by_library.answer;
    if (failed(a.number != number || a.place != place || a.value != value)) {
        printf("FAILED: %s (%s) must answer number %u place %u value %llu\n", kind, service_names[c->service], number, place,
               (unsigned long long)value);
        show("library  ", c, &by_library);
    }
}

/* The same of a call that answers a word. */
static void must_tell(const char *kind, const call *c, uint64_t value, uint64_t changed)
{
    must_answer(kind, c, LEMBIKAT_DONE, 0, value);
    if (failed(by_library.changed != changed))
        printf("FAILED: %s (%s): of word %llx %llu bits are changed, not %llu\n", kind, service_names[c->service],
               (unsigned long long)c->number, (unsigned long long)by_library.changed, (unsigned long long)changed);
}

/* The same of the decoder's visits. */
static void must_visit(const char *kind, const call *c, uint64_t visits)
{
    if (failed(by_library.visits != visits)) {
        printf("FAILED: %s: %llu vertices must be visited\n", kind, (unsigned long long)visits);
        show("library  ", c, &by_library);
    }
}

/* The visits of so many sweeps, where these are no more than two or none after the first changes a bit: each side once. */
static uint64_t each_side_once(size_t made)
{
    return (made >= 1 ? plan.left.n : 0) + (made >= 2 ? plan.right.n : 0);
}

/* ---- calls that chance does not meet ---- */

static const side pair_code = {.d = 2, .k = 1, .row = {3}};

/* All words of d bits: whatever a vertex reads is a codeword. */
static side free_code(unsigned d)
{
    side s = {.d = d, .k = d};
    for (unsigned i = 0; i < d; i++)
        s.row[i] = 1u << i;
    return s;
}

/* All d bits alike. */
static side alike_code(unsigned d)
{
    return (side){.d = d, .k = 1, .row = {(1u << d) - 1}};
}

/* All exclusive-ors of the rows. Answers their number. */
static size_t all_codewords(const side *s, unsigned *codeword)
{
    size_t known = 1;
    codeword[0] = 0;
    for (unsigned i = 0; i < s->k; i++, known *= 2)
        for (size_t j = 0; j < known; j++)
            codeword[known + j] = codeword[j] ^ s->row[i];
    return known;
}

/* Keeps the first rows and draws the others, so that none is made of earlier ones. */
static void draw_rows(side *s, unsigned kept)
{
    static unsigned made[2048]; /* all exclusive-ors of the rows so far */
    size_t known = 1;
    made[0] = 0;
    for (unsigned i = 0; i < s->k;) {
        unsigned row = i < kept ? s->row[i] : (unsigned)draw((size_t)1 << s->d);
        int fresh = 1;
        for (size_t j = 0; j < known; j++)
            fresh &= made[j] != row;
        if (!fresh)
            continue;
        for (size_t j = 0; j < known; j++)
            made[known + j] = made[j] ^ row;
        known *= 2;
        s->row[i++] = row;
    }
}

/* Draws rows that begin at different digits, which may be any, in any order. */
static void draw_scattered_rows(side *s)
{
    unsigned begun = 0;
    for (unsigned i = 0; i < s->k;) {
        unsigned top = 1u << draw(s->d);
        if (begun & top)
            continue;
        begun |= top;
        s->row[i++] = top | (unsigned)draw(top);
    }
}

/* The edges in order: right vertex v reads the bits from v * dr on. */
static void lay_in_order(void)
{
    for (size_t i = 0; i < plan.edges; i++)
        put_pair(wiring, i, i);
}

/* Every left vertex shares as many edges with every right vertex as with any other. */
static void lay_evenly(void)
{
    size_t dl = plan.left.d, dr = plan.right.d, shared = dl / plan.right.n;
    for (size_t i = 0; i < plan.edges; i++) {
        size_t v = i / dr, u = i % dr / shared;
        put_pair(wiring, i, u * dl + v * shared + i % shared);
    }
}

static void swap_entries(size_t i, size_t j)
{
    uint8_t kept[2];
    memcpy(kept, wiring + 2 * i, 2);
    memcpy(wiring + 2 * i, wiring + 2 * j, 2);
    memcpy(wiring + 2 * j, kept, 2);
}

/* The flips covered on what stands in the plan: all below `beyond`, and not `beyond` itself, nor a few after it. */
static void margin_calls(const char *kind, size_t beyond)
{
    for (size_t flips = 0; flips < beyond + 4; flips++) {
        call c = plan_call(7);
        c.number = flips;
        compare(kind, flips, &c);
        if (failed(by_library.answer.number != (flips < beyond ? LEMBIKAT_DONE : LEMBIKAT_FLIPS_NOT_COVERED)))
            printf("FAILED: %s call %zu ended in %u\n", kind, flips, by_library.answer.number);
    }
}

/* The borders of the margin. Every left vertex shares m edges with every right one, but for two edges that are swapped. R is
 * then 4 nr, and A, which is nr (D - 2 m b), has a square above 4 nr R only where D - 2 m b is above 4. */
static void border_calls(void)
{
    /* Equal sides, m is 2: b is 1 from 4 flips on, and 8 - 2 * 2 is not above 4. */
    set_plan(alike_code(8), alike_code(8), 4);
    lay_evenly();
    swap_entries(0, 10);
    margin_calls("border", 4);

    /* The right D at the step to the right: b is 1 from 4 flips on, and 6 - 2 is not above 4; 7 - 2 would be. */
    set_plan(alike_code(7), (side){.d = 8, .k = 1, .row = {0x7e}}, 8);
    lay_evenly();
    swap_entries(0, 9);
    margin_calls("border to the right", 4);

    /* The left D at the step to the left: from 6 flips on b is 2, then 1, since 9 - 4 is above 4, and 6 - 2 is not; 9 - 2 would
     * be. */
    set_plan(alike_code(6), alike_code(9), 9);
    lay_evenly();
    swap_entries(0, 10);
    margin_calls("border to the left", 6);

    /* R is 0, and A has to be above 0: from 6 flips on b is 3, and 6 * 8 - 2 * 8 * 3 is not. */
    set_plan((side){.d = 8, .k = 4, .row = {0xff, 0x0f, 0x33, 0x55}},
             (side){.d = 16, .k = 7, .row = {0x03a3, 0x0745, 0x0e89, 0x1d11, 0x3a21, 0x7441, 0xe881}}, 16);
    lay_evenly();
    margin_calls("border at 0", 6);
}

/* A call of the decoder on the plan and on what stands in the first block, of which no bit is lost. */
static call decoder_call(uint64_t limit)
{
    call c = plan_call(4);
    c.field[FIRST] = (bytes){first, plan.block};
    c.field[LENT] = (bytes){lent, plan.block};
    c.number = limit;
    return c;
}

/* A chain: each vertex reads four bits that must be alike, and a fifth that may be anything. Two of the four are ones from the
 * start; one comes from the vertex before it in the chain and one goes to the vertex after it, and these are 0 but for the
 * first of them all, the head, whose other end is a fifth bit. Where two of four are ones there is a tie, and the vertex waits:
 * only when the bit from the vertex before has become 1 does it read three ones, and then it hands the 1 on. The sides take
 * turns along the chain, so that each sweep changes one bit, in one vertex, and all vertices behind it, on both sides, still
 * wait. The block settles only after 2n sweeps, or 2n + 1 where the head is at a right vertex: sweep 1 then changes nothing.
 * Beside the chain there may be vertices that never settle: one a side, which share their bits, of the four two ones, a tie; or
 * two a side, each right one with three of the four bits of one left vertex and one of the other, which are three ones and one:
 * each sweep turns two of these bits, and the next one turns them back. */
enum { ALONE, BESIDE_A_TIE, BESIDE_A_SWING, CHAINS }; /* each also the number of vertices a side that are beside it */

static void lay_chain_beside(size_t n, int right_first, int beside)
{
    const side code = {.d = 5, .k = 2, .row = {0x1e, 0x01}};
    set_plan(code, code, n + (size_t)beside);
    /* Left vertex u has its bit from the vertex before, that to the vertex after, its two ones, its fifth. Right vertex v has
     * the ones and, as a rule, the fifth of left vertex v. */
    memset(first, 0, plan.block);
    for (size_t v = 0; v < n; v++) {
        const size_t from = 5 * v, to = 5 * v + 1, last = v + 1 == n;
        if (right_first) { /* right vertex v is before left vertex v; the head is the fifth bit of the last left vertex */
            put_pair(wiring, 5 * v, v == 0 ? 5 * n - 1 : to - 5);
            put_pair(wiring, 5 * v + 1, from);
            put_pair(wiring, 5 * v + 4, last ? to : 5 * v + 4);
        } else { /* left vertex v is before right vertex v; the head, bit 0, is the fifth bit of the last right vertex */
            put_pair(wiring, 5 * v, to);
            put_pair(wiring, 5 * v + 1, last ? 5 * n - 1 : from + 5);
            put_pair(wiring, 5 * v + 4, last ? 0 : 5 * v + 4);
        }
        put_pair(wiring, 5 * v + 2, 5 * v + 2);
        put_pair(wiring, 5 * v + 3, 5 * v + 3);
        flip(first, 5 * v + 2);
        flip(first, 5 * v + 3);
    }
    flip(first, right_first ? 5 * n - 1 : 0);
    for (size_t i = 5 * n; i < plan.edges; i++)
        put_pair(wiring, i, i);
    if (beside == BESIDE_A_TIE) {
        flip(first, 5 * n);
        flip(first, 5 * n + 1);
    } else if (beside == BESIDE_A_SWING) {
        swap_entries(5 * n + 3, 5 * n + 5);
        for (size_t i = 0; i < 3; i++)
            flip(first, 5 * n + i);
        flip(first, 5 * n + 5);
    }
}

static void lay_chain(size_t n, int right_first)
{
    lay_chain_beside(n, right_first, ALONE);
}

/* The decoder on such a chain. From sweep 3 on it visits the one vertex of the chain that the sweep before has handed the 1 to,
 * also after the last one, and those that swing. Where the reference would take long the library is called alone: all that it
 * must tell is known. */
static void chain_call(size_t n, int right_first, int beside, size_t limit)
{
    static size_t calls;
    const size_t last = right_first ? 2 * n + 1 : 2 * n, swinging = beside == BESIDE_A_SWING ? 2 : 0;
    const int settles = beside == ALONE && last <= limit;
    const size_t made = settles ? last : limit;
    lay_chain_beside(n, right_first, beside);
    call c = decoder_call(limit);
    if (beside != ALONE && n > 100)
        run_on_heap(&by_parts, &c, &by_library);
    else
        compare("chain", calls++, &c);

    uint64_t visits = each_side_once(made);
    int right = by_library.answer.number == (settles ? LEMBIKAT_DONE : LEMBIKAT_UNSETTLED) &&
                by_library.answer.value == (settles ? last : 0);
    for (size_t i = 0; i < LEMBIKAT_SUMS; i++)
        right &= by_library.sums[i] == (i >= made ? 0 : (i >= (size_t)right_first && i < last) + swinging);
    for (size_t sweep = 3; sweep <= made; sweep++)
        visits += (sweep - 1 <= last) + swinging;
    if (failed(!right || by_library.visits != visits || by_library.trouble != NULL)) {
        printf("FAILED: chain of n %zu with limit %zu, whose last change is in sweep %zu, visits %llu %s\n", n, limit, last,
               (unsigned long long)visits, by_library.trouble == NULL ? "" : by_library.trouble);
        show("library  ", &c, &by_library);
    }
}

/* Counts and limits below, at and above the sweeps whose sums are told, and the largest limit of all. */
static void chain_calls(void)
{
    static const size_t sizes[] = {1, 2, 3, 30, 31, 32, 33},
                        limits[] = {0,  1,  2,  3,  4,  5,  6,  7,  8,  60,  61,  62,  63,
                                    64, 65, 66, 67, 68, 69, 70, 71, 72, 128, 129, 999, LEMBIKAT_MAX_LIMIT};
    for (int beside = ALONE; beside < CHAINS; beside++)
        for (size_t i = 0; i < sizeof sizes / sizeof sizes[0]; i++)
            for (size_t j = 0; j < sizeof limits / sizeof limits[0]; j++) {
                if (beside != ALONE && sizes[i] > 3 && limits[j] > 999)
                    continue; /* the same sweeps over and over, which takes the reference long */
                chain_call(sizes[i], 0, beside, limits[j]);
                chain_call(sizes[i], 1, beside, limits[j]);
            }
    chain_call(LEMBIKAT_MAX_VERTICES, 0, ALONE, LEMBIKAT_MAX_LIMIT - 1);
    chain_call(LEMBIKAT_MAX_VERTICES, 0, ALONE, LEMBIKAT_MAX_LIMIT);
    for (size_t limit = LEMBIKAT_MAX_LIMIT - 3; limit <= LEMBIKAT_MAX_LIMIT; limit++)
        for (int beside = BESIDE_A_TIE; beside < CHAINS; beside++) {
            chain_call(LEMBIKAT_MAX_VERTICES - (size_t)beside, 0, beside, limit);
            chain_call(LEMBIKAT_MAX_VERTICES - (size_t)beside, 1, beside, limit);
        }
}

/* The largest sum: at each of 2,048 vertices the word is sixteen ones, the codewords are zero and a lone 1, and 15 bits are
 * changed. No plan has more: sixteen ones get fewer with any codeword put on them. Sweep 1 does it where the left code is that
 * one, sweep 2 where the right code is and the left one has sixteen ones too. */
static void largest_sum(int sweep, side left, side right)
{
    set_plan(left, right, LEMBIKAT_MAX_VERTICES);
    lay_in_order();
    memset(first, 0xff, MAX_BLOCK);
    call c = decoder_call(2);
    compare("largest sum", 0, &c);
    if (failed(by_library.answer.number != LEMBIKAT_DONE || by_library.answer.value != (uint64_t)sweep ||
               by_library.sums[sweep - 1] != 15 * LEMBIKAT_MAX_VERTICES || by_library.sums[2 - sweep] != 0)) {
        printf("FAILED: sweep %d changes 15 bits at every vertex\n", sweep);
        show("library  ", &c, &by_library);
    }
    must_visit("largest sum", &c, each_side_once((size_t)sweep));
}

static void largest_sums(void)
{
    const side lone_one = {.d = 16, .k = 1, .row = {1}}, and_all_ones = {.d = 16, .k = 2, .row = {1, 0xffff}};
    largest_sum(1, lone_one, lone_one);
    largest_sum(2, and_all_ones, lone_one);
}

/* A lone vertex that reads no codeword, on a side with more vertices than the other has. Its bits must be alike, and whatever
 * the other side reads is a codeword. The locator must name it. Of three bits the decoder mends the one that is flipped, in the
 * side's own first sweep; with two bits there is a tie, which stays. */
static void lone_vertex_call(int right, unsigned d, size_t n, unsigned other_d, size_t vertex)
{
    if (right) {
        set_plan(free_code(other_d), alike_code(d), n * d / other_d);
        for (size_t i = 0; i < plan.edges; i++) /* from the last edge down, so that a vertex's edges are not its number's */
            put_pair(wiring, i, plan.edges - 1 - i);
    } else {
        set_plan(alike_code(d), free_code(other_d), n);
        lay_in_order();
    }
    memset(first, 0, plan.block);
    flip(first, right ? plan.edges - 1 - d * vertex : d * vertex); /* its first bit */
    call c = plan_call(3);
    c.field[FIRST] = (bytes){first, plan.block};
    compare("lone vertex", vertex, &c);
    must_answer("lone vertex", &c, LEMBIKAT_DONE, right ? LEMBIKAT_RIGHT : LEMBIKAT_LEFT, vertex);
    c = decoder_call(2);
    compare("lone vertex", vertex, &c);
    if (d == 2)
        must_answer("lone vertex", &c, LEMBIKAT_UNSETTLED, 0, 0);
    else
        must_answer("lone vertex", &c, LEMBIKAT_DONE, 0, right ? 2 : 1);
    must_visit("lone vertex", &c, each_side_once(d == 2 || right ? 2 : 1));
}

static void lone_vertex_calls(void)
{
    for (int right = 0; right < 2; right++)
        for (unsigned d = 2; d <= 3; d++) {
            for (size_t vertex = 0; vertex < 33; vertex++)
                lone_vertex_call(right, d, 33, 11, vertex);
            for (size_t vertex = 255; vertex < LEMBIKAT_MAX_VERTICES; vertex = 2 * vertex + 1)
                lone_vertex_call(right, d, LEMBIKAT_MAX_VERTICES, 8, vertex);
        }
}

/* Sheets that differ though n and d are equal, and the same two swapped. Vertex 0 of each side reads 100, which is no codeword
 * where bits must be alike; the side that has this code is located, and its first sweep mends it. */
static void sheet_calls(void)
{
    for (int swapped = 0; swapped < 2; swapped++) {
        if (swapped)
            set_plan(free_code(3), alike_code(3), 2);
        else
            set_plan(alike_code(3), free_code(3), 2);
        lay_in_order();
        first[0] = 0x80;
        call c = plan_call(3);
        c.field[FIRST] = (bytes){first, plan.block};
        compare("sheets", (size_t)swapped, &c);
        must_answer("sheets", &c, LEMBIKAT_DONE, swapped ? LEMBIKAT_RIGHT : LEMBIKAT_LEFT, 0);
        c = decoder_call(2);
        compare("sheets", (size_t)swapped, &c);
        must_answer("sheets", &c, LEMBIKAT_DONE, 0, swapped ? 2 : 1);
        must_visit("sheets", &c, each_side_once(swapped ? 2 : 1));
    }
}

/* Takes the code for the services that need one sheet alone. */
static void set_sheet(side s)
{
    set_plan(s, s, 1);
}

static int same_word_answer(lembikat_word_answer a, lembikat_word_answer b)
{
    return a.number == b.number && a.place == b.place && a.value == b.value && a.changed == b.changed;
}

static size_t table_bytes(void)
{
    return LEMBIKAT_TABLE_BYTES(plan.left.d, plan.left.k);
}

/* Builds the table of the sheet in a buffer with so many bytes to spare, which must stay as they were. It is then in the first
 * buffer, to be looked up in. Answers how many of its entries are marks. */
static size_t build(const char *kind, size_t spare)
{
    size_t size = table_bytes(), marks = 0;
    call c = plan_call(10);
    c.field[LENT] = (bytes){lent, size + spare};
    draw_bytes(lent, size + spare);
    compare(kind, spare, &c);
    must_answer(kind, &c, LEMBIKAT_DONE, 0, 0);
    if (failed(!same_bytes(by_library.lent + size, lent + size, spare)))
        printf("FAILED: %s: a byte beyond the table was written\n", kind);
    memcpy(first, by_library.lent, size + spare);
    for (size_t i = 0; i < size; i += 2)
        marks += first[i] * 256 + first[i + 1] == LEMBIKAT_TIE_MARK;
    return marks;
}

/* A word of the sheet looked up in the first buffer. */
static call look_up_call(uint64_t word, size_t size)
{
    call c = plan_call(11);
    c.field[FIRST] = (bytes){first, size};
    c.number = word;
    return c;
}

/* Every word of the sheet looked up in its table, which is in the first buffer: the search answers the same. */
static void all_look_ups(const char *name)
{
    size_t size = sheet_size(&plan.left), differ = 0, last_word = 0;
    for (size_t word = 0; word < (size_t)1 << plan.left.d; word++)
        if (!same_word_answer(lembikat_look_up(left_sheet, size, word, first, table_bytes()),
                              lembikat_nearest_word(left_sheet, size, word))) {
            last_word = word;
            differ++;
        }
    if (failed(differ != 0))
        printf("FAILED: all look-ups of %s (d %u k %u): %zu are not the nearest word, the last of them %zx\n", name,
               plan.left.d, plan.left.k, differ, last_word);
}

/* Every word of a sheet, beside the reference, and how many words stay: the codewords and, by the number given, the ties. Then
 * its table: as many marks as there are classes of ties, and every word looked up. */
static void all_words_of(const char *name, side s, size_t ties)
{
    size_t words = (size_t)1 << s.d, stay = 0, differ = 0, last_word = 0;
    set_sheet(s);
    for (size_t word = 0; word < words; word++) {
        lembikat_word_answer a = lembikat_nearest_word(left_sheet, sheet_size(&s), word);
        lembikat_word_answer b = reference_nearest_word(left_sheet, sheet_size(&s), word);
        stay += a.number == LEMBIKAT_DONE && a.value == word && a.changed == 0;
        if (!same_word_answer(a, b)) {
            last_word = word;
            differ++;
        }
    }
    if (failed(differ != 0))
        printf("FAILED: all words of %s: %zu are not as in the reference, the last of them %zx\n", name, differ, last_word);
    if (failed(stay != ((size_t)1 << s.k) + ties))
        printf("FAILED: all words of %s: %zu stay, not the %zu codewords and %zu ties\n", name, stay, (size_t)1 << s.k, ties);
    size_t marks = build(name, 0);
    if (failed(marks << s.k != ties))
        printf("FAILED: the table of %s has %zu marks, not one for every %zu of %zu ties\n", name, marks, (size_t)1 << s.k,
               ties);
    all_look_ups(name);
}

/* One word of one sheet, and what comes of it. */
static void word_call(side s, unsigned word, unsigned value, unsigned changed)
{
    set_sheet(s);
    call c = plan_call(1);
    c.number = word;
    compare("word", word, &c);
    must_tell("word", &c, value, changed);
}

/* Words that are known, and all words of some sheets. How many ties there are: with all bits alike the words that have as many
 * ones as zeros, so none if d is odd. The code of 7 bits is perfect: each word is a codeword or one bit from one alone. The
 * house code and the one with 11 rows are perfect codes with a parity bit: the words two bits away tie, 7 and 15 classes of
 * them. With 5 rows a word more than 3 bits away ties, since any four bits are half of the eight ones of some codeword. Of the
 * last two codes some words three bits away have one nearest codeword and some have more; these were counted from the codewords
 * outwards, a bit at a time. */
static void word_calls(void)
{
    const side house = {.d = 8, .k = 4, .row = {0xff, 0x0f, 0x33, 0x55}};
    const side perfect = {.d = 7, .k = 4, .row = {0x0b, 0x16, 0x2c, 0x58}};
    const side rows_5 = {.d = 16, .k = 5, .row = {0x5555, 0x3333, 0x0f0f, 0x00ff, 0xffff}};
    const side rows_11 = {
        .d = 16, .k = 11, .row = {0x5555, 0x3333, 0x0f0f, 0x00ff, 0xffff, 0x1111, 0x0505, 0x0303, 0x0055, 0x0033, 0x000f}};
    const side rows_7 = {.d = 16, .k = 7, .row = {0x03a3, 0x0745, 0x0e89, 0x1d11, 0x3a21, 0x7441, 0xe881}};
    const side odd_d = {.d = 15, .k = 7, .row = {0x01d1, 0x03a2, 0x0744, 0x0e88, 0x1d10, 0x3a20, 0x7440}};
    word_call(house, 0x01, 0x00, 1);
    word_call(house, 0x07, 0x0f, 1);
    word_call(house, 0x03, 0x03, 0);
    word_call(house, 0xc0, 0xc0, 0);
    word_call(pair_code, 1, 1, 0);
    word_call(pair_code, 2, 2, 0);
    word_call(alike_code(3), 0x4, 0x0, 1);
    word_call(alike_code(4), 0xe, 0xf, 1);
    word_call(alike_code(4), 0xc, 0xc, 0);

    all_words_of("the house code", house, 112);
    all_words_of("16 bits alike", alike_code(16), 12870);
    all_words_of("15 bits alike", alike_code(15), 0);
    all_words_of("d 7 k 4", perfect, 0);
    all_words_of("d 16 k 5", rows_5, 43232);
    all_words_of("d 16 k 11", rows_11, 30720);
    all_words_of("d 16 k 7", rows_7, 37760);
    all_words_of("d 15 k 7", odd_d, 8960);
}

/* The classes of all words of the sheet: in a table whose entries are their own numbers, a look-up puts the class of a word on
 * the word. Of the words in rising order each is in a class met before, or it is the smallest of the next one; all words that
 * differ from that one by a codeword are in this class too. */
static void class_calls(void)
{
    static size_t class_of[1 << 16];
    static unsigned codeword[2048];
    const side *s = &plan.left;
    size_t words = (size_t)1 << s->d, codewords = all_codewords(s, codeword), classes = 0, differ = 0, last_word = 0;
    for (size_t i = 0; i < table_bytes() / 2; i++)
        put_pair(first, i, i);
    for (size_t word = 0; word < words; word++)
        class_of[word] = words;
    for (size_t word = 0; word < words; word++) {
        if (class_of[word] == words) {
            for (size_t j = 0; j < codewords; j++)
                class_of[word ^ codeword[j]] = classes;
            classes++;
        }
        lembikat_word_answer a = lembikat_look_up(left_sheet, sheet_size(s), word, first, table_bytes());
        if (a.number != LEMBIKAT_DONE || a.value != (word ^ class_of[word])) {
            last_word = word;
            differ++;
        }
    }
    if (failed(differ != 0 || classes != table_bytes() / 2))
        printf("FAILED: the classes of d %u k %u: %zu, and %zu words are in another one, the last of them %zx\n", s->d, s->k,
               classes, differ, last_word);
}

/* Tables that have one entry for all classes, at, below and above 2^d, and the mark. The low d bits count; the mark is the mark
 * whatever d is. */
static void one_entry_calls(void)
{
    const unsigned d = plan.left.d, entries[] = {0, 1, 0x7fff, 0x8000, 0xfffe, 0xffff, (1u << d) - 1, 1u << d % 16, 0xff00};
    for (size_t i = 0; i < sizeof entries / sizeof entries[0]; i++) {
        for (size_t j = 0; j < table_bytes() / 2; j++)
            put_pair(first, j, entries[i]);
        size_t word = draw((size_t)1 << d), changed = 0;
        unsigned pattern = entries[i] == LEMBIKAT_TIE_MARK ? 0 : entries[i] & ((1u << d) - 1);
        for (unsigned j = 0; j < d; j++)
            changed += pattern >> j & 1;
        call c = look_up_call(word, table_bytes());
        compare("one entry", entries[i], &c);
        must_tell("one entry", &c, word ^ pattern, changed);
    }
}

/* Tables that are too short, words that are too large, one of which would look right if it were cut to 32 bits, and both: the
 * word is looked at first. The bytes of a table too short stay. */
static void short_table_calls(void)
{
    const size_t sizes[] = {0, table_bytes() - 1, table_bytes()};
    const uint64_t above = (uint64_t)1 << plan.left.d, words[] = {above - 1, above, ((uint64_t)1 << 32) + above - 1};
    for (size_t i = 0; i < sizeof sizes / sizeof sizes[0]; i++) {
        uint32_t number = sizes[i] < table_bytes() ? LEMBIKAT_OUTPUT_SHORT : LEMBIKAT_DONE;
        call c = plan_call(10);
        c.field[LENT] = (bytes){lent, sizes[i]};
        compare("short table", i, &c);
        must_answer("short table", &c, number, 0, 0);
        memset(first, 0, sizes[i]);
        for (size_t j = 0; j < sizeof words / sizeof words[0]; j++) {
            c = look_up_call(words[j], sizes[i]);
            compare("short table", i, &c);
            if (words[j] >= above)
                must_answer("short table", &c, LEMBIKAT_STRAY_BIT, 0, 0);
            else
                must_answer("short table", &c, number, 0, number == LEMBIKAT_DONE ? words[j] : 0);
        }
    }
}

/* Random words looked up in the first buffer. */
static void random_look_ups(const char *kind, size_t size)
{
    for (size_t i = 0; i < 4; i++) {
        call c = look_up_call(draw((size_t)1 << plan.left.d), size);
        compare(kind, i, &c);
    }
}

/* Tables of every d and k: faults, other tables than the sheet's own, all classes, and all words in the sheet's own. The sheets
 * are drawn in two ways: rows at random, which mostly begin at the highest digits, and rows that begin at any digits, these
 * with tables longer than needed. */
static void table_calls(void)
{
    static const unsigned house_entries[16] = {0x0000, 0x0001, 0x0002, 0xffff, 0x0004, 0xffff, 0xffff, 0x0008,
                                               0x0010, 0xffff, 0xffff, 0x0020, 0xffff, 0x0040, 0x0080, 0xffff};
    set_sheet((side){.d = 8, .k = 4, .row = {0xff, 0x0f, 0x33, 0x55}});
    build("house table", 0);
    for (size_t i = 0; i < 16; i++)
        if (failed(first[2 * i] * 256u + first[2 * i + 1] != house_entries[i]))
            printf("FAILED: entry %zu of the house table is not %04x\n", i, house_entries[i]);

    for (unsigned d = 2; d <= 16; d++)
        for (unsigned k = 1; k <= smaller(d, 11); k++)
            for (int scattered = 0; scattered < 2; scattered++) {
                side s = {.d = d, .k = k};
                if (scattered)
                    draw_scattered_rows(&s);
                else
                    draw_rows(&s, 0);
                set_sheet(s);
                if (!scattered) {
                    short_table_calls();
                    one_entry_calls();
                }
                size_t spare = scattered ? 1 + draw(40) : 0;
                class_calls();
                draw_bytes(first, table_bytes() + spare);
                random_look_ups("foreign table", table_bytes() + spare);
                build("table", spare);
                random_look_ups("table", table_bytes() + spare);
                all_look_ups("a table");
            }
}

/* A decoder call on the plan and on what stands in the first block. It must settle after so many sweeps, if the limit is not
 * below them, or never where that is 0. The sums of sweeps 1 and 2 are given, as far as the limit lets them be made; no later
 * sweep changes a bit, nor does sweep 2 where the block never settles. */
static void tie_call(uint64_t limit, uint64_t sweeps, unsigned sum_1, unsigned sum_2)
{
    static size_t calls;
    int settles = sweeps != 0 && sweeps <= limit, right = 1;
    call c = decoder_call(limit);
    compare("tie", calls++, &c);
    must_answer("tie", &c, settles ? LEMBIKAT_DONE : LEMBIKAT_UNSETTLED, 0, settles ? sweeps : 0);
    for (size_t i = 0; i < LEMBIKAT_SUMS; i++)
        right &= by_library.sums[i] == (i >= limit ? 0 : i == 0 ? sum_1 : i == 1 ? sum_2 : 0);
    if (failed(!right)) {
        printf("FAILED: tie: the sums of sweeps 1 and 2 must be %u and %u, limit %llu\n", sum_1, sum_2,
               (unsigned long long)limit);
        show("library  ", &c, &by_library);
    }
    must_visit("tie", &c, each_side_once(settles ? sweeps : limit));
}

/* Ties: the word stays, and as long as some vertex reads it the block is no codeword, whichever side was swept last. */
static void tie_calls(void)
{
    static const uint64_t limits[] = {0, 1, 2, 3, 4, 5, 63, 64, 65, LEMBIKAT_MAX_LIMIT - 1, LEMBIKAT_MAX_LIMIT};
    for (size_t i = 0; i < sizeof limits / sizeof limits[0]; i++) {
        for (unsigned block = 0x40; block <= 0x80; block += 0x40) {
            /* The pair plan: both vertices tie, and nothing is ever changed. */
            set_plan(pair_code, pair_code, 1);
            lay_in_order();
            first[0] = (uint8_t)block;
            tie_call(limits[i], 0, 0, 0);
            /* Whatever the right vertex reads is a codeword: the tie is on the side that sweeps 1, 3, .. have just swept. */
            set_plan(pair_code, free_code(2), 1);
            tie_call(limits[i], 0, 0, 0);
            /* Whatever the left vertex reads is one: the tie is on the side that sweeps 2, 4, .. have just swept. */
            set_plan(free_code(2), pair_code, 1);
            tie_call(limits[i], 0, 0, 0);
        }
        /* Of two left vertices sweep 1 mends the first, 1110, and leaves the second, 1100; on the right all are codewords. */
        set_plan(alike_code(4), free_code(4), 2);
        lay_in_order();
        first[0] = 0xec;
        tie_call(limits[i], 0, 1, 0);
        /* Three left vertices of two bits, two right ones of three, one bit flipped: its left vertex waits in sweep 1, and its
         * right vertex mends it in sweep 2. */
        set_plan(pair_code, alike_code(3), 3);
        lay_evenly();
        first[0] = 0x80;
        tie_call(limits[i], 2, 0, 1);
        /* The same with the sides swapped: the left vertex mends it in sweep 1. */
        set_plan(alike_code(3), pair_code, 2);
        lay_evenly();
        tie_call(limits[i], 1, 1, 0);
    }
}

/* Counts: each of a list on the left with each on the right, with wirings as long as either side or the plan has it. 7 stands
 * before 23, also where both products are 0, or equal if they were cut to 64 bits; 23 stands before 8. Equal sheets have equal
 * counts or 23. */
static void count_calls(side left, side right, size_t n)
{
    set_plan(left, right, n);
    const size_t nl = plan.left.n, nr = plan.right.n, bit_32 = (size_t)1 << 32, bit_62 = (size_t)1 << 62;
    const size_t counts[] = {0,          1,           nl,          nr,          nl - 1,      nl + 1,  nr + 1,
                             2 * nl,     2 * nr,      2047,        2048,        2049,        65536,   65536 + nl,
                             65536 + nr, bit_32 + nl, bit_32 + nr, bit_62 + nl, bit_62 + nr, SIZE_MAX};
    const size_t count = sizeof counts / sizeof counts[0];
    for (size_t i = 0; i < MAX_EDGES; i++) /* in order, whichever counts are taken */
        put_pair(wiring, i, i);
    memset(first, 0, MAX_BLOCK);
    for (size_t i = 0; i < count * count; i++) {
        call c = plan_call(3);
        c.nl = counts[i / count];
        c.nr = counts[i % count];
        int in_range = c.nl >= 1 && c.nl <= 2048 && c.nr >= 1 && c.nr <= 2048;
        size_t left_edges = in_range ? c.nl * left.d : 0, right_edges = in_range ? c.nr * right.d : 0;
        size_t edges = one_in(3) ? plan.edges : one_in(2) ? left_edges : right_edges;
        c.field[WIRING].size = 2 * edges;
        c.field[FIRST] = (bytes){first, (edges + 7) / 8};
        compare("counts", i, &c);
        must_answer("counts", &c,
                    !in_range                   ? LEMBIKAT_VERTICES_OUT_OF_RANGE
                    : left_edges != right_edges ? LEMBIKAT_EDGE_COUNTS_DIFFER
                    : left_edges != edges       ? LEMBIKAT_WIRING_LENGTH_WRONG
                                                : LEMBIKAT_DONE,
                    0, 0);
    }
}

static void all_count_calls(void)
{
    const side house = {.d = 8, .k = 4, .row = {0xff, 0x0f, 0x33, 0x55}};
    count_calls(house, house, 8);
    count_calls(house, alike_code(16), 16);
    count_calls(alike_code(16), house, 8);
    count_calls(alike_code(16), free_code(2), 256);
    count_calls(free_code(3), alike_code(5), 5);
}

/* A small plan for faults: three left vertices of 4 bits by two right ones of 6, 12 bits and 6 of a message, or so many times
 * as many vertices. */
#define SMALL_EDGES 12
#define SMALL_MESSAGE_BITS 6
static const side small_left = {.d = 4, .k = 3, .row = {0x3, 0x6, 0xc}};
static const side small_right = {.d = 6, .k = 4, .row = {0x03, 0x06, 0x0c, 0x18}};

/* A fault: the refusal and its place, the services that look for it, and what to change in a whole call on the small plan. */
typedef struct {
    uint32_t number, place;
    unsigned services;
    enum { SIZE, GROWTH, BYTE, PAIR, FLIP, LEFT_COUNT, RIGHT_COUNT, NUMBER, NOTHING } change;
    int field;    /* of SIZE, GROWTH, BYTE, PAIR, FLIP */
    size_t at;    /* the byte of BYTE and PAIR, the bit of FLIP */
    size_t value; /* GROWTH by SIZE_MAX is a byte less */
} fault;

#define ON_ALL (ON_PLANS | ON_SHEETS)
#define ON_BLOCKS (ON(3) | ON(4) | ON(5) | ON(9) | ON(12))

/* Every fault, in the order in which a call looks for them. Of rows, 5 stands before 6 and after it, of entries 9 and 10, of
 * lost spans 25 and 26: the first row, entry or span is answered, whichever number it has. Of one span 25 stands before 26. One
 * span would look right if the sum of offset and length were cut to 16 bits; others are wrong by one bit. */
static const fault faults[] = {
    {LEMBIKAT_SHEET_SHORT, 0, ON_ALL, SIZE, LEFT_SHEET, 0, 1},
    {LEMBIKAT_DEGREE_OUT_OF_RANGE, 0, ON_ALL, BYTE, LEFT_SHEET, 0, 17},
    {LEMBIKAT_ROWS_OUT_OF_RANGE, 0, ON_ALL, BYTE, LEFT_SHEET, 1, 5},
    {LEMBIKAT_SHEET_LENGTH_WRONG, 0, ON_ALL, SIZE, LEFT_SHEET, 0, 9},
    {LEMBIKAT_ROW_TOO_LARGE, 0, ON_ALL, PAIR, LEFT_SHEET, 2, 0x10},
    {LEMBIKAT_ROW_DEPENDENT, 1, ON_ALL, PAIR, LEFT_SHEET, 4, 0x3},
    {LEMBIKAT_ROW_TOO_LARGE, 2, ON_ALL, PAIR, LEFT_SHEET, 6, 0xffff},
    {LEMBIKAT_SHEET_SHORT, 0, ON_PLANS, SIZE, RIGHT_SHEET, 0, 0},
    {LEMBIKAT_DEGREE_OUT_OF_RANGE, 0, ON_PLANS, BYTE, RIGHT_SHEET, 0, 1},
    {LEMBIKAT_ROWS_OUT_OF_RANGE, 0, ON_PLANS, BYTE, RIGHT_SHEET, 1, 0},
    {LEMBIKAT_SHEET_LENGTH_WRONG, 0, ON_PLANS, SIZE, RIGHT_SHEET, 0, 9},
    {LEMBIKAT_ROW_DEPENDENT, 0, ON_PLANS, PAIR, RIGHT_SHEET, 2, 0},
    {LEMBIKAT_ROW_TOO_LARGE, 1, ON_PLANS, PAIR, RIGHT_SHEET, 4, 0x40},
    {LEMBIKAT_ROW_DEPENDENT, 2, ON_PLANS, PAIR, RIGHT_SHEET, 6, 0x05},
    {LEMBIKAT_VERTICES_OUT_OF_RANGE, 0, ON_PLANS, LEFT_COUNT, 0, 0, 0},
    {LEMBIKAT_VERTICES_OUT_OF_RANGE, 0, ON_PLANS, RIGHT_COUNT, 0, 0, LEMBIKAT_MAX_VERTICES + 1},
    {LEMBIKAT_EDGE_COUNTS_DIFFER, 0, ON_PLANS, LEFT_COUNT, 0, 0, 4},
    {LEMBIKAT_WIRING_LENGTH_WRONG, 0, ON_PLANS, GROWTH, WIRING, 0, 1},
    {LEMBIKAT_ENTRY_TOO_LARGE, 1, ON_PLANS, PAIR, WIRING, 2, 0xffff},
    {LEMBIKAT_ENTRY_REPEATED, 3, ON_PLANS, PAIR, WIRING, 6, 0},
    {LEMBIKAT_ENTRY_TOO_LARGE, 5, ON_PLANS, PAIR, WIRING, 10, 0x1000},
    {LEMBIKAT_ENTRY_REPEATED, 8, ON_PLANS, PAIR, WIRING, 16, 7},
    {LEMBIKAT_PLAN_TOO_LARGE, 0, ON(8) | ON(9), NOTHING, 0, 0, 0}, /* of the call on many times as many vertices */
    {LEMBIKAT_BLOCK_LENGTH_WRONG, 0, ON_BLOCKS, GROWTH, FIRST, 0, 1},
    {LEMBIKAT_BLOCK_LENGTH_WRONG, 0, CHANGING_STATES, SIZE, LENT, 0, 0},
    {LEMBIKAT_BLOCK_LENGTH_WRONG, 0, CHANGING_STATES, SIZE, LENT, 0, HEAD},
    {LEMBIKAT_BLOCK_LENGTH_WRONG, 0, CHANGING_STATES, SIZE, LENT, 0, LEMBIKAT_STATE_BYTES(SMALL_EDGES) - 1},
    {LEMBIKAT_BLOCK_LENGTH_WRONG, 0, CHANGING_STATES, GROWTH, LENT, 0, 1},
    {LEMBIKAT_STRAY_BIT, 0, ON_BLOCKS, FLIP, FIRST, SMALL_EDGES, 0},
    {LEMBIKAT_STRAY_BIT, 0, CHANGING_STATES, FLIP, LENT, 8 * HEAD + SMALL_EDGES, 0},
    {LEMBIKAT_STRAY_BIT, 0, CHANGING_STATES, FLIP, LENT, 8 * HEAD + SMALL_EDGES + 3, 0},
    {LEMBIKAT_SPANS_LENGTH_WRONG, 0, ON(4), GROWTH, SECOND, 0, 1},
    {LEMBIKAT_SPANS_LENGTH_WRONG, 0, ON(4), GROWTH, SECOND, 0, 2},
    {LEMBIKAT_SPAN_OUT_OF_BLOCK, 0, ON(4), PAIR, SECOND, 2, 0},
    {LEMBIKAT_SPAN_OUT_OF_BLOCK, 0, ON(4), PAIR, SECOND, 0, SMALL_EDGES - 1},
    {LEMBIKAT_SPAN_OUT_OF_BLOCK, 0, ON(4), PAIR, SECOND, 6, 0xffff},
    {LEMBIKAT_SPAN_OUT_OF_ORDER, 0, ON(4), PAIR, SECOND, 4, 2},
    {LEMBIKAT_SPAN_OUT_OF_BLOCK, 0, ON(4), PAIR, SECOND, 8, 0xffff},
    {LEMBIKAT_SPAN_OUT_OF_BLOCK, 0, ON(4), PAIR, SECOND, 14, 0},
    {LEMBIKAT_SPAN_OUT_OF_ORDER, 0, ON(4), PAIR, SECOND, 12, 7},
    {LEMBIKAT_BIT_TOO_LARGE, 0, ON(14), NUMBER, 0, 0, SMALL_EDGES},
    {LEMBIKAT_BIT_TOO_LARGE, 0, ON(14), NUMBER, 0, 0, SIZE_MAX},
    {LEMBIKAT_SWEEPS_SPENT, 0, ON(13), PAIR, LENT, 2, LEMBIKAT_MAX_LIMIT},
    {LEMBIKAT_SWEEPS_SPENT, 0, ON(13), PAIR, LENT, 2, 0xffff},
    {LEMBIKAT_BLOCK_LENGTH_WRONG, 0, ON(5), GROWTH, SECOND, 0, 1},
    {LEMBIKAT_STRAY_BIT, 0, ON(5), FLIP, SECOND, SMALL_EDGES + 3, 0},
    {LEMBIKAT_STRAY_BIT, 0, ON(1) | ON(11), NUMBER, 0, 0, 0x10},
    {LEMBIKAT_NO_CODEWORD, 0, ON(9), FLIP, FIRST, 0, 0},
    {LEMBIKAT_MESSAGE_LENGTH_WRONG, 0, ON(8), GROWTH, FIRST, 0, 1},
    {LEMBIKAT_MESSAGE_STRAY_BIT, 0, ON(8), FLIP, FIRST, SMALL_MESSAGE_BITS, 0},
    {LEMBIKAT_OUTPUT_SHORT, 0, ON(10) | ON(12), SIZE, LENT, 0, 0},
    {LEMBIKAT_OUTPUT_SHORT, 0, ON(12), SIZE, LENT, 0, LEMBIKAT_BLOCK_BYTES(1, SMALL_EDGES)},
    {LEMBIKAT_OUTPUT_SHORT, 0, ON(11), SIZE, FIRST, 0, 0},
    {LEMBIKAT_OUTPUT_SHORT, 0, ON(4) | ON(8) | ON(9) | ON(10) | ON(12), GROWTH, LENT, 0, SIZE_MAX},
    {LEMBIKAT_OUTPUT_SHORT, 0, ON(11), GROWTH, FIRST, 0, SIZE_MAX},
    {LEMBIKAT_LIMIT_TOO_LARGE, 0, ON(4), NUMBER, 0, 0, LEMBIKAT_MAX_LIMIT + 1},
    {LEMBIKAT_UNSETTLED, 0, ON(4), FLIP, FIRST, 0, 0}, /* within no sweeps */
    {LEMBIKAT_LIST_SHORT, 0, ON(5), GROWTH, LENT, 0, SIZE_MAX},
    {LEMBIKAT_FLIPS_TOO_MANY, 0, ON(7), NUMBER, 0, 0, SMALL_EDGES + 1},
    {LEMBIKAT_FLIPS_NOT_COVERED, 0, ON(7), NUMBER, 0, 0, SMALL_EDGES},
};
#define FAULTS (sizeof faults / sizeof faults[0])

static void put_fault(call *c, const fault *f)
{
    uint8_t *const lent_bytes[FIELDS] = {left_sheet, right_sheet, wiring, first, second, lent};
    uint8_t *changed = lent_bytes[f->field];
    switch (f->change) {
    case SIZE:
        c->field[f->field].size = f->value;
        break;
    case GROWTH:
        c->field[f->field].size += f->value;
        break;
    case BYTE:
        changed[f->at] = (uint8_t)f->value;
        break;
    case PAIR:
        put_pair(changed + f->at, 0, f->value);
        break;
    case FLIP:
        flip(changed, f->at);
        break;
    case LEFT_COUNT:
        c->nl = f->value;
        break;
    case RIGHT_COUNT:
        c->nr = f->value;
        break;
    case NUMBER:
        c->number = f->value;
        break;
    case NOTHING:
        break;
    }
}

/* Four lost spans of the small plan, of which two touch and the last one has the last bit. */
static const uint8_t small_spans[] = {LEMBIKAT_SPAN(1, 2), LEMBIKAT_SPAN(5, 1), LEMBIKAT_SPAN(6, 2),
                                      LEMBIKAT_SPAN(SMALL_EDGES - 2, 2)};

/* The bytes of a state of the plan. */
static size_t state_bytes(void)
{
    return LEMBIKAT_STATE_BYTES(plan.edges);
}

/* Puts a state into the lent buffer: a count and a sweep number, and what stands in the first block. */
static void put_state(size_t count, size_t number)
{
    put_pair(lent, 0, count);
    put_pair(lent, 1, number);
    memcpy(lent + HEAD, first, plan.block);
}

/* A whole call of the service on so many times the small plan. The block, the message and the table are zero, the spans above
 * are lost, two bits of the settled block differ, and limit, word, flips and bit are 0. A state that is to be changed is one
 * sweep from the last; its count is made up, since no vertex is unsatisfied. */
static call small_call(unsigned service, size_t times)
{
    set_plan(small_left, small_right, 3 * times);
    lay_in_order();
    memset(first, 0, MAX_BLOCK);
    memset(second, 0, MAX_BLOCK);
    memset(lent, 0xee, MAX_BLOCK);
    second[0] = 0x44;
    if (ON(service) & CHANGING_STATES)
        put_state(1, LEMBIKAT_MAX_LIMIT - 1);
    call c = plan_call(service);
    if (service == 8)
        c.field[FIRST] = (bytes){first, 1};
    else if (service == 11)
        c.field[FIRST] = (bytes){first, table_bytes()};
    else if (ON_BLOCKS & ON(service))
        c.field[FIRST] = (bytes){first, plan.block};
    if (service == 5)
        c.field[SECOND] = (bytes){second, plan.block};
    if (service == 4) {
        memcpy(second, small_spans, sizeof small_spans);
        c.field[SECOND] = (bytes){second, sizeof small_spans};
    }
    if (service == 10)
        c.field[LENT] = (bytes){lent, table_bytes()};
    else if (ON(service) & ON_STATES)
        c.field[LENT] = (bytes){lent, state_bytes()};
    else if (ON(service) & WRITING)
        c.field[LENT] = (bytes){lent, service == 5 ? 8 : service == 9 ? 1 : plan.block};
    return c;
}

/* Every fault alone and every pair, the later one put first: the one that is looked for first is answered. */
static void fault_calls(unsigned service, size_t times)
{
    size_t calls = 0;
    call c = small_call(service, times);
    compare("fault", calls++, &c);
    must_answer("no fault", &c, times == 1 ? LEMBIKAT_DONE : LEMBIKAT_PLAN_TOO_LARGE, 0, by_reference.answer.value);
    for (const fault *f = faults; f < faults + FAULTS; f++) {
        if (!(f->services & ON(service)) || (f->change == NOTHING && times == 1))
            continue;
        for (const fault *other = f; other < faults + FAULTS; other++) {
            if (!(other->services & ON(service)))
                continue;
            c = small_call(service, times);
            put_fault(&c, other);
            if (other != f)
                put_fault(&c, f);
            compare("fault", calls++, &c);
            must_answer("fault", &c, f->number, f->place, 0);
        }
        if (f->change == NOTHING)
            return; /* what stands after it is not looked for on a plan that is too large */
    }
}

static void all_fault_calls(void)
{
    fault_calls(1, 1);
    for (unsigned service = 3; service <= LAST_SERVICE; service++)
        fault_calls(service, 1);
    fault_calls(8, 43);
    fault_calls(9, 43);
}

/* ---- lost spans ---- */

/* The list of lost spans under way is in the second buffer. */
static size_t lost_size;

static void add_span(size_t offset, size_t length)
{
    put_pair(second + lost_size, 0, offset);
    put_pair(second + lost_size, 1, length);
    lost_size += LEMBIKAT_SPAN_BYTES;
}

/* Makes a list of one span. */
static void lose(size_t offset, size_t length)
{
    lost_size = 0;
    add_span(offset, length);
}

/* A call of the decoder on the plan, on what stands in the first block and on the list. */
static call lost_call(uint64_t limit)
{
    call c = decoder_call(limit);
    c.field[SECOND] = (bytes){second, lost_size};
    return c;
}

/* Tells of each bit whether the list, which is whole, has it as lost. */
static const uint8_t *lost_bits(bytes list)
{
    static uint8_t is_lost[MAX_EDGES];
    memset(is_lost, 0, plan.edges);
    for (size_t i = 0; i < list.size; i += LEMBIKAT_SPAN_BYTES) {
        const uint8_t *span = list.data + i;
        memset(is_lost + span[0] * 256u + span[1], 1, span[2] * 256u + span[3]);
    }
    return is_lost;
}

static unsigned get_bit(const uint8_t *block, size_t bit)
{
    return block[bit / 8] >> (7 - bit % 8) & 1;
}

/* Decodes the block of a call with all lost bits 0 or all 1, without a list, and answers how many bits outside the spans then
 * differ from the received ones. */
static size_t make_trial(const call *c, const uint8_t *is_lost, unsigned value, outcome *o)
{
    static uint8_t filled[MAX_BLOCK];
    call without = *c;
    size_t changed = 0;
    memcpy(filled, c->field[FIRST].data, plan.block);
    for (size_t i = 0; i < plan.edges; i++)
        if (is_lost[i] && get_bit(filled, i) != value)
            flip(filled, i);
    without.field[FIRST].data = filled;
    without.field[SECOND] = (bytes){NULL, 0};
    run_on_heap(&by_parts, &without, o);
    for (size_t i = 0; i < plan.edges; i++)
        changed += !is_lost[i] && get_bit(o->lent, i) != get_bit(filled, i);
    return changed;
}

/* How the trials of a call end, and which of them is kept. */
enum { NEITHER_SETTLES, ZEROS_ALONE, ONES_ALONE, ZEROS_CHANGE_FEWER, ONES_CHANGE_FEWER, EQUALLY_MANY, TRIAL_ENDS };

/* In how many calls that ended so the trials visit different numbers of vertices. */
static size_t visits_apart[TRIAL_ENDS];

/* Holds a decoder call with a list, which was just compared, to two calls without one. Answers how these ended. */
static int must_keep_a_trial(const char *kind, const call *c)
{
    static outcome zeros, ones;
    const uint8_t *is_lost = lost_bits(c->field[SECOND]);
    size_t zeros_changed = make_trial(c, is_lost, 0, &zeros), ones_changed = make_trial(c, is_lost, 1, &ones);
    int end = EQUALLY_MANY;
    if (zeros.answer.number != LEMBIKAT_DONE)
        end = ones.answer.number != LEMBIKAT_DONE ? NEITHER_SETTLES : ONES_ALONE;
    else if (ones.answer.number != LEMBIKAT_DONE)
        end = ZEROS_ALONE;
    else if (zeros_changed != ones_changed)
        end = zeros_changed < ones_changed ? ZEROS_CHANGE_FEWER : ONES_CHANGE_FEWER;
    visits_apart[end] += zeros.visits != ones.visits;
    const outcome *kept = end == ONES_ALONE || end == ONES_CHANGE_FEWER ? &ones : &zeros;
    if (end == NEITHER_SETTLES) /* the output is the block as it was received, not as it was tried */
        memcpy(zeros.lent, c->field[FIRST].data, plan.block);
    if (failed(!same_outcome(c, &by_library, kept))) {
        printf("FAILED: %s: the call with lost spans is not the trial that must be kept\n", kind);
        show("zeros    ", c, &zeros);
        show("ones     ", c, &ones);
        show("library  ", c, &by_library);
    }
    return end;
}

/* Every span that a block can have and those that it cannot, alone, on a plan whose bits must all be alike. No sweep is made:
 * the trial whose lost bits are as the others is a codeword, and the one kept; with a bit flipped beside the span there is
 * none, and the received block comes back, whatever its lost bits hold. */
static void every_span_calls(side left, side right, size_t n)
{
    size_t calls = 0;
    set_plan(left, right, n);
    lay_evenly();
    for (size_t offset = 0; offset <= plan.edges + 1; offset++)
        for (size_t length = 0; length <= plan.edges + 1; length++) {
            int within = length != 0 && offset + length <= plan.edges;
            lose(offset, length);
            for (int value = 0; value < 2; value++) {
                memset(first, 0, plan.block);
                for (size_t i = 0; i < plan.edges; i++)
                    if (within && i >= offset && i < offset + length ? one_in(2) : value)
                        flip(first, i);
                call c = lost_call(0);
                compare("every span", calls++, &c);
                must_answer("every span", &c, within ? LEMBIKAT_DONE : LEMBIKAT_SPAN_OUT_OF_BLOCK, 0, 0);
                if (!within)
                    continue;
                uint8_t sent[MAX_BLOCK] = {0};
                for (size_t i = 0; i < plan.edges && value && length != plan.edges; i++) /* of a whole block zeros are kept */
                    flip(sent, i);
                if (failed(!same_bytes(by_library.lent, sent, plan.block)))
                    printf("FAILED: every span: offset %zu length %zu of %d\n", offset, length, value);
                if (offset != 0)
                    flip(first, offset - 1);
                else if (length != plan.edges)
                    flip(first, length);
                else
                    continue;
                compare("beside a span", calls++, &c);
                /* Where all bits but the flipped one are lost, one of the trials is like it. */
                if (length + 1 < plan.edges)
                    must_answer("beside a span", &c, LEMBIKAT_UNSETTLED, 0, 0);
            }
        }
}

/* Every list of two spans on a block of six bits, of any block: the first faulty span is answered, 25 before 26. */
static void two_span_calls(void)
{
    const size_t most = 8;
    set_plan(pair_code, alike_code(3), 3);
    lay_evenly();
    for (size_t i = 0; i < most * most * most * most; i++) {
        size_t offset = i % most, length = i / most % most, next = i / most / most % most, next_length = i / most / most / most;
        uint32_t number = LEMBIKAT_DONE;
        if (length == 0 || offset + length > plan.edges)
            number = LEMBIKAT_SPAN_OUT_OF_BLOCK;
        else if (next_length == 0 || next + next_length > plan.edges)
            number = LEMBIKAT_SPAN_OUT_OF_BLOCK;
        else if (next < offset + length)
            number = LEMBIKAT_SPAN_OUT_OF_ORDER;
        lose(offset, length);
        add_span(next, next_length);
        first[0] = (uint8_t)(draw(64) << 2);
        call c = lost_call(draw(4));
        compare("two spans", i, &c);
        if (number != LEMBIKAT_DONE)
            must_answer("two spans", &c, number, 0, 0);
        else
            must_keep_a_trial("two spans", &c);
    }
}

/* Offsets and lengths whose sum is near 65,536: nothing is cut to 16 bits, on the largest block and on a small one. */
static void large_span_calls(void)
{
    static const size_t numbers[] = {0, 1, 2, 255, 256, 32767, 32768, 32769, 65279, 65280, 65534, 65535};
    const size_t count = sizeof numbers / sizeof numbers[0];
    for (int large = 0; large < 2; large++) {
        set_plan(alike_code(16), alike_code(16), large ? LEMBIKAT_MAX_VERTICES : 16);
        lay_in_order();
        memset(first, 0, plan.block);
        for (size_t i = 0; i < count * count; i++) {
            size_t offset = numbers[i / count], length = numbers[i % count];
            int within = length != 0 && offset + length <= plan.edges;
            lose(offset, length);
            call c = lost_call(1);
            compare("large span", i, &c);
            must_answer("large span", &c, within ? LEMBIKAT_DONE : LEMBIKAT_SPAN_OUT_OF_BLOCK, 0, 0);
        }
    }
    /* The longest list: a span for each bit of the largest block, and once the last of them again. */
    lost_size = 0;
    for (size_t i = 0; i < plan.edges; i++)
        add_span(i, 1);
    memset(first, 0x5a, plan.block);
    call c = lost_call(0);
    compare("longest list", 0, &c);
    must_answer("longest list", &c, LEMBIKAT_DONE, 0, 0);
    add_span(plan.edges - 1, 1);
    c = lost_call(0);
    compare("longest list", 1, &c);
    must_answer("longest list", &c, LEMBIKAT_SPAN_OUT_OF_ORDER, 0, 0);
}

/* One vertex a side that reads d bits, which must be alike, the first of them lost. The call must settle at the byte given,
 * after one sweep that changes so many bits, or after none where that is 0. */
static void trial_call(unsigned d, size_t lost, unsigned block, unsigned settled, unsigned sum, int end)
{
    set_plan(alike_code(d), alike_code(d), 1);
    lay_in_order();
    first[0] = (uint8_t)block;
    lose(0, lost);
    call c = lost_call(3);
    compare("trial", block, &c);
    must_answer("trial", &c, LEMBIKAT_DONE, 0, sum == 0 ? 0 : 1);
    must_visit("trial", &c, sum == 0 ? 0 : 1);
    if (failed(must_keep_a_trial("trial", &c) != end || by_library.lent[0] != settled || by_library.sums[0] != sum ||
               by_library.sums[1] != 0)) {
        printf("FAILED: trial of %u bits, %zu lost, block %02x\n", d, lost, block);
        show("library  ", &c, &by_library);
    }
}

/* Each way in which the two trials can end. Half of the bits lost and the others apart: both trials change one bit. Half lost
 * and the others alike: the trial that is not like them is a tie. */
static void trial_calls(void)
{
    trial_call(4, 2, 0x10, 0x00, 1, EQUALLY_MANY);
    trial_call(4, 2, 0xd0, 0x00, 1, EQUALLY_MANY);
    trial_call(4, 4, 0xf0, 0x00, 0, EQUALLY_MANY);
    trial_call(4, 2, 0x70, 0xf0, 0, ONES_ALONE);
    trial_call(4, 2, 0x80, 0x00, 0, ZEROS_ALONE);
    trial_call(5, 2, 0x30, 0xf8, 1, ONES_CHANGE_FEWER);
    trial_call(5, 2, 0xd0, 0x00, 1, ZEROS_CHANGE_FEWER);
    trial_call(5, 1, 0x78, 0xf8, 1, EQUALLY_MANY); /* both settle there, with ones after no sweep */
    trial_call(2, 1, 0x00, 0x00, 0, ZEROS_ALONE);
    trial_call(2, 1, 0x40, 0xc0, 0, ONES_ALONE);

    /* Two vertices a side of three bits, each right one with two bits of one left vertex and one of the other: some blocks
     * swing to and fro. Every block with every span, at small limits. */
    size_t calls = 0, ends[TRIAL_ENDS] = {0};
    set_plan(alike_code(3), alike_code(3), 2);
    lay_in_order();
    swap_entries(2, 3);
    for (unsigned block = 0; block < 64; block++)
        for (size_t offset = 0; offset < 6; offset++)
            for (size_t length = 1; offset + length <= 6; length++)
                for (uint64_t limit = 0; limit < 4; limit++) {
                    first[0] = (uint8_t)(block << 2);
                    lose(offset, length);
                    call c = lost_call(limit);
                    compare("swinging", calls++, &c);
                    ends[must_keep_a_trial("swinging", &c)]++;
                }
    for (int end = 0; end < TRIAL_ENDS; end++)
        if (failed(ends[end] == 0))
            printf("FAILED: no trials on the swinging plan ended in way %d\n", end);

    /* Each sweep changes two bits of 110100, to and fro; with bit 2 lost and as 1 the first sweep would change one. The block
     * is received so, and comes back so, with the sums of the trial with zeros. */
    first[0] = 0xf0;
    lose(2, 1);
    call c = lost_call(3);
    compare("swinging", calls, &c);
    must_answer("swinging", &c, LEMBIKAT_UNSETTLED, 0, 0);
    if (failed(must_keep_a_trial("swinging", &c) != NEITHER_SETTLES || by_library.lent[0] != 0xf0 || by_library.sums[0] != 2 ||
               by_library.sums[1] != 2 || by_library.sums[2] != 2 || by_library.sums[3] != 0)) {
        printf("FAILED: swinging with bit 2 lost\n");
        show("library  ", &c, &by_library);
    }
}

static void span_calls(void)
{
    every_span_calls(alike_code(5), alike_code(7), 7); /* 35 bits: the last byte has five that are no bits of the block */
    every_span_calls(alike_code(4), alike_code(6), 6); /* 24 bits: it has none */
    two_span_calls();
    large_span_calls();
    trial_calls();
}

/* ---- states ---- */

/* Calls on what stands in the first block, and on the state in the lent buffer. */
static call load_call(size_t size)
{
    call c = plan_call(12);
    c.field[FIRST] = (bytes){first, plan.block};
    c.field[LENT] = (bytes){lent, size};
    return c;
}

static call sweep_call(size_t size)
{
    call c = plan_call(13);
    c.field[LENT] = (bytes){lent, size};
    return c;
}

static call set_call(uint64_t bit, uint64_t value, size_t size)
{
    call c = plan_call(14);
    c.field[LENT] = (bytes){lent, size};
    c.number = bit;
    c.value = value;
    return c;
}

/* How many vertices of the plan a block leaves unsatisfied, as the reference counts them. */
static size_t true_count(const uint8_t *block)
{
    static uint8_t loaded[LEMBIKAT_MAX_STATE_BYTES];
    lembikat_plan p = reference_plan();
    return reference_load_state(&p, block, plan.block, loaded, sizeof loaded).value;
}

/* Says what the last call compared must have shown: count and sweep number, both of the answer and of the state. */
static void must_show(const char *kind, const call *c, size_t count, size_t sweeps)
{
    must_answer(kind, c, LEMBIKAT_DONE, 0, count);
    if (failed(by_library.sweeps != sweeps))
        printf("FAILED: %s (%s): the sweep number is %llu, not %zu\n", kind, service_names[c->service],
               (unsigned long long)by_library.sweeps, sweeps);
}

/* Says that the last call compared left the lent buffer as it was. */
static void must_leave(const char *kind, const call *c)
{
    if (failed(!same_bytes(by_library.lent, c->field[LENT].data, c->field[LENT].size))) {
        printf("FAILED: %s (%s) must leave the state as it is\n", kind, service_names[c->service]);
        show("library  ", c, &by_library);
    }
}

/* Says how the last call compared must have changed the count: as the true one changed, modulo 65,536. */
static void must_follow(const char *kind, const call *c)
{
    size_t count = get_pair(c->field[LENT].data, 0), before = true_count(c->field[LENT].data + HEAD),
           after = true_count(by_library.lent + HEAD);
    if (failed(by_library.answer.number != LEMBIKAT_DONE ||
               by_library.answer.value != (65536 + count + after - before) % 65536)) {
        printf("FAILED: %s (%s): the count was %zu, the true one went from %zu to %zu\n", kind, service_names[c->service],
               count, before, after);
        show("library  ", c, &by_library);
    }
}

/* The plans whose blocks are few enough to try all. */
#define SMALL_PLANS 5

static void set_small_plan(size_t i)
{
    switch (i) {
    case 0: /* the pair plan: blocks 10 and 01 are ties and never settle */
        set_plan(pair_code, pair_code, 1);
        lay_in_order();
        break;
    case 1: /* some blocks swing to and fro */
        set_plan(alike_code(3), alike_code(3), 2);
        lay_in_order();
        swap_entries(2, 3);
        break;
    case 2: /* unequal sides */
        set_plan(pair_code, alike_code(3), 3);
        lay_evenly();
        break;
    case 3: /* whatever a right vertex reads is a codeword */
        set_plan(alike_code(4), free_code(4), 2);
        lay_in_order();
        break;
    default: /* whatever a left vertex reads is a codeword, and the wiring is in no order */
        set_plan(free_code(2), alike_code(4), 4);
        lay_evenly();
        swap_entries(1, 6);
    }
}

/* Every block of every small plan, with counts that are true, nearly true and made up, and all kinds of sweep numbers: swept,
 * and each of its bits set to each of some values. */
static void small_state_calls(void)
{
    static const size_t numbers[] = {
        0, 1, 2, 3, LEMBIKAT_MAX_LIMIT - 2, LEMBIKAT_MAX_LIMIT - 1, LEMBIKAT_MAX_LIMIT, LEMBIKAT_MAX_LIMIT + 1, 65535};
    static const uint64_t values[] = {0, 1, 2, (uint64_t)1 << 63};
    const size_t count_of_numbers = sizeof numbers / sizeof numbers[0];
    size_t calls = 0;
    for (size_t i = 0; i < SMALL_PLANS; i++) {
        set_small_plan(i);
        for (unsigned block = 0; block < 1u << plan.edges; block++) {
            first[0] = (uint8_t)(block << (8 - plan.edges));
            size_t right_count = true_count(first);
            const size_t counts[] = {right_count, 0, 1, right_count + 1, (right_count + 65535) % 65536, 65534, 65535};
            const size_t count_of_counts = sizeof counts / sizeof counts[0];
            call c = load_call(state_bytes());
            memset(lent, 0xee, state_bytes());
            compare("load", calls++, &c);
            must_show("load", &c, right_count, 0);
            for (size_t j = 0; j < count_of_counts * count_of_numbers; j++) {
                size_t count = counts[j / count_of_numbers], number = numbers[j % count_of_numbers];
                put_state(count, number);
                c = sweep_call(state_bytes());
                compare("sweep", calls++, &c);
                if (count == 0) {
                    must_show("sweep of a settled state", &c, 0, number);
                    must_leave("sweep of a settled state", &c);
                } else if (number >= LEMBIKAT_MAX_LIMIT) {
                    must_answer("sweep", &c, LEMBIKAT_SWEEPS_SPENT, 0, 0);
                    must_leave("sweep", &c);
                } else {
                    must_follow("sweep", &c);
                }
            }
            for (size_t j = 0; j < plan.edges * 4; j++) {
                size_t bit = j / 4;
                put_state(counts[draw(count_of_counts)], numbers[draw(count_of_numbers)]);
                c = set_call(bit, values[j % 4], state_bytes());
                compare("set", calls++, &c);
                must_follow("set", &c);
                if (failed(by_library.sweeps != 0 || get_bit(by_library.lent + HEAD, bit) != (values[j % 4] != 0)))
                    printf("FAILED: set: bit %zu of block %02x to %llu\n", bit, first[0], (unsigned long long)values[j % 4]);
            }
        }
    }
}

/* States of all lengths up to the right one, and longer ones, on blocks whose last byte is full and on others: loading takes
 * those that are long enough, the others take the one length. One of them would look right if it were cut to 16 bits. */
static void state_length_calls(void)
{
    static const size_t longer_by[] = {1, 2, 3, 4, 8, 252, 4096, 65536};
    static const side codes[] = {
        {.d = 2, .k = 1, .row = {3}}, {.d = 8, .k = 4, .row = {0xff, 0x0f, 0x33, 0x55}}, {.d = 5, .k = 2, .row = {0x1e, 0x01}}};
    size_t calls = 0;
    for (size_t i = 0; i < 3 * sizeof codes / sizeof codes[0]; i++) {
        set_plan(codes[i / 3], codes[i / 3], 1 + 3 * (i % 3));
        lay_in_order();
        memset(first, 0, plan.block);
        flip(first, 0);
        const size_t right_size = state_bytes(), right_count = true_count(first);
        for (size_t j = 0; j <= right_size + sizeof longer_by / sizeof longer_by[0]; j++) {
            size_t size = j <= right_size ? j : right_size + longer_by[j - right_size - 1];
            draw_bytes(lent, size);
            call c = load_call(size);
            compare("length of a state", calls++, &c);
            if (size < right_size) {
                must_answer("length of a state", &c, LEMBIKAT_OUTPUT_SHORT, 0, 0);
                must_leave("length of a state", &c);
            } else {
                must_show("length of a state", &c, right_count, 0);
                if (failed(!same_bytes(by_library.lent + HEAD, first, plan.block) ||
                           !same_bytes(by_library.lent + right_size, lent + right_size, size - right_size)))
                    printf("FAILED: load: the block is not in the state, or a byte beyond it was written\n");
            }
            put_state(right_count, 0);
            const call changing[] = {sweep_call(size), set_call(0, 1, size)};
            for (size_t service = 0; service < 2; service++) {
                c = changing[service];
                compare("length of a state", calls++, &c);
                if (size == right_size) {
                    must_follow("length of a state", &c);
                } else {
                    must_answer("length of a state", &c, LEMBIKAT_BLOCK_LENGTH_WRONG, 0, 0);
                    must_leave("length of a state", &c);
                }
            }
        }
    }
}

/* Each bit after the last, of a block to be loaded and of a state's: it is seen before the bit's number and before the sweeps
 * that are spent, and on a settled state too. */
static void stray_state_calls(void)
{
    size_t calls = 0;
    for (size_t n = 1; n <= 7; n++) {
        set_plan(alike_code(5), alike_code(5), n);
        lay_in_order();
        for (size_t bit = plan.edges; bit < 8 * plan.block; bit++)
            for (size_t count = 0; count < 2; count++) {
                memset(first, 0, plan.block);
                flip(first, bit);
                put_state(count, LEMBIKAT_MAX_LIMIT);
                const call made[] = {load_call(state_bytes()), load_call(0), sweep_call(state_bytes()),
                                     set_call(0, 1, state_bytes()), set_call(bit, 0, state_bytes())};
                for (size_t i = 0; i < sizeof made / sizeof made[0]; i++) {
                    compare("stray bit", calls++, &made[i]);
                    must_answer("stray bit", &made[i], LEMBIKAT_STRAY_BIT, 0, 0);
                    must_leave("stray bit", &made[i]);
                }
            }
    }
}

/* Numbers of bits about the block's last one and far beyond it; some would look right if they were cut to 16 or 32 bits. The
 * count is the true one, and stays true. */
static void bit_number_calls(void)
{
    size_t calls = 0;
    for (int large = 0; large < 2; large++) {
        set_plan(alike_code(16), alike_code(16), large ? LEMBIKAT_MAX_VERTICES : 3);
        lay_in_order();
        memset(first, 0, plan.block);
        const uint64_t last = plan.edges - 1, bit_32 = (uint64_t)1 << 32, bit_63 = (uint64_t)1 << 63;
        const uint64_t bits[] = {0, last - 1, last, last + 1, 65536 + last, bit_32, bit_32 + last, bit_63, UINT64_MAX};
        const uint64_t values[] = {0, 1, 2, 3, 255, 256, 65536, bit_32, bit_63, UINT64_MAX};
        for (size_t i = 0; i < sizeof bits / sizeof bits[0]; i++)
            for (size_t j = 0; j < sizeof values / sizeof values[0]; j++) {
                put_state(0, 65535);
                call c = set_call(bits[i], values[j], state_bytes());
                compare("bit", calls++, &c);
                if (bits[i] > last) {
                    must_answer("bit", &c, LEMBIKAT_BIT_TOO_LARGE, 0, 0);
                    must_leave("bit", &c);
                } else {
                    must_show("bit", &c, values[j] == 0 ? 0 : 2, 0);
                }
            }
    }
}

/* The largest count: every vertex of both sides reads one 1 where sixteen bits must be alike, and one sweep mends them all. A
 * count that is made up goes down by as many, and round by 65,536 where it is less; it goes up by two with a bit that is set
 * alone, round again where it is the largest. */
static void largest_count_calls(void)
{
    static const size_t counts[] = {1, 4095, 4096, 4097, 32768, 65535};
    const size_t all = 2 * LEMBIKAT_MAX_VERTICES;
    set_plan(alike_code(16), alike_code(16), LEMBIKAT_MAX_VERTICES);
    lay_in_order();
    memset(first, 0, plan.block);
    for (size_t u = 0; u < plan.left.n; u++)
        flip(first, 16 * u + u % 16);
    call c = load_call(state_bytes());
    compare("largest count", 0, &c);
    must_show("largest count", &c, all, 0);
    for (size_t i = 0; i < sizeof counts / sizeof counts[0]; i++) {
        put_state(counts[i], 0);
        c = sweep_call(state_bytes());
        compare("largest count", i, &c);
        must_show("largest count", &c, (65536 + counts[i] - all) % 65536, 1);
    }
    memset(first, 0, plan.block);
    for (size_t i = 0; i < sizeof counts / sizeof counts[0]; i++) {
        put_state(counts[i], 7);
        c = set_call(40, 1, state_bytes());
        compare("largest count", i, &c);
        must_show("largest count", &c, (counts[i] + 2) % 65536, 0);
    }
}

/* A made-up count of 0 on a block that is no codeword, at any sweep number: settled, and a sweep changes nothing. A bit that is
 * set to the value it has starts again at sweep 0 and changes nothing else, on a settled state and on others. */
static void made_up_calls(void)
{
    static const size_t numbers[] = {0, 1, 2, LEMBIKAT_MAX_LIMIT - 1, LEMBIKAT_MAX_LIMIT, LEMBIKAT_MAX_LIMIT + 1, 65535};
    set_plan(alike_code(3), alike_code(3), 3);
    lay_evenly();
    first[0] = 0x92;
    first[1] = 0x80;
    const size_t counts[] = {0, true_count(first)};
    for (size_t i = 0; i < sizeof numbers / sizeof numbers[0]; i++) {
        put_state(0, numbers[i]);
        call c = sweep_call(state_bytes());
        compare("made-up count", i, &c);
        must_show("made-up count", &c, 0, numbers[i]);
        must_leave("made-up count", &c);
        for (size_t j = 0; j < 2 * plan.edges; j++) {
            size_t bit = j / 2, count = counts[j % 2];
            put_state(count, numbers[i]);
            c = set_call(bit, get_bit(first, bit) ? 1 + j : 0, state_bytes());
            compare("own value", j, &c);
            must_show("own value", &c, count, 0);
            if (failed(!same_bytes(by_library.lent + HEAD, first, plan.block)))
                printf("FAILED: own value: a bit of the block was changed\n");
        }
    }
}

/* Walks: a state that is swept call by call. It is here from one call to the next. */
static uint8_t walked[LEMBIKAT_MAX_STATE_BYTES];

/* One call on it, beside the reference. */
static void step(const char *kind, size_t i, call c)
{
    c.field[LENT] = (bytes){walked, state_bytes()};
    compare(kind, i, &c);
    memcpy(walked, by_library.lent, state_bytes());
}

static size_t bits_apart(const uint8_t *block, const uint8_t *other)
{
    size_t count = 0;
    for (size_t i = 0; i < plan.edges; i++)
        count += get_bit(block, i) != get_bit(other, i);
    return count;
}

/* The entry of the plan's wiring at which each bit stands. */
static size_t entry_of[MAX_EDGES];

static void note_entries(void)
{
    for (size_t i = 0; i < plan.edges; i++)
        entry_of[get_pair(wiring, i)] = i;
}

/* How many vertices of a side have a bit in which two blocks of the plan differ. Each such bit marks its vertex; bytes that are
 * the same are passed over, since most are. */
static size_t vertices_with_news(int right, const uint8_t *block, const uint8_t *other)
{
    static uint8_t marked[LEMBIKAT_MAX_VERTICES];
    size_t count = 0;
    memset(marked, 0, right ? plan.right.n : plan.left.n);
    for (size_t bit = 0; bit < plan.edges; bit++) {
        if (block[bit / 8] == other[bit / 8]) {
            bit |= 7;
        } else if (get_bit(block, bit) != get_bit(other, bit)) {
            size_t vertex = right ? entry_of[bit] / plan.right.d : bit / plan.left.d;
            count += !marked[vertex];
            marked[vertex] = 1;
        }
    }
    return count;
}

/* How walks end: at a codeword from the start, settled after some sweeps, or spent after 4,096. */
enum { SETTLED_AT_ONCE, SETTLED_LATER, SPENT, WALK_ENDS };

/* Walks to the end from a state whose sweep number is 0 and whose count is true, and holds the walk to the full decoding of its
 * block: it settles there after as many calls, of which each changes as many bits as the decoder's sum tells, and stays; or it
 * never settles, and after 4,096 calls the next one is refused. On the way the count is true, and 0 only at the end. Each call
 * sweeps a whole side; the vertices that the decoder visits are those of the first two sweeps and, by the blocks before and
 * after each call but the last, those with news for the next one. The first steps, some others and the last one are made beside
 * the reference. Answers how the walk ended. */
static int walk(const char *kind, size_t i)
{
    static outcome full;
    call c = decoder_call(LEMBIKAT_MAX_LIMIT);
    c.field[FIRST].data = walked + HEAD;
    run_on_heap(&by_parts, &c, &full);
    const int settles = full.answer.number == LEMBIKAT_DONE;
    const size_t last = settles ? full.answer.value : LEMBIKAT_MAX_LIMIT;
    const char *wrong = settles || full.answer.number == LEMBIKAT_UNSETTLED ? NULL : "the decoder refuses the block";
    size_t made = 0;
    uint64_t visits = each_side_once(last);
    note_entries();
    c = sweep_call(state_bytes());
    c.field[LENT].data = walked;
    while (wrong == NULL) {
        size_t count = get_pair(walked, 0);
        int looked_at = made == last || (plan.edges <= 64 ? made < 40 || one_in(40) : made < 4 || one_in(400));
        if (get_pair(walked, 1) != made)
            wrong = "its sweep number is not the number of calls";
        else if ((count == 0) != (settles && made == last))
            wrong = "it settles where the decoder does not, or does not where the decoder does";
        else if (looked_at && count != true_count(walked + HEAD))
            wrong = "its count is not true";
        if (made == last)
            break;
        if (looked_at)
            compare(kind, i, &c);
        else
            run_on_heap(&by_parts, &c, &by_library);
        if (by_library.answer.number != LEMBIKAT_DONE)
            wrong = "a sweep is refused";
        else if (made < LEMBIKAT_SUMS && bits_apart(walked + HEAD, by_library.lent + HEAD) != full.sums[made])
            wrong = "a sweep changes more or fewer bits than the decoder's";
        made++;
        if (made >= 2 && made < last)
            visits += vertices_with_news(made % 2, walked + HEAD, by_library.lent + HEAD);
        memcpy(walked, by_library.lent, state_bytes());
    }
    if (wrong == NULL && settles && !same_bytes(walked + HEAD, full.lent, plan.block))
        wrong = "it settles at another block than the decoder";
    if (wrong == NULL && visits != full.visits)
        wrong = "the decoder does not visit the vertices with news";
    if (failed(wrong != NULL)) {
        printf("FAILED: %s walk %zu on nl %zu d %u k %u, nr %zu d %u k %u, after %zu calls: %s\n", kind, i, plan.left.n,
               plan.left.d, plan.left.k, plan.right.n, plan.right.d, plan.right.k, made, wrong == NULL ? "" : wrong);
        show("decoder  ", &c, &full);
    }
    compare(kind, i, &c);
    must_answer(kind, &c, settles ? LEMBIKAT_DONE : LEMBIKAT_SWEEPS_SPENT, 0, 0);
    must_leave(kind, &c);
    return !settles ? SPENT : last == 0 ? SETTLED_AT_ONCE : SETTLED_LATER;
}

/* Loads what stands in the first block and walks to the end. */
static int load_and_walk(const char *kind, size_t i)
{
    step(kind, i, load_call(state_bytes()));
    return walk(kind, i);
}

/* Sets a bit of the state, wherever its walk is, and walks to the end from there. */
static int set_and_walk(const char *kind, size_t i, size_t bit, uint64_t value)
{
    call c = set_call(bit, value, state_bytes());
    step(kind, i, c);
    must_show(kind, &c, true_count(walked + HEAD), 0);
    return walk(kind, i);
}

static void must_end(const char *kind, int end, int right_end)
{
    static const char *const names[WALK_ENDS] = {"settled at once", "settled", "spent"};
    if (failed(end != right_end))
        printf("FAILED: the %s walk is %s, not %s\n", kind, names[end], names[right_end]);
}

/* Walks on plans where it is known how they end, or that have every way of ending among their blocks. */
static void walk_calls(void)
{
    size_t ends[WALK_ENDS] = {0}, walks = 0;
    for (size_t i = 0; i < SMALL_PLANS; i++) {
        set_small_plan(i);
        for (unsigned block = 0; block < 1u << plan.edges; block += i < 3 ? 1 : 5) {
            first[0] = (uint8_t)(block << (8 - plan.edges));
            ends[load_and_walk("every block", walks++)]++;
            ends[set_and_walk("every block, a bit set", walks++, draw(plan.edges), draw(2))]++;
        }
    }
    for (int end = 0; end < WALK_ENDS; end++)
        if (failed(ends[end] == 0))
            printf("FAILED: no walk on a small plan ended in way %d\n", end);

    /* The pair plan: spent, then a bit set makes it a codeword, then another one a tie again. */
    set_small_plan(0);
    first[0] = 0x80;
    must_end("pair", load_and_walk("pair", 0), SPENT);
    must_end("pair", set_and_walk("pair", 1, 1, 1), SETTLED_AT_ONCE);
    must_end("pair", set_and_walk("pair", 2, 0, 0), SPENT);

    /* Chains settle after as many sweeps as they are long. The longest one settles with the last sweep that there may be, at
     * sweep number 4,096, and stays; where its head is at a right vertex it would settle with the next one. */
    static const size_t sizes[] = {1, 2, 3, 33};
    for (size_t i = 0; i < sizeof sizes / sizeof sizes[0]; i++)
        for (int right_first = 0; right_first < 2; right_first++) {
            lay_chain(sizes[i], right_first);
            must_end("chain", load_and_walk("chain", i), SETTLED_LATER);
            /* a link in the middle cut: all behind it have to be mended again */
            must_end("cut chain", set_and_walk("cut chain", i, 5 * (sizes[i] / 2), 0), SETTLED_LATER);
        }
    lay_chain(LEMBIKAT_MAX_VERTICES, 0);
    must_end("longest chain", load_and_walk("longest chain", 0), SETTLED_LATER);
    call c = sweep_call(state_bytes());
    must_show("longest chain", &c, 0, LEMBIKAT_MAX_LIMIT);
    lay_chain(LEMBIKAT_MAX_VERTICES, 1);
    must_end("longer chain", load_and_walk("longer chain", 0), SPENT);
}

static void state_calls(void)
{
    small_state_calls();
    state_length_calls();
    stray_state_calls();
    bit_number_calls();
    largest_count_calls();
    made_up_calls();
    walk_calls();
}

/* ---- visits ---- */

/* The plans of which every block is decoded: the small ones, and some of up to 12 bits. */
#define DECODED_PLANS (SMALL_PLANS + 4)

static void set_decoded_plan(size_t i)
{
    switch (i) {
    case SMALL_PLANS: /* three edges between two vertices, or two: where a block swings each sweep turns two bits a vertex */
        set_plan(alike_code(5), alike_code(5), 2);
        lay_in_order();
        swap_entries(3, 5);
        swap_entries(4, 6);
        break;
    case SMALL_PLANS + 1: /* fewer vertices on the right, each with two bits of each left one */
        set_plan(alike_code(4), alike_code(6), 3);
        lay_evenly();
        break;
    case SMALL_PLANS + 2: /* more vertices on the right; they share three bits with a left one, or two, or one */
        set_plan(alike_code(6), alike_code(3), 2);
        lay_in_order();
        swap_entries(2, 6);
        break;
    case SMALL_PLANS + 3: /* vertices in a row: blocks settle, or come to stand still or to swing, after some sweeps */
        set_plan(alike_code(4), alike_code(4), 3);
        lay_in_order();
        swap_entries(3, 4);
        swap_entries(7, 8);
        break;
    default:
        set_small_plan(i);
    }
}

/* Puts a block of up to 16 bits, as a number, into the first buffer. */
static void put_small_block(size_t block)
{
    put_pair(first, 0, block << (16 - plan.edges));
}

/* The sweeps that the last call compared has made. */
static size_t sweeps_made(const call *c)
{
    return by_library.answer.number == LEMBIKAT_UNSETTLED ? c->number : by_library.answer.value;
}

/* Every block of these plans at every small limit. With each sweep that the limit allows more, the visits grow by vertices that
 * have among them as many bits as the sweep before changed: by none if it changed none, else by one or more, and by no more
 * than these bits. Some blocks that have not settled are decoded with large limits too. */
static void every_block_calls(void)
{
    static const uint64_t late[] = {7, 8, 63, 64, 65, 66, LEMBIKAT_MAX_LIMIT - 1, LEMBIKAT_MAX_LIMIT};
    size_t calls = 0, part_of_side = 0, more_bits = 0, no_news = 0;
    for (size_t i = 0; i < DECODED_PLANS; i++) {
        set_decoded_plan(i);
        for (size_t block = 0; block < (size_t)1 << plan.edges; block++) {
            uint64_t before = 0;
            put_small_block(block);
            for (uint64_t limit = 0; limit <= 6; limit++) {
                call c = decoder_call(limit);
                compare("every block", calls++, &c);
                uint64_t visits = by_library.visits, more = visits - before, side = limit % 2 ? plan.left.n : plan.right.n;
                if (sweeps_made(&c) < limit) {
                    must_visit("every block, settled before", &c, before);
                } else if (limit <= 2) {
                    must_visit("every block", &c, each_side_once(limit));
                } else {
                    uint64_t changed = by_library.sums[limit - 2];
                    if (failed(visits < before || more > changed || more > side || (more == 0) != (changed == 0))) {
                        printf("FAILED: every block: sweep %llu visits %llu vertices, the one before changed %llu bits\n",
                               (unsigned long long)limit, (unsigned long long)more, (unsigned long long)changed);
                        show("library  ", &c, &by_library);
                    }
                    part_of_side += more != 0 && more < side;
                    more_bits += more < changed;
                    no_news += more == 0;
                }
                before = visits;
            }
            if (by_library.answer.number == LEMBIKAT_UNSETTLED && one_in(plan.edges < 8 ? 8 : 200))
                for (size_t j = 0; j < sizeof late / sizeof late[0]; j++) {
                    call c = decoder_call(late[j]);
                    compare("every block, late", calls++, &c);
                }
        }
    }
    if (failed(part_of_side == 0 || more_bits == 0 || no_news == 0))
        printf("FAILED: no block of a small plan has a sweep that visits some of its vertices, or fewer than bits, or none\n");
}

/* The most visits: two vertices a side of three bits that swing, so often that there are 2,048 of them. Every sweep turns a bit
 * at each vertex of its side, and the next one visits them all. The longest are made by the library alone. */
static void most_visits_calls(void)
{
    static const uint64_t limits[] = {0, 1, 2, 3, 4, 5, 64, 65, LEMBIKAT_MAX_LIMIT - 1, LEMBIKAT_MAX_LIMIT};
    set_plan(alike_code(3), alike_code(3), LEMBIKAT_MAX_VERTICES);
    lay_in_order();
    memset(first, 0, plan.block);
    for (size_t i = 0; i < plan.edges; i += 6) {
        swap_entries(i + 2, i + 3);
        flip(first, i);
        flip(first, i + 1);
        flip(first, i + 3);
    }
    for (size_t i = 0; i < sizeof limits / sizeof limits[0]; i++) {
        call c = decoder_call(limits[i]);
        if (limits[i] <= 5)
            compare("most visits", i, &c);
        else
            run_on_heap(&by_parts, &c, &by_library);
        must_answer("most visits", &c, LEMBIKAT_UNSETTLED, 0, 0);
        must_visit("most visits", &c, LEMBIKAT_MAX_VERTICES * limits[i]);
    }
}

/* A call of the decoder on the small plan that visits vertices where no fault is put into it. */
static call visiting_call(void)
{
    call c = small_call(4, 1);
    put_small_block(0x9c5);
    c.number = 6;
    return c;
}

/* Every refusal of the decoder but 15 put into it: none is visited. */
static void refused_visits_calls(void)
{
    size_t calls = 0;
    call c = visiting_call();
    compare("refused visits", calls++, &c);
    if (failed(by_library.visits == 0))
        printf("FAILED: the call without a fault visits no vertex\n");
    for (const fault *f = faults; f < faults + FAULTS; f++) {
        if (!(f->services & ON(4)) || f->number == LEMBIKAT_UNSETTLED)
            continue;
        c = visiting_call();
        put_fault(&c, f);
        compare("refused visits", calls++, &c);
        must_answer("refused visits", &c, f->number, f->place, 0);
        must_visit("refused visits", &c, 0);
    }
}

/* Chains whose head is lost. The trial with ones settles as the chain does; in the one with zeros every vertex waits, and each
 * side is visited once. If all bits are turned it is the other way round. So the trials visit different numbers of vertices,
 * whichever of them settles, and where the limit is too small for that as well: then those of the trial with zeros are told. */
static void lost_head_call(size_t n, int right_first, int turned, size_t limit)
{
    static size_t calls;
    const size_t last = right_first ? 2 * n + 1 : 2 * n;
    const int settles = last <= limit, runs = settles || turned; /* the trial that is told runs along the chain */
    lay_chain(n, right_first);
    for (size_t i = 0; i < plan.edges && turned; i++)
        flip(first, i);
    lose(right_first ? plan.edges - 1 : 0, 1);
    if (one_in(2))
        flip(first, right_first ? plan.edges - 1 : 0);
    call c = lost_call(limit);
    compare("lost head", calls++, &c);
    must_answer("lost head", &c, settles ? LEMBIKAT_DONE : LEMBIKAT_UNSETTLED, 0, settles ? last : 0);
    uint64_t visits = each_side_once(limit);
    for (size_t sweep = 3; sweep <= smaller(limit, last); sweep++)
        visits += runs;
    must_visit("lost head", &c, visits);
    int end = must_keep_a_trial("lost head", &c);
    if (failed(end != (!settles ? NEITHER_SETTLES : turned ? ZEROS_ALONE : ONES_ALONE)))
        printf("FAILED: lost head: the trials end in way %d\n", end);
}

static void lost_head_calls(void)
{
    static const size_t sizes[] = {1, 2, 3, 9, 33}, limits[] = {0, 1, 2, 3, 4, 5, 6, 7, 8, 17, 18, 19, 65, 66, 67, 200};
    for (size_t i = 0; i < sizeof sizes / sizeof sizes[0]; i++)
        for (size_t j = 0; j < sizeof limits / sizeof limits[0]; j++)
            for (int way = 0; way < 4; way++)
                lost_head_call(sizes[i], way % 2, way / 2, limits[j]);
}

/* Any block of twelve bits with any span lost, at small limits: in each way in which the trials can end there are some whose
 * visits differ. */
static void lost_visits_calls(void)
{
    memset(visits_apart, 0, sizeof visits_apart);
    for (size_t i = 0; i < 6000; i++) {
        set_decoded_plan(SMALL_PLANS + 1 + i % 3);
        put_small_block(draw((size_t)1 << plan.edges));
        size_t offset = draw(plan.edges);
        lose(offset, 1 + draw(plan.edges - offset));
        call c = lost_call(draw(8));
        compare("lost visits", i, &c);
        must_keep_a_trial("lost visits", &c);
    }
    for (int end = 0; end < TRIAL_ENDS; end++)
        if (failed(visits_apart[end] == 0))
            printf("FAILED: no trials that end in way %d have different visits\n", end);
}

static void visits_calls(void)
{
    every_block_calls();
    most_visits_calls();
    refused_visits_calls();
    lost_head_calls();
    lost_visits_calls();
}

/* ---- random calls ---- */

static unsigned draw_inner_codeword(const side *s)
{
    unsigned word = 0;
    for (unsigned i = 0; i < s->k; i++)
        if (one_in(2))
            word ^= s->row[i];
    return word;
}

/* The house code, or one that looks like it: with some of its rows, or with all of them in another order. */
static void draw_house(side *s, int exactly)
{
    static const unsigned rows[4] = {0xff, 0x0f, 0x33, 0x55}, backwards[4] = {0x55, 0x33, 0x0f, 0xff};
    s->d = 8;
    s->k = 4;
    memcpy(s->row, exactly || one_in(2) ? rows : backwards, sizeof rows);
    if (!exactly)
        draw_rows(s, (unsigned)draw(5));
}

/* A code with d bits, any number where d is 0. Sturdy: with a large distance, so that several flips are covered. */
static void draw_code(side *s, unsigned d, int sturdy)
{
    static const unsigned reed_muller[11] = {0xffff, 0x00ff, 0x0f0f, 0x3333, 0x5555, 0x000f,
                                             0x0033, 0x0055, 0x0303, 0x0505, 0x1111};
    size_t kind = draw(sturdy ? 3 : 8);
    if ((kind == 0 && d != 0 && d != 8) || (kind == 1 && d != 0 && d != 16) || (kind == 3 && d > 12))
        kind = 2;
    s->d = d != 0 ? d : 2 + (unsigned)draw(kind == 3 ? 11 : 15);
    switch (kind) {
    case 0:
        draw_house(s, sturdy || !one_in(3));
        break;
    case 1:
        s->d = 16;
        s->k = 1 + (unsigned)draw(sturdy ? 5 : 11);
        memcpy(s->row, reed_muller, sizeof reed_muller);
        break;
    case 2: /* all bits alike, or all but one or two */
        s->k = 1;
        s->row[0] = (1u << s->d) - 1;
        if (s->d > 4 && one_in(4))
            s->row[0] &= ~(1u << draw(s->d) | 1u << draw(s->d));
        break;
    case 3: /* all words with an even number of ones */
        s->k = s->d - 1;
        for (unsigned i = 0; i < s->k; i++)
            s->row[i] = 3u << i;
        break;
    default:
        s->k = 1 + (unsigned)draw(s->d < 11 ? s->d : 11);
        draw_rows(s, 0);
    }
}

/* The degrees for which the squares modulo a prime give a wiring, see lay_residues. */
static const size_t residue_degrees[] = {3, 4, 5, 6, 9, 10, 11, 12, 15, 16};
#define RESIDUE_DEGREES (sizeof residue_degrees / sizeof residue_degrees[0])

/* One of these that divides both degrees, 0 where none does. */
static size_t draw_residue_degree(size_t d, size_t other)
{
    size_t fitting[RESIDUE_DEGREES], count = 0;
    for (size_t i = 0; i < RESIDUE_DEGREES; i++)
        if (d % residue_degrees[i] == 0 && other % residue_degrees[i] == 0)
            fitting[count++] = residue_degrees[i];
    return count == 0 ? 0 : fitting[draw(count)];
}

/* Both codes: in two plans of five one sheet serves both sides, in one the sheets differ though d is equal, in two d differs
 * too, as a rule. Sturdy plans mostly have degrees for which there is a wiring that is spread evenly. */
static void draw_codes(int sturdy)
{
    side *left = &plan.left, *right = &plan.right;
    size_t kind = draw(5), shared;
    unsigned q = one_in(2) ? 11 : 13, larger_left = (unsigned)draw(2);
    int plane = sturdy && one_in(2); /* see lay_plane */
    draw_code(left, plane ? q + larger_left : 0, sturdy);
    if (kind < 2) {
        *right = *left;
    } else if (kind == 2) {
        *right = *left;
        for (int tries = 0; tries < 10 && same_code(left, right); tries++)
            draw_code(right, left->d, sturdy && tries < 8);
    } else if (plane) {
        draw_code(right, q + 1 - larger_left, sturdy);
    } else if (sturdy && (shared = draw_residue_degree(left->d, left->d)) != 0) {
        draw_code(right, (unsigned)(shared * (1 + draw(16 / shared))), sturdy);
    } else {
        draw_code(right, 0, sturdy);
    }
}

/* The wiring of n vertices on each side, n = 2d + 1 or 2d - 1 being prime, in which right vertex v meets the left vertices v +
 * s for the squares s modulo n, or for the others where d is even: any two left vertices then meet equally often, so many flips
 * are covered and several sweeps are named. With dl = d * b and dr = d * a every left vertex stands there a times and every
 * right vertex b times. */
static void lay_residues(size_t d)
{
    uint8_t square[64] = {0};
    size_t used[64] = {0};
    size_t n = d % 2 == 1 ? 2 * d + 1 : 2 * d - 1, times = plan.right.d / d, entry = 0;
    for (size_t s = 1; s < n; s++)
        square[s * s % n] = 1;
    for (size_t v = 0; v < plan.right.n; v++)
        for (size_t s = 0; s < n; s++)
            for (size_t copy = 0; copy < times && square[s] == d % 2; copy++) {
                size_t u = (v + s) % n * times + copy;
                put_pair(wiring, entry++, u * plan.left.d + used[u]++);
            }
}

/* q where both degrees are q + 1, or one of them is and the other is q, for the q taken here; else 0. */
static size_t plane_of(size_t dl, size_t dr)
{
    size_t q = larger(dl, dr) - 1;
    return (q == 11 || q == 13) && smaller(dl, dr) >= q ? q : 0;
}

/* The points of the projective plane over the numbers modulo the prime q on the left, its lines on the right: each is given by
 * three numbers, and a point is on a line where the sum of their products is 0. q + 1 points are on each, two of them share one
 * line. A side of degree q has the lines of the affine plane: line 0 is left out with its points, which are the last q + 1. Of
 * all wirings here these cover the most flips and name the most sweeps. */
static void lay_plane(size_t q)
{
    static size_t at[256][3];
    size_t used[256] = {0}, entry = 0;
    for (size_t i = 0; i <= q * q + q; i++) {
        at[i][0] = i < q * q;
        at[i][1] = i < q * q ? i / q : i < q * q + q;
        at[i][2] = i < q * q + q ? i % q : 1;
    }
    size_t skipped_left = plan.left.d == q, skipped_right = plan.right.d == q;
    for (size_t v = 0; v < plan.right.n; v++)
        for (size_t u = 0; u < plan.left.n; u++) {
            const size_t *line = at[v + skipped_right], *point = at[u + skipped_left];
            if ((line[0] * point[0] + line[1] * point[1] + line[2] * point[2]) % q == 0)
                put_pair(wiring, entry++, u * plan.left.d + used[u]++);
        }
}

/* Sturdy: wirings that are spread evenly. */
static void draw_wiring(int for_messages, int sturdy)
{
    static size_t order[MAX_EDGES];
    size_t dl = plan.left.d, dr = plan.right.d, common = common_divisor(dl, dr), residues = draw_residue_degree(dl, dr);
    size_t q = plane_of(dl, dr);
    size_t step = larger(dl, dr) / common; /* by which the larger side can grow */
    size_t class = draw(200), most = 1 + draw(40);
    if (class == 0)
        most = LEMBIKAT_MAX_VERTICES;
    else if (class < 12)
        most = 41 + draw(160);
    else if (for_messages && one_in(8)) /* as large as a plan with messages can be */
        most = LEMBIKAT_MAX_MESSAGE_EDGES / smaller(dl, dr);
    size_t steps = larger(most / step, 1);
    plan.lay = sturdy ? RESIDUES : (int)draw(4);
    if (sturdy && q != 0)
        plan.lay = PLANE;
    if (plan.lay == RESIDUES && residues == 0)
        plan.lay = RECTANGLES;
    if (plan.lay == RECTANGLES)
        steps = sturdy ? common : larger(steps / common, 1) * common;
    size_t n = dr / common * steps;
    if (plan.lay == RESIDUES)
        n = (residues % 2 == 1 ? 2 * residues + 1 : 2 * residues - 1) * (dr / residues);
    if (plan.lay == PLANE)
        n = q * q + (dr > q ? q : 0) + (dl == dr);
    set_plan(plan.left, plan.right, n);
    if (plan.lay == RESIDUES) {
        lay_residues(residues);
        return;
    }
    if (plan.lay == PLANE) {
        lay_plane(q);
        return;
    }
    /* Shuffled: the edges in any order. Else the right vertices in any order, each with the edges of its place in the lay. */
    size_t count = plan.lay == SHUFFLED ? plan.edges : plan.right.n;
    for (size_t i = 0; i < count; i++)
        order[i] = i;
    for (size_t i = count; i > 1; i--) {
        size_t j = draw(i), kept = order[j];
        order[j] = order[i - 1];
        order[i - 1] = kept;
    }
    for (size_t i = 0; i < plan.edges; i++) {
        size_t edge;
        if (plan.lay == SHUFFLED) {
            edge = order[i];
        } else if (plan.lay ==
                   TWINS) { /* a right vertex has edges that follow one another, those of one left vertex if dl is dr */
            edge = order[i / dr] * dr + i % dr;
        } else { /* rectangles: the left vertices are the dr lines of dl bits, the right ones the dl columns of dr bits */
            size_t rectangle = order[i / dr] / dl, column = order[i / dr] % dl;
            edge = (rectangle * dr + i % dr) * dl + column;
        }
        put_pair(wiring, i, edge);
    }
}

/* How the sides of the plan differ. */
enum { SAME_SIDES, OTHER_SHEETS, OTHER_DEGREES, WAYS };

static int way_of_plan(void)
{
    if (plan.left.d != plan.right.d)
        return OTHER_DEGREES;
    return same_code(&plan.left, &plan.right) ? SAME_SIDES : OTHER_SHEETS;
}

static void put_word(uint8_t *block, size_t left_vertex, unsigned word)
{
    size_t d = plan.left.d;
    for (size_t j = 0; j < d; j++)
        if (word >> (d - 1 - j) & 1)
            flip(block, left_vertex * d + j);
}

/* K of the plan, worked out once for each plan and only where it is asked for. */
static size_t plan_bits;
static int plan_bits_known;

static size_t message_bits(void)
{
    lembikat_plan p = reference_plan();
    if (!plan_bits_known)
        plan_bits = reference_message_bits(&p);
    plan_bits_known = 1;
    return plan_bits;
}

static void draw_message(uint8_t *message)
{
    size_t bits = message_bits();
    draw_bytes(message, (bits + 7) / 8);
    if (bits % 8 != 0)
        message[bits / 8] &= (uint8_t)(0xff00u >> bits % 8);
}

static int all_ones(const side *s)
{
    return s->row[0] == (1u << s->d) - 1;
}

/* A codeword of the plan, from how it was laid. Zero where nothing better is at hand. */
static void draw_codeword(uint8_t *block)
{
    uint8_t message[LEMBIKAT_MAX_MESSAGE_BYTES];
    const side *left = &plan.left, *right = &plan.right;
    memset(block, 0, plan.block);
    if (plan.lay == TWINS && same_code(left, right)) {
        for (size_t u = 0; u < left->n; u++)
            put_word(block, u, draw_inner_codeword(left));
    } else if (plan.lay == RECTANGLES) {
        /* Line j is the exclusive-or of the left codewords whose right row has bit j, so the columns read codewords too. */
        for (size_t top = 0; top < left->n; top += right->d)
            for (unsigned i = 0; i < right->k; i++) {
                unsigned word = draw_inner_codeword(left);
                for (size_t j = 0; j < right->d; j++)
                    if (right->row[i] >> (right->d - 1 - j) & 1)
                        put_word(block, top + j, word);
            }
    } else if (all_ones(left) && all_ones(right) && one_in(2)) {
        for (size_t u = 0; u < left->n; u++)
            put_word(block, u, left->row[0]);
    } else if (plan.edges <= 200) {
        lembikat_plan p = reference_plan();
        draw_message(message);
        reference_encode(&p, message, (message_bits() + 7) / 8, block, plan.block);
    }
}

/* Any block. */
static void draw_noise(uint8_t *block)
{
    draw_bytes(block, plan.block);
    if (plan.edges % 8 != 0)
        block[plan.block - 1] &= (uint8_t)(0xff00u >> plan.edges % 8);
}

/* A block as it might be received: now and then anything, mostly a codeword with some bits flipped. */
static void draw_block(uint8_t *block)
{
    if (one_in(8)) {
        draw_noise(block);
        return;
    }
    draw_codeword(block);
    if (one_in(4))
        return;
    for (size_t flips = one_in(4) ? draw(plan.edges) : draw(6); flips > 0; flips--)
        flip(block, draw(plan.edges));
}

/* Lists lost bits as spans. Those of one run may be listed in pieces that touch. */
static void list_lost(const uint8_t *is_lost)
{
    lost_size = 0;
    for (size_t i = 0; i < plan.edges;) {
        size_t length = 0;
        while (i + length < plan.edges && is_lost[i + length] && (length == 0 || !one_in(20)))
            length++;
        if (length != 0)
            add_span(i, length);
        i += larger(length, 1);
    }
}

/* Loses so many bits, in runs anywhere in the block. */
static void lose_bits(size_t count, uint8_t *is_lost)
{
    memset(is_lost, 0, plan.edges);
    while (count > 0) {
        size_t from = draw(plan.edges), to = smaller(from + 1 + draw(count), plan.edges);
        for (size_t i = from; i < to; i++) {
            count -= !is_lost[i];
            is_lost[i] = 1;
        }
    }
    list_lost(is_lost);
}

/* A list of lost spans: none, the whole block, the end of it, or some bits. */
static void draw_spans(void)
{
    static uint8_t is_lost[MAX_EDGES];
    lost_size = 0;
    if (one_in(3))
        return;
    if (one_in(12))
        lose(0, plan.edges);
    else if (one_in(8))
        lose(plan.edges - 1 - draw(smaller(plan.edges, 12)), 1);
    else
        lose_bits(1 + draw(one_in(4) ? plan.edges : smaller(plan.edges, 12)), is_lost);
}

/* A state in the lent buffer, of a block in the first one: as it comes of a few sweeps, or with a count or a sweep number that
 * is made up. */
static void draw_state(void)
{
    static const size_t counts[] = {0, 0, 1, 65535},
                        numbers[] = {LEMBIKAT_MAX_LIMIT - 1, LEMBIKAT_MAX_LIMIT, LEMBIKAT_MAX_LIMIT + 1, 65535};
    lembikat_plan p = reference_plan();
    if (one_in(3))
        draw_noise(first);
    else
        draw_block(first);
    size_t count = reference_load_state(&p, first, plan.block, lent, state_bytes()).value, number = draw(4);
    if (one_in(4))
        count = one_in(4) ? draw(65536) : one_in(2) ? counts[draw(4)] : (count + 65535 + draw(3)) % 65536;
    if (one_in(4))
        number = one_in(4) ? draw(65536) : numbers[draw(4)];
    put_state(count, number);
}

/* A table: the sheet's own, or any bytes, at times with many marks. */
static void draw_table(uint8_t *table, size_t size)
{
    draw_bytes(table, size);
    if (one_in(2))
        reference_build_table(left_sheet, sheet_size(&plan.left), table, size);
    else if (one_in(3))
        for (size_t marks = size / 4; marks > 0; marks--)
            put_pair(table, draw(size / 2), LEMBIKAT_TIE_MARK);
}

/* Faults. Each takes a call that is whole, or has other faults already, and spoils one thing. */

static void resize(call *c, int field)
{
    size_t size = c->field[field].size;
    switch (draw(4)) {
    case 0:
        size = 0;
        break;
    case 1:
        size = size == 0 ? 1 : size - 1;
        break;
    default:
        size += 1 + draw(2);
    }
    c->field[field].size = size;
}

static void spoil_sheet(call *c, int field)
{
    static const uint8_t wrong_d[] = {0, 1, 17, 255}, wrong_k[] = {0, 12, 17, 255};
    const side *s = field == LEFT_SHEET ? &plan.left : &plan.right;
    uint8_t *sheet = field == LEFT_SHEET ? left_sheet : right_sheet;
    size_t i = draw(s->k);
    unsigned sum = 0;
    switch (draw(8)) {
    case 0:
        c->field[field].size = draw(2);
        break;
    case 1:
        sheet[0] = wrong_d[draw(4)];
        break;
    case 2:
        sheet[1] = one_in(2) ? wrong_k[draw(4)] : (uint8_t)(s->d + 1);
        break;
    case 3:
        resize(c, field);
        break;
    case 4:
    case 5:
        put_pair(sheet + 2, i, s->d == 16 ? 0 : ((size_t)1 << s->d) + draw(65536 - ((size_t)1 << s->d)));
        break;
    default: /* a row of earlier ones, of none at times; a second faulty row may follow */
        for (size_t j = 0; j < i; j++)
            if (one_in(2))
                sum ^= s->row[j];
        put_pair(sheet + 2, i, sum);
        if (one_in(2))
            put_pair(sheet + 2, draw(s->k), draw(65536));
    }
}

static void spoil_counts(call *c)
{
    size_t n = one_in(2) ? plan.left.n : plan.right.n, common = common_divisor(plan.left.d, plan.right.d);
    /* Some would look right if they were cut to 16 or 32 bits. */
    const uint64_t wrong_n[] = {0, 2049, 4096 + n, SIZE_MAX / 2, SIZE_MAX, 65537, 65536 + n, ((uint64_t)1 << 32) + n};
    uint64_t *count = one_in(2) ? &c->nl : &c->nr, kept = c->nl;
    switch (draw(4)) {
    case 0:
        *count = wrong_n[draw(sizeof wrong_n / sizeof wrong_n[0])];
        break;
    case 1:
        *count = one_in(2) ? *count + 1 : *count - 1;
        break;
    case 2: /* another plan's, which would need a longer wiring */
        c->nl += plan.right.d / common;
        c->nr += plan.left.d / common;
        break;
    default:
        c->nl = c->nr;
        c->nr = kept;
    }
}

static void spoil_wiring(call *c)
{
    size_t i = draw(plan.edges);
    switch (draw(6)) {
    case 0:
    case 1:
        spoil_counts(c);
        break;
    case 2:
        resize(c, WIRING);
        break;
    case 3:
        put_pair(wiring, i, one_in(2) ? plan.edges : plan.edges + draw(65536 - plan.edges));
        break;
    case 4: /* once more, and at times a third time */
        memcpy(wiring + 2 * i, wiring + 2 * draw(plan.edges), 2);
        if (one_in(3))
            memcpy(wiring + 2 * draw(plan.edges), wiring + 2 * i, 2);
        break;
    default:
        put_pair(wiring, i, draw(65536));
    }
}

static void spoil_block(call *c, int field, uint8_t *block, size_t bits)
{
    if (one_in(2) || bits % 8 == 0) {
        resize(c, field);
        return;
    }
    flip(block, bits + draw(8 - bits % 8));
}

static void spoil_spans(call *c)
{
    bytes *list = &c->field[SECOND];
    if (list->size < LEMBIKAT_SPAN_BYTES) {
        lose(draw(plan.edges), 1);
        *list = (bytes){second, lost_size};
    }
    size_t count = list->size / LEMBIKAT_SPAN_BYTES, i = draw(count);
    uint8_t *span = second + LEMBIKAT_SPAN_BYTES * i;
    size_t offset = span[0] * 256u + span[1],
           previous_end = i == 0 ? 0 : span[-4] * 256u + span[-3] + span[-2] * 256u + span[-1];
    switch (draw(8)) {
    case 0:
    case 1:
        list->size += 1 + draw(3);
        break;
    case 2:
        put_pair(span, 1, 0);
        break;
    case 3: /* by a bit too long */
        put_pair(span, 1, plan.edges - smaller(offset, plan.edges) + 1);
        break;
    case 4: /* would look right if the sum were cut to 16 bits */
        put_pair(span, 1, 65535 - draw(smaller(offset + 1, 65536)));
        break;
    case 5: /* by a bit too early */
        put_pair(span, 0, previous_end == 0 ? draw(65536) : previous_end - 1);
        break;
    case 6: /* the last span once more */
        memcpy(second + LEMBIKAT_SPAN_BYTES * count, second + LEMBIKAT_SPAN_BYTES * (count - 1), LEMBIKAT_SPAN_BYTES);
        list->size = LEMBIKAT_SPAN_BYTES * (count + 1);
        break;
    default:
        put_pair(span, draw(2), draw(65536));
    }
}

static void spoil_table(call *c, int field)
{
    c->field[field].size = one_in(2) ? table_bytes() - 1 : draw(table_bytes());
}

static void spoil_number(call *c)
{
    uint64_t above = ON(c->service) & ON_SHEETS ? (uint64_t)1 << plan.left.d
                     : c->service == 4          ? LEMBIKAT_MAX_LIMIT + 1
                     : c->service == 14         ? plan.edges
                                                : plan.edges + 1;
    switch (draw(4)) {
    case 0:
        c->number = UINT64_MAX;
        break;
    case 1:
        c->number += (uint64_t)1 << 32; /* would look right if it were cut to 32 bits */
        break;
    case 2:
        c->number = above + draw(3);
        break;
    default:
        c->number = above;
    }
}

static void spoil_state(call *c)
{
    if (one_in(3)) { /* spent, where the count is not 0 */
        put_pair(lent, 1, LEMBIKAT_MAX_LIMIT + draw(65536 - LEMBIKAT_MAX_LIMIT));
        if (one_in(2))
            put_pair(lent, 0, draw(65536));
    } else {
        spoil_block(c, LENT, lent + HEAD, plan.edges);
    }
}

static void spoil(call *c)
{
    size_t what = draw(10);
    int on_sheet = (ON(c->service) & ON_SHEETS) != 0;
    if (what < 2 || (what < 4 && on_sheet)) {
        spoil_sheet(c, on_sheet || one_in(2) ? LEFT_SHEET : RIGHT_SHEET);
    } else if (what < 5 && !on_sheet) {
        spoil_wiring(c);
    } else {
        switch (c->service) {
        case 3:
            spoil_block(c, FIRST, first, plan.edges);
            break;
        case 4:
            if (one_in(2))
                spoil_spans(c);
            else if (one_in(3))
                spoil_block(c, FIRST, first, plan.edges);
            else if (one_in(2))
                spoil_number(c);
            else
                c->field[LENT].size = draw(plan.block);
            break;
        case 5:
            if (one_in(3))
                spoil_block(c, FIRST, first, plan.edges);
            else if (one_in(2))
                spoil_block(c, SECOND, second, plan.edges);
            else if (one_in(2) || c->field[LENT].size < 4)
                c->field[LENT].size = draw(c->field[LENT].size + 1);
            else
                c->field[LENT].size = c->field[LENT].size / 4 * 4 - 1;
            break;
        case 6:
            spoil_wiring(c);
            break;
        case 8:
            if (one_in(3))
                c->field[LENT].size = draw(plan.block);
            else
                spoil_block(c, FIRST, first, message_bits());
            break;
        case 9:
            if (one_in(3))
                c->field[LENT].size = draw((message_bits() + 7) / 8 + 1);
            else
                spoil_block(c, FIRST, first, plan.edges);
            break;
        case 10:
            spoil_table(c, LENT);
            break;
        case 11:
            if (one_in(2))
                spoil_table(c, FIRST);
            else
                spoil_number(c);
            break;
        case 12:
            if (one_in(3))
                c->field[LENT].size = one_in(2) ? state_bytes() - 1 : draw(state_bytes());
            else
                spoil_block(c, FIRST, first, plan.edges);
            break;
        case 13:
            spoil_state(c);
            break;
        case 14:
            if (one_in(2))
                spoil_state(c);
            else
                spoil_number(c);
            break;
        default:
            spoil_number(c);
        }
    }
}

/* Few sweeps, many, or about as many as have their sums told. */
static uint64_t draw_limit(void)
{
    size_t work = larger(plan.left.n << plan.left.k, plan.right.n << plan.right.k); /* what the reference tries in a sweep */
    if (work <= 512 && one_in(3))
        return one_in(2) ? LEMBIKAT_MAX_LIMIT : draw(LEMBIKAT_MAX_LIMIT);
    if (work <= 8192 && one_in(3))
        return LEMBIKAT_SUMS - 1 + draw(3);
    if (work <= 65536 && one_in(3))
        return draw(31);
    return draw(work <= 65536 ? 7 : 4);
}

/* The first number of flips that the plan does not cover: no larger one is. The most sweeps are named just below it. */
static size_t first_uncovered(void)
{
    lembikat_plan p = reference_plan();
    size_t covered = 0, beyond = 1;
    while (reference_margin(&p, beyond).number == LEMBIKAT_DONE)
        beyond *= 2;
    while (beyond - covered > 1) {
        size_t middle = covered + (beyond - covered) / 2;
        if (reference_margin(&p, middle).number == LEMBIKAT_DONE)
            covered = middle;
        else
            beyond = middle;
    }
    return beyond;
}

/* Codewords with f bits lost and e others flipped, 2e + f being at most twice what the plan covers, at a limit of the sweeps
 * that the margin names or of more: they come back, and the call is the same whatever the lost bits were received as. */
#define HOMECOMINGS 600

static void homecoming_calls(void)
{
    static uint8_t sent[MAX_BLOCK], is_lost[MAX_EDGES], is_flipped[MAX_EDGES];
    static outcome before;
    size_t came = 0, all_lost = 0, mixed = 0, longer = 0;
    for (size_t i = 0; came < HOMECOMINGS; i++) {
        plan_bits_known = 0;
        draw_codes(1);
        draw_wiring(0, 1);
        size_t covered = first_uncovered() - 1;
        if (covered == 0 || plan.edges < 2 * covered)
            continue;
        lembikat_plan p = reference_plan();
        uint64_t sweeps = reference_margin(&p, covered).value;
        size_t lost = one_in(3) ? 2 * covered : 1 + draw(2 * covered), flips = (2 * covered - lost) / 2;
        if (one_in(8))
            flips = draw(flips + 1);
        draw_codeword(sent);
        lose_bits(lost, is_lost);
        memcpy(is_flipped, is_lost, plan.edges);
        memcpy(first, sent, plan.block);
        for (size_t left = flips; left > 0;) {
            size_t bit = draw(plan.edges);
            if (is_flipped[bit])
                continue;
            is_flipped[bit] = 1;
            flip(first, bit);
            left--;
        }
        call c = lost_call(one_in(2) ? sweeps : sweeps + draw(6));
        for (int received_as = 0; received_as < 4; received_as++) { /* as sent, all turned, at random, all alike */
            for (size_t bit = 0; bit < plan.edges; bit++)
                if (is_lost[bit] &&
                    (received_as == 1 || (received_as == 2 && one_in(2)) || (received_as == 3 && get_bit(first, bit) != i % 2)))
                    flip(first, bit);
            if (received_as == 0) {
                compare("homecoming", i, &c);
                must_keep_a_trial("homecoming", &c);
            } else {
                run_on_heap(&by_parts, &c, &by_library);
            }
            if (failed(by_library.answer.number != LEMBIKAT_DONE || !same_bytes(by_library.lent, sent, plan.block) ||
                       (received_as > 0 && !same_outcome(&c, &by_library, &before)))) {
                printf("FAILED: homecoming call %zu: %zu bits lost and %zu flipped do not come back, %zu are covered\n", i,
                       lost, flips, covered);
                show("library  ", &c, &by_library);
            }
            before = by_library;
        }
        came++;
        all_lost += flips == 0;
        mixed += flips != 0;
        longer += by_library.answer.value > sweeps;
    }
    printf(
        "lost spans: %zu codewords came back, %zu with bits lost alone and %zu with others flipped; %zu after more sweeps than "
        "the margin names\n",
        came, all_lost, mixed, longer);
}

static unsigned count_ones(unsigned word)
{
    unsigned count = 0;
    for (; word != 0; word &= word - 1)
        count++;
    return count;
}

/* D, the fewest ones in a nonzero codeword. */
static unsigned distance_of(const side *s)
{
    static unsigned codeword[2048];
    size_t codewords = all_codewords(s, codeword);
    unsigned fewest = s->d;
    for (size_t i = 1; i < codewords; i++)
        fewest = (unsigned)smaller(fewest, count_ones(codeword[i]));
    return fewest;
}

/* The most vertices that may be visited where so many flips, which the plan covers, name so many sweeps: the header's bound. b
 * is that of two sweeps before, the next one that of the sweep before. */
static uint64_t visits_bound(uint64_t flips, uint64_t sweeps)
{
    lembikat_plan p = reference_plan();
    const uint64_t four_nr_r = 4 * plan.right.n * reference_spread(&p).value;
    uint64_t b = 2 * flips / distance_of(&plan.left), bound = plan.left.n + plan.right.n;
    for (uint64_t sweep = 3; sweep <= sweeps; sweep++) {
        const side *before = sweep % 2 ? &plan.right : &plan.left;
        uint64_t a = distance_of(before) * plan.right.n - 2 * plan.left.d * b, next = four_nr_r * b / (a * a);
        bound += b + before->d * next;
        b = next;
    }
    return bound;
}

/* Flips so many bits of the first block, each once. Gathered: more than half of the left distance at one left vertex after
 * another, first at those that one right vertex meets, so that these go wrong and it may go wrong with them. */
static void flip_bits(size_t flips, int gathered)
{
    static uint8_t is_flipped[MAX_EDGES];
    const size_t dl = plan.left.d, a_vertex = distance_of(&plan.left) / 2 + 1, met_by = draw(plan.right.n) * plan.right.d;
    memset(is_flipped, 0, plan.edges);
    for (size_t i = 0; flips > 0; i++) {
        size_t u = i < plan.right.d ? get_pair(wiring, met_by + i) / dl : draw(plan.left.n), from = draw(dl);
        for (size_t j = 0; j < (gathered ? a_vertex : 1) && flips > 0; j++) {
            size_t bit = gathered ? u * dl + (from + j) % dl : draw(plan.edges);
            if (is_flipped[bit])
                continue;
            is_flipped[bit] = 1;
            flip(first, bit);
            flips--;
        }
    }
}

/* Codewords with as many flips as the plan covers, or fewer, and none lost: no more vertices are visited than the bound says,
 * whatever the limit is, also where the flips are gathered at few vertices. */
#define BOUNDED_PLANS 300

static void bounded_calls(void)
{
    size_t calls = 0, three_named = 0, three_made = 0, at_bound = 0;
    for (size_t i = 0; i < BOUNDED_PLANS;) {
        plan_bits_known = 0;
        draw_codes(1);
        draw_wiring(0, 1);
        size_t covered = first_uncovered() - 1;
        if (covered == 0)
            continue;
        i++;
        lembikat_plan p = reference_plan();
        for (int tries = 0; tries < 6; tries++) {
            size_t flips = one_in(3) ? 1 + draw(covered) : covered;
            uint64_t sweeps = reference_margin(&p, flips).value, bound = visits_bound(flips, sweeps);
            draw_codeword(first);
            flip_bits(flips, tries % 3 != 0);
            call c = decoder_call(one_in(4) ? draw(sweeps) : sweeps + draw(3));
            compare("bound", calls++, &c);
            if (failed(by_library.visits > bound)) {
                printf("FAILED: bound: %zu flips, %llu sweeps named, more visits than %llu\n", flips,
                       (unsigned long long)sweeps, (unsigned long long)bound);
                show("library  ", &c, &by_library);
            }
            three_named += sweeps >= 3;
            three_made += sweeps_made(&c) >= 3;
            at_bound += by_library.visits == bound;
        }
    }
    printf("visits: %zu codewords within the margin; for %zu it names three sweeps or more, %zu took so many; %zu took as many "
           "visits as the bound allows\n",
           calls, three_named, three_made, at_bound);
    if (failed(three_named == 0 || three_made == 0 || at_bound == 0))
        printf("FAILED: no codeword is of one of these kinds\n");
}

/* The edges in any order. */
static void shuffle_wiring(void)
{
    lay_in_order();
    for (size_t i = plan.edges; i > 1; i--)
        swap_entries(i - 1, draw(i));
}

/* Noise where all bits of a vertex must be alike, on small plans with few vertices that share edges in any way: there blocks
 * take the most sweeps until they settle or come to what they do for ever. */
#define NOISY_PLANS 400

static void noise_calls(void)
{
    size_t calls = 0, latest = 0, settled = 0, stalled = 0, swinging = 0;
    for (size_t i = 0; i < NOISY_PLANS; i++) {
        unsigned dl = 3 + (unsigned)draw(4), dr = 3 + (unsigned)draw(4);
        size_t step = dr / common_divisor(dl, dr);
        set_plan(alike_code(dl), alike_code(dr), step * (1 + draw(larger(60 / (step * dl), 1))));
        shuffle_wiring();
        for (int tries = 0; tries < 6; tries++) {
            draw_noise(first);
            call c = decoder_call(one_in(20) ? LEMBIKAT_MAX_LIMIT - draw(2) : draw(30));
            compare("noise", calls++, &c);
            if (by_library.answer.number == LEMBIKAT_DONE) {
                settled++;
                latest = larger(latest, by_library.answer.value);
            } else if (c.number >= 20 && c.number <= LEMBIKAT_SUMS) {
                stalled += by_library.sums[c.number - 1] == 0;
                swinging += by_library.sums[c.number - 1] != 0;
            }
        }
    }
    printf(
        "noise: %zu blocks; %zu settled, the latest after %zu sweeps; of others that had 20 sweeps or more %zu stand still and "
        "%zu swing\n",
        calls, settled, latest, stalled, swinging);
    if (failed(latest < 6 || stalled == 0 || swinging == 0))
        printf("FAILED: no noise is of one of these kinds\n");

    /* Large plans, with both sides of the house code and with one of a larger code. */
    const side house = {.d = 8, .k = 4, .row = {0xff, 0x0f, 0x33, 0x55}};
    const side larger_code = {.d = 16, .k = 5, .row = {0x5555, 0x3333, 0x0f0f, 0x00ff, 0xffff}};
    for (size_t i = 0; i < 6; i++) {
        set_plan(i % 3 == 2 ? larger_code : house, i % 3 == 1 ? larger_code : house,
                 i % 3 == 2 ? LEMBIKAT_MAX_VERTICES / 2 : LEMBIKAT_MAX_VERTICES);
        shuffle_wiring();
        memset(first, 0, plan.block);
        for (size_t flips = i < 3 ? 1500 : 3000; flips > 0; flips--)
            flip(first, draw(plan.edges));
        call c = decoder_call(i < 3 ? 40 : 9);
        compare("large noise", i, &c);
    }
}

/* Walks on any plans: of codewords damaged within the margin, of codewords damaged further and of noise. Then some bits are
 * set, at the end of the walk or after the first sweeps of another one, and it goes on to the end. */
#define RANDOM_WALKS 300

static void random_walks(void)
{
    static uint8_t sent[MAX_BLOCK];
    size_t within = 0, loaded[WALK_ENDS] = {0}, set[WALK_ENDS] = {0};
    for (size_t i = 0; i < RANDOM_WALKS; i++) {
        int sturdy = one_in(2);
        plan_bits_known = 0;
        do {
            draw_codes(sturdy);
            draw_wiring(0, sturdy);
        } while (plan.edges > 4096); /* so that 4,096 sweeps take no minute */
        size_t covered = first_uncovered() - 1;
        draw_codeword(first);
        if (sturdy && covered != 0 && one_in(2)) {
            memcpy(sent, first, plan.block);
            for (size_t flips = covered; flips > 0; flips--)
                flip(first, draw(plan.edges));
            within++;
            if (failed(load_and_walk("within the margin", i) == SPENT || !same_bytes(walked + HEAD, sent, plan.block)))
                printf("FAILED: walk %zu within the margin does not settle at the codeword\n", i);
        } else {
            if (one_in(4))
                draw_noise(first);
            else
                for (size_t flips = draw(2 * covered + 6); flips > 0; flips--)
                    flip(first, draw(plan.edges));
            loaded[load_and_walk("random", i)]++;
        }
        if (one_in(2)) {
            step("random", i, load_call(state_bytes()));
            for (size_t sweeps = 1 + draw(3); sweeps > 0; sweeps--)
                step("random", i, sweep_call(state_bytes()));
        }
        for (size_t bits = draw(4); bits > 0; bits--)
            step("random", i, set_call(draw(plan.edges), draw(2), state_bytes()));
        set[set_and_walk("random, a bit set", i, draw(plan.edges), draw(2))]++;
    }
    printf("states: %d walks, %zu of them within the margin; the others settled at once %zu, later %zu, spent %zu; after a set "
           "bit settled at once %zu, later %zu, spent %zu\n",
           RANDOM_WALKS, within, loaded[SETTLED_AT_ONCE], loaded[SETTLED_LATER], loaded[SPENT], set[SETTLED_AT_ONCE],
           set[SETTLED_LATER], set[SPENT]);
    for (int end = 0; end < WALK_ENDS; end++)
        if (failed(loaded[end] == 0 || set[end] == 0))
            printf("FAILED: no random walk ended in way %d\n", end);
}

/* A whole call of the service on a fresh plan; some have faults by themselves, such as a block that does not settle. */
static call draw_whole_call(unsigned service)
{
    static uint8_t list[LEMBIKAT_MAX_LIST_BYTES];
    int sturdy = (service == 4 || service == 7) && one_in(2);
    plan_bits_known = 0;
    draw_codes(sturdy);
    draw_wiring(service == 8 || service == 9, sturdy);
    call c = plan_call(service);
    size_t spare = one_in(2) ? 0 : draw(20);
    switch (service) {
    case 1:
        c.number = draw((size_t)1 << plan.left.d);
        break;
    case 3:
        draw_block(first);
        c.field[FIRST] = (bytes){first, plan.block};
        break;
    case 4:
        if (one_in(3))
            draw_noise(first); /* so that more blocks stay unsettled */
        else
            draw_block(first);
        draw_spans();
        c = lost_call(draw_limit());
        c.field[LENT].size += spare;
        break;
    case 5:
        draw_block(first);
        if (one_in(2)) {
            draw_block(second);
        } else {
            memcpy(second, first, plan.block);
            for (size_t flips = draw(8); flips > 0; flips--)
                flip(second, draw(plan.edges));
        }
        c.field[FIRST] = (bytes){first, plan.block};
        c.field[SECOND] = (bytes){second, plan.block};
        /* A list of the length needed: the reference tells the pairs, on a list that is long enough for any. */
        lembikat_plan p = reference_plan();
        lembikat_answer pairs = reference_report(&p, first, plan.block, second, plan.block, list, sizeof list);
        c.field[LENT] = (bytes){lent, 4 * (size_t)pairs.value + spare};
        break;
    case 7:
        if (sturdy && !one_in(4))
            c.number = one_in(2) ? first_uncovered() - draw(2) : draw(first_uncovered() + 1);
        else
            c.number = one_in(8) ? draw(plan.edges + 1) : draw((size_t)1 << draw(4));
        if (c.number > plan.edges)
            c.number = plan.edges;
        break;
    case 8:
        if (plan.edges <= LEMBIKAT_MAX_MESSAGE_EDGES)
            draw_message(first);
        c.field[FIRST] = (bytes){first, (message_bits() + 7) / 8};
        c.field[LENT] = (bytes){lent, plan.block + spare};
        break;
    case 9:
        if (one_in(6))
            draw_block(first);
        else
            draw_codeword(first);
        c.field[FIRST] = (bytes){first, plan.block};
        c.field[LENT] = (bytes){lent, (message_bits() + 7) / 8 + spare};
        break;
    case 10:
        c.field[LENT] = (bytes){lent, table_bytes() + spare};
        break;
    case 11:
        draw_table(first, table_bytes() + spare);
        c = look_up_call(draw((size_t)1 << plan.left.d), table_bytes() + spare);
        break;
    case 12:
        draw_block(first);
        c.field[FIRST] = (bytes){first, plan.block};
        c.field[LENT] = (bytes){lent, state_bytes() + spare};
        break;
    case 13:
    case 14:
        draw_state();
        c.field[LENT] = (bytes){lent, state_bytes()};
        if (service == 14) {
            c.number = one_in(8) ? plan.edges - 1 : draw(plan.edges);
            c.value = one_in(4) ? draw64() : draw(3);
        }
        break;
    default:
        break;
    }
    if (!(ON(service) & CHANGING_STATES))
        draw_bytes(lent, c.field[LENT].size);
    return c;
}

/* How the decoder's random calls ended, by their limit, since what the sums tell depends on both: a codeword from the start,
 * settled after some sweeps, unsettled. */
enum { AT_ONCE, SWEPT, UNSETTLED, ENDS };
static const size_t limit_from[] = {0, 1, 2, 3, LEMBIKAT_SUMS - 1, LEMBIKAT_SUMS, LEMBIKAT_SUMS + 1, LEMBIKAT_SUMS + 2};
#define LIMITS (sizeof limit_from / sizeof limit_from[0])
static size_t ends_by_limit[LIMITS][ENDS];

static void note_end(uint64_t limit, lembikat_answer answer)
{
    size_t i = LIMITS - 1;
    while (limit < limit_from[i])
        i--;
    if (answer.number == LEMBIKAT_UNSETTLED)
        ends_by_limit[i][UNSETTLED]++;
    else if (answer.number == LEMBIKAT_DONE)
        ends_by_limit[i][answer.value == 0 ? AT_ONCE : SWEPT]++;
}

static void show_ends(void)
{
    printf("the decoder's by limit  at once    swept unsettled\n");
    for (size_t i = 0; i < LIMITS; i++) {
        const size_t *ends = ends_by_limit[i];
        char limits[32];
        if (i + 1 == LIMITS)
            snprintf(limits, sizeof limits, "%zu and above", limit_from[i]);
        else if (limit_from[i + 1] - limit_from[i] == 1)
            snprintf(limits, sizeof limits, "%zu", limit_from[i]);
        else
            snprintf(limits, sizeof limits, "%zu to %zu", limit_from[i], limit_from[i + 1] - 1);
        printf("%22s %8zu %8zu %9zu\n", limits, ends[AT_ONCE], ends[SWEPT], ends[UNSETTLED]);
        if (failed(ends[AT_ONCE] == 0 || (ends[SWEPT] == 0 && limit_from[i] != 0) || ends[UNSETTLED] == 0))
            printf("FAILED: no random call with this limit ended in one of these ways\n");
    }
}

/* How the trials of random calls with lost spans ended. */
static size_t trial_ends[TRIAL_ENDS];

static void show_trials(void)
{
    static const char *const names[TRIAL_ENDS] = {"neither settles",    "zeros alone",       "ones alone",
                                                  "zeros change fewer", "ones change fewer", "equally many"};
    printf("trials with lost bits 0 and 1:");
    for (int end = 0; end < TRIAL_ENDS; end++) {
        printf("%s %s %zu", end == 0 ? "" : ",", names[end], trial_ends[end]);
        if (failed(trial_ends[end] == 0))
            printf(" (FAILED: none)");
    }
    printf("\n");
}

/* The sweeps that random calls of the margin named, by how the sides of the plan differ. */
#define SWEEPS_SHOWN 6 /* so many and more */
static size_t sweeps_named[WAYS][SWEEPS_SHOWN + 1];
static const char *const way_names[WAYS] = {"the same sides", "other sheets", "other n and d"};

static void show_margins(void)
{
    printf("sweeps that the margin named");
    for (int sweeps = 1; sweeps <= SWEEPS_SHOWN; sweeps++)
        printf(" %7d", sweeps);
    printf(" and more\n");
    for (int way = 0; way < WAYS; way++) {
        printf("%28s", way_names[way]);
        for (int sweeps = 1; sweeps <= SWEEPS_SHOWN; sweeps++)
            printf(" %7zu", sweeps_named[way][sweeps]);
        printf("\n");
        for (int sweeps = 1; sweeps <= 4; sweeps++)
            if (failed(sweeps_named[way][sweeps] == 0))
                printf("FAILED: no random call on such a plan named %d sweeps\n", sweeps);
    }
}

static void random_calls(void)
{
    static const unsigned called[] = {1, 10, 11, 3, 4, 12, 13, 14, 5, 6, 7, 8, 9};
    const size_t services_called = sizeof called / sizeof called[0];
    static size_t ended[LAST_REFUSAL + 1][LAST_SERVICE + 1], ended_by_way[LAST_REFUSAL + 1][WAYS], plans[WAYS];
    for (size_t i = 0; i < RANDOM_CALLS; i++) {
        call c = draw_whole_call(called[draw(services_called)]);
        int way = way_of_plan();
        if (!one_in(2))
            for (size_t faults_put = one_in(3) ? 1 + draw(3) : 1; faults_put > 0; faults_put--)
                spoil(&c);
        compare("random", i, &c);
        lembikat_answer answer = by_reference.answer;
        if (answer.number <= LAST_REFUSAL)
            ended[answer.number][c.service]++;
        if (c.service == 4) {
            note_end(c.number, answer);
            if (c.field[SECOND].size != 0 && (answer.number == LEMBIKAT_DONE || answer.number == LEMBIKAT_UNSETTLED))
                trial_ends[must_keep_a_trial("random", &c)]++;
        }
        if (c.service == 7 && answer.number == LEMBIKAT_DONE)
            sweeps_named[way][smaller(answer.value, SWEEPS_SHOWN)]++;
        if (ON(c.service) & ON_PLANS) {
            plans[way]++;
            if (answer.number <= LAST_REFUSAL)
                ended_by_way[answer.number][way]++;
        }
    }

    printf("random calls: %d; how they ended, and how many were on plans with the same sides and with others\n  number",
           RANDOM_CALLS);
    for (size_t s = 0; s < services_called; s++)
        printf(" %8s", service_names[called[s]]);
    printf("      all     same   sheets  degrees\n");
    for (unsigned number = LEMBIKAT_DONE; number <= LAST_REFUSAL; number++) {
        const size_t *by_way = ended_by_way[number];
        size_t all = 0;
        if (number == LEMBIKAT_DONE)
            printf("    done");
        else
            printf("%8u", number);
        for (size_t s = 0; s < services_called; s++) {
            size_t count = ended[number][called[s]];
            all += count;
            if (count == 0)
                printf(" %8s", ".");
            else
                printf(" %8zu", count);
        }
        printf(" %8zu %8zu %8zu %8zu\n", all, by_way[SAME_SIDES], by_way[OTHER_SHEETS], by_way[OTHER_DEGREES]);
        if (failed(by_way[SAME_SIDES] == 0 || by_way[OTHER_SHEETS] == 0 || by_way[OTHER_DEGREES] == 0))
            printf("FAILED: no random call on one of these kinds of plan ended in %u\n", number);
    }
    if (failed(plans[SAME_SIDES] > plans[OTHER_SHEETS] + plans[OTHER_DEGREES]))
        printf("FAILED: fewer than half of the random plans have unequal sides\n");
    show_ends();
    show_trials();
    show_margins();
}

int main(int argc, char **argv)
{
    if (argc != 3) {
        fprintf(stderr, "usage: test_vectors STREAM EXPECTED\n");
        return 1;
    }
    part_one(argv[1], argv[2]);
    border_calls();
    chain_calls();
    largest_sums();
    lone_vertex_calls();
    sheet_calls();
    word_calls();
    table_calls();
    tie_calls();
    all_count_calls();
    all_fault_calls();
    span_calls();
    state_calls();
    homecoming_calls();
    random_walks();
    random_calls();
    visits_calls();
    bounded_calls();
    noise_calls();
    printf("test_vectors: %zu passed, %zu failed\n", cases - failures, failures);
    return failures != 0;
}
