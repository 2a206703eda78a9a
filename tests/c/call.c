/* One call: made of the library in two ways and of the reference, looked at and compared.
 *
 * The sanitizers do not see into the library. So every call is made twice: once by the call that takes the plan's parts, with
 * buffers on the heap, what is written between canaries, and once by the header's call on a plan in one piece, with every
 * buffer ending where a page begins that may neither be read nor written. Both must answer alike and leave what they only read
 * as it was. The calls on a sheet have one form, which is made in both ways.
 */
#define _DEFAULT_SOURCE /* for MAP_ANONYMOUS */

#include "call.h"
#include "plans.h"
#include "reference.h"

#include <stdlib.h>
#include <sys/mman.h>
#include <unistd.h>

_Static_assert(sizeof(size_t) == 8, "numbers of the stream have 64 bits and are handed on as sizes");

/* The library lays its answers out field by field: where a compiler put a gap the two would not speak of the same bytes. */
_Static_assert(sizeof(lembikat_answer) == 16, "the answer has a gap");
_Static_assert(sizeof(lembikat_word_answer) == 24, "the answer of the nearest word and the look-up has a gap");
_Static_assert(sizeof(lembikat_decode_answer) == 152, "the decoder's answer has a gap");
_Static_assert(sizeof(lembikat_state_answer) == 24, "the answer of the calls on a state has a gap");

#define SHOWN_FAILURES 10

size_t cases, failures;
outcome by_library, by_reference;

void give_up(const char *why)
{
    fprintf(stderr, "the tests stop: %s\n", why);
    exit(1);
}

void *take(size_t size)
{
    void *memory = malloc(size);
    if (memory == NULL)
        give_up("no memory");
    return memory;
}

int same_bytes(const uint8_t *a, const uint8_t *b, size_t size)
{
    return size == 0 || memcmp(a, b, size) == 0;
}

/* ---- the tables of services.def ---- */

#define TAKES_FIRST FIRST,
#define TAKES_SECOND SECOND,
#define TAKES_LENT LENT,
#define TAKES_NUMBER NUMBER,
#define TAKES_VALUE VALUE,
const service_line services[SERVICES] = {
#define SERVICE(stream, service, call, shown, on, answer, takes) {stream, shown, answer, {takes 0}},
#include "services.def"
};
#undef TAKES_FIRST
#undef TAKES_SECOND
#undef TAKES_LENT
#undef TAKES_NUMBER
#undef TAKES_VALUE

/* Takes down an answer of each kind. The outcome has no numbers in it yet but zeros. */
static void note_plain(outcome *o, lembikat_answer a)
{
    o->answer = a;
}

static void note_word(outcome *o, lembikat_word_answer a)
{
    o->answer = (lembikat_answer){a.number, a.place, a.value};
    o->changed = a.changed;
}

static void note_decoded(outcome *o, lembikat_decode_answer a)
{
    o->answer = (lembikat_answer){a.number, a.place, a.value};
    memcpy(o->sums, a.sums, sizeof o->sums);
    o->visits = a.visits;
}

static void note_state(outcome *o, lembikat_state_answer a)
{
    o->answer = (lembikat_answer){a.number, a.place, a.value};
    o->sweeps = a.sweeps;
}

/* clang-format off */
#define note(o, a)                                                                                                             \
    _Generic((a), lembikat_answer: note_plain, lembikat_word_answer: note_word, lembikat_decode_answer: note_decoded,          \
             lembikat_state_answer: note_state)(o, a)
/* clang-format on */

/* A service of the library or of the reference: it takes the numbers of a call and its buffers where they are lent. */
typedef void run_service(const call *c, uint8_t *const at[FIELDS], outcome *o);

/* The arguments of a C call: first the sheet, or the plan in parts or in one piece, whose parts stand in the same order; then
 * what the list says. */
#define SHEET_PARTS at[LEFT_SHEET], c->field[LEFT_SHEET].size
#define PLAN_PARTS SHEET_PARTS, at[RIGHT_SHEET], c->field[RIGHT_SHEET].size, c->nl, c->nr, at[WIRING], c->field[WIRING].size
#define SHEET_WHOLE SHEET_PARTS
/* clang-format off */
#define PLAN_WHOLE &(const lembikat_plan){PLAN_PARTS}
/* clang-format on */
#define TAKES_FIRST , at[FIRST], c->field[FIRST].size
#define TAKES_SECOND , at[SECOND], c->field[SECOND].size
#define TAKES_LENT , at[LENT], c->field[LENT].size
#define TAKES_NUMBER , c->number
#define TAKES_VALUE , c->value

/* The header's call on a plan in one piece; a call on a sheet has but the one form. */
#define SHEET_CALL(call) lembikat_##call
#define PLAN_CALL(call) lembikat_plan_##call

#define SERVICE(stream, service, name, shown, on, answer, takes)                                                               \
    static void name##_by_parts(const call *c, uint8_t *const at[FIELDS], outcome *o)                                          \
    {                                                                                                                          \
        note(o, lembikat_##name(on##_PARTS takes));                                                                            \
    }                                                                                                                          \
    static void name##_by_plan(const call *c, uint8_t *const at[FIELDS], outcome *o)                                           \
    {                                                                                                                          \
        note(o, on##_CALL(name)(on##_WHOLE takes));                                                                            \
    }                                                                                                                          \
    static void name##_of_reference(const call *c, uint8_t *const at[FIELDS], outcome *o)                                      \
    {                                                                                                                          \
        note(o, reference_##name(on##_WHOLE takes));                                                                           \
    }
#include "services.def"

static run_service *const by_parts[SERVICES] = {
#define SERVICE(stream, service, call, shown, on, answer, takes) call##_by_parts,
#include "services.def"
};
static run_service *const by_plan[SERVICES] = {
#define SERVICE(stream, service, call, shown, on, answer, takes) call##_by_plan,
#include "services.def"
};
static run_service *const of_reference[SERVICES] = {
#define SERVICE(stream, service, call, shown, on, answer, takes) call##_of_reference,
#include "services.def"
};

static void invoke(run_service *const run[SERVICES], const call *c, uint8_t *const at[FIELDS], outcome *o)
{
    o->changed = 0;
    o->sweeps = 0;
    o->visits = 0;
    memset(o->sums, 0, sizeof o->sums);
    run[c->service](c, at, o);
}

/* ---- one call ---- */

static int all_zero(const uint16_t *sums)
{
    for (size_t i = 0; i < LEMBIKAT_SUMS; i++)
        if (sums[i] != 0)
            return 0;
    return 1;
}

/* Looks at what the call was lent, after it: the buffers that are only read must be as they were, and a state must hold the
 * count and the sweep number that were answered. With any refusal but 15 a decoder call gives neither sums nor visits. */
static void look_after(const call *c, uint8_t *const at[FIELDS], outcome *o)
{
    o->trouble = NULL;
    for (int f = 0; f < LENT; f++)
        if (!same_bytes(at[f], c->field[f].data, c->field[f].size))
            o->trouble = "a buffer that is only read was changed";
    if (c->field[LENT].size != 0)
        memcpy(o->lent, at[LENT], c->field[LENT].size);
    if (ON(c->service) & ON_STATES && o->answer.number == LEMBIKAT_DONE &&
        (o->answer.value != get_pair(o->lent, 0) || o->sweeps != get_pair(o->lent, 1)))
        o->trouble = "the answer is not what stands in the state";
    if (o->answer.number != LEMBIKAT_DONE && o->answer.number != LEMBIKAT_UNSETTLED && (o->visits != 0 || !all_zero(o->sums)))
        o->trouble = "there are sums or visits with a refusal";
}

#define CANARIES 16

static uint8_t canary(size_t i)
{
    return (uint8_t)(0xa5 + 29 * i);
}

/* Every buffer on the heap: what is read at its exact size, what is written between canaries. No bytes are lent as NULL. */
static void run_on_heap(run_service *const run[SERVICES], const call *c, outcome *o)
{
    uint8_t *at[FIELDS] = {NULL};
    size_t lent = c->field[LENT].size;
    uint8_t *around = take(lent + 2 * CANARIES);
    for (size_t i = 0; i < CANARIES; i++)
        around[i] = around[CANARIES + lent + i] = canary(i);
    for (int f = 0; f < FIELDS; f++) {
        size_t size = c->field[f].size;
        if (size == 0)
            continue;
        at[f] = f == LENT ? around + CANARIES : take(size);
        memcpy(at[f], c->field[f].data, size);
    }
    invoke(run, c, at, o);
    look_after(c, at, o);
    for (size_t i = 0; i < CANARIES; i++)
        if (around[i] != canary(i) || around[CANARIES + lent + i] != canary(i))
            o->trouble = "a byte beside the lent buffer was written";
    for (int f = 0; f < LENT; f++)
        free(at[f]);
    free(around);
}

/* Lends one buffer for two fields that have the same bytes. */
static void share(const call *c, uint8_t *at[FIELDS], int field, int other)
{
    if (c->field[field].size == c->field[other].size && same_bytes(at[field], at[other], c->field[field].size))
        at[other] = at[field];
}

/* Every buffer ends where a page begins that may not be touched: a byte read or written behind it stops the program. No bytes
 * are lent as a pointer to that page. */
static void run_fenced(run_service *const run[SERVICES], const call *c, outcome *o)
{
    static uint8_t *fence[FIELDS];
    uint8_t *at[FIELDS] = {NULL};
    if (fence[0] == NULL) {
        size_t page = (size_t)sysconf(_SC_PAGESIZE);
        size_t room = (ROOM + page - 1) / page * page;
        for (int f = 0; f < FIELDS; f++) {
            uint8_t *area = mmap(NULL, room + page, PROT_READ | PROT_WRITE, MAP_PRIVATE | MAP_ANONYMOUS, -1, 0);
            if (area == MAP_FAILED || mprotect(area + room, page, PROT_NONE) != 0)
                give_up("no fenced memory");
            fence[f] = area + room;
        }
    }
    for (int f = 0; f < FIELDS; f++) {
        size_t size = c->field[f].size;
        at[f] = fence[f] - size;
        if (size != 0)
            memcpy(at[f], c->field[f].data, size);
    }
    /* Buffers that are only read may be one and the same. */
    share(c, at, LEFT_SHEET, RIGHT_SHEET);
    share(c, at, FIRST, SECOND);
    invoke(run, c, at, o);
    look_after(c, at, o);
}

int same_outcome(const call *c, const outcome *a, const outcome *b)
{
    return a->answer.number == b->answer.number && a->answer.place == b->answer.place && a->answer.value == b->answer.value &&
           a->changed == b->changed && a->sweeps == b->sweeps && memcmp(a->sums, b->sums, sizeof a->sums) == 0 &&
           a->visits == b->visits && same_bytes(a->lent, b->lent, c->field[LENT].size);
}

void run_library(const call *c, outcome *o)
{
    run_on_heap(by_parts, c, o);
}

void run_all(const call *c)
{
    static outcome fenced;
    run_library(c, &by_library);
    run_fenced(by_plan, c, &fenced);
    run_on_heap(of_reference, c, &by_reference);
    if (fenced.trouble != NULL)
        by_library.trouble = fenced.trouble;
    if (!same_outcome(c, &by_library, &fenced))
        by_library.trouble = "on a plan in one piece, or with other buffers, the call answered otherwise";
}

int failed(int bad)
{
    cases++;
    if (!bad)
        return 0;
    failures++;
    return failures <= SHOWN_FAILURES;
}

void put_sums(char *to, const uint16_t *sums)
{
    size_t count = LEMBIKAT_SUMS;
    while (count > 0 && sums[count - 1] == 0)
        count--;
    strcpy(to, "-");
    for (size_t i = 0; i < count; i++)
        to += sprintf(to, "%s%u", i == 0 ? "" : ",", sums[i]);
}

void show(const char *who, const call *c, const outcome *o)
{
    char sums[SUMS_ROOM];
    printf("  %s number %u place %u value %llu lent", who, o->answer.number, o->answer.place,
           (unsigned long long)o->answer.value);
    for (size_t i = 0; i < c->field[LENT].size && i < 64; i++)
        printf("%s%02x", i == 0 ? " " : "", o->lent[i]);
    put_sums(sums, o->sums);
    printf(" changed %llu sweeps %llu sums %s visits %llu\n", (unsigned long long)o->changed, (unsigned long long)o->sweeps,
           sums, (unsigned long long)o->visits);
}

void compare(const char *kind, size_t i, const call *c)
{
    run_all(c);
    if (!failed(!same_outcome(c, &by_library, &by_reference) || by_library.trouble != NULL))
        return;
    printf("FAILED: %s call %zu (%s) on nl %llu d %u k %u, nr %llu d %u k %u %s\n", kind, i, services[c->service].shown,
           (unsigned long long)c->nl, plan.left.d, plan.left.k, (unsigned long long)c->nr, plan.right.d, plan.right.k,
           by_library.trouble == NULL ? "" : by_library.trouble);
    show("reference", c, &by_reference);
    show("library  ", c, &by_library);
}

void must_answer(const char *kind, const call *c, uint32_t number, uint32_t place, uint64_t value)
{
    lembikat_answer a = by_library.answer;
    if (failed(a.number != number || a.place != place || a.value != value)) {
        printf("FAILED: %s (%s) must answer number %u place %u value %llu\n", kind, services[c->service].shown, number, place,
               (unsigned long long)value);
        show("library  ", c, &by_library);
    }
}

void must_change(const char *kind, const call *c, uint64_t value, uint64_t changed)
{
    must_answer(kind, c, LEMBIKAT_DONE, 0, value);
    if (failed(by_library.changed != changed))
        printf("FAILED: %s (%s): of word %llx %llu bits are changed, not %llu\n", kind, services[c->service].shown,
               (unsigned long long)c->number, (unsigned long long)by_library.changed, (unsigned long long)changed);
}

void must_visit(const char *kind, const call *c, uint64_t visits)
{
    if (failed(by_library.visits != visits)) {
        printf("FAILED: %s: %llu vertices must be visited\n", kind, (unsigned long long)visits);
        show("library  ", c, &by_library);
    }
}
