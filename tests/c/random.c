/* Random calls: a service, a plan and what the service takes are drawn, and in half of the calls something is spoiled. It is
 * taken down how the calls ended: in the gate's run, which has a fixed seed, every way of ending must be met. */
#include "reference.h"
#include "subjects.h"

#define RANDOM_CALLS 32500 /* of the gate's run */
#define LAST_REFUSAL LEMBIKAT_SWEEPS_SPENT

/* Few sweeps, many, or about as many as have sums. */
static uint64_t draw_limit(void)
{
    size_t work = larger(plan.left.n << plan.left.k, plan.right.n << plan.right.k); /* what the reference tries in a sweep */
    if (work <= 512 && one_in(3))
        return one_in(2) ? LEMBIKAT_MAX_LIMIT : draw(LEMBIKAT_MAX_LIMIT);
    if (work <= 8192 && one_in(3))
        return LEMBIKAT_SUMS - 1 + draw(3);
    if (work <= 65536 && one_in(3))
        return draw(31);
    return draw(work <= 65536 ? 7 : 4);
}

/* How the sides of the plan differ. */
enum { SAME_SIDES, OTHER_SHEETS, OTHER_DEGREES, WAYS };

static int way_of_plan(void)
{
    if (plan.left.d != plan.right.d)
        return OTHER_DEGREES;
    return same_code(&plan.left, &plan.right) ? SAME_SIDES : OTHER_SHEETS;
}

/* A whole call of the service on a fresh plan; some have faults by themselves, such as a block that does not settle. */
static call draw_whole_call(unsigned service)
{
    static uint8_t list[LEMBIKAT_MAX_LIST_BYTES];
    int sturdy = (service == DECODE || service == MARGIN) && one_in(2);
    draw_plan(service == ENCODE || service == READ, sturdy);
    call c = plan_call(service);
    size_t spare = one_in(2) ? 0 : draw(20);
    switch (service) {
    case NEAREST_WORD:
        c.number = draw((size_t)1 << plan.left.d);
        break;
    case LOCATE:
        draw_block(first);
        c.field[FIRST] = (bytes){first, plan.block};
        break;
    case DECODE:
        if (one_in(3))
            draw_noise(first); /* so that more blocks stay unsettled */
        else
            draw_block(first);
        draw_spans();
        c = lost_call(draw_limit());
        c.field[LENT].size += spare;
        break;
    case REPORT:
        draw_block(first);
        if (one_in(2)) {
            draw_block(second);
        } else {
            memcpy(second, first, plan.block);
            for (size_t flips = draw(8); flips > 0; flips--)
                flip(second, draw(plan.edges));
        }
        c.field[FIRST] = (bytes){first, plan.block};
        c.field[SECOND] = (bytes){second, plan.block};
        /* A list of the length needed: the reference counts the pairs, on a list that is long enough for any. */
        lembikat_plan p = reference_plan();
        lembikat_answer pairs = reference_report(&p, first, plan.block, second, plan.block, list, sizeof list);
        c.field[LENT] = (bytes){lent, 4 * (size_t)pairs.value + spare};
        break;
    case MARGIN:
        if (sturdy && !one_in(4))
            c.number = one_in(2) ? first_uncovered() - draw(2) : draw(first_uncovered() + 1);
        else
            c.number = one_in(8) ? draw(plan.edges + 1) : draw((size_t)1 << draw(4));
        if (c.number > plan.edges)
            c.number = plan.edges;
        break;
    case ENCODE:
        if (plan.edges <= LEMBIKAT_MAX_MESSAGE_EDGES)
            draw_message(first);
        c.field[FIRST] = (bytes){first, (message_bits() + 7) / 8};
        c.field[LENT] = (bytes){lent, plan.block + spare};
        break;
    case READ:
        if (one_in(6))
            draw_block(first);
        else
            draw_codeword(first);
        c.field[FIRST] = (bytes){first, plan.block};
        c.field[LENT] = (bytes){lent, (message_bits() + 7) / 8 + spare};
        break;
    case BUILD_TABLE:
        c.field[LENT] = (bytes){lent, table_bytes() + spare};
        break;
    case LOOK_UP:
        draw_table(first, table_bytes() + spare);
        c = look_up_call(draw((size_t)1 << plan.left.d), table_bytes() + spare);
        break;
    case LOAD_STATE:
        draw_block(first);
        c.field[FIRST] = (bytes){first, plan.block};
        c.field[LENT] = (bytes){lent, state_bytes() + spare};
        break;
    case SWEEP_STATE:
    case SET_BIT:
        draw_state();
        c.field[LENT] = (bytes){lent, state_bytes()};
        if (service == SET_BIT) {
            c.number = one_in(8) ? plan.edges - 1 : draw(plan.edges);
            c.value = one_in(4) ? draw64() : draw(3);
        }
        break;
    case SPREAD:
        break;
    default:
        give_up("a service of the list has no random call");
    }
    if (!(ON(service) & CHANGING_STATES))
        draw_bytes(lent, c.field[LENT].size);
    return c;
}

/* Counts a case that is due only where all kinds of calls are: that there was one of them. */
static int missed(int all_due, int none)
{
    return all_due && failed(none);
}

/* How the decoder's random calls ended, by their limit, since the sums depend on both: a codeword from the start,
 * settled after some sweeps, unsettled. */
enum { AT_ONCE, SWEPT, UNSETTLED, ENDS };
static const size_t limit_from[] = {0, 1, 2, 3, LEMBIKAT_SUMS - 1, LEMBIKAT_SUMS, LEMBIKAT_SUMS + 1, LEMBIKAT_SUMS + 2};
#define LIMITS (sizeof limit_from / sizeof limit_from[0])
static size_t ends_by_limit[LIMITS][ENDS];

static void note_end(uint64_t limit, lembikat_answer answer)
{
    size_t i = LIMITS - 1;
    while (limit < limit_from[i])
        i--;
    if (answer.number == LEMBIKAT_UNSETTLED)
        ends_by_limit[i][UNSETTLED]++;
    else if (answer.number == LEMBIKAT_DONE)
        ends_by_limit[i][answer.value == 0 ? AT_ONCE : SWEPT]++;
}

static void show_ends(int all_due)
{
    printf("the decoder's by limit  at once    swept unsettled\n");
    for (size_t i = 0; i < LIMITS; i++) {
        const size_t *ends = ends_by_limit[i];
        char limits[32];
        if (i + 1 == LIMITS)
            snprintf(limits, sizeof limits, "%zu and above", limit_from[i]);
        else if (limit_from[i + 1] - limit_from[i] == 1)
            snprintf(limits, sizeof limits, "%zu", limit_from[i]);
        else
            snprintf(limits, sizeof limits, "%zu to %zu", limit_from[i], limit_from[i + 1] - 1);
        printf("%22s %8zu %8zu %9zu\n", limits, ends[AT_ONCE], ends[SWEPT], ends[UNSETTLED]);
        if (missed(all_due, ends[AT_ONCE] == 0 || (ends[SWEPT] == 0 && limit_from[i] != 0) || ends[UNSETTLED] == 0))
            printf("FAILED: no random call with this limit ended in one of these ways\n");
    }
}

/* How the trials of random calls with lost spans ended. */
static size_t trial_ends[TRIAL_ENDS];

static void show_trials(int all_due)
{
    static const char *const names[TRIAL_ENDS] = {"neither settles",    "zeros alone",       "ones alone",
                                                  "zeros change fewer", "ones change fewer", "equally many"};
    printf("trials with lost bits 0 and 1:");
    for (int end = 0; end < TRIAL_ENDS; end++) {
        printf("%s %s %zu", end == 0 ? "" : ",", names[end], trial_ends[end]);
        if (missed(all_due, trial_ends[end] == 0))
            printf(" (FAILED: none)");
    }
    printf("\n");
}

/* The sweeps that random calls of the margin named, by how the sides of the plan differ. */
#define SWEEPS_SHOWN 6 /* so many and more */
static size_t sweeps_named[WAYS][SWEEPS_SHOWN + 1];
static const char *const way_names[WAYS] = {"the same sides", "other sheets", "other n and d"};

static void show_margins(int all_due)
{
    printf("sweeps that the margin named");
    for (int sweeps = 1; sweeps <= SWEEPS_SHOWN; sweeps++)
        printf(" %7d", sweeps);
    printf(" and more\n");
    for (int way = 0; way < WAYS; way++) {
        printf("%28s", way_names[way]);
        for (int sweeps = 1; sweeps <= SWEEPS_SHOWN; sweeps++)
            printf(" %7zu", sweeps_named[way][sweeps]);
        printf("\n");
        for (int sweeps = 1; sweeps <= 4; sweeps++)
            if (missed(all_due, sweeps_named[way][sweeps] == 0))
                printf("FAILED: no random call on such a plan named %d sweeps\n", sweeps);
    }
}

/* How all random calls ended, by service and by how the sides of the plan differ, and on how many plans that differ so. */
static size_t ended[LAST_REFUSAL + 1][SERVICES], ended_by_way[LAST_REFUSAL + 1][WAYS], plans[WAYS];

call random_call(size_t i)
{
    call c = draw_whole_call((unsigned)draw(SERVICES));
    int way = way_of_plan();
    if (!one_in(2))
        for (size_t faults_put = one_in(3) ? 1 + draw(3) : 1; faults_put > 0; faults_put--)
            spoil(&c);
    compare("random", i, &c);
    lembikat_answer answer = by_reference.answer;
    if (answer.number <= LAST_REFUSAL)
        ended[answer.number][c.service]++;
    if (c.service == DECODE) {
        note_end(c.number, answer);
        if (c.field[SECOND].size != 0 && (answer.number == LEMBIKAT_DONE || answer.number == LEMBIKAT_UNSETTLED))
            trial_ends[must_keep_a_trial("random", &c)]++;
    }
    if (c.service == MARGIN && answer.number == LEMBIKAT_DONE)
        sweeps_named[way][smaller(answer.value, SWEEPS_SHOWN)]++;
    if (ON(c.service) & ON_PLANS) {
        plans[way]++;
        if (answer.number <= LAST_REFUSAL)
            ended_by_way[answer.number][way]++;
    }
    return c;
}

void show_random_calls(size_t calls, int all_due)
{
    printf("random calls: %zu; how they ended, and how many were on plans with the same sides and with others\n  number",
           calls);
    for (size_t s = 0; s < SERVICES; s++)
        printf(" %8s", services[s].shown);
    printf("      all     same   sheets  degrees\n");
    for (unsigned number = LEMBIKAT_DONE; number <= LAST_REFUSAL; number++) {
        const size_t *by_way = ended_by_way[number];
        size_t all = 0;
        if (number == LEMBIKAT_DONE)
            printf("    done");
        else
            printf("%8u", number);
        for (size_t s = 0; s < SERVICES; s++) {
            size_t count = ended[number][s];
            all += count;
            if (count == 0)
                printf(" %8s", ".");
            else
                printf(" %8zu", count);
        }
        printf(" %8zu %8zu %8zu %8zu\n", all, by_way[SAME_SIDES], by_way[OTHER_SHEETS], by_way[OTHER_DEGREES]);
        if (missed(all_due, by_way[SAME_SIDES] == 0 || by_way[OTHER_SHEETS] == 0 || by_way[OTHER_DEGREES] == 0))
            printf("FAILED: no random call on one of these kinds of plan ended in %u\n", number);
    }
    if (missed(all_due, plans[SAME_SIDES] > plans[OTHER_SHEETS] + plans[OTHER_DEGREES]))
        printf("FAILED: fewer than half of the random plans have unequal sides\n");
    show_ends(all_due);
    show_trials(all_due);
    show_margins(all_due);
}

void random_calls(void)
{
    for (size_t i = 0; i < RANDOM_CALLS; i++)
        random_call(i);
    show_random_calls(RANDOM_CALLS, 1);
}
