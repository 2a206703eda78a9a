/* Walks: a state that is loaded and then swept call by call to the end comes to what the decoder answers, by the sweeps, sums
 * and visits that it gives. */
#include "subjects.h"

/* The state that is swept, from one call to the next. */
static uint8_t walked[LEMBIKAT_MAX_STATE_BYTES];

/* One call on it, beside the reference. */
static void step(const char *kind, size_t i, call c)
{
    c.field[LENT] = (bytes){walked, state_bytes()};
    compare(kind, i, &c);
    memcpy(walked, by_library.lent, state_bytes());
}

static size_t bits_apart(const uint8_t *block, const uint8_t *other)
{
    size_t count = 0;
    for (size_t i = 0; i < plan.edges; i++)
        count += get_bit(block, i) != get_bit(other, i);
    return count;
}

/* The entry of the plan's wiring at which each bit stands. */
static size_t entry_of[MAX_EDGES];

static void note_entries(void)
{
    for (size_t i = 0; i < plan.edges; i++)
        entry_of[get_pair(wiring, i)] = i;
}

/* How many vertices of a side have a bit in which two blocks of the plan differ. Each such bit marks its vertex; bytes that are
 * the same are passed over, since most are. */
static size_t vertices_changed(int right, const uint8_t *block, const uint8_t *other)
{
    static uint8_t marked[LEMBIKAT_MAX_VERTICES];
    size_t count = 0;
    memset(marked, 0, right ? plan.right.n : plan.left.n);
    for (size_t bit = 0; bit < plan.edges; bit++) {
        if (block[bit / 8] == other[bit / 8]) {
            bit |= 7;
        } else if (get_bit(block, bit) != get_bit(other, bit)) {
            size_t vertex = right ? entry_of[bit] / plan.right.d : bit / plan.left.d;
            count += !marked[vertex];
            marked[vertex] = 1;
        }
    }
    return count;
}

/* How walks end: at a codeword from the start, settled after some sweeps, or spent after 4,096. */
enum { SETTLED_AT_ONCE, SETTLED_LATER, SPENT, WALK_ENDS };

/* Walks to the end from a state whose sweep number is 0 and whose count is true, and holds the walk to the full decoding of its
 * block: it settles there after as many calls, of which each changes as many bits as the decoder's sum says, and stays; or it
 * never settles, and after 4,096 calls the next one is refused. On the way the count is true, and 0 only at the end. Each call
 * sweeps a whole side; the vertices that the decoder visits are those of the first two sweeps and, by the blocks before and
 * after each call but the last, those with a bit that the call changed. The first steps, some others and the last one are made
 * beside the reference. Answers how the walk ended. */
static int walk(const char *kind, size_t i)
{
    static outcome full;
    call c = decoder_call(LEMBIKAT_MAX_LIMIT);
    c.field[FIRST].data = walked + HEAD;
    run_library(&c, &full);
    const int settles = full.answer.number == LEMBIKAT_DONE;
    const size_t last = settles ? full.answer.value : LEMBIKAT_MAX_LIMIT;
    const char *wrong = settles || full.answer.number == LEMBIKAT_UNSETTLED ? NULL : "the decoder refuses the block";
    size_t made = 0;
    uint64_t visits = each_side_once(last);
    note_entries();
    c = sweep_call(state_bytes());
    c.field[LENT].data = walked;
    while (wrong == NULL) {
        size_t count = get_pair(walked, 0);
        int looked_at = made == last || (plan.edges <= 64 ? made < 40 || one_in(40) : made < 4 || one_in(400));
        if (get_pair(walked, 1) != made)
            wrong = "its sweep number is not the number of calls";
        else if ((count == 0) != (settles && made == last))
            wrong = "it settles where the decoder does not, or does not where the decoder does";
        else if (looked_at && count != true_count(walked + HEAD))
            wrong = "its count is not true";
        if (made == last)
            break;
        if (looked_at)
            compare(kind, i, &c);
        else
            run_library(&c, &by_library);
        if (by_library.answer.number != LEMBIKAT_DONE)
            wrong = "a sweep is refused";
        else if (made < LEMBIKAT_SUMS && bits_apart(walked + HEAD, by_library.lent + HEAD) != full.sums[made])
            wrong = "a sweep changes more or fewer bits than the decoder's";
        made++;
        if (made >= 2 && made < last)
            visits += vertices_changed(made % 2, walked + HEAD, by_library.lent + HEAD);
        memcpy(walked, by_library.lent, state_bytes());
    }
    if (wrong == NULL && settles && !same_bytes(walked + HEAD, full.lent, plan.block))
        wrong = "it settles at another block than the decoder";
    if (wrong == NULL && visits != full.visits)
        wrong = "the decoder does not visit the vertices with changed bits";
    if (failed(wrong != NULL)) {
        printf("FAILED: %s walk %zu on nl %zu d %u k %u, nr %zu d %u k %u, after %zu calls: %s\n", kind, i, plan.left.n,
               plan.left.d, plan.left.k, plan.right.n, plan.right.d, plan.right.k, made, wrong == NULL ? "" : wrong);
        show("decoder  ", &c, &full);
    }
    compare(kind, i, &c);
    must_answer(kind, &c, settles ? LEMBIKAT_DONE : LEMBIKAT_SWEEPS_SPENT, 0, 0);
    must_leave(kind, &c);
    return !settles ? SPENT : last == 0 ? SETTLED_AT_ONCE : SETTLED_LATER;
}

/* Loads what stands in the first block and walks to the end. */
static int load_and_walk(const char *kind, size_t i)
{
    step(kind, i, load_call(state_bytes()));
    return walk(kind, i);
}

/* Sets a bit of the state, wherever its walk is, and walks to the end from there. */
static int set_and_walk(const char *kind, size_t i, size_t bit, uint64_t value)
{
    call c = set_call(bit, value, state_bytes());
    step(kind, i, c);
    must_show(kind, &c, true_count(walked + HEAD), 0);
    return walk(kind, i);
}

static void must_end(const char *kind, int end, int right_end)
{
    static const char *const names[WALK_ENDS] = {"settled at once", "settled", "spent"};
    if (failed(end != right_end))
        printf("FAILED: the %s walk is %s, not %s\n", kind, names[end], names[right_end]);
}

/* Walks on plans where it is known how they end, or that have every way of ending among their blocks. */
void walk_calls(void)
{
    size_t ends[WALK_ENDS] = {0}, walks = 0;
    for (size_t i = 0; i < SMALL_PLANS; i++) {
        set_small_plan(i);
        for (unsigned block = 0; block < 1u << plan.edges; block += i < 3 ? 1 : 5) {
            first[0] = (uint8_t)(block << (8 - plan.edges));
            ends[load_and_walk("every block", walks++)]++;
            ends[set_and_walk("every block, a bit set", walks++, draw(plan.edges), draw(2))]++;
        }
    }
    for (int end = 0; end < WALK_ENDS; end++)
        if (failed(ends[end] == 0))
            printf("FAILED: no walk on a small plan ended in way %d\n", end);

    /* The pair plan: spent, then a bit set makes it a codeword, then another one a tie again. */
    set_small_plan(0);
    first[0] = 0x80;
    must_end("pair", load_and_walk("pair", 0), SPENT);
    must_end("pair", set_and_walk("pair", 1, 1, 1), SETTLED_AT_ONCE);
    must_end("pair", set_and_walk("pair", 2, 0, 0), SPENT);

    /* Chains settle after as many sweeps as they are long. The longest one settles with the last sweep that there may be, at
     * sweep number 4,096, and stays; where its head is at a right vertex it would settle with the next one. */
    static const size_t sizes[] = {1, 2, 3, 33};
    for (size_t i = 0; i < sizeof sizes / sizeof sizes[0]; i++)
        for (int right_first = 0; right_first < 2; right_first++) {
            lay_chain(sizes[i], right_first);
            must_end("chain", load_and_walk("chain", i), SETTLED_LATER);
            /* a link in the middle cut: all behind it have to be mended again */
            must_end("cut chain", set_and_walk("cut chain", i, 5 * (sizes[i] / 2), 0), SETTLED_LATER);
        }
    lay_chain(LEMBIKAT_MAX_VERTICES, 0);
    must_end("longest chain", load_and_walk("longest chain", 0), SETTLED_LATER);
    call c = sweep_call(state_bytes());
    must_show("longest chain", &c, 0, LEMBIKAT_MAX_LIMIT);
    lay_chain(LEMBIKAT_MAX_VERTICES, 1);
    must_end("longer chain", load_and_walk("longer chain", 0), SPENT);
}

/* Walks on any plans: of codewords damaged within the margin, of codewords damaged further and of noise. Then some bits are
 * set, at the end of the walk or after the first sweeps of another one, and it goes on to the end. */
#define RANDOM_WALKS 300

void random_walks(void)
{
    static uint8_t sent[MAX_BLOCK];
    size_t within = 0, loaded[WALK_ENDS] = {0}, set[WALK_ENDS] = {0};
    for (size_t i = 0; i < RANDOM_WALKS; i++) {
        int sturdy = one_in(2);
        do {
            draw_plan(0, sturdy);
        } while (plan.edges > 4096); /* so that 4,096 sweeps take no minute */
        size_t covered = first_uncovered() - 1;
        draw_codeword(first);
        if (sturdy && covered != 0 && one_in(2)) {
            memcpy(sent, first, plan.block);
            for (size_t flips = covered; flips > 0; flips--)
                flip(first, draw(plan.edges));
            within++;
            if (failed(load_and_walk("within the margin", i) == SPENT || !same_bytes(walked + HEAD, sent, plan.block)))
                printf("FAILED: walk %zu within the margin does not settle at the codeword\n", i);
        } else {
            if (one_in(4))
                draw_noise(first);
            else
                for (size_t flips = draw(2 * covered + 6); flips > 0; flips--)
                    flip(first, draw(plan.edges));
            loaded[load_and_walk("random", i)]++;
        }
        if (one_in(2)) {
            step("random", i, load_call(state_bytes()));
            for (size_t sweeps = 1 + draw(3); sweeps > 0; sweeps--)
                step("random", i, sweep_call(state_bytes()));
        }
        for (size_t bits = draw(4); bits > 0; bits--)
            step("random", i, set_call(draw(plan.edges), draw(2), state_bytes()));
        set[set_and_walk("random, a bit set", i, draw(plan.edges), draw(2))]++;
    }
    printf("states: %d walks, %zu of them within the margin; the others settled at once %zu, later %zu, spent %zu; after a set "
           "bit settled at once %zu, later %zu, spent %zu\n",
           RANDOM_WALKS, within, loaded[SETTLED_AT_ONCE], loaded[SETTLED_LATER], loaded[SPENT], set[SETTLED_AT_ONCE],
           set[SETTLED_LATER], set[SPENT]);
    for (int end = 0; end < WALK_ENDS; end++)
        if (failed(loaded[end] == 0 || set[end] == 0))
            printf("FAILED: no random walk ended in way %d\n", end);
}
