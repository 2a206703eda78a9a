/* margin_sheet: the program margin by calls. It reads a plan from standard input, as margin does, and writes the same sheet.
 *
 * lembikat_plan_from_bytes takes the plan apart; it checks nothing, since every call does. The numbers of the first line stand
 * in an accepted plan, but for the spread, which is a call, and the inner distances, which are counted here. The exit status is
 * 1 with a refusal, and what is wrong goes to standard error in words.
 */
#include "lembikat.h"

#include <inttypes.h>
#include <stdio.h>

/* One byte more than any plan that is accepted: an input that is longer is refused for its length, whatever follows. */
static uint8_t input[LEMBIKAT_MAX_PLAN_BYTES + 1];

/* How many ones a number has. */
static unsigned ones(unsigned number)
{
    unsigned count = 0;
    for (; number != 0; number &= number - 1)
        count++;
    return count;
}

/* The inner distance: the fewest ones in a nonzero exclusive-or of the rows. The sheet was accepted, so it is whole, no such
 * exclusive-or is zero, and there are at most 2,047. */
static unsigned distance(const uint8_t *sheet)
{
    unsigned d = sheet[0], k = sheet[1], fewest = d;
    for (unsigned chosen = 1; chosen < 1u << k; chosen++) {
        unsigned word = 0;
        for (unsigned row = 0; row < k; row++)
            if (chosen >> row & 1)
                word ^= (unsigned)sheet[2 + 2 * row] << 8 | sheet[3 + 2 * row];
        if (ones(word) < fewest)
            fewest = ones(word);
    }
    return fewest;
}

int main(void)
{
    lembikat_plan plan;
    lembikat_plan_from_bytes(input, fread(input, 1, sizeof input, stdin), &plan);
    lembikat_answer spread = lembikat_plan_spread(&plan);
    if (spread.number != LEMBIKAT_DONE) {
        printf("refused %" PRIu32 " %" PRIu32 "\n", spread.number, spread.place);
        fprintf(stderr, "margin_sheet: %s\n", lembikat_in_words(spread.number));
        return 1;
    }
    const uint8_t *left = plan.left_sheet, *right = plan.right_sheet;
    printf("n %zu %zu d %u %u k %u %u distance %u %u spread %" PRIu64 "\n", plan.nl, plan.nr, left[0], right[0], left[1],
           right[1], distance(left), distance(right), spread.value);
    uint64_t flips = 0;
    for (;; flips++) {
        lembikat_answer sweeps = lembikat_plan_margin(&plan, flips);
        if (sweeps.number != LEMBIKAT_DONE)
            break;
        printf("%" PRIu64 " %" PRIu64 "\n", flips, sweeps.value);
    }
    printf("beyond %" PRIu64 "\n", flips);
    return 0;
}
