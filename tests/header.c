/* What a host can ask of lembikat.h without a call, in C and in C++: tests/header.sh compiles this file in both languages and
 * compares what it prints, the version and then every number with its name. */
#include "lembikat.h"

#include <stdio.h>

#define MAJOR LEMBIKAT_VERSION_MAJOR
#define MINOR LEMBIKAT_VERSION_MINOR
#define PATCH LEMBIKAT_VERSION_PATCH

#if !LEMBIKAT_VERSION_AT_LEAST(MAJOR, MINOR, PATCH) || !LEMBIKAT_VERSION_AT_LEAST(MAJOR - 1, 999, 999)
#error "the version is not at least itself, or an earlier one"
#endif
#if LEMBIKAT_VERSION_AT_LEAST(MAJOR, MINOR, PATCH + 1) || LEMBIKAT_VERSION_AT_LEAST(MAJOR, MINOR + 1, 0) ||                    \
    LEMBIKAT_VERSION_AT_LEAST(MAJOR + 1, 0, 0)
#error "the version is at least a later one"
#endif

/* The sizes follow from the largest d, 16, the most rows, 11, and one another. */
#if LEMBIKAT_MAX_EDGES != LEMBIKAT_MAX_VERTICES * 16 || LEMBIKAT_MAX_SHEET_BYTES != 2 + 2 * 11 ||                              \
    LEMBIKAT_MAX_WIRING_BYTES != 2 * LEMBIKAT_MAX_EDGES || LEMBIKAT_MAX_BLOCK_BYTES != LEMBIKAT_MAX_EDGES / 8 ||               \
    LEMBIKAT_MAX_STATE_BYTES != LEMBIKAT_STATE_HEAD_BYTES + LEMBIKAT_MAX_BLOCK_BYTES ||                                        \
    LEMBIKAT_MAX_LIST_BYTES != (LEMBIKAT_MAX_EDGES + 1) / 2 * 4 ||                                                             \
    LEMBIKAT_MAX_MESSAGE_BYTES != LEMBIKAT_MAX_MESSAGE_EDGES / 8 || LEMBIKAT_MAX_TABLE_BYTES != 2 * (1 << (16 - 1))
#error "the largest sizes do not fit one another"
#endif

#if LEMBIKAT_TIE_MARK != 65535
#error "an entry of two bytes marks a tie where it is all ones"
#endif

#if LEMBIKAT_SUMS != 64 || LEMBIKAT_MAX_EDGES > 65535
#error "the decoder tells the sums of 64 sweeps, each in 16 bits"
#endif

#if LEMBIKAT_STATE_HEAD_BYTES != 4 || 2 * LEMBIKAT_MAX_VERTICES > 65535 || LEMBIKAT_MAX_LIMIT > 65535
#error "a state tells all vertices of both sides and the most sweeps, each in 16 bits"
#endif

/* Without a default: the compiler complains where a name of the enum is missing here. */
static const char *name_of(enum lembikat_outcome outcome)
{
#define NAMED(name)                                                                                                            \
    case name:                                                                                                                 \
        return #name
    switch (outcome) {
        NAMED(LEMBIKAT_DONE);
        NAMED(LEMBIKAT_SHEET_SHORT);
        NAMED(LEMBIKAT_DEGREE_OUT_OF_RANGE);
        NAMED(LEMBIKAT_ROWS_OUT_OF_RANGE);
        NAMED(LEMBIKAT_SHEET_LENGTH_WRONG);
        NAMED(LEMBIKAT_ROW_TOO_LARGE);
        NAMED(LEMBIKAT_ROW_DEPENDENT);
        NAMED(LEMBIKAT_VERTICES_OUT_OF_RANGE);
        NAMED(LEMBIKAT_WIRING_LENGTH_WRONG);
        NAMED(LEMBIKAT_ENTRY_TOO_LARGE);
        NAMED(LEMBIKAT_ENTRY_REPEATED);
        NAMED(LEMBIKAT_BLOCK_LENGTH_WRONG);
        NAMED(LEMBIKAT_STRAY_BIT);
        NAMED(LEMBIKAT_OUTPUT_SHORT);
        NAMED(LEMBIKAT_LIMIT_TOO_LARGE);
        NAMED(LEMBIKAT_UNSETTLED);
        NAMED(LEMBIKAT_LIST_SHORT);
        NAMED(LEMBIKAT_FLIPS_TOO_MANY);
        NAMED(LEMBIKAT_FLIPS_NOT_COVERED);
        NAMED(LEMBIKAT_PLAN_TOO_LARGE);
        NAMED(LEMBIKAT_MESSAGE_LENGTH_WRONG);
        NAMED(LEMBIKAT_MESSAGE_STRAY_BIT);
        NAMED(LEMBIKAT_NO_CODEWORD);
        NAMED(LEMBIKAT_EDGE_COUNTS_DIFFER);
        NAMED(LEMBIKAT_SPANS_LENGTH_WRONG);
        NAMED(LEMBIKAT_SPAN_OUT_OF_BLOCK);
        NAMED(LEMBIKAT_SPAN_OUT_OF_ORDER);
        NAMED(LEMBIKAT_BIT_TOO_LARGE);
        NAMED(LEMBIKAT_SWEEPS_SPENT);
    }
    return "no name";
}

/* Each call on a plan in one piece takes what its name says and answers what the call on the parts does. No call is made. */
static int calls_on_a_plan_fit(void)
{
    const uint8_t bytes[1] = {0};
    uint8_t written[1] = {0};
    lembikat_plan plan = {bytes, 1, bytes, 1, 1, 1, bytes, 1};
    return plan.left_sheet_bytes == 1 && plan.right_sheet == bytes && plan.nl == 1 && plan.nr == 1 && plan.wiring == bytes &&
           sizeof lembikat_plan_locate(&plan, bytes, 1) == sizeof(lembikat_answer) &&
           sizeof lembikat_plan_decode(&plan, bytes, 1, bytes, 1, written, 1, 1) == sizeof(lembikat_decode_answer) &&
           sizeof lembikat_plan_load_state(&plan, bytes, 1, written, 1) == sizeof(lembikat_state_answer) &&
           sizeof lembikat_plan_sweep_state(&plan, written, 1) == sizeof(lembikat_state_answer) &&
           sizeof lembikat_plan_set_bit(&plan, 1, 1, written, 1) == sizeof(lembikat_state_answer) &&
           sizeof lembikat_plan_report(&plan, bytes, 1, bytes, 1, written, 1) == sizeof(lembikat_answer) &&
           sizeof lembikat_plan_spread(&plan) == sizeof(lembikat_answer) &&
           sizeof lembikat_plan_margin(&plan, 1) == sizeof(lembikat_answer) &&
           sizeof lembikat_plan_encode(&plan, bytes, 1, written, 1) == sizeof(lembikat_answer) &&
           sizeof lembikat_plan_read(&plan, bytes, 1, written, 1) == sizeof(lembikat_answer);
}

/* The calls on a sheet take what the header says. No call is made. */
static int calls_on_a_sheet_fit(void)
{
    const uint8_t bytes[1] = {0};
    uint8_t written[1] = {0};
    return bytes[0] == written[0] && sizeof lembikat_nearest_word(bytes, 1, 1) == sizeof(lembikat_word_answer) &&
           sizeof lembikat_build_table(bytes, 1, written, 1) == sizeof(lembikat_answer) &&
           sizeof lembikat_look_up(bytes, 1, 1, bytes, 1) == sizeof(lembikat_word_answer);
}

/* The bytes of a table: of constants, so that a host may size an array by them, of a sheet's own bytes, and of sums, within a
 * sum. For every d and k there are two for each word of d - k digits. They are a size_t. */
static int table_bytes_fit(void)
{
    static uint8_t house[LEMBIKAT_TABLE_BYTES(8, 4)], largest[LEMBIKAT_TABLE_BYTES(16, 1)];
    uint8_t sheet[2];
    for (sheet[0] = 2; sheet[0] <= 16; sheet[0]++)
        for (sheet[1] = 1; sheet[1] <= 11 && sheet[1] <= sheet[0]; sheet[1]++) {
            size_t bytes = 2;
            int d = sheet[0], k = sheet[1];
            for (int digits = k; digits < d; digits++)
                bytes *= 2;
            if (LEMBIKAT_TABLE_BYTES(sheet[0], sheet[1]) != bytes || LEMBIKAT_TABLE_BYTES(d + 1, k + 1) - bytes != 0 ||
                bytes > LEMBIKAT_MAX_TABLE_BYTES)
                return 0;
        }
    return sizeof house == 32 && sizeof largest == LEMBIKAT_MAX_TABLE_BYTES && house[0] == largest[0] &&
           sizeof(LEMBIKAT_TABLE_BYTES(8, 4)) == sizeof(size_t);
}

/* The bytes of a state: of a constant, so that a host may size an array by them, of a sum, within a sum, and for every number
 * of bits so many more than a block's. They are a size_t. */
static int state_bytes_fit(void)
{
    static uint8_t pair[LEMBIKAT_STATE_BYTES(2)], largest[LEMBIKAT_STATE_BYTES(LEMBIKAT_MAX_EDGES)];
    for (int bits = 0; bits < LEMBIKAT_MAX_EDGES; bits++)
        if (LEMBIKAT_STATE_BYTES(bits + 1) - LEMBIKAT_BLOCK_BYTES(1, bits + 1) != LEMBIKAT_STATE_HEAD_BYTES ||
            2 * LEMBIKAT_STATE_BYTES(bits) != 8 + 2 * LEMBIKAT_BLOCK_BYTES(bits, 1))
            return 0;
    return sizeof pair == 5 && sizeof largest == LEMBIKAT_MAX_STATE_BYTES && pair[0] == largest[0] &&
           sizeof(LEMBIKAT_STATE_BYTES(2)) == sizeof(size_t);
}

/* Spans as the initialiser of an array: of constants, and of sums of a host's own numbers of any width. */
static int spans_fit(void)
{
    static const uint8_t fixed[] = {LEMBIKAT_SPAN(40, 9), LEMBIKAT_SPAN(0x1234, 0xabcd), LEMBIKAT_SPAN(1 << 8 | 2, 3 << 8)};
    static const uint8_t expected[] = {0, 40, 0, 9, 0x12, 0x34, 0xab, 0xcd, 1, 2, 3, 0};
    size_t offset = 255;
    uint8_t length = 255;
    const uint8_t counted[] = {LEMBIKAT_SPAN(offset + 1, length + 2)};
    for (size_t i = 0; i < sizeof fixed; i++)
        if (fixed[i] != expected[i])
            return 0;
    return sizeof fixed == 3 * LEMBIKAT_SPAN_BYTES && sizeof fixed == sizeof expected &&
           sizeof counted == LEMBIKAT_SPAN_BYTES && counted[0] == 1 && counted[1] == 0 && counted[2] == 1 && counted[3] == 1;
}

int main(void)
{
    lembikat_answer answer = {LEMBIKAT_DONE, LEMBIKAT_NONE, 0};
    lembikat_word_answer word;
    lembikat_decode_answer decoded;
    lembikat_state_answer shown;
    if (!calls_on_a_plan_fit() || !calls_on_a_sheet_fit() || !table_bytes_fit() || !state_bytes_fit() || !spans_fit())
        return 1;
    if (sizeof answer.number != sizeof(uint32_t))
        return 1;
    /* The fields of an answer follow one another without a gap, as the library fills them. */
    if (sizeof answer != 16 || sizeof word != 24 || sizeof word.changed != 8 || sizeof decoded != 152 ||
        sizeof decoded.sums != 128 || sizeof decoded.visits != 8 || sizeof shown != 24 || sizeof shown.sweeps != 8)
        return 1;
    if (offsetof(lembikat_decode_answer, sums) != 16 || offsetof(lembikat_decode_answer, visits) != 144)
        return 1;
    printf("version %s, numbers %d %d %d\n", LEMBIKAT_VERSION, MAJOR, MINOR, PATCH);
    for (; answer.number <= LEMBIKAT_SWEEPS_SPENT; answer.number++)
        printf("%d %s\n", (int)answer.number, name_of((enum lembikat_outcome)answer.number));
    return 0;
}
