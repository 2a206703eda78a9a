/* Words and tables: the nearest word of every word of some sheets, the cosets, the tables of all d and k. */
#include "reference.h"
#include "subjects.h"

/* Draws rows that begin at different digits, which may be any, in any order. */
static void draw_scattered_rows(side *s)
{
    unsigned begun = 0;
    for (unsigned i = 0; i < s->k;) {
        unsigned top = 1u << draw(s->d);
        if (begun & top)
            continue;
        begun |= top;
        s->row[i++] = top | (unsigned)draw(top);
    }
}

static int same_word_answer(lembikat_word_answer a, lembikat_word_answer b)
{
    return a.number == b.number && a.place == b.place && a.value == b.value && a.changed == b.changed;
}

/* Builds the table of the sheet in a buffer with so many bytes to spare, which must stay as they were. It is then in the first
 * buffer, to be looked up in. Answers how many of its entries are marks. */
static size_t build(const char *kind, size_t spare)
{
    size_t size = table_bytes(), marks = 0;
    call c = plan_call(BUILD_TABLE);
    c.field[LENT] = (bytes){lent, size + spare};
    draw_bytes(lent, size + spare);
    compare(kind, spare, &c);
    must_answer(kind, &c, LEMBIKAT_DONE, 0, 0);
    if (failed(!same_bytes(by_library.lent + size, lent + size, spare)))
        printf("FAILED: %s: a byte beyond the table was written\n", kind);
    memcpy(first, by_library.lent, size + spare);
    for (size_t i = 0; i < size; i += 2)
        marks += first[i] * 256 + first[i + 1] == LEMBIKAT_TIE_MARK;
    return marks;
}

call look_up_call(uint64_t word, size_t size)
{
    call c = plan_call(LOOK_UP);
    c.field[FIRST] = (bytes){first, size};
    c.number = word;
    return c;
}

/* Every word of the sheet looked up in its table, which is in the first buffer: the search answers the same. */
static void all_look_ups(const char *name)
{
    size_t size = sheet_size(&plan.left), differ = 0, last_word = 0;
    for (size_t word = 0; word < (size_t)1 << plan.left.d; word++)
        if (!same_word_answer(lembikat_look_up(left_sheet, size, word, first, table_bytes()),
                              lembikat_nearest_word(left_sheet, size, word))) {
            last_word = word;
            differ++;
        }
    if (failed(differ != 0))
        printf("FAILED: all look-ups of %s (d %u k %u): %zu are not the nearest word, the last of them %zx\n", name,
               plan.left.d, plan.left.k, differ, last_word);
}

/* Every word of a sheet, beside the reference, and how many words stay: the codewords and, by the number given, the ties. Then
 * its table: as many marks as there are cosets of ties, and every word looked up. */
static void all_words_of(const char *name, side s, size_t ties)
{
    size_t words = (size_t)1 << s.d, stay = 0, differ = 0, last_word = 0;
    set_sheet(s);
    for (size_t word = 0; word < words; word++) {
        lembikat_word_answer a = lembikat_nearest_word(left_sheet, sheet_size(&s), word);
        lembikat_word_answer b = reference_nearest_word(left_sheet, sheet_size(&s), word);
        stay += a.number == LEMBIKAT_DONE && a.value == word && a.changed == 0;
        if (!same_word_answer(a, b)) {
            last_word = word;
            differ++;
        }
    }
    if (failed(differ != 0))
        printf("FAILED: all words of %s: %zu are not as in the reference, the last of them %zx\n", name, differ, last_word);
    if (failed(stay != ((size_t)1 << s.k) + ties))
        printf("FAILED: all words of %s: %zu stay, not the %zu codewords and %zu ties\n", name, stay, (size_t)1 << s.k, ties);
    size_t marks = build(name, 0);
    if (failed(marks << s.k != ties))
        printf("FAILED: the table of %s has %zu marks, not one for every %zu of %zu ties\n", name, marks, (size_t)1 << s.k,
               ties);
    all_look_ups(name);
}

/* One word of one sheet, and what comes of it. */
static void word_call(side s, unsigned word, unsigned value, unsigned changed)
{
    set_sheet(s);
    call c = plan_call(NEAREST_WORD);
    c.number = word;
    compare("word", word, &c);
    must_change("word", &c, value, changed);
}

/* Words that are known, and all words of some sheets. How many ties there are: with all bits alike the words that have as many
 * ones as zeros, so none if d is odd. The code of 7 bits is perfect: each word is a codeword or one bit from one alone. The
 * house code and the one with 11 rows are perfect codes with a parity bit: the words two bits away tie, 7 and 15 cosets of
 * them. With 5 rows a word more than 3 bits away ties, since any four bits are half of the eight ones of some codeword. Of the
 * last two codes some words three bits away have one nearest codeword and some have more; these were counted from the codewords
 * outwards, a bit at a time. */
void word_calls(void)
{
    const side perfect = {.d = 7, .k = 4, .row = {0x0b, 0x16, 0x2c, 0x58}};
    const side rows_5 = {.d = 16, .k = 5, .row = {0x5555, 0x3333, 0x0f0f, 0x00ff, 0xffff}};
    const side rows_11 = {
        .d = 16, .k = 11, .row = {0x5555, 0x3333, 0x0f0f, 0x00ff, 0xffff, 0x1111, 0x0505, 0x0303, 0x0055, 0x0033, 0x000f}};
    const side rows_7 = {.d = 16, .k = 7, .row = {0x03a3, 0x0745, 0x0e89, 0x1d11, 0x3a21, 0x7441, 0xe881}};
    const side odd_d = {.d = 15, .k = 7, .row = {0x01d1, 0x03a2, 0x0744, 0x0e88, 0x1d10, 0x3a20, 0x7440}};
    word_call(house_code, 0x01, 0x00, 1);
    word_call(house_code, 0x07, 0x0f, 1);
    word_call(house_code, 0x03, 0x03, 0);
    word_call(house_code, 0xc0, 0xc0, 0);
    word_call(pair_code, 1, 1, 0);
    word_call(pair_code, 2, 2, 0);
    word_call(alike_code(3), 0x4, 0x0, 1);
    word_call(alike_code(4), 0xe, 0xf, 1);
    word_call(alike_code(4), 0xc, 0xc, 0);

    all_words_of("the house code", house_code, 112);
    all_words_of("16 bits alike", alike_code(16), 12870);
    all_words_of("15 bits alike", alike_code(15), 0);
    all_words_of("d 7 k 4", perfect, 0);
    all_words_of("d 16 k 5", rows_5, 43232);
    all_words_of("d 16 k 11", rows_11, 30720);
    all_words_of("d 16 k 7", rows_7, 37760);
    all_words_of("d 15 k 7", odd_d, 8960);
}

/* The cosets of all words of the sheet: in a table whose entries are their own numbers, a look-up puts the coset of a word on
 * the word. Of the words in rising order each is in a coset met before, or it is the smallest of the next one; all words that
 * differ from that one by a codeword are in this coset too. */
static void coset_calls(void)
{
    static size_t coset_of[1 << 16];
    static unsigned codeword[2048];
    const side *s = &plan.left;
    size_t words = (size_t)1 << s->d, codewords = all_codewords(s, codeword), cosets = 0, differ = 0, last_word = 0;
    for (size_t i = 0; i < table_bytes() / 2; i++)
        put_pair(first, i, i);
    for (size_t word = 0; word < words; word++)
        coset_of[word] = words;
    for (size_t word = 0; word < words; word++) {
        if (coset_of[word] == words) {
            for (size_t j = 0; j < codewords; j++)
                coset_of[word ^ codeword[j]] = cosets;
            cosets++;
        }
        lembikat_word_answer a = lembikat_look_up(left_sheet, sheet_size(s), word, first, table_bytes());
        if (a.number != LEMBIKAT_DONE || a.value != (word ^ coset_of[word])) {
            last_word = word;
            differ++;
        }
    }
    if (failed(differ != 0 || cosets != table_bytes() / 2))
        printf("FAILED: the cosets of d %u k %u: %zu, and %zu words are in another one, the last of them %zx\n", s->d, s->k,
               cosets, differ, last_word);
}

/* Tables that have one entry for all cosets, at, below and above 2^d, and the mark. The low d bits count; the mark is the mark
 * whatever d is. */
static void one_entry_calls(void)
{
    const unsigned d = plan.left.d, entries[] = {0, 1, 0x7fff, 0x8000, 0xfffe, 0xffff, (1u << d) - 1, 1u << d % 16, 0xff00};
    for (size_t i = 0; i < sizeof entries / sizeof entries[0]; i++) {
        for (size_t j = 0; j < table_bytes() / 2; j++)
            put_pair(first, j, entries[i]);
        size_t word = draw((size_t)1 << d), changed = 0;
        unsigned pattern = entries[i] == LEMBIKAT_TIE_MARK ? 0 : entries[i] & ((1u << d) - 1);
        for (unsigned j = 0; j < d; j++)
            changed += pattern >> j & 1;
        call c = look_up_call(word, table_bytes());
        compare("one entry", entries[i], &c);
        must_change("one entry", &c, word ^ pattern, changed);
    }
}

/* Tables that are too short, words that are too large, one of which would look right if it were cut to 32 bits, and both: the
 * word is looked at first. The bytes of a table too short stay. */
static void short_table_calls(void)
{
    const size_t sizes[] = {0, table_bytes() - 1, table_bytes()};
    const uint64_t above = (uint64_t)1 << plan.left.d, words[] = {above - 1, above, ((uint64_t)1 << 32) + above - 1};
    for (size_t i = 0; i < sizeof sizes / sizeof sizes[0]; i++) {
        uint32_t number = sizes[i] < table_bytes() ? LEMBIKAT_OUTPUT_SHORT : LEMBIKAT_DONE;
        call c = plan_call(BUILD_TABLE);
        c.field[LENT] = (bytes){lent, sizes[i]};
        compare("short table", i, &c);
        must_answer("short table", &c, number, 0, 0);
        memset(first, 0, sizes[i]);
        for (size_t j = 0; j < sizeof words / sizeof words[0]; j++) {
            c = look_up_call(words[j], sizes[i]);
            compare("short table", i, &c);
            if (words[j] >= above)
                must_answer("short table", &c, LEMBIKAT_STRAY_BIT, 0, 0);
            else
                must_answer("short table", &c, number, 0, number == LEMBIKAT_DONE ? words[j] : 0);
        }
    }
}

/* Random words looked up in the first buffer. */
static void random_look_ups(const char *kind, size_t size)
{
    for (size_t i = 0; i < 4; i++) {
        call c = look_up_call(draw((size_t)1 << plan.left.d), size);
        compare(kind, i, &c);
    }
}

/* Tables of every d and k: faults, other tables than the sheet's own, all cosets, and all words in the sheet's own. The sheets
 * are drawn in two ways: rows at random, which mostly begin at the highest digits, and rows that begin at any digits, these
 * with tables longer than needed. */
void table_calls(void)
{
    static const unsigned house_entries[16] = {0x0000, 0x0001, 0x0002, 0xffff, 0x0004, 0xffff, 0xffff, 0x0008,
                                               0x0010, 0xffff, 0xffff, 0x0020, 0xffff, 0x0040, 0x0080, 0xffff};
    set_sheet(house_code);
    build("house table", 0);
    for (size_t i = 0; i < 16; i++)
        if (failed(first[2 * i] * 256u + first[2 * i + 1] != house_entries[i]))
            printf("FAILED: entry %zu of the house table is not %04x\n", i, house_entries[i]);

    for (unsigned d = 2; d <= 16; d++)
        for (unsigned k = 1; k <= smaller(d, 11); k++)
            for (int scattered = 0; scattered < 2; scattered++) {
                side s = {.d = d, .k = k};
                if (scattered)
                    draw_scattered_rows(&s);
                else
                    draw_rows(&s, 0);
                set_sheet(s);
                if (!scattered) {
                    short_table_calls();
                    one_entry_calls();
                }
                size_t spare = scattered ? 1 + draw(40) : 0;
                coset_calls();
                draw_bytes(first, table_bytes() + spare);
                random_look_ups("foreign table", table_bytes() + spare);
                build("table", spare);
                random_look_ups("table", table_bytes() + spare);
                all_look_ups("a table");
            }
}
