/* lembikat.h: blocks of Zemor's graph code, checked, decoded, explained and guaranteed.
 *
 * A plan is two sheets (the inner codes of the left and the right side), two counts of vertices and a wiring (the bipartite
 * graph). The sides may be unequal in all of it. Every call takes the plan, or the one sheet that it needs, anew and keeps
 * nothing.
 * Link with -llembikat; of the host it needs nothing but memset and memcpy, which every hosted C has. The source of the calls
 * is proved to meet its contracts: for whatever bytes and numbers a call is given, they say what it answers, that it ends, and
 * which bytes it writes. This header describes the contracts.
 *
 * THE PLAN
 *   left_sheet, right_sheet
 *            the inner code of each side. Byte 0 is d, the bits a vertex of the side reads (2 to 16), called dl on the left and
 *            dr on the right; byte 1 is k, the number of rows (1 to 11, at most d); then k rows of two bytes, high byte first.
 *            The inner codewords are all exclusive-ors of rows. D, the inner distance, is the fewest ones in a nonzero one.
 *   nl, nr   the number of vertices on the left and on the right, 1 to 2,048 each. N = nl * dl is the number of edges, one bit
 *            each; nr * dr must be the same number.
 *   wiring   N entries of two bytes, high byte first. Entries v * dr to v * dr + dr - 1 are the edges of right vertex v in
 *            order. Left vertex u has the edges u * dl to u * dl + dl - 1. Every edge stands exactly once; two vertices may
 *            share more than one.
 *   A plan with equal sides names one sheet and one count twice. lembikat_plan holds the parts together, so that a host writes
 *   them once.
 *
 * BLOCKS AND MESSAGES
 *   A block is N / 8 bytes, rounded up. Bit 0 has weight 128 in byte 0; the bits after bit N - 1 are zero. It is a codeword if
 *   every left vertex reads a codeword of the left sheet and every right vertex one of the right sheet, a vertex's first edge
 *   having the highest weight.
 *   A message is K / 8 bytes, rounded up, with the same order of bits and zero bits after bit K - 1; K depends on the plan
 *   alone and is at most N.
 *
 * LOST SPANS
 *   Of a received block a receiver may know that some bits were lost (erasures): what they hold means nothing. A list of lost
 *   spans names them, four bytes a span: the number of its first bit and its length in bits, two bytes each, high byte first.
 *   LEMBIKAT_SPAN writes a span; a list of lembikat_report has the same form. A span has at least one bit and ends within the
 *   block. The spans stand in rising order and do not overlap; one may begin where the one before it ends. The list may be
 *   empty, and where no bit was lost it is.
 *
 * STATES
 *   A host that shows how a block settles, sweep by sweep, keeps a state of it, LEMBIKAT_STATE_BYTES(N) bytes:
 *     bytes 0 and 1   the count of unsatisfied vertices, those that read no codeword of their side's sheet, left and right
 *                     together, high byte first
 *     bytes 2 and 3   the sweep number, how many sweeps were made since the state was loaded or a bit of it was set, high byte
 *                     first
 *     from byte 4 on  the block, as above
 *   lembikat_load_state makes a state of a block, lembikat_sweep_state makes one sweep on it, lembikat_set_bit sets one of its
 *   bits. A state is settled exactly when its count is 0.
 *   A state is the host's own bytes, and they are all that a call knows of it: a host may have any number of states, and copy
 *   and store them. A state does not say which plan it is of. Its count and its sweep number are not held to its block: they
 *   are taken as they stand, whatever they are. The count changes as the true one does, modulo 65,536, so that a true count, at
 *   most nl + nr, stays true. From loading on it is true as long as every call names the same plan and the host writes nothing
 *   into the state by itself.
 *
 * REFUSALS
 *   A call checks from the top of this list down, as far as the numbers concern it, and stops at the first that applies. A
 *   refused call has written nothing, with one exception: after LEMBIKAT_UNSETTLED the front of the output holds the received
 *   block. The left sheet is checked by 1 to 6, then the right one by 1 to 6; a refusal does not say which sheet it was.
 *   "The plan's" refusals below are 1 to 7, 23, and 8 to 10, in this order.
 *
 *   number  name                            place  condition
 *        1  LEMBIKAT_SHEET_SHORT                0  sheet: fewer than 2 bytes
 *        2  LEMBIKAT_DEGREE_OUT_OF_RANGE        0  sheet: d is not 2 to 16
 *        3  LEMBIKAT_ROWS_OUT_OF_RANGE          0  sheet: k is not 1 to 11, or is above d
 *        4  LEMBIKAT_SHEET_LENGTH_WRONG         0  sheet: its length is not 2 + 2k
 *        5  LEMBIKAT_ROW_TOO_LARGE            row  sheet: the first faulty row is at or above 2^d
 *        6  LEMBIKAT_ROW_DEPENDENT            row  sheet: the first faulty row is an exclusive-or of earlier rows (zero is)
 *        7  LEMBIKAT_VERTICES_OUT_OF_RANGE      0  wiring: nl is not 1 to 2,048, or nr is not
 *       23  LEMBIKAT_EDGE_COUNTS_DIFFER         0  wiring: nl * dl is not nr * dr
 *        8  LEMBIKAT_WIRING_LENGTH_WRONG        0  wiring: its length is not 2N
 *        9  LEMBIKAT_ENTRY_TOO_LARGE        entry  wiring: the first faulty entry is at or above N
 *       10  LEMBIKAT_ENTRY_REPEATED         entry  wiring: the first faulty entry stood before
 *       19  LEMBIKAT_PLAN_TOO_LARGE             0  encode, read: N is above 512
 *       11  LEMBIKAT_BLOCK_LENGTH_WRONG         0  block: its length is not N / 8 rounded up;
 *                                                  sweep, set: the state's length is not 4 + N / 8 rounded up
 *       12  LEMBIKAT_STRAY_BIT                  0  block, also that of a state: a bit after N - 1 is set;
 *                                                  nearest word, look-up: word at or above 2^d
 *       24  LEMBIKAT_SPANS_LENGTH_WRONG         0  decode: the length of the list of lost spans is not a multiple of 4
 *       25  LEMBIKAT_SPAN_OUT_OF_BLOCK          0  decode: the first faulty span has no bit, or one after bit N - 1
 *       26  LEMBIKAT_SPAN_OUT_OF_ORDER          0  decode: the first faulty span begins before the end of the one before it
 *       27  LEMBIKAT_BIT_TOO_LARGE              0  set: the bit is at or above N
 *       28  LEMBIKAT_SWEEPS_SPENT               0  sweep: the count is not 0 and the sweep number is 4,096 or above
 *       22  LEMBIKAT_NO_CODEWORD                0  read: the block is no codeword
 *       20  LEMBIKAT_MESSAGE_LENGTH_WRONG       0  encode: the message's length is not K / 8 rounded up
 *       21  LEMBIKAT_MESSAGE_STRAY_BIT          0  encode: a bit after K - 1 is set
 *       13  LEMBIKAT_OUTPUT_SHORT               0  output: shorter than the block, message or table to be written;
 *                                                  load: the state is shorter than 4 + N / 8 rounded up;
 *                                                  look-up: the table has fewer than 2^(d - k) entries
 *       14  LEMBIKAT_LIMIT_TOO_LARGE            0  decode: limit is above 4,096
 *       15  LEMBIKAT_UNSETTLED                  0  decode: unsettled after `limit` sweeps, with lost spans in both trials
 *       16  LEMBIKAT_LIST_SHORT                 0  report: the list is shorter than 4 bytes a pair
 *       17  LEMBIKAT_FLIPS_TOO_MANY             0  margin: flips is above N
 *       18  LEMBIKAT_FLIPS_NOT_COVERED          0  margin: so many flips are not covered
 *   Rows and entries are counted from 0.
 *
 * THREADS AND BUFFERS
 *   The library keeps nothing: any number of threads may call at once, as long as no thread writes to a buffer that another
 *   call uses.
 *   The buffer that a call writes (output, list, state) must not overlap any other that it is given; those that it only reads
 *   may overlap.
 *   A buffer of no bytes, such as an empty list of lost spans, may be NULL. A buffer may be longer than needed where it is
 *   written: bytes beyond stay untouched. Only the state of a sweep or set call must have its exact length. The table of a
 *   look-up may be longer too: bytes beyond do not matter. A table, once built, may serve any number of threads.
 *   No call takes memory from the heap. Stack use is given with each call. The figures are worked out from the archive's own
 *   instructions, for the deepest chain of calls, and hold whatever the input; they begin with the return address. On top come
 *   the arguments and the room for the answer, which are the caller's, what the host's memset and memcpy take, and what its
 *   dynamic linker takes where it looks for them at their first call.
 */
#ifndef LEMBIKAT_H
#define LEMBIKAT_H

#include <stddef.h>
#include <stdint.h>

#ifdef __cplusplus
extern "C" {
#endif

/* The version, as text (pkg-config tells the same) and as numbers; the last two are below 1,000 each. LEMBIKAT_VERSION_NUMBER
 * rises with every version, the first number where a caller must change its code, or must be compiled anew since an answer has
 * another size. A host asks for a version or a later one so:
 *   #if LEMBIKAT_VERSION_AT_LEAST(5, 0, 0) */
#define LEMBIKAT_VERSION "5.0.1"
#define LEMBIKAT_VERSION_MAJOR 5
#define LEMBIKAT_VERSION_MINOR 0
#define LEMBIKAT_VERSION_PATCH 1
#define LEMBIKAT_VERSION_AS_NUMBER(major, minor, patch) (1000000L * (major) + 1000L * (minor) + (patch))
#define LEMBIKAT_VERSION_NUMBER                                                                                                \
    LEMBIKAT_VERSION_AS_NUMBER(LEMBIKAT_VERSION_MAJOR, LEMBIKAT_VERSION_MINOR, LEMBIKAT_VERSION_PATCH)
#define LEMBIKAT_VERSION_AT_LEAST(major, minor, patch)                                                                         \
    (LEMBIKAT_VERSION_NUMBER >= LEMBIKAT_VERSION_AS_NUMBER(major, minor, patch))

/* The largest values over all plans. Names that end in BYTES count bytes. */
#define LEMBIKAT_MAX_VERTICES 2048      /* nl, nr, the vertices of a side */
#define LEMBIKAT_MAX_EDGES 32768        /* N, the edges of a plan and the bits of a block */
#define LEMBIKAT_MAX_SHEET_BYTES 24     /* a sheet of 11 rows */
#define LEMBIKAT_MAX_TABLE_BYTES 65536  /* a table of d 16 and k 1, two bytes a class */
#define LEMBIKAT_MAX_WIRING_BYTES 65536 /* two bytes an edge */
#define LEMBIKAT_MAX_BLOCK_BYTES 4096   /* a bit an edge */
#define LEMBIKAT_MAX_STATE_BYTES 4100   /* a block, its count and its sweep number */
#define LEMBIKAT_MAX_LIST_BYTES 65536   /* a report of (N + 1) / 2 runs, four bytes each */
#define LEMBIKAT_MAX_MESSAGE_EDGES 512  /* N, for encode and read */
#define LEMBIKAT_MAX_MESSAGE_BYTES 64   /* a message, or a block that carries one */
#define LEMBIKAT_MAX_LIMIT 4096         /* in sweeps: the decoder's limit, and the most that a state is given */

/* The bytes of a block, where a side has n vertices that read d bits each. The left side's nl and dl and the right side's nr
 * and dr give the same. */
#define LEMBIKAT_BLOCK_BYTES(n, d) (((size_t)(n) * (size_t)(d) + 7) / 8)

/* The bytes of a state, where a block has N bits, and of those the ones before its block: the count and the sweep number. */
#define LEMBIKAT_STATE_HEAD_BYTES 4
#define LEMBIKAT_STATE_BYTES(N) (LEMBIKAT_STATE_HEAD_BYTES + ((size_t)(N) + 7) / 8)

/* The bytes of a table, for the d and k of a sheet that is not refused: two for each of 2^(d - k) classes. */
#define LEMBIKAT_TABLE_BYTES(d, k) ((size_t)2 << ((d) - (k)))

/* A span of a list of lost spans, by its bytes: four values for an array's initialiser. Both numbers are below 65,536, and each
 * is worked out twice. The nine bits 40 to 48 and the three bits 96 to 98 are
 *   const uint8_t lost[] = {LEMBIKAT_SPAN(40, 9), LEMBIKAT_SPAN(96, 3)}; */
#define LEMBIKAT_SPAN_BYTES 4
#define LEMBIKAT_SPAN(offset, length) (uint8_t)((offset) >> 8), (uint8_t)(offset), (uint8_t)((length) >> 8), (uint8_t)(length)

/* The entry of a table that marks a tie. */
#define LEMBIKAT_TIE_MARK 0xFFFF

/* How a call ended: the names of the table above, with their numbers. */
enum lembikat_outcome {
    LEMBIKAT_DONE = 0,
    LEMBIKAT_SHEET_SHORT = 1,
    LEMBIKAT_DEGREE_OUT_OF_RANGE = 2,
    LEMBIKAT_ROWS_OUT_OF_RANGE = 3,
    LEMBIKAT_SHEET_LENGTH_WRONG = 4,
    LEMBIKAT_ROW_TOO_LARGE = 5,
    LEMBIKAT_ROW_DEPENDENT = 6,
    LEMBIKAT_VERTICES_OUT_OF_RANGE = 7,
    LEMBIKAT_WIRING_LENGTH_WRONG = 8,
    LEMBIKAT_ENTRY_TOO_LARGE = 9,
    LEMBIKAT_ENTRY_REPEATED = 10,
    LEMBIKAT_BLOCK_LENGTH_WRONG = 11,
    LEMBIKAT_STRAY_BIT = 12,
    LEMBIKAT_OUTPUT_SHORT = 13,
    LEMBIKAT_LIMIT_TOO_LARGE = 14,
    LEMBIKAT_UNSETTLED = 15,
    LEMBIKAT_LIST_SHORT = 16,
    LEMBIKAT_FLIPS_TOO_MANY = 17,
    LEMBIKAT_FLIPS_NOT_COVERED = 18,
    LEMBIKAT_PLAN_TOO_LARGE = 19,
    LEMBIKAT_MESSAGE_LENGTH_WRONG = 20,
    LEMBIKAT_MESSAGE_STRAY_BIT = 21,
    LEMBIKAT_NO_CODEWORD = 22,
    LEMBIKAT_EDGE_COUNTS_DIFFER = 23,
    LEMBIKAT_SPANS_LENGTH_WRONG = 24,
    LEMBIKAT_SPAN_OUT_OF_BLOCK = 25,
    LEMBIKAT_SPAN_OUT_OF_ORDER = 26,
    LEMBIKAT_BIT_TOO_LARGE = 27,
    LEMBIKAT_SWEEPS_SPENT = 28,
};

/* What a call answers. The answers of the nearest word, of the look-up, of the decoder and of the calls on a state begin alike
 * and tell more.
 *   number   LEMBIKAT_DONE, else the number of the refusal. It is 32 bits wide whatever a compiler makes of an enum
 *   place    the row or entry at fault for 5, 6, 9 and 10; 0 with every other refusal. Of a call that is done: 0, but for
 *            lembikat_locate
 *   value    what the call found; 0 with a refusal
 */
typedef struct {
    uint32_t number;
    uint32_t place;
    uint64_t value;
} lembikat_answer;

/* What lembikat_nearest_word and lembikat_look_up answer: number, place and value as above, and
 *   changed  in how many bits `value` differs from the word, 0 where the word stays, as a codeword or a tie does; 0 with a
 *            refusal
 */
typedef struct {
    uint32_t number;
    uint32_t place;
    uint64_t value;
    uint64_t changed;
} lembikat_word_answer;

#define LEMBIKAT_SUMS 64 /* the sweeps whose sums a decoder call tells */

/* What lembikat_decode answers: number, place and value as above, and
 *   sums     how hard the decoder worked, sweep by sweep: sums[i] is how many bits sweep i + 1 changed, those in which the
 *            block after i sweeps and the block after i + 1 sweeps differ. Each sum is one sweep's own, not a running total;
 *            a sweep changes at most 32,768 bits, so 16 bits hold it.
 *            Sweeps that are not counted have 0. A block that settled had `value` sweeps; with LEMBIKAT_UNSETTLED `limit`
 *            sweeps are counted, and their sums are told too. With any other refusal all sums are 0. Sweeps after the 64th are
 *            not told.
 *            With lost spans they are those of one trial: the one kept, and with LEMBIKAT_UNSETTLED the one with zeros.
 *   visits   how many vertices the decoder visited, in all sweeps together: the nl vertices of the left side in sweep 1, the nr
 *            of the right side in sweep 2, and in each later sweep those vertices of its side that have a bit which the sweep
 *            before changed. A vertex is visited at most once in a sweep, however many of its bits were changed; it counts
 *            whether or not the visit changes anything. To visit the others too would change no bit: block, sweeps and sums are
 *            those of visiting the whole side in every sweep.
 *            The visits are those of the sweeps that are counted: `value` of them where the block settled, `limit` with
 *            LEMBIKAT_UNSETTLED, those after the 64th too. Up to two more may be made to test the block; they are not told.
 *            So it is 0 where no sweep is counted, nl after one sweep, nl + nr after two, and at most 4,096 * 2,048. With any
 *            other refusal it is 0. With lost spans it is that of the trial whose sums are told.
 * What one sweep changed a later one may change back; lembikat_report tells how the settled block differs from the received.
 * The sums are no part of the guarantee, nor are the visits but for a bound. Let lembikat_margin cover F flips and name q
 * sweeps; call the b that it begins with b_1, the next one b_2, and so on. A codeword of which at most F bits are flipped and
 * none is lost takes, whatever the limit, at most nl + nr visits plus, for each sweep i from 3 to q, b_(i-2) + d * b_(i-1),
 * with the d of the side that sweep i - 1 sweeps: dl where i is even, dr where it is odd.
 */
typedef struct {
    uint32_t number;
    uint32_t place;
    uint64_t value;
    uint16_t sums[LEMBIKAT_SUMS];
    uint64_t visits;
} lembikat_decode_answer;

/* What lembikat_load_state, lembikat_sweep_state and lembikat_set_bit answer: number and place as above, and, so that a host
 * need not take the state apart, what stands in it after the call:
 *   value    the count of unsatisfied vertices, 0 where the state is settled; 0 with a refusal
 *   sweeps   the sweep number; 0 with a refusal
 */
typedef struct {
    uint32_t number;
    uint32_t place;
    uint64_t value;
    uint64_t sweeps;
} lembikat_state_answer;

/* The sides, as lembikat_locate tells them in `place`. */
#define LEMBIKAT_NONE 0
#define LEMBIKAT_LEFT 1
#define LEMBIKAT_RIGHT 2

/* The calls. All but the first three, which need one sheet alone, begin with the eight parameters of the plan. */

/* The nearest word of a word of d bits. Of all error patterns that turn the word into an inner codeword those with the fewest
 * ones are taken. If there is exactly one, it is put on the word. If there is more than one, a tie, the word stays as it is: it
 * is no codeword, and 0 bits are changed. A codeword stays too; the answer does not say which of the two the word was.
 *   value: the codeword, or the word itself at a tie.  changed: the ones of the pattern, or 0 at a tie.
 *   Refusals: 1 to 6, 12.  Stack: at most 5 KiB. */
lembikat_word_answer lembikat_nearest_word(const uint8_t *sheet, size_t sheet_bytes, uint64_t word);

/* Builds the table of a sheet, in which lembikat_look_up finds at once what lembikat_nearest_word searches all codewords for.
 * Words that differ by a codeword are one class (a coset): the same error patterns turn them into codewords. A table has an
 * entry for each of the 2^(d - k) classes, in the order of their smallest words. An entry is two bytes, high byte first: the
 * pattern with the fewest ones (the coset leader), or LEMBIKAT_TIE_MARK where more than one pattern has the fewest. The mark is
 * never a pattern, not even where d is 16: any nonzero codeword put on sixteen ones leaves fewer. Class 0 is the codewords, its
 * entry 0000. The 16 entries of the house sheet (d 8, k 4, rows FF, 0F, 33, 55) are
 *   0000 0001 0002 FFFF 0004 FFFF FFFF 0008 0010 FFFF FFFF 0020 FFFF 0040 0080 FFFF
 * A table depends on its sheet alone, and a host may keep, copy and store it. It does not say which sheet that is.
 *   output: the table at the front, LEMBIKAT_TABLE_BYTES(d, k) bytes.  value: 0.
 *   Refusals: 1 to 6, 13.  Stack: at most 34 KiB. */
lembikat_answer lembikat_build_table(const uint8_t *sheet, size_t sheet_bytes, uint8_t *output, size_t output_bytes);

/* Looks a word of d bits up in a table. The sheet is checked anew and gives the word's class; of the table only the entry of
 * this class counts. At LEMBIKAT_TIE_MARK the word stays as it is, else the low d bits of the entry are put on it. In a table
 * that lembikat_build_table wrote for the same sheet this is the nearest word: the answer is that of lembikat_nearest_word,
 * bits changed included, for every sheet and every word.
 * Any bytes are taken for a table. With one that was built for another sheet, or not built at all, the answer is what the entry
 * says, and the value need be no codeword.
 *   value: the word exclusive-or the entry's low d bits, or the word itself at the mark.  changed: the ones of these bits, or 0
 *   at the mark.
 *   Refusals: 1 to 6, 12, 13.  Stack: at most 1 KiB. */
lembikat_word_answer lembikat_look_up(const uint8_t *sheet, size_t sheet_bytes, uint64_t word, const uint8_t *table,
                                      size_t table_bytes);

/* The first vertex that reads no inner codeword of its side, the left side before the right, the lowest number first.
 *   place: LEMBIKAT_NONE where the block is a codeword, else LEMBIKAT_LEFT or LEMBIKAT_RIGHT; value: the vertex, below nl on
 *   the left and below nr on the right.
 *   Refusals: the plan's, 11, 12.  Stack: at most 33 KiB. */
lembikat_answer lembikat_locate(const uint8_t *left_sheet, size_t left_sheet_bytes, const uint8_t *right_sheet,
                                size_t right_sheet_bytes, size_t nl, size_t nr, const uint8_t *wiring, size_t wiring_bytes,
                                const uint8_t *block, size_t block_bytes);

/* Decodes a received block, of which `lost` lists the lost spans. Sweep 1 puts the nearest word of the left code at every left
 * vertex, sweep 2 the nearest word of the right code at every right vertex, and so on. Where more than one pattern has the
 * fewest ones a vertex's word stays as it is for that sweep: it is no codeword, 0 of its bits are changed, and it waits for its
 * neighbours. The block settles at the first count from 0 to `limit` after which it is a codeword, on both sides.
 * Let lembikat_margin name q sweeps for F flips. With no bit lost and a limit of at least q, a block that differs from a
 * codeword in at most F bits settles at that codeword, after at most q sweeps.
 * From sweep 3 on only the vertices that heard news are visited, those with a bit which the sweep before changed: the others
 * would put the word that they have.
 * Where bits are lost the block is tried twice, each time with the whole limit: with all lost bits 0, and with all lost bits 1.
 * What they were received as does not matter. A trial that settles has changed so many bits outside the spans: those in which
 * the settled block differs from the received one there. If both trials settle, the one that changed fewer is kept, and the one
 * with zeros if they changed equally many; if only one settles, it is kept.
 * A sent codeword with f bits lost and e others flipped comes back where lembikat_margin covers some F with 2 * e + f at most
 * 2 * F and the limit is not below the sweeps that it names for F. The sweeps counted may be more than those: where both trials
 * settle at the sent codeword, the one with zeros is kept, and it may be the other one that has no more than F wrong bits.
 * Not in place: the output must not overlap the received block, nor any other buffer of the call.
 *   output: the settled block at the front; with LEMBIKAT_UNSETTLED the received block, lost bits as they were received; else
 *   untouched.  value: the sweeps.  sums, visits: the bits that each of the first 64 sweeps changed and the vertices that all
 *   sweeps visited, with LEMBIKAT_UNSETTLED too.
 *   Refusals: the plan's, 11, 12, 24, then 25 and 26 for each span in turn, 13, 14, 15.  Stack: at most 101 KiB. */
lembikat_decode_answer lembikat_decode(const uint8_t *left_sheet, size_t left_sheet_bytes, const uint8_t *right_sheet,
                                       size_t right_sheet_bytes, size_t nl, size_t nr, const uint8_t *wiring,
                                       size_t wiring_bytes, const uint8_t *received, size_t received_bytes, const uint8_t *lost,
                                       size_t lost_bytes, uint8_t *output, size_t output_bytes, size_t limit);

/* Makes a state of a block: the number of vertices that read no codeword, left and right, sweep number 0, and the block. What
 * stood in the state before does not matter. A block that is a codeword gives a settled state.
 *   state: the state at the front, LEMBIKAT_STATE_BYTES(N) bytes.  value, sweeps: the count, and 0.
 *   Refusals: the plan's, then 11 and 12 for the block, 13.  Stack: at most 33 KiB. */
lembikat_state_answer lembikat_load_state(const uint8_t *left_sheet, size_t left_sheet_bytes, const uint8_t *right_sheet,
                                          size_t right_sheet_bytes, size_t nl, size_t nr, const uint8_t *wiring,
                                          size_t wiring_bytes, const uint8_t *block, size_t block_bytes, uint8_t *state,
                                          size_t state_bytes);

/* Makes one sweep on a state, as lembikat_decode makes them: the nearest word of the left code at every left vertex where the
 * sweep number is even, of the right code at every right vertex where it is odd; a tie keeps its bits. The sweep number goes up
 * by one, also where no bit changed. On a state whose count is 0 the call changes nothing, whatever its sweep number and its
 * block are.
 * From a loaded state on, calls made one by one on the same plan come to the block and the sweep count of lembikat_decode with
 * an empty list of lost spans and a limit of 4,096, and stay there. Where that is LEMBIKAT_UNSETTLED the count never becomes 0,
 * and the call at sweep number 4,096 is LEMBIKAT_SWEEPS_SPENT. From a bit set in a state whose count is true the same holds of
 * the block as it then is.
 *   state: count, sweep number and block after the sweep; untouched with a refusal.  value, sweeps: its count and sweep number.
 *   Refusals: the plan's, then 11 for the state's length and 12 for its block, 28.  Stack: at most 106 KiB. */
lembikat_state_answer lembikat_sweep_state(const uint8_t *left_sheet, size_t left_sheet_bytes, const uint8_t *right_sheet,
                                           size_t right_sheet_bytes, size_t nl, size_t nr, const uint8_t *wiring,
                                           size_t wiring_bytes, uint8_t *state, size_t state_bytes);

/* Sets one bit of a state's block, to 0 where `value` is 0 and to 1 where it is any other number. The sweep number becomes 0,
 * also where the bit had that value already, and on a settled state too: the next sweep is one of the left side.
 *   state: count, sweep number and block, in which the one bit may have changed; untouched with a refusal.  value, sweeps: its
 *   count, and 0.
 *   Refusals: the plan's, then 11 for the state's length and 12 for its block, 27.  Stack: at most 33 KiB. */
lembikat_state_answer lembikat_set_bit(const uint8_t *left_sheet, size_t left_sheet_bytes, const uint8_t *right_sheet,
                                       size_t right_sheet_bytes, size_t nl, size_t nr, const uint8_t *wiring,
                                       size_t wiring_bytes, size_t bit, uint64_t value, uint8_t *state, size_t state_bytes);

/* Lists the maximal runs of bits at which a received and a settled block differ, in rising order. A run takes four bytes of
 * the list: its bit offset and its length, two bytes each, high byte first. Neither block need be a codeword.
 *   list: the runs at the front.  value: their number, at most (N + 1) / 2.
 *   Refusals: the plan's, then 11 and 12 for the received block, 11 and 12 for the settled one, 16.  Stack: at most 33 KiB. */
lembikat_answer lembikat_report(const uint8_t *left_sheet, size_t left_sheet_bytes, const uint8_t *right_sheet,
                                size_t right_sheet_bytes, size_t nl, size_t nr, const uint8_t *wiring, size_t wiring_bytes,
                                const uint8_t *received, size_t received_bytes, const uint8_t *settled, size_t settled_bytes,
                                uint8_t *list, size_t list_bytes);

/* The spread R of a plan's wiring: the smaller, the more evenly its left vertices meet. For left vertices u and w let G be the
 * sum, over right vertices, of (edges from u) * (edges from w). R is the largest, over u, of the sum over all w, u included, of
 * the absolute value of nr * G - dl * dl.
 *   value: the spread.  Refusals: the plan's.  Stack: at most 138 KiB. */
lembikat_answer lembikat_spread(const uint8_t *left_sheet, size_t left_sheet_bytes, const uint8_t *right_sheet,
                                size_t right_sheet_bytes, size_t nl, size_t nr, const uint8_t *wiring, size_t wiring_bytes);

/* The sweeps within which so many flipped bits are mended, whichever they are. With R the spread and D the inner distance of a
 * side, b begins as 2 * flips / D for the left D. While b is not 0 a step is made, to the right, then to the left, and so on in
 * turn. For the D of the side stepped to, let A be D * nr - 2 * dl * b. The flips are covered only where, at every step, A is
 * above 0 and A * A above 4 * nr * R; the next b is 4 * nr * R * b / (A * A). Quotients are rounded down.
 *   value: the sweeps, one more than the steps.  Refusals: the plan's, 17, 18.  Stack: at most 142 KiB. */
lembikat_answer lembikat_margin(const uint8_t *left_sheet, size_t left_sheet_bytes, const uint8_t *right_sheet,
                                size_t right_sheet_bytes, size_t nl, size_t nr, const uint8_t *wiring, size_t wiring_bytes,
                                uint64_t flips);

/* Writes the codeword that carries a message.
 *   output: the block at the front.  value: 0.
 *   Refusals: the plan's, 19, 20, 21, 13.  Stack: at most 65 KiB. */
lembikat_answer lembikat_encode(const uint8_t *left_sheet, size_t left_sheet_bytes, const uint8_t *right_sheet,
                                size_t right_sheet_bytes, size_t nl, size_t nr, const uint8_t *wiring, size_t wiring_bytes,
                                const uint8_t *message, size_t message_bytes, uint8_t *output, size_t output_bytes);

/* Writes the message that a codeword block carries: it undoes lembikat_encode.
 *   output: the message at the front.  value: 0.
 *   Refusals: the plan's, 19, 11, 12, 22, 13.  Stack: at most 65 KiB. */
lembikat_answer lembikat_read(const uint8_t *left_sheet, size_t left_sheet_bytes, const uint8_t *right_sheet,
                              size_t right_sheet_bytes, size_t nl, size_t nr, const uint8_t *wiring, size_t wiring_bytes,
                              const uint8_t *block, size_t block_bytes, uint8_t *output, size_t output_bytes);

/* A plan in one piece, so that a host writes it once: the parts that the calls take, by the same names. It holds pointers to
 * the host's own bytes, which must stay as long as it is used. Nothing is checked until it is called with. */
typedef struct {
    const uint8_t *left_sheet;
    size_t left_sheet_bytes;
    const uint8_t *right_sheet;
    size_t right_sheet_bytes;
    size_t nl;
    size_t nr;
    const uint8_t *wiring;
    size_t wiring_bytes;
} lembikat_plan;

/* The calls on a plan in one piece. Each hands its parts to the call of the same name without `plan_`, with all else that it is
 * given, and answers what that answers. */

static inline lembikat_answer lembikat_plan_locate(const lembikat_plan *plan, const uint8_t *block, size_t block_bytes)
{
    return lembikat_locate(plan->left_sheet, plan->left_sheet_bytes, plan->right_sheet, plan->right_sheet_bytes, plan->nl,
                           plan->nr, plan->wiring, plan->wiring_bytes, block, block_bytes);
}

static inline lembikat_decode_answer lembikat_plan_decode(const lembikat_plan *plan, const uint8_t *received,
                                                          size_t received_bytes, const uint8_t *lost, size_t lost_bytes,
                                                          uint8_t *output, size_t output_bytes, size_t limit)
{
    return lembikat_decode(plan->left_sheet, plan->left_sheet_bytes, plan->right_sheet, plan->right_sheet_bytes, plan->nl,
                           plan->nr, plan->wiring, plan->wiring_bytes, received, received_bytes, lost, lost_bytes, output,
                           output_bytes, limit);
}

static inline lembikat_state_answer lembikat_plan_load_state(const lembikat_plan *plan, const uint8_t *block,
                                                             size_t block_bytes, uint8_t *state, size_t state_bytes)
{
    return lembikat_load_state(plan->left_sheet, plan->left_sheet_bytes, plan->right_sheet, plan->right_sheet_bytes, plan->nl,
                               plan->nr, plan->wiring, plan->wiring_bytes, block, block_bytes, state, state_bytes);
}

static inline lembikat_state_answer lembikat_plan_sweep_state(const lembikat_plan *plan, uint8_t *state, size_t state_bytes)
{
    return lembikat_sweep_state(plan->left_sheet, plan->left_sheet_bytes, plan->right_sheet, plan->right_sheet_bytes, plan->nl,
                                plan->nr, plan->wiring, plan->wiring_bytes, state, state_bytes);
}

static inline lembikat_state_answer lembikat_plan_set_bit(const lembikat_plan *plan, size_t bit, uint64_t value, uint8_t *state,
                                                          size_t state_bytes)
{
    return lembikat_set_bit(plan->left_sheet, plan->left_sheet_bytes, plan->right_sheet, plan->right_sheet_bytes, plan->nl,
                            plan->nr, plan->wiring, plan->wiring_bytes, bit, value, state, state_bytes);
}

static inline lembikat_answer lembikat_plan_report(const lembikat_plan *plan, const uint8_t *received, size_t received_bytes,
                                                   const uint8_t *settled, size_t settled_bytes, uint8_t *list,
                                                   size_t list_bytes)
{
    return lembikat_report(plan->left_sheet, plan->left_sheet_bytes, plan->right_sheet, plan->right_sheet_bytes, plan->nl,
                           plan->nr, plan->wiring, plan->wiring_bytes, received, received_bytes, settled, settled_bytes, list,
                           list_bytes);
}

static inline lembikat_answer lembikat_plan_spread(const lembikat_plan *plan)
{
    return lembikat_spread(plan->left_sheet, plan->left_sheet_bytes, plan->right_sheet, plan->right_sheet_bytes, plan->nl,
                           plan->nr, plan->wiring, plan->wiring_bytes);
}

static inline lembikat_answer lembikat_plan_margin(const lembikat_plan *plan, uint64_t flips)
{
    return lembikat_margin(plan->left_sheet, plan->left_sheet_bytes, plan->right_sheet, plan->right_sheet_bytes, plan->nl,
                           plan->nr, plan->wiring, plan->wiring_bytes, flips);
}

static inline lembikat_answer lembikat_plan_encode(const lembikat_plan *plan, const uint8_t *message, size_t message_bytes,
                                                   uint8_t *output, size_t output_bytes)
{
    return lembikat_encode(plan->left_sheet, plan->left_sheet_bytes, plan->right_sheet, plan->right_sheet_bytes, plan->nl,
                           plan->nr, plan->wiring, plan->wiring_bytes, message, message_bytes, output, output_bytes);
}

static inline lembikat_answer lembikat_plan_read(const lembikat_plan *plan, const uint8_t *block, size_t block_bytes,
                                                 uint8_t *output, size_t output_bytes)
{
    return lembikat_read(plan->left_sheet, plan->left_sheet_bytes, plan->right_sheet, plan->right_sheet_bytes, plan->nl,
                         plan->nr, plan->wiring, plan->wiring_bytes, block, block_bytes, output, output_bytes);
}

#ifdef __cplusplus
}
#endif

#endif
