/* caption_link: carries a line of caption text over a simulated link, block by block.
 *
 * It shows the calls in the order in which a host needs them: learn what a plan carries and covers, encode, decode, of one
 * block with a lost span, report, show how hard the decoder worked, by sums and visits, read; then what a refusal looks like.
 * Nothing is kept between calls, so there is nothing to open or to close. carriers.h has the plan, 16 carriers by 8 time slots,
 * and what the refusals are in words.
 */
#include "carriers.h"
#include "lembikat.h"

#include <stdio.h>
#include <stdlib.h>
#include <string.h>

/* For calls that cannot be refused unless this program is wrong. */
static uint64_t must(const char *what, lembikat_answer answer)
{
    if (answer.number != LEMBIKAT_DONE) {
        printf("%s: refused %u at %u: %s\n", what, answer.number, answer.place, in_words(answer.number));
        exit(1);
    }
    return answer.value;
}

/* How many bits a block carries. No call answers it, since a host knows its plan; the refusals tell it to one that does not:
 * every length of a message but the right one is LEMBIKAT_MESSAGE_LENGTH_WRONG, and a bit behind the last is
 * LEMBIKAT_MESSAGE_STRAY_BIT. */
static size_t message_bits(void)
{
    uint8_t message[LEMBIKAT_MAX_MESSAGE_BYTES] = {0}, block[BLOCK_BYTES];
    size_t size = 0, bits = 0;
    while (lembikat_plan_encode(&plan, message, size, block, sizeof block).number == LEMBIKAT_MESSAGE_LENGTH_WRONG)
        size++;
    for (size_t bit = 0; bit < 8 * size; bit++) {
        flip_bit(message, bit);
        if (lembikat_plan_encode(&plan, message, size, block, sizeof block).number == LEMBIKAT_DONE)
            bits = bit + 1;
        flip_bit(message, bit);
    }
    return bits;
}

/* The meter: a line a sweep, with a mark for each bit that the sweep changed. Dots fill the bar up to the flips that are
 * covered, so that it can be seen how much of the margin the link takes. Two flips on one carrier are a tie: the carrier waits,
 * and the time slots change these bits in a later sweep. The sweeps made are `limit` where the block is unsettled.
 * Then the visits, which tell what the block cost: each carrier in sweep 1, each time slot in sweep 2, from then on only those
 * with a bit that has just been changed. Where these are fewer, all that the sweeps have is shown beside them. */
#define LONGEST_BAR 60

static void show_meter(const lembikat_decode_answer *answer, uint64_t limit, size_t covered)
{
    uint64_t made = answer->number == LEMBIKAT_UNSETTLED ? limit : answer->value;
    for (uint64_t i = 0; i < made && i < LEMBIKAT_SUMS; i++) {
        unsigned sum = answer->sums[i];
        printf("  sweep %llu  ", (unsigned long long)(i + 1));
        for (unsigned bit = 0; bit < LONGEST_BAR && (bit < sum || bit < covered); bit++)
            putchar(bit < sum ? '#' : '.');
        printf("%s  %u bit%s\n", sum > LONGEST_BAR ? "+" : "", sum, sum == 1 ? "" : "s");
    }
    uint64_t all = (made + 1) / 2 * CARRIERS + made / 2 * SLOTS;
    printf("  visits   %llu at carriers and time slots", (unsigned long long)answer->visits);
    if (answer->visits < all)
        printf(", instead of %llu at all of them in every sweep", (unsigned long long)all);
    printf("\n");
}

/* The link. It flips so many different bits of the block; the same ones in every run, so that runs can be compared. */
static uint32_t noise = 20240229;

static uint32_t next_noise(void)
{
    noise ^= noise << 13;
    noise ^= noise >> 17;
    noise ^= noise << 5;
    return noise;
}

static void send_over_link(const uint8_t *sent, uint8_t *received, size_t flips)
{
    memcpy(received, sent, BLOCK_BYTES);
    while (flips > 0) {
        size_t bit = next_noise() % EDGES;
        if (get_bit(received, bit) != get_bit(sent, bit))
            continue; /* was flipped already */
        flip_bit(received, bit);
        flips--;
    }
}

/* In one block the radio loses lock on one carrier, and knows it: what it has of this carrier's bits is noise, and the decoder
 * is told so. Such a block comes back where twice its flipped bits and its lost bits together are no more than twice the flips
 * covered. So with a carrier lost it may have this many flips fewer. */
#define LOST_IN_BLOCK 5
#define LOST_CARRIER 9
#define LOST_INSTEAD_OF_FLIPS (SLOTS / 2)

static const uint8_t lost_carrier[] = {LEMBIKAT_SPAN(LOST_CARRIER * SLOTS, SLOTS)};

static void lose_carrier(uint8_t *received)
{
    for (size_t slot = 0; slot < SLOTS; slot++)
        if (next_noise() >> 16 & 1)
            flip_bit(received, LOST_CARRIER * SLOTS + slot);
}

/* The runs of a list, as the report gives them and as lost spans are given. */
static void show_runs(const uint8_t *list, uint64_t runs)
{
    for (uint64_t r = 0; r < runs; r++) {
        unsigned offset = list[4 * r] * 256u + list[4 * r + 1], length = list[4 * r + 2] * 256u + list[4 * r + 3];
        if (length == 1)
            printf(" %u", offset);
        else
            printf(" %u-%u", offset, offset + length - 1);
    }
}

int main(void)
{
    static const char text[] = "Good evening. The ferry leaves at nine.";
    char shown[sizeof text] = {0};
    uint8_t message[LEMBIKAT_MAX_MESSAGE_BYTES], sent[BLOCK_BYTES], received[BLOCK_BYTES], settled[BLOCK_BYTES];
    uint8_t list[4 * ((EDGES + 1) / 2)]; /* room for the most runs that there can be */

    /* The plan's numbers. What is covered is asked for upwards, until it is refused. */
    lay_wiring();
    uint64_t spread = must("spread", lembikat_plan_spread(&plan));
    size_t bits = message_bits(), bytes = (bits + 7) / 8;
    size_t flips = 0;
    uint64_t sweeps = must("margin", lembikat_plan_margin(&plan, 0));
    for (;;) {
        lembikat_answer more = lembikat_plan_margin(&plan, flips + 1);
        if (more.number != LEMBIKAT_DONE)
            break;
        flips++;
        sweeps = more.value;
    }
    printf("plan: %d carriers (left) of %d bits each, %d time slots (right) of %d bits each, spread %llu\n", CARRIERS, SLOTS,
           SLOTS, CARRIERS, (unsigned long long)spread);
    printf("a block has %d bits and carries %zu of the text\n", EDGES, bits);
    printf("up to %zu flipped bits in a block are mended, within %llu sweeps; a lost bit counts as half a flipped one\n", flips,
           (unsigned long long)sweeps);

    /* The text as one string of bits, cut into messages. The last message is filled up with zeros. */
    size_t text_bits = 8 * strlen(text), blocks = (text_bits + bits - 1) / bits;
    printf("sent:     %s\n", text);
    for (size_t b = 0; b < blocks; b++) {
        memset(message, 0, sizeof message);
        for (size_t i = 0; i < bits && b * bits + i < text_bits; i++)
            if (get_bit((const uint8_t *)text, b * bits + i))
                flip_bit(message, i);
        must("encode", lembikat_plan_encode(&plan, message, bytes, sent, sizeof sent));

        size_t lost_bytes = 0; /* no bit is lost as a rule: the list is empty */
        if (b + 1 == LOST_IN_BLOCK && flips >= LOST_INSTEAD_OF_FLIPS) {
            lost_bytes = sizeof lost_carrier;
            send_over_link(sent, received, flips - LOST_INSTEAD_OF_FLIPS);
            lose_carrier(received);
        } else {
            send_over_link(sent, received, flips);
        }

        /* On the far side. No more than the margin covers: the sweeps that it names are enough. */
        lembikat_decode_answer decoded =
            lembikat_plan_decode(&plan, received, sizeof received, lost_carrier, lost_bytes, settled, sizeof settled, sweeps);
        uint64_t taken = must("decode", (lembikat_answer){decoded.number, decoded.place, decoded.value});
        uint64_t runs =
            must("report", lembikat_plan_report(&plan, received, sizeof received, settled, sizeof settled, list, sizeof list));
        printf("block %zu: ", b + 1);
        if (lost_bytes != 0) {
            printf("lost lock on carrier %d, bits", LOST_CARRIER);
            show_runs(lost_carrier, lost_bytes / LEMBIKAT_SPAN_BYTES);
            printf("; ");
        }
        printf("settled after %llu sweep%s, mended bits", (unsigned long long)taken, taken == 1 ? "" : "s");
        show_runs(list, runs);
        printf("\n");
        show_meter(&decoded, sweeps, flips);
        must("read", lembikat_plan_read(&plan, settled, sizeof settled, message, sizeof message));
        for (size_t i = 0; i < bits && b * bits + i < text_bits; i++)
            if (get_bit(message, i))
                flip_bit((uint8_t *)shown, b * bits + i);
    }
    printf("received: %s\n", shown);
    if (strcmp(shown, text) != 0) {
        printf("this is not the text that was sent\n");
        return 1;
    }

    /* A block that is noise: where it is unsettled the output holds it as it came, for a host that shows or keeps it anyway. It
     * is given more sweeps than the margin names: they cost little, since few carriers and time slots have news in them. */
    const uint64_t noise_sweeps = 3 * sweeps;
    for (size_t i = 0; i < sizeof received; i++)
        received[i] = (uint8_t)(next_noise() >> 16);
    memset(settled, 0, sizeof settled);
    lembikat_decode_answer answer =
        lembikat_plan_decode(&plan, received, sizeof received, NULL, 0, settled, sizeof settled, noise_sweeps);
    printf("noise: refused %u: %s\n", answer.number, in_words(answer.number));
    if (answer.number != LEMBIKAT_UNSETTLED || memcmp(settled, received, sizeof settled) != 0)
        return 1;
    show_meter(&answer, noise_sweeps, flips);
    printf("  the output holds the received block\n");
    lembikat_answer located = lembikat_plan_locate(&plan, received, sizeof received);
    printf("  first vertex that reads no codeword: %s %llu\n", located.place == LEMBIKAT_LEFT ? "carrier" : "time slot",
           (unsigned long long)located.value);

    /* Counts that do not fit each other, here swapped, are refused by every call. */
    lembikat_plan swapped = plan;
    swapped.nl = plan.nr;
    swapped.nr = plan.nl;
    lembikat_answer differ = lembikat_plan_spread(&swapped);
    printf("counts swapped: refused %u: %s\n", differ.number, in_words(differ.number));
    if (differ.number != LEMBIKAT_EDGE_COUNTS_DIFFER)
        return 1;

    /* So is a damaged wiring, with the place of the fault, and nothing is written. */
    memcpy(wiring + 2 * 37, wiring + 2 * 5, 2);
    memset(settled, 0xee, sizeof settled);
    answer = lembikat_plan_decode(&plan, sent, sizeof sent, NULL, 0, settled, sizeof settled, sweeps);
    printf("damaged wiring: refused %u at %u: %s\n", answer.number, answer.place, in_words(answer.number));
    for (size_t i = 0; i < sizeof settled; i++)
        if (settled[i] != 0xee)
            return 1;
    printf("  the output is as it was\n");
    return answer.number == LEMBIKAT_ENTRY_REPEATED && answer.place == 37 ? 0 : 1;
}
