/* panel: a page at the terminal that shows how a damaged block of caption text settles, sweep by sweep.
 *
 * It shows the calls on a state: load it with the block, sweep until it settles, set bits by hand, sweep again. The state is
 * the panel's own bytes and all that there is between calls. The page is redrawn after every call. Where standard output is no
 * terminal the pages are written one after another, without a wait, so that they can be kept and compared.
 */
#define _POSIX_C_SOURCE 199309L /* for nanosleep */

#include "carriers.h"
#include "lembikat.h"

#include <signal.h>
#include <stdio.h>
#include <stdlib.h>
#include <time.h>
#include <unistd.h>

static const char caption[] = "Now"; /* a block carries 28 bits: three letters and half of the zero at their end */

/* Twelve bits flipped on the way, more than the five that the margin covers: here the block comes right all the same, but only
 * after six sweeps. */
static const size_t flipped[] = {3, 6, 7, 16, 22, 72, 75, 85, 88, 91, 114, 118};
#define FLIPPED (sizeof flipped / sizeof flipped[0])

/* The bits that the panel's staff then try by hand, two of one carrier: it reads a tie, waits, and the time slots mend them. */
static const size_t tried[] = {40, 43};
#define TRIED (sizeof tried / sizeof tried[0])

static uint8_t state[LEMBIKAT_STATE_BYTES(EDGES)];
static const uint8_t *const block_of_state = state + LEMBIKAT_STATE_HEAD_BYTES;

/* The terminal. Its cursor is hidden while pages are drawn, and shown again however the program ends. */
static int at_terminal;
static volatile sig_atomic_t interrupted;

static void interrupt(int signal_number)
{
    (void)signal_number;
    interrupted = 1;
}

static void show_cursor(void)
{
    fputs("\033[?25h", stdout);
}

static void take_terminal(void)
{
    at_terminal = isatty(STDOUT_FILENO);
    if (!at_terminal)
        return;
    fputs("\033[?25l", stdout);
    atexit(show_cursor);
    signal(SIGINT, interrupt);
    signal(SIGTERM, interrupt);
}

/* Draws the page, with a mark in the bar for each vertex that is unsatisfied and a dot for each other one. */
static void draw_page(lembikat_state_answer shown, const char *what)
{
    const struct timespec wait = {.tv_sec = 0, .tv_nsec = 400000000};
    if (at_terminal)
        fputs("\033[H\033[2J", stdout); /* to the upper left corner, and the page cleared */
    printf("a caption block, %d carriers and %d time slots\n", CARRIERS, SLOTS);
    printf("unsatisfied  %2u  ", (unsigned)shown.value);
    for (unsigned vertex = 0; vertex < CARRIERS + SLOTS; vertex++)
        putchar(vertex < shown.value ? '#' : '.');
    printf("\nsweeps       %2u  %s\n\n", (unsigned)shown.sweeps, what);
    fflush(stdout);
    if (at_terminal)
        nanosleep(&wait, NULL);
    if (interrupted)
        exit(1);
}

/* For calls that cannot be refused unless this program is wrong. */
static void must(const char *what, uint32_t number, uint32_t place)
{
    if (number == LEMBIKAT_DONE)
        return;
    printf("%s: refused %u at %u: %s\n", what, number, place, in_words(number));
    exit(1);
}

/* One sweep a call, until the count is 0. A block that never settles is refused after 4,096 sweeps, and its state stays. */
static void sweep_until_settled(lembikat_state_answer shown)
{
    while (shown.value != 0) {
        shown = lembikat_plan_sweep_state(&plan, state, sizeof state);
        must("sweep", shown.number, shown.place);
        draw_page(shown, shown.sweeps % 2 == 1 ? "the carriers were swept" : "the time slots were swept");
    }
    char message[sizeof caption], what[40];
    lembikat_answer read = lembikat_plan_read(&plan, block_of_state, BLOCK_BYTES, (uint8_t *)message, sizeof message);
    must("read", read.number, read.place);
    snprintf(what, sizeof what, "settled, the caption is: %s", message);
    draw_page(shown, what);
}

int main(void)
{
    uint8_t block[BLOCK_BYTES];
    char what[40];
    take_terminal();
    lay_wiring();

    lembikat_answer sent = lembikat_plan_encode(&plan, (const uint8_t *)caption, sizeof caption, block, sizeof block);
    must("encode", sent.number, sent.place);
    for (size_t i = 0; i < FLIPPED; i++)
        flip_bit(block, flipped[i]);

    lembikat_state_answer shown = lembikat_plan_load_state(&plan, block, sizeof block, state, sizeof state);
    must("load", shown.number, shown.place);
    snprintf(what, sizeof what, "%zu bits were flipped on the way", FLIPPED);
    draw_page(shown, what);
    sweep_until_settled(shown);

    for (size_t i = 0; i < TRIED; i++) {
        shown = lembikat_plan_set_bit(&plan, tried[i], !get_bit(block_of_state, tried[i]), state, sizeof state);
        must("set", shown.number, shown.place);
        snprintf(what, sizeof what, "bit %zu was flipped by hand", tried[i]);
        draw_page(shown, what);
    }
    sweep_until_settled(shown);
    return 0;
}
