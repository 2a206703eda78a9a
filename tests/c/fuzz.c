/* fuzz SEED CALLS [FROM]: random calls, CALLS of them from call FROM on, the library against the reference; outside the gate.
 *
 * They are drawn, made and compared as the gate's are, in random.c and call.c, but each call is drawn from the seed and its own
 * number. So one that differs is made again alone, without those before it. Of such a call its number, the seed, how to make it
 * again and its record are printed: docs/STREAM.md says what a record is, and how the program `vectors` takes it. The last line
 * is `N passed, M failed`; the exit status is 1 where one failed. A library that stops the program, at a fence or otherwise,
 * has failed too.
 */
#include "subjects.h"

#include <errno.h>
#include <signal.h>
#include <stdlib.h>

#define SHOWN_CALLS 10
#define CALLS_A_LINE 100000 /* after so many it is said how far the run is */

static uint64_t seed;
static size_t number; /* of the call under way */

static void show_again(void)
{
    printf("  call %zu of seed %llu, again alone: make fuzz SEED=%llu FROM=%zu CALLS=1\n", number, (unsigned long long)seed,
           (unsigned long long)seed, number);
}

static int end(void)
{
    printf("%zu passed, %zu failed\n", cases - failures, failures);
    fflush(stdout);
    return failures != 0;
}

/* The fences stop the program where a byte behind a buffer is touched. It could not go on, but the call can be named. */
static void stopped(int reason)
{
    printf("FAILED: the program was stopped by signal %d\n", reason);
    show_again();
    failed(1);
    _Exit(end());
}

static uint64_t number_from(const char *text)
{
    char *rest;
    errno = 0;
    uint64_t value = strtoull(text, &rest, 10);
    if (errno != 0 || rest == text || *rest != '\0' || *text == '-')
        give_up("a seed and a number of calls are whole numbers");
    return value;
}

int main(int argc, char **argv)
{
    if (argc != 3 && argc != 4) {
        fprintf(stderr, "usage: fuzz SEED CALLS [FROM]\n");
        return 1;
    }
    seed = number_from(argv[1]);
    const size_t calls = number_from(argv[2]), from = argc == 4 ? number_from(argv[3]) : 0;
    static const int signals[] = {SIGSEGV, SIGBUS, SIGILL, SIGFPE, SIGABRT};
    for (size_t i = 0; i < sizeof signals / sizeof signals[0]; i++)
        signal(signals[i], stopped);

    printf("seed %llu; again: make fuzz SEED=%llu CALLS=%zu FROM=%zu\n", (unsigned long long)seed, (unsigned long long)seed,
           calls, from);
    fflush(stdout);
    size_t shown_calls = 0;
    for (size_t i = 0; i < calls; i++) {
        const size_t before = failures;
        number = from + i;
        draw_from(seed, number);
        call c = random_call(number);
        if (failures != before && shown_calls < SHOWN_CALLS) {
            shown_calls++;
            show_again();
            printf("  record ");
            show_record(&c);
        }
        if ((i + 1) % CALLS_A_LINE == 0) {
            printf("%zu calls, %zu failed\n", i + 1, failures);
            fflush(stdout);
        }
    }
    show_random_calls(calls, 0);
    return end();
}
