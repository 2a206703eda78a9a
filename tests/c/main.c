/* test_vectors STREAM EXPECTED: the library's calls against stored answers and against a second set of services, reference.c.
 *
 * First every record of a stream of calls is run and the line that it gives is compared with the expected one. Then come calls
 * that chance does not meet, subject by subject, and 32,500 calls drawn from a fixed seed, about half of them with faults and
 * more than half of the plans with unequal sides; of these every answer and every lent byte is compared with the reference. How
 * a call is made is said in call.c. The last line is `test_vectors: N passed, M failed`; the exit status is 1 where one failed.
 *
 * All draws come one after another from one seed: another order of the subjects would draw other calls.
 */
#include "subjects.h"

int main(int argc, char **argv)
{
    if (argc != 3) {
        fprintf(stderr, "usage: test_vectors STREAM EXPECTED\n");
        return 1;
    }
    stored_stream(argv[1], argv[2]);
    border_calls();
    chain_calls();
    largest_sums();
    lone_vertex_calls();
    sheet_calls();
    word_calls();
    table_calls();
    tie_calls();
    count_calls();
    fault_calls();
    span_calls();
    state_calls();
    walk_calls();
    restored_calls();
    random_walks();
    random_calls();
    visits_calls();
    bounded_calls();
    noise_calls();
    printf("test_vectors: %zu passed, %zu failed\n", cases - failures, failures);
    return failures != 0;
}
