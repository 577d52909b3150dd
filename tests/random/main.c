/*
 * main.c: the tests of the exported functions, as a C program that links the
 * static library.
 *
 *   random [SEED [CASES]]
 *
 * The worked examples, the neighbours of each refusal, parts that do not close and have
 * wrong marks, lead-in rows, windows of the week, tops, the tables that are made, the
 * passes that are laid out and the scratch for it, worked vectors from the papers, rows that
 * arrive one at a time, the header's constants and functions, then random cases against the
 * second evaluator. The same seed gives the same cases.
 * The last line is 'N passed, M failed'; the exit status is 0 only if M is 0.
 */
#include "expect.h"

#include <stdio.h>
#include <stdlib.h>

static void run_group(const char *name, void (*group)(void))
{
    unsigned long before = passed + failed;
    group();
    printf("%s: %lu tests\n", name, passed + failed - before);
}

int main(int argc, char **argv)
{
    uint64_t seed = argc > 1 ? strtoull(argv[1], NULL, 10) : 1;
    setvbuf(stdout, NULL, _IOLBF, 0);
    unsigned long cases = argc > 2 ? strtoul(argv[2], NULL, 10) : 60000;
    run_group("worked examples", test_examples);
    run_group("neighbours of the refusals", test_neighbours);
    run_group("closing and wrong marks", test_closing);
    run_group("lead-in rows", test_lead_in);
    run_group("windows of the week", test_windows);
    run_group("windows on the rows of a cycle", test_window_rows);
    run_group("tops", test_tops);
    run_group("tops on plans of more rows", test_top_rows);
    run_group("tables made", test_making);
    run_group("passes laid out", test_settling);
    run_group("the scratch of settle", test_scratch);
    run_group("worked vectors", test_vectors);
    run_group("live rows", test_live);
    run_group("live states", test_live_states);
    run_group("header", test_header);
    test_random(seed, cases);
    test_random_live(seed, cases);
    printf("%lu passed, %lu failed\n", passed, failed);
    return failed == 0 ? 0 : 1;
}
