/*
 * expect.h: questions to the checker, and what they are held to.
 */
#ifndef EXPECT_H
#define EXPECT_H

#include "../support/write.h"

extern unsigned long passed, failed;

/* Space for the truth of one rule, written over by each use. */
extern struct truth truth_space;

/* Count one test, and print its name where it fails. */
void expect(const char *name, bool right);

/* Count one test on an answer; where a fault is named it fails, and the answers are
   printed. */
bool count_answers(const char *name, const char *fault, uint64_t expected, uint64_t checker,
                   uint64_t second);

/* Do the header's functions give back what the answer is made of: one about a plan, and one
   of a live call? */
bool unpacks(uint64_t answer);
bool unpacks_live(uint64_t answer);

/* Ask the checker, and count one test. The answer must be the expected one, the
   second evaluator's, and as the published truth has it; every byte lent must
   be as before; the header's functions must take the answer apart. Returns
   whether all of this is so. */
bool expect_check(const char *name, const struct sheet *rule, const struct sheet *plan,
                  const struct sheet *marks, uint64_t answer);
bool expect_judge(const char *name, const struct sheet *rule, const struct sheet *plan,
                  uint64_t part, uint64_t row, uint64_t answer);

/* The same of make. The buffer is lent with its length and with random bytes. What
   is left in it must be what the second evaluator leaves, and the guard bytes
   must stand. A table made must be accepted with the same verdict; where none can
   be, even the table of the truth must be refused for the same part and row. The
   truth space then has the rule and the plan, if they are right ones. */
bool expect_make(const char *name, const struct sheet *rule, const struct sheet *plan,
                 struct sheet *buffer, uint64_t answer);

/* Make makes this very table, with this verdict. */
void expect_made(const char *name, const struct sheet *rule, const struct sheet *plan,
                 const struct sheet *marks, uint64_t verdict);

/* What check says of a table, said of make: one that is accepted, and has the
   lowest witnesses, is the table made; one that is refused with 10 says that none
   can be made, for the same part and row. Other answers say nothing. */
void expect_make_as_checked(const char *name, const struct sheet *rule, const struct sheet *plan,
                            const struct sheet *marks, uint64_t checked);

/* The same of settle. Both buffers are lent with their lengths, and with random bytes
   other than 0. The plan laid out must have the same reading as the first one at every
   position; make must make a table for it, which check accepts; with one pass fewer
   make must answer 14. Where nothing drifts, the passes must be 4 and the deepest
   nesting of Y, Z, S and T at most. On 15 make must answer 14 with as many passes as
   there is room for. */
bool expect_settle(const char *name, const struct sheet *rule, const struct sheet *plan,
                   struct sheet *laid_out, struct sheet *scratch, uint64_t answer);

/* Settle, in buffers of the right lengths. */
bool expect_passes(const char *name, const struct sheet *rule, const struct sheet *plan,
                   uint64_t answer);

/* Settle lays out this very plan, with so many passes. */
void expect_laid_out(const char *name, const struct sheet *rule, const struct sheet *plan,
                     const struct sheet *due, uint64_t passes);

/* The calls on a live state (expect_live.c). There is one state, to which all of them go,
   and the second evaluator has all of them too. Each counts one test. The answer must be the
   expected one and the second evaluator's; a refused call must leave every byte of the state
   as it was; no byte beside the state may be written. Then each of the four places must
   answer as the second evaluator does, and one above them must be refused. Returns whether
   all of this is so. */
bool expect_live_start(const char *name, uint64_t channels, struct slice tops, uint64_t answer);
bool expect_live_add(const char *name, uint64_t place, struct slice rule, uint64_t answer);
bool expect_live_drop(const char *name, uint64_t place, uint64_t answer);
bool expect_live_row(const char *name, struct slice readings, uint64_t answer);

/* What is told of a place, and the second evaluator tells. */
bool expect_told(const char *name, uint64_t place, uint64_t answer);

/* A row that is taken, in a long list: the same as of expect_live_row(), but it is not
   counted. */
bool takes_row(struct slice readings);

/* The rows since the rule of a place was added, as the start rows of a plan: settled and
   with a table made, the plan must have the truth that was told as the last mark of these
   rows. Nothing is asked where there are no such rows, or more than MOST_IN_PLAN. */
enum { MOST_IN_PLAN = 120 };
void expect_as_plan(const char *name, int place);

/* What the second evaluator was given. */
const struct live *live_so_far(void);

/* Random bytes in the state; the next call is a start that is not refused. */
void scribble_state(void);

/* How deep Y, Z, S and T are nested in a rule, in all parts of it. */
int deepest_nesting(const struct rule *rule);

bool is_still(const struct plan *plan);

/* Print a count, and fail if it is below its floor: so many in 10000 cases. */
void hold_to_floor(const char *name, unsigned long n, unsigned long cases, unsigned long in_10000);

/* The same for each of so many counts, which have their numbers as names. */
void hold_each(const char *name, const unsigned long *n, int many, unsigned long cases,
               unsigned long in_10000);

/* Print the bytes of a sheet, for a case that failed. */
void print_sheet(const char *name, const struct sheet *sheet);

/* The groups of tests. */
void test_examples(void);
void test_neighbours(void);
void test_closing(void);
void test_lead_in(void);
void test_windows(void);
void test_window_rows(void);
void test_tops(void);
void test_top_rows(void);
void test_making(void);
void test_settling(void);
void test_scratch(void);
void test_vectors(void);
void test_live(void);
void test_live_states(void);
void test_header(void);
void test_random(uint64_t seed, unsigned long cases);
void test_random_live(uint64_t seed, unsigned long cases);

#endif
