/*
 * cases.h: random rules, plans and mark tables.
 *
 * A case is a plan, a rule that suits it, and a table. Most rules are grown part
 * by part so that every part closes, since random parts seldom do. Most tables
 * begin as the published truth; one fault is then put in, or none. Where a part does
 * not close, another table has wrong marks in that very part.
 */
#ifndef CASES_H
#define CASES_H

#include "../support/write.h"

/* The case that was made last, as bytes; and the rule and the plan that it was
   made from, before any fault, with the truth of each part. */
extern struct sheet case_rule, case_plan, case_marks;
extern struct truth case_truth;

/* So many counts has what is counted kind by kind; and the name of a kind. */
enum { KINDS = PINNED + 1 };
extern const char *const kind_names[KINDS];

/* Make a case with the dice as they are. */
void make_case(void);

/* Make a rule and a plan, and no table, with parts that close after some passes are
   laid out, or never (late_cases.c). */
void make_late_case(void);

/* An atom that suits the plan of the case, whether it closes or not. */
struct formula some_atom(void);

/* A reading or a drift near one of the ends of 32 bits, or near 0. */
int32_t extreme_number(void);

/* A drift, mostly a large one. */
int32_t extreme_drift(void);

/* A window that suits the plan of the case, and readings and drifts that go round the
   week in one way or another (window_cases.c). */
struct formula some_window(void);
int32_t weekly_reading(void);
int32_t weekly_drift(void);

/* Tops for some channels of the plan of the case, beside its readings or far from them,
   whether a plan has any, and whether a reading is pinned (top_cases.c). */
void write_some_tops(void);
bool has_tops(const struct plan *plan);
struct formula some_pinned(void);

/* A plan for the case with readings of some channels and no drift. */
void make_still_plan(int channels);

/* Channels, tops and rows for a live state, and a rule for it in case_rule, right or with a
   fault (live_cases.c). A fault is one of a refusal, 1 to 3 or 16. */
struct live_case {
    int channels;
    int32_t top[MOST_CHANNELS];
    int style[MOST_CHANNELS]; /* what the readings of a channel are like */
};
extern struct live_case live_case;
void make_live_case(void);
void make_live_rule(int parts);
void spoil_live_rule(int number);
int32_t live_reading(int channel);

/* A table for the rule and the plan of the case (tables.c). */
void make_table(void);

/* One with wrong marks in the lowest part that does not close, and now and then with
   another mark turned round. False, and no table, where all parts close. Both go by the
   rule and the plan as they were before make_table, which may have damaged them. */
bool make_spoiled_table(void);

#endif
