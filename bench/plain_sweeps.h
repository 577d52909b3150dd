/*
 * plain_sweeps.h: whole parts held against their marks at once.
 *
 * The questions below are answered by loops that go over all rows and leave none
 * early, so that the compiler takes many rows at a time. "Clear" means that the part
 * has no refusal 10 and no refusal 9. "Not clear" names no row, and where a number
 * is too large for the loops it says nothing: then the rows are to be looked at one
 * by one.
 *
 * A part that is clear, over named parts with marks 0 and 1 alone, has marks 0 and 1
 * alone itself.
 */
#ifndef PLAIN_SWEEPS_H
#define PLAIN_SWEEPS_H

#include "plain_comparisons.h"
#include "plain_windows.h"

/* An atom is looked at on some positions after row W - 1, and reads ahead of them: so
   many in all. */
enum { ROWS_AFTER = 2 * MOST_SHIFT, LANE_LONGEST = MOST_LEAD + MOST_ROWS + ROWS_AFTER };

/* The readings of one channel from row -L on, and its drifts from row P on, in the
   order of the positions, to W + ROWS_AFTER - 1. That of position 0 is at MOST_LEAD. */
struct lane {
    bool laid_out;
    bool fits; /* every reading fits 32 bits */
    int32_t readings[LANE_LONGEST], drifts[LANE_LONGEST];
};

/* Positions up to an end with the same greatest common divisor of drift and week. */
struct stretch_of_g {
    int end;
    int16_t g;
};

/* The readings of one channel for windows, at the same places: each as its remainder by
   the g of its row, from 0 upward. Before row P nothing drifts, and g is 10080. Under a top
   there is also -1 or 0 for each: whether it is pinned neither there nor on a later pass, and
   whether it is pinned there and on every later pass. */
struct minutes {
    bool laid_out;
    int stretches;
    struct stretch_of_g stretch[LANE_LONGEST];
    int16_t at[LANE_LONGEST], never_pinned[LANE_LONGEST], ever_pinned[LANE_LONGEST];
};

/* A plan channel by channel. A lane is laid out when it is first read, and so are its
   minutes. */
struct lanes {
    const struct plan *plan;
    bool still; /* no drift in the cycle: the drifts are not laid out */
    struct lane of[MOST_CHANNELS];
    struct minutes minutes[MOST_CHANNELS];
};

void start_lanes(struct lanes *lanes, const struct plan *plan);

bool comparison_is_clear(struct lanes *lanes, const struct comparison *c, const uint8_t *m);

bool window_is_clear(struct lanes *lanes, const struct window *w, const uint8_t *m);

bool operator_is_clear(const struct plan *plan, int kind, const uint8_t *m, const uint8_t *a,
                       const uint8_t *b);

#endif
