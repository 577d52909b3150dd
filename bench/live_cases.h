/*
 * live_cases.h: the rules and rows that bench.c times live.
 *
 * A case is four rules of 64 parts, one for each place, and 256 rows of 8 channels, which
 * come again and again, with their tops. The rows are the readings of a plan.
 */
#ifndef LIVE_CASES_H
#define LIVE_CASES_H

#include "../tests/support/write.h"

enum { LIVE_ROWS = 256, LIVE_CHANNELS = 8, LIVE_ROW_BYTES = 4 * LIVE_CHANNELS };

struct live_case {
    struct sheet rule[PLACES];
    struct sheet rows; /* a plan */
};

typedef void live_builder(void);

/* Build a case: always the same one. */
void build_live_case(struct live_case *live, live_builder *build);

live_builder live_shifts;    /* comparisons with all shifts back */
live_builder live_temporal;  /* 8 comparisons; Y, Z, S, T, not, and, or over them */
live_builder live_all_kinds; /* operators of all kinds over a third of atoms of all kinds */
live_builder live_windows;   /* windows with all shifts back, and a few operators */
live_builder live_tops;      /* atoms of all kinds under tops, and a few operators */

#endif
