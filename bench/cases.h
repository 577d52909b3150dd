/*
 * cases.h: the rules, plans and mark tables that bench.c times.
 *
 * A case is built by one of the functions below with so many parts on so many
 * rows of 8 channels. Its table is one that is accepted.
 */
#ifndef CASES_H
#define CASES_H

#include "../tests/support/write.h"

struct sheets {
    struct sheet rule, plan, marks;
};

typedef void builder(int parts, int rows);

/* Build a case: the same one for the same sizes. */
void build_case(struct sheets *sheets, builder *build, int parts, int rows);

builder no_drift;        /* comparisons of readings and constants, not shifted */
builder all_shifts;      /* comparisons with all shifts */
builder drifting_apart;  /* each row's readings move apart for ever */
builder stepped_over;    /* equalities with a gap that narrows and is never 0 */
builder all_temporal;    /* two comparisons, and temporal operators over them */
builder many_start_rows; /* a cycle of one row */
builder all_kinds;       /* operators of all kinds over a third of comparisons */
builder after_lead_in;   /* comparisons with all shifts, and 4 lead-in rows */
builder drifting_clocks; /* windows with all shifts, and a few operators */
builder late_tops;       /* atoms of all kinds under tops, and a few operators */

/* Of one mix throughout, so that few parts have the same as many. */
builder mixed_comparisons; /* less and equal in turn, with all shifts */
builder mixed_parts;       /* such a comparison and an operator in turn */

/* Build a table to be refused: a part of the kind, less, equal, a window, kind 14, Y, Z, S or
   T, does not close, and its mark on row P is wrong. */
void build_open_case(struct sheets *sheets, enum kind kind);

/* Rules and plans that settle after some passes; they have no table. */
typedef void late_builder(void);

void build_late_case(struct sheets *sheets, late_builder *build);

late_builder crossing_late;    /* the last of 64 parts changes after some 250 passes */
late_builder crossing_in_turn; /* 64 comparisons, each for a pass more */
late_builder yesterdays_deep;  /* Y of Y, 60 deep, over a comparison that looks back */
late_builder settling_soon;    /* 20 parts of all kinds on 16 rows, a pass or two */
late_builder clocks_late;      /* as crossing_late, with windows in place of comparisons */
late_builder pinned_late;      /* as crossing_late, under tops; the last part is of kind 14 */

#endif
