/*
 * plain_search.h: how many passes the atoms of a rule ask for, for the two settlers in C
 * written for speed.
 *
 * Row t of the plan with some passes laid out is position t of the first plan's run, so
 * no plan is written before the number of passes is known.
 *
 * Every function is static, as in plain.h.
 */
#ifndef PLAIN_SEARCH_H
#define PLAIN_SEARCH_H

#include "plain_comparisons.h"
#include "plain_windows.h"

struct search {
    const struct plan *plan;
    int passes, most; /* laid out so far, and what there is room for */
    int start, rows;  /* P and W with these passes laid out */
};

/* ---- Room ---- */

/* The most passes with which there are 256 rows or fewer and all readings fit 32 bits. */
static inline int most_passes(const struct plan *plan)
{
    int most = (MOST_ROWS - plan->rows) / plan->cycle;
    ptrdiff_t end = cell_of(plan, plan->rows, 0);
    for (ptrdiff_t at = cell_of(plan, plan->start, 0); at < end; at += 4) {
        int64_t reading = get32(plan->readings + at), drift = get32(plan->drifts + at);
        int64_t last = reading + most * drift;
        if (last > INT32_MAX)
            most = (int)((INT32_MAX - reading) / drift);
        else if (last < INT32_MIN)
            most = (int)((INT32_MIN - reading) / drift);
    }
    return most;
}

static inline struct search start_search(const struct plan *plan)
{
    return (struct search){ plan, 0, most_passes(plan), plan->start, plan->rows };
}

/* As many passes more; false if there is no room for them all. */
static inline bool lay_out_passes(struct search *s, int64_t passes)
{
    if (passes > s->most - s->passes)
        return false;
    int rows = (int)passes * s->plan->cycle;
    s->passes += (int)passes;
    s->start += rows;
    s->rows += rows;
    return true;
}

static inline bool lay_out_pass(struct search *s)
{
    return lay_out_passes(s, 1);
}

/* ---- Comparisons ---- */

/* Lay out passes until the comparison is the same on every later pass of a cycle row. */
static inline bool settle_row(struct search *s, const struct comparison *c, int row)
{
    const struct plan *plan = s->plan;
    int lines_from = plan->start + reach_back(c);
    int position = row + s->passes * plan->cycle;
    for (; position < lines_from; position += plan->cycle) {
        if (judge_early_row(plan, c, position) != CHANGES)
            return true;
        if (!lay_out_pass(s))
            return false;
    }
    struct line x = line_at(plan, &c->left, position), y = line_at(plan, &c->right, position);
    if (!c->under_tops && judge_lines(c->kind, x, y) != CHANGES)
        return true;
    return lay_out_passes(s, last_change(passes_of(c, x, y)));
}

/* ---- Windows ---- */

/* The pass from which on a window that is not always false without its top stays as it is;
   FOREVER where it comes and goes for ever. Where the reading rises to its top, the passes
   are gone through from there back to the last one inside. */
static inline int64_t last_change_under_top(const struct window *w, int judged, struct line line)
{
    struct passes unpinned = passes_unpinned(line, w->term.top);
    if (are_none(unpinned))
        return 0;
    if (unpinned.end == FOREVER)
        return judged == CHANGES ? FOREVER : unpinned.from;
    int64_t last = unpinned.end - 1;
    int64_t back = first_inside(w, (struct line){ line.number + last * line.step, -line.step });
    return back <= last ? last - back + 1 : 0;
}

/* Lay out passes until the window is the same on every later pass of a cycle row. What comes
   and goes once no later pass has its reading before row P does so for ever. */
static inline bool settle_window_row(struct search *s, const struct window *w, struct turn *turn,
                                     int row)
{
    const struct plan *plan = s->plan;
    int lines_from = plan->start + reach_of(w);
    int position = row + s->passes * plan->cycle;
    for (; position < lines_from; position += plan->cycle) {
        if (judge_early_window(plan, w, position) != CHANGES)
            return true;
        if (!lay_out_pass(s))
            return false;
    }
    struct line line = line_at(plan, &w->term, position);
    turn_by(w, turn, (int32_t)line.step);
    int judged = judge_turn(w, turn, (int32_t)(line.number % WEEK));
    if (w->term.top == NO_TOP || judged == ALWAYS_FALSE)
        return judged != CHANGES;
    return lay_out_passes(s, last_change_under_top(w, judged, line));
}

/* ---- Atoms ---- */

/* Lay out passes until the atom is the same on every later pass of each cycle row. */
static inline bool settle_rows(struct search *s, const struct comparison *c)
{
    for (int row = s->plan->start; row < s->plan->rows; row++)
        if (!settle_row(s, c, row))
            return false;
    return true;
}

static inline bool settle_window_rows(struct search *s, const struct window *w)
{
    struct turn turn = no_turn(w);
    for (int row = s->plan->start; row < s->plan->rows; row++)
        if (!settle_window_row(s, w, &turn, row))
            return false;
    return true;
}

#endif
