/*
 * plain_window_rows.c: one window held against its marks, row by row, in plain C.
 *
 * Below position P + back, where back is how far the window reaches back, the truth at
 * each position must be the mark of its row. From there on each cycle row is judged once
 * for all its passes, by one remainder by g (plain_windows.h). g is kept from row to row,
 * and found anew where the drift is another. Nothing is laid out for the channel: unlike
 * window_is_clear of plain_window_sweeps.c, each window reads the plan for itself.
 */
#include "plain_window_rows.h"

static bool positions_are_marked(const struct plan *plan, const struct window *w, int end,
                                 const uint8_t *m)
{
    for (int position = 0, row = 0; position < end; position++) {
        if (m[row] != window_at(plan, w, position))
            return false;
        row = row + 1 < plan->rows ? row + 1 : plan->start;
    }
    return true;
}

/* What is read on the rows from the first to before the end, over all passes from a pass on.
   The marks are in a row too. */
static inline bool lines_are_marked(const struct plan *plan, const struct window *w,
                                    bool under_top, struct turn *turn, int pass, int first,
                                    int end, const uint8_t *m)
{
    size_t stride = 4 * (size_t)plan->channels;
    ptrdiff_t at = cell_of(plan, first, w->term.channel);
    const uint8_t *reading = plan->readings + at, *drift = plan->drifts + at;
    for (int row = first; row < end; row++, reading += stride, drift += stride, m++) {
        int judged = judge_read(w, under_top, turn, get32(reading), get32(drift), pass);
        if (judged == CHANGES || judged != *m)
            return false;
    }
    return true;
}

/* The first cycle rows read from P + ahead on, and the last ones from P on, a pass later where
   they reach ahead. */
static inline bool cycle_is_marked(const struct plan *plan, const struct window *w, bool under_top,
                                   const uint8_t *m)
{
    struct turn turn = no_turn(w);
    int start = plan->start, rows = plan->rows, ahead = rest(w->term.shift, plan->cycle);
    int pass = w->term.shift > 0 ? w->term.shift / plan->cycle : 0;
    int pass_after = w->term.shift > 0 ? pass + 1 : 0;
    return lines_are_marked(plan, w, under_top, &turn, pass, start + ahead, rows, m + start) &&
           lines_are_marked(plan, w, under_top, &turn, pass_after, start, start + ahead,
                            m + rows - ahead);
}

/* Compiled for both, so that the rows without a top have nothing to do with one. */
bool window_rows_are_clear(const struct plan *plan, const struct window *w, const uint8_t *m)
{
    return positions_are_marked(plan, w, plan->start + reach_of(w), m) &&
           (w->term.top == NO_TOP ? cycle_is_marked(plan, w, false, m)
                                  : cycle_is_marked(plan, w, true, m));
}
