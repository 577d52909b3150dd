/*
 * plain_settle.c: the search for the fewest passes in plain C.
 *
 * Written as the search is described: 0, 1, 2 passes and on are tried in turn, as long as
 * the plan with so many laid out fits. Each try begins anew: the marks of the parts are
 * made on all rows, the lowest part first, until one does not close. Row t of the plan
 * with the passes laid out is position t of the first plan's run, so that plan is written
 * once, at the end. The marks stand on the stack, a byte for each part and row, and the
 * scratch is cleared and not used, as in fast_settle.c. Nothing of it is proved. It is the
 * measure in bench.c.
 */
#include "plain_settle.h"

#include "plain_comparisons.h"
#include "plain_layout.h"
#include "plain_operators.h"
#include "plain_windows.h"

enum { MOST_PARTS = 64 };

/* The plan with some passes laid out. */
struct layout {
    const struct plan *plan;
    int start, rows; /* its P and W */
};

/* Whether there are 256 rows or fewer and all readings fit 32 bits. With one pass fewer
   they do, so that the last pass is looked at alone. */
static bool passes_fit(const struct plan *plan, int passes)
{
    if (plan->rows + passes * plan->cycle > MOST_ROWS)
        return false;
    ptrdiff_t end = cell_of(plan, plan->rows, 0);
    for (ptrdiff_t at = cell_of(plan, plan->start, 0); at < end; at += 4) {
        int64_t drift = get32(plan->drifts + at);
        int64_t reading = get32(plan->readings + at) + passes * drift;
        if (reading < INT32_MIN || reading > INT32_MAX)
            return false;
    }
    return true;
}

/* ---- Comparisons ---- */

/* The lines of a term at the positions from the first on and before the end. */
static void get_lines(const struct plan *plan, const struct term *term, int first, int end,
                      struct line *lines)
{
    int row = first + term->shift, pass = 0;
    if (!term->is_reading) {
        for (int position = first; position < end; position++)
            lines[position] = (struct line){ term->constant, 0 };
        return;
    }
    for (int position = first; position < end; position++, row++) {
        for (; row >= plan->rows; row -= plan->cycle)
            pass++;
        ptrdiff_t at = cell_of(plan, row, term->channel);
        int64_t drift = get32(plan->drifts + at);
        lines[position] = (struct line){ get32(plan->readings + at) + pass * drift, drift };
    }
}

/* The marks of a comparison. Gives whether it closes. */
static bool make_comparison(const struct layout *layout, int kind, const uint8_t *operand,
                            uint8_t *m)
{
    const struct plan *plan = layout->plan;
    struct comparison c = get_comparison(plan, kind, operand);
    struct line lefts[MOST_ROWS], rights[MOST_ROWS];
    int lines_from = plan->start + reach_back(&c), seen = first_seen(plan, &c);
    int row = 0;
    for (; row < seen && row < layout->rows; row++)
        m[row] = 0;
    get_lines(plan, &c.left, row, layout->rows, lefts);
    get_lines(plan, &c.right, row, layout->rows, rights);
    compare_lines(&c, lefts, rights, row, layout->rows, m);

    row = layout->start;
    for (; row < lines_from && row < layout->rows; row++)
        if (judge_early_row(plan, &c, row) == CHANGES)
            return false;
    return first_change(&c, lefts, rights, row, layout->rows) == layout->rows;
}

/* ---- Windows ---- */

/* The marks of a window. Gives whether it closes. From position P + back on, of the plan
   as it is, what is judged is the mark too. */
static bool make_window(const struct layout *layout, const uint8_t *operand, uint8_t *m)
{
    const struct plan *plan = layout->plan;
    struct window w = get_window(plan, operand);
    bool under_top = w.term.top != NO_TOP;
    struct turn turn = no_turn(&w);
    struct line lines[MOST_ROWS];
    int early = plan->start + reach_of(&w), seen = first_in_sight(plan, &w), row = 0, pass = 0;
    for (; row < seen && row < layout->start; row++)
        m[row] = 0;
    get_lines(plan, &w.term, row, layout->start, lines);
    for (; row < layout->start; row++)
        m[row] = lines[row].number < w.term.top && is_inside(&w, lines[row].number);
    for (; row < early && row < layout->rows; row++) {
        int judged = judge_early_window(plan, &w, row);
        if (judged == CHANGES)
            return false;
        m[row] = (uint8_t)judged;
    }
    for (int read = row + w.term.shift; row < layout->rows; row++, read++) {
        for (; read >= plan->rows; read -= plan->cycle)
            pass++;
        ptrdiff_t at = cell_of(plan, read, w.term.channel);
        int judged = judge_read(&w, under_top, &turn, get32(plan->readings + at),
                                get32(plan->drifts + at), pass);
        if (judged == CHANGES)
            return false;
        m[row] = (uint8_t)judged;
    }
    return true;
}

/* ---- The settler ---- */

/* Whether every part closes with so many passes laid out. */
static bool passes_settle(const uint8_t *rule, const struct plan *plan, int passes, uint8_t *marks)
{
    int laid_out_rows = passes * plan->cycle;
    struct layout layout = { plan, plan->start + laid_out_rows, plan->rows + laid_out_rows };
    size_t parts = get16(rule);
    const uint8_t *kinds = rule + 4, *operands = kinds + parts;
    for (size_t i = 0; i < parts; i++) {
        const uint8_t *operand = operands + 12 * i;
        uint8_t *m = marks + MOST_ROWS * i;
        bool closes;
        if (compares(kinds[i])) {
            closes = make_comparison(&layout, kinds[i], operand, m);
        } else if (kinds[i] == WINDOW) {
            closes = make_window(&layout, operand, m);
        } else {
            /* Of a part that names one the second field is 0: b is not used. */
            const uint8_t *a = marks + MOST_ROWS * get16(operand);
            const uint8_t *b = marks + MOST_ROWS * get16(operand + 2);
            closes = make_operator(kinds[i], m, a, b, layout.start, layout.rows);
        }
        if (!closes)
            return false;
    }
    return true;
}

uint64_t plain_settle(const uint8_t *rule, size_t rule_len, const uint8_t *plan, size_t plan_len,
                      uint8_t *laid_out, size_t laid_out_len, uint8_t *scratch,
                      size_t scratch_len)
{
    struct plan p;
    uint8_t marks[MOST_PARTS * MOST_ROWS];
    uint64_t refused = check_inputs(rule, rule_len, plan, plan_len, &p);
    if (refused)
        return refused;
    if (laid_out_len != LAID_OUT_LENGTH || scratch_len != SCRATCH_LENGTH)
        return refuse(13, 0, 0);

    int passes = 0;
    bool fit = true;
    while (fit && !passes_settle(rule, &p, passes, marks))
        fit = passes_fit(&p, ++passes);
    memset(scratch, 0, scratch_len);
    if (!fit)
        return refuse(15, 0, 0);
    write_layout(plan, &p, passes, laid_out);
    return (uint64_t)passes;
}
