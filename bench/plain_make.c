/*
 * plain_make.c: the maker of mark tables in plain C.
 *
 * Written as a C programmer would who wants it fast and readable: each part is
 * decoded once, the loops over the rows have nothing in them that does not change
 * with the row, and no pass is looked at that a division can spare. The marks are
 * written into the lent buffer at once, the lowest part first, and the parts above
 * read them there. Nothing of it is proved. It is the measure in bench.c.
 */
#include "plain_make.h"

#include "plain_comparisons.h"
#include "plain_operators.h"
#include "plain_windows.h"

/* ---- Comparisons ---- */

/* The lines of a term on the rows from the first to W - 1. */
static void get_lines(const struct plan *plan, const struct term *term, int first,
                      struct line *lines)
{
    int direct = term->is_reading && term->shift > 0 ? plan->rows - term->shift : plan->rows;
    int row = first;
    if (term->is_reading)
        for (; row < direct; row++) {
            ptrdiff_t at = cell_of(plan, row + term->shift, term->channel);
            lines[row] = (struct line){ get32(plan->readings + at), get32(plan->drifts + at) };
        }
    for (; row < plan->rows; row++)
        lines[row] = line_at(plan, term, row);
}

/* The marks of a comparison. Gives the lowest cycle row on which it changes; W if
   there is none. */
static int make_comparison(const struct plan *plan, int kind, const uint8_t *operand, uint8_t *m)
{
    struct comparison c = get_comparison(plan, kind, operand);
    struct line lefts[MOST_ROWS], rights[MOST_ROWS];
    int back = reach_back(&c), seen = first_seen(plan, &c);
    int row = 0;
    for (; row < seen && row < plan->rows; row++)
        m[row] = 0;
    get_lines(plan, &c.left, row, lefts);
    get_lines(plan, &c.right, row, rights);
    compare_lines(&c, lefts, rights, row, plan->rows, m);

    row = plan->start;
    for (; row < plan->start + back && row < plan->rows; row++)
        if (judge_early_row(plan, &c, row) == CHANGES)
            return row;
    return first_change(&c, lefts, rights, row, plan->rows);
}

/* ---- Windows ---- */

/* The marks of a window. Gives the lowest cycle row on which it changes; W if there is
   none. From row P + back on what is judged is the mark too. */
static int make_window(const struct plan *plan, const uint8_t *operand, uint8_t *m)
{
    struct window w = get_window(plan, operand);
    bool under_top = w.term.top != NO_TOP;
    struct turn turn = no_turn(&w);
    int row = 0, early = plan->start + reach_of(&w), pass = 0;
    for (; row < plan->start; row++)
        m[row] = window_at(plan, &w, row);
    for (; row < early && row < plan->rows; row++) {
        int judged = judge_early_window(plan, &w, row);
        if (judged == CHANGES)
            return row;
        m[row] = (uint8_t)judged;
    }
    for (int read = row + w.term.shift; row < plan->rows; row++, read++) {
        for (; read >= plan->rows; read -= plan->cycle)
            pass++;
        ptrdiff_t at = cell_of(plan, read, w.term.channel);
        int judged = judge_read(&w, under_top, &turn, get32(plan->readings + at),
                                get32(plan->drifts + at), pass);
        if (judged == CHANGES)
            return row;
        m[row] = (uint8_t)judged;
    }
    return plan->rows;
}

/* ---- Witnesses ---- */

/* The lowest cycle row that serves, or none. */
static size_t lowest_witness(const struct plan *plan, int kind, const uint8_t *m, const uint8_t *b)
{
    int last = m[plan->rows - 1];
    if (kind == UNTIL ? last == 0 : kind != RELEASE || last == 1)
        return NO_WITNESS;
    const uint8_t *serving = memchr(b + plan->start, last, (size_t)plan->cycle);
    return serving == NULL ? NO_WITNESS : (size_t)(serving - b);
}

/* ---- The maker ---- */

uint64_t plain_make(const uint8_t *rule, size_t rule_len, const uint8_t *plan, size_t plan_len,
                    uint8_t *marks, size_t marks_len)
{
    struct plan p;
    uint64_t refused = check_inputs(rule, rule_len, plan, plan_len, &p);
    if (refused)
        return refused;
    size_t parts = get16(rule), rows = (size_t)p.rows;
    if (marks_len != 4 + parts * rows + 2 * parts)
        return refuse(13, 0, 0);

    const uint8_t *kinds = rule + 4, *operands = kinds + parts;
    uint8_t *cells = marks + 4, *witnesses = cells + parts * rows;
    put16(marks, parts);
    put16(marks + 2, rows);
    for (size_t i = 0; i < parts; i++) {
        const uint8_t *operand = operands + 12 * i;
        uint8_t *m = cells + i * rows;
        size_t witness = NO_WITNESS;
        int open;
        if (compares(kinds[i])) {
            open = make_comparison(&p, kinds[i], operand, m);
        } else if (kinds[i] == WINDOW) {
            open = make_window(&p, operand, m);
        } else {
            /* Of a part that names one the second field is 0: b is not used. */
            const uint8_t *a = cells + get16(operand) * rows;
            const uint8_t *b = cells + get16(operand + 2) * rows;
            open = make_operator(kinds[i], m, a, b, p.start, p.rows) ? p.rows : p.start;
            witness = lowest_witness(&p, kinds[i], m, b);
        }
        if (open < p.rows) {
            memset(marks, 0, marks_len);
            return refuse(14, i, (size_t)open);
        }
        put16(witnesses + 2 * i, witness);
    }
    return cells[(parts - 1) * rows];
}
