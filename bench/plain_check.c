/*
 * plain_check.c: the whole check and the judge in C written for speed.
 *
 * A part is first held against its marks as a whole, by the sweeps of
 * plain_sweeps.c. Only where they say no are its rows gone through one by one: first
 * whether it closes by its truth, whatever its marks, then for the lowest mark that is
 * wrong. A second check differs in its windows alone: they have no sweep, and are held
 * against their marks row by row (plain_window_rows.c). Nothing of it is proved. It is the
 * measure in bench.c.
 */
#include "plain_check.h"

#include "plain_operators.h"
#include "plain_sweeps.h"
#include "plain_window_rows.h"
#include "plain_windows.h"

/* ---- Comparisons, row by row ---- */

static int judge_row(const struct plan *plan, const struct comparison *c, int row)
{
    if (row < plan->start)
        return truth_at(plan, c, row);
    if (row < plan->start + reach_back(c))
        return judge_early_row(plan, c, row);
    return judge_comparison(c, line_at(plan, &c->left, row), line_at(plan, &c->right, row));
}

/* Refusals 10 and 9 for a comparison. */
static uint64_t search_comparison(const struct plan *plan, const struct comparison *c,
                                  const uint8_t *m, size_t part)
{
    for (int row = plan->start; row < plan->rows; row++)
        if (judge_row(plan, c, row) == CHANGES)
            return refuse(10, part, (size_t)row);
    for (int row = 0; row < plan->rows; row++)
        if (m[row] != truth_at(plan, c, row))
            return refuse(9, part, (size_t)row);
    return 0;
}

/* ---- Windows, row by row ---- */

static int judge_window_row(const struct plan *plan, const struct window *w, int row)
{
    if (row < plan->start)
        return window_at(plan, w, row);
    if (row < plan->start + reach_of(w))
        return judge_early_window(plan, w, row);
    return judge_window_line(w, line_at(plan, &w->term, row));
}

/* Refusals 10 and 9 for a window. */
static uint64_t search_window(const struct plan *plan, const struct window *w, const uint8_t *m,
                              size_t part)
{
    for (int row = plan->start; row < plan->rows; row++)
        if (judge_window_row(plan, w, row) == CHANGES)
            return refuse(10, part, (size_t)row);
    for (int row = 0; row < plan->rows; row++)
        if (m[row] != window_at(plan, w, row))
            return refuse(9, part, (size_t)row);
    return 0;
}

/* ---- Operators, row by row ---- */

/* What the mark on a row is by the equation, with the row after it. */
static unsigned equation(int kind, const uint8_t *m, const uint8_t *a, const uint8_t *b, int row,
                         int after)
{
    switch (kind) {
    case NOT:
        return a[row] ^ 1u;
    case AND:
        return a[row] & b[row];
    case OR:
        return a[row] | b[row];
    case NEXT:
        return a[after];
    default:
        return step(kind == UNTIL, a[row], b[row], m[after]);
    }
}

/* Refusals 10 and 9 for Y, Z, S and T. The lowest mark that is not the truth is the lowest
   that breaks its equation. */
static uint64_t search_past(const struct plan *plan, int kind, const uint8_t *m, const uint8_t *a,
                            const uint8_t *b, size_t part)
{
    uint8_t truth[MOST_ROWS];
    if (!make_operator(kind, truth, a, b, plan->start, plan->rows))
        return refuse(10, part, (size_t)plan->start);
    for (int row = 0; row < plan->rows; row++)
        if (m[row] != truth[row])
            return refuse(9, part, (size_t)row);
    return 0;
}

/* Refusal 9 for not, and, or, X, U and R. */
static uint64_t search_closed(const struct plan *plan, int kind, const uint8_t *m,
                              const uint8_t *a, const uint8_t *b, size_t part)
{
    int last = plan->rows - 1;
    for (int row = 0; row <= last; row++)
        if (m[row] != equation(kind, m, a, b, row, row == last ? plan->start : row + 1))
            return refuse(9, part, (size_t)row);
    return 0;
}

/* ---- The mark table ---- */

static bool witness_is_right(const struct plan *plan, int kind, unsigned witness, const uint8_t *m,
                             const uint8_t *b)
{
    unsigned last = m[plan->rows - 1];
    if (kind == UNTIL ? last == 1 : kind == RELEASE && last == 0)
        return witness >= (unsigned)plan->start && witness < (unsigned)plan->rows &&
               b[witness] == last;
    return witness == NO_WITNESS;
}

static uint64_t check_mark_bytes(const uint8_t *marks, size_t parts, size_t rows)
{
    uint8_t seen = 0;
    for (size_t i = 0; i < parts * rows; i++)
        seen |= marks[i];
    if (seen > 1)
        for (size_t i = 0; i < parts * rows; i++)
            if (marks[i] > 1)
                return refuse(8, i / rows, i % rows);
    return 0;
}

/* ---- The parts ---- */

/* A part of the rule, with the marks of its own and of the parts that it names. Of the
   comparison, the window and the parts named it has what its kind asks for, and no more is
   written: that would take longer than the loops of a short part. */
struct part {
    int kind;
    unsigned witness;
    const uint8_t *m, *a, *b;
    struct comparison comparison;
    struct window window;
};

static void get_part(const struct plan *plan, const uint8_t *rule, const uint8_t *marks,
                     size_t number, struct part *part)
{
    size_t parts = get16(rule), rows = (size_t)plan->rows;
    const uint8_t *operand = rule + 4 + parts + 12 * number;
    part->kind = rule[4 + number];
    part->witness = get16(marks + parts * rows + 2 * number);
    part->m = marks + number * rows;
    if (compares(part->kind)) {
        part->comparison = get_comparison(plan, part->kind, operand);
    } else if (part->kind == WINDOW) {
        part->window = get_window(plan, operand);
    } else {
        /* Where one part is named the second field is 0, and b is not used. */
        part->a = marks + get16(operand) * rows;
        part->b = marks + get16(operand + 2) * rows;
    }
}

/* How windows are held against their marks. */
enum windows { SWEPT, ROW_BY_ROW };

/* No refusal 10 or 9, by the sweeps or by the rows of a window, and no refusal 11. */
static bool part_is_clear(struct lanes *lanes, enum windows windows, const struct part *part)
{
    if (compares(part->kind))
        return part->witness == NO_WITNESS &&
               comparison_is_clear(lanes, &part->comparison, part->m);
    if (part->kind == WINDOW)
        return part->witness == NO_WITNESS &&
               (windows == SWEPT ? window_is_clear(lanes, &part->window, part->m)
                                 : window_rows_are_clear(lanes->plan, &part->window, part->m));
    return operator_is_clear(lanes->plan, part->kind, part->m, part->a, part->b) &&
           witness_is_right(lanes->plan, part->kind, part->witness, part->m, part->b);
}

/* Refusals 10, 9 and 11 of a part, row by row. */
static uint64_t search_part(const struct plan *plan, const struct part *part, size_t number)
{
    uint64_t refused =
        compares(part->kind)
            ? search_comparison(plan, &part->comparison, part->m, number)
        : part->kind == WINDOW
            ? search_window(plan, &part->window, part->m, number)
        : is_past(part->kind)
            ? search_past(plan, part->kind, part->m, part->a, part->b, number)
            : search_closed(plan, part->kind, part->m, part->a, part->b, number);
    if (refused || witness_is_right(plan, part->kind, part->witness, part->m, part->b))
        return refused;
    return refuse(11, number, 0);
}

/* Refusals 8 to 11. A part that is clear over parts with marks of 0 and 1 alone has
   no other marks either: so the mark bytes need to be looked at for refusal 8 only
   when a part is met that is not clear. */
static uint64_t check_parts(const struct plan *plan, const uint8_t *rule, const uint8_t *marks,
                            enum windows windows)
{
    struct lanes lanes;
    struct part part;
    size_t parts = get16(rule), rows = (size_t)plan->rows;
    bool bytes_are_marks = false;
    start_lanes(&lanes, plan);
    for (size_t i = 0; i < parts; i++) {
        get_part(plan, rule, marks, i, &part);
        if (part_is_clear(&lanes, windows, &part))
            continue;
        uint64_t refused = bytes_are_marks ? 0 : check_mark_bytes(marks, parts, rows);
        if (!refused)
            refused = search_part(plan, &part, i);
        if (refused)
            return refused;
        bytes_are_marks = true;
    }
    return 0;
}

/* ---- Check and judge ---- */

static uint64_t check(const uint8_t *rule, size_t rule_len, const uint8_t *plan, size_t plan_len,
                      const uint8_t *marks, size_t marks_len, enum windows windows)
{
    struct plan p;
    uint64_t refused = check_inputs(rule, rule_len, plan, plan_len, &p);
    if (refused)
        return refused;
    size_t parts = get16(rule);
    size_t rows = (size_t)p.rows;
    if (marks_len < 4 || get16(marks) != parts || get16(marks + 2) != rows ||
        marks_len != 4 + parts * rows + 2 * parts)
        return refuse(7, 0, 0);
    refused = check_parts(&p, rule, marks + 4, windows);
    return refused ? refused : marks[4 + (parts - 1) * rows];
}

uint64_t plain_check(const uint8_t *rule, size_t rule_len, const uint8_t *plan, size_t plan_len,
                     const uint8_t *marks, size_t marks_len)
{
    return check(rule, rule_len, plan, plan_len, marks, marks_len, SWEPT);
}

uint64_t plain_check_by_rows(const uint8_t *rule, size_t rule_len, const uint8_t *plan,
                             size_t plan_len, const uint8_t *marks, size_t marks_len)
{
    return check(rule, rule_len, plan, plan_len, marks, marks_len, ROW_BY_ROW);
}

uint64_t plain_judge(const uint8_t *rule, size_t rule_len, const uint8_t *plan, size_t plan_len,
                     uint64_t part, uint64_t row)
{
    struct plan p;
    uint64_t refused = check_inputs(rule, rule_len, plan, plan_len, &p);
    if (refused)
        return refused;
    size_t parts = get16(rule);
    if (part >= parts || row >= (uint64_t)p.rows || !is_atom(rule[4 + part]))
        return refuse(12, 0, 0);
    const uint8_t *operand = rule + 4 + parts + 12 * part;
    if (rule[4 + part] == WINDOW) {
        struct window w = get_window(&p, operand);
        return (uint64_t)judge_window_row(&p, &w, (int)row);
    }
    struct comparison c = get_comparison(&p, rule[4 + part], operand);
    return (uint64_t)judge_row(&p, &c, (int)row);
}
