/*
 * answers.c: the answers of check and judge, and whether a table is accepted.
 *
 * Two ways lead to acceptance here, and they share the layouts, atoms and the
 * witness paragraph only:
 *
 *   second_check       goes through the list of refusals, within one part 10, 9
 *                      and 11. A part closes or not by its truth, which the
 *                      equations give from the marks of the parts that it names;
 *                      its own marks are held to the equations after that
 *   second_acceptance  compares the marks with the published truth, and looks
 *                      at no equation
 */
#include "second.h"

/* A rule, a plan and a mark table that have passed refusals 1 to 8. */
struct table {
    struct rule rule;
    struct plan plan;
    struct marks marks;
};

static uint64_t decode_table(struct slice rule, struct slice plan, struct slice marks,
                             struct table *table)
{
    uint64_t refused = decode_rule(rule, &table->rule);
    if (!refused)
        refused = decode_plan(plan, table->rule.channels, &table->plan);
    if (!refused)
        refused = decode_marks(marks, table->rule.parts, table->plan.rows, &table->marks);
    return refused;
}

/* ---- Equations (refusal 9) ---- */

static int row_after(const struct plan *plan, int row)
{
    return row == plan->rows - 1 ? plan->start : row + 1;
}

/* The equation of Y, Z, S and T for a row above 0, with the row before it and what
   the part itself is there. */
static bool equation_of_past(const struct marks *m, const struct formula *f, int row,
                             int row_before, bool before)
{
    if (f->kind == SINCE)
        return m->mark[f->b][row] || (m->mark[f->a][row] && before);
    if (f->kind == TRIGGER)
        return m->mark[f->b][row] && (m->mark[f->a][row] || before);
    return m->mark[f->a][row_before];
}

/* The equation of Y, Z, S and T on row 0. */
static bool equation_of_past_at_0(const struct marks *m, const struct formula *f)
{
    if (f->kind == YESTERDAY)
        return false;
    if (f->kind == WEAK_YESTERDAY)
        return true;
    return m->mark[f->b][0];
}

/* What the mark of a part on a row has to be. */
static bool equation(const struct table *table, int part, int row)
{
    const struct formula *f = &table->rule.part[part];
    const struct marks *m = &table->marks;
    int after = row_after(&table->plan, row);
    switch (f->kind) {
    case LESS:
    case EQUAL:
    case WINDOW:
    case PINNED:
        return atom_holds(&table->plan, f, row);
    case NOT:
        return !m->mark[f->a][row];
    case AND:
        return m->mark[f->a][row] && m->mark[f->b][row];
    case OR:
        return m->mark[f->a][row] || m->mark[f->b][row];
    case NEXT:
        return m->mark[f->a][after];
    case UNTIL:
        return m->mark[f->b][row] || (m->mark[f->a][row] && m->mark[part][after]);
    case RELEASE:
        return m->mark[f->b][row] && (m->mark[f->a][row] || m->mark[part][after]);
    case YESTERDAY:
    case WEAK_YESTERDAY:
    case SINCE:
    case TRIGGER:
        return row == 0 ? equation_of_past_at_0(m, f)
                        : equation_of_past(m, f, row, row - 1, m->mark[part][row - 1]);
    }
    return false;
}

static uint64_t refuse_equation(const struct table *table, int part)
{
    for (int row = 0; row < table->plan.rows; row++)
        if (table->marks.mark[part][row] != equation(table, part, row))
            return refusal(9, part, row);
    return 0;
}

/* ---- Closing (refusal 10) ---- */

/* The truth of Y, Z, S or T on a row of the first pass, from row 0 on. */
static bool running_truth(const struct marks *m, const struct formula *f, int row)
{
    bool now = equation_of_past_at_0(m, f);
    for (int i = 1; i <= row; i++)
        now = equation_of_past(m, f, i, i - 1, now);
    return now;
}

/* Is the truth on row P the same when row W - 1 comes before it? */
static bool past_closes(const struct table *table, const struct formula *f)
{
    const struct marks *m = &table->marks;
    int start = table->plan.start, last = table->plan.rows - 1;
    return running_truth(m, f, start) ==
           equation_of_past(m, f, start, last, running_truth(m, f, last));
}

static uint64_t refuse_closing(const struct table *table, int part)
{
    const struct formula *f = &table->rule.part[part];
    const struct plan *plan = &table->plan;
    if (is_atom(f->kind))
        for (int row = plan->start; row < plan->rows; row++)
            if (judge_by_passes(plan, f, row) == CHANGES)
                return refusal(10, part, row);
    if (is_past(f->kind) && !past_closes(table, f))
        return refusal(10, part, plan->start);
    return 0;
}

/* ---- Witnesses (refusal 11) ---- */

static bool witness_in_order(const struct table *table, int part)
{
    const struct formula *f = &table->rule.part[part];
    const struct marks *m = &table->marks;
    int witness = m->witness[part];
    bool last = m->mark[part][table->plan.rows - 1];
    if ((f->kind == UNTIL && last) || (f->kind == RELEASE && !last))
        return witness >= table->plan.start && witness < table->plan.rows &&
               m->mark[f->b][witness] == last;
    return witness == NO_WITNESS;
}

/* ---- Answers ---- */

uint64_t second_check(struct slice rule, struct slice plan, struct slice marks)
{
    struct table table;
    uint64_t refused = decode_table(rule, plan, marks, &table);
    if (refused)
        return refused;
    for (int part = 0; part < table.rule.parts; part++) {
        if ((refused = refuse_closing(&table, part)) != 0)
            return refused;
        if ((refused = refuse_equation(&table, part)) != 0)
            return refused;
        if (!witness_in_order(&table, part))
            return refusal(11, part, 0);
    }
    return table.marks.mark[table.rule.parts - 1][0];
}

uint64_t second_judge(struct slice rule, struct slice plan, uint64_t part, uint64_t row)
{
    struct rule r;
    struct plan p;
    uint64_t refused = decode_rule(rule, &r);
    if (!refused)
        refused = decode_plan(plan, r.channels, &p);
    if (refused)
        return refused;
    if (part >= (uint64_t)r.parts || row >= (uint64_t)p.rows || !is_atom(r.part[part].kind))
        return refusal(12, 0, 0);
    return judge_by_passes(&p, &r.part[part], (int)row);
}

/* ---- Acceptance from the published truth ---- */

static bool marks_are_true(const struct truth *truth, const struct marks *m, int part)
{
    for (int row = 0; row < m->rows; row++)
        if (m->mark[part][row] != holds(truth, part, row))
            return false;
    return true;
}

enum acceptance second_acceptance(struct truth *space, struct slice rule, struct slice plan,
                                  struct slice marks)
{
    struct table table;
    if (decode_table(rule, plan, marks, &table) != 0)
        return NOT_A_TABLE;
    space->rule = table.rule;
    space->plan = table.plan;
    for (int part = 0; part < table.rule.parts; part++) {
        find_truth(space, part);
        if (!is_row_periodic(space, part))
            return OPEN;
        if (!marks_are_true(space, &table.marks, part) || !witness_in_order(&table, part))
            return FAULTY;
    }
    return holds(space, table.rule.parts - 1, 0) ? ACCEPTED_TRUE : ACCEPTED_FALSE;
}
