/*
 * make.c: the mark table of a rule and a plan, and the answers of make, from the
 * published truth alone and from no equation.
 */
#include "second.h"

static void put2(uint8_t *at, int n)
{
    at[0] = (uint8_t)(n % 256);
    at[1] = (uint8_t)(n / 256);
}

/* ---- The table of the truth ---- */

size_t table_length(int parts, int rows)
{
    return 4 + (size_t)parts * (size_t)rows + 2 * (size_t)parts;
}

/* The lowest cycle row on which the part has this truth. */
static int lowest_row_with(const struct truth *truth, int part, bool value)
{
    for (int row = truth->plan.start; row < truth->plan.rows; row++)
        if (holds(truth, part, row) == value)
            return row;
    return NO_WITNESS;
}

/* A U that is true on row W - 1 has a b to come, and an R that is false there has
   the failing of a b to come. No other part is asked for a witness. */
static int lowest_witness(const struct truth *truth, int part)
{
    const struct formula *f = &truth->rule.part[part];
    bool last = holds(truth, part, truth->plan.rows - 1);
    if ((f->kind == UNTIL && last) || (f->kind == RELEASE && !last))
        return lowest_row_with(truth, f->b, last);
    return NO_WITNESS;
}

void write_table(const struct truth *truth, uint8_t *at)
{
    int parts = truth->rule.parts, rows = truth->plan.rows;
    uint8_t *cells = at + 4, *witnesses = cells + parts * rows;
    put2(at, parts);
    put2(at + 2, rows);
    for (int part = 0; part < parts; part++) {
        for (int row = 0; row < rows; row++)
            cells[part * rows + row] = holds(truth, part, row);
        put2(witnesses + 2 * part, lowest_witness(truth, part));
    }
}

/* ---- Make ---- */

/* Has the part another truth on some later pass of the cycle row? What has not
   shown itself by the time that the part has settled never does. */
static bool differs_between_passes(const struct truth *truth, int part, int row)
{
    const struct plan *plan = &truth->plan;
    const struct formula *f = &truth->rule.part[part];
    if (is_atom(f->kind))
        return judge_by_passes(plan, f, row) == CHANGES;
    int64_t end = truth->part[part].settled + 2 * plan->cycle;
    for (int64_t t = row; t < end; t += plan->cycle)
        if (holds(truth, part, t) != holds(truth, part, row))
            return true;
    return false;
}

/* The lowest cycle row on which a part that is not row-periodic differs. A part
   is late only above an atom that changes, which is refused before it. */
static int lowest_differing_row(const struct truth *truth, int part)
{
    int row = truth->plan.start;
    while (row < truth->plan.rows - 1 && !differs_between_passes(truth, part, row))
        row++;
    return row;
}

static void clear(uint8_t *buffer, size_t len)
{
    for (size_t i = 0; i < len; i++)
        buffer[i] = 0;
}

uint64_t second_make(struct truth *space, struct slice rule, struct slice plan, uint8_t *buffer,
                     size_t len)
{
    uint64_t refused = decode_rule(rule, &space->rule);
    if (!refused)
        refused = decode_plan(plan, space->rule.channels, &space->plan);
    if (refused)
        return refused;
    if (len != table_length(space->rule.parts, space->plan.rows))
        return refusal(13, 0, 0);
    for (int part = 0; part < space->rule.parts; part++) {
        find_truth(space, part);
        if (!is_row_periodic(space, part)) {
            clear(buffer, len);
            return refusal(14, part, lowest_differing_row(space, part));
        }
    }
    write_table(space, buffer);
    return holds(space, space->rule.parts - 1, 0);
}
