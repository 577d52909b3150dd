/*
 * tables.c: random mark tables, and faults in all three sheets.
 */
#include "cases.h"

#include "dice.h"

static int some_part(void)
{
    return below(case_truth.rule.parts);
}

/* ---- Tables that meet the equations ---- */

static bool mark(int part, int row)
{
    return *mark_byte(&case_marks, part, row);
}

/* The mark of U, R, S or T on a row by its equation, with the mark on the row
   after or before. */
static bool by_equation(const struct formula *f, int row, bool neighbour)
{
    if (f->kind == UNTIL || f->kind == SINCE)
        return mark(f->b, row) || (mark(f->a, row) && neighbour);
    return mark(f->b, row) && (mark(f->a, row) || neighbour);
}

/* U or R by two backward sweeps, from a mark taken for the row after W - 1. */
static void sweep_back(int part, bool after)
{
    for (int sweep = 0; sweep < 2; sweep++) {
        for (int row = case_truth.plan.rows - 1; row >= 0; row--) {
            after = by_equation(&case_truth.rule.part[part], row, after);
            *mark_byte(&case_marks, part, row) = after;
        }
        after = mark(part, case_truth.plan.start);
    }
}

static void sweep_forward(int part)
{
    const struct formula *f = &case_truth.rule.part[part];
    for (int row = 0; row < case_truth.plan.rows; row++) {
        bool now;
        if (f->kind == YESTERDAY || f->kind == WEAK_YESTERDAY)
            now = row == 0 ? f->kind == WEAK_YESTERDAY : mark(f->a, row - 1);
        else
            now = row == 0 ? mark(f->b, 0) : by_equation(f, row, mark(part, row - 1));
        *mark_byte(&case_marks, part, row) = now;
    }
}

/* The mark of not, and, or or X on a row by its equation. */
static bool by_named_marks(const struct formula *f, int row)
{
    int after = row == case_truth.plan.rows - 1 ? case_truth.plan.start : row + 1;
    switch (f->kind) {
    case NOT:
        return !mark(f->a, row);
    case AND:
        return mark(f->a, row) && mark(f->b, row);
    case OR:
        return mark(f->a, row) || mark(f->b, row);
    default:
        return mark(f->a, after);
    }
}

static void mark_row_by_row(int part)
{
    for (int row = 0; row < case_truth.plan.rows; row++)
        *mark_byte(&case_marks, part, row) = by_named_marks(&case_truth.rule.part[part], row);
}

static bool may_have_witness(int part)
{
    enum kind kind = case_truth.rule.part[part].kind;
    return kind == UNTIL || kind == RELEASE;
}

static void write_serving_witness(int part, int from)
{
    const struct rule *rule = &case_truth.rule;
    const struct plan *plan = &case_truth.plan;
    put2(witness_bytes(&case_marks, part),
         (unsigned)serving_witness(&case_marks, rule, plan, part, from));
}

/* Marks that meet every equation, from some part on. A U or R may be marked with
   the wrong one of two tables that do; then no witness serves. */
static void mark_by_equations(void)
{
    for (int part = chance(50) ? 0 : some_part(); part < case_truth.rule.parts; part++) {
        enum kind kind = case_truth.rule.part[part].kind;
        if (is_atom(kind))
            continue;
        if (may_have_witness(part)) {
            sweep_back(part, (kind == UNTIL) == chance(70));
            write_serving_witness(part, case_truth.plan.start);
        } else if (is_past(kind)) {
            sweep_forward(part);
        } else {
            mark_row_by_row(part);
        }
    }
}

/* ---- Faults ---- */

static void any_serving_witnesses(void)
{
    for (int part = 0; part < case_truth.rule.parts; part++) {
        int from = between(case_truth.plan.start, case_truth.plan.rows - 1);
        write_serving_witness(part, from);
    }
}

static void no_fault(void)
{
}

static void flip_mark_of(int part)
{
    *mark_byte(&case_marks, part, below(case_truth.plan.rows)) ^= 1;
}

static void flip_mark(void)
{
    flip_mark_of(some_part());
}

static void scramble_marks_of(int part)
{
    for (int row = 0; row < case_truth.plan.rows; row++)
        *mark_byte(&case_marks, part, row) = chance(50);
}

static void damage_witness(void)
{
    const struct plan *p = &case_truth.plan;
    int part = some_part();
    for (int tries = 0; tries < 8 && !may_have_witness(part); tries++)
        part = some_part();
    int row = below(p->rows);
    int places[] = { NO_WITNESS,  65534, p->rows, p->start - 1, p->start,
                     p->rows - 1, 0,     row,     row,          256 + row };
    int witness = places[below(10)];
    put2(witness_bytes(&case_marks, part), (unsigned)(witness < 0 ? NO_WITNESS : witness));
}

static void scramble_part(void)
{
    scramble_marks_of(some_part());
}

static void damage_mark_bytes(void)
{
    for (int times = between(1, 2); times > 0; times--) {
        int part = some_part();
        uint8_t *byte = mark_byte(&case_marks, part, below(case_truth.plan.rows));
        *byte = (uint8_t)between(2, 255);
    }
}

static void damage_mark_sizes(void)
{
    int n = case_truth.rule.parts + (chance(50) ? between(-1, 1) : 0);
    int w = case_truth.plan.rows + (chance(50) ? between(-1, 1) : 0);
    if (chance(50) && n >= 0 && w >= 0)
        start_marks(&case_marks, n, w);
    else
        resize(&case_marks, case_marks.len + (size_t)between(1, 4) - 2);
}

static void flip_bit(uint8_t *bytes, int len)
{
    uint8_t *byte = bytes + below(len);
    *byte ^= (uint8_t)(1 << below(8));
}

static void damage_rule(void)
{
    int part = some_part(), at = below(12), size = below(2);
    uint8_t *operand = operand_bytes(&case_rule, part), *kind = kind_byte(&case_rule, part);
    switch (below(5)) {
    case 0:
        *kind = chance(50) ? 0 : (uint8_t)between(15, 255);
        break;
    case 1:
        *kind = (uint8_t)between(1, 14);
        break;
    case 2:
        put2(case_rule.at + 2 * size, (unsigned)between(0, 70));
        break;
    case 3:
        flip_bit(operand, 12);
        break;
    default:
        operand[at] = (uint8_t)below(16);
    }
}

/* Another L in the same bytes; or too many lead-in rows, in a plan of the length for
   them. */
static void damage_lead(void)
{
    const struct plan *p = &case_truth.plan;
    int said[] = { below(5), 5, 256, 256 + p->lead, 65535 };
    if (chance(50))
        put2(case_plan.at + 6, (unsigned)said[below(5)]);
    else
        start_plan_with_lead(&case_plan, p->channels, chance(70) ? 5 : between(6, 12), p->start,
                             p->cycle);
}

/* A drift in one of these rows, if there are any. */
static void drift_in_rows(int first, int end)
{
    int channel = below(case_truth.plan.channels);
    if (first < end)
        write_drift(&case_plan, between(first, end - 1), channel, extreme_drift());
}

static void damage_plan(void)
{
    const struct plan *p = &case_truth.plan;
    int size = below(4);
    switch (below(8)) {
    case 0:
        put2(case_plan.at + 2 * size, (unsigned)between(0, 300));
        break;
    case 1:
        make_still_plan(between(1, 8));
        break;
    case 2:
        resize(&case_plan, case_plan.len + (size_t)between(1, 4) - 2);
        break;
    case 3:
        damage_lead();
        break;
    case 4:
        drift_in_rows(0, p->start);
        break;
    case 5:
        drift_in_rows(-p->lead, 0);
        break;
    case 6:
        write_top(&case_plan, below(p->channels), -1 - (extreme_number() & INT32_MAX));
        break;
    default:
        drift_in_rows(-p->lead, p->start);
        drift_in_rows(-p->lead, p->start);
    }
}

static struct sheet *some_sheet(void)
{
    return chance(33) ? &case_rule : chance(50) ? &case_plan : &case_marks;
}

static void damage_byte(void)
{
    struct sheet *sheet = some_sheet();
    flip_bit(sheet->at, (int)sheet->len);
}

static void cut_sheet(void)
{
    struct sheet *sheet = some_sheet();
    resize(sheet, (size_t)below(chance(50) ? 9 : (int)sheet->len + 20));
}

/* How many times in 100 a fault is put in. */
static const struct {
    int percent;
    void (*put_in)(void);
} faults[] = {
    { 32, no_fault },
    { 14, flip_mark },
    { 12, damage_witness },
    { 15, mark_by_equations },
    { 3, scramble_part },
    { 3, damage_mark_bytes },
    { 3, damage_mark_sizes },
    { 6, damage_rule },
    { 6, damage_plan },
    { 3, damage_byte },
    { 3, cut_sheet },
};

void make_table(void)
{
    write_true_marks(&case_marks, &case_truth);
    if (chance(50))
        any_serving_witnesses();
    int left = below(100), fault = 0;
    while (left >= faults[fault].percent)
        left -= faults[fault++].percent;
    faults[fault].put_in();
}

/* Flipped on row P, the marks of Y and Z close, and mostly those of S and T. */
bool make_spoiled_table(void)
{
    int part = 0;
    while (part < case_truth.rule.parts && is_row_periodic(&case_truth, part))
        part++;
    if (part == case_truth.rule.parts)
        return false;
    write_true_marks(&case_marks, &case_truth);
    if (chance(40))
        *mark_byte(&case_marks, part, case_truth.plan.start) ^= 1;
    else if (chance(50))
        flip_mark_of(part);
    else
        scramble_marks_of(part);
    if (chance(30))
        flip_mark();
    return true;
}
