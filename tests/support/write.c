/*
 * write.c: writers of the three layouts.
 */
#include "write.h"

#include <string.h>

struct slice slice_of(const struct sheet *sheet)
{
    return (struct slice){ sheet->at, sheet->len };
}

void resize(struct sheet *sheet, size_t len)
{
    if (len > SHEET_LONGEST)
        len = SHEET_LONGEST;
    if (len > sheet->len)
        memset(sheet->at + sheet->len, 0, len - sheet->len);
    sheet->len = len;
}

void put2(uint8_t *at, unsigned n)
{
    at[0] = (uint8_t)(n % 256);
    at[1] = (uint8_t)(n / 256 % 256);
}

void put4(uint8_t *at, int32_t n)
{
    uint32_t u = (uint32_t)n;
    put2(at, u % 65536);
    put2(at + 2, u / 65536);
}

static int get2(const uint8_t *at)
{
    return at[0] + 256 * at[1];
}

static void clear(struct sheet *sheet, int len)
{
    sheet->len = (size_t)len;
    memset(sheet->at, 0, sheet->len);
}

/* ---- Terms ---- */

struct term constant(int32_t number)
{
    return (struct term){ false, 0, number };
}

struct term reading(int channel, int shift)
{
    return (struct term){ true, shift, channel };
}

static void write_term(uint8_t *at, struct term term)
{
    at[0] = term.is_reading;
    at[1] = (uint8_t)(term.shift + 4);
    put4(at + 2, term.number);
}

/* ---- The rule sheet ---- */

void start_rule(struct sheet *rule, int parts, int channels)
{
    clear(rule, 4 + 13 * parts);
    put2(rule->at, (unsigned)parts);
    put2(rule->at + 2, (unsigned)channels);
    for (int part = 0; part < parts; part++)
        write_comparison(rule, part, LESS, constant(0), constant(0));
}

uint8_t *kind_byte(struct sheet *rule, int part)
{
    return rule->at + 4 + part;
}

uint8_t *operand_bytes(struct sheet *rule, int part)
{
    return rule->at + 4 + get2(rule->at) + 12 * part;
}

static uint8_t *start_operand(struct sheet *rule, int part, enum kind kind)
{
    uint8_t *operand = operand_bytes(rule, part);
    *kind_byte(rule, part) = (uint8_t)kind;
    memset(operand, 0, 12);
    return operand;
}

void write_comparison(struct sheet *rule, int part, enum kind kind, struct term left,
                      struct term right)
{
    uint8_t *operand = start_operand(rule, part, kind);
    write_term(operand, left);
    write_term(operand + 6, right);
}

void write_window(struct sheet *rule, int part, struct term term, int from, int to)
{
    uint8_t *operand = start_operand(rule, part, WINDOW);
    write_term(operand, term);
    put2(operand + 6, (unsigned)from);
    put2(operand + 8, (unsigned)to);
}

void write_pinned(struct sheet *rule, int part, struct term term)
{
    write_term(start_operand(rule, part, PINNED), term);
}

void write_unary(struct sheet *rule, int part, enum kind kind, int a)
{
    put2(start_operand(rule, part, kind), (unsigned)a);
}

void write_binary(struct sheet *rule, int part, enum kind kind, int a, int b)
{
    uint8_t *operand = start_operand(rule, part, kind);
    put2(operand, (unsigned)a);
    put2(operand + 2, (unsigned)b);
}

void write_formula(struct sheet *rule, int part, const struct formula *f)
{
    if (f->kind == WINDOW)
        write_window(rule, part, f->left, f->from, f->to);
    else if (f->kind == PINNED)
        write_pinned(rule, part, f->left);
    else if (is_atom(f->kind))
        write_comparison(rule, part, f->kind, f->left, f->right);
    else if (names_two_parts(f->kind))
        write_binary(rule, part, f->kind, f->a, f->b);
    else
        write_unary(rule, part, f->kind, f->a);
}

/* ---- The plan ---- */

void start_plan(struct sheet *plan, int channels, int start, int cycle)
{
    start_plan_with_lead(plan, channels, 0, start, cycle);
}

void start_plan_with_lead(struct sheet *plan, int channels, int lead, int start, int cycle)
{
    clear(plan, 8 + 4 * channels + 8 * channels * (lead + start + cycle));
    put2(plan->at, (unsigned)channels);
    put2(plan->at + 2, (unsigned)start);
    put2(plan->at + 4, (unsigned)cycle);
    put2(plan->at + 6, (unsigned)lead);
}

uint8_t *top_bytes(struct sheet *plan, int channel)
{
    return plan->at + 8 + 4 * channel;
}

uint8_t *reading_bytes(struct sheet *plan, int row, int channel)
{
    int channels = get2(plan->at), lead = get2(plan->at + 6);
    return top_bytes(plan, channels) + 4 * ((lead + row) * channels + channel);
}

uint8_t *drift_bytes(struct sheet *plan, int row, int channel)
{
    int rows = get2(plan->at + 2) + get2(plan->at + 4), lead = get2(plan->at + 6);
    return reading_bytes(plan, lead + rows + row, channel);
}

void write_top(struct sheet *plan, int channel, int32_t top)
{
    put4(top_bytes(plan, channel), top);
}

void write_reading(struct sheet *plan, int row, int channel, int32_t reading)
{
    put4(reading_bytes(plan, row, channel), reading);
}

void write_drift(struct sheet *plan, int row, int channel, int32_t drift)
{
    put4(drift_bytes(plan, row, channel), drift);
}

/* ---- The mark table ---- */

void start_marks(struct sheet *marks, int parts, int rows)
{
    clear(marks, 4 + parts * rows + 2 * parts);
    put2(marks->at, (unsigned)parts);
    put2(marks->at + 2, (unsigned)rows);
    memset(marks->at + 4 + parts * rows, 0xFF, 2 * (size_t)parts);
}

uint8_t *mark_byte(struct sheet *marks, int part, int row)
{
    return marks->at + 4 + part * get2(marks->at + 2) + row;
}

uint8_t *witness_bytes(struct sheet *marks, int part)
{
    return mark_byte(marks, get2(marks->at), 0) + 2 * part;
}

static uint8_t mark_of(const struct sheet *marks, int part, int row)
{
    return marks->at[4 + part * get2(marks->at + 2) + row];
}

int serving_witness(const struct sheet *marks, const struct rule *rule, const struct plan *plan,
                    int part, int from)
{
    const struct formula *f = &rule->part[part];
    uint8_t last = mark_of(marks, part, plan->rows - 1);
    if (!(f->kind == UNTIL && last == 1) && !(f->kind == RELEASE && last == 0))
        return NO_WITNESS;
    for (int i = 0; i < plan->cycle; i++) {
        int row = plan->start + (from - plan->start + i) % plan->cycle;
        if (mark_of(marks, f->b, row) == last)
            return row;
    }
    return NO_WITNESS;
}

void write_true_marks(struct sheet *marks, const struct truth *truth)
{
    marks->len = table_length(truth->rule.parts, truth->plan.rows);
    write_table(truth, marks->at);
}

void write_true_marks_of(struct sheet *marks, struct truth *space, const struct sheet *rule,
                         const struct sheet *plan)
{
    if (decode_rule(slice_of(rule), &space->rule) != 0)
        space->rule = (struct rule){ .parts = 0, .channels = 0 };
    decode_plan(slice_of(plan), space->rule.channels, &space->plan);
    for (int part = 0; part < space->rule.parts; part++)
        find_truth(space, part);
    write_true_marks(marks, space);
}
