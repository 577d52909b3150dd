/*
 * late_cases.c: random rules and plans that settle after some passes, or for which
 * there is no room.
 */
#include "cases.h"

#include "dice.h"

/* ---- Plans ---- */

enum late_style { STILL, CROSSING, AT_THE_EDGE, WEEKLY };

/* Mostly few rows, so that many passes have room; now and then so many that few have. */
static void some_late_rows(int *start, int *cycle)
{
    *start = chance(50) ? 0 : between(0, 6);
    *cycle = chance(50) ? 1 : between(1, chance(80) ? 5 : 20);
    if (chance(12)) {
        int room = below(7), left = MOST_ROWS - (room + 1) * *cycle;
        *start = chance(60) ? left : between(left - *cycle, left);
    } else if (chance(2)) {
        *cycle = between(60, 128);
        *start = below(MOST_ROWS - *cycle);
    }
}

/* A cell whose reading has room in 32 bits for some passes, up or down. */
static void write_at_the_edge(int row, int channel)
{
    bool up = chance(50);
    int32_t step = chance(70) ? between(1, 5) : between(1, 1 << 29), room = between(0, 3);
    int64_t reading = (int64_t)INT32_MAX - (int64_t)room * step - (step > 1 ? below(2) : 0);
    write_reading(&case_plan, row, channel, (int32_t)(up ? reading : -1 - reading));
    write_drift(&case_plan, row, channel, up ? step : -step);
}

static void write_late_cell(enum late_style style, int row, int channel, bool in_cycle)
{
    write_reading(&case_plan, row, channel, style == STILL ? between(0, 2) : between(-10, 10));
    if (in_cycle && style != STILL && chance(60))
        write_drift(&case_plan, row, channel, between(-3, 3));
    if (in_cycle && style == AT_THE_EDGE && chance(30))
        write_at_the_edge(row, channel);
    if (in_cycle && style == WEEKLY)
        write_drift(&case_plan, row, channel, chance(70) ? WEEK : weekly_drift());
}

static void make_late_plan(void)
{
    int start, cycle, channels = chance(95) ? between(1, 3) : between(1, 8);
    int lead = chance(50) ? 0 : between(1, MOST_LEAD);
    enum late_style style = chance(50) ? STILL : (enum late_style)between(CROSSING, WEEKLY);
    some_late_rows(&start, &cycle);
    start_plan_with_lead(&case_plan, channels, lead, start, cycle);
    for (int row = -lead; row < start + cycle; row++)
        for (int channel = 0; channel < channels; channel++)
            write_late_cell(style, row, channel, row >= start);
    decode_plan(slice_of(&case_plan), channels, &case_truth.plan);
    if (chance(40))
        write_some_tops();
}

/* ---- Rules ---- */

/* The window of the one minute that a reading lies in. */
static struct formula window_of(struct term term, int64_t number)
{
    int minute = (int)(number % WEEK);
    minute += minute < 0 ? WEEK : 0;
    return (struct formula){ .kind = WINDOW, .left = term, .from = minute,
                             .to = (minute + 1) % WEEK };
}

/* A reading, mostly one some positions back, is that of a cycle row: mostly of its
   first pass. */
static struct formula atom_back(void)
{
    const struct plan *p = &case_truth.plan;
    int channel = chance(60) ? 0 : below(p->channels), row = between(p->start, p->rows - 1);
    int64_t pass = chance(96) ? 0 : between(0, MOST_ROWS);
    int64_t number = p->reading[row][channel] + pass * p->drift[row][channel];
    struct formula f = { .kind = chance(80) ? EQUAL : LESS };
    f.left = reading(channel, chance(50) ? -4 : -below(5));
    f.right = constant(number == (int32_t)number ? (int32_t)number : p->reading[row][channel]);
    if (chance(10))
        return (struct formula){ .kind = PINNED, .left = f.left };
    return chance(25) ? window_of(f.left, number) : f;
}

/* Mostly one that looks back, and mostly over the part just below. */
static struct formula operator_back(int part)
{
    struct formula f = { .kind = (enum kind)between(YESTERDAY, TRIGGER) };
    if (chance(30))
        f.kind = (enum kind)between(NOT, RELEASE);
    f.a = chance(70) ? part - 1 : below(part);
    f.b = chance(50) ? part - 1 : below(part);
    return f;
}

/* Y, Z and now and then a negation of the part just below. */
static struct formula link_of_chain(int part)
{
    static const enum kind kinds[] = { YESTERDAY, YESTERDAY, YESTERDAY, WEAK_YESTERDAY, NOT };
    return (struct formula){ .kind = kinds[below(5)], .a = part - 1 };
}

static struct formula some_late_formula(int part, bool is_chain, int atoms_percent)
{
    if (part == 0 && is_chain)
        return atom_back();
    if (is_chain)
        return link_of_chain(part);
    if (part == 0 || chance(atoms_percent))
        return chance(60) ? atom_back() : some_atom();
    return operator_back(part);
}

static void make_late_rule(void)
{
    int size = below(100), atoms_percent = between(10, 50);
    int parts = size < 70 ? between(1, 6) : size < 97 ? between(1, 14) : between(1, MOST_PARTS);
    bool is_chain = chance(25);
    case_truth.rule.parts = parts;
    case_truth.rule.channels = case_truth.plan.channels;
    start_rule(&case_rule, parts, case_truth.plan.channels);
    for (int part = 0; part < parts; part++) {
        case_truth.rule.part[part] = some_late_formula(part, is_chain, atoms_percent);
        write_formula(&case_rule, part, &case_truth.rule.part[part]);
    }
}

void make_late_case(void)
{
    make_late_plan();
    make_late_rule();
}
