/*
 * cases.c: random plans, and random rules that suit them.
 */
#include "cases.h"

#include "dice.h"

struct sheet case_rule, case_plan, case_marks;
struct truth case_truth;
const char *const kind_names[KINDS] = { "",  "less", "equal", "not", "and", "or",     "X",     "U",
                                        "R", "Y",    "Z",     "S",   "T",   "window", "pinned" };

static int32_t clamp(int64_t n)
{
    return n < INT32_MIN ? INT32_MIN : n > INT32_MAX ? INT32_MAX : (int32_t)n;
}

/* ---- Plans ---- */

enum plan_style { STEADY, STILL, ONE_DRIFT, CHANNEL_DRIFTS, CELL_DRIFTS, APART, EXTREME, WEEKLY };

int32_t extreme_number(void)
{
    static const int32_t ends[] = { INT32_MIN, INT32_MAX, 0, 1 << 30, -(1 << 30) };
    return clamp((int64_t)ends[below(5)] + between(-3, 3));
}

int32_t extreme_drift(void)
{
    return chance(50) ? between(-2, 2) : extreme_number();
}

static int32_t some_reading(enum plan_style style, int channel)
{
    switch (style) {
    case STEADY:
    case STILL:
        return between(0, chance(80) ? 3 : 10);
    case APART:
        return channel % 2 ? between(-20, -5) : between(5, 20);
    case EXTREME:
        return extreme_number();
    case WEEKLY:
        return weekly_reading();
    default:
        return between(-10, 10);
    }
}

static int32_t some_drift(enum plan_style style, int channel, int32_t of_plan, int32_t of_channel)
{
    switch (style) {
    case STEADY:
    case STILL:
        return 0;
    case ONE_DRIFT:
        return of_plan;
    case CHANNEL_DRIFTS:
        return of_channel;
    case APART:
        return channel % 2 ? between(-4, 0) : between(0, 4);
    case EXTREME:
        return chance(60) ? of_channel : extreme_drift();
    case WEEKLY:
        return chance(70) ? of_channel : weekly_drift();
    default:
        return between(-3, 3);
    }
}

/* What the rows before the cycle are like: as they come; or as if the cycle had come
   before, with the readings of its first pass, or with those of passes before it. */
enum before_style { ANY_BEFORE, SAME_BEFORE, DRIFTED_BEFORE };

static enum before_style some_before(enum plan_style style)
{
    if (style == STEADY)
        return SAME_BEFORE;
    if (style == STILL || chance(40))
        return ANY_BEFORE;
    return chance(50) ? SAME_BEFORE : DRIFTED_BEFORE;
}

/* The start rows and the lead-in rows, each from the cycle row that lies some cycles
   later. */
static void write_rows_before(enum before_style style)
{
    const struct plan *p = &case_truth.plan;
    int last = p->rows - 1;
    for (int row = p->start - 1; row >= -p->lead; row--) {
        int cycles = (last - row) / p->cycle, of_cycle = row + cycles * p->cycle;
        for (int channel = 0; channel < p->channels; channel++) {
            int64_t drift = style == DRIFTED_BEFORE ? p->drift[of_cycle][channel] : 0;
            write_reading(&case_plan, row, channel,
                          clamp(p->reading[of_cycle][channel] - cycles * drift));
        }
    }
}

static int32_t some_channel_drift(enum plan_style style)
{
    if (style == WEEKLY)
        return weekly_drift();
    return style == EXTREME ? extreme_drift() : between(-3, 3);
}

static void make_plan(enum plan_style style, int channels, int lead, int start, int cycle)
{
    int32_t of_plan = between(-3, 3);
    start_plan_with_lead(&case_plan, channels, lead, start, cycle);
    for (int channel = 0; channel < channels; channel++) {
        int32_t of_channel = some_channel_drift(style);
        for (int row = -lead; row < start + cycle; row++) {
            write_reading(&case_plan, row, channel, some_reading(style, channel));
            if (row >= start)
                write_drift(&case_plan, row, channel,
                            some_drift(style, channel, of_plan, of_channel));
        }
    }
    decode_plan(slice_of(&case_plan), channels, &case_truth.plan);
    enum before_style before = some_before(style);
    if (before != ANY_BEFORE) {
        write_rows_before(before);
        decode_plan(slice_of(&case_plan), channels, &case_truth.plan);
    }
    if (chance(40))
        write_some_tops();
}

void make_still_plan(int channels)
{
    const struct plan *p = &case_truth.plan;
    make_plan(STILL, channels, p->lead, p->start, p->cycle);
}

/* ---- Rules ---- */

/* A constant: some reading of the plan on an early pass or in the lead-in, or one
   beside it. */
static struct term some_constant(void)
{
    const struct plan *p = &case_truth.plan;
    int row = below(p->rows), channel = below(p->channels);
    int64_t pass = row < p->start ? 0 : chance(50) ? below(3) : below(40);
    int64_t number = p->reading[row][channel] + pass * p->drift[row][channel];
    if (p->lead > 0 && chance(20))
        number = p->lead_in[below(p->lead)][channel];
    if (chance(3))
        return constant(extreme_number());
    return constant(clamp(number + between(-1, 1)));
}

static struct term some_term(int shifted_percent)
{
    if (chance(30))
        return some_constant();
    int channel = below(case_truth.plan.channels);
    int least = -4, most = case_truth.plan.lead > 0 && chance(40) ? -1 : 4;
    return reading(channel, chance(shifted_percent) ? between(least, most) : 0);
}

static struct formula some_comparison(void)
{
    struct formula f = { .kind = chance(50) ? LESS : EQUAL };
    int shifted_percent = chance(case_truth.plan.lead > 0 ? 30 : 50) ? 0 : 70;
    f.left = some_term(shifted_percent);
    f.right = chance(50) ? some_constant() : some_term(shifted_percent);
    if (chance(8)) {
        f.left = constant(between(0, 1));
        f.right = constant(between(0, 1));
    } else if (chance(30)) {
        struct term left = f.left;
        f.left = f.right;
        f.right = left;
    }
    return f;
}

struct formula some_atom(void)
{
    if (chance(has_tops(&case_truth.plan) ? 25 : 3))
        return some_pinned();
    return chance(25) ? some_window() : some_comparison();
}

/* Has the part this truth on all cycle rows? */
static bool constant_on_cycle(int part, bool value)
{
    for (int row = case_truth.plan.start; row < case_truth.plan.rows; row++)
        if (holds(&case_truth, part, row) != value)
            return false;
    return true;
}

static int part_constant_on_cycle(int parts, bool value, int otherwise)
{
    int from = below(parts);
    for (int i = 0; i < parts; i++)
        if (constant_on_cycle((from + i) % parts, value))
            return (from + i) % parts;
    return otherwise;
}

/* For U: a holds on the whole cycle and b nowhere on it, so that marks of 1
   meet the equations too. For R the other way round. */
static void choose_false_fixpoint(struct formula *f, int part)
{
    f->a = part_constant_on_cycle(part, f->kind == UNTIL, f->a);
    f->b = part_constant_on_cycle(part, f->kind == RELEASE, f->b);
}

static struct formula some_operator(int part, bool closes_surely)
{
    static const enum kind sure[] = { NOT, AND, OR, NEXT, UNTIL, RELEASE };
    struct formula f = { .kind = (enum kind)between(NOT, TRIGGER) };
    if (closes_surely)
        f.kind = sure[below(6)];
    int lowest = part > 6 && chance(70) ? part - 6 : 0;
    f.a = between(lowest, part - 1);
    f.b = between(lowest, part - 1);
    if ((f.kind == UNTIL || f.kind == RELEASE) && chance(60))
        choose_false_fixpoint(&f, part);
    return f;
}

static struct formula some_formula(int part, int atoms_percent)
{
    if (part == 0 || chance(atoms_percent))
        return some_atom();
    return some_operator(part, false);
}

static struct formula formula_that_closes(int part)
{
    struct formula f = { .kind = EQUAL, .left = constant(0), .right = constant(between(0, 1)) };
    return part == 0 || chance(10) ? f : some_operator(part, true);
}

static void take_formula(int part, struct formula f)
{
    case_truth.rule.part[part] = f;
    find_truth(&case_truth, part);
}

static void take_closing_formula(int part, int atoms_percent)
{
    for (int tries = 0; tries < 6; tries++) {
        take_formula(part, some_formula(part, atoms_percent));
        if (is_row_periodic(&case_truth, part))
            return;
    }
    take_formula(part, formula_that_closes(part));
}

/* An atom, Y, Z, S or T that does not close, if one is met. S and T seldom fail to, so
   one of them is chosen first and then its parts. */
static void take_open_formula(int part)
{
    static const enum kind past[] = { YESTERDAY, WEAK_YESTERDAY, SINCE, SINCE, TRIGGER, TRIGGER };
    struct formula f = { .kind = past[below(6)] };
    bool atom = part == 0 || chance(20);
    for (int tries = 0; tries < 60; tries++) {
        if (atom)
            f = some_atom();
        f.a = below(part + (part == 0));
        f.b = below(part + (part == 0));
        take_formula(part, f);
        if (!is_row_periodic(&case_truth, part))
            return;
    }
}

/* A rule for the plan. The parts below the open one close, and it does not if
   that can be had; the others are as they come. */
static void make_rule(int parts, int open)
{
    int atoms_percent = chance(10) ? 100 : between(15, 50);
    case_truth.rule.parts = parts;
    case_truth.rule.channels = case_truth.plan.channels;
    start_rule(&case_rule, parts, case_truth.plan.channels);
    for (int part = 0; part < parts; part++) {
        if (part < open)
            take_closing_formula(part, atoms_percent);
        else if (part == open)
            take_open_formula(part);
        else
            take_formula(part, some_formula(part, atoms_percent));
        write_formula(&case_rule, part, &case_truth.rule.part[part]);
    }
}

/* ---- Sizes ---- */

static int some_parts(void)
{
    int size = below(100);
    return size < 60 ? between(1, 8) : size < 92 ? between(1, 20) : size < 98 ? between(1, 64) : 64;
}

static void some_rows(int *start, int *cycle)
{
    int size = below(100);
    if (size < 98) {
        *start = size < 65 ? between(0, 4) : between(0, size < 95 ? 9 : 30);
        *cycle = size < 65 ? between(1, 4) : between(1, size < 95 ? 9 : 30);
        return;
    }
    *start = chance(20) ? 255 : chance(20) ? 0 : below(256);
    *cycle = chance(70) ? 256 - *start : between(1, 256 - *start);
}

void make_case(void)
{
    int start, cycle, parts = some_parts(), lead = chance(40) ? 0 : between(1, 4);
    int channels = chance(80) ? between(1, 3) : between(1, 8);
    some_rows(&start, &cycle);
    if (lead > 0 && start > 1 && chance(30))
        start = below(2); /* so that cycle rows look back to the lead-in */
    if (chance(1)) {
        parts = 64;
        channels = 8;
        start = chance(50) ? 255 : between(0, 255);
        cycle = 256 - start;
    }
    enum plan_style style = (enum plan_style)between(STEADY, WEEKLY);
    int open = chance(60) ? parts : chance(20) ? -1 : between(parts / 2, parts - 1);
    if (open >= 2 && open < parts && chance(70))
        style = STILL; /* where atoms close, and S and T over them may not */
    make_plan(style, channels, lead, start, cycle);
    make_rule(parts, open);
    make_table();
}
