/*
 * cases.c: the rules, plans and mark tables that bench.c times.
 *
 * A rule is grown part by part. Operators over random lower parts are tried until
 * one closes, as found by the second evaluator, which gives the marks as well.
 */
#include "cases.h"

enum { CHANNELS = 8 };

static struct sheet rule, plan;
static struct truth truth;
static uint64_t dice;

static int below(int n)
{
    dice = dice * 6364136223846793005u + 1442695040888963407u;
    return (int)((dice >> 33) % (uint64_t)n);
}

/* ---- Plans ---- */

/* Readings from 0 to 9. The lead-in and start rows are as the last rows of the cycle,
   so that what looks back from the cycle sees the same on every pass. */
static void steady_plan_after(int lead, int rows, int start)
{
    int cycle = rows - start;
    start_plan_with_lead(&plan, CHANNELS, lead, start, cycle);
    for (int row = rows - 1; row >= -lead; row--)
        for (int channel = 0; channel < CHANNELS; channel++) {
            const uint8_t *later = reading_bytes(&plan, row + cycle, channel);
            if (row < start)
                write_reading(&plan, row, channel, later[0]);
            else
                write_reading(&plan, row, channel, below(10));
        }
}

static void steady_plan(int rows, int start)
{
    steady_plan_after(0, rows, start);
}

/* Even channels lie above 0 and rise, odd ones lie below 0 and fall. */
static void parting_plan(int rows, int start)
{
    start_plan(&plan, CHANNELS, start, rows - start);
    for (int row = 0; row < rows; row++)
        for (int channel = 0; channel < CHANNELS; channel++) {
            int sign = channel % 2 ? -1 : 1;
            write_reading(&plan, row, channel, sign * (1 + below(1000)));
            if (row >= start)
                write_drift(&plan, row, channel, sign * (1 + below(9)));
        }
}

/* Even channels start low, rise fast and leave remainder 0 by 3; odd ones start
   high, rise slowly and leave remainder 1. They pass and never meet. */
static void passing_plan(int rows, int start)
{
    start_plan(&plan, CHANNELS, start, rows - start);
    for (int row = 0; row < rows; row++)
        for (int channel = 0; channel < CHANNELS; channel++) {
            bool odd = channel % 2;
            write_reading(&plan, row, channel, 3 * below(100) + (odd ? 3001 : 0));
            if (row >= start)
                write_drift(&plan, row, channel, odd ? 3 * below(3) : 9 + 3 * below(3));
        }
}

/* Minutes of the week, each channel with one drift on all but a few rows: none, of whole
   weeks, or of some hours or days. What such a drift shares with the week is in apart;
   there every minute lies in the first half of a stretch of so many. */
static const int32_t clock_drifts[CHANNELS] = { 0, WEEK, 1440, -5040, -2 * WEEK, 360, 2880, 0 };
static const int apart[CHANNELS] = { WEEK, WEEK, 1440, 5040, WEEK, 360, 1440, WEEK };

static int32_t some_minute(int channel)
{
    int half = apart[channel] == WEEK ? WEEK : apart[channel] / 2;
    return apart[channel] * below(WEEK / apart[channel]) + below(half) + WEEK * (below(100) - 50);
}

/* The start rows are as the last rows of the cycle, for what looks back. */
static void clock_plan(int rows, int start)
{
    start_plan(&plan, CHANNELS, start, rows - start);
    for (int row = start; row < rows; row++)
        for (int channel = 0; channel < CHANNELS; channel++) {
            int before = row - (rows - start);
            int32_t minute = some_minute(channel);
            write_reading(&plan, row, channel, minute);
            bool other = (row + 11 * channel) % 97 == 0;
            write_drift(&plan, row, channel, other ? WEEK : clock_drifts[channel]);
            if (before >= 0)
                write_reading(&plan, before, channel, minute);
        }
}

/* Channels under a top of 10000, but for one without and the last two:
     UP        comes to it within 2000 passes, from below 1000; OTHER_UP too
     HIGH      has none. It lies above 20000, and rises more slowly than UP
     DOWN      comes below it after 5000 passes or more, from 60000
     NEVER     lies below 0 and does not rise; LOWER lies below it and falls faster
     BY_ROWS   has a top of 500. On every third row it is pinned for ever; on the others it
               lies from 0 to 400, does not rise, and falls more slowly than LOWER
     CLOCK     has a top of 20000, nearly two weeks, and comes there from below 100 by about
               a day a pass: on no pass before is it within minutes 200 to 1400 of a week */
enum { UP, OTHER_UP, HIGH, DOWN, NEVER, LOWER, BY_ROWS, CLOCK };
enum { TOP = 10000, ROWS_TOP = 500, CLOCK_TOP = 20000 };

static int32_t topped_reading(int row, int channel)
{
    static const int32_t from[] = { 0, 0, 20000, 60000, -1000, -3000, 0, 0 };
    if (channel == BY_ROWS)
        return row % 3 == 0 ? 2 * ROWS_TOP + below(1000) : below(400);
    return from[channel] + below(channel == CLOCK ? 100 : 1000);
}

static int32_t topped_drift(int row, int channel)
{
    static const int32_t least[] = { 5, 5, 0, -9, -4, -9, -4, 0 };
    if (channel == CLOCK)
        return row % 97 ? 1443 : 1446;
    return below(5) + (channel == BY_ROWS && row % 3 == 0 ? 0 : least[channel]);
}

/* The start rows are as the last rows of the cycle, for what looks back. */
static void topped_plan(int rows, int start)
{
    static const int32_t tops[] = { TOP, TOP, 0, TOP, TOP, TOP, ROWS_TOP, CLOCK_TOP };
    start_plan(&plan, CHANNELS, start, rows - start);
    for (int channel = 0; channel < CHANNELS; channel++)
        write_top(&plan, channel, tops[channel]);
    for (int row = start; row < rows; row++)
        for (int channel = 0; channel < CHANNELS; channel++) {
            int before = row - (rows - start);
            int32_t number = topped_reading(row, channel);
            write_reading(&plan, row, channel, number);
            write_drift(&plan, row, channel, topped_drift(row, channel));
            if (before >= 0)
                write_reading(&plan, before, channel, number);
        }
}

/* ---- Parts ---- */

static void begin_rule(int parts)
{
    start_rule(&rule, parts, CHANNELS);
    decode_rule(slice_of(&rule), &truth.rule);
    decode_plan(slice_of(&plan), CHANNELS, &truth.plan);
}

static bool try_formula(int part, struct formula f)
{
    truth.rule.part[part] = f;
    find_truth(&truth, part);
    write_formula(&rule, part, &f);
    return is_row_periodic(&truth, part);
}

static void write_two_channels(int part, enum kind kind, int left_shift, int right_shift)
{
    struct formula f = { .kind = kind };
    f.left = reading(part % CHANNELS, left_shift);
    f.right = reading((part + 1 + 2 * (part / CHANNELS)) % CHANNELS, right_shift);
    try_formula(part, f);
}

/* All pairs of shifts come in turn. */
static void write_shifted(int part, enum kind kind)
{
    write_two_channels(part, kind, part % 9 - 4, part / 9 % 9 - 4);
}

/* A window, or all but it. On a channel whose drift shares less than the week with it, the
   window lies in the second half of a stretch. */
static void write_clock(int part, int channel)
{
    int half = apart[channel] / 2, stretches = WEEK / apart[channel];
    int from = apart[channel] == WEEK ? below(WEEK) : apart[channel] * below(stretches) + half;
    int to = (from + 1 + below(half)) % WEEK;
    struct formula f = { .kind = WINDOW, .left = reading(channel, part % 9 - 4) };
    f.from = part % 2 ? from : to;
    f.to = part % 2 ? to : from;
    try_formula(part, f);
}

/* Atoms under tops that are the same on every pass: false as no pass has all that they ask
   for, though each is met on some; false or true by drifts and tops alone; and a window that
   comes to its top before it comes inside. */
static void write_topped(int part, int which)
{
    static const struct {
        enum kind kind;
        int left, right;
    } atoms[] = { { LESS, HIGH, UP },       { EQUAL, OTHER_UP, HIGH }, { LESS, DOWN, OTHER_UP },
                  { PINNED, BY_ROWS, 0 },   { LESS, LOWER, BY_ROWS },  { LESS, LOWER, NEVER },
                  { WINDOW, CLOCK, 0 },     { EQUAL, UP, DOWN },       { LESS, NEVER, HIGH },
                  { PINNED, NEVER, 0 } };
    enum { ATOMS = sizeof atoms / sizeof atoms[0] };
    struct formula f = { .kind = atoms[which % ATOMS].kind };
    f.left = reading(atoms[which % ATOMS].left, part % 9 - 4);
    if (f.kind == LESS || f.kind == EQUAL)
        f.right = reading(atoms[which % ATOMS].right, part / 9 % 9 - 4);
    if (f.kind == WINDOW) {
        f.from = 200 + below(500);
        f.to = f.from + 1 + below(700);
    }
    try_formula(part, f);
}

/* An operator over two lower parts that closes: of this kind if such are found. */
static void write_closing_operator(int part, enum kind kind)
{
    struct formula f = { .kind = kind };
    for (int tries = 0; tries < 40; tries++) {
        f.a = below(part);
        f.b = below(part);
        if (try_formula(part, f))
            return;
    }
    try_formula(part, (struct formula){ .kind = NEXT, .a = part - 1, .b = 0 });
}

/* ---- The cases ---- */

void no_drift(int parts, int rows)
{
    steady_plan(rows, rows / 2);
    begin_rule(parts);
    for (int part = 0; part < parts; part++) {
        struct formula f = { .kind = part % 2 ? EQUAL : LESS };
        f.left = reading(part % CHANNELS, 0);
        f.right = part % 4 < 2 ? constant(part % 10) : reading((part + 3) % CHANNELS, 0);
        try_formula(part, f);
    }
}

void all_shifts(int parts, int rows)
{
    steady_plan(rows, 16);
    begin_rule(parts);
    for (int part = 0; part < parts; part++)
        write_shifted(part, part % 2 ? EQUAL : LESS);
}

void drifting_apart(int parts, int rows)
{
    parting_plan(rows, 16);
    begin_rule(parts);
    for (int part = 0; part < parts; part++)
        write_two_channels(part, LESS, part % 5, part / 5 % 5);
}

void stepped_over(int parts, int rows)
{
    passing_plan(rows, 16);
    begin_rule(parts);
    for (int part = 0; part < parts; part++)
        write_shifted(part, EQUAL);
}

void all_temporal(int parts, int rows)
{
    static const enum kind kinds[] = { NEXT,  UNTIL, RELEASE, YESTERDAY, WEAK_YESTERDAY,
                                       SINCE, TRIGGER };
    steady_plan(rows, rows / 2);
    begin_rule(parts);
    write_two_channels(0, LESS, 0, 0);
    write_two_channels(1, EQUAL, 0, 0);
    for (int part = 2; part < parts; part++)
        write_closing_operator(part, kinds[part % 7]);
}

void many_start_rows(int parts, int rows)
{
    parting_plan(rows, rows - 1);
    begin_rule(parts);
    for (int part = 0; part < parts; part++)
        if (part < 8 || part % 2 == 0)
            write_shifted(part, LESS);
        else
            write_closing_operator(part, (enum kind)(NOT + part / 2 % 10));
}

void all_kinds(int parts, int rows)
{
    steady_plan(rows, rows / 2);
    begin_rule(parts);
    for (int part = 0; part < parts; part++)
        if (part < 8 || part % 4 == 0)
            write_shifted(part, part % 8 ? LESS : EQUAL);
        else
            write_closing_operator(part, (enum kind)(NOT + part % 10));
}

/* As all_shifts, but the cycle begins at position 0, and every shift back from its
   first rows reads the lead-in. */
void after_lead_in(int parts, int rows)
{
    steady_plan_after(MOST_LEAD, rows, 0);
    begin_rule(parts);
    for (int part = 0; part < parts; part++)
        write_shifted(part, part % 2 ? EQUAL : LESS);
}

void drifting_clocks(int parts, int rows)
{
    clock_plan(rows, 16);
    begin_rule(parts);
    for (int part = 0; part < parts; part++)
        if (part % 8 != 7)
            write_clock(part, (part + part / 8) % CHANNELS);
        else
            write_closing_operator(part, (enum kind)(NOT + part / 8 % 10));
}

void late_tops(int parts, int rows)
{
    topped_plan(rows, 16);
    begin_rule(parts);
    for (int part = 0; part < parts; part++)
        if (part % 8 != 7)
            write_topped(part, part - part / 8);
        else
            write_closing_operator(part, (enum kind)(NOT + part / 8 % 10));
}

/* The shifts of the two sides in another order: nine parts have all of each, and so
   have nine of every other part. */
static void write_mixed_shifts(int part, enum kind kind)
{
    write_two_channels(part, kind, part % 9 - 4, 4 * part % 9 - 4);
}

void mixed_comparisons(int parts, int rows)
{
    steady_plan(rows, 16);
    begin_rule(parts);
    for (int part = 0; part < parts; part++)
        write_mixed_shifts(part, part % 2 ? LESS : EQUAL);
}

void mixed_parts(int parts, int rows)
{
    steady_plan(rows, 16);
    begin_rule(parts);
    for (int part = 0; part < parts; part++)
        if (part % 2 == 0)
            write_mixed_shifts(part, part % 4 ? LESS : EQUAL);
        else
            write_closing_operator(part, (enum kind)(NOT + part / 2 % 10));
}

void build_case(struct sheets *sheets, builder *build, int parts, int rows)
{
    dice = 1;
    build(parts, rows);
    sheets->rule = rule;
    sheets->plan = plan;
    write_true_marks(&sheets->marks, &truth);
}

/* ---- Open parts ---- */

/* x is 1 up to row P and 0 after it, y is 1 on the row before P alone, and z rises on
   one cycle row. On row P a part of Y, Z or S over x = 1 and y = 1 holds on pass 0 alone,
   and T over x = 0 and y = 0 fails on it alone. With the mark on row P the other way round
   their marks close. z has a top for kind 14 alone, as z = 5 would never hold under it. */
void build_open_case(struct sheets *sheets, enum kind kind)
{
    enum { PARTS = 3, START = 16, ROWS = 256, RISING = 200 };
    struct formula open = { .kind = kind, .a = 0, .b = 1, .from = 5, .to = 6 };
    open.left = reading(2, 0);
    open.right = constant(5);
    start_plan(&plan, CHANNELS, START, ROWS - START);
    for (int row = 0; row <= START; row++)
        write_reading(&plan, row, 0, 1);
    write_reading(&plan, START - 1, 1, 1);
    write_drift(&plan, RISING, 2, 1);
    write_top(&plan, 2, kind == PINNED ? 5 : 0);
    start_rule(&rule, PARTS, CHANNELS);
    write_comparison(&rule, 0, EQUAL, reading(0, 0), constant(kind != TRIGGER));
    write_comparison(&rule, 1, EQUAL, reading(1, 0), constant(kind != TRIGGER));
    write_formula(&rule, 2, &open);
    sheets->rule = rule;
    sheets->plan = plan;
    write_true_marks_of(&sheets->marks, &truth, &rule, &plan);
    *mark_byte(&sheets->marks, 2, START) ^= 1;
}

/* ---- Late cases ---- */

/* One cycle row. Its last channel rises; the others stay, and over them every part
   closes but the last. */
void crossing_late(void)
{
    enum { PARTS = 64, START = 4, RISING = CHANNELS - 1, LIMIT = 250 };
    steady_plan(START + 1, START);
    write_drift(&plan, START, RISING, 1);
    begin_rule(PARTS);
    for (int part = 0; part < PARTS - 1; part++)
        if (part < 8 || part % 2 == 0) {
            struct formula f = { .kind = part % 4 ? LESS : EQUAL };
            f.left = reading(part % RISING, part % 9 - 4);
            f.right = reading((part + 3) % RISING, 0);
            try_formula(part, f);
        } else {
            write_closing_operator(part, (enum kind)(NOT + part / 2 % 10));
        }
    write_comparison(&rule, PARTS - 1, LESS, reading(RISING, 0), constant(LIMIT));
}

/* The same under tops, some of which are reached by the channels that stay. The last part
   tells when the one that rises is pinned. */
void pinned_late(void)
{
    enum { PARTS = 64, START = 4, RISING = CHANNELS - 1, LIMIT = 250 };
    steady_plan(START + 1, START);
    write_drift(&plan, START, RISING, 1);
    for (int channel = 0; channel < CHANNELS; channel++)
        write_top(&plan, channel, channel == RISING ? LIMIT : 5 + channel);
    begin_rule(PARTS);
    for (int part = 0; part < PARTS - 1; part++)
        if (part < 8 || part % 2 == 0) {
            struct formula f = { .kind = part % 3 ? LESS : PINNED };
            f.left = reading(part % RISING, part % 9 - 4);
            if (f.kind == LESS)
                f.right = reading((part + 3) % RISING, 0);
            try_formula(part, f);
        } else {
            write_closing_operator(part, (enum kind)(NOT + part / 2 % 10));
        }
    write_pinned(&rule, PARTS - 1, reading(RISING, 0));
}

/* The same with windows. The channel that rises is read by the last part alone. */
void clocks_late(void)
{
    enum { PARTS = 64, START = 4, RISING = CHANNELS - 1, LIMIT = 250 };
    clock_plan(START + 1, START);
    write_reading(&plan, START, RISING, 0);
    write_drift(&plan, START, RISING, 1);
    begin_rule(PARTS);
    for (int part = 0; part < PARTS - 1; part++)
        if (part < 8 || part % 2 == 0)
            write_clock(part, part % RISING);
        else
            write_closing_operator(part, (enum kind)(NOT + part / 2 % 10));
    write_comparison(&rule, PARTS - 1, LESS, reading(RISING, 0), constant(LIMIT));
}

/* One cycle row, on which every channel rises. Each comparison crosses its limit about
   one pass after the one below it. */
void crossing_in_turn(void)
{
    enum { PARTS = 64, START = 4, FIRST = 180 };
    start_plan(&plan, CHANNELS, START, 1);
    for (int channel = 0; channel < CHANNELS; channel++)
        write_drift(&plan, START, channel, 1);
    start_rule(&rule, PARTS, CHANNELS);
    for (int part = 0; part < PARTS; part++)
        write_comparison(&rule, part, LESS, reading(part % CHANNELS, part % 9 - 4),
                         constant(FIRST + part));
}

/* One cycle row, which differs from the start rows. Each Y needs one pass more than the
   part below it. */
void yesterdays_deep(void)
{
    enum { PARTS = 64, DEEP = 60, START = 188 };
    start_plan(&plan, CHANNELS, START, 1);
    write_reading(&plan, START, 0, 1);
    start_rule(&rule, PARTS, CHANNELS);
    write_comparison(&rule, 0, EQUAL, reading(0, -4), constant(1));
    for (int part = 1; part <= DEEP; part++)
        write_unary(&rule, part, YESTERDAY, part - 1);
    for (int part = DEEP + 1; part < PARTS; part++)
        write_binary(&rule, part, part % 2 ? SINCE : AND, part - 1, 0);
}

/* Start rows unlike the cycle, so that what looks back from its first rows does not see
   the same on the first pass as later. */
void settling_soon(void)
{
    enum { PARTS = 20, COMPARISONS = 8, START = 4, ROWS = 16 };
    start_plan(&plan, CHANNELS, START, ROWS - START);
    for (int row = 0; row < ROWS; row++)
        for (int channel = 0; channel < CHANNELS; channel++)
            write_reading(&plan, row, channel, below(10));
    start_rule(&rule, PARTS, CHANNELS);
    for (int part = 0; part < PARTS; part++) {
        struct formula f = { .kind = part % 2 ? LESS : EQUAL };
        f.left = reading(part % CHANNELS, -(part % 5));
        f.right = part % 4 ? reading((part + 3) % CHANNELS, 0) : constant(5);
        if (part >= COMPARISONS)
            f = (struct formula){ .kind = (enum kind)(NOT + (part - COMPARISONS) % 10),
                                  .a = below(part), .b = below(part) };
        write_formula(&rule, part, &f);
    }
}

void build_late_case(struct sheets *sheets, late_builder *build)
{
    dice = 1;
    build();
    sheets->rule = rule;
    sheets->plan = plan;
}
