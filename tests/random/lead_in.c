/*
 * lead_in.c: lead-in rows by hand: which of them a shifted term reads, where it
 * reaches before them, cycles that begin at position 0, operators that do not look
 * into them, and the longest plan.
 *
 * What is expected is found here from the position alone: a term reads position t
 * plus its shift, and before position -L nothing is seen.
 */
#include "expect.h"

#include "../../include/endless_run.h"

#include <stdio.h>

enum { MOST_BACK = 4 };

static struct sheet rule, plan, marks;

static bool compare(enum kind kind, int64_t left, int64_t right)
{
    return kind == LESS ? left < right : left == right;
}

/* One comparison as the whole rule. */
static void write_rule(int channels, enum kind kind, struct term left, struct term right)
{
    start_rule(&rule, 1, channels);
    write_comparison(&rule, 0, kind, left, right);
}

/* The marks of part 0, whether they are accepted and made; and each row judged. */
static void expect_marks(const char *name, int rows, const bool *due)
{
    start_marks(&marks, 1, rows);
    for (int row = 0; row < rows; row++) {
        *mark_byte(&marks, 0, row) = due[row];
        expect_judge(name, &rule, &plan, 0, (uint64_t)row, due[row] ? ALWAYS_TRUE : ALWAYS_FALSE);
    }
    expect_made(name, &rule, &plan, &marks, due[0]);
    expect_check(name, &rule, &plan, &marks, due[0]);
}

/* ---- Which position is read ---- */

/* Eight start rows and a cycle row. Up to row 3 every position has a reading of its
   own, and y is one position ahead of x; from row 4 on all readings are the same, so
   that every comparison closes. */
enum { START = 8, ROWS = START + 1, STILL_FROM = 4, STILL = 1000 };
enum { X, Y, OTHER, CHANNELS };

static int32_t reading_at(int channel, int position)
{
    if (position >= STILL_FROM)
        return STILL;
    return channel == OTHER ? -500 : 10 * (channel == Y ? position + 1 : position);
}

static void write_readings(int lead)
{
    start_plan_with_lead(&plan, CHANNELS, lead, START, 1);
    for (int row = -lead; row < ROWS; row++)
        for (int channel = 0; channel < CHANNELS; channel++)
            write_reading(&plan, row, channel, reading_at(channel, row));
}

static bool is_seen(struct term term, int position, int lead)
{
    return !term.is_reading || position + term.shift >= -lead;
}

static int32_t number_at(struct term term, int position)
{
    return term.is_reading ? reading_at(term.number, position + term.shift) : term.number;
}

static void expect_comparison(int lead, enum kind kind, struct term left, struct term right)
{
    bool due[ROWS];
    char name[100];
    for (int t = 0; t < ROWS; t++)
        due[t] = is_seen(left, t, lead) && is_seen(right, t, lead) &&
                 compare(kind, number_at(left, t), number_at(right, t));
    snprintf(name, sizeof name, "L %d, %s %d shifted %d, %d shifted %d", lead,
             kind == LESS ? "less" : "equal", left.number, left.shift, right.number, right.shift);
    write_rule(CHANNELS, kind, left, right);
    expect_marks(name, ROWS, due);
}

/* A reading at each shift back against each number that could be there, on both
   sides. */
static void one_term_back(int lead)
{
    for (int shift = -MOST_BACK; shift <= -1; shift++)
        for (int position = -MOST_BACK; position <= STILL_FROM; position++) {
            struct term x = reading(X, shift), there = constant(reading_at(X, position));
            struct term above = constant(reading_at(X, position) + 1);
            expect_comparison(lead, EQUAL, x, there);
            expect_comparison(lead, EQUAL, there, x);
            expect_comparison(lead, LESS, x, above);
            expect_comparison(lead, LESS, there, x);
        }
}

/* Two readings, at any two shifts: it is enough that one of them is not seen. */
static void two_terms(int lead)
{
    for (int left = -MOST_BACK; left <= MOST_BACK; left++)
        for (int right = -MOST_BACK; right <= MOST_BACK; right++) {
            expect_comparison(lead, LESS, reading(X, left), reading(Y, right));
            expect_comparison(lead, EQUAL, reading(X, left), reading(Y, right));
            expect_comparison(lead, EQUAL, reading(Y, left), reading(X, right));
            expect_comparison(lead, LESS, reading(OTHER, left), reading(X, right));
        }
}

/* Constants reach nowhere, whatever the lead-in. */
static void constants(int lead)
{
    expect_comparison(lead, LESS, constant(1), constant(2));
    expect_comparison(lead, LESS, constant(2), constant(1));
    expect_comparison(lead, EQUAL, constant(-7), constant(-7));
    expect_comparison(lead, EQUAL, constant(0), reading(X, 0));
    expect_comparison(lead, LESS, reading(X, 1), constant(INT32_MAX));
}

/* Every reading is 6, and a comparison that holds of 6 is true just where it is seen:
   exactly to -L, and not one position before. */
static void edge(int lead, int row, int shift)
{
    uint64_t judged = row + shift >= -lead ? ALWAYS_TRUE : ALWAYS_FALSE;
    struct term x = reading(0, shift);
    start_plan_with_lead(&plan, 1, lead, 5, 1);
    for (int at = -lead; at < 6; at++)
        write_reading(&plan, at, 0, 6);
    write_rule(1, EQUAL, x, constant(6));
    expect_judge("seen from -L on, equal", &rule, &plan, 0, (uint64_t)row, judged);
    write_rule(1, EQUAL, constant(6), x);
    expect_judge("seen from -L on, equal, right", &rule, &plan, 0, (uint64_t)row, judged);
    write_rule(1, LESS, x, constant(7));
    expect_judge("seen from -L on, less", &rule, &plan, 0, (uint64_t)row, judged);
    write_rule(1, LESS, constant(5), x);
    expect_judge("seen from -L on, less, right", &rule, &plan, 0, (uint64_t)row, judged);
    write_rule(1, EQUAL, x, x);
    expect_judge("seen from -L on, both", &rule, &plan, 0, (uint64_t)row, judged);
}

static void positions(void)
{
    for (int lead = 0; lead <= MOST_LEAD; lead++) {
        write_readings(lead);
        one_term_back(lead);
        two_terms(lead);
        constants(lead);
        for (int row = 0; row < 4; row++)
            for (int shift = -MOST_BACK; shift <= -1; shift++)
                edge(lead, row, shift);
    }
}

/* ---- Channels and whole numbers ---- */

/* Each cell of the lead-in has a number of its own. */
static void cells(int lead)
{
    bool right = true;
    start_plan_with_lead(&plan, MOST_CHANNELS, lead, 1, 1);
    for (int row = -lead; row < 0; row++)
        for (int channel = 0; channel < MOST_CHANNELS; channel++)
            write_reading(&plan, row, channel, 100 * row - channel);
    for (int row = -lead; row < 0; row++)
        for (int channel = 0; channel < MOST_CHANNELS; channel++)
            for (int other = -lead; other < 0; other++)
                for (int k = 0; k < MOST_CHANNELS; k++) {
                    write_rule(MOST_CHANNELS, EQUAL, reading(channel, row),
                               constant(100 * other - k));
                    bool same = row == other && channel == k;
                    uint64_t judged = endless_run_judge(rule.at, rule.len, plan.at, plan.len, 0, 0);
                    right &= judged == (same ? ALWAYS_TRUE : ALWAYS_FALSE);
                }
    expect("each channel of each lead-in row", right);
}

/* A lead-in reading and a reading at either end of 32 bits. */
static void ends(void)
{
    static const int32_t numbers[] = { INT32_MIN, INT32_MIN + 1, -1, 0, INT32_MAX - 1, INT32_MAX };
    for (int i = 0; i < 6; i++)
        for (int k = 0; k < 6; k++) {
            start_plan_with_lead(&plan, 1, 1, 1, 1);
            write_reading(&plan, -1, 0, numbers[i]);
            write_reading(&plan, 0, 0, numbers[k]);
            for (int kind = LESS; kind <= EQUAL; kind++) {
                bool back = compare((enum kind)kind, numbers[i], numbers[k]);
                bool front = compare((enum kind)kind, numbers[k], numbers[i]);
                write_rule(1, (enum kind)kind, reading(0, -1), reading(0, 0));
                expect_judge("ends of 32 bits", &rule, &plan, 0, 0, back);
                write_rule(1, (enum kind)kind, reading(0, 0), reading(0, -1));
                expect_judge("ends of 32 bits", &rule, &plan, 0, 0, front);
            }
        }
}

/* ---- Cycles from position 0 on ---- */

static int row_of(int position, int cycle)
{
    return (position % cycle + cycle) % cycle;
}

/* Row r of the cycle has reading r. Where the lead-in goes on in the same way the
   comparison is the same on pass 0 as later; where it has other readings, or where
   there is none, it is false on pass 0. */
static void expect_cycle_row(int lead, int cycle, bool same, int row, int shift)
{
    char name[100];
    int at = row + shift;
    snprintf(name, sizeof name, "L %d, C %d, %s lead-in, row %d shifted %d", lead, cycle,
             same ? "same" : "other", row, shift);
    for (int number = 0; number < cycle; number++) {
        bool later = row_of(at, cycle) == number;
        bool first = later && (at >= 0 || (same && at >= -lead));
        write_rule(1, EQUAL, reading(0, shift), constant(number));
        expect_judge(name, &rule, &plan, 0, (uint64_t)row,
                     first != later ? CHANGES : later ? ALWAYS_TRUE : ALWAYS_FALSE);
    }
    /* Every reading of the cycle is above -1, and no other lead-in reading is. */
    bool first = at >= 0 || (same && at >= -lead);
    write_rule(1, LESS, constant(-1), reading(0, shift));
    expect_judge(name, &rule, &plan, 0, (uint64_t)row, first ? ALWAYS_TRUE : CHANGES);
}

static void cycle_from_0(int lead, int cycle, bool same)
{
    start_plan_with_lead(&plan, 1, lead, 0, cycle);
    for (int row = -lead; row < cycle; row++)
        write_reading(&plan, row, 0, row >= 0 || same ? row_of(row, cycle) : -1);
    for (int row = 0; row < cycle; row++)
        for (int shift = -MOST_BACK; shift <= -1; shift++)
            expect_cycle_row(lead, cycle, same, row, shift);
}

/* E8 and its sister at every L and shift: the reading at t is 4094 + t. With a
   lead-in that goes on so, the earlier reading is always the lower one. */
static void rising(int lead, int shift)
{
    bool seen = shift >= -lead;
    start_plan_with_lead(&plan, 1, lead, 0, 1);
    for (int row = -lead; row < 1; row++)
        write_reading(&plan, row, 0, 4094 + row);
    write_drift(&plan, 0, 0, 1);
    write_rule(1, LESS, reading(0, shift), reading(0, 0));
    expect_judge("rising, lead-in below", &rule, &plan, 0, 0, seen ? ALWAYS_TRUE : CHANGES);
    start_marks(&marks, 1, 1);
    *mark_byte(&marks, 0, 0) = seen;
    uint64_t checked = seen ? 1 : refusal(10, 0, 0);
    expect_check("rising, lead-in below", &rule, &plan, &marks, checked);
    expect_make_as_checked("rising, lead-in below", &rule, &plan, &marks, checked);
    if (lead == 0)
        return;
    write_reading(&plan, shift < -lead ? -lead : shift, 0, 4094);
    expect_judge("rising, lead-in as high", &rule, &plan, 0, 0, CHANGES);
    write_rule(1, EQUAL, reading(0, shift), reading(0, 0));
    expect_judge("rising, equal to the lead-in", &rule, &plan, 0, 0,
                 seen ? CHANGES : ALWAYS_FALSE);
}

/* The lead-in is read on passes 0 to 3 of a cycle of one row, each time another of
   its rows: any one of them that differs makes the comparison change. */
static void each_early_pass(void)
{
    write_rule(1, EQUAL, reading(0, -4), constant(5));
    for (int other = -5; other <= -1; other++) {
        start_plan_with_lead(&plan, 1, 4, 0, 1);
        for (int row = -4; row <= 0; row++)
            write_reading(&plan, row, 0, row == other ? 6 : 5);
        bool all = other == -5;
        expect_judge("each early pass", &rule, &plan, 0, 0, all ? ALWAYS_TRUE : CHANGES);
        start_marks(&marks, 1, 1);
        *mark_byte(&marks, 0, 0) = other != -4;
        uint64_t checked = all ? 1 : refusal(10, 0, 0);
        expect_check("each early pass", &rule, &plan, &marks, checked);
        expect_make_as_checked("each early pass", &rule, &plan, &marks, checked);
    }
}

static void cycles(void)
{
    for (int lead = 0; lead <= MOST_LEAD; lead++) {
        for (int cycle = 1; cycle <= 5; cycle++) {
            cycle_from_0(lead, cycle, true);
            cycle_from_0(lead, cycle, false);
        }
        for (int shift = -MOST_BACK; shift <= -1; shift++)
            rising(lead, shift);
    }
    each_early_pass();
}

/* ---- Operators begin at position 0 ---- */

/* An operator over x = 1 and y = 1, with readings of their own on the lead-in rows
   and on the others, all alike. */
static void expect_operator(const char *name, int lead, enum kind kind, int32_t x_before,
                            int32_t y_before, int32_t x, int32_t y, const char *due)
{
    start_rule(&rule, 3, 2);
    write_comparison(&rule, 0, EQUAL, reading(0, 0), constant(1));
    write_comparison(&rule, 1, EQUAL, reading(1, 0), constant(1));
    write_formula(&rule, 2, &(struct formula){ .kind = kind, .a = 0, .b = 1 });
    start_plan_with_lead(&plan, 2, lead, 1, 2);
    start_marks(&marks, 3, 3);
    for (int row = -lead; row < 3; row++) {
        write_reading(&plan, row, 0, row < 0 ? x_before : x);
        write_reading(&plan, row, 1, row < 0 ? y_before : y);
        if (row < 0)
            continue;
        *mark_byte(&marks, 0, row) = x == 1;
        *mark_byte(&marks, 1, row) = y == 1;
        *mark_byte(&marks, 2, row) = due[row] == '1';
    }
    expect_made(name, &rule, &plan, &marks, due[0] == '1');
    expect_check(name, &rule, &plan, &marks, due[0] == '1');
    *mark_byte(&marks, 2, 0) ^= 1;
    expect_check(name, &rule, &plan, &marks, refusal(9, 2, 0));
}

/* Each would have other marks if it looked into the lead-in. */
static void operators(int lead)
{
    expect_operator("Y at 0 is false", lead, YESTERDAY, 1, 1, 1, 0, "011");
    expect_operator("Z at 0 is true", lead, WEAK_YESTERDAY, 0, 0, 1, 0, "111");
    expect_operator("S begins at 0", lead, SINCE, 1, 1, 1, 0, "000");
    expect_operator("T begins at 0", lead, TRIGGER, 0, 0, 0, 1, "111");
}

/* Y x = 1 as a term reads the lead-in, and Y (x = 1) does not. */
static void term_and_operator(void)
{
    start_rule(&rule, 3, 1);
    write_comparison(&rule, 0, EQUAL, reading(0, -1), constant(1));
    write_comparison(&rule, 1, EQUAL, reading(0, 0), constant(1));
    write_unary(&rule, 2, YESTERDAY, 1);
    start_plan_with_lead(&plan, 1, 1, 1, 1);
    for (int row = -1; row < 2; row++)
        write_reading(&plan, row, 0, 1);
    start_marks(&marks, 3, 2);
    for (int row = 0; row < 2; row++) {
        *mark_byte(&marks, 0, row) = 1;
        *mark_byte(&marks, 1, row) = 1;
    }
    *mark_byte(&marks, 2, 1) = 1;
    expect_made("a shift and yesterday", &rule, &plan, &marks, 0);
    expect_check("a shift and yesterday", &rule, &plan, &marks, 0);

    /* With the cycle from 0 on, the term closes and the operator does not. */
    start_plan_with_lead(&plan, 1, 1, 0, 1);
    write_reading(&plan, -1, 0, 1);
    write_reading(&plan, 0, 0, 1);
    expect_judge("a shift closes, P 0", &rule, &plan, 0, 0, ALWAYS_TRUE);
    start_marks(&marks, 3, 1);
    *mark_byte(&marks, 0, 0) = *mark_byte(&marks, 1, 0) = 1;
    expect_check("yesterday does not, P 0", &rule, &plan, &marks, refusal(10, 2, 0));
    expect_make_as_checked("yesterday does not, P 0", &rule, &plan, &marks, refusal(10, 2, 0));
}

/* ---- Lengths ---- */

/* Every length but its own is refused. */
static void all_lengths(int lead)
{
    static struct sheet whole;
    write_rule(1, LESS, reading(0, -1), constant(1));
    start_plan_with_lead(&whole, 1, lead, 1, 1);
    for (size_t len = 0; len < whole.len + 40; len++) {
        plan = whole;
        resize(&plan, len);
        uint64_t four = refusal(4, 0, 0), right = lead > 0 ? ALWAYS_TRUE : ALWAYS_FALSE;
        expect_judge("every length", &rule, &plan, 0, 0, len == whole.len ? right : four);
    }
}

/* 64 comparisons with all shifts, on 256 rows of 8 channels that repeat, lead-in rows
   included, so that all of them close. */
static void longest(int start, int period)
{
    start_rule(&rule, 64, MOST_CHANNELS);
    for (int part = 0; part < 64; part++)
        write_comparison(&rule, part, part % 2 ? EQUAL : LESS, reading(part % 8, part / 8 % 5 - 4),
                         reading((part + 3) % 8, part % 9 - 4));
    start_plan_with_lead(&plan, MOST_CHANNELS, MOST_LEAD, start, MOST_ROWS - start);
    for (int row = -MOST_LEAD; row < MOST_ROWS; row++)
        for (int channel = 0; channel < MOST_CHANNELS; channel++)
            write_reading(&plan, row, channel, (row_of(row, period) * 7 + channel * 3) % 5);
    expect("longest plan", plan.len == 16680 && plan.len == ENDLESS_RUN_LONGEST_PLAN);
    write_true_marks_of(&marks, &truth_space, &rule, &plan);
    uint64_t verdict = *mark_byte(&marks, 63, 0);
    expect_made("longest plan", &rule, &plan, &marks, verdict);
    expect_check("longest plan", &rule, &plan, &marks, verdict);
    for (int part = 0; part < 64; part++) {
        *mark_byte(&marks, part, 0) ^= 1;
        expect_check("longest plan, a mark on row 0", &rule, &plan, &marks, refusal(9, part, 0));
        *mark_byte(&marks, part, 0) ^= 1;
    }
}

void test_lead_in(void)
{
    positions();
    for (int lead = 1; lead <= MOST_LEAD; lead++)
        cells(lead);
    ends();
    cycles();
    for (int lead = 0; lead <= MOST_LEAD; lead++) {
        operators(lead);
        all_lengths(lead);
    }
    term_and_operator();
    longest(0, 256);
    longest(0, 64);
    longest(128, 128);
    longest(255, 1);
}
