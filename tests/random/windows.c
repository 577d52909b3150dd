/*
 * windows.c: windows of the week by hand: both ends, the end of the week, readings below 0
 * and at the ends of 32 bits, shifts and the lead-in, drifts that share each divisor with
 * the week, closing, settling, the layout, and what judge takes.
 *
 * A drift comes to the minutes that lie a multiple of g apart, where g is its greatest
 * common divisor with the week. The windows tried with it begin so many minutes before one
 * of these, and end just before it or after it, or just before or after the last of them.
 */
#include "../../include/endless_run.h"
#include "expect.h"

#include <stdio.h>

static struct sheet rule, plan, marks;

/* ---- Building and asking ---- */

static int minute_after(int minute, int more)
{
    return (minute + more + WEEK) % WEEK;
}

/* One window as the whole rule. */
static void write_one(struct term term, int from, int to)
{
    start_rule(&rule, 1, 1);
    write_window(&rule, 0, term, from, to);
}

static void one_row(int32_t read, int32_t drift)
{
    start_plan(&plan, 1, 0, 1);
    write_reading(&plan, 0, 0, read);
    write_drift(&plan, 0, 0, drift);
}

static void judge(const char *name, int row, enum judged judged)
{
    expect_judge(name, &rule, &plan, 0, (uint64_t)row, judged);
}

/* The table as it stands, and what make has to say where the marks are not at fault. */
static void check(const char *name, uint64_t answer)
{
    expect_check(name, &rule, &plan, &marks, answer);
    expect_make_as_checked(name, &rule, &plan, &marks, answer);
}

/* The one row of the plan is judged so, with both marks and by all functions. What
   changes on it comes and goes for ever. */
static void expect_row(const char *name, enum judged judged)
{
    judge(name, 0, judged);
    for (int mark = 0; mark < 2; mark++) {
        start_marks(&marks, 1, 1);
        *mark_byte(&marks, 0, 0) = (uint8_t)mark;
        uint64_t marked = mark == (int)judged ? (uint64_t)mark : refusal(9, 0, 0);
        check(name, judged == CHANGES ? refusal(10, 0, 0) : marked);
    }
    expect_passes(name, &rule, &plan, judged == CHANGES ? refusal(15, 0, 0) : 0);
}

/* ---- Minutes ---- */

/* From belongs to a window and to does not; from above to, it runs over the end. */
static const struct {
    int from, to;
    int32_t read;
    bool inside;
} minutes[] = {
    { 480, 1020, 479, false },     { 480, 1020, 480, true },       { 480, 1020, 1019, true },
    { 480, 1020, 1020, false },    { 480, 1020, 0, false },        { 480, 1020, 10079, false },
    { 1020, 480, 479, true },      { 1020, 480, 480, false },      { 1020, 480, 1019, false },
    { 1020, 480, 1020, true },     { 1020, 480, 0, true },         { 1020, 480, 10079, true },
    { 10079, 0, 10079, true },     { 10079, 0, 0, false },         { 10079, 0, 10078, false },
    { 10079, 0, -1, true },        { 10079, 0, -2, false },        { 10079, 0, -10081, true },
    { 0, 10079, 10079, false },    { 0, 10079, 0, true },          { 0, 10079, 10078, true },
    { 0, 10079, -1, false },       { 0, 10079, -2, true },         { 0, 10079, -10081, false },
    { 0, 1, 0, true },             { 0, 1, 1, false },             { 0, 1, -10080, true },
    { 1, 0, 0, false },            { 1, 0, 1, true },              { 1, 0, -10080, false },
    { 9000, 500, 8999, false },    { 9000, 500, 9000, true },      { 9000, 500, 499, true },
    { 9000, 500, 500, false },     { 9000, 500, -1080, true },     { 9000, 500, -1081, false },
    { 480, 1020, 10560, true },    { 480, 1020, 11100, false },    { 480, 1020, -9600, true },
    { 480, 1020, -9601, false },   { 480, 1020, -9061, true },     { 480, 1020, -9060, false },
    { 9952, 9953, INT32_MIN, true }, { 9953, 9952, INT32_MIN, false },
    { 127, 128, INT32_MAX, true }, { 128, 127, INT32_MAX, false },
};

/* The drift of whole weeks comes to no other minute. */
static void ends(void)
{
    static const int32_t weeks[] = { 0, WEEK, -WEEK, 3 * WEEK, 213044 * WEEK, -213044 * WEEK };
    char name[100];
    for (size_t i = 0; i < sizeof minutes / sizeof minutes[0]; i++)
        for (int k = 0; k < 6; k++) {
            snprintf(name, sizeof name, "%d, from %d to %d, drift %d", minutes[i].read,
                     minutes[i].from, minutes[i].to, weeks[k]);
            write_one(reading(0, 0), minutes[i].from, minutes[i].to);
            one_row(minutes[i].read, weeks[k]);
            expect_row(name, minutes[i].inside ? ALWAYS_TRUE : ALWAYS_FALSE);
        }
}

/* Every minute of three weeks, the first of them below 0, is inside or not by counting on
   from the one before. */
static void whole_weeks(int from, int to)
{
    bool inside = from > to, right = true;
    write_one(reading(0, 0), from, to);
    for (int32_t read = -WEEK; read < 2 * WEEK; read++) {
        int minute = (read + WEEK) % WEEK;
        inside = minute == from || (inside && minute != to);
        one_row(read, 0);
        right &= endless_run_judge(rule.at, rule.len, plan.at, plan.len, 0, 0) == inside;
    }
    expect("every minute of three weeks", right);
}

/* ---- Shifts and the lead-in ---- */

/* Eight start rows and a cycle row. Up to row 3 every position has a minute of its own, in
   another week each; from row 4 on all are alike, so that every window closes. */
enum { START = 8, ROWS = START + 1, ALIKE_FROM = 4, MOST_BACK = 4 };

static int minute_at(int position)
{
    return position >= ALIKE_FROM ? 9000 : 100 * (position + 5);
}

static void write_minutes(int lead)
{
    start_plan_with_lead(&plan, 1, lead, START, 1);
    for (int row = -lead; row < ROWS; row++)
        write_reading(&plan, row, 0, minute_at(row) - WEEK * row);
}

/* The window of one minute, or of all others, read at a shift: false before the lead-in
   whatever the window is, and "not" of it true. */
static void expect_shifted(int lead, int shift, int minute, bool others)
{
    char name[100];
    int from = minute, to = minute + 1;
    snprintf(name, sizeof name, "L %d, shift %d, minute %d%s", lead, shift, minute,
             others ? ", others" : "");
    start_rule(&rule, 2, 1);
    write_window(&rule, 0, reading(0, shift), others ? to : from, others ? from : to);
    write_unary(&rule, 1, NOT, 0);
    start_marks(&marks, 2, ROWS);
    for (int row = 0; row < ROWS; row++) {
        bool seen = row + shift >= -lead;
        bool due = seen && (minute_at(row + shift) == minute) != others;
        *mark_byte(&marks, 0, row) = due;
        *mark_byte(&marks, 1, row) = !due;
        judge(name, row, due ? ALWAYS_TRUE : ALWAYS_FALSE);
    }
    check(name, *mark_byte(&marks, 1, 0));
    *mark_byte(&marks, 0, 0) ^= 1;
    check(name, refusal(9, 0, 0));
}

static void shifts(int lead)
{
    write_minutes(lead);
    for (int shift = -MOST_BACK; shift <= MOST_BACK; shift++)
        for (int position = -MOST_BACK; position <= ALIKE_FROM; position++)
            for (int others = 0; others < 2; others++)
                expect_shifted(lead, shift, minute_at(position), others);
}

/* A cycle of one row, whose window looks four positions back: passes 0 to 3 read the
   lead-in, each another of its rows, or lie before it. The drift takes the reading to no
   other truth, and then it is the lead-in that makes the window change. So many passes are
   laid out as are read before the cycle, up to the last one that differs. */
static void early_passes(int lead, int other, int32_t drift, bool inside)
{
    char name[100];
    int last = -lead - 1; /* the last position before the cycle that differs */
    snprintf(name, sizeof name, "L %d, row %d differs, drift %d, %s", lead, other, drift,
             inside ? "inside" : "outside");
    write_one(reading(0, -MOST_BACK), inside ? 5 : 6, inside ? 6 : 7);
    start_plan_with_lead(&plan, 1, lead, 0, 1);
    for (int row = -lead; row <= 0; row++)
        write_reading(&plan, row, 0, row == other ? 6 : 5);
    write_drift(&plan, 0, 0, drift);
    if (other >= -lead)
        last = other;
    else if (!inside)
        last = -MOST_BACK - 1; /* false before the lead-in, as on every pass */
    int passes = last + MOST_BACK + 1;
    bool first = lead == MOST_BACK ? (other == -MOST_BACK) != inside : false;
    judge(name, 0, passes > 0 ? CHANGES : inside ? ALWAYS_TRUE : ALWAYS_FALSE);
    start_marks(&marks, 1, 1);
    *mark_byte(&marks, 0, 0) = first;
    check(name, passes > 0 ? refusal(10, 0, 0) : (uint64_t)first);
    expect_passes(name, &rule, &plan, (uint64_t)passes);
}

static void all_early_passes(void)
{
    for (int lead = 0; lead <= MOST_LEAD; lead++)
        for (int other = -lead - 1; other <= -1; other++) {
            early_passes(lead, other, 0, true);
            early_passes(lead, other, -2 * WEEK, true);
            early_passes(lead, other, 0, false);
            early_passes(lead, other, WEEK, false);
            early_passes(lead, other, 1440, false);
            early_passes(lead, other, -1440, false);
        }
}

/* ---- Drifts ---- */

/* What a window of this length is, that begins so many minutes before one that the drift
   comes to. Counted from its beginning, the minutes that it comes to are before, before + g
   and on, the last of them before + 10080 - g. */
static enum judged due_of(int g, int before, int length)
{
    if (length <= before)
        return ALWAYS_FALSE;
    return length > before + WEEK - g ? ALWAYS_TRUE : CHANGES;
}

/* A reading that lies this minute, or a multiple of g more, and is as large as it can be,
   or as small. */
static int32_t largest_like(int minute, int g)
{
    return (int32_t)(INT32_MAX - ((int64_t)INT32_MAX - minute) % g);
}

static int32_t least_like(int minute, int g)
{
    return (int32_t)(INT32_MIN + (minute - (int64_t)INT32_MIN) % g);
}

static void expect_drift(int g, int32_t drift, int before, int length)
{
    char name[100];
    int from = (7 * g + 9001) % WEEK, minute = from + before;
    int32_t reads[] = { minute, minute - 3 * WEEK, minute + 2 * g, largest_like(minute, g),
                        least_like(minute, g) };
    enum judged due = due_of(g, before, length);
    write_one(reading(0, 0), from, minute_after(from, length));
    for (int i = 0; i < 5; i++) {
        snprintf(name, sizeof name, "drift %d, %d minutes before %d, length %d", drift, before,
                 reads[i], length);
        one_row(reads[i], drift);
        judge(name, 0, due);
        start_marks(&marks, 1, 1);
        *mark_byte(&marks, 0, 0) = due == ALWAYS_TRUE;
        check(name, due == CHANGES ? refusal(10, 0, 0) : (uint64_t)due);
        if (i == 1 && g % 360 == 0)
            expect_row(name, due);
    }
}

/* The lengths at which the answer turns. */
static void lengths_of(int g, int32_t drift, int before)
{
    int lengths[] = { before, before + 1, before + WEEK - g, before + WEEK - g + 1 };
    for (int i = 0; i < 4; i++)
        if (lengths[i] >= 1 && lengths[i] < WEEK)
            expect_drift(g, drift, before, lengths[i]);
}

/* All drifts here have g as their greatest common divisor with the week. */
static void divisor(int g)
{
    int32_t drifts[] = { g, -g, 11 * g, WEEK - g, -WEEK - g, 200000 * WEEK + g,
                         -200000 * WEEK - g };
    int before[] = { 0, 1, g / 2, g - 1 };
    for (int i = 0; i < 7; i++)
        for (int k = 0; k < 4; k++)
            if (before[k] < g && (k == 0 || before[k] > before[k - 1]))
                lengths_of(g, drifts[i], before[k]);
}

/* The drifts at the ends of 32 bits: 2^31 has 32 in common with the week, and 2^31 - 1
   nothing. */
static void largest_drifts(void)
{
    for (int before = 0; before < 32; before += 31)
        lengths_of(32, INT32_MIN, before);
    lengths_of(1, INT32_MAX, 0);
    lengths_of(1, INT32_MIN + 1, 0);
}

static void all_divisors(void)
{
    for (int g = 1; g <= WEEK; g++)
        if (WEEK % g == 0)
            divisor(g);
}

/* Every drift of less than a week: some take 15 steps to the greatest common divisor. A window
   from minute 1 on has a minute that the reading 0 comes to once it is g minutes long. */
static void every_drift(void)
{
    for (int32_t drift = 1; drift < WEEK; drift++) {
        int g = drift;
        while (WEEK % g != 0 || drift % g != 0)
            g--;
        one_row(0, drift);
        if (g > 1) {
            write_one(reading(0, 0), 1, g);
            judge("every drift", 0, ALWAYS_FALSE);
        }
        write_one(reading(0, 0), 1, g + 1);
        judge("every drift", 0, CHANGES);
    }
}

/* Three cycle rows with two drifts, and what each is by its own. */
static void expect_drifts(const int32_t *drifts, const int *g, int length)
{
    enum { BEFORE = 100, FROM = 10000 };
    char name[100];
    int lowest = -1;
    snprintf(name, sizeof name, "drifts %d and %d, length %d", drifts[0], drifts[1], length);
    write_one(reading(0, 0), FROM, minute_after(FROM, length));
    start_plan(&plan, 1, 0, 3);
    start_marks(&marks, 1, 3);
    for (int row = 0; row < 3; row++) {
        enum judged due = due_of(g[row % 2], BEFORE % g[row % 2], length);
        write_reading(&plan, row, 0, FROM + BEFORE);
        write_drift(&plan, row, 0, drifts[row % 2]);
        *mark_byte(&marks, 0, row) = BEFORE < length;
        lowest = lowest < 0 && due == CHANGES ? row : lowest;
    }
    for (int row = 0; row < 3; row++)
        judge(name, row, due_of(g[row % 2], BEFORE % g[row % 2], length));
    check(name, lowest >= 0 ? refusal(10, 0, lowest) : (uint64_t)(BEFORE < length));
}

static void two_drifts(void)
{
    static const int32_t drifts[] = { 0, WEEK, 1440, -1440, 4320, 5040, -2520, 672, 1 };
    static const int g[] = { WEEK, WEEK, 1440, 1440, 1440, 5040, 2520, 672, 1 };
    static const int lengths[] = { 1,    100,  101,  1540, 5140, 5141,  7660,
                                   7661, 8740, 8741, 9508, 9509, 10079 };
    for (int i = 0; i < 9; i++)
        for (int k = 0; k < 9; k++)
            for (int n = 0; n < 13; n++)
                expect_drifts((int32_t[]){ drifts[i], drifts[k] }, (int[]){ g[i], g[k] },
                              lengths[n]);
}

/* Three cycle rows, each with a reading and a drift of its own: inside for ever, outside for
   ever, or by a day inside once a week. */
static void rows_in_turn(void)
{
    static const struct {
        int32_t read, drift;
        enum judged due;
    } rows[] = {
        { 600, 0, ALWAYS_TRUE },      { 600, -2 * WEEK, ALWAYS_TRUE }, { 1020, 0, ALWAYS_FALSE },
        { 1020, 1440, ALWAYS_FALSE }, { -420, -4320, ALWAYS_FALSE },   { 600, 1440, CHANGES },
        { 600, 1, CHANGES },
    };
    enum { KINDS = sizeof rows / sizeof rows[0] };
    write_one(reading(0, 0), 480, 1020);
    for (int i = 0; i < KINDS * KINDS * KINDS; i++) {
        int of_row[] = { i % KINDS, i / KINDS % KINDS, i / KINDS / KINDS }, lowest = -1;
        start_plan(&plan, 1, 0, 3);
        start_marks(&marks, 1, 3);
        for (int row = 2; row >= 0; row--) {
            write_reading(&plan, row, 0, rows[of_row[row]].read);
            write_drift(&plan, row, 0, rows[of_row[row]].drift);
            *mark_byte(&marks, 0, row) = rows[of_row[row]].due == ALWAYS_TRUE;
            lowest = rows[of_row[row]].due == CHANGES ? row : lowest;
        }
        for (int row = 0; row < 3; row++)
            judge("rows in turn", row, rows[of_row[row]].due);
        check("rows in turn",
              lowest >= 0 ? refusal(10, 0, lowest) : (uint64_t)rows[of_row[0]].due);
    }
}

/* A start row reads a cycle row on passes 0 to 3, where it is beyond 32 bits. */
static void beyond_32_bits(int32_t read, int32_t drift, int minute)
{
    for (int shift = 1; shift <= 4; shift++)
        for (int more = -1; more <= 1; more++) {
            int from = minute_after(minute, more);
            write_one(reading(0, shift), from, minute_after(from, 1));
            start_plan(&plan, 1, 1, 1);
            write_reading(&plan, 1, 0, read);
            write_drift(&plan, 1, 0, drift);
            start_marks(&marks, 1, 2);
            *mark_byte(&marks, 0, 0) = *mark_byte(&marks, 0, 1) = more == 0;
            judge("beyond 32 bits", 0, more == 0 ? ALWAYS_TRUE : ALWAYS_FALSE);
            judge("beyond 32 bits", 1, more == 0 ? ALWAYS_TRUE : ALWAYS_FALSE);
            check("beyond 32 bits", more == 0);
            expect_passes("beyond 32 bits", &rule, &plan, 0);
        }
}

/* ---- Among other parts ---- */

/* Windows of all channels in turn, so that each is judged after one of another drift. A
   channel comes to one minute of a day alone, on one day or on several. Each window, or
   what it leaves out, lies between two of these minutes. Part 7 looks two rows back. */
static void many_windows(void)
{
    enum { PARTS = 64, EVERY = 1440 };
    start_rule(&rule, PARTS, MOST_CHANNELS);
    start_plan(&plan, MOST_CHANNELS, 4, MOST_ROWS - 4);
    for (int row = 0; row < MOST_ROWS; row++)
        for (int channel = 0; channel < MOST_CHANNELS; channel++) {
            write_reading(&plan, row, channel, WEEK * (row - 100) + EVERY * (row % 7) + channel);
            if (row >= 4)
                write_drift(&plan, row, channel, channel % 3 == 0 ? 0 : EVERY * channel);
        }
    for (int part = 0; part < PARTS; part++) {
        int channel = part % MOST_CHANNELS, week = part / MOST_CHANNELS;
        int from = channel + 1 + EVERY * (week % 7), to = minute_after(from, EVERY - 1);
        write_window(&rule, part, reading(channel, week % 5 - 2), week % 2 ? to : from,
                     week % 2 ? from : to);
    }
    write_true_marks_of(&marks, &truth_space, &rule, &plan);
    *mark_byte(&marks, 63, 255) ^= 1;
    expect_check("64 windows, the last mark wrong", &rule, &plan, &marks, refusal(9, 63, 255));
    *mark_byte(&marks, 63, 255) ^= 1;
    check("64 windows", *mark_byte(&marks, 63, 0));
    expect_passes("64 windows", &rule, &plan, 0);
    write_drift(&plan, 255, 7, EVERY / 2);
    check("64 windows, one drift halved", refusal(10, 7, 4 + 1));
}

/* While the building is in use, from 8:00 to 17:00 on the first day of the week, the count
   is below 25: always (the window implies x < 25). */
static void while_in_use(int32_t count, uint64_t verdict)
{
    static const int32_t clock[] = { 400, 600, 1200 };
    static const char *const due[] = { "010", "110", "101", "111", "000", "111" };
    start_rule(&rule, 6, 2);
    write_window(&rule, 0, reading(0, 0), 8 * 60, 17 * 60);
    write_comparison(&rule, 1, LESS, reading(1, 0), constant(25));
    write_unary(&rule, 2, NOT, 0);
    write_binary(&rule, 3, OR, 2, 1);
    write_comparison(&rule, 4, LESS, constant(1), constant(0));
    write_binary(&rule, 5, RELEASE, 4, 3);
    start_plan(&plan, 2, 0, 3);
    start_marks(&marks, 6, 3);
    for (int row = 0; row < 3; row++) {
        write_reading(&plan, row, 0, clock[row]);
        write_drift(&plan, row, 0, WEEK);
        write_reading(&plan, row, 1, row == 1 ? count : 30 * (row == 2));
        for (int part = 0; part < 6; part++)
            *mark_byte(&marks, part, row) = due[part][row] == '1';
    }
    if (verdict == 1)
        check("while in use", 1);
    write_true_marks_of(&marks, &truth_space, &rule, &plan);
    check("while in use", verdict);
    expect_passes("while in use", &rule, &plan, 0);
    write_drift(&plan, 1, 0, 1440);
    check("on every day of the week", refusal(10, 0, 1));
}

/* Operators over a window on the plan's rows: its marks are theirs to look at. */
static void under_operators(void)
{
    start_rule(&rule, 3, 1);
    write_window(&rule, 0, reading(0, 0), WEEK - 1, 1);
    write_unary(&rule, 1, YESTERDAY, 0);
    write_binary(&rule, 2, SINCE, 0, 1);
    start_plan(&plan, 1, 1, 2);
    write_reading(&plan, 0, 0, -1);
    write_reading(&plan, 1, 0, WEEK);
    write_reading(&plan, 2, 0, 1);
    write_true_marks_of(&marks, &truth_space, &rule, &plan);
    check("Y of a window", refusal(10, 1, 1));
    expect_passes("Y of a window", &rule, &plan, 1);
    write_drift(&plan, 1, 0, -1);
    write_true_marks_of(&marks, &truth_space, &rule, &plan);
    check("Y of a window that changes", refusal(10, 0, 1));
    expect_passes("Y of a window that changes", &rule, &plan, refusal(15, 0, 0));
}

/* Wrong marks and witnesses, of a window that closes and of one that does not. */
static void marks_and_witnesses(void)
{
    static const unsigned witnesses[] = { 0, 1, 2, 3, 255, 256, 65534 };
    write_one(reading(0, 0), 9000, 500);
    for (int changing = 0; changing < 4; changing++) {
        start_plan(&plan, 1, 1, 2);
        for (int row = 0; row < 3; row++)
            write_reading(&plan, row, 0, row == 1 ? 500 : 499);
        for (int row = 1; row < 3; row++)
            write_drift(&plan, row, 0, changing >> (row - 1) & 1 ? -1 : -WEEK);
        for (int own = 0; own < 8; own++) {
            start_marks(&marks, 1, 3);
            for (int row = 0; row < 3; row++)
                *mark_byte(&marks, 0, row) = own >> row & 1;
            int wrong = own ^ 5, row = wrong & 1 ? 0 : wrong & 2 ? 1 : 2;
            uint64_t marked = wrong == 0 ? 1 : refusal(9, 0, row);
            uint64_t answer = changing == 0 ? marked : refusal(10, 0, changing & 1 ? 1 : 2);
            check("marks of a window", answer);
            for (size_t i = 0; i < sizeof witnesses / sizeof witnesses[0]; i++) {
                put2(witness_bytes(&marks, 0), witnesses[i]);
                expect_check("a witness of a window", &rule, &plan, &marks,
                             endless_run_is_refusal(answer) ? answer : refusal(11, 0, 0));
            }
        }
    }
}

/* The marks of a window as any byte above 1, also one with the true mark as its lowest bit. */
static void mark_bytes_of_window(void)
{
    write_one(reading(0, 0), 5, 6);
    start_plan(&plan, 1, 1, 1);
    write_reading(&plan, 0, 0, 5);
    for (int row = 0; row < 2; row++)
        for (int byte = 2; byte < 256; byte++) {
            start_marks(&marks, 1, 2);
            *mark_byte(&marks, 0, 0) = 1;
            *mark_byte(&marks, 0, row) = (uint8_t)byte;
            expect_check("a mark byte of a window", &rule, &plan, &marks, refusal(8, 0, row));
        }
}

/* ---- The layout ---- */

struct fields {
    uint8_t form, code;
    int32_t channel;
    unsigned from, to, padding;
};

/* Part 1 of three, over 3 channels; parts 0 and 2 are 0 < 0. */
static void write_fields(const struct fields *f)
{
    start_rule(&rule, 3, 3);
    uint8_t *at = operand_bytes(&rule, 1);
    *kind_byte(&rule, 1) = WINDOW;
    at[0] = f->form;
    at[1] = f->code;
    put4(at + 2, f->channel);
    put2(at + 6, f->from);
    put2(at + 8, f->to);
    put2(at + 10, f->padding);
    start_plan(&plan, 3, 4, 1);
}

/* All functions answer alike. */
static void refuse_all(const char *name, uint64_t answer)
{
    static struct sheet buffer;
    start_marks(&marks, 3, 5);
    resize(&buffer, marks.len);
    expect_check(name, &rule, &plan, &marks, answer);
    expect_judge(name, &rule, &plan, 1, 0, answer);
    expect_make(name, &rule, &plan, &buffer, answer);
    expect_passes(name, &rule, &plan, answer);
}

static void layout(void)
{
    static const struct fields right[] = {
        { 1, 4, 0, 0, 1, 0 },     { 1, 0, 2, 1, 0, 0 },         { 1, 8, 1, 0, 10079, 0 },
        { 1, 4, 0, 10079, 0, 0 }, { 1, 4, 0, 10079, 10078, 0 }, { 1, 4, 0, 255, 256, 0 },
    };
    static const struct fields wrong[] = {
        { 0, 4, 0, 0, 1, 0 },         { 0, 4, 7, 480, 1020, 0 },  { 0, 0, 0, 0, 1, 0 },
        { 2, 4, 0, 0, 1, 0 },         { 255, 4, 0, 0, 1, 0 },     { 1, 9, 0, 0, 1, 0 },
        { 1, 255, 0, 0, 1, 0 },       { 1, 4, 3, 0, 1, 0 },       { 1, 4, -1, 0, 1, 0 },
        { 1, 4, 256, 0, 1, 0 },       { 1, 4, 1 << 24, 0, 1, 0 }, { 1, 4, INT32_MIN, 0, 1, 0 },
        { 1, 4, 0, 10080, 1, 0 },     { 1, 4, 0, 10081, 1, 0 },   { 1, 4, 0, 65535, 1, 0 },
        { 1, 4, 0, 32768, 1, 0 },     { 1, 4, 0, 0, 10080, 0 },   { 1, 4, 0, 0, 10081, 0 },
        { 1, 4, 0, 0, 65535, 0 },     { 1, 4, 0, 1, 32768, 0 },   { 1, 4, 0, 0, 0, 0 },
        { 1, 4, 0, 480, 480, 0 },     { 1, 4, 0, 10079, 10079, 0 }, { 1, 4, 0, 10080, 10080, 0 },
        { 1, 4, 0, 10080, 10081, 0 }, { 1, 4, 0, 0, 1, 1 },       { 1, 4, 0, 0, 1, 256 },
        { 1, 4, 0, 0, 1, 128 },       { 1, 4, 0, 0, 1, 32768 },   { 1, 4, 0, 0, 1, 65535 },
    };
    for (size_t i = 0; i < sizeof right / sizeof right[0]; i++) {
        write_fields(&right[i]);
        write_true_marks_of(&marks, &truth_space, &rule, &plan);
        check("window in order", 0);
    }
    for (size_t i = 0; i < sizeof wrong / sizeof wrong[0]; i++) {
        write_fields(&wrong[i]);
        refuse_all("window out of order", refusal(3, 1, 0));
        *kind_byte(&rule, 2) = i % 2 ? 15 : 0;
        refuse_all("a kind before a window's layout", refusal(2, 2, 0));
    }
}

/* Kinds 0, 15 and above with an operand that is a window's. */
static void kinds(void)
{
    static const uint8_t wrong[] = { 0, 15, 16, 141, 255 };
    static const struct fields right = { 1, 4, 0, 0, 1, 0 };
    for (size_t i = 0; i < sizeof wrong; i++) {
        write_fields(&right);
        *kind_byte(&rule, 1) = wrong[i];
        refuse_all("no kind", refusal(2, 1, 0));
        operand_bytes(&rule, 0)[0] = 2;
        refuse_all("no kind, a lower operand out of order", refusal(2, 1, 0));
    }
    /* A window's operand is no comparison's and no operator's, and none of kind 14. */
    for (int kind = LESS; kind <= PINNED; kind++) {
        if (kind == WINDOW)
            continue;
        write_fields(&right);
        *kind_byte(&rule, 1) = (uint8_t)kind;
        refuse_all("another kind with a window's operand", refusal(3, 1, 0));
    }
}

/* ---- Judge ---- */

static void judged_parts(void)
{
    enum { PARTS = 13 };
    start_rule(&rule, PARTS, 1);
    write_window(&rule, 0, reading(0, 0), 5, 6);
    for (int kind = NOT; kind <= TRIGGER; kind++)
        write_formula(&rule, kind - 1, &(struct formula){ .kind = (enum kind)kind });
    write_window(&rule, 12, reading(0, -1), 5, 6);
    start_plan(&plan, 1, 1, 2);
    for (int row = 0; row < 3; row++)
        write_reading(&plan, row, 0, 5);
    write_drift(&plan, 2, 0, 1);
    for (uint64_t part = 2; part < 12; part++)
        expect_judge("an operator over a window", &rule, &plan, part, 0, refusal(12, 0, 0));
    expect_judge("a window", &rule, &plan, 0, 1, ALWAYS_TRUE);
    expect_judge("a window that changes", &rule, &plan, 0, 2, CHANGES);
    expect_judge("a window on an absent row", &rule, &plan, 0, 3, refusal(12, 0, 0));
    expect_judge("the last part, a window", &rule, &plan, 12, 0, ALWAYS_FALSE);
    expect_judge("the last part, looking back", &rule, &plan, 12, 1, CHANGES);
    expect_judge("the last part, looking back", &rule, &plan, 12, 2, ALWAYS_TRUE);
    expect_judge("no part", &rule, &plan, 13, 2, refusal(12, 0, 0));
}

/* Operators over two windows are no atoms either. */
static void judged_over_two(void)
{
    start_rule(&rule, 13, 1);
    write_window(&rule, 0, reading(0, 0), 5, 6);
    write_window(&rule, 1, reading(0, 0), 6, 5);
    for (int kind = NOT; kind <= TRIGGER; kind++)
        write_formula(&rule, kind - 1, &(struct formula){ .kind = (enum kind)kind, .b = 1 });
    one_row(5, 0);
    for (uint64_t part = 2; part < 12; part++)
        expect_judge("an operator over two windows", &rule, &plan, part, 0, refusal(12, 0, 0));
}

void test_windows(void)
{
    ends();
    whole_weeks(480, 1020);
    whole_weeks(9000, 500);
    whole_weeks(WEEK - 1, 0);
    whole_weeks(0, WEEK - 1);
    whole_weeks(1, 0);
    for (int lead = 0; lead <= MOST_LEAD; lead++)
        shifts(lead);
    all_early_passes();
    all_divisors();
    largest_drifts();
    every_drift();
    two_drifts();
    rows_in_turn();
    beyond_32_bits(INT32_MAX, WEEK, 127);
    beyond_32_bits(INT32_MIN, -200000 * WEEK, 9952);
    many_windows();
    while_in_use(20, 1);
    while_in_use(25, 0);
    under_operators();
    marks_and_witnesses();
    mark_bytes_of_window();
    layout();
    kinds();
    judged_parts();
    judged_over_two();
}
