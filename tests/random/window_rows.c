/*
 * window_rows.c: windows on the rows of a cycle: by the drift of the row that is read, round
 * the end of the cycle, on passes beyond 32 bits, and settled, by themselves and under S
 * and T.
 */
#include "expect.h"

static struct sheet rule, plan, marks;

/* One window as the whole rule. */
static void write_one(struct term term, int from, int to)
{
    start_rule(&rule, 1, 1);
    write_window(&rule, 0, term, from, to);
}

static void judge(const char *name, int row, enum judged judged)
{
    expect_judge(name, &rule, &plan, 0, (uint64_t)row, judged);
}

/* Check, make where the marks are not at fault, and settle. */
static void expect_all(const char *name, uint64_t answer, uint64_t passes)
{
    expect_check(name, &rule, &plan, &marks, answer);
    expect_make_as_checked(name, &rule, &plan, &marks, answer);
    expect_passes(name, &rule, &plan, passes);
}

/* One cycle row drifts by a day and the other by a week. The window, read one position ahead,
   changes on the row before the first of these alone. */
static void drift_of_the_row_read(void)
{
    for (int read = 0; read < 2; read++) {
        write_one(reading(0, 1), 600, 601);
        start_plan(&plan, 1, 0, 2);
        for (int row = 0; row < 2; row++) {
            write_reading(&plan, row, 0, 600);
            write_drift(&plan, row, 0, row == read ? 1440 : WEEK);
        }
        start_marks(&marks, 1, 2);
        expect_all("the drift of the row that is read", refusal(10, 0, 1 - read),
                   refusal(15, 0, 0));
        write_reading(&plan, read, 0, 601);
        *mark_byte(&marks, 0, read) = 1;
        expect_all("the drift of the row that is read", read == 0, 0);
    }
}

/* Three cycle rows, of which one or none drifts by a day, read two ahead, in the second of two
   channels. */
static void drift_on_each_row(void)
{
    for (int changing = -1; changing < 3; changing++) {
        start_rule(&rule, 1, 2);
        write_window(&rule, 0, reading(1, 2), 600, 601);
        start_plan(&plan, 2, 0, 3);
        for (int row = 0; row < 3; row++) {
            write_reading(&plan, row, 1, 600);
            write_drift(&plan, row, 1, row == changing ? 1440 : WEEK);
        }
        start_marks(&marks, 1, 3);
        for (int row = 0; row < 3; row++)
            *mark_byte(&marks, 0, row) = 1;
        expect_all("a drift by a day on one row",
                   changing < 0 ? 1 : refusal(10, 0, (changing + 1) % 3),
                   changing < 0 ? 0 : refusal(15, 0, 0));
    }
}

/* Three cycle rows of a minute each, read up to four ahead or back, over the end of the cycle. */
static void round_the_cycle(void)
{
    for (int shift = -4; shift <= 4; shift++)
        for (int minute = 0; minute < 3; minute++) {
            write_one(reading(0, shift), minute, minute + 1);
            start_plan_with_lead(&plan, 1, 4, 1, 3);
            start_marks(&marks, 1, 4);
            for (int row = -4; row < 4; row++)
                write_reading(&plan, row, 0, (row + 6) % 3);
            for (int row = 0; row < 4; row++) {
                bool due = (row + shift + 6) % 3 == minute;
                *mark_byte(&marks, 0, row) = due;
                judge("round the cycle", row, due ? ALWAYS_TRUE : ALWAYS_FALSE);
            }
            expect_all("round the cycle", *mark_byte(&marks, 0, 0), 0);
            *mark_byte(&marks, 0, 3) ^= 1;
            expect_all("round the cycle", refusal(9, 0, 3), 0);
        }
}

/* A start row reads the cycle row on passes 1 to 3, beyond 32 bits and on another minute each. */
static void beyond_on_other_minutes(int32_t read, int32_t drift, int minute)
{
    for (int shift = 2; shift <= 4; shift++) {
        minute = (minute + drift + WEEK) % WEEK;
        write_one(reading(0, shift), minute, (minute + 1) % WEEK);
        start_plan(&plan, 1, 1, 1);
        write_reading(&plan, 1, 0, read);
        write_drift(&plan, 1, 0, drift);
        judge("beyond 32 bits, another minute", 0, ALWAYS_TRUE);
    }
}

/* By a day beyond 32 bits: minute 127 of no day is in the window. Were the reading to wrap, it
   would come to other minutes of the day, some of which are. */
static void beyond_by_a_day(void)
{
    for (int shift = 1; shift <= 4; shift++) {
        write_one(reading(0, shift), 128, 127 + 1440);
        start_plan(&plan, 1, 1, 1);
        write_reading(&plan, 1, 0, INT32_MAX);
        write_drift(&plan, 1, 0, 1440);
        start_marks(&marks, 1, 2);
        judge("beyond 32 bits by a day", 1, ALWAYS_FALSE);
        expect_all("beyond 32 bits by a day", 0, 0);
    }
}

/* S and T over a window, whose marks count in settling: once minute 1 was read, or always so. */
static void settle_over(void)
{
    for (int kind = SINCE; kind <= TRIGGER; kind++)
        for (int first = 0; first < 2; first++) {
            start_rule(&rule, 3, 1);
            write_comparison(&rule, 0, LESS, constant(kind == TRIGGER), constant(kind == SINCE));
            write_window(&rule, 1, reading(0, 0), 1, 2);
            write_binary(&rule, 2, (enum kind)kind, 0, 1);
            start_plan(&plan, 1, 0, 2);
            write_reading(&plan, 0, 0, first);
            write_reading(&plan, 1, 0, !first);
            expect_passes("S or T over a window", &rule, &plan, (kind == SINCE) != first);
        }
}

void test_window_rows(void)
{
    drift_of_the_row_read();
    drift_on_each_row();
    round_the_cycle();
    beyond_on_other_minutes(INT32_MAX, 1440, 127);
    beyond_on_other_minutes(INT32_MIN, -1440, 9952);
    beyond_by_a_day();
    settle_over();
}
