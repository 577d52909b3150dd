/*
 * top_rows.c: tops on plans of more rows: which channel a top belongs to, lead-in rows and
 * what lies before them, the row that refusal 10 names, also one of many, operators over
 * what is pinned, passes laid out under tops, what judge takes, negative tops, and the rule
 * of the course.
 */
#include "../../include/endless_run.h"
#include "../support/examples.h"
#include "expect.h"

#include <stdio.h>

static struct sheet rule, plan, marks, due;

/* ---- Building and asking ---- */

static void write_one(int channels, enum kind kind, struct term left, struct term right)
{
    start_rule(&rule, 1, channels);
    write_formula(&rule, 0, &(struct formula){ .kind = kind, .left = left, .right = right });
}

static void mark_part(int part, const char *of_rows)
{
    for (int row = 0; of_rows[row]; row++)
        *mark_byte(&marks, part, row) = of_rows[row] == '1';
}

static void judge(const char *name, int row, enum judged judged)
{
    expect_judge(name, &rule, &plan, 0, (uint64_t)row, judged);
}

/* The table as it stands, and what make has to say where the marks are not at fault. */
static void check(const char *name, uint64_t answer)
{
    expect_check(name, &rule, &plan, &marks, answer);
    expect_make_as_checked(name, &rule, &plan, &marks, answer);
}

/* All functions refuse the rule or the plan alike. */
static void refuse_all(const char *name, uint64_t answer)
{
    static struct sheet buffer;
    start_marks(&marks, 1, 2);
    resize(&buffer, marks.len);
    expect_check(name, &rule, &plan, &marks, answer);
    expect_judge(name, &rule, &plan, 0, 0, answer);
    expect_make(name, &rule, &plan, &buffer, answer);
    expect_passes(name, &rule, &plan, answer);
}

/* ---- Channels ---- */

/* Every channel reads 50 on the start row and 49 on the cycle row; those in the set have a
   top of 50. One part for each channel. */
static void tops_of_channels(unsigned set)
{
    char name[64];
    snprintf(name, sizeof name, "tops of channels %x", set);
    start_rule(&rule, MOST_CHANNELS, MOST_CHANNELS);
    start_plan(&plan, MOST_CHANNELS, 1, 1);
    start_marks(&marks, MOST_CHANNELS, 2);
    for (int channel = 0; channel < MOST_CHANNELS; channel++) {
        bool has_top = set >> channel & 1;
        write_top(&plan, channel, has_top ? 50 : 0);
        write_reading(&plan, 0, channel, 50);
        write_reading(&plan, 1, channel, 49);
        if (channel % 2)
            write_pinned(&rule, channel, reading(channel, 0));
        else
            write_comparison(&rule, channel, LESS, reading(channel, 0), constant(51));
        mark_part(channel, channel % 2 ? (has_top ? "10" : "00") : (has_top ? "01" : "11"));
    }
    check(name, set >> 7 & 1);
}

/* Tops that differ, of a reading that is the same in all channels. */
static void tops_that_differ(void)
{
    start_rule(&rule, 4, 4);
    start_plan(&plan, 4, 1, 1);
    start_marks(&marks, 4, 2);
    for (int channel = 0; channel < 4; channel++) {
        write_top(&plan, channel, 256 << channel);
        write_reading(&plan, 0, channel, 512);
        write_reading(&plan, 1, channel, 1024);
        write_pinned(&rule, channel, reading(channel, 0));
    }
    mark_part(0, "11");
    mark_part(1, "11");
    mark_part(2, "01");
    mark_part(3, "00");
    check("tops that differ", 0);
}

/* Each byte of a top counts. */
static void bytes_of_top(void)
{
    static const int32_t tops[] = { 1, 256, 65536, 1 << 24, 0x7F000000, 0x01020304 };
    for (int i = 0; i < 6; i++)
        for (int more = -1; more <= 1; more++) {
            write_one(2, PINNED, reading(1, 0), constant(0));
            start_plan(&plan, 2, 0, 1);
            write_top(&plan, 1, tops[i]);
            write_reading(&plan, 0, 1, tops[i] + more);
            judge("bytes of a top", 0, more >= 0 ? ALWAYS_TRUE : ALWAYS_FALSE);
        }
}

/* ---- Lead-in rows, and before them ---- */

/* Lead-in rows of 8, 9, 10 and the largest reading under a top of 9, read from row 0. */
static void lead_in(void)
{
    static const int32_t readings[] = { 8, 9, 10, INT32_MAX };
    for (int back = 1; back <= MOST_LEAD; back++) {
        struct term x = reading(0, -back);
        bool is_pinned = readings[MOST_LEAD - back] >= 9;
        start_plan_with_lead(&plan, 1, MOST_LEAD, 4, 1);
        write_top(&plan, 0, 9);
        for (int row = -MOST_LEAD; row < 0; row++)
            write_reading(&plan, row, 0, readings[MOST_LEAD + row]);
        write_one(1, PINNED, x, constant(0));
        judge("a pinned lead-in row", 0, is_pinned ? ALWAYS_TRUE : ALWAYS_FALSE);
        write_one(1, LESS, constant(0), x);
        judge("above 0 in the lead-in", 0, is_pinned ? ALWAYS_FALSE : ALWAYS_TRUE);
        write_one(1, EQUAL, x, x);
        judge("x = x in the lead-in", 0, is_pinned ? ALWAYS_FALSE : ALWAYS_TRUE);
        write_one(1, EQUAL, x, constant(readings[MOST_LEAD - back]));
        judge("itself in the lead-in", 0, is_pinned ? ALWAYS_FALSE : ALWAYS_TRUE);
        start_rule(&rule, 1, 1);
        write_window(&rule, 0, x, 8, 11);
        judge("a window of the lead-in", 0, is_pinned ? ALWAYS_FALSE : ALWAYS_TRUE);
    }
}

/* Every reading is pinned. Kind 14 is true just where it is seen, from -L on; "not" of it,
   of a comparison and of a window is true where that is false. */
static void before_the_lead_in(int lead, int shift)
{
    char name[64];
    enum { ROWS = 6, PARTS = 6 };
    snprintf(name, sizeof name, "pinned from -L on, L %d, shift %d", lead, shift);
    start_rule(&rule, PARTS, 1);
    write_pinned(&rule, 0, reading(0, shift));
    write_unary(&rule, 1, NOT, 0);
    write_comparison(&rule, 2, LESS, constant(0), reading(0, shift));
    write_unary(&rule, 3, NOT, 2);
    write_window(&rule, 4, reading(0, shift), 5, 6);
    write_unary(&rule, 5, NOT, 4);
    start_plan_with_lead(&plan, 1, lead, ROWS - 1, 1);
    write_top(&plan, 0, 5);
    start_marks(&marks, PARTS, ROWS);
    for (int row = -lead; row < ROWS; row++)
        write_reading(&plan, row, 0, 5);
    for (int row = 0; row < ROWS; row++) {
        bool seen = row + shift >= -lead;
        *mark_byte(&marks, 0, row) = seen;
        *mark_byte(&marks, 1, row) = !seen;
        *mark_byte(&marks, 3, row) = *mark_byte(&marks, 5, row) = 1;
        judge(name, row, seen ? ALWAYS_TRUE : ALWAYS_FALSE);
    }
    check(name, 1);
    expect_passes(name, &rule, &plan, 0);
}

/* One term before the lead-in and the other one pinned. */
static void unseen_and_pinned(void)
{
    start_plan(&plan, 2, 4, 1);
    write_top(&plan, 1, 5);
    for (int row = 0; row < 5; row++)
        write_reading(&plan, row, 1, 5);
    for (int kind = LESS; kind <= EQUAL; kind++) {
        write_one(2, (enum kind)kind, reading(0, -1), reading(1, 0));
        judge("unseen and pinned", 0, ALWAYS_FALSE);
        write_one(2, (enum kind)kind, reading(1, 0), reading(0, -1));
        judge("pinned and unseen", 0, ALWAYS_FALSE);
    }
}

/* ---- Beyond 32 bits ---- */

/* A start row reads the cycle row on passes 1 to 3. Were its value to wrap, it would be
   on the other side of the top. */
static void beyond_32_bits(void)
{
    static const struct {
        int32_t top, read, drift;
        bool pinned;
    } cells[] = {
        { INT32_MAX, INT32_MAX, INT32_MAX, true }, { 1, INT32_MAX, 1, true },
        { INT32_MAX, INT32_MAX, 1, true },         { 1, 1 << 30, 1 << 30, true },
        { INT32_MAX, INT32_MIN, -1, false },       { 1, INT32_MIN, -1, false },
        { 1, INT32_MIN, -INT32_MAX, false },       { INT32_MAX, INT32_MIN, INT32_MIN, false },
    };
    for (int shift = 2; shift <= 4; shift++)
        for (int i = 0; i < 8; i++) {
            start_plan(&plan, 1, 1, 1);
            write_top(&plan, 0, cells[i].top);
            write_reading(&plan, 1, 0, cells[i].read);
            write_drift(&plan, 1, 0, cells[i].drift);
            write_one(1, PINNED, reading(0, shift), constant(0));
            judge("pinned beyond 32 bits", 0, cells[i].pinned ? ALWAYS_TRUE : ALWAYS_FALSE);
            write_one(1, EQUAL, reading(0, shift), reading(0, shift));
            judge("x = x beyond 32 bits", 0, cells[i].pinned ? ALWAYS_FALSE : ALWAYS_TRUE);
        }
}

/* ---- Rows that change ---- */

/* Three cycle rows behind a start row, under a top of 9, each below it for ever, at it for
   ever, rising to it or falling from it: the lowest that changes is named. */
static void rows_in_turn(void)
{
    static const struct {
        int32_t read, drift;
        bool pinned, changes;
    } cells[] = { { 8, 0, false, false }, { 8, -1, false, false }, { 9, 0, true, false },
                  { 9, 1, true, false },  { 8, 1, false, true },   { 9, -1, true, true } };
    enum { CELLS = 6, ROWS = 4 };
    for (int i = 0; i < CELLS * CELLS * CELLS; i++) {
        int of_row[ROWS] = { 0, i % CELLS, i / CELLS % CELLS, i / CELLS / CELLS }, lowest = 0;
        start_rule(&rule, 2, 1);
        write_pinned(&rule, 0, reading(0, 0));
        write_comparison(&rule, 1, EQUAL, reading(0, 0), reading(0, 0));
        start_plan(&plan, 1, 1, ROWS - 1);
        write_top(&plan, 0, 9);
        start_marks(&marks, 2, ROWS);
        for (int row = ROWS - 1; row >= 0; row--) {
            write_reading(&plan, row, 0, cells[of_row[row]].read);
            write_drift(&plan, row, 0, cells[of_row[row]].drift);
            *mark_byte(&marks, 0, row) = cells[of_row[row]].pinned;
            *mark_byte(&marks, 1, row) = !cells[of_row[row]].pinned;
            lowest = cells[of_row[row]].changes ? row : lowest;
        }
        check("rows in turn", lowest > 0 ? refusal(10, 0, lowest) : 1);
        expect_passes("rows in turn", &rule, &plan, lowest > 0);
        write_comparison(&rule, 0, LESS, constant(0), constant(0));
        mark_part(0, "0000");
        check("rows in turn, x = x", lowest > 0 ? refusal(10, 1, lowest) : 1);
    }
}

/* The drift and the reading are those of the row that is read, and the top that of the
   channel. */
static void row_read(void)
{
    for (int rising = 0; rising < 3; rising++) {
        write_one(2, PINNED, reading(1, 2), constant(0));
        start_plan(&plan, 2, 0, 3);
        write_top(&plan, 1, 9);
        write_drift(&plan, rising, 1, 3);
        start_marks(&marks, 1, 3);
        check("the row that is read rises", refusal(10, 0, (rising + 1) % 3));
        expect_passes("the row that is read rises", &rule, &plan, rising == 2 ? 3 : 2);
        write_drift(&plan, rising, 1, 0);
        write_drift(&plan, rising, 0, 3);
        check("another channel rises", 0);
    }
}

/* ---- Many rows ---- */

/* 256 rows of 90 under a top of 100, the last but one channel of eight, behind four lead-in
   rows; one cycle row has another reading and drift. */
enum { MANY_START = 4, MANY_CHANNEL = 6 };

static void write_many_rows(int other, int32_t read, int32_t drift)
{
    start_plan_with_lead(&plan, MOST_CHANNELS, MOST_LEAD, MANY_START, MOST_ROWS - MANY_START);
    write_top(&plan, MANY_CHANNEL, 100);
    for (int row = -MOST_LEAD; row < MOST_ROWS; row++)
        for (int channel = 0; channel < MOST_CHANNELS; channel++)
            write_reading(&plan, row, channel, 90);
    write_reading(&plan, other, MANY_CHANNEL, read);
    write_drift(&plan, other, MANY_CHANNEL, drift);
}

/* A cycle row, and no start row, reads the other one on each pass, which comes to its top,
   leaves it or is pinned for ever. The marks are those of a number below the top. */
static void expect_many(const struct formula *f, int other, bool below, bool above)
{
    int row = other - f->left.shift;
    if (row < MANY_START || row >= MOST_ROWS)
        return;
    start_rule(&rule, 1, MOST_CHANNELS);
    write_formula(&rule, 0, f);
    start_marks(&marks, 1, MOST_ROWS);
    for (int i = 0; i < MOST_ROWS; i++)
        *mark_byte(&marks, 0, i) = below;
    write_many_rows(other, 90, 1);
    expect_check("one of many rows rises", &rule, &plan, &marks, refusal(10, 0, row));
    write_many_rows(other, 90, 1 << 20);
    expect_check("one of many rows rises at a step", &rule, &plan, &marks, refusal(10, 0, row));
    write_many_rows(other, 100, -1);
    expect_check("one of many rows falls", &rule, &plan, &marks, refusal(10, 0, row));
    write_many_rows(other, 100, 3);
    *mark_byte(&marks, 0, row) = above;
    expect_check("one of many rows is pinned", &rule, &plan, &marks, below);
    *mark_byte(&marks, 0, row) = !above;
    expect_check("one of many rows is pinned", &rule, &plan, &marks, refusal(9, 0, row));
}

static void many_rows(void)
{
    static const int shifts[] = { 0, 1, 4, -1, -4 };
    for (int i = 0; i < 5; i++)
        for (int other = MANY_START; other < MOST_ROWS; other += i == 0 ? 1 : 7) {
            struct term x = reading(MANY_CHANNEL, shifts[i]);
            expect_many(&(struct formula){ .kind = PINNED, .left = x }, other, false, true);
            expect_many(&(struct formula){ .kind = LESS, .left = x, .right = constant(1000) },
                        other, true, false);
            expect_many(&(struct formula){ .kind = EQUAL, .left = x, .right = x }, other, true,
                        false);
            expect_many(&(struct formula){ .kind = WINDOW, .left = x, .from = 1, .to = 0 }, other,
                        true, false);
        }
}

/* Atoms of all kinds and channels, most of which have tops, at all shifts, on the longest
   plan, which repeats itself so that all of them close. */
static void many_parts(int start)
{
    enum { PARTS = 64, PERIOD = 4 };
    start_rule(&rule, PARTS, MOST_CHANNELS);
    for (int part = 0; part < PARTS; part++) {
        struct term x = reading(part % 8, part % 9 - 4), y = reading(part / 8, part % 5 - 2);
        struct formula f = { .kind = LESS, .left = x, .right = y, .from = part, .to = 3 };
        f.kind = part % 4 == 0 ? PINNED : part % 4 == 1 ? WINDOW : part % 4 == 2 ? EQUAL : LESS;
        write_formula(&rule, part, &f);
    }
    start_plan_with_lead(&plan, MOST_CHANNELS, MOST_LEAD, start, MOST_ROWS - start);
    for (int channel = 0; channel < MOST_CHANNELS; channel++) {
        write_top(&plan, channel, channel % 3 == 2 ? 0 : 3 + channel % 2);
        for (int row = -MOST_LEAD; row < MOST_ROWS; row++)
            write_reading(&plan, row, channel, (row + PERIOD) % PERIOD + channel % 3);
    }
    write_true_marks_of(&marks, &truth_space, &rule, &plan);
    check("64 parts under tops", *mark_byte(&marks, PARTS - 1, 0));
    expect_passes("64 parts under tops", &rule, &plan, 0);
    for (int part = 0; part < PARTS; part++) {
        int row = (37 * part + 3) % MOST_ROWS;
        *mark_byte(&marks, part, row) ^= 1;
        expect_check("64 parts under tops, a wrong mark", &rule, &plan, &marks,
                     refusal(9, part, row));
        *mark_byte(&marks, part, row) ^= 1;
    }
}

/* ---- Operators ---- */

/* x is 8 9 7 on the rows, under a top of 9. Each mark was found by hand. */
static void operators(void)
{
    static const char *const due_marks[] = {
        "010", /*  0  x is pinned */
        "001", /*  1  x < 8 */
        "110", /*  2  not 1: also where it is pinned */
        "100", /*  3  8 = x */
        "000", /*  4  9 = x */
        "111", /*  5  not 4 */
        "010", /*  6  0 and 2 */
        "011", /*  7  0 or 1 */
        "101", /*  8  X 0 */
        "011", /*  9  0 U 1 */
        "000", /* 10  1 R 2, as 1 never holds where 2 does */
        "101", /* 11  x = x */
        "001", /* 12  Y 0 */
    };
    enum { PARTS = sizeof due_marks / sizeof due_marks[0] };
    static const int32_t x[] = { 8, 9, 7 };
    start_rule(&rule, PARTS, 1);
    write_pinned(&rule, 0, reading(0, 0));
    write_comparison(&rule, 1, LESS, reading(0, 0), constant(8));
    write_unary(&rule, 2, NOT, 1);
    write_comparison(&rule, 3, EQUAL, constant(8), reading(0, 0));
    write_comparison(&rule, 4, EQUAL, constant(9), reading(0, 0));
    write_unary(&rule, 5, NOT, 4);
    write_binary(&rule, 6, AND, 0, 2);
    write_binary(&rule, 7, OR, 0, 1);
    write_unary(&rule, 8, NEXT, 0);
    write_binary(&rule, 9, UNTIL, 0, 1);
    write_binary(&rule, 10, RELEASE, 1, 2);
    write_comparison(&rule, 11, EQUAL, reading(0, 0), reading(0, 0));
    write_unary(&rule, 12, YESTERDAY, 0);
    start_plan(&plan, 1, 1, 2);
    write_top(&plan, 0, 9);
    start_marks(&marks, PARTS, 3);
    for (int row = 0; row < 3; row++)
        write_reading(&plan, row, 0, x[row]);
    for (int part = 0; part < PARTS; part++)
        mark_part(part, due_marks[part]);
    put2(witness_bytes(&marks, 9), 2);
    put2(witness_bytes(&marks, 10), 2);
    check("operators over what is pinned", 0);
    for (int part = 0; part < PARTS; part++)
        for (int row = 0; row < 3; row++)
            if (part < 9 || part > 10) {
                *mark_byte(&marks, part, row) ^= 1;
                expect_check("a wrong mark under a top", &rule, &plan, &marks,
                             refusal(9, part, row));
                *mark_byte(&marks, part, row) ^= 1;
            }
    put2(witness_bytes(&marks, 0), 1);
    expect_check("a witness of kind 14", &rule, &plan, &marks, refusal(11, 0, 0));
}

/* ---- Judge ---- */

static void judged_parts(void)
{
    start_rule(&rule, 13, 1);
    write_pinned(&rule, 0, reading(0, 0));
    for (int kind = NOT; kind <= TRIGGER; kind++)
        write_formula(&rule, kind - 1, &(struct formula){ .kind = (enum kind)kind });
    write_pinned(&rule, 12, reading(0, -1));
    start_plan(&plan, 1, 1, 2);
    write_top(&plan, 0, 5);
    for (int row = 0; row < 3; row++)
        write_reading(&plan, row, 0, 5);
    write_drift(&plan, 2, 0, -1);
    for (uint64_t part = 2; part < 12; part++)
        expect_judge("an operator over kind 14", &rule, &plan, part, 0, refusal(12, 0, 0));
    expect_judge("kind 14, start row", &rule, &plan, 0, 0, ALWAYS_TRUE);
    expect_judge("kind 14", &rule, &plan, 0, 1, ALWAYS_TRUE);
    expect_judge("kind 14 that changes", &rule, &plan, 0, 2, CHANGES);
    expect_judge("kind 14 on an absent row", &rule, &plan, 0, 3, refusal(12, 0, 0));
    expect_judge("the last part, before the run", &rule, &plan, 12, 0, ALWAYS_FALSE);
    expect_judge("the last part, looking back", &rule, &plan, 12, 1, CHANGES);
    expect_judge("the last part, looking back", &rule, &plan, 12, 2, ALWAYS_TRUE);
    expect_judge("no part", &rule, &plan, 13, 2, refusal(12, 0, 0));
}

/* ---- Passes laid out ---- */

/* x is 7 and rises by 2 under a top of 10: pinned from pass 2 on, with its number as it is.
   The tops, that of a channel which is not read too, stand in the new plan. */
static void laid_out(void)
{
    write_one(2, PINNED, reading(0, 0), constant(0));
    read_hex(&plan, "02 00 00 00 01 00 01 00 | 0A 00 00 00 FF FF FF 7F"
                    "| 0B 00 00 00 FF FF FF 7F | 07 00 00 00 05 00 00 00"
                    "| 00 00 00 00 00 00 00 00 | 02 00 00 00 FF FF FF FF");
    read_hex(&due, "02 00 02 00 01 00 01 00 | 0A 00 00 00 FF FF FF 7F"
                   "| 0B 00 00 00 FF FF FF 7F | 07 00 00 00 05 00 00 00"
                   "| 09 00 00 00 04 00 00 00 | 0B 00 00 00 03 00 00 00"
                   "| 00 00 00 00 00 00 00 00 | 00 00 00 00 00 00 00 00"
                   "| 00 00 00 00 00 00 00 00 | 02 00 00 00 FF FF FF FF");
    expect_laid_out("under a top", &rule, &plan, &due, 2);
    expect_laid_out("under a top, settled", &rule, &due, &due, 0);
    write_one(2, LESS, reading(0, 0), constant(1000));
    expect_laid_out("a comparison under a top", &rule, &plan, &due, 2);
    write_one(2, LESS, reading(1, 0), constant(1000));
    expect_laid_out("no pass, tops kept", &rule, &plan, &plan, 0);
}

/* The readings of another channel rise to their top, beyond which there is room for them
   in 32 bits for some passes only, pinned or not. */
static void room_under_top(void)
{
    for (int passes = 1; passes <= 5; passes++) {
        start_plan(&plan, 2, 1, 1);
        write_top(&plan, 0, passes);
        write_drift(&plan, 1, 0, 1);
        write_top(&plan, 1, INT32_MAX - 5);
        write_reading(&plan, 1, 1, INT32_MAX - 3);
        write_drift(&plan, 1, 1, 1);
        write_one(2, PINNED, reading(0, 0), constant(0));
        expect_passes("room for pinned readings", &rule, &plan,
                      passes <= 3 ? (uint64_t)passes : refusal(15, 0, 0));
    }
}

/* The longest plan, all of whose tops differ, is laid out from half its rows. */
static void longest(void)
{
    write_one(8, PINNED, reading(0, 0), constant(0));
    start_plan_with_lead(&plan, 8, 4, 0, 128);
    start_plan_with_lead(&due, 8, 4, 128, 128);
    for (int channel = 0; channel < 8; channel++) {
        write_top(&plan, channel, channel + 1);
        write_top(&due, channel, channel + 1);
        for (int row = 0; row < 128; row++) {
            write_drift(&plan, row, channel, 1);
            write_drift(&due, row + 128, channel, 1);
            write_reading(&due, row + 128, channel, 1);
        }
    }
    expect_laid_out("256 rows under tops", &rule, &plan, &due, 1);
    expect("as long as the buffer", due.len == 16680 && due.len == ENDLESS_RUN_LAID_OUT_LENGTH);
    write_top(&plan, 0, 2);
    expect_passes("257 rows and more under tops", &rule, &plan, refusal(15, 0, 0));
}

/* S and Y over kind 14: they need a pass more than it does, or none more. */
static void settled_over(void)
{
    start_rule(&rule, 3, 1);
    write_pinned(&rule, 0, reading(0, 0));
    write_unary(&rule, 1, YESTERDAY, 0);
    write_binary(&rule, 2, SINCE, 0, 1);
    start_plan(&plan, 1, 0, 1);
    for (int top = 1; top <= 20; top++) {
        write_top(&plan, 0, top);
        write_drift(&plan, 0, 0, 1);
        expect_passes("Y of kind 14", &rule, &plan, (uint64_t)top + 1);
    }
}

/* ---- Negative tops ---- */

static void negative_tops(void)
{
    static const int32_t negative[] = { -1, -2, -256, -65536, INT32_MIN, INT32_MIN + 1 };
    for (int i = 0; i < 6; i++)
        for (int channel = 0; channel < 3; channel++) {
            write_one(3, LESS, reading(1, 0), constant(1)); /* reads channel 1 alone */
            start_plan(&plan, 3, 1, 1);
            write_top(&plan, channel, negative[i]);
            refuse_all("a negative top", refusal(4, 0, 0));
            write_drift(&plan, 0, 0, 1);
            refuse_all("a negative top before a start drift", refusal(4, 0, 0));
            write_top(&plan, channel, 0);
            refuse_all("a start drift", refusal(6, 0, 0));
            write_one(2, LESS, reading(1, 0), constant(1));
            refuse_all("other channels", refusal(5, 0, 0));
            write_top(&plan, channel, negative[i]);
            refuse_all("a negative top before other channels", refusal(4, 0, 0));
            start_rule(&rule, 1, 2);
            *kind_byte(&rule, 0) = 15;
            refuse_all("a kind before a negative top", refusal(2, 0, 0));
            write_pinned(&rule, 0, constant(1));
            refuse_all("an operand before a negative top", refusal(3, 0, 0));
        }
}

/* The sign is the high bit of the fourth byte alone; every other bit makes a top. */
static void bits_of_top(void)
{
    write_one(1, PINNED, reading(0, 0), constant(0));
    for (int bit = 0; bit < 32; bit++) {
        start_plan(&plan, 1, 1, 1);
        top_bytes(&plan, 0)[bit / 8] = (uint8_t)(1 << bit % 8);
        write_reading(&plan, 0, 0, INT32_MAX);
        if (bit < 31)
            judge("one bit of a top", 0, ALWAYS_TRUE);
        else
            refuse_all("the sign of a top", refusal(4, 0, 0));
    }
}

/* All tops and lengths up to the right one, and beyond. */
static void lengths(void)
{
    write_one(2, PINNED, reading(1, 0), constant(0));
    start_plan(&plan, 2, 1, 1);
    struct sheet right = plan;
    for (size_t len = 0; len <= right.len + 8; len++) {
        plan = right;
        resize(&plan, len);
        if (len != right.len)
            refuse_all("a plan of another length", refusal(4, 0, 0));
    }
    expect("the length of a plan", right.len == 48);
}

/* ---- The rule of the course ---- */

/* A pinned count is never averaged until a lower one has come. Channel 0 is the count,
   channel 1 is 1 where it is averaged. */
static void write_course(void)
{
    start_rule(&rule, 8, 2);
    write_pinned(&rule, 0, reading(0, 0));
    write_unary(&rule, 1, NOT, 0);
    write_comparison(&rule, 2, EQUAL, reading(1, 0), constant(1));
    write_unary(&rule, 3, NOT, 2);
    write_binary(&rule, 4, OR, 3, 1);
    write_binary(&rule, 5, RELEASE, 1, 4);
    write_comparison(&rule, 6, LESS, constant(1), constant(0));
    write_binary(&rule, 7, RELEASE, 6, 5);
    static const int32_t counts[] = { 3000, 4095, 4095, 3900 }, averaged[] = { 1, 0, 0, 1 };
    start_plan(&plan, 2, 1, 3);
    write_top(&plan, 0, 4095);
    for (int row = 0; row < 4; row++) {
        write_reading(&plan, row, 0, counts[row]);
        write_reading(&plan, row, 1, averaged[row]);
    }
    write_drift(&plan, 2, 0, 1);
}

static void mark_course(const char *const *of_parts)
{
    start_marks(&marks, 8, 4);
    for (int part = 0; part < 8; part++)
        mark_part(part, of_parts[part]);
}

static void course(void)
{
    static const char *const patient[] = { "0110", "1001", "1001", "0110",
                                           "1111", "1111", "0000", "1111" };
    static const char *const hasty[] = { "0110", "1001", "1011", "0100",
                                         "1101", "1001", "0000", "0000" };
    write_course();
    mark_course(patient);
    check("the course's rule", 1);
    expect_passes("the course's rule", &rule, &plan, 0);
    write_reading(&plan, 2, 1, 1);
    check("a pinned count averaged, old marks", refusal(9, 2, 2));
    mark_course(hasty);
    put2(witness_bytes(&marks, 7), 1);
    check("a pinned count averaged", 0);

    write_course();
    mark_course(patient);
    write_drift(&plan, 3, 0, 1);
    check("a count up to its top on pass 195", refusal(10, 0, 3));
    expect_passes("a count up to its top on pass 195", &rule, &plan, refusal(15, 0, 0));
    write_drift(&plan, 3, 0, 100);
    check("a count up to its top on pass 2", refusal(10, 0, 3));
    expect_passes("a count up to its top on pass 2", &rule, &plan, 2);
    write_drift(&plan, 3, 0, -5);
    check("a count that falls", 1);
    write_drift(&plan, 2, 0, -1);
    check("a pinned count that falls", refusal(10, 0, 2));
    expect_passes("a pinned count that falls", &rule, &plan, 1);
}

void test_top_rows(void)
{
    for (unsigned set = 0; set < 1u << MOST_CHANNELS; set++)
        tops_of_channels(set);
    tops_that_differ();
    bytes_of_top();
    lead_in();
    for (int lead = 0; lead <= MOST_LEAD; lead++)
        for (int shift = -4; shift <= 4; shift++)
            before_the_lead_in(lead, shift);
    unseen_and_pinned();
    beyond_32_bits();
    rows_in_turn();
    row_read();
    many_rows();
    many_parts(0);
    many_parts(128);
    many_parts(252);
    operators();
    judged_parts();
    laid_out();
    room_under_top();
    longest();
    settled_over();
    negative_tops();
    bits_of_top();
    lengths();
    course();
}
