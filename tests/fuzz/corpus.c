/*
 * corpus.c: writes the inputs from which a fuzzer starts, in fuzz.c's layout.
 *
 *   corpus FOLDER
 *
 * One input for each worked example. For each kind of part and some sizes of plan, with
 * and without lead-in rows, the true table of a rule with all kinds up to that one,
 * windows and kind 14 last. For Y, Z, S and T the true table on each plan of three rows of
 * 0 and 1, whether it closes or not, and the same with a part above that does not name it;
 * and each with a wrong mark, in that part or in one below. Atoms of each kind that
 * change, with a wrong mark. For each L and each shift back the true table of comparisons
 * that look back, on a lead-in that goes on as the cycle does, on one that does not, and
 * on one that has a drift; and plans with a wrong L. Rules and plans that settle after
 * some passes, by Y, Z, S and T over one another or by a drift, or for which there is no
 * room; lengths of the buffers of settle; and 64 parts on 256 rows, of which two make a
 * chain of marks from row to row. Windows by both ends and over the end of the week, with
 * readings below 0 and at the ends of 32 bits, with drifts that share some divisor with
 * the week, and with faults in their operands. Readings that rise to a top or fall from
 * it, on an early pass, on a late one or never, held against a number, against one another
 * and against a window; and wrong tops and operands. Lists of live calls, with rules that
 * look back: of each kind alone, of all kinds, and with a part or a shift that looks ahead.
 */
#include "../support/examples.h"

#include <stdio.h>
#include <stdlib.h>

static struct sheet rule, plan, marks;
static struct truth space;
static const char *folder;

static void write_input(const char *name, unsigned part, unsigned row)
{
    char path[1024];
    uint8_t head[8];
    snprintf(path, sizeof path, "%s/%s", folder, name);
    FILE *file = fopen(path, "wb");
    if (file == NULL) {
        perror(path);
        exit(1);
    }
    put2(head, (unsigned)rule.len);
    put2(head + 2, (unsigned)plan.len);
    put2(head + 4, part);
    put2(head + 6, row);
    fwrite(head, 1, sizeof head, file);
    fwrite(rule.at, 1, rule.len, file);
    fwrite(plan.at, 1, plan.len, file);
    fwrite(marks.at, 1, marks.len, file);
    if (fclose(file) != 0) {
        perror(path);
        exit(1);
    }
}

static void write_examples(void)
{
    char name[64];
    for (size_t i = 0; i < example_count; i++) {
        read_hex(&rule, examples[i].rule);
        read_hex(&plan, examples[i].plan);
        read_hex(&marks, examples[i].marks ? examples[i].marks : "");
        snprintf(name, sizeof name, "example-%zu", i);
        write_input(name, 0, (unsigned)examples[i].row);
    }
}

/* A part of every kind up to the last one: part k - 1 is of kind k. */
static void all_kinds(enum kind last)
{
    start_rule(&rule, (int)last, 2);
    write_comparison(&rule, 0, LESS, reading(1, 0), constant(25));
    for (int kind = EQUAL; kind <= (int)last; kind++) {
        int part = kind - 1;
        if (kind == WINDOW)
            write_window(&rule, part, reading(0, -1), 5, 6);
        else if (kind == PINNED)
            write_pinned(&rule, part, reading(1, -1));
        else if (kind == EQUAL)
            write_comparison(&rule, part, EQUAL, reading(0, -1), constant(6));
        else if (names_two_parts((enum kind)kind))
            write_binary(&rule, part, (enum kind)kind, kind % 2, part - 1);
        else
            write_unary(&rule, part, (enum kind)kind, part - 1);
    }
}

/* The lead-in and start rows have the readings of the first pass of the cycle. On some
   plans the first cycle row is at its top for ever. */
static void steady_plan(int lead, int start, int cycle)
{
    start_plan_with_lead(&plan, 2, lead, start, cycle);
    write_top(&plan, 1, start % 2 ? 0 : 30);
    for (int row = -lead; row < start + cycle; row++) {
        int of_cycle = ((row - start) % cycle + cycle) % cycle;
        write_reading(&plan, row, 0, of_cycle % 2 ? 6 : 5);
        write_reading(&plan, row, 1, of_cycle == 0 ? 30 : 20);
        if (row >= start)
            write_drift(&plan, row, 1, of_cycle == 0 ? 3 : -2);
    }
}

static void write_kinds(void)
{
    static const int sizes[][3] = { { 0, 0, 1 }, { 0, 0, 2 }, { 0, 2, 2 }, { 0, 4, 4 },
                                    { 0, 7, 1 }, { 0, 1, 5 }, { 1, 0, 2 }, { 2, 1, 3 },
                                    { 3, 2, 2 }, { 4, 0, 1 } };
    char name[64];
    for (int kind = LESS; kind <= PINNED; kind++)
        for (int i = 0; i < 10; i++) {
            all_kinds((enum kind)kind);
            steady_plan(sizes[i][0], sizes[i][1], sizes[i][2]);
            write_true_marks_of(&marks, &space, &rule, &plan);
            snprintf(name, sizeof name, "kinds-%d-plan-%d", kind, i);
            write_input(name, kind >= WINDOW ? (unsigned)kind - 1 : (unsigned)kind % 2,
                        (unsigned)sizes[i][1]);
        }
}

/* Comparisons with a shift back, and an operator over them, on a plan that begins
   with its cycle or with start rows. */
static void write_looking_back(int lead, int start, int shift)
{
    char name[64];
    start_rule(&rule, 3, 2);
    write_comparison(&rule, 0, LESS, reading(0, shift), reading(1, 0));
    write_comparison(&rule, 1, EQUAL, constant(5), reading(0, shift));
    write_binary(&rule, 2, SINCE, 0, 1);
    steady_plan(lead, start, 2);
    write_true_marks_of(&marks, &space, &rule, &plan);
    snprintf(name, sizeof name, "back-%d-lead-%d-start-%d", -shift, lead, start);
    write_input(name, 1, 0);
    if (lead == 0)
        return;
    write_reading(&plan, -1, 0, 7);
    write_true_marks_of(&marks, &space, &rule, &plan);
    snprintf(name, sizeof name, "back-%d-lead-%d-start-%d-other", -shift, lead, start);
    write_input(name, 1, 0);
    write_drift(&plan, -lead, 1, 1);
    snprintf(name, sizeof name, "back-%d-lead-%d-start-%d-drift", -shift, lead, start);
    write_input(name, 1, 0);
}

/* Five lead-in rows in a plan of the length for them; and, in a plan without any, an L
   whose low byte alone is right, and the largest L. */
static void write_wrong_leads(void)
{
    static const unsigned said[] = { 5, 256, 65535 };
    char name[64];
    all_kinds(EQUAL);
    for (int i = 0; i < 3; i++) {
        steady_plan(i == 0 ? 5 : 0, 1, 1);
        put2(plan.at + 6, said[i]);
        start_marks(&marks, 2, 2);
        snprintf(name, sizeof name, "lead-%u", said[i]);
        write_input(name, 0, 0);
    }
}

/* The table with a wrong mark of the part on each of three rows in turn. */
static void write_wrong_marks(const char *name, int part)
{
    char wrong[96];
    for (int row = 0; row < 3; row++) {
        *mark_byte(&marks, part, row) ^= 1;
        snprintf(wrong, sizeof wrong, "%s-wrong-%d-%d", name, part, row);
        write_input(wrong, (unsigned)part, (unsigned)row);
        *mark_byte(&marks, part, row) ^= 1;
    }
}

/* x < 1 or x = 1, or the window of minute 1, or pinned under a top of 1, on three rows, one
   of which rises from 0. */
static void write_changing(enum kind kind, int start, int rising)
{
    struct formula f = { .kind = kind, .left = reading(0, 0), .right = constant(1), .from = 1,
                         .to = 2 };
    char name[64];
    start_rule(&rule, 2, 1);
    write_formula(&rule, 0, &f);
    write_unary(&rule, 1, NOT, 0);
    start_plan(&plan, 1, start, 3 - start);
    write_top(&plan, 0, kind == PINNED);
    write_drift(&plan, rising, 0, 1);
    write_true_marks_of(&marks, &space, &rule, &plan);
    snprintf(name, sizeof name, "changing-%d-start-%d-row-%d", (int)kind, start, rising);
    write_wrong_marks(name, 0);
}

/* A part of this kind over x = 1 and y = 1, on rows that the bits give, as the last
   part of 3 or as one of 4 that nobody names. */
static void write_past(enum kind kind, int parts, int start, int bits)
{
    char name[64];
    start_rule(&rule, parts, 2);
    write_comparison(&rule, 0, EQUAL, reading(0, 0), constant(1));
    write_comparison(&rule, 1, EQUAL, reading(1, 0), constant(1));
    write_formula(&rule, 2, &(struct formula){ .kind = kind, .a = 0, .b = 1 });
    if (parts == 4)
        write_binary(&rule, 3, UNTIL, 0, 1);
    start_plan(&plan, 2, start, 3 - start);
    for (int i = 0; i < 6; i++)
        write_reading(&plan, i / 2, i % 2, bits >> i & 1);
    write_true_marks_of(&marks, &space, &rule, &plan);
    snprintf(name, sizeof name, "past-%d-parts-%d-start-%d-rows-%d", (int)kind, parts, start, bits);
    write_input(name, 0, (unsigned)start);
    write_wrong_marks(name, parts == 4 ? 1 : 2);
}

/* Y, Z, S or T over one another, so deep, over x = 1 read some positions back, on a
   cycle whose first row has reading 1. */
static void write_late(enum kind kind, int depth, int back, int start, int cycle)
{
    char name[64];
    start_rule(&rule, depth + 1, 1);
    write_comparison(&rule, 0, EQUAL, reading(0, -back), constant(1));
    for (int part = 1; part <= depth; part++)
        write_formula(&rule, part, &(struct formula){ .kind = kind, .a = 0, .b = part - 1 });
    start_plan_with_lead(&plan, 1, back / 2, start, cycle);
    write_reading(&plan, start, 0, 1);
    write_true_marks_of(&marks, &space, &rule, &plan);
    snprintf(name, sizeof name, "late-%d-deep-%d-back-%d-start-%d-cycle-%d", (int)kind, depth, back,
             start, cycle);
    write_input(name, LAID_OUT_LENGTH, SCRATCH_LENGTH - 1);
}

/* x crosses its limit after so many passes, and y has room in 32 bits for some on the
   first cycle row. */
static void write_crossing(int passes, int room, int start, int cycle)
{
    static const unsigned lengths[][2] = {
        { LAID_OUT_LENGTH - 1, SCRATCH_LENGTH }, { LAID_OUT_LENGTH + 1, SCRATCH_LENGTH },
        { LAID_OUT_LENGTH, SCRATCH_LENGTH - 1 }, { LAID_OUT_LENGTH, SCRATCH_LENGTH + 1 },
        { SCRATCH_LENGTH, LAID_OUT_LENGTH },     { 0, 0 },
        { LAID_OUT_LENGTH, 16516 }, /* before version 8 */
    };
    char name[64];
    start_rule(&rule, 2, 2);
    write_comparison(&rule, 0, LESS, reading(0, 0), constant(passes));
    write_comparison(&rule, 1, LESS, constant(0), constant(1));
    start_plan_with_lead(&plan, 2, 1, start, cycle);
    for (int row = start; row < start + cycle; row++)
        write_drift(&plan, row, 0, 1);
    write_reading(&plan, start, 1, room % 2 ? INT32_MAX - 3 * room : INT32_MIN + 3 * room);
    write_drift(&plan, start, 1, room % 2 ? 3 : -3);
    write_true_marks_of(&marks, &space, &rule, &plan);
    snprintf(name, sizeof name, "crossing-%d-room-%d-start-%d-cycle-%d", passes, room, start,
             cycle);
    write_input(name, lengths[passes % 7][0], lengths[passes % 7][1]);
}

static void write_all_late(void)
{
    for (int kind = YESTERDAY; kind <= TRIGGER; kind++)
        for (int depth = 0; depth <= 4; depth += 2)
            for (int back = 0; back <= 4; back += 2)
                for (int cycle = 1; cycle <= 3; cycle++)
                    write_late((enum kind)kind, depth, back, cycle % 2 ? 0 : 2, cycle);
    for (int passes = 0; passes <= 6; passes++)
        for (int room = 3; room <= 4; room++) {
            write_crossing(passes, room, 0, 1);
            write_crossing(passes, room, 1, 2);
            write_crossing(passes, room, 256 - 4 * 7, 7);
        }
    for (int passes = 254; passes <= 257; passes++)
        write_crossing(passes, 300, 0, 1);
}

/* Of 64 parts a is true on all rows but the last and b on row 0 alone, where none is missing,
   and the last part is a S b or the T of the negations: one pass is due, and 256 rows. The
   other parts are always true or always false. There is no table, as it would be long. */
static void write_chain(enum kind kind, int a, int b, bool others, int missing)
{
    enum { CYCLE = 16, START = MOST_ROWS - 2 * CYCLE };
    char name[64];
    start_rule(&rule, MOST_PARTS, 1);
    for (int part = 0; part < MOST_PARTS; part++)
        write_comparison(&rule, part, LESS, constant(0), constant(others));
    for (int i = 0; i < 2; i++)
        write_comparison(&rule, i == 0 ? a : b, LESS, kind == SINCE ? constant(i) : reading(0, 0),
                         kind == SINCE ? reading(0, 0) : constant(i + 1));
    write_binary(&rule, MOST_PARTS - 1, kind, a, b);
    start_plan(&plan, 1, START, CYCLE);
    for (int row = 0; row < START + CYCLE - 1; row++)
        write_reading(&plan, row, 0, row == 0 ? 2 : row != missing);
    resize(&marks, 0);
    snprintf(name, sizeof name, "chain-%d-of-%d-and-%d-others-%d-missing-%d", (int)kind, a, b,
             others, missing);
    write_input(name, LAID_OUT_LENGTH, SCRATCH_LENGTH);
}

static void write_chains(void)
{
    static const int parts[][2] = { { 0, 1 },   { 7, 8 },   { 31, 32 },
                                    { 55, 56 }, { 62, 61 }, { 5, 62 } };
    static const int rows[] = { 0, 1, 63, 64, 127, 128, 223 };
    for (int i = 0; i < 6; i++)
        for (int k = 0; k < 7; k++)
            for (int others = 0; others < 2; others++) {
                write_chain(SINCE, parts[i][0], parts[i][1], others, rows[k]);
                write_chain(TRIGGER, parts[i][0], parts[i][1], others, rows[k]);
            }
}

/* Windows of a clock, looked at now and two positions back, and an operator over them. */
static void write_clock(const char *name, int32_t read, int32_t drift, int from, int to)
{
    start_rule(&rule, 3, 1);
    write_window(&rule, 0, reading(0, 0), from, to);
    write_window(&rule, 1, reading(0, -2), to, from);
    write_binary(&rule, 2, SINCE, 0, 1);
    start_plan_with_lead(&plan, 1, 1, 1, 2);
    for (int row = -1; row < 3; row++)
        write_reading(&plan, row, 0, read);
    write_drift(&plan, 1, 0, drift);
    write_drift(&plan, 2, 0, drift);
    write_true_marks_of(&marks, &space, &rule, &plan);
    write_input(name, 0, 1);
}

static void write_clocks(void)
{
    static const int32_t reads[] = { 0, -1, 480, 1019, WEEK - 1, -WEEK, INT32_MIN, INT32_MAX };
    static const int32_t drifts[] = { 0, 1, -1440, 5040, WEEK, 17 };
    static const int windows[][2] = { { 480, 1020 }, { 1020, 480 }, { 10079, 0 }, { 0, 10079 },
                                      { 1, 1440 } };
    char name[64];
    for (int i = 0; i < 8; i++)
        for (int k = 0; k < 6; k++)
            for (int n = 0; n < 5; n++) {
                snprintf(name, sizeof name, "clock-%d-drift-%d-window-%d", i, k, n);
                write_clock(name, reads[i], drifts[k], windows[n][0], windows[n][1]);
            }
}

/* Another byte at each place of a window's operand. */
static void write_wrong_windows(void)
{
    char name[64];
    for (int i = 0; i < 12; i++) {
        write_clock("clock", 480, WEEK, 480, 1020);
        operand_bytes(&rule, 0)[i] ^= i == 0 ? 1 : 0x80;
        snprintf(name, sizeof name, "clock-operand-%d", i);
        write_input(name, 0, 1);
    }
    write_clock("clock", 480, WEEK, 480, 1020);
    write_window(&rule, 1, reading(0, 0), 480, 480);
    write_input("clock-from-is-to", 1, 1);
    *kind_byte(&rule, 1) = 14;
    write_input("clock-kind-14", 1, 1);
    *kind_byte(&rule, 1) = 15;
    write_input("clock-kind-15", 1, 1);
}

/* Two channels under tops, one of which drifts: whether it is pinned, now and two positions
   back, the same against a number and a window, and the two against each other. */
static void write_topped(const char *name, int32_t top, int32_t read, int32_t drift)
{
    start_rule(&rule, 7, 2);
    write_pinned(&rule, 0, reading(0, 0));
    write_pinned(&rule, 1, reading(0, -2));
    write_comparison(&rule, 2, LESS, reading(0, 0), constant(top));
    write_comparison(&rule, 3, EQUAL, reading(0, -1), reading(0, -1));
    write_window(&rule, 4, reading(0, 0), 480, 1020);
    write_comparison(&rule, 5, LESS, reading(1, 0), reading(0, 0));
    write_binary(&rule, 6, SINCE, 0, 5);
    start_plan_with_lead(&plan, 2, 1, 1, 1);
    write_top(&plan, 0, top);
    write_top(&plan, 1, 100);
    for (int row = -1; row < 2; row++) {
        write_reading(&plan, row, 0, read);
        write_reading(&plan, row, 1, 99 + row);
    }
    write_drift(&plan, 1, 0, drift);
    write_true_marks_of(&marks, &space, &rule, &plan);
    write_input(name, (unsigned)drift % 6, 1);
}

static void write_all_topped(void)
{
    static const int32_t tops[] = { 0, 1, 100, 481, 4095, INT32_MAX };
    static const int32_t reads[] = { 0, 99, 100, 480, 4094, 4100, INT32_MIN, INT32_MAX };
    static const int32_t drifts[] = { 0, 1, -1, 50, -50, 1440, -WEEK, INT32_MAX, INT32_MIN };
    char name[64];
    for (int i = 0; i < 6; i++)
        for (int k = 0; k < 8; k++)
            for (int n = 0; n < 9; n++) {
                snprintf(name, sizeof name, "top-%d-reading-%d-drift-%d", i, k, n);
                write_topped(name, tops[i], reads[k], drifts[n]);
            }
}

/* A negative top on either channel, a plan without tops, and another byte at each place of
   the operand of kind 14. */
static void write_wrong_tops(void)
{
    char name[64];
    for (int channel = 0; channel < 2; channel++) {
        write_topped("top", 100, 99, 1);
        top_bytes(&plan, channel)[3] |= 0x80;
        snprintf(name, sizeof name, "top-negative-%d", channel);
        write_input(name, 0, 1);
    }
    write_topped("top", 100, 99, 1);
    resize(&plan, plan.len - 8);
    write_input("top-none", 0, 1);
    for (int i = 0; i < 12; i++) {
        write_topped("top", 100, 99, 1);
        operand_bytes(&rule, 0)[i] ^= i == 0 ? 1 : 0x80;
        snprintf(name, sizeof name, "top-operand-%d", i);
        write_input(name, 0, 1);
    }
}

/* ---- Live calls ---- */

/* What a byte of the mark table stands for, as fuzz.c has it. */
enum { A_ROW = 0, SHORT_ROW = 3, AN_ADD = 4, A_DROP = 5, A_START = 6, WIDE = 7 };

/* Rows, a row of another length, adds and drops of places that are there and of some that are
   not, and a start; then rows again. */
static const uint8_t calls[] = {
    A_ROW,          A_ROW,         AN_ADD + 8 * 2, A_ROW,      SHORT_ROW + 8 * 7, A_ROW,
    AN_ADD + 8 * 2, A_DROP,        A_ROW,          AN_ADD,     AN_ADD + 8 * 4,    A_DROP + 8 * 5,
    WIDE,           WIDE + 8,      A_ROW,          A_ROW,      A_START + 8 * 9,   SHORT_ROW,
    A_ROW,          A_DROP + 8,    AN_ADD + 8 * 3, A_ROW,      A_ROW,             A_ROW,
    A_START + 8 * 2, AN_ADD + 8 * 3, A_ROW,        A_DROP + 8 * 3, A_DROP + 8 * 3, AN_ADD,
    A_ROW,          A_ROW,         SHORT_ROW + 8 * 9, WIDE + 8 * 24, WIDE + 8 * 25, A_ROW,
};

/* 40 rows of x and y, small or at the ends of 32 bits, under tops or not, and under a
   negative one. */
static void write_live_rows(int style)
{
    static const int32_t ends[] = { INT32_MIN, INT32_MAX, 0, -1, WEEK, 480 };
    start_plan(&plan, 2, 0, 40);
    write_top(&plan, 0, style % 2 ? 3 : 0);
    write_top(&plan, 1, style == 3 ? INT32_MAX : style == 4 ? -1 : 0);
    for (int row = 0; row < 40; row++) {
        write_reading(&plan, row, 0, row * row % 5);
        write_reading(&plan, row, 1, style < 2 ? row % 3 : ends[row % 6]);
    }
    resize(&marks, sizeof calls);
    for (size_t i = 0; i < sizeof calls; i++)
        marks.at[i] = calls[i];
}

/* An operator, or an atom with this shift, over two atoms. */
static void write_live(enum kind kind, int shift, int style)
{
    struct formula f = { .kind = kind, .left = reading(0, shift), .right = reading(1, 0), .from = 1,
                         .to = 480 };
    char name[64];
    f.b = 1;
    start_rule(&rule, 3, 2);
    write_comparison(&rule, 0, LESS, reading(0, 0), constant(2));
    write_comparison(&rule, 1, EQUAL, reading(1, -1), constant(1));
    write_formula(&rule, 2, &f);
    write_live_rows(style);
    snprintf(name, sizeof name, "live-%d-shift-%d-style-%d", (int)kind, shift + 4, style);
    write_input(name, 1, 2);
}

static void write_all_live(void)
{
    char name[64];
    for (int kind = LESS; kind <= PINNED; kind++)
        for (int style = 0; style < 4; style++)
            for (int shift = is_atom((enum kind)kind) ? -4 : 0; shift <= 0; shift++)
                write_live((enum kind)kind, shift, style);
    write_live(SINCE, 0, 4);
    for (int bytes = 0; bytes < 300; bytes += 290) { /* more rows than a byte counts */
        start_rule(&rule, 2, 2);
        write_comparison(&rule, 0, EQUAL, reading(0, -4), reading(0, -4));
        write_unary(&rule, 1, WEAK_YESTERDAY, 0);
        write_live_rows(1);
        resize(&marks, (size_t)bytes);
        for (int i = 0; i < bytes; i++)
            marks.at[i] = A_ROW;
        write_input(bytes == 0 ? "live-no-calls" : "live-long", 0, 2);
    }
    for (int shift = 1; shift <= 4; shift++) {
        write_live(LESS, shift, 0);
        write_live(WINDOW, shift, 0);
        write_live(PINNED, shift, 1);
    }
    for (int style = 0; style < 4; style++) { /* all kinds that look back, over one another */
        start_rule(&rule, 8, 2);
        write_comparison(&rule, 0, LESS, reading(0, -4), reading(1, 0));
        write_pinned(&rule, 1, reading(0, -2));
        write_window(&rule, 2, reading(1, -1), 480, 1);
        write_binary(&rule, 3, SINCE, 0, 1);
        write_unary(&rule, 4, WEAK_YESTERDAY, 3);
        write_binary(&rule, 5, TRIGGER, 2, 4);
        write_unary(&rule, 6, YESTERDAY, 5);
        write_binary(&rule, 7, OR, 6, 3);
        write_live_rows(style);
        snprintf(name, sizeof name, "live-all-style-%d", style);
        write_input(name, 3, 0);
    }
}

int main(int argc, char **argv)
{
    if (argc != 2) {
        fprintf(stderr, "usage: corpus FOLDER\n");
        return 2;
    }
    folder = argv[1];
    write_examples();
    write_kinds();
    for (int lead = 0; lead <= MOST_LEAD; lead++)
        for (int start = 0; start < 4; start++)
            for (int shift = -4; shift <= -1; shift++)
                write_looking_back(lead, start, shift);
    write_wrong_leads();
    write_all_late();
    write_chains();
    write_clocks();
    write_wrong_windows();
    write_all_topped();
    write_wrong_tops();
    write_all_live();
    for (int start = 0; start < 3; start++)
        for (int rising = start; rising < 3; rising++) {
            write_changing(LESS, start, rising);
            write_changing(EQUAL, start, rising);
            write_changing(WINDOW, start, rising);
            write_changing(PINNED, start, rising);
        }
    for (int kind = YESTERDAY; kind <= TRIGGER; kind++)
        for (int start = 0; start < 3; start++)
            for (int bits = 0; bits < 64; bits++) {
                write_past((enum kind)kind, 3, start, bits);
                write_past((enum kind)kind, 4, start, bits);
            }
    return 0;
}
