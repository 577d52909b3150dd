/*
 * closing.c: parts that do not close, and wrong marks beside that.
 *
 * A part closes or not by its truth, whatever its own marks say, and within one part
 * refusal 10 comes before 9 and 11. Atoms, Y, Z, S and T can fail to close.
 * Each is tried with marks written by hand, with faults in other parts as well, and on
 * plans of up to three rows with all marks that a part can have.
 */
#include "expect.h"

#include <stdio.h>

static struct sheet rule, plan, marks;

/* ---- One part of interest ---- */

enum { A, B, TRIED, WHOLE, PARTS };
enum { CHANNELS = 3, ROWS = 3 };

static const enum kind open_kinds[] = { LESS,      EQUAL,          WINDOW, PINNED,
                                        YESTERDAY, WEAK_YESTERDAY, SINCE,  TRIGGER };
enum { OPEN_KINDS = sizeof open_kinds / sizeof open_kinds[0] };

/* Bit r stands for row r. */
static bool on_row(unsigned rows, int row)
{
    return rows >> row & 1;
}

static unsigned rows_of(const char *of_rows)
{
    unsigned rows = 0;
    for (int row = 0; of_rows[row] != '\0'; row++)
        rows |= (unsigned)(of_rows[row] == '1') << row;
    return rows;
}

/* z < 1 or z = 1, or the window of minute 1, or pinned under a top of 1, holds on the row
   on pass 0 or does not, and is the other thing on pass 1 if it changes there. */
static void write_changing(enum kind kind, int row, bool holds, bool changes)
{
    int on_pass_0 = kind == LESS ? !holds : holds;
    bool falls = on_pass_0 == 1 && (kind == LESS || kind == PINNED);
    write_reading(&plan, row, 2, on_pass_0);
    write_drift(&plan, row, 2, !changes ? 0 : falls ? -1 : 1);
}

/* x = 1 and y = 1; of the kind a part over these two, or an atom of z and 1; and "not" the
   first. */
static void write_rule(enum kind kind)
{
    struct formula tried = { .kind = kind, .a = A, .b = B, .from = 1, .to = 2 };
    tried.left = reading(2, 0);
    tried.right = constant(1);
    start_rule(&rule, PARTS, CHANNELS);
    write_comparison(&rule, A, EQUAL, reading(0, 0), constant(1));
    write_comparison(&rule, B, EQUAL, reading(1, 0), constant(1));
    write_formula(&rule, TRIED, &tried);
    write_unary(&rule, WHOLE, NOT, A);
}

/* Parts A and B are true on the rows a and b. The part tried is over them; or an atom that
   is true on the rows a, and changes on the rows b. The table is the true one. */
static void write_tried(enum kind kind, int start, int rows, unsigned a, unsigned b)
{
    write_rule(kind);
    start_plan(&plan, CHANNELS, start, rows - start);
    write_top(&plan, 2, kind == PINNED);
    for (int row = 0; row < rows; row++) {
        write_reading(&plan, row, 0, on_row(a, row));
        write_reading(&plan, row, 1, on_row(b, row));
        if (is_atom(kind))
            write_changing(kind, row, on_row(a, row), on_row(b, row));
    }
    write_true_marks_of(&marks, &truth_space, &rule, &plan);
}

static void write_own(int rows, unsigned own)
{
    for (int row = 0; row < rows; row++)
        *mark_byte(&marks, TRIED, row) = on_row(own, row);
}

static void check(const char *name, uint64_t answer)
{
    expect_check(name, &rule, &plan, &marks, answer);
}

/* ---- Marks written by hand ---- */

/* One start row and two cycle rows: what the part tried is over, its own marks, and the
   answer. */
struct tried {
    const char *name;
    enum kind kind;
    const char *a, *b, *own;
    int number, row;
};

enum { START = 1 };

/* A mark breaks its equation, and the part does not close. The marks of Y, Z, S and T
   are such that the one on row P is as the equation has it after row W - 1. */
static const struct tried both_faults[OPEN_KINDS] = {
    { "less, both faults", LESS, "110", "001", "010", 10, 2 },
    { "equal, both faults", EQUAL, "110", "001", "111", 10, 2 },
    { "window, both faults", WINDOW, "110", "001", "111", 10, 2 },
    { "pinned, both faults", PINNED, "110", "001", "010", 10, 2 },
    { "Y, its marks close", YESTERDAY, "100", "000", "000", 10, 1 },
    { "Z, its marks close", WEAK_YESTERDAY, "100", "000", "100", 10, 1 },
    { "S, its marks close", SINCE, "110", "100", "111", 10, 1 },
    { "T, its marks close", TRIGGER, "001", "011", "000", 10, 1 },
};

static const struct tried others[] = {
    { "less, two rows change", LESS, "010", "011", "001", 10, 1 },
    { "equal, two rows change", EQUAL, "010", "011", "001", 10, 1 },
    { "window, two rows change", WINDOW, "010", "011", "001", 10, 1 },
    { "pinned, two rows change", PINNED, "010", "011", "001", 10, 1 },
    { "less changes, true marks", LESS, "110", "001", "110", 10, 2 },
    { "equal changes, true marks", EQUAL, "110", "001", "110", 10, 2 },
    { "window changes, true marks", WINDOW, "110", "001", "110", 10, 2 },
    { "pinned changes, true marks", PINNED, "110", "001", "110", 10, 2 },
    { "less closes", LESS, "110", "000", "111", 9, 2 },
    { "equal closes", EQUAL, "110", "000", "010", 9, 0 },
    { "window closes", WINDOW, "110", "000", "010", 9, 0 },
    { "pinned closes", PINNED, "110", "000", "111", 9, 2 },

    /* Neither the truth nor the marks close. */
    { "Y open both ways", YESTERDAY, "100", "000", "110", 10, 1 },
    { "Z open both ways", WEAK_YESTERDAY, "100", "000", "010", 10, 1 },
    { "S open both ways", SINCE, "110", "100", "010", 10, 1 },
    { "T open both ways", TRIGGER, "001", "011", "101", 10, 1 },
    { "Y open, true marks", YESTERDAY, "100", "000", "010", 10, 1 },
    { "Z open, true marks", WEAK_YESTERDAY, "100", "000", "110", 10, 1 },
    { "S open, true marks", SINCE, "110", "100", "110", 10, 1 },
    { "T open, true marks", TRIGGER, "001", "011", "001", 10, 1 },

    /* The truth closes; the marks are wrong, and do not. */
    { "Y closes, its marks do not", YESTERDAY, "000", "000", "010", 9, 1 },
    { "Z closes, its marks do not", WEAK_YESTERDAY, "010", "000", "111", 9, 1 },
    { "S closes, its marks do not", SINCE, "011", "100", "110", 9, 2 },
    { "T closes, its marks do not", TRIGGER, "000", "011", "001", 9, 2 },

    /* Both close, and the marks are wrong. */
    { "Y closes, its marks too", YESTERDAY, "000", "000", "100", 9, 0 },
    { "Z closes, its marks too", WEAK_YESTERDAY, "010", "000", "001", 9, 0 },
    { "S closes, its marks too", SINCE, "011", "100", "000", 9, 0 },
    { "T closes, its marks too", TRIGGER, "000", "011", "011", 9, 1 },
};

static uint64_t write_by_hand(const struct tried *t)
{
    write_tried(t->kind, START, ROWS, rows_of(t->a), rows_of(t->b));
    write_own(ROWS, rows_of(t->own));
    return refusal(t->number, TRIED, t->row);
}

static void check_by_hand(const struct tried *t)
{
    uint64_t answer = write_by_hand(t);
    check(t->name, answer);
    expect_make_as_checked(t->name, &rule, &plan, &marks, answer);
}

static void by_hand(void)
{
    for (int i = 0; i < OPEN_KINDS; i++)
        check_by_hand(&both_faults[i]);
    for (size_t i = 0; i < sizeof others / sizeof others[0]; i++)
        check_by_hand(&others[i]);
}

/* ---- Faults in other parts ---- */

static void beside(const struct tried *t)
{
    char name[64];
    for (int row = 0; row < ROWS; row++) {
        uint64_t open = write_by_hand(t);
        snprintf(name, sizeof name, "%s, and beside it", t->name);
        put2(witness_bytes(&marks, TRIED), (unsigned)row);
        check(name, open);
        *mark_byte(&marks, WHOLE, row) ^= 1;
        put2(witness_bytes(&marks, WHOLE), (unsigned)row);
        check(name, open);
        put2(witness_bytes(&marks, B), (unsigned)row);
        check(name, refusal(11, B, 0));
        *mark_byte(&marks, A, row) ^= 1;
        check(name, refusal(9, A, row));
        *mark_byte(&marks, WHOLE, row) = 2;
        check(name, refusal(8, WHOLE, row));
        *mark_byte(&marks, TRIED, row) = 3;
        check(name, refusal(8, TRIED, row));
    }
}

/* A lower part that does not close, and both faults above it. */
static void above_an_open_part(const struct tried *t)
{
    write_by_hand(t);
    write_drift(&plan, 2, 1, 1);
    write_reading(&plan, 2, 1, 0);
    *mark_byte(&marks, B, 2) = 0;
    check("a lower part that changes", refusal(10, B, 2));
    *mark_byte(&marks, B, 2) = 1;
    check("a lower part that changes, both faults", refusal(10, B, 2));
    *mark_byte(&marks, B, 2) = 0;
    *mark_byte(&marks, A, 2) ^= 1;
    check("a wrong mark below both", refusal(9, A, 2));
}

static void in_other_parts(void)
{
    for (int i = 0; i < OPEN_KINDS; i++) {
        beside(&both_faults[i]);
        above_an_open_part(&both_faults[i]);
    }
}

/* ---- All marks on few rows ---- */

/* What the published truth asks for where these are the marks of the part tried, and all
   others are true. */
static uint64_t due(int rows, unsigned own, int open_row)
{
    if (!is_row_periodic(&truth_space, TRIED))
        return refusal(10, TRIED, open_row);
    for (int row = 0; row < rows; row++)
        if (holds(&truth_space, TRIED, row) != on_row(own, row))
            return refusal(9, TRIED, row);
    return holds(&truth_space, WHOLE, 0);
}

static int lowest_row(unsigned rows)
{
    int row = 0;
    while (row < ROWS && !on_row(rows, row))
        row++;
    return row;
}

static void all_own_marks(enum kind kind, int start, int rows, unsigned a, unsigned b)
{
    int open_row = is_atom(kind) ? lowest_row(b) : start;
    for (unsigned own = 0; own < 1u << rows; own++) {
        write_tried(kind, start, rows, a, b);
        write_own(rows, own);
        check("all marks of a part", due(rows, own, open_row));
    }
}

/* An atom changes on cycle rows alone. */
static void all_marks_on(enum kind kind, int start, int rows)
{
    for (unsigned a = 0; a < 1u << rows; a++)
        for (unsigned b = 0; b < 1u << rows; b++)
            if (!is_atom(kind) || b % (1u << start) == 0)
                all_own_marks(kind, start, rows, a, b);
}

static void all_marks(void)
{
    for (int i = 0; i < OPEN_KINDS; i++)
        for (int rows = 1; rows <= ROWS; rows++)
            for (int start = 0; start < rows; start++)
                all_marks_on(open_kinds[i], start, rows);
}

/* ---- Many rows ---- */

/* S from row 0 on, or T failing from there on, to the last row or to the last but one; but
   its marks are the other way round from some row on, each by its equation after that. */
static void from_row_0(enum kind kind, int start, int from, bool to_the_last)
{
    bool since = kind == SINCE;
    write_rule(kind);
    start_plan(&plan, CHANNELS, start, MOST_ROWS - start);
    for (int row = 0; row < MOST_ROWS; row++) {
        write_reading(&plan, row, 0, since == (to_the_last || row < MOST_ROWS - 1));
        write_reading(&plan, row, 1, since == (row == 0));
    }
    write_true_marks_of(&marks, &truth_space, &rule, &plan);
    for (int row = from; row < MOST_ROWS; row++)
        *mark_byte(&marks, TRIED, row) = !since;
    check("S or T from row 0 to the last rows",
          to_the_last ? refusal(9, TRIED, from) : refusal(10, TRIED, start));
}

static void many_rows(void)
{
    static const int starts[] = { 1, 2, 16, 100, 128, 254 };
    for (size_t i = 0; i < sizeof starts / sizeof starts[0]; i++)
        for (int from = 1; from < MOST_ROWS - 1; from += 23)
            for (int to_the_last = 0; to_the_last < 2; to_the_last++) {
                from_row_0(SINCE, starts[i], from, to_the_last);
                from_row_0(TRIGGER, starts[i], from, to_the_last);
            }
}

void test_closing(void)
{
    by_hand();
    in_other_parts();
    all_marks();
    many_rows();
}
