/*
 * making.c: make by hand: the buffer's length, the lowest witnesses, the parts and
 * rows for which no table can be made, the order of the refusals, and all tables
 * of small rules.
 *
 * The rule of the tests is one operator over x = 1 and y = 1, and the rows of the
 * plan are written as strings of 0 and 1, one for x and one for y.
 */
#include "../../include/endless_run.h"
#include "../support/lend.h"
#include "expect.h"

#include <string.h>

enum { X_IS_1, Y_IS_1, WHOLE };

static struct sheet rule, plan, marks, buffer;

/* ---- Building ---- */

static void write_operator(enum kind kind)
{
    start_rule(&rule, 3, 2);
    write_comparison(&rule, X_IS_1, EQUAL, reading(0, 0), constant(1));
    write_comparison(&rule, Y_IS_1, EQUAL, reading(1, 0), constant(1));
    write_formula(&rule, WHOLE, &(struct formula){ .kind = kind, .a = X_IS_1, .b = Y_IS_1 });
}

static void write_rows(int start, const char *x, const char *y)
{
    int rows = (int)strlen(x);
    start_plan(&plan, 2, start, rows - start);
    for (int row = 0; row < rows; row++) {
        write_reading(&plan, row, 0, x[row] - '0');
        write_reading(&plan, row, 1, y[row] - '0');
    }
}

static void mark_part(int part, const char *of_rows)
{
    for (int row = 0; of_rows[row]; row++)
        *mark_byte(&marks, part, row) = of_rows[row] == '1';
}

/* ---- Asking ---- */

/* Make, in a buffer of this length. */
static void make_in(const char *name, size_t len, uint64_t answer)
{
    resize(&buffer, len);
    expect_make(name, &rule, &plan, &buffer, answer);
}

static size_t right_length(void)
{
    struct rule r;
    struct plan p;
    decode_rule(slice_of(&rule), &r);
    decode_plan(slice_of(&plan), r.channels, &p);
    return table_length(r.parts, p.rows);
}

static void make_none(const char *name, int part, int row)
{
    make_in(name, right_length(), refusal(14, part, row));
}

/* The operator on these rows has these marks and this witness. */
static void make_operator(const char *name, enum kind kind, int start, const char *x, const char *y,
                          const char *whole, unsigned witness)
{
    write_operator(kind);
    write_rows(start, x, y);
    start_marks(&marks, 3, (int)strlen(x));
    mark_part(X_IS_1, x);
    mark_part(Y_IS_1, y);
    mark_part(WHOLE, whole);
    put2(witness_bytes(&marks, WHOLE), witness);
    expect_made(name, &rule, &plan, &marks, whole[0] == '1');
}

/* ---- Refusal 13 ---- */

/* The rule and the plan as they stand, in buffers of other lengths. */
static void other_lengths(const char *name, size_t right)
{
    uint64_t thirteen = refusal(13, 0, 0);
    size_t wrong[] = { 1, 2, 3, 4, right - 6, right - 4, right - 2, right - 1, right + 1, right + 2,
                       2 * right, SHEET_LONGEST };
    for (size_t i = 0; i < sizeof wrong / sizeof wrong[0]; i++)
        make_in(name, wrong[i], thirteen);
    for (int times = 0; times < 8; times++) /* by a null pointer and by others */
        make_in("empty buffer", 0, thirteen);
    if (right != ENDLESS_RUN_LONGEST_MARKS)
        make_in("buffer for the largest sizes", ENDLESS_RUN_LONGEST_MARKS, thirteen);
}

/* A buffer whose length is the right one in its low 16 bits. */
static void length_that_wraps(size_t right)
{
    static uint8_t lent[65536 + SHEET_LONGEST], after[sizeof lent];
    for (size_t i = 0; i < sizeof lent; i++)
        lent[i] = after[i] = (uint8_t)(i % 251);
    struct asked asked = ask_make(slice_of(&rule), slice_of(&plan), after, 65536 + right);
    expect("length that wraps at 16 bits", asked.answer == refusal(13, 0, 0) && asked.unchanged &&
                                               memcmp(after, lent, sizeof lent) == 0);
}

static void lengths(void)
{
    write_operator(SINCE);
    write_rows(1, "111", "100");
    make_in("right length, made", 19, 1);
    other_lengths("other length, closes", 19);
    length_that_wraps(19);
    write_rows(1, "011", "001");
    make_in("right length, does not close", 19, refusal(14, WHOLE, 1));
    other_lengths("13 before 14", 19);
    length_that_wraps(19);

    start_rule(&rule, 64, 8);
    start_plan_with_lead(&plan, 8, 4, 255, 1);
    make_in("largest sizes", ENDLESS_RUN_LONGEST_MARKS, 0);
    other_lengths("other length, largest sizes", ENDLESS_RUN_LONGEST_MARKS);
    start_plan(&plan, 8, 255, 1);
    make_in("largest sizes but L", ENDLESS_RUN_LONGEST_MARKS, 0);
    start_rule(&rule, 1, 1);
    start_plan(&plan, 1, 0, 1);
    make_in("smallest sizes", 7, 0);
    other_lengths("other length, smallest sizes", 7);
    start_plan_with_lead(&plan, 1, 4, 0, 1);
    make_in("one row and four lead-in rows", 7, 0);
    other_lengths("other length, lead-in rows have no marks", 7);
    make_in("room for marks of lead-in rows", 11, refusal(13, 0, 0));
}

/* ---- Witnesses ---- */

static void witnesses(void)
{
    make_operator("U, every cycle row serves", UNTIL, 2, "11111", "00111", "11111", 2);
    make_operator("U, start rows as well", UNTIL, 2, "11111", "11111", "11111", 2);
    make_operator("U, the last row alone", UNTIL, 2, "11111", "11001", "11111", 4);
    make_operator("U, the lower of two", UNTIL, 1, "11111", "10101", "11111", 2);
    make_operator("U, P 0", UNTIL, 0, "11111", "01010", "11111", 1);
    make_operator("U, row 0", UNTIL, 0, "1", "1", "1", 0);
    make_operator("U, none on the cycle", UNTIL, 2, "11111", "11000", "11000", NO_WITNESS);
    make_operator("U, 0 on the last row", UNTIL, 1, "00000", "11010", "11010", NO_WITNESS);
    make_operator("R, every cycle row serves", RELEASE, 2, "00000", "11000", "00000", 2);
    make_operator("R, start rows as well", RELEASE, 2, "00000", "00000", "00000", 2);
    make_operator("R, the last row alone", RELEASE, 2, "00000", "00110", "00000", 4);
    make_operator("R, the lower of two", RELEASE, 1, "00000", "01010", "00000", 2);
    make_operator("R, P 0", RELEASE, 0, "00000", "10101", "00000", 1);
    make_operator("R, row 0", RELEASE, 0, "0", "0", "0", 0);
    make_operator("R, none on the cycle", RELEASE, 2, "00000", "00111", "00111", NO_WITNESS);
    make_operator("R, 1 on the last row", RELEASE, 1, "11111", "00101", "00101", NO_WITNESS);
}

/* Marks that meet the equations and are false are not made. */
static void fixpoints(void)
{
    make_operator("U that never comes", UNTIL, 0, "1", "0", "0", NO_WITNESS);
    make_operator("U that came on the start", UNTIL, 1, "111", "100", "100", NO_WITNESS);
    make_operator("U that goes on over the end", UNTIL, 1, "0111", "0010", "0111", 2);
    make_operator("U that ends at the end", UNTIL, 1, "0110", "0010", "0110", NO_WITNESS);
    make_operator("R that never fails", RELEASE, 0, "0", "1", "1", NO_WITNESS);
    make_operator("R that failed on the start", RELEASE, 1, "000", "011", "011", NO_WITNESS);
    make_operator("R that fails over the end", RELEASE, 1, "1000", "1101", "1000", 2);
    make_operator("R that ends at the end", RELEASE, 1, "1001", "1101", "1001", NO_WITNESS);
}

/* ---- Refusal 14 ---- */

/* Parts that do not close on row P, where x is 1 on the last row alone and y on
   the whole cycle: what is so before row P is not so before it comes again. */
static const struct formula open_parts[] = {
    { .kind = LESS, .left = { true, -1, 0 }, .right = { false, 0, 1 } },
    { .kind = EQUAL, .left = { false, 0, 0 }, .right = { true, -1, 0 } },
    { .kind = WINDOW, .left = { true, -1, 0 }, .from = 1, .to = 2 },
    { .kind = YESTERDAY, .a = X_IS_1 },
    { .kind = WEAK_YESTERDAY, .a = X_IS_1 },
    { .kind = SINCE, .a = Y_IS_1, .b = X_IS_1 },
    { .kind = TRIGGER, .a = X_IS_1, .b = Y_IS_1 },
};
enum { OPEN_PARTS = sizeof open_parts / sizeof open_parts[0] };

/* x = 1, y = 1, a part, a part, and the negation of a part as the whole rule. */
static void write_five(const struct formula *second, const struct formula *third, int negated)
{
    start_rule(&rule, 5, 2);
    write_comparison(&rule, X_IS_1, EQUAL, reading(0, 0), constant(1));
    write_comparison(&rule, Y_IS_1, EQUAL, reading(1, 0), constant(1));
    write_formula(&rule, 2, second);
    write_formula(&rule, 3, third);
    write_unary(&rule, 4, NOT, negated);
}

static void open_on_row(int start)
{
    static const struct formula closed = { .kind = NOT, .a = X_IS_1 };
    for (int i = 0; i < OPEN_PARTS; i++) {
        write_five(&open_parts[i], &closed, 3);
        make_none("a part that nobody names", 2, start);
        write_five(&closed, &open_parts[i], 3);
        make_none("a part that the whole rule names", 3, start);
        for (int k = 0; k < OPEN_PARTS; k++) {
            write_five(&open_parts[i], &open_parts[k], 3);
            make_none("the lower of two", 2, start);
        }
    }
    write_five(&closed, &closed, 3);
    make_in("none that does not close", right_length(), 0);
}

/* One comparison of x, as it stands on the plan. */
static void make_comparison(const char *name, enum kind kind, struct term left, struct term right,
                            uint64_t answer)
{
    start_rule(&rule, 1, 2);
    write_comparison(&rule, 0, kind, left, right);
    make_in(name, right_length(), answer);
}

/* From 0 on by some drift, on the cycle rows from one on. */
static void drift_from(int start, int cycle, int first, int32_t drift)
{
    start_plan(&plan, 2, start, cycle);
    for (int row = first; row < start + cycle; row++)
        write_drift(&plan, row, 0, drift);
}

static void no_table(void)
{
    struct term x = reading(0, 0);
    write_rows(1, "001", "011");
    open_on_row(1);
    write_rows(3, "00001", "00011");
    open_on_row(3);

    for (int first = 2; first < 5; first++) {
        drift_from(2, 3, first, 1);
        make_comparison("lowest changing row", LESS, x, constant(1), refusal(14, 0, first));
        make_comparison("lowest changing row", EQUAL, constant(7), x, refusal(14, 0, first));
    }
    make_comparison("changes on a late pass", EQUAL, x, constant(INT32_MAX), refusal(14, 0, 4));
    make_comparison("changes on a late pass", LESS, x, constant(INT32_MAX), refusal(14, 0, 4));
    make_comparison("never reached", EQUAL, x, constant(-1), 0);
    drift_from(0, 1, 0, 3);
    make_comparison("stepped over", EQUAL, x, constant(10), 0);
    make_comparison("met", EQUAL, x, constant(9), refusal(14, 0, 0));
}

/* ---- The order ---- */

/* Everything wrong at once, then put right one after the other. */
static void order(void)
{
    static const char *const name = "order of the refusals of make";
    static struct sheet right_rule, right_plan;
    write_operator(SINCE);
    write_rows(1, "011", "001");
    right_rule = rule;
    right_plan = plan;
    resize(&rule, 3);
    resize(&plan, 7);
    make_in(name, 18, refusal(1, 0, 0));
    rule = right_rule;
    *kind_byte(&rule, 2) = 0;
    operand_bytes(&rule, 1)[0] = 2;
    make_in(name, 18, refusal(2, 2, 0));
    *kind_byte(&rule, 2) = SINCE;
    make_in(name, 18, refusal(3, 1, 0));
    rule = right_rule;
    make_in(name, 18, refusal(4, 0, 0));
    start_plan_with_lead(&plan, 1, 2, 1, 2);
    write_drift(&plan, -2, 0, 1);
    make_in(name, 18, refusal(5, 0, 0));
    start_plan_with_lead(&plan, 2, 2, 1, 2);
    write_drift(&plan, -2, 0, 1);
    make_in(name, 18, refusal(6, 0, 0));
    plan = right_plan;
    write_drift(&plan, 0, 0, 1);
    make_in(name, 18, refusal(6, 0, 0));
    plan = right_plan;
    make_in(name, 18, refusal(13, 0, 0));
    make_in(name, 19, refusal(14, WHOLE, 1));
    write_rows(1, "011", "011");
    make_in(name, 19, 0);
}

/* ---- All tables of small rules ---- */

enum { FEW_ROWS = 3, CELLS = 3 * FEW_ROWS };

/* The lowest witness of the whole rule with which the table as it stands is
   accepted; -1 if there is none. */
static int lowest_accepted(void)
{
    static const int witnesses[] = { 0, 1, 2, NO_WITNESS };
    for (int i = 0; i < 4; i++) {
        put2(witness_bytes(&marks, WHOLE), (unsigned)witnesses[i]);
        if (endless_run_check(rule.at, rule.len, plan.at, plan.len, marks.at, marks.len) <= 1)
            return witnesses[i];
    }
    return -1;
}

/* The table made is the one table of marks that any witness gets accepted, with
   the lowest such; where none is made, there is no such table. */
static bool is_made_of_all(void)
{
    resize(&buffer, table_length(3, FEW_ROWS));
    uint64_t made = endless_run_make(rule.at, rule.len, plan.at, plan.len, buffer.at, buffer.len);
    int accepted = 0;
    for (int bits = 0; bits < 1 << CELLS; bits++) {
        start_marks(&marks, 3, FEW_ROWS);
        for (int cell = 0; cell < CELLS; cell++)
            *mark_byte(&marks, 0, cell) = bits >> cell & 1; /* the marks lie in a row */
        if (lowest_accepted() < 0)
            continue;
        accepted++;
        if (made > 1 || memcmp(marks.at, buffer.at, buffer.len) != 0)
            return false;
    }
    return accepted == (made <= 1);
}

static void all_tables(enum kind kind)
{
    bool right = true;
    write_operator(kind);
    for (int start = 0; start < FEW_ROWS; start++)
        for (int bits = 0; bits < 64; bits++) {
            start_plan(&plan, 2, start, FEW_ROWS - start);
            for (int i = 0; i < 6; i++)
                write_reading(&plan, i / 2, i % 2, bits >> i & 1);
            right &= is_made_of_all();
        }
    expect("all tables of small rules", right);
}

void test_making(void)
{
    lengths();
    witnesses();
    fixpoints();
    no_table();
    order();
    for (int kind = NOT; kind <= TRIGGER; kind++)
        all_tables((enum kind)kind);
}
