/*
 * vectors.c: worked examples from the papers, laid out as rules and plans. The
 * marks were found by hand; row 0 comes first.
 */
#include "../support/examples.h"
#include "expect.h"

#include <string.h>

static struct sheet rule, plan, marks;

/* ---- Building ---- */

static struct term x(int shift)
{
    return reading(0, shift);
}

static void less(int part, struct term left, struct term right)
{
    write_comparison(&rule, part, LESS, left, right);
}

static void equal(int part, struct term left, struct term right)
{
    write_comparison(&rule, part, EQUAL, left, right);
}

static void unary(int part, enum kind kind, int a)
{
    write_unary(&rule, part, kind, a);
}

static void binary(int part, enum kind kind, int a, int b)
{
    write_binary(&rule, part, kind, a, b);
}

/* A plan with no drift: the readings row after row. */
static void still_plan(int channels, int start, int cycle, const int32_t *readings)
{
    start_plan(&plan, channels, start, cycle);
    for (int row = 0; row < start + cycle; row++)
        for (int channel = 0; channel < channels; channel++)
            write_reading(&plan, row, channel, readings[row * channels + channel]);
}

/* ---- Asking ---- */

/* Are the published truth of a part and its marks by hand the same? */
static bool marked(int part, const char *by_hand)
{
    for (int row = 0; by_hand[row]; row++)
        if (*mark_byte(&marks, part, row) != (by_hand[row] == '1'))
            return false;
    return strlen(by_hand) == (size_t)truth_space.plan.rows;
}

static void find_marks(void)
{
    write_true_marks_of(&marks, &truth_space, &rule, &plan);
}

static void answers(const char *name, uint64_t answer)
{
    expect_check(name, &rule, &plan, &marks, answer);
}

/* ---- The vectors ---- */

static void v1_term_before_the_run(void)
{
    start_rule(&rule, 1, 1);
    equal(0, x(-1), x(-1));
    still_plan(1, 1, 1, (int32_t[]){ 5, 5 });
    find_marks();
    expect("V1 marks", marked(0, "01"));
    answers("V1 Yx = Yx, P 1", 0);
    still_plan(1, 0, 1, (int32_t[]){ 5 });
    find_marks();
    answers("V1 Yx = Yx, P 0", refusal(10, 0, 0));
}

static void v2_no_trichotomy_before_the_run(void)
{
    start_rule(&rule, 6, 1);
    less(0, x(-1), x(0));
    equal(1, x(-1), x(0));
    less(2, x(0), x(-1));
    binary(3, OR, 0, 1);
    binary(4, OR, 3, 2);
    unary(5, NOT, 4);
    still_plan(1, 1, 1, (int32_t[]){ 5, 5 });
    find_marks();
    expect("V2 marks", marked(0, "00") && marked(1, "01") && marked(2, "00") && marked(5, "10"));
    answers("V2 none of three", 1);
}

/* In a S b, a is needed at t itself. */
static void v3_since_at_its_own_position(void)
{
    static struct sheet by_hand;
    start_rule(&rule, 3, 1);
    equal(0, x(0), constant(2));
    equal(1, x(0), constant(1));
    binary(2, SINCE, 0, 1);
    read_hex(&by_hand, "03 00 01 00 02 02 0B"
                       "| 01 04 00 00 00 00 00 04 02 00 00 00"
                       "| 01 04 00 00 00 00 00 04 01 00 00 00"
                       "| 00 00 01 00 00 00 00 00 00 00 00 00");
    expect("V3 bytes", by_hand.len == rule.len && memcmp(by_hand.at, rule.at, rule.len) == 0);
    still_plan(1, 2, 1, (int32_t[]){ 1, 0, 0 });
    find_marks();
    expect("V3 marks", marked(2, "100"));
    answers("V3 a S b", 1);
    *mark_byte(&marks, 2, 1) = 1;
    answers("V3 a S b without a at t", refusal(9, 2, 1));
}

/* In a T b, a helps at t itself. */
static void v4_trigger_at_its_own_position(void)
{
    start_rule(&rule, 4, 1);
    equal(0, x(0), constant(2));
    equal(1, x(0), constant(1));
    unary(2, NOT, 1);
    binary(3, TRIGGER, 0, 2);
    still_plan(1, 2, 1, (int32_t[]){ 1, 2, 0 });
    find_marks();
    expect("V4 marks", marked(3, "011"));
    answers("V4 a T b", 0);
    *mark_byte(&marks, 3, 1) = 0;
    answers("V4 a T b without a at t", refusal(9, 3, 1));
}

static void v5_duals(void)
{
    start_rule(&rule, 13, 1);
    less(0, x(0), constant(2));
    less(1, constant(0), x(0));
    binary(2, RELEASE, 0, 1);
    unary(3, NOT, 0);
    unary(4, NOT, 1);
    binary(5, UNTIL, 3, 4);
    unary(6, NOT, 5);
    binary(7, TRIGGER, 0, 1);
    binary(8, SINCE, 3, 4);
    unary(9, NOT, 8);
    unary(10, WEAK_YESTERDAY, 1);
    unary(11, YESTERDAY, 4);
    unary(12, NOT, 11);
    still_plan(1, 2, 3, (int32_t[]){ 0, 1, 2, 1, 3 });
    find_marks();
    expect("V5 a and b", marked(0, "11010") && marked(1, "01111"));
    expect("V5 R", marked(2, "01111") && marked(6, "01111"));
    expect("V5 T", marked(7, "01111") && marked(9, "01111"));
    expect("V5 Z", marked(10, "10111") && marked(12, "10111"));
    answers("V5 duals", 1);
}

static void v6_always_rising_and_falling(void)
{
    start_rule(&rule, 6, 2);
    less(0, reading(0, 0), reading(0, 1));
    less(1, reading(1, 0), reading(1, 1));
    unary(2, NOT, 1);
    binary(3, AND, 0, 2);
    less(4, constant(1), constant(0));
    binary(5, RELEASE, 4, 3);
    still_plan(2, 0, 1, (int32_t[]){ 0, 0 });
    write_drift(&plan, 0, 0, 1);
    write_drift(&plan, 0, 1, -1);
    find_marks();
    expect("V6 marks", marked(0, "1") && marked(2, "1") && marked(3, "1") && marked(5, "1"));
    answers("V6 G(x < Xx and not y < Xy)", 1);
}

static void v7_rising_meets_falling(void)
{
    start_rule(&rule, 1, 2);
    less(0, reading(0, 0), reading(1, 0));
    still_plan(2, 0, 1, (int32_t[]){ 0, 10 });
    write_drift(&plan, 0, 0, 1);
    write_drift(&plan, 0, 1, -1);
    find_marks();
    expect_judge("V7 judged", &rule, &plan, 0, 0, CHANGES);
    answers("V7 x < y", refusal(10, 0, 0));
}

static void v8_shifted_term_and_yesterday(void)
{
    start_rule(&rule, 3, 2);
    equal(0, reading(0, 0), reading(1, -1));
    equal(1, reading(1, 0), reading(0, 1));
    unary(2, YESTERDAY, 1);
    still_plan(2, 1, 2, (int32_t[]){ 7, 1, 1, 2, 2, 1 });
    find_marks();
    expect("V8 marks", marked(0, "011") && marked(2, "011"));
    answers("V8 x = Yy and Y(y = Xx)", 0);
}

static void v9_late_to_settle(void)
{
    static struct sheet laid_out;
    still_plan(1, 3, 1, (int32_t[]){ 0, 0, 1, 1 });
    laid_out = plan;
    start_rule(&rule, 1, 1);
    equal(0, x(-1), constant(0));
    still_plan(1, 2, 1, (int32_t[]){ 0, 0, 1 });
    find_marks();
    answers("V9 Yx = 0", refusal(10, 0, 2));
    expect_laid_out("V9 Yx = 0, settled", &rule, &plan, &laid_out, 1);
    start_rule(&rule, 2, 1);
    equal(0, x(0), constant(0));
    unary(1, YESTERDAY, 0);
    find_marks();
    answers("V9 Y(x = 0)", refusal(10, 1, 2));
    expect_laid_out("V9 Y(x = 0), settled", &rule, &plan, &laid_out, 1);
}

/* Sorting by swaps of neighbours: channels a1, a2, a3 and p, the pair swapped. */
enum { A1, A2, A3, PAIR };

static void write_sorting_steps(void)
{
    for (int i = 0; i < 3; i++)
        equal(i, reading(PAIR, 0), constant(i));
    for (int i = 0; i < 3; i++)
        equal(3 + i, reading(A1 + i, 1), reading(A1 + i, 0));
    equal(6, reading(A1, 1), reading(A2, 0));
    equal(7, reading(A2, 1), reading(A1, 0));
    equal(8, reading(A2, 1), reading(A3, 0));
    equal(9, reading(A3, 1), reading(A2, 0));
    less(10, reading(A2, 0), reading(A1, 0));
    less(11, reading(A3, 0), reading(A2, 0));
    binary(12, AND, 10, 6); /* p = 1: a1 and a2 are out of order and change places */
    binary(13, AND, 12, 7);
    binary(14, AND, 13, 5);
    unary(15, NOT, 1);
    binary(16, OR, 15, 14);
    binary(17, AND, 11, 8); /* p = 2: a2 and a3 are out of order and change places */
    binary(18, AND, 17, 9);
    binary(19, AND, 18, 3);
    unary(20, NOT, 2);
    binary(21, OR, 20, 19);
    binary(22, AND, 3, 4); /* p = 0: nothing moves */
    binary(23, AND, 22, 5);
    unary(24, NOT, 0);
    binary(25, OR, 24, 23);
    less(26, reading(PAIR, 0), constant(3));
    less(27, reading(PAIR, 0), constant(0));
    unary(28, NOT, 27);
    binary(29, AND, 26, 28);
    binary(30, AND, 16, 21);
    binary(31, AND, 30, 25);
    binary(32, AND, 31, 29);
}

static void v10_sorting(void)
{
    start_rule(&rule, 41, 4);
    write_sorting_steps();
    less(33, constant(1), constant(0));
    binary(34, RELEASE, 33, 32); /* G step */
    unary(35, NOT, 10);
    unary(36, NOT, 11);
    binary(37, AND, 35, 36); /* sorted */
    unary(38, NOT, 33);
    binary(39, UNTIL, 38, 37); /* eventually sorted */
    binary(40, AND, 34, 39);
    still_plan(4, 3, 1, (int32_t[]){ 3, 2, 1, 1, 2, 3, 1, 2, 2, 1, 3, 1, 1, 2, 3, 0 });
    find_marks();
    expect("V10 marks", marked(34, "1111") && marked(37, "0001") && marked(39, "1111"));
    expect("V10 witness", witness_bytes(&marks, 39)[0] == 3);
    answers("V10 sorting", 1);
}

static void v11_low_state(void)
{
    start_rule(&rule, 12, 1);
    equal(0, x(0), constant(0)); /* low */
    equal(1, x(-1), constant(1));
    binary(2, AND, 0, 1); /* from high to low */
    equal(3, x(0), constant(1));
    equal(4, x(-1), constant(0));
    binary(5, AND, 3, 4); /* from low to high */
    binary(6, UNTIL, 0, 5);
    binary(7, SINCE, 6, 2);
    unary(8, NOT, 0);
    binary(9, OR, 8, 7);
    less(10, constant(1), constant(0));
    binary(11, RELEASE, 10, 9);
    still_plan(1, 1, 4, (int32_t[]){ 1, 0, 0, 1, 1 });
    find_marks();
    expect("V11 marks", marked(6, "01110") && marked(7, "01110") && marked(11, "11111"));
    answers("V11 low state", 1);
}

static void v12_response(void)
{
    start_rule(&rule, 11, 4);
    equal(0, reading(2, 0), constant(1));
    equal(1, reading(3, 0), constant(1));
    less(2, reading(0, 1), reading(1, 0));
    binary(3, AND, 2, 1);
    less(4, constant(0), constant(1));
    binary(5, UNTIL, 4, 3);
    unary(6, NOT, 0);
    binary(7, OR, 6, 5);
    less(8, constant(1), constant(0));
    binary(9, RELEASE, 8, 7);
    unary(10, NEXT, 9);
    still_plan(4, 1, 3, (int32_t[]){ 0, 0, 1, 0, 1, 5, 0, 0, 2, 5, 0, 1, 4, 9, 1, 0 });
    find_marks();
    expect("V12 marks", marked(3, "0010") && marked(5, "1111") && marked(9, "1111"));
    expect("V12 witness", witness_bytes(&marks, 5)[0] == 2);
    answers("V12 response", 1);
}

void test_vectors(void)
{
    v1_term_before_the_run();
    v2_no_trichotomy_before_the_run();
    v3_since_at_its_own_position();
    v4_trigger_at_its_own_position();
    v5_duals();
    v6_always_rising_and_falling();
    v7_rising_meets_falling();
    v8_shifted_term_and_yesterday();
    v9_late_to_settle();
    v10_sorting();
    v11_low_state();
    v12_response();
}
