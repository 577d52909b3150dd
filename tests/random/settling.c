/*
 * settling.c: settle by hand: the fewest passes, the rows and readings that are laid
 * out, the edges of 256 rows and of 32 bits, the lengths of the two buffers, and the
 * order of the refusals.
 */
#include "../../include/endless_run.h"
#include "../support/examples.h"
#include "../support/lend.h"
#include "expect.h"

#include <stdio.h>
#include <string.h>

static struct sheet rule, plan, due;

/* ---- Building and asking ---- */

static struct term x(int shift)
{
    return reading(0, shift);
}

/* One comparison as the whole rule. */
static void write_one(int channels, enum kind kind, struct term left, struct term right)
{
    start_rule(&rule, 1, channels);
    write_comparison(&rule, 0, kind, left, right);
}

/* All rows, and the lead-in rows, have this reading and the cycle rows this drift, in
   one channel. */
static void fill_channel(int channel, int32_t reading, int32_t drift)
{
    struct plan p;
    decode_plan(slice_of(&plan), plan.at[0], &p);
    for (int row = -p.lead; row < p.rows; row++) {
        write_reading(&plan, row, channel, reading);
        if (row >= p.start)
            write_drift(&plan, row, channel, drift);
    }
}

static void drifting_plan(int start, int cycle, int32_t reading, int32_t drift)
{
    start_plan(&plan, 1, start, cycle);
    fill_channel(0, reading, drift);
}

static void settle(const char *name, uint64_t answer)
{
    expect_passes(name, &rule, &plan, answer);
}

static const uint64_t none = (uint64_t)15 << 32;

/* ---- The fewest passes where nothing drifts ---- */

/* A part of this kind over itself, so deep, over x = 1 read some positions back. */
static void write_nested(enum kind kind, int depth, int back)
{
    start_rule(&rule, depth + 1, 1);
    write_comparison(&rule, 0, EQUAL, x(-back), constant(1));
    for (int part = 1; part <= depth; part++)
        write_formula(&rule, part, &(struct formula){ .kind = kind, .a = part - 1, .b = part - 1 });
}

/* Rows of another reading before a cycle of one row with reading 1; with another
   reading in the lead-in too, or with 1 there. */
static void write_rows_of_1(int lead, int32_t before, int start)
{
    start_plan_with_lead(&plan, 1, lead, start, 1);
    for (int row = -lead; row < start; row++)
        write_reading(&plan, row, 0, row < 0 ? before : 0);
    write_reading(&plan, start, 0, 1);
}

/* The comparison is false on so many positions from row P on, and then true. Each Y
   makes it one later, and so does each Z where it is false somewhere; S and T add
   nothing on a cycle of one row. */
static uint64_t passes_due(enum kind kind, int depth, int late, int start)
{
    bool is_false = late > 0 || start > 0;
    if (kind == YESTERDAY || (kind == WEAK_YESTERDAY && is_false))
        late += depth;
    return (uint64_t)late;
}

static void nested_in(enum kind kind, int depth, int back)
{
    char name[64];
    write_nested(kind, depth, back);
    for (int lead = 0; lead <= MOST_LEAD; lead++) {
        int seen_late = back > lead ? back - lead : 0;
        snprintf(name, sizeof name, "kind %d, %d deep, %d back, L %d", (int)kind, depth, back,
                 lead);
        write_rows_of_1(lead, 0, 0);
        settle(name, passes_due(kind, depth, back, 0));
        write_rows_of_1(lead, 1, 0);
        settle(name, passes_due(kind, depth, seen_late, 0));
        write_rows_of_1(lead, 1, 3);
        settle(name, passes_due(kind, depth, back, 3));
    }
}

/* 4 and the nesting are needed, and there is room for them or not. */
static void deepest(void)
{
    write_nested(YESTERDAY, 63, 4);
    write_rows_of_1(0, 0, 0);
    settle("63 deep", 67);
    write_rows_of_1(4, 0, 188);
    settle("63 deep, 256 rows", 67);
    write_rows_of_1(0, 0, 189);
    settle("63 deep, 257 rows", none);
}

/* Operators that do not look back stand between those that do. */
static void nested_through_others(void)
{
    start_rule(&rule, 10, 1);
    write_comparison(&rule, 0, EQUAL, constant(1), x(-4));
    write_unary(&rule, 1, YESTERDAY, 0);
    write_unary(&rule, 2, NOT, 1);
    write_unary(&rule, 3, WEAK_YESTERDAY, 2);
    write_unary(&rule, 4, NEXT, 3);
    write_binary(&rule, 5, AND, 3, 3);
    write_binary(&rule, 6, OR, 4, 5);
    write_unary(&rule, 7, YESTERDAY, 6);
    write_binary(&rule, 8, UNTIL, 7, 7);
    write_binary(&rule, 9, RELEASE, 8, 8);
    write_rows_of_1(0, 0, 0);
    settle("nested through others", 7);
    write_comparison(&rule, 0, EQUAL, x(0), x(0));
    settle("nested through others, no shift", 3);
}

static void fewest_of_still_plans(void)
{
    static const int depths[] = { 0, 1, 2, 3, 7, 20 };
    for (int kind = YESTERDAY; kind <= TRIGGER; kind++)
        for (int i = 0; i < 6; i++)
            for (int back = 0; back <= 4; back++)
                nested_in((enum kind)kind, depths[i], back);
    deepest();
    nested_through_others();
}

/* A part of this kind over x = 1 and y = 1, on the rows that the bits give: what it
   needs is 1 pass at most, since both comparisons close. */
static void all_rows(enum kind kind, int start)
{
    bool right = true;
    start_rule(&rule, 3, 2);
    write_comparison(&rule, 0, EQUAL, x(0), constant(1));
    write_comparison(&rule, 1, EQUAL, reading(1, 0), constant(1));
    write_formula(&rule, 2, &(struct formula){ .kind = kind, .a = 0, .b = 1 });
    for (int bits = 0; bits < 64; bits++) {
        start_plan(&plan, 2, start, 3 - start);
        for (int i = 0; i < 6; i++)
            write_reading(&plan, i / 2, i % 2, bits >> i & 1);
        resize(&due, table_length(3, 3));
        bool closes = endless_run_make(rule.at, rule.len, plan.at, plan.len, due.at, due.len) <= 1;
        right &= expect_passes("rows of 0 and 1", &rule, &plan, closes ? 0 : 1);
    }
    expect("all rows of 0 and 1", right);
}

/* ---- Drifts ---- */

static void crossing(const char *name, int start, int cycle, int passes, int most)
{
    uint64_t answer = passes <= most ? (uint64_t)passes : none;
    drifting_plan(start, cycle, 0, 1);
    write_one(1, LESS, x(0), constant(passes));
    settle(name, answer);
    write_one(1, EQUAL, constant(passes - 1), x(0));
    settle(name, answer);
    drifting_plan(start, cycle, 0, -1);
    write_one(1, LESS, constant(-passes), x(0));
    settle(name, answer);
}

static void crossings(void)
{
    static const int passes[] = { 1, 2, 3, 4, 5, 9, 100, 200, 254, 255, 256, 257, 300 };
    for (int i = 0; i < 13; i++) {
        crossing("C 1, P 0", 0, 1, passes[i], 255);
        crossing("C 1, P 1", 1, 1, passes[i], 254);
        crossing("C 1, P 55", 55, 1, passes[i], 200);
    }
    for (int more = -2; more <= 1; more++) {
        crossing("C 2, P 0", 0, 2, 127 + more, 127);
        crossing("C 2, P 1", 1, 2, 126 + more, 126);
        crossing("C 7, P 4", 4, 7, 35 + more, 35);
        crossing("C 50, P 6", 6, 50, 4 + more, 4);
    }
    crossing("C 128, P 0", 0, 128, 1, 1);
    crossing("C 128, P 0", 0, 128, 2, 1);
    crossing("C 128, P 1", 1, 128, 1, 0);
    crossing("C 256", 0, 256, 1, 0);
    crossing("P 255", 255, 1, 1, 0);
    crossing("the last pass there is", 0, 1, 1 << 30, 255);
}

/* What drifts and is alike on all passes needs none. */
static void alike_on_all_passes(void)
{
    drifting_plan(0, 1, 0, 3);
    write_one(1, EQUAL, x(0), constant(10));
    settle("stepped over", 0);
    write_one(1, EQUAL, x(0), constant(9));
    settle("met", 4);
    write_one(1, LESS, x(0), x(1));
    settle("x < X x", 0);
    write_one(1, LESS, x(-1), x(0));
    settle("Y x < x", 1);
    drifting_plan(0, 1, INT32_MAX, 1);
    write_one(1, LESS, x(0), x(1));
    settle("x < X x from the largest reading", 0);
    write_one(1, LESS, x(0), constant(0));
    settle("x < 0 from the largest reading", 0);
    drifting_plan(0, 1, INT32_MIN, INT32_MIN);
    write_one(1, LESS, constant(0), x(0));
    settle("0 < x from the least reading", 0);
}

/* ---- 32 bits ---- */

/* The rule looks at channel 0 and needs so many passes; another channel has room for
   some, on one of the cycle rows. */
static void room_in(const char *name, int channel, int row, int32_t reading, int32_t drift,
                    int room)
{
    for (int passes = room > 2 ? room - 2 : 1; passes <= room + 2; passes++) {
        start_plan_with_lead(&plan, 3, 1, 1, 2);
        fill_channel(0, 0, 1);
        write_reading(&plan, row, channel, reading);
        write_drift(&plan, row, channel, drift);
        write_one(3, LESS, x(0), constant(passes));
        settle(name, passes <= room ? (uint64_t)passes : none);
    }
}

static void room_for_readings(void)
{
    for (int channel = 1; channel < 3; channel++)
        for (int row = 1; row < 3; row++) {
            room_in("up to the largest", channel, row, INT32_MAX - 5, 1, 5);
            room_in("up beside the largest", channel, row, INT32_MAX - 14, 3, 4);
            room_in("down to the least", channel, row, INT32_MIN + 5, -1, 5);
            room_in("down beside the least", channel, row, INT32_MIN + 14, -3, 4);
            room_in("by the largest drift", channel, row, 0, INT32_MAX, 1);
            room_in("by the least drift", channel, row, 0, INT32_MIN, 1);
            room_in("from the largest to the least", channel, row, INT32_MAX, INT32_MIN, 1);
            room_in("from the least to the largest", channel, row, INT32_MIN, INT32_MAX, 2);
            room_in("no step", channel, row, INT32_MAX, 1, 0);
            room_in("no step down", channel, row, INT32_MIN, -1, 0);
            room_in("stays", channel, row, INT32_MAX, 0, 126);
        }
}

/* The same on the channel that the rule reads. */
static void room_in_what_is_read(void)
{
    for (int pass = 0; pass <= 5; pass++) {
        drifting_plan(0, 1, INT32_MAX - 5, 1);
        write_one(1, LESS, x(0), constant(INT32_MAX - 5 + pass));
        settle("up to the largest, read", (uint64_t)pass);
        write_one(1, EQUAL, x(0), constant(INT32_MAX - 5 + pass));
        settle("equal to the largest", pass < 5 ? (uint64_t)pass + 1 : none);
        drifting_plan(0, 1, INT32_MIN + 5, -1);
        write_one(1, LESS, constant(INT32_MIN + 5 - pass), x(0));
        settle("down to the least, read", (uint64_t)pass);
        write_one(1, EQUAL, x(0), constant(INT32_MIN + 5 - pass));
        settle("equal to the least", pass < 5 ? (uint64_t)pass + 1 : none);
    }
    start_plan(&plan, 2, 0, 1);
    fill_channel(0, INT32_MAX, 2);
    fill_channel(1, INT32_MAX - 4, 3);
    write_one(2, LESS, reading(1, 0), x(0));
    settle("passed beyond 32 bits", none);
    fill_channel(0, 0, 2);
    fill_channel(1, -4, 3);
    settle("passed within 32 bits", 4);
}

/* ---- Parts that nobody names, and channels that nobody reads ---- */

static void unnamed(void)
{
    for (int passes = 0; passes <= 300; passes += 60) {
        drifting_plan(0, 1, 0, 1);
        start_rule(&rule, 3, 1);
        write_comparison(&rule, 0, LESS, x(0), constant(passes));
        write_comparison(&rule, 1, LESS, x(0), constant(0));
        write_unary(&rule, 2, NOT, 1);
        settle("a comparison that nobody names", passes < 256 ? (uint64_t)passes : none);
    }
    write_nested(YESTERDAY, 5, 4);
    write_comparison(&rule, 5, LESS, constant(0), constant(1));
    write_rows_of_1(0, 0, 0);
    settle("nested parts that nobody names", 8);
}

/* ---- What is laid out ---- */

/* Two lead-in rows, one start row and two cycle rows of two channels. Part 0 is true of
   the second channel on row 2, and so on this row on passes 0 and 1. */
static void by_hand(void)
{
    static const int32_t readings[5][2] = { { 7, -7 }, { 9, -9 }, { 1, 2 }, { 10, 20 },
                                            { 30, 40 } };
    static const int32_t later[4][2] = { { 11, 18 }, { 33, 36 }, { 12, 16 }, { 36, 32 } };
    start_plan_with_lead(&plan, 2, 2, 1, 2);
    start_plan_with_lead(&due, 2, 2, 5, 2);
    for (int channel = 0; channel < 2; channel++) {
        for (int row = -2; row < 3; row++) {
            write_reading(&plan, row, channel, readings[row + 2][channel]);
            write_reading(&due, row, channel, readings[row + 2][channel]);
        }
        for (int row = 3; row < 7; row++)
            write_reading(&due, row, channel, later[row - 3][channel]);
    }
    for (int i = 0; i < 2; i++) {
        struct sheet *sheet = i == 0 ? &plan : &due;
        int cycle = i == 0 ? 1 : 5;
        write_drift(sheet, cycle, 0, 1);
        write_drift(sheet, cycle, 1, -2);
        write_drift(sheet, cycle + 1, 0, 3);
        write_drift(sheet, cycle + 1, 1, -4);
    }
    write_one(2, LESS, constant(35), reading(1, 0));
    expect_laid_out("two passes by hand", &rule, &plan, &due, 2);
    write_one(2, LESS, reading(1, 0), constant(100));
    expect_laid_out("no pass is a copy", &rule, &plan, &plan, 0);
}

/* Plan A and the plan that it becomes, as bytes. */
static void plan_a(void)
{
    start_rule(&rule, 2, 1);
    write_comparison(&rule, 0, LESS, x(0), constant(25));
    write_unary(&rule, 1, YESTERDAY, 0);
    read_hex(&plan, "01 00 01 00 02 00 00 00 | 00 00 00 00 | 0A 00 00 00 14 00 00 00 1E 00 00 00"
                    "| 00 00 00 00 00 00 00 00 00 00 00 00");
    read_hex(&due, "01 00 03 00 02 00 00 00 | 00 00 00 00"
                   "| 0A 00 00 00 14 00 00 00 1E 00 00 00 14 00 00 00 1E 00 00 00"
                   "| 00 00 00 00 00 00 00 00 00 00 00 00 00 00 00 00 00 00 00 00");
    expect_laid_out("plan A", &rule, &plan, &due, 1);
    write_unary(&rule, 1, WEAK_YESTERDAY, 0);
    expect_laid_out("plan A, Z", &rule, &plan, &due, 1);
    expect_laid_out("plan A laid out", &rule, &due, &due, 0);
    write_unary(&rule, 1, NEXT, 0);
    expect_laid_out("plan A, X", &rule, &plan, &plan, 0);
}

/* Plan D, whose row 4 drifts by -5 and takes part 0 across its limit on pass 3, and then
   Y of it is one pass late. */
static void plan_d(void)
{
    static const int32_t readings[] = { 20, 20, 10, 20, 30 };
    start_rule(&rule, 5, 1);
    write_comparison(&rule, 0, LESS, constant(15), x(0));
    write_comparison(&rule, 1, EQUAL, x(0), constant(20));
    write_binary(&rule, 2, UNTIL, 0, 1);
    write_unary(&rule, 3, YESTERDAY, 0);
    write_binary(&rule, 4, RELEASE, 3, 1);
    start_plan(&plan, 1, 1, 4);
    for (int row = 0; row < 5; row++)
        write_reading(&plan, row, 0, readings[row]);
    write_drift(&plan, 4, 0, 5);
    settle("plan D", 0);
    write_drift(&plan, 4, 0, -5);
    settle("plan D falling", 4);
    write_unary(&rule, 3, YESTERDAY, 1);
    write_drift(&plan, 4, 0, 5);
    settle("plan D, Y 1", 1);
}

/* The longest plan, as a copy and with the last pass that there is room for; the whole
   of the buffer is written. */
static void longest(void)
{
    write_one(8, LESS, constant(0), constant(1));
    start_plan_with_lead(&plan, 8, 4, 0, 256);
    for (int row = -4; row < 256; row++)
        write_reading(&plan, row, 7, row);
    expect_laid_out("longest plan", &rule, &plan, &plan, 0);
    write_one(8, LESS, x(0), constant(1));
    start_plan_with_lead(&plan, 8, 4, 0, 128);
    start_plan_with_lead(&due, 8, 4, 128, 128);
    for (int row = -4; row < 128; row++)
        for (int channel = 0; channel < 8; channel++) {
            int32_t read = channel == 0 ? 0 : 1000 * row + channel, drift = channel == 0;
            write_reading(&plan, row, channel, read);
            write_reading(&due, row, channel, read);
            if (row < 0)
                continue;
            write_reading(&due, row + 128, channel, read + drift);
            write_drift(&plan, row, channel, drift);
            write_drift(&due, row + 128, channel, drift);
        }
    expect_laid_out("256 rows of 8 channels", &rule, &plan, &due, 1);
}

/* ---- Refusal 13 ---- */

static const size_t plan_bytes = ENDLESS_RUN_LAID_OUT_LENGTH;
static const size_t scratch_bytes = ENDLESS_RUN_SETTLE_SCRATCH_LENGTH;
static const size_t older_scratch = 16516; /* before version 8 */

static void settle_in(const char *name, size_t laid_out_len, size_t scratch_len, uint64_t answer)
{
    static struct sheet laid_out, scratch;
    resize(&laid_out, laid_out_len);
    resize(&scratch, scratch_len);
    expect_settle(name, &rule, &plan, &laid_out, &scratch, answer);
}

/* The rule and the plan as they stand, in buffers of other lengths. */
static void other_lengths(const char *name)
{
    uint64_t thirteen = refusal(13, 0, 0);
    size_t wrong[] = { 0, 1, 8, endless_run_plan_length(plan.at), plan_bytes - 1, plan_bytes + 1,
                       scratch_bytes - 1, scratch_bytes + 1, 2 * scratch_bytes, 16648,
                       older_scratch - 1, older_scratch, SHEET_LONGEST };
    size_t count = sizeof wrong / sizeof wrong[0];
    for (size_t i = 0; i < count; i++) {
        settle_in(name, wrong[i], scratch_bytes, thirteen);
        settle_in(name, plan_bytes, wrong[i], thirteen);
        settle_in(name, wrong[i], wrong[i], thirteen);
        settle_in(name, wrong[i], wrong[count - 1 - i], thirteen);
    }
    settle_in(name, scratch_bytes, plan_bytes, thirteen);
    settle_in(name, plan_bytes, plan_bytes, thirteen);
    settle_in(name, scratch_bytes, scratch_bytes, thirteen);
    settle_in(name, older_scratch, older_scratch, thirteen);
    for (int times = 0; times < 8; times++) { /* by null pointers and by others */
        settle_in("no buffer for the plan", 0, scratch_bytes, thirteen);
        settle_in("no scratch", plan_bytes, 0, thirteen);
        settle_in("no buffers", 0, 0, thirteen);
    }
}

/* A length that is the right one in its low 16 bits. */
static void length_that_wraps(size_t more_laid_out, size_t more_scratch)
{
    static uint8_t laid_out[65536 + SHEET_LONGEST], scratch[sizeof laid_out];
    static uint8_t before[sizeof laid_out];
    for (size_t i = 0; i < sizeof before; i++)
        laid_out[i] = scratch[i] = before[i] = (uint8_t)(1 + i % 251);
    struct asked asked =
        ask_settle(slice_of(&rule), slice_of(&plan), laid_out, plan_bytes + more_laid_out, scratch,
                   scratch_bytes + more_scratch);
    expect("length that wraps at 16 bits",
           asked.answer == refusal(13, 0, 0) && asked.unchanged &&
               memcmp(laid_out, before, sizeof before) == 0 &&
               memcmp(scratch, before, sizeof before) == 0);
}

static void lengths(void)
{
    drifting_plan(0, 1, 0, 1);
    write_one(1, LESS, x(0), constant(2));
    settle_in("right lengths, settles", plan_bytes, scratch_bytes, 2);
    other_lengths("other length, settles");
    length_that_wraps(65536, 0);
    length_that_wraps(0, 65536);
    length_that_wraps(65536, 65536);
    write_one(1, LESS, x(0), constant(1000));
    settle_in("right lengths, does not settle", plan_bytes, scratch_bytes, none);
    other_lengths("13 before 15");
    write_one(1, LESS, x(0), constant(0));
    settle_in("right lengths, closes", plan_bytes, scratch_bytes, 0);
    other_lengths("other length, closes");
    drifting_plan(0, 1, 0, 0);
    other_lengths("other length, nothing drifts");
}

/* ---- The order ---- */

/* The same in no buffers, and in a scratch of the older length. */
static void settle_in_wrong(const char *name, uint64_t answer)
{
    settle_in(name, 0, 0, answer);
    settle_in(name, plan_bytes, older_scratch, answer);
}

/* In buffers of the right lengths too. */
static void settle_in_any(const char *name, uint64_t answer)
{
    settle_in_wrong(name, answer);
    settle_in(name, plan_bytes, scratch_bytes, answer);
}

/* Everything wrong at once, then put right one after the other. */
static void order(void)
{
    static const char *const name = "order of the refusals of settle";
    static struct sheet right_rule;
    start_rule(&rule, 2, 1);
    write_comparison(&rule, 0, LESS, x(0), constant(1000));
    write_unary(&rule, 1, YESTERDAY, 0);
    right_rule = rule;
    resize(&rule, 3);
    start_plan(&plan, 1, 0, 1);
    resize(&plan, 7);
    settle_in_any(name, refusal(1, 0, 0));
    rule = right_rule;
    *kind_byte(&rule, 1) = 15;
    operand_bytes(&rule, 0)[0] = 2;
    settle_in_any(name, refusal(2, 1, 0));
    *kind_byte(&rule, 1) = YESTERDAY;
    settle_in_any(name, refusal(3, 0, 0));
    rule = right_rule;
    settle_in_any(name, refusal(4, 0, 0));
    start_plan_with_lead(&plan, 2, 1, 1, 1);
    write_drift(&plan, -1, 0, 1);
    settle_in_any(name, refusal(5, 0, 0));
    start_plan_with_lead(&plan, 1, 1, 2, 1);
    write_drift(&plan, -1, 0, 1);
    settle_in_any(name, refusal(6, 0, 0));
    write_drift(&plan, -1, 0, 0);
    write_drift(&plan, 1, 0, 1);
    settle_in_any(name, refusal(6, 0, 1));
    write_drift(&plan, 1, 0, 0);
    write_drift(&plan, 2, 0, 1);
    settle_in_wrong(name, refusal(13, 0, 0));
    settle_in(name, plan_bytes, scratch_bytes - 1, refusal(13, 0, 0));
    settle_in(name, plan_bytes, scratch_bytes, none);
    write_drift(&plan, 2, 0, 100);
    settle_in(name, plan_bytes, scratch_bytes, 11);
}

/* All slices null. */
static void nothing_lent(void)
{
    expect("no rule", endless_run_settle(NULL, 0, NULL, 0, NULL, 0, NULL, 0) == refusal(1, 0, 0));
    write_one(1, LESS, x(0), constant(0));
    expect("no plan", endless_run_settle(rule.at, rule.len, NULL, 0, NULL, 0, NULL, 0) ==
                          refusal(4, 0, 0));
    start_plan(&plan, 1, 0, 1);
    expect("no buffers", endless_run_settle(rule.at, rule.len, plan.at, plan.len, NULL, 0, NULL,
                                            0) == refusal(13, 0, 0));
}

void test_settling(void)
{
    fewest_of_still_plans();
    for (int kind = YESTERDAY; kind <= TRIGGER; kind++)
        for (int start = 0; start < 3; start++)
            all_rows((enum kind)kind, start);
    crossings();
    alike_on_all_passes();
    room_for_readings();
    room_in_what_is_read();
    unnamed();
    by_hand();
    plan_a();
    plan_d();
    longest();
    lengths();
    order();
    nothing_lent();
}
