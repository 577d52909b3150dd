/*
 * scratch.c: what settle has to keep apart in its scratch, 64 parts on 256 rows; old bytes
 * in it; and buffers at any address.
 *
 * In a chain the number of passes hangs on every mark of two parts, on every row. a is true
 * from one row to the next, and b where the chain hangs. a S b carries b on to row P - 1,
 * and a is false on row W - 1: so on row P it is true on pass 0 and false later, and one
 * pass is due. Where a mark of the chain is missing, S is false on row P too, and none is
 * due. T is the same of the negations. a U b carries b back over the cycle to row P - 1, and
 * a is false on row W - 1: so Y of it does not close. R is the same of the negations.
 *
 * The other parts are always true, or always false, and nobody names them. Whoever takes a
 * mark of theirs for one of the chain, or a mark of one row for that of another, or a mark
 * that was there before, answers another number of passes. With the pass laid out there are
 * 256 rows.
 */
#include "../../include/endless_run.h"
#include "../support/lend.h"
#include "expect.h"

#include <stdio.h>
#include <string.h>

static struct sheet rule, plan;

static const uint64_t none = (uint64_t)15 << 32;

/* ---- Chains ---- */

/* The kind that makes the chain, the parts a, b and the chain itself, and what the others
   are. */
struct chain {
    enum kind kind;
    int a, b, top;
    bool others;
};

/* A chain of U or R is long in the cycle, one of S or T before it. */
static bool is_in_cycle(enum kind kind)
{
    return kind == UNTIL || kind == RELEASE;
}

/* The reading is 0 where a and b are false, 1 where a is true, 2 where both are. */
static void write_chain(struct chain c)
{
    bool negated = c.kind == TRIGGER || c.kind == RELEASE;
    struct term x = reading(0, 0);
    start_rule(&rule, MOST_PARTS, 1);
    for (int part = 0; part < MOST_PARTS; part++)
        write_comparison(&rule, part, LESS, c.others ? constant(-1) : x,
                         c.others ? x : constant(-1));
    for (int i = 0; i < 2; i++)
        write_comparison(&rule, i == 0 ? c.a : c.b, LESS, negated ? x : constant(i),
                         negated ? constant(i + 1) : x);
    write_binary(&rule, c.top, c.kind, c.a, c.b);
    if (is_in_cycle(c.kind))
        write_unary(&rule, c.top + 1, YESTERDAY, c.top);
}

/* The rows of a chain: the one where it hangs, and the last one that it is carried to. */
struct rows {
    int start, cycle, first, last;
};

static struct rows rows_of(enum kind kind)
{
    if (is_in_cycle(kind))
        return (struct rows){ 2, 127, 127, 1 };
    return (struct rows){ MOST_ROWS - 4, 2, 0, MOST_ROWS - 5 };
}

/* The chain hangs at this row, and is carried to its last one. */
static void write_chain_rows(struct rows r, int from)
{
    int step = r.last > r.first ? 1 : -1;
    start_plan(&plan, 1, r.start, r.cycle);
    write_reading(&plan, from, 0, 2);
    for (int row = from; row != r.last; row += step)
        write_reading(&plan, row + step, 0, 1);
    if (step > 0) /* on row P too, and no further */
        write_reading(&plan, r.start, 0, 1);
}

static void settle_chain(const char *what, struct chain c, int number, uint64_t answer)
{
    char name[96];
    snprintf(name, sizeof name, "%s %d: kind %d of parts %d and %d, part %d, others %d", what,
             number, (int)c.kind, c.a, c.b, c.top, c.others);
    expect_passes(name, &rule, &plan, answer);
}

/* ---- Parts ---- */

/* The chain at its longest, as one of these parts. */
static void chain_of_parts(struct chain c)
{
    struct rows r = rows_of(c.kind);
    write_chain(c);
    write_chain_rows(r, r.first);
    settle_chain("chain of rows", c, MOST_ROWS, 1);
}

/* Every part below the highest as a and as b, beside one another and far apart; and every
   part as the chain. */
static void chains_of_all_parts(enum kind kind, bool others)
{
    int highest = is_in_cycle(kind) ? MOST_PARTS - 2 : MOST_PARTS - 1;
    for (int a = 0; a < highest; a++) {
        chain_of_parts((struct chain){ kind, a, (a + 1) % highest, highest, others });
        chain_of_parts((struct chain){ kind, a, (a + 32) % highest, highest, others });
    }
    for (int top = 2; top < highest; top++)
        chain_of_parts((struct chain){ kind, top - 1, top - 2, top, others });
}

/* ---- Rows ---- */

/* Some parts, others on each row. */
static struct chain parts_by_row(enum kind kind, int row, bool others)
{
    int highest = is_in_cycle(kind) ? MOST_PARTS - 2 : MOST_PARTS - 1;
    return (struct chain){ kind, row % highest, (row + 1 + row / highest) % highest, highest,
                           others };
}

/* The chain hangs at this row: where the others are false, nothing else carries it. */
static void chain_from(enum kind kind, int row)
{
    struct chain c = parts_by_row(kind, row, false);
    write_chain(c);
    write_chain_rows(rows_of(kind), row);
    settle_chain("chain from row", c, row, 1);
}

/* The chain at its longest lacks a on this row. */
static void chain_without(enum kind kind, int row)
{
    struct chain c = parts_by_row(kind, row, true);
    struct rows r = rows_of(kind);
    write_chain(c);
    write_chain_rows(r, r.first);
    write_reading(&plan, row, 0, 0);
    settle_chain("chain without row", c, row, 0);
}

static void chains_of_all_rows(enum kind kind)
{
    struct rows r = rows_of(kind);
    int low = r.first < r.last ? r.first : r.last, high = r.first < r.last ? r.last : r.first;
    for (int row = low; row <= high; row++) {
        chain_from(kind, row);
        chain_without(kind, row);
    }
}

/* On 256 rows there is no room for the pass that is due. Where a is false on row P, or where
   it is true on all rows, none is. */
static void chain_without_room(enum kind kind, bool others)
{
    struct chain c = { kind, 61, 62, 63, others };
    struct rows r = { MOST_ROWS - 2, 2, 0, MOST_ROWS - 3 };
    write_chain(c);
    write_chain_rows(r, r.first);
    settle_chain("no room on row", c, r.start, none);
    write_reading(&plan, r.start + 1, 0, 1);
    settle_chain("chain on all rows", c, r.start, 0);
    write_chain_rows(r, r.first);
    write_reading(&plan, r.start, 0, 0);
    settle_chain("no room, chain without row", c, r.start, 0);
}

/* ---- Rows laid out ---- */

/* Part k is Y of the part below, over x = 1, which is so on one row of the cycle. On the first
   k positions from row P on it is false, also on the row that has it true on later passes:
   passes are laid out until the last such position is a start row. There is room for no more. */
static void yesterdays(int depth, int cycle, int on)
{
    int passes = (depth + on) / cycle, start = MOST_ROWS - (passes + 1) * cycle;
    char name[64];
    snprintf(name, sizeof name, "Y %d deep, C %d, row P + %d", depth, cycle, on);
    start_rule(&rule, depth + 1, 1);
    write_comparison(&rule, 0, EQUAL, reading(0, 0), constant(1));
    for (int part = 1; part <= depth; part++)
        write_unary(&rule, part, YESTERDAY, part - 1);
    for (int more = 0; more < 2; more++) {
        start_plan(&plan, 1, start + more, cycle);
        write_reading(&plan, start + more + on, 0, 1);
        expect_passes(name, &rule, &plan, more ? none : (uint64_t)passes);
    }
}

static void rows_laid_out(void)
{
    static const int cycles[] = { 2, 3, 5, 8, 16 };
    for (int i = 0; i < 5; i++) {
        yesterdays(63, cycles[i], 0);
        yesterdays(63, cycles[i], cycles[i] - 1);
        yesterdays(33, cycles[i], cycles[i] / 2);
    }
}

/* ---- Old bytes ---- */

/* In buffers that have this byte everywhere, or the low byte of each place counted up. */
static void settle_over(const char *name, int byte, uint64_t answer)
{
    static uint8_t laid_out[LAID_OUT_LENGTH], scratch[SCRATCH_LENGTH];
    static uint8_t due_laid_out[LAID_OUT_LENGTH], due_scratch[SCRATCH_LENGTH];
    for (size_t i = 0; i < sizeof laid_out; i++)
        laid_out[i] = due_laid_out[i] = (uint8_t)(byte < 0 ? (int)i : byte);
    memcpy(scratch, laid_out, sizeof scratch);
    uint64_t second = second_settle(&truth_space, slice_of(&rule), slice_of(&plan), due_laid_out,
                                    sizeof due_laid_out, due_scratch, sizeof due_scratch);
    struct asked asked = ask_settle(slice_of(&rule), slice_of(&plan), laid_out, sizeof laid_out,
                                    scratch, sizeof scratch);
    memset(due_scratch, 0, sizeof due_scratch);
    expect(name, asked.unchanged && asked.answer == answer && second == answer &&
                     memcmp(laid_out, due_laid_out, sizeof laid_out) == 0 &&
                     memcmp(scratch, due_scratch, sizeof scratch) == 0);
}

static void old_bytes(void)
{
    static const enum kind kinds[] = { UNTIL, RELEASE, SINCE, TRIGGER };
    static const int bytes[] = { 0x00, 0xFF, 0x01, 0x80, 0x55, 0xAA, -1 };
    for (int i = 0; i < 4; i++)
        for (int k = 0; k < 7; k++)
            for (int others = 0; others < 2; others++) {
                struct rows r = rows_of(kinds[i]);
                write_chain((struct chain){ kinds[i], 55, 56, 62, others });
                write_chain_rows(r, r.first);
                settle_over("one pass, over old bytes", bytes[k], 1);
                write_reading(&plan, (r.first + r.last) / 2, 0, 0);
                settle_over("no pass, over old bytes", bytes[k], 0);
                start_plan(&plan, 1, 0, 1);
                write_drift(&plan, 0, 0, 1);
                write_comparison(&rule, 7, LESS, reading(0, 0), constant(300));
                settle_over("15, over old bytes", bytes[k], none);
            }
}

/* ---- Addresses ---- */

/* Both buffers so many bytes behind an address that suits every type. */
static void settle_at(size_t of_laid_out, size_t of_scratch)
{
    enum { BESIDE = 16 };
    static _Alignas(64) uint8_t laid_out[LAID_OUT_LENGTH + 2 * BESIDE];
    static _Alignas(64) uint8_t scratch[SCRATCH_LENGTH + 2 * BESIDE];
    static uint8_t due_laid_out[sizeof laid_out], due_scratch[sizeof scratch];
    memset(laid_out, 0xA5, sizeof laid_out);
    memset(due_laid_out, 0xA5, sizeof laid_out);
    memset(scratch, 0xA5, sizeof scratch);
    memset(due_scratch, 0xA5, sizeof scratch);
    uint64_t due = second_settle(&truth_space, slice_of(&rule), slice_of(&plan),
                                 due_laid_out + of_laid_out, LAID_OUT_LENGTH,
                                 due_scratch + of_scratch, SCRATCH_LENGTH);
    uint64_t answer =
        endless_run_settle(rule.at, rule.len, plan.at, plan.len, laid_out + of_laid_out,
                           LAID_OUT_LENGTH, scratch + of_scratch, SCRATCH_LENGTH);
    expect("buffers at any address", answer == due && answer == 1 &&
                                         memcmp(laid_out, due_laid_out, sizeof laid_out) == 0 &&
                                         memcmp(scratch, due_scratch, sizeof scratch) == 0);
}

static void addresses(void)
{
    write_chain((struct chain){ SINCE, 7, 8, 63, false });
    write_chain_rows(rows_of(SINCE), 0);
    for (size_t more = 0; more <= 16; more++) {
        settle_at(0, more);
        settle_at(more, 16 - more);
    }
}

void test_scratch(void)
{
    static const enum kind kinds[] = { UNTIL, RELEASE, SINCE, TRIGGER };
    for (int i = 0; i < 4; i++) {
        chains_of_all_parts(kinds[i], false);
        chains_of_all_parts(kinds[i], true);
        chains_of_all_rows(kinds[i]);
    }
    for (int others = 0; others < 2; others++) {
        chain_without_room(SINCE, others);
        chain_without_room(TRIGGER, others);
    }
    rows_laid_out();
    old_bytes();
    addresses();
}
