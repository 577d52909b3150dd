/*
 * planner.c: a small planner that has its mark tables checked, then has them made,
 * has plans settled for which none can be made, and uses the top of a channel.
 *
 * The rule: a pinned count is never averaged until a lower one has come, and
 * the plan begins on the count that was read last before it. A count is pinned
 * at 4095, the most that its converter gives. Channel 0 is the count, channel 1
 * is 1 on rows that are averaged and 0 on others. As parts:
 *
 *   0  count < 4095                     a lower one
 *   1  averaged = 1
 *   2  not 1
 *   3  2 U 0                            not averaged until a lower one
 *   4  1 < 0                            never
 *   5  4 R 3                            part 3, always
 *   6  count before = count             the count has stayed
 *   7  5 and 6                          the whole rule
 *
 * Where the count is lower, part 3 holds at once, so it need not be said apart
 * that it speaks of pinned counts. U also asks that a lower one does come. Part
 * 6 compares each row with the one before it. On row 0 that is the lead-in row,
 * with the count read last before the plan starts; without a lead-in row part 6
 * is false there. These plans give no tops, and 4095 stands in the rule.
 *
 * The same rule, but for part 6, with the top in the plan: channel 0 has the top
 * 4095, and a count is pinned by what the plan says of its sensor. As parts:
 *
 *   0  count is pinned
 *   1  not 0                            a lower one
 *   2  averaged = 1
 *   3  not 2
 *   4  3 or 1
 *   5  1 R 4                            not averaged until a lower one
 *   6  1 < 0                            never
 *   7  6 R 5                            part 5, always: the whole rule
 *
 * R does not ask that a lower one comes: if none does, none is averaged.
 *
 * The program writes rule.bin, plan.bin and marks.bin of its first plan into
 * the current folder, has the same bytes checked, and then shows five tables
 * that are answered otherwise. These marks are the planner's own. A planner
 * that has none needs the rule and the plan only: the program then has the
 * tables of the same four plans made. Then it has two plans settled that no
 * table can be made for, and where that can be done the table of the new plan
 * made. At the end come three plans with a top; pinned-rule.bin, pinned-plan.bin
 * and pinned-marks.bin are the rule and the first of these with the table made
 * for it, and pinned-hasty.bin is the second plan. Build and run, from the
 * repository's root, so that the files come to stand in out/:
 *
 *   tools/library
 *   cc -std=c11 -Wall -Wextra -o out/planner examples/planner.c \
 *      out/libendless_run.a
 *   cd out && ./planner
 */
#include "../include/endless_run.h"

#include <stdio.h>
#include <string.h>

enum { LIMIT = 4095, PARTS = 8, CHANNELS = 2, MOST_ROWS = 8 };
enum { LOWER, AVERAGED, NOT_AVERAGED, UNTIL_LOWER, NEVER, ALWAYS, STAYED, WHOLE };

/* The parts of the rule with the top in the plan, as many. */
enum { T_PINNED, T_LOWER, T_AVERAGED, T_NOT_AVERAGED, T_EITHER, T_UNTIL_LOWER, T_NEVER, T_WHOLE };

/* What the planner decides: rows of counts, some of them averaged. */
struct row {
    int32_t count, averaged;
    int32_t drift; /* of the count, for each pass */
};

struct plan {
    int lead, start, cycle;
    struct row before[ENDLESS_RUN_MOST_LEAD]; /* lead-in rows, the latest last */
    struct row row[MOST_ROWS];                /* start rows, then cycle rows */
    int32_t top;                              /* of the count; 0 for none */
};

/* A rule, a plan or a mark table, of up to the largest sizes: no rule and no mark
   table is longer than the longest plan. */
struct bytes {
    size_t len;
    uint8_t at[ENDLESS_RUN_LONGEST_PLAN];
};

/* ---- Writing fields ---- */

static void put1(struct bytes *b, unsigned n)
{
    b->at[b->len++] = (uint8_t)n;
}

static void put2(struct bytes *b, unsigned n)
{
    put1(b, n % 256);
    put1(b, n / 256 % 256);
}

static void put4(struct bytes *b, int32_t n)
{
    put2(b, (uint32_t)n % 65536);
    put2(b, (uint32_t)n / 65536);
}

/* ---- The rule sheet ---- */

static void put_constant(struct bytes *b, int32_t number)
{
    put1(b, ENDLESS_RUN_FORM_CONSTANT);
    put1(b, ENDLESS_RUN_NO_SHIFT);
    put4(b, number);
}

static void put_channel(struct bytes *b, int channel, int shift)
{
    put1(b, ENDLESS_RUN_FORM_READING);
    put1(b, (unsigned)(ENDLESS_RUN_NO_SHIFT + shift));
    put4(b, channel);
}

static void put_names(struct bytes *b, unsigned first, unsigned second)
{
    put2(b, first);
    put2(b, second);
    for (int i = 0; i < 8; i++)
        put1(b, 0);
}

/* Sizes and kinds of a rule; the operands follow. */
static struct bytes start_rule(const uint8_t *kinds)
{
    struct bytes b = { 0, { 0 } };
    put2(&b, PARTS);
    put2(&b, CHANNELS);
    for (int part = 0; part < PARTS; part++)
        put1(&b, kinds[part]);
    return b;
}

static struct bytes make_rule(void)
{
    static const uint8_t kinds[PARTS] = {
        [LOWER] = ENDLESS_RUN_KIND_LESS,       [AVERAGED] = ENDLESS_RUN_KIND_EQUAL,
        [NOT_AVERAGED] = ENDLESS_RUN_KIND_NOT, [UNTIL_LOWER] = ENDLESS_RUN_KIND_UNTIL,
        [NEVER] = ENDLESS_RUN_KIND_LESS,       [ALWAYS] = ENDLESS_RUN_KIND_RELEASE,
        [STAYED] = ENDLESS_RUN_KIND_EQUAL,     [WHOLE] = ENDLESS_RUN_KIND_AND,
    };
    struct bytes b = start_rule(kinds);
    put_channel(&b, 0, 0); /* LOWER */
    put_constant(&b, LIMIT);
    put_channel(&b, 1, 0); /* AVERAGED */
    put_constant(&b, 1);
    put_names(&b, AVERAGED, 0); /* NOT_AVERAGED names one part */
    put_names(&b, NOT_AVERAGED, LOWER);
    put_constant(&b, 1); /* NEVER */
    put_constant(&b, 0);
    put_names(&b, NEVER, UNTIL_LOWER);
    put_channel(&b, 0, -1); /* STAYED */
    put_channel(&b, 0, 0);
    put_names(&b, ALWAYS, STAYED);
    return b;
}

static struct bytes make_rule_of_top(void)
{
    static const uint8_t kinds[PARTS] = {
        [T_PINNED] = ENDLESS_RUN_KIND_PINNED,  [T_LOWER] = ENDLESS_RUN_KIND_NOT,
        [T_AVERAGED] = ENDLESS_RUN_KIND_EQUAL, [T_NOT_AVERAGED] = ENDLESS_RUN_KIND_NOT,
        [T_EITHER] = ENDLESS_RUN_KIND_OR,      [T_UNTIL_LOWER] = ENDLESS_RUN_KIND_RELEASE,
        [T_NEVER] = ENDLESS_RUN_KIND_LESS,     [T_WHOLE] = ENDLESS_RUN_KIND_RELEASE,
    };
    struct bytes b = start_rule(kinds);
    put_channel(&b, 0, 0); /* T_PINNED: a term, and 6 zero bytes */
    for (int i = 0; i < 6; i++)
        put1(&b, 0);
    put_names(&b, T_PINNED, 0); /* T_LOWER names one part */
    put_channel(&b, 1, 0);      /* T_AVERAGED */
    put_constant(&b, 1);
    put_names(&b, T_AVERAGED, 0);
    put_names(&b, T_NOT_AVERAGED, T_LOWER);
    put_names(&b, T_LOWER, T_EITHER);
    put_constant(&b, 1); /* T_NEVER */
    put_constant(&b, 0);
    put_names(&b, T_NEVER, T_UNTIL_LOWER);
    return b;
}

/* ---- The plan ---- */

static void put_readings(struct bytes *b, const struct row *row, int rows)
{
    for (int i = 0; i < rows; i++) {
        put4(b, row[i].count);
        put4(b, row[i].averaged);
    }
}

static void put_drifts(struct bytes *b, const struct row *row, int rows)
{
    for (int i = 0; i < rows; i++) {
        put4(b, row[i].drift);
        put4(b, 0);
    }
}

static struct bytes make_plan(const struct plan *plan)
{
    struct bytes b = { 0, { 0 } };
    int rows = plan->start + plan->cycle;
    put2(&b, CHANNELS);
    put2(&b, (unsigned)plan->start);
    put2(&b, (unsigned)plan->cycle);
    put2(&b, (unsigned)plan->lead);
    put4(&b, plan->top);
    put4(&b, ENDLESS_RUN_NO_TOP); /* of channel 1 */
    put_readings(&b, plan->before, plan->lead);
    put_readings(&b, plan->row, rows);
    put_drifts(&b, plan->before, plan->lead);
    put_drifts(&b, plan->row, rows);
    return b;
}

/* ---- The planner's own mark table ---- */

/* Marks of U and R go backward from the last row, which is followed by the
   first cycle row. Two rounds settle them. */
static void sweep(int mark[PARTS][MOST_ROWS], const struct plan *plan)
{
    int rows = plan->start + plan->cycle;
    int until = 0, always = 1; /* U begins with false, R with true */
    for (int round = 0; round < 2; round++) {
        for (int i = rows - 1; i >= 0; i--) {
            until = mark[LOWER][i] || (mark[NOT_AVERAGED][i] && until);
            mark[UNTIL_LOWER][i] = until;
        }
        until = mark[UNTIL_LOWER][plan->start];
    }
    for (int round = 0; round < 2; round++) {
        for (int i = rows - 1; i >= 0; i--) {
            always = mark[UNTIL_LOWER][i] && (mark[NEVER][i] || always);
            mark[ALWAYS][i] = always;
        }
        always = mark[ALWAYS][plan->start];
    }
}

/* Has the count stayed since the row before? It has not where nothing was read. The
   row before row P is another one on later passes, row W - 1: where the two differ in
   that, the part changes on row P, and the check refuses the table. */
static int has_stayed(const struct plan *plan, int row)
{
    if (row == 0 && plan->lead == 0)
        return 0;
    const struct row *before = row == 0 ? &plan->before[plan->lead - 1] : &plan->row[row - 1];
    return before->count == plan->row[row].count;
}

/* A cycle row where a part is marked so. */
static unsigned witness(int mark[PARTS][MOST_ROWS], const struct plan *plan, int part, int value)
{
    for (int i = plan->start; i < plan->start + plan->cycle; i++)
        if (mark[part][i] == value)
            return (unsigned)i;
    return ENDLESS_RUN_NO_WITNESS;
}

static struct bytes own_marks(const struct plan *plan)
{
    struct bytes b = { 0, { 0 } };
    int mark[PARTS][MOST_ROWS];
    int rows = plan->start + plan->cycle;
    for (int i = 0; i < rows; i++) {
        mark[LOWER][i] = plan->row[i].count < LIMIT;
        mark[AVERAGED][i] = plan->row[i].averaged == 1;
        mark[NOT_AVERAGED][i] = !mark[AVERAGED][i];
        mark[NEVER][i] = 0;
        mark[STAYED][i] = has_stayed(plan, i);
    }
    sweep(mark, plan);
    for (int i = 0; i < rows; i++)
        mark[WHOLE][i] = mark[ALWAYS][i] && mark[STAYED][i];

    put2(&b, PARTS);
    put2(&b, (unsigned)rows);
    for (int part = 0; part < PARTS; part++)
        for (int i = 0; i < rows; i++)
            put1(&b, (unsigned)mark[part][i]);
    for (int part = 0; part < PARTS; part++)
        if (part == UNTIL_LOWER && mark[part][rows - 1] == 1)
            put2(&b, witness(mark, plan, LOWER, 1));
        else if (part == ALWAYS && mark[part][rows - 1] == 0)
            put2(&b, witness(mark, plan, UNTIL_LOWER, 0));
        else
            put2(&b, ENDLESS_RUN_NO_WITNESS);
    return b;
}

/* ---- Answers in words ---- */

static void show(uint64_t answer, const char *message)
{
    if (endless_run_is_refusal(answer))
        printf("  refused %u, part %u, row %u: %s\n", endless_run_number(answer),
               endless_run_part(answer), endless_run_row(answer), message);
    else
        printf("  %s\n", message);
}

static void check(const struct bytes *rule, const struct bytes *plan, const struct bytes *marks)
{
    uint64_t answer =
        endless_run_check(rule->at, rule->len, plan->at, plan->len, marks->at, marks->len);
    show(answer, endless_run_message(answer));
}

/* Has the mark table made. The buffer has the length that the table will have,
   and need not be cleared. */
static int have_made(const struct bytes *rule, const struct bytes *plan, int rows,
                     struct bytes *marks)
{
    marks->len = ENDLESS_RUN_MARKS_LENGTH(PARTS, rows);
    uint64_t answer =
        endless_run_make(rule->at, rule->len, plan->at, plan->len, marks->at, marks->len);
    show(answer, endless_run_make_message(answer));
    return !endless_run_is_refusal(answer);
}

/* Has passes of the cycle laid out as start rows, as few as will do: how many they are,
   or -1. The buffer has room for any plan; the new one's length is in its sizes. */
static int have_settled(const struct bytes *rule, const struct bytes *plan, struct bytes *laid_out)
{
    static uint8_t scratch[ENDLESS_RUN_SETTLE_SCRATCH_LENGTH];
    uint64_t answer = endless_run_settle(rule->at, rule->len, plan->at, plan->len, laid_out->at,
                                         ENDLESS_RUN_LAID_OUT_LENGTH, scratch, sizeof scratch);
    show(answer, endless_run_settle_message(answer));
    if (!endless_run_is_refusal(answer))
        laid_out->len = endless_run_plan_length(laid_out->at);
    return endless_run_passes(answer);
}

static int write_file(const char *name, const struct bytes *b)
{
    FILE *file = fopen(name, "wb");
    if (file == NULL) {
        perror(name);
        return 0;
    }
    int written = fwrite(b->at, 1, b->len, file) == b->len;
    int closed = fclose(file) == 0;
    return written && closed;
}

/* ---- The plans ---- */

/* One row read before the start. One start row, then a cycle of four: pinned twice,
   lower, lower. */
static const struct plan patient = {
    1, 1, 4,
    { { 3000, 0, 0 } },
    { { 3000, 1, 0 }, { 4095, 0, 0 }, { 4095, 0, 0 }, { 3900, 1, 0 }, { 3800, 1, 0 } },
    ENDLESS_RUN_NO_TOP
};

/* The same, but with nothing read before the start; the same, but row 2 averages a
   pinned count; the same, but row 3 drifts. */
static struct plan unled(void)
{
    struct plan plan = patient;
    plan.lead = 0;
    return plan;
}

static struct plan hasty(void)
{
    struct plan plan = patient;
    plan.row[2].averaged = 1;
    return plan;
}

static struct plan rising(void)
{
    struct plan plan = patient;
    plan.row[3].drift = 1;
    return plan;
}

/* The cycle of the first plan at once, and the pinned count read before the start. On
   row 0 the count has stayed, but not when the row comes again, after a count of 3800. */
static const struct plan sudden = {
    1, 0, 4,
    { { 4095, 0, 0 } },
    { { 4095, 0, 0 }, { 4095, 0, 0 }, { 3900, 1, 0 }, { 3800, 1, 0 } },
    ENDLESS_RUN_NO_TOP
};

/* With the top in the plan: one start row, then a cycle of three, pinned twice and lower.
   Row 2 rises from its top, and stays pinned. */
static const struct plan topped = {
    0, 1, 3,
    { { 0, 0, 0 } },
    { { 3000, 1, 0 }, { 4095, 0, 0 }, { 4095, 0, 1 }, { 3900, 1, 0 } },
    LIMIT
};

/* The same, but row 2 averages a pinned count; the same, but row 3 rises to its top. */
static struct plan topped_hasty(void)
{
    struct plan plan = topped;
    plan.row[2].averaged = 1;
    return plan;
}

static struct plan topped_rising(void)
{
    struct plan plan = topped;
    plan.row[3].drift = 100;
    return plan;
}

/* ---- The four uses ---- */

/* The planner has marks of its own. */
static int check_own_marks(const struct bytes *rule)
{
    struct bytes plan = make_plan(&patient), marks = own_marks(&patient);
    if (!write_file("rule.bin", rule) || !write_file("plan.bin", &plan) ||
        !write_file("marks.bin", &marks))
        return 0;
    printf("Averages only after a lower count (rule.bin, plan.bin, marks.bin):\n");
    check(rule, &plan, &marks);

    printf("The same, but row 1 is marked as a lower count:\n");
    marks.at[4 + 5 * LOWER + 1] = 1;
    check(rule, &plan, &marks);

    printf("As the first, but with no lead-in row, with right marks:\n");
    struct plan next = unled();
    plan = make_plan(&next);
    marks = own_marks(&next);
    check(rule, &plan, &marks);

    printf("Averages a pinned count on row 2, with right marks:\n");
    next = hasty();
    plan = make_plan(&next);
    marks = own_marks(&next);
    check(rule, &plan, &marks);

    printf("As the first, but row 3 rises by 1 on each pass, from 3900:\n");
    next = rising();
    plan = make_plan(&next);
    marks = own_marks(&next);
    check(rule, &plan, &marks);
    uint64_t judged = endless_run_judge(rule->at, rule->len, plan.at, plan.len, LOWER, 3);
    printf("  part %d judged on row 3: %s\n", LOWER, endless_run_judge_message(judged));
    if (endless_run_finding(judged) == ENDLESS_RUN_CHANGES)
        printf("  the count is %d on pass %d\n", LIMIT, LIMIT - next.row[3].count);

    /* Both faults are in part 0, and the plan's is told first. */
    printf("The same, but row 1 is also marked as a lower count:\n");
    marks.at[4 + 5 * LOWER + 1] = 1;
    check(rule, &plan, &marks);
    return 1;
}

/* The planner has none: they are made, and no more is needed. That a table made
   is accepted is promised, and the check here only shows it. */
static void have_marks_made(const struct bytes *rule)
{
    static const char *const names[] = { "the first plan", "the plan with no lead-in row",
                                         "the hasty plan", "the rising plan" };
    const struct plan plans[] = { patient, unled(), hasty(), rising() };
    for (int i = 0; i < 4; i++) {
        struct bytes plan = make_plan(&plans[i]), own = own_marks(&plans[i]), made;
        printf("No marks of its own, %s:\n", names[i]);
        if (!have_made(rule, &plan, plans[i].start + plans[i].cycle, &made))
            continue;
        check(rule, &plan, &made);
        if (made.len == own.len && memcmp(made.at, own.at, own.len) == 0)
            printf("  byte for byte the planner's own marks\n");
    }
}

/* No table can be made for these plans as they are. The sudden one settles after one
   pass. The rising one would after 196, and there is no room for as many rows. */
static void have_plans_settled(const struct bytes *rule)
{
    static const char *const names[] = { "the sudden plan", "the rising plan" };
    const struct plan plans[] = { sudden, rising() };
    for (int i = 0; i < 2; i++) {
        const struct plan *p = &plans[i];
        struct bytes plan = make_plan(p), laid_out, made;
        printf("Made, or else settled first, %s:\n", names[i]);
        if (have_made(rule, &plan, p->start + p->cycle, &made))
            continue;
        int passes = have_settled(rule, &plan, &laid_out);
        if (passes < 0)
            continue;
        printf("  passes laid out: %d\n", passes);
        if (have_made(rule, &laid_out, p->start + (passes + 1) * p->cycle, &made))
            check(rule, &laid_out, &made);
    }
}

/* The plans say themselves what the highest count is. */
static int use_top(const struct bytes *rule)
{
    struct plan next = topped;
    struct bytes plan = make_plan(&next), made, laid_out;
    printf("With the top in the plan (pinned-rule.bin, pinned-plan.bin, pinned-marks.bin):\n");
    if (!have_made(rule, &plan, next.start + next.cycle, &made))
        return 0;
    check(rule, &plan, &made);
    if (!write_file("pinned-rule.bin", rule) || !write_file("pinned-plan.bin", &plan) ||
        !write_file("pinned-marks.bin", &made))
        return 0;

    printf("The same, but row 2 averages a pinned count (pinned-hasty.bin):\n");
    next = topped_hasty();
    plan = make_plan(&next);
    if (!write_file("pinned-hasty.bin", &plan) ||
        !have_made(rule, &plan, next.start + next.cycle, &made))
        return 0;
    check(rule, &plan, &made);

    /* 3900, 4000, and pinned from 4100 on, while row 3 is averaged. */
    printf("As the first of these, but row 3 rises by 100 on each pass, from 3900:\n");
    next = topped_rising();
    plan = make_plan(&next);
    have_made(rule, &plan, next.start + next.cycle, &made);
    uint64_t judged = endless_run_judge(rule->at, rule->len, plan.at, plan.len, T_PINNED, 3);
    printf("  part %d judged on row 3: %s\n", T_PINNED, endless_run_judge_message(judged));
    int passes = have_settled(rule, &plan, &laid_out);
    if (passes < 0)
        return 0;
    printf("  passes laid out: %d\n", passes);
    if (have_made(rule, &laid_out, next.start + (passes + 1) * next.cycle, &made))
        check(rule, &laid_out, &made);
    return 1;
}

int main(void)
{
    struct bytes rule = make_rule(), rule_of_top = make_rule_of_top();
    if (!check_own_marks(&rule))
        return 1;
    have_marks_made(&rule);
    have_plans_settled(&rule);
    return use_top(&rule_of_top) ? 0 : 1;
}
