/*
 * random.c: random cases against the second evaluator.
 *
 * What the answers were is counted, and a count below its floor is a failure: a
 * generator that no longer produces an answer would test it no longer.
 */
#include "cases.h"
#include "dice.h"
#include "expect.h"
#include "random.h"

#include "../../include/endless_run.h"

#include <inttypes.h>
#include <stdio.h>

/* ---- Counts ---- */

static struct {
    unsigned long accepted[2], refused[13], judged[3];
    unsigned long false_fixpoints; /* refused 11 where no witness would serve */
    unsigned long full_size;       /* accepted with 64 parts and 256 rows */
    unsigned long kinds[KINDS];       /* accepted with a part of the kind */
    unsigned long window_operands; /* refused 3 for a window */
    unsigned long pinned_operands; /* refused 3 for a part of kind 14 */
    unsigned long tops;            /* refused 4, and right but for a negative top */
    unsigned long topped;          /* accepted with a top */
    unsigned long lead[5];         /* accepted with so many lead-in rows */
    unsigned long led;             /* accepted, an atom true by a lead-in row */
    unsigned long unseen;          /* accepted, one that reaches before all lead-in rows */
    unsigned long led_always;      /* judged 1 on a cycle row, pass 0 reads a lead-in row */
    unsigned long led_once;        /* judged 2 on one, only pass 0 differs */
    unsigned long lead_drifts;     /* refused 6 for a lead-in row */
    unsigned long both_drifts;     /* refused 6 for one, and a start row above 0 has one too */
    unsigned long late;            /* "changes" on a late pass only */
    unsigned long stepped_over;    /* an equality whose gap narrows and is never 0 */
} counts;

enum { LATE_PASS = 1000 };

/* ---- Lead-in rows ---- */

/* The earliest position that an atom reads from. */
static int earliest_read(const struct formula *f, int position)
{
    int left = f->left.is_reading ? f->left.shift : 0;
    int right = f->right.is_reading ? f->right.shift : 0;
    int least = left < right ? left : right;
    return position + (least < 0 ? least : 0);
}

static bool reads_lead_in(const struct plan *p, const struct formula *f, int position)
{
    int earliest = earliest_read(f, position);
    return earliest < 0 && earliest >= -p->lead;
}

static void count_lead(const struct rule *r, const struct plan *p)
{
    bool led = false, unseen = false;
    for (int part = 0; part < r->parts; part++)
        for (int row = 0; is_atom(r->part[part].kind) && row < p->rows; row++) {
            const struct formula *f = &r->part[part];
            led |= reads_lead_in(p, f, row) && atom_holds(p, f, row);
            unseen |= p->lead > 0 && earliest_read(f, row) < -p->lead;
        }
    counts.lead[p->lead]++;
    counts.led += led;
    counts.unseen += unseen;
}

static bool has_drift(int first, int end, int channels)
{
    for (int row = first; row < end; row++)
        for (int i = 0; i < 4 * channels; i++)
            if (drift_bytes(&case_plan, row, 0)[i] != 0)
                return true;
    return false;
}

/* The plan was refused with 6, so its sizes are right. */
static void count_drifts(void)
{
    struct plan p;
    decode_plan(slice_of(&case_plan), case_truth.rule.channels, &p);
    if (!has_drift(-p.lead, 0, p.channels))
        return;
    counts.lead_drifts++;
    counts.both_drifts += p.start > 0 && !has_drift(0, 1, p.channels) &&
                          has_drift(1, p.start, p.channels);
}

/* ---- Answers ---- */

static void count_accepted(uint64_t verdict)
{
    bool seen[KINDS] = { false };
    counts.accepted[verdict]++;
    count_lead(&case_truth.rule, &case_truth.plan);
    counts.full_size += case_truth.rule.parts == 64 && case_truth.plan.rows == 256;
    counts.topped += has_tops(&case_truth.plan);
    for (int part = 0; part < case_truth.rule.parts; part++)
        seen[case_truth.rule.part[part].kind] = true;
    for (int kind = LESS; kind <= PINNED; kind++)
        counts.kinds[kind] += seen[kind];
}

/* Is the plan in order once its tops are 0? */
static bool is_right_but_for_tops(void)
{
    static struct sheet plan;
    struct plan p;
    plan = case_plan;
    for (int channel = 0; channel < case_truth.plan.channels; channel++)
        write_top(&plan, channel, 0);
    return decode_plan(slice_of(&plan), case_truth.rule.channels, &p) == 0;
}

static void count_check(uint64_t answer)
{
    unsigned number = endless_run_number(answer);
    if (number == 0) {
        count_accepted(answer);
        return;
    }
    counts.refused[number]++;
    if (number == ENDLESS_RUN_OPERAND) {
        uint8_t kind = *kind_byte(&case_rule, (int)endless_run_part(answer));
        counts.window_operands += kind == WINDOW;
        counts.pinned_operands += kind == PINNED;
    }
    if (number == ENDLESS_RUN_PLAN_SIZES)
        counts.tops += is_right_but_for_tops();
    if (number == ENDLESS_RUN_START_DRIFT)
        count_drifts();
    struct rule r;
    struct plan p;
    if (decode_rule(slice_of(&case_rule), &r) != 0 ||
        decode_plan(slice_of(&case_plan), r.channels, &p) != 0)
        return;
    int part = (int)endless_run_part(answer);
    if (number == ENDLESS_RUN_WITNESS) {
        bool last = *mark_byte(&case_marks, part, p.rows - 1);
        bool due = (r.part[part].kind == UNTIL && last) || (r.part[part].kind == RELEASE && !last);
        counts.false_fixpoints +=
            due && serving_witness(&case_marks, &r, &p, part, p.start) == NO_WITNESS;
    }
}

static bool changes_late(const struct plan *p, const struct formula *f, int row)
{
    bool first = atom_holds(p, f, row);
    for (int64_t pass = 1; pass < LATE_PASS; pass++)
        if (atom_holds(p, f, position_of(p, row, pass)) != first)
            return false;
    return true;
}

static void count_judge(const char *name, uint64_t answer, uint64_t part, uint64_t row)
{
    struct rule r;
    struct plan p;
    if (endless_run_is_refusal(answer)) {
        counts.refused[endless_run_number(answer)]++;
        return;
    }
    counts.judged[answer]++;
    decode_rule(slice_of(&case_rule), &r);
    decode_plan(slice_of(&case_plan), r.channels, &p);
    const struct formula *f = &r.part[part];
    if (row >= (uint64_t)p.start && reads_lead_in(&p, f, (int)row)) {
        counts.led_always += answer == ALWAYS_TRUE;
        counts.led_once += answer == CHANGES && !changes_from(&p, f, (int)row, 1);
    }
    count_top(name, &p, f, (int)row, answer);
    if (f->kind == WINDOW)
        count_window(&p, f, (int)row, answer);
    else if (answer == CHANGES)
        counts.late += changes_late(&p, f, (int)row);
    else if (f->kind == EQUAL && row >= (uint64_t)p.start)
        counts.stepped_over += last_turn(&p, f, (int)row) > LINES_FROM + 1;
}

/* ---- Floors ---- */

static void print_counts(unsigned long cases)
{
    static const unsigned long refusal_floors[] = { 0,  50, 20, 20,  50,  10, 10,
                                                    50, 50, 500, 500, 500, 500 };
    char name[64];
    hold_each("accepted", counts.accepted, 2, cases, 500);
    for (int number = 1; number <= 12; number++) {
        snprintf(name, sizeof name, "refused %d", number);
        hold_to_floor(name, counts.refused[number], cases, refusal_floors[number]);
    }
    hold_to_floor("refused 3 for a window", counts.window_operands, cases, 10);
    hold_to_floor("refused 3 for kind 14", counts.pinned_operands, cases, 5);
    hold_to_floor("refused 4 for a top", counts.tops, cases, 10);
    hold_to_floor("accepted with a top", counts.topped, cases, 500);
    hold_each("judged", counts.judged, 3, cases, 500);
    hold_to_floor("judged 2, alike on the first 1000 passes", counts.late, cases, 20);
    hold_to_floor("judged 0, an equality stepped over", counts.stepped_over, cases, 50);
    hold_to_floor("refused 11, and no witness would serve", counts.false_fixpoints, cases, 50);
    hold_to_floor("accepted, 64 parts on 256 rows", counts.full_size, cases, 5);
    hold_each("accepted with L", counts.lead, MOST_LEAD + 1, cases, 200);
    hold_to_floor("accepted, true by a lead-in row", counts.led, cases, 100);
    hold_to_floor("accepted, false before the lead-in rows", counts.unseen, cases, 100);
    hold_to_floor("judged 1, true by a lead-in row", counts.led_always, cases, 50);
    hold_to_floor("judged 2, other by a lead-in row alone", counts.led_once, cases, 20);
    hold_to_floor("refused 6 for a lead-in row", counts.lead_drifts, cases, 10);
    hold_to_floor("refused 6, a later start row has a drift too", counts.both_drifts, cases, 2);
    for (int kind = LESS; kind <= PINNED; kind++) {
        snprintf(name, sizeof name, "accepted with a part of kind %s", kind_names[kind]);
        hold_to_floor(name, counts.kinds[kind], cases, 200);
    }
}

/* ---- Questions ---- */

static void ask_about_table(const char *name)
{
    uint64_t answer =
        second_check(slice_of(&case_rule), slice_of(&case_plan), slice_of(&case_marks));
    count_check(answer);
    bool right = expect_check(name, &case_rule, &case_plan, &case_marks, answer);
    ask_about_closing(name, answer);
    if (!right && failed <= 3) {
        print_sheet("rule", &case_rule);
        print_sheet("plan", &case_plan);
        print_sheet("marks", &case_marks);
    }
}

/* Any number, or one near the sizes: mostly a part and a row that are there. */
static uint64_t some_index(int size)
{
    if (chance(95))
        return (uint64_t)below(size);
    if (chance(50))
        return (uint64_t)between(size - 1, size + 1);
    int bits = below(64);
    return next_random() >> bits;
}

static void ask_about_part(const char *name, uint64_t part)
{
    uint64_t row = some_index(case_truth.plan.rows);
    if (chance(60) && row < (uint64_t)case_truth.plan.start)
        row = (uint64_t)between(case_truth.plan.start, case_truth.plan.rows - 1);
    if (case_truth.plan.lead > 0 && chance(40))
        row %= MOST_LEAD; /* where a shift may reach the lead-in */
    uint64_t answer = second_judge(slice_of(&case_rule), slice_of(&case_plan), part, row);
    count_judge(name, answer, part, row);
    if (!expect_judge(name, &case_rule, &case_plan, part, row, answer) && failed <= 3) {
        printf("  part %" PRIu64 ", row %" PRIu64 "\n", part, row);
        print_sheet("rule", &case_rule);
        print_sheet("plan", &case_plan);
    }
}

static bool is_operator(uint64_t part)
{
    const struct rule *r = &case_truth.rule;
    return part < (uint64_t)r->parts && !is_atom(r->part[part].kind);
}

/* A part of the rule, mostly an atom. */
static void ask_about_atom(const char *name)
{
    uint64_t part = some_index(case_truth.rule.parts);
    for (int tries = 0; tries < 4 && is_operator(part); tries++)
        part = some_index(case_truth.rule.parts);
    ask_about_part(name, part);
}

/* An atom that was not chosen so that it closes. */
static void ask_about_new_atom(const char *name)
{
    struct formula f = some_atom();
    start_rule(&case_rule, 1, case_truth.plan.channels);
    write_formula(&case_rule, 0, &f);
    ask_about_part(name, 0);
}

void test_random(uint64_t seed, unsigned long cases)
{
    char name[64];
    printf("random cases: seed %" PRIu64 ", %lu cases\n", seed, cases);
    for (unsigned long i = 0; i < cases; i++) {
        seed_dice(seed * 0xD1342543DE82EF95u + i); /* so that a case can be had alone */
        snprintf(name, sizeof name, "random case %lu of seed %" PRIu64, i, seed);
        make_case();
        ask_about_table(name);
        if (make_spoiled_table())
            ask_about_table(name);
        ask_about_atom(name);
        ask_for_table(name);
        ask_to_settle(name);
        ask_about_new_atom(name);
        ask_for_table(name);
        make_late_case();
        ask_to_settle(name);
    }
    print_counts(cases);
    print_closing_counts(cases);
    print_make_counts(cases);
    print_settle_counts(cases);
    print_window_counts(cases);
    print_top_counts(cases);
}
