/*
 * random_make.c: random cases of make against the second evaluator.
 *
 * As in random.c the answers are counted, and so is what a maker could get wrong;
 * a count below its floor is a failure.
 */
#include "random.h"

#include "cases.h"
#include "dice.h"
#include "expect.h"

#include "../../include/endless_run.h"

#include <stdio.h>

/* ---- Counts ---- */

static struct {
    unsigned long made[2], refused[15];
    unsigned long full_size;       /* made with 64 parts on 256 rows */
    unsigned long kinds[KINDS];       /* made with a part of the kind */
    unsigned long false_fixpoints; /* made with a U or R that meets its equations otherwise too */
    unsigned long choices;         /* made with a witness that is not the only one to serve */
    unsigned long start_rows;      /* made with a witness where a start row has the same mark */
    unsigned long unasked;         /* made with none due where a cycle row has the mark */
    unsigned long open[KINDS];        /* refused 14 for a part of the kind */
    unsigned long unnamed;         /* refused 14 for a part that nobody names */
    unsigned long both;            /* refused 13 where the right length gives 14 */
} counts;

/* On how many rows, from the first to the last, has the part this truth? */
static int rows_with(int part, bool value, int first, int last)
{
    int n = 0;
    for (int row = first; row <= last; row++)
        n += holds(&truth_space, part, row) == value;
    return n;
}

/* Count what there is to get wrong in the marks and the witness of a U or R. */
static void count_eventuality(const struct formula *f, int part)
{
    const struct plan *p = &truth_space.plan;
    int end = p->rows - 1;
    bool until = f->kind == UNTIL, last = holds(&truth_space, part, end);
    int serving = rows_with(f->b, until, p->start, end);
    counts.false_fixpoints += serving == 0 && rows_with(f->a, until, p->start, end) == p->cycle;
    if (last != until) {
        counts.unasked += serving > 0;
        return;
    }
    counts.choices += serving > 1;
    counts.start_rows += rows_with(f->b, until, 0, p->start - 1) > 0;
}

static void count_made(uint64_t verdict)
{
    const struct rule *r = &truth_space.rule;
    bool seen[KINDS] = { false };
    counts.made[verdict]++;
    counts.full_size += r->parts == 64 && truth_space.plan.rows == 256;
    for (int part = 0; part < r->parts; part++) {
        const struct formula *f = &r->part[part];
        seen[f->kind] = true;
        if (f->kind == UNTIL || f->kind == RELEASE)
            count_eventuality(f, part);
    }
    for (int kind = LESS; kind <= PINNED; kind++)
        counts.kinds[kind] += seen[kind];
}

static bool is_named(const struct rule *r, int part)
{
    for (int i = part + 1; i < r->parts; i++)
        if (!is_atom(r->part[i].kind) &&
            (r->part[i].a == part || (names_two_parts(r->part[i].kind) && r->part[i].b == part)))
            return true;
    return false;
}

static void count_open(int part)
{
    const struct rule *r = &truth_space.rule;
    counts.open[r->part[part].kind]++;
    counts.unnamed += part < r->parts - 1 && !is_named(r, part);
}

static void count_answer(uint64_t answer)
{
    unsigned number = endless_run_number(answer);
    if (number == 0)
        count_made(answer);
    else
        counts.refused[number]++;
    if (number == ENDLESS_RUN_NO_TABLE)
        count_open((int)endless_run_part(answer));
}

static void hold_made(unsigned long cases)
{
    char name[64];
    hold_each("made", counts.made, 2, cases, 2000);
    hold_to_floor("made, 64 parts on 256 rows", counts.full_size, cases, 20);
    hold_to_floor("made, U or R that meets two sets of marks", counts.false_fixpoints, cases, 500);
    hold_to_floor("made, one of several witnesses", counts.choices, cases, 500);
    hold_to_floor("made, a witness and a start row like it", counts.start_rows, cases, 500);
    hold_to_floor("made, a row like a witness where none is due", counts.unasked, cases, 50);
    for (int kind = LESS; kind <= PINNED; kind++) {
        snprintf(name, sizeof name, "made with a part of kind %s", kind_names[kind]);
        hold_to_floor(name, counts.kinds[kind], cases, 1000);
    }
}

static void hold_refused(unsigned long cases)
{
    static const unsigned long floors[15] = { 0, 50, 20, 20, 50, 10, 10, [13] = 500, [14] = 2000 };
    char name[64];
    for (int number = 1; number <= 14; number++)
        if (floors[number] > 0) {
            snprintf(name, sizeof name, "make refused %d", number);
            hold_to_floor(name, counts.refused[number], cases, floors[number]);
        }
    hold_to_floor("make refused 13, 14 in the right length", counts.both, cases, 100);
    hold_to_floor("make refused 14, a part that nobody names", counts.unnamed, cases, 100);
    for (enum kind kind = LESS; kind <= PINNED; kind++)
        if (is_atom(kind) || is_past(kind)) {
            snprintf(name, sizeof name, "make refused 14 for kind %s", kind_names[kind]);
            hold_to_floor(name, counts.open[kind], cases, 30);
        }
}

void print_make_counts(unsigned long cases)
{
    hold_made(cases);
    hold_refused(cases);
}

/* ---- Questions ---- */

/* The length of the table of the case, or of one of its sizes where the rule or
   the plan is none. */
static size_t right_length(void)
{
    struct rule r;
    struct plan p;
    if (decode_rule(slice_of(&case_rule), &r) == 0 &&
        decode_plan(slice_of(&case_plan), r.channels, &p) == 0)
        return table_length(r.parts, p.rows);
    return table_length(case_truth.rule.parts, case_truth.plan.rows);
}

static size_t some_length(size_t right)
{
    size_t wrong[] = { 0, 1, 4, right - 4, right - 1, right + 1, 2 * right,
                       ENDLESS_RUN_LONGEST_MARKS, (size_t)below(SHEET_LONGEST) };
    return chance(90) ? right : wrong[below(sizeof wrong / sizeof wrong[0])];
}

void ask_for_table(const char *name)
{
    static struct sheet buffer, other;
    struct slice r = slice_of(&case_rule), p = slice_of(&case_plan);
    size_t right = right_length();
    resize(&buffer, some_length(right));
    resize(&other, buffer.len);
    uint64_t answer = second_make(&truth_space, r, p, other.at, other.len);
    if (!expect_make(name, &case_rule, &case_plan, &buffer, answer) && failed <= 3) {
        print_sheet("rule", &case_rule);
        print_sheet("plan", &case_plan);
        print_sheet("buffer", &buffer);
    }
    count_answer(answer);
    if (answer == refusal(13, 0, 0)) {
        uint64_t in_right_length = second_make(&truth_space, r, p, other.at, right);
        counts.both += endless_run_number(in_right_length) == ENDLESS_RUN_NO_TABLE;
    }
}
