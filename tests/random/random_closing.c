/*
 * random_closing.c: random tables with faults in closing, in marks and in both.
 *
 * The tables whose answer hangs on 10 before 9 within one part are those whose lowest
 * part at fault both does not close and has a wrong mark. They are counted, kind by kind,
 * and so is what else a check could get wrong; a count below its floor is a failure.
 */
#include "random.h"

#include "cases.h"
#include "expect.h"

#include "../../include/endless_run.h"

#include <stdio.h>

/* ---- Counts ---- */

static struct {
    unsigned long open[KINDS];        /* refused 10 for a part of the kind */
    unsigned long both[KINDS];        /* the same, and a mark of it is wrong */
    unsigned long marks_close[KINDS]; /* the same, and its own marks close */
    unsigned long marks_open[KINDS];  /* refused 9, its truth closes, and its own marks do not */
    unsigned long below_open[12];  /* refused 9 or 11, and a higher part does not close */
} counts;

static bool mark(int part, int row)
{
    return *mark_byte(&case_marks, part, row);
}

/* Is the mark of Y, Z, S or T on row P as the equation has it after row W - 1? */
static bool own_marks_close(const struct plan *p, const struct formula *f, int part)
{
    int first = p->start, last = p->rows - 1;
    if (f->kind == SINCE)
        return mark(part, first) == (mark(f->b, first) || (mark(f->a, first) && mark(part, last)));
    if (f->kind == TRIGGER)
        return mark(part, first) == (mark(f->b, first) && (mark(f->a, first) || mark(part, last)));
    return mark(part, first) == mark(f->a, last);
}

/* Some part of the case does not close. */
static bool some_part_is_open(const struct rule *r, const struct plan *p)
{
    static struct sheet buffer;
    resize(&buffer, table_length(r->parts, p->rows));
    uint64_t made = second_make(&truth_space, slice_of(&case_rule), slice_of(&case_plan),
                                buffer.at, buffer.len);
    return endless_run_number(made) == ENDLESS_RUN_NO_TABLE;
}

/* A mark of the part is not its truth. The truth of the parts up to it has been found. */
static bool has_wrong_mark(int part)
{
    for (int row = 0; row < truth_space.plan.rows; row++)
        if (mark(part, row) != holds(&truth_space, part, row))
            return true;
    return false;
}

static void count_open(const struct plan *p, const struct formula *f, int part)
{
    second_acceptance(&truth_space, slice_of(&case_rule), slice_of(&case_plan),
                      slice_of(&case_marks));
    bool wrong = has_wrong_mark(part);
    counts.open[f->kind]++;
    counts.both[f->kind] += wrong;
    counts.marks_close[f->kind] += wrong && is_past(f->kind) && own_marks_close(p, f, part);
}

/* The answer is 9, 10 or 11. */
static void count_refused(uint64_t answer)
{
    struct rule r;
    struct plan p;
    decode_rule(slice_of(&case_rule), &r);
    decode_plan(slice_of(&case_plan), r.channels, &p);
    unsigned number = endless_run_number(answer);
    int part = (int)endless_run_part(answer);
    const struct formula *f = &r.part[part];
    if (number == ENDLESS_RUN_CLOSING) {
        count_open(&p, f, part);
        return;
    }
    counts.marks_open[f->kind] +=
        number == ENDLESS_RUN_EQUATION && is_past(f->kind) && !own_marks_close(&p, f, part);
    counts.below_open[number] += some_part_is_open(&r, &p);
}

static void hold_kind(const char *name, enum kind kind, const unsigned long *of_kinds,
                      unsigned long cases, unsigned long in_10000)
{
    char of_kind[64];
    snprintf(of_kind, sizeof of_kind, "%s %s", name, kind_names[kind]);
    hold_to_floor(of_kind, of_kinds[kind], cases, in_10000);
}

void print_closing_counts(unsigned long cases)
{
    for (enum kind kind = LESS; kind <= PINNED; kind++)
        if (is_atom(kind) || is_past(kind)) {
            unsigned long in_10000 = kind == PINNED ? 40 : is_atom(kind) ? 150 : 20;
            hold_kind("refused 10 for kind", kind, counts.open, cases, 2 * in_10000);
            hold_kind("refused 10, a wrong mark too, kind", kind, counts.both, cases, in_10000);
        }
    for (enum kind kind = YESTERDAY; kind <= TRIGGER; kind++) {
        hold_kind("refused 10, only wrong marks close, of", kind, counts.marks_close, cases, 10);
        hold_kind("refused 9, only marks do not close, of", kind, counts.marks_open, cases, 5);
    }
    hold_to_floor("refused 9, a higher part does not close",
                  counts.below_open[ENDLESS_RUN_EQUATION], cases, 50);
    hold_to_floor("refused 11, a higher part does not close",
                  counts.below_open[ENDLESS_RUN_WITNESS], cases, 50);
}

/* ---- Questions ---- */

void ask_about_closing(const char *name, uint64_t answer)
{
    if (endless_run_number(answer) == ENDLESS_RUN_CLOSING)
        expect_make_as_checked(name, &case_rule, &case_plan, &case_marks, answer);
    if (endless_run_number(answer) >= ENDLESS_RUN_EQUATION)
        count_refused(answer);
}
