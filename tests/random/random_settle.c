/*
 * random_settle.c: random cases of settle against the second evaluator.
 *
 * As in random.c the answers are counted, and so is what a settler could get wrong; a
 * count below its floor is a failure.
 */
#include "random.h"

#include "cases.h"
#include "dice.h"
#include "expect.h"

#include "../../include/endless_run.h"

#include <stdio.h>

/* ---- Counts ---- */

enum { FEW_PASSES = 8 };

static struct {
    unsigned long passes[FEW_PASSES], many, hundred; /* settled; 8 or more; 100 or more */
    unsigned long refused[16];
    unsigned long full;      /* settled, 256 rows */
    unsigned long last;      /* settled, and no more passes fit 32 bits */
    unsigned long bound;     /* settled by just 4 passes and the nesting, nothing drifts */
    unsigned long deep;      /* the same, nested 3 deep or more */
    unsigned long drifting;  /* settled by a pass or more, some drifts */
    unsigned long led[5];    /* settled by a pass or more, with so many lead-in rows */
    unsigned long open[KINDS];  /* settled, and with a pass fewer a part of the kind is open */
    unsigned long topped[2]; /* settled by a pass or more, refused 15, under tops */
    unsigned long unnamed;   /* settled, and with a pass fewer only unreached ones are */
    unsigned long rows;      /* refused 15 for the rows */
    unsigned long too_large; /* refused 15 for a reading above 32 bits */
    unsigned long too_small; /* refused 15 for one below */
    unsigned long unread;    /* refused 15 for a channel that no atom reads */
    unsigned long both[2];   /* refused 13 where the right lengths settle, and give 15 */
    unsigned long older;     /* refused 13 for a scratch of the length before version 8 */
} counts;

enum { OLDER_SCRATCH = 16516 };

/* ---- Settled ---- */

/* The parts from which the whole rule is made. */
static void find_reached(const struct rule *r, bool *reached)
{
    for (int part = 0; part < r->parts; part++)
        reached[part] = part == r->parts - 1;
    for (int part = r->parts - 1; part >= 0; part--) {
        const struct formula *f = &r->part[part];
        if (!reached[part] || is_atom(f->kind))
            continue;
        reached[f->a] = true;
        if (names_two_parts(f->kind))
            reached[f->b] = true;
    }
}

/* The parts that are open with so many passes laid out: the lowest, and whether the
   whole rule is made from one of them. */
static int lowest_open(const struct rule *r, const struct plan *p, int passes, bool *any_reached)
{
    bool reached[MOST_PARTS];
    int lowest = -1;
    *any_reached = false;
    find_reached(r, reached);
    truth_space.rule = *r;
    truth_space.plan = *p;
    for (; passes > 0; passes--)
        lay_out_pass(&truth_space.plan);
    for (int part = 0; part < r->parts; part++) {
        find_truth(&truth_space, part);
        if (is_row_periodic(&truth_space, part))
            continue;
        lowest = lowest < 0 ? part : lowest;
        *any_reached |= reached[part];
    }
    return lowest;
}

/* Where one pass more of a channel does not fit 32 bits: 1 above, -1 below; 0 where it
   does. */
static int way_out(const struct plan *p, int channel)
{
    for (int row = p->start; row < p->rows; row++) {
        int64_t reading = (int64_t)p->reading[row][channel] + p->drift[row][channel];
        if (reading > INT32_MAX || reading < INT32_MIN)
            return reading < 0 ? -1 : 1;
    }
    return 0;
}

static void count_settled(const struct rule *r, const struct plan *p, int passes)
{
    struct plan new = *p;
    bool any_reached, is_last = false;
    if (passes < FEW_PASSES)
        counts.passes[passes]++;
    counts.many += passes >= FEW_PASSES;
    counts.hundred += passes >= 100;
    if (passes == 0)
        return;
    for (int i = 0; i < passes; i++)
        lay_out_pass(&new);
    for (int channel = 0; channel < p->channels; channel++)
        is_last |= way_out(&new, channel) != 0;
    int nesting = deepest_nesting(r), open = lowest_open(r, p, passes - 1, &any_reached);
    counts.full += new.rows == MOST_ROWS;
    counts.last += is_last;
    counts.bound += is_still(p) && passes == 4 + nesting;
    counts.deep += is_still(p) && passes == 4 + nesting && nesting >= 3;
    counts.drifting += !is_still(p);
    counts.topped[0] += has_tops(p);
    counts.led[p->lead]++;
    counts.open[r->part[open].kind]++;
    counts.unnamed += !any_reached;
}

/* ---- Refused ---- */

static bool is_read(const struct rule *r, int channel)
{
    for (int part = 0; part < r->parts; part++) {
        const struct formula *f = &r->part[part];
        if (is_atom(f->kind) && ((f->left.is_reading && f->left.number == channel) ||
                                 (f->right.is_reading && f->right.number == channel)))
            return true;
    }
    return false;
}

static void count_no_room(const struct rule *r, struct plan p)
{
    bool too_large = false, too_small = false, read = false;
    counts.topped[1] += has_tops(&p);
    while (lay_out_pass(&p))
        ;
    if (p.rows + p.cycle > MOST_ROWS) {
        counts.rows++;
        return;
    }
    for (int channel = 0; channel < p.channels; channel++) {
        int way = way_out(&p, channel);
        too_large |= way > 0;
        too_small |= way < 0;
        read |= way != 0 && is_read(r, channel);
    }
    counts.too_large += too_large;
    counts.too_small += too_small;
    counts.unread += !read;
}

static void count_answer(uint64_t answer)
{
    struct rule r;
    struct plan p;
    counts.refused[endless_run_number(answer)]++;
    if (decode_rule(slice_of(&case_rule), &r) != 0 ||
        decode_plan(slice_of(&case_plan), r.channels, &p) != 0)
        return;
    if (!endless_run_is_refusal(answer))
        count_settled(&r, &p, (int)answer);
    else if (endless_run_number(answer) == ENDLESS_RUN_NO_LAYOUT)
        count_no_room(&r, p);
}

/* ---- Floors ---- */

static void hold_settled(unsigned long cases)
{
    char name[64];
    hold_each("settled, passes", counts.passes, FEW_PASSES, cases, 50);
    hold_to_floor("settled, 8 passes or more", counts.many, cases, 50);
    hold_to_floor("settled, 100 passes or more", counts.hundred, cases, 2);
    hold_to_floor("settled, 256 rows", counts.full, cases, 20);
    hold_to_floor("settled, no more in 32 bits", counts.last, cases, 20);
    hold_to_floor("settled, 4 and the nesting", counts.bound, cases, 50);
    hold_to_floor("settled, 4 and the nesting, deep", counts.deep, cases, 10);
    hold_to_floor("settled by a pass, some drifts", counts.drifting, cases, 100);
    hold_each("settled by a pass, L", counts.led, MOST_LEAD + 1, cases, 100);
    hold_to_floor("settled for parts that are not reached", counts.unnamed, cases, 50);
    for (enum kind kind = LESS; kind <= PINNED; kind++)
        if (is_atom(kind) || is_past(kind)) {
            snprintf(name, sizeof name, "settled for kind %s", kind_names[kind]);
            hold_to_floor(name, counts.open[kind], cases, 30);
        }
}

void print_settle_counts(unsigned long cases)
{
    static const unsigned long floors[16] = { 0, 50, 20, 20, 50, 10, 10, [13] = 500, [15] = 500 };
    char name[64];
    hold_settled(cases);
    for (int number = 1; number <= 15; number++)
        if (floors[number] > 0) {
            snprintf(name, sizeof name, "settle refused %d", number);
            hold_to_floor(name, counts.refused[number], cases, floors[number]);
        }
    hold_to_floor("settle refused 13, right lengths settle", counts.both[0], cases, 100);
    hold_to_floor("settle refused 13, right lengths give 15", counts.both[1], cases, 50);
    hold_to_floor("settle refused 13, the older scratch", counts.older, cases, 10);
    hold_to_floor("settled by a pass, under tops", counts.topped[0], cases, 200);
    hold_to_floor("settle refused 15, under tops", counts.topped[1], cases, 100);
    hold_to_floor("settle refused 15 for the rows", counts.rows, cases, 200);
    hold_to_floor("settle refused 15, a reading too large", counts.too_large, cases, 50);
    hold_to_floor("settle refused 15, a reading too small", counts.too_small, cases, 50);
    hold_to_floor("settle refused 15, a channel not read", counts.unread, cases, 20);
}

/* ---- Questions ---- */

static size_t some_length(size_t right, size_t other)
{
    size_t wrong[] = { 0, 1, right - 1, right + 1, other, case_plan.len, OLDER_SCRATCH,
                       (size_t)below(SHEET_LONGEST) };
    return wrong[below(sizeof wrong / sizeof wrong[0])];
}

/* What settle answers in buffers of the right lengths. */
static uint64_t in_right_lengths(void)
{
    static uint8_t laid_out[LAID_OUT_LENGTH], scratch[SCRATCH_LENGTH];
    return second_settle(&truth_space, slice_of(&case_rule), slice_of(&case_plan), laid_out,
                         sizeof laid_out, scratch, sizeof scratch);
}

/* Mostly the buffers have the right lengths; else one of them has not, or both. */
void ask_to_settle(const char *name)
{
    static struct sheet laid_out, scratch;
    size_t right = ENDLESS_RUN_LAID_OUT_LENGTH, of_scratch = ENDLESS_RUN_SETTLE_SCRATCH_LENGTH;
    int wrong = chance(90) ? 0 : between(1, 3);
    resize(&laid_out, wrong & 1 ? some_length(right, of_scratch) : right);
    resize(&scratch, wrong & 2 ? some_length(of_scratch, right) : of_scratch);
    uint64_t settled = in_right_lengths(), answer = settled;
    bool looks_at_lengths = !endless_run_is_refusal(settled) || settled == refusal(15, 0, 0);
    if (looks_at_lengths && (laid_out.len != right || scratch.len != of_scratch))
        answer = refusal(13, 0, 0);
    if (!expect_settle(name, &case_rule, &case_plan, &laid_out, &scratch, answer) && failed <= 3) {
        print_sheet("rule", &case_rule);
        print_sheet("plan", &case_plan);
    }
    count_answer(answer);
    if (answer == refusal(13, 0, 0))
        counts.both[endless_run_is_refusal(settled)]++;
    counts.older += answer == refusal(13, 0, 0) && laid_out.len == right &&
                    scratch.len == OLDER_SCRATCH;
}
