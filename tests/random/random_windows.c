/*
 * random_windows.c: what random windows are judged to be.
 *
 * As in random.c a count below its floor is a failure. Counted is what a checker could
 * get wrong: the ends of a window, the end of the week, readings below 0, drifts that come
 * to some minutes alone, and passes that differ early or late.
 */
#include "random.h"

#include "expect.h"

enum { LATE_PASS = 100 };

static struct {
    unsigned long over_the_end[3]; /* judged so, runs over the end of the week */
    unsigned long drifting[3];     /* judged so on a cycle row that reads one with a drift */
    unsigned long parts_of_week;   /* always true, a drift that is not of whole weeks */
    unsigned long late;            /* changes, alike on the first 100 passes */
    unsigned long early;           /* changes on the first passes alone */
    unsigned long below_0[2];      /* holds or not on pass 0, of a reading below 0 */
    unsigned long at_from, at_to;  /* on pass 0, and the minute before each */
    unsigned long before_from, before_to;
    unsigned long unseen; /* before the lead-in on pass 0 */
} counts;

/* The reading on pass 0, where it lies in the lead-in or on a row of the first pass. */
static bool find_reading(const struct plan *p, const struct formula *f, int row, int32_t *reading)
{
    int position = row + f->left.shift;
    if (position < -p->lead || position >= p->rows)
        return false;
    *reading = position < 0 ? p->lead_in[p->lead + position][f->left.number]
                            : p->reading[position][f->left.number];
    return true;
}

/* Does the window hold of this reading's minute and one minute on, or back, not? */
static void count_reading(const struct plan *p, const struct formula *f, int row, int32_t reading)
{
    int minute = (int)(((int64_t)reading + ((int64_t)WEEK << 20)) % WEEK);
    counts.below_0[atom_holds(p, f, row)] += reading < 0;
    counts.at_from += minute == f->from;
    counts.before_from += (minute + 1) % WEEK == f->from;
    counts.at_to += minute == f->to;
    counts.before_to += (minute + 1) % WEEK == f->to;
}

static bool is_alike_at_first(const struct plan *p, const struct formula *f, int row)
{
    for (int64_t pass = 1; pass < LATE_PASS; pass++)
        if (atom_holds(p, f, position_of(p, row, pass)) != atom_holds(p, f, row))
            return false;
    return true;
}

/* The drift of the row that a cycle row reads, once its shift is in the cycle. */
static int32_t drift_read(const struct plan *p, const struct formula *f, int row)
{
    int position = row + LINES_FROM * p->cycle + f->left.shift;
    return p->drift[p->start + (position - p->start) % p->cycle][f->left.number];
}

static void count_on_cycle(const struct plan *p, const struct formula *f, int row, uint64_t answer)
{
    int32_t drift = drift_read(p, f, row);
    counts.drifting[answer] += drift != 0;
    counts.parts_of_week += answer == ALWAYS_TRUE && drift % WEEK != 0;
    if (answer == CHANGES) {
        counts.late += is_alike_at_first(p, f, row);
        counts.early += settled_pass(p, f, row) == LINES_FROM;
    }
}

void count_window(const struct plan *p, const struct formula *f, int row, uint64_t answer)
{
    int32_t reading;
    counts.over_the_end[answer] += f->from > f->to;
    counts.unseen += row + f->left.shift < -p->lead;
    if (find_reading(p, f, row, &reading))
        count_reading(p, f, row, reading);
    if (row >= p->start)
        count_on_cycle(p, f, row, answer);
}

void print_window_counts(unsigned long cases)
{
    hold_each("window over the end of the week, judged", counts.over_the_end, 3, cases, 200);
    hold_each("window, a drift, judged", counts.drifting, 3, cases, 100);
    hold_to_floor("window judged 1, a drift of part of a week", counts.parts_of_week, cases, 30);
    hold_to_floor("window judged 2, alike on the first passes", counts.late, cases, 20);
    hold_to_floor("window judged 2, by an early pass alone", counts.early, cases, 20);
    hold_each("window of a reading below 0, holds", counts.below_0, 2, cases, 100);
    hold_to_floor("window, at from", counts.at_from, cases, 50);
    hold_to_floor("window, a minute before from", counts.before_from, cases, 50);
    hold_to_floor("window, at to", counts.at_to, cases, 50);
    hold_to_floor("window, a minute before to", counts.before_to, cases, 50);
    hold_to_floor("window, before the lead-in", counts.unseen, cases, 50);
}
