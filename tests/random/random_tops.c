/*
 * random_tops.c: what random atoms under tops are judged to be, and their passes looked at
 * one by one.
 *
 * As in random.c a count below its floor is a failure. Counted is what a checker could get
 * wrong: readings at a top and beside it, rising to it and falling from it, on early and on
 * late passes, in lead-in rows and beyond 32 bits; and atoms that the tops alone make what
 * they are.
 */
#include "random.h"

#include "cases.h"
#include "expect.h"

enum { ONE_BY_ONE = 300 };

static struct {
    unsigned long judged[3];     /* kind 14, of a channel with a top */
    unsigned long no_top;        /* kind 14, of a channel without */
    unsigned long at_top;        /* a term on pass 0 */
    unsigned long below_top;     /* the same, one below its top */
    unsigned long lead_in;       /* a term on pass 0 pinned in the lead-in */
    unsigned long both;          /* both terms pinned on pass 0 */
    unsigned long unseen;        /* one unseen on pass 0, the other one pinned */
    unsigned long rising[3];     /* comparisons, windows, kind 14 that change as one rises */
    unsigned long falling[3];    /* .. and as one falls */
    unsigned long late;          /* pinned, or not, on a pass above 300 for the first time */
    unsigned long very_late;     /* .. on one above 2^31 */
    unsigned long turned[3];     /* judged 0 or 2, and otherwise without tops */
    unsigned long turned_window; /* the same, a window */
} counts;

/* ---- Passes one by one ---- */

static bool is_alike(const struct plan *p, const struct formula *f, int row, int64_t from,
                     int64_t to)
{
    for (int64_t pass = from; pass < to; pass++)
        if (atom_holds(p, f, position_of(p, row, pass)) != atom_holds(p, f, row))
            return false;
    return true;
}

/* The first passes of a cycle row, and those about its last turn, are all alike, or the
   atom is said to change. */
static bool agrees_one_by_one(const struct plan *p, const struct formula *f, int row,
                              uint64_t answer)
{
    if (answer == CHANGES)
        return true;
    if (row >= p->start) {
        int64_t last = last_turn(p, f, row);
        if (!is_alike(p, f, row, 1, ONE_BY_ONE) || !is_alike(p, f, row, last - 4, last + 4))
            return false;
    }
    return answer == atom_holds(p, f, row);
}

/* ---- Counts ---- */

static int group_of(enum kind kind)
{
    return kind == PINNED ? 2 : kind == WINDOW;
}

/* The term on pass 0. */
static void count_term(const struct plan *p, const struct term *term, int row)
{
    if (!term->is_reading || p->top[term->number] == 0)
        return;
    int position = row + term->shift;
    if (position >= 0 && position < p->rows) {
        int32_t reading = p->reading[position][term->number], top = p->top[term->number];
        counts.at_top += reading == top;
        counts.below_top += reading == top - 1;
    }
    counts.lead_in += position < 0 && is_pinned(p, term, row);
}

/* Is the term pinned on one of two passes of the row, and not on the other? */
static bool turns_between(const struct plan *p, const struct term *term, int row, int64_t from,
                          int64_t to, bool to_pinned)
{
    return is_pinned(p, term, position_of(p, row, to)) == to_pinned &&
           is_pinned(p, term, position_of(p, row, from)) != to_pinned;
}

/* From pass 4 to its last turn a term comes to its top, or leaves it. */
static void count_turns(const struct plan *p, const struct formula *f, int row, uint64_t answer)
{
    int64_t last = last_turn(p, f, row);
    bool rises = turns_between(p, &f->left, row, LINES_FROM, last, true) ||
                 turns_between(p, &f->right, row, LINES_FROM, last, true);
    bool falls = turns_between(p, &f->left, row, LINES_FROM, last, false) ||
                 turns_between(p, &f->right, row, LINES_FROM, last, false);
    counts.rising[group_of(f->kind)] += rises && answer == CHANGES;
    counts.falling[group_of(f->kind)] += falls && answer == CHANGES;
    counts.late += (rises || falls) && last > ONE_BY_ONE;
    counts.very_late += (rises || falls) && last > (int64_t)1 << 31;
}

static void count_without_tops(const struct plan *p, const struct formula *f, int row,
                               uint64_t answer)
{
    struct plan topless = *p;
    for (int channel = 0; channel < p->channels; channel++)
        topless.top[channel] = 0;
    if (f->kind == PINNED || judge_by_passes(&topless, f, row) == answer)
        return;
    counts.turned[answer]++;
    counts.turned_window += f->kind == WINDOW;
}

void count_top(const char *name, const struct plan *p, const struct formula *f, int row,
               uint64_t answer)
{
    if (f->kind == PINNED && p->top[f->left.number] == 0)
        counts.no_top++;
    else if (f->kind == PINNED)
        counts.judged[answer]++;
    if (!has_tops(p))
        return;
    expect(name, agrees_one_by_one(p, f, row, answer));
    bool left = is_pinned(p, &f->left, row), right = is_pinned(p, &f->right, row);
    counts.both += left && right;
    counts.unseen += (left && f->right.is_reading && row + f->right.shift < -p->lead) ||
                     (right && f->left.is_reading && row + f->left.shift < -p->lead);
    count_term(p, &f->left, row);
    count_term(p, &f->right, row);
    count_without_tops(p, f, row, answer);
    if (row >= p->start)
        count_turns(p, f, row, answer);
}

void print_top_counts(unsigned long cases)
{
    hold_each("kind 14 judged", counts.judged, 3, cases, 50);
    hold_to_floor("kind 14, no top", counts.no_top, cases, 50);
    hold_to_floor("a term at its top", counts.at_top, cases, 200);
    hold_to_floor("a term one below its top", counts.below_top, cases, 200);
    hold_to_floor("a term pinned in the lead-in", counts.lead_in, cases, 20);
    hold_to_floor("both terms pinned", counts.both, cases, 50);
    hold_to_floor("one term pinned, the other unseen", counts.unseen, cases, 5);
    hold_each("judged 2, rising to a top, group", counts.rising, 3, cases, 20);
    hold_each("judged 2, falling from a top, group", counts.falling, 3, cases, 8);
    hold_to_floor("pinned, or not, on a late pass", counts.late, cases, 20);
    hold_to_floor("pinned, or not, on a very late pass", counts.very_late, cases, 3);
    hold_to_floor("judged 0, not without tops", counts.turned[ALWAYS_FALSE], cases, 100);
    hold_to_floor("judged 2, not without tops", counts.turned[CHANGES], cases, 20);
    expect("tops make nothing always true", counts.turned[ALWAYS_TRUE] == 0);
    hold_to_floor("a window other than without tops", counts.turned_window, cases, 20);
}
