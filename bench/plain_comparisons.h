/*
 * plain_comparisons.h: comparisons row by row, for the check, the maker and the settlers
 * in C.
 *
 * Kind 14 is a comparison too: a reading is pinned where the number before its top is less
 * than it, whatever is pinned. So it is taken as that, and where there is no top as 0 < 0.
 *
 * Every function is static, as in plain.h.
 */
#ifndef PLAIN_COMPARISONS_H
#define PLAIN_COMPARISONS_H

#include "plain_passes.h"

struct comparison {
    int kind; /* less or equal */
    bool under_tops;
    struct term left, right;
};

/* Less, equal and kind 14. */
static inline bool compares(int kind)
{
    return is_comparison(kind) || kind == PINNED;
}

static inline struct comparison get_pinned(struct term term)
{
    struct term zero = { false, 0, 0, 0, NO_TOP }, before = zero;
    if (term.top == NO_TOP)
        return (struct comparison){ LESS, false, zero, zero };
    before.constant = term.top - 1;
    term.top = NO_TOP;
    return (struct comparison){ LESS, false, before, term };
}

static inline struct comparison get_comparison(const struct plan *plan, int kind,
                                               const uint8_t *operand)
{
    struct term left = get_term(plan, operand);
    if (kind == PINNED)
        return get_pinned(left);
    struct term right = get_term(plan, operand + 6);
    return (struct comparison){ kind, left.top != NO_TOP || right.top != NO_TOP, left, right };
}

static inline bool compare(int kind, int64_t left, int64_t right)
{
    return kind == LESS ? left < right : left == right;
}

static inline bool compare_under_tops(const struct comparison *c, int64_t left, int64_t right)
{
    return compare(c->kind, left, right) && left < c->left.top && right < c->right.top;
}

/* How far the terms reach back at most. */
static inline int reach_back(const struct comparison *c)
{
    int least = c->left.is_reading ? c->left.shift : 0;
    if (c->right.is_reading && c->right.shift < least)
        least = c->right.shift;
    return least < 0 ? -least : 0;
}

/* The first position from 0 on from which no term reaches before position -L. */
static inline int first_seen(const struct plan *plan, const struct comparison *c)
{
    int back = reach_back(c);
    return back > plan->lead ? back - plan->lead : 0;
}

static inline bool truth_at(const struct plan *plan, const struct comparison *c, int position)
{
    if (position < first_seen(plan, c))
        return false;
    return compare_under_tops(c, line_at(plan, &c->left, position).number,
                              line_at(plan, &c->right, position).number);
}

/* The truth of a comparison of two lines without tops, over all passes from 0 on. */
static inline int judge_lines(int kind, struct line left, struct line right)
{
    int64_t gap = right.number - left.number, step = right.step - left.step;
    if (kind == LESS) {
        if (gap > 0)
            return step < 0 ? CHANGES : ALWAYS_TRUE;
        return step > 0 ? CHANGES : ALWAYS_FALSE;
    }
    if (gap == 0)
        return step != 0 ? CHANGES : ALWAYS_TRUE;
    if (step == 0 || (gap > 0) == (step > 0))
        return ALWAYS_FALSE;
    return gap % step == 0 ? CHANGES : ALWAYS_FALSE;
}

/* The passes on which the comparison holds of these lines of its terms. */
static inline struct passes passes_of(const struct comparison *c, struct line left,
                                      struct line right)
{
    struct line gap = { left.number - right.number, left.step - right.step };
    struct passes p = c->kind == LESS ? passes_below(gap, 0) : passes_at_0(gap);
    p = common_passes(p, passes_unpinned(left, c->left.top));
    return common_passes(p, passes_unpinned(right, c->right.top));
}

static inline int judge_comparison(const struct comparison *c, struct line left, struct line right)
{
    return c->under_tops ? judge_passes(passes_of(c, left, right))
                         : judge_lines(c->kind, left, right);
}

/* The marks of some rows, by the lines of both terms on each. */
static inline void compare_lines(const struct comparison *c, const struct line *lefts,
                                 const struct line *rights, int row, int rows, uint8_t *m)
{
    if (c->under_tops)
        for (; row < rows; row++)
            m[row] = compare_under_tops(c, lefts[row].number, rights[row].number);
    else
        for (; row < rows; row++)
            m[row] = compare(c->kind, lefts[row].number, rights[row].number);
}

/* The lowest of some rows on which these lines make it change; W if there is none. */
static inline int first_change(const struct comparison *c, const struct line *lefts,
                               const struct line *rights, int row, int rows)
{
    if (c->under_tops)
        while (row < rows && judge_passes(passes_of(c, lefts[row], rights[row])) != CHANGES)
            row++;
    else
        while (row < rows && judge_lines(c->kind, lefts[row], rights[row]) != CHANGES)
            row++;
    return row;
}

/* A position on a cycle row from which a shift reaches back to before row P. */
static inline int judge_early_row(const struct plan *plan, const struct comparison *c, int first)
{
    int late = first + MOST_SHIFT * plan->cycle;
    int judged =
        judge_comparison(c, line_at(plan, &c->left, late), line_at(plan, &c->right, late));
    for (int position = first; position < late; position += plan->cycle)
        if (judged != truth_at(plan, c, position))
            return CHANGES;
    return judged;
}

#endif
