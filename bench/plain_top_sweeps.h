/*
 * plain_top_sweeps.h: comparisons under tops held against their marks, many rows at once.
 *
 * x < y holds on the passes on which three lines are below their limits: the gap of the two
 * is below 0, and neither is pinned. A row is clear at a glance where all three are and none
 * ever rises above, or where one of them is above and never falls below. All other rows are in
 * doubt. There the mark must be 0, and the passes of the three lines may have none in common:
 * from the pass on from which those that fall are below, one that rises must be above. The
 * lines have numbers and steps of 32 bits or differences of such, so that this pass is 2^32 at
 * most, a division of 32 bits finds it, and what a line has gained by then is below 2^64.
 *
 * x = y is looked at likewise. In doubt the two lines are together on one pass at most.
 *
 * Every function is static, as in plain.h.
 */
#ifndef PLAIN_TOP_SWEEPS_H
#define PLAIN_TOP_SWEEPS_H

#include "plain_comparisons.h"
#include "plain_loops.h"

static inline struct limits limits_of(const struct term *term)
{
    if (term->top == NO_TOP)
        return (struct limits){ INT32_MAX, INT32_MAX };
    return (struct limits){ (int32_t)(term->top - 1), 0 };
}

/* ---- At a glance ---- */

static inline bool less_under_tops_as_marked(const struct stretch *s, size_t i, size_t j)
{
    const int32_t *x = s->x, *y = s->y, a = s->left.number, b = s->right.number;
    const uint8_t *m = s->m;
    ALL_ZERO(int32_t, s->count,
             m[k] - ((x[i * k] < y[j * k]) & (x[i * k] <= a) & (y[j * k] <= b)));
}

static inline bool equal_under_tops_as_marked(const struct stretch *s, size_t i, size_t j)
{
    const int32_t *x = s->x, *y = s->y, a = s->left.number, b = s->right.number;
    const uint8_t *m = s->m;
    ALL_ZERO(int32_t, s->count,
             m[k] - ((x[i * k] == y[j * k]) & (x[i * k] <= a) & (y[j * k] <= b)));
}

/* 0 if x is less than y as marked, and neither is pinned, clearly so on every later pass. */
static inline int32_t doubt_of_less(int32_t x, int32_t d, struct limits a, int32_t y, int32_t e,
                                    struct limits b, uint8_t mark)
{
    int32_t less = -(x < y), x_pinned = -(a.number < x), y_pinned = -(b.number < y);
    int32_t holds = less & ~(x_pinned | y_pinned);
    int32_t ends = -(e < d) | -(a.drift < d) | -(b.drift < e);
    int32_t never = ~(less | -(d < e)) | (x_pinned & ~-(d < 0)) | (y_pinned & ~-(e < 0));
    return (mark + holds) | (holds & ends) | ~(holds | never);
}

/* The same for x equal to y. */
static inline int32_t doubt_of_equal(int32_t x, int32_t d, struct limits a, int32_t y, int32_t e,
                                     struct limits b, uint8_t mark)
{
    int32_t same = -(x == y), x_pinned = -(a.number < x), y_pinned = -(b.number < y);
    int32_t holds = same & ~(x_pinned | y_pinned);
    int32_t ends = ~-(d == e) | -(a.drift < d) | -(b.drift < e);
    int32_t apart = (-(x < y) & ~-(e < d)) | (-(y < x) & ~-(d < e));
    int32_t never = apart | (x_pinned & ~-(d < 0)) | (y_pinned & ~-(e < 0));
    return (mark + holds) | (holds & ends) | ~(holds | never);
}

static inline bool less_without_doubt(const struct stretch *s, size_t i, size_t j)
{
    const int32_t *x = s->x, *d = s->d, *y = s->y, *e = s->e;
    const struct limits a = s->left, b = s->right;
    const uint8_t *m = s->m;
    int32_t *restrict doubts = s->doubts;
    ALL_ZERO(int32_t, s->count,
             doubts[k] = doubt_of_less(x[i * k], d[i * k], a, y[j * k], e[j * k], b, m[k]));
}

static inline bool equal_without_doubt(const struct stretch *s, size_t i, size_t j)
{
    const int32_t *x = s->x, *d = s->d, *y = s->y, *e = s->e;
    const struct limits a = s->left, b = s->right;
    const uint8_t *m = s->m;
    int32_t *restrict doubts = s->doubts;
    ALL_ZERO(int32_t, s->count,
             doubts[k] = doubt_of_equal(x[i * k], d[i * k], a, y[j * k], e[j * k], b, m[k]));
}

/* ---- In doubt ---- */

/* A line that is below 0 where the number is not pinned. */
static inline struct line to_limit(int32_t number, int32_t drift, struct limits limits)
{
    if (limits.drift != 0)
        return (struct line){ -1, 0 };
    return (struct line){ (int64_t)number - limits.number - 1, drift };
}

/* Up to pass 2^32. */
static inline bool is_below_0(struct line line, uint64_t pass)
{
    if (line.number < 0)
        return line.step <= 0 || pass * (uint64_t)line.step < (uint64_t)-line.number;
    return line.step < 0 && pass * (uint64_t)-line.step > (uint64_t)line.number;
}

/* The first pass on which a line that is not below 0 and falls is so. */
static inline uint64_t first_below_0(struct line line)
{
    return (uint64_t)((uint32_t)line.number / (uint32_t)-line.step) + 1;
}

static inline bool are_never_all_below_0(const struct line *lines, int count)
{
    uint64_t pass = 0;
    for (int i = 0; i < count; i++)
        if (lines[i].number >= 0) {
            if (lines[i].step >= 0)
                return true;
            uint64_t first = first_below_0(lines[i]);
            pass = first > pass ? first : pass;
        }
    for (int i = 0; i < count; i++)
        if (!is_below_0(lines[i], pass))
            return true;
    return false;
}

static inline bool is_never_less(int32_t x, int32_t d, struct limits a, int32_t y, int32_t e,
                                 struct limits b)
{
    struct line gap = { (int64_t)x - y, (int64_t)d - e };
    struct line lines[] = { gap, to_limit(x, d, a), to_limit(y, e, b) };
    return are_never_all_below_0(lines, 3);
}

static inline bool is_never_equal(int32_t x, int32_t d, struct limits a, int32_t y, int32_t e,
                                  struct limits b)
{
    struct line lines[] = { to_limit(x, d, a), to_limit(y, e, b) };
    int64_t gap = (int64_t)y - x, gain = (int64_t)d - e;
    if (gain == 0)
        return gap != 0 || are_never_all_below_0(lines, 2);
    if (gain < 0) {
        gap = -gap;
        gain = -gain;
    }
    if (gap < 0 || (uint32_t)gap % (uint32_t)gain != 0)
        return true;
    uint64_t pass = (uint32_t)gap / (uint32_t)gain;
    return !is_below_0(lines[0], pass) || !is_below_0(lines[1], pass);
}

static inline bool doubts_are_clear(int kind, const struct stretch *s)
{
    for (size_t k = 0; k < s->count; k++) {
        if (s->doubts[k] == 0)
            continue;
        size_t i = s->left_step ? k : 0, j = s->right_step ? k : 0;
        int32_t x = s->x[i], d = s->d[i], y = s->y[j], e = s->e[j];
        if (s->m[k] != 0 || !(kind == LESS ? is_never_less(x, d, s->left, y, e, s->right)
                                           : is_never_equal(x, d, s->left, y, e, s->right)))
            return false;
    }
    return true;
}

/* ---- Stretches ---- */

static inline bool is_as_marked_under_tops(int kind, const struct stretch *s)
{
    return kind == LESS ? BY_STEPS(less_under_tops_as_marked, s)
                        : BY_STEPS(equal_under_tops_as_marked, s);
}

static inline bool is_always_as_marked_under_tops(int kind, struct stretch *s)
{
    int32_t doubts[MOST_ROWS];
    s->doubts = doubts;
    return (kind == LESS ? BY_STEPS(less_without_doubt, s) : BY_STEPS(equal_without_doubt, s)) ||
           doubts_are_clear(kind, s);
}

#endif
