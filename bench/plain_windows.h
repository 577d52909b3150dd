/*
 * plain_windows.h: windows of the week row by row, for the check, the maker and the
 * settlers in C.
 *
 * How a window is judged on a cycle row. From some pass on its reading is a straight
 * line in the pass, as in plain.h, and the minute goes round the week by the drift. The
 * minutes that it comes to are those that lie whole multiples of g from the first one,
 * where g is the greatest common divisor of the drift and the week: 10080 for a drift of
 * 0 or of whole weeks. Let s be the remainder by g of the reading less from. The first
 * minute met from "from" on is s after it, and the last one 10080 - g after that. So no
 * pass is inside where s is the window's length or more, and every pass is where
 * s + 10080 - g is below the length. One remainder decides.
 *
 * Under a top the passes that count are those on which the reading is not pinned
 * (plain_passes.h). Where they have no end, every minute is met on them as before. Where
 * they have one, and some minute is inside, the first pass inside must come before it. That
 * pass is found as a greatest common divisor is: with k minutes a pass, the question of which
 * pass is the question of which round of the week, with steps of 10080 by k.
 *
 * Every function is static, as in plain.h.
 */
#ifndef PLAIN_WINDOWS_H
#define PLAIN_WINDOWS_H

#include "plain_passes.h"

struct window {
    struct term term;
    int32_t from, length;
};

static inline struct window get_window(const struct plan *plan, const uint8_t *operand)
{
    int32_t from = (int32_t)get16(operand + 6), to = (int32_t)get16(operand + 8);
    return (struct window){ get_term(plan, operand), from, to - from + (to < from ? WEEK : 0) };
}

static inline int reach_of(const struct window *w)
{
    return w->term.shift < 0 ? -w->term.shift : 0;
}

/* The first position from 0 on from which the reading is not before position -L. */
static inline int first_in_sight(const struct plan *plan, const struct window *w)
{
    int back = reach_of(w);
    return back > plan->lead ? back - plan->lead : 0;
}

static inline int32_t upward(int32_t remainder, int32_t by)
{
    return remainder < 0 ? remainder + by : remainder;
}

/* The remainder, from 0 upward. */
static inline int32_t rest(int32_t number, int32_t by)
{
    return upward(number % by, by);
}

/* What a drift makes of a window. It is kept for the rows that follow, and found anew
   where the drift is another. */
struct turn {
    int32_t drift, g;
    int32_t from;   /* its remainder by g */
    int32_t inside; /* for s below this every pass is inside */
};

static inline struct turn no_turn(const struct window *w)
{
    return (struct turn){ 0, WEEK, w->from, w->length };
}

static inline int32_t common_divisor(int32_t drift)
{
    uint32_t a = WEEK, b = (drift < 0 ? 0u - (uint32_t)drift : (uint32_t)drift) % WEEK;
    while (b != 0) {
        uint32_t r = a % b;
        a = b;
        b = r;
    }
    return (int32_t)a;
}

static inline void turn_by(const struct window *w, struct turn *turn, int32_t drift)
{
    if (drift == turn->drift)
        return;
    int32_t g = common_divisor(drift), outside = WEEK - g;
    *turn = (struct turn){ drift, g, w->from % g, w->length > outside ? w->length - outside : 0 };
}

/* The truth over all passes from that of this reading on, without a top. */
static inline int judge_turn(const struct window *w, const struct turn *turn, int32_t reading)
{
    int32_t s = upward(rest(reading, turn->g) - turn->from, turn->g);
    return s >= w->length ? ALWAYS_FALSE : s < turn->inside ? ALWAYS_TRUE : CHANGES;
}

/* How many minutes the number lies after from, round the week. */
static inline int32_t minutes_after(const struct window *w, int64_t number)
{
    return upward(upward((int32_t)(number % WEEK), WEEK) - w->from, WEEK);
}

static inline bool is_inside(const struct window *w, int64_t number)
{
    return minutes_after(w, number) < w->length;
}

/* ---- Under a top ---- */

/* The least k from 0 on for which the remainder of k * a by m is from low to high: there is
   one, and 0 is not. */
static inline int32_t first_between(int32_t a, int32_t m, int32_t low, int32_t high)
{
    if (2 * a > m)
        return first_between(m - a, m, m - high, m - low);
    int32_t k = (low + a - 1) / a;
    if (k * a <= high)
        return k;
    int32_t rounds = first_between(m % a, a, a - high % a, a - low % a);
    return (rounds * m + low + a - 1) / a;
}

/* The first pass inside, of a line that comes inside on some pass. */
static inline int64_t first_inside(const struct window *w, struct line line)
{
    int32_t after = minutes_after(w, line.number), step = upward((int32_t)(line.step % WEEK), WEEK);
    if (after < w->length)
        return 0;
    return first_between(step, WEEK, WEEK - after, WEEK - after + w->length - 1);
}

static inline int judge_turn_under_top(const struct window *w, const struct turn *turn,
                                       struct line line)
{
    int judged = judge_turn(w, turn, (int32_t)(line.number % WEEK));
    if (judged == ALWAYS_FALSE)
        return ALWAYS_FALSE;
    struct passes unpinned = passes_unpinned(line, w->term.top);
    if (are_none(unpinned))
        return ALWAYS_FALSE;
    if (are_all(unpinned))
        return judged;
    return unpinned.end == FOREVER || first_inside(w, line) < unpinned.end ? CHANGES
                                                                            : ALWAYS_FALSE;
}

/* ---- Lines and positions ---- */

/* A reading of a row on a pass, over all passes from that one on. Without a top it is on
   every pass, by g, what it is on its row. */
static inline int judge_read(const struct window *w, bool under_top, struct turn *turn,
                             int32_t reading, int32_t drift, int64_t pass)
{
    turn_by(w, turn, drift);
    if (!under_top)
        return judge_turn(w, turn, reading);
    return judge_turn_under_top(w, turn, (struct line){ reading + pass * drift, drift });
}

/* The same for a line, whose number may be above 32 bits. */
static inline int judge_window_line(const struct window *w, struct line line)
{
    struct turn turn = no_turn(w);
    turn_by(w, &turn, (int32_t)line.step);
    return w->term.top == NO_TOP ? judge_turn(w, &turn, (int32_t)(line.number % WEEK))
                                 : judge_turn_under_top(w, &turn, line);
}

static inline bool window_at(const struct plan *plan, const struct window *w, int position)
{
    if (position < first_in_sight(plan, w))
        return false;
    int64_t number = line_at(plan, &w->term, position).number;
    return number < w->term.top && is_inside(w, number);
}

/* A position on a cycle row from which the shift reaches back to before row P. */
static inline int judge_early_window(const struct plan *plan, const struct window *w, int first)
{
    int late = first + MOST_SHIFT * plan->cycle;
    int judged = judge_window_line(w, line_at(plan, &w->term, late));
    for (int position = first; position < late; position += plan->cycle)
        if (judged != window_at(plan, w, position))
            return CHANGES;
    return judged;
}

#endif
