/*
 * plain_sweeps.c: whole parts held against their marks at once.
 *
 * A comparison is looked at on the positions from 0 to W + back - 1, where back is
 * how far its terms reach back at most. Where one reaches before the lead-in rows, the
 * mark must be 0. Below P + back the truth at each position must be the mark of its
 * row. From there on each term is a straight line in the pass, and each cycle row
 * comes once: there the truth must be the mark too, and no later pass may change it.
 * All of this is 32-bit arithmetic, as the lanes hold the positions after row W - 1 as
 * well. A comparison under tops has loops of its own (plain_top_sweeps.h).
 */
#include "plain_sweeps.h"

#include "plain_top_sweeps.h"

#include <string.h>

/* ---- Lanes ---- */

void start_lanes(struct lanes *lanes, const struct plan *plan)
{
    size_t row_bytes = 4 * (size_t)plan->channels;
    lanes->plan = plan;
    lanes->still = all_bytes_are(0, plan->drifts + row_bytes * (size_t)plan->start,
                                 row_bytes * (size_t)plan->cycle);
    for (int channel = 0; channel < plan->channels; channel++)
        lanes->of[channel].laid_out = lanes->minutes[channel].laid_out = false;
}

/* Lay out the numbers of a channel from a row on. Four are read before the first of
   them is written, so that they can be written together. */
static void lay_out_numbers(const struct plan *plan, const uint8_t *numbers, int channel, int row,
                            int32_t *to)
{
    size_t stride = 4 * (size_t)plan->channels;
    const uint8_t *at = numbers + cell_of(plan, row, channel);
    for (; row + 4 <= plan->rows; row += 4, at += 4 * stride) {
        int32_t four[] = { get32(at), get32(at + stride), get32(at + 2 * stride),
                           get32(at + 3 * stride) };
        memcpy(to + row, four, sizeof four);
    }
    for (; row < plan->rows; row++, at += stride)
        to[row] = get32(at);
}

static void lay_out_after(const struct plan *plan, bool still, struct lane *lane)
{
    int32_t *readings = lane->readings + MOST_LEAD, *drifts = lane->drifts + MOST_LEAD;
    for (int k = 0; k < ROWS_AFTER; k++) {
        int row = plan->start + k % plan->cycle, pass = 1 + k / plan->cycle;
        int32_t drift = still ? 0 : drifts[row];
        int64_t reading = readings[row] + pass * (int64_t)drift;
        lane->fits &= reading >= INT32_MIN && reading <= INT32_MAX;
        readings[plan->rows + k] = (int32_t)reading;
        drifts[plan->rows + k] = drift;
    }
}

static const struct lane *get_lane(struct lanes *lanes, int channel)
{
    const struct plan *plan = lanes->plan;
    struct lane *lane = &lanes->of[channel];
    if (lane->laid_out)
        return lane;
    lay_out_numbers(plan, plan->readings, channel, -plan->lead, lane->readings + MOST_LEAD);
    if (!lanes->still)
        lay_out_numbers(plan, plan->drifts, channel, plan->start, lane->drifts + MOST_LEAD);
    lane->laid_out = true;
    lane->fits = true;
    lay_out_after(plan, lanes->still, lane);
    return lane;
}

/* ---- Comparisons ---- */

/* Where the numbers of a term are: that of position t is at step * (t + shift). The
   step is 1 in a lane, and 0 for a constant. */
struct side {
    const int32_t *readings, *drifts;
    int32_t constant;
    int shift, step;
    struct limits limits;
};

/* Gives false where the term does not fit. */
static bool get_side(struct lanes *lanes, const struct term *term, struct side *side)
{
    static const int32_t no_drift = 0;
    side->limits = limits_of(term);
    if (!term->is_reading) {
        side->constant = (int32_t)term->constant;
        side->readings = &side->constant;
        side->drifts = &no_drift;
        side->shift = side->step = 0;
        return true;
    }
    const struct lane *lane = get_lane(lanes, term->channel);
    side->readings = lane->readings + MOST_LEAD;
    side->drifts = lane->drifts + MOST_LEAD;
    side->shift = term->shift;
    side->step = 1;
    return lane->fits;
}

static struct stretch get_stretch(const struct side *left, const struct side *right, int position,
                                  const uint8_t *m, int count)
{
    int i = left->step * (position + left->shift), j = right->step * (position + right->shift);
    return (struct stretch){ left->readings + i, left->drifts + i, right->readings + j,
                             right->drifts + j,  left->step,       right->step,
                             m,                  (size_t)count,    left->limits,
                             right->limits,      NULL };
}

static inline bool less_as_marked(const struct stretch *s, size_t i, size_t j)
{
    const int32_t *x = s->x, *y = s->y;
    const uint8_t *m = s->m;
    ALL_ZERO(int32_t, s->count, m[k] - (x[i * k] < y[j * k]));
}

static inline bool equal_as_marked(const struct stretch *s, size_t i, size_t j)
{
    const int32_t *x = s->x, *y = s->y;
    const uint8_t *m = s->m;
    ALL_ZERO(int32_t, s->count, m[k] - (x[i * k] == y[j * k]));
}

/* 0 if x is less than y as marked, and stays so on every later pass. */
static inline int32_t fault_of_less(int32_t x, int32_t d, int32_t y, int32_t e, uint8_t mark)
{
    int32_t less = -(x < y), nearing = -(e < d), parting = -(d < e);
    return (mark + less) | (less & nearing) | (~less & parting);
}

static inline bool always_less_as_marked(const struct stretch *s, size_t i, size_t j)
{
    const int32_t *x = s->x, *d = s->d, *y = s->y, *e = s->e;
    const uint8_t *m = s->m;
    ALL_ZERO(int32_t, s->count, fault_of_less(x[i * k], d[i * k], y[j * k], e[j * k], m[k]));
}

/* Two lines with different drifts are together on some pass from 0 on. Unless they
   part from the beginning, gap and gain are from 0 to 2^32 - 1. */
static inline bool meet(int32_t x, int32_t d, int32_t y, int32_t e)
{
    int64_t gap = (int64_t)y - x, gain = (int64_t)d - e;
    if (gain < 0) {
        gap = -gap;
        gain = -gain;
    }
    return gain != 0 && gap >= 0 && (uint32_t)gap % (uint32_t)gain == 0;
}

static inline bool never_meet(const struct stretch *s, size_t i, size_t j)
{
    const int32_t *x = s->x, *d = s->d, *y = s->y, *e = s->e;
    for (size_t k = 0; k < s->count; k++)
        if (meet(x[i * k], d[i * k], y[j * k], e[j * k]))
            return false;
    return true;
}

static bool is_as_marked(const struct comparison *c, const struct stretch *s)
{
    if (c->under_tops)
        return is_as_marked_under_tops(c->kind, s);
    return c->kind == LESS ? BY_STEPS(less_as_marked, s) : BY_STEPS(equal_as_marked, s);
}

static bool is_always_as_marked(const struct comparison *c, struct stretch *s)
{
    if (c->under_tops)
        return is_always_as_marked_under_tops(c->kind, s);
    if (c->kind == LESS)
        return BY_STEPS(always_less_as_marked, s);
    return BY_STEPS(equal_as_marked, s) && BY_STEPS(never_meet, s);
}

/* The positions from the first that is seen to W - 1. */
static bool rows_are_clear(const struct lanes *lanes, const struct comparison *c,
                           const struct side *left, const struct side *right, const uint8_t *m,
                           int seen, int back)
{
    int rows = lanes->plan->rows, lines = lanes->plan->start + back;
    if (lanes->still || lines > rows)
        lines = rows;
    struct stretch before = get_stretch(left, right, seen, m + seen, lines - seen);
    struct stretch from = get_stretch(left, right, lines, m + lines, rows - lines);
    return is_as_marked(c, &before) && is_always_as_marked(c, &from);
}

/* One position, with the drifts that count on it. */
static bool position_is_clear(const struct comparison *c, struct stretch *s, int32_t d, int32_t e)
{
    if (c->under_tops) {
        s->d = &d;
        s->e = &e;
        return is_always_as_marked_under_tops(c->kind, s);
    }
    return c->kind == LESS ? fault_of_less(*s->x, d, *s->y, e, *s->m) == 0
                           : *s->m == (*s->x == *s->y) && !meet(*s->x, d, *s->y, e);
}

/* The positions from W to W + back - 1, one by one, with the marks from row P on. Where
   a position comes before the lines, its drifts do not count. */
static bool rows_after_are_clear(const struct lanes *lanes, const struct comparison *c,
                                 const struct side *left, const struct side *right,
                                 const uint8_t *m, int back)
{
    const struct plan *plan = lanes->plan;
    for (int k = 0, row = plan->start; k < back; k++) {
        struct stretch s = get_stretch(left, right, plan->rows + k, m + row, 1);
        bool is_line = !lanes->still && plan->cycle + k >= back;
        if (!position_is_clear(c, &s, is_line ? *s.d : 0, is_line ? *s.e : 0))
            return false;
        row = row + 1 < plan->rows ? row + 1 : plan->start;
    }
    return true;
}

bool comparison_is_clear(struct lanes *lanes, const struct comparison *c, const uint8_t *m)
{
    const struct term *left = &c->left, *right = &c->right;
    int rows = lanes->plan->rows, back = reach_back(c), seen = first_seen(lanes->plan, c);
    struct side x, y;
    if (!left->is_reading && !right->is_reading)
        return all_bytes_are(compare(c->kind, left->constant, right->constant), m, (size_t)rows);
    return seen <= rows && get_side(lanes, left, &x) && get_side(lanes, right, &y) &&
           all_bytes_are(0, m, (size_t)seen) && rows_are_clear(lanes, c, &x, &y, m, seen, back) &&
           rows_after_are_clear(lanes, c, &x, &y, m, back);
}

/* ---- Operators ---- */

static bool is_opposite(const uint8_t *m, const uint8_t *a, size_t count)
{
    ALL_ZERO(uint8_t, count, m[k] ^ a[k] ^ 1);
}

static bool is_and(const uint8_t *m, const uint8_t *a, const uint8_t *b, size_t count)
{
    ALL_ZERO(uint8_t, count, m[k] ^ (a[k] & b[k]));
}

static bool is_or(const uint8_t *m, const uint8_t *a, const uint8_t *b, size_t count)
{
    ALL_ZERO(uint8_t, count, m[k] ^ (a[k] | b[k]));
}

static bool is_same(const uint8_t *m, const uint8_t *a, size_t count)
{
    return memcmp(m, a, count) == 0;
}

/* U and S: b, or a and the mark beside. */
static bool is_or_and(const uint8_t *m, const uint8_t *a, const uint8_t *b, const uint8_t *beside,
                      size_t count)
{
    ALL_ZERO(uint8_t, count, m[k] ^ (b[k] | (a[k] & beside[k])));
}

/* R and T: b, and (a or the mark beside). */
static bool is_and_or(const uint8_t *m, const uint8_t *a, const uint8_t *b, const uint8_t *beside,
                      size_t count)
{
    ALL_ZERO(uint8_t, count, m[k] ^ (b[k] & (a[k] | beside[k])));
}

bool operator_is_clear(const struct plan *plan, int kind, const uint8_t *m, const uint8_t *a,
                       const uint8_t *b)
{
    size_t rows = (size_t)plan->rows, last = rows - 1, p = (size_t)plan->start;
    switch (kind) {
    case NOT:
        return is_opposite(m, a, rows);
    case AND:
        return is_and(m, a, b, rows);
    case OR:
        return is_or(m, a, b, rows);
    case NEXT:
        return is_same(m, a + 1, last) && m[last] == a[p];
    case UNTIL:
        return is_or_and(m, a, b, m + 1, last) && m[last] == (b[last] | (a[last] & m[p]));
    case RELEASE:
        return is_and_or(m, a, b, m + 1, last) && m[last] == (b[last] & (a[last] | m[p]));
    case SINCE:
        return m[0] == b[0] && is_or_and(m + 1, a + 1, b + 1, m, last) &&
               m[p] == (b[p] | (a[p] & m[last]));
    case TRIGGER:
        return m[0] == b[0] && is_and_or(m + 1, a + 1, b + 1, m, last) &&
               m[p] == (b[p] & (a[p] | m[last]));
    default:
        return m[0] == (kind == WEAK_YESTERDAY) && is_same(m + 1, a, last) && m[p] == a[last];
    }
}
