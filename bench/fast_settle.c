/*
 * fast_settle.c: the search for the fewest passes in C written for speed.
 *
 * Marks once made stay right with more passes, and a part that closes does so with more
 * too. So the parts are gone through once, the lowest first: one that is open has passes
 * laid out until it closes (plain_search.h). The parts below go on as their last cycle, and
 * are marked on the new rows when they are next read. An atom is marked once it closes. The
 * marks stand on the stack, a byte for each part and row: eight times as much as the scratch
 * has room for, which is cleared and not used. Nothing of it is proved. It is the measure in
 * bench.c.
 */
#include "fast_settle.h"

#include "plain_layout.h"
#include "plain_operators.h"
#include "plain_search.h"

enum { MOST_PARTS = 64 };

/* The readings of one channel from position -L on. That of position 0 is at MOST_LEAD. */
struct lane {
    int end; /* the positions below are laid out */
    int64_t at[MOST_LEAD + MOST_ROWS + MOST_SHIFT];
};

struct table {
    struct search search;
    int marked[MOST_PARTS];
    struct lane lanes[MOST_CHANNELS];
    uint8_t marks[MOST_PARTS * MOST_ROWS]; /* MOST_ROWS of them for each part */
};

static void start_table(struct table *t, const struct plan *plan)
{
    t->search = start_search(plan);
    for (int channel = 0; channel < plan->channels; channel++)
        t->lanes[channel].end = -plan->lead;
}

/* ---- Comparisons ---- */

/* The readings of a channel by position, up to MOST_SHIFT after the last row. */
static const int64_t *lane_of(struct table *t, int channel)
{
    const struct plan *plan = t->search.plan;
    struct lane *lane = &t->lanes[channel];
    int64_t *at = lane->at + MOST_LEAD;
    int position = lane->end;
    lane->end = t->search.rows + MOST_SHIFT;
    for (; position < plan->rows; position++)
        at[position] = get32(plan->readings + cell_of(plan, position, channel));
    int row = plan->start + (position - plan->start) % plan->cycle;
    for (; position < lane->end; position++) {
        int32_t drift = get32(plan->drifts + cell_of(plan, row, channel));
        at[position] = at[position - plan->cycle] + drift;
        row = row + 1 < plan->rows ? row + 1 : plan->start;
    }
    return at;
}

static inline void compare_rows(int kind, const int64_t *x, size_t i, const int64_t *y, size_t j,
                                uint8_t *m, int first, int rows)
{
    for (size_t row = (size_t)first; row < (size_t)rows; row++)
        m[row] = compare(kind, x[i * row], y[j * row]);
}

static inline void compare_rows_under_tops(const struct comparison *c, const int64_t *x,
                                           const int64_t *y, uint8_t *m, int first, int rows)
{
    size_t i = c->left.is_reading, j = c->right.is_reading;
    for (size_t row = (size_t)first; row < (size_t)rows; row++)
        m[row] = compare_under_tops(c, x[i * row], y[j * row]);
}

static void mark_comparison(struct table *t, const struct comparison *c, uint8_t *m)
{
    const struct term *left = &c->left, *right = &c->right;
    int rows = t->search.rows, seen = first_seen(t->search.plan, c);
    int first = seen < rows ? seen : rows;
    const int64_t *x = &left->constant, *y = &right->constant;
    if (left->is_reading)
        x = lane_of(t, left->channel) + left->shift;
    if (right->is_reading)
        y = lane_of(t, right->channel) + right->shift;
    memset(m, 0, (size_t)first);
    if (c->under_tops)
        compare_rows_under_tops(c, x, y, m, first, rows);
    else if (c->kind == LESS)
        compare_rows(LESS, x, left->is_reading, y, right->is_reading, m, first, rows);
    else
        compare_rows(EQUAL, x, left->is_reading, y, right->is_reading, m, first, rows);
}

static bool settle_comparison(struct table *t, int kind, const uint8_t *operand, uint8_t *m)
{
    struct comparison c = get_comparison(t->search.plan, kind, operand);
    if (!settle_rows(&t->search, &c))
        return false;
    mark_comparison(t, &c, m);
    return true;
}

/* ---- Windows ---- */

/* Without a top each position from P + back on is as it is a pass before. */
static void mark_window(const struct search *s, const struct window *w, uint8_t *m)
{
    int cycle = s->plan->cycle, row = 0;
    int once = w->term.top == NO_TOP ? s->plan->start + reach_of(w) + cycle : s->rows;
    for (; row < once && row < s->rows; row++)
        m[row] = window_at(s->plan, w, row);
    for (; row < s->rows; row++)
        m[row] = m[row - cycle];
}

static bool settle_window(struct search *s, const uint8_t *operand, uint8_t *m)
{
    struct window w = get_window(s->plan, operand);
    if (!settle_window_rows(s, &w))
        return false;
    mark_window(s, &w, m);
    return true;
}

/* ---- Operators ---- */

/* The marks of a part that closes, on all rows there are now. */
static const uint8_t *marks_of(struct table *t, size_t part)
{
    const struct search *s = &t->search;
    uint8_t *m = t->marks + MOST_ROWS * part;
    for (int row = t->marked[part]; row < s->rows; row++)
        m[row] = m[row - s->plan->cycle];
    t->marked[part] = s->rows;
    return m;
}

static bool settle_past(struct table *t, int kind, size_t a, size_t b, uint8_t *m)
{
    struct search *s = &t->search;
    int marked = 0;
    for (;;) {
        const uint8_t *of_a = marks_of(t, a), *of_b = marks_of(t, b);
        make_past(kind, m, of_a, of_b, marked, s->rows);
        marked = s->rows;
        if (past_closes(kind, m, of_a, of_b, s->start, s->rows))
            return true;
        if (!lay_out_pass(s))
            return false;
    }
}

/* Of a part that names one the second field is 0: b is not used. */
static bool settle_operator(struct table *t, int kind, const uint8_t *operand, uint8_t *m)
{
    size_t a = get16(operand), b = get16(operand + 2);
    if (is_past(kind))
        return settle_past(t, kind, a, b, m);
    make_closed(kind, m, marks_of(t, a), marks_of(t, b), t->search.start, t->search.rows);
    return true;
}

/* ---- The settler ---- */

static bool settle_parts(struct table *t, const uint8_t *rule)
{
    size_t parts = get16(rule);
    const uint8_t *kinds = rule + 4, *operands = kinds + parts;
    for (size_t i = 0; i < parts; i++) {
        uint8_t *m = t->marks + MOST_ROWS * i;
        const uint8_t *operand = operands + 12 * i;
        bool settled = compares(kinds[i])   ? settle_comparison(t, kinds[i], operand, m)
                       : kinds[i] == WINDOW ? settle_window(&t->search, operand, m)
                                            : settle_operator(t, kinds[i], operand, m);
        if (!settled)
            return false;
        t->marked[i] = t->search.rows;
    }
    return true;
}

uint64_t fast_settle(const uint8_t *rule, size_t rule_len, const uint8_t *plan, size_t plan_len,
                     uint8_t *laid_out, size_t laid_out_len, uint8_t *scratch, size_t scratch_len)
{
    struct plan p;
    struct table t;
    uint64_t refused = check_inputs(rule, rule_len, plan, plan_len, &p);
    if (refused)
        return refused;
    if (laid_out_len != LAID_OUT_LENGTH || scratch_len != SCRATCH_LENGTH)
        return refuse(13, 0, 0);

    start_table(&t, &p);
    bool settled = settle_parts(&t, rule);
    memset(scratch, 0, scratch_len);
    if (!settled)
        return refuse(15, 0, 0);
    write_layout(plan, &p, t.search.passes, laid_out);
    return (uint64_t)t.search.passes;
}
