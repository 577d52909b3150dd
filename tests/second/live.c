/*
 * live.c: rows that arrive one at a time. All of them are kept, and the truth of a rule is
 * found from the published sentences over the rows since it was added.
 *
 * It is found part by part, at all positions up to the last row, when an answer is asked
 * for. What has been found is kept, since these rules look at no later row.
 *
 *   a S b    b at some j from 0 to t, and a from j + 1 to t. A later j asks less of a, so it
 *            is enough to look at the latest b: a must not have failed after it.
 *   a T b    at every j from 0 to t, b holds or a holds somewhere from j + 1 to t. A later
 *            j asks more of a, so it is enough to look at the latest j without b: a must
 *            have held after it.
 *
 * So what is noted of S is the latest b and the latest failure of a, and of T the latest
 * failure of b and the latest a; -1 where there is none.
 */
#include "second.h"

#include <stdlib.h>

static int32_t number_in(const uint8_t *at)
{
    uint32_t n = 0;
    for (int i = 3; i >= 0; i--)
        n = n * 256 + at[i];
    return n < 2147483648u ? (int32_t)n : (int32_t)(n - 2147483648u) + INT32_MIN;
}

/* ---- Atoms ---- */

/* The row that a term is read on, counted from the first that came. */
static int row_of(const struct watched *w, const struct term *term, int position)
{
    return w->before + position + term->shift;
}

static bool is_before(const struct term *term, int position)
{
    return term->is_reading && position + term->shift < 0;
}

static int64_t number_of(const struct live *live, const struct watched *w,
                         const struct term *term, int position)
{
    return term->is_reading ? live->row[row_of(w, term, position)][term->number] : term->number;
}

/* The term is not before position 0. */
static bool at_top(const struct live *live, const struct watched *w, const struct term *term,
                   int position)
{
    return term->is_reading && live->top[term->number] != 0 &&
           number_of(live, w, term, position) >= live->top[term->number];
}

/* How far the minute lies behind from, going round the week, held against how far to does. */
static bool in_window(const struct formula *f, int64_t number)
{
    int64_t behind = ((number - f->from) % WEEK + WEEK) % WEEK;
    return behind < (f->to - f->from + WEEK) % WEEK;
}

static bool atom_is_true(const struct live *live, const struct watched *w,
                         const struct formula *f, int position)
{
    bool two_terms = f->kind == LESS || f->kind == EQUAL;
    if (is_before(&f->left, position) || (two_terms && is_before(&f->right, position)))
        return false;
    bool pinned = at_top(live, w, &f->left, position);
    if (f->kind == PINNED)
        return pinned;
    if (pinned || (two_terms && at_top(live, w, &f->right, position)))
        return false;
    int64_t left = number_of(live, w, &f->left, position);
    if (f->kind == WINDOW)
        return in_window(f, left);
    int64_t right = number_of(live, w, &f->right, position);
    return f->kind == LESS ? left < right : left == right;
}

/* ---- The sentences ---- */

static void note(int *latest, bool is_so, int position)
{
    if (is_so)
        *latest = position;
}

/* S and T are asked for at each position in turn. */
static bool since(struct watched *w, int part, int a, int b, int t)
{
    note(&w->latest_b[part], w->at[b][t], t);
    note(&w->latest_a[part], !w->at[a][t], t);
    return w->latest_b[part] >= 0 && w->latest_a[part] <= w->latest_b[part];
}

static bool trigger(struct watched *w, int part, int a, int b, int t)
{
    note(&w->latest_b[part], !w->at[b][t], t);
    note(&w->latest_a[part], w->at[a][t], t);
    return w->latest_b[part] < 0 || w->latest_a[part] > w->latest_b[part];
}

static bool by_sentence(const struct live *live, struct watched *w, int part, int t)
{
    const struct formula *f = &w->rule.part[part];
    switch (f->kind) {
    case LESS:
    case EQUAL:
    case WINDOW:
    case PINNED:
        return atom_is_true(live, w, f, t);
    case NOT:
        return !w->at[f->a][t];
    case AND:
        return w->at[f->a][t] && w->at[f->b][t];
    case OR:
        return w->at[f->a][t] || w->at[f->b][t];
    case YESTERDAY:
        return t > 0 && w->at[f->a][t - 1];
    case WEAK_YESTERDAY:
        return t == 0 || w->at[f->a][t - 1];
    case SINCE:
        return since(w, part, f->a, f->b, t);
    case TRIGGER:
        return trigger(w, part, f->a, f->b, t);
    default:
        abort(); /* refused with 16 */
    }
}

static void find(const struct live *live, struct watched *w)
{
    int positions = live->rows - w->before;
    for (int part = 0; part < w->rule.parts; part++)
        for (int t = w->found; t < positions; t++)
            w->at[part][t] = by_sentence(live, w, part, t);
    w->found = positions;
}

/* ---- Answers ---- */

uint64_t second_live_start(struct live *live, uint64_t channels, struct slice tops)
{
    if (channels < 1 || channels > MOST_CHANNELS || tops.len != 4 * channels)
        return refusal(4, 0, 0);
    for (uint64_t channel = 0; channel < channels; channel++)
        if (number_in(tops.at + 4 * channel) < 0)
            return refusal(4, 0, 0);
    live->channels = (int)channels;
    live->rows = 0;
    for (int channel = 0; channel < live->channels; channel++)
        live->top[channel] = number_in(tops.at + 4 * channel);
    for (int place = 0; place < PLACES; place++)
        live->place[place].present = false;
    return 0;
}

bool looks_ahead(const struct rule *rule)
{
    for (int part = 0; part < rule->parts; part++) {
        const struct formula *f = &rule->part[part];
        if (f->kind == NEXT || f->kind == UNTIL || f->kind == RELEASE)
            return true;
        if (is_atom(f->kind) && ((f->left.is_reading && f->left.shift > 0) ||
                                 (f->right.is_reading && f->right.shift > 0)))
            return true;
    }
    return false;
}

uint64_t second_live_add(struct live *live, uint64_t place, struct slice bytes)
{
    struct rule rule;
    uint64_t refused = decode_rule(bytes, &rule);
    if (refused)
        return refused;
    if (looks_ahead(&rule) || rule.channels != live->channels)
        return refusal(16, 0, 0);
    if (place >= PLACES || live->place[place].present)
        return refusal(17, 0, 0);
    struct watched *w = &live->place[place];
    w->present = true;
    w->before = live->rows;
    w->rule = rule;
    w->found = 0;
    for (int part = 0; part < MOST_PARTS; part++)
        w->latest_a[part] = w->latest_b[part] = -1;
    return 0;
}

uint64_t second_live_drop(struct live *live, uint64_t place)
{
    if (place >= PLACES || !live->place[place].present)
        return refusal(17, 0, 0);
    live->place[place].present = false;
    return 0;
}

uint64_t second_live_row(struct live *live, struct slice readings)
{
    if (readings.len != 4 * (size_t)live->channels)
        return refusal(17, 0, 0);
    if (live->rows == MOST_ARRIVED)
        abort();
    for (int channel = 0; channel < live->channels; channel++)
        live->row[live->rows][channel] = number_in(readings.at + 4 * channel);
    live->rows++;
    return 0;
}

uint64_t second_live_answer(struct live *live, uint64_t place)
{
    if (place >= PLACES)
        return refusal(17, 0, 0);
    struct watched *w = &live->place[place];
    if (!w->present)
        return EMPTY;
    if (w->before == live->rows)
        return NOT_YET;
    find(live, w);
    return w->at[w->rule.parts - 1][w->found - 1] ? TOLD_TRUE : TOLD_FALSE;
}
