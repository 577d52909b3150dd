/*
 * plain_window_sweeps.c: whole windows held against their marks at once.
 *
 * A window is looked at on the positions of plain_sweeps.c. What it reads is laid out once
 * for all windows of the channel, as remainders by g (plain_windows.h). The same on every
 * pass, they leave no remainder to be found by the part.
 *
 * Under a top it is laid out as well which readings are never pinned from there on, and
 * which always are. What is neither may be marked 0 alone, and where it comes inside its row
 * is in doubt, and looked at by itself.
 */
#include "plain_loops.h"
#include "plain_sweeps.h"

/* ---- Minutes ---- */

/* The remainders of the readings of a channel on some rows, by g, which divides the week.
   A minute is below 2^14, and so the multiplication gives its quotient by g. */
static void lay_out_remainders(const struct plan *plan, int channel, int row, int end, int g,
                               int16_t *to)
{
    size_t stride = 4 * (size_t)plan->channels;
    const uint8_t *at = plan->readings + cell_of(plan, row, channel);
    uint64_t inverse = ((uint64_t)1 << 32) / (unsigned)g + 1;
    for (; row < end; row++, at += stride) {
        uint32_t minute = (uint32_t)rest(get32(at), WEEK);
        to[row] = (int16_t)(minute - (uint32_t)(minute * inverse >> 32) * (uint32_t)g);
    }
}

/* One stretch more, or a longer one. */
static void add_stretch(struct minutes *minutes, int end, int g)
{
    struct stretch_of_g *last = &minutes->stretch[minutes->stretches - 1];
    if (last->g != g)
        last = &minutes->stretch[minutes->stretches++];
    *last = (struct stretch_of_g){ end, (int16_t)g };
}

static void lay_out_minutes(const struct lanes *lanes, int channel, struct minutes *minutes)
{
    const struct plan *plan = lanes->plan;
    size_t stride = 4 * (size_t)plan->channels;
    int16_t *to = minutes->at + MOST_LEAD;
    int first = lanes->still ? plan->rows : plan->start;
    minutes->laid_out = true;
    minutes->stretches = 1;
    minutes->stretch[0] = (struct stretch_of_g){ first, WEEK };
    lay_out_remainders(plan, channel, -plan->lead, first, WEEK, to);
    while (first < plan->rows) {
        const uint8_t *at = plan->drifts + cell_of(plan, first, channel);
        int32_t drift = get32(at);
        int end = first + 1, g = common_divisor(drift);
        while (end < plan->rows && get32(at += stride) == drift)
            end++;
        lay_out_remainders(plan, channel, first, end, g, to);
        add_stretch(minutes, end, g);
        first = end;
    }
    for (int k = 0; k < ROWS_AFTER; k++) {
        int row = plan->start + k % plan->cycle;
        int32_t drift = get32(plan->drifts + cell_of(plan, row, channel));
        add_stretch(minutes, plan->rows + k + 1, common_divisor(drift));
        to[plan->rows + k] = to[row];
    }
}

/* From position -L on. A lead-in or start row does not drift. */
static void lay_out_pinned(const struct plan *plan, int channel, struct minutes *minutes)
{
    struct term term = { true, 0, channel, 0, top_of(plan, channel) };
    for (int position = -plan->lead; position < plan->rows + ROWS_AFTER; position++) {
        struct line line = line_at(plan, &term, position);
        bool pinned = line.number >= term.top;
        minutes->never_pinned[MOST_LEAD + position] = (int16_t)-(!pinned && line.step <= 0);
        minutes->ever_pinned[MOST_LEAD + position] = (int16_t)-(pinned && line.step >= 0);
    }
}

static const struct minutes *get_minutes(struct lanes *lanes, int channel)
{
    struct minutes *minutes = &lanes->minutes[channel];
    if (!minutes->laid_out) {
        lay_out_minutes(lanes, channel, minutes);
        if (top_of(lanes->plan, channel) != NO_TOP)
            lay_out_pinned(lanes->plan, channel, minutes);
    }
    return minutes;
}

/* ---- Windows ---- */

/* Where a remainder by g is inside: the always below which every pass is, and the length
   below which some pass is. */
struct bounds {
    int16_t g, from, always, length;
};

static inline struct bounds bounds_of(const struct window *w, int g)
{
    int outside = WEEK - g, always = w->length > outside ? w->length - outside : 0;
    return (struct bounds){ (int16_t)g, (int16_t)(w->from % g), (int16_t)always,
                            (int16_t)w->length };
}

/* 0 if a remainder by g is inside on every pass and marked 1, or on none and marked 0. What
   is never pinned can be inside on every pass, and what is ever pinned on none. In 16 bits at
   each step, so that eight rows are taken at a time. */
static inline int16_t fault_of_window(int16_t at, struct bounds b, int16_t never_pinned,
                                      int16_t ever_pinned, int16_t mark)
{
    int16_t s = (int16_t)(at - b.from);
    s = (int16_t)(s + (int16_t)(-(s < 0) & b.g));
    int16_t always = (int16_t)(-(s < b.always) & never_pinned);
    int16_t once = (int16_t)(-(s < b.length) & ~ever_pinned);
    return (int16_t)((int16_t)(mark + always) | (int16_t)(mark + once));
}

/* Positions of one g in a row, from a place on in what is laid out. */
static bool stretch_is_as_marked(const struct minutes *minutes, struct bounds b, int place,
                                 const uint8_t *m, size_t count)
{
    const int16_t *at = minutes->at + place;
    ALL_ZERO(int16_t, count, fault_of_window(at[k], b, -1, 0, m[k]));
}

static bool stretch_is_without_doubt(const struct minutes *minutes, struct bounds b, int place,
                                     const uint8_t *m, size_t count, int16_t *restrict doubts)
{
    const int16_t *at = minutes->at + place;
    const int16_t *never = minutes->never_pinned + place, *ever = minutes->ever_pinned + place;
    ALL_ZERO(int16_t, count, doubts[k] = fault_of_window(at[k], b, never[k], ever[k], m[k]));
}

/* Under a top a start row is held to what it is alone: the cycle row that it reads ahead may
   be pinned on a later pass. */
static bool doubts_are_clear(const struct plan *plan, const struct window *w, int position,
                             const uint8_t *m, size_t count, const int16_t *doubts)
{
    struct turn turn = no_turn(w);
    for (size_t k = 0; k < count; k++, position++) {
        if (doubts[k] == 0)
            continue;
        struct line line = line_at(plan, &w->term, position);
        turn_by(w, &turn, (int32_t)line.step);
        if (m[k] != (position < plan->start ? window_at(plan, w, position)
                                            : judge_turn_under_top(w, &turn, line)))
            return false;
    }
    return true;
}

static bool stretch_is_clear(const struct plan *plan, const struct minutes *minutes,
                             const struct window *w, int g, int position, const uint8_t *m,
                             size_t count)
{
    int16_t doubts[MOST_ROWS];
    struct bounds b = bounds_of(w, g);
    int place = MOST_LEAD + position + w->term.shift;
    if (w->term.top == NO_TOP)
        return stretch_is_as_marked(minutes, b, place, m, count);
    return stretch_is_without_doubt(minutes, b, place, m, count, doubts) ||
           doubts_are_clear(plan, w, position, m, count, doubts);
}

/* The positions from the first to the end, with their marks in a row. */
static bool positions_are_clear(const struct plan *plan, const struct minutes *minutes,
                                const struct window *w, const uint8_t *m, int first, int end)
{
    int shift = w->term.shift;
    const struct stretch_of_g *stretch = minutes->stretch;
    while (first < end) {
        while (stretch->end <= first + shift)
            stretch++;
        int next = stretch->end - shift < end ? stretch->end - shift : end;
        if (!stretch_is_clear(plan, minutes, w, stretch->g, first, m, (size_t)(next - first)))
            return false;
        m += next - first;
        first = next;
    }
    return true;
}

/* Without a top start rows that read a cycle row ahead are held to all its passes too: where
   one of them differs, the window does not close. */
bool window_is_clear(struct lanes *lanes, const struct window *w, const uint8_t *m)
{
    const struct plan *plan = lanes->plan;
    const struct minutes *minutes = get_minutes(lanes, w->term.channel);
    int back = reach_of(w), seen = first_in_sight(plan, w);
    if (seen > plan->rows || !all_bytes_are(0, m, (size_t)seen) ||
        !positions_are_clear(plan, minutes, w, m + seen, seen, plan->rows))
        return false;
    for (int k = 0, row = plan->start; k < back; k++) {
        int position = plan->rows + k;
        if (!positions_are_clear(plan, minutes, w, m + row, position, position + 1))
            return false;
        row = row + 1 < plan->rows ? row + 1 : plan->start;
    }
    return true;
}
