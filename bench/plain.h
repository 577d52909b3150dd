/*
 * plain.h: what the check, the maker and the settlers in C share: fields, refusals 1
 * to 6, terms and lines. Comparisons are in plain_comparisons.h, windows in
 * plain_windows.h.
 *
 * The lead-in rows are rows -L to -1, as are their positions: both arrays of a plan
 * are looked at from row 0 on, and the lead-in rows lie before.
 *
 * How an atom is judged on a cycle row. From some pass on each term is a straight line
 * in the pass: a number, and a step for each pass more. That pass is 0 unless a shift
 * reaches back before row P; then it is 4, and the passes below are looked at one by
 * one. Numbers stay below 2^40, with 256 passes laid out by a settler.
 *
 * Every function is static, so that each is compiled into each of them as if it stood
 * there.
 */
#ifndef PLAIN_H
#define PLAIN_H

#include <stdbool.h>
#include <stddef.h>
#include <stdint.h>

enum {
    LESS = 1, EQUAL, NOT, AND, OR, NEXT, UNTIL, RELEASE, YESTERDAY, WEAK_YESTERDAY, SINCE,
    TRIGGER, WINDOW, PINNED
};
enum { MOST_CHANNELS = 8, MOST_ROWS = 256, MOST_LEAD = 4, MOST_SHIFT = 4, NO_WITNESS = 65535 };
enum { WEEK = 10080 }; /* minutes */
enum { ALWAYS_FALSE, ALWAYS_TRUE, CHANGES };

#define NO_TOP INT64_MAX

struct term {
    bool is_reading;
    int shift, channel;
    int64_t constant;
    int64_t top; /* from here on a number is pinned; NO_TOP for a constant too */
};

struct plan {
    const uint8_t *tops;
    const uint8_t *readings, *drifts; /* of row 0 */
    int channels, start, cycle, rows, lead;
};

struct line {
    int64_t number, step;
};

/* ---- Fields ---- */

static inline unsigned get16(const uint8_t *at)
{
    return at[0] | (unsigned)at[1] << 8;
}

static inline int32_t get32(const uint8_t *at)
{
    return (int32_t)(at[0] | (uint32_t)at[1] << 8 | (uint32_t)at[2] << 16 | (uint32_t)at[3] << 24);
}

static inline void put16(uint8_t *at, size_t n)
{
    at[0] = (uint8_t)n;
    at[1] = (uint8_t)(n >> 8);
}

static inline uint64_t refuse(unsigned number, size_t part, size_t row)
{
    return (uint64_t)number << 32 | (uint64_t)part << 16 | row;
}

/* ---- Refusals 1 to 6 ---- */

static inline bool is_comparison(int kind)
{
    return kind == LESS || kind == EQUAL;
}

static inline bool is_atom(int kind)
{
    return is_comparison(kind) || kind == WINDOW || kind == PINNED;
}

static inline bool is_unary(int kind)
{
    return kind == NOT || kind == NEXT || kind == YESTERDAY || kind == WEAK_YESTERDAY;
}

static inline bool term_is_right(const uint8_t *at, unsigned channels)
{
    if (at[0] == 0)
        return at[1] == 4;
    return at[0] == 1 && at[1] <= 8 && (uint32_t)get32(at + 2) < channels;
}

static inline bool window_is_right(const uint8_t *at, unsigned channels)
{
    unsigned from = get16(at + 6), to = get16(at + 8);
    return at[0] == 1 && term_is_right(at, channels) && from < WEEK && to < WEEK && from != to &&
           get16(at + 10) == 0;
}

static inline bool pinned_is_right(const uint8_t *at, unsigned channels)
{
    return at[0] == 1 && term_is_right(at, channels) && get16(at + 6) == 0 && get32(at + 8) == 0;
}

static inline bool operand_is_right(int kind, const uint8_t *at, unsigned user, unsigned channels)
{
    if (is_comparison(kind))
        return term_is_right(at, channels) && term_is_right(at + 6, channels);
    if (kind == WINDOW)
        return window_is_right(at, channels);
    if (kind == PINNED)
        return pinned_is_right(at, channels);
    /* Where one part is named, the second field is padding too. */
    uint32_t padding = (uint32_t)get32(at + 4) | (uint32_t)get32(at + 8);
    return get16(at) < user && get16(at + 2) < (is_unary(kind) ? 1 : user) && padding == 0;
}

static inline uint64_t check_rule(const uint8_t *rule, size_t len)
{
    if (len < 4)
        return refuse(1, 0, 0);
    unsigned parts = get16(rule), channels = get16(rule + 2);
    if (parts < 1 || parts > 64 || channels < 1 || channels > 8 || len != 4 + 13 * (size_t)parts)
        return refuse(1, 0, 0);
    const uint8_t *kinds = rule + 4, *operands = kinds + parts;
    for (unsigned i = 0; i < parts; i++)
        if (kinds[i] < 1 || kinds[i] > PINNED)
            return refuse(2, i, 0);
    for (unsigned i = 0; i < parts; i++)
        if (!operand_is_right(kinds[i], operands + 12 * i, i, channels))
            return refuse(3, i, 0);
    return 0;
}

/* All bytes are gone through first, so that the loop has no exit and takes many at a
   time. */
static inline uint64_t check_start_drifts(const struct plan *plan)
{
    size_t row_bytes = 4 * (size_t)plan->channels, lead = row_bytes * (size_t)plan->lead;
    size_t end = lead + row_bytes * (size_t)plan->start;
    const uint8_t *drifts = plan->drifts - lead;
    uint8_t seen = 0;
    for (size_t i = 0; i < end; i++)
        seen |= drifts[i];
    if (seen != 0)
        for (size_t i = 0; i < end; i++)
            if (drifts[i] != 0)
                return refuse(6, 0, i < lead ? 0 : (i - lead) / row_bytes);
    return 0;
}

/* None is below 0. */
static inline bool tops_are_right(const uint8_t *tops, unsigned channels)
{
    uint8_t signs = 0;
    for (unsigned i = 0; i < channels; i++)
        signs |= tops[4 * i + 3];
    return signs < 128;
}

static inline uint64_t check_plan(const uint8_t *bytes, size_t len, unsigned channels,
                                  struct plan *plan)
{
    if (len < 8)
        return refuse(4, 0, 0);
    unsigned v = get16(bytes), start = get16(bytes + 2), cycle = get16(bytes + 4);
    unsigned rows = start + cycle, lead = get16(bytes + 6);
    if (v < 1 || v > 8 || cycle < 1 || rows > MOST_ROWS || lead > MOST_LEAD ||
        len != 8 + 4 * (size_t)v + 8 * (size_t)v * (lead + rows) || !tops_are_right(bytes + 8, v))
        return refuse(4, 0, 0);
    if (v != channels)
        return refuse(5, 0, 0);
    const uint8_t *tops = bytes + 8, *readings = tops + 4 * (size_t)v * (1 + lead);
    const uint8_t *drifts = readings + 4 * (size_t)v * (lead + rows);
    *plan = (struct plan){ tops,       readings,   drifts,    (int)v,
                           (int)start, (int)cycle, (int)rows, (int)lead };
    return check_start_drifts(plan);
}

/* Refusals 1 to 6. */
static inline uint64_t check_inputs(const uint8_t *rule, size_t rule_len, const uint8_t *plan,
                                    size_t plan_len, struct plan *p)
{
    uint64_t refused = check_rule(rule, rule_len);
    return refused ? refused : check_plan(plan, plan_len, get16(rule + 2), p);
}

/* ---- Terms and lines ---- */

static inline int64_t top_of(const struct plan *plan, int channel)
{
    int32_t top = get32(plan->tops + 4 * channel);
    return top == 0 ? NO_TOP : top;
}

static inline struct term get_term(const struct plan *plan, const uint8_t *at)
{
    struct term term = { at[0] == 1, at[1] - 4, 0, 0, NO_TOP };
    if (term.is_reading) {
        term.channel = get32(at + 2);
        term.top = top_of(plan, term.channel);
    } else {
        term.constant = get32(at + 2);
    }
    return term;
}

/* Where a cell is in the readings and in the drifts: before row 0 for a lead-in row. */
static inline ptrdiff_t cell_of(const struct plan *plan, int row, int channel)
{
    return 4 * ((ptrdiff_t)row * plan->channels + channel);
}

/* The line of a term at a position: its number at this position plus its shift,
   which is -L or more, and the drift of the row that it is read on. */
static inline struct line line_at(const struct plan *plan, const struct term *term, int position)
{
    if (!term->is_reading)
        return (struct line){ term->constant, 0 };
    position += term->shift;
    int row = position, pass = 0;
    if (position >= plan->rows) {
        pass = (position - plan->start) / plan->cycle;
        row = plan->start + (position - plan->start) % plan->cycle;
    }
    ptrdiff_t cell = cell_of(plan, row, term->channel);
    int64_t drift = get32(plan->drifts + cell);
    return (struct line){ get32(plan->readings + cell) + pass * drift, drift };
}

#endif
