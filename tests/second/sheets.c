/*
 * sheets.c: the three byte layouts, and refusals 1 to 8 as docs/FORMATS.md words
 * them.
 */
#include "second.h"

/* ---- Fields ---- */

static int field2(const uint8_t *at)
{
    return at[0] + 256 * at[1];
}

static int32_t field4(const uint8_t *at)
{
    int64_t n = at[0] + 256 * ((int64_t)at[1] + 256 * ((int64_t)at[2] + 256 * (int64_t)at[3]));
    return (int32_t)(n < ((int64_t)1 << 31) ? n : n - ((int64_t)1 << 32));
}

static bool all_zero(const uint8_t *at, int count)
{
    for (int i = 0; i < count; i++)
        if (at[i] != 0)
            return false;
    return true;
}

uint64_t refusal(int number, int part, int row)
{
    return (uint64_t)number * 4294967296u + (uint64_t)part * 65536u + (uint64_t)row;
}

/* ---- The rule sheet ---- */

static bool is_comparison(enum kind kind)
{
    return kind == LESS || kind == EQUAL;
}

bool is_atom(enum kind kind)
{
    return is_comparison(kind) || kind == WINDOW || kind == PINNED;
}

bool names_two_parts(enum kind kind)
{
    return kind == AND || kind == OR || kind == UNTIL || kind == RELEASE || kind == SINCE ||
           kind == TRIGGER;
}

bool is_past(enum kind kind)
{
    return kind == YESTERDAY || kind == WEAK_YESTERDAY || kind == SINCE || kind == TRIGGER;
}

/* Form, shift code, number. A constant has shift code 4; a reading has shift
   code 0 to 8 for a shift of -4 to 4, and a channel 0 to V - 1. */
static bool decode_term(const uint8_t *at, int channels, struct term *term)
{
    int form = at[0], shift_code = at[1];
    term->is_reading = form == 1;
    term->shift = shift_code - 4;
    term->number = field4(at + 2);
    if (form == 0)
        return shift_code == 4;
    return form == 1 && shift_code <= 8 && term->number >= 0 && term->number < channels;
}

/* A term that is a reading, two minutes of the week that differ, and 2 zero bytes. */
static bool decode_window(const uint8_t *at, int channels, struct formula *f)
{
    f->from = field2(at + 6);
    f->to = field2(at + 8);
    return decode_term(at, channels, &f->left) && f->left.is_reading && f->from < WEEK &&
           f->to < WEEK && f->from != f->to && all_zero(at + 10, 2);
}

/* A term that is a reading, and 6 zero bytes. */
static bool decode_pinned(const uint8_t *at, int channels, struct formula *f)
{
    return decode_term(at, channels, &f->left) && f->left.is_reading && all_zero(at + 6, 6);
}

/* Two terms; or the fields of a window or of "pinned"; or one part and 10 zero bytes; or
   two parts and 8 zero bytes. A named part has a lower number than its user. */
static bool decode_operand(const uint8_t *at, int user, int channels, struct formula *f)
{
    if (is_comparison(f->kind))
        return decode_term(at, channels, &f->left) && decode_term(at + 6, channels, &f->right);
    if (f->kind == WINDOW)
        return decode_window(at, channels, f);
    if (f->kind == PINNED)
        return decode_pinned(at, channels, f);
    f->a = field2(at);
    f->b = field2(at + 2);
    if (names_two_parts(f->kind))
        return f->a < user && f->b < user && all_zero(at + 4, 8);
    return f->a < user && all_zero(at + 2, 10);
}

uint64_t decode_rule(struct slice bytes, struct rule *rule)
{
    if (bytes.len < 4)
        return refusal(1, 0, 0);
    rule->parts = field2(bytes.at);
    rule->channels = field2(bytes.at + 2);
    if (rule->parts < 1 || rule->parts > MOST_PARTS)
        return refusal(1, 0, 0);
    if (rule->channels < 1 || rule->channels > MOST_CHANNELS)
        return refusal(1, 0, 0);
    if (bytes.len != 4 + 13 * (size_t)rule->parts)
        return refusal(1, 0, 0);

    const uint8_t *kinds = bytes.at + 4, *operands = kinds + rule->parts;
    for (int i = 0; i < rule->parts; i++) {
        if (kinds[i] < 1 || kinds[i] > 14)
            return refusal(2, i, 0);
        rule->part[i] = (struct formula){ .kind = (enum kind)kinds[i] };
    }
    for (int i = 0; i < rule->parts; i++)
        if (!decode_operand(operands + 12 * i, i, rule->channels, &rule->part[i]))
            return refusal(3, i, 0);
    return 0;
}

/* ---- The plan ---- */

static uint64_t decode_plan_sizes(struct slice bytes, struct plan *plan)
{
    if (bytes.len < 8)
        return refusal(4, 0, 0);
    plan->channels = field2(bytes.at);
    plan->start = field2(bytes.at + 2);
    plan->cycle = field2(bytes.at + 4);
    plan->lead = field2(bytes.at + 6);
    plan->rows = plan->start + plan->cycle;
    if (plan->channels < 1 || plan->channels > MOST_CHANNELS)
        return refusal(4, 0, 0);
    if (plan->cycle < 1 || plan->rows > MOST_ROWS || plan->lead > MOST_LEAD)
        return refusal(4, 0, 0);
    return bytes.len == plan_length(plan) ? 0 : refusal(4, 0, 0);
}

static uint64_t decode_tops(const uint8_t *tops, struct plan *plan)
{
    for (int channel = 0; channel < plan->channels; channel++) {
        plan->top[channel] = field4(tops + 4 * channel);
        if (plan->top[channel] < 0)
            return refusal(4, 0, 0);
    }
    return 0;
}

/* Both arrays have the lead-in rows first. */
static void decode_numbers(const uint8_t *readings, const uint8_t *drifts, struct plan *plan)
{
    for (int channel = 0; channel < plan->channels; channel++) {
        for (int row = 0; row < plan->lead; row++)
            plan->lead_in[row][channel] = field4(readings + 4 * (row * plan->channels + channel));
        for (int row = 0; row < plan->rows; row++) {
            int cell = 4 * ((plan->lead + row) * plan->channels + channel);
            plan->reading[row][channel] = field4(readings + cell);
            plan->drift[row][channel] = field4(drifts + cell);
        }
    }
}

/* Only cycle rows drift. The lead-in rows are looked at first, and named as row 0. */
static uint64_t refuse_drifts(const uint8_t *drifts, const struct plan *plan)
{
    if (!all_zero(drifts, 4 * plan->lead * plan->channels))
        return refusal(6, 0, 0);
    for (int row = 0; row < plan->start; row++)
        for (int channel = 0; channel < plan->channels; channel++)
            if (plan->drift[row][channel] != 0)
                return refusal(6, 0, row);
    return 0;
}

uint64_t decode_plan(struct slice bytes, int channels, struct plan *plan)
{
    uint64_t refused = decode_plan_sizes(bytes, plan);
    if (!refused)
        refused = decode_tops(bytes.at + 8, plan);
    if (refused)
        return refused;
    if (plan->channels != channels)
        return refusal(5, 0, 0);

    const uint8_t *readings = bytes.at + 8 + 4 * plan->channels;
    const uint8_t *drifts = readings + 4 * (plan->lead + plan->rows) * plan->channels;
    decode_numbers(readings, drifts, plan);
    return refuse_drifts(drifts, plan);
}

/* ---- The mark table ---- */

uint64_t decode_marks(struct slice bytes, int parts, int rows, struct marks *marks)
{
    if (bytes.len < 4)
        return refusal(7, 0, 0);
    marks->parts = field2(bytes.at);
    marks->rows = field2(bytes.at + 2);
    if (marks->parts != parts || marks->rows != rows)
        return refusal(7, 0, 0);
    if (bytes.len != 4 + (size_t)parts * (size_t)rows + 2 * (size_t)parts)
        return refusal(7, 0, 0);

    const uint8_t *cells = bytes.at + 4, *witnesses = cells + parts * rows;
    for (int i = 0; i < parts; i++)
        for (int row = 0; row < rows; row++) {
            if (cells[i * rows + row] > 1)
                return refusal(8, i, row);
            marks->mark[i][row] = cells[i * rows + row] == 1;
        }
    for (int i = 0; i < parts; i++)
        marks->witness[i] = field2(witnesses + 2 * i);
    return 0;
}
