/*
 * plain_live.c: the live state and its five calls in plain C.
 *
 * A rule is decoded once, when it is added. Of the rows the last five are kept, a pinned
 * reading as a number that no reading has; of each rule the truth of its parts on the row
 * that came last. A row moves the rows kept on by one and goes through the parts in order.
 */
#include "plain_live.h"

#include "plain.h"

#include <string.h>

enum { NO_CELL = 255 };

#define PINNED_CELL INT64_MAX

/* ---- Start, add and drop ---- */

uint64_t plain_live_start(struct plain_live *live, uint64_t channels, const uint8_t *tops,
                          size_t tops_len)
{
    if (channels < 1 || channels > PLAIN_CHANNELS || tops_len != 4 * channels ||
        !tops_are_right(tops, (unsigned)channels))
        return refuse(4, 0, 0);
    memset(live, 0, sizeof *live);
    live->channels = (uint32_t)channels;
    for (unsigned i = 0; i < channels; i++) {
        int32_t top = get32(tops + 4 * i);
        live->tops[i] = top == 0 ? NO_TOP : top;
    }
    return 0;
}

static bool term_is_ahead(const uint8_t *at)
{
    return at[0] == 1 && at[1] > 4;
}

static bool is_ahead(int kind, const uint8_t *operand)
{
    if (kind == NEXT || kind == UNTIL || kind == RELEASE)
        return true;
    return is_atom(kind) &&
           (term_is_ahead(operand) || (is_comparison(kind) && term_is_ahead(operand + 6)));
}

static bool looks_ahead(const uint8_t *rule)
{
    unsigned parts = get16(rule);
    const uint8_t *kinds = rule + 4, *operands = kinds + parts;
    for (unsigned i = 0; i < parts; i++)
        if (is_ahead(kinds[i], operands + 12 * i))
            return true;
    return false;
}

/* The cell of a term, and how far it reaches at the least; the number of a constant. */
static uint8_t decode_term(const uint8_t *at, int32_t *number, uint8_t *reach)
{
    *number = get32(at + 2);
    if (at[0] == 0)
        return NO_CELL;
    uint8_t back = (uint8_t)(4 - at[1]);
    if (back > *reach)
        *reach = back;
    return (uint8_t)(PLAIN_CHANNELS * back + *number);
}

static struct plain_part decode_part(int kind, const uint8_t *at)
{
    struct plain_part part = { .kind = (uint8_t)kind };
    if (!is_atom(kind)) {
        part.a = (uint8_t)get16(at);
        part.b = (uint8_t)get16(at + 2);
        return part;
    }
    part.a = decode_term(at, &part.left, &part.reach);
    if (is_comparison(kind)) {
        part.b = decode_term(at + 6, &part.right, &part.reach);
    } else {
        part.left = (int32_t)get16(at + 6);
        part.right = (int32_t)get16(at + 8);
    }
    return part;
}

uint64_t plain_live_add(struct plain_live *live, uint64_t place, const uint8_t *rule,
                        size_t rule_len)
{
    uint64_t refused = check_rule(rule, rule_len);
    if (refused)
        return refused;
    if (looks_ahead(rule) || get16(rule + 2) != live->channels)
        return refuse(16, 0, 0);
    if (place >= PLAIN_PLACES || live->places[place].parts != 0)
        return refuse(17, 0, 0);
    struct plain_place *p = &live->places[place];
    unsigned parts = get16(rule);
    const uint8_t *kinds = rule + 4, *operands = kinds + parts;
    p->parts = (uint8_t)parts;
    p->age = 0;
    memset(p->truths, 0, sizeof p->truths);
    for (unsigned i = 0; i < parts; i++)
        p->part[i] = decode_part(kinds[i], operands + 12 * i);
    return 0;
}

uint64_t plain_live_drop(struct plain_live *live, uint64_t place)
{
    if (place >= PLAIN_PLACES || live->places[place].parts == 0)
        return refuse(17, 0, 0);
    live->places[place].parts = 0;
    return 0;
}

/* ---- Rows and answers ---- */

static inline int64_t value_of(const int64_t *cells, uint8_t cell, int32_t number)
{
    return cell == NO_CELL ? number : cells[cell];
}

static inline bool is_in_window(int64_t number, int32_t from, int32_t to)
{
    int32_t minute = (int32_t)number % WEEK;
    minute += minute < 0 ? WEEK : 0;
    return from < to ? minute >= from && minute < to : minute >= from || minute < to;
}

static inline bool atom_holds(const int64_t *cells, const struct plain_part *p)
{
    int64_t left = value_of(cells, p->a, p->left), right;
    switch (p->kind) {
    case LESS:
        right = value_of(cells, p->b, p->right);
        return left < right && right != PINNED_CELL;
    case EQUAL:
        right = value_of(cells, p->b, p->right);
        return left == right && left != PINNED_CELL;
    case WINDOW:
        return left != PINNED_CELL && is_in_window(left, p->left, p->right);
    default:
        return left == PINNED_CELL;
    }
}

/* All parts of a rule on the newest row. The new truths are written to an array of its own,
   so that the compiler sees that they change no part. */
static void step(struct plain_place *place, const int64_t *cells)
{
    uint8_t now[PLAIN_PARTS];
    const uint8_t *before = place->truths;
    unsigned parts = place->parts, age = place->age;
    bool first = age == 0;
    for (unsigned i = 0; i < parts; i++) {
        const struct plain_part *p = &place->part[i];
        switch (p->kind) {
        case NOT:
            now[i] = !now[p->a];
            break;
        case AND:
            now[i] = now[p->a] & now[p->b];
            break;
        case OR:
            now[i] = now[p->a] | now[p->b];
            break;
        case YESTERDAY:
            now[i] = before[p->a]; /* 0 on the first row */
            break;
        case WEAK_YESTERDAY:
            now[i] = first | before[p->a];
            break;
        case SINCE:
            now[i] = now[p->b] | (now[p->a] & before[i]);
            break;
        case TRIGGER:
            now[i] = now[p->b] & (now[p->a] | first | before[i]);
            break;
        default:
            now[i] = p->reach <= age && atom_holds(cells, p);
        }
    }
    memcpy(place->truths, now, parts);
    place->age = (uint8_t)(age < PLAIN_ROWS ? age + 1 : PLAIN_ROWS);
}

uint64_t plain_live_row(struct plain_live *live, const uint8_t *readings, size_t readings_len)
{
    if (readings_len != 4 * (size_t)live->channels)
        return refuse(17, 0, 0);
    memmove(live->cells + PLAIN_CHANNELS, live->cells,
            (PLAIN_ROWS - 1) * PLAIN_CHANNELS * sizeof live->cells[0]);
    for (unsigned i = 0; i < live->channels; i++) {
        int32_t reading = get32(readings + 4 * i);
        live->cells[i] = reading >= live->tops[i] ? PINNED_CELL : reading;
    }
    for (int i = 0; i < PLAIN_PLACES; i++)
        if (live->places[i].parts != 0)
            step(&live->places[i], live->cells);
    return 0;
}

uint64_t plain_live_answer(const struct plain_live *live, uint64_t place)
{
    if (place >= PLAIN_PLACES)
        return refuse(17, 0, 0);
    const struct plain_place *p = &live->places[place];
    if (p->parts == 0)
        return 3;
    return p->age == 0 ? 2 : p->truths[p->parts - 1];
}
