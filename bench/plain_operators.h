/*
 * plain_operators.h: the marks of an operator over the marks of the parts that it
 * names, for the maker and the settlers in C, and for the check in C where it refuses.
 * Start and rows are P and W.
 *
 * Every function is static, as in plain.h.
 */
#ifndef PLAIN_OPERATORS_H
#define PLAIN_OPERATORS_H

#include "plain.h"

#include <string.h>

static inline void make_not(uint8_t *restrict m, const uint8_t *restrict a, int rows)
{
    for (int row = 0; row < rows; row++)
        m[row] = a[row] ^ 1;
}

static inline void make_and(uint8_t *restrict m, const uint8_t *restrict a,
                            const uint8_t *restrict b, int rows)
{
    for (int row = 0; row < rows; row++)
        m[row] = a[row] & b[row];
}

static inline void make_or(uint8_t *restrict m, const uint8_t *restrict a,
                           const uint8_t *restrict b, int rows)
{
    for (int row = 0; row < rows; row++)
        m[row] = a[row] | b[row];
}

static inline void make_next(uint8_t *m, const uint8_t *a, int start, int rows)
{
    memcpy(m, a + 1, (size_t)rows - 1);
    m[rows - 1] = a[start];
}

static inline uint8_t step(bool until, unsigned a, unsigned b, unsigned beside)
{
    return (uint8_t)(until ? b | (a & beside) : b & (a | beside));
}

/* U, or R: backward over the cycle, where U takes 0 and R takes 1 for the mark
   after row W - 1; once more from the mark now on row P, as long as it makes a
   difference; then on over the start rows. */
static inline void make_backward(bool until, uint8_t *restrict m, const uint8_t *restrict a,
                                 const uint8_t *restrict b, int start, int rows)
{
    unsigned after = !until;
    for (int row = rows - 1; row >= start; row--)
        m[row] = (uint8_t)(after = step(until, a[row], b[row], after));
    for (int row = rows - 1; row >= start; row--) {
        after = step(until, a[row], b[row], after);
        if (m[row] == after)
            break;
        m[row] = (uint8_t)after;
    }
    after = m[start];
    for (int row = start - 1; row >= 0; row--)
        m[row] = (uint8_t)(after = step(until, a[row], b[row], after));
}

/* S, or T: forward from a row on; the rows before it are marked. */
static inline void make_forward(bool since, uint8_t *restrict m, const uint8_t *restrict a,
                                const uint8_t *restrict b, int first, int rows)
{
    unsigned before = first == 0 ? b[0] : step(since, a[first], b[first], m[first - 1]);
    m[first] = (uint8_t)before;
    for (int row = first + 1; row < rows; row++)
        m[row] = (uint8_t)(before = step(since, a[row], b[row], before));
}

/* Y, or Z: the marks one row on, from a row on. */
static inline void make_yesterday(uint8_t at_0, uint8_t *m, const uint8_t *a, int first, int rows)
{
    m[first] = first == 0 ? at_0 : a[first - 1];
    memcpy(m + first + 1, a + first, (size_t)(rows - first) - 1);
}

/* Of an operator. */
static inline bool is_past(int kind)
{
    return kind >= YESTERDAY;
}

/* Not, and, or, X, U and R. They always close. */
static inline void make_closed(int kind, uint8_t *m, const uint8_t *a, const uint8_t *b, int start,
                               int rows)
{
    switch (kind) {
    case NOT:
        make_not(m, a, rows);
        break;
    case AND:
        make_and(m, a, b, rows);
        break;
    case OR:
        make_or(m, a, b, rows);
        break;
    case NEXT:
        make_next(m, a, start, rows);
        break;
    case UNTIL:
        make_backward(true, m, a, b, start, rows);
        break;
    default:
        make_backward(false, m, a, b, start, rows);
    }
}

/* Y, Z, S and T, from a row on; the rows before it are marked. */
static inline void make_past(int kind, uint8_t *m, const uint8_t *a, const uint8_t *b, int first,
                             int rows)
{
    switch (kind) {
    case SINCE:
        make_forward(true, m, a, b, first, rows);
        break;
    case TRIGGER:
        make_forward(false, m, a, b, first, rows);
        break;
    default:
        make_yesterday(kind == WEAK_YESTERDAY, m, a, first, rows);
    }
}

/* Whether Y, Z, S or T closes with these marks. */
static inline bool past_closes(int kind, const uint8_t *m, const uint8_t *a, const uint8_t *b,
                               int start, int rows)
{
    if (kind == SINCE || kind == TRIGGER)
        return m[start] == step(kind == SINCE, a[start], b[start], m[rows - 1]);
    return m[start] == a[rows - 1];
}

/* The marks of an operator over the marks of the parts that it names. Gives whether it
   closes. */
static inline bool make_operator(int kind, uint8_t *m, const uint8_t *a, const uint8_t *b, int start,
                                 int rows)
{
    if (!is_past(kind)) {
        make_closed(kind, m, a, b, start, rows);
        return true;
    }
    make_past(kind, m, a, b, 0, rows);
    return past_closes(kind, m, a, b, start, rows);
}

#endif
