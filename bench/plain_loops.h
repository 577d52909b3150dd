/*
 * plain_loops.h: loops over all rows that the compiler takes many at a time, for the sweeps,
 * and the rows of a comparison that they go over.
 */
#ifndef PLAIN_LOOPS_H
#define PLAIN_LOOPS_H

#include <stdbool.h>
#include <stddef.h>
#include <stdint.h>

enum { BLOCK = 16 };

/* Return whether the expression, which may use k, is 0 for all k below the count. The
   last block is taken back from the end, with some rows a second time, so that none is
   left over to be taken alone. */
#define ALL_ZERO(type, count, expression)                                                          \
    do {                                                                                           \
        const size_t rows = (count), whole = rows - rows % BLOCK;                                  \
        type any = 0;                                                                              \
        for (size_t k = 0; k < whole; k++)                                                         \
            any |= (type)(expression);                                                             \
        if (whole == 0)                                                                            \
            for (size_t k = 0; k < rows; k++)                                                      \
                any |= (type)(expression);                                                         \
        else if (whole < rows)                                                                     \
            for (size_t k = rows - BLOCK; k < rows; k++)                                           \
                any |= (type)(expression);                                                         \
        return any == 0;                                                                           \
    } while (0)

static inline bool all_bytes_are(uint8_t byte, const uint8_t *bytes, size_t count)
{
    ALL_ZERO(uint8_t, count, bytes[k] ^ byte);
}

/* What a top leaves free on one side of a comparison: numbers up to the first are not
   pinned, and with a drift up to the second none comes to be. Without a top both are
   INT32_MAX. */
struct limits {
    int32_t number, drift;
};

/* Some positions in a row, on rows in a row: the left readings x and drifts d, the
   right ones y and e, the steps of the two sides, the marks, and the limits. */
struct stretch {
    const int32_t *x, *d, *y, *e;
    int left_step, right_step;
    const uint8_t *m;
    size_t count;
    struct limits left, right;
    int32_t *doubts; /* room for one a row, in plain_top_sweeps.h */
};

/* In the sweeps i and j are the steps of the left and of the right side. They are
   written out here, so that a sweep is compiled for each pair of them. */
#define BY_STEPS(sweep, s)                                                                         \
    ((s)->left_step == 0    ? sweep((s), 0, 1)                                                     \
     : (s)->right_step == 0 ? sweep((s), 1, 0)                                                     \
                            : sweep((s), 1, 1))

#endif
