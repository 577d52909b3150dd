/*
 * plain_layout.h: the bytes of a plan with passes laid out, for the settlers in C.
 *
 * Every function is static, as in plain.h.
 */
#ifndef PLAIN_LAYOUT_H
#define PLAIN_LAYOUT_H

#include "plain.h"

#include <string.h>

enum { LAID_OUT_LENGTH = 16680, SCRATCH_LENGTH = 2048 };

static inline void put32(uint8_t *at, int32_t n)
{
    put16(at, (uint32_t)n & 0xFFFF);
    put16(at + 2, (uint32_t)n >> 16);
}

/* The bytes are those of the plan. Each reading of a pass is that of the pass before and
   its drift. */
static inline void write_layout(const uint8_t *bytes, const struct plan *plan, int passes,
                                uint8_t *laid_out)
{
    size_t start = (size_t)(plan->start + passes * plan->cycle);
    size_t row_bytes = 4 * (size_t)plan->channels;
    size_t cycle_bytes = row_bytes * (size_t)plan->cycle;
    size_t still_bytes = row_bytes * ((size_t)plan->lead + start);
    size_t stored_bytes = row_bytes * (size_t)(plan->lead + plan->rows);
    const uint8_t *drifts = plan->drifts + cell_of(plan, plan->start, 0);
    size_t first_bytes = 8 + row_bytes + stored_bytes; /* sizes, tops and readings */
    uint8_t *at = laid_out + first_bytes;
    memcpy(laid_out, bytes, first_bytes);
    put16(laid_out + 2, start);
    for (int pass = 0; pass < passes; pass++)
        for (size_t i = 0; i < cycle_bytes; i += 4, at += 4)
            put32(at, get32(at - cycle_bytes) + get32(drifts + i));
    memset(at, 0, still_bytes);
    memcpy(at + still_bytes, drifts, cycle_bytes);
}

#endif
