/*
 * plain_passes.h: on which passes a line lies below a number, for atoms under tops.
 *
 * A line lies below a number on one stretch of passes: on all, on none, up to some pass or
 * from some pass on, which one division finds. Two stretches have a stretch in common. Their
 * ends are compared with each other and with nothing else: on a pass of 2^36 a line may have
 * left 64 bits.
 *
 * Every function is static, as in plain.h.
 */
#ifndef PLAIN_PASSES_H
#define PLAIN_PASSES_H

#include "plain.h"

#define FOREVER INT64_MAX

/* The passes from one on and before the end; none where the end is not above it. */
struct passes {
    int64_t from, end;
};

static inline struct passes all_passes(void)
{
    return (struct passes){ 0, FOREVER };
}

static inline struct passes no_passes(void)
{
    return (struct passes){ 0, 0 };
}

static inline bool are_none(struct passes p)
{
    return p.end <= p.from;
}

static inline bool are_all(struct passes p)
{
    return p.from == 0 && p.end == FOREVER;
}

static inline struct passes passes_below(struct line line, int64_t number)
{
    if (line.number < number) {
        if (line.step <= 0)
            return all_passes();
        return (struct passes){ 0, (number - line.number - 1) / line.step + 1 };
    }
    if (line.step >= 0)
        return no_passes();
    return (struct passes){ (line.number - number) / -line.step + 1, FOREVER };
}

static inline struct passes passes_at_0(struct line line)
{
    if (line.step == 0)
        return line.number == 0 ? all_passes() : no_passes();
    int64_t pass = -(line.number / line.step);
    if (pass < 0 || line.number % line.step != 0)
        return no_passes();
    return (struct passes){ pass, pass + 1 };
}

static inline struct passes passes_unpinned(struct line line, int64_t top)
{
    return top == NO_TOP ? all_passes() : passes_below(line, top);
}

static inline struct passes common_passes(struct passes p, struct passes q)
{
    return (struct passes){ p.from > q.from ? p.from : q.from, p.end < q.end ? p.end : q.end };
}

/* What is true on these passes alone. */
static inline int judge_passes(struct passes p)
{
    return are_all(p) ? ALWAYS_TRUE : are_none(p) ? ALWAYS_FALSE : CHANGES;
}

/* The pass from which on that stays as it is. */
static inline int64_t last_change(struct passes p)
{
    return are_none(p) ? 0 : p.end == FOREVER ? p.from : p.end;
}

#endif
