/*
 * top_cases.c: random tops, and parts that ask whether a reading is pinned.
 *
 * Most tops are a number that a cell of the plan comes to on some pass, or one beside it,
 * so that readings stop just below a top, come to it or step over it. Others are met by
 * every reading, or by none. Readings that fall are put above their top now and then, so
 * that they leave it after some passes.
 */
#include "cases.h"

#include "dice.h"

/* The exact value of some cell on some pass, or of a lead-in row. */
static int64_t some_value(const struct plan *p, int channel)
{
    int row = below(p->rows);
    int64_t pass = row < p->start ? 0 : chance(50) ? below(6) : below(60);
    if (p->lead > 0 && chance(15))
        return p->lead_in[below(p->lead)][channel];
    if (chance(5))
        pass = row < p->start ? 0 : below(1 << 20);
    return p->reading[row][channel] + pass * p->drift[row][channel];
}

static int32_t some_top(const struct plan *p, int channel)
{
    static const int32_t ends[] = { 1, 2, INT32_MAX, INT32_MAX - 1, 1 << 30 };
    for (int tries = 0; tries < 4 && chance(95); tries++) {
        int64_t top = some_value(p, channel) + between(-1, 1);
        if (top >= 1 && top <= INT32_MAX)
            return (int32_t)top;
    }
    return chance(50) ? 0 : ends[below(5)];
}

/* Some of the cycle rows that fall begin so many passes above the top, or beside it. */
static void lift_falling_rows(struct plan *p, int channel)
{
    for (int row = p->start; row < p->rows; row++) {
        int64_t fall = -(int64_t)p->drift[row][channel];
        int64_t lifted = p->top[channel] + fall * (chance(80) ? below(12) : below(400));
        lifted += between(-1, 1);
        if (fall <= 0 || lifted > INT32_MAX || chance(30))
            continue;
        p->reading[row][channel] = (int32_t)lifted;
        write_reading(&case_plan, row, channel, (int32_t)lifted);
    }
}

void write_some_tops(void)
{
    struct plan *p = &case_truth.plan;
    for (int channel = 0; channel < p->channels; channel++) {
        p->top[channel] = chance(70) ? some_top(p, channel) : 0;
        write_top(&case_plan, channel, p->top[channel]);
        if (p->top[channel] != 0 && chance(50))
            lift_falling_rows(p, channel);
    }
}

bool has_tops(const struct plan *plan)
{
    for (int channel = 0; channel < plan->channels; channel++)
        if (plan->top[channel] != 0)
            return true;
    return false;
}

/* Mostly of a channel that has a top, if there is one. */
struct formula some_pinned(void)
{
    const struct plan *p = &case_truth.plan;
    int channel = below(p->channels);
    int least = -4, most = p->lead > 0 && chance(40) ? -1 : 4;
    for (int tries = 0; tries < 4 && p->top[channel] == 0; tries++)
        channel = below(p->channels);
    return (struct formula){ .kind = PINNED,
                             .left = reading(channel, chance(50) ? 0 : between(least, most)) };
}
