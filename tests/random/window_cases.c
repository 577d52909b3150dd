/*
 * window_cases.c: random windows of the week, and readings and drifts for them.
 *
 * A drift comes to the minutes that lie a multiple of some divisor of the week apart.
 * A window closes if it has none of them, or all of them. So most windows here begin or
 * end beside a minute that is read, and are about as long as that divisor, or leave out
 * as much.
 */
#include "cases.h"

#include "dice.h"

/* ---- Readings and drifts ---- */

static int power(int base, int exponent)
{
    return exponent == 0 ? 1 : base * power(base, exponent - 1);
}

/* 10080 is 2^5 * 3^2 * 5 * 7. */
static int some_divisor(void)
{
    int of_2_and_3 = power(2, below(6)) * power(3, below(3));
    return of_2_and_3 * power(5, below(2)) * power(7, below(2));
}

int32_t weekly_reading(void)
{
    static const int minutes[] = { 0, 1, 480, 1020, 5040, WEEK - 1 };
    if (chance(5))
        return extreme_number();
    int minute = chance(70) ? minutes[below(6)] + between(-1, 1) : below(WEEK);
    return minute + WEEK * (chance(60) ? between(-1, 1) : between(-200000, 200000));
}

int32_t weekly_drift(void)
{
    static const int32_t days[] = { 0, 1, 1440, 2880, WEEK - 1, WEEK, WEEK + 1, 3 * WEEK };
    int32_t drift = chance(40) ? days[below(8)] : some_divisor() * between(1, 3);
    if (chance(10))
        drift = WEEK * below(200000) + (chance(50) ? some_divisor() : 0);
    return chance(50) ? drift : -drift;
}

/* ---- Windows ---- */

static int minute_of(int64_t number)
{
    int remainder = (int)(number % WEEK);
    return remainder < 0 ? remainder + WEEK : remainder;
}

/* How far the minutes lie apart that a drift comes to: the greatest common divisor of the
   drift and the week. */
static int minutes_apart(int32_t drift)
{
    int a = WEEK, b = minute_of(drift);
    while (b != 0) {
        int remainder = a % b;
        a = b;
        b = remainder;
    }
    return a;
}

/* So many minutes, from a minute beside the one read on: just short of the next one that
   the drift comes to, up to it, or as it comes. */
static int some_length(int apart)
{
    int length = apart + between(-2, 1);
    if (chance(40))
        length = between(1, 3);
    else if (chance(30))
        length = between(1, WEEK - 1);
    return length < 1 ? 1 : length > WEEK - 1 ? WEEK - 1 : length;
}

struct formula some_window(void)
{
    const struct plan *p = &case_truth.plan;
    int channel = below(p->channels), row = below(p->rows);
    int least = -4, most = p->lead > 0 && chance(40) ? -1 : 4;
    int64_t pass = row < p->start ? 0 : chance(70) ? 0 : below(40);
    int64_t number = p->reading[row][channel] + pass * p->drift[row][channel];
    if (p->lead > 0 && chance(15))
        number = p->lead_in[below(p->lead)][channel];
    int from = minute_of(number + between(-1, 2));
    int to = minute_of(from + some_length(minutes_apart(p->drift[row][channel])));
    struct formula f = { .kind = WINDOW, .from = from, .to = to };
    f.left = reading(channel, chance(50) ? 0 : between(least, most));
    if (chance(50)) { /* all the other minutes */
        f.from = to;
        f.to = from;
    }
    return f;
}
