/*
 * dice.c: random numbers by the generator SplitMix64.
 */
#include "dice.h"

static uint64_t state;

void seed_dice(uint64_t seed)
{
    state = seed;
}

uint64_t next_random(void)
{
    uint64_t z = (state += 0x9E3779B97F4A7C15u);
    z = (z ^ (z >> 30)) * 0xBF58476D1CE4E5B9u;
    z = (z ^ (z >> 27)) * 0x94D049BB133111EBu;
    return z ^ (z >> 31);
}

int below(int n)
{
    return (int)(next_random() % (uint64_t)n);
}

int between(int low, int high)
{
    return low + below(high - low + 1);
}

bool chance(int percent)
{
    return below(100) < percent;
}
