/*
 * dice.h: random numbers that are the same for the same seed.
 */
#ifndef DICE_H
#define DICE_H

#include <stdbool.h>
#include <stdint.h>

/* What comes next depends on the seed alone. */
void seed_dice(uint64_t seed);

uint64_t next_random(void);

/* From 0 to n - 1. */
int below(int n);

/* From low to high. */
int between(int low, int high);

/* True so many times in 100. */
bool chance(int percent);

#endif
