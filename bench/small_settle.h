/*
 * small_settle.h: the search for the fewest passes in C written for speed that keeps its
 * marks in the scratch, to time the exported one beside. The same arguments, answers and
 * bytes written as in include/endless_run.h.
 */
#ifndef SMALL_SETTLE_H
#define SMALL_SETTLE_H

#include <stddef.h>
#include <stdint.h>

uint64_t small_settle(const uint8_t *rule, size_t rule_len, const uint8_t *plan, size_t plan_len,
                      uint8_t *laid_out, size_t laid_out_len, uint8_t *scratch, size_t scratch_len);

#endif
