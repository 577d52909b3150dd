/*
 * plain_check.h: check and judge in C, to time the exported ones beside. The same
 * arguments and the same answers as in include/endless_run.h.
 */
#ifndef PLAIN_CHECK_H
#define PLAIN_CHECK_H

#include <stddef.h>
#include <stdint.h>

uint64_t plain_check(const uint8_t *rule, size_t rule_len, const uint8_t *plan, size_t plan_len,
                     const uint8_t *marks, size_t marks_len);

/* The same check with its windows gone through row by row. */
uint64_t plain_check_by_rows(const uint8_t *rule, size_t rule_len, const uint8_t *plan,
                             size_t plan_len, const uint8_t *marks, size_t marks_len);

uint64_t plain_judge(const uint8_t *rule, size_t rule_len, const uint8_t *plan, size_t plan_len,
                     uint64_t part, uint64_t row);

#endif
