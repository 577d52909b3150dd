/*
 * plain_make.h: the maker of mark tables in plain C, to time the exported one
 * beside. The same arguments, answers and bytes written as in
 * include/endless_run.h.
 */
#ifndef PLAIN_MAKE_H
#define PLAIN_MAKE_H

#include <stddef.h>
#include <stdint.h>

uint64_t plain_make(const uint8_t *rule, size_t rule_len, const uint8_t *plan, size_t plan_len,
                    uint8_t *marks, size_t marks_len);

#endif
