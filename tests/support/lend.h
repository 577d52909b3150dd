/*
 * lend.h: calls of the checker on bytes that are watched.
 *
 * Each slice is lent from a place of its own that has a page with no access on
 * either side, and lies hard against one of the two, now this one, now that. A
 * checker that reads past the end of a slice, or before its beginning, stops
 * the program. After the call every byte is held against what was lent. An
 * empty slice is lent by a null pointer as often as not.
 *
 * The buffers of make and settle and the live state are lent in the same way. On the open
 * side of each are guard bytes, which are held against what they were as well. So a state
 * lies now here, now there, from one call to the next.
 */
#ifndef LEND_H
#define LEND_H

#include "../second/second.h"

#include "../../include/endless_run.h"

/* What a call gave, and whether all bytes lent are as before. */
struct asked {
    uint64_t answer;
    bool unchanged;
};

struct asked ask_check(struct slice rule, struct slice plan, struct slice marks);
struct asked ask_judge(struct slice rule, struct slice plan, uint64_t part, uint64_t row);

/* The buffer is lent with the bytes that it has, and has afterwards those that
   the call left. Unchanged: the rule, the plan and the guard bytes. */
struct asked ask_make(struct slice rule, struct slice plan, uint8_t *buffer, size_t len);

/* The same with the two buffers of settle. */
struct asked ask_settle(struct slice rule, struct slice plan, uint8_t *laid_out,
                        size_t laid_out_len, uint8_t *scratch, size_t scratch_len);

/* The calls on a live state, which has afterwards the bytes that the call left. Unchanged:
   the slice and the guard bytes, and of live answer the state too. */
struct asked ask_live_start(struct endless_run_live *state, uint64_t channels, struct slice tops);
struct asked ask_live_add(struct endless_run_live *state, uint64_t place, struct slice rule);
struct asked ask_live_drop(struct endless_run_live *state, uint64_t place);
struct asked ask_live_row(struct endless_run_live *state, struct slice readings);
struct asked ask_live_answer(const struct endless_run_live *state, uint64_t place);

#endif
