/*
 * lend.c: calls of the checker on bytes that are watched.
 */
#define _DEFAULT_SOURCE
#include "lend.h"

#include <stdio.h>
#include <stdlib.h>
#include <string.h>
#include <sys/mman.h>

enum { PAGE = 65536, PLACE = 16 * PAGE, LENDERS = 4, GUARD = 512, GUARD_BYTE = 0xA5 };

/* A place to lend from, between two pages with no access. */
struct lender {
    uint8_t *place;
    uint32_t turns;
};

static struct lender lenders[LENDERS];

static void open_lender(struct lender *lender)
{
    uint8_t *map = mmap(NULL, PLACE + 2 * PAGE, PROT_NONE, MAP_PRIVATE | MAP_ANONYMOUS, -1, 0);
    if (map == MAP_FAILED || mprotect(map + PAGE, PLACE, PROT_READ | PROT_WRITE) != 0) {
        perror("lend");
        exit(2);
    }
    lender->place = map + PAGE;
}

/* Whether to lend at the end of the place or at its beginning. Whoever lends every
   second time, or every fifth, meets both as often. */
static bool take_turn(struct lender *lender)
{
    return (lender->turns++ * 0x9E3779B9u) >> 31 == 0;
}

/* Copy the bytes to the place, at its end or at its beginning. */
static uint8_t *lend(struct lender *lender, struct slice bytes)
{
    if (lender->place == NULL)
        open_lender(lender);
    if (bytes.len > PLACE - GUARD) {
        fprintf(stderr, "lend: a slice of %zu bytes\n", bytes.len);
        exit(2);
    }
    bool at_end = take_turn(lender);
    if (bytes.len == 0)
        return at_end ? lender->place + PLACE : NULL;
    uint8_t *at = at_end ? lender->place + PLACE - bytes.len : lender->place;
    memcpy(at, bytes.at, bytes.len);
    return at;
}

static bool same(const uint8_t *lent, struct slice bytes)
{
    return bytes.len == 0 || memcmp(lent, bytes.at, bytes.len) == 0;
}

struct asked ask_check(struct slice rule, struct slice plan, struct slice marks)
{
    const uint8_t *r = lend(&lenders[0], rule);
    const uint8_t *p = lend(&lenders[1], plan);
    const uint8_t *m = lend(&lenders[2], marks);
    uint64_t answer = endless_run_check(r, rule.len, p, plan.len, m, marks.len);
    return (struct asked){ answer, same(r, rule) && same(p, plan) && same(m, marks) };
}

struct asked ask_judge(struct slice rule, struct slice plan, uint64_t part, uint64_t row)
{
    const uint8_t *r = lend(&lenders[0], rule);
    const uint8_t *p = lend(&lenders[1], plan);
    uint64_t answer = endless_run_judge(r, rule.len, p, plan.len, part, row);
    return (struct asked){ answer, same(r, rule) && same(p, plan) };
}

/* The guard bytes beside a buffer: before one at the end of the place, behind one
   at its beginning. */
static uint8_t *guard_of(const struct lender *lender, uint8_t *buffer, size_t len)
{
    bool at_end = buffer != NULL && buffer != lender->place;
    return at_end ? buffer - GUARD : lender->place + len;
}

static bool stands(const uint8_t *guard)
{
    return guard[0] == GUARD_BYTE && memcmp(guard, guard + 1, GUARD - 1) == 0;
}

/* A buffer that is lent to be written. */
struct lent {
    uint8_t *at, *guard;
};

static struct lent lend_buffer(struct lender *lender, const uint8_t *buffer, size_t len)
{
    uint8_t *at = lend(lender, (struct slice){ buffer, len });
    uint8_t *guard = guard_of(lender, at, len);
    memset(guard, GUARD_BYTE, GUARD);
    return (struct lent){ at, guard };
}

static void take_back(struct lent lent, uint8_t *buffer, size_t len)
{
    if (len > 0)
        memcpy(buffer, lent.at, len);
}

struct asked ask_make(struct slice rule, struct slice plan, uint8_t *buffer, size_t len)
{
    const uint8_t *r = lend(&lenders[0], rule);
    const uint8_t *p = lend(&lenders[1], plan);
    struct lent m = lend_buffer(&lenders[2], buffer, len);
    uint64_t answer = endless_run_make(r, rule.len, p, plan.len, m.at, len);
    take_back(m, buffer, len);
    return (struct asked){ answer, same(r, rule) && same(p, plan) && stands(m.guard) };
}

struct asked ask_settle(struct slice rule, struct slice plan, uint8_t *laid_out,
                        size_t laid_out_len, uint8_t *scratch, size_t scratch_len)
{
    const uint8_t *r = lend(&lenders[0], rule);
    const uint8_t *p = lend(&lenders[1], plan);
    struct lent l = lend_buffer(&lenders[2], laid_out, laid_out_len);
    struct lent s = lend_buffer(&lenders[3], scratch, scratch_len);
    uint64_t answer =
        endless_run_settle(r, rule.len, p, plan.len, l.at, laid_out_len, s.at, scratch_len);
    take_back(l, laid_out, laid_out_len);
    take_back(s, scratch, scratch_len);
    return (struct asked){ answer, same(r, rule) && same(p, plan) && stands(l.guard) &&
                                       stands(s.guard) };
}

/* ---- Live states ---- */

/* The size of a state keeps it aligned at the end of the place too. */
static struct lent lend_state(const struct endless_run_live *state)
{
    return lend_buffer(&lenders[2], (const uint8_t *)state, sizeof *state);
}

static struct endless_run_live *state_at(struct lent lent)
{
    return (struct endless_run_live *)(void *)lent.at;
}

static void take_state_back(struct lent lent, struct endless_run_live *state)
{
    take_back(lent, (uint8_t *)state, sizeof *state);
}

struct asked ask_live_start(struct endless_run_live *state, uint64_t channels, struct slice tops)
{
    const uint8_t *t = lend(&lenders[0], tops);
    struct lent s = lend_state(state);
    uint64_t answer = endless_run_live_start(state_at(s), channels, t, tops.len);
    take_state_back(s, state);
    return (struct asked){ answer, same(t, tops) && stands(s.guard) };
}

struct asked ask_live_add(struct endless_run_live *state, uint64_t place, struct slice rule)
{
    const uint8_t *r = lend(&lenders[0], rule);
    struct lent s = lend_state(state);
    uint64_t answer = endless_run_live_add(state_at(s), place, r, rule.len);
    take_state_back(s, state);
    return (struct asked){ answer, same(r, rule) && stands(s.guard) };
}

struct asked ask_live_drop(struct endless_run_live *state, uint64_t place)
{
    struct lent s = lend_state(state);
    uint64_t answer = endless_run_live_drop(state_at(s), place);
    take_state_back(s, state);
    return (struct asked){ answer, stands(s.guard) };
}

struct asked ask_live_row(struct endless_run_live *state, struct slice readings)
{
    const uint8_t *r = lend(&lenders[0], readings);
    struct lent s = lend_state(state);
    uint64_t answer = endless_run_live_row(state_at(s), r, readings.len);
    take_state_back(s, state);
    return (struct asked){ answer, same(r, readings) && stands(s.guard) };
}

struct asked ask_live_answer(const struct endless_run_live *state, uint64_t place)
{
    struct lent s = lend_state(state);
    uint64_t answer = endless_run_live_answer(state_at(s), place);
    bool as_it_was = memcmp(s.at, state, sizeof *state) == 0;
    return (struct asked){ answer, as_it_was && stands(s.guard) };
}
