/*
 * settle.c: passes laid out one after another, and the answers of settle, from the
 * published truth alone.
 *
 * Laying out a pass makes start rows of the cycle rows and puts the cycle behind
 * them as it is one pass later: each reading with its drift added. The run stays the
 * same, and the tops too; a pinned reading is laid out as the number that it is. 0, 1, 2
 * passes and on are tried in turn, and on each plan the truth of the parts is found
 * anew. Once a pass cannot be laid out no more are tried, as every plan with more passes
 * has the rows and readings of that one too. Nor are more tried where a window comes and
 * goes for ever, as it does so on the later passes too.
 */
#include "second.h"

#include <string.h>

static bool fits(int64_t reading)
{
    return reading >= INT32_MIN && reading <= INT32_MAX;
}

/* ---- One pass ---- */

static bool can_lay_out_pass(const struct plan *plan)
{
    if (plan->rows + plan->cycle > MOST_ROWS)
        return false;
    for (int row = plan->start; row < plan->rows; row++)
        for (int channel = 0; channel < plan->channels; channel++)
            if (!fits((int64_t)plan->reading[row][channel] + plan->drift[row][channel]))
                return false;
    return true;
}

bool lay_out_pass(struct plan *plan)
{
    if (!can_lay_out_pass(plan))
        return false;
    for (int row = plan->start; row < plan->rows; row++)
        for (int channel = 0; channel < plan->channels; channel++) {
            int later = row + plan->cycle;
            int32_t reading = plan->reading[row][channel], drift = plan->drift[row][channel];
            plan->reading[later][channel] = reading + drift;
            plan->drift[later][channel] = drift;
            plan->drift[row][channel] = 0;
        }
    plan->start += plan->cycle;
    plan->rows += plan->cycle;
    return true;
}

/* ---- The plan as bytes ---- */

static uint8_t *put(uint8_t *at, int bytes, int64_t number)
{
    for (int i = 0; i < bytes; i++)
        at[i] = (uint8_t)((uint64_t)number >> 8 * i);
    return at + bytes;
}

static uint8_t *put_row(uint8_t *at, const struct plan *plan, const int32_t *numbers)
{
    for (int channel = 0; channel < plan->channels; channel++)
        at = put(at, 4, numbers[channel]);
    return at;
}

size_t plan_length(const struct plan *plan)
{
    return 8 + (size_t)plan->channels * (4 + 8 * (size_t)(plan->lead + plan->rows));
}

void write_plan(const struct plan *plan, uint8_t *at)
{
    static const int32_t no_drift[MOST_CHANNELS];
    at = put(at, 2, plan->channels);
    at = put(at, 2, plan->start);
    at = put(at, 2, plan->cycle);
    at = put(at, 2, plan->lead);
    at = put_row(at, plan, plan->top);
    for (int row = 0; row < plan->lead; row++)
        at = put_row(at, plan, plan->lead_in[row]);
    for (int row = 0; row < plan->rows; row++)
        at = put_row(at, plan, plan->reading[row]);
    for (int row = 0; row < plan->lead; row++)
        at = put_row(at, plan, no_drift);
    for (int row = 0; row < plan->rows; row++)
        at = put_row(at, plan, plan->drift[row]);
}

/* ---- Settle ---- */

static bool every_part_closes(struct truth *space)
{
    for (int part = 0; part < space->rule.parts; part++) {
        find_truth(space, part);
        if (!is_row_periodic(space, part))
            return false;
    }
    return true;
}

static bool some_window_never_settles(const struct truth *space)
{
    const struct plan *plan = &space->plan;
    for (int part = 0; part < space->rule.parts; part++)
        for (int row = plan->start; row < plan->rows; row++)
            if (space->rule.part[part].kind == WINDOW &&
                settled_pass(plan, &space->rule.part[part], row) == NEVER_SETTLED)
                return true;
    return false;
}

uint64_t second_settle(struct truth *space, struct slice rule, struct slice plan,
                       uint8_t *laid_out, size_t laid_out_len, uint8_t *scratch,
                       size_t scratch_len)
{
    uint64_t refused = decode_rule(rule, &space->rule);
    if (!refused)
        refused = decode_plan(plan, space->rule.channels, &space->plan);
    if (refused)
        return refused;
    if (laid_out_len != LAID_OUT_LENGTH || scratch_len != SCRATCH_LENGTH)
        return refusal(13, 0, 0);
    memset(scratch, 0, scratch_len);
    uint64_t passes = 0;
    bool never = some_window_never_settles(space);
    while (!every_part_closes(space)) {
        if (never || !lay_out_pass(&space->plan))
            return refusal(15, 0, 0);
        passes++;
    }
    write_plan(&space->plan, laid_out);
    return passes;
}
