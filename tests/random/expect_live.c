/*
 * expect_live.c: calls on a live state, and what they are held to.
 */
#include "expect.h"

#include "../support/lend.h"
#include "dice.h"

#include <string.h>

static struct endless_run_live state, before;
static struct live second;

const struct live *live_so_far(void)
{
    return &second;
}

void scribble_state(void)
{
    uint8_t *at = (uint8_t *)&state;
    for (size_t i = 0; i < sizeof state; i++)
        at[i] = (uint8_t)below(256);
}

/* ---- Places ---- */

static const char *fault_in_place(uint64_t place)
{
    struct asked asked = ask_live_answer(&state, place);
    if (!asked.unchanged)
        return "live answer wrote to the state, or beside it";
    if (asked.answer != second_live_answer(&second, place))
        return "a place tells otherwise";
    return unpacks_live(asked.answer) ? NULL : "the header does not take what is told apart";
}

/* All four, and one above in turn. */
static const char *fault_in_places(void)
{
    static const uint64_t above[] = { 4, 255, 256, 65536, (uint64_t)1 << 32, UINT64_MAX };
    static unsigned turn;
    const char *fault = fault_in_place(above[turn++ % 6]);
    for (uint64_t place = 0; fault == NULL && place < PLACES; place++)
        fault = fault_in_place(place);
    return fault;
}

/* ---- Calls ---- */

/* Byte by byte, as it may have bytes that belong to no field. */
static void keep_state(void)
{
    memcpy(&before, &state, sizeof state);
}

static const char *fault_in_call(struct asked asked, uint64_t of_second, uint64_t answer)
{
    if (of_second != answer)
        return "the second evaluator answers otherwise";
    if (!asked.unchanged)
        return "bytes lent were written, or bytes beside the state";
    if (asked.answer != answer)
        return "wrong answer";
    if (!unpacks_live(asked.answer))
        return "the header does not take the answer apart";
    if (answer != 0 && memcmp(&state, &before, sizeof state) != 0)
        return "a refused call wrote to the state";
    return fault_in_places();
}

static bool count_call(const char *name, struct asked asked, uint64_t of_second, uint64_t answer)
{
    const char *fault = fault_in_call(asked, of_second, answer);
    return count_answers(name, fault, answer, asked.answer, of_second);
}

bool expect_live_start(const char *name, uint64_t channels, struct slice tops, uint64_t answer)
{
    keep_state();
    struct asked asked = ask_live_start(&state, channels, tops);
    return count_call(name, asked, second_live_start(&second, channels, tops), answer);
}

bool expect_live_add(const char *name, uint64_t place, struct slice rule, uint64_t answer)
{
    keep_state();
    struct asked asked = ask_live_add(&state, place, rule);
    return count_call(name, asked, second_live_add(&second, place, rule), answer);
}

bool expect_live_drop(const char *name, uint64_t place, uint64_t answer)
{
    keep_state();
    struct asked asked = ask_live_drop(&state, place);
    return count_call(name, asked, second_live_drop(&second, place), answer);
}

bool expect_live_row(const char *name, struct slice readings, uint64_t answer)
{
    keep_state();
    struct asked asked = ask_live_row(&state, readings);
    return count_call(name, asked, second_live_row(&second, readings), answer);
}

bool takes_row(struct slice readings)
{
    struct asked asked = ask_live_row(&state, readings);
    return fault_in_call(asked, second_live_row(&second, readings), 0) == NULL;
}

bool expect_told(const char *name, uint64_t place, uint64_t answer)
{
    struct asked asked = ask_live_answer(&state, place);
    const char *fault = asked.answer == answer ? fault_in_place(place) : "otherwise is told";
    return count_answers(name, fault, answer, asked.answer, second_live_answer(&second, place));
}

/* ---- The same rows as a plan ---- */

static void write_rule(struct sheet *rule, const struct rule *r)
{
    start_rule(rule, r->parts, r->channels);
    for (int part = 0; part < r->parts; part++)
        write_formula(rule, part, &r->part[part]);
}

/* The rows since the rule was added, and the last of them again for ever. */
static void write_rows(struct sheet *plan, const struct watched *w, int rows)
{
    start_plan(plan, second.channels, rows, 1);
    for (int channel = 0; channel < second.channels; channel++) {
        write_top(plan, channel, second.top[channel]);
        for (int row = 0; row <= rows; row++)
            write_reading(plan, row, channel,
                          second.row[w->before + (row < rows ? row : rows - 1)][channel]);
    }
}

/* Settle and make of the plan of these rows: the mark of the last part on the last of them,
   or a refusal. */
static uint64_t mark_of_plan(const struct watched *w, int rows)
{
    static struct sheet rule, plan, laid_out, scratch, table;
    write_rule(&rule, &w->rule);
    write_rows(&plan, w, rows);
    resize(&laid_out, ENDLESS_RUN_LAID_OUT_LENGTH);
    resize(&scratch, ENDLESS_RUN_SETTLE_SCRATCH_LENGTH);
    uint64_t answer = ask_settle(slice_of(&rule), slice_of(&plan), laid_out.at, laid_out.len,
                                 scratch.at, scratch.len)
                          .answer;
    if (endless_run_is_refusal(answer))
        return answer;
    struct slice settled = { laid_out.at, endless_run_plan_length(laid_out.at) };
    resize(&table, table_length(w->rule.parts, rows + 1 + (int)answer));
    answer = ask_make(slice_of(&rule), settled, table.at, table.len).answer;
    return endless_run_is_refusal(answer) ? answer
                                          : *mark_byte(&table, w->rule.parts - 1, rows - 1);
}

void expect_as_plan(const char *name, int place)
{
    const struct watched *w = &second.place[place];
    int rows = second.rows - w->before;
    if (!w->present || rows == 0 || rows > MOST_IN_PLAN)
        return;
    uint64_t told = endless_run_live_answer(&state, (uint64_t)place);
    uint64_t mark = mark_of_plan(w, rows);
    count_answers(name, told == mark ? NULL : "the plan of these rows has another mark", mark,
                  told, second_live_answer(&second, (uint64_t)place));
}
