/*
 * run.c: the run of a plan, looked at one position at a time, and atoms judged by
 * looking at their passes.
 *
 * Which passes must be looked at? A shift is -4 at least and C is 1 at least, so from
 * pass 4 on (LINES_FROM) each shifted position is P or later. There a pass more adds the
 * same drift of the same row: a term is a straight line in the pass, and so is the gap
 * between two terms. The passes up to 4 are looked at one by one.
 *
 *   Comparisons, pinned   What the truth depends on are a few questions of one form: is
 *                the line at or above a limit? Of each reading, held against its top;
 *                and of the gap, the left number less the right one, held against 0 and
 *                1. A straight line crosses a limit once or never, so from pass 4 on
 *                each question has one answer, then the other for ever. The passes on
 *                which an answer turns are found by division (crossing). The truth can
 *                be another one than on the pass before on these alone, so each of them
 *                is looked at, and the pass before it.
 *
 *   Windows      The minute of the week moves by the same step round the week from
 *                pass 4 on. So once the first minute comes again, after 10080 passes
 *                at the latest, all that follows has been there before: one round of
 *                minutes is looked at, and what changes in it does so in every later
 *                one. With a top there is a stretch on which the reading is pinned and
 *                the window false. A reading that falls leaves it once, and the round
 *                is looked at from there on. One that rises comes to it once, and the
 *                last round of minutes before that is looked at, going back.
 */
#include "second.h"

/* Whole numbers. A pass is below 2^37 and a drift has 32 bits, so 128 bits
   hold every reading on the way. */
__extension__ typedef __int128 whole;

/* ---- Readings ---- */

static int row_at(const struct plan *plan, int64_t position)
{
    if (position < plan->rows)
        return (int)position;
    return plan->start + (int)((position - plan->start) % plan->cycle);
}

static int64_t pass_at(const struct plan *plan, int64_t position)
{
    if (position < plan->rows)
        return 0;
    return (position - plan->start) / plan->cycle;
}

int64_t position_of(const struct plan *plan, int row, int64_t pass)
{
    return row + pass * plan->cycle;
}

/* A position from -L on. */
static whole reading_at(const struct plan *plan, int channel, int64_t position)
{
    if (position < 0)
        return plan->lead_in[plan->lead + position][channel];
    int row = row_at(plan, position);
    return plan->reading[row][channel] +
           (whole)pass_at(plan, position) * plan->drift[row][channel];
}

bool runs_agree(const struct plan *a, const struct plan *b, int64_t position)
{
    bool seen = position >= -a->lead;
    if (seen != (position >= -b->lead))
        return false;
    for (int channel = 0; seen && channel < a->channels; channel++)
        if (reading_at(a, channel, position) != reading_at(b, channel, position))
            return false;
    return true;
}

/* Does the term reach before position -L, where nothing is seen? */
static bool is_unseen(const struct plan *plan, const struct term *term, int64_t position)
{
    return term->is_reading && position + term->shift < -plan->lead;
}

static whole number_at(const struct plan *plan, const struct term *term, int64_t position)
{
    if (!term->is_reading)
        return term->number;
    return reading_at(plan, term->number, position + term->shift);
}

static bool has_top(const struct plan *plan, const struct term *term)
{
    return term->is_reading && plan->top[term->number] != 0;
}

bool is_pinned(const struct plan *plan, const struct term *term, int64_t position)
{
    return has_top(plan, term) && !is_unseen(plan, term, position) &&
           number_at(plan, term, position) >= plan->top[term->number];
}

/* ---- Atoms ---- */

static whole gap_at(const struct plan *plan, const struct formula *f, int64_t position)
{
    return number_at(plan, &f->left, position) - number_at(plan, &f->right, position);
}

/* The minute of the week: the remainder, from 0 upward. */
static int minute_of(whole number)
{
    int remainder = (int)(number % WEEK);
    return remainder < 0 ? remainder + WEEK : remainder;
}

static bool is_in_window(const struct formula *f, int minute)
{
    if (f->from < f->to)
        return minute >= f->from && minute < f->to;
    return minute >= f->from || minute < f->to;
}

bool atom_holds(const struct plan *plan, const struct formula *f, int64_t position)
{
    if (f->kind == PINNED)
        return is_pinned(plan, &f->left, position);
    if (is_unseen(plan, &f->left, position) || is_unseen(plan, &f->right, position))
        return false;
    if (is_pinned(plan, &f->left, position) || is_pinned(plan, &f->right, position))
        return false;
    if (f->kind == WINDOW)
        return is_in_window(f, minute_of(number_at(plan, &f->left, position)));
    whole gap = gap_at(plan, f, position);
    return f->kind == LESS ? gap < 0 : gap == 0;
}

static bool holds_on_pass(const struct plan *plan, const struct formula *f, int row, int64_t pass)
{
    return atom_holds(plan, f, position_of(plan, row, pass));
}

/* ---- Turns ---- */

/* The first pass from which on a line, given by its numbers on passes 4 and 5, stays at
   or above a limit that it was below, or below one that it was not; 4 where it never
   crosses the limit. Of a line that falls, its negative rises. */
static int64_t crossing(whole on_pass_4, whole on_pass_5, whole limit)
{
    whole above = on_pass_4 - limit, step = on_pass_5 - on_pass_4;
    if (step < 0) {
        above = -above - 1;
        step = -step;
    }
    if (step == 0 || above >= 0)
        return LINES_FROM;
    return LINES_FROM + (int64_t)((-above + step - 1) / step);
}

/* The pass on which the term comes to its top, or leaves it. */
static int64_t top_crossing(const struct plan *plan, const struct term *term, int row)
{
    if (!has_top(plan, term))
        return LINES_FROM;
    return crossing(number_at(plan, term, position_of(plan, row, LINES_FROM)),
                    number_at(plan, term, position_of(plan, row, LINES_FROM + 1)),
                    plan->top[term->number]);
}

static int64_t gap_crossing(const struct plan *plan, const struct formula *f, int row, int limit)
{
    if (f->kind != LESS && f->kind != EQUAL)
        return LINES_FROM;
    return crossing(gap_at(plan, f, position_of(plan, row, LINES_FROM)),
                    gap_at(plan, f, position_of(plan, row, LINES_FROM + 1)), limit);
}

enum { TURNS = 4 };

static void find_turns(const struct plan *plan, const struct formula *f, int row, int64_t *turns)
{
    turns[0] = top_crossing(plan, &f->left, row);
    turns[1] = top_crossing(plan, &f->right, row);
    turns[2] = gap_crossing(plan, f, row, 0);
    turns[3] = gap_crossing(plan, f, row, 1);
}

int64_t last_turn(const struct plan *plan, const struct formula *f, int row)
{
    int64_t turns[TURNS], last = LINES_FROM;
    find_turns(plan, f, row, turns);
    for (int i = 0; i < TURNS; i++)
        last = turns[i] > last ? turns[i] : last;
    return last;
}

/* ---- Judging ---- */

static int minute_on_pass(const struct plan *plan, const struct formula *f, int row, int64_t pass)
{
    return minute_of(number_at(plan, &f->left, position_of(plan, row, pass)));
}

/* Do two minutes of the round that begins on this pass differ in truth? */
static bool changes_in_a_round(const struct plan *plan, const struct formula *f, int row,
                               int64_t pass)
{
    int first = minute_on_pass(plan, f, row, pass);
    int step = minute_of(minute_on_pass(plan, f, row, pass + 1) - first);
    int minute = first;
    do {
        if (is_in_window(f, minute) != is_in_window(f, first))
            return true;
        minute += step;
        minute -= minute < WEEK ? 0 : WEEK;
    } while (minute != first);
    return false;
}

/* The first pass from which on a window is false whose reading is pinned from some pass
   on: behind the last minute in the window before that. What a whole round of minutes
   before it has not is never there. */
static int64_t settled_under_top(const struct plan *plan, const struct formula *f, int row,
                                 int64_t pinned_from)
{
    int minute = minute_on_pass(plan, f, row, pinned_from - 1);
    int back = minute_of(minute_on_pass(plan, f, row, pinned_from) - minute);
    for (int64_t pass = pinned_from; pass > LINES_FROM && pass > pinned_from - WEEK; pass--) {
        if (is_in_window(f, minute))
            return pass;
        minute -= back;
        minute += minute < 0 ? WEEK : 0;
    }
    return LINES_FROM;
}

/* From its one turn on the reading is pinned for ever, or it goes round for ever and was
   pinned before. */
static int64_t settled_window(const struct plan *plan, const struct formula *f, int row)
{
    int64_t turn = last_turn(plan, f, row);
    if (is_pinned(plan, &f->left, position_of(plan, row, turn)))
        return turn > LINES_FROM ? settled_under_top(plan, f, row, turn) : turn;
    if (changes_in_a_round(plan, f, row, turn))
        return NEVER_SETTLED;
    return holds_on_pass(plan, f, row, turn) ? turn : LINES_FROM;
}

int64_t settled_pass(const struct plan *plan, const struct formula *f, int row)
{
    if (f->kind == WINDOW)
        return settled_window(plan, f, row);
    int64_t turns[TURNS], settled = LINES_FROM;
    find_turns(plan, f, row, turns);
    for (int i = 0; i < TURNS; i++)
        if (turns[i] > settled &&
            holds_on_pass(plan, f, row, turns[i]) != holds_on_pass(plan, f, row, turns[i] - 1))
            settled = turns[i];
    return settled;
}

bool changes_from(const struct plan *plan, const struct formula *f, int row, int64_t pass)
{
    if (settled_pass(plan, f, row) > LINES_FROM)
        return true; /* the pass before it differs */
    for (; pass < LINES_FROM; pass++)
        if (holds_on_pass(plan, f, row, pass) != holds_on_pass(plan, f, row, LINES_FROM))
            return true;
    return false;
}

enum judged judge_by_passes(const struct plan *plan, const struct formula *f, int row)
{
    bool first = atom_holds(plan, f, row);
    if (row >= plan->start && changes_from(plan, f, row, 0))
        return CHANGES;
    return first ? ALWAYS_TRUE : ALWAYS_FALSE;
}
