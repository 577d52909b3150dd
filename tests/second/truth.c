/*
 * truth.c: the published truth of every part at every position of the run, by
 * the published sentences.
 *
 * The run has no end, but the truth of each part repeats every C positions
 * from some position on, called settled here. So it is enough to find it below
 * settled + C. Why a part settles, and by when:
 *
 *   Atoms        settle on each cycle row by the pass that run.c finds, hence
 *                by the latest of these passes. An atom that changes only after
 *                very many passes, and a window that changes for ever, is called
 *                late. It is not followed to the end, nor are the parts above it:
 *                that it changes is known, and no more is asked of it.
 *   not and or   settle where the parts that they name have settled.
 *   X U R        likewise, since truth at t depends on positions from t on only.
 *   Y Z          settle one position later.
 *   S T          settle C positions later. Once a and b repeat, truth C
 *                positions on is a function f of truth now. The sentences can
 *                only gain by more truth, so f(false) implies f(true), and f is
 *                constant or leaves its argument alone: f(f(v)) = f(v).
 *
 * Past the bound everything repeats, so a search for a position j from t on may
 * stop one cycle after t or after the bound, whichever is later: what has not
 * been met by then is never met.
 */
#include "second.h"

static int64_t max(int64_t a, int64_t b)
{
    return a > b ? a : b;
}

/* How many passes of an atom are followed. */
static int64_t passes_followed(const struct plan *plan)
{
    return 8 + 400 / plan->cycle;
}

bool holds(const struct truth *truth, int part, int64_t position)
{
    const struct course *course = &truth->part[part];
    int64_t cycle = truth->plan.cycle;
    if (position >= course->settled + cycle)
        position = course->settled + (position - course->settled) % cycle;
    return course->at[position];
}

/* ---- The sentences ---- */

/* b at some j from t on, and a from t to j - 1. */
static bool until(const struct truth *truth, int a, int b, int64_t t, int64_t end)
{
    for (int64_t j = t; j < end; j++) {
        if (holds(truth, b, j))
            return true;
        if (!holds(truth, a, j))
            return false; /* no later j has a all the way */
    }
    return false;
}

/* At every j from t on, b holds or a held somewhere from t to j - 1. */
static bool release(const struct truth *truth, int a, int b, int64_t t, int64_t end)
{
    for (int64_t j = t; j < end; j++) {
        if (!holds(truth, b, j))
            return false;
        if (holds(truth, a, j))
            return true; /* every later j has this a behind it */
    }
    return true;
}

/* b at some j from 0 to t, and a from j + 1 to t. */
static bool since(const struct truth *truth, int a, int b, int64_t t)
{
    for (int64_t j = t; j >= 0; j--) {
        if (holds(truth, b, j))
            return true;
        if (!holds(truth, a, j))
            return false; /* no earlier j has a all the way */
    }
    return false;
}

/* At every j from 0 to t, b holds or a holds somewhere from j + 1 to t. */
static bool trigger(const struct truth *truth, int a, int b, int64_t t)
{
    for (int64_t j = t; j >= 0; j--) {
        if (!holds(truth, b, j))
            return false;
        if (holds(truth, a, j))
            return true; /* every earlier j has this a after it */
    }
    return true;
}

/* The truth of a part at t, from that of the parts that it names, which repeat
   from the bound on. */
static bool by_sentence(const struct truth *truth, const struct formula *f, int64_t t,
                        int64_t bound)
{
    int64_t end = max(t, bound) + truth->plan.cycle;
    switch (f->kind) {
    case LESS:
    case EQUAL:
    case WINDOW:
    case PINNED:
        return atom_holds(&truth->plan, f, t);
    case NOT:
        return !holds(truth, f->a, t);
    case AND:
        return holds(truth, f->a, t) && holds(truth, f->b, t);
    case OR:
        return holds(truth, f->a, t) || holds(truth, f->b, t);
    case NEXT:
        return holds(truth, f->a, t + 1);
    case UNTIL:
        return until(truth, f->a, f->b, t, end);
    case RELEASE:
        return release(truth, f->a, f->b, t, end);
    case YESTERDAY:
        return t > 0 && holds(truth, f->a, t - 1);
    case WEAK_YESTERDAY:
        return t == 0 || holds(truth, f->a, t - 1);
    case SINCE:
        return since(truth, f->a, f->b, t);
    case TRIGGER:
        return trigger(truth, f->a, f->b, t);
    }
    return false;
}

/* ---- When a part has settled ---- */

/* The position by which an atom has settled, or up to which it is followed if it is
   late. */
static int64_t atom_bound(const struct plan *plan, const struct formula *f, bool *late)
{
    int64_t latest = LINES_FROM;
    *late = false;
    for (int row = plan->start; row < plan->rows; row++) {
        int64_t pass = settled_pass(plan, f, row);
        if (pass <= passes_followed(plan))
            latest = max(latest, pass);
        else
            *late = true;
    }
    return position_of(plan, plan->start, latest);
}

static int64_t bound_of(const struct truth *truth, const struct formula *f, bool *late)
{
    if (is_atom(f->kind))
        return atom_bound(&truth->plan, f, late);
    const struct course *a = &truth->part[f->a];
    const struct course *b = names_two_parts(f->kind) ? &truth->part[f->b] : a;
    int64_t bound = max(a->settled, b->settled);
    *late = a->late || b->late;
    if (f->kind == YESTERDAY || f->kind == WEAK_YESTERDAY)
        return bound + 1;
    if (f->kind == SINCE || f->kind == TRIGGER)
        return bound + truth->plan.cycle;
    return bound;
}

void find_truth(struct truth *truth, int part)
{
    const struct formula *f = &truth->rule.part[part];
    struct course *course = &truth->part[part];
    int64_t cycle = truth->plan.cycle;
    int64_t bound = bound_of(truth, f, &course->late);

    for (int64_t t = 0; t < bound + cycle; t++)
        course->at[t] = by_sentence(truth, f, t, bound);

    /* It may have settled before the bound: row P is the earliest asked for. */
    while (bound > truth->plan.start && course->at[bound - 1] == course->at[bound - 1 + cycle])
        bound--;
    course->settled = bound;
}

bool is_row_periodic(const struct truth *truth, int part)
{
    return !truth->part[part].late && truth->part[part].settled == truth->plan.start;
}
