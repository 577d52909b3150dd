/*
 * live_cases.c: the rules and rows that bench.c times live.
 */
#include "live_cases.h"

static struct live_case built;
static uint64_t dice;

static int below(int n)
{
    dice = dice * 6364136223846793005u + 1442695040888963407u;
    return (int)((dice >> 33) % (uint64_t)n);
}

/* ---- Rows ---- */

enum { TOP = 8 };

/* From 0 to 9; or minutes of some weeks; or under a top of 8 on most channels. */
static void write_rows(bool minutes, bool tops)
{
    start_plan(&built.rows, LIVE_CHANNELS, 0, LIVE_ROWS);
    for (int channel = 0; channel < LIVE_CHANNELS; channel++) {
        if (tops && channel % 4 != 3)
            write_top(&built.rows, channel, TOP);
        for (int row = 0; row < LIVE_ROWS; row++)
            write_reading(&built.rows, row, channel,
                          minutes ? below(WEEK) + WEEK * (below(100) - 50) : below(10));
    }
}

/* ---- Parts ---- */

static struct term some_reading(void)
{
    return reading(below(LIVE_CHANNELS), -below(5));
}

static struct formula some_comparison(void)
{
    struct formula f = { .kind = below(2) ? LESS : EQUAL, .left = some_reading() };
    f.right = below(3) ? some_reading() : constant(below(10));
    return f;
}

static struct formula some_window(void)
{
    struct formula f = { .kind = WINDOW, .left = some_reading() };
    f.from = below(WEEK);
    f.to = (f.from + 1 + below(WEEK - 1)) % WEEK;
    return f;
}

static struct formula some_pinned(void)
{
    return (struct formula){ .kind = PINNED, .left = some_reading() };
}

static struct formula some_atom(void)
{
    int die = below(4);
    return die < 2 ? some_comparison() : die == 2 ? some_window() : some_pinned();
}

static struct formula some_operator(int part)
{
    static const enum kind kinds[] = { YESTERDAY, WEAK_YESTERDAY, SINCE, TRIGGER, NOT, AND, OR };
    return (struct formula){ .kind = kinds[below(7)], .a = below(part), .b = below(part) };
}

/* ---- Rules ---- */

/* So many atoms first; then an atom so many times in 100, else an operator. */
static void write_rules(struct formula (*atom)(void), int atoms, int percent)
{
    for (int place = 0; place < PLACES; place++) {
        struct sheet *rule = &built.rule[place];
        start_rule(rule, MOST_PARTS, LIVE_CHANNELS);
        for (int part = 0; part < MOST_PARTS; part++) {
            bool is_atom = part < atoms || below(100) < percent;
            struct formula f = is_atom ? atom() : some_operator(part);
            write_formula(rule, part, &f);
        }
    }
}

void live_shifts(void)
{
    write_rows(false, false);
    write_rules(some_comparison, MOST_PARTS, 100);
}

void live_temporal(void)
{
    write_rows(false, false);
    write_rules(some_comparison, 8, 0);
}

void live_all_kinds(void)
{
    write_rows(false, true);
    write_rules(some_atom, 4, 33);
}

void live_windows(void)
{
    write_rows(true, false);
    write_rules(some_window, 8, 90);
}

void live_tops(void)
{
    write_rows(false, true);
    write_rules(some_atom, 8, 90);
}

void build_live_case(struct live_case *live, live_builder *build)
{
    dice = 19;
    build();
    *live = built;
}
