/*
 * tops.c: tops by hand: readings that are at a top, come to it or leave it, alone and
 * against numbers, against each other and in windows of the week, on early passes and on
 * passes as late as 2^34; constants, which no top pins; and x = x.
 *
 * The plans here have one row, which is judged, checked with both marks, made and settled.
 * What comes of it is written down beside each, found by counting the passes.
 */
#include "expect.h"

#include <stdio.h>

static struct sheet rule, plan, marks;

/* Settle's answer where there is no room for the passes that it would take. */
#define NO_ROOM ((uint64_t)15 << 32)

/* ---- Asking ---- */

/* The one row of the plan has part 0 as is due. */
static void expect_row(const char *name, enum judged due, uint64_t passes)
{
    expect_judge(name, &rule, &plan, 0, 0, due);
    for (int mark = 0; mark < 2; mark++) {
        start_marks(&marks, 1, 1);
        *mark_byte(&marks, 0, 0) = (uint8_t)mark;
        uint64_t marked = mark == (int)due ? (uint64_t)mark : refusal(9, 0, 0);
        uint64_t answer = due == CHANGES ? refusal(10, 0, 0) : marked;
        expect_check(name, &rule, &plan, &marks, answer);
        expect_make_as_checked(name, &rule, &plan, &marks, answer);
    }
    expect_passes(name, &rule, &plan, passes);
}

static void write_one(int channels, const struct formula *f)
{
    start_rule(&rule, 1, channels);
    write_formula(&rule, 0, f);
}

/* ---- One reading ---- */

#define X { true, 0, 0 }
#define CONSTANT(number) { false, 0, number }
#define IS_PINNED { .kind = PINNED, .left = X }
#define BELOW(number) { .kind = LESS, .left = X, .right = CONSTANT(number) }
#define ABOVE(number) { .kind = LESS, .left = CONSTANT(number), .right = X }
#define IS(number) { .kind = EQUAL, .left = X, .right = CONSTANT(number) }
#define IT_IS(number) { .kind = EQUAL, .left = CONSTANT(number), .right = X }
#define ITSELF { .kind = EQUAL, .left = X, .right = X }
#define BELOW_ITSELF { .kind = LESS, .left = X, .right = X }
#define WITHIN(first, behind) { .kind = WINDOW, .left = X, .from = first, .to = behind }

struct tried {
    const char *name;
    int32_t top, read, drift;
    struct formula f;
    enum judged due;
    uint64_t passes;
};

static const struct tried pinned[] = {
    { "no top", 0, INT32_MAX, 1, IS_PINNED, ALWAYS_FALSE, 0 },
    { "no top, below 0", 0, -1, 0, IS_PINNED, ALWAYS_FALSE, 0 },
    { "one below the top", 9, 8, 0, IS_PINNED, ALWAYS_FALSE, 0 },
    { "at the top", 9, 9, 0, IS_PINNED, ALWAYS_TRUE, 0 },
    { "one above the top", 9, 10, 0, IS_PINNED, ALWAYS_TRUE, 0 },
    { "minus the top", 9, -9, 0, IS_PINNED, ALWAYS_FALSE, 0 },
    { "at the top, rising", 9, 9, 1, IS_PINNED, ALWAYS_TRUE, 0 },
    { "below the top, falling", 9, 8, -1, IS_PINNED, ALWAYS_FALSE, 0 },
    { "the largest, rising by it", 9, INT32_MAX, INT32_MAX, IS_PINNED, ALWAYS_TRUE, 0 },
    { "the least, falling by it", 9, INT32_MIN, INT32_MIN, IS_PINNED, ALWAYS_FALSE, 0 },
    { "top 1 on pass 1", 1, 0, 1, IS_PINNED, CHANGES, 1 },
    { "0 3 6 9", 9, 0, 3, IS_PINNED, CHANGES, 3 },
    { "0 4 8 12", 9, 0, 4, IS_PINNED, CHANGES, 3 },
    { "9 8", 9, 9, -1, IS_PINNED, CHANGES, 1 },
    { "10 9 8", 9, 10, -1, IS_PINNED, CHANGES, 2 },
    { "20 16 12 8", 9, 20, -4, IS_PINNED, CHANGES, 3 },
    { "to the top on pass 4", 9, 1, 2, IS_PINNED, CHANGES, 4 },
    { "to the top on pass 5", 9, -1, 2, IS_PINNED, CHANGES, 5 },
    { "to the top on pass 255", 255, 0, 1, IS_PINNED, CHANGES, 255 },
    { "to the top on pass 256", 256, 0, 1, IS_PINNED, CHANGES, NO_ROOM },
    { "from the top after pass 254", 9, 263, -1, IS_PINNED, CHANGES, 255 },
    { "from the top after pass 255", 9, 264, -1, IS_PINNED, CHANGES, NO_ROOM },
    { "over 32 bits at a step", 9, INT32_MIN, INT32_MAX, IS_PINNED, CHANGES, 2 },
    { "back at a step", 9, INT32_MAX, INT32_MIN, IS_PINNED, CHANGES, 1 },
    { "the highest top, one below", INT32_MAX, INT32_MAX - 1, 0, IS_PINNED, ALWAYS_FALSE, 0 },
    { "the highest top, at it", INT32_MAX, INT32_MAX, 0, IS_PINNED, ALWAYS_TRUE, 0 },
    { "the highest top, beyond it", INT32_MAX, INT32_MAX, 1, IS_PINNED, ALWAYS_TRUE, 0 },
    { "the highest top, on pass 1", INT32_MAX, INT32_MAX - 1, 1, IS_PINNED, CHANGES, 1 },
    { "pinned beyond 32 bits", INT32_MAX, INT32_MAX - 1, 2, IS_PINNED, CHANGES, NO_ROOM },
    { "pinned on pass 2^32 - 1", INT32_MAX, INT32_MIN, 1, IS_PINNED, CHANGES, NO_ROOM },
    { "leaves the top late", 9, INT32_MAX, -1, IS_PINNED, CHANGES, NO_ROOM },
};

static const struct tried compared[] = {
    { "below 9 under 9", 9, 0, 3, BELOW(9), CHANGES, 3 },
    { "below 100 under 9", 9, 0, 3, BELOW(100), CHANGES, 3 },
    { "below the largest under 9", 9, 0, 3, BELOW(INT32_MAX), CHANGES, 3 },
    { "below 4 under 9", 9, 0, 3, BELOW(4), CHANGES, 2 },
    { "below 0 under 9", 9, 0, 3, BELOW(0), ALWAYS_FALSE, 0 },
    { "above -1 under 9", 9, 0, 3, ABOVE(-1), CHANGES, 3 },
    { "above 5 under 9: on pass 2 alone", 9, 0, 3, ABOVE(5), CHANGES, 3 },
    { "above 6 under 9: never", 9, 0, 3, ABOVE(6), ALWAYS_FALSE, 0 },
    { "above 7, stepping over 9", 9, 0, 4, ABOVE(7), CHANGES, 3 },
    { "above 8, stepping over 9", 9, 0, 4, ABOVE(8), ALWAYS_FALSE, 0 },
    { "above the top", 9, 0, 3, ABOVE(100), ALWAYS_FALSE, 0 },
    { "at its top below 100", 9, 9, 0, BELOW(100), ALWAYS_FALSE, 0 },
    { "at its top above 0", 9, 9, 0, ABOVE(0), ALWAYS_FALSE, 0 },
    { "one below its top, below 100", 9, 8, 0, BELOW(100), ALWAYS_TRUE, 0 },
    { "one below its top, above 0", 9, 8, 0, ABOVE(0), ALWAYS_TRUE, 0 },
    { "falling, below 100", 9, 10, -1, BELOW(100), CHANGES, 2 },
    { "falling, below 5", 9, 10, -1, BELOW(5), CHANGES, 6 },
    { "falling, above 5: on passes 2 to 4", 9, 10, -1, ABOVE(5), CHANGES, 5 },
    { "falling, above 7: on pass 2 alone", 9, 10, -1, ABOVE(7), CHANGES, 3 },
    { "falling, above 8: never", 9, 10, -1, ABOVE(8), ALWAYS_FALSE, 0 },
    { "below 9, falling for ever", 9, 8, -1, BELOW(9), ALWAYS_TRUE, 0 },
    { "no top, above 8", 0, 10, -1, ABOVE(8), CHANGES, 2 },

    { "0 3 6 9 is 9", 9, 0, 3, IS(9), ALWAYS_FALSE, 0 },
    { "0 3 6 9 is 6", 9, 0, 3, IS(6), CHANGES, 3 },
    { "0 3 6 9 is 0", 9, 0, 3, IT_IS(0), CHANGES, 1 },
    { "0 3 6 9 is 12", 9, 0, 3, IT_IS(12), ALWAYS_FALSE, 0 },
    { "12 9 6 is 12", 9, 12, -3, IS(12), ALWAYS_FALSE, 0 },
    { "12 9 6 is 9", 9, 12, -3, IT_IS(9), ALWAYS_FALSE, 0 },
    { "12 9 6 is 6", 9, 12, -3, IS(6), CHANGES, 3 },
    { "9 is 9 under 9", 9, 9, 0, IS(9), ALWAYS_FALSE, 0 },
    { "8 is 8 under 9", 9, 8, 0, IS(8), ALWAYS_TRUE, 0 },
    { "9 is 9 under 10", 10, 9, 0, IT_IS(9), ALWAYS_TRUE, 0 },

    { "x = x, no top", 0, 9, 1, ITSELF, ALWAYS_TRUE, 0 },
    { "x = x below its top", 9, 8, -1, ITSELF, ALWAYS_TRUE, 0 },
    { "x = x at its top", 9, 9, 0, ITSELF, ALWAYS_FALSE, 0 },
    { "x = x above its top", 9, 10, 1, ITSELF, ALWAYS_FALSE, 0 },
    { "x = x up to its top", 9, 0, 3, ITSELF, CHANGES, 3 },
    { "x = x down from its top", 9, 10, -1, ITSELF, CHANGES, 2 },
    { "x = x over 32 bits at a step", 5, INT32_MIN, INT32_MAX, ITSELF, CHANGES, 2 },
    { "x < x below its top", 9, 0, 3, BELOW_ITSELF, ALWAYS_FALSE, 0 },

    { "a constant above the top", 9, 9, 1, { .kind = EQUAL, CONSTANT(100), CONSTANT(100) },
      ALWAYS_TRUE, 0 },
    { "constants above the top", 9, 9, 1, { .kind = LESS, CONSTANT(9), CONSTANT(100) },
      ALWAYS_TRUE, 0 },
    { "a constant at the highest top", INT32_MAX, 0, 0,
      { .kind = EQUAL, CONSTANT(INT32_MAX), CONSTANT(INT32_MAX) }, ALWAYS_TRUE, 0 },

    { "late, below the top", INT32_MAX, INT32_MIN, 1, BELOW(INT32_MAX), CHANGES, NO_ROOM },
    { "late, one below the top", INT32_MAX, INT32_MIN, 1, IS(INT32_MAX - 1), CHANGES, NO_ROOM },
    { "late, at the top", INT32_MAX, INT32_MIN, 1, IS(INT32_MAX), ALWAYS_FALSE, 0 },
    { "late, above all but one", INT32_MAX, INT32_MIN, 1, ABOVE(INT32_MAX - 2), CHANGES, NO_ROOM },
    { "late, above all", INT32_MAX, INT32_MIN, 1, ABOVE(INT32_MAX - 1), ALWAYS_FALSE, 0 },
    { "late, x = x", INT32_MAX, INT32_MIN, 1, ITSELF, CHANGES, NO_ROOM },
    { "late, by 2, the last even one", INT32_MAX, INT32_MIN, 2, IS(INT32_MAX - 1), CHANGES,
      NO_ROOM },
    { "late, by 2, an odd one", INT32_MAX, INT32_MIN, 2, IS(INT32_MAX - 2), ALWAYS_FALSE, 0 },
    { "late, falling, above 7", 9, INT32_MAX, -1, ABOVE(7), CHANGES, NO_ROOM },
    { "late, falling, above 8", 9, INT32_MAX, -1, ABOVE(8), ALWAYS_FALSE, 0 },
    { "late, falling, is 8", 9, INT32_MAX, -1, IS(8), CHANGES, NO_ROOM },
    { "late, falling, is 9", 9, INT32_MAX, -1, IS(9), ALWAYS_FALSE, 0 },
};

/* A window is false where its reading is pinned. A reading that rises is in it before it
   comes to its top only, one that falls after it has left it. */
static const struct tried windows[] = {
    { "at the top, inside", 600, 600, 0, WITHIN(600, 601), ALWAYS_FALSE, 0 },
    { "one below the top, inside", 601, 600, 0, WITHIN(600, 601), ALWAYS_TRUE, 0 },
    { "at the top, outside", 600, 600, 0, WITHIN(601, 600), ALWAYS_FALSE, 0 },
    { "below 0, inside", 600, -9480, 0, WITHIN(600, 601), ALWAYS_TRUE, 0 },
    { "by a day, once", 2000, 600, 1440, WITHIN(600, 601), CHANGES, 1 },
    { "by a day, once, to the top at once", 601, 600, 1440, WITHIN(600, 601), CHANGES, 1 },
    { "by a day, pinned at once", 600, 600, 1440, WITHIN(600, 601), ALWAYS_FALSE, 0 },
    { "by a day, twice", 20000, 600, 1440, WITHIN(600, 601), CHANGES, 8 },
    { "by a week, three times", 600 + 3 * WEEK, 600, WEEK, WITHIN(600, 601), CHANGES, 3 },
    { "by a week, four times", 601 + 3 * WEEK, 600, WEEK, WITHIN(600, 601), CHANGES, 4 },
    { "by a week, outside", 601 + 3 * WEEK, 600, WEEK, WITHIN(601, 600), ALWAYS_FALSE, 0 },
    { "by 1, the top just before", 600, 0, 1, WITHIN(600, 601), ALWAYS_FALSE, 0 },
    { "by 1, the top just behind", 601, 0, 1, WITHIN(600, 601), CHANGES, NO_ROOM },
    { "by 1, behind the window before the top", 220, 0, 1, WITHIN(200, 201), CHANGES, 201 },
    { "by 1, inside up to the top", 50, 0, 1, WITHIN(1, 0), CHANGES, 50 },
    { "by 1, inside from the first on", 50, 1, 1, WITHIN(1, 0), CHANGES, 49 },
    { "by 1, once, long before the top", 9000, -10, 1, WITHIN(0, 1), CHANGES, 11 },
    { "by 1, once, a round before the top", WEEK, -10, 1, WITHIN(0, 1), CHANGES, 11 },
    { "by 1, again just below the top", WEEK + 1, -10, 1, WITHIN(0, 1), CHANGES, NO_ROOM },
    { "by 1, a round but one", WEEK, 1, 1, WITHIN(0, 1), ALWAYS_FALSE, 0 },
    { "by 1, a round", WEEK + 1, 1, 1, WITHIN(0, 1), CHANGES, NO_ROOM },
    { "by 11, pinned on pass 2749", 30239, 0, 11, WITHIN(10079, 0), ALWAYS_FALSE, 0 },
    { "by 11, one more", 30240, 0, 11, WITHIN(10079, 0), CHANGES, NO_ROOM },
    { "by -1, from the top, round for ever", 9, 10, -1, WITHIN(5, 6), CHANGES, NO_ROOM },
    { "by a week down, from pass 3 on", 601, 600 + 3 * WEEK, -WEEK, WITHIN(600, 601), CHANGES, 3 },
    { "by a week down, from pass 4 on", 600, 600 + 3 * WEEK, -WEEK, WITHIN(600, 601), CHANGES, 4 },
    { "by a week down, from pass 9 on", 601, 600 + 9 * WEEK, -WEEK, WITHIN(600, 601), CHANGES, 9 },
    { "by a week down, outside", 601, 600 + 9 * WEEK, -WEEK, WITHIN(601, 600), ALWAYS_FALSE, 0 },
    { "by a day down, never inside", 601, 600 + 9 * WEEK, -1440, WITHIN(601, 2040), ALWAYS_FALSE,
      0 },
    { "by a day down, all days inside", 601, 600 + 1440, -1440, WITHIN(600, 599), CHANGES, 1 },
    { "by a day down, round for ever", 601, 600 + 1440, -1440, WITHIN(600, 601), CHANGES, NO_ROOM },
    { "late, rising", INT32_MAX, INT32_MIN, 1, WITHIN(0, 1), CHANGES, NO_ROOM },
    { "late, by whole weeks, inside", INT32_MAX, 0, WEEK, WITHIN(0, 1), CHANGES, NO_ROOM },
    { "late, by whole weeks, outside", INT32_MAX, 0, WEEK, WITHIN(1, 0), ALWAYS_FALSE, 0 },
    { "late, falling by whole weeks", 1, 213044 * WEEK, -WEEK, WITHIN(0, 1), CHANGES, NO_ROOM },
    { "one week too high, falling", 1, WEEK, -WEEK, WITHIN(0, 1), CHANGES, 1 },
};

static void expect_tried(const struct tried *t)
{
    write_one(1, &t->f);
    start_plan(&plan, 1, 0, 1);
    write_top(&plan, 0, t->top);
    write_reading(&plan, 0, 0, t->read);
    write_drift(&plan, 0, 0, t->drift);
    expect_row(t->name, t->due, t->passes);
}

static void expect_all(const struct tried *tried, size_t count)
{
    for (size_t i = 0; i < count; i++)
        expect_tried(&tried[i]);
}

/* ---- Two readings ---- */

struct line {
    int32_t top, read, drift;
};

struct pair {
    const char *name;
    struct line x, y;
    enum judged less, equal, more; /* x < y, x = y, y < x */
    uint64_t passes[3];            /* settled for each */
};

static const struct pair pairs[] = {
    { "both pinned, alike", { 5, 7, 0 }, { 5, 7, 0 }, 0, 0, 0, { 0, 0, 0 } },
    { "both pinned, x lower", { 5, 6, 0 }, { 5, 7, 0 }, 0, 0, 0, { 0, 0, 0 } },
    { "both pinned, for ever", { 5, 6, 3 }, { 5, 7, 1 }, 0, 0, 0, { 0, 0, 0 } },
    { "y pinned alone", { 0, 7, 0 }, { 5, 7, 0 }, 0, 0, 0, { 0, 0, 0 } },
    { "x pinned alone", { 5, 7, 0 }, { 0, 9, 0 }, 0, 0, 0, { 0, 0, 0 } },
    { "x pinned alone, y has a top", { 5, 7, 0 }, { 10, 9, 0 }, 0, 0, 0, { 0, 0, 0 } },
    { "x has a top", { 5, 3, 0 }, { 0, 9, 0 }, 1, 0, 0, { 0, 0, 0 } },
    { "y has a top", { 0, 9, 0 }, { 5, 3, 0 }, 0, 0, 1, { 0, 0, 0 } },
    { "both have tops", { 5, 4, 0 }, { 6, 4, 0 }, 0, 1, 0, { 0, 0, 0 } },
    { "x to its top", { 10, 0, 1 }, { 0, 1, 1 }, 2, 0, 0, { 10, 0, 0 } },
    { "y to its top", { 0, 0, 1 }, { 10, 1, 1 }, 2, 0, 0, { 9, 0, 0 } },
    { "both to their tops", { 10, 0, 1 }, { 10, 1, 1 }, 2, 0, 0, { 9, 0, 0 } },
    { "alike to both tops", { 10, 0, 1 }, { 12, 0, 1 }, 0, 2, 0, { 0, 10, 0 } },

    /* x is 0 2 4 .., y is 5 6 7 ..: both are 10 on pass 5. */
    { "no tops, meeting", { 0, 0, 2 }, { 0, 5, 1 }, 2, 2, 2, { 5, 6, 6 } },
    { "x at its top where they meet", { 10, 0, 2 }, { 0, 5, 1 }, 2, 0, 0, { 5, 0, 0 } },
    { "y at its top where they meet", { 0, 0, 2 }, { 10, 5, 1 }, 2, 0, 0, { 5, 0, 0 } },
    { "x at its top behind that", { 11, 0, 2 }, { 0, 5, 1 }, 2, 2, 0, { 5, 6, 0 } },
    { "x at its top one pass later", { 13, 0, 2 }, { 0, 5, 1 }, 2, 2, 2, { 5, 6, 7 } },
    { "x at its top before they meet", { 8, 0, 2 }, { 0, 5, 1 }, 2, 0, 0, { 4, 0, 0 } },
    { "y at its top before they meet", { 0, 0, 2 }, { 6, 5, 1 }, 2, 0, 0, { 1, 0, 0 } },

    /* x is 20 18 16 .., y is 5 6 7 ..: both are 10 on pass 5. */
    { "no tops, falling", { 0, 20, -2 }, { 0, 5, 1 }, 2, 2, 2, { 6, 6, 5 } },
    { "x leaves its top behind y", { 10, 20, -2 }, { 0, 5, 1 }, 2, 0, 0, { 6, 0, 0 } },
    { "x leaves its top to meet y", { 11, 20, -2 }, { 0, 5, 1 }, 2, 2, 0, { 6, 6, 0 } },
    { "x leaves its top above y", { 13, 20, -2 }, { 0, 5, 1 }, 2, 2, 2, { 6, 6, 5 } },
    { "y comes to its top first", { 13, 20, -2 }, { 9, 5, 1 }, 0, 0, 0, { 0, 0, 0 } },
    { "y comes to its top a pass later", { 13, 20, -2 }, { 10, 5, 1 }, 0, 0, 2, { 0, 0, 5 } },
    { "both are seen on one pass", { 11, 20, -2 }, { 11, 5, 1 }, 0, 2, 0, { 0, 6, 0 } },
    { "both are seen on two", { 11, 20, -2 }, { 12, 5, 1 }, 2, 2, 0, { 7, 6, 0 } },

    /* They meet on pass 2^32 - 1, at about 2^63 or -2^63. */
    { "late, rising", { 0, INT32_MIN, INT32_MAX }, { 0, INT32_MAX, INT32_MAX - 1 }, 2, 2, 2,
      { NO_ROOM, NO_ROOM, NO_ROOM } },
    { "late, rising, x has a top", { INT32_MAX, INT32_MIN, INT32_MAX },
      { 0, INT32_MAX, INT32_MAX - 1 }, 2, 0, 0, { NO_ROOM, 0, 0 } },
    { "late, falling, x has a top", { 1, INT32_MAX, INT32_MIN },
      { 0, INT32_MIN, INT32_MIN + 1 }, 2, 2, 2, { NO_ROOM, NO_ROOM, NO_ROOM } },
    { "late, falling, y has a top", { 0, INT32_MAX, INT32_MIN },
      { INT32_MAX, INT32_MIN, INT32_MIN + 1 }, 2, 2, 2, { NO_ROOM, NO_ROOM, NO_ROOM } },

    /* x falls by 1 from -1, y by 2 from 2^31 - 1: y leaves a top of 1 on pass 2^30, meets x
       on pass 2^31, and is below it from then on. */
    { "late, leaves its top first", { 0, -1, -1 }, { 1, INT32_MAX, -2 }, 2, 2, 2,
      { NO_ROOM, NO_ROOM, NO_ROOM } },
    { "late, x is pinned", { 1, 1, 0 }, { 1, INT32_MAX, -2 }, 0, 0, 0, { 0, 0, 0 } },
};

static void write_line(int channel, const struct line *line)
{
    write_top(&plan, channel, line->top);
    write_reading(&plan, 0, channel, line->read);
    write_drift(&plan, 0, channel, line->drift);
}

static void expect_pair(const struct pair *p)
{
    static const struct term x = { true, 0, 0 }, y = { true, 0, 1 };
    start_plan(&plan, 2, 0, 1);
    write_line(0, &p->x);
    write_line(1, &p->y);
    write_one(2, &(struct formula){ .kind = LESS, .left = x, .right = y });
    expect_row(p->name, p->less, p->passes[0]);
    write_one(2, &(struct formula){ .kind = EQUAL, .left = x, .right = y });
    expect_row(p->name, p->equal, p->passes[1]);
    write_one(2, &(struct formula){ .kind = EQUAL, .left = y, .right = x });
    expect_row(p->name, p->equal, p->passes[1]);
    write_one(2, &(struct formula){ .kind = LESS, .left = y, .right = x });
    expect_row(p->name, p->more, p->passes[2]);
}

/* ---- Readings beyond 64 bits ---- */

/* Two readings whose drifts are as large as can be and differ by 1, read at two shifts, so
   that they meet on a pass between 2^32 and 2^35, mostly beyond 64 bits. Were x to wrap
   there, it would be on the other side of its top. */
static void expect_far(const char *name, int left, int right, enum judged less, enum judged equal,
                       enum judged more)
{
    struct term x = reading(0, left), y = reading(1, right);
    write_one(2, &(struct formula){ .kind = LESS, .left = x, .right = y });
    expect_judge(name, &rule, &plan, 0, 0, less);
    write_one(2, &(struct formula){ .kind = EQUAL, .left = x, .right = y });
    expect_judge(name, &rule, &plan, 0, 0, equal);
    write_one(2, &(struct formula){ .kind = EQUAL, .left = y, .right = x });
    expect_judge(name, &rule, &plan, 0, 0, equal);
    write_one(2, &(struct formula){ .kind = LESS, .left = y, .right = x });
    expect_judge(name, &rule, &plan, 0, 0, more);
}

/* x is -2^31, -1, 2^31 - 2 and on, pinned from position 3 on, and below y until they meet;
   or it is 2^31 - 1, -1 and on, pinned at position 0 alone, and above y until they meet. */
static void beyond_64_bits(void)
{
    for (int left = -4; left <= 4; left++)
        for (int right = left; right <= 4; right++) {
            start_plan(&plan, 2, 0, 1);
            write_line(0, &(struct line){ INT32_MAX, INT32_MIN, INT32_MAX });
            write_line(1, &(struct line){ 0, INT32_MAX, INT32_MAX - 1 });
            expect_far("far above", left, right, left <= 2 ? CHANGES : ALWAYS_FALSE, ALWAYS_FALSE,
                       ALWAYS_FALSE);
            write_line(0, &(struct line){ 1, INT32_MAX, INT32_MIN });
            write_line(1, &(struct line){ 0, INT32_MIN, INT32_MIN + 1 });
            expect_far("far below", left, right, CHANGES, CHANGES, CHANGES);
        }
}

/* ---- Each pass, by shift and lead-in ---- */

/* A reading at position p is p, or 10 - p, also in the lead-in; it is read at a shift on
   a cycle of one row. */
enum { MOST_BACK = 4, MOST_TOP = 12, FALLS_FROM = 10 };

static void write_even_plan(int lead, int top, bool rises)
{
    start_plan_with_lead(&plan, 1, lead, 0, 1);
    write_top(&plan, 0, top);
    for (int row = -lead; row <= 0; row++)
        write_reading(&plan, row, 0, rises ? row : FALLS_FROM - row);
    write_drift(&plan, 0, 0, rises ? 1 : -1);
}

static void write_shifted(enum kind kind, int shift)
{
    write_one(1, &(struct formula){ .kind = kind, .left = reading(0, shift),
                                    .right = constant(kind == PINNED ? 0 : 1000) });
}

/* It is pinned from position top on, so from pass top - shift on. "x < 1000" holds before
   that, once it is seen. */
static void expect_rising(int lead, int top, int shift)
{
    char name[64];
    bool late = top > shift;
    uint64_t passes = late ? (uint64_t)(top - shift) : 0;
    snprintf(name, sizeof name, "rising, L %d, top %d, shift %d", lead, top, shift);
    write_even_plan(lead, top, true);
    write_shifted(PINNED, shift);
    expect_row(name, late ? CHANGES : ALWAYS_TRUE, passes);
    write_shifted(LESS, shift);
    expect_row(name, late ? CHANGES : ALWAYS_FALSE, passes);
}

/* It is pinned up to position 10 - top, so up to pass 10 - top - shift, from position -L on.
   "x < 1000" holds behind that, once it is seen. */
static void expect_falling(int lead, int top, int shift)
{
    char name[64];
    int last = FALLS_FROM - top, passes = last - shift + 1;
    bool ever = passes > 0 && last >= -lead;
    int seen_from = -lead - shift, from = passes > seen_from ? passes : seen_from;
    snprintf(name, sizeof name, "falling, L %d, top %d, shift %d", lead, top, shift);
    write_even_plan(lead, top, false);
    write_shifted(PINNED, shift);
    expect_row(name, ever ? CHANGES : ALWAYS_FALSE, ever ? (uint64_t)passes : 0);
    write_shifted(LESS, shift);
    expect_row(name, from > 0 ? CHANGES : ALWAYS_TRUE, from > 0 ? (uint64_t)from : 0);
}

static void each_pass(void)
{
    for (int lead = 0; lead <= MOST_LEAD; lead++)
        for (int top = 1; top <= MOST_TOP; top++)
            for (int shift = -MOST_BACK; shift <= MOST_BACK; shift++) {
                expect_rising(lead, top, shift);
                expect_falling(lead, top, shift);
            }
}

/* ---- Two positions of one channel ---- */

/* x < X x on 4094, rising under 4095: the later one is always pinned; under 4096 it is
   pinned from pass 1 on, under 4097 from pass 2 on. */
static void neighbours_of_one_channel(void)
{
    static const enum judged due[] = { ALWAYS_FALSE, CHANGES, CHANGES };
    for (int i = 0; i < 3; i++) {
        start_plan(&plan, 1, 0, 1);
        write_top(&plan, 0, 4095 + i);
        write_reading(&plan, 0, 0, 4094);
        write_drift(&plan, 0, 0, 1);
        write_one(1, &(struct formula){ .kind = LESS, .left = reading(0, 0),
                                        .right = reading(0, 1) });
        expect_row("x < X x under a top", due[i], (uint64_t)i);
    }
}

void test_tops(void)
{
    expect_all(pinned, sizeof pinned / sizeof pinned[0]);
    expect_all(compared, sizeof compared / sizeof compared[0]);
    expect_all(windows, sizeof windows / sizeof windows[0]);
    for (size_t i = 0; i < sizeof pairs / sizeof pairs[0]; i++)
        expect_pair(&pairs[i]);
    beyond_64_bits();
    each_pass();
    neighbours_of_one_channel();
}
