/*
 * live.c: rows that arrive one at a time, by hand: what is told on which row.
 *
 * Most rules are of one channel x, in a state without tops. Rules added after some rows,
 * whose position 0 is the next row; ages beyond 255 and 65535; rules dropped and added again;
 * rows that are refused in between; pinned readings and windows, also on the rows that a shift
 * reaches; and the list worked in docs/FORMATS.md. Refusals and places are in live_states.c.
 */
#include "expect.h"

#include <string.h>

static struct sheet rule;

/* ---- States, rows and rules ---- */

static uint8_t bytes[4 * MOST_CHANNELS];

static struct slice numbers(const int32_t *number, int count)
{
    for (int i = 0; i < count; i++)
        put4(bytes + 4 * i, number[i]);
    return (struct slice){ bytes, 4 * (size_t)count };
}

static void start_under(int channels, const int32_t *tops)
{
    expect_live_start("start", (uint64_t)channels, numbers(tops, channels), 0);
}

static void start(int channels)
{
    static const int32_t none[MOST_CHANNELS];
    start_under(channels, none);
}

static void row(const char *name, int32_t x)
{
    expect_live_row(name, numbers(&x, 1), 0);
}

static void row_of_two(const char *name, int32_t x, int32_t y)
{
    expect_live_row(name, numbers((int32_t[]){ x, y }, 2), 0);
}

static void rows(const char *name, int32_t x, int count)
{
    for (int i = 0; i < count; i++)
        row(name, x);
}

static void add(const char *name, uint64_t place)
{
    expect_live_add(name, place, slice_of(&rule), 0);
}

/* A rule of one atom of so many channels, and one that compares x, shifted, with a number. */
static void atom(int channels, struct formula f)
{
    start_rule(&rule, 1, channels);
    write_formula(&rule, 0, &f);
}

static struct formula x_is(int shift, int32_t number)
{
    return (struct formula){ .kind = EQUAL, .left = reading(0, shift), .right = constant(number) };
}

static struct formula x_below(int shift, int32_t number)
{
    return (struct formula){ .kind = LESS, .left = reading(0, shift), .right = constant(number) };
}

static struct formula always(void)
{
    return (struct formula){ .kind = LESS, .left = constant(0), .right = constant(1) };
}

static struct formula never(void)
{
    return (struct formula){ .kind = LESS, .left = constant(1), .right = constant(0) };
}

/* An operator over two atoms. */
static void over(enum kind kind, struct formula a, struct formula b)
{
    start_rule(&rule, 3, 1);
    write_formula(&rule, 0, &a);
    write_formula(&rule, 1, &b);
    write_formula(&rule, 2, &(struct formula){ .kind = kind, .a = 0, .b = 1 });
}

/* Rows of digits, and what the rule in place 0 tells of each. */
static void tells(const char *name, const char *readings, const char *told)
{
    start(1);
    add(name, 0);
    expect_told(name, 0, NOT_YET);
    for (int i = 0; readings[i] != '\0'; i++) {
        row(name, readings[i] - '0');
        expect_told(name, 0, (uint64_t)(told[i] - '0'));
    }
    expect_as_plan(name, 0);
}

/* ---- The list of docs/FORMATS.md ---- */

static void both_tell(const char *name, uint64_t first, uint64_t second)
{
    expect_told(name, 0, first);
    expect_told(name, 1, second);
}

static void worked_row(const char *name, int32_t x, uint64_t first, uint64_t second)
{
    row(name, x);
    both_tell(name, first, second);
}

static void worked_list(void)
{
    static const uint8_t of_docs[] = {
        2, 0, 1, 0, 1, 10,                  /* sizes, kinds */
        1, 3, 0, 0, 0, 0, 1, 4, 0, 0, 0, 0, /* part 0 */
        0, 0, 0, 0, 0, 0, 0, 0, 0, 0, 0, 0, /* part 1 */
    };
    uint8_t longer[5] = { 10 };
    start_under(1, (int32_t[]){ 10 });
    both_tell("start", EMPTY, EMPTY);
    rule.len = sizeof of_docs;
    memcpy(rule.at, of_docs, sizeof of_docs);
    add("add, place 0", 0);
    both_tell("add, place 0", NOT_YET, EMPTY);
    worked_row("row 4", 4, TOLD_TRUE, EMPTY);
    worked_row("row 6", 6, TOLD_FALSE, EMPTY);
    add("add, place 1", 1);
    both_tell("add, place 1", TOLD_FALSE, NOT_YET);
    expect_live_row("5 bytes", (struct slice){ longer, 5 }, refusal(17, 0, 0));
    both_tell("5 bytes", TOLD_FALSE, NOT_YET);
    worked_row("row 10", 10, TOLD_TRUE, TOLD_TRUE);
    worked_row("row 12", 12, TOLD_FALSE, TOLD_FALSE);
    worked_row("row -3", -3, TOLD_FALSE, TOLD_FALSE);
    worked_row("row 7", 7, TOLD_FALSE, TOLD_FALSE);
    worked_row("row 7 again", 7, TOLD_TRUE, TOLD_TRUE);
    expect_live_drop("drop, place 0", 0, 0);
    expect_live_drop("drop, place 0 again", 0, refusal(17, 0, 0));
    expect_live_add("add, a taken place", 1, slice_of(&rule), refusal(17, 0, 0));
    rule.at[13] = 5;
    expect_live_add("add, ahead", 0, slice_of(&rule), refusal(16, 0, 0));
    both_tell("add, ahead", EMPTY, TOLD_TRUE);
    rule.at[13] = 4;
    add("add, place 0 again", 0);
    both_tell("add, place 0 again", NOT_YET, TOLD_TRUE);
    worked_row("row 9", 9, TOLD_TRUE, TOLD_FALSE);
}

/* ---- Each kind ---- */

static void kinds(void)
{
    static const char *const readings = "0112012210";
    static const struct {
        const char *name;
        enum kind kind;
        const char *told;
    } of_kinds[] = {
        { "not x = 1", NOT, "1001101101" },
        { "x = 1 and x < 2", AND, "0110010010" },
        { "x = 1 or x < 2", OR, "1110110011" },
        { "Y x = 1", YESTERDAY, "0011001001" },
        { "Z x = 1", WEAK_YESTERDAY, "1011001001" },
        { "x = 1 S x < 2", SINCE, "1110110011" },
        { "x = 1 T x < 2", TRIGGER, "1110010011" },
    };
    for (int i = 0; i < 7; i++) {
        over(of_kinds[i].kind, x_is(0, 1), x_below(0, 2));
        tells(of_kinds[i].name, readings, of_kinds[i].told);
    }
    atom(1, x_is(0, 1));
    tells("x = 1", readings, "0110010010");
    atom(1, x_below(0, 1));
    tells("x < 1", readings, "1000100001");
    over(SINCE, x_below(0, 2), x_is(0, 0));
    tells("x < 2 S x = 0", readings, "1110110001");
    over(TRIGGER, x_is(0, 0), x_below(0, 2));
    tells("x = 0 T x < 2", readings, "1110110001");
    over(TRIGGER, x_is(0, 2), x_below(0, 2));
    tells("x = 2 T x < 2", readings, "1110000000");
    over(SINCE, always(), x_is(0, 2));
    tells("once x = 2", readings, "0001111111");
    over(TRIGGER, never(), x_below(0, 2));
    tells("historically x < 2", readings, "1110000000");
}

static void shifts(void)
{
    static const char *const told[] = { "100001100001", "010000110000", "001000011000",
                                        "000100001100", "000010000110" };
    for (int back = 0; back <= 4; back++) {
        atom(1, x_is(-back, 1));
        tells("x = 1, some rows back", "100001100001", told[back]);
        atom(1, (struct formula){ .kind = EQUAL, .left = constant(1), .right = reading(0, -back) });
        tells("1 = x, some rows back", "100001100001", told[back]);
    }
    atom(1, (struct formula){ .kind = LESS, .left = reading(0, -4), .right = reading(0, -3) });
    tells("rising, four rows back", "0101223110", "0000101101");
}

/* ---- Rules added later ---- */

/* Each is told at position 0 otherwise than it would be with the rows before. */
static void write_later(int i)
{
    static const enum kind past[] = { YESTERDAY, WEAK_YESTERDAY, SINCE, TRIGGER };
    struct formula window = { .kind = WINDOW, .left = reading(0, -1 - i % 4), .from = 1, .to = 2 };
    struct formula pinned = { .kind = PINNED, .left = reading(0, -1 - i % 4) };
    if (i < 4)
        atom(1, x_is(-1 - i, 1));
    else if (i < 8)
        atom(1, window);
    else if (i < 12)
        atom(1, pinned);
    else if (i < 14)
        over(past[i - 12], x_is(0, i == 12 ? 1 : 5), always());
    else if (i == 14)
        over(SINCE, always(), x_is(0, 1));
    else if (i == 15)
        over(TRIGGER, never(), x_is(0, 2));
    else
        atom(1, (struct formula){ .kind = LESS, .left = constant(0),
                                  .right = reading(0, -1 - i % 4) });
}

enum { LATERS = 20 };

/* Rows of 1, or of 7 under the top 7, then the rule in another place, and a row of 2. The
   row before the add would make what looks 1 to 4 rows back true, Y and S too, and Z and T
   false. */
static void added_later(void)
{
    for (int i = 0; i < LATERS; i++)
        for (int before = 1; before <= 6; before++) {
            bool is_pinned_one = i >= 8 && i < 12;
            uint64_t due = i == 13 || i == 15;
            int back = i < 12 || i >= 16 ? 1 + i % 4 : 1;
            start_under(1, (int32_t[]){ is_pinned_one ? 7 : 0 });
            write_later(i);
            add("from the first row", 3);
            rows("rows before", is_pinned_one ? 7 : 1, before);
            add("after some rows", (uint64_t)(i % 3));
            expect_told("after some rows", (uint64_t)(i % 3), NOT_YET);
            for (int position = 0; position < back; position++) {
                row("its first rows", 2);
                expect_told("rows before are not seen", (uint64_t)(i % 3), due);
            }
            expect_as_plan("after some rows", i % 3);
            expect_as_plan("from the first row", 3);
        }
}

/* The same rule in all places, each added a row later: each tells by its own age. */
static void one_after_another(void)
{
    start(1);
    atom(1, x_is(-3, 1));
    for (int i = 0; i < 12; i++) {
        if (i < 4)
            add("a row later", (uint64_t)i);
        row("each by its age", 1);
        for (int place = 0; place < 4; place++)
            expect_told("each by its age", (uint64_t)place,
                        place > i ? EMPTY : i - place >= 3 ? TOLD_TRUE : TOLD_FALSE);
    }
}

/* ---- Drops ---- */

static void dropped_and_added(void)
{
    static const int rows_between[] = { 0, 1, 2, 5 };
    for (int i = 0; i < LATERS; i++)
        for (int k = 0; k < 4; k++) {
            bool is_pinned_one = i >= 8 && i < 12;
            int32_t before = is_pinned_one ? 7 : 1;
            start_under(1, (int32_t[]){ is_pinned_one ? 7 : 0 });
            write_later(i);
            add("added", 2);
            rows("rows before", before, 6);
            expect_live_drop("dropped", 2, 0);
            expect_told("dropped", 2, EMPTY);
            rows("rows between", before, rows_between[k]);
            expect_told("dropped, some rows", 2, EMPTY);
            add("added again", 2);
            expect_told("added again", 2, NOT_YET);
            row("position 0 again", 2);
            expect_told("position 0 again", 2, i == 13 || i == 15);
        }
}

/* Another rule in the same place: nothing of the old one is left, of however many parts. */
static void another_rule(void)
{
    start(1);
    start_rule(&rule, MOST_PARTS, 1);
    for (int part = 0; part < MOST_PARTS; part++)
        write_formula(&rule, part, &(struct formula){ .kind = EQUAL });
    add("64 parts, all true", 1);
    rows("all true", 0, 6);
    expect_told("all true", 1, TOLD_TRUE);
    expect_live_drop("dropped", 1, 0);
    over(SINCE, always(), never());
    add("another rule", 1);
    expect_told("another rule", 1, NOT_YET);
    row("another rule", 0);
    expect_told("no truth of the old rule", 1, TOLD_FALSE);
    expect_live_drop("dropped", 1, 0);
    over(YESTERDAY, always(), never());
    add("a third rule", 1);
    row("a third rule", 0);
    expect_told("a third rule", 1, TOLD_FALSE);
    row("a third rule", 0);
    expect_told("a third rule", 1, TOLD_TRUE);
}

/* ---- Not yet ---- */

static void not_yet(void)
{
    start(1);
    atom(1, x_below(0, 5));
    add("first", 0);
    row("first", 1);
    add("second", 1);
    expect_told("one tells, one does not yet", 0, TOLD_TRUE);
    expect_told("one tells, one does not yet", 1, NOT_YET);
    expect_live_row("a row refused", (struct slice){ bytes, 3 }, refusal(17, 0, 0));
    expect_told("not yet after a refused row", 1, NOT_YET);
    expect_live_add("a taken place", 1, slice_of(&rule), refusal(17, 0, 0));
    expect_told("not yet after a refused add", 1, NOT_YET);
    expect_live_drop("the other one dropped", 0, 0);
    expect_told("not yet after a drop", 1, NOT_YET);
    add("third", 3);
    row("both tell", 9);
    expect_told("both tell", 1, TOLD_FALSE);
    expect_told("both tell", 3, TOLD_FALSE);
    expect_live_drop("dropped", 1, 0);
    add("not yet again", 1);
    expect_told("not yet again", 1, NOT_YET);
    expect_told("not yet again", 3, TOLD_FALSE);
}

/* ---- Refused in between ---- */

static void refused_between(void)
{
    static const size_t lengths[] = { 0, 1, 3, 5, 8 };
    start(1);
    atom(1, x_is(-1, 1));
    add("the row before", 0);
    over(SINCE, x_below(0, 5), x_is(0, 1));
    add("since", 1);
    over(YESTERDAY, x_is(0, 1), always());
    add("yesterday", 2);
    row("1", 1);
    for (int i = 0; i < 5; i++) {
        uint8_t nines[8];
        memset(nines, 9, sizeof nines);
        expect_live_row("a row refused", (struct slice){ i == 0 ? NULL : nines, lengths[i] },
                        refusal(17, 0, 0));
        expect_told("told as before", 0, TOLD_FALSE);
        expect_told("told as before", 1, TOLD_TRUE);
    }
    row("the next row", 2);
    expect_told("the row before is the last good one", 0, TOLD_TRUE);
    expect_told("since the last good one", 1, TOLD_TRUE);
    expect_told("yesterday is the last good one", 2, TOLD_TRUE);
}

/* ---- Ages ---- */

enum { MOST_AGE = 65540 };

static bool is_watched_row(int position)
{
    return position < 8 || (position > 252 && position < 260) || position > 65532;
}

/* Position 0 comes once: Z of never; before it there is nothing: x = x four rows back; Y of
   always; and once what was so on position 0 alone. */
static void ages(void)
{
    start(1);
    over(WEAK_YESTERDAY, never(), never());
    add("Z of never", 0);
    atom(1, (struct formula){ .kind = EQUAL, .left = reading(0, -4), .right = reading(0, 0) });
    add("x four rows back", 1);
    over(YESTERDAY, always(), always());
    add("Y of always", 2);
    over(SINCE, always(), x_is(0, 3));
    add("once 3", 3);
    bool right = true;
    for (int position = 0; position < MOST_AGE; position++) {
        right &= takes_row(numbers((int32_t[]){ position == 0 ? 3 : 2 }, 1));
        if (!is_watched_row(position))
            continue;
        expect_told("Z of never", 0, position == 0);
        expect_told("x four rows back", 1, position > 4);
        expect_told("Y of always", 2, position > 0);
        expect_told("once 3", 3, TOLD_TRUE);
    }
    expect("all rows of a long list", right);
}

/* A rule added at such an age of the others is young. */
static void young_among_old(void)
{
    static const int ages[] = { 4, 5, 6, 255, 256, 257, 65535, 65536 };
    int position = 0;
    start(1);
    over(WEAK_YESTERDAY, never(), never());
    add("from the first row", 0);
    for (int i = 0; i < 8; i++) {
        bool right = true;
        for (; position < ages[i]; position++)
            right &= takes_row(numbers((int32_t[]){ 1 }, 1));
        expect("rows up to some age", right);
        atom(1, x_is(-1, 1));
        add("young", 1);
        over(WEAK_YESTERDAY, never(), never());
        add("young", 2);
        row("young", 1);
        position++;
        expect_told("the old one", 0, TOLD_FALSE);
        expect_told("a young one sees no row before", 1, TOLD_FALSE);
        expect_told("a young one is at position 0", 2, TOLD_TRUE);
        expect_live_drop("dropped", 1, 0);
        expect_live_drop("dropped", 2, 0);
    }
}

/* ---- Tops ---- */

static struct formula pinned_x(int shift)
{
    return (struct formula){ .kind = PINNED, .left = reading(0, shift) };
}

/* x under the top 5, told of each row of digits. */
static void tells_under(const char *name, const char *readings, const char *told)
{
    start_under(1, (int32_t[]){ 5 });
    add(name, 1);
    for (int i = 0; readings[i] != '\0'; i++) {
        row(name, readings[i] - '0');
        expect_told(name, 1, (uint64_t)(told[i] - '0'));
    }
    expect_as_plan(name, 1);
}

static void tops(void)
{
    static const char *const readings = "4569045";
    atom(1, pinned_x(0));
    tells_under("pinned", readings, "0111001");
    tells("no top", readings, "0000000");
    atom(1, pinned_x(-1));
    tells_under("pinned a row back", readings, "0011100");
    atom(1, pinned_x(-4));
    tells_under("pinned four rows back", readings, "0000011");
    atom(1, x_below(0, 9));
    tells_under("x < 9", readings, "1000110");
    atom(1, x_is(0, 5));
    tells_under("x = 5", readings, "0000000");
    atom(1, x_is(-1, 6));
    tells_under("x = 6 a row back", readings, "0000000");
    atom(1, (struct formula){ .kind = EQUAL, .left = reading(0, 0), .right = reading(0, 0) });
    tells_under("x = x", readings, "1000110");
    atom(1, (struct formula){ .kind = LESS, .left = constant(0), .right = reading(0, -2) });
    tells_under("0 < x two rows back", readings, "0010000");
    atom(1, (struct formula){ .kind = LESS, .left = reading(0, 0), .right = reading(0, -1) });
    tells_under("falling", readings, "0000000");
    atom(1, (struct formula){ .kind = WINDOW, .left = reading(0, 0), .from = 4, .to = 9 });
    tells_under("window", readings, "1000010");
    atom(1, (struct formula){ .kind = WINDOW, .left = reading(0, 0), .from = 9, .to = 4 });
    tells_under("window over the end", readings, "0000100");
    atom(1, (struct formula){ .kind = WINDOW, .left = reading(0, -1), .from = 1, .to = 0 });
    tells_under("window a row back", readings, "0100001");
    over(NOT, x_below(0, 9), never());
    tells_under("not x < 9", readings, "0111001");
}

/* Of two channels each has its own top; the highest top, and readings far below. */
static void two_tops(void)
{
    start_under(2, (int32_t[]){ 0, 5 });
    atom(2, (struct formula){ .kind = LESS, .left = reading(0, 0), .right = reading(1, 0) });
    add("x < y", 0);
    atom(2, (struct formula){ .kind = PINNED, .left = reading(1, -1) });
    add("y was pinned", 1);
    row_of_two("below", 9, 4);
    row_of_two("x has no top", 3, 4);
    expect_told("x < y", 0, TOLD_TRUE);
    row_of_two("y is pinned", 3, 5);
    expect_told("x < y, pinned", 0, TOLD_FALSE);
    row_of_two("y was pinned", INT32_MIN, INT32_MIN + 1);
    expect_told("x < y", 0, TOLD_TRUE);
    expect_told("y was pinned", 1, TOLD_TRUE);
    start_under(1, (int32_t[]){ INT32_MAX });
    atom(1, pinned_x(0));
    add("the highest top", 0);
    atom(1, x_below(0, INT32_MAX));
    add("below the highest number", 1);
    row("the highest number", INT32_MAX);
    expect_told("pinned", 0, TOLD_TRUE);
    expect_told("pinned, and not below", 1, TOLD_FALSE);
    row("one below", INT32_MAX - 1);
    expect_told("one below", 0, TOLD_FALSE);
    expect_told("one below", 1, TOLD_TRUE);
    row("the lowest number", INT32_MIN);
    expect_told("the lowest number", 0, TOLD_FALSE);
    expect_told("the lowest number", 1, TOLD_TRUE);
}

/* ---- Windows and ends of 32 bits ---- */

static void windows(void)
{
    static const struct {
        int from, to;
        int32_t x;
        uint64_t told;
    } of_week[] = {
        { 480, 1020, 479, 0 },        { 480, 1020, 480, 1 },    { 480, 1020, 1019, 1 },
        { 480, 1020, 1020, 0 },       { 480, 1020, WEEK + 480, 1 },
        { 480, 1020, 480 - WEEK, 1 }, { 480, 1020, -WEEK, 0 },  { 10079, 0, -1, 1 },
        { 10079, 0, 0, 0 },           { 0, 10079, -1, 0 },      { 0, 10079, WEEK, 1 },
        { 1020, 480, 0, 1 },          { 1020, 480, 1019, 0 },   { 1020, 480, -9601, 1 },
        { 1020, 480, -9600, 0 },      { 128, 129, INT32_MAX, 0 },
        { 127, 128, INT32_MAX, 1 },   { 9952, 9953, INT32_MIN, 1 },
        { 9951, 9952, INT32_MIN, 0 }, { 0, 1, 7 * WEEK, 1 },
    };
    for (size_t i = 0; i < sizeof of_week / sizeof of_week[0]; i++)
        for (int back = 0; back <= 4; back += 2) {
            start(1);
            atom(1, (struct formula){ .kind = WINDOW, .left = reading(0, -back),
                                      .from = of_week[i].from, .to = of_week[i].to });
            add("window", 0);
            row("window", of_week[i].x);
            for (int later = 0; later < back; later++) {
                expect_told("before position 0", 0, TOLD_FALSE);
                row("later", of_week[i].x + 5040 * (of_week[i].x < 0 ? 1 : -1));
            }
            expect_told("window", 0, of_week[i].told);
        }
}

static void ends(void)
{
    static const int32_t x[] = { INT32_MIN, INT32_MAX, 0, INT32_MIN + 1, -1 };
    for (int i = 0; i < 5; i++)
        for (int k = 0; k < 5; k++) {
            start(2);
            atom(2, (struct formula){ .kind = LESS, .left = reading(0, 0),
                                      .right = constant(x[k]) });
            add("x < constant", 0);
            atom(2, (struct formula){ .kind = EQUAL, .left = constant(x[i]),
                                      .right = reading(1, 0) });
            add("constant = y", 1);
            atom(2, (struct formula){ .kind = LESS, .left = reading(0, 0),
                                      .right = reading(1, 0) });
            add("x < y", 2);
            row_of_two("ends of 32 bits", x[i], x[k]);
            expect_told("x < constant", 0, x[i] < x[k]);
            expect_told("constant = y", 1, x[i] == x[k]);
            expect_told("x < y", 2, x[i] < x[k]);
        }
}

/* ---- Places apart ---- */

/* Once 0, once 1, once 2, once 3: each place has its own memory. */
static void own_memories(void)
{
    static const int32_t order[] = { 2, 0, 3, 1 };
    bool seen[4] = { false };
    start(1);
    for (int place = 0; place < 4; place++) {
        over(SINCE, always(), x_is(0, place));
        add("once its number", (uint64_t)place);
    }
    for (int i = 0; i < 4; i++) {
        row("a number of one place", order[i]);
        seen[order[i]] = true;
        for (int place = 0; place < 4; place++)
            expect_told("its own memory", (uint64_t)place, seen[place]);
    }
    expect_live_drop("one dropped", 1, 0);
    row("another number", 9);
    for (int place = 0; place < 4; place++)
        expect_told("the others stay", (uint64_t)place, place == 1 ? EMPTY : TOLD_TRUE);
}

/* The state has its own copy: the bytes of the rule and of the row may go. */
static void own_copies(void)
{
    start(1);
    atom(1, x_is(-1, 1));
    add("copied", 0);
    memset(rule.at, 0xFF, rule.len);
    row("copied", 1);
    memset(bytes, 0xFF, sizeof bytes);
    row("copied", 2);
    expect_told("its own copies", 0, TOLD_TRUE);
}

/* Y of Y of .., 63 deep, over x = 1, with x the last of 8 channels, in all places. */
static void deepest(void)
{
    int32_t channels[MOST_CHANNELS] = { 0 };
    start(MOST_CHANNELS);
    start_rule(&rule, MOST_PARTS, MOST_CHANNELS);
    write_comparison(&rule, 0, EQUAL, reading(7, -4), constant(1));
    for (int part = 1; part < MOST_PARTS; part++)
        write_unary(&rule, part, YESTERDAY, part - 1);
    for (int place = 0; place < 4; place++)
        add("63 deep", (uint64_t)place);
    for (int position = 0; position < 80; position++) {
        channels[7] = position == 0;
        expect_live_row("63 deep", numbers(channels, MOST_CHANNELS), 0);
        for (int place = 0; place < 4; place++)
            expect_told("63 deep, 4 back", (uint64_t)place, position == 67);
    }
}

void test_live(void)
{
    worked_list();
    kinds();
    shifts();
    added_later();
    one_after_another();
    dropped_and_added();
    another_rule();
    not_yet();
    refused_between();
    ages();
    young_among_old();
    tops();
    two_tops();
    windows();
    ends();
    own_memories();
    own_copies();
    deepest();
}
