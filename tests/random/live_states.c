/*
 * live_states.c: the refusals of the live functions with their nearest neighbours that are
 * done, the order of the refusals, states in use that are started again, and states of
 * arbitrary bytes.
 *
 * A call that is refused leaves the state as it was: each is tried on a state with a rule and
 * some rows, which then goes on.
 */
#include "expect.h"

#include "../support/lend.h"
#include "dice.h"

#include <string.h>

static struct sheet rule;

/* Wider than any field: above every place and every V in their lower bits alone. */
static const uint64_t wide[] = { (uint64_t)1 << 8,  (uint64_t)1 << 16, (uint64_t)1 << 31,
                                 (uint64_t)1 << 32, (uint64_t)1 << 48, (uint64_t)1 << 63 };
enum { WIDE = sizeof wide / sizeof wide[0] };

/* ---- A state in use ---- */

static uint8_t zeros[4 * MOST_CHANNELS + 8];

/* Two channels; in place 1 "x = 1 was so a row back", after a row of 1. */
static void use(void)
{
    uint8_t row[8] = { 1 };
    expect_live_start("use", 2, (struct slice){ zeros, 8 }, 0);
    start_rule(&rule, 1, 2);
    write_comparison(&rule, 0, EQUAL, reading(0, -1), constant(1));
    expect_live_add("use", 1, slice_of(&rule), 0);
    expect_live_row("use", (struct slice){ row, 8 }, 0);
    expect_told("use", 1, TOLD_FALSE);
}

/* It goes on as if nothing had been: the next row is position 1. */
static void goes_on(const char *name)
{
    expect_live_row(name, (struct slice){ zeros, 8 }, 0);
    expect_told(name, 1, TOLD_TRUE);
    expect_told(name, 0, EMPTY);
}

/* ---- Start, refusal 4 ---- */

static void start(const char *name, uint64_t channels, size_t len, bool right)
{
    struct slice tops = { len == 0 ? NULL : zeros, len };
    use();
    expect_live_start(name, channels, tops, right ? 0 : refusal(4, 0, 0));
    if (!right)
        goes_on(name);
    for (int place = 0; right && place < 4; place++)
        expect_told("started again", (uint64_t)place, EMPTY);
}

static void channels(void)
{
    for (uint64_t v = 0; v <= 10; v++) {
        bool right = v >= 1 && v <= 8;
        start("so many channels", v, v <= 8 ? 4 * (size_t)v : 32, right);
        start("a byte of tops more", v, v <= 8 ? 4 * (size_t)v + 1 : 36, false);
        if (right) {
            start("a byte of tops less", v, 4 * (size_t)v - 1, false);
            start("a top more", v, 4 * (size_t)v + 4, false);
            start("a top less", v, 4 * (size_t)v - 4, false);
            start("no tops", v, 0, false);
            start("a byte for each top", v, (size_t)v, false);
        }
        for (int i = 0; i < WIDE; i++) {
            start("V in its lower bits alone", wide[i] + v, v <= 8 ? 4 * (size_t)v : 32, false);
            start("the same without tops", wide[i] + v, 0, false);
        }
    }
    start("the largest V", UINT64_MAX, 32, false);
    start("4 times V is 0 in 64 bits", (uint64_t)1 << 62, 0, false);
    start("4 times V is 4 in 64 bits", ((uint64_t)1 << 62) + 1, 4, false);
    start("9 channels", 9, 36, false);
}

static void negative_tops(void)
{
    static const int32_t wrong[] = { -1, INT32_MIN, INT32_MIN + 1 };
    uint8_t tops[4 * MOST_CHANNELS] = { 0 };
    for (int v = 1; v <= MOST_CHANNELS; v++)
        for (int channel = 0; channel < v; channel++) {
            struct slice bytes = { tops, 4 * (size_t)v };
            for (int i = 0; i < 3; i++) {
                use();
                put4(tops + 4 * channel, wrong[i]);
                expect_live_start("a negative top", (uint64_t)v, bytes, refusal(4, 0, 0));
                goes_on("a negative top");
            }
            put4(tops + 4 * channel, INT32_MAX);
            expect_live_start("the highest top", (uint64_t)v, bytes, 0);
            put4(tops + 4 * channel, 0);
        }
}

/* A state in use is emptied: rows, rules, V and tops are new. */
static void started_again(void)
{
    uint8_t top[4] = { 3 }, row[8] = { 3 };
    use();
    expect_live_start("started again", 1, (struct slice){ top, 4 }, 0);
    expect_live_drop("nothing to drop", 1, refusal(17, 0, 0));
    expect_live_row("a row of the old V", (struct slice){ row, 8 }, refusal(17, 0, 0));
    expect_live_add("a rule of the old V", 1, slice_of(&rule), refusal(16, 0, 0));
    start_rule(&rule, 1, 1);
    write_pinned(&rule, 0, reading(0, 0));
    expect_live_add("a rule of the new V", 1, slice_of(&rule), 0);
    expect_told("no row yet", 1, NOT_YET);
    expect_live_row("a row of the new V", (struct slice){ row, 4 }, 0);
    expect_told("under the new top", 1, TOLD_TRUE);
    expect_live_start("the same without a top", 1, (struct slice){ zeros, 4 }, 0);
    expect_live_add("added again", 0, slice_of(&rule), 0);
    expect_live_row("the same row", (struct slice){ row, 4 }, 0);
    expect_told("under no top", 0, TOLD_FALSE);
    write_comparison(&rule, 0, LESS, reading(0, -1), constant(9));
    expect_live_start("started once more", 1, (struct slice){ zeros, 4 }, 0);
    expect_live_add("a row back", 0, slice_of(&rule), 0);
    expect_live_row("its first row", (struct slice){ row, 4 }, 0);
    expect_told("no row of the old list", 0, TOLD_FALSE);
}

/* ---- Add, refusals 1 to 3, 16 and 17 ---- */

/* Five parts of two channels, of which part 3 is named by nobody. */
static void base(void)
{
    start_rule(&rule, 5, 2);
    write_comparison(&rule, 0, LESS, reading(0, -4), reading(1, 0));
    write_window(&rule, 1, reading(0, -1), 5, 6);
    write_pinned(&rule, 2, reading(1, 0));
    write_unary(&rule, 3, YESTERDAY, 0);
    write_binary(&rule, 4, SINCE, 1, 2);
}

/* The rule as it stands, in a taken place, in places that are not there and in an empty one;
   then the base again. */
static void add(const char *name, uint64_t in_empty)
{
    static const uint64_t above[] = { 4, 5, 255, 256, 65536, (uint64_t)1 << 32,
                                      ((uint64_t)1 << 32) + 3, (uint64_t)1 << 63, UINT64_MAX };
    static struct sheet tried;
    uint64_t elsewhere = in_empty ? in_empty : refusal(17, 0, 0);
    tried = rule;
    use();
    expect_live_add(name, 1, slice_of(&tried), elsewhere);
    for (size_t i = 0; i < sizeof above / sizeof above[0]; i++)
        expect_live_add(name, above[i], slice_of(&tried), elsewhere);
    expect_live_add(name, 3, slice_of(&tried), in_empty);
    expect_told(name, 3, in_empty ? EMPTY : NOT_YET);
    goes_on(name);
    base();
}

static void sheets(void)
{
    add("base", 0);
    resize(&rule, 0);
    add("no rule", refusal(1, 0, 0));
    resize(&rule, 3);
    add("a rule of 3 bytes", refusal(1, 0, 0));
    resize(&rule, rule.len - 1);
    add("a byte less", refusal(1, 0, 0));
    resize(&rule, rule.len + 1);
    add("a byte more", refusal(1, 0, 0));
    start_rule(&rule, MOST_PARTS, 2);
    add("64 parts", 0);
    start_rule(&rule, MOST_PARTS + 1, 2);
    add("65 parts", refusal(1, 0, 0));
    start_rule(&rule, 1, 0);
    add("V is 0", refusal(1, 0, 0));
    start_rule(&rule, 1, 9);
    add("V is 9", refusal(1, 0, 0));
    *kind_byte(&rule, 4) = 0;
    add("kind 0", refusal(2, 4, 0));
    *kind_byte(&rule, 2) = 15;
    *kind_byte(&rule, 3) = NEXT;
    add("kind 15, and X", refusal(2, 2, 0));
    operand_bytes(&rule, 3)[11] = 1;
    *kind_byte(&rule, 4) = UNTIL;
    add("padding, and U", refusal(3, 3, 0));
    write_comparison(&rule, 0, LESS, reading(2, 4), constant(0));
    add("a channel that is not there, ahead", refusal(3, 0, 0));
    write_binary(&rule, 4, SINCE, 1, 4);
    add("a part that is its own", refusal(3, 4, 0));
}

/* Every V of a state with every V of a rule. */
static void other_channels(void)
{
    for (int v = 1; v <= MOST_CHANNELS; v++)
        for (int of_rule = 1; of_rule <= MOST_CHANNELS; of_rule++) {
            expect_live_start("V of the state", (uint64_t)v, (struct slice){ zeros, 4 * (size_t)v },
                              0);
            start_rule(&rule, 1, of_rule);
            expect_live_add("V of the rule", 0, slice_of(&rule),
                            v == of_rule ? 0 : refusal(16, 0, 0));
            expect_live_add("V of the rule, and no place", 4, slice_of(&rule),
                            refusal(v == of_rule ? 17 : 16, 0, 0));
        }
    start_rule(&rule, 1, 3);
    add("another V", refusal(16, 0, 0));
    start_rule(&rule, 1, 1);
    *kind_byte(&rule, 0) = 15;
    add("another V, and no kind", refusal(2, 0, 0));
}

static void ahead(void)
{
    static const enum kind unary[] = { NOT, NEXT, YESTERDAY, WEAK_YESTERDAY };
    static const enum kind binary[] = { AND, OR, UNTIL, RELEASE, SINCE, TRIGGER };
    for (int part = 3; part <= 4; part++) { /* part 3 is named by nobody */
        for (int i = 0; i < 4; i++) {
            write_unary(&rule, part, unary[i], 0);
            add("one part named", unary[i] == NEXT ? refusal(16, 0, 0) : 0);
        }
        for (int i = 0; i < 6; i++) {
            bool is_ahead = binary[i] == UNTIL || binary[i] == RELEASE;
            write_binary(&rule, part, binary[i], 0, 1);
            add("two parts named", is_ahead ? refusal(16, 0, 0) : 0);
        }
    }
    for (int shift = -4; shift <= 4; shift++)
        for (int part = 0; part <= 4; part++) {
            uint64_t answer = shift > 0 ? refusal(16, 0, 0) : 0;
            write_comparison(&rule, part, LESS, reading(1, shift), constant(7));
            add("less, left", answer);
            write_comparison(&rule, part, LESS, constant(7), reading(0, shift));
            add("less, right", answer);
            write_comparison(&rule, part, EQUAL, reading(1, shift), reading(0, -4));
            add("equal, left", answer);
            write_comparison(&rule, part, EQUAL, reading(0, -4), reading(0, shift));
            add("equal, right", answer);
            write_window(&rule, part, reading(0, shift), 5, 6);
            add("window", answer);
            write_pinned(&rule, part, reading(1, shift));
            add("pinned", answer);
        }
    /* A number of a named part, of a constant or of a window is no shift. */
    start_rule(&rule, 10, 2);
    write_comparison(&rule, 0, EQUAL, constant(0x08080808), constant(-1));
    write_window(&rule, 7, reading(0, 0), 0x0801, 0x0105);
    write_binary(&rule, 8, AND, 5, 6);
    write_binary(&rule, 9, SINCE, 8, 7);
    add("numbers like shifts", 0);
}

/* ---- Drop and answer, refusal 17 ---- */

static void places(void)
{
    for (uint64_t place = 0; place < 12; place++) {
        use();
        expect_live_drop("a place", place, place == 1 ? 0 : refusal(17, 0, 0));
        if (place == 1) {
            expect_live_drop("dropped twice", 1, refusal(17, 0, 0));
            continue;
        }
        goes_on("a place");
        for (int i = 0; i < WIDE; i++) {
            expect_live_drop("a place in its lower bits", wide[i] + place, refusal(17, 0, 0));
            expect_told("a place in its lower bits", wide[i] + place, refusal(17, 0, 0));
        }
    }
    use();
    for (int i = 0; i < WIDE; i++) {
        expect_live_drop("place 1 in its lower bits", wide[i] + 1, refusal(17, 0, 0));
        expect_told("place 1 in its lower bits", wide[i] + 1, refusal(17, 0, 0));
        expect_live_add("place 0 in its lower bits", wide[i], slice_of(&rule), refusal(17, 0, 0));
    }
    expect_told("place 4", 4, refusal(17, 0, 0));
    expect_told("the largest place", UINT64_MAX, refusal(17, 0, 0));
    expect_live_drop("the largest place", UINT64_MAX, refusal(17, 0, 0));
    goes_on("all of these");
}

/* ---- Rows, refusal 17 ---- */

static void rows(void)
{
    static uint8_t readings[65536 + 64];
    for (int v = 1; v <= MOST_CHANNELS; v++) {
        size_t right = 4 * (size_t)v;
        expect_live_start("rows", (uint64_t)v, (struct slice){ zeros, right }, 0);
        start_rule(&rule, 2, v);
        write_unary(&rule, 1, WEAK_YESTERDAY, 0);
        expect_live_add("rows", 2, slice_of(&rule), 0);
        for (size_t len = 0; len <= 40; len++)
            if (len != right) {
                expect_live_row("a length", (struct slice){ len == 0 ? NULL : readings, len },
                                refusal(17, 0, 0));
                expect_told("not yet", 2, NOT_YET);
            }
        expect_live_row("256 bytes more", (struct slice){ readings, right + 256 },
                        refusal(17, 0, 0));
        expect_live_row("65536 bytes more", (struct slice){ readings, right + 65536 },
                        refusal(17, 0, 0));
        expect_live_row("the right length", (struct slice){ readings, right }, 0);
        expect_told("position 0", 2, TOLD_TRUE);
    }
}

/* ---- States of arbitrary bytes ---- */

static void fill(struct endless_run_live *state, int style)
{
    uint8_t *at = (uint8_t *)state;
    for (size_t i = 0; i < sizeof *state; i++)
        at[i] = (uint8_t)(style == 0   ? 0
                          : style == 1 ? 255
                          : style == 2 ? below(256)
                          : style == 3 ? (i % 8 == 0 ? below(16) : 0)
                                       : (chance(90) ? below(6) : below(256)));
}

/* A call returned. It wrote nothing beside the state, and nothing at all where it refused. */
static void returned(const char *name, struct asked asked, const struct endless_run_live *before,
                     const struct endless_run_live *after)
{
    bool refused = endless_run_is_refusal(asked.answer);
    expect(name, asked.unchanged && unpacks_live(asked.answer) &&
                     (!refused || memcmp(before, after, sizeof *before) == 0));
}

static void arbitrary(int style)
{
    static struct endless_run_live state, before;
    uint8_t row[4 * MOST_CHANNELS];
    fill(&state, style);
    for (int i = 0; i < 60; i++) {
        uint64_t place = (uint64_t)below(6);
        struct slice readings = { row, 4 * (size_t)between(0, MOST_CHANNELS) };
        for (size_t k = 0; k < sizeof row; k++)
            row[k] = (uint8_t)below(256);
        start_rule(&rule, between(1, MOST_PARTS), between(1, MOST_CHANNELS));
        memcpy(&before, &state, sizeof state);
        switch (below(5)) {
        case 0:
            returned("add on any bytes", ask_live_add(&state, place, slice_of(&rule)), &before,
                     &state);
            break;
        case 1:
            returned("drop on any bytes", ask_live_drop(&state, place), &before, &state);
            break;
        case 2:
            expect("answer on any bytes", ask_live_answer(&state, place).unchanged);
            break;
        default:
            returned("row on any bytes", ask_live_row(&state, readings), &before, &state);
        }
    }
    for (uint64_t place = 4; place < 300; place += 37)
        expect("no such place on any bytes",
               ask_live_answer(&state, place).answer == refusal(17, 0, 0));
}

void test_live_states(void)
{
    seed_dice(19);
    channels();
    negative_tops();
    started_again();
    base();
    sheets();
    other_channels();
    base();
    ahead();
    places();
    rows();
    for (int i = 0; i < 200; i++)
        arbitrary(i % 5);
}
