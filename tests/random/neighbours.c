/*
 * neighbours.c: each refusal with its nearest neighbours that are accepted, and
 * the order of the refusals. E12, the full sizes, is among them.
 *
 * The base is a rule with one part of each kind, part k - 1 being of kind k, on a plan
 * of two start rows and two cycle rows, whose channel 1 has a top. Its table is written
 * by hand. The refusals of make alone are in making.c, those of settle alone in
 * settling.c, those of the live functions in live_states.c; 9 and 10 on one part are in
 * closing.c.
 */
#include "expect.h"

#include <string.h>

static struct sheet rule, plan, marks;

/* ---- The base ---- */

enum { PARTS = 14 };

static const char *const base_marks[PARTS] = {
    "1101", /*  0  y < 25 */
    "0010", /*  1  Y x = 6, a term that reaches before the run on row 0 */
    "1101", /*  2  not 1 */
    "1101", /*  3  0 and 2 */
    "1111", /*  4  0 or 1 */
    "1010", /*  5  X 0 */
    "1111", /*  6  0 U 1 */
    "0000", /*  7  1 R 0 */
    "0110", /*  8  Y 0 */
    "1110", /*  9  Z 0 */
    "0011", /* 10  0 S 1 */
    "1101", /* 11  4 T 0 */
    "1010", /* 12  x from minute 5 to minute 6 */
    "1010", /* 13  X X y is pinned, at 30 */
};

static void write_base_rule(void)
{
    start_rule(&rule, PARTS, 2);
    write_comparison(&rule, 0, LESS, reading(1, 0), constant(25));
    write_comparison(&rule, 1, EQUAL, reading(0, -1), constant(6));
    write_unary(&rule, 2, NOT, 1);
    write_binary(&rule, 3, AND, 0, 2);
    write_binary(&rule, 4, OR, 0, 1);
    write_unary(&rule, 5, NEXT, 0);
    write_binary(&rule, 6, UNTIL, 0, 1);
    write_binary(&rule, 7, RELEASE, 1, 0);
    write_unary(&rule, 8, YESTERDAY, 0);
    write_unary(&rule, 9, WEAK_YESTERDAY, 0);
    write_binary(&rule, 10, SINCE, 0, 1);
    write_binary(&rule, 11, TRIGGER, 4, 0);
    write_window(&rule, 12, reading(0, 0), 5, 6);
    write_pinned(&rule, 13, reading(1, 2));
}

static void write_base_plan(void)
{
    static const int32_t x[4] = { 5, 6, 5, 6 }, y[4] = { 10, 20, 30, 20 };
    start_plan(&plan, 2, 2, 2);
    write_top(&plan, 1, 30);
    for (int row = 0; row < 4; row++) {
        write_reading(&plan, row, 0, x[row]);
        write_reading(&plan, row, 1, y[row]);
    }
}

static void write_base_marks(void)
{
    start_marks(&marks, PARTS, 4);
    for (int part = 0; part < PARTS; part++)
        for (int row = 0; row < 4; row++)
            *mark_byte(&marks, part, row) = base_marks[part][row] == '1';
    put2(witness_bytes(&marks, 6), 2);
    put2(witness_bytes(&marks, 7), 2);
}

static void base(void)
{
    write_base_rule();
    write_base_plan();
    write_base_marks();
}

/* The answer on the sheets as they stand; then the base again. */
static void check(const char *name, uint64_t answer)
{
    expect_check(name, &rule, &plan, &marks, answer);
    base();
}

static void judge(const char *name, uint64_t part, uint64_t row, uint64_t answer)
{
    expect_judge(name, &rule, &plan, part, row, answer);
    base();
}

/* All functions refuse the rule or the plan alike. */
static void refuse_all(const char *name, uint64_t answer)
{
    static struct sheet buffer;
    resize(&buffer, marks.len);
    expect_judge(name, &rule, &plan, 0, 0, answer);
    expect_make(name, &rule, &plan, &buffer, answer);
    expect_passes(name, &rule, &plan, answer);
    check(name, answer);
}

/* The sheets as they stand, with the table that is true of them, are accepted, this
   table is the one that is made, and no pass needs to be laid out. */
static void accept_with_true_marks(const char *name)
{
    write_true_marks_of(&marks, &truth_space, &rule, &plan);
    uint64_t verdict = *mark_byte(&marks, truth_space.rule.parts - 1, 0);
    expect_made(name, &rule, &plan, &marks, verdict);
    expect_passes(name, &rule, &plan, 0);
    check(name, verdict);
}

/* ---- Refusal 1 ---- */

static void accept_rule_of(const char *name, int parts, int channels)
{
    start_rule(&rule, parts, channels);
    start_plan(&plan, channels, 1, 1);
    accept_with_true_marks(name);
}

static void refuse_rule_of(const char *name, int parts, int channels)
{
    start_rule(&rule, parts, channels);
    refuse_all(name, refusal(1, 0, 0));
}

static void rule_sizes(void)
{
    expect_made("base", &rule, &plan, &marks, 1);
    check("base", 1);
    for (size_t len = 0; len < 4; len++) {
        resize(&rule, len);
        refuse_all("rule of fewer than 4 bytes", refusal(1, 0, 0));
    }
    resize(&rule, rule.len - 1);
    refuse_all("rule one byte short", refusal(1, 0, 0));
    resize(&rule, rule.len + 1);
    refuse_all("rule one byte long", refusal(1, 0, 0));
    resize(&rule, rule.len - 13);
    refuse_all("rule one part short", refusal(1, 0, 0));

    refuse_rule_of("N 0", 0, 1);
    accept_rule_of("N 1", 1, 1);
    accept_rule_of("E12 N 64", 64, 1);
    refuse_rule_of("E12 N 65", 65, 1);
    refuse_rule_of("N 256", 256, 1);
    refuse_rule_of("N 257", 257, 1);
    put2(rule.at, 0);
    refuse_all("N 0 in a longer rule", refusal(1, 0, 0));
    put2(rule.at, 65535);
    refuse_all("N 65535", refusal(1, 0, 0));

    refuse_rule_of("V 0", 1, 0);
    accept_rule_of("V 1", 1, 1);
    accept_rule_of("V 8", 1, 8);
    refuse_rule_of("V 9", 1, 9);
    refuse_rule_of("V 257", 1, 257);
    accept_rule_of("N 64 and V 8", 64, 8);
}

/* ---- Refusal 2 ---- */

static void kinds(void)
{
    static const uint8_t wrong[] = { 0, 15, 16, 128, 255 };
    for (size_t i = 0; i < sizeof wrong; i++)
        for (int part = 0; part < PARTS; part++) {
            *kind_byte(&rule, part) = wrong[i];
            refuse_all("kind byte", refusal(2, part, 0));
        }
    *kind_byte(&rule, 9) = 0;
    *kind_byte(&rule, 4) = 15;
    refuse_all("lowest wrong kind", refusal(2, 4, 0));
    operand_bytes(&rule, 0)[0] = 2;
    *kind_byte(&rule, 11) = 15;
    refuse_all("a kind before a lower operand", refusal(2, 11, 0));
}

/* ---- Refusal 3 ---- */

/* A flat plan, on which every comparison closes. */
static void flat_plan(int channels)
{
    start_plan(&plan, channels, 4, 1);
    for (int row = 0; row < 5; row++)
        for (int channel = 0; channel < channels; channel++)
            write_reading(&plan, row, channel, 7);
}

/* One comparison, with a side of these three fields; the other side is 7. */
static void one_comparison(enum kind kind, bool left, uint8_t form, uint8_t code, int32_t number)
{
    start_rule(&rule, 1, 3);
    write_comparison(&rule, 0, kind, constant(7), constant(7));
    uint8_t *at = operand_bytes(&rule, 0) + (left ? 0 : 6);
    at[0] = form;
    at[1] = code;
    put4(at + 2, number);
    flat_plan(3);
}

static void terms_of(enum kind kind, bool left)
{
    static const struct fields {
        uint8_t form, code;
        int32_t number;
    } right[] = {
        { 0, 4, 0 }, { 0, 4, -1 }, { 0, 4, INT32_MAX }, { 0, 4, INT32_MIN },
        { 1, 4, 0 }, { 1, 4, 2 },  { 1, 0, 1 },         { 1, 8, 1 },
    };
    static const struct fields wrong[] = {
        { 0, 3, 0 },       { 0, 5, 0 },         { 0, 0, 0 },         { 0, 255, 0 },
        { 1, 9, 0 },       { 1, 255, 0 },       { 1, 4, -1 },        { 1, 4, 3 },
        { 1, 4, 256 },     { 1, 4, 65536 },     { 1, 4, 1 << 24 },   { 1, 4, INT32_MIN },
        { 2, 4, 0 },       { 1, 4, INT32_MAX }, { 255, 4, 0 },       { 2, 9, 3 },
    };
    for (size_t i = 0; i < sizeof right / sizeof right[0]; i++) {
        one_comparison(kind, left, right[i].form, right[i].code, right[i].number);
        accept_with_true_marks("term in order");
    }
    for (size_t i = 0; i < sizeof wrong / sizeof wrong[0]; i++) {
        one_comparison(kind, left, wrong[i].form, wrong[i].code, wrong[i].number);
        refuse_all("term out of order", refusal(3, 0, 0));
    }
    for (int code = 0; code <= 8; code++) {
        one_comparison(kind, left, 1, (uint8_t)code, 2);
        accept_with_true_marks("shift code 0 to 8");
    }
}

static void named_parts(int part)
{
    int named = names_two_parts((enum kind)(part + 1)) ? 2 : 1;
    static const int wrong[] = { 256, 257, 65535, 63, 64 };
    for (int i = 0; i < named; i++) {
        put2(operand_bytes(&rule, part) + 2 * i, (unsigned)part);
        refuse_all("part that names itself", refusal(3, part, 0));
        put2(operand_bytes(&rule, part) + 2 * i, (unsigned)part + 1);
        refuse_all("part that names a higher one", refusal(3, part, 0));
        for (size_t k = 0; k < sizeof wrong / sizeof wrong[0]; k++) {
            put2(operand_bytes(&rule, part) + 2 * i, (unsigned)wrong[k]);
            refuse_all("part that names an absent one", refusal(3, part, 0));
        }
    }
    for (int i = 2 * named; i < 12; i++) {
        operand_bytes(&rule, part)[i] = i % 2 ? 1 : 128;
        refuse_all("padding that is not 0", refusal(3, part, 0));
    }
}

/* Every byte of the window's operand, with the high bit turned round or another value:
   5 and 6 for from and to are the only fields with neighbours that are in order. */
static void window_bytes(void)
{
    enum { WINDOW_PART = 12, CODE = 1, FROM = 6, TO = 8 };
    for (int i = 0; i < 12; i++) {
        operand_bytes(&rule, WINDOW_PART)[i] ^= 128;
        if (i == FROM || i == TO)
            accept_with_true_marks("another minute of a window");
        else
            refuse_all("a byte of a window, high bit", refusal(3, WINDOW_PART, 0));
    }
    operand_bytes(&rule, WINDOW_PART)[FROM] = 6;
    refuse_all("a window from a minute to itself", refusal(3, WINDOW_PART, 0));
    operand_bytes(&rule, WINDOW_PART)[TO] = 5;
    refuse_all("a window from a minute to itself", refusal(3, WINDOW_PART, 0));
    operand_bytes(&rule, WINDOW_PART)[0] = 0;
    refuse_all("a window of a constant", refusal(3, WINDOW_PART, 0));
    operand_bytes(&rule, WINDOW_PART)[CODE] = 9;
    refuse_all("a window, shift code 9", refusal(3, WINDOW_PART, 0));
    operand_bytes(&rule, WINDOW_PART)[2] = 2;
    refuse_all("a window of an absent channel", refusal(3, WINDOW_PART, 0));
    operand_bytes(&rule, WINDOW_PART)[10] = 1;
    put2(operand_bytes(&rule, 9), 9);
    refuse_all("an operand below a window's", refusal(3, 9, 0));
    operand_bytes(&rule, WINDOW_PART)[11] = 1;
    resize(&plan, 0);
    refuse_all("a window before the plan", refusal(3, WINDOW_PART, 0));
}

/* Every byte of the operand of kind 14. Only another shift, or another channel, is in
   order. */
static void pinned_bytes(void)
{
    enum { PINNED_PART = 13, CODE = 1, CHANNEL = 2, PADDING = 6 };
    for (int i = 0; i < 12; i++) {
        operand_bytes(&rule, PINNED_PART)[i] ^= 128;
        refuse_all("a byte of kind 14, high bit", refusal(3, PINNED_PART, 0));
    }
    for (int i = PADDING; i < 12; i++) {
        operand_bytes(&rule, PINNED_PART)[i] = 1;
        refuse_all("padding of kind 14", refusal(3, PINNED_PART, 0));
    }
    write_pinned(&rule, PINNED_PART, constant(0));
    refuse_all("kind 14 of a constant", refusal(3, PINNED_PART, 0));
    write_pinned(&rule, PINNED_PART, constant(1));
    operand_bytes(&rule, PINNED_PART)[CODE] = 6;
    refuse_all("kind 14 of a shifted constant", refusal(3, PINNED_PART, 0));
    operand_bytes(&rule, PINNED_PART)[0] = 2;
    refuse_all("kind 14, form 2", refusal(3, PINNED_PART, 0));
    operand_bytes(&rule, PINNED_PART)[CODE] = 9;
    refuse_all("kind 14, shift code 9", refusal(3, PINNED_PART, 0));
    operand_bytes(&rule, PINNED_PART)[CHANNEL] = 2;
    refuse_all("kind 14 of an absent channel", refusal(3, PINNED_PART, 0));
    put4(operand_bytes(&rule, PINNED_PART) + CHANNEL, -1);
    refuse_all("kind 14 of channel -1", refusal(3, PINNED_PART, 0));
    operand_bytes(&rule, PINNED_PART)[CHANNEL] = 0;
    accept_with_true_marks("kind 14 of another channel");
    operand_bytes(&rule, PINNED_PART)[CODE] = 8;
    accept_with_true_marks("kind 14, shift code 8");
    operand_bytes(&rule, PINNED_PART)[PADDING] = 1;
    operand_bytes(&rule, 12)[11] = 1;
    refuse_all("an operand below that of kind 14", refusal(3, 12, 0));
    operand_bytes(&rule, PINNED_PART)[PADDING] = 1;
    resize(&plan, 0);
    refuse_all("kind 14 before the plan", refusal(3, PINNED_PART, 0));
}

static void operands(void)
{
    terms_of(LESS, true);
    terms_of(LESS, false);
    terms_of(EQUAL, true);
    terms_of(EQUAL, false);
    for (int part = 2; part < 12; part++)
        named_parts(part);
    for (int kind = 3; kind <= 12; kind++) {
        start_rule(&rule, 1, 2);
        write_unary(&rule, 0, (enum kind)kind, 0);
        refuse_all("part 0 can name nothing", refusal(3, 0, 0));
    }
    put2(operand_bytes(&rule, 9), 9);
    put2(operand_bytes(&rule, 5), 5);
    refuse_all("lowest wrong operand", refusal(3, 5, 0));
    window_bytes();
    pinned_bytes();
    put2(operand_bytes(&rule, 9), 9);
    resize(&plan, 0);
    refuse_all("an operand before the plan", refusal(3, 9, 0));
    write_unary(&rule, 11, NEXT, 10);
    accept_with_true_marks("the highest lower part");
}

/* ---- Refusal 4 ---- */

static void accept_plan_with_lead(const char *name, int channels, int lead, int start, int cycle)
{
    start_rule(&rule, 1, channels);
    start_plan_with_lead(&plan, channels, lead, start, cycle);
    accept_with_true_marks(name);
}

static void accept_plan_of(const char *name, int channels, int start, int cycle)
{
    accept_plan_with_lead(name, channels, 0, start, cycle);
}

/* Sizes that are wrong, in a plan of the length that they give if that is
   short enough to write. */
static void refuse_plan_with_lead(const char *name, int channels, int lead, int start, int cycle)
{
    size_t len = 8 + (size_t)channels * (4 + 8 * (size_t)(lead + start + cycle));
    start_plan(&plan, 1, 0, 1);
    put2(plan.at, (unsigned)channels);
    put2(plan.at + 2, (unsigned)start);
    put2(plan.at + 4, (unsigned)cycle);
    put2(plan.at + 6, (unsigned)lead);
    resize(&plan, len < SHEET_LONGEST ? len : 20);
    refuse_all(name, refusal(4, 0, 0));
}

static void refuse_plan_of(const char *name, int channels, int start, int cycle)
{
    refuse_plan_with_lead(name, channels, 0, start, cycle);
}

static void plan_sizes(void)
{
    for (size_t len = 0; len < 8; len++) {
        resize(&plan, len);
        refuse_all("plan of fewer than 8 bytes", refusal(4, 0, 0));
    }
    resize(&plan, 8);
    refuse_all("plan of sizes only", refusal(4, 0, 0));
    for (size_t len = 9; len <= 16; len++) {
        resize(&plan, len);
        refuse_all("plan of sizes and tops", refusal(4, 0, 0));
    }
    memmove(plan.at + 8, plan.at + 16, plan.len - 16);
    resize(&plan, plan.len - 8);
    refuse_all("plan without tops", refusal(4, 0, 0));
    resize(&plan, plan.len - 1);
    refuse_all("plan one byte short", refusal(4, 0, 0));
    resize(&plan, plan.len + 1);
    refuse_all("plan one byte long", refusal(4, 0, 0));

    refuse_plan_of("plan V 0", 0, 1, 1);
    refuse_plan_of("plan V 9", 9, 1, 1);
    refuse_plan_of("plan V 258", 258, 1, 1);
    refuse_plan_of("E12 C 0", 2, 2, 0);
    refuse_plan_of("P 0 and C 0", 2, 0, 0);
    accept_plan_of("P 0 and C 1", 2, 0, 1);
    accept_plan_of("E12 W 256, P 0", 1, 0, 256);
    accept_plan_of("E12 W 256, P 255", 1, 255, 1);
    accept_plan_of("E12 W 256, V 8", 8, 128, 128);
    refuse_plan_of("E12 W 257, P 0", 1, 0, 257);
    refuse_plan_of("E12 W 257, P 256", 1, 256, 1);
    refuse_plan_of("E12 W 257, V 8", 8, 129, 128);
    refuse_plan_of("P 65535 and C 1", 1, 65535, 1);
    refuse_plan_of("P 1 and C 65535", 1, 1, 65535);
    refuse_plan_of("P 65535 and C 65535", 1, 65535, 65535);
    refuse_plan_of("P 65534 and C 4", 1, 65534, 4);

    /* Sizes that wrap at 16 bits in a plan that is as long as the wrapped ones. */
    start_plan(&plan, 2, 1, 1);
    put2(plan.at + 2, 65535);
    put2(plan.at + 4, 3);
    refuse_all("W that wraps to 2", refusal(4, 0, 0));
}

/* L in a plan that is as long as with another number of lead-in rows. */
static void refuse_lead_of(const char *name, unsigned said, int lead)
{
    start_plan_with_lead(&plan, 2, lead, 2, 2);
    put2(plan.at + 6, said);
    refuse_all(name, refusal(4, 0, 0));
}

static void lead_sizes(void)
{
    for (int lead = 0; lead <= 4; lead++) {
        accept_plan_with_lead("L 0 to 4", 2, lead, 2, 2);
        accept_plan_with_lead("L 0 to 4, P 0 and C 1", 1, lead, 0, 1);
        accept_plan_with_lead("L 0 to 4, W 256", 1, lead, 255, 1);
        accept_plan_with_lead("L 0 to 4, W 256, V 8", 8, lead, 128, 128);
        refuse_plan_with_lead("L 0 to 4, W 257", 1, lead, 256, 1);
        refuse_plan_with_lead("L 0 to 4, C 0", 2, lead, 2, 0);
        for (unsigned said = 0; said <= 8; said++)
            if (said != (unsigned)lead)
                refuse_lead_of("L other than the length gives", said, lead);
        refuse_lead_of("L 256 and more, its low byte right", 256 + (unsigned)lead, lead);
        refuse_lead_of("L 256", 256, lead);
        refuse_lead_of("L 65535", 65535, lead);
        start_plan_with_lead(&plan, 2, lead, 2, 2);
        resize(&plan, plan.len - 1);
        refuse_all("plan one byte short, L 0 to 4", refusal(4, 0, 0));
        start_plan_with_lead(&plan, 2, lead, 2, 2);
        resize(&plan, plan.len + 1);
        refuse_all("plan one byte long, L 0 to 4", refusal(4, 0, 0));
    }
    memmove(plan.at + 6, plan.at + 8, plan.len - 8);
    resize(&plan, plan.len - 2);
    refuse_all("plan laid out without L", refusal(4, 0, 0));
    refuse_plan_with_lead("L 5", 2, 5, 2, 2);
    refuse_plan_with_lead("L 5, P 0 and C 1", 1, 5, 0, 1);
    refuse_plan_with_lead("L 5, W 256, V 8", 8, 5, 0, 256);
    refuse_plan_with_lead("L 6, W 2", 1, 6, 1, 1);
    refuse_plan_with_lead("L 8", 2, 8, 2, 2);
    refuse_plan_with_lead("L 256", 1, 256, 1, 1);
    refuse_plan_with_lead("L 257", 1, 257, 1, 1);
    refuse_plan_with_lead("L 65535", 1, 65535, 1, 1);
    refuse_plan_with_lead("L 65535, V 8", 8, 65535, 1, 1);

    /* W is held against 256 without the lead-in rows. */
    accept_plan_with_lead("W 253 and L 4", 1, 4, 1, 252);
    accept_plan_with_lead("largest plan", 8, 4, 256 - 16, 16);

    /* A row that is counted as lead-in is none of W, and the other way round. */
    start_plan_with_lead(&plan, 2, 1, 1, 2);
    check("three rows and a lead-in row, table of four rows", refusal(7, 0, 0));
    start_plan_with_lead(&plan, 2, 1, 2, 2);
    start_marks(&marks, PARTS, 5);
    check("four rows and a lead-in row, table of five rows", refusal(7, 0, 0));
}

/* ---- Refusals 5 and 6 ---- */

static void channels(void)
{
    start_plan(&plan, 1, 2, 2);
    refuse_all("plan of fewer channels", refusal(5, 0, 0));
    start_plan(&plan, 3, 2, 2);
    refuse_all("plan of more channels", refusal(5, 0, 0));
    start_plan(&plan, 3, 2, 2);
    write_drift(&plan, 0, 0, 1);
    refuse_all("channels before start drifts", refusal(5, 0, 0));
    start_plan(&plan, 3, 2, 2);
    resize(&plan, plan.len - 1);
    refuse_all("plan sizes before channels", refusal(4, 0, 0));
    start_plan_with_lead(&plan, 3, 2, 2, 2);
    write_drift(&plan, -2, 0, 1);
    refuse_all("channels before lead-in drifts", refusal(5, 0, 0));
    start_plan_with_lead(&plan, 3, 5, 2, 2);
    write_drift(&plan, -5, 0, 1);
    refuse_all("L before channels and lead-in drifts", refusal(4, 0, 0));
    start_plan_with_lead(&plan, 2, 5, 2, 2);
    write_drift(&plan, -1, 0, 1);
    refuse_all("L before lead-in drifts", refusal(4, 0, 0));
}

static void start_drifts(void)
{
    for (int row = 0; row < 2; row++)
        for (int channel = 0; channel < 2; channel++)
            for (int i = 0; i < 4; i++) {
                drift_bytes(&plan, row, channel)[i] = i % 2 ? 1 : 128;
                refuse_all("drift in a start row", refusal(6, 0, row));
            }
    write_drift(&plan, 1, 0, 1);
    write_drift(&plan, 0, 1, 1);
    refuse_all("lowest start row with a drift", refusal(6, 0, 0));
    write_drift(&plan, 1, 1, -1);
    resize(&marks, 0);
    refuse_all("a start drift before the table", refusal(6, 0, 1));
    write_drift(&plan, 2, 1, 1);
    check("drift in the first cycle row, y rises from 30", 1);
    write_drift(&plan, 3, 1, -1);
    check("drift in the last cycle row, y falls from 20", 1);
    write_drift(&plan, 2, 1, -1);
    check("drift in the first cycle row, y falls from 30", refusal(10, 0, 2));
    write_drift(&plan, 3, 1, 1);
    check("drift in the last cycle row, y rises from 20", refusal(10, 0, 3));

    start_rule(&rule, 1, 1);
    start_plan(&plan, 1, 255, 1);
    write_drift(&plan, 254, 0, 1);
    refuse_all("drift in start row 254", refusal(6, 0, 254));
}

/* Lead-in rows are counted first and named as row 0; start rows keep their numbers. */
static void lead_drifts_of(int lead)
{
    for (int row = -lead; row < 0; row++)
        for (int channel = 0; channel < 2; channel++)
            for (int i = 0; i < 4; i++) {
                start_plan_with_lead(&plan, 2, lead, 2, 2);
                drift_bytes(&plan, row, channel)[i] = i % 2 ? 1 : 128;
                refuse_all("drift in a lead-in row", refusal(6, 0, 0));
                start_plan_with_lead(&plan, 2, lead, 2, 2);
                drift_bytes(&plan, row, channel)[i] = i % 2 ? 1 : 128;
                write_drift(&plan, 1, 1 - channel, 1);
                refuse_all("drift in a lead-in row before a start row's", refusal(6, 0, 0));
            }
    for (int row = 0; row < 2; row++)
        for (int channel = 0; channel < 2; channel++) {
            start_plan_with_lead(&plan, 2, lead, 2, 2);
            write_drift(&plan, row, channel, -1);
            refuse_all("drift in a start row after lead-in rows", refusal(6, 0, row));
        }
    start_plan_with_lead(&plan, 2, lead, 2, 2);
    write_drift(&plan, 2, 0, 1);
    write_drift(&plan, 3, 1, -1);
    judge("drifts in cycle rows after lead-in rows", 0, 0, ALWAYS_TRUE);
}

static void lead_drifts(void)
{
    for (int lead = 0; lead <= 4; lead++)
        lead_drifts_of(lead);

    start_rule(&rule, 1, 1);
    start_plan_with_lead(&plan, 1, 1, 0, 1);
    write_drift(&plan, -1, 0, 1);
    refuse_all("drift in the lead-in row, P 0", refusal(6, 0, 0));
    start_rule(&rule, 1, 8);
    start_plan_with_lead(&plan, 8, 4, 255, 1);
    write_drift(&plan, 254, 7, 1);
    refuse_all("drift in start row 254, L 4", refusal(6, 0, 254));
    start_rule(&rule, 1, 8);
    start_plan_with_lead(&plan, 8, 4, 255, 1);
    write_drift(&plan, -1, 7, 1);
    write_drift(&plan, 254, 7, 1);
    refuse_all("drift in the last lead-in row and in start row 254", refusal(6, 0, 0));
    start_plan_with_lead(&plan, 2, 3, 2, 2);
    write_drift(&plan, -1, 1, INT32_MIN);
    resize(&marks, 0);
    refuse_all("a lead-in drift before the table", refusal(6, 0, 0));
}

/* ---- Refusals 7 and 8 ---- */

static void mark_sizes(void)
{
    static const int sizes[][2] = { { 13, 4 }, { 15, 4 }, { 14, 3 },  { 14, 5 },
                                    { 0, 4 },  { 14, 0 }, { 4, 14 },  { 270, 4 },
                                    { 14, 260 } };
    for (size_t len = 0; len < 4; len++) {
        resize(&marks, len);
        check("table of fewer than 4 bytes", refusal(7, 0, 0));
    }
    resize(&marks, 4);
    check("table of sizes only", refusal(7, 0, 0));
    resize(&marks, marks.len - 1);
    check("table one byte short", refusal(7, 0, 0));
    resize(&marks, marks.len + 1);
    check("table one byte long", refusal(7, 0, 0));
    for (size_t i = 0; i < sizeof sizes / sizeof sizes[0]; i++) {
        start_marks(&marks, sizes[i][0], sizes[i][1]);
        check("table of another N or W", refusal(7, 0, 0));
        put2(marks.at, (unsigned)sizes[i][0]);
        put2(marks.at + 2, (unsigned)sizes[i][1]);
        check("table that says another N or W", refusal(7, 0, 0));
    }
    *mark_byte(&marks, 0, 0) = 2;
    resize(&marks, marks.len - 1);
    check("table sizes before mark bytes", refusal(7, 0, 0));
}

static void mark_bytes(void)
{
    static const uint8_t wrong[] = { 2, 3, 128, 129, 254, 255 };
    for (int part = 0; part < PARTS; part++)
        for (int row = 0; row < 4; row++)
            for (int i = 0; i < 6; i++) {
                *mark_byte(&marks, part, row) = wrong[i];
                check("mark byte above 1", refusal(8, part, row));
            }
    *mark_byte(&marks, 3, 0) = 2;
    *mark_byte(&marks, 2, 3) = 2;
    *mark_byte(&marks, 2, 1) = 2;
    check("lowest part, then lowest row", refusal(8, 2, 1));
    *mark_byte(&marks, 0, 0) ^= 1;
    *mark_byte(&marks, 11, 3) = 2;
    check("a mark byte before a lower equation", refusal(8, 11, 3));
}

/* ---- Refusals 9, 10 and 11 ---- */

static void equations(void)
{
    for (int part = 0; part < PARTS; part++)
        for (int row = 0; row < 4; row++) {
            *mark_byte(&marks, part, row) ^= 1;
            uint64_t answer = second_check(slice_of(&rule), slice_of(&plan), slice_of(&marks));
            expect("a flipped mark is refusal 9 on its part",
                   answer >> 16 == refusal(9, part, 0) >> 16);
            check("a flipped mark", answer);
        }
    *mark_byte(&marks, 4, 3) ^= 1;
    *mark_byte(&marks, 4, 1) ^= 1;
    *mark_byte(&marks, 5, 0) ^= 1;
    check("lowest part, then lowest row of it", refusal(9, 4, 1));
    *mark_byte(&marks, 8, 0) ^= 1;
    put2(witness_bytes(&marks, 6), 0);
    check("a lower part's witness before an equation", refusal(11, 6, 0));
    *mark_byte(&marks, 6, 0) ^= 1;
    put2(witness_bytes(&marks, 6), 0);
    check("an equation before the part's witness", refusal(9, 6, 0));
    *mark_byte(&marks, 0, 0) ^= 1;
    write_drift(&plan, 3, 1, 1);
    check("the part's closing before an equation", refusal(10, 0, 3));
    *mark_byte(&marks, 1, 0) ^= 1;
    write_drift(&plan, 3, 1, 1);
    check("a lower part's closing before an equation", refusal(10, 0, 3));
}

/* One past operator over two comparisons of a channel with 1, on a plan of one
   channel with these readings. */
static void past_on(enum kind kind, int start, int cycle, const int32_t *a, const int32_t *b,
                    const char *name, uint64_t answer)
{
    start_rule(&rule, 3, 2);
    write_comparison(&rule, 0, EQUAL, reading(0, 0), constant(1));
    write_comparison(&rule, 1, EQUAL, reading(1, 0), constant(1));
    write_binary(&rule, 2, kind, 0, 1);
    if (!names_two_parts(kind))
        write_unary(&rule, 2, kind, 0);
    start_plan(&plan, 2, start, cycle);
    for (int row = 0; row < start + cycle; row++) {
        write_reading(&plan, row, 0, a[row]);
        write_reading(&plan, row, 1, b[row]);
    }
    write_true_marks_of(&marks, &truth_space, &rule, &plan);
    expect_make_as_checked(name, &rule, &plan, &marks, answer);
    check(name, answer);
}

static void closing(void)
{
    static const int32_t ones[3] = { 1, 1, 1 }, zeros[3] = { 0, 0, 0 };
    static const int32_t first[3] = { 1, 0, 0 }, last[3] = { 0, 0, 1 }, others[3] = { 0, 1, 1 };
    past_on(YESTERDAY, 0, 3, zeros, zeros, "Y closes, P 0", 0);
    past_on(YESTERDAY, 0, 3, last, zeros, "Y does not close, P 0", refusal(10, 2, 0));
    past_on(YESTERDAY, 0, 1, ones, zeros, "Y does not close, P 0 C 1", refusal(10, 2, 0));
    past_on(YESTERDAY, 2, 1, first, zeros, "Y closes, P 2", 0);
    past_on(YESTERDAY, 2, 1, last, zeros, "Y does not close, P 2", refusal(10, 2, 2));
    past_on(WEAK_YESTERDAY, 0, 3, last, zeros, "Z closes, P 0", 1);
    past_on(WEAK_YESTERDAY, 0, 3, zeros, zeros, "Z does not close, P 0", refusal(10, 2, 0));
    past_on(WEAK_YESTERDAY, 1, 2, first, zeros, "Z does not close, P 1", refusal(10, 2, 1));
    past_on(SINCE, 0, 3, ones, first, "S closes, P 0", 1);
    past_on(SINCE, 0, 3, ones, last, "S does not close, P 0", refusal(10, 2, 0));
    past_on(SINCE, 1, 2, others, first, "S closes, P 1", 1);
    past_on(SINCE, 1, 2, others, last, "S does not close, P 1", refusal(10, 2, 1));
    past_on(TRIGGER, 0, 3, zeros, ones, "T closes, P 0", 1);
    past_on(TRIGGER, 0, 3, zeros, others, "T closes on false, P 0", 0);
    past_on(TRIGGER, 0, 3, first, first, "T closes on first, P 0", 1);
    past_on(TRIGGER, 1, 2, last, others, "T does not close, P 1", refusal(10, 2, 1));

    /* The lowest of the rows on which a comparison changes. */
    write_drift(&plan, 2, 0, 1);
    write_drift(&plan, 3, 0, 1);
    expect_make_as_checked("lowest changing row", &rule, &plan, &marks, refusal(10, 1, 2));
    check("lowest changing row", refusal(10, 1, 2));
}

static void witnesses(void)
{
    static const int serving[] = { 2 };
    static const int other[] = { 0, 1, 3, 4, 5, 255, 256, 258, 514, 65534, NO_WITNESS };
    for (int part = 6; part <= 7; part++) {
        for (size_t i = 0; i < sizeof serving / sizeof serving[0]; i++) {
            put2(witness_bytes(&marks, part), (unsigned)serving[i]);
            check("witness that serves", 1);
        }
        for (size_t i = 0; i < sizeof other / sizeof other[0]; i++) {
            put2(witness_bytes(&marks, part), (unsigned)other[i]);
            check("witness that does not serve", refusal(11, part, 0));
        }
    }
    for (int part = 0; part < PARTS; part++)
        for (int witness = 0; part != 6 && part != 7 && witness < 6; witness++) {
            put2(witness_bytes(&marks, part), witness == 5 ? 65534 : (unsigned)witness);
            check("witness where none is due", refusal(11, part, 0));
        }
    put2(witness_bytes(&marks, 7), NO_WITNESS);
    put2(witness_bytes(&marks, 0), 0);
    check("lowest wrong witness", refusal(11, 0, 0));

    /* Row P, row W - 1 and every row between may serve. */
    start_rule(&rule, 2, 2);
    write_comparison(&rule, 0, EQUAL, constant(0), constant(0));
    write_binary(&rule, 1, UNTIL, 0, 0);
    start_plan(&plan, 2, 3, 4);
    write_true_marks_of(&marks, &truth_space, &rule, &plan);
    struct sheet kept_rule = rule, kept_plan = plan, kept_marks = marks;
    for (int row = 0; row <= 8; row++) {
        rule = kept_rule;
        plan = kept_plan;
        marks = kept_marks;
        put2(witness_bytes(&marks, 1), (unsigned)row);
        check("witness from P to W - 1", row >= 3 && row < 7 ? 1 : refusal(11, 1, 0));
    }

    /* An until marked 0 and a release marked 1 on row W - 1 have none. */
    for (int kind = UNTIL; kind <= RELEASE; kind++)
        for (int given = 0; given < 2; given++) {
            start_rule(&rule, 2, 2);
            write_comparison(&rule, 0, EQUAL, constant(0), constant(kind == UNTIL));
            write_binary(&rule, 1, (enum kind)kind, 0, 0);
            start_plan(&plan, 2, 0, 2);
            write_true_marks_of(&marks, &truth_space, &rule, &plan);
            if (given)
                put2(witness_bytes(&marks, 1), 1);
            check("no witness is due", given ? refusal(11, 1, 0) : (uint64_t)(kind == RELEASE));
        }
}

/* ---- Refusal 12 ---- */

static void absent(void)
{
    static const uint64_t no_part[] = { PARTS, 15, 63, 64, 65, 255, 256, 65536, (uint64_t)1 << 32,
                                        (uint64_t)1 << 63, UINT64_MAX };
    static const uint64_t no_row[] = { 4, 5, 255, 256, 65536, (uint64_t)1 << 32, (uint64_t)1 << 63,
                                       UINT64_MAX };
    uint64_t twelve = refusal(12, 0, 0);
    for (size_t i = 0; i < sizeof no_part / sizeof no_part[0]; i++) {
        judge("absent part", no_part[i], 0, twelve);
        judge("absent part and row", no_part[i], 4, twelve);
    }
    for (size_t i = 0; i < sizeof no_row / sizeof no_row[0]; i++)
        judge("absent row", 0, no_row[i], twelve);
    for (uint64_t part = 2; part < 12; part++)
        judge("part that is no atom", part, 0, twelve);
    judge("part 0, row 0", 0, 0, ALWAYS_TRUE);
    judge("part 0, row P", 0, 2, ALWAYS_FALSE);
    judge("part 0, row W - 1", 0, 3, ALWAYS_TRUE);
    judge("part 1, row 0, before the run", 1, 0, ALWAYS_FALSE);
    judge("part 1, row P", 1, 2, ALWAYS_TRUE);
    judge("part 12, row 0", 12, 0, ALWAYS_TRUE);
    judge("part 12, row W - 1", 12, 3, ALWAYS_FALSE);
    judge("part 13, row 0", 13, 0, ALWAYS_TRUE);
    judge("part 13, row W - 1", 13, 3, ALWAYS_FALSE);

    write_drift(&plan, 1, 0, 1);
    judge("a start drift before an absent part", 64, 0, refusal(6, 0, 1));
    start_plan(&plan, 1, 2, 2);
    judge("channels before an absent row", 0, 4, refusal(5, 0, 0));
    resize(&rule, 3);
    judge("rule sizes before an absent part", 64, 0, refusal(1, 0, 0));

    start_rule(&rule, 64, 1);
    start_plan(&plan, 1, 255, 1);
    expect_judge("part 63, row 255", &rule, &plan, 63, 255, ALWAYS_FALSE);
    expect_judge("part 64, row 255", &rule, &plan, 64, 255, twelve);
    judge("part 63, row 256", 63, 256, twelve);

    /* Lead-in rows are no rows that can be judged. */
    for (int lead = 1; lead <= 4; lead++) {
        start_plan_with_lead(&plan, 2, lead, 2, 2);
        for (int row = 4; row <= 4 + lead; row++)
            expect_judge("row W and above with lead-in rows", &rule, &plan, 0, (uint64_t)row,
                         twelve);
        for (int back = 1; back <= lead; back++)
            expect_judge("row -1 and below", &rule, &plan, 0, 0 - (uint64_t)back, twelve);
        expect_judge("row W - 1 with lead-in rows", &rule, &plan, 0, 3, ALWAYS_TRUE);
        write_drift(&plan, -lead, 0, 1);
        judge("a lead-in drift before an absent row", 0, 4, refusal(6, 0, 0));
    }
}

/* Everything wrong at once, then put right one after the other. */
static void order(void)
{
    static const char *const name = "order of the refusals";
    struct sheet right_rule = rule, right_plan = plan, right_marks = marks;
    resize(&rule, 3);
    resize(&plan, 7);
    resize(&marks, 3);
    expect_check(name, &rule, &plan, &marks, refusal(1, 0, 0));
    rule = right_rule;
    *kind_byte(&rule, 7) = 0;
    operand_bytes(&rule, 1)[0] = 2;
    expect_check(name, &rule, &plan, &marks, refusal(2, 7, 0));
    *kind_byte(&rule, 7) = RELEASE;
    expect_check(name, &rule, &plan, &marks, refusal(3, 1, 0));
    rule = right_rule;
    expect_check(name, &rule, &plan, &marks, refusal(4, 0, 0));
    start_plan_with_lead(&plan, 1, 5, 2, 2);
    write_drift(&plan, -1, 0, 1);
    expect_check(name, &rule, &plan, &marks, refusal(4, 0, 0));
    start_plan_with_lead(&plan, 1, 4, 2, 2);
    write_drift(&plan, -1, 0, 1);
    write_drift(&plan, 1, 0, 1);
    write_top(&plan, 0, -1);
    expect_check(name, &rule, &plan, &marks, refusal(4, 0, 0));
    write_top(&plan, 0, 0);
    expect_check(name, &rule, &plan, &marks, refusal(5, 0, 0));
    start_plan_with_lead(&plan, 2, 4, 2, 2);
    write_drift(&plan, -1, 0, 1);
    write_drift(&plan, 1, 0, 1);
    expect_check(name, &rule, &plan, &marks, refusal(6, 0, 0));
    plan = right_plan;
    write_drift(&plan, 1, 0, 1);
    expect_check(name, &rule, &plan, &marks, refusal(6, 0, 1));
    write_drift(&plan, 1, 0, 0);
    write_drift(&plan, 3, 1, 1);
    expect_check(name, &rule, &plan, &marks, refusal(7, 0, 0));
    marks = right_marks;
    *mark_byte(&marks, 11, 0) = 2;
    *mark_byte(&marks, 0, 1) ^= 1;
    put2(witness_bytes(&marks, 0), 0);
    expect_check(name, &rule, &plan, &marks, refusal(8, 11, 0));
    *mark_byte(&marks, 11, 0) = 1;
    expect_check(name, &rule, &plan, &marks, refusal(10, 0, 3));
    write_drift(&plan, 3, 1, 0);
    expect_check(name, &rule, &plan, &marks, refusal(9, 0, 1));
    *mark_byte(&marks, 0, 1) ^= 1;
    expect_check(name, &rule, &plan, &marks, refusal(11, 0, 0));
    put2(witness_bytes(&marks, 0), NO_WITNESS);
    expect_check(name, &rule, &plan, &marks, 1);
    base();
}

void test_neighbours(void)
{
    base();
    rule_sizes();
    kinds();
    operands();
    plan_sizes();
    lead_sizes();
    channels();
    start_drifts();
    lead_drifts();
    mark_sizes();
    mark_bytes();
    equations();
    closing();
    witnesses();
    absent();
    order();
}
