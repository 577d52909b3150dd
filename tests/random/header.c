/*
 * header.c: the constants of include/endless_run.h against what the library
 * accepts, and the header's own functions.
 */
#include "expect.h"

#include "../../include/endless_run.h"

#include <string.h>

static struct sheet rule, plan, marks;

/* ---- Kinds, forms and witnesses ---- */

/* Part 2 of a rule whose part 0 is x < 5 and whose part 1 is y = 7, on a plan of
   five start rows and one cycle row. It closes whatever its kind, and no two
   kinds have the same marks. */
enum { PARTS = 3, CHANNELS = 2, LEAD = 1, START = 5, CYCLE = 1, ROWS = START + CYCLE };
enum { OPERATORS = 10 };
static const int32_t x[ROWS] = { 9, 9, 1, 9, 1, 1 }, y[ROWS] = { 7, 0, 0, 7, 7, 0 };
static const char *const less_marks = "001011", *const equal_marks = "100110";

static const struct operator {
    const char *name;
    enum endless_run_kind kind;
    bool names_two;
    unsigned witness;
    const char *marks;
} operators[OPERATORS] = {
    { "not", ENDLESS_RUN_KIND_NOT, false, ENDLESS_RUN_NO_WITNESS, "110100" },
    { "and", ENDLESS_RUN_KIND_AND, true, ENDLESS_RUN_NO_WITNESS, "000010" },
    { "or", ENDLESS_RUN_KIND_OR, true, ENDLESS_RUN_NO_WITNESS, "101111" },
    { "X", ENDLESS_RUN_KIND_NEXT, false, ENDLESS_RUN_NO_WITNESS, "010111" },
    { "U", ENDLESS_RUN_KIND_UNTIL, true, ENDLESS_RUN_NO_WITNESS, "101110" },
    { "R", ENDLESS_RUN_KIND_RELEASE, true, 5, "000110" },
    { "Y", ENDLESS_RUN_KIND_YESTERDAY, false, ENDLESS_RUN_NO_WITNESS, "000101" },
    { "Z", ENDLESS_RUN_KIND_WEAK_YESTERDAY, false, ENDLESS_RUN_NO_WITNESS, "100101" },
    { "S", ENDLESS_RUN_KIND_SINCE, true, ENDLESS_RUN_NO_WITNESS, "100111" },
    { "T", ENDLESS_RUN_KIND_TRIGGER, true, ENDLESS_RUN_NO_WITNESS, "100010" },
};

static void put_term(uint8_t *at, enum endless_run_form form, int shift, int32_t number)
{
    at[0] = (uint8_t)form;
    at[1] = (uint8_t)(ENDLESS_RUN_NO_SHIFT + shift);
    put4(at + 2, number);
}

/* The comparison of a channel, read at a shift, with a constant. */
static void put_comparison(int part, enum endless_run_kind kind, int channel, int shift,
                           int32_t number)
{
    *kind_byte(&rule, part) = (uint8_t)kind;
    put_term(operand_bytes(&rule, part), ENDLESS_RUN_FORM_READING, shift, channel);
    put_term(operand_bytes(&rule, part) + 6, ENDLESS_RUN_FORM_CONSTANT, 0, number);
}

static void put_operator(const struct operator *o)
{
    start_rule(&rule, PARTS, CHANNELS);
    put_comparison(0, ENDLESS_RUN_KIND_LESS, 0, 0, 5);
    put_comparison(1, ENDLESS_RUN_KIND_EQUAL, 1, 0, 7);
    *kind_byte(&rule, 2) = (uint8_t)o->kind;
    memset(operand_bytes(&rule, 2), 0, 12);
    if (o->names_two)
        put2(operand_bytes(&rule, 2) + 2, 1);
}

static void put_readings_after(int lead)
{
    start_plan_with_lead(&plan, CHANNELS, lead, START, CYCLE);
    for (int row = 0; row < ROWS; row++) {
        write_reading(&plan, row, 0, x[row]);
        write_reading(&plan, row, 1, y[row]);
    }
}

static void put_readings(void)
{
    put_readings_after(0);
}

static void put_marks(int part, const char *of_rows, unsigned witness)
{
    for (int row = 0; row < ROWS; row++)
        *mark_byte(&marks, part, row) = of_rows[row] == '1';
    put2(witness_bytes(&marks, part), witness);
}

/* Whatever the kind, its own marks are made and accepted, and those of the others
   are not. */
static void kinds(void)
{
    put_readings();
    for (int k = 0; k < OPERATORS; k++) {
        const struct operator *o = &operators[k];
        put_operator(o);
        start_marks(&marks, PARTS, ROWS);
        put_marks(0, less_marks, ENDLESS_RUN_NO_WITNESS);
        put_marks(1, equal_marks, ENDLESS_RUN_NO_WITNESS);
        put_marks(2, o->marks, o->witness);
        expect_check(o->name, &rule, &plan, &marks, o->marks[0] == '1');
        expect_made(o->name, &rule, &plan, &marks, o->marks[0] == '1');
        put2(witness_bytes(&marks, 2), ENDLESS_RUN_NO_WITNESS - 1);
        expect_check("65534 is no witness", &rule, &plan, &marks, refusal(11, 2, 0));
        for (int other = 0; other < OPERATORS; other++) {
            if (other == k)
                continue;
            put_marks(2, operators[other].marks, o->witness);
            uint64_t answer =
                endless_run_check(rule.at, rule.len, plan.at, plan.len, marks.at, marks.len);
            expect("marks of another kind",
                   endless_run_is_refusal(answer) && endless_run_part(answer) == 2);
        }
    }
}

/* Windows by the header's constants: of y, which is 7 or 0, and of x, which is 9 or 1. */
static void windows(void)
{
    static const struct {
        const char *name, *marks;
        int channel, from, to;
    } of_week[] = {
        { "window over the end", "011001", 1, ENDLESS_RUN_WEEK - 1, 7 },
        { "window of the last minute", "000000", 1, ENDLESS_RUN_WEEK - 1, 0 },
        { "window of all but the last", "111111", 1, 0, ENDLESS_RUN_WEEK - 1 },
        { "window of one minute", "001011", 0, 1, 2 },
        { "window of all but one", "110100", 0, 2, 1 },
    };
    put_readings();
    for (int i = 0; i < 5; i++) {
        uint64_t verdict = of_week[i].marks[0] == '1';
        start_rule(&rule, 1, CHANNELS);
        *kind_byte(&rule, 0) = ENDLESS_RUN_KIND_WINDOW;
        memset(operand_bytes(&rule, 0), 0, 12);
        put_term(operand_bytes(&rule, 0), ENDLESS_RUN_FORM_READING, 0, of_week[i].channel);
        put2(operand_bytes(&rule, 0) + 6, (unsigned)of_week[i].from);
        put2(operand_bytes(&rule, 0) + 8, (unsigned)of_week[i].to);
        start_marks(&marks, 1, ROWS);
        put_marks(0, of_week[i].marks, ENDLESS_RUN_NO_WITNESS);
        expect_check(of_week[i].name, &rule, &plan, &marks, verdict);
        expect_made(of_week[i].name, &rule, &plan, &marks, verdict);
        put2(operand_bytes(&rule, 0) + 8, ENDLESS_RUN_WEEK);
        expect_check("no minute of the week", &rule, &plan, &marks, refusal(3, 0, 0));
        *kind_byte(&rule, 0) = ENDLESS_RUN_KIND_PINNED + 1;
        expect_check("no kind", &rule, &plan, &marks, refusal(2, 0, 0));
    }
    expect("version", ENDLESS_RUN_VERSION == 8 && ENDLESS_RUN_WEEK == 7 * 24 * 60);
}

/* Kind 14 by the header's constants, under tops and under none: of y, which is 7 or 0, and
   of x, which is 9 or 1. */
static void pinned(void)
{
    static const struct {
        const char *name, *marks;
        int channel;
        int32_t top;
    } of_tops[] = {
        { "pinned at the top", "100110", 1, 7 },     { "pinned above it", "100110", 1, 1 },
        { "never at the top", "000000", 1, 8 },      { "always at the top", "111111", 0, 1 },
        { "pinned on some rows", "110100", 0, 9 },   { "no top", "000000", 1, ENDLESS_RUN_NO_TOP },
        { "the highest top", "000000", 0, INT32_MAX },
    };
    for (int i = 0; i < 7; i++) {
        uint64_t verdict = of_tops[i].marks[0] == '1';
        put_readings();
        write_top(&plan, of_tops[i].channel, of_tops[i].top);
        start_rule(&rule, 1, CHANNELS);
        *kind_byte(&rule, 0) = ENDLESS_RUN_KIND_PINNED;
        memset(operand_bytes(&rule, 0), 0, 12);
        put_term(operand_bytes(&rule, 0), ENDLESS_RUN_FORM_READING, 0, of_tops[i].channel);
        start_marks(&marks, 1, ROWS);
        put_marks(0, of_tops[i].marks, ENDLESS_RUN_NO_WITNESS);
        expect_check(of_tops[i].name, &rule, &plan, &marks, verdict);
        expect_made(of_tops[i].name, &rule, &plan, &marks, verdict);
        put_term(operand_bytes(&rule, 0), ENDLESS_RUN_FORM_CONSTANT, 0, of_tops[i].channel);
        expect_check("pinned of a constant", &rule, &plan, &marks, refusal(3, 0, 0));
    }
}

/* ---- Shifts and findings ---- */

static int finding_on(int row)
{
    return endless_run_finding(
        endless_run_judge(rule.at, rule.len, plan.at, plan.len, 0, (uint64_t)row));
}

/* x < 5 read one position back, judged on each row: before the run on row 0. With a
   lead-in row its reading decides there. */
static void shifts(void)
{
    static const int shifted[ROWS] = { 0, 0, 0, 1, 0, 1 };
    start_rule(&rule, 1, CHANNELS);
    put_comparison(0, ENDLESS_RUN_KIND_LESS, 0, -1, 5);
    for (int lead_in = 5; lead_in >= 4; lead_in--) {
        put_readings_after(LEAD);
        write_reading(&plan, -1, 0, lead_in);
        for (int row = 0; row < ROWS; row++)
            expect("finding on a row after a lead-in row",
                   finding_on(row) == (row == 0 ? lead_in < 5 : shifted[row]));
    }
    put_readings();
    for (int row = 0; row < ROWS; row++)
        expect("finding on a row", finding_on(row) == shifted[row]);
    write_drift(&plan, ROWS - 1, 0, 1);
    uint64_t changes = endless_run_judge(rule.at, rule.len, plan.at, plan.len, 0, ROWS - 1);
    expect("finding: changes", endless_run_finding(changes) == ENDLESS_RUN_CHANGES);
    uint64_t absent = endless_run_judge(rule.at, rule.len, plan.at, plan.len, 0, ROWS);
    expect("finding: none in a refusal", endless_run_finding(absent) == -1 &&
                                             endless_run_number(absent) == ENDLESS_RUN_ABSENT);
    expect("finding: none in other numbers",
           endless_run_finding(3) == -1 && endless_run_finding(UINT32_MAX) == -1 &&
               endless_run_finding(UINT64_MAX) == -1);
}

/* ---- Sizes and lengths ---- */

static void start_all(int parts, int channels, int lead, int rows)
{
    start_rule(&rule, parts, channels);
    start_plan_with_lead(&plan, channels, lead, 0, rows);
    start_marks(&marks, parts, rows);
}

/* All parts are "0 < 0" and all marks 0: the largest sizes are accepted, and
   neither one more nor one byte more or less is. */
static void largest(void)
{
    static const int parts = ENDLESS_RUN_MOST_PARTS, channels = ENDLESS_RUN_MOST_CHANNELS;
    static const int lead = ENDLESS_RUN_MOST_LEAD, rows = ENDLESS_RUN_MOST_ROWS;
    start_all(parts, channels, lead, rows);
    expect("longest rule", rule.len == ENDLESS_RUN_LONGEST_RULE);
    expect("longest plan", plan.len == ENDLESS_RUN_LONGEST_PLAN);
    expect("longest marks", marks.len == ENDLESS_RUN_LONGEST_MARKS);
    expect_check("largest sizes", &rule, &plan, &marks, 0);
    start_all(parts + 1, channels, lead, rows);
    expect_check("one part more", &rule, &plan, &marks, refusal(1, 0, 0));
    start_all(parts, channels + 1, lead, rows);
    expect_check("one channel more", &rule, &plan, &marks, refusal(1, 0, 0));
    start_all(parts, channels, lead, rows + 1);
    expect_check("one row more", &rule, &plan, &marks, refusal(4, 0, 0));
    start_all(parts, channels, lead + 1, rows);
    expect_check("one lead-in row more", &rule, &plan, &marks, refusal(4, 0, 0));
    start_all(parts, channels, lead + 1, 1);
    expect_check("one lead-in row more, one row", &rule, &plan, &marks, refusal(4, 0, 0));
}

static void length_off_by(int lead, int more)
{
    int rows = ROWS;
    start_all(PARTS, CHANNELS, lead, ROWS);
    resize(&marks, ENDLESS_RUN_MARKS_LENGTH(1 + 2, rows > 0 ? rows : 1) + (size_t)more);
    expect_check("length of marks", &rule, &plan, &marks, more ? refusal(7, 0, 0) : 0);
    size_t of_plan = ENDLESS_RUN_PLAN_LENGTH(1 + 1, lead > 0 ? lead : 0, START + CYCLE);
    resize(&plan, of_plan + (size_t)more);
    expect_check("length of a plan", &rule, &plan, &marks, more ? refusal(4, 0, 0) : 0);
    resize(&rule, ENDLESS_RUN_RULE_LENGTH(1 + 2) + (size_t)more);
    expect_check("length of a rule", &rule, &plan, &marks, more ? refusal(1, 0, 0) : 0);
}

static void evaluated_once(void)
{
    int parts = PARTS, channels = CHANNELS, lead = LEAD, rows = ROWS;
    size_t of_rule = ENDLESS_RUN_RULE_LENGTH(parts++);
    size_t of_plan = ENDLESS_RUN_PLAN_LENGTH(channels++, lead++, rows++);
    size_t of_marks = ENDLESS_RUN_MARKS_LENGTH(parts++, rows++);
    expect("each size of a length is evaluated once", parts == PARTS + 2 &&
                                                          channels == CHANNELS + 1 &&
                                                          lead == LEAD + 1 && rows == ROWS + 2);
    expect("lengths of sizes counted up", of_rule == ENDLESS_RUN_RULE_LENGTH(PARTS) &&
                                       of_plan == ENDLESS_RUN_PLAN_LENGTH(CHANNELS, LEAD, ROWS) &&
                                       of_marks == ENDLESS_RUN_MARKS_LENGTH(PARTS + 1, ROWS + 1));
}

static void sizes(void)
{
    largest();
    evaluated_once();
    for (int lead = 0; lead <= ENDLESS_RUN_MOST_LEAD; lead++) {
        length_off_by(lead, 0);
        length_off_by(lead, 1);
        length_off_by(lead, -1);
    }
}

/* ---- Make ---- */

static uint64_t make(size_t len)
{
    resize(&marks, len);
    return endless_run_make(rule.at, rule.len, plan.at, plan.len, marks.at, marks.len);
}

static void maker(void)
{
    size_t len = ENDLESS_RUN_MARKS_LENGTH(1, ROWS);
    put_readings();
    start_rule(&rule, 1, CHANNELS);
    put_comparison(0, ENDLESS_RUN_KIND_LESS, 0, 0, 5);
    expect("made, and false at position 0", make(len) == 0);
    put_comparison(0, ENDLESS_RUN_KIND_LESS, 0, 0, 10);
    expect("made, and true at position 0", endless_run_verdict(make(len)) == 1);
    const uint8_t *witness = witness_bytes(&marks, 0);
    expect("no witness is asked for", witness[0] + 256 * witness[1] == ENDLESS_RUN_NO_WITNESS);
    expect("refused for the length",
           endless_run_number(make(len + 1)) == ENDLESS_RUN_BUFFER_LENGTH);
    write_drift(&plan, START, 0, 1);
    uint64_t none = make(len);
    expect("no table", endless_run_number(none) == ENDLESS_RUN_NO_TABLE &&
                           endless_run_row(none) == START && endless_run_verdict(none) == 0);
}

/* ---- Settle ---- */

static uint64_t settle(uint8_t *laid_out, size_t len)
{
    static uint8_t scratch[ENDLESS_RUN_SETTLE_SCRATCH_LENGTH];
    return endless_run_settle(rule.at, rule.len, plan.at, plan.len, laid_out, len, scratch,
                              sizeof scratch);
}

/* x falls from 1 on the cycle row, and part 0 is x < 1. */
static void settler(void)
{
    static uint8_t laid_out[ENDLESS_RUN_LAID_OUT_LENGTH];
    put_readings_after(LEAD);
    start_rule(&rule, 1, CHANNELS);
    put_comparison(0, ENDLESS_RUN_KIND_LESS, 0, 0, 1);
    expect("settled as it is", endless_run_passes(settle(laid_out, sizeof laid_out)) == 0);
    expect("as long as the plan", endless_run_plan_length(laid_out) == plan.len);
    write_drift(&plan, ROWS - 1, 0, -1);
    expect("settled", endless_run_passes(settle(laid_out, sizeof laid_out)) == 1);
    size_t longer = ENDLESS_RUN_PLAN_LENGTH(CHANNELS, LEAD, ROWS + CYCLE);
    expect("as long as its sizes say", endless_run_plan_length(laid_out) == longer);
    marks.len = ENDLESS_RUN_MARKS_LENGTH(1, ROWS + CYCLE);
    expect("made for the new plan", endless_run_make(rule.at, rule.len, laid_out, longer, marks.at,
                                                     marks.len) == 0);
    expect("refused for the length", endless_run_number(settle(laid_out, longer)) ==
                                         ENDLESS_RUN_BUFFER_LENGTH);
    put_comparison(0, ENDLESS_RUN_KIND_LESS, 0, 0, -1000);
    uint64_t none = settle(laid_out, sizeof laid_out);
    expect("no layout", endless_run_number(none) == ENDLESS_RUN_NO_LAYOUT &&
                            endless_run_passes(none) == -1);
    expect("passes: none in other numbers",
           endless_run_passes(255) == 255 && endless_run_passes(256) == -1 &&
               endless_run_passes(UINT32_MAX) == -1 && endless_run_passes(UINT64_MAX) == -1);
    expect("lengths of the buffers",
           sizeof laid_out == 16680 && ENDLESS_RUN_SETTLE_SCRATCH_LENGTH == 2048);
}

/* ---- Live ---- */

/* x < 5 in the last place, under a top of 9, by the header's constants. */
static void live(void)
{
    struct endless_run_live state;
    uint8_t tops[8] = { 9, 0, 0, 0, ENDLESS_RUN_NO_TOP }, row[8] = { 4 };
    uint64_t place = ENDLESS_RUN_PLACES - 1;
    start_rule(&rule, 1, CHANNELS);
    put_comparison(0, ENDLESS_RUN_KIND_LESS, 0, 0, 5);
    expect("size of a state", sizeof state == ENDLESS_RUN_LIVE_SIZE);
    expect("started", endless_run_live_start(&state, CHANNELS, tops, sizeof tops) == 0);
    expect("empty", endless_run_told(endless_run_live_answer(&state, place)) ==
                        ENDLESS_RUN_LIVE_EMPTY);
    expect("added", endless_run_live_add(&state, place, rule.at, rule.len) == 0);
    expect("not yet", endless_run_told(endless_run_live_answer(&state, place)) ==
                          ENDLESS_RUN_LIVE_NOT_YET);
    expect("a row", endless_run_live_row(&state, row, sizeof row) == 0);
    expect("true", endless_run_told(endless_run_live_answer(&state, place)) ==
                       ENDLESS_RUN_LIVE_TRUE);
    row[0] = 9;
    expect("a row", endless_run_live_row(&state, row, sizeof row) == 0);
    expect("false", endless_run_told(endless_run_live_answer(&state, place)) ==
                        ENDLESS_RUN_LIVE_FALSE);
    uint64_t none = endless_run_live_answer(&state, ENDLESS_RUN_PLACES);
    expect("no place", endless_run_number(none) == ENDLESS_RUN_PLACE_OR_ROW &&
                           endless_run_told(none) == -1);
    expect("told: none in other numbers", endless_run_told(3) == 3 && endless_run_told(4) == -1 &&
                                              endless_run_told(UINT32_MAX) == -1 &&
                                              endless_run_told(UINT64_MAX) == -1);
    put_comparison(0, ENDLESS_RUN_KIND_LESS, 0, 1, 5);
    none = endless_run_live_add(&state, 0, rule.at, rule.len);
    expect("ahead", endless_run_number(none) == ENDLESS_RUN_NOT_LIVE);
    expect("dropped", endless_run_live_drop(&state, place) == 0);
}

/* ---- Messages ---- */

/* A word of each refusal's text. */
enum { REFUSALS = 15 };
static const char *const words[REFUSALS + 1] = {
    "",           "rule's",    "1 to 14",  "operand", "plan's",  "channels",   "lead-in or start",
    "mark table", "mark byte", "equation", "passes",  "witness", "pinned",     "buffer",
    "no mark table", "no number of passes",
};

static bool says(const char *text, const char *word)
{
    return text != NULL && strstr(text, word) != NULL;
}

static bool same_text(const char *a, const char *b)
{
    return a != NULL && b != NULL && strcmp(a, b) == 0;
}

/* Texts that tell apart what they are for. */
static void messages(void)
{
    static const uint64_t no_answer[] = { 256, UINT32_MAX, (uint64_t)16 << 32, UINT64_MAX };
    static const uint64_t no_live_answer[] = { 256, UINT32_MAX, (uint64_t)18 << 32, UINT64_MAX };
    const char *texts[REFUSALS + 18];
    int count = 0;
    for (int number = 1; number <= REFUSALS; number++) {
        const char *text = endless_run_message(refusal(number, 0, 0));
        expect("message of a refusal", says(text, words[number]));
        expect("message by the number alone",
               same_text(text, endless_run_message(refusal(number, 63, 255))));
        expect("judge's message of a refusal",
               same_text(text, endless_run_judge_message(refusal(number, 63, 255))));
        expect("make's message of a refusal",
               same_text(text, endless_run_make_message(refusal(number, 63, 255))));
        expect("settle's message of a refusal",
               same_text(text, endless_run_settle_message(refusal(number, 63, 255))));
        texts[count++] = text;
    }
    const char *none = texts[count++] = endless_run_message(2); /* of judge alone */
    for (int number = 1; number <= ENDLESS_RUN_PLACE_OR_ROW; number++) {
        const char *text = endless_run_live_message(refusal(number, 0, 0));
        bool of_live = number == ENDLESS_RUN_PLAN_SIZES || number >= ENDLESS_RUN_NOT_LIVE;
        expect("live messages of a refusal",
               same_text(text, endless_run_message(refusal(number, 0, 0))) == !of_live &&
                   same_text(text, endless_run_live_message(refusal(number, 63, 255))) &&
                   same_text(text, endless_run_told_message(refusal(number, 63, 255))));
        if (of_live)
            texts[count++] = text;
    }
    expect("live messages: what is refused",
           says(endless_run_live_message(refusal(4, 0, 0)), "live state") &&
               says(endless_run_live_message(refusal(16, 0, 0)), "looks ahead") &&
               says(endless_run_live_message(refusal(17, 0, 0)), "no such place"));
    const char *const *checked = texts + count;
    texts[count++] = endless_run_message(0);
    texts[count++] = endless_run_message(1);
    const char *const *judged = texts + count;
    for (uint64_t finding = 0; finding <= 2; finding++)
        texts[count++] = endless_run_judge_message(finding);
    const char *const *made = texts + count;
    texts[count++] = endless_run_make_message(0);
    texts[count++] = endless_run_make_message(1);
    const char *const *settled = texts + count;
    texts[count++] = endless_run_settle_message(0);
    texts[count++] = endless_run_settle_message(1);
    const char *const *live = texts + count;
    texts[count++] = endless_run_live_message(0);
    for (uint64_t told = 0; told <= 3; told++)
        texts[count++] = endless_run_told_message(told);
    expect("message: no answer", says(none, "not an answer"));
    expect("message: false", says(checked[0], "accepted") && says(checked[0], "false"));
    expect("message: true", says(checked[1], "accepted") && says(checked[1], "true"));
    expect("message: always false", says(judged[0], "always false"));
    expect("message: always true", says(judged[1], "always true"));
    expect("message: changes", says(judged[2], "changes"));
    expect("message: made, false", says(made[0], "made") && says(made[0], "false"));
    expect("message: made, true", says(made[1], "made") && says(made[1], "true"));
    expect("make's message: no answer", same_text(none, endless_run_make_message(2)));
    expect("message: of settle alone", same_text(none, endless_run_message(3)) &&
                                           same_text(none, endless_run_judge_message(3)) &&
                                           same_text(none, endless_run_make_message(3)));
    expect("message: settled, a copy", says(settled[0], "settled") && says(settled[0], "copied"));
    expect("message: settled", says(settled[1], "settled") && says(settled[1], "passes"));
    expect("message: most passes", same_text(settled[1], endless_run_settle_message(255)));
    expect("message: done", says(live[0], "done"));
    expect("message: told", says(live[1], "false") && says(live[2], "true") &&
                                says(live[3], "not yet") && says(live[4], "empty"));
    expect("live messages: no answer", same_text(none, endless_run_live_message(1)) &&
                                           same_text(none, endless_run_told_message(4)));
    for (int i = 0; i < count; i++)
        for (int k = 0; k < i; k++)
            expect("two messages", texts[i] != NULL && !same_text(texts[i], texts[k]));
    for (size_t i = 0; i < sizeof no_answer / sizeof no_answer[0]; i++)
        expect("message of no answer",
               same_text(none, endless_run_message(no_answer[i])) &&
                   same_text(none, endless_run_judge_message(no_answer[i])) &&
                   same_text(none, endless_run_make_message(no_answer[i])) &&
                   same_text(none, endless_run_settle_message(no_answer[i])));
    for (size_t i = 0; i < sizeof no_live_answer / sizeof no_live_answer[0]; i++)
        expect("live messages: none",
               same_text(none, endless_run_live_message(no_live_answer[i])) &&
                   same_text(none, endless_run_told_message(no_live_answer[i])));
}

void test_header(void)
{
    kinds();
    windows();
    pinned();
    shifts();
    sizes();
    maker();
    settler();
    live();
    messages();
}
