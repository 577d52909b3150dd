/*
 * random_live.c: random lists of live calls against the second evaluator.
 *
 * A list begins with an empty state, and goes on with adds, drops, rows and starts, of which
 * some are refused. After each call all places are asked. Most lists have some forty calls;
 * a few have 100,000 rows. At the end of a list the rows that each rule has seen are laid out
 * as a plan, which is settled and has its table made.
 *
 * As in random.c what comes about is counted, and a count below its floor is a failure.
 */
#include "cases.h"
#include "dice.h"
#include "expect.h"

#include "../../include/endless_run.h"

#include <inttypes.h>
#include <stdio.h>

enum { LIST_OF = 20, LONG_ROWS = 100000, LONG_LISTS = 3 };

/* ---- Counts ---- */

/* The reasons of refusals 4, 16 and 17, each met without the others of the same call. */
enum reason {
    FEW_CHANNELS, MANY_CHANNELS, WIDE_CHANNELS, TOPS_LENGTH, NEGATIVE_TOP,
    AHEAD_X, AHEAD_U, AHEAD_R, AHEAD_LEFT, AHEAD_RIGHT, AHEAD_WINDOW, AHEAD_PINNED, OTHER_V,
    ADD_ABOVE, ADD_WIDE, ADD_TAKEN, DROP_ABOVE, DROP_EMPTY, ROW_LENGTH, ROW_NULL,
    REASONS
};
static const char *const reason_names[REASONS] = {
    "4, V 0",          "4, V above 8",   "4, V of more bits",   "4, tops of a wrong length",
    "4, negative top", "16, X",          "16, U",               "16, R",
    "16, left term",   "16, right term", "16, window",          "16, kind 14",
    "16, another V",   "17, add above 3", "17, add, wide place", "17, add, taken",
    "17, drop above 3", "17, drop, empty", "17, row of a wrong length", "17, row, null",
};

static struct {
    unsigned long told[PLACES][4];
    unsigned long kinds[KINDS][2];   /* told so, and the last part is of the kind */
    unsigned long refused[18], reasons[REASONS];
    unsigned long unnamed;           /* 16 for a part from which the whole rule is not made */
    unsigned long no_place[2];       /* 1 to 3, and 16, where the place would be refused too */
    unsigned long older[2];          /* told so, a shift would reach a row before the add */
    unsigned long first_row[KINDS];  /* position 0 of Y, Z, S or T with rows before the add */
    unsigned long again;             /* a rule added again in the place that it had */
    unsigned long not_yet;           /* a place not yet, another one told */
    unsigned long pinned[2];         /* told so, an atom of the rule meets a pinned reading */
    unsigned long negative, extreme; /* rows with such readings */
    unsigned long no_rules;          /* rows with all places empty */
    unsigned long restarted[2];      /* starts on a state in use: done, refused */
    unsigned long largest;           /* told, a rule of 64 parts */
    unsigned long long_rows;         /* lists of as many rows as LONG_ROWS */
} counts;

/* ---- What is told ---- */

static int deepest_shift(const struct rule *rule)
{
    int deepest = 0;
    for (int part = 0; part < rule->parts; part++) {
        const struct formula *f = &rule->part[part];
        if (is_atom(f->kind) && f->left.is_reading && f->left.shift < deepest)
            deepest = f->left.shift;
        if (is_atom(f->kind) && f->right.is_reading && f->right.shift < deepest)
            deepest = f->right.shift;
    }
    return -deepest;
}

static bool meets_pin(const struct live *live, const struct watched *w, int position)
{
    for (int part = 0; part < w->rule.parts; part++) {
        const struct formula *f = &w->rule.part[part];
        int at = position + f->left.shift;
        if (is_atom(f->kind) && f->left.is_reading && at >= 0) {
            int32_t top = live->top[f->left.number];
            if (top != 0 && live->row[w->before + at][f->left.number] >= top)
                return true;
        }
    }
    return false;
}

static void count_truth(const struct live *live, const struct watched *w, uint64_t told)
{
    int position = live->rows - w->before - 1;
    enum kind kind = w->rule.part[w->rule.parts - 1].kind;
    int back = deepest_shift(&w->rule) - position; /* so many rows before position 0 */
    counts.kinds[kind][told]++;
    counts.older[told] += back > 0 && w->before >= back;
    counts.first_row[kind] += position == 0 && w->before > 0;
    counts.pinned[told] += meets_pin(live, w, position);
    counts.largest += w->rule.parts == MOST_PARTS;
}

static void count_places(void)
{
    const struct live *live = live_so_far();
    bool any_told = false, any_not_yet = false;
    for (int place = 0; place < PLACES; place++) {
        const struct watched *w = &live->place[place];
        uint64_t told = !w->present ? EMPTY
                        : w->before == live->rows
                            ? NOT_YET
                            : w->at[w->rule.parts - 1][live->rows - w->before - 1];
        counts.told[place][told]++;
        any_told |= told <= TOLD_TRUE;
        any_not_yet |= told == NOT_YET;
        if (told <= TOLD_TRUE)
            count_truth(live, w, told);
    }
    counts.not_yet += any_told && any_not_yet;
}

/* ---- Start ---- */

static uint8_t tops[4 * MOST_CHANNELS + 8], readings[4 * MOST_CHANNELS + 8];

static bool has_rules(void)
{
    for (int place = 0; place < PLACES; place++)
        if (live_so_far()->place[place].present)
            return true;
    return false;
}

static void start(const char *name, uint64_t channels, size_t len)
{
    static struct live trial;
    struct slice bytes = { len > 0 ? tops : NULL, len };
    bool in_use = live_so_far()->rows > 0 && has_rules();
    uint64_t answer = second_live_start(&trial, channels, bytes);
    expect_live_start(name, channels, bytes, answer);
    counts.refused[endless_run_number(answer)]++;
    counts.restarted[1] += answer != 0 && in_use;
}

static void start_right(const char *name)
{
    make_live_case();
    for (int channel = 0; channel < live_case.channels; channel++)
        put4(tops + 4 * channel, live_case.top[channel]);
    start(name, (uint64_t)live_case.channels, 4 * (size_t)live_case.channels);
}

static void start_again(const char *name)
{
    counts.restarted[0] += live_so_far()->rows > 0 && has_rules();
    start_right(name);
}

static void start_refused(const char *name)
{
    uint64_t v = (uint64_t)live_case.channels, wide = v + ((uint64_t)1 << between(8, 63));
    size_t len = 4 * (size_t)v;
    enum reason reason = (enum reason)between(FEW_CHANNELS, NEGATIVE_TOP);
    for (int channel = 0; channel < MOST_CHANNELS; channel++)
        put4(tops + 4 * channel, live_case.top[channel % live_case.channels]);
    switch (reason) {
    case FEW_CHANNELS:
        start(name, 0, chance(50) ? 0 : len);
        break;
    case MANY_CHANNELS:
        start(name, 9, 36);
        break;
    case WIDE_CHANNELS:
        start(name, wide, len);
        break;
    case TOPS_LENGTH:
        start(name, v, chance(30) ? 0 : chance(50) ? len - 1 : len + (chance(50) ? 1 : 4));
        break;
    default:
        put4(tops + 4 * below((int)v), chance(50) ? -1 : INT32_MIN);
        start(name, v, len);
    }
    counts.reasons[reason]++;
}

/* ---- Add and drop ---- */

static uint64_t wide_place(void)
{
    return (uint64_t)below(PLACES) + ((uint64_t)1 << between(8, 63));
}

static uint64_t some_place(void)
{
    return chance(90) ? (uint64_t)below(PLACES) : chance(50) ? 4 : wide_place();
}

/* Leave the parts from which the whole rule is made; the others become 0 < 0. */
static void cut_to_reached(struct rule *r)
{
    bool reached[MOST_PARTS] = { false };
    reached[r->parts - 1] = true;
    for (int part = r->parts - 1; part >= 0; part--) {
        const struct formula *f = &r->part[part];
        if (reached[part] && !is_atom(f->kind)) {
            reached[f->a] = true;
            if (names_two_parts(f->kind))
                reached[f->b] = true;
        }
        if (!reached[part])
            r->part[part] = (struct formula){ .kind = LESS };
    }
}

/* The one thing for which a rule is refused with 16, where it is one. */
static void count_not_live(struct rule r)
{
    unsigned long seen[REASONS] = { 0 };
    int many = 0;
    enum reason reason = OTHER_V;
    seen[OTHER_V] = r.channels != live_case.channels;
    for (int part = 0; part < r.parts; part++) {
        const struct formula *f = &r.part[part];
        bool left = is_atom(f->kind) && f->left.is_reading && f->left.shift > 0;
        seen[AHEAD_X] += f->kind == NEXT;
        seen[AHEAD_U] += f->kind == UNTIL;
        seen[AHEAD_R] += f->kind == RELEASE;
        seen[AHEAD_WINDOW] += left && f->kind == WINDOW;
        seen[AHEAD_PINNED] += left && f->kind == PINNED;
        seen[AHEAD_LEFT] += left && f->kind != WINDOW && f->kind != PINNED;
        seen[AHEAD_RIGHT] += is_atom(f->kind) && f->right.is_reading && f->right.shift > 0;
    }
    for (int i = AHEAD_X; i <= OTHER_V; i++) {
        many += seen[i] > 0;
        reason = seen[i] > 0 ? (enum reason)i : reason;
    }
    counts.reasons[reason] += many == 1;
    cut_to_reached(&r);
    counts.unnamed += !looks_ahead(&r) && seen[OTHER_V] == 0;
}

static void count_add(uint64_t place, uint64_t answer)
{
    struct rule r;
    bool no_place = place >= PLACES || live_so_far()->place[place].present;
    unsigned number = endless_run_number(answer);
    counts.refused[number]++;
    counts.no_place[0] += number >= 1 && number <= 3 && no_place;
    counts.no_place[1] += number == ENDLESS_RUN_NOT_LIVE && no_place;
    if (decode_rule(slice_of(&case_rule), &r) == 0 && number == ENDLESS_RUN_NOT_LIVE)
        count_not_live(r);
    if (number != ENDLESS_RUN_PLACE_OR_ROW)
        return;
    counts.reasons[ADD_ABOVE] += place >= PLACES && place < 256;
    counts.reasons[ADD_WIDE] += place >= 256;
    counts.reasons[ADD_TAKEN] += place < PLACES;
}

static uint64_t due_of_add(uint64_t place)
{
    struct rule r;
    const struct live *live = live_so_far();
    uint64_t refused = decode_rule(slice_of(&case_rule), &r);
    if (refused)
        return refused;
    if (looks_ahead(&r) || r.channels != live->channels)
        return refusal(16, 0, 0);
    return place >= PLACES || live->place[place].present ? refusal(17, 0, 0) : 0;
}

static void add(const char *name, uint64_t place)
{
    uint64_t answer = due_of_add(place);
    count_add(place, answer);
    if (!expect_live_add(name, place, slice_of(&case_rule), answer) && failed <= 3)
        print_sheet("rule", &case_rule);
}

static int some_parts(void)
{
    int size = below(100);
    if (size >= 96)
        return chance(50) ? MOST_PARTS : between(1, MOST_PARTS);
    return size < 70 ? between(1, 8) : between(1, 20);
}

static void add_some(const char *name)
{
    make_live_rule(some_parts());
    if (chance(20))
        spoil_live_rule(16);
    if (chance(15))
        spoil_live_rule(between(1, 3));
    add(name, some_place());
}

static void drop(const char *name, uint64_t place)
{
    bool no_rule = place >= PLACES || !live_so_far()->place[place].present;
    counts.refused[no_rule ? 17 : 0]++;
    counts.reasons[DROP_ABOVE] += place >= PLACES;
    counts.reasons[DROP_EMPTY] += no_rule && place < PLACES;
    expect_live_drop(name, place, no_rule ? refusal(17, 0, 0) : 0);
}

static void row(const char *name);

/* Dropped, and the same rule added again, at once or a row later. */
static void add_again(const char *name)
{
    int place = below(PLACES);
    const struct watched *w = &live_so_far()->place[place];
    if (!w->present)
        return;
    start_rule(&case_rule, w->rule.parts, w->rule.channels);
    for (int part = 0; part < w->rule.parts; part++)
        write_formula(&case_rule, part, &w->rule.part[part]);
    drop(name, (uint64_t)place);
    if (chance(50))
        row(name);
    add(name, (uint64_t)place);
    counts.again++;
}

/* ---- Rows ---- */

static struct slice some_row(void)
{
    for (int channel = 0; channel < live_case.channels; channel++)
        put4(readings + 4 * channel, live_reading(channel));
    return (struct slice){ readings, 4 * (size_t)live_case.channels };
}

static void count_row(void)
{
    const struct live *live = live_so_far();
    bool negative = false, extreme = false;
    for (int channel = 0; channel < live->channels; channel++) {
        int32_t n = live->row[live->rows - 1][channel];
        negative |= n < 0;
        extreme |= n < INT32_MIN + 4 || n > INT32_MAX - 4;
    }
    counts.negative += negative;
    counts.extreme += extreme;
    counts.no_rules += !has_rules();
}

static void row(const char *name)
{
    if (expect_live_row(name, some_row(), 0))
        count_row();
}

static void row_refused(const char *name)
{
    struct slice bytes = some_row();
    size_t v = bytes.len, wrong[] = { 0, v - 1, v + 1, v - 4, v + 4, v / 4 };
    bytes.len = wrong[below(6)];
    if (bytes.len == 0)
        bytes.at = NULL;
    counts.reasons[bytes.len == 0 ? ROW_NULL : ROW_LENGTH]++;
    counts.refused[17]++;
    expect_live_row(name, bytes, refusal(17, 0, 0));
}

/* ---- Lists ---- */

static void call(const char *name)
{
    int die = below(100);
    if (die < 53)
        row(name);
    else if (die < 59)
        row_refused(name);
    else if (die < 84)
        add_some(name);
    else if (die < 90)
        drop(name, some_place());
    else if (die < 95)
        add_again(name);
    else if (die < 99)
        start_refused(name);
    else
        start_again(name);
}

static void try_list(const char *name)
{
    int calls = chance(90) ? between(10, 60) : between(60, 400);
    scribble_state();
    start_right(name);
    for (int i = 0; i < calls; i++) {
        call(name);
        count_places();
    }
    for (int place = 0; place < PLACES; place++)
        expect_as_plan(name, place);
}

/* All places full, of one rule exchanged now and then. */
static void try_long_list(const char *name, int parts)
{
    bool right = true;
    start_right(name);
    for (int place = 0; place < PLACES; place++) {
        make_live_rule(parts);
        add(name, (uint64_t)place);
    }
    for (int i = 0; i < LONG_ROWS; i++) {
        right &= takes_row(some_row());
        if (i % 30011 != 30010)
            continue;
        drop(name, (uint64_t)below(3));
        row_refused(name);
        make_live_rule(parts);
        for (int place = 0; place < PLACES; place++)
            if (!live_so_far()->place[place].present)
                add(name, (uint64_t)place);
    }
    expect(name, right);
    counts.long_rows += live_so_far()->rows >= LONG_ROWS;
}

/* ---- Floors ---- */

static void print_told(unsigned long lists)
{
    static const char *const names[] = { "false", "true", "not yet", "empty" };
    char name[64];
    for (int told = 0; told < 4; told++)
        for (int place = 0; place < PLACES; place++) {
            snprintf(name, sizeof name, "live, place %d tells %s", place, names[told]);
            hold_to_floor(name, counts.told[place][told], lists, 10000);
        }
    for (int kind = LESS; kind <= PINNED; kind++)
        for (int told = 0; told < 2 && (kind < NEXT || kind > RELEASE); told++) {
            snprintf(name, sizeof name, "live, kind %s tells %s", kind_names[kind], names[told]);
            hold_to_floor(name, counts.kinds[kind][told], lists, 1000);
        }
    for (int kind = YESTERDAY; kind <= TRIGGER; kind++) {
        snprintf(name, sizeof name, "live, kind %s at 0, rows before", kind_names[kind]);
        hold_to_floor(name, counts.first_row[kind], lists, 500);
    }
    hold_each("live, a shift before the add, told", counts.older, 2, lists, 2000);
    hold_each("live, a reading is pinned, told", counts.pinned, 2, lists, 10000);
}

static void print_live_counts(unsigned long lists)
{
    static const int numbers[] = { 1, 2, 3, 4, 16, 17 };
    char name[64];
    print_told(lists);
    for (int i = 0; i < 6; i++) {
        snprintf(name, sizeof name, "live, refused %d", numbers[i]);
        hold_to_floor(name, counts.refused[numbers[i]], lists, 2000);
    }
    for (int i = 0; i < REASONS; i++) {
        snprintf(name, sizeof name, "live, refused %s", reason_names[i]);
        hold_to_floor(name, counts.reasons[i], lists, 200);
    }
    hold_to_floor("live, refused 16, a part that is not reached", counts.unnamed, lists, 500);
    hold_to_floor("live, refused 1 to 3, and no place", counts.no_place[0], lists, 500);
    hold_to_floor("live, refused 16, and no place", counts.no_place[1], lists, 500);
    hold_to_floor("live, the same rule added again", counts.again, lists, 2000);
    hold_to_floor("live, not yet beside one that tells", counts.not_yet, lists, 5000);
    hold_to_floor("live, a row with a negative reading", counts.negative, lists, 10000);
    hold_to_floor("live, a row with an end of 32 bits", counts.extreme, lists, 5000);
    hold_to_floor("live, a row without a rule", counts.no_rules, lists, 2000);
    hold_to_floor("live, started while in use", counts.restarted[0], lists, 500);
    hold_to_floor("live, refused a start while in use", counts.restarted[1], lists, 1000);
    hold_to_floor("live, a rule of 64 parts tells", counts.largest, lists, 2000);
    printf("  live, lists of %d rows: %lu\n", LONG_ROWS, counts.long_rows);
    expect("live, long lists", counts.long_rows >= LONG_LISTS);
}

void test_random_live(uint64_t seed, unsigned long cases)
{
    static const int parts[LONG_LISTS] = { 4, 12, MOST_PARTS };
    unsigned long lists = cases / LIST_OF + 1;
    char name[64];
    printf("random lists of live calls: seed %" PRIu64 ", %lu lists\n", seed, lists);
    for (unsigned long i = 0; i < lists + LONG_LISTS; i++) {
        seed_dice(seed * 0xD1342543DE82EF95u + i); /* so that a list can be had alone */
        snprintf(name, sizeof name, "live list %lu of seed %" PRIu64, i, seed);
        if (i < lists)
            try_list(name);
        else
            try_long_list(name, parts[i - lists]);
    }
    print_live_counts(lists);
}
