/*
 * bench.c: times endless_run_check, endless_run_make, endless_run_settle and the live
 * functions, each beside C of the same work.
 *
 * The check is timed beside C written for speed (plain_check.c, plain_sweeps.c), the
 * maker beside plain C (plain_make.c), and the settler beside three: C written for speed
 * (fast_settle.c), the same within the exported one's limits, with no array beside the
 * scratch (small_settle.c), and plain C that begins anew with each number of passes
 * (plain_settle.c). On windows the check is timed beside a second C as well, the first one
 * but for its windows: plain C that goes through their rows one by one, with a remainder for
 * each window and row, as the exported check has too (plain_window_rows.c), where C written
 * for speed lays out the remainders of a channel once for all its windows. All tables are accepted ones:
 * acceptance is the slowest answer, as nothing is left out. The makers make that same
 * table. The settlers have cases of their own: of full size, that settle only when nearly
 * 256 rows are laid out, most by their last part and one by each part in turn, and a small
 * one.
 *
 * The first figures are of ten cases of full size, 64 parts on 256 rows of 8 channels,
 * one of them with 4 lead-in rows and one under tops. The others show how the time of the
 * check grows with the rows and with the parts, on rules of one mix throughout: where it
 * grows as parts times rows and no faster, the time for each part and row does not rise.
 * At small sizes it is larger by what is done once for each part or once for the plan.
 *
 * Live, a call is a row and the answers of the four places, beside plain C (plain_live.c).
 * The cases have four rules of 64 parts on 8 channels. To show that the time does not grow
 * with the rows, one of them is timed on a state that has had some rows already; each call
 * then takes a copy of that state first, in both.
 *
 * The two functions of a pair are called on the same bytes, in turn, many times in
 * each round, and all pairs that are shown together have their turn in each round.
 * The times shown are the medians of the rounds. The ratio is the median of the
 * rounds' ratios: what slows the machine down for a while slows both, and leaves
 * their ratio as it is. Before that the three checks must give the answer of the second
 * evaluator, and they must have accepted; both makers must give that answer and make
 * the second evaluator's table, byte for byte; and so with the four settlers' answers
 * and all bytes of both buffers. The checks must also give the second evaluator's answer
 * on tables that are refused, which are not timed: of each kind that can fail to close, a
 * part that does not and that has a wrong mark too. Both live states must tell what the second
 * evaluator tells, after each of some hundred rows, and for the growth after each of them.
 *
 * Two copies of the same code have been seen to differ by a quarter where a call is
 * short, by where the linker puts them: a ratio from 0.8 to 1.25 there is no
 * difference.
 */
#define _POSIX_C_SOURCE 199309L
#include "../include/endless_run.h"
#include "cases.h"
#include "fast_settle.h"
#include "live_cases.h"
#include "plain_check.h"
#include "plain_live.h"
#include "plain_make.h"
#include "plain_settle.h"
#include "small_settle.h"

#include <inttypes.h>
#include <stdio.h>
#include <stdlib.h>
#include <string.h>
#include <time.h>

enum { ROUNDS = 251, ROUND_NS = 500000 };

static struct sheet made;
static uint8_t laid_out[ENDLESS_RUN_LAID_OUT_LENGTH], scratch[ENDLESS_RUN_SETTLE_SCRATCH_LENGTH];

/* ---- The nine functions of a rule and a plan ---- */

typedef uint64_t work(const struct sheets *s);

static uint64_t check_in_c(const struct sheets *s)
{
    return plain_check(s->rule.at, s->rule.len, s->plan.at, s->plan.len, s->marks.at,
                       s->marks.len);
}

static uint64_t check_in_c_by_rows(const struct sheets *s)
{
    return plain_check_by_rows(s->rule.at, s->rule.len, s->plan.at, s->plan.len, s->marks.at,
                               s->marks.len);
}

static uint64_t check(const struct sheets *s)
{
    return endless_run_check(s->rule.at, s->rule.len, s->plan.at, s->plan.len, s->marks.at,
                             s->marks.len);
}

static uint64_t make_in_c(const struct sheets *s)
{
    return plain_make(s->rule.at, s->rule.len, s->plan.at, s->plan.len, made.at, s->marks.len);
}

static uint64_t make(const struct sheets *s)
{
    return endless_run_make(s->rule.at, s->rule.len, s->plan.at, s->plan.len, made.at,
                            s->marks.len);
}

static uint64_t settle_in_fast_c(const struct sheets *s)
{
    return fast_settle(s->rule.at, s->rule.len, s->plan.at, s->plan.len, laid_out, sizeof laid_out,
                       scratch, sizeof scratch);
}

static uint64_t settle_in_small_c(const struct sheets *s)
{
    return small_settle(s->rule.at, s->rule.len, s->plan.at, s->plan.len, laid_out,
                        sizeof laid_out, scratch, sizeof scratch);
}

static uint64_t settle_in_plain_c(const struct sheets *s)
{
    return plain_settle(s->rule.at, s->rule.len, s->plan.at, s->plan.len, laid_out,
                        sizeof laid_out, scratch, sizeof scratch);
}

static uint64_t settle(const struct sheets *s)
{
    return endless_run_settle(s->rule.at, s->rule.len, s->plan.at, s->plan.len, laid_out,
                              sizeof laid_out, scratch, sizeof scratch);
}

/* ---- Timing ---- */

/* A function in C and the exported one, on the same bytes, and what the rounds had:
   nanoseconds of a call, and the exported one's as a multiple of the other's. */
struct pair {
    const struct sheets *sheets;
    work *in_c, *exported;
    int c_calls, exported_calls;
    double c_ns[ROUNDS], exported_ns[ROUNDS], ratio[ROUNDS];
};

static double now_ns(void)
{
    struct timespec t;
    clock_gettime(CLOCK_MONOTONIC, &t);
    return 1e9 * (double)t.tv_sec + (double)t.tv_nsec;
}

/* The time of one call, as the mean of some calls in a row. */
static double time_calls(work *work, const struct sheets *sheets, int calls)
{
    volatile uint64_t sink = 0;
    double begin = now_ns();
    for (int i = 0; i < calls; i++)
        sink += work(sheets);
    (void)sink;
    return (now_ns() - begin) / calls;
}

static int calls_in_a_round(work *work, const struct sheets *sheets)
{
    double ns = time_calls(work, sheets, 3);
    return ns < ROUND_NS ? 1 + (int)(ROUND_NS / ns) : 1;
}

static void start_pair(struct pair *pair, const struct sheets *sheets, work *in_c, work *exported)
{
    pair->sheets = sheets;
    pair->in_c = in_c;
    pair->exported = exported;
    pair->c_calls = calls_in_a_round(in_c, sheets);
    pair->exported_calls = calls_in_a_round(exported, sheets);
}

static int compare_numbers(const void *left, const void *right)
{
    double a = *(const double *)left, b = *(const double *)right;
    return (a > b) - (a < b);
}

static void sort(double *numbers)
{
    qsort(numbers, ROUNDS, sizeof numbers[0], compare_numbers);
}

static double median(const double *sorted)
{
    return sorted[ROUNDS / 2];
}

static void time_pairs(struct pair *pairs, int count)
{
    for (int round = 0; round < ROUNDS; round++)
        for (struct pair *p = pairs; p < pairs + count; p++) {
            p->c_ns[round] = time_calls(p->in_c, p->sheets, p->c_calls);
            p->exported_ns[round] = time_calls(p->exported, p->sheets, p->exported_calls);
            p->ratio[round] = p->exported_ns[round] / p->c_ns[round];
        }
    for (struct pair *p = pairs; p < pairs + count; p++) {
        sort(p->c_ns);
        sort(p->exported_ns);
        sort(p->ratio);
    }
}

/* ---- Agreement ---- */

/* The function gives the answer that is due. */
static bool answer_is(uint64_t due, const char *name, const char *function, uint64_t answer)
{
    if (answer == due)
        return true;
    printf("%s: due %" PRIx64 ", %s %" PRIx64 " (hex)\n", name, due, function, answer);
    return false;
}

/* The maker's answer; no answer at all where it does not make the second evaluator's
   table. */
static uint64_t answer_if_made(work *maker, const struct sheets *s)
{
    memset(made.at, 0xA5, sizeof made.at);
    uint64_t answer = maker(s);
    return memcmp(made.at, s->marks.at, s->marks.len) == 0 ? answer : UINT64_MAX;
}

static bool checks_give(uint64_t due, const char *name, const struct sheets *s)
{
    return answer_is(due, name, "check, fast C", check_in_c(s)) &&
           answer_is(due, name, "check, row by row C", check_in_c_by_rows(s)) &&
           answer_is(due, name, "check, exported", check(s));
}

/* All checks accept the table, and both makers make it, with the verdict of the
   second evaluator. */
static bool all_agree(const char *name, const struct sheets *s)
{
    uint64_t due = second_check(slice_of(&s->rule), slice_of(&s->plan), slice_of(&s->marks));
    if (due > 1) {
        printf("%s: refused\n", name);
        return false;
    }
    return checks_give(due, name, s) &&
           answer_is(due, name, "make, plain C", answer_if_made(make_in_c, s)) &&
           answer_is(due, name, "make, exported", answer_if_made(make, s));
}

/* All checks refuse the table with 10, as the second evaluator does. */
static bool all_refuse(enum kind kind)
{
    static struct sheets s;
    char name[64];
    build_open_case(&s, kind);
    uint64_t due = second_check(slice_of(&s.rule), slice_of(&s.plan), slice_of(&s.marks));
    snprintf(name, sizeof name, "open part of kind %d", (int)kind);
    if (endless_run_number(due) != ENDLESS_RUN_CLOSING) {
        printf("%s: not refused with 10\n", name);
        return false;
    }
    return checks_give(due, name, &s);
}

static bool refusals_agree(void)
{
    static const enum kind kinds[] = { LESS,           EQUAL, WINDOW, PINNED, YESTERDAY,
                                       WEAK_YESTERDAY, SINCE, TRIGGER };
    bool right = true;
    for (size_t i = 0; i < sizeof kinds / sizeof kinds[0]; i++)
        right &= all_refuse(kinds[i]);
    return right;
}

static void fill_buffers(void)
{
    memset(laid_out, 0xA5, sizeof laid_out);
    memset(scratch, 0xA5, sizeof scratch);
}

/* The bytes that the second evaluator leaves in the two buffers. */
static uint8_t due_laid_out[sizeof laid_out], due_scratch[sizeof scratch];

/* The settler's answer; no answer at all where it does not leave the bytes due. */
static uint64_t answer_if_laid_out(work *settler, const struct sheets *s)
{
    fill_buffers();
    uint64_t answer = settler(s);
    return memcmp(laid_out, due_laid_out, sizeof laid_out) == 0 &&
                   memcmp(scratch, due_scratch, sizeof scratch) == 0
               ? answer
               : UINT64_MAX;
}

/* All settlers lay out what the second evaluator does. Gives its number of passes; -1
   where they do not. */
static int settlers_agree(const char *name, const struct sheets *s)
{
    static struct truth space;
    fill_buffers();
    uint64_t passes = second_settle(&space, slice_of(&s->rule), slice_of(&s->plan), laid_out,
                                    sizeof laid_out, scratch, sizeof scratch);
    memcpy(due_laid_out, laid_out, sizeof due_laid_out);
    memcpy(due_scratch, scratch, sizeof due_scratch);
    if (endless_run_is_refusal(passes)) {
        printf("%s: refused\n", name);
        return -1;
    }
    bool agree =
        answer_is(passes, name, "settle, fast C", answer_if_laid_out(settle_in_fast_c, s)) &&
        answer_is(passes, name, "settle, small C", answer_if_laid_out(settle_in_small_c, s)) &&
        answer_is(passes, name, "settle, plain C", answer_if_laid_out(settle_in_plain_c, s)) &&
        answer_is(passes, name, "settle, exported", answer_if_laid_out(settle, s));
    return agree ? (int)passes : -1;
}

/* ---- The cases ---- */

static void print_times(const struct pair *p)
{
    printf(" %9.1f %9.1f %7.2f", median(p->c_ns) / 1000, median(p->exported_ns) / 1000,
           median(p->ratio));
}

static bool run_case(const char *name, builder *build)
{
    static struct sheets sheets;
    static struct pair pairs[2];
    build_case(&sheets, build, 64, 256);
    if (!all_agree(name, &sheets))
        return false;
    start_pair(&pairs[0], &sheets, check_in_c, check);
    start_pair(&pairs[1], &sheets, make_in_c, make);
    time_pairs(pairs, 2);
    printf("%-36s", name);
    print_times(&pairs[0]);
    print_times(&pairs[1]);
    printf("\n");
    return true;
}

static bool run_cases(void)
{
    bool right = true;
    printf("64 parts, 256 rows, 8 channels, accepted; microseconds a call, median of %d rounds\n",
           ROUNDS);
    printf("%-36s %9s %9s %7s %9s %9s %7s\n", "", "check", "", "", "make", "", "");
    printf("%-36s %9s %9s %7s %9s %9s %7s\n", "", "fast C", "exported", "ratio", "plain C",
           "exported", "ratio");
    right &= run_case("a  comparisons, no drift", no_drift);
    right &= run_case("b  comparisons, all shifts", all_shifts);
    right &= run_case("c  comparisons drifting apart", drifting_apart);
    right &= run_case("d  equalities stepped over", stepped_over);
    right &= run_case("e  all temporal", all_temporal);
    right &= run_case("f  255 start rows", many_start_rows);
    right &= run_case("g  all kinds", all_kinds);
    right &= run_case("h  all shifts, 4 lead-in rows", after_lead_in);
    right &= run_case("m  windows of drifting clocks", drifting_clocks);
    right &= run_case("o  tops reached late", late_tops);
    return right;
}

/* The check of case m beside the second C. */
static bool run_window_rows(void)
{
    static struct sheets sheets;
    static struct pair pair;
    const char *name = "m  windows of drifting clocks";
    build_case(&sheets, drifting_clocks, 64, 256);
    if (!all_agree(name, &sheets))
        return false;
    start_pair(&pair, &sheets, check_in_c_by_rows, check);
    time_pairs(&pair, 1);
    printf("\nWindows of drifting clocks: check, against C that goes through the rows\n");
    printf("%-33s %12s %9s %7s\n%-36s", "", "row by row C", "exported", "ratio", name);
    print_times(&pair);
    printf("\n");
    return true;
}

/* The exported settler is timed in all three pairs. The time shown is that beside fast C. */
static bool run_late_case(const char *name, late_builder *build)
{
    static work *const in_c[3] = { settle_in_fast_c, settle_in_small_c, settle_in_plain_c };
    static struct sheets sheets;
    static struct pair pairs[3];
    build_late_case(&sheets, build);
    int passes = settlers_agree(name, &sheets);
    if (passes < 0)
        return false;
    for (int i = 0; i < 3; i++)
        start_pair(&pairs[i], &sheets, in_c[i], settle);
    time_pairs(pairs, 3);
    printf("%-36s %6d", name, passes);
    for (int i = 0; i < 3; i++)
        printf(" %9.1f", median(pairs[i].c_ns) / 1000);
    printf(" %9.1f %7.2f %7.2f %7.3f\n", median(pairs[0].exported_ns) / 1000,
           median(pairs[0].ratio), median(pairs[1].ratio), median(pairs[2].ratio));
    return true;
}

static bool run_late_cases(void)
{
    bool right = true;
    printf("\nPlans that settle late; small C is fast C in the same scratch\n");
    printf("%-36s %6s %9s %9s %9s %9s %23s\n", "", "", "settle", "", "", "", "ratio to");
    printf("%-36s %6s %9s %9s %9s %9s %7s %7s %7s\n", "", "passes", "fast C", "small C", "plain C",
           "exported", "fast C", "small C", "plain C");
    right &= run_late_case("i  64 parts, the last one crosses", crossing_late);
    right &= run_late_case("j  64 parts, Y of Y of .., 60 deep", yesterdays_deep);
    right &= run_late_case("k  64 comparisons, crossing in turn", crossing_in_turn);
    right &= run_late_case("l  20 parts of all kinds, 16 rows", settling_soon);
    right &= run_late_case("n  windows, the last part crosses", clocks_late);
    right &= run_late_case("p  tops, the last part is pinned", pinned_late);
    return right;
}

/* ---- Growth ---- */

static const struct {
    int parts, rows;
} sizes[] = { { 64, 32 }, { 64, 64 }, { 64, 128 }, { 64, 256 },
              { 8, 256 }, { 16, 256 }, { 32, 256 }, { 64, 256 } };

enum { SIZES = sizeof sizes / sizeof sizes[0] };

static void print_growth(const char *name, const struct pair *pairs)
{
    printf("\n%s: check\n", name);
    printf("%6s %6s %19s %7s %19s\n", "", "", "microseconds a call", "", "ns a part and row");
    printf("%6s %6s %9s %9s %7s %9s %9s\n", "parts", "rows", "fast C", "exported", "ratio",
           "fast C", "exported");
    for (int i = 0; i < SIZES; i++) {
        double cells = sizes[i].parts * sizes[i].rows;
        printf("%6d %6d", sizes[i].parts, sizes[i].rows);
        print_times(&pairs[i]);
        printf(" %9.2f %9.2f\n", median(pairs[i].c_ns) / cells,
               median(pairs[i].exported_ns) / cells);
    }
}

static bool run_growth(const char *name, builder *build)
{
    static struct sheets sheets[SIZES];
    static struct pair pairs[SIZES];
    for (int i = 0; i < SIZES; i++) {
        build_case(&sheets[i], build, sizes[i].parts, sizes[i].rows);
        if (!all_agree(name, &sheets[i]))
            return false;
        start_pair(&pairs[i], &sheets[i], check_in_c, check);
    }
    time_pairs(pairs, SIZES);
    print_growth(name, pairs);
    return true;
}

/* ---- Live ---- */

/* A case, and both states; those that have the same sheets in their pair are the same. */
struct watch {
    struct sheets sheets;
    struct live_case live;
    const uint8_t *rows;
    struct plain_live in_c;
    struct endless_run_live exported;
    unsigned row_in_c, row_exported;
};

enum { WATCHES = 3 };
static struct watch watches[WATCHES];

static struct watch *watch_of(const struct sheets *s)
{
    struct watch *w = watches;
    while (&w->sheets != s)
        w++;
    return w;
}

static const uint8_t *next_row(const struct watch *w, unsigned *row)
{
    return w->rows + LIVE_ROW_BYTES * (size_t)((*row)++ % LIVE_ROWS);
}

/* A row, and what the places then tell. */
static uint64_t tell_in_c(struct plain_live *state, const uint8_t *row)
{
    uint64_t told = plain_live_row(state, row, LIVE_ROW_BYTES);
    for (uint64_t place = 0; place < PLACES; place++)
        told = 4 * told + plain_live_answer(state, place);
    return told;
}

static uint64_t tell(struct endless_run_live *state, const uint8_t *row)
{
    uint64_t told = endless_run_live_row(state, row, LIVE_ROW_BYTES);
    for (uint64_t place = 0; place < PLACES; place++)
        told = 4 * told + endless_run_live_answer(state, place);
    return told;
}

static uint64_t tell_second(struct live *state, const uint8_t *row)
{
    uint64_t told = second_live_row(state, (struct slice){ row, LIVE_ROW_BYTES });
    for (uint64_t place = 0; place < PLACES; place++)
        told = 4 * told + second_live_answer(state, place);
    return told;
}

static uint64_t watch_in_c(const struct sheets *s)
{
    struct watch *w = watch_of(s);
    return tell_in_c(&w->in_c, next_row(w, &w->row_in_c));
}

static uint64_t watch(const struct sheets *s)
{
    struct watch *w = watch_of(s);
    return tell(&w->exported, next_row(w, &w->row_exported));
}

/* The same on a copy, so that the state has as many rows before each call. */
static uint64_t watch_copy_in_c(const struct sheets *s)
{
    struct watch *w = watch_of(s);
    struct plain_live copy = w->in_c;
    return tell_in_c(&copy, next_row(w, &w->row_in_c));
}

static uint64_t watch_copy(const struct sheets *s)
{
    struct watch *w = watch_of(s);
    struct endless_run_live copy = w->exported;
    return tell(&copy, next_row(w, &w->row_exported));
}

/* Both states and the second evaluator's, with the four rules and so many rows: they tell
   the same after each. */
static bool watches_agree(const char *name, struct watch *w, live_builder *build, int rows)
{
    static struct live second;
    build_live_case(&w->live, build);
    w->rows = reading_bytes(&w->live.rows, 0, 0);
    w->row_in_c = w->row_exported = 0;
    struct slice tops = { top_bytes(&w->live.rows, 0), LIVE_ROW_BYTES };
    uint64_t refused = plain_live_start(&w->in_c, LIVE_CHANNELS, tops.at, tops.len) |
                       endless_run_live_start(&w->exported, LIVE_CHANNELS, tops.at, tops.len) |
                       second_live_start(&second, LIVE_CHANNELS, tops);
    for (uint64_t place = 0; place < PLACES; place++) {
        struct slice rule = slice_of(&w->live.rule[place]);
        refused |= plain_live_add(&w->in_c, place, rule.at, rule.len) |
                   endless_run_live_add(&w->exported, place, rule.at, rule.len) |
                   second_live_add(&second, place, rule);
    }
    bool right = answer_is(0, name, "start and add", refused);
    for (unsigned row = 0; right && row < (unsigned)rows; row++) {
        uint64_t due = tell_second(&second, w->rows + LIVE_ROW_BYTES * (row % LIVE_ROWS));
        right = answer_is(due, name, "live, plain C", watch_in_c(&w->sheets)) &&
                answer_is(due, name, "live, exported", watch(&w->sheets));
    }
    return right;
}

static void print_watch(const char *name, const struct pair *p)
{
    printf("%-36s %9.2f %9.2f %7.2f %12.0f %12.0f\n", name, median(p->c_ns) / 1000,
           median(p->exported_ns) / 1000, median(p->ratio), 1e9 / median(p->c_ns),
           1e9 / median(p->exported_ns));
}

static void print_watch_head(const char *title)
{
    printf("\n%s\n%-36s %19s %7s %25s\n", title, "", "microseconds a row", "", "rows a second");
    printf("%-36s %9s %9s %7s %12s %12s\n", "", "plain C", "exported", "ratio", "plain C",
           "exported");
}

static bool run_watch(const char *name, live_builder *build)
{
    static struct pair pair;
    if (!watches_agree(name, &watches[0], build, 2 * LIVE_ROWS + 7))
        return false;
    start_pair(&pair, &watches[0].sheets, watch_in_c, watch);
    time_pairs(&pair, 1);
    print_watch(name, &pair);
    return true;
}

static bool run_watch_growth(const char *name, live_builder *build)
{
    static const int rows[WATCHES] = { 10, 1000, 100000 };
    static struct pair pairs[WATCHES];
    char after[64];
    for (int i = 0; i < WATCHES; i++) {
        if (!watches_agree(name, &watches[i], build, rows[i]))
            return false;
        start_pair(&pairs[i], &watches[i].sheets, watch_copy_in_c, watch_copy);
    }
    time_pairs(pairs, WATCHES);
    print_watch_head("The same on a copy of a state that has had some rows");
    for (int i = 0; i < WATCHES; i++) {
        snprintf(after, sizeof after, "%s, %d rows", name, rows[i]);
        print_watch(after, &pairs[i]);
    }
    return true;
}

static bool run_watches(void)
{
    bool right = true;
    print_watch_head("Live: four rules of 64 parts, 8 channels; a row and four answers");
    right &= run_watch("q  comparisons, all shifts back", live_shifts);
    right &= run_watch("r  all past temporal", live_temporal);
    right &= run_watch("s  all kinds", live_all_kinds);
    right &= run_watch("t  windows", live_windows);
    right &= run_watch("u  atoms under tops", live_tops);
    right &= run_watch_growth("s  all kinds", live_all_kinds);
    return right;
}

int main(void)
{
    bool right = refusals_agree();
    right &= run_cases();
    right &= run_window_rows();
    right &= run_late_cases();
    right &= run_growth("Comparisons with all shifts", mixed_comparisons);
    right &= run_growth("Comparisons and operators in turn", mixed_parts);
    right &= run_watches();
    return right ? 0 : 1;
}
