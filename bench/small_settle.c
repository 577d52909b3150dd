/*
 * small_settle.c: the search for the fewest passes in C written for speed, in the scratch
 * alone.
 *
 * The parts are gone through as in fast_settle.c. But there is no array beside the scratch,
 * which has a word of 8 bytes for each row, and in it a bit for each part; and the readings
 * are read where they stand in the plan, with as many drifts as there are passes. When
 * passes are laid out, the words of the new rows are those of a pass before, in all parts
 * that have closed. Nothing of it is proved. It is the measure in bench.c.
 */
#include "small_settle.h"

#include "plain_layout.h"
#include "plain_operators.h"
#include "plain_search.h"

struct words {
    struct search search;
    uint8_t *at;
    int filled; /* the rows below have the marks of all parts that have closed */
};

/* ---- Words ---- */

static inline uint64_t get_word(const uint8_t *words, int row)
{
    uint64_t word;
    memcpy(&word, words + 8 * row, 8);
    return word;
}

static inline void put_word(uint8_t *words, int row, uint64_t word)
{
    memcpy(words + 8 * row, &word, 8);
}

static inline uint64_t mark_in(uint64_t word, unsigned part)
{
    return word >> part & 1;
}

static inline uint64_t mark_on(const uint8_t *words, int row, unsigned part)
{
    return mark_in(get_word(words, row), part);
}

/* The mark was 0. */
static inline void put_mark(uint8_t *words, int row, unsigned part, uint64_t mark)
{
    put_word(words, row, get_word(words, row) | mark << part);
}

/* The marks of the parts below this one, on the rows laid out since. */
static void fill_words(struct words *w, unsigned part)
{
    uint64_t below = ((uint64_t)1 << part) - 1;
    int cycle = w->search.plan->cycle, rows = w->search.rows;
    for (int row = w->filled; row < rows; row++)
        put_word(w->at, row, get_word(w->at, row - cycle) & below);
    w->filled = rows;
}

/* ---- Readings ---- */

/* The numbers of a term from some position on, one after the other. */
struct stream {
    bool is_reading;
    int64_t constant;
    const uint8_t *reading, *drift;
    ptrdiff_t row_bytes, cycle_bytes;
    int left, cycle; /* rows up to row W, and from row P to it */
    int64_t pass;
};

static inline struct stream stream_from(const struct plan *plan, const struct term *term,
                                        int position)
{
    int row = position + term->shift, pass = 0;
    ptrdiff_t row_bytes = cell_of(plan, 1, 0);
    if (!term->is_reading)
        return (struct stream){ .constant = term->constant };
    for (; row >= plan->rows; row -= plan->cycle)
        pass++;
    ptrdiff_t cell = cell_of(plan, row, term->channel);
    return (struct stream){ true, 0, plan->readings + cell, plan->drifts + cell, row_bytes,
                            plan->cycle * row_bytes, plan->rows - row, plan->cycle, pass };
}

static inline int64_t next_number(struct stream *s)
{
    if (!s->is_reading)
        return s->constant;
    int64_t number = get32(s->reading) + s->pass * get32(s->drift);
    s->reading += s->row_bytes;
    s->drift += s->row_bytes;
    if (--s->left == 0) {
        s->reading -= s->cycle_bytes;
        s->drift -= s->cycle_bytes;
        s->left = s->cycle;
        s->pass++;
    }
    return number;
}

/* ---- Atoms ---- */

static inline void compare_streams(const struct comparison *c, int kind, bool under_tops,
                                   struct stream x, struct stream y, uint8_t *words, unsigned part,
                                   int first, int rows)
{
    for (int row = first; row < rows; row++) {
        int64_t left = next_number(&x), right = next_number(&y);
        bool mark = under_tops ? compare_under_tops(c, left, right) : compare(kind, left, right);
        put_mark(words, row, part, mark);
    }
}

static void mark_comparison(const struct words *w, const struct comparison *c, unsigned part)
{
    const struct plan *plan = w->search.plan;
    int first = first_seen(plan, c), rows = w->search.rows;
    struct stream x = stream_from(plan, &c->left, first);
    struct stream y = stream_from(plan, &c->right, first);
    if (c->under_tops)
        compare_streams(c, c->kind, true, x, y, w->at, part, first, rows);
    else if (c->kind == LESS)
        compare_streams(c, LESS, false, x, y, w->at, part, first, rows);
    else
        compare_streams(c, EQUAL, false, x, y, w->at, part, first, rows);
}

static bool settle_comparison(struct words *w, int kind, const uint8_t *operand, unsigned part)
{
    struct comparison c = get_comparison(w->search.plan, kind, operand);
    if (!settle_rows(&w->search, &c))
        return false;
    fill_words(w, part);
    mark_comparison(w, &c, part);
    return true;
}

/* Without a top each position from P + back on is as it is a pass before. */
static void mark_window(const struct words *w, const struct window *window, unsigned part)
{
    const struct plan *plan = w->search.plan;
    int cycle = plan->cycle, rows = w->search.rows, row = first_in_sight(plan, window);
    int once = window->term.top == NO_TOP ? plan->start + reach_of(window) + cycle : rows;
    struct stream x = stream_from(plan, &window->term, row);
    for (; row < once && row < rows; row++) {
        int64_t number = next_number(&x);
        put_mark(w->at, row, part, number < window->term.top && is_inside(window, number));
    }
    for (; row < rows; row++)
        put_mark(w->at, row, part, mark_on(w->at, row - cycle, part));
}

static bool settle_window(struct words *w, const uint8_t *operand, unsigned part)
{
    struct window window = get_window(w->search.plan, operand);
    if (!settle_window_rows(&w->search, &window))
        return false;
    fill_words(w, part);
    mark_window(w, &window, part);
    return true;
}

/* ---- Operators ---- */

/* An operator of the parts a and b, which is the part named last. */
struct operator {
    int kind;
    unsigned a, b, part;
};

static inline uint64_t step_on(const uint8_t *words, int row, struct operator o, bool strong,
                               uint64_t beside)
{
    uint64_t word = get_word(words, row), a = mark_in(word, o.a), b = mark_in(word, o.b);
    return strong ? b | (a & beside) : b & (a | beside);
}

/* U, or R, as make_backward() in plain_operators.h has it. Where the second round makes a
   difference, it turns marks round: of U from 0 to 1, of R from 1 to 0. */
static inline void mark_backward(uint8_t *words, struct operator o, bool until, int start, int rows)
{
    uint64_t after = !until, bit = (uint64_t)1 << o.part;
    for (int row = rows - 1; row >= start; row--)
        put_mark(words, row, o.part, after = step_on(words, row, o, until, after));
    for (int row = rows - 1; row >= start; row--) {
        after = step_on(words, row, o, until, after);
        if (mark_on(words, row, o.part) == after)
            break;
        put_word(words, row, get_word(words, row) ^ bit);
    }
    after = mark_on(words, start, o.part);
    for (int row = start - 1; row >= 0; row--)
        put_mark(words, row, o.part, after = step_on(words, row, o, until, after));
}

/* Not, and, or, and X. */
static void mark_now(uint8_t *words, struct operator o, int start, int rows)
{
    if (o.kind == NEXT) {
        for (int row = 0; row + 1 < rows; row++)
            put_mark(words, row, o.part, mark_on(words, row + 1, o.a));
        put_mark(words, rows - 1, o.part, mark_on(words, start, o.a));
        return;
    }
    for (int row = 0; row < rows; row++) {
        uint64_t word = get_word(words, row), a = word >> o.a, b = word >> o.b;
        uint64_t mark = o.kind == NOT ? ~a : o.kind == AND ? a & b : a | b;
        put_word(words, row, word | (mark & 1) << o.part);
    }
}

/* Y, Z, S and T, from a row on; the rows before it are marked. */
static inline void mark_past(uint8_t *words, struct operator o, int first, int rows)
{
    if (o.kind == YESTERDAY || o.kind == WEAK_YESTERDAY) {
        for (int row = rows - 1; row > first; row--)
            put_mark(words, row, o.part, mark_on(words, row - 1, o.a));
        put_mark(words, first, o.part,
                 first == 0 ? o.kind == WEAK_YESTERDAY : mark_on(words, first - 1, o.a));
        return;
    }
    uint64_t before = first == 0 ? o.kind == TRIGGER : mark_on(words, first - 1, o.part);
    for (int row = first; row < rows; row++)
        put_mark(words, row, o.part, before = step_on(words, row, o, o.kind == SINCE, before));
}

/* Whether Y, Z, S or T closes with these marks. */
static bool word_closes(const uint8_t *words, struct operator o, int start, int rows)
{
    uint64_t mark = mark_on(words, start, o.part);
    if (o.kind == YESTERDAY || o.kind == WEAK_YESTERDAY)
        return mark == mark_on(words, rows - 1, o.a);
    return mark == step_on(words, start, o, o.kind == SINCE, mark_on(words, rows - 1, o.part));
}

static bool settle_past(struct words *w, struct operator o)
{
    int marked = 0;
    for (;;) {
        fill_words(w, o.part);
        mark_past(w->at, o, marked, w->search.rows);
        marked = w->search.rows;
        if (word_closes(w->at, o, w->search.start, w->search.rows))
            return true;
        if (!lay_out_pass(&w->search))
            return false;
    }
}

/* Of a part that names one the second field is 0: b is not used. */
static bool settle_operator(struct words *w, int kind, const uint8_t *operand, unsigned part)
{
    struct operator o = { kind, get16(operand), get16(operand + 2), part };
    if (is_past(kind))
        return settle_past(w, o);
    if (kind == UNTIL || kind == RELEASE)
        mark_backward(w->at, o, kind == UNTIL, w->search.start, w->search.rows);
    else
        mark_now(w->at, o, w->search.start, w->search.rows);
    return true;
}

/* ---- The settler ---- */

static bool settle_parts(struct words *w, const uint8_t *rule)
{
    unsigned parts = get16(rule);
    const uint8_t *kinds = rule + 4, *operands = kinds + parts;
    for (unsigned i = 0; i < parts; i++) {
        const uint8_t *operand = operands + 12 * i;
        bool settled = compares(kinds[i])   ? settle_comparison(w, kinds[i], operand, i)
                       : kinds[i] == WINDOW ? settle_window(w, operand, i)
                                            : settle_operator(w, kinds[i], operand, i);
        if (!settled)
            return false;
    }
    return true;
}

uint64_t small_settle(const uint8_t *rule, size_t rule_len, const uint8_t *plan, size_t plan_len,
                      uint8_t *laid_out, size_t laid_out_len, uint8_t *scratch, size_t scratch_len)
{
    struct plan p;
    uint64_t refused = check_inputs(rule, rule_len, plan, plan_len, &p);
    if (refused)
        return refused;
    if (laid_out_len != LAID_OUT_LENGTH || scratch_len != SCRATCH_LENGTH)
        return refuse(13, 0, 0);

    memset(scratch, 0, scratch_len);
    struct words w = { start_search(&p), scratch, p.rows };
    bool settled = settle_parts(&w, rule);
    memset(scratch, 0, scratch_len);
    if (!settled)
        return refuse(15, 0, 0);
    write_layout(plan, &p, w.search.passes, laid_out);
    return (uint64_t)w.search.passes;
}
