/*
 * fuzz.c: check, judge, make, settle and the live functions on bytes that a fuzzer makes
 * up, and the header's own functions.
 *
 * An input is cut into a question: 2 bytes each for the length of the rule, the
 * length of the plan, the part and the row, then the rule, the plan and, to the
 * end, the mark table. Lengths that are too long are cut off. The mark table is
 * also what the buffer of make has in it, once in its own length and once in the
 * length that the sizes of the rule and the plan give; and what the two buffers of
 * settle have, in the right lengths, and in lengths that the part and the row give, both
 * at once and one at a time.
 *
 * Live, the rule is the one that is added, the plan gives V, the tops and, behind them, the
 * rows, which come again when there are no more; and each byte of the mark table is a call: a
 * row, a row of another length, an add, a drop, a start, or a place of more than 8 bits. Then
 * the bytes of the mark table are taken for a state.
 *
 * Numbers that do not fit 16 bits come from the same input: judge is also asked for a
 * part and a row that are a power of 2 higher, from 2^16 on, and check for a rule, a
 * plan and marks that are 2^16 bytes longer.
 *
 * Each function is called twice and must answer alike, leave every byte lent as
 * it was, but for the buffers of make and settle, and stay within the slices
 * (lend.c). Where the sizes are small enough for it to be quick, the answers and the
 * buffers are held to the second evaluator too. The functions of the header are tried
 * on every answer, and on a number that the first 8 bytes of the input make.
 *
 * With -DWITH_LIBFUZZER the entry is LLVMFuzzerTestOneInput alone. Without it
 * there is a main for AFL and for looking at single inputs: it reads the files
 * named, or the standard input where none is.
 */
#include "../support/lend.h"

#include "../../include/endless_run.h"

#include <inttypes.h>
#include <stdio.h>
#include <stdlib.h>
#include <string.h>

enum { HEAD = 8, LONGEST = 65536, MOST_CELLS = 2048, MOST_TRIES = 1024, MOST_CALLS = 300 };

struct question {
    struct slice rule, plan, marks;
    uint64_t part, row;
};

static unsigned field2(const uint8_t *at)
{
    return at[0] + 256u * at[1];
}

static uint64_t field8(const uint8_t *at)
{
    uint64_t n = 0;
    for (int i = 7; i >= 0; i--)
        n = n << 8 | at[i];
    return n;
}

static struct slice take(struct slice *rest, size_t len)
{
    struct slice first = { rest->at, len < rest->len ? len : rest->len };
    if (first.len == 0)
        return first;
    rest->at += first.len;
    rest->len -= first.len;
    return first;
}

static struct question cut(const uint8_t *data, size_t len)
{
    struct slice rest = { data + HEAD, len - HEAD };
    struct question q;
    q.rule = take(&rest, field2(data));
    q.plan = take(&rest, field2(data + 2));
    q.marks = rest;
    q.part = field2(data + 4);
    q.row = field2(data + 6);
    return q;
}

/* Few enough parts and rows for the second evaluator to be quick. */
static bool is_cheap(const struct question *q)
{
    if (q->rule.len < 4 || q->plan.len < 8)
        return true;
    unsigned rows = field2(q->plan.at + 2) + field2(q->plan.at + 4);
    return rows > MOST_ROWS || field2(q->rule.at) * rows <= MOST_CELLS;
}

/* Few enough parts, and plans to try, for it to be quick as well. */
static bool is_cheap_to_settle(const struct question *q)
{
    if (q->rule.len < 4 || q->plan.len < 8 || field2(q->plan.at + 4) == 0)
        return true;
    return field2(q->rule.at) * (MOST_ROWS / field2(q->plan.at + 4)) <= MOST_TRIES;
}

static void hold(bool right, const char *what, uint64_t answer, uint64_t due)
{
    if (right)
        return;
    fprintf(stderr, "%s: answer %" PRIx64 ", due %" PRIx64 " (hex)\n", what, answer, due);
    abort();
}

/* ---- The header's own functions ---- */

static bool is_text(const char *text)
{
    return text != NULL && text[0] != '\0';
}

/* They take every number: a refusal is put together again from its number, part and row,
   the three other readings are as they are said to be, and there is always a text. */
static void try_header(uint64_t n)
{
    uint64_t whole = (uint64_t)endless_run_number(n) << 32 | (uint64_t)endless_run_part(n) << 16 |
                     endless_run_row(n);
    bool refused = n > UINT32_MAX;
    hold((endless_run_is_refusal(n) != 0) == refused, "is it a refusal", n, n);
    hold(whole == (refused ? n : 0), "number, part and row", whole, n);
    hold(endless_run_verdict(n) == (n == 1), "verdict", n, n);
    hold(endless_run_finding(n) == (n <= 2 ? (int)n : -1), "finding", n, n);
    hold(endless_run_passes(n) == (n <= 255 ? (int)n : -1), "passes", n, n);
    hold(endless_run_told(n) == (n <= 3 ? (int)n : -1), "told", n, n);
    hold(is_text(endless_run_message(n)) && is_text(endless_run_judge_message(n)) &&
             is_text(endless_run_make_message(n)) && is_text(endless_run_settle_message(n)) &&
             is_text(endless_run_live_message(n)) && is_text(endless_run_told_message(n)),
         "text", n, n);
}

/* An answer of the checker, and the text that the header has for it: not the one of a number
   that is no answer. */
static void try_answer(uint64_t answer, const char *text)
{
    try_header(answer);
    hold(strcmp(text, endless_run_refusal_message(0)) != 0, "text of an answer", answer, answer);
}

/* The length by the sizes at the front of a plan, of whatever bytes. */
static void try_plan_length(struct slice plan)
{
    if (plan.len < 8)
        return;
    uint64_t rows = (uint64_t)field2(plan.at + 2) + field2(plan.at + 4) + field2(plan.at + 6);
    uint64_t due = 8 + field2(plan.at) * (4 + 8 * rows);
    hold(endless_run_plan_length(plan.at) == due, "length of a plan",
         endless_run_plan_length(plan.at), due);
}

/* ---- Check and judge ---- */

/* The truth agrees: a table is accepted, or refused for a part that does not close,
   just as the published truth has it. */
static bool as_truth_has_it(const struct question *q, uint64_t answer)
{
    static struct truth space;
    switch (second_acceptance(&space, q->rule, q->plan, q->marks)) {
    case ACCEPTED_FALSE:
        return answer == 0;
    case ACCEPTED_TRUE:
        return answer == 1;
    case OPEN:
        return answer >> 32 == 10;
    case FAULTY:
        return answer >> 32 == 9 || answer >> 32 == 11;
    default:
        return answer >> 32 >= 1 && answer >> 32 <= 8;
    }
}

static void try_check(const struct question *q)
{
    struct asked first = ask_check(q->rule, q->plan, q->marks);
    struct asked again = ask_check(q->rule, q->plan, q->marks);
    hold(first.unchanged && again.unchanged, "check wrote to a slice", first.answer, first.answer);
    hold(first.answer == again.answer, "check answers twice", first.answer, again.answer);
    try_answer(first.answer, endless_run_message(first.answer));
    if (!is_cheap(q))
        return;
    uint64_t due = second_check(q->rule, q->plan, q->marks);
    hold(first.answer == due, "check", first.answer, due);
    hold(as_truth_has_it(q, first.answer), "check and the truth", first.answer, due);
}

/* The same bytes, and behind them 2^16 zero bytes more. */
static struct slice longer(struct slice bytes)
{
    static uint8_t room[2 * LONGEST];
    if (bytes.len > 0)
        memcpy(room, bytes.at, bytes.len);
    memset(room + bytes.len, 0, LONGEST);
    return (struct slice){ room, bytes.len + LONGEST };
}

/* With a rule, a plan or marks whose length is right in its lower 16 bits alone. */
static void try_longer(const struct question *q)
{
    struct question rule = *q, plan = *q, marks = *q;
    rule.rule = longer(q->rule);
    try_check(&rule);
    plan.plan = longer(q->plan);
    try_check(&plan);
    marks.marks = longer(q->marks);
    try_check(&marks);
}

static void try_judge(const struct question *q, uint64_t part, uint64_t row)
{
    struct asked first = ask_judge(q->rule, q->plan, part, row);
    struct asked again = ask_judge(q->rule, q->plan, part, row);
    hold(first.unchanged && again.unchanged, "judge wrote to a slice", first.answer, first.answer);
    hold(first.answer == again.answer, "judge answers twice", first.answer, again.answer);
    try_answer(first.answer, endless_run_judge_message(first.answer));
    uint64_t due = second_judge(q->rule, q->plan, part, row);
    hold(first.answer == due, "judge", first.answer, due);
}

/* A part and a row that are there in their lower bits alone: higher by a power of 2 from 2^16
   to 2^63. */
static void try_judge_wide(const struct question *q)
{
    uint64_t more = (uint64_t)1 << (16 + (q->part + q->row) % 48);
    try_judge(q, q->part + more, q->row);
    try_judge(q, q->part, q->row + more);
}

/* ---- Make ---- */

/* The bytes of the mark table in a buffer of some length, or their complements. */
static void fill(uint8_t *buffer, size_t len, struct slice marks, uint8_t mask)
{
    size_t of_marks = marks.len < len ? marks.len : len;
    for (size_t i = 0; i < of_marks; i++)
        buffer[i] = marks.at[i] ^ mask;
    memset(buffer + of_marks, mask, len - of_marks);
}

static bool all_zero(const uint8_t *bytes, size_t len)
{
    static const uint8_t zero[LONGEST];
    return memcmp(bytes, zero, len) == 0;
}

/* Has this answer left the buffer as it should: with a table that is accepted,
   with zero bytes, or as it was? */
static bool is_left_right(const struct question *q, uint64_t answer, const uint8_t *before,
                          const uint8_t *after, size_t len)
{
    if (answer <= 1)
        return ask_check(q->rule, q->plan, (struct slice){ after, len }).answer == answer;
    if (answer >= refusal(14, 0, 0))
        return all_zero(after, len);
    return memcmp(before, after, len) == 0;
}

static void try_make(const struct question *q, size_t len)
{
    static uint8_t before[LONGEST], first[LONGEST], again[LONGEST];
    static struct truth space;
    fill(before, len, q->marks, 0);
    fill(first, len, q->marks, 0);
    fill(again, len, q->marks, 0xFF);
    struct asked one = ask_make(q->rule, q->plan, first, len);
    struct asked two = ask_make(q->rule, q->plan, again, len);
    uint64_t answer = one.answer;
    bool writes = answer <= 1 || answer >= refusal(14, 0, 0);
    hold(one.unchanged && two.unchanged, "make wrote beside its buffer", answer, answer);
    hold(answer == two.answer, "make answers twice", answer, two.answer);
    try_answer(answer, endless_run_make_message(answer));
    hold(!writes || memcmp(first, again, len) == 0, "make writes twice", answer, answer);
    hold(is_left_right(q, answer, before, first, len), "what make left", answer, answer);
    if (!is_cheap(q))
        return;
    uint64_t due = second_make(&space, q->rule, q->plan, before, len);
    hold(answer == due, "make", answer, due);
    hold(memcmp(first, before, len) == 0, "what make made", answer, due);
}

/* ---- Settle ---- */

/* The two buffers of settle. */
struct buffers {
    uint8_t laid_out[LONGEST], scratch[LONGEST];
    size_t laid_out_len, scratch_len;
};

/* Of these lengths, with the bytes of the mark table or their complements. */
static void fill_both(struct buffers *b, size_t laid_out_len, size_t scratch_len,
                      struct slice marks, uint8_t mask)
{
    b->laid_out_len = laid_out_len;
    b->scratch_len = scratch_len;
    fill(b->laid_out, laid_out_len, marks, mask);
    fill(b->scratch, scratch_len, marks, mask);
}

static struct asked ask_in(const struct question *q, struct buffers *b)
{
    return ask_settle(q->rule, q->plan, b->laid_out, b->laid_out_len, b->scratch, b->scratch_len);
}

static bool same_buffers(const struct buffers *a, const struct buffers *b)
{
    return memcmp(a->laid_out, b->laid_out, a->laid_out_len) == 0 &&
           memcmp(a->scratch, b->scratch, a->scratch_len) == 0;
}

/* The plan at the front of a buffer. */
static struct slice plan_at(const uint8_t *at)
{
    size_t rows = field2(at + 2) + field2(at + 4);
    return (struct slice){ at, 8 + field2(at) * (4 + 8 * (field2(at + 6) + rows)) };
}

/* Is a table made for the plan laid out? */
static bool can_be_made(const struct question *q, struct slice plan)
{
    static uint8_t made[LONGEST];
    unsigned rows = field2(plan.at + 2) + field2(plan.at + 4);
    size_t len = table_length((int)field2(q->rule.at), (int)rows);
    return ask_make(q->rule, plan, made, len).answer <= 1;
}

/* Has this answer left the buffers as it should: with a plan before the bytes that
   were there, and a scratch of zero bytes; with such a scratch alone; or as they were? */
static bool are_left_right(const struct question *q, uint64_t answer, const struct buffers *before,
                           const struct buffers *after)
{
    size_t written = 0;
    if (answer <= 255) {
        struct slice plan = plan_at(after->laid_out);
        try_plan_length(plan);
        if (plan.len > after->laid_out_len || !can_be_made(q, plan))
            return false;
        written = plan.len;
    }
    bool clears = answer <= 255 || answer >= refusal(14, 0, 0);
    return memcmp(before->laid_out + written, after->laid_out + written,
                  before->laid_out_len - written) == 0 &&
           (clears ? all_zero(after->scratch, after->scratch_len)
                   : memcmp(before->scratch, after->scratch, after->scratch_len) == 0);
}

static void try_settle(const struct question *q, size_t laid_out_len, size_t scratch_len)
{
    static struct buffers before, first, again;
    static struct truth space;
    fill_both(&first, laid_out_len, scratch_len, q->marks, 0);
    fill_both(&again, laid_out_len, scratch_len, q->marks, 0xFF);
    struct asked one = ask_in(q, &first), two = ask_in(q, &again);
    uint64_t answer = one.answer;
    hold(one.unchanged && two.unchanged, "settle wrote beside its buffers", answer, answer);
    hold(answer == two.answer, "settle answers twice", answer, two.answer);
    try_answer(answer, endless_run_settle_message(answer));
    fill_both(&before, laid_out_len, scratch_len, q->marks, 0xFF);
    hold(are_left_right(q, answer, &before, &again), "what settle left", answer, answer);
    fill_both(&before, laid_out_len, scratch_len, q->marks, 0);
    hold(are_left_right(q, answer, &before, &first), "what settle left", answer, answer);
    hold(answer > 255 || memcmp(first.laid_out, again.laid_out, plan_at(first.laid_out).len) == 0,
         "settle lays out twice", answer, answer);
    if (!is_cheap_to_settle(q))
        return;
    uint64_t due = second_settle(&space, q->rule, q->plan, before.laid_out, laid_out_len,
                                 before.scratch, scratch_len);
    hold(answer == due, "settle", answer, due);
    hold(same_buffers(&first, &before), "what settle laid out", answer, due);
}

/* ---- Live ---- */

static struct endless_run_live state, before;
static struct live second;

/* A call of a kind with a number, a place or V, and a slice. */
enum live_kind { START, ADD, DROP, ROW };
struct live_call {
    enum live_kind kind;
    uint64_t number;
    struct slice bytes;
};

static struct asked ask_live(struct endless_run_live *on, const struct live_call *c)
{
    switch (c->kind) {
    case START:
        return ask_live_start(on, c->number, c->bytes);
    case ADD:
        return ask_live_add(on, c->number, c->bytes);
    case DROP:
        return ask_live_drop(on, c->number);
    default:
        return ask_live_row(on, c->bytes);
    }
}

static uint64_t second_live(const struct live_call *c)
{
    switch (c->kind) {
    case START:
        return second_live_start(&second, c->number, c->bytes);
    case ADD:
        return second_live_add(&second, c->number, c->bytes);
    case DROP:
        return second_live_drop(&second, c->number);
    default:
        return second_live_row(&second, c->bytes);
    }
}

/* The call on the state, and on a copy of it that lies elsewhere: both answer and write
   alike, and where they refuse they write nothing. */
static uint64_t try_live_call(const struct live_call *c)
{
    static struct endless_run_live again;
    memcpy(&before, &state, sizeof state);
    memcpy(&again, &state, sizeof state);
    struct asked one = ask_live(&state, c), two = ask_live(&again, c);
    uint64_t answer = one.answer;
    hold(one.unchanged && two.unchanged, "a live call wrote beside the state", answer, answer);
    hold(answer == two.answer, "a live call answers twice", answer, two.answer);
    hold(memcmp(&state, &again, sizeof state) == 0, "a live call writes twice", answer, answer);
    hold(answer == 0 || memcmp(&state, &before, sizeof state) == 0, "a refused live call wrote",
         answer, answer);
    try_answer(answer, endless_run_live_message(answer));
    return answer;
}

static void try_places(uint64_t above)
{
    for (uint64_t i = 0; i <= PLACES; i++) {
        uint64_t place = i < PLACES ? i : above, due = second_live_answer(&second, place);
        struct asked told = ask_live_answer(&state, place);
        hold(told.unchanged, "live answer wrote", told.answer, due);
        hold(told.answer == due, "live answer", told.answer, due);
        try_answer(told.answer, endless_run_told_message(told.answer));
    }
}

static void follow(const struct live_call *c)
{
    uint64_t answer = try_live_call(c), due = second_live(c);
    hold(answer == due, "a live call", answer, due);
    try_places(c->number >= PLACES ? c->number : PLACES);
}

/* The next row of so many bytes; the first one again where no more are left. */
static struct slice next_row(struct slice all, struct slice *left, size_t len)
{
    if (left->len < len)
        *left = all;
    return take(left, len);
}

/* The call that a byte of the mark table stands for, with the rows and those that are left. */
static struct live_call call_of(const struct question *q, uint8_t byte, struct slice tops,
                                struct slice rows, struct slice *left)
{
    unsigned more = byte >> 3;
    uint64_t wide = (uint64_t)1 << (8 + more);
    switch (byte % 8) {
    case 3:
        return (struct live_call){ ROW, 0, next_row(rows, left, more) };
    case 4:
        return (struct live_call){ ADD, more % 8, q->rule };
    case 5:
        return (struct live_call){ DROP, more % 8, { NULL, 0 } };
    case 6:
        return (struct live_call){ START, more, tops };
    case 7:
        return more % 2 ? (struct live_call){ ADD, wide + more % 4, q->rule }
                        : (struct live_call){ DROP, wide + more % 4, { NULL, 0 } };
    default:
        return (struct live_call){ ROW, 0, next_row(rows, left, 4 * (size_t)second.channels) };
    }
}

/* An empty state of one channel first, so that there is always one; then as the plan has it,
   with the rule in the place that the part names. */
static void try_live_list(const struct question *q)
{
    static const uint8_t none[4];
    struct slice rest = q->plan, sizes = take(&rest, 8);
    uint64_t channels = sizes.len == 8 ? field2(sizes.at) : 0;
    struct slice tops = take(&rest, channels <= MOST_CHANNELS ? 4 * (size_t)channels : 0);
    struct slice left = rest;
    uint64_t wide = (uint64_t)1 << (16 + (q->part + q->row) % 48);
    follow(&(struct live_call){ START, 1, { none, 4 } });
    follow(&(struct live_call){ START, channels + wide, tops });
    follow(&(struct live_call){ START, channels, tops });
    follow(&(struct live_call){ ADD, q->part, q->rule });
    follow(&(struct live_call){ ADD, q->row % PLACES, q->rule });
    for (size_t i = 0; i < q->marks.len && i < MOST_CALLS; i++) {
        struct live_call c = call_of(q, q->marks.at[i], tops, rest, &left);
        follow(&c);
    }
}

/* Calls on a state that no call has made. */
static void try_live_bytes(const struct question *q)
{
    struct slice rest = q->plan;
    for (int mask = 0; mask <= 0xFF; mask += 0xFF) {
        fill((uint8_t *)&state, sizeof state, q->marks, (uint8_t)mask);
        for (uint64_t place = 0; place <= PLACES; place++) {
            hold(ask_live_answer(&state, place).unchanged, "live answer wrote", place, place);
            try_live_call(&(struct live_call){ ROW, 0, take(&rest, 4 * (size_t)(q->row % 9)) });
            try_live_call(&(struct live_call){ ADD, place, q->rule });
            try_live_call(&(struct live_call){ DROP, place, { NULL, 0 } });
        }
    }
}

/* The length of the table by the sizes of the rule and the plan, if they are there
   and right. */
static size_t right_length(const struct question *q)
{
    if (q->rule.len < 4 || q->plan.len < 8)
        return 0;
    unsigned parts = field2(q->rule.at), rows = field2(q->plan.at + 2) + field2(q->plan.at + 4);
    return parts > MOST_PARTS || rows > MOST_ROWS ? 0 : table_length((int)parts, (int)rows);
}

int LLVMFuzzerTestOneInput(const uint8_t *data, size_t len);

int LLVMFuzzerTestOneInput(const uint8_t *data, size_t len)
{
    if (len < HEAD || len > LONGEST)
        return 0;
    struct question q = cut(data, len);
    try_header(field8(data));
    try_plan_length(q.plan);
    try_check(&q);
    try_longer(&q);
    try_judge(&q, q.part, q.row);
    try_judge_wide(&q);
    try_make(&q, q.marks.len);
    try_make(&q, right_length(&q));
    try_settle(&q, LAID_OUT_LENGTH, SCRATCH_LENGTH);
    try_settle(&q, q.part, q.row);
    try_settle(&q, LAID_OUT_LENGTH, q.row);
    try_settle(&q, q.part, SCRATCH_LENGTH);
    try_live_list(&q);
    try_live_bytes(&q);
    return 0;
}

#ifndef WITH_LIBFUZZER
static void try_stream(FILE *stream)
{
    static uint8_t data[LONGEST];
    LLVMFuzzerTestOneInput(data, fread(data, 1, sizeof data, stream));
}

int main(int argc, char **argv)
{
    if (argc == 1)
        try_stream(stdin);
    for (int i = 1; i < argc; i++) {
        FILE *file = fopen(argv[i], "rb");
        if (file == NULL) {
            perror(argv[i]);
            return 2;
        }
        try_stream(file);
        fclose(file);
    }
    return 0;
}
#endif
