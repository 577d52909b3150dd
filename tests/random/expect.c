/*
 * expect.c: questions to the checker, and what they are held to.
 */
#include "expect.h"

#include "../../include/endless_run.h"
#include "../support/lend.h"
#include "dice.h"

#include <inttypes.h>
#include <stdio.h>
#include <string.h>

enum { MOST_PRINTED = 20 };

unsigned long passed, failed;
struct truth truth_space;

static bool count(const char *name, const char *fault)
{
    if (fault == NULL) {
        passed++;
        return true;
    }
    failed++;
    if (failed <= MOST_PRINTED)
        printf("FAILED %s: %s\n", name, fault);
    return false;
}

void expect(const char *name, bool right)
{
    count(name, right ? NULL : "not so");
}

static void print_answer(const char *whose, uint64_t answer)
{
    printf("  %s ", whose);
    if (endless_run_is_refusal(answer))
        printf("refused %u %u %u\n", endless_run_number(answer), endless_run_part(answer),
               endless_run_row(answer));
    else
        printf("%" PRIu64 "\n", answer);
}

bool count_answers(const char *name, const char *fault, uint64_t expected, uint64_t checker,
                   uint64_t second)
{
    if (count(name, fault))
        return true;
    if (failed <= MOST_PRINTED) {
        print_answer("expected        ", expected);
        print_answer("the checker     ", checker);
        print_answer("second evaluator", second);
    }
    return false;
}

/* Do the header's functions give back what the answer is made of, refusals being numbered
   from 1 to `most`? */
static bool taken_apart(uint64_t answer, unsigned most)
{
    unsigned number = endless_run_number(answer);
    uint64_t packed = number * ((uint64_t)1 << 32) + endless_run_part(answer) * 65536u +
                      endless_run_row(answer);
    if (endless_run_is_refusal(answer))
        return number >= 1 && number <= most && packed == answer &&
               endless_run_verdict(answer) == 0 && endless_run_finding(answer) == -1 &&
               endless_run_passes(answer) == -1 && endless_run_told(answer) == -1;
    return packed == 0 && endless_run_verdict(answer) == (answer == 1) &&
           endless_run_finding(answer) == (answer <= 2 ? (int)answer : -1) &&
           endless_run_told(answer) == (answer <= 3 ? (int)answer : -1) &&
           endless_run_passes(answer) == (int)answer;
}

bool unpacks(uint64_t answer)
{
    return taken_apart(answer, 15);
}

bool unpacks_live(uint64_t answer)
{
    return taken_apart(answer, 17);
}

static const char *fault_in_answer(struct asked asked, uint64_t second, uint64_t answer)
{
    if (second != answer)
        return "the second evaluator answers otherwise";
    if (!asked.unchanged)
        return "bytes lent were written";
    if (asked.answer != answer)
        return "wrong answer";
    if (!unpacks(asked.answer))
        return "the header does not take the answer apart";
    return NULL;
}

/* Is the answer the one that the published truth asks for? */
static bool as_truth_has_it(uint64_t answer, enum acceptance acceptance)
{
    switch (acceptance) {
    case NOT_A_TABLE:
        return answer >= refusal(1, 0, 0) && answer < refusal(9, 0, 0);
    case OPEN:
        return endless_run_number(answer) == ENDLESS_RUN_CLOSING;
    case FAULTY:
        return endless_run_number(answer) == ENDLESS_RUN_EQUATION ||
               endless_run_number(answer) == ENDLESS_RUN_WITNESS;
    case ACCEPTED_FALSE:
        return answer == 0;
    case ACCEPTED_TRUE:
        return answer == 1;
    }
    return false;
}

bool expect_check(const char *name, const struct sheet *rule, const struct sheet *plan,
                  const struct sheet *marks, uint64_t answer)
{
    struct slice r = slice_of(rule), p = slice_of(plan), m = slice_of(marks);
    struct asked asked = ask_check(r, p, m);
    uint64_t second = second_check(r, p, m);
    enum acceptance acceptance = second_acceptance(&truth_space, r, p, m);
    const char *fault = fault_in_answer(asked, second, answer);
    if (fault == NULL && !as_truth_has_it(asked.answer, acceptance))
        fault = "the published truth has it otherwise";
    return count_answers(name, fault, answer, asked.answer, second);
}

bool expect_judge(const char *name, const struct sheet *rule, const struct sheet *plan,
                  uint64_t part, uint64_t row, uint64_t answer)
{
    struct slice r = slice_of(rule), p = slice_of(plan);
    struct asked asked = ask_judge(r, p, part, row);
    uint64_t second = second_judge(r, p, part, row);
    const char *fault = fault_in_answer(asked, second, answer);
    return count_answers(name, fault, answer, asked.answer, second);
}

/* ---- Make ---- */

static void fill_at_random(struct sheet *buffer)
{
    for (size_t i = 0; i < buffer->len; i += 8) {
        uint64_t bytes = next_random();
        size_t left = buffer->len - i;
        memcpy(buffer->at + i, &bytes, left < 8 ? left : 8);
    }
}

static bool same_bytes(const struct sheet *a, const struct sheet *b)
{
    return a->len == b->len && memcmp(a->at, b->at, a->len) == 0;
}

/* The marks of the truth up to the part refused with 14, and marks of 0 above. */
static void write_marks_up_to(struct sheet *marks, int part)
{
    const struct rule *rule = &truth_space.rule;
    const struct plan *plan = &truth_space.plan;
    start_marks(marks, rule->parts, plan->rows);
    for (int i = 0; i <= part; i++) {
        for (int row = 0; row < plan->rows; row++)
            *mark_byte(marks, i, row) = holds(&truth_space, i, row);
        put2(witness_bytes(marks, i), (unsigned)serving_witness(marks, rule, plan, i, plan->start));
    }
}

/* Does check say of the table made, or of the table of the truth where none can be
   made, what make says? */
static bool as_check_has_it(struct slice rule, struct slice plan, const struct sheet *made,
                            uint64_t answer)
{
    static struct sheet of_truth;
    if (!endless_run_is_refusal(answer))
        return ask_check(rule, plan, slice_of(made)).answer == answer;
    if (endless_run_number(answer) != ENDLESS_RUN_NO_TABLE)
        return true;
    int part = (int)endless_run_part(answer), row = (int)endless_run_row(answer);
    write_marks_up_to(&of_truth, part);
    return ask_check(rule, plan, slice_of(&of_truth)).answer == refusal(10, part, row);
}

bool expect_make(const char *name, const struct sheet *rule, const struct sheet *plan,
                 struct sheet *buffer, uint64_t answer)
{
    static struct sheet due;
    struct slice r = slice_of(rule), p = slice_of(plan);
    fill_at_random(buffer);
    due.len = buffer->len;
    memcpy(due.at, buffer->at, buffer->len);
    uint64_t second = second_make(&truth_space, r, p, due.at, due.len);
    struct asked asked = ask_make(r, p, buffer->at, buffer->len);
    const char *fault = fault_in_answer(asked, second, answer);
    if (fault == NULL && !same_bytes(buffer, &due))
        fault = "the buffer is not left as it should be";
    if (fault == NULL && !as_check_has_it(r, p, buffer, asked.answer))
        fault = "the check has it otherwise";
    return count_answers(name, fault, answer, asked.answer, second);
}

void expect_made(const char *name, const struct sheet *rule, const struct sheet *plan,
                 const struct sheet *marks, uint64_t verdict)
{
    static struct sheet buffer;
    resize(&buffer, marks->len);
    if (expect_make(name, rule, plan, &buffer, verdict))
        count(name, same_bytes(&buffer, marks) ? NULL : "another table is made");
}

void expect_make_as_checked(const char *name, const struct sheet *rule, const struct sheet *plan,
                            const struct sheet *marks, uint64_t checked)
{
    static struct sheet buffer;
    resize(&buffer, marks->len);
    if (!endless_run_is_refusal(checked))
        expect_made(name, rule, plan, marks, checked);
    else if (endless_run_number(checked) == ENDLESS_RUN_CLOSING)
        expect_make(name, rule, plan, &buffer,
                    refusal(14, (int)endless_run_part(checked), (int)endless_run_row(checked)));
}

/* ---- Settle ---- */

static void fill_with_non_zero(struct sheet *buffer)
{
    fill_at_random(buffer);
    for (size_t i = 0; i < buffer->len; i++)
        if (buffer->at[i] == 0)
            buffer->at[i] = 0xA5;
}

int deepest_nesting(const struct rule *rule)
{
    int nesting[MOST_PARTS], deepest = 0;
    for (int part = 0; part < rule->parts; part++) {
        const struct formula *f = &rule->part[part];
        nesting[part] = 0;
        if (is_atom(f->kind))
            continue;
        nesting[part] = nesting[f->a];
        if (names_two_parts(f->kind) && nesting[f->b] > nesting[part])
            nesting[part] = nesting[f->b];
        nesting[part] += is_past(f->kind);
        deepest = nesting[part] > deepest ? nesting[part] : deepest;
    }
    return deepest;
}

bool is_still(const struct plan *plan)
{
    for (int row = plan->start; row < plan->rows; row++)
        for (int channel = 0; channel < plan->channels; channel++)
            if (plan->drift[row][channel] != 0)
                return false;
    return true;
}

/* Two passes behind the rows of both plans are enough: from there on the readings of
   a row are straight lines in the pass. */
static bool same_run(const struct plan *a, const struct plan *b)
{
    for (int channel = 0; channel < a->channels; channel++)
        if (a->top[channel] != b->top[channel])
            return false;
    for (int position = -MOST_LEAD - 1; position < a->rows + b->rows + 2 * a->cycle; position++)
        if (!runs_agree(a, b, position))
            return false;
    return true;
}

/* Do make and check find every part closed, or one open, as is said? */
static bool make_has_it(const struct rule *r, const struct plan *p, struct slice rule,
                        struct slice plan, bool closes)
{
    static struct sheet buffer, due;
    resize(&buffer, table_length(r->parts, p->rows));
    resize(&due, buffer.len);
    uint64_t second = second_make(&truth_space, rule, plan, due.at, due.len);
    struct asked asked = ask_make(rule, plan, buffer.at, buffer.len);
    return endless_run_is_refusal(second) != closes && asked.answer == second &&
           same_bytes(&buffer, &due) && as_check_has_it(rule, plan, &buffer, second);
}

/* Some passes of the plan laid out, fewer if there is no room: one part is open. */
static bool is_open_after(const struct rule *r, struct plan p, struct slice rule, int passes)
{
    static struct sheet plan;
    while (passes > 0 && lay_out_pass(&p))
        passes--;
    resize(&plan, plan_length(&p));
    write_plan(&p, plan.at);
    return make_has_it(r, &p, rule, slice_of(&plan), false);
}

static const char *fault_in_layout(const struct rule *r, const struct plan *p, struct slice rule,
                                   const struct sheet *laid_out, int passes)
{
    struct plan new;
    struct slice plan = { laid_out->at, endless_run_plan_length(laid_out->at) };
    if (decode_plan(plan, r->channels, &new) != 0)
        return "what is laid out is no plan";
    if (new.cycle != p->cycle || new.start != p->start + passes * p->cycle)
        return "another number of passes is laid out";
    if (!same_run(p, &new))
        return "the plan laid out has another run, or other tops";
    if (!make_has_it(r, &new, rule, plan, true))
        return "make has it otherwise";
    if (passes > 0 && !is_open_after(r, *p, rule, passes - 1))
        return "make has it otherwise with one pass fewer";
    if (is_still(p) && passes > 4 + deepest_nesting(r))
        return "more passes than 4 and the nesting";
    return NULL;
}

/* Do make and check have it as settle says? */
static const char *fault_in_settling(struct slice rule, struct slice plan,
                                     const struct sheet *laid_out, uint64_t answer)
{
    struct rule r;
    struct plan p;
    if (decode_rule(rule, &r) != 0 || decode_plan(plan, r.channels, &p) != 0)
        return NULL;
    if (!endless_run_is_refusal(answer))
        return fault_in_layout(&r, &p, rule, laid_out, endless_run_passes(answer));
    if (endless_run_number(answer) == ENDLESS_RUN_NO_LAYOUT &&
        !is_open_after(&r, p, rule, MOST_ROWS))
        return "make has it otherwise with all passes";
    return NULL;
}

bool expect_settle(const char *name, const struct sheet *rule, const struct sheet *plan,
                   struct sheet *laid_out, struct sheet *scratch, uint64_t answer)
{
    static struct sheet due_laid_out, due_scratch;
    struct slice r = slice_of(rule), p = slice_of(plan);
    fill_with_non_zero(laid_out);
    fill_with_non_zero(scratch);
    due_laid_out = *laid_out;
    due_scratch = *scratch;
    uint64_t second = second_settle(&truth_space, r, p, due_laid_out.at, due_laid_out.len,
                                    due_scratch.at, due_scratch.len);
    struct asked asked =
        ask_settle(r, p, laid_out->at, laid_out->len, scratch->at, scratch->len);
    const char *fault = fault_in_answer(asked, second, answer);
    if (fault == NULL && !same_bytes(laid_out, &due_laid_out))
        fault = "the buffer for the plan is not left as it should be";
    if (fault == NULL && !same_bytes(scratch, &due_scratch))
        fault = "the scratch is not left as it should be";
    if (fault == NULL)
        fault = fault_in_settling(r, p, laid_out, asked.answer);
    return count_answers(name, fault, answer, asked.answer, second);
}

bool expect_passes(const char *name, const struct sheet *rule, const struct sheet *plan,
                   uint64_t answer)
{
    static struct sheet laid_out, scratch;
    resize(&laid_out, ENDLESS_RUN_LAID_OUT_LENGTH);
    resize(&scratch, ENDLESS_RUN_SETTLE_SCRATCH_LENGTH);
    return expect_settle(name, rule, plan, &laid_out, &scratch, answer);
}

void expect_laid_out(const char *name, const struct sheet *rule, const struct sheet *plan,
                     const struct sheet *due, uint64_t passes)
{
    static struct sheet laid_out, scratch;
    resize(&laid_out, ENDLESS_RUN_LAID_OUT_LENGTH);
    resize(&scratch, ENDLESS_RUN_SETTLE_SCRATCH_LENGTH);
    if (!expect_settle(name, rule, plan, &laid_out, &scratch, passes))
        return;
    resize(&laid_out, endless_run_plan_length(laid_out.at));
    count(name, same_bytes(&laid_out, due) ? NULL : "another plan is laid out");
}

/* ---- Random cases ---- */

void hold_to_floor(const char *name, unsigned long n, unsigned long cases, unsigned long in_10000)
{
    unsigned long floor = cases * in_10000 / 10000;
    if (floor == 0)
        floor = 1;
    printf("  %-44s %8lu   floor %lu\n", name, n, floor);
    if (n < floor) {
        printf("FAILED %s: below the floor\n", name);
        failed++;
    } else {
        passed++;
    }
}

void hold_each(const char *name, const unsigned long *n, int many, unsigned long cases,
               unsigned long in_10000)
{
    char numbered[64];
    for (int i = 0; i < many; i++) {
        snprintf(numbered, sizeof numbered, "%s %d", name, i);
        hold_to_floor(numbered, n[i], cases, in_10000);
    }
}

void print_sheet(const char *name, const struct sheet *sheet)
{
    printf("  %s (%zu bytes)", name, sheet->len);
    for (size_t i = 0; i < sheet->len && i < 400; i++)
        printf(" %02X", sheet->at[i]);
    printf("%s\n", sheet->len > 400 ? " .." : "");
}
