/*
 * examples.c: the worked examples, checked and judged, and made where they say
 * what comes of that.
 */
#include "../support/examples.h"
#include "../support/lend.h"
#include "expect.h"

static struct sheet rule, plan, marks;

/* E10: an until that is marked 1 and never comes true has no witness at all. */
static void no_witness_serves(void)
{
    bool all_refused = true;
    start_rule(&rule, 3, 1);
    write_comparison(&rule, 0, LESS, reading(0, 0), constant(9));
    write_comparison(&rule, 1, LESS, reading(0, 0), constant(3));
    write_binary(&rule, 2, UNTIL, 0, 1);
    start_plan(&plan, 1, 0, 1);
    write_reading(&plan, 0, 0, 5);
    start_marks(&marks, 3, 1);
    *mark_byte(&marks, 0, 0) = 1;
    *mark_byte(&marks, 2, 0) = 1;
    for (unsigned witness = 0; witness < 65536; witness++) {
        put2(witness_bytes(&marks, 2), witness);
        struct asked asked = ask_check(slice_of(&rule), slice_of(&plan), slice_of(&marks));
        all_refused &= asked.answer == refusal(11, 2, 0) && asked.unchanged;
    }
    expect("E10 every witness is refused", all_refused);
}

/* An atom on the one row of its plan is marked as it is judged, unless it
   changes. */
static void make_judged(const struct example *e)
{
    struct plan p;
    if (decode_plan(slice_of(&plan), 1, &p) != 0 || p.rows != 1)
        return;
    start_marks(&marks, 1, 1);
    *mark_byte(&marks, 0, 0) = e->answer == ALWAYS_TRUE;
    uint64_t checked = e->answer == CHANGES ? refusal(10, 0, 0) : e->answer;
    expect_make_as_checked(e->name, &rule, &plan, &marks, checked);
}

void test_examples(void)
{
    for (size_t i = 0; i < example_count; i++) {
        const struct example *e = &examples[i];
        read_hex(&rule, e->rule);
        read_hex(&plan, e->plan);
        if (e->marks == NULL) {
            expect_judge(e->name, &rule, &plan, 0, e->row, e->answer);
            make_judged(e);
            continue;
        }
        read_hex(&marks, e->marks);
        expect_check(e->name, &rule, &plan, &marks, e->answer);
        expect_make_as_checked(e->name, &rule, &plan, &marks, e->answer);
    }
    no_witness_serves();
}
