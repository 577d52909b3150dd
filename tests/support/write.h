/*
 * write.h: writers of the three layouts, for tests and benchmarks.
 *
 * A sheet is a rule, a plan or a mark table as bytes. The writers know the
 * layouts and keep no rule of theirs: a test may write what a checker has to
 * refuse.
 */
#ifndef WRITE_H
#define WRITE_H

#include <stddef.h>
#include <stdint.h>

#include "../second/second.h"

/* More than the longest right sheet, so that wrong ones fit too. */
enum { SHEET_LONGEST = 20000 };

struct sheet {
    size_t len;
    uint8_t at[SHEET_LONGEST];
};

struct slice slice_of(const struct sheet *sheet);

/* Make a sheet shorter, or longer by zero bytes. At most SHEET_LONGEST. */
void resize(struct sheet *sheet, size_t len);

void put2(uint8_t *at, unsigned n);
void put4(uint8_t *at, int32_t n);

/* ---- Terms ---- */

struct term constant(int32_t number);
struct term reading(int channel, int shift);

/* ---- The rule sheet ---- */

/* All parts are "0 < 0" until they are written. */
void start_rule(struct sheet *rule, int parts, int channels);
void write_comparison(struct sheet *rule, int part, enum kind kind, struct term left,
                      struct term right);
void write_window(struct sheet *rule, int part, struct term term, int from, int to);
void write_pinned(struct sheet *rule, int part, struct term term);
void write_unary(struct sheet *rule, int part, enum kind kind, int a);
void write_binary(struct sheet *rule, int part, enum kind kind, int a, int b);
void write_formula(struct sheet *rule, int part, const struct formula *f);
uint8_t *kind_byte(struct sheet *rule, int part);
uint8_t *operand_bytes(struct sheet *rule, int part);

/* ---- The plan ---- */

/* All tops, readings and drifts are 0 until they are written. A plan has no lead-in rows
   unless they are asked for; they are rows -L to -1 here, as are their positions. */
void start_plan(struct sheet *plan, int channels, int start, int cycle);
void start_plan_with_lead(struct sheet *plan, int channels, int lead, int start, int cycle);
uint8_t *top_bytes(struct sheet *plan, int channel);
uint8_t *reading_bytes(struct sheet *plan, int row, int channel);
uint8_t *drift_bytes(struct sheet *plan, int row, int channel);
void write_top(struct sheet *plan, int channel, int32_t top);
void write_reading(struct sheet *plan, int row, int channel, int32_t reading);
void write_drift(struct sheet *plan, int row, int channel, int32_t drift);

/* ---- The mark table ---- */

/* All marks are 0 and all witnesses 65535 until they are written. */
void start_marks(struct sheet *marks, int parts, int rows);
uint8_t *mark_byte(struct sheet *marks, int part, int row);
uint8_t *witness_bytes(struct sheet *marks, int part);

/* The table of the published truth, with the lowest witnesses that serve. The
   truth of all parts has been found. */
void write_true_marks(struct sheet *marks, const struct truth *truth);

/* The table of the published truth of a right rule on a right plan. The space
   is written over. */
void write_true_marks_of(struct sheet *marks, struct truth *space, const struct sheet *rule,
                         const struct sheet *plan);

/* A row from P to W - 1 that serves as the witness of a part marked as in the
   table, or NO_WITNESS: the lowest one from a given row on, then from row P. */
int serving_witness(const struct sheet *marks, const struct rule *rule, const struct plan *plan,
                    int part, int from);

#endif
