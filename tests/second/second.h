/*
 * second.h: a second evaluator for the endless run checker.
 *
 * It gives the answers of check, judge, make, settle and the live functions by another
 * way than the checker and shares no code with it. Truth is found from the published sentences by
 * going through the positions of the run ("b at some j from t on, and a from t
 * to j - 1"), and an atom, a comparison, a window or a test for a pinned reading, is
 * judged by looking at its passes. Of rows that arrive one at a time it keeps them all.
 * It is made to be believed, not to be fast.
 *
 *   sheets.c    the three byte layouts, refusals 1 to 8
 *   run.c       readings and atoms at a position, judging by passes
 *   truth.c     the published truth of every part at every position
 *   answers.c   the answers of check and judge: refusal by refusal, and from
 *               the truth alone
 *   make.c      the mark table of the truth, and the answers of make
 *   settle.c    passes laid out one by one, and the answers of settle
 *   live.c      all rows kept, and the answers of the live functions
 */
#ifndef SECOND_H
#define SECOND_H

#include <stdbool.h>
#include <stddef.h>
#include <stdint.h>

enum {
    MOST_PARTS = 64,
    MOST_CHANNELS = 8,
    MOST_LEAD = 4,
    MOST_ROWS = 256,
    NO_WITNESS = 65535,
    WEEK = 10080 /* minutes */
};

/* Bytes lent by the caller. */
struct slice {
    const uint8_t *at;
    size_t len;
};

/* ---- The sheets, decoded (sheets.c) ---- */

enum kind {
    LESS = 1,
    EQUAL = 2,
    NOT = 3,
    AND = 4,
    OR = 5,
    NEXT = 6,
    UNTIL = 7,
    RELEASE = 8,
    YESTERDAY = 9,
    WEAK_YESTERDAY = 10,
    SINCE = 11,
    TRIGGER = 12,
    WINDOW = 13,
    PINNED = 14
};

/* A constant, or a channel read at a shifted position. */
struct term {
    bool is_reading;
    int shift;
    int32_t number; /* the constant, or the channel */
};

/* A part of the rule: a comparison of two terms; a window of the week, from a minute
   up to another, in which the left term lies or does not; whether the left term is
   pinned, the right one being the constant 0 as in a window; or an operator over the
   formulas of one or two lower parts. */
struct formula {
    enum kind kind;
    struct term left, right;
    int from, to;
    int a, b;
};

struct rule {
    int parts, channels;
    struct formula part[MOST_PARTS];
};

/* A stem of start rows, then a loop of cycle rows; and the readings of the lead-in
   rows before them, the earliest first. A top of 0 is none. */
struct plan {
    int channels, start, cycle, rows, lead;
    int32_t top[MOST_CHANNELS];
    int32_t lead_in[MOST_LEAD][MOST_CHANNELS];
    int32_t reading[MOST_ROWS][MOST_CHANNELS];
    int32_t drift[MOST_ROWS][MOST_CHANNELS];
};

struct marks {
    int parts, rows;
    bool mark[MOST_PARTS][MOST_ROWS];
    int witness[MOST_PARTS];
};

/* A part whose truth is read off the run: a comparison, a window, or "pinned". */
bool is_atom(enum kind kind);

bool names_two_parts(enum kind kind);

/* Y, Z, S or T. */
bool is_past(enum kind kind);

/* A refusal as a number: number * 2^32 + part * 2^16 + row. */
uint64_t refusal(int number, int part, int row);

/* Decode a sheet. Each returns 0, or the first refusal that applies to it:
   1 to 3 for the rule; 4 to 6 for the plan of a rule of that many channels; 7
   and 8 for the mark table. What is decoded is whole only where 0 comes back. */
uint64_t decode_rule(struct slice bytes, struct rule *rule);
uint64_t decode_plan(struct slice bytes, int channels, struct plan *plan);
uint64_t decode_marks(struct slice bytes, int parts, int rows, struct marks *marks);

/* ---- The run of a plan (run.c) ---- */

enum judged { ALWAYS_FALSE = 0, ALWAYS_TRUE = 1, CHANGES = 2 };

/* Does the atom hold at this position? */
bool atom_holds(const struct plan *plan, const struct formula *f, int64_t position);

/* Have both runs the same reading of every channel at this position, or neither one
   any? The plans have as many channels. */
bool runs_agree(const struct plan *a, const struct plan *b, int64_t position);

/* The position of a cycle row on a pass. */
int64_t position_of(const struct plan *plan, int row, int64_t pass);

/* A window on a cycle row that comes and goes for ever. */
#define NEVER_SETTLED INT64_MAX

/* From this pass on no shift reaches a start row, a lead-in row or what lies before
   them. */
enum { LINES_FROM = 4 };

/* The first pass, from LINES_FROM on, from which on the atom has one and the same truth
   on a cycle row, or NEVER_SETTLED. It may be as late as 2^37. */
int64_t settled_pass(const struct plan *plan, const struct formula *f, int row);

/* The last pass from LINES_FROM on at which the truth of the atom on a cycle row might
   turn, as a term comes to its top or leaves it, or the two terms of a comparison meet
   or part; LINES_FROM where there is none. */
int64_t last_turn(const struct plan *plan, const struct formula *f, int row);

/* Is the term, a reading or a constant, a pinned one at this position? */
bool is_pinned(const struct plan *plan, const struct term *term, int64_t position);

/* Do two passes of a cycle row differ, from this pass on, which is LINES_FROM at most? */
bool changes_from(const struct plan *plan, const struct formula *f, int row, int64_t pass);

/* The atom's truth on a row, over all passes. */
enum judged judge_by_passes(const struct plan *plan, const struct formula *f, int row);

/* ---- The published truth (truth.c) ---- */

/* The truth of one part at every position: written down below settled + C,
   and from there on that of C positions before. */
enum { COURSE_LONGEST = 32768 };
struct course {
    bool late; /* rests on an atom that changes later than was followed, or for ever */
    int64_t settled;
    uint8_t at[COURSE_LONGEST];
};

struct truth {
    struct rule rule;
    struct plan plan;
    struct course part[MOST_PARTS];
};

/* Find the truth of one part of the rule on the run of the plan; the truth of
   the parts that it names has been found. */
void find_truth(struct truth *truth, int part);

/* The published truth of a part at a position; not known where the part is
   late and the position lies far on. */
bool holds(const struct truth *truth, int part, int64_t position);

/* Has the part on each cycle row the same truth on all passes? */
bool is_row_periodic(const struct truth *truth, int part);

/* ---- Answers (answers.c) ---- */

/* The answer of check, refusal by refusal in the order of the list. */
uint64_t second_check(struct slice rule, struct slice plan, struct slice marks);

/* The answer of judge: refusals 1 to 6, then 12, then what the passes show. */
uint64_t second_judge(struct slice rule, struct slice plan, uint64_t part, uint64_t row);

/* Whether a table is accepted, found from the published truth alone and from
   no equation: every part is row-periodic, every mark is the truth at the
   first position of its row, every witness is in order. The verdict is the
   truth of the last part at position 0. NOT_A_TABLE: refusals 1 to 8 apply.
   OPEN: the lowest part at fault is not row-periodic, whatever its marks. FAULTY:
   it is, and a mark or its witness is wrong. The space is written over; it holds
   the truth of the parts up to that one. */
enum acceptance { NOT_A_TABLE, OPEN, FAULTY, ACCEPTED_FALSE, ACCEPTED_TRUE };
enum acceptance second_acceptance(struct truth *space, struct slice rule, struct slice plan,
                                  struct slice marks);

/* ---- Mark tables (make.c) ---- */

/* The length of the mark table of so many parts on so many rows. */
size_t table_length(int parts, int rows);

/* Write the mark table of the truth, of table_length() bytes: the truth at the
   first position of each row, and the lowest witnesses that serve. The truth of
   all parts has been found, and may be such that the table is refused. */
void write_table(const struct truth *truth, uint8_t *at);

/* The answer of make: refusals 1 to 6, then 13, then 14 for the lowest part that
   is not row-periodic, else the truth of the last part at position 0. The buffer
   of that length is left as make has to leave it. The space is written over;
   after 14 it holds the truth of the parts up to the one refused. */
uint64_t second_make(struct truth *space, struct slice rule, struct slice plan, uint8_t *buffer,
                     size_t len);

/* ---- Passes laid out (settle.c) ---- */

enum { LAID_OUT_LENGTH = 16680, SCRATCH_LENGTH = 2048 };

/* Lay out the first pass of the cycle as start rows. False, and the plan as it was,
   where it would have more than 256 rows or a reading of more than 32 bits. */
bool lay_out_pass(struct plan *plan);

/* The plan as bytes, and how many they are. */
size_t plan_length(const struct plan *plan);
void write_plan(const struct plan *plan, uint8_t *at);

/* The answer of settle: refusals 1 to 6, then 13, then the fewest passes laid out
   with which all parts are row-periodic, or 15. The two buffers of these lengths are
   left as settle has to leave them. The space is written over; after a number of
   passes it holds the new plan and its truth, and after 15 the last one that was
   tried. */
uint64_t second_settle(struct truth *space, struct slice rule, struct slice plan,
                       uint8_t *laid_out, size_t laid_out_len, uint8_t *scratch,
                       size_t scratch_len);

/* ---- Rows that arrive one at a time (live.c) ---- */

enum { PLACES = 4, MOST_ARRIVED = 110000 };

enum told { TOLD_FALSE = 0, TOLD_TRUE = 1, NOT_YET = 2, EMPTY = 3 };

/* A rule in its place: how many rows had come before it, and the truth of its parts at
   its positions, as far as it has been looked for. No later row changes it. For S and T
   also where the search for it stands (live.c). */
struct watched {
    bool present;
    int before;
    struct rule rule;
    int found;
    int latest_a[MOST_PARTS], latest_b[MOST_PARTS];
    uint8_t at[MOST_PARTS][MOST_ARRIVED];
};

/* What was asked of a live state, from an empty one on: every row that was taken, and
   the rules that are present. */
struct live {
    int channels;
    int32_t top[MOST_CHANNELS];
    int rows;
    int32_t row[MOST_ARRIVED][MOST_CHANNELS];
    struct watched place[PLACES];
};

/* The answers of the live functions. What is refused leaves the rows and rules as they
   are. At most MOST_ARRIVED rows are taken. */
uint64_t second_live_start(struct live *live, uint64_t channels, struct slice tops);
uint64_t second_live_add(struct live *live, uint64_t place, struct slice rule);
uint64_t second_live_drop(struct live *live, uint64_t place);
uint64_t second_live_row(struct live *live, struct slice readings);
uint64_t second_live_answer(struct live *live, uint64_t place);

/* Has the rule X, U, R or a shift above 0, in any part? */
bool looks_ahead(const struct rule *rule);

#endif
