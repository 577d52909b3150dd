/*
 * endless_run.h: the C interface of the endless run checker.
 *
 * The checker answers questions about a rule and a plan. A rule is a formula
 * of linear temporal logic over comparisons of readings (CLTLB over the
 * integers with < and =), over windows of the week, in which a reading in
 * minutes lies or does not, and over tests whether a reading is pinned.
 * Comparisons, windows and these tests are the atoms of a rule: the parts whose
 * truth is read off the run. A plan is a finite description of an endless run:
 * start rows, then cycle rows that come again for ever, where each coming again
 * ("pass") adds a drift to every reading. It may have lead-in rows as well:
 * readings taken before the run begins, for atoms that look back. And it has a
 * top for each channel, the highest count of its sensor: a reading at its top
 * or above is pinned, and stands for no number. A mark table claims the truth
 * of every part of the rule on every row of the plan, from the run's beginning
 * on.
 *
 * endless_run_check() tells whether a mark table is right, on the whole of the
 * endless run. endless_run_judge() tells whether one atom of the rule has the
 * same truth on every pass of one row. endless_run_make() makes the mark table
 * of a rule and a plan, for whoever has no marks of their own.
 * endless_run_settle() turns a plan for which none can be made into one of the
 * same run for which one can, by laying out passes of the cycle as start rows.
 *
 * The five functions endless_run_live_..() have no plan. Rows arrive one at a
 * time, and after each of them a state, which the caller lends, tells the truth
 * of up to four rules on the row just read.
 *
 *
 * THE THREE LAYOUTS
 *
 * docs/FORMATS.md is the full description. All multi-byte fields are
 * little-endian, and signed ones are two's complement.
 *
 *   rule   N, V             2 bytes each: parts (1 to 64), channels (1 to 8)
 *          kinds            N bytes, each 1 to 14
 *          operands         N times 12 bytes
 *          length           4 + 13 * N
 *
 *   plan   V, P, C, L       2 bytes each: channels (1 to 8), start rows (0 or
 *                           more), cycle rows (1 or more), lead-in rows (0 to
 *                           4); the number of rows W = P + C, which does not
 *                           count L, is at most 256
 *          tops             V signed 4-byte numbers, 0 or more: the top of each
 *                           channel, 0 for none
 *          readings         (L + W) * V signed 4-byte numbers, row after row:
 *                           the L lead-in rows, then rows 0 to W - 1
 *          drifts           (L + W) * V signed 4-byte numbers, in the same
 *                           order, 0 in lead-in rows and start rows
 *          length           8 + 4 * V + 8 * V * (L + W)
 *
 *   marks  N, W             2 bytes each: as in the rule and in the plan
 *          marks            N * W bytes, part after part: 1 true, 0 false
 *          witnesses        N times 2 bytes: a row, or 65535 for none
 *          length           4 + N * W + 2 * N
 *
 * Parts and rows are numbered from 0. The last part is the whole rule. Row 0
 * is position 0 of the run. The lead-in rows lie before it, at positions -L to
 * -1 in this order, so that the last of them comes just before row 0. Shifted
 * terms read them; Y, Z, S and T begin at position 0 and look no further back.
 * Lead-in rows have no number: marks, witnesses, judge and refusals speak of
 * rows 0 to W - 1.
 *
 * What a reading shows. Its exact value at a position is the row's reading plus
 * the pass times its drift, as a whole number without limit. Where the top of
 * its channel is 0 it shows that number. Where the top is another, it does so
 * below the top only; at or above the top it is pinned, on a lead-in row, a
 * start row or a cycle row alike. Before position -L there is nothing. A
 * comparison is false where one of its terms is pinned or lies before position
 * -L, x = x too; so is a window. A part of kind 14 is true exactly where its
 * reading is pinned, and so false before position -L. Constants are never
 * pinned. All other parts go by the truth of the parts that they name: "not" of
 * a comparison with a pinned term is true.
 *
 *
 * WHAT HOLDS FOR ALL FUNCTIONS
 *
 * Arguments. A slice is a pointer to its first byte and its length in bytes.
 * Every length is allowed, and so is every content: bytes that are no rule, no
 * plan or no mark table are refused, never trusted. A slice of length 0 is an
 * empty one; its pointer is not followed and may be null. A pointer that comes
 * with a length other than 0 must lead to that many readable bytes, and for
 * the buffer of endless_run_make() and the two of endless_run_settle() to as
 * many that may be written as well. Slices need no alignment. Those that are
 * only read may overlap; a buffer must overlap neither the rule nor the plan,
 * nor the other buffer of the same call. A live state is lent by a pointer to a
 * whole struct endless_run_live, which may not be null and is aligned as C
 * aligns that struct; no slice of the same call may overlap it.
 *
 * Effects. The one effect is that endless_run_make() and endless_run_settle()
 * write to the buffers lent to them, and the live functions but for
 * endless_run_live_answer() to the state, as said there. Every other byte lent is
 * read during the call and never written; check, judge and live answer write
 * nothing at all. Nothing is allocated, nothing is kept between calls but in a
 * state, no file is touched and errno is left alone. The same bytes always give
 * the same answer. What a buffer held before the call counts for nothing,
 * neither in the answer nor in what is written.
 *
 * Threads. There is no shared state. Any number of threads may call at the
 * same time, also on the same bytes, as long as nobody writes to them during a
 * call. So each call of endless_run_make() and of endless_run_settle() needs
 * buffers of its own, and so does a live state that is being written.
 *
 * Time. Every call returns. The time is bounded by the sizes N, V, L and W, for
 * endless_run_settle() with 256 for W. It does not grow with the pass on which
 * an atom changes; settle looks at numbers of passes up to some twice those that
 * it lays out, and at none for which there is no room. That of a live call is
 * bounded by V and the parts of the rules in their places, and does not grow
 * with the rows that have come.
 *
 * Platform. The library is compiled for x86-64 Linux, with the usual calling
 * convention of C there.
 *
 * Answers. An answer is one number:
 *
 *   accepted, judged, made, settled    the value itself, below 2^32
 *   done, told (live functions)        the value itself, below 2^32
 *   refused                            number * 2^32 + part * 2^16 + row
 *
 * where the refusal's number is one of enum endless_run_refusal, and part and
 * row are 0 where the refusal names none. The functions at the end of this
 * file take an answer apart and put it into words. They are inline and need no
 * library.
 */
#ifndef ENDLESS_RUN_H
#define ENDLESS_RUN_H

#include <stddef.h>
#include <stdint.h>

#ifdef __cplusplus
extern "C" {
#endif

/*
 * The version of this interface: of the layouts, of the answers and of what is
 * declared here. It is raised by 1 with each change of a layout, of the meaning
 * of an answer or of the interface that a caller could notice. In version 5
 * refusal 10 of endless_run_check() comes before 9 of the same part; what is
 * accepted is as in version 4. In version 6 a part may be of kind 13, a window
 * of the week; a rule without such a part is answered as in version 5. In
 * version 7 a plan has tops behind its sizes, and a part may be of kind 14,
 * true where a reading is pinned; a rule without such a part, on a plan whose
 * tops are all 0, is answered as in version 6 on that plan without them. The
 * buffer for the plan of endless_run_settle() is 32 bytes longer. In version 8
 * its scratch has 2048 bytes, where it had 16516: the old length is refused with
 * 13, and in one of the new length the answers and the plan are as in version 7.
 * The live functions, with their state and refusals 16 and 17, come with version
 * 9: until then they may change.
 */
#define ENDLESS_RUN_VERSION 8

/* The kind byte of a part. The comments give its operand: two terms, one part,
   two parts a and b in this order, a term and two minutes of the week, or a
   term alone. */
enum endless_run_kind {
    ENDLESS_RUN_KIND_LESS = 1,            /* two terms: left < right */
    ENDLESS_RUN_KIND_EQUAL = 2,           /* two terms: left = right */
    ENDLESS_RUN_KIND_NOT = 3,             /* one part */
    ENDLESS_RUN_KIND_AND = 4,             /* two parts */
    ENDLESS_RUN_KIND_OR = 5,              /* two parts */
    ENDLESS_RUN_KIND_NEXT = 6,            /* one part: X a */
    ENDLESS_RUN_KIND_UNTIL = 7,           /* two parts: a U b */
    ENDLESS_RUN_KIND_RELEASE = 8,         /* two parts: a R b */
    ENDLESS_RUN_KIND_YESTERDAY = 9,       /* one part: Y a */
    ENDLESS_RUN_KIND_WEAK_YESTERDAY = 10, /* one part: Z a */
    ENDLESS_RUN_KIND_SINCE = 11,          /* two parts: a S b */
    ENDLESS_RUN_KIND_TRIGGER = 12,        /* two parts: a T b */
    ENDLESS_RUN_KIND_WINDOW = 13,         /* a term, from and to */
    ENDLESS_RUN_KIND_PINNED = 14          /* one term: it is at its top or above */
};

/* The form byte of a term. */
enum endless_run_form {
    ENDLESS_RUN_FORM_CONSTANT = 0, /* the number is the constant */
    ENDLESS_RUN_FORM_READING = 1   /* the number is the channel that is read */
};

/* The shift code of a reading at its own position, and of every constant. The
   code of a shift is ENDLESS_RUN_NO_SHIFT + shift, for -4 to 4 positions. */
#define ENDLESS_RUN_NO_SHIFT 4

/* The minutes of a week. The operand of a window is a term of 6 bytes, which
   must be a reading, then from and to of 2 bytes each, 0 to 10079 and not the
   same, and 2 zero bytes. The window is true where the remainder of the reading
   by 10080, taken from 0 upward also for negative readings, lies in it: from
   belongs to it and to does not. Where from is above to, it runs over the end
   of the week. */
#define ENDLESS_RUN_WEEK 10080

/* The top of a channel that has none: its readings are never pinned. The operand
   of a part of kind 14 is a term of 6 bytes, which must be a reading, then 6 zero
   bytes. */
#define ENDLESS_RUN_NO_TOP 0

/* The witness of a part that is asked for none. */
#define ENDLESS_RUN_NO_WITNESS 65535

/* The largest sizes: N, V, L, and W = P + C. */
#define ENDLESS_RUN_MOST_PARTS 64
#define ENDLESS_RUN_MOST_CHANNELS 8
#define ENDLESS_RUN_MOST_LEAD 4
#define ENDLESS_RUN_MOST_ROWS 256

/* The length in bytes, of type size_t, that a rule, a plan or a mark table has
   by its sizes N, V, L and W = P + C. A constant expression where the sizes
   are. Each size is evaluated once, and is not held against its range. */
#define ENDLESS_RUN_RULE_LENGTH(parts) (4 + 13 * (size_t)(parts))
#define ENDLESS_RUN_PLAN_LENGTH(channels, lead, rows) \
    (8 + (size_t)(channels) * (4 + 8 * ((size_t)(lead) + (size_t)(rows))))
#define ENDLESS_RUN_MARKS_LENGTH(parts, rows) (4 + (size_t)(parts) * ((size_t)(rows) + 2))

/* The largest lengths in bytes: 836, 16680 and 16516. A longer rule, plan, mark
   table or buffer for one is always refused. */
#define ENDLESS_RUN_LONGEST_RULE (4 + 13 * ENDLESS_RUN_MOST_PARTS)
#define ENDLESS_RUN_LONGEST_PLAN \
    (8 + ENDLESS_RUN_MOST_CHANNELS * (4 + 8 * (ENDLESS_RUN_MOST_LEAD + ENDLESS_RUN_MOST_ROWS)))
#define ENDLESS_RUN_LONGEST_MARKS \
    (4 + ENDLESS_RUN_MOST_PARTS * ENDLESS_RUN_MOST_ROWS + 2 * ENDLESS_RUN_MOST_PARTS)

/* The lengths in bytes of the two buffers of endless_run_settle(): 16680, room
   for the longest plan, and 2048, 8 for each of the most rows. Both are the same
   for every plan, however few rows it has. */
#define ENDLESS_RUN_LAID_OUT_LENGTH ENDLESS_RUN_LONGEST_PLAN
#define ENDLESS_RUN_SETTLE_SCRATCH_LENGTH (8 * ENDLESS_RUN_MOST_ROWS)

/* The places of a live state, numbered from 0, and its size in bytes. */
#define ENDLESS_RUN_PLACES 4
#define ENDLESS_RUN_LIVE_SIZE 4024

/*
 * The refusals. Each function looks for its own in the order of their numbers,
 * but for 10 before 9, and an answer carries the first that applies:
 *
 *   endless_run_check()         1 to 11
 *   endless_run_judge()         1 to 6, 12
 *   endless_run_make()          1 to 6, 13, 14
 *   endless_run_settle()        1 to 6, 13, 15
 *   endless_run_live_start()    4
 *   endless_run_live_add()      1 to 3, 16, 17
 *   endless_run_live_drop()     17
 *   endless_run_live_row()      17
 *   endless_run_live_answer()   17
 *
 * Refusals 10, 9 and 11, in this order, are looked for on one part before the
 * next part, the lowest part first. So a part that does not close and has a
 * wrong mark too is refused with 10: the plan comes first, the marks after it.
 * "Part" and "row" say what the refusal names.
 */
enum endless_run_refusal {
    /* The rule has fewer than 4 bytes, N or V is outside its range, or the
       length is not the one that its sizes give. */
    ENDLESS_RUN_RULE_SIZES = 1,

    /* A kind byte is not 1 to 14. Part: the lowest such part. */
    ENDLESS_RUN_KIND = 2,

    /* An operand breaks the layout: a form, a shift code, a channel, a part
       that is not lower than its user, a padding byte other than 0, in a
       window or a part of kind 14 a constant for its term, or in a window a
       from or to above 10079, or a from that is the same as to. Part: the
       lowest such part. */
    ENDLESS_RUN_OPERAND = 3,

    /* The plan has fewer than 8 bytes, V, C, L or W is outside its range, the
       length is not the one that its sizes give, or a top is negative, also
       that of a channel which the rule never reads. Of a live state: V is
       outside 1 to 8, there are not V tops, or one is negative. */
    ENDLESS_RUN_PLAN_SIZES = 4,

    /* The plan's V differs from the rule's. */
    ENDLESS_RUN_CHANNELS = 5,

    /* A lead-in row or a start row has a drift other than 0. Row: 0 if a
       lead-in row has one, whatever the start rows have; else the lowest such
       start row. So row 0 may also stand for a lead-in row. */
    ENDLESS_RUN_START_DRIFT = 6,

    /* The mark table has fewer than 4 bytes, another N than the rule, another
       W than the plan, or a length that is not the one that its sizes give. */
    ENDLESS_RUN_MARK_SIZES = 7,

    /* A mark byte is above 1. Part and row: the lowest such part, and the
       lowest such row of that part. */
    ENDLESS_RUN_MARK_BYTE = 8,

    /* A mark of a part that closes breaks its equation. The equation of an
       atom is its truth at pass 0; that of any other part ties the mark to the
       marks of the parts that it names, on this row or on the row beside it,
       and for U, R, S and T also to the part's own mark on the row beside it.
       Part; row: the lowest row on which mark and equation differ. That mark
       is false, but for U and R the false one may instead be the part's own
       mark on the row after. */
    ENDLESS_RUN_EQUATION = 9,

    /* A part does not close: its truth on the rows does not carry over to the
       following passes, whatever its own marks say. The plan or the rule is at
       fault, and no marks can help: with a buffer of the right length
       endless_run_make() answers 14 for the same part and row. Part; row: for
       an atom the lowest cycle row on which it changes, for every other part
       row P. */
    ENDLESS_RUN_CLOSING = 10,

    /* A witness is not as it should be: an "until" marked 1 on row W - 1 names
       a cycle row where its second part is marked 1, a "release" marked 0
       there names one where its second part is marked 0, and every other part
       has 65535. Part. */
    ENDLESS_RUN_WITNESS = 11,

    /* The part or the row that the caller of endless_run_judge() named is
       absent, or that part is no atom: no comparison, no window and not of kind
       14. */
    ENDLESS_RUN_ABSENT = 12,

    /* The length of the buffer lent to endless_run_make() is not the one that
       the mark table has, ENDLESS_RUN_MARKS_LENGTH(N, W); or endless_run_settle()
       is lent a laid_out that is not ENDLESS_RUN_LAID_OUT_LENGTH bytes long or a
       scratch that is not ENDLESS_RUN_SETTLE_SCRATCH_LENGTH. A longer buffer is
       refused as well. */
    ENDLESS_RUN_BUFFER_LENGTH = 13,

    /* A part does not close, so that no mark table of this rule and this plan
       is accepted: its truth on a cycle row is not the same on all passes.
       Part: the lowest such part, also one that nobody names; row: as with
       refusal 10. This is the one refusal of endless_run_make() that writes:
       every byte of the buffer is 0 after it. */
    ENDLESS_RUN_NO_TABLE = 14,

    /* No number of passes can be laid out after which every part closes, with
       256 rows or fewer and with all readings in 4 bytes. This is the one
       refusal of endless_run_settle() that writes: every byte of the scratch is
       0 after it. */
    ENDLESS_RUN_NO_LAYOUT = 15,

    /* The rule cannot be watched on this state: one of its parts, also one that
       nobody names, is X, U or R or has a term with a shift above 0, or its V is
       not the state's. */
    ENDLESS_RUN_NOT_LIVE = 16,

    /* The place is above 3, is taken when a rule is added to it or is empty when
       one is dropped from it; or a row has other than V readings. */
    ENDLESS_RUN_PLACE_OR_ROW = 17
};

/* What endless_run_judge() finds. */
enum endless_run_judged {
    ENDLESS_RUN_ALWAYS_FALSE = 0, /* false on every pass */
    ENDLESS_RUN_ALWAYS_TRUE = 1,  /* true on every pass */
    ENDLESS_RUN_CHANGES = 2       /* true on one pass and false on another */
};

/* What endless_run_live_answer() tells of a place. */
enum endless_run_watched {
    ENDLESS_RUN_LIVE_FALSE = 0,   /* the rule is false on the row that came last */
    ENDLESS_RUN_LIVE_TRUE = 1,    /* it is true there */
    ENDLESS_RUN_LIVE_NOT_YET = 2, /* no row has come since the rule was added */
    ENDLESS_RUN_LIVE_EMPTY = 3    /* there is no rule in the place */
};

/*
 * Check a mark table.
 *
 *   rule, rule_len      the rule
 *   plan, plan_len      the plan
 *   marks, marks_len    the mark table for this rule and this plan
 *
 * Returns
 *
 *   1           accepted, and the whole rule is true at position 0 of the run
 *   0           accepted, and the whole rule is false at position 0
 *   otherwise   a refusal, with number 1 to 11
 *
 * A table is accepted exactly when all of this is so: every part has on each
 * cycle row the same truth on all passes, without end; every mark is the truth
 * of its part at the first position of its row; every witness is in order. So
 * an accepted mark is the truth of its part each time its row comes.
 *
 * "Accepted" says that the marks are right, and not that the rule holds: look
 * at the verdict for that.
 */
uint64_t endless_run_check(const uint8_t *rule, size_t rule_len,
                           const uint8_t *plan, size_t plan_len,
                           const uint8_t *marks, size_t marks_len);

/*
 * Judge one atom, a comparison, a window or a part of kind 14, on one row, over
 * all passes.
 *
 *   rule, rule_len      the rule
 *   plan, plan_len      the plan
 *   part                the number of the atom in the rule
 *   row                 the number of the row in the plan
 *
 * Every value of part and row is allowed; one that is absent is refused.
 *
 * Returns
 *
 *   0           ENDLESS_RUN_ALWAYS_FALSE: false on every pass
 *   1           ENDLESS_RUN_ALWAYS_TRUE: true on every pass
 *   2           ENDLESS_RUN_CHANGES: two passes differ
 *   otherwise   a refusal, with number 1 to 6 or 12
 *
 * A start row comes once, so there the answer is never "changes". Readings are
 * whole numbers without limit: they never wrap, on however late a pass, and are
 * held against their tops as such. So a reading that drifts up to its top on
 * however late a pass, or down from it, may make an atom change. Where a
 * shifted reading lies before position 0 it is that of a lead-in row, and where
 * it lies before position -L, before all lead-in rows, the atom is false. A
 * lead-in row cannot be judged: row W and every row above is absent, however
 * many lead-in rows the plan has.
 */
uint64_t endless_run_judge(const uint8_t *rule, size_t rule_len,
                           const uint8_t *plan, size_t plan_len,
                           uint64_t part, uint64_t row);

/*
 * Make the mark table of a rule and a plan.
 *
 *   rule, rule_len      the rule
 *   plan, plan_len      the plan
 *   marks, marks_len    the buffer that the mark table is written to; its
 *                       length is ENDLESS_RUN_MARKS_LENGTH(N, W), no more and
 *                       no less
 *
 * Returns
 *
 *   1           made, and the whole rule is true at position 0 of the run
 *   0           made, and the whole rule is false at position 0
 *   otherwise   a refusal, with number 1 to 6, 13 or 14
 *
 * When the buffer is written:
 *
 *   made                 every byte: N and W, every mark, every witness
 *   refusal 14           every byte, with 0, so that it holds no table at all
 *   any other refusal    no byte: the buffer is as it was before the call
 *
 * No byte outside the buffer is ever written.
 *
 * A table made here is always accepted by endless_run_check(), and the answer
 * is the verdict that check then gives. Where more than one row serves as a
 * witness, the table has the lowest; a start row never serves. Once refusals 1
 * to 6 and 13 are cleared, the answer is refusal 14 exactly when no bytes
 * whatever would be accepted as the mark table of this rule and this plan.
 *
 * "Made" says that there is a table, and not that the rule holds: look at the
 * verdict for that.
 */
uint64_t endless_run_make(const uint8_t *rule, size_t rule_len,
                          const uint8_t *plan, size_t plan_len,
                          uint8_t *marks, size_t marks_len);

/*
 * Settle a plan: lay out the fewest passes of its cycle as start rows after
 * which every part of the rule closes, so that marks can be made.
 *
 *   rule, rule_len            the rule
 *   plan, plan_len            the plan
 *   laid_out, laid_out_len    the buffer that the new plan is written to; its
 *                             length is ENDLESS_RUN_LAID_OUT_LENGTH, no more
 *                             and no less
 *   scratch, scratch_len      a buffer to work in; its length is
 *                             ENDLESS_RUN_SETTLE_SCRATCH_LENGTH, no more and no
 *                             less
 *
 * Returns
 *
 *   0 to 255    settled: so many passes are laid out. 0 is an answer like the
 *               others: every part closes as it is, and the new plan is a copy
 *   otherwise   a refusal, with number 1 to 6, 13 or 15
 *
 * When the buffers are written:
 *
 *   settled              the new plan at the front of laid_out, the bytes
 *                        behind it keep their values; every byte of the
 *                        scratch, with 0
 *   refusal 15           no byte of laid_out; every byte of the scratch, with 0
 *   any other refusal    no byte: both buffers are as they were before the call
 *
 * No byte outside the two buffers is ever written. Neither may overlap the
 * rule, the plan or the other.
 *
 * With n passes laid out the new plan has the sizes V, P + n * C, C and L. Its
 * tops and its lead-in rows are copied. Row t, start row or cycle row, has the
 * readings at position t of the first plan's run, the exact ones also where
 * they are pinned. The drifts of the cycle rows stay; all others are 0. So it
 * has the same reading as the first plan at every position, lead-in included,
 * and each part of the rule has the same truth there. It has P + n * C + C rows
 * and ENDLESS_RUN_PLAN_LENGTH(V, L, P + n * C + C) bytes, as the sizes at its
 * front say: endless_run_plan_length(laid_out) is that length, to be given on
 * as plan_len.
 *
 * A part closes when it has on each cycle row the same truth on all passes.
 * Every part counts, also one that nobody names. So for the new plan
 * endless_run_make() makes a table, and with fewer passes laid out it would
 * answer 14. A window that a drift takes a reading into and out of comes and
 * goes for ever, and closes with no number of passes laid out, unless the
 * reading rises to a top. Where all drifts are 0, the answer is at most 4 plus
 * the deepest nesting of Y, Z, S and T in any part, if there is room for as
 * many passes. Once refusals 1 to 6 and 13 are cleared, the answer is refusal
 * 15 exactly when no number n works with which the new plan has 256 rows or
 * fewer and all its readings fit 4 bytes, also pinned ones and those of
 * channels that the rule never reads.
 */
uint64_t endless_run_settle(const uint8_t *rule, size_t rule_len,
                            const uint8_t *plan, size_t plan_len,
                            uint8_t *laid_out, size_t laid_out_len,
                            uint8_t *scratch, size_t scratch_len);

/*
 * A live state: V, the tops, what of the rows is still needed, and four places
 * for rules, numbered 0 to 3, each empty or with its own copy of a rule.
 *
 * It is plain data without pointers: it may be copied or moved as a whole between
 * two calls, and nothing has to be given back. Only the five functions below look
 * inside. Two states share nothing. A state begins with endless_run_live_start().
 * Any other bytes are taken too: every call returns on them and writes nothing
 * beside the state, but what is then answered is left open.
 */
struct endless_run_watch {
    uint64_t parts;     /* of the rule in this place; 0 for none */
    uint64_t age;       /* the rows since its add, 5 for more */
    uint8_t truths[64]; /* of its parts on the newest row */
};

struct endless_run_live {
    uint64_t channels;
    uint32_t tops[8];
    uint64_t readings[40]; /* the newest five rows */
    struct endless_run_watch watches[ENDLESS_RUN_PLACES];
    uint8_t rules[ENDLESS_RUN_PLACES * 836]; /* the copies of the rules */
};

#ifdef __cplusplus
static_assert(sizeof(struct endless_run_live) == ENDLESS_RUN_LIVE_SIZE, "size of a live state");
#else
_Static_assert(sizeof(struct endless_run_live) == ENDLESS_RUN_LIVE_SIZE, "size of a live state");
#endif

/*
 * Begin with an empty state: four empty places, and no rows.
 *
 *   state               the state, whatever it holds; one in use is emptied
 *   channels            V, the number of channels, 1 to 8
 *   tops, tops_len      V signed 4-byte numbers, 0 or more: the top of each
 *                       channel, 0 for none
 *
 * Every value of channels is allowed, and held against 1 to 8 as a whole.
 *
 * Returns
 *
 *   0           done: the state is empty, for V channels with these tops, which
 *               it keeps until it is started again
 *   otherwise   refusal 4: V is outside 1 to 8, tops_len is not 4 * V, or a top is
 *               negative. Every byte is as it was: a state that was there can be
 *               used on
 */
uint64_t endless_run_live_start(struct endless_run_live *state, uint64_t channels,
                                const uint8_t *tops, size_t tops_len);

/*
 * Add a rule in an empty place.
 *
 *   state               the state
 *   place               the place, 0 to 3; every value is allowed
 *   rule, rule_len      the rule, of the state's V; its bytes are copied
 *
 * Returns
 *
 *   0           done: the rule is in its place. The next row is its position 0;
 *               until that has come the place answers "not yet"
 *   otherwise   a refusal, the first that applies: 1 to 3 as of
 *               endless_run_check(), with the part that they name; 16 if the rule
 *               has X, U, R or a shift above 0 in any part, or another V than the
 *               state; 17 if the place is above 3 or taken. 16 and 17 carry part 0
 *               and row 0. Every byte of the state is as it was
 *
 * Rows that came before are not seen by this rule: they are no lead-in, and its
 * shifts do not reach them, though other rules see them.
 */
uint64_t endless_run_live_add(struct endless_run_live *state, uint64_t place,
                              const uint8_t *rule, size_t rule_len);

/*
 * Drop the rule of a place.
 *
 * Returns
 *
 *   0           done: the place is empty, and what is left of the rule's bytes
 *               counts for nothing. The same rule added again begins at position 0
 *   otherwise   refusal 17: the place is above 3, or empty. Every byte of the
 *               state is as it was
 */
uint64_t endless_run_live_drop(struct endless_run_live *state, uint64_t place);

/*
 * Take the row that was just read.
 *
 *   state                     the state
 *   readings, readings_len    V signed 4-byte numbers: the reading of each channel
 *
 * Returns
 *
 *   0           done: every rule in a place has its truth on this row. A row is
 *               taken also when all places are empty
 *   otherwise   refusal 17: readings_len is not 4 * V. Every byte of the state is
 *               as it was: the row has not come, and the next one takes its
 *               position
 *
 * There may be any number of rows.
 */
uint64_t endless_run_live_row(struct endless_run_live *state, const uint8_t *readings,
                              size_t readings_len);

/*
 * Tell the truth of the rule in a place, on the row that came last.
 *
 * Returns
 *
 *   0           ENDLESS_RUN_LIVE_FALSE
 *   1           ENDLESS_RUN_LIVE_TRUE
 *   2           ENDLESS_RUN_LIVE_NOT_YET: no row has come since the rule was added
 *   3           ENDLESS_RUN_LIVE_EMPTY: the place is empty
 *   otherwise   refusal 17: the place is above 3
 *
 * The truth is that of the last part of the rule, over the rows since it was
 * added: the first of these is position 0, and the one that came last is the
 * position asked for. A reading at or above its top is pinned, also on the rows
 * that a shift reaches. Before position 0 there is nothing: a comparison or a
 * window with a term there is false, and so is a part of kind 14.
 *
 * Nothing is written, and the state may be asked as often as one likes.
 */
uint64_t endless_run_live_answer(const struct endless_run_live *state, uint64_t place);

/* 1 if the answer is a refusal; 0 if it is a verdict, a finding, a number of
   passes, done or what is told of a place. */
static inline int endless_run_is_refusal(uint64_t answer)
{
    return (answer >> 32) != 0;
}

/* The refusal's number, one of enum endless_run_refusal; 0 if the answer is no
   refusal. */
static inline unsigned endless_run_number(uint64_t answer)
{
    return (unsigned)(answer >> 32);
}

/* The part that a refusal names, 0 to 63; 0 if it names none. Of no use for an
   answer that is no refusal: 0 then. */
static inline unsigned endless_run_part(uint64_t answer)
{
    return endless_run_is_refusal(answer) ? (unsigned)((answer >> 16) & 0xFFFF) : 0;
}

/* The row that a refusal names, 0 to 255; 0 if it names none. Of no use for an
   answer that is no refusal: 0 then. */
static inline unsigned endless_run_row(uint64_t answer)
{
    return endless_run_is_refusal(answer) ? (unsigned)(answer & 0xFFFF) : 0;
}

/* The verdict in an answer of endless_run_check() or endless_run_make(): 1 if
   the table is accepted or made and the whole rule is true at position 0; 0 if
   it is accepted or made and the rule is false there, and also if the answer is
   a refusal. */
static inline int endless_run_verdict(uint64_t answer)
{
    return answer == 1;
}

/* The finding in an answer of endless_run_judge(): one of enum
   endless_run_judged; -1 if the answer is a refusal, or no answer at all. */
static inline int endless_run_finding(uint64_t answer)
{
    return answer <= ENDLESS_RUN_CHANGES ? (int)answer : -1;
}

/* The number of passes in an answer of endless_run_settle(), 0 to 255; -1 if
   the answer is a refusal, or no answer at all. */
static inline int endless_run_passes(uint64_t answer)
{
    return answer < ENDLESS_RUN_MOST_ROWS ? (int)answer : -1;
}

/* What an answer of endless_run_live_answer() tells: one of enum
   endless_run_watched; -1 if the answer is a refusal, or no answer at all. */
static inline int endless_run_told(uint64_t answer)
{
    return answer <= ENDLESS_RUN_LIVE_EMPTY ? (int)answer : -1;
}

/* The length in bytes that a plan has by the sizes in its first 8 bytes, which
   must be there: of the new plan at the front of laid_out. The sizes are not
   held against their ranges. */
static inline size_t endless_run_plan_length(const uint8_t *plan)
{
    size_t channels = plan[0] + 256u * plan[1], start = plan[2] + 256u * plan[3];
    size_t cycle = plan[4] + 256u * plan[5], lead = plan[6] + 256u * plan[7];
    return ENDLESS_RUN_PLAN_LENGTH(channels, lead, start + cycle);
}

/* What endless_run_message(), endless_run_judge_message(),
   endless_run_make_message() and endless_run_settle_message() say of a refusal,
   by its number; of any other number, that it is no answer. */
static inline const char *endless_run_refusal_message(unsigned number)
{
    switch (number) {
    case ENDLESS_RUN_RULE_SIZES:
        return "the rule's sizes or its length are wrong";
    case ENDLESS_RUN_KIND:
        return "a kind byte of the rule is not 1 to 14";
    case ENDLESS_RUN_OPERAND:
        return "an operand of the rule breaks the layout";
    case ENDLESS_RUN_PLAN_SIZES:
        return "the plan's sizes or its length are wrong, or a top is negative";
    case ENDLESS_RUN_CHANNELS:
        return "the plan's number of channels is not the rule's";
    case ENDLESS_RUN_START_DRIFT:
        return "a lead-in or start row of the plan has a drift";
    case ENDLESS_RUN_MARK_SIZES:
        return "the mark table's sizes or its length are wrong";
    case ENDLESS_RUN_MARK_BYTE:
        return "a mark byte is above 1";
    case ENDLESS_RUN_EQUATION:
        return "a mark breaks its equation";
    case ENDLESS_RUN_CLOSING:
        return "a part's truth on a cycle row is not the same on all passes";
    case ENDLESS_RUN_WITNESS:
        return "a witness is not in order";
    case ENDLESS_RUN_ABSENT:
        return "there is no such part or row, or the part is no comparison, no window "
               "and no test for a pinned reading";
    case ENDLESS_RUN_BUFFER_LENGTH:
        return "a buffer's length is not the one it has to have";
    case ENDLESS_RUN_NO_TABLE:
        return "no mark table can be accepted: "
               "a part's truth on a cycle row is not the same on all passes";
    case ENDLESS_RUN_NO_LAYOUT:
        return "no number of passes laid out makes every part close, "
               "within 256 rows and readings of 4 bytes";
    default:
        return "not an answer of the checker";
    }
}

/*
 * A short English text for an answer of endless_run_check(), and for a refusal
 * of any of the functions.
 *
 * Takes every number and never returns null. The text is a string literal: it
 * lasts as long as the program and is not to be freed or written. It begins in
 * lower case, has no full stop or line end, and names no part and no row: each
 * refusal has one text, chosen by its number alone. A number that is neither 0
 * or 1 nor a refusal of number 1 to 15 gets a text that says that it is no
 * answer. The wording may change without a new version.
 */
static inline const char *endless_run_message(uint64_t answer)
{
    if (answer == 0)
        return "accepted: the marks are right, and the rule is false at position 0";
    if (answer == 1)
        return "accepted: the marks are right, and the rule is true at position 0";
    return endless_run_refusal_message(endless_run_number(answer));
}

/* The same for an answer of endless_run_judge(), where 0, 1 and 2 have another
   meaning. The texts of the refusals are those of endless_run_message(). */
static inline const char *endless_run_judge_message(uint64_t answer)
{
    switch (endless_run_finding(answer)) {
    case ENDLESS_RUN_ALWAYS_FALSE:
        return "always false, on every pass of the row";
    case ENDLESS_RUN_ALWAYS_TRUE:
        return "always true, on every pass of the row";
    case ENDLESS_RUN_CHANGES:
        return "changes, true on one pass of the row and false on another";
    default:
        return endless_run_refusal_message(endless_run_number(answer));
    }
}

/* The same for an answer of endless_run_make(), where 0 and 1 say that a table
   was made. The texts of the refusals are those of endless_run_message(). */
static inline const char *endless_run_make_message(uint64_t answer)
{
    if (answer == 0)
        return "made: the mark table is written, and the rule is false at position 0";
    if (answer == 1)
        return "made: the mark table is written, and the rule is true at position 0";
    return endless_run_refusal_message(endless_run_number(answer));
}

/* The same for an answer of endless_run_settle(), where 0 to 255 are numbers of
   passes. The texts of the refusals are those of endless_run_message(). */
static inline const char *endless_run_settle_message(uint64_t answer)
{
    if (answer == 0)
        return "settled: the plan is copied, as every part closes";
    if (endless_run_passes(answer) > 0)
        return "settled: the plan is written with passes laid out, and every part closes";
    return endless_run_refusal_message(endless_run_number(answer));
}

/* What endless_run_live_message() and endless_run_told_message() say of a refusal:
   of 4 as of a live state, of 16 and 17, and of the others what
   endless_run_message() says. */
static inline const char *endless_run_live_refusal_message(unsigned number)
{
    switch (number) {
    case ENDLESS_RUN_PLAN_SIZES:
        return "the live state's number of channels or of tops is wrong, or a top is negative";
    case ENDLESS_RUN_NOT_LIVE:
        return "the rule looks ahead, or has another number of channels than the live state";
    case ENDLESS_RUN_PLACE_OR_ROW:
        return "there is no such place, it is taken or empty, "
               "or a row has another number of readings than the live state has channels";
    default:
        return endless_run_refusal_message(number);
    }
}

/* The same for an answer of endless_run_live_start(), _add(), _drop() or _row(),
   where 0 says that it was done. The texts of the refusals are those of
   endless_run_message(), but for 4, 16 and 17. */
static inline const char *endless_run_live_message(uint64_t answer)
{
    if (answer == 0)
        return "done: the live state is as was asked";
    return endless_run_live_refusal_message(endless_run_number(answer));
}

/* The same for an answer of endless_run_live_answer(). The texts of the refusals
   are those of endless_run_live_message(). */
static inline const char *endless_run_told_message(uint64_t answer)
{
    switch (endless_run_told(answer)) {
    case ENDLESS_RUN_LIVE_FALSE:
        return "false on the row that came last";
    case ENDLESS_RUN_LIVE_TRUE:
        return "true on the row that came last";
    case ENDLESS_RUN_LIVE_NOT_YET:
        return "not yet: no row has come since the rule was added";
    case ENDLESS_RUN_LIVE_EMPTY:
        return "empty: there is no rule in the place";
    default:
        return endless_run_live_refusal_message(endless_run_number(answer));
    }
}

#ifdef __cplusplus
}
#endif

#endif
