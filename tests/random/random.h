/*
 * random.h: what random cases ask of closing (random_closing.c), of make
 * (random_make.c) and of settle (random_settle.c), and what is counted of windows
 * (random_windows.c) and of tops (random_tops.c).
 */
#ifndef RANDOM_H
#define RANDOM_H

#include "../second/second.h"

/* Hold an answer 10 on the table of the case to make's, and count it. */
void ask_about_closing(const char *name, uint64_t answer);

/* Have a table made for the rule and the plan of the case as they stand, mostly
   in a buffer of the right length. */
void ask_for_table(const char *name);

/* Have the plan of the case settled as the rule and the plan stand, mostly in buffers
   of the right lengths. */
void ask_to_settle(const char *name);

/* Count a window that was judged on a row with this answer, and no refusal. */
void count_window(const struct plan *p, const struct formula *f, int row, uint64_t answer);

/* Count an atom that was judged on a row with this answer, and no refusal, for what tops
   make of it; and hold the answer to the first passes, looked at one by one. */
void count_top(const char *name, const struct plan *p, const struct formula *f, int row,
               uint64_t answer);

/* Print what the answers were, and hold the counts to their floors. */
void print_closing_counts(unsigned long cases);
void print_make_counts(unsigned long cases);
void print_settle_counts(unsigned long cases);
void print_window_counts(unsigned long cases);
void print_top_counts(unsigned long cases);

#endif
