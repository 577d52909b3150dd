/*
 * examples.h: the worked examples E1 to E11, the worked tables of docs/FORMATS.md, some
 * windows of the week and some plans with tops as bytes, questions and answers.
 */
#ifndef EXAMPLES_H
#define EXAMPLES_H

#include "write.h"

struct example {
    const char *name;
    const char *rule, *plan; /* hex pairs */
    const char *marks;       /* hex pairs; null: judge part 0 on a row */
    uint64_t row;
    uint64_t answer;
};

extern const struct example examples[];
extern const size_t example_count;

/* Bytes from hex pairs; blanks and bars between them are passed over. */
void read_hex(struct sheet *sheet, const char *hex);

#endif
