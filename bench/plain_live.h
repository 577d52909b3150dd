/*
 * plain_live.h: the live state and its five calls in plain C, to time the exported ones
 * beside. The same arguments and answers as in include/endless_run.h.
 */
#ifndef PLAIN_LIVE_H
#define PLAIN_LIVE_H

#include <stddef.h>
#include <stdint.h>

enum { PLAIN_PLACES = 4, PLAIN_ROWS = 5, PLAIN_CHANNELS = 8, PLAIN_PARTS = 64 };

/* A part as it is evaluated. A cell is 8 * rows back + channel. */
struct plain_part {
    int32_t left, right; /* constants; from and to of a window */
    uint8_t kind;
    uint8_t a, b;  /* the cells of the terms, or NO_CELL; or the parts that are named */
    uint8_t reach; /* how many rows back the farther term lies */
};

struct plain_place {
    uint8_t parts;               /* 0: empty */
    uint8_t age;                 /* rows since the rule was added, 5 for more too */
    uint8_t truths[PLAIN_PARTS]; /* on the row that came last */
    struct plain_part part[PLAIN_PARTS];
};

struct plain_live {
    uint32_t channels;
    int64_t tops[PLAIN_CHANNELS];               /* the largest number for none */
    int64_t cells[PLAIN_ROWS * PLAIN_CHANNELS]; /* the row that came last first */
    struct plain_place places[PLAIN_PLACES];
};

uint64_t plain_live_start(struct plain_live *live, uint64_t channels, const uint8_t *tops,
                          size_t tops_len);
uint64_t plain_live_add(struct plain_live *live, uint64_t place, const uint8_t *rule,
                        size_t rule_len);
uint64_t plain_live_drop(struct plain_live *live, uint64_t place);
uint64_t plain_live_row(struct plain_live *live, const uint8_t *readings, size_t readings_len);
uint64_t plain_live_answer(const struct plain_live *live, uint64_t place);

#endif
