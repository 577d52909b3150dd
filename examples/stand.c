/*
 * stand.c: a live hood watched at the stand: rows arrive one at a time, and each rule's
 * truth on the row just read is printed.
 *
 *   stand [-t TOPS] RULE..
 *
 * Up to four rule files come to stand in places 0 to 3; V is that of the first. TOPS are V
 * numbers with commas, 0 for a channel without a top, as are all without -t. The standard
 * input has one row a line, V numbers with blanks. Between rows two other lines may stand:
 *
 *   drop P           drop the rule of place P
 *   add P FILE       add the rule of a file in place P; the next row is its position 0
 *
 * A line of another form gets a message, and so does one that is refused; the rows go on
 * after it as if it had not come.
 *
 * The two rules in examples/stand are of two channels, a count and 1 on rows that are
 * averaged. pinned.bin is the rule "a pinned count is not averaged until a lower one has
 * come" in its past form, for a count with a top; stayed.bin has part 0 alone. As parts:
 *
 *   pinned.bin  0  count is pinned          stayed.bin  0  count before = count
 *               1  not 0
 *               2  averaged = 1
 *               3  not 2
 *               4  3 or 1
 *               5  1 < 0                    never
 *               6  5 T 4                    part 4 on all rows so far: the whole rule
 *
 * Build and run, from the repository's root:
 *
 *   tools/library
 *   cc -std=c11 -Wall -Wextra -o out/stand examples/stand.c \
 *      out/libendless_run.a
 *   out/stand -t 4095,0 examples/stand/pinned.bin examples/stand/stayed.bin \
 *      < examples/stand/rows.txt
 */
#include "../include/endless_run.h"

#include <errno.h>
#include <stdio.h>
#include <stdlib.h>
#include <string.h>

enum { LONGEST_LINE = 1024, MOST_NUMBERS = 16 };

/* ---- Files and numbers ---- */

/* One byte more than the longest rule, so that a longer file is refused and not cut. */
struct rule {
    size_t len;
    uint8_t at[ENDLESS_RUN_LONGEST_RULE + 1];
};

static int read_rule(const char *name, struct rule *rule)
{
    FILE *file = fopen(name, "rb");
    if (file == NULL) {
        printf("  %s: cannot be opened\n", name);
        return 0;
    }
    rule->len = fread(rule->at, 1, sizeof rule->at, file);
    fclose(file);
    return 1;
}

/* Numbers with blanks or commas, as 4 bytes each: how many bytes; -1 where something else
   stands there, or a number of more than 32 bits. */
static int read_numbers(const char *text, uint8_t *at)
{
    int len = 0;
    for (text += strspn(text, " ,\n"); *text != '\0'; text += strspn(text, " ,\n")) {
        char *end;
        errno = 0;
        long long number = strtoll(text, &end, 10);
        if (end == text || strchr(" ,\n", *end) == NULL || errno != 0 || number < INT32_MIN ||
            number > INT32_MAX || len == 4 * MOST_NUMBERS)
            return -1;
        for (int i = 0; i < 4; i++)
            at[len++] = (uint8_t)((uint32_t)number >> 8 * i);
        text = end;
    }
    return len;
}

/* ---- Calls ---- */

/* Prints a refusal; 1 where it was done. */
static int is_done(uint64_t answer)
{
    if (endless_run_is_refusal(answer))
        printf("  refused %u, part %u: %s\n", endless_run_number(answer),
               endless_run_part(answer), endless_run_live_message(answer));
    return !endless_run_is_refusal(answer);
}

static int add(struct endless_run_live *state, uint64_t place, const char *name)
{
    struct rule rule;
    return read_rule(name, &rule) &&
           is_done(endless_run_live_add(state, place, rule.at, rule.len));
}

static void tell(const struct endless_run_live *state)
{
    static const char *const words[] = { "false", "true", "not yet", "empty" };
    for (uint64_t place = 0; place < ENDLESS_RUN_PLACES; place++)
        printf("  %s", words[endless_run_told(endless_run_live_answer(state, place))]);
    printf("\n");
}

/* ---- Lines ---- */

static void take_line(struct endless_run_live *state, const char *line)
{
    uint8_t readings[4 * MOST_NUMBERS];
    unsigned long long place;
    char name[LONGEST_LINE], rest;
    printf("%s\n", line);
    if (sscanf(line, "drop %llu %c", &place, &rest) == 1) {
        is_done(endless_run_live_drop(state, place));
        return;
    }
    if (sscanf(line, "add %llu %1023s %c", &place, name, &rest) == 2) {
        add(state, place, name);
        return;
    }
    int len = read_numbers(line, readings);
    if (len < 0)
        printf("  neither a row nor drop nor add\n");
    else if (is_done(endless_run_live_row(state, readings, (size_t)len)))
        tell(state);
}

/* ---- The stand ---- */

/* An empty state for the channels of the first rule. */
static int start(struct endless_run_live *state, const char *first_rule, const char *tops)
{
    uint8_t bytes[4 * MOST_NUMBERS] = { 0 };
    struct rule rule;
    if (!read_rule(first_rule, &rule))
        return 0;
    unsigned channels = rule.len < 4 ? 0 : rule.at[2] + 256u * rule.at[3];
    int len = channels <= MOST_NUMBERS ? 4 * (int)channels : 0; /* no tops */
    if (tops != NULL)
        len = read_numbers(tops, bytes);
    if (len < 0) {
        printf("  these are no tops\n");
        return 0;
    }
    return is_done(endless_run_live_start(state, channels, bytes, (size_t)len));
}

int main(int argc, char **argv)
{
    static struct endless_run_live state;
    char line[LONGEST_LINE];
    const char *tops = NULL;
    int first = 1;
    if (argc > 2 && strcmp(argv[1], "-t") == 0) {
        tops = argv[2];
        first = 3;
    }
    if (first >= argc) {
        fprintf(stderr, "usage: stand [-t TOPS] RULE..\n");
        return 2;
    }
    if (!start(&state, argv[first], tops))
        return 1;
    for (int i = first; i < argc; i++)
        if (!add(&state, (uint64_t)(i - first), argv[i]))
            return 1;
    tell(&state);
    while (fgets(line, sizeof line, stdin) != NULL) {
        line[strcspn(line, "\n")] = '\0';
        take_line(&state, line);
    }
    return 0;
}
