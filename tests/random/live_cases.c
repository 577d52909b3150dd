/*
 * live_cases.c: random channels, tops, rows and rules for a live state.
 *
 * The readings of a channel are of one style: a few small numbers, so that equalities come
 * and go, numbers beside its top, minutes beside the ends of windows, or the ends of 32 bits.
 * Constants and windows are taken from such readings, or lie beside them.
 */
#include "cases.h"

#include "dice.h"

struct live_case live_case;

/* ---- Channels and rows ---- */

enum style { FEW, NEGATIVE, BESIDE_TOP, MINUTES, ENDS, STYLES };

static int32_t some_top(enum style style)
{
    static const int32_t ends[] = { 1, 1 << 30, INT32_MAX - 1, INT32_MAX };
    switch (style) {
    case FEW:
    case NEGATIVE:
        return between(1, 3);
    case MINUTES:
        return chance(50) ? between(1, 1021) : between(1, 3 * WEEK);
    case ENDS:
        return ends[below(4)];
    default:
        return between(1, 5000);
    }
}

void make_live_case(void)
{
    bool topped = chance(60);
    live_case.channels = chance(70) ? between(1, 3) : between(1, MOST_CHANNELS);
    for (int channel = 0; channel < live_case.channels; channel++) {
        enum style style = chance(50) ? FEW : (enum style)below(STYLES);
        live_case.style[channel] = (int)style;
        live_case.top[channel] =
            style == BESIDE_TOP || (topped && chance(60)) ? some_top(style) : 0;
    }
}

int32_t live_reading(int channel)
{
    switch ((enum style)live_case.style[channel]) {
    case NEGATIVE:
        return between(-3, 2);
    case BESIDE_TOP:
        return live_case.top[channel] + between(-2, 1);
    case MINUTES:
        return weekly_reading();
    case ENDS:
        return extreme_number();
    default:
        return between(0, 3);
    }
}

/* ---- Rules ---- */

static struct term some_reading(void)
{
    return reading(below(live_case.channels), chance(50) ? 0 : between(-4, 0));
}

static struct term some_constant(void)
{
    int64_t number = (int64_t)live_reading(below(live_case.channels)) + between(-1, 1);
    return constant(number > INT32_MAX ? INT32_MAX : number < INT32_MIN ? INT32_MIN
                                                                        : (int32_t)number);
}

static struct formula some_comparison(void)
{
    struct formula f = { .kind = chance(50) ? LESS : EQUAL };
    f.left = chance(85) ? some_reading() : some_constant();
    f.right = chance(50) ? some_reading() : some_constant();
    return f;
}

/* From a minute beside a reading on, for a few minutes or for all but a few. */
static struct formula some_live_window(void)
{
    struct formula f = { .kind = WINDOW, .left = some_reading() };
    int64_t number = (int64_t)live_reading(f.left.number) + between(-1, 2);
    int from = (int)((number % WEEK + WEEK) % WEEK);
    int to = (from + (chance(60) ? between(1, 3) : between(1, WEEK - 1))) % WEEK;
    bool round = chance(50);
    f.from = round ? to : from;
    f.to = round ? from : to;
    return f;
}

static struct formula some_live_pinned(void)
{
    struct formula f = { .kind = PINNED, .left = some_reading() };
    for (int tries = 0; tries < 4 && live_case.top[f.left.number] == 0; tries++)
        f.left = some_reading();
    return f;
}

static struct formula some_live_atom(void)
{
    if (chance(20))
        return some_live_pinned();
    return chance(25) ? some_live_window() : some_comparison();
}

static struct formula some_live_operator(int part)
{
    static const enum kind kinds[] = { NOT,   AND,   OR,      YESTERDAY, WEAK_YESTERDAY,
                                       SINCE, SINCE, TRIGGER, TRIGGER };
    int lowest = part > 6 && chance(70) ? part - 6 : 0;
    return (struct formula){ .kind = kinds[below(9)],
                             .a = between(lowest, part - 1),
                             .b = between(lowest, part - 1) };
}

void make_live_rule(int parts)
{
    int atoms_percent = chance(15) ? 100 : between(15, 50);
    start_rule(&case_rule, parts, live_case.channels);
    for (int part = 0; part < parts; part++) {
        bool atom = part == 0 || chance(atoms_percent);
        struct formula f = atom ? some_live_atom() : some_live_operator(part);
        write_formula(&case_rule, part, &f);
    }
}

/* ---- Faults ---- */

static int parts_of_rule(void)
{
    return case_rule.at[0] + 256 * case_rule.at[1];
}

static void spoil_sizes(void)
{
    static const unsigned wrong_parts[] = { 0, 65, 256, 257, 65535 };
    static const unsigned wrong_channels[] = { 0, 9, 256, 257, 65535 };
    switch (below(5)) {
    case 0:
        resize(&case_rule, (size_t)below(4));
        break;
    case 1:
        put2(case_rule.at, wrong_parts[below(5)]);
        break;
    case 2:
        put2(case_rule.at + 2, wrong_channels[below(5)]);
        break;
    case 3:
        resize(&case_rule, case_rule.len - 1);
        break;
    default:
        resize(&case_rule, case_rule.len + 1 + (chance(50) ? 0 : 12));
    }
}

static void spoil_kind(void)
{
    static const uint8_t wrong[] = { 0, 15, 16, 128, 255 };
    *kind_byte(&case_rule, below(parts_of_rule())) = wrong[below(5)];
}

/* A byte of an operand with another bit; some are no fault, and some make another rule. */
static void spoil_operand(void)
{
    uint8_t *operand = operand_bytes(&case_rule, below(parts_of_rule()));
    int byte = chance(60) ? between(8, 11) : below(12);
    operand[byte] ^= (uint8_t)(1 << (chance(50) ? 7 : below(8)));
}

/* X, U or R, an atom that is read ahead, or another V; mostly in one part alone. */
static void spoil_for_live(void)
{
    static const enum kind ahead[] = { NEXT, UNTIL, RELEASE };
    int parts = parts_of_rule(), part = below(parts), other = 1 + live_case.channels % 8;
    struct formula f = some_live_atom();
    if (chance(15)) {
        put2(case_rule.at + 2, (unsigned)other);
        return;
    }
    if (parts > 1 && chance(50)) {
        part = between(1, parts - 1);
        f = (struct formula){ .kind = ahead[below(3)], .a = below(part), .b = below(part) };
    } else if (f.kind != LESS && f.kind != EQUAL) {
        f.left.shift = between(1, 4);
    } else if (chance(50)) {
        f.left = reading(below(live_case.channels), between(1, 4));
    } else {
        f.right = reading(below(live_case.channels), between(1, 4));
    }
    write_formula(&case_rule, part, &f);
}

void spoil_live_rule(int number)
{
    switch (number) {
    case 1:
        spoil_sizes();
        break;
    case 2:
        spoil_kind();
        break;
    case 3:
        spoil_operand();
        break;
    default:
        spoil_for_live();
    }
}
