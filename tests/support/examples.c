/*
 * examples.c: the worked examples E1 to E11, E8 also with a lead-in row, the plan of
 * docs/FORMATS.md with two lead-in rows, and its worked tables in its order; windows of
 * the week; and tops. E12 is about full sizes, and is tried where sizes are (neighbours.c).
 */
#include "examples.h"

#include <ctype.h>

/* ---- Terms: form, shift code, number ---- */

#define X "01 04 00 00 00 00 "
#define NEXT_X "01 05 00 00 00 00 "
#define YESTERDAY_X "01 03 00 00 00 00 "
#define TWO_BEFORE_X "01 02 00 00 00 00 "
#define THREE_BEFORE_X "01 01 00 00 00 00 "
#define C_0 "00 04 00 00 00 00 "
#define C_1 "00 04 01 00 00 00 "
#define C_3 "00 04 03 00 00 00 "
#define C_5 "00 04 05 00 00 00 "
#define C_9 "00 04 09 00 00 00 "
#define C_10 "00 04 0A 00 00 00 "
#define C_15 "00 04 0F 00 00 00 "
#define C_20 "00 04 14 00 00 00 "
#define C_25 "00 04 19 00 00 00 "
#define C_31 "00 04 1F 00 00 00 "
#define C_4093 "00 04 FD 0F 00 00 "
#define C_4095 "00 04 FF 0F 00 00 "
#define C_4096 "00 04 00 10 00 00 "

/* ---- Rules: N, V, kinds, operands ---- */

#define ONE_PART "01 00 01 00 "
#define NAMES_0 "00 00 00 00 00 00 00 00 00 00 00 00 "
#define NAMES_0_1 "00 00 01 00 00 00 00 00 00 00 00 00 "
#define X_BELOW_25 ONE_PART "01 " X C_25
#define Y_OF_IT "02 00 01 00 01 09 " X C_25 NAMES_0
#define Z_OF_IT "02 00 01 00 01 0A " X C_25 NAMES_0
#define X_OF_IT "02 00 01 00 01 06 " X C_25 NAMES_0
#define IT_UNTIL_NOT_IT "03 00 01 00 01 03 07 " X C_25 NAMES_0 NAMES_0_1
#define RULE_OF_3 "03 00 01 00 "
#define BELOW_25_SINCE_10 RULE_OF_3 "01 02 0B " X C_25 X C_10 NAMES_0_1
#define ABOVE_25_TRIGGER_ABOVE_10 RULE_OF_3 "01 01 0C " C_25 X C_10 X NAMES_0_1
#define ABOVE_10_UNTIL_20 RULE_OF_3 "01 02 07 " C_10 X X C_20 NAMES_0_1
#define BELOW_25_UNTIL_10 RULE_OF_3 "01 02 07 " X C_25 X C_10 NAMES_0_1
#define BELOW_31_UNTIL_BELOW_5 RULE_OF_3 "01 01 07 " X C_31 X C_5 NAMES_0_1
#define IS_10_RELEASE_BELOW_25 RULE_OF_3 "02 01 08 " X C_10 X C_25 NAMES_0_1
#define ALWAYS_ABOVE_5 RULE_OF_3 "01 01 08 " C_1 C_0 C_5 X NAMES_0_1
#define RULE_OF_5 "05 00 01 00 01 02 07 09 08 " C_15 X X C_20 NAMES_0_1
#define NAMES_1 "01 00 00 00 00 00 00 00 00 00 00 00 "
#define NAMES_3_1 "03 00 01 00 00 00 00 00 00 00 00 00 "
#define BELOW_9_UNTIL_BELOW_3 "03 00 01 00 01 01 07 " X C_9 X C_3 NAMES_0_1
#define NAMES_0_4 "00 00 04 00 00 00 00 00 00 00 00 00 "
#define RULE_OF_6                                                                                  \
    "06 00 01 00 01 01 01 09 02 0B " YESTERDAY_X X TWO_BEFORE_X X X THREE_BEFORE_X NAMES_0 X C_20  \
        NAMES_0_4

/* Windows: a term, from, to, and 2 zero bytes. */
#define ON_MONDAY ONE_PART "0D " X "E0 01 FC 03 00 00 "              /* from 480 to 1020 */
#define BUT_ON_MONDAY ONE_PART "0D " X "FC 03 E0 01 00 00 "          /* from 1020 to 480 */
#define LAST_MINUTE ONE_PART "0D " X "5F 27 00 00 00 00 "            /* from 10079 to 0 */
#define ALL_BUT_THE_LAST ONE_PART "0D " X "00 00 5F 27 00 00 "       /* from 0 to 10079 */
#define LAST_TIME_ON_MONDAY ONE_PART "0D " YESTERDAY_X "E0 01 FC 03 00 00 "

/* Pinned: a term, and 6 zero bytes. */
#define IS_PINNED ONE_PART "0E " X "00 00 00 00 00 00 "

/* A pinned count is never averaged until a lower one has come: channel 0 is the count,
   channel 1 is 1 where it is averaged. */
#define COURSE_RULE                                                                                \
    "08 00 02 00 0E 03 02 03 05 08 01 08 " X "00 00 00 00 00 00 " NAMES_0 "01 04 01 00 00 00 " C_1 \
    "02 00 00 00 00 00 00 00 00 00 00 00 " NAMES_3_1 "01 00 04 00 00 00 00 00 00 00 00 00 " C_1    \
    C_0 "06 00 05 00 00 00 00 00 00 00 00 00 "

/* ---- Plans: V, P, C, L, tops, readings, drifts ---- */

#define NO_TOP "00 00 00 00 "

#define PLAN_A                                                                                     \
    "01 00 01 00 02 00 00 00 " NO_TOP "0A 00 00 00 14 00 00 00 1E 00 00 00 "                       \
    "00 00 00 00 00 00 00 00 00 00 00 00"
#define PLAN_K                                                                                     \
    "01 00 03 00 02 00 00 00 " NO_TOP                                                              \
    "0A 00 00 00 14 00 00 00 1E 00 00 00 14 00 00 00 1E 00 00 00 "                                 \
    "00 00 00 00 00 00 00 00 00 00 00 00 00 00 00 00 00 00 00 00"
#define PLAN_M                                                                                     \
    "01 00 00 00 02 00 00 00 " NO_TOP "14 00 00 00 1E 00 00 00 00 00 00 00 00 00 00 00"
#define PLAN_D_BY(drift)                                                                           \
    "01 00 01 00 04 00 00 00 " NO_TOP                                                              \
    "14 00 00 00 14 00 00 00 0A 00 00 00 14 00 00 00 1E 00 00 00 "                                 \
    "00 00 00 00 00 00 00 00 00 00 00 00 00 00 00 00 " drift
#define PLAN_D PLAN_D_BY("05 00 00 00")
#define TOP_4095 "FF 0F 00 00 "
#define ONE_ROW_UNDER(top) "01 00 00 00 01 00 00 00 " top
#define ONE_ROW ONE_ROW_UNDER(NO_TOP)
#define PLAN_B ONE_ROW "FE 0F 00 00 01 00 00 00"
#define PLAN_B_AFTER(lead_in)                                                                      \
    "01 00 00 00 01 00 01 00 " NO_TOP lead_in "FE 0F 00 00 00 00 00 00 01 00 00 00"
#define PLAN_G_AFTER(lead, readings, drifts)                                                       \
    "01 00 00 00 02 00 " lead NO_TOP readings "28 00 00 00 28 00 00 00 " drifts                    \
    "0A 00 00 00 0A 00 00 00"
#define STILL_1 "00 00 00 00 "
#define STILL_2 STILL_1 STILL_1
#define PLAN_G PLAN_G_AFTER("02 00 ", "14 00 00 00 1E 00 00 00 ", STILL_2)
#define FROM_0_BY_3 ONE_ROW "00 00 00 00 03 00 00 00"
#define ALWAYS_5 ONE_ROW "05 00 00 00 00 00 00 00"
#define FROM_TOP_BY_1 ONE_ROW "FF FF FF 7F 01 00 00 00"
#define RISING_UNDER_4095 ONE_ROW_UNDER(TOP_4095) "FE 0F 00 00 01 00 00 00"
#define COURSE_PLAN(drift)                                                                         \
    "02 00 01 00 03 00 00 00 " TOP_4095 NO_TOP                                                     \
    "B8 0B 00 00 01 00 00 00 FF 0F 00 00 00 00 00 00 FF 0F 00 00 00 00 00 00 "                     \
    "3C 0F 00 00 01 00 00 00 " STILL_2 STILL_2 "01 00 00 00 00 00 00 00 " drift "00 00 00 00"
#define BY_A_DAY "A0 05 00 00"
#define BY_A_WEEK "60 27 00 00"

#define REFUSED(number, part, row) ((uint64_t)(number) << 32 | (part) << 16 | (row))
#define NONE "FF FF "
#define NO_2 NONE NONE
#define NO_3 NONE NONE NONE
#define COURSE_MARKS                                                                               \
    "08 00 04 00 00 01 01 00 01 00 00 01 01 00 00 01 00 01 01 00 01 01 01 01 01 01 01 01 "         \
    "00 00 00 00 01 01 01 01 " NO_3 NO_3 NO_2
#define E10_MARKED_1 "03 00 01 00 01 00 01 FF FF FF FF "

const struct example examples[] = {
    { "E1 x < 25", X_BELOW_25, PLAN_A, "01 00 03 00 01 01 00 FF FF", 0, 1 },
    { "E1 judged, start row", X_BELOW_25, PLAN_A, 0, 0, ALWAYS_TRUE },
    { "E1 judged, first cycle row", X_BELOW_25, PLAN_A, 0, 1, ALWAYS_TRUE },
    { "E1 judged, last cycle row", X_BELOW_25, PLAN_A, 0, 2, ALWAYS_FALSE },
    { "E2 Y of it", Y_OF_IT, PLAN_A, "02 00 03 00 01 01 00 00 01 01 FF FF FF FF", 0,
      REFUSED(10, 1, 1) },
    { "E3 X of it", X_OF_IT, PLAN_A, "02 00 03 00 01 01 00 01 00 01 FF FF FF FF", 0, 1 },
    { "E4 witness 2", IT_UNTIL_NOT_IT, PLAN_A,
      "03 00 03 00 01 01 00 00 00 01 01 01 01 FF FF FF FF 02 00", 0, 1 },
    { "E4 witness 1", IT_UNTIL_NOT_IT, PLAN_A,
      "03 00 03 00 01 01 00 00 00 01 01 01 01 FF FF FF FF 01 00", 0, REFUSED(11, 2, 0) },
    { "E5 x < 4095", ONE_PART "01 " X C_4095, PLAN_B, 0, 0, CHANGES },
    { "E5 checked", ONE_PART "01 " X C_4095, PLAN_B, "01 00 01 00 01 FF FF", 0,
      REFUSED(10, 0, 0) },
    { "E6 x = 4096", ONE_PART "02 " X C_4096, PLAN_B, 0, 0, CHANGES },
    { "E6 x = 4093", ONE_PART "02 " X C_4093, PLAN_B, 0, 0, ALWAYS_FALSE },
    { "E7 x < X x", ONE_PART "01 " X NEXT_X, PLAN_B, 0, 0, ALWAYS_TRUE },
    { "E7 checked", ONE_PART "01 " X NEXT_X, PLAN_B, "01 00 01 00 01 FF FF", 0, 1 },
    { "E8 Y x < x", ONE_PART "01 " YESTERDAY_X X, PLAN_B, 0, 0, CHANGES },
    { "E8, lead-in", ONE_PART "01 " YESTERDAY_X X, PLAN_B_AFTER("FD 0F 00 00 "), 0, 0,
      ALWAYS_TRUE },
    { "E8, lead-in, checked", ONE_PART "01 " YESTERDAY_X X, PLAN_B_AFTER("FD 0F 00 00 "),
      "01 00 01 00 01 FF FF", 0, 1 },
    { "E8, lead-in as high", ONE_PART "01 " YESTERDAY_X X, PLAN_B_AFTER("FE 0F 00 00 "), 0, 0,
      CHANGES },
    { "E9 x = 10", ONE_PART "02 " X C_10, FROM_0_BY_3, 0, 0, ALWAYS_FALSE },
    { "E9 x = 9", ONE_PART "02 " X C_9, FROM_0_BY_3, 0, 0, CHANGES },
    { "E9 x = 0", ONE_PART "02 " X C_0, FROM_0_BY_3, 0, 0, CHANGES },
    { "E10 marked 1, no witness", BELOW_9_UNTIL_BELOW_3, ALWAYS_5, E10_MARKED_1 "FF FF", 0,
      REFUSED(11, 2, 0) },
    { "E10 marked 1, witness 0", BELOW_9_UNTIL_BELOW_3, ALWAYS_5, E10_MARKED_1 "00 00", 0,
      REFUSED(11, 2, 0) },
    { "E10 marked 1, witness 1", BELOW_9_UNTIL_BELOW_3, ALWAYS_5, E10_MARKED_1 "01 00", 0,
      REFUSED(11, 2, 0) },
    { "E10 marked 0", BELOW_9_UNTIL_BELOW_3, ALWAYS_5,
      "03 00 01 00 01 00 00 FF FF FF FF FF FF", 0, 0 },
    { "E11 x < 0", ONE_PART "01 " X C_0, FROM_TOP_BY_1, 0, 0, ALWAYS_FALSE },
    { "E11 checked", ONE_PART "01 " X C_0, FROM_TOP_BY_1, "01 00 01 00 00 FF FF", 0, 0 },

    { "G", RULE_OF_6, PLAN_G, "06 00 02 00 01 00 01 01 00 00 00 01 00 00 00 00 " NO_3 NO_3, 0, 0 },
    { "G judged on row 0", RULE_OF_6, PLAN_G, 0, 0, ALWAYS_TRUE },
    { "G judged on row 1", RULE_OF_6, PLAN_G, 0, 1, ALWAYS_FALSE },
    { "G judged on row 2", RULE_OF_6, PLAN_G, 0, 2, REFUSED(12, 0, 0) },
    { "G after 20, 40", RULE_OF_6,
      PLAN_G_AFTER("02 00 ", "14 00 00 00 28 00 00 00 ", STILL_2),
      "06 00 02 00 00 00 01 01 00 00 00 00 00 00 00 00 " NO_3 NO_3, 0, REFUSED(10, 0, 0) },
    { "G after 30", RULE_OF_6, PLAN_G_AFTER("01 00 ", "1E 00 00 00 ", STILL_1),
      "06 00 02 00 01 00 00 01 00 00 00 01 00 00 00 00 " NO_3 NO_3, 0, REFUSED(10, 1, 0) },
    { "G after nothing", RULE_OF_6, PLAN_G_AFTER("00 00 ", "", ""), 0, 0, CHANGES },
    { "G after 45, 20, 30", RULE_OF_6,
      PLAN_G_AFTER("03 00 ", "2D 00 00 00 14 00 00 00 1E 00 00 00 ", STILL_2 STILL_1),
      "06 00 02 00 01 00 01 01 01 00 00 01 00 00 00 00 " NO_3 NO_3, 0, REFUSED(10, 2, 0) },
    { "G, a lead-in drift", RULE_OF_6,
      PLAN_G_AFTER("02 00 ", "14 00 00 00 1E 00 00 00 ", STILL_1 "01 00 00 00 "), 0, 0,
      REFUSED(6, 0, 0) },
    { "G after five rows", RULE_OF_6,
      PLAN_G_AFTER("05 00 ", STILL_2 STILL_2 STILL_1, STILL_2 STILL_2 STILL_1), 0, 0,
      REFUSED(4, 0, 0) },

    { "x < X x on A", ONE_PART "01 " X NEXT_X, PLAN_A, "01 00 03 00 01 01 00 " NONE, 0, 1 },
    { "Y x < x on A", ONE_PART "01 " YESTERDAY_X X, PLAN_A, "01 00 03 00 00 01 01 " NONE, 0,
      REFUSED(10, 0, 1) },
    { "Y x < x on K", ONE_PART "01 " YESTERDAY_X X, PLAN_K, "01 00 05 00 00 01 01 00 01 " NONE, 0,
      0 },
    { "Y on K", Y_OF_IT, PLAN_K, "02 00 05 00 01 01 00 01 00 00 01 01 00 01 " NO_2, 0, 0 },
    { "Y on M", Y_OF_IT, PLAN_M, "02 00 02 00 01 00 00 01 " NO_2, 0, 0 },
    { "Z on A", Z_OF_IT, PLAN_A, "02 00 03 00 01 01 00 01 01 01 " NO_2, 0, REFUSED(10, 1, 1) },
    { "Z on K", Z_OF_IT, PLAN_K, "02 00 05 00 01 01 00 01 00 01 01 01 00 01 " NO_2, 0, 1 },
    { "Z on M", Z_OF_IT, PLAN_M, "02 00 02 00 01 00 01 01 " NO_2, 0, REFUSED(10, 1, 0) },
    { "S on A", BELOW_25_SINCE_10, PLAN_A, "03 00 03 00 01 01 00 01 00 00 01 01 00 " NO_3, 0,
      REFUSED(10, 2, 1) },
    { "S on K", BELOW_25_SINCE_10, PLAN_K,
      "03 00 05 00 01 01 00 01 00 01 00 00 00 00 01 01 00 00 00 " NO_3, 0, 1 },
    { "T on A", ABOVE_25_TRIGGER_ABOVE_10, PLAN_A,
      "03 00 03 00 00 00 01 00 01 01 00 00 01 " NO_3, 0, REFUSED(10, 2, 1) },
    { "T on K", ABOVE_25_TRIGGER_ABOVE_10, PLAN_K,
      "03 00 05 00 00 00 01 00 01 00 01 01 01 01 00 00 01 01 01 " NO_3, 0, 0 },
    { "Y x < x on A, marked 1 1 1", ONE_PART "01 " YESTERDAY_X X, PLAN_A,
      "01 00 03 00 01 01 01 " NONE, 0, REFUSED(10, 0, 1) },
    { "Y on A, marked 0 0 1", Y_OF_IT, PLAN_A, "02 00 03 00 01 01 00 00 00 01 " NO_2, 0,
      REFUSED(10, 1, 1) },
    { "S on A, marked 1 1 1", BELOW_25_SINCE_10, PLAN_A,
      "03 00 03 00 01 01 00 01 00 00 01 01 01 " NO_3, 0, REFUSED(10, 2, 1) },
    { "T on A, marked 0 0 0", ABOVE_25_TRIGGER_ABOVE_10, PLAN_A,
      "03 00 03 00 00 00 01 00 01 01 00 00 00 " NO_3, 0, REFUSED(10, 2, 1) },
    { "Y on A, part 0 marked 1 0 0", Y_OF_IT, PLAN_A, "02 00 03 00 01 00 00 00 01 01 " NO_2, 0,
      REFUSED(9, 0, 1) },
    { "Y on K, marked 1 on row 3", Y_OF_IT, PLAN_K,
      "02 00 05 00 01 01 00 01 00 00 01 01 01 01 " NO_2, 0, REFUSED(9, 1, 3) },
    { "E4 marked 1 1 0", IT_UNTIL_NOT_IT, PLAN_A,
      "03 00 03 00 01 01 00 00 00 01 01 01 00 " NO_3, 0, REFUSED(9, 2, 1) },
    { "U over the end of the cycle", ABOVE_10_UNTIL_20, PLAN_A,
      "03 00 03 00 00 01 01 00 01 00 00 01 01 " NO_2 "01 00", 0, 0 },
    { "U on a start row", BELOW_25_UNTIL_10, PLAN_A,
      "03 00 03 00 01 01 00 01 00 00 01 00 00 " NO_3, 0, 1 },
    { "U never", BELOW_31_UNTIL_BELOW_5, PLAN_A, "03 00 03 00 01 01 01 00 00 00 00 00 00 " NO_3, 0,
      0 },
    { "U never, marked 1", BELOW_31_UNTIL_BELOW_5, PLAN_A,
      "03 00 03 00 01 01 01 00 00 00 01 01 01 " NO_2 "01 00", 0, REFUSED(11, 2, 0) },
    { "R with a witness", IS_10_RELEASE_BELOW_25, PLAN_A,
      "03 00 03 00 01 00 00 01 01 00 01 00 00 " NO_2 "02 00", 0, 1 },
    { "R always", ALWAYS_ABOVE_5, PLAN_A, "03 00 03 00 00 00 00 01 01 01 01 01 01 " NO_3, 0, 1 },
    { "R always, marked 0", ALWAYS_ABOVE_5, PLAN_A,
      "03 00 03 00 00 00 00 01 01 01 00 00 00 " NO_2 "01 00", 0, REFUSED(11, 2, 0) },

    { "made step by step", RULE_OF_5 NAMES_0 NAMES_3_1, PLAN_D,
      "05 00 05 00 01 01 00 01 01 01 01 00 01 00 01 01 00 01 01 00 01 01 00 01 01 01 00 00 00 " NO_2
      "01 00 " NONE "02 00", 0, 1 },
    { "made step by step, part 3 Y 1", RULE_OF_5 NAMES_1 NAMES_3_1, PLAN_D,
      "05 00 05 00 01 01 00 01 01 01 01 00 01 00 01 01 00 01 01 00 01 01 00 01 01 01 00 00 00 " NO_2
      "01 00 " NONE "02 00", 0, REFUSED(10, 3, 1) },
    { "made step by step, row 4 drifting down", RULE_OF_5 NAMES_0 NAMES_3_1,
      PLAN_D_BY("FB FF FF FF"),
      "05 00 05 00 01 01 00 01 01 01 01 00 01 00 01 01 00 01 01 00 01 01 00 01 01 01 00 00 00 " NO_2
      "01 00 " NONE "02 00", 0, REFUSED(10, 0, 4) },

    { "window at 479", ON_MONDAY, ONE_ROW "DF 01 00 00 " STILL_1, 0, 0, ALWAYS_FALSE },
    { "window at 480", ON_MONDAY, ONE_ROW "E0 01 00 00 " STILL_1, 0, 0, ALWAYS_TRUE },
    { "window at 1019", ON_MONDAY, ONE_ROW "FB 03 00 00 " STILL_1, 0, 0, ALWAYS_TRUE },
    { "window at 1020", ON_MONDAY, ONE_ROW "FC 03 00 00 " STILL_1, 0, 0, ALWAYS_FALSE },
    { "window by a week", ON_MONDAY, ONE_ROW "E0 01 00 00 " BY_A_WEEK, 0, 0, ALWAYS_TRUE },
    { "window by a week, checked", ON_MONDAY, ONE_ROW "E0 01 00 00 " BY_A_WEEK,
      "01 00 01 00 01 " NONE, 0, 1 },
    { "window by a day", ON_MONDAY, ONE_ROW "E0 01 00 00 " BY_A_DAY, 0, 0, CHANGES },
    { "window by a day, checked", ON_MONDAY, ONE_ROW "E0 01 00 00 " BY_A_DAY,
      "01 00 01 00 01 " NONE, 0, REFUSED(10, 0, 0) },
    { "window by a day, never", ON_MONDAY, ONE_ROW "FC 03 00 00 " BY_A_DAY, 0, 0, ALWAYS_FALSE },
    { "window by a day, always", BUT_ON_MONDAY, ONE_ROW "FC 03 00 00 " BY_A_DAY, 0, 0,
      ALWAYS_TRUE },
    { "window at -1", LAST_MINUTE, ONE_ROW "FF FF FF FF " STILL_1, 0, 0, ALWAYS_TRUE },
    { "window at -10081", LAST_MINUTE, ONE_ROW "9F D8 FF FF " STILL_1, 0, 0, ALWAYS_TRUE },
    { "window at -10080", LAST_MINUTE, ONE_ROW "A0 D8 FF FF " STILL_1, 0, 0, ALWAYS_FALSE },
    { "window but at -1", ALL_BUT_THE_LAST, ONE_ROW "FF FF FF FF " STILL_1, 0, 0, ALWAYS_FALSE },
    { "window but at 10078", ALL_BUT_THE_LAST, ONE_ROW "5E 27 00 00 " STILL_1, 0, 0, ALWAYS_TRUE },
    { "window before the run", LAST_TIME_ON_MONDAY, ONE_ROW "E0 01 00 00 " STILL_1, 0, 0, CHANGES },
    { "window after a lead-in", LAST_TIME_ON_MONDAY,
      "01 00 00 00 01 00 01 00 " NO_TOP "E0 01 00 00 E0 01 00 00 " STILL_2, 0, 0, ALWAYS_TRUE },
    { "window of a constant", ONE_PART "0D " C_10 "E0 01 FC 03 00 00 ", ALWAYS_5, 0, 0,
      REFUSED(3, 0, 0) },
    { "window from 10080", ONE_PART "0D " X "60 27 FC 03 00 00 ", ALWAYS_5, 0, 0,
      REFUSED(3, 0, 0) },
    { "window from 480 to 480", ONE_PART "0D " X "E0 01 E0 01 00 00 ", ALWAYS_5, 0, 0,
      REFUSED(3, 0, 0) },
    { "window, padding", ONE_PART "0D " X "E0 01 FC 03 00 01 ", ALWAYS_5, 0, 0,
      REFUSED(3, 0, 0) },

    { "pinned at 4094", IS_PINNED, ONE_ROW_UNDER(TOP_4095) "FE 0F 00 00 " STILL_1, 0, 0,
      ALWAYS_FALSE },
    { "pinned at 4095", IS_PINNED, ONE_ROW_UNDER(TOP_4095) "FF 0F 00 00 " STILL_1, 0, 0,
      ALWAYS_TRUE },
    { "pinned at 4096", IS_PINNED, ONE_ROW_UNDER(TOP_4095) "00 10 00 00 " STILL_1, 0, 0,
      ALWAYS_TRUE },
    { "pinned, no top", IS_PINNED, ONE_ROW "FF FF FF 7F 01 00 00 00 ", 0, 0, ALWAYS_FALSE },
    { "pinned, rising", IS_PINNED, RISING_UNDER_4095, 0, 0, CHANGES },
    { "pinned, rising, checked", IS_PINNED, RISING_UNDER_4095, "01 00 01 00 00 " NONE, 0,
      REFUSED(10, 0, 0) },
    { "x < 4095 under 4095", ONE_PART "01 " X C_4095, RISING_UNDER_4095, 0, 0, CHANGES },
    { "x = 4095 under 4095", ONE_PART "02 " X C_4095, RISING_UNDER_4095, 0, 0, ALWAYS_FALSE },
    { "x = x under 4095", ONE_PART "02 " X X, RISING_UNDER_4095, 0, 0, CHANGES },
    { "4093 < x under 4095", ONE_PART "01 " C_4093 X, RISING_UNDER_4095, 0, 0, CHANGES },
    { "4093 < x, no top", ONE_PART "01 " C_4093 X, PLAN_B, 0, 0, ALWAYS_TRUE },
    { "4095 < x under 4095", ONE_PART "01 " C_4095 X, RISING_UNDER_4095, 0, 0, ALWAYS_FALSE },
    { "x < X x under 4095", ONE_PART "01 " X NEXT_X, RISING_UNDER_4095, 0, 0, ALWAYS_FALSE },
    { "top -1", X_BELOW_25, ONE_ROW_UNDER("FF FF FF FF ") "05 00 00 00 " STILL_1, 0, 0,
      REFUSED(4, 0, 0) },
    { "a plan without tops", X_BELOW_25, "01 00 00 00 01 00 00 00 05 00 00 00 00 00 00 00", 0, 0,
      REFUSED(4, 0, 0) },
    { "pinned of a constant", ONE_PART "0E " C_10 "00 00 00 00 00 00 ", ALWAYS_5, 0, 0,
      REFUSED(3, 0, 0) },
    { "pinned, padding", ONE_PART "0E " X "E0 01 FC 03 00 00 ", ALWAYS_5, 0, 0,
      REFUSED(3, 0, 0) },
    { "course", COURSE_RULE, COURSE_PLAN("00 00 00 00 "), COURSE_MARKS, 0, 1 },
    { "course, pinned judged on row 0", COURSE_RULE, COURSE_PLAN("00 00 00 00 "), 0, 0,
      ALWAYS_FALSE },
    { "course, pinned judged on row 1", COURSE_RULE, COURSE_PLAN("00 00 00 00 "), 0, 1,
      ALWAYS_TRUE },
    { "course, row 3 rising", COURSE_RULE, COURSE_PLAN("01 00 00 00 "), COURSE_MARKS, 0,
      REFUSED(10, 0, 3) },
    { "kind 15", ONE_PART "0F " X "00 00 00 00 00 00 ", ALWAYS_5, 0, 0, REFUSED(2, 0, 0) },
};
const size_t example_count = sizeof examples / sizeof examples[0];

static int hex_digit(char c)
{
    return isdigit((unsigned char)c) ? c - '0' : toupper((unsigned char)c) - 'A' + 10;
}

void read_hex(struct sheet *sheet, const char *hex)
{
    sheet->len = 0;
    while (*hex) {
        if (!isxdigit((unsigned char)*hex)) {
            hex++;
            continue;
        }
        sheet->at[sheet->len++] = (uint8_t)(16 * hex_digit(hex[0]) + hex_digit(hex[1]));
        hex += 2;
    }
}
