/*
 * plain_window_rows.h: one window held against its marks, row by row.
 */
#ifndef PLAIN_WINDOW_ROWS_H
#define PLAIN_WINDOW_ROWS_H

#include "plain_windows.h"

/* The window has no refusal 10 and no refusal 9, and all its marks are 0 or 1. */
bool window_rows_are_clear(const struct plan *plan, const struct window *w, const uint8_t *m);

#endif
