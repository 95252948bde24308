/* The oracle's two calls on rows made wrong, each in one way: to see that a comparison finds it. */
#ifndef WRONG_ROWS_H
#define WRONG_ROWS_H

#include "sides.h"

/* Puts the wrong call of this name into the side; false where there is no such name. */
bool make_wrong_rows(side *archive, const char *name);

/* All names, a line each. */
void print_wrong_rows(void);

#endif
