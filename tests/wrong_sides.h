/* The oracle's calls made wrong, each in one way: to see that a comparison finds it. */
#ifndef WRONG_SIDES_H
#define WRONG_SIDES_H

#include "sides.h"

/* Puts the wrong calls of this name into the side; false where there is no such name. */
bool make_wrong(side *archive, const char *name);

/* All names, a line each. */
void print_wrong_names(void);

#endif
