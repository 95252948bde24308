/* The oracle's calls made wrong in what they know of some kinds, each in one way: of the off-delay, the up/down counter, the
   stairway switch, and of actual values and the amplifier. */
#ifndef WRONG_KINDS_H
#define WRONG_KINDS_H

#include "sides.h"

/* Puts the wrong calls of this name into the side; false where there is no such name. */
bool make_kinds_wrong(side *archive, const char *name);

/* All names, a line each. */
void print_wrong_kinds(void);

/* The same circuit with the times of each stairway switch in order: a call that is given it cannot tell that they were not. */
const uint8_t *times_in_order(const uint8_t *circuit, size_t length);

/* The same circuit, but hi for an amplifier that is named as a digital block: a call that is given it cannot tell that one was. */
const uint8_t *no_digital_amplifiers(const uint8_t *circuit, size_t length);

/* The same circuit, but an unknown class where an amplifier is named as an analog block: a call that is given it refuses that. */
const uint8_t *no_analog_amplifiers(const uint8_t *circuit, size_t length);

#endif
