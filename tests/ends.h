/* How often runs met the ends that an actual value is held to. */
#ifndef ENDS_H
#define ENDS_H

#include "circuits.h"

/* This block of the circuit was worked out: the record before the run and after it. */
void count_ends(const circuit *c, unsigned number, const int32_t *before, const int32_t *after);

/* Prints how often an output was another than it would have been without holding, by the kinds that can show it, by amplifiers that
   read one another, and through analog flags; and how often amplifiers had a value at an end or beside, before it was held. False
   where one was never met. */
bool report_ends(void);

#endif
