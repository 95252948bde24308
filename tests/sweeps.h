/* Calls one by one on chosen words: what each kind makes of its inputs and memory, and each number from 20 to 24. */
#ifndef SWEEPS_H
#define SWEEPS_H

#include "circuits.h"

void sweep_kinds(void);
void sweep_refusals(chance *with);

#endif
