/* What Marta sees when she stops between two blocks and looks. */
#ifndef LOOK_H
#define LOOK_H

#include "circuit.h"

typedef struct {
    const circuit *circuit;
    const int32_t *record;
    const int32_t *outputs; /* as published last */
    bool published;         /* something was published yet */
    bool coloured;
} sight;

/* Prints where the scan stands, inputs, flags and outputs, and the blocks from first to last, with a mark where the scan stands. */
void look(FILE *to, const sight *at, unsigned first, unsigned last);

/* "waiting", or "in a scan, 3 of 10 blocks done". */
void print_phase(FILE *to, const circuit *c, const int32_t *record);

#endif
