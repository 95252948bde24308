/* The refusal numbers in words, for people. */
#ifndef REFUSALS_H
#define REFUSALS_H

#include "serifdove.h"

#include <stdio.h>

/* What the number says, and what to do about it. For any number, without a stop at the end. */
const char *refusal_meaning(size_t number);
const char *refusal_cure(size_t number);

/* Tells why check refused these bytes: number, place, meaning, the field that begins there, the bytes around it, and the cure. */
void tell_refused_circuit(FILE *to, serifdove_answer answer, const uint8_t *bytes, size_t length);

/* Tells which block begins at this place, if one does. */
void tell_block(FILE *to, const uint8_t *bytes, size_t length, size_t place);

#endif
