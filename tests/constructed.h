/* Inputs whose answer is known by construction: named cases, and families over all values of a byte or a number. */
#ifndef CONSTRUCTED_H
#define CONSTRUCTED_H

#include "serifdove.h"

typedef void known_visitor(const char *name, const uint8_t *bytes, size_t length, serifdove_answer want);

/* The named cases alone: all numbers from 0 to 11 are among them. */
void each_named(known_visitor *visit);

void each_constructed(known_visitor *visit);

#endif
