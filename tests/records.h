/* Run records and inputs for a circuit of the tests: what is sound, and how it is broken. */
#ifndef RECORDS_H
#define RECORDS_H

#include "circuits.h"
#include "serifdove.h"

enum { MOST_RECORD = SERIFDOVE_RECORD_WORDS(SERIFDOVE_MOST_BLOCKS) + 8, MOST_WORDS = 40 };

typedef struct {
    int32_t least, greatest;
} word_range;

/* Which values the word at this place may have in a record of this phase. */
word_range range_at(const circuit *c, size_t place, bool in_scan);

/* Which values word i of latch's inputs may have. */
word_range input_range(size_t i);

/* A sound record of this phase, each word by itself: most are reached by no scan. */
void random_record(const circuit *c, chance *with, bool in_scan, int32_t *record);

/* Allowed input words. */
void random_inputs(chance *with, int32_t *inputs);

/* An allowed e, most often one that a time of this record is just reached or missed with. */
int32_t random_e(const circuit *c, chance *with, const int32_t *record);

#endif
