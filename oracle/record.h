/* Where the words of a run record stand, and what a block does to them. */
#ifndef ORACLE_RECORD_H
#define ORACLE_RECORD_H

#include "circuit.h"

enum {
    PHASE,
    DONE,
    MARK,
    ELAPSED,
    FIRST_I,
    FIRST_AI = FIRST_I + 24,
    FIRST_M = FIRST_AI + 8,
    FIRST_AM = FIRST_M + 64,
    FIRST_BLOCK = FIRST_AM + 64
};

/* What the phase may be. */
enum { WAITING, IN_SCAN };

/* The words of a block. */
enum { OUTPUT, REMEMBERED, NUMBER, WORDS_OF_A_BLOCK };

/* Where the words of this block begin, from 1. */
static inline size_t block_words(unsigned number) { return FIRST_BLOCK + WORDS_OF_A_BLOCK * ((size_t)number - 1); }

/* T of a kind that has times, in ticks. */
int32_t oracle_ticks(const uint8_t *content);

/* What a connector shows that is not unused. */
int32_t oracle_value(const int32_t *record, connector c);

/* What a trigger's output becomes, for the value that it judges and its output before. */
int32_t oracle_triggered(int32_t value, int32_t on, int32_t off, int32_t before);

/* Works out the block with this content: `own` are its words in the record. */
void oracle_work_out(const uint8_t *content, const int32_t *record, int32_t *own);

#endif
