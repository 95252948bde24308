/* How long a task takes on each side, and how much stack. */
#ifndef MEASURE_H
#define MEASURE_H

#include "records.h"
#include "row_texts.h"
#include "sides.h"

/* A circuit, and the words or bytes of its own that a side works on. */
typedef struct {
    const circuit *c;
    size_t length;        /* of the circuit: all of it, or cut */
    const row_text *text; /* the circuit's rows; of them: */
    size_t text_length;
    uint8_t *written; /* what a call on rows writes, TEXT_ROOM bytes */
    uint32_t turn;    /* how many blocks a run is asked for */
    int32_t record[MOST_RECORD], inputs[SERIFDOVE_INPUT_WORD_COUNT], outputs[SERIFDOVE_OUTPUT_WORD_COUNT];
} subject;

/* Counts the answers that refuse; where time is measured none is expected. */
extern size_t refusals;

static inline serifdove_answer told(serifdove_answer answer) {
    refusals += answer.number != 0;
    return answer;
}

/* One call or several. */
typedef void task(const side *by, subject *on);

typedef struct {
    double best[SIDES], median[SIDES]; /* nanoseconds for the task once, over the rounds */
} times;

/* The two sides in turn, round by round, each on its own subject. */
times time_both(task *what, subject on[SIDES]);

/* Whether a limit is reached, in words. */
const char *reached(bool yes);

/* How much deeper than a call that does nothing the task writes its stack. */
size_t stack_of(task *what, const side *by, subject *on);

#endif
