/* The gateway's box: a circuit, its record, inputs and outputs, and the calls on them, which go to a trace while one is written. */
#ifndef BOX_H
#define BOX_H

#include "circuit.h"

typedef struct {
    circuit circuit;
    uint8_t *bytes;
    int32_t *record;
    size_t record_len;
    int32_t inputs[SERIFDOVE_INPUT_WORD_COUNT];   /* what the next latch reads */
    int32_t outputs[SERIFDOVE_OUTPUT_WORD_COUNT]; /* as published last */
    bool published;                               /* something was published yet */
    FILE *trace;                                  /* null: none is written */
    int trace_error;                              /* why it could not be written; 0: it could */
} box;

/* Takes an accepted circuit, with a record of zeros and no outputs; false where there is no memory. The bytes are the box's from now
 * on. */
bool open_box(box *b, uint8_t *bytes, size_t length);
void close_box(box *b);

serifdove_answer cold_start(box *b);
serifdove_answer warm_start(box *b);
serifdove_answer latch(box *b, int32_t e);
serifdove_answer run(box *b, uint32_t c);
serifdove_answer publish(box *b);

/* Replaces the record by that of a file; false where it is refused, and the record stays. */
bool load(box *b, const char *path, message *why);

/* Begins a trace in a file that is not there yet; ends it. False with a message where it cannot be written. */
bool begin_trace(box *b, const char *path, message *why);
bool end_trace(box *b, message *why);

bool is_in_scan(const box *b);
unsigned blocks_to_go(const box *b);

#endif
