/* Writing a trace: the circuit, lent words and answers as lines of text. `replay --help` tells the lines. */
#ifndef TRACE_H
#define TRACE_H

#include "serifdove.h"

#include <stdio.h>

/* " COUNT WORD..": how many words, and the words. */
void trace_words(FILE *to, const int32_t *words, size_t count);

/* "C HEX". */
void trace_circuit(FILE *to, const uint8_t *bytes, size_t length);

/* "< NUMBER PLACE FIRST SECOND COUNT RECORD-WORD.. COUNT OUTPUT-WORD..": what a call answered and left. */
void trace_answer(FILE *to, serifdove_answer answer, const int32_t *record, size_t record_len, const int32_t *outputs,
                  size_t outputs_len);

#endif
