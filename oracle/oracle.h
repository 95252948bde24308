/* A second program, written from the papers alone: the proved calls are compared with it, in answers, in words and in speed. */
#ifndef ORACLE_H
#define ORACLE_H

#include "serifdove.h"

/* How many of each there may be; none above oracle_limits_of_document_01. */
typedef struct {
    unsigned n;  /* blocks */
    unsigned q;  /* digital outputs */
    unsigned aq; /* analog outputs */
    unsigned m;  /* flags */
    unsigned am; /* analog flags */
} oracle_limits;

extern const oracle_limits oracle_limits_of_document_01;
extern const oracle_limits oracle_limits_of_0ba6; /* document 02, No. 4 */

/* Checks a circuit against these limits. */
serifdove_answer oracle_check_within(const oracle_limits *limits, const uint8_t *circuit, size_t length);

/* What serifdove_check and serifdove_check_profile must answer, and what each call on a record must answer and leave in record and
   outputs. */
serifdove_answer oracle_check(const uint8_t *circuit, size_t length);
serifdove_answer oracle_check_profile(const uint8_t *circuit, size_t length);
serifdove_answer oracle_cold_start(const uint8_t *circuit, size_t circuit_len, int32_t *record, size_t record_len);
serifdove_answer oracle_warm_start(const uint8_t *circuit, size_t circuit_len, int32_t *record, size_t record_len);
serifdove_answer oracle_latch(const uint8_t *circuit, size_t circuit_len, int32_t *record, size_t record_len, const int32_t *inputs,
                              size_t inputs_len, int32_t e);
serifdove_answer oracle_run(const uint8_t *circuit, size_t circuit_len, int32_t *record, size_t record_len, uint32_t c);
serifdove_answer oracle_publish(const uint8_t *circuit, size_t circuit_len, int32_t *record, size_t record_len, int32_t *outputs,
                                size_t outputs_len);

/* What serifdove_read_rows and serifdove_write_rows must answer, and what they must leave in the second slice. */
serifdove_answer oracle_read_rows(const uint8_t *text, size_t text_len, uint8_t *circuit, size_t circuit_len);
serifdove_answer oracle_write_rows(const uint8_t *circuit, size_t circuit_len, uint8_t *text, size_t text_len);

#endif
