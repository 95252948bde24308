/* The two that are compared: the archive's calls and the oracle's, by the same names. */
#ifndef SIDES_H
#define SIDES_H

#include "serifdove.h"

#include <stdbool.h>

typedef serifdove_answer check_function(const uint8_t *circuit, size_t length);
typedef serifdove_answer start_function(const uint8_t *circuit, size_t circuit_len, int32_t *record, size_t record_len);
typedef serifdove_answer latch_function(const uint8_t *circuit, size_t circuit_len, int32_t *record, size_t record_len,
                                        const int32_t *inputs, size_t inputs_len, int32_t e);
typedef serifdove_answer run_function(const uint8_t *circuit, size_t circuit_len, int32_t *record, size_t record_len, uint32_t c);
typedef serifdove_answer publish_function(const uint8_t *circuit, size_t circuit_len, int32_t *record, size_t record_len,
                                          int32_t *outputs, size_t outputs_len);
/* read_rows and write_rows: from the first slice to the second */
typedef serifdove_answer rows_function(const uint8_t *from, size_t from_len, uint8_t *to, size_t to_len);

typedef struct {
    const char *name;
    check_function *check, *check_profile;
    start_function *cold_start, *warm_start;
    latch_function *latch;
    run_function *run;
    publish_function *publish;
    rows_function *read_rows, *write_rows;
} side;

enum { ARCHIVE, ORACLE, SIDES };

extern const side sides[SIDES];

/* Puts the calls on a record that `from` has, the others being NULL there, into the side. */
void put_calls(side *to, const side *from);

bool same_answer(serifdove_answer a, serifdove_answer b);

#endif
