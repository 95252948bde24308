/* A circuit from a file: its bytes or, where the file's name ends in .csv, rows. */
#ifndef CIRCUIT_FILE_H
#define CIRCUIT_FILE_H

#include "files.h"
#include "series.h"

enum { MOST_TEXT_BYTES = 1048576 }; /* what a host reads as rows */

/* An accepted circuit. */
typedef struct {
    uint8_t *bytes; /* the caller frees them */
    size_t length;
    size_t blocks, rows; /* as check tells them */
} circuit_bytes;

typedef enum { CIRCUIT_TAKEN, CIRCUIT_REFUSED, CIRCUIT_NOT_READ } outcome;

/* Whether the file's name says that it holds rows: it ends in .csv, in capitals or not. */
bool names_rows(const char *path);

/* Takes the circuit from the file and judges it by serifdove_check and, where a series is asked for (else null), by that of the series.
   Where it is refused by either or cannot be read, that is told on standard error behind the program's name, and there is nothing to be
   freed. */
outcome take_circuit(const char *program, const char *path, const series *fit, circuit_bytes *to);

#endif
