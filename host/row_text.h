/* Rows as text, for people: which row and cell a refusal is about, in words, and what spreadsheet programs add. The library's answer
   decides; where the reader here does not find what the library told, the message says only what the library said. */
#ifndef ROW_TEXT_H
#define ROW_TEXT_H

#include "serifdove.h"

#include <stdbool.h>
#include <stdio.h>

/* Tells why serifdove_read_rows refused this text: number, row and its line, the cell and what is expected there, the row's text, and
   what to do. */
void tell_refused_rows(FILE *to, serifdove_answer answer, const uint8_t *text, size_t length);

/* Where the first block stands that is one more than so many, and how many there are; nothing where there are not more. */
void tell_surplus_block(FILE *to, size_t most, const uint8_t *text, size_t length);

/* A circuit's bytes, and the text from whose rows they were read; a null pointer with length 0, if from none. */
typedef struct {
    const uint8_t *bytes;
    size_t length;
    const uint8_t *text;
    size_t text_length;
} circuit_source;

/* Tells why serifdove_check refused the circuit that was read from a text: number, meaning, the row of the field with the fault and its
   text, the cells, what is expected there, and what to do. */
void tell_refused_circuit_of_rows(FILE *to, serifdove_answer answer, const circuit_source *of);

/* Prints where the field at this place stands: "row 2 (line 3 of the file)"; "byte 23 of the circuit" where no row of the text is found
   for it, and "byte 23" where there is no text. */
void print_place_of_field(FILE *to, const circuit_source *of, size_t place);

/* Tells the cells of the block's input, from 0, or of an output row those that a refusal by this number is about: their text, what is
   expected there, and the row with a mark below them. The field at this place is a block or an output row. Nothing where no row of the
   text is found for it. */
void tell_cells_of_field(FILE *to, const circuit_source *of, size_t place, size_t input, size_t number, const char *expected);

/* What was taken away, and how many bytes are left. */
typedef struct {
    size_t length;
    bool had_mark; /* a byte order mark */
    size_t blank_rows, cut_rows;
    size_t left_rows; /* that stay, since taking something away there could change what the rows say */
} trimmed;

/* Copies the text without what spreadsheet programs add: a byte order mark, rows of empty cells, and empty cells behind those that the
   row's kind has. Every other byte stays; from a row with a fault in its quotes on, all do. A row of empty cells stays where a block
   comes behind it: a block may have stood there, and the later ones have their numbers from it. So do the empty cells of a block whose
   label would be 0 or 1: that may be its mark, behind a number that a comma has parted. There is room for the whole text. */
trimmed trim_rows(const uint8_t *text, size_t length, uint8_t *to);

#endif
