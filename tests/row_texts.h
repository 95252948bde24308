/* Texts of rows for the tests, so that what reading must answer is known by construction. */
#ifndef ROW_TEXTS_H
#define ROW_TEXTS_H

#include "circuits.h"
#include "serifdove.h"

enum { TEXT_ROOM = 1 << 20 };

typedef struct {
    uint8_t bytes[TEXT_ROOM];
    size_t length;
} row_text;

/* ---- rows, cell by cell */

enum { MOST_CELLS = 20, LONGEST_CELL = 40 };

typedef struct {
    uint8_t bytes[LONGEST_CELL]; /* what it says */
    size_t length;
    enum { TEXT, NUMBER, PARAMETER } sort; /* a parameter is a number that may have a minus */
} row_cell;

typedef struct {
    row_cell cells[MOST_CELLS];
    unsigned count;
} row_cells;

void add_text(row_cells *r, const void *bytes, size_t length);
void add_number(row_cells *r, int32_t number);

/* The cells of the block at this number, from 1, or of the row at this place. */
void block_cells(row_cells *r, const circuit *c, unsigned number);
void output_row_cells(row_cells *r, const circuit *c, size_t place);

/* ---- ways to write a text */

typedef struct {
    /* by the paper: of a cell that holds a comma, a quote, CR or LF; the fewest: CR stands without them where it can */
    enum { QUOTES_BY_PAPER, QUOTES_FEWEST, QUOTES_SOME, QUOTES_ALL } quotes;
    enum { ENDS_CRLF, ENDS_LF, ENDS_EITHER } ends;
    bool end_of_the_last; /* whether the last row has a line end */
    bool zeros;           /* now and then zeros in front of a number, and -0 for 0 */
} text_style;

enum { TEXT_STYLES = 4 * 3 * 2 * 2 };

/* Each style in turn, k from 0, which is the one that a circuit is written out in. */
text_style style_of(unsigned k);

/* A row with a line end in this style. A cell that cannot stand without quotes has them. */
void put_row_text(row_text *t, chance *with, const row_cells *r, text_style style);

/* All rows of the circuit, and nothing else. */
void put_circuit_text(row_text *t, chance *with, const circuit *c, text_style style);

/* Takes the last row's line end away. */
void drop_last_end(row_text *t);

/* Commas, quotes, CR and LF into the circuit's labels, and other bytes that numbers and rows have. */
void put_hard_labels(circuit *c, chance *with);

/* ---- texts whose answer is known, where there is room for LONGEST_CIRCUIT bytes */

void each_named_text(void (*each)(const char *name, const uint8_t *text, size_t length, serifdove_answer want));

#endif
