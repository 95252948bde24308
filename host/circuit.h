/* An accepted circuit laid out for people: its blocks with kind, inputs, parameters and label, its rows with destination and connector,
   and how all of that is named. */
#ifndef CIRCUIT_H
#define CIRCUIT_H

#include "files.h"
#include "serifdove.h"

#include <stdio.h>

enum {
    MOST_CIRCUIT_BYTES = 65536, /* what a host reads; no accepted circuit is longer */
    MOST_OF_A_BLOCK = 4,        /* inputs, parameters */
    ANALOG_INPUTS = 8,
    DIGITAL_INPUTS = SERIFDOVE_INPUT_WORD_COUNT - ANALOG_INPUTS,
    ANALOG_OUTPUTS = 8,
    DIGITAL_OUTPUTS = SERIFDOVE_OUTPUT_WORD_COUNT - ANALOG_OUTPUTS,
    FLAGS = 64, /* M, and as many AM */
    MOST_ROWS = DIGITAL_OUTPUTS + ANALOG_OUTPUTS + 2 * FLAGS
};

/* Kinds that are shown in a way of their own. */
enum { ON_DELAY = 9, OFF_DELAY = 10, SHIFT_REGISTER = 12, UP_DOWN_COUNTER = 17, STAIRWAY_SWITCH = 18, ANALOG_AMPLIFIER = 19 };

/* The kinds that there are, and those that may be retentive, for messages. */
#define ALL_KINDS "1 to 19"
#define RETENTIVE_KINDS "9 to 12, 17 and 18"

/* The tags of fields, and the bytes of a field before its content. */
enum { HEADER_TAG = 0x01, BLOCK_TAG = 0x10, LABEL_TAG = 0x20, ROW_TAG = 0x30, END_TAG = 0x7F, FIELD_HEAD = 3 };

/* How many bytes of content the field has that begins here. */
size_t content_length(const uint8_t *field);

typedef struct {
    unsigned class; /* without the inversion */
    unsigned number;
    bool inverted;
} connector;

/* The classes of destinations. */
enum { TO_Q = 1, TO_M, TO_AQ, TO_AM };

typedef struct {
    size_t place; /* its field's first byte */
    unsigned kind;
    bool retentive;
    connector inputs[MOST_OF_A_BLOCK];
    int32_t parameters[MOST_OF_A_BLOCK];
    const uint8_t *label; /* null: it has none */
    size_t label_length;
} block;

typedef struct {
    size_t place;           /* its field's first byte */
    unsigned class, number; /* of its destination */
    connector from;
} output_row;

typedef struct {
    size_t length; /* of its bytes */
    unsigned n, rows;
    block block[SERIFDOVE_MOST_BLOCKS + 1]; /* by number, from 1 */
    output_row row[MOST_ROWS];
} circuit;

/* A kind as people name it. Inputs and parameters that it has not are null; the inputs of a gate have empty names. */
typedef struct {
    const char *name;
    const char *inputs[MOST_OF_A_BLOCK];
    const char *parameters[MOST_OF_A_BLOCK];
    bool remembers; /* it has a remembered word */
    bool unused;    /* what an unused input counts */
} kind;

/* The kind with this number; null if there is none. */
const kind *kind_of(unsigned number);

/* Whether its number is Ta, the time that has run of T: delays and the stairway switch. */
bool has_time(unsigned kind_number);

/* How many of these inputs or parameters a kind has. */
size_t count_of(const char *const *names);

/* How many bytes of content a block of this kind has. */
size_t block_length(const kind *k);

/* Lays out the circuit. serifdove_check accepts these bytes, which stay where they are as long as the layout is used. */
void lay_out(circuit *to, const uint8_t *bytes, size_t length);

/* The parameter, from 0, of the block of this kind whose field begins here. */
int32_t parameter_at(const uint8_t *field, const kind *k, size_t parameter);

/* Which parameter is which time of a block that has one, behind their base: T, and of a stairway switch T! and T!L. */
enum { WHOLE_TIME = 1, WARNING_TIME, DARK_TIME };

/* This time of the block in ticks. */
int64_t ticks_of(const block *of, unsigned time);

/* Which class of destinations writes what the connector reads: TO_M or TO_AM; 0 where it reads no flag. */
unsigned written_by(connector c);

/* What the connector brings to a block, by the words of the record as they are; `unused` where it is unused. */
int32_t value_of(connector c, bool unused, const int32_t *record);

/* ---- names, for printing */

typedef struct {
    char text[16];
} name;

/* Of a row's destination, by class and number: Q17, M28, AQ3, AM7. */
name destination_name(unsigned class, unsigned number);

name connector_name(connector c);   /* I3, !M5, B7, AI2, AM4, hi, lo, - */
name flag_name(size_t word);        /* of M1 to M64, from 0 */
name analog_flag_name(size_t word); /* of AM1 to AM64, from 0 */
name input_name(size_t word);       /* of a word that latch reads */
name output_name(size_t word);      /* of a word that publish writes */

/* The label, its bytes that are not plain text as \xNN. */
typedef struct {
    char text[4 * 16 + 1];
} label_text;
label_text label_of(const block *of);

/* So many ticks as a time: 0.50 s, 12:30.00 min, 99:59:00.00 h. */
typedef struct {
    char text[32];
} time_text;
time_text time_of(int64_t ticks);

/* "I1 1, AI2 250": the words that are not 0, by their names, or `none`. */
void print_words(FILE *to, const int32_t *words, size_t count, name (*name_of)(size_t word), const char *none);

#endif
