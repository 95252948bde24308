/* Circuits for the tests and the bench, written field by field, so that what check must answer is known by construction. */
#ifndef CIRCUITS_H
#define CIRCUITS_H

#include <stdbool.h>
#include <stddef.h>
#include <stdint.h>

enum {
    KINDS = 19,
    MOST_BLOCKS = 400,
    DESTINATIONS = 20 + 64 + 8 + 64,
    /* the longest circuit that is accepted: multiplexers with full labels, a row for each destination */
    LONGEST_CIRCUIT = 6 + MOST_BLOCKS * (30 + 19) + DESTINATIONS * 8 + 3,
    MOST_FIELDS = 1 + 2 * MOST_BLOCKS + DESTINATIONS + 1
};

enum { HEADER = 0x01, BLOCK = 0x10, LABEL = 0x20, ROW = 0x30, END = 0x7F };

/* ---- chance: the same numbers for the same seed, on every machine */

typedef struct {
    uint64_t state;
} chance;

chance chance_of(uint64_t seed);

/* What a comparison is told: the seed, then how much to compare. Words that are not there leave what is. */
void seed_and_count(int words, char **word, uint64_t *seed, uint64_t *count);
uint32_t below(chance *with, uint32_t bound);                    /* 0 to bound - 1 */
bool once_in(chance *with, uint32_t times);                      /* true once in so many times */
int32_t between(chance *with, int32_t least, int32_t greatest);  /* both ends are often met */
int32_t held_to(int32_t value, int32_t least, int32_t greatest); /* the nearest in this range */

/* An analog value in this range, most often one of a few: so thresholds and what they judge meet. */
int32_t usual_value(chance *with, int32_t least, int32_t greatest);

/* ---- the kinds as the tests see them */

typedef struct {
    const char *inputs; /* a letter each: d digital, a analog */
    unsigned parameters;
    int32_t least[4], greatest[4]; /* of a time: the greatest of any base */
    bool retentive;
} shape;

extern const shape shapes[KINDS + 1];

enum { COMPARATOR = 14, MULTIPLEXER, DIFFERENTIAL, COUNTER, STAIRWAY, AMPLIFIER, MOST_COUNT = 999999 };

enum { LEAST_VALUE = -32768, GREATEST_VALUE = 32767 }; /* of an analog flag and an analog block's output */

unsigned times_of(unsigned kind);    /* how many parameters behind the base are times, none above the one before it */
int32_t greatest_time(int32_t base); /* that a parameter may say */
bool is_analog(unsigned kind);       /* its output is a value, and class 9 names it */
unsigned inputs_of(unsigned kind);
size_t input_at(unsigned i);                    /* where input i stands, from the block's tag on */
size_t parameter_at(unsigned kind, unsigned i); /* where parameter i stands, from the block's tag on */

/* ---- writing */

typedef struct {
    uint8_t bytes[LONGEST_CIRCUIT + 64];
    size_t length;
    unsigned n, rows;
    unsigned fields;
    size_t place[MOST_FIELDS];      /* where each field begins */
    uint8_t kinds[MOST_BLOCKS + 1]; /* of each block, by number */
    size_t block[MOST_BLOCKS + 1];  /* where each block begins, by number */
    unsigned blocks, registers;     /* so far; a register's index is its count */
} circuit;

void put_two(uint8_t *at, unsigned number);
void put_four(uint8_t *at, int32_t number);
void put_connector(uint8_t *at, unsigned class, unsigned number);

void begin_circuit(circuit *c, unsigned n); /* the header */
void add_label(circuit *c, const uint8_t *text, size_t length);
void add_row(circuit *c, unsigned class, unsigned number, unsigned source, unsigned source_number);
void end_circuit(circuit *c);

/* A block with these connectors, class bytes and numbers in turn, and these parameters. */
void add_given_block(circuit *c, unsigned kind, unsigned options, const unsigned (*connectors)[2], const int32_t *parameters);

/* A block whose inputs are I1 or analog input 1 and whose parameters are allowed; a register takes the next index. */
void add_plain_block(circuit *c, unsigned kind);

int32_t parameter_of(const circuit *c, unsigned number, unsigned i); /* parameter i of this block */
int32_t ticks_of(const circuit *c, unsigned number, unsigned i);     /* likewise, a time, in ticks; T is parameter 1 */
int32_t unheld_of(int32_t input, int32_t a, int32_t b);              /* the actual value before it is held */
int32_t actual_of(int32_t input, int32_t a, int32_t b);              /* the actual value */

/* Parameters that are allowed; the ends of each range are often met. */
void random_parameters(chance *with, unsigned kind, int32_t *values);

/* The class and number of destination k, from 0: Q, M, AQ, AM in turn. */
void destination_of(unsigned k, unsigned *class, unsigned *number);

/* An accepted circuit with n blocks and so many rows, all else by chance; the last block has this kind, if it is not 0. */
void random_circuit(circuit *c, chance *with, unsigned n, unsigned rows, unsigned last_kind);

/* Likewise, with few inputs and flags, short settings, thresholds near what they judge or count, and amplifiers that read one
   another, through analog flags too: in its scans much happens. */
void lively_circuit(circuit *c, chance *with, unsigned n, unsigned rows, unsigned last_kind);

/* As random_circuit, and it fits the series 0BA6: n up to 200, rows up to 51. */
void fitting_circuit(circuit *c, chance *with, unsigned n, unsigned rows, unsigned last_kind);

/* An accepted circuit with n blocks, all kinds in turn, labels of 16 bytes, and a row for each destination if there are blocks.
   Each block names the one before it where the sort allows. There are four shift registers; OR stands for further ones. */
void full_circuit(circuit *c, unsigned n);

#endif
