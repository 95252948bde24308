/* What the parts of the oracle share: bytes, the kinds, and what judging a circuit finds out about it. */
#ifndef ORACLE_CIRCUIT_H
#define ORACLE_CIRCUIT_H

#include "oracle.h"

#include <stdbool.h>

enum { MOST_BLOCKS = 400, MOST_OF_A_DESTINATION = 64, MOST_INPUTS = 4, MOST_PARAMETERS = 4 };

/* ---- bytes, the high one first */

static inline unsigned two_at(const uint8_t *bytes) { return (unsigned)bytes[0] << 8 | bytes[1]; }

static inline int32_t four_at(const uint8_t *bytes) { return (int32_t)((uint32_t)two_at(bytes) << 16 | two_at(bytes + 2)); }

/* ---- fields */

enum { HEADER = 0x01, BLOCK = 0x10, LABEL = 0x20, ROW = 0x30, END = 0x7F };

enum { ROW_CONTENT = 5, ROW_FIELD = 3 + ROW_CONTENT, MOST_LABEL = 16 }; /* bytes */

/* ---- the kinds */

enum {
    AND = 1,
    AND_EDGE,
    NAND,
    NAND_EDGE,
    OR,
    NOR,
    XOR,
    NOT,
    ON_DELAY,
    OFF_DELAY,
    LATCHING_RELAY,
    SHIFT_REGISTER,
    THRESHOLD_TRIGGER,
    COMPARATOR,
    MULTIPLEXER,
    DIFFERENTIAL_TRIGGER,
    UP_DOWN_COUNTER,
    STAIRWAY_SWITCH,
    AMPLIFIER,
    KINDS = 19
};

enum { MOST_COUNT = 999999 }; /* of an up/down counter: its count, On and Off */

enum { LEAST_VALUE = -32768, GREATEST_VALUE = 32767 }; /* of AM, V, an actual value and an analog block's output */

typedef struct {
    int32_t least, greatest;
} range;

typedef struct {
    unsigned digital, analog;      /* inputs of each sort; no kind has both */
    unsigned parameters;           /* how many */
    range ranges[MOST_PARAMETERS]; /* of each; a time may go to 9999 in base 0 only */
    unsigned times;                /* so many parameters behind the first, their base, are times; none is above the one before it */
    bool retentive;                /* option bit 0 is allowed */
    int32_t remembered;            /* the greatest of the block's second word; 0 where it has no use */
    bool is_analog;                /* its output is a value: class 9 names it, class 6 does not; else its output is a bit */
} kind_rule;

extern const kind_rule oracle_kind_rules[KINDS + 1];

/* Of a block's content: kind and options, three bytes a connector, four a parameter. */
static inline size_t content_length(const kind_rule *rule) { return 2 + 3 * (rule->digital + rule->analog) + 4 * rule->parameters; }

/* A block's parameter i, from 0, in its content. */
static inline int32_t parameter_at(const kind_rule *rule, const uint8_t *content, unsigned i) {
    return four_at(content + 2 + 3 * (rule->digital + rule->analog) + 4 * i);
}

/* ---- connectors and destinations */

enum { UNUSED, INPUT, LO, HI, FLAG, DIGITAL_BLOCK = 6, ANALOG_INPUT, ANALOG_FLAG, ANALOG_BLOCK };

typedef struct {
    unsigned class; /* without inversion */
    bool inverted;
    unsigned number;
} connector;

static inline connector connector_at(const uint8_t *bytes) {
    return (connector){.class = bytes[0] & 0x7Fu, .inverted = bytes[0] >= 0x80, .number = two_at(bytes + 1)};
}

enum { Q = 1, M, AQ, AM };

typedef struct {
    unsigned class, number; /* of the destination */
    connector source;
} row;

static inline row row_at(const uint8_t *content) {
    return (row){.class = content[0], .number = content[1], .source = connector_at(content + 2)};
}

/* ---- what is known of the circuit from the fields so far */

typedef struct {
    const oracle_limits *limits;
    bool has_header, behind_block;
    unsigned n, blocks, rows;
    uint32_t indexes; /* of the shift registers so far, a bit each */
    bool used[5][MOST_OF_A_DESTINATION + 1];
    uint8_t kinds[MOST_BLOCKS + 1];           /* of the blocks so far, by number */
    const uint8_t *contents[MOST_BLOCKS + 1]; /* of the blocks so far, by number */
    const uint8_t *first_row;                 /* its content; the rows stand behind one another */
} known_circuit;

/* Judges a circuit and fills in what is known of it: all that there is, where it is accepted. */
serifdove_answer oracle_judge(known_circuit *so_far, const oracle_limits *limits, const uint8_t *circuit, size_t length);

/* ---- answers */

static inline serifdove_answer refused(unsigned number, size_t place) {
    return (serifdove_answer){.number = number, .place = place, .first = 0, .second = 0};
}

static inline serifdove_answer accepted(size_t first, size_t second) {
    return (serifdove_answer){.number = 0, .place = 0, .first = first, .second = second};
}

#endif
