/* Each field is decoded into a struct; then all numbers that hold for it are collected in a set, and the lowest is taken.
   A field without a fault is added to what is known of the circuit. */
#include "circuit.h"

#include <string.h>

const oracle_limits oracle_limits_of_document_01 = {.n = 400, .q = 20, .aq = 8, .m = 64, .am = 64};
const oracle_limits oracle_limits_of_0ba6 = {.n = 200, .q = 16, .aq = 2, .m = 27, .am = 6};

/* ---- sets of small numbers: bit k stands for k */

typedef uint32_t set;

#define ONE(k) ((set)1 << (k))

static set when(bool holds, unsigned number) { return (set)holds << number; }

static bool has(set s, unsigned k) { return k < 32 && (s >> k & 1) != 0; }

static unsigned lowest(set s) {
    unsigned k = 0;
    while (!has(s, k))
        k++;
    return k;
}

/* ---- the kinds */

#define GAIN {-1000, 1000}
#define OFFSET {-10000, 10000}
#define THRESHOLD {-20000, 20000}
#define VALUE {LEAST_VALUE, GREATEST_VALUE}

#define BASE {0, 2}
#define TIME {0, 9999}
#define THRESHOLDS GAIN, OFFSET, THRESHOLD, THRESHOLD
#define COUNT {0, MOST_COUNT}

const kind_rule oracle_kind_rules[KINDS + 1] = {
    [AND] = {.digital = 4},
    [AND_EDGE] = {.digital = 4, .remembered = 1},
    [NAND] = {.digital = 4},
    [NAND_EDGE] = {.digital = 4, .remembered = 1},
    [OR] = {.digital = 4},
    [NOR] = {.digital = 4},
    [XOR] = {.digital = 2},
    [NOT] = {.digital = 1},
    [ON_DELAY] = {.digital = 1, .parameters = 2, .ranges = {BASE, TIME}, .times = 1, .retentive = true, .remembered = 1},
    [OFF_DELAY] = {.digital = 2, .parameters = 2, .ranges = {BASE, TIME}, .times = 1, .retentive = true, .remembered = 1},
    [LATCHING_RELAY] = {.digital = 2, .retentive = true},
    [SHIFT_REGISTER] = {.digital = 3, .parameters = 2, .ranges = {{1, 4}, {1, 8}}, .retentive = true, .remembered = 1},
    [THRESHOLD_TRIGGER] = {.analog = 1, .parameters = 4, .ranges = {THRESHOLDS}},
    [COMPARATOR] = {.analog = 2, .parameters = 4, .ranges = {THRESHOLDS}},
    [MULTIPLEXER] = {.digital = 3, .parameters = 4, .ranges = {VALUE, VALUE, VALUE, VALUE}, .is_analog = true},
    [DIFFERENTIAL_TRIGGER] = {.analog = 1, .parameters = 4, .ranges = {THRESHOLDS}},
    [UP_DOWN_COUNTER] = {.digital = 3, .parameters = 2, .ranges = {COUNT, COUNT}, .retentive = true, .remembered = 1},
    [STAIRWAY_SWITCH] =
        {.digital = 1, .parameters = 4, .ranges = {BASE, TIME, TIME, TIME}, .times = 3, .retentive = true, .remembered = 3},
    [AMPLIFIER] = {.analog = 1, .parameters = 2, .ranges = {GAIN, OFFSET}, .is_analog = true},
};

static bool is_known_kind(unsigned kind) { return 1 <= kind && kind <= KINDS; }

/* ---- fields, decoded */

typedef struct {
    unsigned tag;
    size_t length;
    const uint8_t *content;
} field;

typedef struct {
    unsigned kind, options;
    connector inputs[MOST_INPUTS];
    int32_t parameters[MOST_PARAMETERS];
} block;

/* The field at `place`; false where the slice ends before it does. */
static bool field_at(const uint8_t *circuit, size_t length, size_t place, field *f) {
    const size_t left = length - place;
    if (left < 3)
        return false;
    f->tag = circuit[place];
    f->length = two_at(circuit + place + 1);
    f->content = circuit + place + 3;
    return f->length <= left - 3;
}

/* The block in a content that has its kind's length. */
static void decode_block(const kind_rule *rule, const uint8_t *content, block *b) {
    const uint8_t *at = content + 2;
    b->kind = content[0];
    b->options = content[1];
    for (unsigned i = 0; i < rule->digital + rule->analog; i++, at += 3)
        b->inputs[i] = connector_at(at);
    for (unsigned i = 0; i < rule->parameters; i++, at += 4)
        b->parameters[i] = four_at(at);
}

/* ---- connectors: numbers 6 and 7 */

#define DIGITAL_CLASSES (ONE(INPUT) | ONE(LO) | ONE(HI) | ONE(FLAG) | ONE(DIGITAL_BLOCK))
#define ANALOG_CLASSES (ONE(ANALOG_INPUT) | ONE(ANALOG_FLAG) | ONE(ANALOG_BLOCK))
#define BLOCK_CLASSES (ONE(DIGITAL_BLOCK) | ONE(ANALOG_BLOCK))

static bool number_fits(const known_circuit *so_far, connector c) {
    switch (c.class) {
    case UNUSED:
    case LO:
    case HI:
        return c.number == 0;
    case INPUT:
        return 1 <= c.number && c.number <= 24;
    case FLAG:
        return 1 <= c.number && c.number <= so_far->limits->m;
    case ANALOG_INPUT:
        return 1 <= c.number && c.number <= 8;
    case ANALOG_FLAG:
        return 1 <= c.number && c.number <= so_far->limits->am;
    case DIGITAL_BLOCK:
    case ANALOG_BLOCK:
        return 1 <= c.number && c.number <= so_far->n;
    default:
        return false;
    }
}

/* Whether an earlier block is not of the sort that the connector's class says. */
static bool wrong_sort(const known_circuit *so_far, connector c) {
    return oracle_kind_rules[so_far->kinds[c.number]].is_analog != (c.class == ANALOG_BLOCK);
}

/* The numbers that hold for a connector where the classes `taken` are allowed. A block that is not there yet is an own or a later
   one; at a row all are there. */
static set connector_numbers(const known_circuit *so_far, connector c, set taken, bool sort_judged) {
    const bool fits = number_fits(so_far, c);
    const bool names_block = has(BLOCK_CLASSES, c.class);
    const bool earlier = fits && names_block && c.number <= so_far->blocks;
    const bool later = fits && names_block && c.number > so_far->blocks;
    return when(!has(taken, c.class), 6) | when(!fits, 6) | when(c.inverted && !has(DIGITAL_CLASSES, c.class), 6) |
           when(sort_judged && earlier && wrong_sort(so_far, c), 6) | when(later, 7);
}

/* ---- blocks */

static set input_numbers(const known_circuit *so_far, const kind_rule *rule, const block *b) {
    set held = 0;
    for (unsigned i = 0; i < rule->digital; i++)
        held |= connector_numbers(so_far, b->inputs[i], DIGITAL_CLASSES | ONE(UNUSED), true);
    for (unsigned i = 0; i < rule->analog; i++)
        held |= connector_numbers(so_far, b->inputs[i], ANALOG_CLASSES, true);
    return held;
}

/* The times behind the base: in bases 1 and 2 none is above 5999, and none is above the one before it. */
static bool times_fit(const kind_rule *rule, const block *b) {
    for (unsigned i = 1; i <= rule->times; i++)
        if ((b->parameters[0] != 0 && b->parameters[i] > 5999) || (i > 1 && b->parameters[i] > b->parameters[i - 1]))
            return false;
    return true;
}

static bool parameters_fit(const kind_rule *rule, const block *b) {
    for (unsigned i = 0; i < rule->parameters; i++)
        if (b->parameters[i] < rule->ranges[i].least || b->parameters[i] > rule->ranges[i].greatest)
            return false;
    return times_fit(rule, b);
}

static set block_numbers(const known_circuit *so_far, const field *f, block *b) {
    set held = when(!so_far->has_header || so_far->rows > 0, 2) | when(so_far->blocks == so_far->n, 4);
    if (f->length == 0)
        return held | ONE(2);
    if (!is_known_kind(f->content[0]))
        return held | ONE(5);
    const kind_rule *rule = &oracle_kind_rules[f->content[0]];
    if (f->length != content_length(rule))
        return held | ONE(2);
    decode_block(rule, f->content, b);
    held |= when(b->options > 1 || (b->options == 1 && !rule->retentive), 5);
    held |= input_numbers(so_far, rule, b);
    held |= when(!parameters_fit(rule, b), 8);
    held |= when(b->kind == SHIFT_REGISTER && has(so_far->indexes, (unsigned)b->parameters[0]), 10);
    return held;
}

static void add_block(known_circuit *so_far, const field *f, const block *b) {
    so_far->blocks++;
    so_far->kinds[so_far->blocks] = (uint8_t)b->kind;
    so_far->contents[so_far->blocks] = f->content;
    if (b->kind == SHIFT_REGISTER)
        so_far->indexes |= ONE(b->parameters[0]);
}

/* ---- rows */

/* How many destinations the class has; 0 for an unknown class. */
static unsigned destinations(const oracle_limits *limits, unsigned class) {
    switch (class) {
    case Q:
        return limits->q;
    case M:
        return limits->m;
    case AQ:
        return limits->aq;
    case AM:
        return limits->am;
    default:
        return 0;
    }
}

static set source_numbers(const known_circuit *so_far, const row *r) {
    if (r->class == Q || r->class == M)
        return connector_numbers(so_far, r->source, DIGITAL_CLASSES, true);
    if (r->class == AQ || r->class == AM)
        return connector_numbers(so_far, r->source, ANALOG_CLASSES, true);
    return connector_numbers(so_far, r->source, DIGITAL_CLASSES | ANALOG_CLASSES, false);
}

static set row_numbers(const known_circuit *so_far, const field *f, row *r) {
    set held = when(!so_far->has_header, 2) | when(so_far->blocks < so_far->n, 4);
    if (f->length != ROW_CONTENT)
        return held | ONE(2);
    *r = row_at(f->content);
    const bool known = 1 <= r->number && r->number <= destinations(so_far->limits, r->class);
    return held | source_numbers(so_far, r) | when(!known || so_far->used[r->class][r->number], 9);
}

static void add_row(known_circuit *so_far, const field *f, const row *r) {
    if (so_far->rows == 0)
        so_far->first_row = f->content;
    so_far->rows++;
    so_far->used[r->class][r->number] = true;
}

/* ---- header, label, end */

static set header_numbers(const known_circuit *so_far, const field *f) {
    if (so_far->has_header || f->length != 3)
        return ONE(2);
    return when(f->content[0] != 1, 3) | when(two_at(f->content + 1) > so_far->limits->n, 4);
}

static set label_numbers(const known_circuit *so_far, const field *f) {
    return when(!so_far->behind_block || f->length > MOST_LABEL, 2);
}

static set end_numbers(const known_circuit *so_far, const field *f) {
    return when(!so_far->has_header || f->length != 0, 2) | when(so_far->blocks < so_far->n, 4);
}

/* ---- the circuit */

/* The numbers that hold for the field. If there are none, the field is added to what is known. */
static set judge(known_circuit *so_far, const field *f) {
    set held = ONE(2);
    block b;
    row r;
    switch (f->tag) {
    case HEADER:
        held = header_numbers(so_far, f);
        if (held == 0) {
            so_far->has_header = true;
            so_far->n = two_at(f->content + 1);
        }
        break;
    case BLOCK:
        held = block_numbers(so_far, f, &b);
        if (held == 0)
            add_block(so_far, f, &b);
        break;
    case LABEL:
        held = label_numbers(so_far, f);
        break;
    case ROW:
        held = row_numbers(so_far, f, &r);
        if (held == 0)
            add_row(so_far, f, &r);
        break;
    case END:
        held = end_numbers(so_far, f);
        break;
    }
    so_far->behind_block = f->tag == BLOCK;
    return held;
}

/* Nothing is known yet; kinds and contents are filled in as blocks come. */
static void begin(known_circuit *so_far, const oracle_limits *limits) {
    so_far->limits = limits;
    so_far->has_header = so_far->behind_block = false;
    so_far->n = so_far->blocks = so_far->rows = 0;
    so_far->indexes = 0;
    so_far->first_row = NULL;
    memset(so_far->used, 0, sizeof so_far->used);
}

serifdove_answer oracle_judge(known_circuit *so_far, const oracle_limits *limits, const uint8_t *circuit, size_t length) {
    size_t place = 0;
    field f;
    begin(so_far, limits);
    do {
        if (!field_at(circuit, length, place, &f))
            return refused(1, place);
        const set held = judge(so_far, &f);
        if (held != 0)
            return refused(lowest(held), place);
        place += 3 + f.length;
    } while (f.tag != END);
    if (place < length)
        return refused(11, place);
    return accepted(so_far->n, so_far->rows);
}

serifdove_answer oracle_check_within(const oracle_limits *limits, const uint8_t *circuit, size_t length) {
    known_circuit so_far;
    return oracle_judge(&so_far, limits, circuit, length);
}

serifdove_answer oracle_check(const uint8_t *circuit, size_t length) {
    return oracle_check_within(&oracle_limits_of_document_01, circuit, length);
}

serifdove_answer oracle_check_profile(const uint8_t *circuit, size_t length) {
    return oracle_check_within(&oracle_limits_of_0ba6, circuit, length);
}
