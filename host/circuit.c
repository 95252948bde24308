#include "circuit.h"

#include <inttypes.h>
#include <string.h>

/* ---- the kinds */

static const kind kinds[] = {
    [1] = {"AND", {"", "", "", ""}, {0}, false, true},
    [2] = {"AND edge", {"", "", "", ""}, {0}, true, true},
    [3] = {"NAND", {"", "", "", ""}, {0}, false, true},
    [4] = {"NAND edge", {"", "", "", ""}, {0}, true, true},
    [5] = {"OR", {"", "", "", ""}, {0}, false, false},
    [6] = {"NOR", {"", "", "", ""}, {0}, false, false},
    [7] = {"XOR", {"", ""}, {0}, false, false},
    [8] = {"NOT", {""}, {0}, false, false},
    [9] = {"on-delay", {"Trg"}, {"base", "T"}, true, false},
    [10] = {"off-delay", {"Trg", "R"}, {"base", "T"}, true, false},
    [11] = {"latching relay", {"S", "R"}, {0}, false, false},
    [12] = {"shift register", {"In", "Trg", "Dir"}, {"index", "bit"}, true, false},
    [13] = {"threshold trigger", {"Ax"}, {"A", "B", "On", "Off"}, false, false},
    [14] = {"comparator", {"Ax", "Ay"}, {"A", "B", "On", "Off"}, false, false},
    [15] = {"multiplexer", {"En", "S1", "S2"}, {"V1", "V2", "V3", "V4"}, false, false},
    [16] = {"differential trigger", {"Ax"}, {"A", "B", "On", "Delta"}, false, false},
    [17] = {"up/down counter", {"R", "Cnt", "Dir"}, {"On", "Off"}, true, false},
    [18] = {"stairway switch", {"Trg"}, {"base", "T", "T!", "T!L"}, true, false},
    [19] = {"analog amplifier", {"Ax"}, {"A", "B"}, false, false},
};

const kind *kind_of(unsigned number) {
    return number < sizeof kinds / sizeof *kinds && kinds[number].name != NULL ? &kinds[number] : NULL;
}

bool has_time(unsigned kind_number) { return kind_number == ON_DELAY || kind_number == OFF_DELAY || kind_number == STAIRWAY_SWITCH; }

int64_t ticks_of(const block *of, unsigned time) {
    static const int64_t unit[] = {1, 100, 6000};
    return unit[of->parameters[0]] * of->parameters[time];
}

/* ---- reading the fields of an accepted circuit */

enum { INVERTED = 0x80, RETENTIVE = 1, CONNECTOR_BYTES = 3, PARAMETER_BYTES = 4 };

size_t count_of(const char *const *names) {
    size_t count = 0;
    while (count < MOST_OF_A_BLOCK && names[count] != NULL)
        count++;
    return count;
}

size_t block_length(const kind *k) { return 2 + CONNECTOR_BYTES * count_of(k->inputs) + PARAMETER_BYTES * count_of(k->parameters); }

static unsigned two_at(const uint8_t *at) { return (unsigned)at[0] << 8 | at[1]; }

size_t content_length(const uint8_t *field) { return two_at(field + 1); }

static int32_t four_at(const uint8_t *at) {
    const uint32_t bits = (uint32_t)two_at(at) << 16 | two_at(at + 2);
    int32_t word;
    memcpy(&word, &bits, sizeof word);
    return word;
}

int32_t parameter_at(const uint8_t *field, const kind *k, size_t parameter) {
    return four_at(field + FIELD_HEAD + 2 + CONNECTOR_BYTES * count_of(k->inputs) + PARAMETER_BYTES * parameter);
}

static connector connector_at(const uint8_t *at) {
    return (connector){.class = at[0] & ~(unsigned)INVERTED, .number = two_at(at + 1), .inverted = (at[0] & INVERTED) != 0};
}

static void lay_out_block(block *to, const uint8_t *at) {
    *to = (block){.kind = at[0], .retentive = (at[1] & RETENTIVE) != 0};
    const kind *k = kind_of(to->kind);
    at += 2;
    for (unsigned i = 0; i < MOST_OF_A_BLOCK && k->inputs[i] != NULL; i++, at += CONNECTOR_BYTES)
        to->inputs[i] = connector_at(at);
    for (unsigned i = 0; i < MOST_OF_A_BLOCK && k->parameters[i] != NULL; i++, at += PARAMETER_BYTES)
        to->parameters[i] = four_at(at);
}

static void lay_out_row(output_row *to, const uint8_t *at) {
    *to = (output_row){.class = at[0], .number = at[1], .from = connector_at(at + 2)};
}

void lay_out(circuit *to, const uint8_t *bytes, size_t length) {
    to->length = length;
    to->n = to->rows = 0;
    for (size_t at = 0; at < length; at += FIELD_HEAD + content_length(bytes + at))
        if (bytes[at] == BLOCK_TAG) {
            lay_out_block(&to->block[++to->n], bytes + at + FIELD_HEAD);
            to->block[to->n].place = at;
        } else if (bytes[at] == LABEL_TAG) {
            to->block[to->n].label = bytes + at + FIELD_HEAD;
            to->block[to->n].label_length = content_length(bytes + at);
        } else if (bytes[at] == ROW_TAG) {
            lay_out_row(&to->row[to->rows], bytes + at + FIELD_HEAD);
            to->row[to->rows++].place = at;
        }
}

/* ---- connectors */

enum { UNUSED, INPUT, LO, HI, FLAG, DIGITAL_BLOCK = 6, ANALOG_INPUT, ANALOG_FLAG, ANALOG_BLOCK };

unsigned written_by(connector c) { return c.class == FLAG ? TO_M : c.class == ANALOG_FLAG ? TO_AM : 0; }

static int32_t plain_value(connector c, bool unused, const int32_t *record) {
    switch (c.class) {
    case INPUT:
        return record[SERIFDOVE_I(c.number)];
    case HI:
        return 1;
    case FLAG:
        return record[SERIFDOVE_M(c.number)];
    case DIGITAL_BLOCK:
    case ANALOG_BLOCK:
        return record[SERIFDOVE_BLOCK_OUTPUT(c.number)];
    case ANALOG_INPUT:
        return record[SERIFDOVE_AI(c.number)];
    case ANALOG_FLAG:
        return record[SERIFDOVE_AM(c.number)];
    case UNUSED:
        return unused;
    default:
        return 0;
    }
}

int32_t value_of(connector c, bool unused, const int32_t *record) {
    const int32_t value = plain_value(c, unused, record);
    return c.inverted ? value == 0 : value;
}

/* ---- names */

static name named(const char *before, unsigned number) {
    name n;
    snprintf(n.text, sizeof n.text, "%s%u", before, number);
    return n;
}

name connector_name(connector c) {
    static const char *const before[][2] = {[INPUT] = {"I", "!I"},         [FLAG] = {"M", "!M"},         [DIGITAL_BLOCK] = {"B", "!B"},
                                            [ANALOG_INPUT] = {"AI", "AI"}, [ANALOG_FLAG] = {"AM", "AM"}, [ANALOG_BLOCK] = {"B", "B"}};
    static const name whole[][2] = {[UNUSED] = {{"-"}, {"-"}}, [LO] = {{"lo"}, {"!lo"}}, [HI] = {{"hi"}, {"!hi"}}};
    if (c.class == UNUSED || c.class == LO || c.class == HI)
        return whole[c.class][c.inverted];
    return named(before[c.class][c.inverted], c.number);
}

name destination_name(unsigned class, unsigned number) {
    static const char *const before[] = {[TO_Q] = "Q", [TO_M] = "M", [TO_AQ] = "AQ", [TO_AM] = "AM"};
    return named(before[class], number);
}

name flag_name(size_t word) { return destination_name(TO_M, (unsigned)word + 1); }

name analog_flag_name(size_t word) { return destination_name(TO_AM, (unsigned)word + 1); }

name input_name(size_t word) {
    return word < DIGITAL_INPUTS ? named("I", (unsigned)word + 1) : named("AI", (unsigned)(word - DIGITAL_INPUTS) + 1);
}

name output_name(size_t word) {
    return word < DIGITAL_OUTPUTS ? destination_name(TO_Q, (unsigned)word + 1)
                                  : destination_name(TO_AQ, (unsigned)(word - DIGITAL_OUTPUTS) + 1);
}

label_text label_of(const block *of) {
    label_text l = {0};
    size_t at = 0;
    for (size_t i = 0; i < of->label_length; i++)
        if (of->label[i] < ' ' || of->label[i] > '~' || of->label[i] == '\\')
            at += (size_t)snprintf(l.text + at, sizeof l.text - at, "\\x%02x", of->label[i]);
        else
            l.text[at++] = (char)of->label[i];
    return l;
}

time_text time_of(int64_t ticks) {
    enum { SECOND = 100, MINUTE = 60 * SECOND, HOUR = 60 * MINUTE };
    const int64_t hours = ticks / HOUR, minutes = ticks / MINUTE % 60, seconds = ticks / SECOND % 60, rest = ticks % SECOND;
    time_text t;
    if (hours > 0)
        snprintf(t.text, sizeof t.text, "%" PRId64 ":%02" PRId64 ":%02" PRId64 ".%02" PRId64 " h", hours, minutes, seconds, rest);
    else if (minutes > 0)
        snprintf(t.text, sizeof t.text, "%" PRId64 ":%02" PRId64 ".%02" PRId64 " min", minutes, seconds, rest);
    else
        snprintf(t.text, sizeof t.text, "%" PRId64 ".%02" PRId64 " s", seconds, rest);
    return t;
}

void print_words(FILE *to, const int32_t *words, size_t count, name (*name_of)(size_t word), const char *none) {
    const char *between = "";
    for (size_t i = 0; i < count; i++) {
        if (words[i] == 0)
            continue;
        fprintf(to, "%s%s %" PRId32, between, name_of(i).text, words[i]);
        between = ", ";
    }
    if (*between == 0)
        fputs(none, to);
}
