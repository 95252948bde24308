#include "circuits.h"

#include <stdlib.h>
#include <string.h>

/* ---- chance */

static uint64_t mixed(uint64_t z) {
    z = (z ^ z >> 30) * 0xBF58476D1CE4E5B9u;
    return (z ^ z >> 27) * 0x94D049BB133111EBu;
}

/* Mixed, so that no seed's numbers are another's from a later place on. */
chance chance_of(uint64_t seed) { return (chance){mixed(seed + 0x2545F4914F6CDD1Du)}; }

void seed_and_count(int words, char **word, uint64_t *seed, uint64_t *count) {
    if (words > 1)
        *seed = strtoull(word[1], NULL, 0);
    if (words > 2)
        *count = strtoull(word[2], NULL, 0);
}

uint32_t below(chance *with, uint32_t bound) {
    with->state += 0x9E3779B97F4A7C15u;
    return (uint32_t)(((mixed(with->state) >> 32) * bound) >> 32);
}

bool once_in(chance *with, uint32_t times) { return below(with, times) == 0; }

int32_t between(chance *with, int32_t least, int32_t greatest) {
    switch (below(with, 6)) {
    case 0:
        return least;
    case 1:
        return greatest;
    default:
        return least + (int32_t)below(with, (uint32_t)(greatest - least) + 1);
    }
}

int32_t held_to(int32_t value, int32_t least, int32_t greatest) { return value < least ? least : value > greatest ? greatest : value; }

int32_t usual_value(chance *with, int32_t least, int32_t greatest) {
    static const int32_t usual[] = {0,  1,  3,   10,   99,   100,   101,   333,   500,    1000,   3276,  3277,
                                    -1, -3, -10, -100, -333, -1000, -3276, -3277, -32767, -32768, 32766, 32767};
    if (once_in(with, 4))
        return between(with, least, greatest);
    return held_to(usual[below(with, sizeof usual / sizeof *usual)], least, greatest);
}

/* ---- the kinds */

const shape shapes[KINDS + 1] = {
    [1] = {"dddd", 0, {0}, {0}, false},
    [2] = {"dddd", 0, {0}, {0}, false},
    [3] = {"dddd", 0, {0}, {0}, false},
    [4] = {"dddd", 0, {0}, {0}, false},
    [5] = {"dddd", 0, {0}, {0}, false},
    [6] = {"dddd", 0, {0}, {0}, false},
    [7] = {"dd", 0, {0}, {0}, false},
    [8] = {"d", 0, {0}, {0}, false},
    [9] = {"d", 2, {0, 0}, {2, 9999}, true},
    [10] = {"dd", 2, {0, 0}, {2, 9999}, true},
    [11] = {"dd", 0, {0}, {0}, true},
    [12] = {"ddd", 2, {1, 1}, {4, 8}, true},
    [13] = {"a", 4, {-1000, -10000, -20000, -20000}, {1000, 10000, 20000, 20000}, false},
    [14] = {"aa", 4, {-1000, -10000, -20000, -20000}, {1000, 10000, 20000, 20000}, false},
    [15] = {"ddd", 4, {-32768, -32768, -32768, -32768}, {32767, 32767, 32767, 32767}, false},
    [16] = {"a", 4, {-1000, -10000, -20000, -20000}, {1000, 10000, 20000, 20000}, false},
    [17] = {"ddd", 2, {0, 0}, {MOST_COUNT, MOST_COUNT}, true},
    [18] = {"d", 4, {0, 0, 0, 0}, {2, 9999, 9999, 9999}, true},
    [19] = {"a", 2, {-1000, -10000}, {1000, 10000}, false},
};

unsigned times_of(unsigned kind) { return kind == 9 || kind == 10 ? 1 : kind == STAIRWAY ? 3 : 0; }

int32_t greatest_time(int32_t base) { return base == 0 ? 9999 : 5999; }

bool is_analog(unsigned kind) { return kind == MULTIPLEXER || kind == AMPLIFIER; }

unsigned inputs_of(unsigned kind) { return (unsigned)strlen(shapes[kind].inputs); }

size_t input_at(unsigned i) { return 5 + 3 * i; }

size_t parameter_at(unsigned kind, unsigned i) { return input_at(inputs_of(kind)) + 4 * i; }

/* ---- writing */

void put_two(uint8_t *at, unsigned number) {
    at[0] = (uint8_t)(number >> 8);
    at[1] = (uint8_t)number;
}

void put_four(uint8_t *at, int32_t number) {
    put_two(at, (uint32_t)number >> 16);
    put_two(at + 2, (uint32_t)number & 0xFFFF);
}

/* Makes room for a field with so much content; gives its first byte. */
static uint8_t *add_field(circuit *c, unsigned tag, size_t content) {
    uint8_t *at = c->bytes + c->length;
    c->place[c->fields++] = c->length;
    c->length += 3 + content;
    at[0] = (uint8_t)tag;
    put_two(at + 1, (unsigned)content);
    return at;
}

void begin_circuit(circuit *c, unsigned n) {
    uint8_t *at;
    c->length = c->fields = c->rows = c->blocks = c->registers = 0;
    c->n = n;
    at = add_field(c, HEADER, 3);
    at[3] = 1;
    put_two(at + 4, n);
}

void add_label(circuit *c, const uint8_t *text, size_t length) {
    uint8_t *at = add_field(c, LABEL, length);
    if (length > 0)
        memcpy(at + 3, text, length);
}

void put_connector(uint8_t *at, unsigned class, unsigned number) {
    at[0] = (uint8_t)class;
    put_two(at + 1, number);
}

void add_row(circuit *c, unsigned class, unsigned number, unsigned source, unsigned source_number) {
    uint8_t *at = add_field(c, ROW, 5);
    at[3] = (uint8_t)class;
    at[4] = (uint8_t)number;
    put_connector(at + 5, source, source_number);
    c->rows++;
}

void end_circuit(circuit *c) { add_field(c, END, 0); }

/* A block without inputs and parameters filled in. */
static uint8_t *add_block(circuit *c, unsigned kind, unsigned options) {
    uint8_t *at = add_field(c, BLOCK, 2 + 3 * inputs_of(kind) + 4 * shapes[kind].parameters);
    at[3] = (uint8_t)kind;
    at[4] = (uint8_t)options;
    c->kinds[++c->blocks] = (uint8_t)kind;
    c->block[c->blocks] = c->place[c->fields - 1];
    return at;
}

void add_given_block(circuit *c, unsigned kind, unsigned options, const unsigned (*connectors)[2], const int32_t *parameters) {
    uint8_t *at = add_block(c, kind, options);
    for (unsigned i = 0; i < inputs_of(kind); i++)
        put_connector(at + input_at(i), connectors[i][0], connectors[i][1]);
    for (unsigned i = 0; i < shapes[kind].parameters; i++)
        put_four(at + parameter_at(kind, i), parameters[i]);
}

void add_plain_block(circuit *c, unsigned kind) {
    uint8_t *at = add_block(c, kind, 0);
    for (unsigned i = 0; i < inputs_of(kind); i++)
        put_connector(at + input_at(i), shapes[kind].inputs[i] == 'd' ? 1 : 7, 1);
    for (unsigned i = 0; i < shapes[kind].parameters; i++)
        put_four(at + parameter_at(kind, i), shapes[kind].least[i]);
    if (kind == 12)
        put_four(at + parameter_at(kind, 0), (int32_t)++c->registers);
}

/* ---- reading */

int32_t parameter_of(const circuit *c, unsigned number, unsigned i) {
    const uint8_t *at = c->bytes + c->block[number] + parameter_at(c->kinds[number], i);
    return (int32_t)((uint32_t)at[0] << 24 | (uint32_t)at[1] << 16 | (uint32_t)at[2] << 8 | at[3]);
}

int32_t ticks_of(const circuit *c, unsigned number, unsigned i) {
    static const int32_t factor[3] = {1, 100, 6000};
    return factor[parameter_of(c, number, 0)] * parameter_of(c, number, i);
}

int32_t unheld_of(int32_t input, int32_t a, int32_t b) { return input * a / 100 + b; }

int32_t actual_of(int32_t input, int32_t a, int32_t b) { return held_to(unheld_of(input, a, b), LEAST_VALUE, GREATEST_VALUE); }

/* How many destinations of each class there are; M and AM go as far in connectors. */
typedef unsigned rooms[5];

static const rooms all_rooms = {0, 20, 64, 8, 64}, rooms_of_0ba6 = {0, 16, 27, 2, 6};

static void destination_within(const rooms room, unsigned k, unsigned *class, unsigned *number) {
    *class = 1;
    while (k >= room[*class])
        k -= room[(*class)++];
    *number = k + 1;
}

void destination_of(unsigned k, unsigned *class, unsigned *number) { destination_within(all_rooms, k, class, number); }

/* ---- by chance: from all that is allowed, lively, or from what fits 0BA6 */

typedef struct {
    bool lively;
    bool analog;          /* most blocks are on analog values, and amplifiers read what amplifiers write */
    const unsigned *room; /* all_rooms or rooms_of_0ba6 */
} manner;

/* The number of a connector of this class. */
static unsigned random_number(chance *with, unsigned class, const manner *in) {
    static const unsigned few[5] = {1, 2, 3, 4, 8};
    const unsigned greatest = class == 1 ? 24 : class == 4 ? in->room[2] : class == 7 ? 8 : class == 8 ? in->room[4] : 0;
    if (greatest == 0)
        return 0;
    if (in->lively && !once_in(with, 8))
        return few[below(with, 5)];
    return (unsigned)between(with, 1, (int32_t)greatest);
}

/* A block of this sort among those so far, found from one by chance on; 0 where there is none. */
static unsigned some_block(const circuit *c, chance *with, bool analog) {
    const unsigned from = c->blocks == 0 ? 0 : below(with, c->blocks);
    for (unsigned i = 0; i < c->blocks; i++) {
        const unsigned number = (from + i) % c->blocks + 1;
        if (is_analog(c->kinds[number]) == analog)
            return number;
    }
    return 0;
}

/* A connector that is allowed at an input of this sort, or as such a row's source. Blocks up to `blocks` may be named. */
static void put_random_connector(const circuit *c, chance *with, uint8_t *at, bool digital, bool unused_allowed, const manner *in) {
    static const unsigned digital_classes[] = {6, 1, 2, 3, 4, 0}, analog_classes[] = {9, 7, 8};
    unsigned class = digital ? digital_classes[below(with, unused_allowed ? 6 : 5)] : analog_classes[below(with, 3)];
    if (in->lively && (class == 2 || class == 3) && !once_in(with, 4))
        class = 1;
    if (class == 6 || class == 9) {
        const unsigned named = some_block(c, with, class == 9);
        if (named != 0) {
            put_connector(at, class == 6 && once_in(with, 2) ? 0x86 : class, named);
            return;
        }
        class = digital ? 1 : 8;
    }
    const unsigned number = random_number(with, class, in);
    put_connector(at, digital && class != 0 && once_in(with, 2) ? class + 0x80 : class, number);
}

/* Times behind their base, the first up to this one. */
static void random_times(chance *with, unsigned kind, int32_t *values, int32_t greatest) {
    for (unsigned i = 1; i <= times_of(kind); i++)
        values[i] = between(with, 0, i == 1 ? greatest : values[i - 1]);
}

void random_parameters(chance *with, unsigned kind, int32_t *values) {
    const shape *s = &shapes[kind];
    for (unsigned i = 0; i < s->parameters; i++)
        values[i] = between(with, s->least[i], s->greatest[i]);
    random_times(with, kind, values, greatest_time(values[0]));
}

/* Gain and offset. */
static void lively_gain(chance *with, int32_t *values) {
    static const int32_t gains[] = {-1000, -1000, -150, -101, -100, -99, -33, -1, 0, 1, 7, 33, 99, 100, 101, 200, 1000, 1000};
    values[0] = gains[below(with, sizeof gains / sizeof *gains)];
    values[1] = once_in(with, 2) ? 0 : once_in(with, 4) ? between(with, -10000, 10000) : between(with, -10, 10);
}

/* What a block of this kind may judge at this gain and offset, or one beside; x and y are in this range. */
static int32_t lively_judged(chance *with, unsigned kind, const int32_t *gain, int32_t least, int32_t greatest) {
    const int32_t x = actual_of(usual_value(with, least, greatest), gain[0], gain[1]);
    const int32_t y = kind == COMPARATOR ? actual_of(usual_value(with, least, greatest), gain[0], gain[1]) : 0;
    return x - y + between(with, -1, 1);
}

/* Gain and offset; On and Off, or Δ, near what is judged of usual inputs, analog ones or any. */
static void lively_thresholds(chance *with, unsigned kind, int32_t *values) {
    const bool of_inputs = once_in(with, 2);
    const int32_t least = of_inputs ? 0 : LEAST_VALUE, greatest = of_inputs ? 1000 : GREATEST_VALUE;
    lively_gain(with, values);
    const int32_t on = held_to(lively_judged(with, kind, values, least, greatest), -20000, 20000);
    const int32_t off = once_in(with, 3) ? on + between(with, -2, 2) : lively_judged(with, kind, values, least, greatest);
    values[2] = on;
    values[3] = held_to(kind == DIFFERENTIAL ? off - on : off, -20000, 20000);
}

/* On and Off near each other, near what a few scans count up to from 0 or near the greatest count. */
static void lively_counts(chance *with, int32_t *values) {
    const int32_t count = once_in(with, 3) ? MOST_COUNT - between(with, 0, 5) : between(with, 0, 5);
    for (unsigned i = 0; i < 2; i++)
        values[i] = held_to(count + between(with, -2, 2), 0, MOST_COUNT);
}

static void lively_parameters(chance *with, unsigned kind, int32_t *values) {
    random_parameters(with, kind, values);
    if (times_of(kind) > 0 && !once_in(with, 8)) {
        values[0] = (int32_t)(once_in(with, 3) ? below(with, 3) : 0);
        random_times(with, kind, values, values[0] == 0 ? 12 : 3);
    }
    if (kind == COUNTER && !once_in(with, 8))
        lively_counts(with, values);
    if (kind == MULTIPLEXER)
        for (unsigned i = 0; i < 4; i++)
            values[i] = usual_value(with, LEAST_VALUE, GREATEST_VALUE);
    if (kind == 13 || kind == COMPARATOR || kind == DIFFERENTIAL)
        lively_thresholds(with, kind, values);
    if (kind == AMPLIFIER)
        lively_gain(with, values);
}

/* A counter that is not reset, a switch that one of the first inputs triggers, an amplifier of one of the first analog flags. */
static void put_lively_connector(chance *with, unsigned kind, uint8_t *first) {
    if (kind == COUNTER)
        put_connector(first, 0, 0);
    if (kind == STAIRWAY)
        put_connector(first, once_in(with, 2) ? 1 : 0x81, 1 + below(with, 4));
    if (kind == AMPLIFIER && once_in(with, 2))
        put_connector(first, 8, 1 + below(with, 4));
}

static void add_random_block(circuit *c, chance *with, unsigned kind, const manner *in) {
    uint8_t connectors[4][3];
    int32_t values[4] = {0, 0, 0, 0};
    for (unsigned i = 0; i < inputs_of(kind); i++)
        put_random_connector(c, with, connectors[i], shapes[kind].inputs[i] == 'd', true, in);
    if (in->lively && !once_in(with, 3))
        put_lively_connector(with, kind, connectors[0]);
    uint8_t *at = add_block(c, kind, shapes[kind].retentive ? below(with, 2) : 0);
    memcpy(at + input_at(0), connectors, 3 * inputs_of(kind));
    if (in->lively)
        lively_parameters(with, kind, values);
    else
        random_parameters(with, kind, values);
    if (kind == 12)
        values[0] = (int32_t)++c->registers;
    for (unsigned i = 0; i < shapes[kind].parameters; i++)
        put_four(at + parameter_at(kind, i), values[i]);
}

static void add_random_label(circuit *c, chance *with) {
    uint8_t text[16];
    const size_t length = (size_t)between(with, 0, 16);
    for (size_t i = 0; i < length; i++)
        text[i] = (uint8_t)below(with, 256);
    add_label(c, text, length);
}

enum { FEW = 17 };

/* Puts the few destinations first that lively circuits use most: M1 to M4 and M8, AM likewise, and ends of each class. */
static void few_first(unsigned *order) {
    static const unsigned few[FEW] = {20, 21, 22, 23, 27, 92, 93, 94, 95, 99, 0, 1, 19, 83, 84, 91, 155};
    for (unsigned i = 0; i < FEW; i++) {
        unsigned at = i;
        while (order[at] != few[i])
            at++;
        order[at] = order[i];
        order[i] = few[i];
    }
}

/* So many rows, each with a destination of its own. */
static void add_random_rows(circuit *c, chance *with, unsigned rows, const manner *in) {
    const unsigned destinations = in->room[1] + in->room[2] + in->room[3] + in->room[4];
    unsigned order[DESTINATIONS];
    for (unsigned k = 0; k < destinations; k++)
        order[k] = k;
    if (in->lively)
        few_first(order);
    for (unsigned k = 0; k < rows; k++) {
        const bool of_few = in->lively && k < FEW && !once_in(with, 4);
        const unsigned other = k + below(with, (of_few ? FEW : destinations) - k), taken = order[other];
        unsigned class, number;
        order[other] = order[k];
        order[k] = taken;
        destination_within(in->room, taken, &class, &number);
        add_row(c, class, number, 0, 0);
        put_random_connector(c, with, c->bytes + c->length - 3, class <= 2, false, in);
    }
}

static unsigned some_kind(chance *with, const manner *in) {
    static const unsigned analog_kinds[] = {13, COMPARATOR, MULTIPLEXER, DIFFERENTIAL, AMPLIFIER, AMPLIFIER, AMPLIFIER};
    if (in->analog && !once_in(with, 4))
        return analog_kinds[below(with, sizeof analog_kinds / sizeof *analog_kinds)];
    return 1 + below(with, KINDS);
}

static void make_circuit(circuit *c, chance *with, unsigned n, unsigned rows, unsigned last_kind, const manner *in) {
    begin_circuit(c, n);
    for (unsigned k = 1; k <= n; k++) {
        unsigned kind = k == n && last_kind != 0 ? last_kind : some_kind(with, in);
        if (kind == 12 && c->registers == 4)
            kind = MULTIPLEXER;
        add_random_block(c, with, kind, in);
        if (once_in(with, 2))
            add_random_label(c, with);
    }
    add_random_rows(c, with, rows, in);
    end_circuit(c);
}

void random_circuit(circuit *c, chance *with, unsigned n, unsigned rows, unsigned last_kind) {
    make_circuit(c, with, n, rows, last_kind, &(manner){false, false, all_rooms});
}

void lively_circuit(circuit *c, chance *with, unsigned n, unsigned rows, unsigned last_kind) {
    make_circuit(c, with, n, rows, last_kind, &(manner){true, once_in(with, 3), all_rooms});
}

void fitting_circuit(circuit *c, chance *with, unsigned n, unsigned rows, unsigned last_kind) {
    make_circuit(c, with, n, rows, last_kind, &(manner){false, false, rooms_of_0ba6});
}

/* ---- the bench's circuits */

void full_circuit(circuit *c, unsigned n) {
    begin_circuit(c, n);
    for (unsigned k = 1; k <= n; k++) {
        const unsigned turn = 1 + (k - 1) % KINDS, kind = turn == 12 && c->registers == 4 ? 5 : turn;
        add_plain_block(c, kind);
        uint8_t *at = c->bytes + c->place[c->fields - 1] + input_at(0);
        if (k > 1 && (shapes[kind].inputs[0] == 'a') == is_analog(c->kinds[k - 1]))
            put_connector(at, is_analog(c->kinds[k - 1]) ? 9 : 6, k - 1);
        add_label(c, (const uint8_t *)"north light no.1", 16);
    }
    for (unsigned k = 0; n > 0 && k < DESTINATIONS; k++) {
        unsigned class, number;
        destination_of(k, &class, &number);
        if (class <= 2)
            add_row(c, class, number, 6, 1);
        else
            add_row(c, class, number, n < MULTIPLEXER ? 7 : 9, n < MULTIPLEXER ? 1 : MULTIPLEXER);
    }
    end_circuit(c);
}
