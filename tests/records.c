#include "records.h"

/* ---- what is sound */

static const word_range bit = {0, 1}, value = {LEAST_VALUE, GREATEST_VALUE}, analog_input = {0, 1000}, no_use = {0, 0};

static word_range remembered_range(unsigned kind) {
    if (kind == STAIRWAY)
        return (word_range){0, 3};
    return times_of(kind) > 0 || kind == 2 || kind == 4 || kind == 12 || kind == COUNTER ? bit : no_use;
}

static word_range number_range(const circuit *c, unsigned number) {
    const unsigned kind = c->kinds[number];
    if (times_of(kind) > 0)
        return (word_range){0, ticks_of(c, number, 1)};
    return kind == 12 ? (word_range){0, 255} : kind == COUNTER ? (word_range){0, MOST_COUNT} : no_use;
}

static word_range block_range(const circuit *c, unsigned number, unsigned word) {
    if (word == 0)
        return is_analog(c->kinds[number]) ? value : bit;
    return word == 1 ? remembered_range(c->kinds[number]) : number_range(c, number);
}

word_range range_at(const circuit *c, size_t place, bool in_scan) {
    switch (place) {
    case SERIFDOVE_PHASE:
    case SERIFDOVE_MARK:
        return bit;
    case SERIFDOVE_DONE:
        return (word_range){0, in_scan ? (int32_t)c->n : 0};
    case SERIFDOVE_E:
        return (word_range){0, in_scan ? 65535 : 0};
    }
    if (place < SERIFDOVE_AI(1))
        return bit;
    if (place < SERIFDOVE_M(1))
        return analog_input;
    if (place < SERIFDOVE_AM(1))
        return bit;
    if (place < SERIFDOVE_BLOCK_OUTPUT(1))
        return value;
    const unsigned behind = (unsigned)(place - SERIFDOVE_BLOCK_OUTPUT(1));
    return block_range(c, behind / 3 + 1, behind % 3);
}

word_range input_range(size_t i) { return i < SERIFDOVE_INPUT_AI(1) ? bit : analog_input; }

/* ---- by chance */

static int32_t random_word(chance *with, word_range r) {
    if (r.least < 0 || r.greatest == 1000)
        return usual_value(with, r.least, r.greatest);
    return between(with, r.least, r.greatest);
}

/* Ta at which something happens to a block with times. */
static int32_t some_edge(const circuit *c, chance *with, unsigned number) {
    const int32_t t = ticks_of(c, number, 1);
    if (c->kinds[number] != STAIRWAY || once_in(with, 3))
        return t;
    const int32_t dark = t - ticks_of(c, number, 2);
    return once_in(with, 2) ? dark : dark + ticks_of(c, number, 3);
}

/* A number word at or beside one that matters to the block. */
static int32_t edge_number(const circuit *c, chance *with, unsigned number) {
    const word_range r = number_range(c, number);
    int32_t near = c->kinds[number] == COUNTER ? parameter_of(c, number, below(with, 2)) : some_edge(c, with, number);
    if (once_in(with, 3))
        near = once_in(with, 2) ? r.least : r.greatest;
    return held_to(near + between(with, -2, 2), r.least, r.greatest);
}

void random_record(const circuit *c, chance *with, bool in_scan, int32_t *record) {
    for (size_t place = 0; place < SERIFDOVE_RECORD_WORDS(c->n); place++)
        record[place] = random_word(with, range_at(c, place, in_scan));
    for (unsigned k = 1; k <= c->n; k++)
        if ((c->kinds[k] == COUNTER || c->kinds[k] == STAIRWAY) && !once_in(with, 4))
            record[SERIFDOVE_BLOCK_NUMBER(k)] = edge_number(c, with, k);
    record[SERIFDOVE_PHASE] = in_scan;
}

void random_inputs(chance *with, int32_t *inputs) {
    for (size_t i = 0; i < SERIFDOVE_INPUT_WORD_COUNT; i++)
        inputs[i] = random_word(with, input_range(i));
}

/* A block with times, found from a block by chance on; 0 where there is none. */
static unsigned some_timer(const circuit *c, chance *with) {
    const unsigned from = c->n == 0 ? 0 : below(with, c->n);
    for (unsigned i = 0; i < c->n; i++) {
        const unsigned number = (from + i) % c->n + 1;
        if (times_of(c->kinds[number]) > 0)
            return number;
    }
    return 0;
}

int32_t random_e(const circuit *c, chance *with, const int32_t *record) {
    const unsigned timer = some_timer(c, with);
    if (timer == 0 || once_in(with, 4))
        return once_in(with, 2) ? between(with, 0, 4) : between(with, 0, 65535);
    const int32_t left = some_edge(c, with, timer) - record[SERIFDOVE_BLOCK_NUMBER(timer)];
    return held_to(left + between(with, -1, 1), 0, 65535);
}
