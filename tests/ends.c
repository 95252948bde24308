#include "ends.h"

#include "serifdove.h"

#include <inttypes.h>
#include <stdio.h>

enum { LOWER, UPPER, ENDS };

static const int32_t ends[ENDS] = {LEAST_VALUE, GREATEST_VALUE};

enum { BY_COMPARATOR, BY_DIFFERENTIAL, BY_AMPLIFIER, BY_CHAIN, BY_LOOP, WAYS };

static const char *const way_names[WAYS] = {"kind 14", "kind 16", "kind 19", "kind 19 behind a kind 19",
                                            "kind 19 behind an AM from a kind 19"};

static uint64_t held[WAYS][ENDS];

enum { BESIDE = 3, NEAR = ENDS * BESIDE };

static uint64_t met[NEAR]; /* values of amplifiers before they are held */

/* One below each end, the end, one above. */
static int32_t near_value(unsigned k) { return ends[k / BESIDE] - 1 + (int32_t)(k % BESIDE); }

/* ---- reading the circuit */

static unsigned number_at(const uint8_t *connector) { return (unsigned)connector[1] << 8 | connector[2]; }

/* What an analog connector shows. */
static int32_t shown_by(const uint8_t *connector, const int32_t *record) {
    switch (connector[0]) {
    case 7:
        return record[SERIFDOVE_AI(number_at(connector))];
    case 8:
        return record[SERIFDOVE_AM(number_at(connector))];
    default:
        return record[SERIFDOVE_BLOCK_OUTPUT(number_at(connector))];
    }
}

static bool names_amplifier(const circuit *c, const uint8_t *connector) {
    return connector[0] == 9 && c->kinds[number_at(connector)] == AMPLIFIER;
}

/* Whether the connector reads an analog flag that a row writes from an amplifier. */
static bool reads_one_by_flag(const circuit *c, const uint8_t *connector) {
    for (unsigned f = 0; connector[0] == 8 && f < c->fields; f++) {
        const uint8_t *row = c->bytes + c->place[f];
        if (row[0] == ROW && row[3] == 4 && row[4] == number_at(connector))
            return names_amplifier(c, row + 5);
    }
    return false;
}

/* ---- counting */

/* What a trigger's output becomes for this value. */
static int32_t triggered(const circuit *c, unsigned number, int32_t value, int32_t before) {
    const int32_t on = parameter_of(c, number, 2), last = parameter_of(c, number, 3);
    const int32_t off = c->kinds[number] == DIFFERENTIAL ? on + last : last;
    if (on < off)
        return on <= value && value < off;
    return value > on ? 1 : value <= off ? 0 : before;
}

static void count_held(unsigned way, int32_t unheld) {
    held[way][LOWER] += unheld < LEAST_VALUE;
    held[way][UPPER] += unheld > GREATEST_VALUE;
}

static void count_amplifier(const circuit *c, const uint8_t *connector, int32_t unheld) {
    count_held(BY_AMPLIFIER, unheld);
    if (names_amplifier(c, connector))
        count_held(BY_CHAIN, unheld);
    if (reads_one_by_flag(c, connector))
        count_held(BY_LOOP, unheld);
    for (unsigned k = 0; k < NEAR; k++)
        met[k] += unheld == near_value(k);
}

/* Counts the values that are judged, where the output shows that one was held. */
static void count_trigger(const circuit *c, unsigned number, int32_t x, int32_t y, const int32_t *before, const int32_t *after) {
    const size_t output = SERIFDOVE_BLOCK_OUTPUT(number);
    const unsigned way = c->kinds[number] == COMPARATOR ? BY_COMPARATOR : BY_DIFFERENTIAL;
    if (triggered(c, number, x - y, before[output]) == after[output])
        return;
    count_held(way, x);
    count_held(way, y);
}

void count_ends(const circuit *c, unsigned number, const int32_t *before, const int32_t *after) {
    const unsigned kind = c->kinds[number];
    if (kind != COMPARATOR && kind != DIFFERENTIAL && kind != AMPLIFIER)
        return;
    const uint8_t *inputs = c->bytes + c->block[number] + input_at(0);
    const int32_t a = parameter_of(c, number, 0), b = parameter_of(c, number, 1), x = unheld_of(shown_by(inputs, after), a, b);
    if (kind == AMPLIFIER)
        count_amplifier(c, inputs, x);
    else
        count_trigger(c, number, x, kind == COMPARATOR ? unheld_of(shown_by(inputs + 3, after), a, b) : 0, before, after);
}

bool report_ends(void) {
    bool all_met = true;
    printf("| held at, and it shows | %d | %d |\n|---|---|---|\n", LEAST_VALUE, GREATEST_VALUE);
    for (unsigned way = 0; way < WAYS; way++) {
        printf("| %s | %" PRIu64 " | %" PRIu64 " |\n", way_names[way], held[way][LOWER], held[way][UPPER]);
        all_met = all_met && held[way][LOWER] > 0 && held[way][UPPER] > 0;
    }
    printf("values of kind 19 before they are held:");
    for (unsigned k = 0; k < NEAR; k++) {
        printf(" %" PRId32 ": %" PRIu64 "%s", near_value(k), met[k], k + 1 < NEAR ? "," : "\n");
        all_met = all_met && met[k] > 0;
    }
    if (!all_met)
        printf("traces: an end that values are held to was never reached\n");
    return all_met;
}
