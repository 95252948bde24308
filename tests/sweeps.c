#include "sweeps.h"

#include "calls.h"
#include "constructed.h"
#include "plays.h"

#include <string.h>

#define LENGTH(array) (sizeof(array) / sizeof *(array))

static circuit made;
static lent_words words;

static const call publish = {.name = PUBLISH};

/* ---- kinds: one block in a scan, its inputs and its own words chosen */

/* The made circuit is the one block: its connectors, and its parameters. */
static void make_block(unsigned kind, const unsigned (*connectors)[2], const int32_t *parameters) {
    begin_circuit(&made, 1);
    add_given_block(&made, kind, 0, connectors, parameters);
    end_circuit(&made);
    lend_circuit(&made);
}

/* Runs the one block: bit i of `inputs` is I(i + 1), x and y are AM1 and AM2, and where they may stand there analog inputs 1 and 2.
 */
static void run_block(unsigned inputs, int32_t x, int32_t y, int32_t e, const int32_t own[3]) {
    static const call run_one = {.name = RUN, .c = 1};
    words.record_length = SERIFDOVE_RECORD_WORDS(1);
    words.outputs_length = 0;
    memset(words.record, 0, words.record_length * sizeof *words.record);
    words.record[SERIFDOVE_PHASE] = 1;
    words.record[SERIFDOVE_E] = e;
    for (unsigned i = 0; i < 4; i++)
        words.record[SERIFDOVE_I(i + 1)] = inputs >> i & 1;
    words.record[SERIFDOVE_AM(1)] = x;
    words.record[SERIFDOVE_AM(2)] = y;
    words.record[SERIFDOVE_AI(1)] = 0 <= x && x <= 1000 ? x : 0;
    words.record[SERIFDOVE_AI(2)] = 0 <= y && y <= 1000 ? y : 0;
    memcpy(words.record + SERIFDOVE_BLOCK_OUTPUT(1), own, 3 * sizeof *own);
    expect_number("one block", &words, &run_one, 0);
}

static const unsigned plain[4][2] = {{1, 1}, {1, 2}, {1, 3}, {1, 4}}, from_flags[2][2] = {{8, 1}, {8, 2}};

/* Each input direct, inverted or unused; all inputs, outputs before and remembered words. */
static void sweep_digital(unsigned kind, const int32_t *parameters) {
    static const unsigned classes[3] = {1, 0x81, 0};
    const unsigned inputs = inputs_of(kind);
    unsigned choices = 1;
    for (unsigned i = 0; i < inputs; i++)
        choices *= 3;
    for (unsigned choice = 0; choice < choices; choice++) {
        unsigned connectors[4][2], rest = choice;
        for (unsigned i = 0; i < inputs; i++, rest /= 3) {
            connectors[i][0] = classes[rest % 3];
            connectors[i][1] = rest % 3 == 2 ? 0 : i + 1;
        }
        make_block(kind, (const unsigned(*)[2])connectors, parameters);
        const int32_t remembered = range_at(&made, SERIFDOVE_BLOCK_REMEMBERED(1), true).greatest;
        for (unsigned bits = 0; bits < 1u << inputs; bits++)
            for (int32_t own = 0; own < 2 * (remembered + 1); own++)
                run_block(bits, 0, 0, 0, (const int32_t[3]){own & 1, own >> 1, 0});
    }
}

static void sweep_settings(unsigned kind) {
    static const int32_t settings[][2] = {{0, 0}, {0, 1},    {0, 2}, {0, 3},  {0, 9999}, {1, 0},
                                          {1, 1}, {1, 5999}, {2, 1}, {2, 11}, {2, 5999}};
    for (size_t s = 0; s < LENGTH(settings); s++) {
        make_block(kind, plain, settings[s]);
        const int32_t t = ticks_of(&made, 1, 1), counts[] = {0, 1, t / 2, t - 2, t - 1, t};
        for (size_t k = 0; k < LENGTH(counts); k++) {
            const int32_t ta = counts[k] < 0 ? 0 : counts[k] > t ? t : counts[k];
            const int32_t elapsed[] = {0, 1, t - ta - 1, t - ta, t - ta + 1, 65535};
            for (size_t i = 0; i < LENGTH(elapsed); i++)
                for (unsigned bits = 0; bits < 16; bits++)
                    if (0 <= elapsed[i] && elapsed[i] <= 65535)
                        run_block(bits & 3, 0, 0, elapsed[i], (const int32_t[3]){bits >> 2 & 1, bits >> 3, ta});
        }
    }
}

static void sweep_register(void) {
    static const int32_t registers[] = {0, 1, 2, 64, 127, 128, 129, 0x55, 0xAA, 254, 255};
    for (int32_t bit = 1; bit <= 8; bit++) {
        make_block(12, plain, (const int32_t[]){1 + bit % 4, bit});
        for (size_t k = 0; k < LENGTH(registers); k++)
            for (unsigned bits = 0; bits < 32; bits++)
                run_block(bits & 7, 0, 0, 0, (const int32_t[3]){bits >> 3 & 1, bits >> 4, registers[k]});
    }
}

/* Counts at, below and above On, Off and both stops; all inputs, outputs before and remembered bits. */
static void sweep_counts(int32_t on, int32_t off) {
    const int32_t marks[] = {0, on, off, MOST_COUNT};
    make_block(COUNTER, plain, (const int32_t[]){on, off});
    for (size_t k = 0; k < LENGTH(marks); k++)
        for (int32_t count = marks[k] - 1; count <= marks[k] + 1; count++)
            for (unsigned bits = 0; 0 <= count && count <= MOST_COUNT && bits < 32; bits++)
                run_block(bits & 7, 0, 0, 1, (const int32_t[3]){bits >> 3 & 1, bits >> 4, count});
}

static void sweep_counter(void) {
    static const int32_t some[] = {0, 1, 5, 500000, MOST_COUNT - 1, MOST_COUNT};
    for (size_t on = 0; on < LENGTH(some); on++)
        for (size_t off = 0; off < LENGTH(some); off++)
            sweep_counts(some[on], some[off]);
}

/* e that leads from this Ta to a tick before each edge, onto it, and to one behind it. */
static void sweep_elapsed(const int32_t edges[4], int32_t ta, const int32_t own[2], unsigned trg) {
    for (unsigned k = 0; k < 4; k++)
        for (int32_t e = edges[k] - ta - 1; e <= edges[k] - ta + 1; e++)
            if (0 <= e && e <= 65535)
                run_block(trg, 0, 0, e, (const int32_t[3]){own[0], own[1], ta});
    run_block(trg, 0, 0, 65535, (const int32_t[3]){own[0], own[1], ta});
}

/* Ta likewise beside each edge: the begin and the end of the dark time, and T. All Trg, outputs before and remembered words. */
static void sweep_stairway(void) {
    static const int32_t settings[][4] = {{0, 0, 0, 0},    {0, 1, 0, 0},          {0, 1, 1, 0},          {0, 1, 1, 1},
                                          {0, 6, 3, 2},    {0, 3, 3, 1},          {0, 6, 4, 4},          {0, 6, 6, 0},
                                          {1, 1, 1, 1},    {0, 9999, 9999, 9999}, {1, 5999, 5999, 5998}, {1, 600, 150, 100},
                                          {2, 11, 10, 10}, {2, 1, 1, 0},          {2, 5999, 5999, 5999}, {2, 5999, 10, 1}};
    for (size_t s = 0; s < LENGTH(settings); s++) {
        make_block(STAIRWAY, plain, settings[s]);
        const int32_t t = ticks_of(&made, 1, 1), dark = t - ticks_of(&made, 1, 2), lit = dark + ticks_of(&made, 1, 3);
        const int32_t edges[4] = {0, dark, lit, t};
        for (unsigned k = 0; k < 12; k++) {
            const int32_t ta = edges[k / 3] + (int32_t)(k % 3) - 1;
            for (int32_t bits = 0; 0 <= ta && ta <= t && bits < 16; bits++)
                sweep_elapsed(edges, ta, (const int32_t[2]){bits & 1, bits >> 1 & 3}, (unsigned)bits >> 3);
        }
    }
}

static void sweep_multiplexer(void) {
    static const int32_t values[][4] = {{1, 2, 3, 4}, {-32768, 32767, 0, -1}};
    for (size_t k = 0; k < LENGTH(values); k++)
        for (int32_t before = LEAST_VALUE; before <= GREATEST_VALUE; before += GREATEST_VALUE - LEAST_VALUE) {
            make_block(MULTIPLEXER, plain, values[k]);
            for (unsigned bits = 0; bits < 8; bits++)
                run_block(bits, 0, 0, 0, (const int32_t[3]){before, 0, 0});
        }
}

static bool is_within(int32_t word, word_range r) { return r.least <= word && word <= r.greatest; }

static const word_range threshold = {-20000, 20000};

/* The parameters are A, B, On, and Off or Δ; nothing is tried where they are not allowed. */
static void sweep_trigger(unsigned kind, const int32_t *parameters, int32_t x, int32_t y, unsigned class) {
    if (!is_within(parameters[2], threshold) || !is_within(parameters[3], threshold))
        return;
    make_block(kind, (const unsigned[2][2]){{class, 1}, {class, 2}}, parameters);
    for (int32_t before = 0; before <= 1; before++)
        run_block(0, x, y, 0, (const int32_t[3]){before, 0, 0});
}

/* On and Off at, below and above the value that is judged, as near as they may be; Off of kind 16 also as far from On as it may be. */
static void sweep_around(unsigned kind, int32_t a, int32_t b, int32_t x, int32_t y, unsigned class) {
    const int32_t value = actual_of(x, a, b) - (kind == COMPARATOR ? actual_of(y, a, b) : 0);
    const int32_t near_on = held_to(value, threshold.least, threshold.greatest), near_off = kind == DIFFERENTIAL ? value : near_on;
    for (int32_t on = near_on - 1; on <= near_on + 1; on++)
        for (int32_t off = near_off - 1; off <= near_off + 1; off++)
            sweep_trigger(kind, (const int32_t[]){a, b, on, kind == DIFFERENTIAL ? off - on : off}, x, y, class);
    if (kind != DIFFERENTIAL)
        return;
    sweep_trigger(kind, (const int32_t[]){a, b, near_on, threshold.least}, x, y, class);
    sweep_trigger(kind, (const int32_t[]){a, b, near_on, threshold.greatest}, x, y, class);
}

static const int32_t gains[] = {-1000, -150, -100, -99, -33, -1, 0, 1, 33, 99, 100, 101, 1000},
                     offsets[] = {-10000, -1, 0, 1, 10000};

/* In order; at gain 10 those from 3277 on are held. Ay is one of the two before Ax, or of the two behind it. */
static void sweep_thresholds(unsigned kind) {
    static const int32_t values[] = {-32768, -3277, -3000, -101, -10, -1, 0, 1, 10, 99, 101, 999, 1000, 3000, 3276, 3277, 32767};
    static const size_t steps[] = {1, 2, LENGTH(values) - 1, LENGTH(values) - 2};
    for (size_t g = 0; g < LENGTH(gains); g++)
        for (size_t v = 0; v < LENGTH(values); v++)
            for (size_t other = 0; other < LENGTH(steps); other++) {
                const int32_t x = values[v], y = kind == COMPARATOR ? values[(v + steps[other]) % LENGTH(values)] : 0;
                const int32_t b = offsets[(v + other) % LENGTH(offsets)];
                sweep_around(kind, gains[g], b, x, y, 8);
                if (is_within(x, input_range(SERIFDOVE_INPUT_AI(1))) && is_within(y, input_range(SERIFDOVE_INPUT_AI(2))))
                    sweep_around(kind, gains[g], b, x, y, 7);
            }
}

/* Inputs with which the value comes to each end before it is held, or as near as this gain allows; the output was the other end. */
static void sweep_amplifier_of(int32_t a, int32_t b) {
    static const int32_t ends[] = {LEAST_VALUE, GREATEST_VALUE};
    make_block(AMPLIFIER, from_flags, (const int32_t[]){a, b});
    for (size_t k = 0; k < LENGTH(ends); k++) {
        const int32_t near = a == 0 ? ends[k] : held_to((ends[k] - b) * 100 / a, LEAST_VALUE, GREATEST_VALUE);
        for (int32_t x = near - 2; x <= near + 2; x++)
            if (LEAST_VALUE <= x && x <= GREATEST_VALUE)
                run_block(0, x, 0, 0, (const int32_t[3]){ends[1 - k], 0, 0});
    }
}

static void sweep_amplifier(void) {
    for (size_t g = 0; g < LENGTH(gains); g++)
        for (size_t o = 0; o < LENGTH(offsets); o++)
            sweep_amplifier_of(gains[g], offsets[o]);
}

/* ---- kinds: one block in scans that are worked out by hand */

/* Bit i is what input i has in this scan. */
static unsigned inputs_in(const play *p, size_t scan) {
    unsigned bits = 0;
    for (unsigned i = 0; i < inputs_of(p->kind); i++)
        bits |= (unsigned)(p->inputs[i][scan] == '1') << i;
    return bits;
}

static void try_play(const play *p) {
    int32_t own[3] = {p->before[0], p->before[1], p->before[2]};
    make_block(p->kind, plain, p->parameters);
    for (size_t scan = 0; p->outputs[scan] != 0; scan++) {
        const int32_t by_hand[3] = {p->outputs[scan] - '0', p->remembered[scan] - '0', p->numbers[scan]};
        run_block(inputs_in(p, scan), 0, 0, p->e, own);
        memcpy(own, words.record + SERIFDOVE_BLOCK_OUTPUT(1), sizeof own);
        if (memcmp(own, by_hand, sizeof own) != 0)
            tell_mismatch(p->name);
    }
}

static void try_analog_play(const analog_play *p) {
    make_block(p->kind, from_flags, p->parameters);
    run_block(0, p->x, p->y, 0, (const int32_t[3]){p->before, 0, 0});
    if (words.record[SERIFDOVE_BLOCK_OUTPUT(1)] != p->output)
        tell_mismatch(p->name);
}

/* ---- amplifiers in scans that are worked out by hand: AM1 and AM2 as the chain says, AQ1 from its last block */

static void make_chain(const chain *p) {
    begin_circuit(&made, p->n);
    for (unsigned k = 0; k < p->n; k++) {
        const unsigned connector[1][2] = {{p->blocks[k].class, p->blocks[k].number}};
        add_given_block(&made, AMPLIFIER, 0, connector, (const int32_t[]){p->blocks[k].a, p->blocks[k].b});
    }
    for (unsigned k = 0; k < AM_ROWS; k++)
        add_row(&made, 4, k + 1, 9, p->rows[k]);
    add_row(&made, 3, 1, 9, p->n);
    end_circuit(&made);
    lend_circuit(&made);
}

/* The words that this scan of the chain leaves. */
static bool is_as_by_hand(const chain *p, const int32_t *outputs) {
    bool same = words.outputs[SERIFDOVE_AQ(1)] == outputs[p->n - 1];
    for (unsigned k = 0; k < AM_ROWS; k++)
        same = same && words.record[SERIFDOVE_AM(k + 1)] == outputs[p->rows[k] - 1];
    for (unsigned k = 0; k < p->n; k++)
        same = same &&
               memcmp(words.record + SERIFDOVE_BLOCK_OUTPUT(k + 1), (const int32_t[3]){outputs[k], 0, 0}, 3 * sizeof *outputs) == 0;
    return same;
}

static void try_chain(const chain *p) {
    const int32_t inputs[SERIFDOVE_INPUT_WORD_COUNT] = {[SERIFDOVE_INPUT_AI(1)] = p->input};
    const call latch = latch_of(1, inputs), run = run_of(p->n);
    make_chain(p);
    words.record_length = SERIFDOVE_RECORD_WORDS(p->n);
    words.outputs_length = SERIFDOVE_OUTPUT_WORD_COUNT;
    memset(words.record, 0, words.record_length * sizeof *words.record);
    for (unsigned k = 0; k < AM_ROWS; k++)
        words.record[SERIFDOVE_AM(k + 1)] = p->before[k];
    for (unsigned scan = 0; scan < p->scans; scan++) {
        expect_number(p->name, &words, &latch, 0);
        expect_number(p->name, &words, &run, 0);
        expect_number(p->name, &words, &publish, 0);
        if (!is_as_by_hand(p, p->outputs[scan]))
            tell_mismatch(p->name);
    }
}

/* ---- kinds: all of them */

static void try_plays(void) {
    for (size_t k = 0; k < play_count; k++)
        try_play(&plays[k]);
    for (size_t k = 0; k < analog_play_count; k++)
        try_analog_play(&analog_plays[k]);
    for (size_t k = 0; k < chain_count; k++)
        try_chain(&chains[k]);
}

void sweep_kinds(void) {
    try_plays();
    for (unsigned kind = 1; kind <= 8; kind++)
        sweep_digital(kind, NULL);
    sweep_settings(9);
    sweep_settings(10);
    sweep_digital(11, NULL);
    sweep_digital(12, (const int32_t[]){1, 1});
    sweep_register();
    sweep_multiplexer();
    sweep_digital(MULTIPLEXER, (const int32_t[]){5, -6, 7, -8});
    sweep_thresholds(13);
    sweep_thresholds(COMPARATOR);
    sweep_thresholds(DIFFERENTIAL);
    sweep_amplifier();
    sweep_digital(COUNTER, (const int32_t[]){1, 1});
    sweep_counter();
    sweep_digital(STAIRWAY, (const int32_t[]){0, 6, 3, 2});
    sweep_stairway();
}

/* ---- refusals: what number each call must get, from ranges and phases alone */

static const call cold = {.name = COLD_START}, warm = {.name = WARM_START};

static bool is_sound(void) {
    for (size_t place = 0; place < words.record_length; place++)
        if (!is_within(words.record[place], range_at(&made, place, words.record[SERIFDOVE_PHASE] == 1)))
            return false;
    return true;
}

static bool wrong_phase(const call *c) {
    const bool in_scan = words.record[SERIFDOVE_PHASE] == 1;
    if (c->name == WARM_START || c->name == LATCH)
        return in_scan;
    return !in_scan || (c->name == PUBLISH && words.record[SERIFDOVE_DONE] != (int32_t)made.n);
}

static bool wrong_inputs(const call *c) {
    if (c->inputs_length != SERIFDOVE_INPUT_WORD_COUNT || !is_within(c->e, (word_range){0, 65535}))
        return true;
    for (size_t i = 0; i < c->inputs_length; i++)
        if (!is_within(c->inputs[i], input_range(i)))
            return true;
    return false;
}

/* Of an accepted circuit. */
static unsigned number_of(const call *c) {
    if (words.record_length != SERIFDOVE_RECORD_WORDS(made.n))
        return 20;
    if (c->name == COLD_START)
        return 0;
    if (!is_sound())
        return 21;
    if (wrong_phase(c))
        return 22;
    if (c->name == LATCH && wrong_inputs(c))
        return 23;
    return c->name == PUBLISH && words.outputs_length != SERIFDOVE_OUTPUT_WORD_COUNT ? 24 : 0;
}

static void try_call(const char *scenario, const call *c) { expect_number(scenario, &words, c, number_of(c)); }

/* A latch that is allowed, as far as the call's own words go. */
static call some_latch(chance *with) {
    int32_t inputs[SERIFDOVE_INPUT_WORD_COUNT];
    random_inputs(with, inputs);
    return latch_of(between(with, 0, 65535), inputs);
}

/* ---- a circuit with all kinds, and times at the ends of each base */

static void make_every_kind(chance *with) {
    static const int32_t settings[][4] = {{0, 0, 0, 0},      {0, 1, 1, 0}, {0, 9999, 9999, 1}, {1, 1, 1, 1},
                                          {1, 5999, 60, 60}, {2, 1, 0, 0}, {2, 5999, 1, 1}};
    begin_circuit(&made, KINDS + 3 * LENGTH(settings));
    for (unsigned kind = 1; kind <= KINDS; kind++)
        add_plain_block(&made, kind);
    for (size_t s = 0; s < LENGTH(settings); s++)
        for (unsigned kind = 1; kind <= KINDS; kind++)
            if (times_of(kind) > 0)
                add_given_block(&made, kind, below(with, 2), plain, settings[s]);
    for (unsigned k = 0; k < DESTINATIONS; k += 1 + below(with, 8)) {
        unsigned class, number;
        destination_of(k, &class, &number);
        add_row(&made, class, number, class <= 2 ? 6 : 9, class <= 2 ? 1 : number % 2 ? MULTIPLEXER : AMPLIFIER);
    }
    end_circuit(&made);
    lend_circuit(&made);
}

/* A sound record of this phase; in a scan all blocks are done. */
static void begin_record(chance *with, bool in_scan) {
    words.record_length = SERIFDOVE_RECORD_WORDS(made.n);
    words.outputs_length = SERIFDOVE_OUTPUT_WORD_COUNT;
    random_record(&made, with, in_scan, words.record);
    words.record[SERIFDOVE_DONE] = in_scan ? (int32_t)made.n : 0;
    for (size_t i = 0; i < words.outputs_length; i++)
        words.outputs[i] = between(with, INT32_MIN / 2, INT32_MAX / 2);
}

/* ---- 21: each word in turn, at and beyond the ends of its range */

static void try_word(size_t place, const lent_words *sound, const call *c, bool in_scan) {
    const word_range r = range_at(&made, place, in_scan);
    const int32_t values[] = {r.least, r.greatest, r.least - 1, r.greatest + 1, r.least + 1, r.greatest - 1, -1,        2,
                              256,     1001,       32768,       65536,          -32769,      INT32_MIN,      INT32_MAX, 35994001};
    for (size_t i = 0; i < LENGTH(values); i++) {
        copy_words(&words, sound);
        words.record[place] = values[i];
        try_call("one word of a record", c);
    }
}

static void sweep_records(chance *with) {
    static lent_words sound;
    const call latch = some_latch(with), run = run_of(2), *all[] = {&warm, &latch, &run, &publish, &cold};
    for (size_t k = 0; k < LENGTH(all); k++) {
        const bool in_scan = all[k] == &run || all[k] == &publish;
        begin_record(with, in_scan);
        if (all[k] == &run)
            words.record[SERIFDOVE_DONE] = (int32_t)below(with, made.n + 1);
        copy_words(&sound, &words);
        for (size_t place = 0; place < sound.record_length; place++)
            try_word(place, &sound, all[k], in_scan);
    }
}

/* ---- 20, 22, 24 and the lengths of 23 */

static void try_lengths(chance *with, bool in_scan) {
    const size_t right = SERIFDOVE_RECORD_WORDS(made.n),
                 records[] = {0, 1, 163, 164, right - 3, right - 1, right, right + 1, right + 3};
    static const size_t others[] = {0, 1, 20, 24, 27, 28, 29, 31, 32, 33, 40};
    call latch = some_latch(with), run = run_of(1);
    const call *all[] = {&cold, &warm, &latch, &run, &publish};
    for (size_t r = 0; r < LENGTH(records); r++)
        for (size_t o = 0; o < LENGTH(others); o++)
            for (size_t k = 0; k < LENGTH(all); k++) {
                begin_record(with, in_scan);
                if (in_scan && made.n > 0 && once_in(with, 4))
                    words.record[SERIFDOVE_DONE]--;
                words.record_length = records[r];
                words.outputs_length = latch.inputs_length = others[o];
                try_call("lengths", all[k]);
            }
}

static void sweep_lengths(chance *with) {
    for (unsigned n = 0; n <= 3; n++)
        for (int in_scan = 0; in_scan <= 1; in_scan++) {
            lively_circuit(&made, with, n, n, 0);
            lend_circuit(&made);
            try_lengths(with, in_scan != 0);
        }
}

/* ---- 23: each input word in turn, and e */

static void sweep_inputs(chance *with) {
    static const int32_t values[] = {-1, 0, 1, 2, 3, 256, 999, 1000, 1001, 32768, 65536, INT32_MIN, INT32_MAX, -1000};
    static const int32_t elapsed[] = {-1, 0, 1, 65534, 65535, 65536, 131072, INT32_MIN, INT32_MAX, -65535};
    call latch = some_latch(with);
    for (size_t i = 0; i < SERIFDOVE_INPUT_WORD_COUNT; i++) {
        const int32_t before = latch.inputs[i];
        for (size_t k = 0; k < LENGTH(values); k++) {
            latch.inputs[i] = values[k];
            begin_record(with, false);
            try_call("one input word", &latch);
        }
        latch.inputs[i] = before;
    }
    for (size_t k = 0; k < LENGTH(elapsed); k++) {
        latch.e = elapsed[k];
        begin_record(with, false);
        try_call("e", &latch);
    }
}

/* ---- the order of the numbers: every set of faults at once */

enum { BAD_CIRCUIT = 1, BAD_LENGTH = 2, BAD_RECORD = 4, BAD_PHASE = 8, BAD_WORDS = 16, FAULTS = 32 };

/* Breaks the made circuit behind its header: number 11, 1, 2 or 4. */
static unsigned break_circuit(unsigned way) {
    static const unsigned numbers[] = {11, 1, 2, 4};
    static uint8_t bytes[sizeof made.bytes];
    size_t length = made.length;
    memcpy(bytes, made.bytes, length);
    bytes[length] = 0;
    if (way == 0)
        length++;
    if (way == 1)
        length--;
    if (way == 2)
        bytes[length - 3] = 0;
    if (way == 3)
        put_two(bytes + 4, made.n + 1);
    lend_bytes(bytes, length);
    return numbers[way];
}

static unsigned lowest_number(const call *c, unsigned faults, unsigned of_circuit) {
    if (faults & BAD_CIRCUIT)
        return of_circuit;
    if (faults & BAD_LENGTH)
        return 20;
    if (c->name == COLD_START)
        return 0;
    if (faults & BAD_RECORD)
        return 21;
    if (faults & BAD_PHASE)
        return 22;
    if (!(faults & BAD_WORDS) || c->name == WARM_START || c->name == RUN)
        return 0;
    return c->name == LATCH ? 23 : 24;
}

static void try_faults(chance *with, unsigned name, unsigned faults, unsigned way) {
    const bool scanning = name == RUN || name == PUBLISH;
    call c = name == LATCH ? some_latch(with) : (call){.name = name, .c = way};
    const unsigned of_circuit = faults & BAD_CIRCUIT ? break_circuit(way) : 0;
    begin_record(with, (faults & BAD_PHASE) != 0 ? !scanning : scanning);
    if (faults & BAD_RECORD)
        words.record[below(with, 2) ? SERIFDOVE_MARK : SERIFDOVE_AI(8)] = -1;
    if (faults & BAD_LENGTH)
        words.record_length += way % 2 ? 1 : (size_t)-1;
    if (faults & BAD_WORDS) {
        words.outputs_length += way % 2 ? 1 : (size_t)-1;
        c.inputs_length += way % 2;
        c.e = way % 2 ? c.e : 65536;
    }
    expect_number("several faults", &words, &c, lowest_number(&c, faults, of_circuit));
    lend_circuit(&made);
}

static void sweep_orders(chance *with) {
    for (unsigned n = 0; n <= 4; n++) {
        lively_circuit(&made, with, n, 1 + n, 0);
        lend_circuit(&made);
        for (unsigned name = 0; name < CALLS; name++)
            for (unsigned faults = 0; faults < FAULTS; faults++)
                for (unsigned way = 0; way < 4; way++)
                    try_faults(with, name, faults, way);
    }
}

/* ---- 1 to 11: the named cases, whose answer is known; an accepted circuit meets a record that has no words */

static void try_named(const char *name, const uint8_t *bytes, size_t length, serifdove_answer check) {
    const unsigned number = check.number != 0 ? (unsigned)check.number : 20;
    lend_bytes(bytes, length);
    for (unsigned k = 0; k < CALLS; k++) {
        const call c = {.name = k, .c = 1};
        words.outputs_length = SERIFDOVE_OUTPUT_WORD_COUNT;
        words.record_length = check.number % 2 == 0 ? 0 : SERIFDOVE_RECORD_WORDS(1);
        if (compare_call(name, &words, &c).place != check.place)
            tell_mismatch("not the place that was constructed");
        expect_number(name, &words, &c, number);
    }
}

void sweep_refusals(chance *with) {
    sweep_lengths(with);
    sweep_orders(with);
    each_named(try_named);
    make_every_kind(with);
    sweep_inputs(with);
    sweep_records(with);
}
