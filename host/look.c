#include "look.h"

#include <inttypes.h>
#include <string.h>

/* ---- the lines above the blocks */

void print_phase(FILE *to, const circuit *c, const int32_t *record) {
    if (record[SERIFDOVE_PHASE] == 0)
        fprintf(to, "waiting");
    else
        fprintf(to, "in a scan, %" PRId32 " of %u blocks done", record[SERIFDOVE_DONE], c->n);
}

static void print_state(FILE *to, const sight *at) {
    const int32_t e = at->record[SERIFDOVE_E];
    fprintf(to, "phase    ");
    print_phase(to, at->circuit, at->record);
    if (at->record[SERIFDOVE_PHASE] != 0)
        fprintf(to, ", e %" PRId32 " (%s)", e, time_of(e).text);
    fprintf(to, "%s\n", at->record[SERIFDOVE_MARK] != 0 ? "; nothing published since the start" : "");
}

static void print_shared_words(FILE *to, const sight *at) {
    const char *flags = at->record[SERIFDOVE_PHASE] != 0 ? "change at publish" : "for the next scan; the blocks saw those before";
    fprintf(to, "inputs   ");
    print_words(to, &at->record[SERIFDOVE_I(1)], SERIFDOVE_INPUT_WORD_COUNT, input_name, "all 0");
    fprintf(to, " (as latched)\nM        ");
    print_words(to, &at->record[SERIFDOVE_M(1)], FLAGS, flag_name, "all 0");
    fprintf(to, " (%s)\nAM       ", flags);
    print_words(to, &at->record[SERIFDOVE_AM(1)], FLAGS, analog_flag_name, "all 0");
    fprintf(to, " (%s)\noutputs  ", flags);
    print_words(to, at->outputs, SERIFDOVE_OUTPUT_WORD_COUNT, output_name, "all 0");
    fprintf(to, " (%s)\n", at->published ? "as published" : "nothing is published yet");
}

/* ---- a block */

/* A text of pieces, cut where it is too long. */
typedef struct {
    char text[256];
} pieces;

static void add(pieces *to, const char *between, const char *piece) {
    const size_t used = strlen(to->text);
    snprintf(to->text + used, sizeof to->text - used, "%s%s", used == 0 ? "" : between, piece);
}

static void add_number(pieces *to, const char *between, int32_t number) {
    char digits[16];
    snprintf(digits, sizeof digits, "%" PRId32, number);
    add(to, between, digits);
}

/* "Trg I4 0, R - 0": the inputs with their values; those of a gate have no names of their own. */
static pieces inputs_of(const block *b, const int32_t *record) {
    const kind *k = kind_of(b->kind);
    pieces inputs = {0};
    for (unsigned i = 0; i < MOST_OF_A_BLOCK && k->inputs[i] != NULL; i++) {
        const bool is_named = *k->inputs[i] != 0;
        add(&inputs, ", ", is_named ? k->inputs[i] : connector_name(b->inputs[i]).text);
        if (is_named)
            add(&inputs, " ", connector_name(b->inputs[i]).text);
        add_number(&inputs, " ", value_of(b->inputs[i], k->unused, record));
    }
    return inputs;
}

static void add_bits(pieces *to, int32_t reg) {
    enum { BITS = 8 };
    char bits[BITS + 1] = {0};
    for (int j = 0; j < BITS; j++)
        bits[j] = (reg >> (BITS - 1 - j) & 1) != 0 ? '1' : '0';
    add(to, "; bits 8 to 1: ", bits);
}

/* A gain, which is counted in hundredths. */
static void add_gain(pieces *to, int32_t hundredths) {
    char gain[16];
    const int32_t size = hundredths < 0 ? -hundredths : hundredths;
    snprintf(gain, sizeof gain, "%s%" PRId32 ".%02" PRId32, hundredths < 0 ? "-" : "", size / 100, size % 100);
    add(to, " ", gain);
}

/* The parameters, with this before the first. */
static void add_parameters(pieces *to, const char *before, const block *b) {
    const kind *k = kind_of(b->kind);
    for (unsigned i = 0; i < MOST_OF_A_BLOCK && k->parameters[i] != NULL; i++) {
        add(to, i == 0 ? before : ", ", k->parameters[i]);
        if (strcmp(k->parameters[i], "A") == 0)
            add_gain(to, b->parameters[i]);
        else
            add_number(to, " ", b->parameters[i]);
    }
}

/* "remembered 1"; of a stairway switch "remembered 2 (Trg 0, runs)". */
static void add_remembered(pieces *to, const block *b, int32_t word) {
    enum { RUNS = 2 };
    add(to, "; ", "remembered");
    add_number(to, " ", word);
    if (b->kind == STAIRWAY_SWITCH)
        add(to, word % RUNS == 0 ? " (Trg 0, " : " (Trg 1, ", word >= RUNS ? "runs)" : "does not run)");
}

/* "Ta 0.50 s of 3.00 s"; of a stairway switch also "T! 1.00 s, T!L 0.20 s: dark from 2.00 s to 2.20 s". */
static void add_times(pieces *to, const block *b, int32_t ta) {
    const int64_t t = ticks_of(b, WHOLE_TIME);
    add(to, "; Ta ", time_of(ta).text);
    add(to, " of ", time_of(t).text);
    if (b->kind != STAIRWAY_SWITCH)
        return;
    const int64_t warning = ticks_of(b, WARNING_TIME), dark = ticks_of(b, DARK_TIME);
    add(to, "; T! ", time_of(warning).text);
    add(to, ", T!L ", time_of(dark).text);
    add(to, ": ", dark > 0 ? "dark from " : "never dark");
    if (dark > 0) {
        add(to, "", time_of(t - warning).text);
        add(to, " to ", time_of(t - warning + dark).text);
    }
}

/* That an amplifier's output stands at an end of its range: the value may lie beyond. */
static void add_end(pieces *to, int32_t output) {
    if (output == INT16_MIN)
        add(to, "; ", "at the lower end");
    if (output == INT16_MAX)
        add(to, "; ", "at the upper end");
}

/* What it remembers, and its parameters: "remembered 1; Ta 0.50 s of 3.00 s". */
static pieces memory_of(const block *b, const int32_t *words) {
    pieces memory = {0};
    if (b->retentive)
        add(&memory, "; ", "retentive");
    if (kind_of(b->kind)->remembers)
        add_remembered(&memory, b, words[1]);
    if (has_time(b->kind)) {
        add_times(&memory, b, words[2]);
        return memory;
    }
    if (b->kind == SHIFT_REGISTER)
        add_bits(&memory, words[2]);
    if (b->kind == UP_DOWN_COUNTER)
        add_number(&memory, "; count ", words[2]);
    add_parameters(&memory, b->kind == UP_DOWN_COUNTER ? ", " : "; ", b);
    if (b->kind == ANALOG_AMPLIFIER)
        add_end(&memory, words[0]);
    return memory;
}

/* ---- the blocks */

enum { KIND_WIDTH = 20 };

/* How wide the columns of labels and inputs are. */
typedef struct {
    int label, inputs;
} widths;

static int wider(int width, const char *text) {
    const int length = (int)strlen(text);
    return length > width ? length : width;
}

static widths widths_of(const sight *at, unsigned first, unsigned last) {
    enum { LABEL = 16 };
    widths w = {LABEL, (int)strlen("inputs")};
    for (unsigned number = first; number <= last; number++) {
        w.label = wider(w.label, label_of(&at->circuit->block[number]).text);
        w.inputs = wider(w.inputs, inputs_of(&at->circuit->block[number], at->record).text);
    }
    return w;
}

static void print_block(FILE *to, const sight *at, unsigned number, widths w) {
    const block *b = &at->circuit->block[number];
    const int32_t *words = &at->record[SERIFDOVE_BLOCK_OUTPUT(number)];
    const bool to_go = at->record[SERIFDOVE_PHASE] != 0 && (int32_t)number > at->record[SERIFDOVE_DONE];
    const pieces memory = memory_of(b, words);
    const bool dim = to_go && at->coloured;
    fprintf(to, "%s%5u  %-*s  %-*s  %-*s  %6" PRId32 "%s%s%s\n", dim ? "\033[2m" : "", number, w.label, label_of(b).text, KIND_WIDTH,
            kind_of(b->kind)->name, w.inputs, inputs_of(b, at->record).text, words[0], *memory.text == 0 ? "" : "  ", memory.text,
            dim ? "\033[0m" : "");
}

/* Where the scan stands: between the blocks that are done and those to go. */
static void print_mark(FILE *to, const sight *at) {
    const int32_t done = at->record[SERIFDOVE_DONE], to_go = (int32_t)at->circuit->n - done;
    fprintf(to, "%s====>  the scan stands here", at->coloured ? "\033[1;33m" : "");
    if (to_go == 0)
        fprintf(to, ": all are done, publish closes it");
    else
        fprintf(to, ", before block %" PRId32 ": %" PRId32 " done, %" PRId32 " to go, which show their words from before this scan",
                done + 1, done, to_go);
    fprintf(to, "%s\n", at->coloured ? "\033[0m" : "");
}

void look(FILE *to, const sight *at, unsigned first, unsigned last) {
    const int32_t *record = at->record;
    const bool in_scan = record[SERIFDOVE_PHASE] != 0;
    const widths w = widths_of(at, first, last);
    print_state(to, at);
    print_shared_words(to, at);
    fprintf(to, "block  %-*s  %-*s  %-*s  output\n", w.label, "label", KIND_WIDTH, "kind", w.inputs, "inputs");
    if (in_scan && (unsigned)record[SERIFDOVE_DONE] < first)
        print_mark(to, at);
    for (unsigned number = first; number <= last; number++) {
        print_block(to, at, number, w);
        if (in_scan && (unsigned)record[SERIFDOVE_DONE] == number)
            print_mark(to, at);
    }
    if (in_scan && last > 0 && (unsigned)record[SERIFDOVE_DONE] > last)
        print_mark(to, at);
}
