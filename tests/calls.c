#define _POSIX_C_SOURCE 200809L
#include "calls.h"

#include "ends.h"
#include "guarded.h"

#include <inttypes.h>
#include <stdio.h>
#include <stdlib.h>
#include <string.h>
#include <unistd.h>

enum { NUMBERS = 25, ROOM = 1 << 16 };

static const char *const call_names[CALLS] = {"cold", "warm", "latch", "run", "publish"};

/* ---- what was compared */

static uint64_t counted[CALLS][NUMBERS], worked_out[KINDS + 1];

uint64_t calls_compared(void) {
    uint64_t sum = 0;
    for (unsigned name = 0; name < CALLS; name++)
        for (unsigned number = 0; number < NUMBERS; number++)
            sum += counted[name][number];
    return sum;
}

/* Whether some call of this name can be refused by the number. */
static bool can_be(unsigned name, unsigned number) {
    if (number == 21 || number == 22)
        return name != COLD_START;
    return number <= 11 || number == 20 || (number == 23 && name == LATCH) || (number == 24 && name == PUBLISH);
}

bool report_calls(void) {
    bool all_met = true;
    printf("| number | cold start | warm start | latch | run | publish |\n|---|---|---|---|---|---|\n");
    for (unsigned number = 0; number < NUMBERS; number++) {
        if (number == 12)
            number = 20;
        printf("| %u |", number);
        for (unsigned name = 0; name < CALLS; name++) {
            printf(" %" PRIu64 " |", counted[name][number]);
            all_met = all_met && (counted[name][number] > 0) == can_be(name, number);
        }
        printf("\n");
    }
    printf("blocks worked out, by kind:");
    for (unsigned kind = 1; kind <= KINDS; kind++) {
        printf(" %u: %" PRIu64 "%s", kind, worked_out[kind], kind < KINDS ? "," : "\n");
        all_met = all_met && worked_out[kind] > 0;
    }
    if (!all_met)
        printf("traces: a number that a call can give, or a kind, was never met\n");
    return report_ends() && all_met;
}

/* ---- the slices */

static const side *proved;
static guarded circuit_memory, record_memory, inputs_memory, outputs_memory;
static const uint8_t *circuit_bytes;
static size_t circuit_length;
static const circuit *counted_circuit; /* NULL: its blocks are not counted */

enum { AT_THE_END, AT_THE_BEGINNING, PLACEMENTS };

/* Where a slice of so many bytes stands; an empty one at the beginning is a null pointer. */
static void *placed(const guarded *memory, uint8_t *view, size_t length, unsigned placement) {
    if (placement == AT_THE_BEGINNING)
        return length == 0 ? NULL : view;
    return view + memory->room - length;
}

/* Puts these bytes into the memory; gives the slice to lend. */
static void *lend(const guarded *memory, const void *bytes, size_t length, unsigned placement) {
    if (length > 0)
        memcpy(placed(memory, memory->own, length, placement), bytes, length);
    return placed(memory, memory->lent, length, placement);
}

void lend_bytes(const uint8_t *bytes, size_t length) {
    circuit_bytes = bytes;
    circuit_length = length;
    counted_circuit = NULL;
    for (unsigned placement = 0; placement < PLACEMENTS; placement++)
        lend(&circuit_memory, bytes, length, placement);
}

void lend_circuit(const circuit *made) {
    lend_bytes(made->bytes, made->length);
    counted_circuit = made;
}

void copy_words(lent_words *to, const lent_words *from) {
    memcpy(to, from, offsetof(lent_words, record) + from->record_length * sizeof *from->record);
}

static size_t size_of(size_t words) { return words * sizeof(int32_t); }

bool same_words(const lent_words *a, const lent_words *b) {
    return a->record_length == b->record_length && a->outputs_length == b->outputs_length &&
           memcmp(a->record, b->record, size_of(a->record_length)) == 0 &&
           memcmp(a->outputs, b->outputs, size_of(a->outputs_length)) == 0;
}

/* ---- telling a mismatch, as a trace */

static const char *now_scenario;
static const call *now_call;
static lent_words before, got_words;
static const lent_words *want_words;
static serifdove_answer got, want;

static void print_words(size_t count, const int32_t *words) {
    printf(" %zu", count);
    for (size_t i = 0; i < count; i++)
        printf(" %" PRId32, words[i]);
}

static void print_line(const char *head, serifdove_answer a, const lent_words *words) {
    printf("%s %zu %zu %zu %zu", head, a.number, a.place, a.first, a.second);
    print_words(words->record_length, words->record);
    print_words(words->outputs_length, words->outputs);
    printf("\n");
}

static void print_call(void) {
    printf("C ");
    for (size_t i = 0; i < circuit_length; i++)
        printf("%02X", circuit_bytes[i]);
    printf("%s\nR", circuit_length == 0 ? "-" : "");
    print_words(before.record_length, before.record);
    printf("\nO");
    print_words(before.outputs_length, before.outputs);
    printf("\n> %s", call_names[now_call->name]);
    if (now_call->name == RUN)
        printf(" %" PRIu32, now_call->c);
    if (now_call->name == LATCH) {
        printf(" %" PRId32, now_call->e);
        print_words(now_call->inputs_length, now_call->inputs);
    }
    printf("\n");
}

static void print_differences(const char *what, size_t count, const int32_t *a, const int32_t *b) {
    for (size_t i = 0; i < count; i++)
        if (a[i] != b[i])
            printf("# %s word %zu: archive %" PRId32 ", oracle %" PRId32 "\n", what, i, a[i], b[i]);
}

static void print_mismatch(const char *what) {
    printf("# traces: mismatch: %s (%s)\n", what, now_scenario);
    print_call();
    print_line("<", want, want_words);
}

_Noreturn void tell_mismatch(const char *what) {
    print_mismatch(what);
    printf(".\n");
    exit(1);
}

static _Noreturn void tell_difference(const char *what) {
    print_mismatch(what);
    print_line("# the archive: <", got, &got_words);
    print_differences("record", got_words.record_length, got_words.record, want_words->record);
    print_differences("output", got_words.outputs_length, got_words.outputs, want_words->outputs);
    printf(".\n");
    exit(1);
}

/* A page was touched that may not be. Nothing but a call runs then, so printing is safe. */
static void on_fault(int signal) {
    (void)signal;
    print_mismatch("memory outside the slices was touched, or a slice that is only read was written");
    fflush(stdout);
    _exit(1);
}

void begin_comparing(const side *archive) {
    proved = archive;
    circuit_memory = guarded_memory(4 * ROOM, true);
    record_memory = guarded_memory(ROOM, false);
    inputs_memory = guarded_memory(ROOM, true);
    outputs_memory = guarded_memory(ROOM, false);
    on_touch(on_fault);
}

/* ---- comparing */

static serifdove_answer make(const side *by, const uint8_t *circuit, int32_t *record, const int32_t *inputs, int32_t *outputs) {
    const size_t record_length = before.record_length;
    switch (now_call->name) {
    case COLD_START:
        return by->cold_start(circuit, circuit_length, record, record_length);
    case WARM_START:
        return by->warm_start(circuit, circuit_length, record, record_length);
    case LATCH:
        return by->latch(circuit, circuit_length, record, record_length, inputs, now_call->inputs_length, now_call->e);
    case RUN:
        return by->run(circuit, circuit_length, record, record_length, now_call->c);
    default:
        return by->publish(circuit, circuit_length, record, record_length, outputs, before.outputs_length);
    }
}

static void compare_placed(unsigned placement) {
    const size_t record_size = size_of(before.record_length), outputs_size = size_of(before.outputs_length);
    int32_t *record = lend(&record_memory, before.record, record_size, placement);
    int32_t *outputs = lend(&outputs_memory, before.outputs, outputs_size, placement);
    const int32_t *inputs = lend(&inputs_memory, now_call->inputs, size_of(now_call->inputs_length), placement);
    got = make(proved, placed(&circuit_memory, circuit_memory.lent, circuit_length, placement), record, inputs, outputs);
    if (same_answer(got, want) && (record_size == 0 || memcmp(record, want_words->record, record_size) == 0) &&
        (outputs_size == 0 || memcmp(outputs, want_words->outputs, outputs_size) == 0))
        return;
    copy_words(&got_words, &before);
    if (record_size > 0)
        memcpy(got_words.record, record, record_size);
    if (outputs_size > 0)
        memcpy(got_words.outputs, outputs, outputs_size);
    tell_difference(placement == AT_THE_END ? "end at the guard page" : "beginning at the guard page");
}

static void count_blocks(void) {
    const unsigned done = (unsigned)before.record[SERIFDOVE_DONE];
    for (unsigned k = done + 1; counted_circuit != NULL && k <= done + want.first; k++) {
        worked_out[counted_circuit->kinds[k]]++;
        count_ends(counted_circuit, k, before.record, want_words->record);
    }
}

call run_of(uint32_t c) { return (call){.name = RUN, .c = c}; }

call latch_of(int32_t e, const int32_t *inputs) {
    call made = {.name = LATCH, .e = e, .inputs_length = SERIFDOVE_INPUT_WORD_COUNT};
    memcpy(made.inputs, inputs, size_of(made.inputs_length));
    return made;
}

void expect_number(const char *scenario, lent_words *words, const call *made, unsigned number) {
    if (compare_call(scenario, words, made).number != number)
        tell_mismatch("not the number that was constructed");
}

serifdove_answer compare_call(const char *scenario, lent_words *words, const call *made) {
    now_scenario = scenario;
    now_call = made;
    want_words = words;
    copy_words(&before, words);
    want = make(&sides[ORACLE], circuit_bytes, words->record, made->inputs, words->outputs);
    for (unsigned placement = 0; placement < PLACEMENTS; placement++)
        compare_placed(placement);
    if (want.number >= NUMBERS)
        tell_mismatch("no such number");
    counted[made->name][want.number]++;
    if (made->name == RUN && want.number == 0)
        count_blocks();
    return want;
}
