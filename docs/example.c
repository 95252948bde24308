/* A host in C: judges the circuit in a file, runs it for a few scans in turns of eight blocks, and prints the outputs. */
#include "serifdove.h"

#include <stdbool.h>
#include <stdio.h>
#include <stdlib.h>

enum { MOST_BYTES = 65536, TURN = 8, SCANS = 4, TICKS_A_SCAN = 50 };

static uint8_t circuit[MOST_BYTES + 1];
static size_t circuit_len;
static int32_t record[SERIFDOVE_RECORD_WORDS(SERIFDOVE_MOST_BLOCKS)];
static size_t record_len;
static int32_t inputs[SERIFDOVE_INPUT_WORD_COUNT], outputs[SERIFDOVE_OUTPUT_WORD_COUNT];

/* Reads the circuit; false if the file cannot be read or has more than MOST_BYTES bytes. */
static bool read_circuit(const char *path) {
    FILE *file = fopen(path, "rb");
    if (file == NULL)
        return false;
    circuit_len = fread(circuit, 1, sizeof circuit, file);
    const bool is_whole = ferror(file) == 0 && circuit_len <= MOST_BYTES;
    return fclose(file) == 0 && is_whole;
}

/* The answer of an accepted call. A refused call has changed nothing: here the program tells it and ends. */
static serifdove_answer accepted(const char *call, serifdove_answer answer) {
    if (answer.number == SERIFDOVE_ACCEPTED)
        return answer;
    fflush(stdout);
    fprintf(stderr, "example: %s is refused with %zu at byte %zu\n", call, answer.number, answer.place);
    exit(1);
}

/* Whatever else the box has to do. The record may be looked at: it is never half a block. */
static void other_work(void) { printf("  other work, with %d blocks done\n", (int)record[SERIFDOVE_DONE]); }

/* One scan. No output word changes before publish. */
static void scan(int32_t e) {
    accepted("latch", serifdove_latch(circuit, circuit_len, record, record_len, inputs, SERIFDOVE_INPUT_WORD_COUNT, e));
    while (accepted("run", serifdove_run(circuit, circuit_len, record, record_len, TURN)).second > 0)
        other_work();
    accepted("publish", serifdove_publish(circuit, circuit_len, record, record_len, outputs, SERIFDOVE_OUTPUT_WORD_COUNT));
}

/* Q1 to Q20 as bits, then AQ1 to AQ8. */
static void print_outputs(void) {
    printf("  Q ");
    for (int k = 1; k <= 20; k++)
        printf("%d", (int)outputs[SERIFDOVE_Q(k)]);
    printf(", AQ");
    for (int k = 1; k <= 8; k++)
        printf(" %d", (int)outputs[SERIFDOVE_AQ(k)]);
    printf("\n");
}

int main(int argc, char **argv) {
    if (argc != 2 || !read_circuit(argv[1])) {
        fprintf(stderr, "usage: example CIRCUIT, a file of at most %d bytes\n", MOST_BYTES);
        return 2;
    }
    const serifdove_answer answer = accepted("the circuit", serifdove_check(circuit, circuit_len));
    printf("%zu blocks, %zu rows\n", answer.first, answer.second);
    record_len = SERIFDOVE_RECORD_WORDS(answer.first);
    accepted("cold start", serifdove_cold_start(circuit, circuit_len, record, record_len));

    inputs[SERIFDOVE_INPUT_I(1)] = 1;
    inputs[SERIFDOVE_INPUT_I(2)] = 1;
    for (int k = 1; k <= SCANS; k++) {
        printf("scan %d\n", k);
        scan(k == 1 ? 0 : TICKS_A_SCAN);
        print_outputs();
    }
    return 0;
}
