/* What the program of crates/cases must print, by the oracle: `stored NAME..`, in the folder of the stored circuits. */
#include "oracle.h"

#include <stdio.h>
#include <stdlib.h>

enum { ROOM = 65537, INPUTS = SERIFDOVE_INPUT_WORD_COUNT, OUTPUTS = SERIFDOVE_OUTPUT_WORD_COUNT, SCANS = 551, SHORT = 9, E = 65535 };

static uint8_t circuit[ROOM];
static size_t circuit_len;
static int32_t record[SERIFDOVE_RECORD_WORDS(SERIFDOVE_MOST_BLOCKS)], outputs[OUTPUTS];
static size_t record_len;

static void print_answer(serifdove_answer a) {
    printf("%zu %zu %zu %zu\n", a.number, a.place, a.first, a.second);
}

/* I1 is 1, the others are 1 in every second scan. */
static serifdove_answer latch(int scan, int32_t analog) {
    int32_t inputs[INPUTS];
    for (int k = 0; k < INPUTS; k++)
        inputs[k] = k == 0 ? 1 : k < 24 ? scan % 2 == 0 : analog;
    return oracle_latch(circuit, circuit_len, record, record_len, inputs, INPUTS, E);
}

/* The oracle plays a scan in one go; the program in turns. */
static void work_out(void) {
    oracle_run(circuit, circuit_len, record, record_len, UINT32_MAX);
    oracle_publish(circuit, circuit_len, record, record_len, outputs, OUTPUTS);
}

/* A tick apart, from a cold start on: I1 is 1 in the first two scans, I2 in every second from the first on. */
static void play_shortly(const char *name) {
    oracle_cold_start(circuit, circuit_len, record, record_len);
    printf("%s nine scans: Q1", name);
    for (int scan = 1; scan <= SHORT; scan++) {
        const int32_t inputs[INPUTS] = {scan <= 2, scan % 2 == 1};
        oracle_latch(circuit, circuit_len, record, record_len, inputs, INPUTS, 1);
        work_out();
        printf(" %d", (int)outputs[0]);
    }
    printf("\n");
}

static void play(const char *name, int scan) {
    latch(scan, 1000);
    work_out();
    if (scan > 2 && scan < SCANS - 1)
        return;
    printf("%s scan %d", name, scan);
    for (int k = 0; k < OUTPUTS; k++)
        printf(" %d", (int)outputs[k]);
    printf(" block 1");
    for (size_t k = SERIFDOVE_BLOCK_OUTPUT(1); k <= SERIFDOVE_BLOCK_NUMBER(1); k++)
        printf(" %d", k < record_len ? (int)record[k] : 0);
    printf("\n");
}

int main(int count, char **names) {
    for (int i = 1; i < count; i++) {
        FILE *file = fopen(names[i], "rb");
        if (!file) {
            perror(names[i]);
            return 2;
        }
        circuit_len = fread(circuit, 1, ROOM, file);
        fclose(file);
        serifdove_answer answer = oracle_check(circuit, circuit_len);
        printf("%s ", names[i]);
        print_answer(answer);
        printf("%s 0BA6 ", names[i]);
        print_answer(oracle_check_profile(circuit, circuit_len));
        if (answer.number != 0)
            continue;
        record_len = SERIFDOVE_RECORD_WORDS(answer.first);
        for (int k = 0; k < OUTPUTS; k++)
            outputs[k] = 7;
        oracle_cold_start(circuit, circuit_len, record, record_len);
        for (int scan = 1; scan <= SCANS; scan++)
            play(names[i], scan);
        printf("%s analog 1001 ", names[i]);
        print_answer(latch(SCANS + 1, 1001));
        play_shortly(names[i]);
    }
    return 0;
}
