/* What bench/count counts: two whole scans of a circuit of 400 blocks, in one run each; of all kinds also a check, and its rows written and
   read.
   count all     blocks of all kinds, with labels and rows
   count KIND    blocks of one kind alone, by its number */
#include "circuits.h"
#include "serifdove.h"

#include <stdio.h>
#include <stdlib.h>
#include <string.h>

enum { SCANS = 2, TEXT_ROOM = 1 << 16 };

static circuit c;
static int32_t record[SERIFDOVE_RECORD_WORDS(MOST_BLOCKS)], inputs[SERIFDOVE_INPUT_WORD_COUNT], outputs[SERIFDOVE_OUTPUT_WORD_COUNT];

/* Every call must be accepted. */
static serifdove_answer told(serifdove_answer answer) {
    if (answer.number != SERIFDOVE_ACCEPTED) {
        printf("count: a call answers %zu at %zu\n", answer.number, answer.place);
        exit(1);
    }
    return answer;
}

/* The inputs are others in each scan. */
static void scan(size_t words) {
    for (unsigned k = 1; k <= 24; k++)
        inputs[SERIFDOVE_INPUT_I(k)] ^= 1;
    inputs[SERIFDOVE_INPUT_AI(1)] = 1000 - inputs[SERIFDOVE_INPUT_AI(1)];
    told(serifdove_latch(c.bytes, c.length, record, words, inputs, SERIFDOVE_INPUT_WORD_COUNT, 1));
    told(serifdove_run(c.bytes, c.length, record, words, UINT32_MAX));
    told(serifdove_publish(c.bytes, c.length, record, words, outputs, SERIFDOVE_OUTPUT_WORD_COUNT));
}

static void check_and_rows(void) {
    static uint8_t text[TEXT_ROOM], read[LONGEST_CIRCUIT];
    told(serifdove_check(c.bytes, c.length));
    const size_t length = told(serifdove_write_rows(c.bytes, c.length, text, sizeof text)).first;
    told(serifdove_read_rows(text, length, read, sizeof read));
}

int main(int words, char **word) {
    const bool all = words == 2 && strcmp(word[1], "all") == 0;
    const unsigned kind = words == 2 && !all ? (unsigned)atoi(word[1]) : 0;
    if (!all && (kind < 1 || kind > KINDS)) {
        fprintf(stderr, "usage: count all | KIND\n");
        return 2;
    }
    if (all)
        full_circuit(&c, MOST_BLOCKS);
    else {
        begin_circuit(&c, MOST_BLOCKS);
        for (unsigned k = 0; k < MOST_BLOCKS; k++)
            add_plain_block(&c, kind);
        end_circuit(&c);
    }
    told(serifdove_cold_start(c.bytes, c.length, record, SERIFDOVE_RECORD_WORDS(MOST_BLOCKS)));
    for (unsigned k = 0; k < SCANS; k++)
        scan(SERIFDOVE_RECORD_WORDS(MOST_BLOCKS));
    if (all)
        check_and_rows();
    return 0;
}
