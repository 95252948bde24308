/* A host in C11 or C++17, with nothing but the header: document 01's circuit of 34 bytes, checked, checked for 0BA6, run for a scan,
   written out as rows and read again. */
#include "serifdove.h"

#include <assert.h>
#include <stdio.h>
#include <string.h>

/* ---- where words stand, by document 01: 4, then 24 I, 8 AI, 64 M, 64 AM, then three a block */

static_assert(SERIFDOVE_MOST_BLOCKS == 400, "blocks");
static_assert(SERIFDOVE_INPUT_WORD_COUNT == 24 + 8, "inputs");
static_assert(SERIFDOVE_OUTPUT_WORD_COUNT == 20 + 8, "outputs");
static_assert(SERIFDOVE_RECORD_WORDS(0) == 164 && SERIFDOVE_RECORD_WORDS(1 + 1) == 170, "record");
static_assert(SERIFDOVE_RECORD_WORDS(SERIFDOVE_MOST_BLOCKS) == 1364, "the longest record");
static_assert(SERIFDOVE_PHASE == 0 && SERIFDOVE_DONE == 1 && SERIFDOVE_MARK == 2 && SERIFDOVE_E == 3, "the first four");
static_assert(SERIFDOVE_I(1) == 4 && SERIFDOVE_I(23 + 1) == 27, "I");
static_assert(SERIFDOVE_AI(1) == 28 && SERIFDOVE_AI(7 + 1) == 35, "AI");
static_assert(SERIFDOVE_M(1) == 36 && SERIFDOVE_M(63 + 1) == 99, "M");
static_assert(SERIFDOVE_AM(1) == 100 && SERIFDOVE_AM(63 + 1) == 163, "AM");
static_assert(SERIFDOVE_BLOCK_OUTPUT(1) == 164 && SERIFDOVE_BLOCK_OUTPUT(1 + 1) == 167, "output");
static_assert(SERIFDOVE_BLOCK_REMEMBERED(1) == 165 && SERIFDOVE_BLOCK_REMEMBERED(1 + 1) == 168, "remembered word");
static_assert(SERIFDOVE_BLOCK_NUMBER(1) == 166 && SERIFDOVE_BLOCK_NUMBER(399 + 1) == 1363, "number");
static_assert(SERIFDOVE_INPUT_I(1) == 0 && SERIFDOVE_INPUT_I(23 + 1) == 23, "I among the inputs");
static_assert(SERIFDOVE_INPUT_AI(1) == 24 && SERIFDOVE_INPUT_AI(7 + 1) == 31, "AI among the inputs");
static_assert(SERIFDOVE_Q(1) == 0 && SERIFDOVE_Q(19 + 1) == 19, "Q");
static_assert(SERIFDOVE_AQ(1) == 20 && SERIFDOVE_AQ(7 + 1) == 27, "AQ");

/* ---- the numbers of document 02 */

static_assert(SERIFDOVE_0BA6_BLOCKS == 200, "blocks of 0BA6");
static_assert(SERIFDOVE_0BA6_Q == 16 && SERIFDOVE_0BA6_AQ == 2, "outputs of 0BA6");
static_assert(SERIFDOVE_0BA6_M == 27 && SERIFDOVE_0BA6_AM == 6, "flags of 0BA6");
static_assert(SERIFDOVE_QUOTE == 30 && SERIFDOVE_TAG_KIND_OR_COLUMNS == 31 && SERIFDOVE_NUMBER_OR_LABEL == 32, "rows");
static_assert(SERIFDOVE_NO_ROOM == 33 && SERIFDOVE_TOO_MANY_BLOCKS == 34, "all rows");

static const uint8_t circuit[34] = {
    0x01, 0x00, 0x03, 0x01, 0x00, 0x01,                                                                   /* header, n 1 */
    0x10, 0x00, 0x0E, 0x01, 0x00, 0x01, 0x00, 0x01, 0x01, 0x00, 0x02, 0x00, 0x00, 0x00, 0x00, 0x00, 0x00, /* AND of I1, I2 */
    0x30, 0x00, 0x05, 0x01, 0x01, 0x06, 0x00, 0x01,                                                       /* Q1 from block 1 */
    0x7F, 0x00, 0x00,                                                                                     /* end */
};

static int32_t record[SERIFDOVE_RECORD_WORDS(1)], inputs[SERIFDOVE_INPUT_WORD_COUNT], outputs[SERIFDOVE_OUTPUT_WORD_COUNT];

static int failures;

static void expect(const char *what, serifdove_answer got, size_t number, size_t place, size_t first, size_t second) {
    if (got.number == number && got.place == place && got.first == first && got.second == second)
        return;
    printf("header: %s: %zu %zu %zu %zu\n", what, got.number, got.place, got.first, got.second);
    failures++;
}

static void expect_word(const char *what, int32_t got, int32_t want) {
    if (got == want)
        return;
    printf("header: %s: %ld\n", what, (long)got);
    failures++;
}

static void check_it(void) {
    expect("accepted", serifdove_check(circuit, sizeof circuit), SERIFDOVE_ACCEPTED, 0, 1, 1);
    expect("cut", serifdove_check(circuit, sizeof circuit - 1), SERIFDOVE_CUT_SHORT, 31, 0, 0);
    expect("null", serifdove_check(NULL, 0), SERIFDOVE_CUT_SHORT, 0, 0, 0);
}

/* With Q16 and with Q17 in place of Q1. */
static void check_it_for_0ba6(void) {
    static uint8_t other[sizeof circuit];
    const size_t row = 23, destination = row + 4;
    memcpy(other, circuit, sizeof circuit);
    expect("0BA6, accepted", serifdove_check_profile(circuit, sizeof circuit), SERIFDOVE_ACCEPTED, 0, 1, 1);
    expect("0BA6, cut", serifdove_check_profile(circuit, sizeof circuit - 1), SERIFDOVE_CUT_SHORT, 31, 0, 0);
    expect("0BA6, null", serifdove_check_profile(NULL, 0), SERIFDOVE_CUT_SHORT, 0, 0, 0);
    other[destination] = SERIFDOVE_0BA6_Q;
    expect("0BA6, Q16", serifdove_check_profile(other, sizeof other), SERIFDOVE_ACCEPTED, 0, 1, 1);
    other[destination] = SERIFDOVE_0BA6_Q + 1;
    expect("0BA6, Q17", serifdove_check_profile(other, sizeof other), SERIFDOVE_DESTINATION, row, 0, 0);
    expect("Q17", serifdove_check(other, sizeof other), SERIFDOVE_ACCEPTED, 0, 1, 1);
}

static void start_it(void) {
    const size_t words = sizeof record / sizeof *record;
    expect("cold start", serifdove_cold_start(circuit, sizeof circuit, record, words), SERIFDOVE_ACCEPTED, 0, 0, 0);
    expect("cold start, null", serifdove_cold_start(circuit, sizeof circuit, NULL, 0), SERIFDOVE_RECORD_LENGTH, 0, 0, 0);
    expect("warm start", serifdove_warm_start(circuit, sizeof circuit, record, words), SERIFDOVE_ACCEPTED, 0, 0, 0);
    expect_word("mark", record[SERIFDOVE_MARK], 1);
    expect_word("M8", record[SERIFDOVE_M(8)], 1);
}

static void scan_it(void) {
    const size_t words = sizeof record / sizeof *record;
    inputs[SERIFDOVE_INPUT_I(1)] = inputs[SERIFDOVE_INPUT_I(2)] = 1;
    inputs[SERIFDOVE_INPUT_AI(8)] = 1000;
    expect("latch, null", serifdove_latch(circuit, sizeof circuit, record, words, NULL, 0, 5), SERIFDOVE_INPUT_WORDS, 0, 0, 0);
    expect("run, waiting", serifdove_run(circuit, sizeof circuit, record, words, 1), SERIFDOVE_WRONG_PHASE, 0, 0, 0);
    expect("latch", serifdove_latch(circuit, sizeof circuit, record, words, inputs, SERIFDOVE_INPUT_WORD_COUNT, 5), 0, 0, 0, 0);
    expect_word("phase", record[SERIFDOVE_PHASE], 1);
    expect_word("e", record[SERIFDOVE_E], 5);
    expect_word("I2", record[SERIFDOVE_I(2)], 1);
    expect_word("AI8", record[SERIFDOVE_AI(8)], 1000);
    expect("run", serifdove_run(circuit, sizeof circuit, record, words, UINT32_MAX), SERIFDOVE_ACCEPTED, 0, 1, 0);
    expect_word("blocks done", record[SERIFDOVE_DONE], 1);
    expect_word("block 1", record[SERIFDOVE_BLOCK_OUTPUT(1)], 1);
    expect("publish, null", serifdove_publish(circuit, sizeof circuit, record, words, NULL, 0), SERIFDOVE_OUTPUT_WORDS, 0, 0, 0);
    expect("publish", serifdove_publish(circuit, sizeof circuit, record, words, outputs, SERIFDOVE_OUTPUT_WORD_COUNT), 0, 0, 0, 0);
    expect_word("Q1", outputs[SERIFDOVE_Q(1)], 1);
    expect_word("AQ8", outputs[SERIFDOVE_AQ(8)], 0);
    record[SERIFDOVE_AM(64)] = 32768;
    expect("latch, not sound", serifdove_latch(circuit, sizeof circuit, record, words, inputs, SERIFDOVE_INPUT_WORD_COUNT, 5),
           SERIFDOVE_RECORD_NOT_SOUND, 0, 0, 0);
}

/* ---- rows */

static const char door[] = "16,8,0,129,3,1,\"Door 3, north\"\r\n";
static uint8_t text[64], read_again[64];

static serifdove_answer read_text(const char *rows, uint8_t *to, size_t room) {
    return serifdove_read_rows((const uint8_t *)rows, strlen(rows), to, room);
}

static void write_and_read_it(void) {
    const size_t bytes = 39;
    expect("write", serifdove_write_rows(circuit, sizeof circuit, text, sizeof text), SERIFDOVE_ACCEPTED, 0, bytes, 2);
    expect_word("text written", memcmp(text, "16,1,0,1,1,1,2,0,0,0,0,0,\r\n48,1,1,6,1\r\n", bytes), 0);
    expect("read", serifdove_read_rows(text, bytes, read_again, sizeof read_again), SERIFDOVE_ACCEPTED, 0, sizeof circuit, 2);
    expect_word("circuit read", memcmp(read_again, circuit, sizeof circuit), 0);
    expect("write, cut", serifdove_write_rows(circuit, sizeof circuit - 1, text, sizeof text), SERIFDOVE_CUT_SHORT, 31, 0, 0);
    expect("write, room short by one", serifdove_write_rows(circuit, sizeof circuit, text, bytes - 1), SERIFDOVE_NO_ROOM, 0, 0, 0);
    expect("write, null", serifdove_write_rows(circuit, sizeof circuit, NULL, 0), SERIFDOVE_NO_ROOM, 0, 0, 0);
}

static void read_rows(void) {
    expect("read, null", serifdove_read_rows(NULL, 0, read_again, 9), SERIFDOVE_ACCEPTED, 0, 9, 0);
    expect("read, no room", serifdove_read_rows(NULL, 0, NULL, 0), SERIFDOVE_NO_ROOM, 0, 0, 0);
    expect("read, a comma in a label", read_text(door, read_again, 33), SERIFDOVE_ACCEPTED, 0, 33, 1);
    expect_word("label read", memcmp(read_again + 14, "\040\0\015Door 3, north", 16), 0);
    expect("read, room short by one", read_text(door, read_again, 32), SERIFDOVE_NO_ROOM, 0, 0, 0);
    expect("read, quote", read_text("48,1,1,6,1\n\"", read_again, 64), SERIFDOVE_QUOTE, 2, 0, 0);
    expect("read, columns", read_text("48,1,1,6\n", read_again, 64), SERIFDOVE_TAG_KIND_OR_COLUMNS, 1, 0, 0);
    expect("read, number", read_text("48,1,1,6,x\n", read_again, 64), SERIFDOVE_NUMBER_OR_LABEL, 1, 0, 0);
}

static void read_too_many(void) {
    static const char one[] = "16,8,0,1,1,0,\n";
    static uint8_t many[(SERIFDOVE_MOST_BLOCKS + 1) * (sizeof one - 1)];
    for (size_t i = 0; i < sizeof many; i++)
        many[i] = (uint8_t)one[i % (sizeof one - 1)];
    expect("read, too many", serifdove_read_rows(many, sizeof many, NULL, 0), SERIFDOVE_TOO_MANY_BLOCKS, 0, 0, 0);
}

int main(void) {
    memset(outputs, -1, sizeof outputs);
    check_it();
    check_it_for_0ba6();
    start_it();
    scan_it();
    write_and_read_it();
    read_rows();
    read_too_many();
    if (failures == 0) {
        const serifdove_answer a = serifdove_check(circuit, sizeof circuit);
        printf("%zu %zu %zu %zu\n", a.number, a.place, a.first, a.second);
    }
    return failures == 0 ? 0 : 1;
}
