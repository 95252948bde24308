/* The calls on a record. Each judges circuit and record afresh, in the order of the numbers, and then changes what it has to. */
#include "record.h"

#include <string.h>

/* ---- sound records */

static bool within(const int32_t *words, size_t count, int32_t least, int32_t greatest) {
    for (size_t i = 0; i < count; i++)
        if (words[i] < least || words[i] > greatest)
            return false;
    return true;
}

/* The greatest number word of a block: 0 where its kind has no use for it. */
static int32_t greatest_number(const uint8_t *content) {
    switch (content[0]) {
    case ON_DELAY:
    case OFF_DELAY:
    case STAIRWAY_SWITCH:
        return oracle_ticks(content);
    case SHIFT_REGISTER:
        return 255;
    case UP_DOWN_COUNTER:
        return MOST_COUNT;
    default:
        return 0;
    }
}

static bool sound_block(const uint8_t *content, const int32_t *own) {
    const kind_rule *rule = &oracle_kind_rules[content[0]];
    return within(own + OUTPUT, 1, rule->is_analog ? LEAST_VALUE : 0, rule->is_analog ? GREATEST_VALUE : 1) &&
           within(own + REMEMBERED, 1, 0, rule->remembered) && within(own + NUMBER, 1, 0, greatest_number(content));
}

static bool is_sound(const known_circuit *circuit, const int32_t *record) {
    if (!within(record + PHASE, 1, 0, 1) || !within(record + MARK, 1, 0, 1))
        return false;
    if (!within(record + DONE, 1, 0, record[PHASE] == IN_SCAN ? (int32_t)circuit->n : 0))
        return false;
    if (!within(record + ELAPSED, 1, 0, record[PHASE] == IN_SCAN ? 65535 : 0))
        return false;
    if (!within(record + FIRST_I, 24, 0, 1) || !within(record + FIRST_AI, 8, 0, 1000))
        return false;
    if (!within(record + FIRST_M, 64, 0, 1) || !within(record + FIRST_AM, 64, LEAST_VALUE, GREATEST_VALUE))
        return false;
    for (unsigned k = 1; k <= circuit->n; k++)
        if (!sound_block(circuit->contents[k], record + block_words(k)))
            return false;
    return true;
}

/* ---- refusals that several calls share: the answer's number is 0 where there is none */

/* 1 to 11 and 20. */
static serifdove_answer judge_length(known_circuit *known, const uint8_t *circuit, size_t circuit_len, size_t record_len) {
    const serifdove_answer answer = oracle_judge(known, &oracle_limits_of_document_01, circuit, circuit_len);
    if (answer.number != 0)
        return answer;
    if (record_len != FIRST_BLOCK + WORDS_OF_A_BLOCK * (size_t)known->n)
        return refused(20, 0);
    return accepted(0, 0);
}

/* 1 to 11, 20, 21, and 22 where the record has not this phase. */
static serifdove_answer judge_record(known_circuit *known, const uint8_t *circuit, size_t circuit_len, const int32_t *record,
                                     size_t record_len, int32_t phase) {
    const serifdove_answer answer = judge_length(known, circuit, circuit_len, record_len);
    if (answer.number != 0)
        return answer;
    if (!is_sound(known, record))
        return refused(21, 0);
    if (record[PHASE] != phase)
        return refused(22, 0);
    return answer;
}

/* ---- starts */

static void begin_all_but_blocks(int32_t *record) {
    memset(record, 0, FIRST_BLOCK * sizeof *record);
    record[MARK] = 1;
    record[FIRST_M + 8 - 1] = 1;
}

serifdove_answer oracle_cold_start(const uint8_t *circuit, size_t circuit_len, int32_t *record, size_t record_len) {
    known_circuit known;
    const serifdove_answer answer = judge_length(&known, circuit, circuit_len, record_len);
    if (answer.number != 0)
        return answer;
    begin_all_but_blocks(record);
    memset(record + FIRST_BLOCK, 0, (record_len - FIRST_BLOCK) * sizeof *record);
    return answer;
}

serifdove_answer oracle_warm_start(const uint8_t *circuit, size_t circuit_len, int32_t *record, size_t record_len) {
    known_circuit known;
    const serifdove_answer answer = judge_record(&known, circuit, circuit_len, record, record_len, WAITING);
    if (answer.number != 0)
        return answer;
    begin_all_but_blocks(record);
    for (unsigned k = 1; k <= known.n; k++)
        if ((known.contents[k][1] & 1) == 0)
            memset(record + block_words(k), 0, WORDS_OF_A_BLOCK * sizeof *record);
    return answer;
}

/* ---- a scan */

serifdove_answer oracle_latch(const uint8_t *circuit, size_t circuit_len, int32_t *record, size_t record_len, const int32_t *inputs,
                              size_t inputs_len, int32_t e) {
    known_circuit known;
    const serifdove_answer answer = judge_record(&known, circuit, circuit_len, record, record_len, WAITING);
    if (answer.number != 0)
        return answer;
    if (inputs_len != 32 || !within(inputs, 24, 0, 1) || !within(inputs + 24, 8, 0, 1000) || !within(&e, 1, 0, 65535))
        return refused(23, 0);
    memcpy(record + FIRST_I, inputs, 32 * sizeof *record);
    record[ELAPSED] = e;
    record[PHASE] = IN_SCAN;
    return answer;
}

serifdove_answer oracle_run(const uint8_t *circuit, size_t circuit_len, int32_t *record, size_t record_len, uint32_t c) {
    known_circuit known;
    const serifdove_answer answer = judge_record(&known, circuit, circuit_len, record, record_len, IN_SCAN);
    if (answer.number != 0)
        return answer;
    const unsigned done = (unsigned)record[DONE], left = known.n - done, turn = c < left ? c : left;
    for (unsigned k = done + 1; k <= done + turn; k++)
        oracle_work_out(known.contents[k], record, record + block_words(k));
    record[DONE] = (int32_t)(done + turn);
    return accepted(turn, left - turn);
}

/* All rows read the words as they were; then the flags are written. */
static void publish_rows(const known_circuit *circuit, int32_t *record, int32_t *outputs) {
    int32_t flags[64 + 64] = {0};
    int32_t *const shown[] = {[Q] = outputs, [M] = flags, [AQ] = outputs + 20, [AM] = flags + 64};
    memset(outputs, 0, 28 * sizeof *outputs);
    for (unsigned i = 0; i < circuit->rows; i++) {
        const row r = row_at(circuit->first_row + ROW_FIELD * (size_t)i);
        shown[r.class][r.number - 1] = oracle_value(record, r.source);
    }
    if (record[MARK])
        flags[8 - 1] = 0;
    memcpy(record + FIRST_M, flags, sizeof flags);
}

serifdove_answer oracle_publish(const uint8_t *circuit, size_t circuit_len, int32_t *record, size_t record_len, int32_t *outputs,
                                size_t outputs_len) {
    known_circuit known;
    const serifdove_answer answer = judge_record(&known, circuit, circuit_len, record, record_len, IN_SCAN);
    if (answer.number != 0)
        return answer;
    if (record[DONE] != (int32_t)known.n)
        return refused(22, 0);
    if (outputs_len != 28)
        return refused(24, 0);
    publish_rows(&known, record, outputs);
    record[MARK] = record[PHASE] = record[DONE] = record[ELAPSED] = 0;
    return answer;
}
