#include "wrong_sides.h"

#include "wrong_kinds.h"

#include <stdio.h>
#include <string.h>

static const side *const oracle = &sides[ORACLE];

/* ---- wrong answers and words */

static serifdove_answer counts_one_more(const uint8_t *circuit, size_t circuit_len, int32_t *record, size_t record_len,
                                        uint32_t c) {
    serifdove_answer answer = oracle->run(circuit, circuit_len, record, record_len, c);
    answer.first += answer.number == 0 && c > 400;
    return answer;
}

static serifdove_answer leaves_e(const uint8_t *circuit, size_t circuit_len, int32_t *record, size_t record_len, int32_t *outputs,
                                 size_t outputs_len) {
    const int32_t e = record_len > SERIFDOVE_E ? record[SERIFDOVE_E] : 0;
    const serifdove_answer answer = oracle->publish(circuit, circuit_len, record, record_len, outputs, outputs_len);
    if (answer.number == 0)
        record[SERIFDOVE_E] = e;
    return answer;
}

static serifdove_answer wrong_last_output(const uint8_t *circuit, size_t circuit_len, int32_t *record, size_t record_len,
                                          int32_t *outputs, size_t outputs_len) {
    const serifdove_answer answer = oracle->publish(circuit, circuit_len, record, record_len, outputs, outputs_len);
    if (answer.number == 0)
        outputs[SERIFDOVE_AQ(8)] += outputs[SERIFDOVE_AQ(8)] != 0;
    return answer;
}

static serifdove_answer stores_a_refused_e(const uint8_t *circuit, size_t circuit_len, int32_t *record, size_t record_len,
                                           const int32_t *inputs, size_t inputs_len, int32_t e) {
    const serifdove_answer answer = oracle->latch(circuit, circuit_len, record, record_len, inputs, inputs_len, e);
    if (answer.number == 23)
        record[SERIFDOVE_E] = e;
    return answer;
}

static serifdove_answer phase_before_soundness(const uint8_t *circuit, size_t circuit_len, int32_t *record, size_t record_len) {
    serifdove_answer answer = oracle->warm_start(circuit, circuit_len, record, record_len);
    if (answer.number == 21 && record[SERIFDOVE_PHASE] == 1)
        answer.number = 22;
    return answer;
}

static serifdove_answer starts_a_short_record(const uint8_t *circuit, size_t circuit_len, int32_t *record, size_t record_len) {
    const serifdove_answer answer = oracle->cold_start(circuit, circuit_len, record, record_len);
    if (answer.number == 20 && record_len > 0)
        record[record_len - 1] = ~record[record_len - 1];
    return answer;
}

/* ---- memory that may not be touched */

static void read_at(const void *slice, ptrdiff_t offset) { (void)*((const volatile uint8_t *)slice + offset); }

static void write_at(const void *slice) {
    volatile uint8_t *at = (volatile uint8_t *)(uintptr_t)slice;
    *at = *at;
}

static enum { NOWHERE, BEFORE, BEHIND } touched;

/* Reads the byte before or behind a slice of so many bytes. */
static void touch(const void *slice, size_t length) {
    if (slice != NULL)
        read_at(slice, touched == BEFORE ? -1 : (ptrdiff_t)length);
}

static serifdove_answer touches_circuit(const uint8_t *circuit, size_t circuit_len, int32_t *record, size_t record_len,
                                        uint32_t c) {
    touch(circuit, circuit_len);
    return oracle->run(circuit, circuit_len, record, record_len, c);
}

static serifdove_answer touches_record(const uint8_t *circuit, size_t circuit_len, int32_t *record, size_t record_len, uint32_t c) {
    touch(record, record_len * sizeof *record);
    return oracle->run(circuit, circuit_len, record, record_len, c);
}

static serifdove_answer touches_inputs(const uint8_t *circuit, size_t circuit_len, int32_t *record, size_t record_len,
                                       const int32_t *inputs, size_t inputs_len, int32_t e) {
    touch(inputs, inputs_len * sizeof *inputs);
    return oracle->latch(circuit, circuit_len, record, record_len, inputs, inputs_len, e);
}

static serifdove_answer touches_outputs(const uint8_t *circuit, size_t circuit_len, int32_t *record, size_t record_len,
                                        int32_t *outputs, size_t outputs_len) {
    touch(outputs, outputs_len * sizeof *outputs);
    return oracle->publish(circuit, circuit_len, record, record_len, outputs, outputs_len);
}

static serifdove_answer writes_circuit(const uint8_t *circuit, size_t circuit_len, int32_t *record, size_t record_len, uint32_t c) {
    if (circuit_len > 0)
        write_at(circuit);
    return oracle->run(circuit, circuit_len, record, record_len, c);
}

static serifdove_answer writes_inputs(const uint8_t *circuit, size_t circuit_len, int32_t *record, size_t record_len,
                                      const int32_t *inputs, size_t inputs_len, int32_t e) {
    if (inputs_len > 0)
        write_at(inputs);
    return oracle->latch(circuit, circuit_len, record, record_len, inputs, inputs_len, e);
}

/* ---- by name */

/* Calls that are not named stay as they are. */
static const struct {
    side wrong;
    int touched;
} all[] = {
    {{.name = "counts_one_more", .run = counts_one_more}, NOWHERE},
    {{.name = "leaves_e", .publish = leaves_e}, NOWHERE},
    {{.name = "wrong_last_output", .publish = wrong_last_output}, NOWHERE},
    {{.name = "stores_a_refused_e", .latch = stores_a_refused_e}, NOWHERE},
    {{.name = "phase_before_soundness", .warm_start = phase_before_soundness}, NOWHERE},
    {{.name = "starts_a_short_record", .cold_start = starts_a_short_record}, NOWHERE},
    {{.name = "reads_before_circuit", .run = touches_circuit}, BEFORE},
    {{.name = "reads_behind_circuit", .run = touches_circuit}, BEHIND},
    {{.name = "reads_before_record", .run = touches_record}, BEFORE},
    {{.name = "reads_behind_record", .run = touches_record}, BEHIND},
    {{.name = "reads_before_inputs", .latch = touches_inputs}, BEFORE},
    {{.name = "reads_behind_inputs", .latch = touches_inputs}, BEHIND},
    {{.name = "reads_before_outputs", .publish = touches_outputs}, BEFORE},
    {{.name = "reads_behind_outputs", .publish = touches_outputs}, BEHIND},
    {{.name = "writes_circuit", .run = writes_circuit}, NOWHERE},
    {{.name = "writes_inputs", .latch = writes_inputs}, NOWHERE},
};

bool make_wrong(side *archive, const char *name) {
    for (size_t i = 0; i < sizeof all / sizeof *all; i++)
        if (strcmp(all[i].wrong.name, name) == 0) {
            touched = all[i].touched;
            put_calls(archive, &all[i].wrong);
            return true;
        }
    return make_kinds_wrong(archive, name);
}

void print_wrong_names(void) {
    for (size_t i = 0; i < sizeof all / sizeof *all; i++)
        puts(all[i].wrong.name);
    print_wrong_kinds();
}
