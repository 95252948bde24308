#include "trace.h"

#include <inttypes.h>

void trace_words(FILE *to, const int32_t *words, size_t count) {
    fprintf(to, " %zu", count);
    for (size_t i = 0; i < count; i++)
        fprintf(to, " %" PRId32, words[i]);
}

void trace_circuit(FILE *to, const uint8_t *bytes, size_t length) {
    fputs(length == 0 ? "C -" : "C ", to);
    for (size_t i = 0; i < length; i++)
        fprintf(to, "%02x", bytes[i]);
    fputc('\n', to);
}

void trace_answer(FILE *to, serifdove_answer answer, const int32_t *record, size_t record_len, const int32_t *outputs,
                  size_t outputs_len) {
    fprintf(to, "< %zu %zu %zu %zu", answer.number, answer.place, answer.first, answer.second);
    trace_words(to, record, record_len);
    trace_words(to, outputs, outputs_len);
    fputc('\n', to);
}
