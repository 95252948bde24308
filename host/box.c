#include "box.h"

#include "record_file.h"
#include "trace.h"

#include <errno.h>
#include <inttypes.h>
#include <stdlib.h>
#include <string.h>

bool open_box(box *b, uint8_t *bytes, size_t length) {
    memset(b->inputs, 0, sizeof b->inputs);
    memset(b->outputs, 0, sizeof b->outputs);
    b->bytes = bytes;
    b->published = false;
    b->trace = NULL;
    b->trace_error = 0;
    lay_out(&b->circuit, bytes, length);
    b->record_len = SERIFDOVE_RECORD_WORDS(b->circuit.n);
    b->record = calloc(b->record_len, sizeof *b->record);
    return b->record != NULL;
}

void close_box(box *b) {
    free(b->bytes);
    free(b->record);
}

bool is_in_scan(const box *b) { return b->record[SERIFDOVE_PHASE] != 0; }

unsigned blocks_to_go(const box *b) { return b->circuit.n - (unsigned)b->record[SERIFDOVE_DONE]; }

/* ---- the calls */

/* Has what was written of the trace in its file, whenever the process ends. */
static void flush_trace(box *b) {
    if (fflush(b->trace) != 0 && b->trace_error == 0)
        b->trace_error = errno;
}

/* What the call answered goes to the trace. */
static serifdove_answer traced(box *b, serifdove_answer answer) {
    if (b->trace != NULL) {
        trace_answer(b->trace, answer, b->record, b->record_len, b->outputs, SERIFDOVE_OUTPUT_WORD_COUNT);
        flush_trace(b);
    }
    return answer;
}

serifdove_answer cold_start(box *b) {
    if (b->trace != NULL)
        fputs("> cold\n", b->trace);
    return traced(b, serifdove_cold_start(b->bytes, b->circuit.length, b->record, b->record_len));
}

serifdove_answer warm_start(box *b) {
    if (b->trace != NULL)
        fputs("> warm\n", b->trace);
    return traced(b, serifdove_warm_start(b->bytes, b->circuit.length, b->record, b->record_len));
}

serifdove_answer latch(box *b, int32_t e) {
    if (b->trace != NULL) {
        fprintf(b->trace, "> latch %" PRId32, e);
        trace_words(b->trace, b->inputs, SERIFDOVE_INPUT_WORD_COUNT);
        fputc('\n', b->trace);
    }
    return traced(b, serifdove_latch(b->bytes, b->circuit.length, b->record, b->record_len, b->inputs, SERIFDOVE_INPUT_WORD_COUNT, e));
}

serifdove_answer run(box *b, uint32_t c) {
    if (b->trace != NULL)
        fprintf(b->trace, "> run %" PRIu32 "\n", c);
    return traced(b, serifdove_run(b->bytes, b->circuit.length, b->record, b->record_len, c));
}

serifdove_answer publish(box *b) {
    if (b->trace != NULL)
        fputs("> publish\n", b->trace);
    const serifdove_answer answer =
        serifdove_publish(b->bytes, b->circuit.length, b->record, b->record_len, b->outputs, SERIFDOVE_OUTPUT_WORD_COUNT);
    b->published = b->published || answer.number == SERIFDOVE_ACCEPTED;
    return traced(b, answer);
}

/* ---- the trace */

static void trace_lent(FILE *to, const char *head, const int32_t *words, size_t count) {
    fputs(head, to);
    trace_words(to, words, count);
    fputc('\n', to);
}

bool load(box *b, const char *path, message *why) {
    if (!load_record(path, b->bytes, b->circuit.length, b->record, b->record_len, why))
        return false;
    if (b->trace != NULL) {
        trace_lent(b->trace, "> rec", b->record, b->record_len);
        flush_trace(b);
    }
    return true;
}

bool begin_trace(box *b, const char *path, message *why) {
    FILE *to = fopen(path, "wx");
    if (to == NULL)
        return errno == EEXIST ? fail(why, "%s is there already and is not replaced: give the trace another name", shown(path).text)
                               : fail(why, "%s cannot be made: %s; a trace needs the name of a file that is not there yet",
                                      shown(path).text, strerror(errno));
    trace_circuit(to, b->bytes, b->circuit.length);
    trace_lent(to, "R", b->record, b->record_len);
    trace_lent(to, "O", b->outputs, SERIFDOVE_OUTPUT_WORD_COUNT);
    b->trace = to;
    b->trace_error = 0;
    flush_trace(b);
    return b->trace_error == 0 || end_trace(b, why);
}

bool end_trace(box *b, message *why) {
    FILE *to = b->trace;
    b->trace = NULL;
    fputs(".\n", to);
    if (fclose(to) != 0 && b->trace_error == 0)
        b->trace_error = errno;
    return b->trace_error == 0 || fail(why, "the trace could not be written whole: %s", strerror(b->trace_error));
}
