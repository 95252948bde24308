#include "circuit_file.h"

#include "circuit.h"
#include "refusals.h"
#include "row_text.h"

#include <stdlib.h>
#include <string.h>

bool names_rows(const char *path) {
    static const char ending[] = ".csv";
    const size_t length = strlen(path), behind = sizeof ending - 1;
    if (length < behind)
        return false;
    for (size_t i = 0; i < behind; i++) {
        const char c = path[length - behind + i];
        if (c != ending[i] && !('A' <= c && c <= 'Z' && c - 'A' + 'a' == ending[i]))
            return false;
    }
    return true;
}

/* Which program wants the circuit of which file, and which series it must fit; null: none. */
typedef struct {
    const char *program, *path;
    const series *fit;
} wish;

static outcome not_read(const wish *w, const char *why) {
    fprintf(stderr, "%s: %s\n", w->program, why);
    return CIRCUIT_NOT_READ;
}

/* True if check accepts these bytes, which are then the circuit's. */
static bool is_circuit(uint8_t *bytes, size_t length, circuit_bytes *to, serifdove_answer *answer) {
    *answer = serifdove_check(bytes, length);
    *to = (circuit_bytes){bytes, length, answer->first, answer->second};
    return answer->number == SERIFDOVE_ACCEPTED;
}

/* Takes an accepted circuit, but one that does not fit the series: then it is told why not. */
static outcome take_fitting(const wish *w, const circuit_source *of) {
    const serifdove_answer answer = w->fit == NULL ? (serifdove_answer){0} : w->fit->check(of->bytes, of->length);
    if (answer.number == SERIFDOVE_ACCEPTED)
        return CIRCUIT_TAKEN;
    fprintf(stderr, "%s: the circuit %s %s does not fit %s; without --series it is accepted.\n", w->program,
            of->text == NULL ? "in" : "of the rows in", shown(w->path).text, w->fit->name);
    tell_misfit(stderr, w->fit, answer, of);
    return CIRCUIT_REFUSED;
}

/* Judges these bytes as a circuit. */
static outcome judge_bytes(const wish *w, uint8_t *bytes, size_t length, circuit_bytes *to) {
    serifdove_answer answer;
    if (is_circuit(bytes, length, to, &answer))
        return take_fitting(w, &(circuit_source){bytes, length, NULL, 0});
    fprintf(stderr, "%s: the circuit in %s is refused.\n", w->program, shown(w->path).text);
    tell_refused_circuit(stderr, answer, bytes, length);
    return CIRCUIT_REFUSED;
}

static outcome take_bytes(const wish *w, circuit_bytes *to) {
    uint8_t *bytes;
    size_t length;
    message why;
    if (!read_file(w->path, "a circuit", MOST_CIRCUIT_BYTES, &bytes, &length, &why))
        return not_read(w, why.text);
    const outcome o = judge_bytes(w, bytes, length, to);
    if (o != CIRCUIT_TAKEN)
        free(bytes);
    return o;
}

/* Reads the rows of this text into so many bytes, and judges the circuit. */
static outcome judge_text(const wish *w, const uint8_t *text, size_t length, uint8_t *bytes, size_t room, circuit_bytes *to) {
    serifdove_answer answer = serifdove_read_rows(text, length, bytes, room);
    const circuit_source of = {bytes, answer.first, text, length};
    if (answer.number != SERIFDOVE_ACCEPTED) {
        fprintf(stderr, "%s: the rows in %s are refused.\n", w->program, shown(w->path).text);
        tell_refused_rows(stderr, answer, text, length);
        return CIRCUIT_REFUSED;
    }
    if (is_circuit(bytes, of.length, to, &answer))
        return take_fitting(w, &of);
    fprintf(stderr, "%s: the circuit of the rows in %s is refused.\n", w->program, shown(w->path).text);
    tell_refused_circuit_of_rows(stderr, answer, &of);
    return CIRCUIT_REFUSED;
}

/* An output row's field is shorter than its text, and 400 blocks have less than MOST_CIRCUIT_BYTES: so there is always room. */
static outcome take_rows(const wish *w, circuit_bytes *to) {
    uint8_t *text;
    size_t length;
    message why;
    if (!read_file(w->path, "a text of rows", MOST_TEXT_BYTES, &text, &length, &why))
        return not_read(w, why.text);
    const size_t room = length + MOST_CIRCUIT_BYTES;
    uint8_t *bytes = malloc(room);
    const outcome o = bytes == NULL ? not_read(w, "there is no memory for the circuit") : judge_text(w, text, length, bytes, room, to);
    if (o != CIRCUIT_TAKEN)
        free(bytes);
    free(text);
    return o;
}

outcome take_circuit(const char *program, const char *path, const series *fit, circuit_bytes *to) {
    const wish w = {program, path, fit};
    return names_rows(path) ? take_rows(&w, to) : take_bytes(&w, to);
}
