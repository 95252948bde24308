#include "record_file.h"
#include "serifdove.h"

#include <inttypes.h>
#include <stdio.h>
#include <stdlib.h>
#include <string.h>

static const char head[] = "serifdove record ", sum_head[] = "sum ";

enum {
    MOST_WORDS = SERIFDOVE_RECORD_WORDS(SERIFDOVE_MOST_BLOCKS),
    SUM_DIGITS = 8,
    SUM_LINE = sizeof sum_head - 1 + SUM_DIGITS + 1,
    /* for all lines without the words, and for a word with its space */
    LINES_ROOM = 256,
    WORD_ROOM = sizeof " -2147483648" - 1,
    MOST_BYTES = LINES_ROOM + MOST_WORDS * WORD_ROOM
};

/* ---- the sum */

typedef struct {
    char digits[SUM_DIGITS + 1];
} sum_text;

/* The CRC-32 of IEEE 802.3, lowest bit first. */
static uint32_t crc_of(const uint8_t *bytes, size_t length) {
    uint32_t crc = UINT32_MAX;
    for (size_t i = 0; i < length; i++) {
        crc ^= bytes[i];
        for (unsigned bit = 0; bit < 8; bit++)
            crc = crc >> 1 ^ (crc & 1 ? 0xEDB88320u : 0);
    }
    return ~crc;
}

static sum_text sum_of(const uint8_t *bytes, size_t length) {
    sum_text sum;
    snprintf(sum.digits, sizeof sum.digits, "%08" PRIx32, crc_of(bytes, length));
    return sum;
}

/* ---- saving: the text */

/* The whole file, which the caller frees; NULL where there is no memory. */
static char *text_of(const uint8_t *circuit, size_t circuit_len, const int32_t *record, size_t record_len, size_t *length) {
    const size_t room = LINES_ROOM + record_len * WORD_ROOM;
    char *text = malloc(room);
    if (text == NULL)
        return NULL;
    size_t at = (size_t)snprintf(text, room, "%s1\ncircuit %zu %s\nrecord %zu", head, circuit_len, sum_of(circuit, circuit_len).digits,
                                 record_len);
    for (size_t i = 0; i < record_len; i++)
        at += (size_t)snprintf(text + at, room - at, " %" PRId32, record[i]);
    text[at++] = '\n';
    at += (size_t)snprintf(text + at, room - at, "%s%s\n", sum_head, sum_of((const uint8_t *)text, at).digits);
    *length = at;
    return text;
}

/* ---- saving: the file */

static const file_sort record_files = {"record file", "record", {head}, sizeof head - 1, true};

bool save_record(const char *path, const uint8_t *circuit, size_t circuit_len, const int32_t *record, size_t record_len, message *why) {
    if (record_len > MOST_WORDS)
        return fail(why, "%s is as it was: a record has at most %d words, this one has %zu", shown(path).text, MOST_WORDS, record_len);
    size_t length = 0;
    char *text = text_of(circuit, circuit_len, record, record_len, &length);
    if (text == NULL)
        return fail(why, "%s is as it was: there is no memory", shown(path).text);
    const bool saved = write_file(path, &record_files, text, length, why);
    free(text);
    return saved;
}

/* ---- loading: the frame */

/* A file as it is judged: what is still to be read begins at `at`. */
typedef struct {
    const char *path;
    const uint8_t *bytes;
    size_t length, at;
    message *why;
} text;

static bool is_next(const text *t, const char *word) {
    const size_t length = strlen(word);
    return t->length - t->at >= length && memcmp(t->bytes + t->at, word, length) == 0;
}

static bool is_digit(uint8_t byte) { return '0' <= byte && byte <= '9'; }

static bool is_sum_digit(uint8_t byte) { return is_digit(byte) || ('a' <= byte && byte <= 'f'); }

/* How many bytes that are digits follow. */
static size_t digits_next(const text *t, bool (*digit)(uint8_t)) {
    size_t count = 0;
    while (t->at + count < t->length && digit(t->bytes[t->at + count]))
        count++;
    return count;
}

/* The first line: what the file is, and its version. */
static bool judge_head(text *t) {
    if (!is_next(t, head))
        return fail(t->why, "%s is no record file: it does not begin with '%s'", t->path, head);
    t->at += strlen(head);
    const size_t digits = digits_next(t, is_digit), end = t->at + digits;
    if (end == t->length)
        return fail(t->why, "%s is cut short: it ends in its first line", t->path);
    if (digits == 0 || t->bytes[end] != '\n')
        return fail(t->why, "%s is damaged: its version is no number; 1 is expected", t->path);
    if (!is_next(t, "1\n"))
        return fail(t->why, "%s is a record file of version %.*s; version 1 is expected", t->path, (int)(digits > 20 ? 20 : digits),
                    t->bytes + t->at);
    t->at = end + 1;
    return true;
}

static void skip_line(text *t) {
    const uint8_t *end = memchr(t->bytes + t->at, '\n', t->length - t->at);
    t->at = end == NULL ? t->length : (size_t)(end - t->bytes) + 1;
}

/* The last line: that all bytes are there, as they were written. What is then to be read ends before it. */
static bool judge_sum(text *t) {
    text last = *t;
    while (last.at < last.length && !is_next(&last, sum_head))
        skip_line(&last);
    const size_t place = last.at, rest = last.length - place;
    if (rest == 0)
        return fail(t->why, "%s is cut short: its last line, '%sSUM', is missing", t->path, sum_head);
    if (rest < SUM_LINE)
        return fail(t->why, "%s is cut short: it ends in its last line, '%sSUM'", t->path, sum_head);
    last.at += strlen(sum_head);
    if (digits_next(&last, is_sum_digit) != SUM_DIGITS || last.bytes[place + SUM_LINE - 1] != '\n')
        return fail(t->why, "%s is damaged: its sum is not eight hexadecimal digits and a line end", t->path);
    if (rest > SUM_LINE)
        return fail(t->why, "%s is damaged: behind its last line there %s %zu byte%s; none is expected", t->path,
                    rest - SUM_LINE == 1 ? "is" : "are", rest - SUM_LINE, plural(rest - SUM_LINE));
    const sum_text sum = sum_of(t->bytes, place);
    if (!is_next(&last, sum.digits))
        return fail(t->why, "%s is damaged: its sum is %.8s, that of its bytes is %s", t->path, (const char *)last.bytes + last.at,
                    sum.digits);
    t->length = place;
    return true;
}

/* ---- loading: the lines between */

/* What the lines between say. Words behind the most that a record has are counted and not kept. */
typedef struct {
    int64_t circuit_len, count;
    sum_text circuit_sum;
    int32_t words[MOST_WORDS];
} contents;

static bool malformed(const text *t, const char *expected) {
    return fail(t->why, "%s is malformed: at byte %zu %s is expected", t->path, t->at, expected);
}

static bool take(text *t, const char *word, const char *expected) {
    if (!is_next(t, word))
        return malformed(t, expected);
    t->at += strlen(word);
    return true;
}

/* A decimal number in this range, in one way: no zeros lead, and zero has no sign. */
static bool take_number(text *t, int64_t least, int64_t greatest, int64_t *number) {
    enum { MOST_DIGITS = 10 };
    text from = *t;
    const bool negative = is_next(&from, "-");
    from.at += negative;
    const size_t digits = digits_next(&from, is_digit);
    const bool zero_leads = digits > 0 && from.bytes[from.at] == '0' && (digits > 1 || negative);
    int64_t value = 0;
    for (size_t i = 0; i < digits && i < MOST_DIGITS; i++)
        value = 10 * value + (from.bytes[from.at + i] - '0');
    value = negative ? -value : value;
    if (digits == 0 || digits > MOST_DIGITS || zero_leads || value < least || value > greatest)
        return malformed(t, "a decimal number in its range");
    t->at = from.at + digits;
    *number = value;
    return true;
}

static bool take_sum(text *t, sum_text *sum) {
    if (digits_next(t, is_sum_digit) != SUM_DIGITS)
        return malformed(t, "a sum of eight hexadecimal digits");
    memcpy(sum->digits, t->bytes + t->at, SUM_DIGITS);
    sum->digits[SUM_DIGITS] = 0;
    t->at += SUM_DIGITS;
    return true;
}

static bool take_words(text *t, contents *c) {
    for (int64_t i = 0; i < c->count; i++) {
        int64_t word;
        if (!take(t, " ", "a space and a word, as many as the line says,") || !take_number(t, INT32_MIN, INT32_MAX, &word))
            return false;
        if (i < MOST_WORDS)
            c->words[i] = (int32_t)word;
    }
    return true;
}

static bool take_contents(text *t, contents *c) {
    if (!take(t, "circuit ", "the line 'circuit LENGTH SUM'") || !take_number(t, 0, UINT32_MAX, &c->circuit_len) ||
        !take(t, " ", "a space and a sum") || !take_sum(t, &c->circuit_sum) || !take(t, "\n", "a line end") ||
        !take(t, "record ", "the line 'record COUNT WORD..'") || !take_number(t, 0, UINT32_MAX, &c->count) || !take_words(t, c) ||
        !take(t, "\n", "a line end"))
        return false;
    return t->at == t->length || malformed(t, "the line 'sum SUM'");
}

/* ---- loading: whether it is a record of this circuit */

static bool judge_contents(const char *path, const uint8_t *circuit, size_t circuit_len, size_t record_len, const contents *c,
                           message *why) {
    const sum_text sum = sum_of(circuit, circuit_len);
    if ((uint64_t)c->circuit_len != circuit_len || strcmp(c->circuit_sum.digits, sum.digits) != 0)
        return fail(why, "%s is of another circuit, with %" PRId64 " bytes and sum %s; this one has %zu bytes and sum %s", path,
                    c->circuit_len, c->circuit_sum.digits, circuit_len, sum.digits);
    if ((uint64_t)c->count != record_len || record_len > MOST_WORDS)
        return fail(why, "%s has %" PRId64 " words; the record of this circuit has %zu", path, c->count, record_len);
    int32_t copy[MOST_WORDS];
    memcpy(copy, c->words, record_len * sizeof *copy);
    const size_t number = serifdove_run(circuit, circuit_len, copy, record_len, 0).number;
    if (number == SERIFDOVE_RECORD_NOT_SOUND)
        return fail(why, "%s holds a record that is not sound for this circuit: a word is out of its range", path);
    if (number != SERIFDOVE_ACCEPTED && number != SERIFDOVE_WRONG_PHASE)
        return fail(why, "%s cannot be judged: a run of no blocks on it is refused with %zu", path, number);
    return true;
}

bool load_record(const char *path, const uint8_t *circuit, size_t circuit_len, int32_t *record, size_t record_len, message *why) {
    const shown_text name = shown(path);
    uint8_t *bytes;
    size_t length;
    contents c;
    if (!read_file(path, "a record", MOST_BYTES, &bytes, &length, why))
        return false;
    text t = {name.text, bytes, length, 0, why};
    const bool loaded = judge_head(&t) && judge_sum(&t) && take_contents(&t, &c) &&
                        judge_contents(name.text, circuit, circuit_len, record_len, &c, why);
    if (loaded)
        memcpy(record, c.words, record_len * sizeof *record);
    free(bytes);
    return loaded;
}
