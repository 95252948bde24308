/* The suppliers' rows. Reading: a row is split once into its cells, which are judged and put together to its field; only where every
   row is good are they gone over again to write. Writing: each row is put into a buffer to learn its length, then into the text. */
#include "circuit.h"

#include <string.h>

enum { LF = 10, CR = 13, QUOTE = 34, COMMA = 44 };

/* ---- a row's cells */

enum { MOST_CELLS = 15 }; /* of a known kind: the multiplexer's */

typedef struct {
    const uint8_t *at;
    size_t length;  /* in the text, without the quotes around it */
    size_t doubled; /* how many of its quotes are doubled */
} cell;

typedef struct {
    cell cells[MOST_CELLS]; /* the first ones */
    size_t count;           /* of all of them */
} split_row;

/* How many bytes of a line end stand here. */
static size_t line_end(const uint8_t *at, const uint8_t *end) {
    if (*at == LF)
        return 1;
    return *at == CR && end - at > 1 && at[1] == LF ? 2 : 0;
}

static bool cell_ends(const uint8_t *at, const uint8_t *end) { return at == end || *at == COMMA || line_end(at, end) > 0; }

/* The cell that begins here without a quote; gives the place behind it, NULL where it holds a quote. */
static const uint8_t *plain_cell(const uint8_t *at, const uint8_t *end, cell *c) {
    c->at = at;
    c->doubled = 0;
    for (; !cell_ends(at, end); at++)
        if (*at == QUOTE)
            return NULL;
    c->length = (size_t)(at - c->at);
    return at;
}

/* The cell whose first quote stands here; gives the place behind it, NULL where it is not closed or a stray byte follows. */
static const uint8_t *quoted_cell(const uint8_t *at, const uint8_t *end, cell *c) {
    c->at = ++at;
    c->doubled = 0;
    for (; at < end; at++) {
        if (*at != QUOTE)
            continue;
        if (end - at == 1 || at[1] != QUOTE) {
            c->length = (size_t)(at - c->at);
            return cell_ends(at + 1, end) ? at + 1 : NULL;
        }
        c->doubled++;
        at++;
    }
    return NULL;
}

/* Splits the row that begins here; gives the place behind it, NULL where a quote is wrong. */
static const uint8_t *split(const uint8_t *at, const uint8_t *end, split_row *r) {
    for (r->count = 0;;) {
        cell surplus, *c = r->count < MOST_CELLS ? &r->cells[r->count] : &surplus;
        r->count++;
        at = at < end && *at == QUOTE ? quoted_cell(at, end, c) : plain_cell(at, end, c);
        if (at == NULL || at == end)
            return at;
        if (*at != COMMA)
            return at + line_end(at, end);
        at++;
    }
}

/* ---- what a row means */

/* A row's fields: that of the block or row, and the label's text where there is one. */
typedef struct {
    uint8_t bytes[3 + 2 + 3 * MOST_INPUTS + 4 * MOST_PARAMETERS];
    size_t length;
    const cell *label;
} row_fields;

/* Whether the cell says a number of this range in decimal; a minus may stand where the range begins below 0. */
static bool says(const cell *c, int64_t least, int64_t greatest, int64_t *number) {
    const uint8_t *at = c->at, *end = at + c->length;
    const bool minus = least < 0 && at < end && *at == '-';
    const int64_t most = minus ? -least : greatest;
    int64_t value = 0;
    at += minus;
    if (at == end)
        return false;
    for (; at < end; at++) {
        if (*at < '0' || *at > '9')
            return false;
        value = 10 * value + (*at - '0');
        if (value > most)
            return false;
    }
    *number = minus ? -value : value;
    return *number >= least;
}

/* Adds the cell's number to the field, in so many bytes; false where it does not fit. Four bytes are a parameter. */
static bool add_number(row_fields *f, const cell *c, unsigned width) {
    static const int64_t least[5] = {[4] = INT32_MIN}, greatest[5] = {[1] = 255, [2] = 65535, [4] = INT32_MAX};
    int64_t number;
    if (!says(c, least[width], greatest[width], &number))
        return false;
    for (unsigned i = width; i > 0; i--)
        f->bytes[f->length++] = (uint8_t)((uint64_t)number >> 8 * (i - 1));
    return true;
}

static bool add_connector(row_fields *f, const cell *c) { return add_number(f, c, 1) && add_number(f, c + 1, 2); }

static void begin_field(row_fields *f, unsigned tag, size_t content) {
    f->bytes[0] = (uint8_t)tag;
    f->bytes[1] = 0;
    f->bytes[2] = (uint8_t)content;
    f->length = 3;
    f->label = NULL;
}

static size_t label_length(const cell *label) { return label->length - label->doubled; }

/* Whether mark and label fit. */
static bool add_label(row_fields *f, const cell *mark, const cell *label) {
    int64_t marked;
    if (!says(mark, 0, 1, &marked))
        return false;
    if (marked == 0)
        return label->length == 0;
    f->label = label;
    return label_length(label) <= MOST_LABEL;
}

static bool add_block(row_fields *f, const kind_rule *rule, const cell *c) {
    const unsigned inputs = rule->digital + rule->analog;
    begin_field(f, BLOCK, content_length(rule));
    if (!add_number(f, c + 1, 1) || !add_number(f, c + 2, 1))
        return false;
    c += 3;
    for (unsigned i = 0; i < inputs; i++, c += 2)
        if (!add_connector(f, c))
            return false;
    for (unsigned i = 0; i < rule->parameters; i++, c++)
        if (!add_number(f, c, 4))
            return false;
    return add_label(f, c, c + 1);
}

static bool add_row(row_fields *f, const cell *c) {
    begin_field(f, ROW, ROW_CONTENT);
    return add_number(f, c + 1, 1) && add_number(f, c + 2, 1) && add_connector(f, c + 3);
}

/* The lowest number that holds for a row that is split, or 0. */
static unsigned meaning(const split_row *r, row_fields *f) {
    int64_t tag, kind;
    if (!says(&r->cells[0], BLOCK, ROW, &tag))
        return 31;
    if (tag == ROW)
        return r->count != 5 ? 31 : add_row(f, r->cells) ? 0 : 32;
    if (tag != BLOCK || r->count < 2 || !says(&r->cells[1], 1, KINDS, &kind))
        return 31;
    const kind_rule *rule = &oracle_kind_rules[kind];
    if (r->count != 3 + 2 * (rule->digital + rule->analog) + rule->parameters + 2)
        return 31;
    return add_block(f, rule, r->cells) ? 0 : 32;
}

/* ---- reading */

typedef struct {
    size_t rows, blocks, bytes; /* bytes: of all fields, header and end among them */
} totals;

enum { HEADER_FIELD = 6, END_FIELD = 3 }; /* bytes */

/* Judges the rows in turn and adds them up. */
static serifdove_answer judge_rows(const uint8_t *at, const uint8_t *end, totals *t) {
    split_row r;
    row_fields f;
    *t = (totals){.bytes = HEADER_FIELD + END_FIELD};
    while (at != end) {
        t->rows++;
        at = split(at, end, &r);
        const unsigned number = at == NULL ? 30 : meaning(&r, &f);
        if (number != 0)
            return refused(number, t->rows);
        t->blocks += f.bytes[0] == BLOCK;
        t->bytes += f.length + (f.label == NULL ? 0 : 3 + label_length(f.label));
    }
    return accepted(0, 0);
}

/* The label's field, doubled quotes undone. */
static uint8_t *write_label(uint8_t *to, const cell *label) {
    *to++ = LABEL;
    *to++ = 0;
    *to++ = (uint8_t)label_length(label);
    for (size_t i = 0; i < label->length; i++) {
        *to++ = label->at[i];
        i += label->at[i] == QUOTE;
    }
    return to;
}

/* The fields of rows that are good. */
static void write_fields(const uint8_t *at, const uint8_t *end, const totals *t, uint8_t *to) {
    const uint8_t header[HEADER_FIELD] = {HEADER, 0, 3, 1, (uint8_t)(t->blocks >> 8), (uint8_t)t->blocks};
    const uint8_t last[END_FIELD] = {END, 0, 0};
    split_row r;
    row_fields f;
    memcpy(to, header, sizeof header);
    to += sizeof header;
    while (at != end) {
        at = split(at, end, &r);
        meaning(&r, &f);
        memcpy(to, f.bytes, f.length);
        to += f.length;
        if (f.label != NULL)
            to = write_label(to, f.label);
    }
    memcpy(to, last, sizeof last);
}

serifdove_answer oracle_read_rows(const uint8_t *text, size_t text_len, uint8_t *circuit, size_t circuit_len) {
    const uint8_t *end = text_len == 0 ? text : text + text_len; /* of an empty text the pointer may be null */
    totals t;
    const serifdove_answer judged = judge_rows(text, end, &t);
    if (judged.number != 0)
        return judged;
    if (t.blocks > MOST_BLOCKS)
        return refused(34, 0);
    if (t.bytes > circuit_len)
        return refused(33, 0);
    write_fields(text, end, &t, circuit);
    return accepted(t.bytes, t.rows);
}

/* ---- writing: each gives the place behind what it puts */

static uint8_t *put_decimal(uint8_t *to, int64_t number) {
    uint8_t digits[10];
    unsigned count = 0;
    uint32_t left = (uint32_t)(number < 0 ? -number : number);
    if (number < 0)
        *to++ = '-';
    do {
        digits[count++] = (uint8_t)('0' + left % 10);
        left /= 10;
    } while (left > 0);
    while (count > 0)
        *to++ = digits[--count];
    return to;
}

/* A number behind a comma. */
static uint8_t *put_next(uint8_t *to, int64_t number) {
    *to++ = COMMA;
    return put_decimal(to, number);
}

static uint8_t *put_connector(uint8_t *to, const uint8_t *bytes) { return put_next(put_next(to, bytes[0]), two_at(bytes + 1)); }

static bool wants_quotes(const uint8_t *text, size_t length) {
    for (size_t i = 0; i < length; i++)
        if (text[i] == COMMA || text[i] == QUOTE || text[i] == CR || text[i] == LF)
            return true;
    return false;
}

static uint8_t *put_text(uint8_t *to, const uint8_t *text, size_t length) {
    if (!wants_quotes(text, length)) {
        memcpy(to, text, length);
        return to + length;
    }
    *to++ = QUOTE;
    for (size_t i = 0; i < length; i++) {
        if (text[i] == QUOTE)
            *to++ = QUOTE;
        *to++ = text[i];
    }
    *to++ = QUOTE;
    return to;
}

static uint8_t *put_block(uint8_t *to, const uint8_t *content) {
    const kind_rule *rule = &oracle_kind_rules[content[0]];
    const unsigned inputs = rule->digital + rule->analog;
    to = put_next(put_next(put_decimal(to, BLOCK), content[0]), content[1]);
    for (unsigned i = 0; i < inputs; i++)
        to = put_connector(to, content + 2 + 3 * i);
    for (unsigned i = 0; i < rule->parameters; i++)
        to = put_next(to, parameter_at(rule, content, i));
    return to;
}

static uint8_t *put_row(uint8_t *to, const uint8_t *content) {
    to = put_next(put_next(put_decimal(to, ROW), content[0]), content[1]);
    return put_connector(to, content + 2);
}

/* The row of the block or row field at this place, which moves behind the field and the block's label. */
static uint8_t *put_field(uint8_t *to, const uint8_t *circuit, size_t *place) {
    const uint8_t *field = circuit + *place, *next = field + 3 + two_at(field + 1);
    to = field[0] == BLOCK ? put_block(to, field + 3) : put_row(to, field + 3);
    if (field[0] == BLOCK) {
        const bool labelled = next[0] == LABEL;
        to = put_next(to, labelled);
        *to++ = COMMA;
        if (labelled) {
            to = put_text(to, next + 3, two_at(next + 1));
            next += 3 + two_at(next + 1);
        }
    }
    *place = (size_t)(next - circuit);
    *to++ = CR;
    *to++ = LF;
    return to;
}

enum { LONGEST_ROW = 6 + 4 + MOST_INPUTS * 10 + MOST_PARAMETERS * 12 + 2 + 2 + 2 * MOST_LABEL + 2 };

serifdove_answer oracle_write_rows(const uint8_t *circuit, size_t circuit_len, uint8_t *text, size_t text_len) {
    known_circuit known;
    uint8_t one_row[LONGEST_ROW];
    size_t bytes = 0;
    const serifdove_answer judged = oracle_judge(&known, &oracle_limits_of_document_01, circuit, circuit_len);
    if (judged.number != 0)
        return judged;
    for (size_t place = HEADER_FIELD; circuit[place] != END;)
        bytes += (size_t)(put_field(one_row, circuit, &place) - one_row);
    if (bytes > text_len)
        return refused(33, 0);
    for (size_t place = HEADER_FIELD; circuit[place] != END;)
        text = put_field(text, circuit, &place);
    return accepted(bytes, judged.first + judged.second);
}
