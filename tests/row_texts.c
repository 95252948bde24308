#include "row_texts.h"

#include <inttypes.h>
#include <stdio.h>
#include <string.h>

/* ---- cells */

static row_cell *add_cell(row_cells *r, const void *bytes, size_t length) {
    row_cell *c = &r->cells[r->count++];
    if (length > 0)
        memcpy(c->bytes, bytes, length);
    c->length = length;
    c->sort = TEXT;
    return c;
}

void add_text(row_cells *r, const void *bytes, size_t length) { add_cell(r, bytes, length); }

static row_cell *add_decimal(row_cells *r, int32_t number) {
    char digits[16];
    return add_cell(r, digits, (size_t)snprintf(digits, sizeof digits, "%" PRId32, number));
}

void add_number(row_cells *r, int32_t number) { add_decimal(r, number)->sort = NUMBER; }

static void add_parameter(row_cells *r, int32_t number) { add_decimal(r, number)->sort = PARAMETER; }

static int32_t two_bytes(const uint8_t *at) { return at[0] << 8 | at[1]; }

static void add_connector(row_cells *r, const uint8_t *at) {
    add_number(r, at[0]);
    add_number(r, two_bytes(at + 1));
}

void block_cells(row_cells *r, const circuit *c, unsigned number) {
    const uint8_t *at = c->bytes + c->block[number], *behind = at + 3 + two_bytes(at + 1);
    const unsigned kind = at[3];
    r->count = 0;
    add_number(r, BLOCK);
    add_number(r, at[3]);
    add_number(r, at[4]);
    for (unsigned i = 0; i < inputs_of(kind); i++)
        add_connector(r, at + input_at(i));
    for (unsigned i = 0; i < shapes[kind].parameters; i++)
        add_parameter(r, parameter_of(c, number, i));
    add_number(r, behind[0] == LABEL);
    add_text(r, behind + 3, behind[0] == LABEL ? behind[2] : 0);
}

void output_row_cells(row_cells *r, const circuit *c, size_t place) {
    const uint8_t *at = c->bytes + place;
    r->count = 0;
    add_number(r, ROW);
    add_number(r, at[3]);
    add_number(r, at[4]);
    add_connector(r, at + 5);
}

/* ---- ways to write a text */

text_style style_of(unsigned k) {
    return (text_style){.quotes = k % 4, .ends = k / 4 % 3, .end_of_the_last = k / 12 % 2 == 0, .zeros = k / 24 % 2 == 1};
}

static void put_byte(row_text *t, int byte) { t->bytes[t->length++] = (uint8_t)byte; }

static bool holds(const row_cell *c, int byte) { return memchr(c->bytes, byte, c->length) != NULL; }

static bool has_quotes(const row_cell *c, chance *with, text_style style, bool before_lf) {
    if (holds(c, '"') || holds(c, ',') || holds(c, '\n') || (before_lf && c->length > 0 && c->bytes[c->length - 1] == '\r'))
        return true;
    switch (style.quotes) {
    case QUOTES_BY_PAPER:
        return holds(c, '\r');
    case QUOTES_FEWEST:
        return false;
    case QUOTES_SOME:
        return once_in(with, 2);
    default:
        return true;
    }
}

static void put_cell(row_text *t, const row_cell *c, bool quoted) {
    if (quoted)
        put_byte(t, '"');
    for (size_t i = 0; i < c->length; i++) {
        if (quoted && c->bytes[i] == '"')
            put_byte(t, '"');
        put_byte(t, c->bytes[i]);
    }
    if (quoted)
        put_byte(t, '"');
}

/* Zeros in front of the number now and then, and a minus before a parameter 0. */
static void add_zeros(row_cell *c, chance *with) {
    const size_t minus = c->bytes[0] == '-', zeros = once_in(with, 4) ? 1 + below(with, 20) : 0;
    memmove(c->bytes + minus + zeros, c->bytes + minus, c->length - minus);
    memset(c->bytes + minus, '0', zeros);
    c->length += zeros;
    if (c->sort == PARAMETER && c->length == 1 + zeros && c->bytes[zeros] == '0' && once_in(with, 2)) {
        c->bytes[0] = '-';
        c->bytes[c->length++] = '0';
    }
}

static void add_zeros_to(row_cells *r, chance *with) {
    for (unsigned i = 0; i < r->count; i++)
        if (r->cells[i].sort != TEXT)
            add_zeros(&r->cells[i], with);
}

void put_row_text(row_text *t, chance *with, const row_cells *r, text_style style) {
    const bool crlf = style.ends == ENDS_CRLF || (style.ends == ENDS_EITHER && once_in(with, 2));
    for (unsigned i = 0; i < r->count; i++) {
        if (i > 0)
            put_byte(t, ',');
        put_cell(t, &r->cells[i], has_quotes(&r->cells[i], with, style, i + 1 == r->count && !crlf));
    }
    if (crlf)
        put_byte(t, '\r');
    put_byte(t, '\n');
}

void drop_last_end(row_text *t) {
    t->length -= t->length > 0;
    t->length -= t->length > 0 && t->bytes[t->length - 1] == '\r';
}

void put_circuit_text(row_text *t, chance *with, const circuit *c, text_style style) {
    row_cells r;
    unsigned block = 0;
    t->length = 0;
    for (unsigned f = 0; f < c->fields; f++) {
        const unsigned tag = c->bytes[c->place[f]];
        if (tag != BLOCK && tag != ROW)
            continue;
        if (tag == BLOCK)
            block_cells(&r, c, ++block);
        else
            output_row_cells(&r, c, c->place[f]);
        if (style.zeros)
            add_zeros_to(&r, with);
        put_row_text(t, with, &r, style);
    }
    if (!style.end_of_the_last)
        drop_last_end(t);
}

void put_hard_labels(circuit *c, chance *with) {
    static const uint8_t hard[] = {'"', '"', '"', ',', ',', '\r', '\r', '\n', '\n', '-', '0', '1', ' ', 'a'};
    for (unsigned f = 0; f < c->fields; f++) {
        uint8_t *field = c->bytes + c->place[f];
        for (unsigned i = 0; field[0] == LABEL && i < field[2]; i++)
            if (once_in(with, 2))
                field[3 + i] = hard[below(with, sizeof hard)];
    }
}

/* ---- texts whose answer is known: a NOT without a label makes 17 bytes, a label 3 more than it is long, a row 8 */

#define GOOD(name, text, bytes, rows) name, text, sizeof text - 1, {0, 0, bytes, rows}
#define BAD(name, text, number, row) name, text, sizeof text - 1, {number, row, 0, 0}
#define LABELLED "16,8,0,1,1,1,"
#define UNLABELLED "16,8,0,1,1,0,"
#define DELAY "16,9,0,1,1,"
#define COUNTER_ROW "16,17,0,1,1,1,2,1,3,"
#define STAIRWAY_ROW "16,18,0,1,1,"
#define AMPLIFIER_ROW "16,19,0,7,1,"
#define QUOTES_16 "\"\"\"\"\"\"\"\"\"\"\"\"\"\"\"\""

static const struct {
    const char *name, *text;
    size_t length;
    serifdove_answer want;
} named[] = {
    {GOOD("empty", "", 9, 0)},
    {GOOD("a block", UNLABELLED, 17, 1)},
    {GOOD("LF behind it", UNLABELLED "\n", 17, 1)},
    {GOOD("CRLF behind it", UNLABELLED "\r\n", 17, 1)},
    {GOOD("a row", "48,1,1,6,1", 17, 1)},
    {GOOD("a row before a block", "48,1,1,6,1\n" UNLABELLED "\n", 25, 2)},
    {GOOD("numbers in quotes", "\"16\",\"8\",\"0\",\"1\",\"1\",\"0\",\"\"", 17, 1)},
    {GOOD("a comma in a label", LABELLED "\"Door 3, north\"\r\n", 33, 1)},
    {GOOD("a quote for a label", LABELLED "\"\"\"\"\n", 21, 1)},
    {GOOD("16 quotes for a label", LABELLED "\"" QUOTES_16 QUOTES_16 "\"\n", 36, 1)},
    {GOOD("line ends in a label", LABELLED "\"\r\n\n\r\"\n", 24, 1)},
    {GOOD("an empty label", LABELLED, 20, 1)},
    {GOOD("an empty label in quotes", LABELLED "\"\"", 20, 1)},
    {GOOD("no label in quotes", UNLABELLED "\"\"", 17, 1)},
    {GOOD("16 bytes for a label", LABELLED "1234567890123456", 36, 1)},
    {GOOD("CR for a label", LABELLED "\r", 21, 1)},
    {GOOD("CR before CRLF", LABELLED "a\r\r\n", 22, 1)},
    {GOOD("CR before a byte", LABELLED "\ra\n", 22, 1)},
    {GOOD("zeros in front", "0016,08,000,01,00001,01,", 20, 1)},
    {GOOD("the ends of parameters", DELAY "-2147483648,2147483647,0,", 25, 1)},
    {GOOD("minus 0", DELAY "-0,-000,0,", 25, 1)},
    {GOOD("the ends of numbers", "48,255,255,255,65535", 17, 1)},
    {GOOD("a counter", COUNTER_ROW "999999,0,0,", 31, 1)},
    {GOOD("a counter with parameters of any size", COUNTER_ROW "-2147483648,1000000,1,pallets\r\n", 41, 1)},
    {GOOD("a stairway switch", STAIRWAY_ROW "0,6,3,2,0,", 33, 1)},
    {GOOD("a stairway switch with times in any order", STAIRWAY_ROW "-1,2,2147483647,6,1,", 36, 1)},
    {GOOD("an amplifier", AMPLIFIER_ROW "-1000,10000,0,", 25, 1)},
    {GOOD("an amplifier with all that is allowed nowhere", "16,19,255,134,65535,-2147483648,2147483647,1,", 28, 1)},
    {BAD("a line end alone", "\n", 31, 1)},
    {BAD("CRLF alone", "\r\n", 31, 1)},
    {BAD("CR alone", "\r", 31, 1)},
    {BAD("a blank line", UNLABELLED "\n\n" UNLABELLED "\n", 31, 2)},
    {BAD("a blank line at the end", UNLABELLED "\r\n\r\n", 31, 2)},
    {BAD("CR behind a block", UNLABELLED "\r", 32, 1)},
    {BAD("CR between rows", UNLABELLED "\r" UNLABELLED, 31, 1)},
    {BAD("rows are not lines", LABELLED "\"\r\n\n\"\r\n48", 31, 2)},
    {BAD("a byte behind a quote", LABELLED "\"a\"b", 30, 1)},
    {BAD("CR behind a quote", LABELLED "\"a\"\r", 30, 1)},
    {BAD("a space behind a quote", LABELLED "\"a\" \n", 30, 1)},
    {BAD("a quote in a plain cell", LABELLED "a\"", 30, 1)},
    {BAD("a space before a quote", " \"16\",8", 30, 1)},
    {BAD("a quote alone", "\"", 30, 1)},
    {BAD("three quotes", "\"\"\"", 30, 1)},
    {BAD("an empty cell in quotes", "\"\"", 31, 1)},
    {BAD("not closed", LABELLED "\"a\n48,1,1,6,1\n", 30, 1)},
    {BAD("not closed in row 2", UNLABELLED "\n" LABELLED "\"a\n48,1,1,6,1\n", 30, 2)},
    {BAD("30 before 31", "x,1,\"", 30, 1)},
    {BAD("30 before 32", "48,x,1,6,\"1\"1", 30, 1)},
    {BAD("31 before 32", "48,x,1,6", 31, 1)},
    {BAD("the first row before 31", "48,x,1,6,1\nx\n", 32, 1)},
    {BAD("the first row before 30", "x\n\"", 31, 1)},
    {BAD("tag in the teens", "17,8,0,1,1,0,", 31, 1)},
    {BAD("tag of a label", "32,8", 31, 1)},
    {BAD("tag of a header", "1,1,1", 31, 1)},
    {BAD("tag 272", "272,8,0,1,1,0,", 31, 1)},
    {BAD("tag above 32 bits", "4294967312,8,0,1,1,0,", 31, 1)},
    {BAD("tag above 64 bits", "18446744073709551632,8,0,1,1,0,", 31, 1)},
    {BAD("minus before a tag", "-16,8,0,1,1,0,", 31, 1)},
    {BAD("a space before a tag", " 16,8,0,1,1,0,", 31, 1)},
    {BAD("an empty tag", ",8,0,1,1,0,", 31, 1)},
    {BAD("a tag alone", "16", 31, 1)},
    {BAD("the other tag alone", "48", 31, 1)},
    {BAD("a byte order mark", "\xEF\xBB\xBF" UNLABELLED, 31, 1)},
    {BAD("semicolons", "16;8;0;1;1;0;", 31, 1)},
    {BAD("a heading", "tag,kind,options\n" UNLABELLED, 31, 1)},
    {BAD("kind 0", "16,0,0,1,1,0,", 31, 1)},
    {BAD("kind 20", "16,20,0,1,1,0,", 31, 1)},
    {BAD("kind 255", "16,255,0,1,1,0,", 31, 1)},
    {BAD("kind 274", "16,274,0,1,1,0,6,3,2,0,", 31, 1)},
    {BAD("kind 275", "16,275,0,7,1,100,0,0,", 31, 1)},
    {BAD("kind 264", "16,264,0,1,1,0,", 31, 1)},
    {BAD("an empty kind", "16,,0,1,1,0,", 31, 1)},
    {BAD("minus before a kind", "16,-8,0,1,1,0,", 31, 1)},
    {BAD("a cell too few", "16,8,0,1,1,0", 31, 1)},
    {BAD("a cell too many", UNLABELLED ",", 31, 1)},
    {BAD("a comma behind a row", "48,1,1,6,1,", 31, 1)},
    {BAD("a counter with one input", "16,17,0,1,1,5,5,0,", 31, 1)},
    {BAD("a counter with one parameter", COUNTER_ROW "5,0,", 31, 1)},
    {BAD("a counter with three parameters", COUNTER_ROW "5,5,5,0,", 31, 1)},
    {BAD("a stairway switch with one time", STAIRWAY_ROW "0,6,0,", 31, 1)},
    {BAD("a stairway switch with two times", STAIRWAY_ROW "0,6,3,0,", 31, 1)},
    {BAD("a stairway switch with four times", STAIRWAY_ROW "0,6,3,2,1,0,", 31, 1)},
    {BAD("a stairway switch with two inputs", "16,18,0,1,1,0,0,0,6,3,2,0,", 31, 1)},
    {BAD("an amplifier without B", AMPLIFIER_ROW "100,0,", 31, 1)},
    {BAD("an amplifier with On and Off", AMPLIFIER_ROW "100,0,5,5,0,", 31, 1)},
    {BAD("an amplifier with two inputs", "16,19,0,7,1,7,2,100,0,0,", 31, 1)},
    {BAD("an empty number", "48,1,1,6,", 32, 1)},
    {BAD("option 256", "16,8,256,1,1,0,", 32, 1)},
    {BAD("class 256", "16,8,0,256,1,0,", 32, 1)},
    {BAD("number 65536", "16,8,0,1,65536,0,", 32, 1)},
    {BAD("destination class 256", "48,256,1,6,1", 32, 1)},
    {BAD("destination 256", "48,1,256,6,1", 32, 1)},
    {BAD("minus before a number", "16,8,0,1,-0,0,", 32, 1)},
    {BAD("plus before a number", "16,8,0,1,+1,0,", 32, 1)},
    {BAD("a space behind a number", "16,8,0,1,1 ,0,", 32, 1)},
    {BAD("a point in a number", "16,8,0,1,1.0,0,", 32, 1)},
    {BAD("a quote in a number", "16,8,0,1,\"1\"\"\",0,", 32, 1)},
    {BAD("a parameter too large", DELAY "0,2147483648,0,", 32, 1)},
    {BAD("Off of a counter too large", COUNTER_ROW "5,2147483648,0,", 32, 1)},
    {BAD("T!L too small", STAIRWAY_ROW "0,6,3,-2147483649,0,", 32, 1)},
    {BAD("T!L empty", STAIRWAY_ROW "0,6,3,,0,", 32, 1)},
    {BAD("A of an amplifier too small", AMPLIFIER_ROW "-2147483649,0,0,", 32, 1)},
    {BAD("B of an amplifier empty", AMPLIFIER_ROW "100,,0,", 32, 1)},
    {BAD("a parameter too small", DELAY "-2147483649,0,0,", 32, 1)},
    {BAD("minus alone", DELAY "-,0,0,", 32, 1)},
    {BAD("minus twice", DELAY "--1,0,0,", 32, 1)},
    {BAD("minus behind", DELAY "1-,0,0,", 32, 1)},
    {BAD("mark 2", "16,8,0,1,1,2,", 32, 1)},
    {BAD("an empty mark", "16,8,0,1,1,,", 32, 1)},
    {BAD("minus before a mark", "16,8,0,1,1,-0,", 32, 1)},
    {BAD("a label behind 0", UNLABELLED "a", 32, 1)},
    {BAD("17 bytes for a label", LABELLED "12345678901234567", 32, 1)},
    {BAD("17 quotes for a label", LABELLED "\"" QUOTES_16 QUOTES_16 "\"\"\"", 32, 1)},
};

void each_named_text(void (*each)(const char *name, const uint8_t *text, size_t length, serifdove_answer want)) {
    for (size_t i = 0; i < sizeof named / sizeof *named; i++)
        each(named[i].name, (const uint8_t *)named[i].text, named[i].length, named[i].want);
}
