#include "row_text.h"

#include "circuit.h"
#include "refusals.h"

#include <inttypes.h>
#include <stdlib.h>
#include <string.h>

/* ---- a row and its cells */

enum { MOST_CELLS = 16, GREATEST_BYTE = 255, GREATEST_TWO_BYTES = 65535, GREATEST_LABEL = 16 };

/* What is wrong with a row; faults that have the same number stand together. */
typedef enum {
    NO_FAULT,
    NOT_CLOSED,
    STRAY_BYTE,
    QUOTE_INSIDE,
    EMPTY_ROW,
    TAG_UNKNOWN,
    KIND_MISSING,
    KIND_UNKNOWN,
    WRONG_COUNT,
    EMPTY_CELL,
    NO_NUMBER,
    MINUS,
    TOO_LARGE,
    TOO_SMALL,
    MARK_UNKNOWN,
    LABEL_WITHOUT_MARK,
    LABEL_TOO_LONG
} fault;

/* Bytes of the text, from the first up to the end. */
typedef struct {
    size_t from, end;
} part;

typedef struct {
    part bytes;
    size_t line;            /* of the text, from 1, on which it begins */
    size_t count;           /* of its cells */
    part cells[MOST_CELLS]; /* the first of them, without the quotes around them */
    fault quotes;           /* what is wrong with its quotes */
    size_t cell;            /* where that is, from 1 */
    part mark;              /* and its bytes */
} row;

/* A text and how far it is read. */
typedef struct {
    const uint8_t *bytes;
    size_t length, at;
} reader;

/* The byte that is so far ahead; -1 behind the end. */
static int ahead(const reader *r, size_t distance) { return r->length - r->at > distance ? r->bytes[r->at + distance] : -1; }

/* How many bytes end a row here: 2 for CR LF, 1 for LF, else 0. */
static size_t line_end(const reader *r) { return ahead(r, 0) == '\n' ? 1 : ahead(r, 0) == '\r' && ahead(r, 1) == '\n' ? 2 : 0; }

static bool is_behind_cell(const reader *r) { return ahead(r, 0) < 0 || ahead(r, 0) == ',' || line_end(r) > 0; }

static void enter_fault(row *to, fault what, size_t from, size_t end) {
    to->quotes = what;
    to->cell = to->count + 1;
    to->mark = (part){from, end};
}

/* Reads up to the closing quote; false with a fault where it is none, or more stands behind it. */
static bool read_quoted(reader *r, row *to, part *cell) {
    const size_t opening = r->at++;
    cell->from = r->at;
    while (ahead(r, 0) >= 0 && (ahead(r, 0) != '"' || ahead(r, 1) == '"'))
        r->at += ahead(r, 0) == '"' ? 2 : 1;
    cell->end = r->at;
    if (ahead(r, 0) < 0) {
        enter_fault(to, NOT_CLOSED, opening, opening + 1);
        return false;
    }
    r->at++;
    if (!is_behind_cell(r))
        enter_fault(to, STRAY_BYTE, r->at, r->at + 1);
    return is_behind_cell(r);
}

static bool read_plain(reader *r, row *to, part *cell) {
    cell->from = r->at;
    while (!is_behind_cell(r) && ahead(r, 0) != '"')
        r->at++;
    cell->end = r->at;
    if (ahead(r, 0) == '"')
        enter_fault(to, QUOTE_INSIDE, r->at, r->at + 1);
    return ahead(r, 0) != '"';
}

/* Reads to the end of the line, so that a row with a fault in its quotes can be shown. */
static void skip_line(reader *r) {
    while (ahead(r, 0) >= 0 && line_end(r) == 0)
        r->at++;
}

/* Reads the row behind this one in its place; false where there is none. Behind a fault in its quotes it ends with the line. */
static bool read_row(reader *r, row *to) {
    const row before = *to;
    if (ahead(r, 0) < 0)
        return false;
    *to = (row){.bytes = {r->at, r->at}, .line = before.line};
    for (size_t i = before.bytes.from; i < r->at; i++)
        to->line += r->bytes[i] == '\n';
    for (bool goes_on = true; goes_on;) {
        part cell;
        goes_on = ahead(r, 0) == '"' ? read_quoted(r, to, &cell) : read_plain(r, to, &cell);
        if (to->count < MOST_CELLS)
            to->cells[to->count] = cell;
        to->count++;
        goes_on = goes_on && ahead(r, 0) == ',';
        r->at += goes_on;
    }
    if (to->quotes != NO_FAULT)
        skip_line(r);
    to->bytes.end = r->at;
    r->at += line_end(r);
    return true;
}

/* The row of this number, from 1; false where the reader here finds none, or something wrong with the quotes of an earlier one. */
static bool find_row(const uint8_t *text, size_t length, size_t number, row *found) {
    reader r = {text, length, 0};
    *found = (row){.line = 1};
    for (size_t i = 0; i < number; i++)
        if (found->quotes != NO_FAULT || !read_row(&r, found))
            return false;
    return number > 0;
}

/* ---- columns */

typedef enum { TAG_CELL, KIND_CELL, NUMBER_CELL, MARK_CELL, LABEL_CELL } sort_of_cell;

typedef struct {
    sort_of_cell sort;
    char name[40];
    int64_t least, greatest; /* of a number */
} column;

static column number_column(const char *name, int64_t least, int64_t greatest) {
    column c = {.sort = NUMBER_CELL, .least = least, .greatest = greatest};
    snprintf(c.name, sizeof c.name, "%s", name);
    return c;
}

/* Class or number of an input. */
static column input_column(const kind *k, size_t input, bool is_number) {
    column c = {.sort = NUMBER_CELL, .greatest = is_number ? GREATEST_TWO_BYTES : GREATEST_BYTE};
    const char *what = is_number ? "number" : "class";
    if (k->inputs[input][0] == 0)
        snprintf(c.name, sizeof c.name, "input %zu %s", input + 1, what);
    else
        snprintf(c.name, sizeof c.name, "%s %s", k->inputs[input], what);
    return c;
}

enum { CELLS_BEFORE_INPUTS = 3, CELLS_OF_OUTPUT_ROW = 5 };

/* How many cells a row of this kind has; an output row where the kind is null. */
static size_t columns_of(const kind *k) {
    return k == NULL ? CELLS_OF_OUTPUT_ROW : CELLS_BEFORE_INPUTS + 2 * count_of(k->inputs) + count_of(k->parameters) + 2;
}

static column output_column(size_t i) {
    static const char *const names[] = {"48", "destination class", "destination number", "connector class", "connector number"};
    column c = number_column(names[i], 0, i == CELLS_OF_OUTPUT_ROW - 1 ? GREATEST_TWO_BYTES : GREATEST_BYTE);
    c.sort = i == 0 ? TAG_CELL : NUMBER_CELL;
    return c;
}

/* The column of this place, from 0. */
static column column_at(const kind *k, unsigned kind_number, size_t i) {
    if (k == NULL)
        return output_column(i);
    const size_t inputs = 2 * count_of(k->inputs), parameters = count_of(k->parameters);
    column c = {.sort = i == 0 ? TAG_CELL : KIND_CELL};
    snprintf(c.name, sizeof c.name, "%u", i == 0 ? (unsigned)BLOCK_TAG : kind_number);
    if (i < 2)
        return c;
    if (i == 2)
        return number_column("option", 0, GREATEST_BYTE);
    i -= CELLS_BEFORE_INPUTS;
    if (i < inputs)
        return input_column(k, i / 2, i % 2 == 1);
    i -= inputs;
    if (i < parameters)
        return number_column(k->parameters[i], INT32_MIN, INT32_MAX);
    return i == parameters ? (column){.sort = MARK_CELL, .name = "mark"} : (column){.sort = LABEL_CELL, .name = "label"};
}

/* ---- what is wrong with a row */

typedef struct {
    fault what;
    size_t cell; /* from 1; 0: the row as a whole */
    part mark;   /* what is shown to be wrong */
    const kind *kind;
    unsigned kind_number;
    bool is_known; /* which columns it should have is known */
    column column; /* of the cell, where that is known */
} finding;

/* The decimal number in these bytes, from least to greatest. */
static fault read_decimal(const uint8_t *text, part p, int64_t least, int64_t greatest, int64_t *number) {
    const bool negative = p.from < p.end && text[p.from] == '-';
    if (p.from == p.end)
        return EMPTY_CELL;
    if (p.from + negative == p.end)
        return NO_NUMBER;
    *number = 0;
    for (size_t i = p.from + negative; i < p.end; i++) {
        if (text[i] < '0' || text[i] > '9')
            return NO_NUMBER;
        if (*number <= UINT32_MAX)
            *number = 10 * *number + (text[i] - '0');
    }
    *number = negative ? -*number : *number;
    if (negative && least == 0)
        return MINUS;
    return *number < least ? TOO_SMALL : *number > greatest ? TOO_LARGE : NO_FAULT;
}

static bool is_number(const uint8_t *text, part p, int64_t least, int64_t greatest, int64_t *number) {
    return read_decimal(text, p, least, greatest, number) == NO_FAULT;
}

/* Takes tag and kind of the row, as far as they are there. */
static void read_kind(const uint8_t *text, const row *of, finding *f) {
    int64_t number;
    if (of->count == 0 || !is_number(text, of->cells[0], 0, GREATEST_BYTE, &number))
        return;
    f->is_known = number == ROW_TAG;
    if (number != BLOCK_TAG || of->count < 2 || !is_number(text, of->cells[1], 0, GREATEST_BYTE, &number))
        return;
    f->kind_number = (unsigned)number;
    f->kind = kind_of(f->kind_number);
    f->is_known = f->kind != NULL;
}

static void enter(finding *f, fault what, size_t cell, part mark) {
    f->what = what;
    f->cell = cell;
    f->mark = mark;
    if (f->is_known && cell > 0 && cell <= columns_of(f->kind))
        f->column = column_at(f->kind, f->kind_number, cell - 1);
}

/* Whether these bytes, which begin with a cell or a comma and have no fault in their quotes, are empty cells and nothing else: commas
   and pairs of quotes that hold nothing. */
static bool are_empty_cells(const uint8_t *text, size_t from, size_t end) {
    while (from < end)
        if (text[from] == ',')
            from++;
        else if (text[from] == '"' && text[from + 1] == '"' && (from + 2 == end || text[from + 2] == ','))
            from += 2;
        else
            return false;
    return true;
}

/* A tag or kind that is unknown, a wrong number of cells. */
static void judge_form(const uint8_t *text, const row *of, finding *f) {
    int64_t tag;
    if (are_empty_cells(text, of->bytes.from, of->bytes.end))
        enter(f, EMPTY_ROW, 0, of->bytes);
    else if (!is_number(text, of->cells[0], 0, GREATEST_BYTE, &tag) || (tag != BLOCK_TAG && tag != ROW_TAG))
        enter(f, TAG_UNKNOWN, 1, of->cells[0]);
    else if (!f->is_known && of->count < 2)
        enter(f, KIND_MISSING, 0, of->bytes);
    else if (!f->is_known)
        enter(f, KIND_UNKNOWN, 2, of->cells[1]);
    else if (of->count != columns_of(f->kind))
        enter(f, WRONG_COUNT, 0, of->bytes);
}

/* How long the label is, two quotes counted as one. */
static size_t label_length(const uint8_t *text, part p) {
    size_t length = 0;
    for (size_t i = p.from; i < p.end; i += text[i] == '"' ? 2 : 1)
        length++;
    return length;
}

/* What is wrong with one cell of a row whose form is right. */
static fault judge_cell(const uint8_t *text, const row *of, const column *c, size_t i) {
    const part p = of->cells[i];
    int64_t number = 0;
    switch (c->sort) {
    case NUMBER_CELL:
        return read_decimal(text, p, c->least, c->greatest, &number);
    case MARK_CELL:
        return is_number(text, p, 0, 1, &number) ? NO_FAULT : MARK_UNKNOWN;
    case LABEL_CELL:
        if (is_number(text, of->cells[i - 1], 0, 0, &number) && p.from < p.end)
            return LABEL_WITHOUT_MARK;
        return label_length(text, p) > GREATEST_LABEL ? LABEL_TOO_LONG : NO_FAULT;
    default:
        return NO_FAULT;
    }
}

/* The first fault of the row, by the lowest number that holds for it. */
static finding judge_row(const uint8_t *text, const row *of) {
    finding f = {.what = NO_FAULT};
    read_kind(text, of, &f);
    if (of->quotes != NO_FAULT) {
        enter(&f, of->quotes, of->cell, of->mark);
        return f;
    }
    judge_form(text, of, &f);
    for (size_t i = 0; f.what == NO_FAULT && i < of->count; i++) {
        const column c = column_at(f.kind, f.kind_number, i);
        const fault what = judge_cell(text, of, &c, i);
        if (what != NO_FAULT)
            enter(&f, what, i + 1, of->cells[i]);
    }
    return f;
}

static size_t number_of(fault what) {
    return what == NO_FAULT       ? SERIFDOVE_ACCEPTED
           : what <= QUOTE_INSIDE ? SERIFDOVE_QUOTE
           : what <= WRONG_COUNT  ? SERIFDOVE_TAG_KIND_OR_COLUMNS
                                  : SERIFDOVE_NUMBER_OR_LABEL;
}

/* ---- how it is told */

static bool is_plain(uint8_t byte) { return ' ' <= byte && byte <= '~' && byte != '\\'; }

/* Prints these bytes, those that are no plain text as \xNN. */
static void print_part(FILE *to, const uint8_t *text, part p) {
    for (size_t i = p.from; i < p.end; i++)
        fprintf(to, is_plain(text[i]) ? "%c" : "\\x%02x", text[i]);
}

/* How many columns they take so. */
static size_t width_of(const uint8_t *text, size_t from, size_t end) {
    size_t width = 0;
    for (size_t i = from; i < end; i++)
        width += is_plain(text[i]) ? 1 : 4;
    return width;
}

/* Prints a word of the text in backquotes, cut where it is long. */
static void print_word(FILE *to, const uint8_t *text, part p) {
    enum { LONGEST = 40 };
    const bool is_long = p.end - p.from > LONGEST;
    fputc('`', to);
    print_part(to, text, (part){p.from, is_long ? p.from + LONGEST : p.end});
    fputs(is_long ? "..`" : "`", to);
}

/* Prints the row, or where it is long the part around the mark, and below it the mark, if that is not the whole row. */
static void print_row(FILE *to, const uint8_t *text, part bytes, part mark) {
    enum { LONGEST = 80, BEFORE = 40 };
    part p = bytes;
    if (p.from == p.end)
        return;
    if (p.end - p.from > LONGEST && mark.from - p.from > BEFORE)
        p.from = mark.from - BEFORE;
    if (p.end - p.from > LONGEST)
        p.end = p.from + LONGEST;
    fprintf(to, "    %s", p.from > bytes.from ? ".." : "");
    print_part(to, text, p);
    fputs(p.end < bytes.end ? "..\n" : "\n", to);
    if (mark.from == bytes.from && mark.end == bytes.end)
        return;
    const size_t end = mark.end < p.end ? mark.end : p.end, width = width_of(text, mark.from, end);
    fprintf(to, "    %*s", (int)(width_of(text, p.from, mark.from) + (p.from > bytes.from ? 2 : 0)), "");
    for (size_t i = 0; i < width || i == 0; i++)
        fputc('^', to);
    fputc('\n', to);
}

/* "16, 9, option, Trg class, Trg number, base, T, mark, label" */
static void print_columns(FILE *to, const finding *f) {
    for (size_t i = 0; i < columns_of(f->kind); i++)
        fprintf(to, "%s%s", i == 0 ? "" : ", ", column_at(f->kind, f->kind_number, i).name);
}

static void tell_number(FILE *to, const uint8_t *text, const finding *f) {
    static const char *const words[] = {[EMPTY_CELL] = "it is empty",
                                        [NO_NUMBER] = " is no number in decimal digits",
                                        [MINUS] = " has a minus, as only a parameter may",
                                        [TOO_LARGE] = " is too large",
                                        [TOO_SMALL] = " is too small"};
    if (f->what != EMPTY_CELL)
        print_word(to, text, f->mark);
    fprintf(to, "%s; expected is a whole number, %" PRId64 " to %" PRId64, words[f->what], f->column.least, f->column.greatest);
}

/* The faults that are told by words alone, behind the cell's own where it shows what is wrong. */
static const struct {
    bool shows_cell;
    const char *words;
} plain_faults[] = {
    [NOT_CLOSED] = {false, "the quote that opens it is never closed; expected is a closing quote behind its text"},
    [STRAY_BYTE] = {false, "more stands behind its closing quote; expected is a comma or the end of the row, or two quotes for one"},
    [QUOTE_INSIDE] = {false, "a quote stands in it; expected is a cell in quotes, with two quotes for one"},
    [EMPTY_ROW] = {false, "it is empty; expected is a block or an output row, and no blank line"},
    [TAG_UNKNOWN] = {true, " is no tag; expected is 16 for a block or 48 for an output row"},
    [KIND_MISSING] = {false, "it ends behind its tag; expected is a kind, " ALL_KINDS ", and the cells of that kind"},
    [KIND_UNKNOWN] = {true, " is no kind; expected is " ALL_KINDS},
    [MARK_UNKNOWN] = {true, " is no mark; expected is 1 and a label, or 0 and an empty cell"},
    [LABEL_WITHOUT_MARK] = {true, " stands behind mark 0; expected is an empty cell, or mark 1"},
};

static void tell_plain(FILE *to, const uint8_t *text, const finding *f) {
    if (plain_faults[f->what].shows_cell)
        print_word(to, text, f->mark);
    fputs(plain_faults[f->what].words, to);
}

/* What is wrong with the cell or the row, and what is expected. */
static void tell_fault(FILE *to, const uint8_t *text, const row *of, const finding *f) {
    switch (f->what) {
    case WRONG_COUNT:
        fprintf(to, "it has %zu cell%s; expected are %zu: ", of->count, plural(of->count), columns_of(f->kind));
        print_columns(to, f);
        break;
    case EMPTY_CELL:
    case NO_NUMBER:
    case MINUS:
    case TOO_LARGE:
    case TOO_SMALL:
        tell_number(to, text, f);
        break;
    case LABEL_TOO_LONG:
        fprintf(to, "it has %zu bytes; expected are at most %d (a letter outside ASCII has two or more)", label_length(text, f->mark),
                GREATEST_LABEL);
        break;
    default:
        tell_plain(to, text, f);
    }
}

/* Where the row ends without the empty cells behind those of its kind; its end, if there are none. */
static size_t own_end(const uint8_t *text, const row *of) {
    finding f = {.what = NO_FAULT};
    read_kind(text, of, &f);
    if (of->quotes != NO_FAULT || !f.is_known || of->count <= columns_of(f.kind))
        return of->bytes.end;
    const size_t last = of->cells[columns_of(f.kind) - 1].end, end = last + (text[last] == '"');
    return are_empty_cells(text, end, of->bytes.end) ? end : of->bytes.end;
}

/* Whether a comma inside a number may have parted a row that has empty cells behind its own: what stands as its label may then be its
   mark, 0 or 1, and the first of the empty cells its label. */
static bool may_be_parted(const uint8_t *text, const row *of) {
    finding f = {.what = NO_FAULT};
    int64_t number;
    read_kind(text, of, &f);
    return f.kind != NULL && own_end(text, of) < of->bytes.end && is_number(text, of->cells[columns_of(f.kind) - 1], 0, 1, &number);
}

/* Where the last row begins that is a block, or has a fault in its quotes, behind which no row is read; 0 if there is none. */
static size_t last_block(reader r) {
    size_t last = 0;
    for (row of = {.line = 1}; of.quotes == NO_FAULT && read_row(&r, &of);) {
        int64_t tag;
        if (of.quotes != NO_FAULT || (is_number(r.bytes, of.cells[0], 0, GREATEST_BYTE, &tag) && tag == BLOCK_TAG))
            last = of.bytes.from;
    }
    return last;
}

static bool begins_with(const uint8_t *text, size_t length, const char *head) {
    return length >= strlen(head) && memcmp(text, head, strlen(head)) == 0;
}

static const char byte_order_mark[] = "\xef\xbb\xbf";

/* Whether this byte stands in the cell with the fault, or before it in the row, where that is the first cell. */
static bool first_cell_holds(const uint8_t *text, const row *of, const finding *f, int byte) {
    return f->cell == 1 && memchr(text + of->bytes.from, byte, f->mark.end - of->bytes.from) != NULL;
}

/* Whether a CR without LF stands outside quotes in what is wrong; where that is a quote, in the row before it. */
static bool has_lone_cr(const uint8_t *text, const row *of, const finding *f) {
    const size_t from = number_of(f->what) == SERIFDOVE_QUOTE ? of->bytes.from : f->mark.from;
    bool quoted = false;
    for (size_t i = of->bytes.from; i < f->mark.end; i++) {
        quoted = quoted != (text[i] == '"');
        if (i >= from && !quoted && text[i] == '\r')
            return true;
    }
    return false;
}

/* What to do where the file as a whole seems to have another form; null if it has not. */
static const char *hint_on_form(const uint8_t *text, size_t length, const row *of, const finding *f) {
    if (of->bytes.from == 0 && begins_with(text, length, byte_order_mark))
        return "the file begins with a byte order mark (ef bb bf): save it as UTF-8 without one, or let rows --trim take it away";
    if (of->bytes.from == 0 &&
        (begins_with(text, length, "\xff\xfe") || begins_with(text, length, "\xfe\xff") || first_cell_holds(text, of, f, 0)))
        return "the file seems to be UTF-16: save it as UTF-8 without a byte order mark";
    if (first_cell_holds(text, of, f, ';'))
        return "semicolons seem to part the cells: export the file again with commas between them";
    if (first_cell_holds(text, of, f, '\t'))
        return "tabs seem to part the cells: export the file again with commas between them";
    if (has_lone_cr(text, of, f))
        return "the lines seem to end in CR alone, or in CR CR LF: save the file with CR LF or LF";
    return NULL;
}

/* What to do where a row has not the cells of its kind. */
static const char *hint_on_count(const uint8_t *text, const row *of, const finding *f) {
    if (of->count < columns_of(f->kind))
        return f->kind == NULL
                   ? "an output row has a class and a number twice: put in what is missing"
                   : "put in what is missing: an unused input is 0,0, and behind all stand 1 and a label, or 0 and an empty "
                     "cell, so that the row ends in a comma";
    if (may_be_parted(text, of))
        return "if a comma parts a number, write that without it, 1000 for 1,000; if 0 or 1 is the label, take the empty cells behind "
               "it away by hand";
    if (own_end(text, of) < of->bytes.end)
        return "empty cells stand behind its own, as spreadsheet programs put them there: let rows --trim take them away";
    return f->kind == NULL ? "an output row has no label: take the cells away that are too many"
                           : "put a label that holds a comma in quotes, as \"Door 3, north\", and write a number without one, 1000 for "
                             "1,000";
}

/* Whether these bytes begin with a letter, or with a byte outside ASCII. */
static bool is_letter(const uint8_t *text, part p) {
    return p.from < p.end && (('a' <= (text[p.from] | 0x20) && (text[p.from] | 0x20) <= 'z') || text[p.from] > '~');
}

/* Whether the cell with the fault goes over a line's end. */
static bool goes_over_lines(const uint8_t *text, const row *of) {
    const part p = of->cells[of->cell <= MOST_CELLS ? of->cell - 1 : 0];
    return memchr(text + p.from, '\n', p.end - p.from) != NULL;
}

/* What to do, by what seems to have been done; null if nothing is known. */
static const char *hint_of(const uint8_t *text, size_t length, const row *of, const finding *f) {
    const char *form = hint_on_form(text, length, of, f);
    if (form != NULL)
        return form;
    switch (f->what) {
    case STRAY_BYTE:
        return goes_over_lines(text, of)
                   ? "the cell goes over more than one line: where it should not, its own closing quote is missing; "
                     "else write each quote inside it twice"
                   : NULL;
    case EMPTY_ROW:
        return of->bytes.from < last_block((reader){text, length, 0})
                   ? "take the row away, if no block stood there; blocks are numbered in order, so look at what names the later ones"
                   : "take the row away, or let rows --trim do it";
    case TAG_UNKNOWN:
        return is_letter(text, f->mark) ? "take the row away, if it holds headings or a remark" : NULL;
    case WRONG_COUNT:
        return hint_on_count(text, of, f);
    case NO_NUMBER:
        return "write it in digits alone; spreadsheet programs may write 1000 as 1,000 or 1E+03, if the column has not the form of a "
               "plain number";
    default:
        return NULL;
    }
}

/* "row 2 (line 3 of the file)" */
static void print_place(FILE *to, size_t number, const row *of) { fprintf(to, "row %zu (line %zu of the file)", number, of->line); }

/* What the cell should hold, as far as that is known. */
static const char *cell_name(const finding *f) {
    if (f->cell == 1)
        return "tag";
    return f->what == KIND_UNKNOWN || f->column.sort == KIND_CELL ? "kind" : f->column.name;
}

static void tell_found(FILE *to, serifdove_answer answer, const uint8_t *text, const row *of, const finding *f) {
    fprintf(to, "  Refusal %zu at ", answer.number);
    print_place(to, answer.place, of);
    fprintf(to, ": %s.\n  ", refusal_meaning(answer.number));
    if (f->cell == 0)
        fprintf(to, "The row: ");
    else
        fprintf(to, "Cell %zu%s%s: ", f->cell, cell_name(f)[0] == 0 ? "" : ", ", cell_name(f));
    tell_fault(to, text, of, f);
    fprintf(to, ".\n");
    print_row(to, text, of->bytes, f->mark);
}

void tell_surplus_block(FILE *to, size_t most, const uint8_t *text, size_t length) {
    reader r = {text, length, 0};
    row of = {.line = 1}, surplus = of;
    size_t blocks = 0, number = 0;
    for (size_t i = 1; of.quotes == NO_FAULT && read_row(&r, &of); i++) {
        finding f = {.what = NO_FAULT};
        read_kind(text, &of, &f);
        blocks += f.kind != NULL;
        if (f.kind != NULL && blocks == most + 1) {
            number = i;
            surplus = of;
        }
    }
    if (number == 0)
        return;
    fprintf(to, "  There are %zu blocks; block %zu stands in ", blocks, most + 1);
    print_place(to, number, &surplus);
    fprintf(to, ".\n");
    print_row(to, text, surplus.bytes, surplus.bytes);
}

void tell_refused_rows(FILE *to, serifdove_answer answer, const uint8_t *text, size_t length) {
    row of;
    finding f = {.what = NO_FAULT};
    const char *hint = NULL;
    const bool is_row = find_row(text, length, answer.place, &of);
    if (is_row)
        f = judge_row(text, &of);
    if (is_row && f.what != NO_FAULT && number_of(f.what) == answer.number) {
        tell_found(to, answer, text, &of, &f);
        hint = hint_of(text, length, &of, &f);
    } else {
        fprintf(to, "  Refusal %zu", answer.number);
        if (answer.place > 0)
            fprintf(to, " at row %zu", answer.place);
        fprintf(to, ": %s.\n", refusal_meaning(answer.number));
    }
    if (answer.number == SERIFDOVE_TOO_MANY_BLOCKS)
        tell_surplus_block(to, SERIFDOVE_MOST_BLOCKS, text, length);
    fprintf(to, "  What to do: %s.\n", hint != NULL ? hint : refusal_cure(answer.number));
}

/* ---- what spreadsheet programs add */

/* Copies these bytes behind those that are left. */
static void keep(trimmed *t, uint8_t *to, const uint8_t *text, part p) {
    memcpy(to + t->length, text + p.from, p.end - p.from);
    t->length += p.end - p.from;
}

trimmed trim_rows(const uint8_t *text, size_t length, uint8_t *to) {
    trimmed t = {.had_mark = begins_with(text, length, byte_order_mark)};
    reader r = {text, length, t.had_mark ? strlen(byte_order_mark) : 0};
    const size_t block = last_block(r);
    row of = {.line = 1};
    while (of.quotes == NO_FAULT && read_row(&r, &of)) {
        const bool is_blank = of.quotes == NO_FAULT && are_empty_cells(text, of.bytes.from, of.bytes.end);
        const bool is_left = is_blank ? of.bytes.from < block : may_be_parted(text, &of);
        const size_t end = is_left ? of.bytes.end : own_end(text, &of);
        t.left_rows += is_left;
        t.blank_rows += is_blank && !is_left;
        t.cut_rows += end < of.bytes.end;
        if (is_blank && !is_left)
            continue;
        keep(&t, to, text, (part){of.bytes.from, end});
        keep(&t, to, text, (part){of.bytes.end, r.at});
    }
    keep(&t, to, text, (part){r.at, length});
    return t;
}

/* ---- the circuit of the rows */

static bool begins_row(uint8_t tag) { return tag == BLOCK_TAG || tag == ROW_TAG; }

/* From which row the field at this place was read; a label's is that of its block. 0 for the header. */
static size_t row_of_field(const uint8_t *bytes, size_t place) {
    size_t count = begins_row(bytes[place]);
    for (size_t at = 0; at < place; at += FIELD_HEAD + content_length(bytes + at))
        count += begins_row(bytes[at]);
    return count;
}

/* Finds the row from which the field at this place was read: its number; 0 where the reader here finds none. */
static size_t find_row_of_field(const circuit_source *of, size_t place, row *found) {
    const size_t number = place < of->length ? row_of_field(of->bytes, place) : 0;
    return find_row(of->text, of->text_length, number, found) ? number : 0;
}

void print_place_of_field(FILE *to, const circuit_source *of, size_t place) {
    row found;
    const size_t number = find_row_of_field(of, place, &found);
    if (number > 0)
        print_place(to, number, &found);
    else
        fprintf(to, "byte %zu%s", place, of->text == NULL ? "" : " of the circuit");
}

/* The kind of the block that begins here; null for another field. */
static const kind *kind_in(const uint8_t *field) { return field[0] == BLOCK_TAG ? kind_of(field[FIELD_HEAD]) : NULL; }

/* Cells of a row, from 1: the first and the last that a refusal is about; 0 where that is not known. */
typedef struct {
    size_t first, last;
} cells;

static cells cells_of_input(size_t input) { return (cells){CELLS_BEFORE_INPUTS + 2 * input + 1, CELLS_BEFORE_INPUTS + 2 * input + 2}; }

/* Those of an output row that a refusal by this number is about. */
static cells cells_of_output_row(size_t number) {
    return number == SERIFDOVE_DESTINATION ? (cells){2, 3} : number == SERIFDOVE_CONNECTOR ? (cells){4, 5} : (cells){0, 0};
}

static bool is_analog(const kind *k, size_t input) { return k->inputs[input][0] == 'A'; }

/* Puts in what no block is refused for: for an input hi or AI1, for a parameter 0, of a shift register 1. */
static void put_harmless(uint8_t *content, const kind *k, size_t i) {
    enum { HEAD = 2, INPUT = 3, PARAMETER = 4 };
    static const uint8_t hi[INPUT] = {3}, analog_input[INPUT] = {7, 0, 1};
    const uint8_t number[PARAMETER] = {0, 0, 0, content[0] == SHIFT_REGISTER};
    const size_t inputs = count_of(k->inputs);
    if (i < inputs)
        memcpy(content + HEAD + INPUT * i, is_analog(k, i) ? analog_input : hi, INPUT);
    else
        memcpy(content + HEAD + INPUT * inputs + PARAMETER * (i - inputs), number, PARAMETER);
}

/* Which of the block's inputs and parameters, from 0, check refuses: from the last on each is made harmless, until it answers
   otherwise. Their number, if none is found. */
static size_t refused_part(serifdove_answer answer, const uint8_t *bytes, size_t length, const kind *k) {
    const size_t count = count_of(k->inputs) + count_of(k->parameters);
    uint8_t *copy = malloc(length);
    size_t found = count;
    if (copy == NULL)
        return count;
    memcpy(copy, bytes, length);
    for (size_t i = count; i > 0 && found == count; i--) {
        put_harmless(copy + answer.place + FIELD_HEAD, k, i - 1);
        const serifdove_answer again = serifdove_check(copy, length);
        if (again.number != answer.number || again.place != answer.place)
            found = i - 1;
    }
    free(copy);
    return found;
}

/* Whether this parameter is T! of a stairway switch and above its T, or T!L and above T!. */
static bool is_above_the_time_before(const uint8_t *field, const kind *k, size_t parameter) {
    return field[FIELD_HEAD] == STAIRWAY_SWITCH && parameter >= WARNING_TIME &&
           parameter_at(field, k, parameter) > parameter_at(field, k, parameter - 1);
}

static cells refused_cells_of_block(serifdove_answer answer, const uint8_t *bytes, size_t length, const kind *k) {
    const size_t inputs = count_of(k->inputs), parameters = CELLS_BEFORE_INPUTS + 2 * inputs + 1;
    size_t part;
    switch (answer.number) {
    case SERIFDOVE_KIND_OR_OPTION:
        return (cells){CELLS_BEFORE_INPUTS, CELLS_BEFORE_INPUTS};
    case SERIFDOVE_INDEX_USED_TWICE:
        return (cells){parameters, parameters};
    default:
        part = refused_part(answer, bytes, length, k);
    }
    if (part == inputs + count_of(k->parameters))
        return (cells){0, 0};
    if (part < inputs)
        return cells_of_input(part);
    const size_t last = parameters + part - inputs;
    return (cells){last - is_above_the_time_before(bytes + answer.place, k, part - inputs), last};
}

/* The cells that check's refusal of this field is about. */
static cells refused_cells(serifdove_answer answer, const uint8_t *bytes, size_t length, const kind *k) {
    return k != NULL ? refused_cells_of_block(answer, bytes, length, k) : cells_of_output_row(answer.number);
}

/* The range of a parameter, by its name; that of a counter's thresholds is its own. */
static const char *range_of(unsigned kind_number, const char *name) {
    static const char *const ranges[][2] = {{"base", "0 to 2"},
                                            {"T", "0 to 9999 with base 0, else 0 to 5999"},
                                            {"T!", "0 to T"},
                                            {"T!L", "0 to T!"},
                                            {"index", "1 to 4"},
                                            {"bit", "1 to 8"},
                                            {"A", "-1000 to 1000"},
                                            {"B", "-10000 to 10000"},
                                            {"On", "-20000 to 20000"},
                                            {"Off", "-20000 to 20000"},
                                            {"Delta", "-20000 to 20000"}};
    if (kind_number == UP_DOWN_COUNTER)
        return "0 to 999999";
    for (size_t i = 0; i < sizeof ranges / sizeof *ranges; i++)
        if (strcmp(ranges[i][0], name) == 0)
            return ranges[i][1];
    return "-32768 to 32767";
}

/* What check expects of a parameter; of two times which must not be the longer one. */
static const char *expected_number(unsigned kind_number, cells c, const column *first) {
    if (c.first == c.last)
        return range_of(kind_number, first->name);
    return strcmp(first->name, "T") == 0 ? "a T! of at most T" : "a T!L of at most T!";
}

/* The connectors that an input takes, or an output row to this class of destination. */
static const char *connectors_of(const kind *k, size_t input, unsigned destination) {
    if (k == NULL && (destination < TO_Q || destination > TO_AM))
        return "a connector that docs/ROWS.md has, behind a destination that it has";
    if (k == NULL ? destination >= TO_AQ : is_analog(k, input))
        return "class 7, 8 or 9, and a number that this class has (docs/ROWS.md, Connectors)";
    return k == NULL ? "class 1 to 4 or 6, or inverted 129 to 132 or 134, and a number that this class has (docs/ROWS.md, Connectors)"
                     : "class 0 to 4 or 6, or inverted 129 to 132 or 134, and a number that this class has (docs/ROWS.md, Connectors)";
}

/* What check expects in these cells. */
static const char *expected_in(serifdove_answer answer, const uint8_t *field, const kind *k, cells c, const column *first) {
    switch (answer.number) {
    case SERIFDOVE_KIND_OR_OPTION:
        return "0, or for kinds " RETENTIVE_KINDS " also 1: retentive";
    case SERIFDOVE_CONNECTOR:
        return connectors_of(k, (c.first - CELLS_BEFORE_INPUTS - 1) / 2, field[FIELD_HEAD]);
    case SERIFDOVE_OWN_OR_LATER_BLOCK:
        return "the number of an earlier block";
    case SERIFDOVE_PARAMETER:
        return expected_number(field[FIELD_HEAD], c, first);
    case SERIFDOVE_DESTINATION:
        return "a destination that docs/ROWS.md has, and no earlier row";
    default:
        return "an index that no earlier block has, 1 to 4";
    }
}

/* These cells of the field's row, what is expected there, and the row with a mark below them. */
static void tell_cells(FILE *to, const uint8_t *field, const uint8_t *text, const row *of, cells c, const char *expected) {
    const kind *k = kind_in(field);
    const column first = column_at(k, field[FIELD_HEAD], c.first - 1), last = column_at(k, field[FIELD_HEAD], c.last - 1);
    const part one = of->cells[c.first - 1], other = of->cells[c.last - 1];
    const bool is_one = c.first == c.last;
    const part mark = {one.from - (!is_one && text[one.from - 1] == '"'), other.end + (!is_one && text[other.from - 1] == '"')};
    if (is_one)
        fprintf(to, "  Cell %zu, %s: ", c.first, first.name);
    else
        fprintf(to, "  Cells %zu and %zu, %s and %s: ", c.first, c.last, first.name, last.name);
    print_word(to, text, mark);
    fprintf(to, "; expected is %s.\n", expected);
    print_row(to, text, of->bytes, mark);
}

void tell_cells_of_field(FILE *to, const circuit_source *of, size_t place, size_t input, size_t number, const char *expected) {
    const uint8_t *field = of->bytes + place;
    const kind *k = kind_in(field);
    const cells c = k != NULL ? cells_of_input(input) : cells_of_output_row(number);
    row found;
    if (c.first > 0 && find_row_of_field(of, place, &found) > 0 && found.count == columns_of(k))
        tell_cells(to, field, of->text, &found, c, expected);
}

/* The cells that check's refusal is about, or the row alone, where they are not known. */
static void tell_refused_cells(FILE *to, serifdove_answer answer, const circuit_source *of, const row *found) {
    const uint8_t *field = of->bytes + answer.place;
    const kind *k = kind_in(field);
    const cells c = refused_cells(answer, of->bytes, of->length, k);
    if (c.first == 0 || found->count != columns_of(k)) {
        print_row(to, of->text, found->bytes, found->bytes);
        return;
    }
    const column first = column_at(k, field[FIELD_HEAD], c.first - 1);
    tell_cells(to, field, of->text, found, c, expected_in(answer, field, k, c, &first));
}

void tell_refused_circuit_of_rows(FILE *to, serifdove_answer answer, const circuit_source *of) {
    const bool too_early =
        answer.number == SERIFDOVE_NUMBER_OF_BLOCKS && answer.place < of->length && of->bytes[answer.place] == ROW_TAG;
    row found;
    fprintf(to, "  Refusal %zu at ", answer.number);
    print_place_of_field(to, of, answer.place);
    fprintf(to, ": %s.\n", too_early ? "an output row stands before a block" : refusal_meaning(answer.number));
    if (find_row_of_field(of, answer.place, &found) > 0) {
        tell_block(to, of->bytes, of->length, answer.place);
        tell_refused_cells(to, answer, of, &found);
    }
    fprintf(to, "  What to do: %s.\n",
            too_early ? "let all blocks (16) stand before the first output row (48)" : refusal_cure(answer.number));
}
